#!/usr/bin/env bash
# Runs a study in shares by GNU parallel, on this machine or by ssh on others that see the same folder, and prints its table.
# `many_machines.sh` alone prints how it is used.
set -euo pipefail

usage() {
  cat >&2 <<'TEXT'
usage: many_machines.sh PLAN SHARES [WORD OF PARALLEL..] > table.csv

Runs the study of PLAN in SHARES shares, each into a file shareN.cut of this folder, joins them in study.cut, and prints the
table. The other words are GNU parallel's:

    many_machines.sh plan.json 8
    many_machines.sh plan.json 8 --sshlogin one,two --workdir "$PWD"

PIECE=4 sets the size of the blocks, which best divides the plan's repeats; it is 16 where it is not set.
The same command goes on after a stop from what the files hold. A share that fails ends the script; REST=here in front of
the command lets this machine run what the shares lack.
TEXT
  exit 2
}

fail() {
  echo "many_machines.sh: $*" >&2
  exit 1
}

[ $# -ge 2 ] || usage
plan=$1
shares=$2
shift 2
[[ $shares =~ ^[1-9][0-9]*$ ]] || usage
for program in cutlab parallel; do
  command -v "$program" >/dev/null || fail "$program is not on PATH"
done
cutlab check <"$plan" >/dev/null || fail "$plan: no plan"

log=$(mktemp)
trap 'rm -f "$log"' EXIT
export PARALLEL_SHELL=/bin/bash
share="cutlab share {}/$shares --piece ${PIECE:-16} share{}.cut < $(printf %q "$plan")"
seq "$shares" | parallel --joblog "$log" --tagstring "share{}.cut:" "$@" "$share" >&2 || true

# The log has a line for each share that was begun: its seventh column is the status of the share, or of ssh.
ended=$(awk -F '\t' 'NR > 1 && $7 == 0' "$log" | wc -l)
if [ "$ended" -ne "$shares" ] && [ "${REST:-}" != here ]; then
  fail "$((shares - ended)) of $shares shares did not end, and nothing was joined: see above. Give the command again, or with REST=here"
fi
files=()
for number in $(seq "$shares"); do
  if cutlab status "share$number.cut" >/dev/null 2>&1; then
    files+=("share$number.cut")
  fi
done
if [ ! -s study.cut ] && [ ${#files[@]} -gt 0 ]; then
  # A join that was killed has left a part of it.
  rm -f study.new
  cutlab join --which study.new "${files[@]}" <"$plan" >&2 || fail "the shares were not joined"
  mv study.new study.cut
fi
cutlab run --checkpoint study.cut <"$plan" || fail "study.cut: no table"
