#!/usr/bin/env bash
# Serves studies for as long as it is left running: serve_on.sh FOLDER [WORKERS]
# FOLDER gets the socket `cutlab.sock` and a folder `studies`, which keeps each study. A server takes 64 connections and
# ends; the next one begins at once, and goes on with the studies. Start it again after a power cut: it goes on too.
# A SIGTERM or a SIGINT ends the server, and then the script.
set -u
if [ $# -lt 1 ]; then
  echo "usage: serve_on.sh FOLDER [WORKERS]" >&2
  exit 2
fi
folder=$1 workers=${2:-4}
mkdir -p "$folder/studies"
cd "$folder" || exit 2

# One loop for a folder. Who has the lock may remove the socket of a server that was killed. The server does not inherit it.
exec 9>cutlab.lock
flock -n 9 || { echo "serve_on.sh: another one serves in $folder" >&2; exit 1; }
server=
stop() {
  if [ -n "$server" ]; then
    kill "$server" 2>/dev/null
    wait "$server" 2>/dev/null
  fi
  rm -f cutlab.sock
  exit 0
}
trap stop TERM INT
while :; do
  rm -f cutlab.sock
  cutlab serve cutlab.sock --workers "$workers" --sessions 64 --studies 32 --dir studies 9>&- &
  server=$!
  wait "$server" && continue
  status=$?
  echo "serve_on.sh: the server ended with status $status; the next one begins in a second" >&2
  server=
  sleep 1
done
