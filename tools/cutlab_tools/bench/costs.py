"""bench/run [PROGRAM] [PLAN..] [--instructions] [--write]: what studies cost.

For each plan, those of bench/plans where none is given, the best of three runs of the program: processor seconds, trials and
keys a second. A key is drawn for each copy of each alert at each receiver; for noisy plans their number is an estimate. Then, for
`examples/rapid_study.json`, the best of three by 1, 2 and 4 workers: seconds on the clock, and how many times as fast that is as
by one. Seconds are noise on most machines, so they are compared with nothing.

At the end the instructions of each plan of bench/counted, by callgrind where valgrind is installed, beside those of
bench/figures.json, which are of the proved program: what became slower by more than 3 % is said, and the status is then 1.
With --instructions nothing else is done; with --write the figures are kept there."""
import json
import os
import re
import shutil
import subprocess
import sys
import tempfile
import time
from pathlib import Path
from typing import NamedTuple

from ..commands import parser
from ..paths import ROOT, reference
from ..plans import Plan, trials_of

PLANS, COUNTED = (sorted(ROOT.glob(f"bench/{folder}/*.json")) for folder in ("plans", "counted"))
FIGURES = ROOT / "bench" / "figures.json"
# By how much a plan may take more instructions than its figure says.
TOLERANCE = 0.03


class Cost(NamedTuple):
    seconds: float  # of a processor
    clock: float


def keys_of(plan: Plan) -> float:
    """How many keys a study draws, about."""
    nodes, total = plan["nodes"], 0.0
    for k, _, _, f in reference.cells(plan):
        deaf = min(f, plan["deaf"]) if plan["version"] == 2 else f if plan["faults"] == "deaf" else 0
        silent = f - deaf if plan["dead"] == "silent" else 0
        alerts = f * k * (nodes - silent) / (nodes - 1) + plan["liars"] * k + plan["links"] * (1 + k / nodes) + deaf * k
        total += plan["repeats"] * (nodes - f) * alerts * plan["copies"]
    return total


def cost_of(command: list[str], plan: Path) -> tuple[Cost, bytes]:
    begun = time.monotonic()
    with plan.open("rb") as text, tempfile.TemporaryFile() as table:
        child = subprocess.Popen(command, stdin=text, stdout=table)
        _, child.returncode, use = os.wait4(child.pid, 0)
        if child.returncode:
            sys.exit(f"{command[0]} ended with {child.returncode}")
        table.seek(0)
        return Cost(use.ru_utime + use.ru_stime, time.monotonic() - begun), table.read()


def best_cost(command: list[str], plan: Path) -> tuple[Cost, bytes]:
    """The least seconds of three runs, and the table."""
    costs, tables = zip(*(cost_of(command, plan) for _ in range(3)))
    seconds, clock = zip(*costs)
    return Cost(min(seconds), min(clock)), tables[0]


def instructions(program: Path, plan: Path) -> int:
    """How many instructions a run takes, as callgrind counts them, in a copy without debug information."""
    with tempfile.TemporaryDirectory() as folder, plan.open("rb") as text:
        copy = f"{folder}/program"
        subprocess.run(["strip", "--strip-debug", "-o", copy, program], check=True)
        command = ["valgrind", "--tool=callgrind", "--callgrind-out-file=/dev/null", copy, "run"]
        done = subprocess.run(command, stdin=text, capture_output=True)
    found = re.search(rb"Collected : (\d+)", done.stderr)
    if not found or done.returncode:
        sys.exit(f"{plan.name}: callgrind counts nothing: {done.stderr.decode(errors='replace')[-300:]}")
    return int(found[1])


def compare(program: Path, is_written: bool) -> int:
    if not shutil.which("valgrind"):
        print("\nvalgrind is not installed, so nothing is compared with bench/figures.json")
        return 0
    figures: dict[str, int] = json.loads(FIGURES.read_text()) if FIGURES.exists() else {}
    found, lines = dict[str, int](), list[str]()
    print(f"\n{'plan':16}{'instructions':>16}{'figure':>16}")
    for name, plan in ((plan.name, plan) for plan in COUNTED):
        count = found[name] = instructions(program, plan)
        print(f"{name:16}{count:>16}{figures.get(name, 'none'):>16}", flush=True)
        if name not in figures:
            lines.append(f"{name}: it has no figure in bench/figures.json: bench/run --write keeps one")
        elif (more := count / figures[name] - 1) > TOLERANCE:
            both = f"{count} instructions, {figures[name]} in bench/figures.json"
            lines.append(f"{name}: slower by {100 * more:.1f} %: {both}")
    if is_written:
        FIGURES.write_text(json.dumps(found, indent=1, sort_keys=True) + "\n")
        return 0
    print("\n".join(lines) or f"of {len(found)} plans none is slower by more than {100 * TOLERANCE:.0f} %")
    return int(bool(lines))


def print_costs(program: Path, plans: list[Path]) -> None:
    """Prints the costs of plans by one worker, and those of one plan by several."""
    print(f"{'plan':16}{'seconds':>9}{'trials/s':>10}{'keys/s':>12}")
    for path in plans:
        plan = reference.plan_of(path.read_bytes())
        cost, _ = best_cost([str(program), "run"], path)
        rates = f"{trials_of(plan) / cost.seconds:10.0f}{keys_of(plan) / cost.seconds:12.0f}"
        print(f"{path.name:16}{cost.seconds:9.3f}{rates}")
    path = ROOT / "examples" / "rapid_study.json"
    print(f"\n{path.name} by workers\n{'workers':>8}{'seconds':>9}{'times':>7}")
    costs = {it: best_cost([str(program), "run", "--workers", str(it)], path)[0] for it in (1, 2, 4)}
    for workers, cost in costs.items():
        print(f"{workers:8}{cost.clock:9.3f}{costs[1].clock / cost.clock:7.2f}")


def main() -> int:
    words = parser(__doc__)
    words.add_argument("plans", nargs="*", type=Path, default=PLANS, metavar="PLAN")
    words.add_argument("--instructions", action="store_true", help="only count and compare instructions")
    words.add_argument("--write", action="store_true", help="keep the instructions in bench/figures.json")
    given = words.parse_args()
    if not given.instructions:
        print_costs(given.program, given.plans)
    return compare(given.program, given.write)
