"""The first word on a change, in minutes, with nothing proved: ./check [--seed S] [--times T] [--keep FILE]

The program is built as it stands, unproved and with checks of its own. The cases that differed once are tried first; then it is
set against the reference by campaigns/: drawn plans, texts with mistakes, checkpoint files, shares, migrations, sessions, and
studies that are killed. The tests of a crate are run, and those commands of README.md and the guides that need no large study.
The layout of the sources, the types and the layout of the tools, and what .ci/run checks of documents are looked at. Each part has a
line; the last line is `N passed, M failed`."""
import argparse
import os
import re
import shutil
import subprocess
import sys
import tempfile
import time
from concurrent.futures import ThreadPoolExecutor, as_completed
from functools import partial
from pathlib import Path
from typing import Callable, NamedTuple

from .build import NotBuilt, build_unproved
from .commands import parser
from .documents.pages import Command, try_pages
from .paths import ROOT, copy, require, tracked_files

# The campaigns, the longest first, with the number of cases that each tries, and of the parts that it is divided into.
CAMPAIGNS = [
    *[("plans", 300, 3), ("kills --size 0.03", 10, 2), ("texts --session", 3000, 1), ("faulty_plans", 300, 1)],
    *[("texts", 100, 1), ("sessions", 20, 1), ("shares", 10, 1), ("migrations", 20, 1), ("checkpoints", 50, 1)],
    *[("exact", 6, 1), ("explanations", 20, 1)],
]
# A crate with tests that is built soon, and whose code the campaigns reach least.
TESTED = "cut_command_line_tests"
# Checks of documents by the sources alone, and by what the program prints.
BY_SOURCES = ["docs/statement/make --check", "docs/layers/make --check", "docs/words", "docs/faults"]
BY_PROGRAM = ["docs/schema", "docs/manual/make --check", "docs/completions/make --check", "docs/refuses"]
TOOLS = ["mypy --cache-dir=/dev/null", "black --check --quiet ."]
# How a part's output says how many cases passed and failed, or were tried and different.
RUST_TESTS, PYTHON_TESTS = r"^test result: .*?(\d+) passed; (\d+) failed", r"^Ran (\d+)() tests"
TRIED = r"(\d+) tried, (\d+) different\n\Z"
# The plans whose tables the unproved program has in seconds, and the commands that need a table.
SMALL = ("one_crash.json", "watermarks.json")
STUDIES = re.compile(r"\bcutlab (run|share|join|migrate|status|serve|ask)\b")


class Result(NamedTuple):
    passed: int
    failed: int
    printed: str = ""
    seconds: float = 0.0


Part = Callable[[], Result]


def part(*words: str | Path, counts: str = "", cases: int = 1, cwd: Path = ROOT) -> Result:
    """Runs a command, which passes as a whole, or prints how many cases passed and failed; if it fails, at least one did."""
    pipe = subprocess.PIPE
    done = subprocess.run(words, cwd=cwd, stdin=subprocess.DEVNULL, stdout=pipe, stderr=subprocess.STDOUT)
    text = done.stdout.decode(errors="replace")
    found = [(int(one), int(other or 0)) for one, other in re.findall(counts, text, re.M)] if counts else []
    passed, failed = (sum(its) for its in zip(*found or [(cases, 0)]))
    passed -= failed if counts == TRIED else 0
    return Result(passed, 0) if done.returncode == 0 else Result(passed if found else 0, max(1, failed), text)


def build(program: Path) -> Result:
    build_unproved(ROOT, program)
    return Result(1, 0)


def layout() -> Result:
    """Whether the sources are laid out as `rt fmt` does it, which is given a copy of them all, as one crate."""
    names = tracked_files("*.rt", "*.antt")
    with tempfile.TemporaryDirectory() as place:
        sources = Path(place, "crates", "all", "src")
        for name in names:
            copy(ROOT / name, sources / name)
        Path(place, "crates.txt").write_text("all:\n")
        found = part("rt", "fmt", cwd=sources.parent)
        other = [it for it in names if (ROOT / it).read_bytes() != (sources / it).read_bytes()]
    return Result(0, 1, "".join(f"{it}: rt fmt lays this out in another way\n" for it in other)) if other else found


def short(listed: list[Command]) -> list[Command]:
    """The commands of a page that need no large study, nor a file of one that does."""
    kept, files = list[Command](), set[str]()
    for command in listed:
        named = set(re.findall(r"[\w$]+\.(?:csv|cut|sock|txt)\b", command.text))
        if named & files or STUDIES.search(command.text) and not any(plan in command.text for plan in SMALL):
            files |= named
        else:
            kept.append(command)
    return kept


def pages(program: Path) -> Result:
    count, differing = try_pages(program, short, seconds=300)
    return Result(count - len(differing), len(differing), "\n".join(differing))


def timed(run: Part) -> Result:
    begun = time.monotonic()
    try:
        found = run()
    except (NotBuilt, OSError, subprocess.SubprocessError) as error:
        found = Result(0, 1, str(error))
    return found._replace(seconds=time.monotonic() - begun)


def before() -> dict[str, Part]:
    """The parts that need no program, by their names."""
    test = partial(part, "rt", "try", "--test", counts=RUST_TESTS, cwd=ROOT / "crates" / TESTED)
    units = partial(part, sys.executable, "-m", "unittest", "discover", "tools/tests", counts=PYTHON_TESTS)
    parts: dict[str, Part] = {f"tests of {TESTED}": test, "layout": layout, "tests of tools": units}
    for name, *more in map(str.split, TOOLS):
        missing = partial(Result, 0, 0, f"{name} is not installed, so the tools were not checked by it")
        parts[name] = partial(part, name, *more) if shutil.which(name) else missing
    return parts | {name: partial(part, f"./{name}", *more) for name, *more in map(str.split, BY_SOURCES)}


def after(given: argparse.Namespace, program: Path) -> dict[str, Part]:
    """The parts that run the program, by their names: the cases that differed once are the first."""
    counted = partial(part, counts=TRIED)
    parts: dict[str, Part] = {"regressions": partial(counted, ROOT / "campaigns/regressions", "--program", program)}
    for words, count, shares in CAMPAIGNS:
        each = max(1, round(count * given.times / shares))
        campaign, *rest = words.split()
        command = [ROOT / "campaigns" / campaign, "--program", program, "--forget", "--seed", given.seed, *rest]
        for share in range(shares):
            name = f"{words} ({share + 1} of {shares})" if shares > 1 else words
            parts[name] = partial(part, *command, "--from", str(share * each), "--count", str(each), cases=each)
    parts["commands of the pages"] = partial(pages, program)
    parts |= {name: partial(counted, ROOT / name, program) for name in ("tests/vectors", "tests/program")}
    return parts | {name: partial(part, f"./{name}", *more, program) for name, *more in map(str.split, BY_PROGRAM)}


def print_result(name: str, found: Result) -> Result:
    print(f"{name:<36}{found.passed:>6} passed{found.failed:>4} failed{found.seconds:>7.1f} s", flush=True)
    if found.printed:
        print(found.printed, flush=True)
    return found


def run_all(given: argparse.Namespace) -> list[Result]:
    """Runs all parts. The build and the parts that need no program go on beside one another."""
    with ThreadPoolExecutor(len(os.sched_getaffinity(0))) as pool, tempfile.TemporaryDirectory() as folder:
        program = Path(folder, "cutlab")
        with ThreadPoolExecutor(1) as builder:
            built = builder.submit(timed, partial(build, program))
            parts = {pool.submit(timed, it): name for name, it in before().items()}
            results = [print_result("build", built.result())]
        if not results[0].failed:
            if given.keep:
                shutil.copy(program, given.keep)
            parts |= {pool.submit(timed, it): name for name, it in after(given, program).items()}
        return results + [print_result(parts[it], it.result()) for it in as_completed(parts)]


def main() -> int:
    words = parser(__doc__, "")
    words.add_argument("--seed", default="1", help="what the cases are drawn from")
    words.add_argument("--times", type=float, default=1, help="how many times the usual number of cases is tried")
    words.add_argument("--keep", metavar="FILE", help="keeps the program that is built, for a campaign's --program")
    given, begun = words.parse_args(), time.monotonic()
    require("rt", "check")
    os.environ["PYTHONDONTWRITEBYTECODE"] = "1"
    results = run_all(given)
    passed, failed = sum(it.passed for it in results), sum(it.failed for it in results)
    print(f"{time.monotonic() - begun:.0f} s\n{passed} passed, {failed} failed")
    return int(failed > 0)
