"""Runs the commands of README.md, docs/GUIDE.md and docs/RUNNING.md in order, in a fresh copy of the repository, and compares what
each prints with what the page shows after it: docs/try [PROGRAM]

A command is a line of an indented block that begins with "$ "; lines that are indented by ten places or more go on with
it. The lines up to the next command are what it prints; a line "..." stands for any lines. A command that calls a tool
which is not installed is skipped, and said so. What differs is printed, and the status is then 1."""
import re
import shlex
import shutil
import subprocess
import tempfile
from pathlib import Path
from typing import Callable, NamedTuple

from ..commands import parser
from ..paths import PAGES, ROOT, copy_repository

# Tools that a reader may lack: a command that calls one is run where it is there.
OPTIONAL = ("gnuplot", "parallel", "sbatch", "systemd-analyze")
SECONDS = 900
# A command of a page with the lines that go on with it, and the lines that it is to print.
COMMAND = re.compile(r"^    \$ (.*(?:\n {10}.*)*)((?:\n    (?!\$ ).*)*)", re.M)


class Command(NamedTuple):
    place: str
    text: str
    shown: list[str]

    @property
    def lacks(self) -> str | None:
        """The first tool that it calls and that is not here."""
        return next((it for it in OPTIONAL if re.search(rf"\b{it}\b", self.text) and not shutil.which(it)), None)

    def difference(self, printed: list[str]) -> str | None:
        """How the lines that were printed differ from those of the page, if they do."""
        parts = "\n".join(re.escape(it) if it != "..." else ".*" for it in self.shown or [""])
        if re.fullmatch(parts, "\n".join(printed), re.DOTALL):
            return None
        lines = [*(f"    - {it}" for it in self.shown), *(f"    + {it}" for it in printed)]
        return "\n".join([f"{self.place}: $ {self.text}", *lines])


# How many commands were run, and what differs.
Trial = tuple[int, list[str]]
Choice = Callable[[list[Command]], list[Command]]


def commands(page: str) -> list[Command]:
    text, found = (ROOT / page).read_text(), list[Command]()
    for it in COMMAND.finditer(text):
        line = text.count("\n", 0, it.start()) + 1
        shown = [line[4:] for line in it[2].split("\n")[1:]]
        found.append(Command(f"{page}:{line}", it[1].replace("\n" + " " * 10, "\n"), shown))
    return found


def try_commands(listed: list[Command], place: Path, seconds: float = SECONDS) -> Trial:
    """Runs commands in one shell in a copy of the repository, each with a file for what it prints, and compares."""
    with tempfile.TemporaryDirectory() as results:
        files = [Path(results, str(number)) for number in range(len(listed))]
        runs = [f"{{ {it.text}\n}} > {shlex.quote(str(file))} 2>&1" for it, file in zip(listed, files) if not it.lacks]
        end = "jobs -p | xargs -r kill 2> /dev/null; wait"  # (a server that a page starts ends with it)
        script = "\n".join([*runs, end])
        subprocess.run(["bash", "-c", script], cwd=place, timeout=seconds, stdin=subprocess.DEVNULL)
        printed = [it.read_text(errors="replace").rstrip("\n").split("\n") if it.exists() else [] for it in files]
    for it in (it for it in listed if it.lacks):
        print(f"try: {it.place}: skipped, as {it.lacks} is not installed")
    found = [it.difference(lines) for it, lines in zip(listed, printed) if not it.lacks]
    return len(found), [it for it in found if it]


def try_pages(program: Path, choose: Choice = list, seconds: float = SECONDS) -> Trial:
    """Runs commands of the pages, each page in a copy of its own."""
    tried, differing = 0, list[str]()
    for page in PAGES:
        with tempfile.TemporaryDirectory() as place:
            copy_repository(Path(place), program)
            count, found = try_commands(choose(commands(page)), Path(place), seconds)
            tried, differing = tried + count, differing + found
    return tried, differing


def main() -> int:
    count, differing = try_pages(parser(__doc__).parse_args().program)
    print("\n".join(differing) or f"try: {count} commands print what {' and '.join(PAGES)} show")
    return int(bool(differing))
