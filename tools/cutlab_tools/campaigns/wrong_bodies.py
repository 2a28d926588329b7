"""Whether the campaigns see wrong bodies: campaigns/wrong_bodies [EDIT..] [--all] [--minutes N] [--jobs N]

Those of tests/data/wrong_bodies.json are changes of a line, one in each part of the program, each with the campaign that has
to see it. An edit that must fail, crates/NAME/must-fail/*.edit, is named instead, or with --all each of them is taken: then
the campaigns are run, the shortest first, until one reports a difference or the time is over. A change is applied to a copy
of the repository, whose program is built unproved in about a minute. A line for each says what was seen, and the last line
counts them; the status is 1 where one of the list was not seen. With --minutes they are begun until this many have passed."""
import contextlib
import json
import os
import re
import signal
import subprocess
import tempfile
import time
from collections import Counter
from concurrent.futures import ThreadPoolExecutor
from itertools import zip_longest
from pathlib import Path
from typing import NamedTuple, Sequence

from ..build import NotBuilt, NotServed, build_unproved
from ..commands import parser
from ..paths import DATA, ROOT, copy_repository, require

# What is run with the program of an edit, the shortest first: the last goes on until the time is over.
CAMPAIGNS = (
    *("texts --session --count 300", "faulty_plans --count 40", "texts --count 20", "checkpoints --count 10"),
    *("plans --count 20", "sessions --count 3", "shares --count 3", "migrations --count 5"),
    *("kills --size 0.03 --count 1", "laws --count 2", "plans --from 20 --count 300"),
)
NOT_SEEN, NOT_RUN, NOT_BUILT = "not seen", "not run", "does not build"


class WrongBody(NamedTuple):
    """A change of a file: what stands for what in it, and the campaigns that are to see it."""

    name: str
    file: Path
    changes: Sequence[Sequence[str]]
    campaigns: Sequence[str]


def edit_of(path: Path) -> WrongBody:
    """An edit that must fail."""
    said = {word: re.findall(f"^{word}: (.*)", path.read_text(), re.M) for word in ("file", "old", "new")}
    file, name = path.parents[1].relative_to(ROOT) / said["file"][0], str(path.relative_to(ROOT))
    return WrongBody(name, file, list(zip(said["old"], said["new"])), CAMPAIGNS)


def all_edits() -> list[Path]:
    """The edits of all crates, one of each crate in turn."""
    folders = sorted(ROOT.glob("crates/*/must-fail"))
    turns = zip_longest(*(sorted(folder.glob("*.edit")) for folder in folders))
    return [path for turn in turns for path in turn if path]


def differs(words: str, program: Path, seconds: float) -> bool:
    """Whether a campaign reports a difference in this time. Then it is ended, with all that it started."""
    name, *rest = words.split()
    command, quiet = [str(ROOT / "campaigns" / name), "--forget", "--program", str(program), *rest], subprocess.DEVNULL
    child = subprocess.Popen(command, stdout=quiet, stderr=quiet, start_new_session=True)
    try:
        return child.wait(timeout=seconds) != 0
    except subprocess.TimeoutExpired:
        return False
    finally:
        with contextlib.suppress(ProcessLookupError):
            os.killpg(child.pid, signal.SIGKILL)
        child.wait()


def seen(campaigns: Sequence[str], program: Path, seconds: float) -> str:
    """Which campaign sees a difference, and after how many seconds."""
    begun = time.monotonic()
    for words in campaigns:
        left = seconds - (time.monotonic() - begun)
        # One that a wrong body makes wait for ever leaves time to the others.
        most = left if words is campaigns[-1] else min(left, seconds / 3)
        if left > 0 and differs(words, program, most):
            return f"seen by {words.split()[0]} after {time.monotonic() - begun:.0f} s"
    return NOT_SEEN


def attempt(body: WrongBody, seconds: float, last: float) -> str:
    if body.file.parts[2] != "src":
        return f"{NOT_RUN}: it changes no body"
    if time.monotonic() > last:
        return f"{NOT_RUN}: the time is over"
    with tempfile.TemporaryDirectory() as folder:
        program, file = Path(folder, "cutlab"), Path(folder, body.file)
        copy_repository(Path(folder))
        for old, new in body.changes:
            if old not in file.read_text():
                return f"{NOT_BUILT}: {body.file} lacks {old}"
            file.write_text(file.read_text().replace(old, new))
        try:
            build_unproved(Path(folder), program)
        except NotServed:
            return "seen by the build, whose program does not serve"
        except NotBuilt as why:
            return f"{NOT_BUILT}: {str(why).strip()[-200:]}"
        return seen(body.campaigns, program, seconds)


def main() -> int:
    words = parser(__doc__, "")
    words.add_argument("edits", nargs="*", metavar="EDIT", type=Path, help="files of edits, in place of the list")
    words.add_argument("--all", action="store_true", help="all edits, in place of the list")
    words.add_argument("--minutes", type=float, default=float("inf"), help="for how long changes are begun")
    words.add_argument("--seconds", type=float, default=60, help="for how long the campaigns are run with each")
    words.add_argument("--jobs", type=int, default=1, help="how many changes are tried at a time")
    given = words.parse_args()
    require("rt", "wrong_bodies")
    edits = all_edits() if given.all else [it.resolve() for it in given.edits]
    rows, counts = json.loads((DATA / "wrong_bodies.json").read_text()), Counter[str]()
    listed = [WrongBody(it["part"], Path(it["file"]), it["changes"], [it["campaign"]]) for it in rows]
    bodies = [edit_of(it) for it in edits] or listed
    last = time.monotonic() + 60 * given.minutes
    with ThreadPoolExecutor(given.jobs) as pool:
        for body, found in zip(bodies, pool.map(lambda it: attempt(it, given.seconds, last), bodies)):
            print(f"{body.name}: {found}", flush=True)
            counts[next((it for it in (NOT_SEEN, NOT_RUN, NOT_BUILT) if found.startswith(it)), "seen")] += 1
    print(", ".join(f"{counts[it]} {it}" for it in ("seen", NOT_SEEN, NOT_BUILT, NOT_RUN)))
    return int(not edits and counts["seen"] < len(bodies))
