"""Runs the commands of docs/STUDIES.md in a fresh copy of the repository, compares what each prints with what the page
shows, and says of each picture whether the stored one is as it is drawn now: docs/studies/make [--write] [PROGRAM]

With --write the pictures that are drawn are stored in docs/studies. What differs is printed, and the status is then 1. The
pictures need gnuplot; by another version of it they are drawn in other bytes."""
import shutil
import tempfile
import time
from pathlib import Path

from ..commands import parser
from ..paths import ROOT, copy_repository
from .pages import commands, try_commands

PAGE, PICTURES = "docs/STUDIES.md", ROOT / "docs" / "studies"


def main() -> int:
    words = parser(__doc__)
    words.add_argument("--write", action="store_true", help="store the pictures that are drawn")
    given, begun = words.parse_args(), time.monotonic()
    with tempfile.TemporaryDirectory() as folder:
        copy_repository(Path(folder), given.program)
        count, differing = try_commands(commands(PAGE), Path(folder))
        print(f"studies: {time.monotonic() - begun:.0f} seconds")
        print("\n".join(differing) or f"studies: {count} commands print what {PAGE} shows")
        places = (Path(folder), PICTURES)
        drawn, stored = ({it.name: it.read_bytes() for it in place.glob("*.svg")} for place in places)
        other, lost = sorted(it for it in drawn if drawn[it] != stored.get(it)), sorted(set(stored) - set(drawn))
        names = " ".join(other) or "none"
        print(f"studies: {len(drawn)} pictures are drawn, {len(other)} otherwise than stored: {names}")
        if lost:
            print(f"studies: no command draws {' '.join(lost)}")
        for name in other if given.write else []:
            shutil.copy(Path(folder, name), PICTURES / name)
        return int(bool(differing or not given.write and (other or lost)))
