"""Where things stand in the repository, and the reference as a module of this package."""
import shutil
import subprocess
import sys
from pathlib import Path

ROOT = Path(__file__).resolve().parents[2]
PROGRAM = ROOT / "crates" / "cutlab" / "out" / "cutlab"
DATA = ROOT / "tests" / "data"
PAGES = ("README.md", "docs/GUIDE.md", "docs/RUNNING.md")

sys.path.insert(0, str(ROOT / "reference"))

import cutlab_reference as reference  # noqa: E402

__all__ = ["DATA", "PAGES", "PROGRAM", "ROOT", "copy_repository", "reference", "require", "tracked_files"]


def tracked_files(*patterns: str) -> list[str]:
    """The files that git knows of and that are there, by their paths in the repository."""
    listed = subprocess.run(["git", "ls-files", "-z", *patterns], cwd=ROOT, check=True, capture_output=True).stdout
    return [name for name in listed.decode().split("\0") if name and (ROOT / name).is_file()]


def copy(old: Path, new: Path) -> None:
    """Copies a file, or a link as a link, into a folder that is made where there is none."""
    new.parent.mkdir(parents=True, exist_ok=True)
    shutil.copy(old, new, follow_symlinks=False)


def copy_repository(place: Path, program: Path | None = None) -> None:
    """Copies the files of the repository to a folder, and a program to where a build puts it."""
    for name in tracked_files():
        copy(ROOT / name, place / name)
    if program:
        copy(program, place / PROGRAM.relative_to(ROOT))


def require(tool: str, who: str, page: str = "CONTRIBUTING.md") -> None:
    """Ends a command that can do nothing without a tool which is not installed."""
    if not shutil.which(tool):
        sys.exit(f"{who}: {tool}, the command of the Rattle kit, is not on PATH: {page} says what is needed")
