"""Proves and builds the program, crates/cutlab/out/cutlab, for who wants to use it: ./build

The crates that it stands on are proved, as many side by side as there are processors and memory for, without the edits that must
fail and the crates of tests: `rt ci` over a copy that has nothing else. A line says of each crate when it is proved, how far the
build is, and how long it may still take. What was proved is kept on this machine, so that a first `rt ci` does not prove it again."""
import contextlib
import os
import re
import shutil
import socket
import struct
import subprocess
import sys
import tempfile
import time
from pathlib import Path
from typing import Iterable

from .commands import parser
from .paths import PROGRAM, ROOT, copy, require
from .program import connect

# How long an unproved build may take, and the server of the program that was built.
BUILD_SECONDS, SERVED_SECONDS = 900, 60


def copy_crates(place: Path, below: dict[str, list[str]], crates: set[str]) -> None:
    parts = "src specs proofs data args stdin stdout status".split()
    for path in (ROOT / "crates" / crate / part for crate in crates for part in parts):
        for file in (path, *path.rglob("*")):
            if file.is_file():
                copy(file, place / file.relative_to(ROOT))
    lines = [f"{name}: {' '.join(on)}\n" for name, on in below.items() if name in crates]
    (place / "crates.txt").write_text("".join(lines))
    shutil.copy(ROOT / "HANDLES", place)


def size_of(crate: str) -> int:
    """How many lines of code, definitions and proofs a crate has, by which its share of the work is estimated."""
    files = (it for part in ("src", "specs", "proofs") for it in (ROOT / "crates" / crate / part).rglob("*"))
    return sum(it.read_bytes().count(b"\n") for it in files if it.is_file())


def minutes(seconds: float) -> str:
    return f"{seconds // 60:.0f} min" if seconds >= 90 else f"{seconds:.0f} s"


def print_progress(crates: set[str], printed: Iterable[bytes], kept: list[str]) -> None:
    """Keeps what the proofs print, and prints a line for each crate that is proved."""
    sizes, done, count, begun = {it: size_of(it) for it in crates}, 0, 0, time.monotonic()
    for line in (it.decode(errors="replace") for it in printed):
        kept.append(line)
        proved = re.match(r"rt: (\w+) proved", line)
        if not proved or proved[1] not in sizes:
            continue
        count, done, taken = count + 1, done + sizes[proved[1]], time.monotonic() - begun
        left = minutes(taken * (sum(sizes.values()) - done) / done)
        print(f"{count:>3} of {len(crates)}  {proved[1]:<20} {minutes(taken):>7}, about {left} left", flush=True)


class NotBuilt(Exception):
    """What `rt` says where no program comes of the sources."""


class NotServed(NotBuilt):
    """What the program that was built says in place of serving."""


def copy_server(path: Path, program: Path) -> None:
    """Copies the file that the server at a socket runs from, and ends the server, which takes one session. The words
    that it was started by may begin with those of a loader: the file stands before `serve`."""
    with connect(path) as wire:
        number, _, _ = struct.unpack("3i", wire.getsockopt(socket.SOL_SOCKET, socket.SO_PEERCRED, 12))
        words = Path(f"/proc/{number}/cmdline").read_text().split("\0")
        shutil.copyfile(os.path.join(f"/proc/{number}/cwd", words[words.index("serve") - 1]), program)
    program.chmod(0o755)


def build_unproved(root: Path, program: Path) -> None:
    """Builds the program of a copy of the repository into a file: it is run as a server, whose file is copied."""
    with tempfile.TemporaryDirectory() as folder, Path(folder, "log").open("w+", errors="replace") as log:
        path, last = Path(folder, "socket"), time.monotonic() + BUILD_SECONDS
        serve = ["serve", str(path), "--workers", "1", "--sessions", "1", "--studies", "1"]
        words = ["rt", "try", "--steps", "1", "--seconds", str(SERVED_SECONDS), "--", *serve]
        trial = subprocess.Popen(words, cwd=root / "crates/cutlab", stdin=subprocess.DEVNULL, stdout=log, stderr=log)
        try:
            while time.monotonic() < last and trial.poll() is None and not path.exists():
                time.sleep(0.1)
            if path.exists():
                return copy_server(path, program)
        finally:
            with contextlib.suppress(subprocess.TimeoutExpired):
                trial.wait(timeout=max(0, last - time.monotonic()))
            trial.terminate()  # (nothing, where it has ended)
            trial.wait()
        log.seek(0)
        printed = log.read()
    if time.monotonic() >= last:
        raise NotBuilt(f"the build took over {BUILD_SECONDS} s")
    if "run=none" in printed or "\nrun=" not in printed:
        raise NotBuilt(f"the program does not build\n{printed}")
    raise NotServed(f"the program is built, but does not serve\n{printed}")


def main() -> int:
    parser(__doc__, "").parse_args()
    require("rt", "build", "README.md")
    built = PROGRAM.relative_to(ROOT)
    lines = [line.partition("#")[0].split(":") for line in (ROOT / "crates.txt").read_text().split("\n")]
    below = {line[0].split()[0]: line[1].split() for line in lines if len(line) > 1}
    crates = {"cutlab"}
    while more := {it for crate in crates for it in below[crate] if it in below} - crates:
        crates |= more
    with tempfile.TemporaryDirectory() as folder:
        copy_crates(Path(folder), below, crates)
        kept, pipe, none = list[str](), subprocess.PIPE, subprocess.DEVNULL
        with subprocess.Popen(["rt", "ci"], cwd=folder, stdin=none, stdout=pipe, stderr=subprocess.STDOUT) as proofs:
            print_progress(crates, proofs.stdout or [], kept)
        if proofs.returncode:
            sys.exit("".join([*kept[-60:], "build: not everything was proved, so there is no program"]))
        copy(Path(folder, built), PROGRAM)
    print(f"proved and built: {built}\n{built} run < examples/one_crash.json")
    return 0
