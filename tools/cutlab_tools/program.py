"""A built program: how it is run, killed, served from and talked to."""
import contextlib
import socket
import subprocess
import threading
import time
from pathlib import Path
from typing import Any, Iterable, NamedTuple, Union

from .paths import PROGRAM, ROOT

Word = Union[str, bytes, Path]
Child = subprocess.Popen  # of bytes


class Ended(NamedTuple):
    """What a command printed on both streams, and its status."""

    output: str = ""
    errors: str = ""
    status: int = 0


def refused(fault: str, status: int = 4) -> Ended:
    return Ended("", f"cutlab: fault {fault}\n", status)


def end_of(child: Child[bytes], limit: float = 120) -> Ended:
    output, errors = child.communicate(timeout=limit)
    return Ended(output.decode(), errors.decode(), child.returncode)


class Program(NamedTuple):
    """A program, and the folder in which it is run."""

    path: Path = PROGRAM
    folder: Path | None = None

    def run(self, *words: Word, text: bytes = b"", limit: float | None = 120, **how: Any) -> Ended:
        """Runs a command to its end; `how` is for subprocess.run."""
        command = [self.path, *words]
        done = subprocess.run(command, input=text, capture_output=True, cwd=self.folder, timeout=limit, **how)
        return Ended(done.stdout.decode(), done.stderr.decode(), done.returncode)

    def start(self, *words: Word, text: bytes | None = None) -> Child[bytes]:
        """Starts a command with pipes. A text is its input; a command may end before it reads that."""
        pipe = subprocess.PIPE
        child = Child([self.path, *words], stdin=pipe, stdout=pipe, stderr=pipe, cwd=self.folder)
        if text is not None and child.stdin:
            with contextlib.suppress(BrokenPipeError):
                child.stdin.write(text)
                child.stdin.close()
            child.stdin = None
        return child

    def run_killed(self, *words: Word, text: bytes, seconds: float) -> Ended:
        child = self.start(*words, text=text)
        time.sleep(seconds)
        child.kill()
        return end_of(child)

    def serve(self, path: Path, *words: Word, workers: int = 1, sessions: int = 1, studies: int = 1) -> Child[bytes]:
        numbers = ["--workers", str(workers), "--sessions", str(sessions), "--studies", str(studies)]
        return self.start("serve", path, *numbers, *words)


def connect(path: Path) -> socket.socket:
    """A connection to a server, which may have made its socket and not listen yet."""
    for _ in range(3000):
        wire = socket.socket(socket.AF_UNIX)
        try:
            wire.connect(str(path))
            return wire
        except (ConnectionRefusedError, FileNotFoundError):
            wire.close()
            time.sleep(0.01)
    raise TimeoutError(f"no connection to the server at {path}")


def send(wire: socket.socket, pieces: Iterable[bytes]) -> None:
    """Sends pieces of a stream and ends it, unless the other side has closed it before."""
    with contextlib.suppress(OSError):
        for piece in pieces:
            wire.sendall(piece)
        wire.shutdown(socket.SHUT_WR)


def replies_to(path: Path, *pieces: bytes) -> bytes:
    """All that a server replies to a stream, which is sent in pieces while the replies are read."""
    found = b""
    with connect(path) as wire:
        sender = threading.Thread(target=send, args=(wire, pieces))
        sender.start()
        with contextlib.suppress(ConnectionResetError):
            while piece := wire.recv(65536):
                found += piece
        sender.join()
    return found


def build_peer(folder: Path) -> Program:
    """The table in plain Rust without proofs, as rustc builds it into a folder."""
    peer = folder / "peer"
    options = ["--edition", "2021", "-O", "-C", "target-cpu=x86-64-v2"]
    subprocess.run(["rustc", *options, "-o", peer, ROOT / "bench/peer/peer.rs"], check=True)
    return Program(peer)
