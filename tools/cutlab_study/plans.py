"""Plans, read and judged as the reference does."""
import shutil
import sys
from pathlib import Path

from cutlab_tools.paths import reference
from cutlab_tools.plans import Plan, text_of
from cutlab_tools.program import Ended, Program

__all__ = ["Cell", "Plan", "Refused", "cells", "plan_of", "quorum", "read_plan", "read_text", "reference", "text_of"]

Cell = reference.Cell
cells, quorum = reference.cells, reference.quorum
# The program on the PATH.
CUTLAB = Program(Path("cutlab"))


class Refused(Exception):
    """What is said of a plan, a table or a request that can't be used."""


def read_text(path: str) -> bytes:
    """The bytes of a file, or of standard input where the path is `-`."""
    if path == "-":
        return sys.stdin.buffer.read()
    try:
        return Path(path).read_bytes()
    except OSError as why:
        raise Refused(f"{path}: {why.strerror}") from None


def plan_of(text: bytes) -> Plan:
    """The plan of a text; of another `cutlab explain` says why it is none, or the fault's line where that is not on the PATH."""
    try:
        return reference.plan_of(text)
    except reference.Fault as fault:
        output, errors, _ = CUTLAB.run("explain", text=text) if shutil.which("cutlab") else Ended()
        raise Refused((output + errors).rstrip("\n") or str(fault)) from None


def read_plan(path: str) -> Plan:
    return plan_of(read_text(path))
