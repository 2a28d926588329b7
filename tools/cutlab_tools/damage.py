"""Texts and files that are damaged: plans with mistakes, mutated texts, torn and changed checkpoints, crash images."""
from __future__ import annotations

import json
import random
import re
from functools import reduce
from typing import Any, NamedTuple, Optional, Sequence

from .paths import DATA, reference
from .plans import Plan, text_of, trials_of

# What is put into texts and plans: values of fields, and pieces of JSON in Latin-1, where "A * 3" stands for "AAA".
MISTAKES: dict[str, list[Any]] = json.loads((DATA / "mistakes.json").read_text())


def bytes_of(piece: str) -> bytes:
    """The bytes of a piece in the file of mistakes."""
    repeated = re.fullmatch(r"(.) \* (\d+)", piece)
    return (repeated[1] * int(repeated[2]) if repeated else piece).encode("latin-1")


TOKENS, NUMBERS = ([bytes_of(piece) for piece in MISTAKES[name]] for name in ("tokens", "numbers"))


def spoil(rng: random.Random, plan: Plan) -> None:
    field, way = rng.choice(sorted(plan)), rng.randrange(5)
    if way == 0:
        del plan[field]
        return
    if way == 1:
        field = rng.choice(["x", "faults", "deaf", "Nodes", "", "version "])
    value = rng.choice(MISTAKES["values"])
    plan[field] = [*plan[field], value] if way == 2 and isinstance(plan[field], list) else value


def mutated(rng: random.Random, text: bytes) -> bytes:
    at, way = rng.randrange(len(text) + 1), rng.randrange(6)
    if way == 0:
        return text[:at] + bytes([rng.randrange(256)]) + text[at + 1 :]
    if way == 1:
        return text[:at] + rng.choice(TOKENS) + text[at:]
    if way == 2:
        return text[:at] + text[at + rng.randint(1, 4) :]
    if way == 3:
        first, last = rng.choice([it.span() for it in re.finditer(rb"\d+", text)] or [(0, 0)])
        return text[:first] + rng.choice(NUMBERS) + text[last:]
    if way == 4:
        depth = rng.choice([1, 126, 127, 128, 200])
        return b"[" * depth + text + b"]" * depth
    return text + rng.choice([*TOKENS, b" " * rng.choice([1, 65_000, 66_000])])


def drawn_slips(rng: random.Random, plan: Plan) -> list[reference.Slip]:
    """Some pieces of a plan's trials in a drawn order, with true sums or false ones."""
    slips: list[reference.Slip] = []
    layout, repeats = reference.layout_of(plan), plan["repeats"]
    first = 0
    while first < trials_of(plan):
        count = rng.randint(1, repeats - first % repeats)
        if rng.random() < 0.6:
            slips.append((first, count, reference.piece_sums(plan, layout, first, count)))
        first += count
    rng.shuffle(slips)
    if slips and rng.random() < 0.4:
        at = rng.randrange(len(slips))
        (first, count, sums), name = slips[at], rng.choice(reference.SUMS)
        slips[at] = first, count, {**sums, name: max(0, sums[name] + rng.choice([-1, 1, 7, 1000, 2**40]))}
    if slips and rng.random() < 0.2:
        slips.insert(rng.randrange(len(slips) + 1), rng.choice(slips))
    return slips


def drawn_file(rng: random.Random, plan: Plan, slips: list[reference.Slip]) -> bytes:
    held = reference.file_of(plan, slips)
    way = rng.randrange(8)
    if way == 0:
        return held[: rng.randrange(len(held) + 1)]
    if way == 1:
        at = rng.randrange(len(held))
        return held[:at] + bytes([held[at] ^ 1 << rng.randrange(8)]) + held[at + 1 :]
    if way == 2:
        return held + rng.randbytes(rng.randint(1, 300))
    if way == 3:
        return reference.file_of({**plan, "repeats": plan["repeats"] + 1}, slips)
    if way == 4:
        return rng.choice([b"", b"\xa5", b"\x00", b"\x00" * 50, b"my notes\n", text_of(plan)])
    return held


class Write(NamedTuple):
    place: int
    written: bytes

    def put(self, held: bytes) -> bytes:
        held = held.ljust(self.place, b"\0")
        return held[: self.place] + self.written + held[self.place + len(self.written) :]

    def torn(self, rng: random.Random) -> Write | None:
        """What a crash may leave of it, if anything."""
        way, written = rng.randrange(4), self.written
        if way == 0:
            return None
        if way == 1:
            written = written[: rng.randrange(len(written) + 1)]
        elif way == 2 and len(written) > 1:  # (a byte alone is written or not)
            written = bytes(byte if rng.random() < 0.5 else rng.randrange(256) for byte in written)
        return Write(self.place, written)


# Of a run: its writes, and its syncs, as None.
Calls = Sequence[Optional[Write]]


def crash_image(rng: random.Random, calls: Calls) -> bytes:
    """The file as a crash after these calls may leave it."""
    synced = max((at for at, call in enumerate(calls, 1) if call is None), default=0)
    stable = reduce(lambda held, write: write.put(held), filter(None, calls[:synced]), b"")
    torn = [write.torn(rng) for write in filter(None, calls[synced:])]
    left = reduce(lambda held, write: write.put(held), filter(None, torn), stable)
    return left[: rng.randint(len(stable), max(len(stable), len(left)))]
