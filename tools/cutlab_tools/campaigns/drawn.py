"""Campaigns over drawn plans and texts, whose table, fault or explanation is set beside the reference's, or a peer's."""
import random
import re
import tempfile
from pathlib import Path
from typing import Any

from ..damage import spoil
from ..paths import reference
from ..plans import Plan, drawn_fields, drawn_plan, drawn_words, rising, sizes, text_of, trials_of, wanted
from ..program import build_peer
from .campaign import Campaign


class Plans(Campaign):
    """Drawn plans of both versions: the program's table, by drawn workers and pieces, beside the reference's."""

    def case(self, rng: random.Random) -> None:
        text = text_of(drawn_plan(rng))
        self.expect_run(wanted(text, reference.table), "run", *drawn_words(rng, 4, 6), text=text)


class FaultyPlans(Campaign):
    """Plans with one to three drawn mistakes: the fault that the program reports beside the reference's first one."""

    def case(self, rng: random.Random) -> None:
        plan = drawn_plan(rng)
        for _ in range(rng.randint(1, 3)):
            spoil(rng, plan)
        self.expect_run(wanted(text_of(plan), sizes), "check", text=text_of(plan))


def keys_in(plan: Plan, layout: reference.Layout, trial: int) -> int:
    """How many keys order the processes and the deliveries of a trial."""
    k, _, _, f = reference.cells(plan)[trial // plan["repeats"]]
    roles = reference.Roles(plan, f, reference.Source(plan, trial), layout)
    alerts = reference.alert_list(plan, layout, roles, k)
    return int(plan["nodes"] + (plan["nodes"] - f) * len(alerts) * plan["copies"])


def never_right(plan: Plan) -> dict[str, list[int]]:
    """The cells in which no trial is right, by why not, as explain begins their lines."""
    found: dict[str, list[int]] = {"right": [], "decided and right": []}
    for number, (_, h, l, f) in enumerate(reference.cells(plan)):
        found["right"] += [number] * (f == 0) + [number] * (l == h and f >= 2)
        found["decided and right"] += [number] * (plan["nodes"] - f < reference.quorum(plan["nodes"]))
    return found


def number_after(lines: str, words: str) -> int | None:
    found = re.search(rf"^{words} (\d+)", lines, re.M)
    return int(found[1]) if found else None


class Explanations(Campaign):
    """What explain says of drawn plans beside the reference: how many cells and trials there are, the quorum, in how many cells
    no trial is right, that no more keys are drawn than it says, and the bytes of the checkpoint that a run leaves."""

    def case(self, rng: random.Random) -> None:
        plan = {**drawn_plan(rng, most_work=10_000), "repeats": rng.choice([1, 2, 3, 17])}
        text, layout = text_of(plan), reference.layout_of(plan)
        lines, errors, status = self.program.run("explain", text=text)
        self.expect(f"explain < {text.decode()}", ("accepted", "", 0), (lines.split("\n")[0], errors, status))
        self.expect(text.decode(), sizes(plan), "\n".join([*lines.split("\n")[1:4], ""]))
        cells = len(reference.cells(plan))
        for start, numbers in never_right(plan).items():
            counts = [int(it) for it in re.findall(rf"^{start}: 0 in (\d+) of {cells} cells, ", lines, re.M)]
            self.expect(f"cells with {start} 0", len(numbers), sum(counts))
            for number in set(numbers):
                sums = reference.piece_sums(plan, layout, number * plan["repeats"], plan["repeats"])
                self.require(not any(sums[it] for it in start.split(" and ")), f"no trial of cell {number} is {start}")
        keys = sum(keys_in(plan, layout, trial) for trial in range(trials_of(plan)))
        most = number_after(lines, "keys drawn: at most")
        self.require(keys <= (most or 0), f"{keys} keys are drawn, at most {most} by explain: {text.decode()}")
        self.program.run("run", "--checkpoint", "study.cut", text=text)
        size = (self.folder / "study.cut").stat().st_size
        self.expect(text.decode(), size, number_after(lines, "checkpoint: at most"))


def large_plan(rng: random.Random) -> Plan:
    """A plan of up to 2,048 processes and 32 rings, in a few cells."""
    plan, top = drawn_fields(rng, (1, 2)), rng.choice([3, 8, 10, 16, 31, 32])
    plan |= {"f": rising(rng, 0, rng.choice([2, 6, 12]), 1), "h": rising(rng, max(1, top // 2), top, 2)}
    plan |= {"k": [top], "l": rising(rng, 1, max(1, top // 2), 2), "repeats": rng.randint(1, 2)}
    plan |= {"liars": rng.choice([0, 1, 3]), "links": rng.choice([0, 2, 8])}
    return {**plan, "nodes": rng.choice([64, 100, 255, 256, 257, 500, 1000, 2047, 2048])}


class Peers(Campaign):
    """Drawn plans that are too large for the reference: the program's table beside that of `bench/peer/peer.rs`, the table
    in plain Rust without proofs, which rustc builds once into a new folder."""

    def __init__(self, path: Path, values: dict[str, Any]) -> None:
        super().__init__(path, values)
        self.place = tempfile.TemporaryDirectory()
        self.peer = build_peer(Path(self.place.name))

    def close(self) -> None:
        self.place.cleanup()

    def case(self, rng: random.Random) -> None:
        text = text_of(large_plan(rng))
        found = self.peer.run(text=text)
        self.expect(f"whether the peer takes {text.decode()}", 0, found.status)
        self.expect_run(found._replace(errors=""), "run", *drawn_words(rng, 4, 3), text=text)
