"""Campaigns over checkpoint files: studies that go on from them, are killed, divided, joined and moved."""
import json
import random
import re
import time
from pathlib import Path
from typing import Iterator

from ..damage import Calls, Write, crash_image, drawn_file, drawn_slips
from ..paths import reference
from ..plans import Plan, drawn_plan, drawn_seed, drawn_words, slips_in, text_of, trials_in, trials_of, upgrade, work_of
from ..program import Ended, Program, refused
from .campaign import Campaign


def wanted(plan: Plan, held: bytes) -> Ended:
    """How a run that goes on from a file has to end."""
    try:
        return Ended(reference.table_over(plan, slips_in(plan, held)))
    except reference.Fault as fault:
        # A study is made only where nothing stands, or what an interrupted creation leaves.
        is_unclaimed = fault.number == 22 and held[:1] in (b"", b"\0")
        return Ended(reference.table(plan)) if is_unclaimed else Ended("", f"{fault}\n", 4)


class Checkpoints(Campaign):
    """Studies that go on from drawn checkpoint files: slips in any order, true and false ones, files that are torn,
    swapped, changed or of another plan. The table, and the file that is left, beside the reference's."""

    def case(self, rng: random.Random) -> None:
        plan, path = drawn_plan(rng, most_work=10_000), self.folder / "study.cut"
        text, held = text_of(plan), drawn_file(rng, plan, drawn_slips(rng, plan))
        path.write_bytes(held)
        found = self.program.run("run", "--checkpoint", "study.cut", *drawn_words(rng, 3, 4), text=text)
        self.expect(f"{text.decode()} over {held.hex()}", wanted(plan, held), found)
        if found.status:
            self.expect("the file that a refused run leaves", held, path.read_bytes())
        else:
            slips = slips_in(plan, path.read_bytes())
            self.expect("the trials in the file that is left", list(range(trials_of(plan))), trials_in(slips))
            self.expect("the table over that file", found.output, reference.table_over(plan, slips))


CALL = re.compile(r'(?:\[pid +\d+\] |\d+ +)?(?:fsync|pwrite64)\(3(?:, "((?:\\x[0-9a-f]{2})*)", \d+, (\d+))?')


class Crashes(Campaign):
    """Crash images: the writes and syncs of a real run, as strace shows them, up to a drawn moment. Of what was written
    since the last sync any byte may be there, or not, or be another. Each image has to read as the acknowledged slips, or
    these and one more, and to be gone on with."""

    def calls_of(self, text: bytes, piece: int) -> Calls:
        """The writes and the syncs of a run into a new file, which is the first that it opens."""
        traced = "-f -xx -s 200000 -e trace=pwrite64,fsync".split()
        command = ["run", "--checkpoint", "study.cut", "--piece", str(piece)]
        done = Program(Path("strace"), self.folder).run(*traced, self.path, *command, text=text)
        found = [call for line in done.errors.split("\n") if (call := CALL.match(line))]
        return [Write(int(it[2]), bytes.fromhex(it[1].replace("\\x", ""))) if it[2] else None for it in found]

    def case(self, rng: random.Random) -> None:
        plan, piece, path = drawn_plan(rng, most_work=6_000), rng.randint(1, 3), self.folder / "study.cut"
        text = text_of(plan)
        calls = self.calls_of(text, piece)
        whole, table = reference.slips_of(plan, path.read_bytes()), reference.table(plan)
        for _ in range(20):
            made = calls[: rng.randint(0, len(calls))]
            left = crash_image(rng, made)
            what = f"{text.decode()} by pieces of {piece}, after {len(made)} calls, as {left.hex()}"
            acknowledged = sum(bool(write and write.written == b"\xa5") for write in made[:-1]) - 1
            try:
                slips = reference.slips_of(plan, left)
            except reference.Fault as fault:
                self.expect(f"the reading of {what}", (22, True), (fault.number, acknowledged < 0))
            else:
                self.expect(what, whole[: len(slips)], slips)
                self.require(len(slips) in (max(acknowledged, 0), acknowledged + 1), f"the slips of {what}")
            path.write_bytes(left)
            self.expect_run(Ended(table), "run", "--checkpoint", "study.cut", text=text, what=what)


def long_plan(rng: random.Random, size: float) -> Plan:
    """A plan that takes some moments: with a size of 1, about a quarter of a second by the proved program."""
    nodes, repeats = round(size * rng.randint(200, 600)), round(size * rng.randint(20, 60))
    plan: Plan = dict(copies=rng.randint(1, 2), dead="speak", deaf=1, f=[2, 4], h=[4, 5], implicit=True, k=[6])
    plan |= dict(l=[1, 2], liars=1, links=1, nodes=max(8, nodes), repeats=max(2, repeats))
    return plan | dict(seed=drawn_seed(rng), version=2)


class Kills(Campaign):
    """`kill -9` at drawn moments: a study with a checkpoint, or the one share of it, is killed and given again until it is
    done, and its table is that of a study that ran at once; where the study is small, it is the reference's. What it wrote
    before is a prefix of what it writes then."""

    options = {"size": dict(type=float, default=1, help="how large the studies are: less than 1 for a slow program")}

    def case(self, rng: random.Random) -> None:
        plan = long_plan(rng, self.values["size"])
        text, begun = text_of(plan), time.monotonic()
        whole = self.table_of(text, "--workers", "2")
        longest = max(0.08, time.monotonic() - begun)
        if work_of(plan) < 200_000:
            self.expect(f"the table of {text.decode()}", reference.table(plan), whole)
        share = "share 1/1", f"share 1 of 1: {trials_of(plan)} of {trials_of(plan)}\n"
        command, answer = rng.choice([("run --checkpoint", whole), share])
        for _ in range(200):
            words = [*command.split(), "study.cut", *drawn_words(rng, 4, 20)]
            found = self.program.run_killed(*words, text=text, seconds=rng.random() * longest)
            self.expect("what was written is a prefix of the answer", answer[: len(found.output)], found.output)
            self.expect("what was reported", "", found.errors)
            if found.status == 0:
                break
        self.expect_run(Ended(whole), "run", "--checkpoint", "study.cut", text=text, what="the table at the end")
        slips_in(plan, (self.folder / "study.cut").read_bytes())


def true_slips(rng: random.Random, plan: Plan) -> list[reference.Slip]:
    """A piece of each cell of a plan, in a drawn order, at most twelve of them."""
    layout, repeats, slips = reference.layout_of(plan), plan["repeats"], list[reference.Slip]()
    for last in range(repeats, trials_of(plan) + 1, repeats):
        first = last - repeats + rng.randrange(repeats)
        count = rng.randint(1, last - first)
        slips.append((first, count, reference.piece_sums(plan, layout, first, count)))
    rng.shuffle(slips)
    return slips[: rng.randint(0, 12)]


class Migrations(Campaign):
    """Checkpoints of version 1 that are moved to version 2: what is printed, and the new file to the byte, beside the
    reference's. Slips with other sums than their trials give are refused."""

    def case(self, rng: random.Random) -> None:
        plan = drawn_plan(rng, versions=(1,), most_work=10_000)
        slips, layout, newer = true_slips(rng, plan), reference.layout_of(plan), upgrade(plan)
        moved = [(first, count, reference.piece_sums(newer, layout, first, count)) for first, count, _ in slips]
        wanted = Ended(f"migrated {len(slips)}\n")
        if slips and rng.random() < 0.3:
            wrong = rng.randrange(len(slips))
            first, count, sums = slips[wrong]
            slips[wrong] = first, count, {**sums, "extra": sums["extra"] + 1}
            try:
                reference.checked_slips(plan, [slips[wrong]])
                refusal = "46 Disagrees"
            except reference.Fault:
                refusal = "17 BadSlip"
            wanted = refused(f"{refusal} {wrong + 1}")
        (self.folder / "old.cut").write_bytes(reference.file_of(plan, slips))
        what = f"{json.dumps(plan)} with {slips}"
        self.expect_run(wanted, "migrate", "old.cut", "new.cut", text=text_of(plan), what=what)
        if wanted.status == 0:
            found = (self.folder / "new.cut").read_bytes()
            self.expect(f"the new file of {what}", reference.file_of(newer, moved), found)


def blocks_of(plan: Plan, size: int) -> Iterator[range]:
    """The trials of the blocks that the cells are cut into, numbered through all cells."""
    for last in range(plan["repeats"], trials_of(plan) + 1, plan["repeats"]):
        starts = range(last - plan["repeats"], last, size)
        yield from (range(start, min(start + size, last)) for start in starts)


def runs_of(plan: Plan, trials: set[int]) -> int:
    """How many runs of adjacent trials of a cell there are."""
    return sum(trial % plan["repeats"] == 0 or trial - 1 not in trials for trial in trials)


def status_of(plan: Plan, trials: set[int]) -> str:
    """What is printed of a file that has a slip for each run of these trials."""
    cells, repeats = len(reference.cells(plan)), plan["repeats"]
    done = sum(trials.issuperset(range(cell * repeats, (cell + 1) * repeats)) for cell in range(cells))
    lines = [f"trials {len(trials)} of {cells * repeats}", f"cells {done} of {cells}", f"slips {runs_of(plan, trials)}"]
    return "\n".join([*lines, reference.canonical_text(plan).decode(), ""])


class Shares(Campaign):
    """Studies that are divided among machines: drawn plans, numbers of shares and blocks; shares that are lost, killed and
    given again, and joined in a drawn order. What each command prints, and the table, beside the reference's."""

    def case(self, rng: random.Random) -> None:
        self.text = text_of({**drawn_plan(rng, most_work=10_000), "repeats": rng.randint(1, 12)})
        self.plan: Plan = reference.plan_of(self.text)
        # The shares that were run: the blocks of each, by its file.
        self.shares: dict[str, list[range]] = {}
        size, shares = rng.choice([1, 2, 3, 5, 20]), rng.choice([1, 2, 3, 7, rng.randint(1, 40)])
        for index in range(1, shares + 1):
            self.run_share(rng, index, shares, size)
        files = list(self.shares)
        if files:
            rng.shuffle(files)
            self.check_join(files)

    def run_share(self, rng: random.Random, index: int, shares: int, size: int) -> None:
        """Runs a share once or twice, unless it is lost; it may be killed before."""
        file, text = f"share{index}.cut", self.text
        words = ["share", f"{index}/{shares}", file, "--piece", str(size), "--workers", str(rng.randint(1, 3))]
        if rng.random() < 0.1:
            return
        if rng.random() < 0.2:
            killed = self.program.run_killed(*words, text=text, seconds=rng.random() * 0.02)
            self.expect("what a share that is killed reports", "", killed.errors)
        self.shares[file] = list(blocks_of(self.plan, size))[index - 1 :: shares]
        count = sum(map(len, self.shares[file]))
        for _ in range(rng.choice([1, 1, 2])):
            self.expect_run(Ended(f"share {index} of {shares}: {count} of {count}\n"), *words, text=text)

    def check_join(self, files: list[str]) -> None:
        """Joins the shares, and checks the new file, joins that are refused, and the table."""
        plan, text, new = self.plan, self.text, self.folder / "joined.cut"
        blocks = [block for its in self.shares.values() for block in its]
        trials = {trial for block in blocks for trial in block}
        line = f"joined {len(blocks)} into {runs_of(plan, trials)}, {len(trials)} of {trials_of(plan)}\n"
        self.expect_run(Ended(line), "join", new.name, *files, text=text)
        self.expect("the trials of the joined slips", sorted(trials), trials_in(slips_in(plan, new.read_bytes())))
        self.expect_run(Ended(status_of(plan, trials)), "status", new.name, what="the status of the joined file")
        self.check_refused(files, new)
        self.expect_run(Ended(reference.table(plan)), "run", "--checkpoint", new.name, text=text, what="the table")

    def check_refused(self, files: list[str], new: Path) -> None:
        """Joins that are refused, and leave the new file as it was: to a file that holds a study, of a file with itself, of
        the new file among the old ones, and of a file without a study, which is named where that is asked for."""
        again, empty, none, before = "again.cut", "empty.cut", "none.cut", new.read_bytes()
        (self.folder / empty).touch()
        text, full = self.text, [it for it in files if self.shares[it]]
        self.expect_run(refused("25 Held"), "join", new.name, *files, text=text)
        if full:
            found, faults, status = self.program.run("join", again, *files, full[0], text=text)
            expected = ("", "cutlab: fault 17 BadSlip", 4)
            self.expect("a file that is joined twice", expected, (found, faults[:24], status))
        for last, fault in ((again, "20 Disk"), (none, "20 Disk"), (empty, "22 NoStudy")):
            self.expect_run(refused(fault), "join", again, *files, last, text=text)
        named = f'cutlab: file {len(files) + 1}: "{empty}"\ncutlab: fault 22 NoStudy\n'
        self.expect_run(Ended("", named, 4), "join", "--which", again, *files, empty, text=text)
        written = {it.name for it in self.folder.iterdir() if it.stat().st_size or it.name == none}
        left = new.read_bytes(), written & {again, none}
        self.expect("the new files after joins that were refused", (before, set()), left)
