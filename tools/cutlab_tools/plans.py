"""Plans that are drawn, small enough for the reference to compute, and what has to be printed of them."""
import json
import random
from typing import Any, Callable, Iterable, Sequence

from .paths import reference
from .program import Ended

Plan = reference.Plan
# The study that takes least.
SMALLEST: Plan = dict(copies=1, dead="silent", f=[0], faults="crash", h=[1], implicit=True, k=[1], l=[1], liars=0)
SMALLEST |= dict(links=0, nodes=2, repeats=1, seed="0" * 64, version=1)


def text_of(plan: Plan) -> bytes:
    return json.dumps(plan).encode()


def rising(rng: random.Random, low: int, high: int, most: int) -> list[int]:
    """A rising list of at most `most` numbers of a range."""
    return sorted(rng.sample(range(low, high + 1), min(high - low + 1, rng.randint(1, most))))


def drawn_seed(rng: random.Random) -> str:
    return f"{rng.getrandbits(256):064x}"


def drawn_fields(rng: random.Random, versions: Sequence[int]) -> Plan:
    """Values for the fields of a plan, which may not go together."""
    nodes = rng.choice([2, 3, 4, 5, 6, 8, 9, 12, 17, 24, 33, 40])
    top = rng.choice([1, 2, 3, 4, 5, 6, 8, 10, 16, 17, 20, 32])
    k = rising(rng, max(1, top - 2), top, 2)
    f = rising(rng, 0, min(nodes - 1, rng.choice([1, 2, 4, nodes - 1])), 2)
    liars = rng.choice([0, 0, 1, rng.randint(0, nodes)])
    plan: Plan = {"copies": rng.choice([1, 1, 2, 3, 4]), "dead": rng.choice(["silent", "speak"]), "f": f}
    plan |= {"h": rising(rng, 1, k[-1], 3), "implicit": rng.random() < 0.5, "k": k, "l": rising(rng, 1, k[-1], 3)}
    plan |= {"liars": liars, "links": rng.choice([0, 0, 2, rng.randint(0, nodes)]), "nodes": nodes}
    plan |= {"repeats": rng.randint(1, 4), "seed": drawn_seed(rng), "version": rng.choice(versions)}
    if plan["version"] == 1:
        return {**plan, "faults": rng.choice(["crash", "deaf"])}
    return {**plan, "deaf": rng.choice([0, 1, 2, rng.randint(0, 2048)])}


def drawn_plan(rng: random.Random, versions: Sequence[int] = (1, 2), most_work: int = 40_000) -> Plan:
    """A plan that is accepted, small enough for the reference to compute."""
    while True:
        plan = drawn_fields(rng, versions)
        text = text_of(plan)
        if fault_of(text) is None and work_of(reference.plan_of(text)) < most_work:
            return plan


def drawn_words(rng: random.Random, workers: int, piece: int) -> list[str]:
    """The options of a run: a number of workers, and of trials of a piece."""
    return ["--workers", str(rng.randint(1, workers)), "--piece", str(rng.randint(1, piece))]


def work_of(plan: Plan) -> int:
    others = plan["liars"] + plan["links"]
    each = sum(k * (2 * f + others) * (1 + f + plan["liars"]) for k, _, _, f in reference.cells(plan))
    return int(plan["repeats"] * plan["nodes"] * plan["copies"] * each)


def trials_of(plan: Plan) -> int:
    return int(len(reference.cells(plan)) * plan["repeats"])


def trials_in(slips: Iterable[Sequence[Any]]) -> list[int]:
    return sorted(trial for first, count, *_ in slips for trial in range(first, first + count))


def slips_in(plan: Plan, held: bytes) -> list[reference.Slip]:
    return list(reference.checked_slips(plan, reference.slips_of(plan, held)))


def upgrade(plan: Plan) -> Plan:
    """The plan of version 2 whose targets fail in the same way."""
    rest = {field: value for field, value in plan.items() if field != "faults"}
    return {**rest, "version": 2, "deaf": plan["f"][-1] if plan["faults"] == "deaf" else 0}


def fault_of(text: bytes) -> int | None:
    """The number of the fault by which a text is refused, or nothing where it is a plan."""
    try:
        reference.plan_of(text)
    except reference.Fault as fault:
        return int(fault.number)
    return None


def sizes(plan: Plan) -> str:
    return f"cells {len(reference.cells(plan))}\ntrials {trials_of(plan)}\nquorum {reference.quorum(plan['nodes'])}\n"


def wanted(text: bytes, printed: Callable[[Plan], str]) -> Ended:
    """How a command has to end that prints this of the plan of a text."""
    try:
        return Ended(printed(reference.plan_of(text)))
    except reference.Fault as fault:
        return Ended("", f"{fault}\n", 3)
