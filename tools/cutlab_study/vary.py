"""Runs of a plan with other values of a field, and tables beside one another."""
import json
import math
import shutil
from typing import Any, Iterator

from .plans import CUTLAB, Plan, Refused, plan_of, read_plan, text_of
from .tables import COUNTS, DISTANCE, Line, Share, Table, check_fits, csv_of, read_table

LISTS = ("k", "h", "l", "f")


def value_of(field: str, text: str) -> Any:
    """A value as a plan has it. A seed is a text, also where it has only decimal digits."""
    if field == "seed":
        return text
    try:
        return [int(number) for number in text.split(",")] if field in LISTS else json.loads(text)
    except ValueError:
        return text


def vary(plan: Plan, field: str, values: list[str], workers: int | None) -> Iterator[str]:
    """The lines of one table, whose first column is the field's value."""
    if field not in plan:
        raise Refused(f"a plan of version {plan['version']} has no field {field}; it has {', '.join(sorted(plan))}")
    plans = [plan_of(text_of({**plan, field: value_of(field, text)})) for text in values]
    if not shutil.which("cutlab"):
        raise Refused("cutlab is not on the PATH")
    words, name = ["--workers", str(workers)] if workers else [], f"{field}_set" if field in LISTS else field
    for number, (text, its) in enumerate(zip(values, plans)):
        done = CUTLAB.run("run", *words, text=text_of(its), limit=None)
        if done.status:
            raise Refused(done.errors.rstrip("\n"))
        header, *lines = done.output.splitlines()
        yield from [f"{name},{header}"] if number == 0 else []
        yield from (f"{text.replace(',', ' ')},{line}" for line in lines)


def differ(one: Share, other: Share) -> bool:
    """Whether two shares differ by more than chance gives in one of twenty cases."""
    if not one.of or not other.of:
        return False
    both = (one.share * one.of + other.share * other.of) / (one.of + other.of)
    spread = math.sqrt(both * (1 - both) * (1 / one.of + 1 / other.of))
    return abs(one.share - other.share) > DISTANCE * spread if spread else one.share != other.share


def compare(one: Table, other: Table) -> Iterator[str]:
    """For each cell of both tables its shares in each, and which of them differ."""
    others = {it.cell: it for it in other.lines}
    shared = [(it, others[it.cell]) for it in one.lines if it.cell in others]
    if not shared:
        raise Refused(f"{one.name} and {other.name} have no cell in common")
    for it, there in shared:
        yield str(it)
        for name in ("conflict", "silent", "decided", "right"):
            a, b = it.share(name), there.share(name)
            yield f"  {name:<8} {a}  {b}  {'differ' if differ(a, b) else 'no difference seen'}"
    alone = len(one.lines) + len(other.lines) - 2 * len(shared)
    if alone:
        yield f"{alone} cells are in one of the two tables alone"


def pool(pairs: list[tuple[str, str]]) -> str:
    """The sums of the tables of plans that differ in the seed alone, given as (plan, table)."""
    plans, tables = [read_plan(path) for path, _ in pairs], [read_table(path) for _, path in pairs]
    for (path, _), plan, table in zip(pairs, plans, tables):
        if {**plan, "seed": ""} != {**plans[0], "seed": ""}:
            fields = sorted(it for it in {*plan, *plans[0]} - {"seed"} if plan.get(it) != plans[0].get(it))
            both = f"{path} and {pairs[0][0]} differ in {', '.join(fields)}"
            raise Refused(f"{both}: only plans that differ in the seed alone add up")
        check_fits(plan, table)
    if len({plan["seed"] for plan in plans}) < len(plans):
        raise Refused("two of the plans have one seed: they have the same trials, which count once")
    lines: list[Line] = []
    for its in zip(*(table.lines for table in tables)):
        names = [name for name in COUNTS if getattr(its[0], name) is not None]
        lines.append(its[0]._replace(**{name: sum(getattr(it, name) for it in its) for name in names}))
    return csv_of(lines)
