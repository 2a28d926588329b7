"""The exact columns of a plan's cells, where every order of the alerts at a receiver is equally likely."""
import math
import statistics
from collections import Counter
from fractions import Fraction
from functools import lru_cache
from itertools import product
from typing import Iterator, NamedTuple, Sequence

from .plans import Cell, Plan, cells, quorum, reference
from .shares import Kind, Proposed, Rule, Shares, World
from .tables import Table, check_fits

# How many products of coefficients are added up for one receiver, at most, which takes minutes; and for one pair of sets, at least.
MOST_STEPS, LEAST_STEPS = 2 * 10**9, 10**5


class Columns(NamedTuple):
    """The chances of a receiver's verdicts, and of a trial that it is decided, and decided by the failed ones alone."""

    conflicts: Fraction
    silent: Fraction
    extra: Fraction
    decided: float
    right: float


def tail(count: int, share: Fraction, least: int) -> float:
    """The chance that at least `least` of `count` receivers do what each does with this chance."""
    if least <= 0 or least > count or share in (0, 1):
        return float(least <= (count if share else 0))
    yes, no = (math.log(it.numerator) - math.log(it.denominator) for it in (share, 1 - share))

    def chance(number: int) -> float:
        ways = math.lgamma(count + 1) - math.lgamma(number + 1) - math.lgamma(count - number + 1)
        return math.exp(ways + number * yes + (count - number) * no)

    if least > share * count:
        return min(1.0, math.fsum(chance(number) for number in range(least, count + 1)))
    return max(0.0, 1.0 - math.fsum(chance(number) for number in range(least)))


def steps_of(world: World, rule: Rule) -> int:
    """About how many products of coefficients are added up for a world: for each pair of a set and a part of it, of polynomials
    whose size goes with the alerts of the processes that observe one another."""
    common, singles = world.kinds[: len(world.kinds) - world.singles], world.kinds[len(world.kinds) - world.singles :]
    numbers, alerts = [number for kind, number in common if kind.alerts >= rule.h], sum(it.alerts for it, _ in singles)
    pairs = 3**world.singles * math.prod((number + 1) * (number + 2) // 2 for number in numbers)
    return int(pairs * max(LEAST_STEPS, (alerts * alerts // (2 * max(1, world.singles))) ** 2))


@lru_cache(maxsize=4096)
def proposals_of(world: World, rule: Rule) -> tuple[Proposed, ...]:
    return tuple(Shares(world, rule).proposals())


def columns_of(world: World, rule: Rule, receivers: int, least: int) -> Columns:
    targets = sum(number for kind, number in world.kinds if kind.is_target)
    spoken = conflicts = extra = Fraction(0)
    decided = right = 0.0
    for it in proposals_of(world, rule):
        share = it.ways * it.share
        failed = sum(count for (kind, _), count in zip(world.kinds, it.counts) if kind.is_target)
        lacks, adds = failed < targets, failed < sum(it.counts)
        spoken += share
        conflicts += share if lacks else 0
        extra += share if adds else 0
        agreed = tail(receivers, it.share, least)
        decided += it.ways * agreed
        right += 0.0 if lacks or adds else agreed
    return Columns(conflicts, 1 - spoken, extra, decided, right)


def crash_share(k: int, h: int, l: int, f: int) -> Fraction:
    """The share of conflicts where so many processes crash, and all of their alerts come."""
    return columns_of(World(((Kind(k, True), f),)), Rule(h, l), 1, 1).conflicts


def world_of(plan: Plan, layout: reference.Layout, roles: reference.Roles, cell: Cell) -> World:
    """The processes of which a trial's alerts come."""
    k, _, l, _ = cell
    edges = reference.alert_list(plan, layout, roles, k)
    alerts = Counter(subject for _, subject in edges)
    reported = {subject for subject, count in alerts.items() if count >= l} if plan["implicit"] else set()
    observed: dict[int, list[tuple[int, int]]] = {subject: [] for subject in reported}
    for subject, ring in product(reported, range(k)):
        if (observer := layout.observer(ring, subject)) in reported:
            observed[subject].append((ring, observer))
    observing = {observer for its in observed.values() for _, observer in its}
    single = sorted(subject for subject in reported if observed[subject] or subject in observing)
    common = ((subject, count) for subject, count in alerts.items() if subject not in single)
    numbers = Counter(Kind(count, subject in roles.targets) for subject, count in common)
    # A failed process of which no alert comes is in no proposal, so that each one lacks it.
    numbers.update(Kind(0, True) for subject in roles.targets if subject not in alerts)
    kinds, alerted = sorted(numbers.items()), set(edges)
    place = {subject: at for at, subject in enumerate(single, len(kinds))}
    for subject in single:
        its = tuple((place[observer], (ring, subject) in alerted) for ring, observer in observed[subject])
        kinds.append((Kind(alerts[subject], subject in roles.targets, its), 1))
    return World(tuple(kinds), len(single))


def needs_no_roles(plan: Plan) -> bool:
    """Whether each failed process has an alert on each ring and nobody else has one, whatever the roles are."""
    deaf = plan["deaf"] if plan["version"] == 2 else int(plan["faults"] == "deaf")
    return not (plan["implicit"] or plan["liars"] or plan["links"] or deaf) and plan["dead"] == "speak"


class CellColumns(NamedTuple):
    """A cell with its columns, and of how many trials' roles they are the mean; where it would take too long, why."""

    cell: Cell
    columns: Columns | None
    trials: int
    why: str = ""


def worlds_of(plan: Plan, layout: reference.Layout, number: int, count: int) -> list[World]:
    cell, first = cells(plan)[number], number * plan["repeats"]
    sources = (reference.Source(plan, trial) for trial in range(first, first + count))
    return [world_of(plan, layout, reference.Roles(plan, cell[3], it, layout), cell) for it in sources]


def exact(plan: Plan, trials: int | None = None) -> Iterator[CellColumns]:
    """The columns of each cell of a plan, by the roles of its first `trials` trials, or of all."""
    nodes, least = plan["nodes"], quorum(plan["nodes"])
    layout = None if needs_no_roles(plan) else reference.layout_of(plan)
    for number, cell in enumerate(cells(plan)):
        k, h, l, f = cell
        rule = Rule(h, l)
        if layout is None:
            worlds = [World(((Kind(k, True), f),) if f else ())]
        else:
            worlds = worlds_of(plan, layout, number, min(plan["repeats"], trials or plan["repeats"]))
        steps, count = max(steps_of(it, rule) for it in worlds), 0 if layout is None else len(worlds)
        if steps > MOST_STEPS:
            why = f"as {max(it.singles for it in worlds)} processes observe one another"
            yield CellColumns(cell, None, count, f"about {steps:.0e} products would be added up, {why}")
        else:
            found = [columns_of(it, rule, nodes - f, least) for it in worlds]
            yield CellColumns(cell, Columns._make(map(statistics.mean, zip(*found))), count)


def ladder(k: int, failures: Sequence[int]) -> list[tuple[int, int, int, Fraction]]:
    """H, L, F and the share of conflicts of each pair of watermarks of K rings, the rarest conflicts first by the worst F."""
    pairs = [(h, l) for h in range(1, k + 1) for l in range(1, h + 1)]
    found = [[(h, l, f, crash_share(k, h, l, f)) for f in failures] for h, l in pairs]
    return [row for rows in sorted(found, key=lambda its: max(row[3] for row in its)) for row in rows]


def chance_of_more(square_sum: float, count: int) -> float:
    """How often the squares of `count` normal variables add up to more than this: each two more add one term."""
    x = square_sum / 2
    found, a = (math.erfc(math.sqrt(x)), 0.5) if count % 2 else (math.exp(-x), 1.0)
    for more in range(count // 2 if count % 2 else count // 2 - 1):
        found += math.exp((a + more) * math.log(x) - x - math.lgamma(a + more + 1)) if x else 0.0
    return min(found, 1.0)


def beside(plan: Plan, table: Table) -> Iterator[str]:
    """The shares of conflicts of a plan's table beside the exact ones, by the roles of all of its trials: their distance in
    standard deviations of as many unrelated receivers, and at the end how often chance gives distances as great."""
    check_fits(plan, table)
    squares, count = 0.0, 0
    yield "k  h  l  f    receivers  conflicts      rate     exact  deviations"
    for it, line in zip(exact(plan), table.lines):
        if it.columns is None:
            yield f"{line.k:<2} {line.h:<2} {line.l:<2} {line.f:<4} left out: {it.why}"
            continue
        share = it.columns.conflicts
        rate, spread = line.conflicts / line.receivers, math.sqrt(float(share * (1 - share)) / line.receivers)
        distance = (rate - float(share)) / spread if spread else 0.0
        start = f"{line.k:<2} {line.h:<2} {line.l:<2} {line.f:<4} {line.receivers:>9} {line.conflicts:>10}"
        yield f"{start} {rate:>9.6f} {float(share):>9.6f}" + (f" {distance:>11.2f}" if spread else "")
        if min(share, 1 - share) * line.receivers >= 5:
            squares, count = squares + distance**2, count + 1
    if count:
        what = f"sum of squares {squares:.1f} over {count} lines that expect 5 conflicts or more"
        yield f"{what}; chance gives more in {100 * chance_of_more(squares, count):.0f} of 100 studies"
