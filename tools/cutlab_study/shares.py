"""Exact shares of proposals, where every order of the alerts at a receiver is equally likely.

Give each alert a time of its own between 0 and 1, each evenly spread: then every order of the alerts is equally likely. A
process with `alerts` alerts is reported from the time of its L-th alert on, and stable from that of its H-th. A receiver
proposes as soon as some process is stable and none is reported without being stable. So for a set S of processes let f_S(u)
be the density with which a receiver that hears of S alone proposes all of S at the time u. Whoever has heard enough of all of S
at u has proposed some part T of S at some v up to u, and of the others in S it had not heard L alerts then:

    A_S(u) = sum over the nonempty T in S of the integral from 0 to u of f_T(v) Q_(S - T)(v, u) dv

where A_S(u) is the chance that each process of S is stable at u, and Q_R(v, u) the chance that each of R is not reported at v
and is stable at u. The chance that S is proposed, among others of which a set R is never in a proposal or comes later, is the
integral of f_S(v) B_R(v), where B_R(v) is the chance that none of R is reported at v.

All of these are polynomials. In powers u^n / n! they have whole coefficients, so the chances are exact fractions.

Processes of one kind are taken by number. With implicit alerts a process needs fewer alerts of its own, the more of its
observers are in the proposed set; processes that observe one another are then taken one by one."""
from fractions import Fraction
from collections import Counter
from functools import lru_cache, reduce
from itertools import accumulate, product
from math import comb, factorial, lcm, prod
from typing import Iterable, Iterator, NamedTuple, Sequence

# A polynomial in one variable: the coefficient of each power. In two, those of v^a (u - v)^(b - a), by (a, b).
Polynomial = dict[int, int]
Surface = dict[tuple[int, int], int]
# What holds, or how it changes, at each place of some axes.
Table = dict[tuple[int, ...], int]
# How many of each kind of a world.
Counts = tuple[int, ...]


class Rule(NamedTuple):
    """The watermarks: a process is reported with L alerts, and stable with H."""

    h: int
    l: int


class Need(NamedTuple):
    """What a process of a proposed set needs to be stable there: of its alerts, `inner` come from observers in the set, whose
    rings count anyway, and of the others it needs `outer`; it needs L of all."""

    alerts: int
    inner: int
    outer: int


Needs = tuple[tuple[Need, int], ...]


def times(one: Polynomial, other: Polynomial) -> Polynomial:
    found: Polynomial = Counter()
    for (a, x), (b, y) in product(one.items(), other.items()):
        found[a + b] += x * y
    return found


def product_of(factors: Iterable[Iterable[tuple[int, int]]]) -> Polynomial:
    return reduce(times, (dict(it) for it in factors), {0: 1})


def times_on(one: Surface, other: Surface) -> Surface:
    found: Surface = Counter()
    for ((a, b), x), ((c, d), y) in product(one.items(), other.items()):
        found[a + c, b + d] += x * y
    return {key: value for key, value in found.items() if value}


def differences(values: Sequence[int]) -> list[int]:
    """The differences of each order of values, at the first of them."""
    found = []
    while values:
        found.append(values[0])
        values = [later - sooner for sooner, later in zip(values, values[1:])]
    return found


def folded(table: Table, axis: int) -> Table:
    """A table's differences of each order along an axis, at 0."""
    lines: dict[tuple[int, ...], list[int]] = {}
    for at, value in sorted(table.items()):
        lines.setdefault(at[:axis] + at[axis + 1 :], []).append(value)
    return {
        at[:axis] + (order,) + at[axis:]: change
        for at, values in lines.items()
        for order, change in enumerate(differences(values))
    }


def choices(count: int, *parts: int) -> int:
    """In how many ways some of `count` things are divided into parts of these sizes."""
    return factorial(count) // prod(map(factorial, parts)) // factorial(count - sum(parts))


@lru_cache(maxsize=None)
def unreported(alerts: int, l: int) -> tuple[tuple[int, int], ...]:
    """The chance that fewer than L of some alerts came by v."""
    changes = differences([int(i < l) for i in range(alerts + 1)])
    return tuple((a, comb(alerts, a) * change) for a, change in enumerate(changes) if change)


@lru_cache(maxsize=None)
def stable(need: Need, l: int) -> tuple[tuple[int, int], ...]:
    """The chance that a process has all that it needs by u."""
    return tuple((b, x) for (a, b), x in unreported_then_stable(need, l) if a == 0)


@lru_cache(maxsize=None)
def unreported_then_stable(need: Need, l: int) -> tuple[tuple[tuple[int, int], int], ...]:
    """The chance that fewer than L of a process's alerts came by v, and all that it needs by u.

    For each of the two kinds of alerts let i come by v and j after v, up to u. The chance of a condition on these four numbers
    is a sum over its differences at 0, as that of a condition on one number is.
    """
    outer, inner = need.alerts - need.inner, need.inner
    table: Table = {
        (i, j, m, n): int(i + m < l <= i + j + m + n and i + j >= need.outer)
        for i, m in product(range(outer + 1), range(inner + 1))
        for j, n in product(range(outer - i + 1), range(inner - m + 1))
    }
    for axis in range(4):
        table = folded(table, axis)
    found: Surface = Counter()
    for (a, c, d, e), change in table.items():
        found[a + d, a + d + c + e] += choices(outer, a, c) * choices(inner, d, e) * change
    return tuple(it for it in found.items() if it[1])


@lru_cache(maxsize=4096)
def power(need: Need, l: int, exponent: int) -> Surface:
    """The chance of `unreported_then_stable` for as many processes."""
    if exponent == 0:
        return {(0, 0): 1}
    return times_on(power(need, l, exponent - 1), dict(unreported_then_stable(need, l)))


class Kind(NamedTuple):
    """Processes that are alike: this many alerts come of each, and each is one of the failed ones or not. A process that
    others observe which may be proposed is a kind by itself: of each ring it is known which of the world's kinds observes it
    there, if one does, and whether its alert comes. So is one that observes others."""

    alerts: int
    is_target: bool
    observed: tuple[tuple[int, bool], ...] = ()

    def need(self, h: int, members: Counts) -> Need:
        """What each of them needs in a set of these members."""
        inside = [is_alerted for observer, is_alerted in self.observed if members[observer]]
        return Need(self.alerts, sum(inside), max(0, h - len(inside)))


class World(NamedTuple):
    """The processes of which alerts come to a receiver: kinds with their numbers, those taken one by one at the end."""

    kinds: tuple[tuple[Kind, int], ...]
    singles: int = 0


class Proposed(NamedTuple):
    """How many of each kind it has, in how many ways these can be chosen, and in what share of the orders one is proposed."""

    counts: Counts
    ways: int
    share: Fraction


def below(counts: Counts) -> Iterator[Counts]:
    return product(*(range(count + 1) for count in counts))


class Shares:
    """The shares of the proposals that a receiver may make, in a world and by a rule."""

    def __init__(self, world: World, rule: Rule) -> None:
        self.world, self.rule = world, rule
        # Only what may become stable is in a proposal; the other kinds can only keep a receiver silent.
        self.numbers = tuple(count if it.alerts >= rule.h or it.observed else 0 for it, count in world.kinds)
        self.size = sum(it.alerts * count for (it, _), count in zip(world.kinds, self.numbers))
        self.densities: dict[Counts, Polynomial] = {}
        self.sums: dict[Needs, dict[int, list[int]]] = {}

    def needs(self, counts: Counts, members: Counts) -> Needs:
        """What some processes need in a set of these members, and how many of each kind they are."""
        kinds = zip(self.world.kinds, counts)
        return tuple((kind.need(self.rule.h, members), count) for (kind, _), count in kinds if count)

    def integrals(self, needs: Needs) -> dict[int, list[int]]:
        """For processes none of which is reported at v, and each of which is stable at u: for each power b of that chance,
        the numbers by which u^(p + b + 1) / (p + b + 1)! counts where v^p / p! is integrated against it, for each p that a
        density has. They are sums of binomial numbers, and so repeated sums of the coefficients."""
        later = reduce(times_on, (power(need, self.rule.l, count) for need, count in needs), {(0, 0): 1})
        rows: dict[int, list[int]] = {}
        for (a, b), x in later.items():
            rows.setdefault(b, [0] * (b + 1))[b - a] += x * factorial(a) * factorial(b - a)
        found: dict[int, list[int]] = {b: [] for b in rows}
        for b, row in rows.items():
            for _ in range(self.size + 1):
                row = list(accumulate(row))
                found[b].append(row[-1])
        return found

    def density(self, members: Counts) -> Polynomial:
        """The density with which a receiver that hears of a set alone proposes all of it, by powers u^p / p!."""
        if members in self.densities:
            return self.densities[members]
        needs = self.needs(members, members)
        all_stable = product_of(stable(need, self.rule.l) for need, count in needs for _ in range(count))
        whole = Counter({n: x * factorial(n) for n, x in all_stable.items()})
        for part in below(members):
            earlier = self.density(part) if any(part) and part != members else {}
            if not earlier:
                continue
            rest = tuple(count - its for count, its in zip(members, part))
            needs, ways = self.needs(rest, members), prod(map(comb, members, part))
            if needs not in self.sums:
                self.sums[needs] = self.integrals(needs)
            for b, its in self.sums[needs].items():
                for p, x in earlier.items():
                    whole[p + b + 1] -= ways * x * its[p]
        found = self.densities[members] = {n - 1: x for n, x in whole.items() if x}
        return found

    def proposals(self) -> Iterator[Proposed]:
        for members in below(self.numbers):
            density = self.density(members) if any(members) else {}
            if not density:
                continue
            # The chance that no other process of the world is reported at v.
            left = [(kind.alerts, number - count) for (kind, number), count in zip(self.world.kinds, members)]
            others = product_of(unreported(alerts, self.rule.l) for alerts, number in left for _ in range(number))
            common = lcm(*range(1, max(density) + max(others) + 2))
            total = sum(
                x * factorial(max(density)) // factorial(p) * y * (common // (p + d + 1))
                for (p, x), (d, y) in product(density.items(), others.items())
            )
            share = Fraction(total, common * factorial(max(density)))
            if share:
                yield Proposed(members, prod(map(comb, self.numbers, members)), share)
