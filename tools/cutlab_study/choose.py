"""The watermarks that do best in a table."""
from operator import attrgetter
from typing import Callable, Iterator, NamedTuple

from .plans import Refused
from .tables import Line, Share, Table, grouped, shown

Pair = tuple[int, int, int]
# What may have a limit: whether that is the most, and what it is a share of.
LIMITED = (("conflicts", True, "receivers"), ("silent", True, "receivers"), ("right", False, "trials"))


class Worst(NamedTuple):
    """A pair of watermarks by its worst line in each respect, over all numbers of failed processes but none."""

    pair: Pair
    ppm: int
    conflicts: Share
    proposals: Share
    silent: Share
    right: Share
    wrong: int

    def __str__(self) -> str:
        k, h, l = self.pair
        wrong = f"; in {self.wrong} trials a quorum agreed on a wrong set" if self.wrong else ""
        conflicts = f"{self.conflicts} of receivers ({self.ppm} ppm), {shown(self.proposals.share)} of proposals"
        return f"K = {k}, H = {h}, L = {l}: conflicts {conflicts}; silent {self.silent}; right {self.right} of trials{wrong}"


class Limits(NamedTuple):
    """What a pair must keep to, by its worst lines."""

    conflicts: float | None
    silent: float | None
    right: float | None

    def compared(self, it: Worst) -> Iterator[tuple[str, float, bool]]:
        """Of each limit how far a pair is from it: in words, in parts of it, and whether the pair lacks it."""
        for name, is_most, of in LIMITED:
            limit, found = getattr(self, name), getattr(it, name)
            if limit is not None:
                over, under = (found.share, limit) if is_most else (limit, found.share)
                said = f"{name} {found} {'above' if is_most else 'below'} {shown(limit)} of {of}"
                yield said, over / max(under, 1e-9), over > under

    def lacks(self, it: Worst) -> list[str]:
        return [said for said, _, is_lacking in self.compared(it) if is_lacking]

    def distance(self, it: Worst) -> float:
        return max((parts for _, parts, _ in self.compared(it)), default=0.0)


def worst_of(pair: Pair, lines: list[Line]) -> Worst:
    by_share = attrgetter("share")
    conflicts, silent = (max((it.share(name) for it in lines), key=by_share) for name in ("conflict", "silent"))
    right = min((it.share("right") for it in lines), key=by_share)
    proposals = [it.share("proposal") for it in lines if it.receivers > it.silent] or [Share(1.0, 0.0, 1.0, 0)]
    ppm, wrong = max(it.ppm for it in lines), sum(it.decided - it.right for it in lines)
    return Worst(pair, ppm, conflicts, max(proposals, key=by_share), silent, right, wrong)


# What the pairs are sorted by: the first is best.
ORDERS: dict[str, Callable[[Worst], tuple[float, ...]]] = {
    "conflicts": lambda it: (it.proposals.share, it.silent.share, -it.right.share),
    "right": lambda it: (-it.right.share, it.proposals.share, it.silent.share),
    "silent": lambda it: (it.silent.share, it.proposals.share, -it.right.share),
}
NARROW = "  H = K: one lost alert, or one observer that raises none, stops every proposal. "
NARROW += "This model loses no alert, so no number here shows it. Take at most H = K - 1."


def said_of(it: Worst) -> list[str]:
    return [str(it), NARROW] if it.pair[1] == it.pair[0] else [str(it)]


def choose(table: Table, limits: Limits, order: str, best: int) -> tuple[set[Pair], list[str]]:
    """The best pairs for each number of rings, and what is said of them; where there are none, the nearest is."""
    pairs = grouped(table.failing, lambda it: it.cell[:3])
    if not pairs:
        why = "it has only cells in which nobody fails, and no pair is better than another there"
        raise Refused(f"{table.name}: {why}")
    found, chosen = [worst_of(pair, lines) for pair, lines in pairs.items()], list[Worst]()
    for k in sorted({it.pair[0] for it in found}):
        # A pair with H below K comes before one with H = K, however they do.
        good = [one for one in found if one.pair[0] == k and not limits.lacks(one)]
        chosen += sorted(good, key=lambda one: (one.pair[1] == one.pair[0], *ORDERS[order](one)))[:best]
    if not chosen:
        nearest = min(found, key=limits.distance)
        near, *price = said_of(nearest)
        lacks = f"  it lacks: {'; '.join(limits.lacks(nearest))}"
        raise Refused("\n".join([f"no pair keeps to the limits. The nearest is {near}", lacks, *price]))
    return {it.pair for it in chosen}, [line for it in chosen for line in said_of(it)]
