"""Tables that the program printed: their lines, shares with bounds, and sums."""
import csv
import io
import math
from itertools import groupby
from typing import Any, Callable, Iterable, NamedTuple, TypeVar

from .plans import Cell, Plan, Refused, cells, read_text

COUNTS = ("trials", "receivers", "conflicts", "silent", "extra", "votes", "decided", "right", "settled")
Key = TypeVar("Key", bound=Any)
# The distance of the bounds of 95 %, in standard deviations.
DISTANCE = 1.959964


class Share(NamedTuple):
    """A share that was counted: of `of` unrelated tries, with the bounds between which the chance lies with 95 % (Wilson)."""

    share: float
    low: float
    high: float
    of: int

    @property
    def bounds(self) -> str:
        return f"[{shown(self.low)}, {shown(self.high)}]"

    def __str__(self) -> str:
        return f"{shown(self.share)} ({shown(self.low)} to {shown(self.high)})"


def shown(share: float) -> str:
    """A share in percent, or in powers of ten where it is rare."""
    if share == 0:
        return "0"
    return f"{100 * share:.3g} %" if share >= 0.0001 else f"{share:.2g}"


def share_of(count: float, of: int, tries: int | None = None) -> Share:
    """A share of some tries; where these are related in groups, `tries` is the number of groups."""
    n = of if tries is None else tries
    if of == 0 or n == 0:
        return Share(math.nan, 0.0, 1.0, 0)
    found, square = count / of, DISTANCE**2
    middle = (found + square / (2 * n)) / (1 + square / n)
    half = DISTANCE / (1 + square / n) * math.sqrt(found * (1 - found) / n + square / (4 * n * n))
    return Share(found, max(0.0, middle - half) if found > 0 else 0.0, min(1.0, middle + half) if found < 1 else 1.0, n)


class Line(NamedTuple):
    k: int
    h: int
    l: int
    f: int
    trials: int
    receivers: int
    conflicts: int
    silent: int
    extra: int
    votes: int
    decided: int
    right: int
    settled: int | None

    def __str__(self) -> str:
        return f"K = {self.k}, H = {self.h}, L = {self.l}, F = {self.f}"

    @property
    def cell(self) -> Cell:
        return self.k, self.h, self.l, self.f

    @property
    def ppm(self) -> int:
        """Conflicts in a million receivers, as the table has them."""
        return self.conflicts * 1_000_000 // self.receivers

    def share(self, what: str) -> Share:
        """A share: of all receivers, each of which has an order of its own, or of trials. Those of a trial share who fails
        and who observes whom, so that for silence a trial is one try."""
        counted = {
            "conflict": (self.conflicts, self.receivers),
            "proposal": (self.conflicts, self.receivers - self.silent),
            "silent": (self.silent, self.receivers, self.trials),
            "decided": (self.decided, self.trials),
            "right": (self.right, self.trials),
        }
        return share_of(*counted[what])


class Table(NamedTuple):
    name: str
    lines: list[Line]

    @property
    def failing(self) -> list[Line]:
        """The lines in which somebody fails."""
        return [it for it in self.lines if it.f > 0]


def grouped(lines: Iterable[Line], key: Callable[[Line], Key]) -> dict[Key, list[Line]]:
    """Lines by what they have in common, in its order."""
    return {common: list(its) for common, its in groupby(sorted(lines, key=key), key)}


def rows_in(text: bytes) -> list[dict[str, str]]:
    return list(csv.DictReader(io.StringIO(text.decode(errors="replace"))))


def line_of(name: str, number: int, row: dict[str, str]) -> Line:
    try:
        values = {it: int(row[it] or "") for it in ("k", "h", "l", "f", *COUNTS[:-1])}
        settled = int(row["settled"] or "") if row.get("settled") is not None else None
    except (KeyError, ValueError):
        raise Refused(f"{name}: line {number}: this is no line of a table of cutlab") from None
    if values["receivers"] < 1 or values["silent"] > values["receivers"] or values["trials"] < 1:
        raise Refused(f"{name}: line {number}: no cell has such sums")
    return Line(**values, settled=settled)


def table_of(name: str, text: bytes) -> Table:
    lines = [line_of(name, number, row) for number, row in enumerate(rows_in(text), 2)]
    if not lines:
        raise Refused(f"{name}: it has no lines; a table has a header and a line for each cell")
    if len({it.cell for it in lines}) < len(lines):
        why = "tables of one plan that differ in a field need a column for it, as `study vary` prints them"
        raise Refused(f"{name}: a cell has two lines; {why}, and are read one by one")
    return Table(name, lines)


def read_table(path: str) -> Table:
    return table_of(path, read_text(path))


def check_fits(plan: Plan, table: Table) -> None:
    """That a table may be one of a plan."""
    if [it.cell for it in table.lines] != cells(plan):
        raise Refused(f"{table.name}: its cells are not those of the plan, in their order; was the run cut short?")
    for it in table.lines:
        if it.trials != plan["repeats"] or it.receivers != plan["repeats"] * (plan["nodes"] - it.f):
            raise Refused(f"{table.name}: {it}: other numbers of trials or receivers than the plan's")


def csv_of(lines: list[Line]) -> str:
    names = ["k", "h", "l", "f", *(it for it in COUNTS if getattr(lines[0], it) is not None), "ppm"]
    rows = [",".join(str(getattr(it, name)) for name in names) for it in lines]
    return "\n".join([",".join(names), *rows]) + "\n"
