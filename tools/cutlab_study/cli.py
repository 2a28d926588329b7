"""The commands of tools/study."""
import argparse
import os
import sys
from pathlib import Path
from typing import Any, Callable, Iterable, Iterator

from . import choose as choosing, exact as shares, vary as varying
from .plans import Refused, read_plan, read_text
from .plot import View, plot_along, plot_gaps, plot_rare
from .report import page
from .tables import read_table

Words = argparse.Namespace
Word = tuple[tuple[str, ...], dict[str, Any]]
Does = Callable[[Words], Iterable[str]]
PREMISE = "# Shares where every order of the alerts at a receiver is equally likely, and every alert arrives. "
PREMISE += "That ChaCha8's draws behave so is what a comparison shows, and no proof says."


def word(*names: str, about: str | None = None, **how: Any) -> Word:
    return names, {**how, "help": about}


def limits_of(given: Words) -> choosing.Limits:
    return choosing.Limits(given.conflicts, given.silent, given.right)


def parts(text: str, option: str, why: str) -> tuple[str, str]:
    """What stands before and after the sign of a word."""
    name, sign, value = text.partition("=")
    if not sign:
        raise Refused(f"{option}{text}: it is {why}")
    return name, value


def exact(given: Words) -> Iterator[str]:
    """Print the exact shares of a plan's cells, without a trial"""
    plan = read_plan(given.plan)
    yield PREMISE
    if given.ladder:
        yield "k,h,l,f,conflicts,fraction"
        for k in plan["k"]:
            for h, l, f, share in shares.ladder(k, [it for it in plan["f"] if it]):
                yield f"{k},{h},{l},{f},{float(share):.6g},{share if share.denominator < 10**24 else ''}"
    elif given.beside:
        yield from shares.beside(plan, read_table(given.beside))
    else:
        yield "k,h,l,f,conflicts,silent,extra,decided,right,trials"
        for it in shares.exact(plan, given.trials):
            columns: Iterable[Any] = it.columns or ()
            cell, found = ",".join(map(str, it.cell)), [f"{float(share):.6g}" for share in columns]
            yield ",".join([cell, *found, str(it.trials)]) if found else f"# {cell} left out: {it.why}"


def choose(given: Words) -> list[str]:
    """Say which watermarks do best in a table"""
    return choosing.choose(read_table(given.table), limits_of(given), given.by, given.best)[1]


def vary(given: Words) -> Iterator[str]:
    """Run a plan once for each value of a field, and print one table"""
    plan, why = read_plan(given.plan), "FIELD=VALUE, of a field that the plan has"
    for one in given.set:
        field, text = parts(one, "--set ", why)
        if field not in plan:
            raise Refused(f"--set {one}: it is {why}")
        plan[field] = varying.value_of(field, text)
    return varying.vary(plan, given.field, given.values, given.workers)


def compare(given: Words) -> Iterator[str]:
    """Say where two tables differ by more than chance"""
    return varying.compare(read_table(given.one), read_table(given.other))


def pool(given: Words) -> list[str]:
    """Add up the tables of plans that differ in the seed alone"""
    pairs = [parts(it, "", "PLAN=TABLE, so that the plans can be compared") for it in given.pairs]
    return varying.pool(pairs).splitlines()


def plot(given: Words) -> list[str]:
    """Draw a table by gnuplot"""
    where = dict(parts(it, "--where ", "COLUMN=VALUE") for it in given.where)
    if given.exact:
        plot_rare(read_plan(given.exact), read_table(given.table), given.output)
    elif given.along:
        view = View(given.of or "conflicts", given.along, given.each or "f", where)
        plot_along(given.table, read_text(given.table), given.output, view)
    elif where or given.of or given.each:
        raise Refused("--of, --each and --where are for a picture along a column: say which by --along")
    else:
        plot_gaps(read_table(given.table), given.output)
    return []


def report(given: Words) -> list[str]:
    """Make one page of a plan and its table, with pictures and the choice"""
    text = page(read_plan(given.plan), read_table(given.table), limits_of(given), given.trials)
    if given.output == "-":
        return text.splitlines()
    Path(given.output).write_text(text, encoding="utf-8")
    return []


PLAN, TABLE = word("plan"), word("table")
LIMITS = [
    word("--conflicts", type=float, about="the greatest share of receivers in conflict, on the worst line"),
    word("--silent", type=float, default=0.001, about="the greatest share of silent receivers (0.001)"),
    word("--right", type=float, about="the least share of trials in which a quorum proposes exactly the failed ones"),
]
BY, BY_ROLES = "what the best pair has least or most of", "exact shares by the roles of how many trials of each cell"
# The commands, each of which prints the lines that its function returns, with their words.
COMMANDS: dict[Does, list[Word]] = {
    exact: [
        PLAN,
        word("--ladder", action="store_true", about="all pairs of H and L of its K and F, the rarest conflicts first"),
        word("--beside", metavar="TABLE", about="set the plan's table beside the exact shares of conflicts"),
        word("--trials", type=int, default=20, about=f"{BY_ROLES}, where roles matter (20)"),
    ],
    choose: [
        TABLE,
        word("--by", choices=sorted(choosing.ORDERS), default="conflicts", about=BY),
        word("--best", type=int, default=1, about="how many pairs for each number of rings (1)"),
        *LIMITS,
    ],
    vary: [
        *(PLAN, word("field"), word("values", nargs="+")),
        word("--set", nargs="+", default=[], metavar="FIELD=VALUE", about="other fields, for every run"),
        word("--workers", type=int, about="the workers of each run; the program's default where it is not given"),
    ],
    compare: [word("one"), word("other")],
    pool: [word("pairs", nargs="+", metavar="PLAN=TABLE")],
    plot: [
        TABLE,
        word("-o", "--output", required=True, about="the picture: .svg, .png or .pdf"),
        word("--exact", metavar="PLAN", about="draw the exact shares of its plan over F, and the table's on them"),
        word("--along", metavar="COLUMN", about="draw along this column, not conflicts by H - L and silence by L"),
        word("--of", choices=("conflicts", "silent"), about="which share, with --along (conflicts)"),
        word("--each", metavar="COLUMN", about="a line for each value of this column, with --along (f)"),
        word("--where", nargs="+", default=[], metavar="COLUMN=VALUE", about="only such lines, with --along"),
    ],
    report: [
        *(PLAN, TABLE),
        word("-o", "--output", default="-", about="the page; standard output where it is not given"),
        word("--trials", type=int, default=5, about=f"{BY_ROLES} (5)"),
        *LIMITS,
    ],
}


def main() -> int:
    words = argparse.ArgumentParser(prog="study", epilog="docs/GUIDE.md shows each. A file - is standard input.")
    words.description = "Exact shares, choices, comparisons and reports of studies."
    commands = words.add_subparsers(required=True, metavar="COMMAND")
    for does, its in COMMANDS.items():
        one = commands.add_parser(does.__name__, help=does.__doc__, description=does.__doc__)
        one.set_defaults(does=does)
        for names, how in its:
            one.add_argument(*names, **how)
    given = words.parse_args()
    try:
        for line in given.does(given):
            print(line, flush=True)
    except Refused as why:
        print(f"study: {why}", file=sys.stderr)
        return 1
    except BrokenPipeError:
        os.dup2(os.open(os.devnull, os.O_WRONLY), 1)
    return 0
