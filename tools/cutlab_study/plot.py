"""Pictures of tables, by gnuplot."""
import os
import shutil
import subprocess
from typing import Iterable, Mapping, NamedTuple

from .exact import crash_share, needs_no_roles
from .plans import Plan, Refused, cells
from .tables import Table, check_fits, grouped, rows_in

TERMINALS = {
    ".svg": 'svg size {width},{height} font "sans-serif,16" background "white"',
    ".png": 'pngcairo size {width},{height} font "sans-serif,12"',
    ".pdf": "pdfcairo size {inches_wide}in,{inches_high}in",
}
COLOURS = ("#000000", "#c03000", "#2060c0", "#808080", "#208020", "#8020a0", "#b08000", "#009090")
LINEAR = "set yrange [-3:103]\nset ytics 20"
Points = list[tuple[int, float]]  # at a place, a share in percent
SUMS = ("receivers", "silent", "conflicts")


def logarithmic(low: str, foot: str, *marks: str) -> str:
    """A scale of percents, at whose foot stands what is none."""
    shown = ", ".join(f'"{it}" {it}' for it in (*marks, "1", "10", "100"))
    return f'set logscale y\nset yrange [{low}:100]\nset ytics ("none" {foot}, {shown})'


def points(places: Iterable[tuple[int, list[int]]], part: str, foot: float) -> Points:
    """Of places with their sums: conflicts of those that proposed, not below the foot of a scale, or silent ones of all."""
    if part == "silent":
        return [(at, 100 * silent / receivers) for at, (receivers, silent, _) in places]
    proposed = [(at, receivers - silent, conflicts) for at, (receivers, silent, conflicts) in places]
    return [(at, max(100 * conflicts / count, foot)) for at, count, conflicts in proposed if count]


def curves(lines: Mapping[str, Points], is_dashed: bool) -> list[str]:
    blocks, plots = [], []
    for number, (title, its) in enumerate(lines.items()):
        if its:
            rows = "\n".join(f"{at} {value}" for at, value in its)
            blocks.append(f"$points{number} << EOD\n{rows}\nEOD")
            style = f'linecolor "{COLOURS[number]}"' + (f" dashtype {number + 1}" if is_dashed else "")
            kind = f"linespoints linewidth 2 pointtype {5 + number} pointsize 0.7"
            plots.append(f'$points{number} with {kind} {style} title "{title}"')
    return [*blocks, "plot " + ", ".join(plots)]


def panel(table: Table, k: int, part: str) -> list[str]:
    """The commands of one panel: a line for each number of failed processes."""
    lines: dict[str, Points] = {}
    for f, of_f in grouped((it for it in table.failing if it.k == k), lambda it: it.f).items():
        places = grouped(of_f, lambda it: it.h - it.l if part == "conflicts" else it.l)
        sums = [(at, [sum(getattr(it, name) for it in its) for name in SUMS]) for at, its in places.items()]
        lines[f"F = {f}"] = points(sums, part, 1e-3)
    whats = {"conflicts": "Conflicts, % of those that proposed, by H - L", "silent": "Silent, % of all receivers, by L"}
    scale = logarithmic("0.001", "0.001", "0.01", "0.1") if part == "conflicts" else f"unset logscale y\n{LINEAR}"
    return [scale, f'set title "K = {k}: {whats[part]}"', *curves(lines, False)]


def draw(picture: str, commands: list[str], width: int, height: int) -> None:
    """Has gnuplot draw to a file, in the format that its ending names."""
    ending = os.path.splitext(picture)[1].lower()
    if ending not in TERMINALS:
        raise Refused(f"{picture}: a picture ends in {', '.join(sorted(TERMINALS))}")
    if not shutil.which("gnuplot"):
        raise Refused("gnuplot is not on the PATH; `study report` makes a page without it")
    terminal = TERMINALS[ending].format(width=width, height=height, inches_wide=width / 96, inches_high=height / 96)
    first = [f"set terminal {terminal}", f'set output "{picture}"', "set termoption noenhanced"]
    first += ['set grid linecolor "#dddddd"', "set key outside bottom center horizontal"]
    script = "\n".join([*first, *commands, ""])
    done = subprocess.run(["gnuplot"], input=script, text=True, capture_output=True, check=False)
    if done.returncode:
        raise Refused(done.stderr.rstrip("\n"))


def check_lines(name: str, what: str, count: int) -> None:
    if count > len(COLOURS):
        raise Refused(f"{name}: {what} has more than {len(COLOURS)} values, whose lines could not be distinguished")


def plot_gaps(table: Table, picture: str) -> None:
    """Draws for each K the conflicts by H - L and the silence by L, with a line for each F."""
    rings = sorted({it.k for it in table.failing})
    if not rings:
        raise Refused(f"{table.name}: nobody fails in any of its cells, so there are no conflicts to draw")
    check_lines(table.name, "f", len({it.f for it in table.failing}))
    panels = [command for k in rings for part in ("conflicts", "silent") for command in panel(table, k, part)]
    first = [f"set multiplot layout {2 * len(rings)},1", "set xtics 1", "set offsets 0.3, 0.3, 0, 0"]
    draw(picture, [*first, *panels, "unset multiplot"], 520, 410 * 2 * len(rings))


class View(NamedTuple):
    """What is drawn of a table: a share, along a column, with a line for each value of another, where others have a value."""

    part: str
    along: str
    each: str
    where: dict[str, str]


def rows_of(name: str, text: bytes, view: View) -> list[dict[str, str]]:
    rows = rows_in(text)
    columns = (view.along, view.each, *view.where, "receivers", "silent", "conflicts")
    lacking = [it for it in columns if not rows or it not in rows[0]]
    if lacking:
        raise Refused(f"{name}: it has no column {', '.join(lacking)}")
    found = [row for row in rows if all(row[column] == value for column, value in view.where.items())]
    if not found:
        where = ", ".join(f"{it} is {value}" for it, value in view.where.items())
        raise Refused(f"{name}: no line is left where {where}")
    if len({(row[view.along], row[view.each]) for row in found}) < len(found):
        what = f"some lines have one {view.along} and one {view.each}"
        raise Refused(f"{name}: {what}; say by --where which of them are drawn")
    return found


def plot_along(name: str, text: bytes, picture: str, view: View) -> None:
    """Draws a share along a column, whose values stand at equal distances, with a line for each value of another."""
    rows = rows_of(name, text, view)
    ticks, values = (list(dict.fromkeys(row[column] for row in rows)) for column in (view.along, view.each))
    check_lines(name, view.each, len(values))
    lines: dict[str, Points] = {}
    for value in values:
        its = [row for row in rows if row[view.each] == value]
        sums = [(ticks.index(it[view.along]), [int(it[name]) for name in SUMS]) for it in its]
        lines[f"{view.each} = {value}"] = points(sums, view.part, 1e-4)
    marks = ", ".join(f'"{it}" {at}' for at, it in enumerate(ticks))
    if view.part == "conflicts":
        scale, what = logarithmic("0.00005", "0.0001", "0.001", "0.01", "0.1"), "conflicts, % of those that proposed"
    else:
        scale, what = LINEAR, "silent, % of all receivers"
    title = ", ".join([f"{view.part} by {view.along}", *(f"{it} = {value}" for it, value in view.where.items())])
    labels = [f'set title "{title}"', f'set xlabel "{view.along}"', f'set ylabel "{what}"', f"set xtics ({marks})"]
    draw(picture, [*labels, "set offsets 0.3, 0.3, 0, 0", scale, *curves(lines, True)], 520, 460)


def plot_rare(plan: Plan, table: Table, picture: str) -> None:
    """Draws the exact shares of conflicts over F, a curve for each K, H and L, and on them the table's with their bounds."""
    check_fits(plan, table)
    if not needs_no_roles(plan):
        what = "crashes alone, whose observers speak, without implicit alerts"
        raise Refused(f"curves are drawn of {what}: of other plans each trial has shares of its own")
    pairs = list(dict.fromkeys(cell[:3] for cell in cells(plan)))
    failures = [f for f in plan["f"] if f > 1]
    if len(pairs) > len(COLOURS) or not failures:
        raise Refused(f"at most {len(COLOURS)} curves are drawn, over two failed processes or more")
    blocks, plots = [], []
    for number, ((k, h, l), colour) in enumerate(zip(pairs, COLOURS)):
        exact = [(f, float(crash_share(k, h, l, f))) for f in failures]
        counted = [(it.f, it.share("conflict")) for it in table.lines if it.cell[:3] == (k, h, l) and it.conflicts]
        rows = "\n".join(f"{f} {share}" for f, share in exact if share)
        marks = "\n".join(f"{f} {it.share} {it.low} {it.high}" for f, it in counted) or "1 NaN NaN NaN"
        blocks += [f"$exact{number} << EOD\n{rows}\nEOD", f"$counted{number} << EOD\n{marks}\nEOD"]
        style, title = f'dashtype {number + 1} linecolor "{colour}"', f"K = {k}, H = {h}, L = {l}"
        plots.append(f'$exact{number} with lines linewidth 2 {style} title "{title}"')
        plots.append(f'$counted{number} with yerrorbars pointtype 7 pointsize 0.6 linecolor "{colour}" notitle')
    first = ['set title "Conflicts, share of receivers: exact (lines) and counted (points, 95 %)"', "set logscale y"]
    first += ["set yrange [1e-14:1]", 'set format y "10^{%T}"', "set termoption enhanced"]
    first += ['set xlabel "failed processes"', f"set xtics ({', '.join(map(str, failures))})"]
    draw(picture, [*first, *blocks, "plot " + ", ".join(plots)], 620, 640)
