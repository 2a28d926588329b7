"""A table as one page of HTML, which needs no network and no scripts: report.html with what is found."""
import json
import math
from fractions import Fraction
from html import escape
from pathlib import Path
from string import Template

from .choose import Limits, Pair, choose
from .exact import exact
from .plans import Cell, Plan, Refused
from .tables import Line, Table, check_fits, grouped, shown

WIDE, HIGH, LEFT, TOP = 172, 104, 64, 34
# The rarest share that has a shade of its own; the lightest and the darkest shade, as red, green and blue.
RAREST, LIGHT, DARK = 1e-6, (255, 247, 230), (150, 20, 20)
PREMISE = "The exact share holds where every order of the alerts at a receiver is equally likely. "
PREMISE += "That the draws behave so is what the comparison shows; no proof says it."


def colour(share: float) -> tuple[str, str]:
    """The shade of a field, on a logarithmic scale, and the class of the letters on it."""
    depth = 0.0 if share <= RAREST else min(1.0, 1 - math.log10(share) / math.log10(RAREST))
    parts = [round(light + (dark - light) * depth) for light, dark in zip(LIGHT, DARK)]
    return "#" + "".join(f"{it:02x}" for it in parts), "pale" if depth > 0.55 else "deep"


def rect(x: int, y: int, wide: int, high: int, how: str) -> str:
    return f'<rect x="{x}" y="{y}" width="{wide}" height="{high}" {how}/>'


def text(x: int, y: int, what: str, how: str = "") -> str:
    return f'<text x="{x}" y="{y}"{how}>{escape(what)}</text>'


def svg(wide: int, high: int, label: str, parts: list[str]) -> str:
    box = f'width="{wide}" height="{high}" viewBox="0 0 {wide} {high}"'
    return f'<div class="wide"><svg {box} role="img" aria-label="{label}">{"".join(parts)}</svg></div>'


def field(it: Line, x: int, y: int, known: Fraction | None, is_chosen: bool) -> str:
    """A field of a grid: its shade is the share of conflicts, its letters that, silence and right ones with their bounds."""
    conflicts, silent, right = (it.share(name) for name in ("conflict", "silent", "right"))
    shade, ink = colour(conflicts.share)
    rows = [f"conflicts {shown(conflicts.share)}", conflicts.bounds]
    rows += [] if known is None else [f"exact {shown(float(known))}"]
    rows += [f"{name} {shown(its.share)} {its.bounds}" for name, its in (("silent", silent), ("right", right))]
    title = f"H = {it.h}, L = {it.l}: {it.conflicts} conflicts of {it.receivers} receivers, {it.ppm} ppm"
    parts = [f"<title>{title}</title>", rect(x, y, WIDE, HIGH, f'fill="{shade}"')]
    for at, row in enumerate(rows):
        parts.append(text(x + 6, y + 20 + 18 * at, row, f' class="{ink} {"small" if at else ""}"'))
    parts += [rect(x + 2, y + 2, WIDE - 4, HIGH - 4, 'class="chosen"')] if is_chosen else []
    return f"<g>{''.join(parts)}</g>"


def grid(lines: list[Line], known: dict[Cell, Fraction], chosen: set[Pair]) -> str:
    """The fields of one number of rings and of failed processes, by H and L."""
    highs, lows = sorted({it.h for it in lines}, reverse=True), sorted({it.l for it in lines})
    columns = {l: LEFT + WIDE * at for at, l in enumerate(lows)}
    rows = {h: TOP + HIGH * at for at, h in enumerate(highs)}
    heads = [text(x + WIDE // 2, 22, f"L = {l}", ' text-anchor="middle"') for l, x in columns.items()]
    sides = [text(4, y + HIGH // 2, f"H = {h}") for h, y in rows.items()]
    fields = [field(it, columns[it.l], rows[it.h], known.get(it.cell), (it.k, it.h, it.l) in chosen) for it in lines]
    what, size = f"K = {lines[0].k}, F = {lines[0].f}", (LEFT + WIDE * len(lows), TOP + HIGH * len(highs))
    picture = svg(*size, f"Conflicts by H and L for {what}", [*heads, *sides, *fields])
    return f"<figure><figcaption>{what}</figcaption>{picture}</figure>"


def scale() -> str:
    shares, how = (0.0, 1e-5, 1e-4, 1e-3, 1e-2, 1e-1, 1.0), ' text-anchor="middle" class="small"'
    fields = [rect(70 * at, 0, 70, 22, f'fill="{colour(it)[0]}"') for at, it in enumerate(shares)]
    fields += [text(70 * at + 35, 38, shown(it), how) for at, it in enumerate(shares)]
    return svg(70 * len(shares), 44, "The scale of the shades", fields)


def row(it: Line) -> str:
    cells = [*it.cell, *(it.share(name) for name in ("conflict", "silent", "right")), it.decided - it.right]
    return f"<tr>{''.join(f'<td>{escape(str(cell))}</td>' for cell in cells)}</tr>"


def page(plan: Plan, table: Table, limits: Limits, trials: int) -> str:
    check_fits(plan, table)
    columns = list(exact(plan, trials))
    known = {it.cell: it.columns.conflicts for it in columns if it.columns is not None}
    roles, left = max(it.trials for it in columns), len(columns) - len(known)
    of_exact = [PREMISE] if known else []
    of_exact += [f"It is by the roles of {roles} trials of each cell."] if roles and known else []
    of_exact += [f"{left} cells have none, as it would take too long."] if left else []
    try:
        chosen, said = choose(table, limits, "conflicts", 1)
    except Refused as why:
        chosen, said = set(), [str(why)]
    groups = grouped(table.failing, lambda it: (it.k, it.f))
    found = {
        "scale": scale(),
        "choice": "".join(f"<li>{escape(it.strip())}</li>" for it in said),
        "exact": escape(" ".join(of_exact)),
        "grids": "".join(grid(lines, known, chosen) for lines in groups.values()),
        "lines": "\n".join(map(row, table.lines)),
        "plan": escape(",\n ".join(f'"{name}": {json.dumps(value)}' for name, value in plan.items())),
    }
    template = Template(Path(__file__).with_name("report.html").read_text(encoding="utf-8"))
    return template.substitute(found, nodes=plan["nodes"], seed=plan["seed"])
