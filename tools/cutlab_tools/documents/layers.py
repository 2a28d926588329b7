"""docs/layers/make [--check]: draws docs/layers/layers.svg, the layers of the program with their crates. With --check it
draws nothing, and says what differs.

crates.txt has the layers, a heading for each, from the bottom to the top, and what each crate stands on. What a crate is for is
the first sentence of its README. Laws and tests stand beside the layers that are drawn. An arrow goes from a layer to each one
that it stands on, but for those that it reaches over another. A crate that stands on one of a layer above its own is refused, and
so is one that docs/ARCHITECTURE.md has under another layer."""
import html
import re
import textwrap
from typing import Iterator, NamedTuple

from ..repository import Repository

CRATES, PAGE, PICTURE = "crates.txt", "docs/ARCHITECTURE.md", "docs/layers/layers.svg"
BESIDE = ("Laws", "Tests")
# The widths of the picture, of the room for arrows at its left and of a box; the height of a line of text, and how many letters it has.
WIDTH, LEFT, BOX, GAP, LINE, LETTERS, IN_A_ROW = 1180, 70, 265, 10, 15, 37, 4
STYLE = """
  text { font: 12px system-ui, sans-serif; fill: #222 }
  .layer { font-weight: 600; font-size: 14px } .crate { font-family: ui-monospace, monospace; font-weight: 600 }
  .band { fill: #eef2f7 } .box { fill: #fff; stroke: #b8c4d4 } .arrow { stroke: #5a6b80; stroke-width: 1.5; fill: none }
  @media (prefers-color-scheme: dark) {
    text { fill: #e4e8ee } .band { fill: #1f2630 } .box { fill: #2a3340; stroke: #4b5a6e } .arrow { stroke: #93a4ba }
  }
"""


class Crate(NamedTuple):
    name: str
    stands_on: list[str]  # the crates of the repository that it does
    purpose: str


# The crates of each layer, in the order of reading, from the bottom to the top.
Layers = dict[str, list[Crate]]


def layers(repository: Repository) -> Layers:
    found: Layers = {}
    lines = [line for line in repository.read(CRATES).split("\n") if line]
    ours = {line.split(":")[0] for line in lines}
    for line in lines:
        if line.startswith("# "):
            crates = found[line[2:]] = []
        else:
            name, _, below = line.partition(":")
            about = repository.read(f"crates/{name}/README.md").split("\n\n")[1].replace("\n", " ").replace("`", "")
            purpose, *_ = re.split(r"(?<=\.) ", about)
            crates.append(Crate(name, [it for it in below.split() if it in ours], purpose))
    return found


def places(listed: Layers) -> dict[str, int]:
    return {crate.name: at for at, crates in enumerate(listed.values()) for crate in crates}


def arrows(listed: Layers) -> Iterator[tuple[int, int]]:
    place, used, reached = places(listed), list[set[int]](), list[set[int]]()
    for at, crates in enumerate(listed.values()):
        below = {place[it] for crate in crates for it in crate.stands_on} - {at}
        used.append(below)
        reached.append(below.union(*(reached[it] for it in below)))
    for at, below in enumerate(used):
        yield from ((at, other) for other in sorted(below) if not any(other in reached[it] for it in below))


def band(name: str, crates: list[Crate], top: int) -> tuple[int, list[str]]:
    """A layer's band from a height on: the height at which it ends, and what is drawn."""
    drawn, y = [f'<text class="layer" x="{LEFT + 10}" y="{top + 20}">{name}</text>'], top + 30
    for at in range(0, len(crates), IN_A_ROW):
        row = crates[at : at + IN_A_ROW]
        height = 28 + LINE * max(len(textwrap.wrap(it.purpose, LETTERS)) for it in row)
        for crate, x in zip(row, range(LEFT + 10, WIDTH, BOX + GAP)):
            drawn.append(f'<rect class="box" x="{x}" y="{y}" width="{BOX}" height="{height}" rx="4"/>')
            drawn.append(f'<text class="crate" x="{x + 8}" y="{y + 17}">{crate.name}</text>')
            for down, line in enumerate(textwrap.wrap(crate.purpose, LETTERS)):
                drawn.append(f'<text x="{x + 8}" y="{y + 34 + LINE * down}">{html.escape(line, quote=False)}</text>')
        y += height + GAP
    return y, [f'<rect class="band" x="{LEFT}" y="{top}" width="{WIDTH - LEFT}" height="{y - top}" rx="6"/>', *drawn]


def picture(listed: Layers) -> str:
    middle, drawn, y = list[int](), list[str](), 0
    for name, crates in reversed(listed.items()):
        end, parts = band(name, crates, y)
        middle.insert(0, (y + end) // 2)
        y = end + 12
        drawn += parts
    for upper, lower in arrows(listed):
        bend = LEFT - 14 - 14 * (upper - lower)
        ends = f"M {LEFT} {middle[upper] + 6} H {bend} V {middle[lower] - 6} H {LEFT - 3}"
        drawn.append(f'<path class="arrow" d="{ends}" marker-end="url(#head)"/>')
    head = '<marker id="head" markerWidth="8" markerHeight="8" refX="6" refY="3" orient="auto"><path class="arrow" d="M 0 0 L 6 3 L 0 6"/></marker>'
    opening = f'<svg xmlns="http://www.w3.org/2000/svg" viewBox="0 0 {WIDTH} {y - 12}" role="img" aria-label="The layers of cutlab">'
    return "\n".join([opening, f"<style>{STYLE}</style>", f"<defs>{head}</defs>", *drawn, "</svg>"]) + "\n"


def made(repository: Repository) -> dict[str, str]:
    return {PICTURE: picture({name: its for name, its in layers(repository).items() if name not in BESIDE})}


def differences(repository: Repository) -> Iterator[str]:
    """What is not as crates.txt has it, a line for each."""
    listed = layers(repository)
    place = places(listed)
    for crate in (crate for crates in listed.values() for crate in crates):
        above = (it for it in crate.stands_on if place[it] > place[crate.name])
        yield from (f"{CRATES}: {crate.name} stands on {it}, which is above" for it in above)
    wanted = [(name, [crate.name for crate in crates]) for name, crates in listed.items() if name != "Tests"]
    parts = re.split(r"^### ", repository.read(PAGE).split("\n## ")[1], flags=re.M)[1:]
    paged = [(it.split("\n")[0], re.findall(r"^\| `(\w+)` \|", it, flags=re.M)) for it in parts]
    for there, here in zip(paged + [("", [])] * len(wanted), wanted):
        if there != here:
            yield f"{PAGE}: {there[0] or 'nothing'} with {', '.join(there[1])}: {CRATES} has {here[0]} with {', '.join(here[1])}"


def summary(repository: Repository) -> str:
    return f"{sum(map(len, layers(repository).values()))} crates are drawn and listed as {CRATES} has them"
