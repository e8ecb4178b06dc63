#!/usr/bin/env python3
"""Draws the two pictures of docs/: the blocks of a floppy, and the crates by floors.

    tools/pictures.py           draws docs/crates.svg from crates.txt
    tools/pictures.py IMAGE     draws docs/floppy.svg from the image of a floppy that `check` accepts
    tools/pictures.py --check   exits with 1 if docs/crates.svg differs from crates.txt

The image of docs/floppy.svg was made by these commands:

    mkdir -p disk/C disk/Docs/Letters disk/Pictures disk/Tools
    for n in 1 2 3 4 5 6 7 8; do
        head -c $((n * 2600)) /dev/zero >disk/C/command$n
        head -c $((n * 1100)) /dev/zero >disk/Docs/Letters/letter$n
    done
    head -c 9000 /dev/zero >disk/Docs/Manual
    for n in 1 2 3; do head -c $((n * 41000)) /dev/zero >disk/Pictures/picture$n; done
    for n in 1 2 3 4; do head -c $((n * 7000)) /dev/zero >disk/Tools/tool$n; done
    ./adf_serve blank --ffs Work work.adf
    ./adf_serve add work.adf disk/*
    ./adf_serve delete work.adf C/command7 Docs/Letters/letter5 Pictures/picture2
    ./adf_serve mkdir work.adf Docs/New
"""
from __future__ import annotations

import re
import sys
from dataclasses import dataclass, field
from pathlib import Path
from xml.sax.saxutils import escape

TOP = Path(__file__).resolve().parent.parent
sys.dont_write_bytecode = True
sys.path.insert(0, str(TOP / "tests"))

from all_faults_model import lines_of
from where import Reading

CRATES = TOP / "docs/crates.svg"
FLOPPY = TOP / "docs/floppy.svg"
WIDTH = 800
# Of a floppy.
CYLINDERS, SIDES = 80, 2

# The roles of a block: the colour, and the text of the legend for one block and for several.
ROLES = {
    "boot": ("#8250df", "boot block", "boot blocks"),
    "root": ("#cf222e", "root block", "root blocks"),
    "bitmap": ("#e08600", "bitmap block", "bitmap blocks"),
    "directory": ("#1a7f37", "directory header", "directory headers"),
    "file": ("#0a4fa8", "file header", "file headers"),
    "extension": ("#0aa5b5", "extension block", "extension blocks"),
    "data": ("#86b6ef", "data block", "data blocks"),
    "lost": ("#6e7781", "used block that nothing names", "used blocks that nothing names"),
    "free": ("#e2e6ec", "free block", "free blocks"),
}
# The roles whose block numbers the legend lists.
NAMED = ("boot", "root", "bitmap")

STYLE = """<style>
text { font: 13px -apple-system, "Segoe UI", "DejaVu Sans", Helvetica, Arial, sans-serif; fill: #1f2933 }
.head { font-weight: bold; font-size: 15px }
.small { font-size: 12px; fill: #4a5663 }
.crate { font: 12px ui-monospace, "DejaVu Sans Mono", Menlo, Consolas, monospace; text-anchor: middle }
.box { fill: #ffffff; stroke: #35557f }
.line { fill: none; stroke: #6b7f99; stroke-width: 1.3 }
</style>"""


def picture(height: int, title: str, parts: list[str]) -> str:
    """Returns an SVG file of the common width with a background."""
    head = [
        f'<svg xmlns="http://www.w3.org/2000/svg" viewBox="0 0 {WIDTH} {height}" width="{WIDTH}" height="{height}" role="img">',
        f"<title>{escape(title)}</title>",
        STYLE,
        f'<rect width="{WIDTH}" height="{height}" rx="8" fill="#ffffff"/>',
    ]
    return "\n".join([*head, *parts, "</svg>", ""])


def label(x: float, y: float, said: str, look: str = "") -> str:
    """Returns a text element. `look` is its class."""
    return f'<text x="{x:g}" y="{y:g}"' + (f' class="{look}"' if look else "") + f">{escape(said)}</text>"


# The floppy.


class Floppy(Reading):
    """The image of a floppy with the role of each block."""

    def __init__(self, data: bytes) -> None:
        super().__init__(data)
        self.roles = [self.owned(block).owner for block in range(self.blocks)]

    def legend_of(self, role: str) -> str:
        """Returns the text of the legend for a role."""
        one, several = ROLES[role][1:]
        blocks = [block for block, its in enumerate(self.roles) if its == role]
        said = one if len(blocks) == 1 else several
        if role in NAMED:
            return f"{said} {' and '.join(str(block) for block in blocks)}".capitalize()
        return f"{len(blocks):,} {said}"


LEFT, ABOVE, PITCH, CELL, BETWEEN = 62, 74, 9, 8, 6


def cells(floppy: Floppy, role: str) -> str:
    """Returns the cells of a role as one path, with one rectangle for each run of blocks in a track."""
    track = floppy.blocks // CYLINDERS // SIDES
    path = []
    block = 0
    while block < floppy.blocks:
        many = 0
        while floppy.roles[block] == role and block + many < floppy.blocks and floppy.roles[block + many] == role:
            many += 1
            if (block + many) % track == 0:
                break
        if many:
            cylinder, row = divmod(block, track * SIDES)
            x, y = LEFT + cylinder * PITCH, ABOVE + row * PITCH + (BETWEEN if row >= track else 0)
            path.append(f"M{x} {y}h{CELL}v{many * PITCH - 1}h-{CELL}z")
        block += max(many, 1)
    return "".join(path)


def draw_floppy(data: bytes) -> str:
    """Returns the picture of the blocks of a floppy."""
    floppy = Floppy(data)
    track = floppy.blocks // CYLINDERS // SIDES
    name = floppy.text(floppy.root, 432).decode("latin-1")
    title = f"The {floppy.blocks:,} blocks of the floppy {name}, by what they hold"
    parts = [label(LEFT, 28, title, "head")]
    parts.append(label(LEFT, 48, "A column is a cylinder. Blocks are numbered downwards, then to the right.", "small"))
    for cylinder in [*range(0, CYLINDERS, 10), CYLINDERS - 1]:
        parts.append(label(LEFT + cylinder * PITCH, ABOVE - 6, str(cylinder), "small"))
    height = SIDES * track * PITCH + BETWEEN
    for side in range(SIDES):
        parts.append(label(14, ABOVE + side * (track * PITCH + BETWEEN) + track * PITCH / 2 + 4, f"side {side}", "small"))
    shown = [role for role in ROLES if role in floppy.roles]
    parts += [f'<path fill="{ROLES[role][0]}" d="{cells(floppy, role)}"/>' for role in shown]
    rows = [ABOVE + row * PITCH - 0.5 + (BETWEEN if row > track else 0) for row in range(1, SIDES * track) if row != track]
    lines = "".join(f"M{LEFT} {y:g}h{CYLINDERS * PITCH}" for y in rows)
    parts.append(f'<path stroke="#ffffff" stroke-width="1" d="{lines}"/>')
    for at, role in enumerate(shown):
        x, y = LEFT + at % 4 * 182, ABOVE + height + 20 + at // 4 * 24
        parts.append(f'<rect x="{x}" y="{y}" width="12" height="12" fill="{ROLES[role][0]}"/>')
        parts.append(label(x + 18, y + 11, floppy.legend_of(role)))
    return picture(ABOVE + height + 20 + (len(shown) + 3) // 4 * 24 + 6, title, parts)


# The crates.

# The heights of a row and of a crate's box, the left edge of the boxes, and the gap between two nodes of a row.
ROW, BOX, AREA, GAP = 46, 22, 158, 12


@dataclass
class Floor:
    """A floor of crates.txt."""

    number: str
    title: str
    crates: list[str] = field(default_factory=list)


@dataclass
class Node:
    """A crate in its row, or a point where an edge passes a row. The latter has no name."""

    row: int
    name: str = ""
    x: float = 0.0
    above: list[Node] = field(default_factory=list)
    below: list[Node] = field(default_factory=list)

    def width(self) -> float:
        """Returns the width of the node in its row."""
        return 96 if self.name else 2


def read_crates(text: str) -> tuple[list[Floor], dict[str, list[str]]]:
    """Returns the floors, and the dependencies of each crate on crates of this repository."""
    floors: list[Floor] = []
    stands: dict[str, list[str]] = {}
    for line in text.splitlines():
        head = re.match(r"# (\d+)\. ([^:]*)", line)
        if head:
            floors.append(Floor(head[1], head[2].strip()))
        line = line.partition("#")[0]
        if ":" in line:
            names, below = line.split(":")
            name = names.split()[0]
            floors[-1].crates.append(name)
            stands[name] = [crate for crate in below.split() if crate in stands]
    return floors, stands


def without_short_cuts(stands: dict[str, list[str]]) -> dict[str, list[str]]:
    """Returns the graph without the edges that follow from others."""
    reached: dict[str, set[str]] = {}
    for name, below in stands.items():
        reached[name] = set(below).union(*(reached[crate] for crate in below))
    return {
        name: [crate for crate in below if not any(crate in reached[other] for other in below if other != crate)]
        for name, below in stands.items()
    }


def rows_of(floors: list[Floor], stands: dict[str, list[str]]) -> dict[str, int]:
    """Returns the row of each crate, from 0 for the lowest. A floor has as many rows as its longest chain of
    dependencies."""
    rows: dict[str, int] = {}
    first = 0
    for floor in floors:
        for name in floor.crates:
            rows[name] = max([rows[crate] + 1 for crate in stands[name] if crate in floor.crates], default=first)
        first = max(rows[name] for name in floor.crates) + 1
    return rows


def nodes_of(stands: dict[str, list[str]], rows: dict[str, int]) -> list[list[Node]]:
    """Returns the nodes of each row. Edges to one crate share a path from the row in which they meet."""
    placed: list[list[Node]] = [[] for _ in range(max(rows.values()) + 1)]
    crates = {name: Node(row, name) for name, row in rows.items()}
    passing: dict[tuple[str, int], Node] = {}
    for name, node in crates.items():
        placed[node.row].append(node)
    for name, below in stands.items():
        for crate in below:
            upper = crates[name]
            for row in range(upper.row - 1, rows[crate], -1):
                lower = passing.get((crate, row))
                if lower is None:
                    lower = passing[crate, row] = Node(row)
                    placed[row].append(lower)
                link(upper, lower)
                upper = lower
            link(upper, crates[crate])
    return placed


def link(upper: Node, lower: Node) -> None:
    """Joins two nodes of neighbouring rows by an edge, once."""
    if lower not in upper.below:
        upper.below.append(lower)
        lower.above.append(upper)


def crossings(upper: list[Node], lower: list[Node]) -> int:
    """Returns the number of crossings between two rows."""
    place = {id(node): at for at, node in enumerate(lower)}
    ends = [sorted(place[id(node)] for node in top.below) for top in upper]
    return sum(a > b for at, left in enumerate(ends) for right in ends[at + 1 :] for a in left for b in right)


def all_crossings(rows: list[list[Node]]) -> int:
    """Returns the number of all crossings."""
    return sum(crossings(rows[at + 1], rows[at]) for at in range(len(rows) - 1))


def sort_by(row: list[Node], other: list[Node], down: bool) -> None:
    """Sorts a row by the mean position of its neighbours in another row. Nodes without neighbours stay."""
    place = {id(node): at for at, node in enumerate(other)}
    middle: dict[int, float] = {}
    for at, node in enumerate(row):
        ends = [place[id(end)] for end in (node.below if down else node.above)]
        middle[id(node)] = sum(ends) / len(ends) if ends else float(at)
    row.sort(key=lambda node: middle[id(node)])


def untangle(rows: list[list[Node]]) -> None:
    """Orders each row to reduce the crossings."""
    best, fewest = [list(row) for row in rows], all_crossings(rows)
    for turn in range(8):
        down = turn % 2 == 0
        for at in range(1, len(rows)) if down else range(len(rows) - 2, -1, -1):
            sort_by(rows[at], rows[at - 1] if down else rows[at + 1], down)
        swap_neighbours(rows)
        if all_crossings(rows) < fewest:
            best, fewest = [list(row) for row in rows], all_crossings(rows)
    rows[:] = best


def swap_neighbours(rows: list[list[Node]]) -> None:
    """Swaps adjacent nodes as long as that reduces the crossings."""
    better = True
    while better:
        better = False
        for row in rows:
            for at in range(len(row) - 1):
                before = around(rows, row)
                row[at], row[at + 1] = row[at + 1], row[at]
                if around(rows, row) < before:
                    better = True
                else:
                    row[at], row[at + 1] = row[at + 1], row[at]


def around(rows: list[list[Node]], row: list[Node]) -> int:
    """Returns the number of crossings directly above and below a row."""
    at = row[0].row
    above = crossings(rows[at + 1], row) if at + 1 < len(rows) else 0
    return above + (crossings(row, rows[at - 1]) if at else 0)


def pull(one: Node, other: Node) -> float:
    """Returns the weight of a straight edge. An edge that passes rows weighs more than one between crates."""
    return 1.0 if one.name and other.name else 2.0 if one.name or other.name else 8.0


def spread(row: list[Node], wanted: list[tuple[float, float]], left: float, right: float) -> None:
    """Places the nodes of a row in order and without overlap, as close as possible to the wanted positions. Each
    position has a weight."""
    offsets = [0.0]
    for one, other in zip(row, row[1:]):
        offsets.append(offsets[-1] + (one.width() + other.width()) / 2 + GAP)
    runs: list[tuple[float, float, int]] = []
    for offset, (x, weight) in zip(offsets, wanted):
        total, many = (x - offset) * weight, 1
        while runs and runs[-1][0] / runs[-1][1] > total / weight:
            total, weight, many = total + runs[-1][0], weight + runs[-1][1], many + runs[-1][2]
            runs.pop()
        runs.append((total, weight, many))
    starts = [total / weight for total, weight, many in runs for _ in range(many)]
    low, high = left + row[0].width() / 2, right - row[-1].width() / 2 - offsets[-1]
    for node, start, offset in zip(row, starts, offsets):
        node.x = min(max(start, low), max(high, low)) + offset


def place(rows: list[list[Node]], left: float, right: float) -> None:
    """Places each node in its row near its neighbours."""
    for row in rows:
        spread(row, [(left + (right - left) * (at + 0.5) / len(row), 1.0) for at in range(len(row))], left, right)
    for turn in range(100):
        for row in rows if turn % 2 == 0 else reversed(rows):
            wanted = []
            for node in row:
                ends = [(end.x, pull(node, end)) for end in node.above + node.below]
                weight = sum(weight for _, weight in ends)
                wanted.append((sum(x * weight for x, weight in ends) / weight, weight) if ends else (node.x, 1.0))
            spread(row, wanted, left, right)
    straighten(rows, left, right)
    for node in (node for row in rows for node in row):
        node.x = 4 * round(node.x / 4)


def straighten(rows: list[list[Node]], left: float, right: float) -> None:
    """Straightens each edge that passes rows as long as no node is in its way."""
    for turn in range(20):
        for row in rows if turn % 2 else reversed(rows):
            wanted = []
            for node in row:
                ends = [end for end in (node.below if turn % 2 else node.above) if not end.name]
                straight = not node.name and len(ends) == 1
                wanted.append((ends[0].x, 1.0) if straight else (node.x, 4.0))
            spread(row, wanted, left, right)


def bands(floors: list[Floor], rows: dict[str, int], bottom: float) -> list[str]:
    """Returns the floors as bands with their titles."""
    parts = []
    for at, floor in enumerate(floors):
        low, high = min(rows[name] for name in floor.crates), max(rows[name] for name in floor.crates)
        y = bottom - (high + 1) * ROW
        fill = "#f3f6fa" if at % 2 else "#e8eef6"
        parts.append(f'<rect x="8" y="{y:g}" width="{WIDTH - 16}" height="{(high - low + 1) * ROW}" fill="{fill}"/>')
        lines = wrapped(f"{floor.number}. {floor.title}", 21)
        middle = y + (high - low + 1) * ROW / 2
        parts += [label(18, middle + 4.5 + (line - (len(lines) - 1) / 2) * 16, said) for line, said in enumerate(lines)]
    return parts


def wrapped(said: str, most: int) -> list[str]:
    """Splits a text into lines of at most `most` characters, between words."""
    lines = [""]
    for word in said.split():
        if lines[-1] and len(lines[-1]) + 1 + len(word) > most:
            lines.append("")
        lines[-1] = f"{lines[-1]} {word}".strip()
    return lines


def draw_crates(text: str) -> str:
    """Returns the picture of the crates by floors."""
    floors, stands = read_crates(text)
    stands = without_short_cuts(stands)
    rows = rows_of(floors, stands)
    placed = nodes_of(stands, rows)
    untangle(placed)
    place(placed, AREA, WIDTH - 16)
    title = f"The {len(rows)} crates by floors"
    bottom = 68 + len(placed) * ROW
    parts = [label(18, 28, title, "head")]
    said = "Lines lead down to what a crate depends on; those to the same crate join. Implied lines are left out."
    parts += [label(18, 50, said, "small"), *bands(floors, rows, bottom)]
    lines = []
    for node in (node for row in placed for node in row):
        middle = bottom - node.row * ROW - ROW / 2
        if not node.name:
            lines.append(f"M{node.x:g} {middle - BOX / 2:g}v{BOX}")
        for lower in node.below:
            top, half = middle + BOX / 2, (ROW - BOX) / 2
            ends = f"{lower.x:g} {top + half - 4:g} {lower.x:g} {top + 2 * half:g}"
            lines.append(f"M{node.x:g} {top:g}C{node.x:g} {top + half + 4:g} {ends}")
    parts.append(f'<path class="line" d="{"".join(lines)}"/>')
    for node in (node for row in placed for node in row if node.name):
        middle = bottom - node.row * ROW - ROW / 2
        x, y, width = node.x - node.width() / 2, middle - BOX / 2, node.width()
        parts.append(f'<rect class="box" x="{x:g}" y="{y:g}" width="{width:g}" height="{BOX}" rx="4"/>')
        parts.append(label(node.x, middle + 4, node.name, "crate"))
    return picture(bottom + 12, title, parts)


def main(arguments: list[str]) -> int:
    """Draws or checks the pictures, and returns the exit status."""
    crates = draw_crates((TOP / "crates.txt").read_text())
    if arguments == ["--check"]:
        if CRATES.is_file() and CRATES.read_text() == crates:
            return 0
        print("docs/crates.svg is not what crates.txt makes: run tools/pictures.py")
        return 1
    if not arguments:
        CRATES.write_text(crates)
        return 0
    if len(arguments) > 1 or arguments[0].startswith("-"):
        print(__doc__)
        return 0 if arguments in (["-h"], ["--help"]) else 1
    data = Path(arguments[0]).read_bytes()
    if len(data) not in (901_120, 1_802_240) or lines_of(data):
        print(f"{arguments[0]} is no image of a floppy that `check` accepts")
        return 1
    FLOPPY.write_text(draw_floppy(data))
    return 0


if __name__ == "__main__":
    sys.exit(main(sys.argv[1:]))
