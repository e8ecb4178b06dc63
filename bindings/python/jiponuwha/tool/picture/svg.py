"""Pictures of images in SVG. A block is one element, with what it is as its tooltip."""
from __future__ import annotations

import math
from collections.abc import Iterable, Iterator
from functools import lru_cache
from pathlib import Path

from .disk import Disk
from .kinds import Kind
from .shape import COLUMNS, HEADS, Shape
from .texts import safe

WIDTH = 788
LEFT, PITCH, CELL, GAP = 60, 9, 8, 7
# The disk: its radius, that of the last track, and that of the hole.
OUTER, INNER, HUB = 168.0, 62.0, 26.0
DISKS = 2 * OUTER + 34
LEGEND, ENTRY, ACROSS = 22, 184, 4
TINTS = 4
THUMB_WIDTH, THUMB_HEIGHT = 320, 88
STYLE = Path(__file__).with_name("picture.css")


# ---- Places of blocks ----


def _grid_at(shape: Shape, block: int, first_row: int) -> tuple[int, int]:
    """Returns the left upper corner of a block in the grid, whose first row is at 0."""
    column, row = shape.cell(block)
    below = GAP if shape.is_floppy and row >= shape.sectors else 0
    return LEFT + column * PITCH, (row - first_row) * PITCH + below


@lru_cache(maxsize=8)
def _directions(sectors: int) -> list[tuple[float, float]]:
    turns = [2 * math.pi * it / sectors - math.pi / 2 for it in range(sectors + 1)]
    return [(math.cos(it), math.sin(it)) for it in turns]


def _center(head: int) -> tuple[float, float]:
    middle = LEFT + COLUMNS * PITCH / 2
    return middle + (2 * head - 1) * (OUTER + 12), OUTER + 4


def _ring(cylinder: int) -> float:
    """Returns the outer radius of a track. Track 0 is the outermost."""
    return OUTER - (OUTER - INNER) * cylinder / COLUMNS


@lru_cache(maxsize=8192)
def _sector_path(sectors: int, cylinder: int, head: int, sector: int) -> str:
    """Returns the outline of a block on the disk."""
    x, y = _center(head)
    outer, inner = _ring(cylinder), _ring(cylinder + 1)
    (c0, s0), (c1, s1) = _directions(sectors)[sector : sector + 2]
    start = f"M{x + outer * c0:.2f} {y + outer * s0:.2f}A{outer:.2f} {outer:.2f} 0 0 1 {x + outer * c1:.2f} {y + outer * s1:.2f}"
    return f"{start}L{x + inner * c1:.2f} {y + inner * s1:.2f}A{inner:.2f} {inner:.2f} 0 0 0 {x + inner * c0:.2f} {y + inner * s0:.2f}z"


def _mark(x: float, y: float, size: float) -> str:
    """Returns the mark of a fault: a ring with a cross in it."""
    arm = size * 0.5
    ring = f"M{x - size:g} {y:g}a{size:g} {size:g} 0 1 0 {2 * size:g} 0a{size:g} {size:g} 0 1 0 {-2 * size:g} 0"
    return f"{ring}M{x - arm:g} {y - arm:g}l{2 * arm:g} {2 * arm:g}m0 {-2 * arm:g}l{-2 * arm:g} {2 * arm:g}"


def _marks(paths: Iterable[str]) -> list[str]:
    outline = "".join(paths)
    return [f'<path class="halo" d="{outline}"/><path class="mark" d="{outline}"/>'] if outline else []


# ---- Cells ----


def tints(disk: Disk) -> dict[int, int]:
    """Returns a tint for each file, by its header. Files that are next to each other on the disk have different ones."""
    found: dict[int, int] = {}
    for block, kind in enumerate(disk.kinds):
        if kind is Kind.DATA:
            found.setdefault(disk.owners[block].header, len(found) % TINTS)
    return found


def _cell(disk: Disk, block: int, first_row: int, above: float, tint: dict[int, int]) -> str:
    """Returns the element of a block."""
    shape, kind = disk.shape, disk.kinds[block]
    x, y = _grid_at(shape, block, first_row)
    path = f"M{x} {y + above:g}h{CELL}v{CELL}h-{CELL}z"
    if shape.is_floppy:
        path += _sector_path(shape.sectors, *shape.track(block))
    look = f"data t{tint[disk.owners[block].header]}" if kind is Kind.DATA else kind.look
    return f'<path class="{look}" d="{path}"><title>{safe(disk.about(block))}</title></path>'


def _cells(disk: Disk, blocks: range, above: float, tint: dict[int, int]) -> Iterator[str]:
    """Yields the elements of blocks: those of one owner in a group, so that all of them stand out where one is pointed at."""
    first_row = disk.shape.cell(blocks.start)[1]
    owned: dict[int, list[int]] = {}
    for block in blocks:
        owner = disk.owners.get(block)
        owned.setdefault(owner.header if owner else 0, []).append(block)
    for header, its in owned.items():
        cells = (_cell(disk, block, first_row, above, tint) for block in its)
        yield "".join(cells) if header == 0 else f'<g class="own">{"".join(cells)}</g>'


def _block_marks(disk: Disk, blocks: range, above: float) -> Iterator[str]:
    """Yields the marks of the blocks that have faults, in the grid and on the disk."""
    shape = disk.shape
    first_row = shape.cell(blocks.start)[1]
    for block in disk.faults_at:
        if block not in blocks:
            continue
        x, y = _grid_at(shape, block, first_row)
        yield _mark(x + CELL / 2, y + above + CELL / 2, 6)
        if shape.is_floppy:
            cylinder, head, sector = shape.track(block)
            turn = 2 * math.pi * (sector + 0.5) / shape.sectors - math.pi / 2
            middle = (_ring(cylinder) + _ring(cylinder + 1)) / 2
            at_x, at_y = _center(head)
            yield _mark(round(at_x + middle * math.cos(turn), 1), round(at_y + middle * math.sin(turn), 1), 5)


# ---- Labels and the legend ----


def _text(x: float, y: float, said: str, look: str) -> str:
    return f'<text class="{look}" x="{x:g}" y="{y:g}">{safe(said)}</text>'


def _floppy_labels(shape: Shape, above: float) -> Iterator[str]:
    """Yields the labels of the disk and of the grid, and the hole of the disk."""
    for head in range(HEADS):
        x, y = _center(head)
        yield f'<circle class="rim" cx="{x:g}" cy="{y:g}" r="{OUTER + 3:g}"/><circle class="hub" cx="{x:g}" cy="{y:g}" r="{HUB:g}"/>'
        width = OUTER - INNER
        yield f'<circle class="groove" cx="{x:g}" cy="{y:g}" r="{INNER + width / 2:g}" stroke-width="{width - 0.6:g}"/>'
        yield _text(x, y + 4, f"head {head}", "middle")
        height = shape.sectors * PITCH
        yield _text(LEFT - 8, above + head * (height + GAP) + height / 2 + 4, f"head {head}", "end")
    for cylinder in [*range(0, COLUMNS, 10), COLUMNS - 1]:
        yield _text(LEFT + cylinder * PITCH + CELL / 2, above - 6, str(cylinder), "middle")
    yield _text(LEFT - 8, above - 6, "cylinder", "end")


def _row_labels(shape: Shape, blocks: range, above: float) -> Iterator[str]:
    """Yields the number of the first block of every eighth row."""
    first_row = shape.cell(blocks.start)[1]
    for block in blocks[:: 8 * COLUMNS]:
        yield _text(LEFT - 8, above + (shape.cell(block)[1] - first_row) * PITCH + CELL, f"{block:,}", "end")


def _swatch(kind: Kind, x: float, y: float) -> str:
    if kind is not Kind.DATA:
        return f'<path class="{kind.look}" d="M{x:g} {y:g}h12v12h-12z"/>'
    return "".join(f'<path class="data t{it}" d="M{x + 3 * it:g} {y:g}h3v12h-3z"/>' for it in range(TINTS))


def _legend(disk: Disk, above: float) -> Iterator[str]:
    """Yields the entries of the legend: the kinds of blocks, and the mark of a fault."""
    shown = [kind for kind in Kind if disk.counts[kind]]
    for at, kind in enumerate(shown):
        x, y = LEFT + at % ACROSS * ENTRY, above + at // ACROSS * LEGEND
        yield _swatch(kind, x, y) + _text(x + 19, y + 10.5, kind.counted(disk.counts[kind]), "entry")
    if disk.faults_at:
        count = len(disk.faults_at)
        x, y = LEFT + len(shown) % ACROSS * ENTRY, above + len(shown) // ACROSS * LEGEND
        yield from _marks([_mark(x + 6, y + 6, 6)])
        yield _text(x + 19, y + 10.5, f"{count:,} block{'' if count == 1 else 's'} with faults", "entry")


def _legend_height(disk: Disk) -> int:
    count = sum(1 for kind in Kind if disk.counts[kind]) + bool(disk.faults_at)
    return -(-count // ACROSS) * LEGEND


# ---- Whole pictures ----


def _about_picture(disk: Disk, blocks: range) -> str:
    what = f"The {len(blocks):,} blocks of {disk.title}"
    if len(blocks) < len(disk.kinds):
        what = f"Blocks {blocks.start:,} to {blocks.stop - 1:,} of {disk.title}"
    return f"{what}, by their owners. The table of blocks has the same in words."


def _svg(height: float, about: str, parts: Iterable[str], style: str = "") -> str:
    head = f'<svg xmlns="http://www.w3.org/2000/svg" class="blocks" role="img" viewBox="0 0 {WIDTH} {height:g}"'
    inside = f"<style>{style}</style><rect class=\"sheet\" width=\"{WIDTH}\" height=\"{height:g}\"/>" if style else ""
    size = f' width="{WIDTH}" height="{height:g}"' if style else ""
    return f'{head}{size}><title>{safe(about)}</title>{inside}{"".join(parts)}</svg>'


def _part(disk: Disk, blocks: range, above: float, tint: dict[int, int]) -> tuple[list[str], float]:
    """Returns the elements of a part of the picture that begins at a height, and the height where it ends."""
    shape = disk.shape
    above += DISKS + 24 if shape.is_floppy else 4
    labels = _floppy_labels(shape, above) if shape.is_floppy else _row_labels(shape, blocks, above)
    drawn = [*labels, *_cells(disk, blocks, above, tint), *_marks(_block_marks(disk, blocks, above))]
    last = _grid_at(shape, blocks[-1], shape.cell(blocks.start)[1])[1]
    return drawn, above + last + PITCH


def pictures(disk: Disk) -> list[str]:
    """Returns the picture of an image for a page, in parts that fit on a sheet of paper. The last one has the legend."""
    drawn, tint = [], tints(disk)
    for blocks in disk.shape.parts():
        parts, end = _part(disk, blocks, 0, tint)
        if blocks.stop == len(disk.kinds):
            parts += _legend(disk, end + 18)
            end += 18 + _legend_height(disk)
        drawn.append(_svg(end, _about_picture(disk, blocks), parts))
    return drawn


def picture_file(disk: Disk) -> str:
    """Returns the picture of an image as a file of its own."""
    drawn, end, tint = [_text(LEFT, 26, disk.title, "title"), _text(LEFT, 46, f"{disk.shown_name}: {_caption(disk)}", "entry")], 66.0, tints(disk)
    parts = disk.shape.parts()
    if disk.shape.is_floppy:
        inner, end = _part(disk, parts[0], 0, tint)
        drawn += [f'<g transform="translate(0 60)">{"".join(inner)}</g>']
        end += 60
    else:
        for blocks in parts:
            inner, end = _part(disk, blocks, end, tint)
            drawn += inner
    drawn += _legend(disk, end + 18)
    height = end + 18 + _legend_height(disk) + 8
    return _svg(height, _about_picture(disk, range(len(disk.kinds))), drawn, STYLE.read_text(encoding="utf-8")) + "\n"


def _caption(disk: Disk) -> str:
    count = len(disk.faults)
    said = "sound" if disk.is_accepted else f"refused, {count:,} fault{'' if count == 1 else 's'}"
    return f"{len(disk.kinds):,} blocks, {said}"


def thumbnail(disk: Disk) -> str:
    """Returns a small picture: one element for the blocks of each kind, and the marks of faults."""
    shape = disk.shape
    width, height = THUMB_WIDTH / COLUMNS, THUMB_HEIGHT / max(shape.rows, 1)
    outlines: dict[str, list[str]] = {}
    for run in _alike(disk):
        column, row = shape.cell(run.start)
        across, down = (width, height * len(run)) if shape.is_floppy else (width * len(run), height)
        outlines.setdefault(disk.kinds[run.start].look, []).append(
            f"M{column * width:g} {row * height:.2f}h{across:g}v{down:.2f}h{-across:g}z"
        )
    drawn = [f'<path class="{look}" d="{"".join(its)}"/>' for look, its in outlines.items()]
    places = (shape.cell(block) for block in disk.faults_at)
    drawn += _marks(_mark((x + 0.5) * width, round((y + 0.5) * height, 2), 5) for x, y in places)
    head = f'<svg class="thumb" role="img" viewBox="0 0 {THUMB_WIDTH} {THUMB_HEIGHT}"><title>{safe(_caption(disk))}</title>'
    return f'{head}{"".join(drawn)}</svg>'


def _alike(disk: Disk) -> Iterator[range]:
    """Yields runs of blocks of one kind, each in one column of a floppy or in one row of another grid."""
    shape, kinds = disk.shape, disk.kinds
    line = shape.sectors * HEADS if shape.is_floppy else COLUMNS
    first = 0
    for block in range(1, len(kinds) + 1):
        if block == len(kinds) or kinds[block] is not kinds[first] or block % line == 0:
            yield range(first, block)
            first = block
