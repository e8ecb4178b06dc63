"""The grid of an image as letters on a terminal: one column a cylinder, so that a double-density floppy fits 80 columns by 24 lines."""
from __future__ import annotations

from collections.abc import Iterator
from itertools import groupby

from .disk import Disk
from .kinds import Kind
from .shape import COLUMNS
from .svg import tints

FAULT = "!"
# The graphic renditions of the kinds, of the two tints of data, of a fault, and of the last row of head 0.
_LOOKS = {
    Kind.BOOT: "30;45",
    Kind.ROOT: "30;105",
    Kind.BITMAP: "30;43",
    Kind.DIRECTORY: "30;42",
    Kind.FILE: "30;47",
    Kind.EXTENSION: "30;46",
    Kind.LOST: "33;1",
    Kind.FREE: "2",
    Kind.GONE: "30;103",
    Kind.BYTES: "37",
    Kind.ZEROS: "2",
}
_DATA = ("97;44", "30;104")
_FAULT = "97;41;1"
_UNDERLINED = ";4"
_SHORT = {Kind.DIRECTORY: "dir", Kind.FILE: "file", Kind.EXTENSION: "ext", Kind.GONE: "lost header", Kind.BYTES: "with data", Kind.ZEROS: "empty"}


def letter(disk: Disk, block: int) -> str:
    """Returns the letter of a block: that of its kind, or `!` if it has a fault."""
    return FAULT if block in disk.faults_at else disk.kinds[block].letter


def _look(disk: Disk, block: int, tint: dict[int, int]) -> str:
    if block in disk.faults_at:
        return _FAULT
    kind = disk.kinds[block]
    return _DATA[tint[disk.owners[block].header] % len(_DATA)] if kind is Kind.DATA else _LOOKS[kind]


def _painted(text: str, look: str) -> str:
    return f"\033[{look}m{text}\033[0m"


def rows(disk: Disk, has_colours: bool) -> Iterator[str]:
    """Yields the rows of the grid. With colours, the last row of head 0 is underlined."""
    shape, tint = disk.shape, tints(disk) if has_colours else {}
    for row in range(shape.rows):
        blocks = [it for it in (shape.block(column, row) for column in range(COLUMNS)) if it is not None]
        if not has_colours:
            yield "".join(letter(disk, it) for it in blocks)
            continue
        line = _UNDERLINED if shape.is_floppy and row == shape.sectors - 1 else ""
        runs = groupby(blocks, lambda it: _look(disk, it, tint))
        yield "".join(_painted("".join(letter(disk, it) for it in run), look + line) for look, run in runs)


def heading(disk: Disk) -> str:
    """Returns the line that says which disk it is, and how the grid is read, in at most 80 columns."""
    if disk.info:
        said = f"{disk.info.used:,} of {disk.info.blocks:,} blocks used"
    else:
        said = f"refused, {len(disk.faults):,} fault{'' if len(disk.faults) == 1 else 's'}"
    name = disk.title if len(disk.title) <= 36 else f"{disk.title[:34]}.."
    parts = [disk.format.name if disk.format is not None else "", said, "down: head 0, then head 1" if disk.shape.is_floppy else ""]
    line = name
    for part in filter(None, parts):
        line = f"{line}, {part}" if len(line) + 2 + len(part) <= COLUMNS else line
    return line


def legend(disk: Disk, has_colours: bool) -> str:
    """Returns the line that says what the letters mean, with the number of blocks of each kind if that fits 80 columns."""
    shown = [(it.letter, _LOOKS.get(it, _DATA[0]), _SHORT.get(it, it.look), disk.counts[it]) for it in Kind if disk.counts[it]]
    if disk.faults_at:
        shown.append((FAULT, _FAULT, "fault", len(disk.faults_at)))
    fits = len("  ".join(f"{mark} {count:,} {name}" for mark, _, name, count in shown)) <= COLUMNS
    parts = []
    for mark, look, name, count in shown:
        parts.append(f"{_painted(mark, look) if has_colours else mark} {f'{count:,} ' if fits else ''}{name}")
    return "  ".join(parts)
