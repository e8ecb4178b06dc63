"""Where the blocks of an image are: on the tracks of a floppy, or in a grid of 80 columns."""
from __future__ import annotations

from dataclasses import dataclass

from ... import DOUBLE_DENSITY, HIGH_DENSITY

COLUMNS = 80
HEADS = 2
# The rows of a part of the grid of an image that is no floppy. A part fits on a sheet of paper.
PART = 88
_DENSITIES = {DOUBLE_DENSITY: "double density", HIGH_DENSITY: "high density"}


@dataclass(frozen=True)
class Shape:
    """The shape of an image with so many blocks."""

    blocks: int

    @property
    def is_floppy(self) -> bool:
        return self.blocks in _DENSITIES

    @property
    def density(self) -> str:
        """The name of the density, or nothing for another size."""
        return _DENSITIES.get(self.blocks, "")

    @property
    def sectors(self) -> int:
        """The number of sectors of a track of a floppy."""
        return self.blocks // COLUMNS // HEADS

    @property
    def rows(self) -> int:
        return -(-self.blocks // COLUMNS)

    def cell(self, block: int) -> tuple[int, int]:
        """Returns the column and the row of a block in the grid. A column of a floppy is a cylinder."""
        if self.is_floppy:
            return divmod(block, HEADS * self.sectors)
        row, column = divmod(block, COLUMNS)
        return column, row

    def block(self, column: int, row: int) -> int | None:
        """Returns the block in a column and a row, or None behind the last one."""
        block = column * HEADS * self.sectors + row if self.is_floppy else row * COLUMNS + column
        return block if block < self.blocks else None

    def parts(self) -> list[range]:
        """Returns the blocks of each part of the grid. A floppy has one part."""
        size = self.blocks if self.is_floppy else COLUMNS * PART
        return [range(first, min(first + size, self.blocks)) for first in range(0, self.blocks, size)]

    def track(self, block: int) -> tuple[int, int, int]:
        """Returns the cylinder, the head and the sector of a block of a floppy."""
        cylinder, rest = divmod(block, HEADS * self.sectors)
        return (cylinder, *divmod(rest, self.sectors))

    def place(self, block: int) -> str:
        """Returns where a block of a floppy is, or nothing for another size."""
        if not self.is_floppy:
            return ""
        cylinder, head, sector = self.track(block)
        return f"cyl {cylinder} head {head} sector {sector}"
