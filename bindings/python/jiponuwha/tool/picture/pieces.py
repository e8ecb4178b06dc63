"""How much the files and the free space of an image are in pieces."""
from __future__ import annotations

from dataclasses import dataclass, field
from itertools import groupby

from ... import Owner, Role

# The blocks of a file that have no data may be between two of its data blocks, which are one piece then.
_BETWEEN = (Role.FILE, Role.EXTENSION)


@dataclass(frozen=True)
class Pieces:
    """The number of pieces of each file with data, by the block of its header, and the lengths of the runs of free blocks."""

    of_file: dict[int, int] = field(default_factory=dict)
    free: list[int] = field(default_factory=list)

    @property
    def whole(self) -> int:
        """How many files are in one piece."""
        return sum(it == 1 for it in self.of_file.values())


def pieces_of(owners: list[Owner]) -> Pieces:
    """Returns the pieces of the files and of the free space of an image."""
    data: dict[int, list[tuple[int, int]]] = {}
    for block, owner in enumerate(owners):
        if owner.role == Role.DATA:
            data.setdefault(owner.header, []).append((owner.index, block))
    files = {header: _count(owners, header, [block for _, block in sorted(found)]) for header, found in data.items()}
    free = [len(list(run)) for is_free, run in groupby(owners, lambda it: it.role == Role.FREE) if is_free]
    return Pieces(files, free)


def _count(owners: list[Owner], header: int, blocks: list[int]) -> int:
    count = 1
    for block, following in zip(blocks, blocks[1:]):
        next_block = block + 1
        while next_block < following and owners[next_block].header == header and owners[next_block].role in _BETWEEN:
            next_block += 1
        count += next_block != following
    return count
