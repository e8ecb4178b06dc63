"""What differs between two images: their files, and their blocks with the owners."""
from __future__ import annotations

from collections.abc import Iterator
from dataclasses import dataclass, field
from typing import NamedTuple

from ... import FaultKind, NotAnImage, Owner, Role, State, date_text, protection_letters, salvage
from ... import open as open_image
from ..._numbers import BLOCK_BYTES
from ..patterns import folded
from .examine import contents


class Content(NamedTuple):
    """A file or directory as it is compared. `data` is None for a directory."""

    path: str
    data: bytes | None
    bits: int
    date: str
    comment: str


class Change(NamedTuple):
    """A file or directory that differs: `added`, `removed` or `changed`, and in what."""

    what: str
    path: str
    reasons: tuple[str, ...] = ()


class Blocks(NamedTuple):
    """Blocks in a row that differ, with their owners on the two sides, and the sides on which the library says that the checksum is
    wrong."""

    first: int
    last: int
    owners: tuple[str | None, str | None]
    wrong: tuple[bool, bool]


@dataclass
class Side:
    """An image that is compared. A refused one has the files and the owners of blocks that salvage gives of it."""

    data: bytes
    files: dict[bytes, Content] = field(default_factory=dict)
    owners: list[Owner] | None = None
    # The blocks whose checksums the library says are wrong.
    wrong_sums: frozenset[int] = frozenset()
    _paths: dict[int, str] = field(default_factory=dict)

    @classmethod
    def of(cls, data: bytes) -> Side:
        """Reads an image."""
        side = cls(data)
        try:
            side._read()
        except NotAnImage as refused:
            side.wrong_sums = frozenset(it.block for it in refused.faults if it.kind == FaultKind.BAD_SUM)
            side._save()
        return side

    def _read(self) -> None:
        with open_image(self.data, read_only=True) as volume:
            self.owners = volume.map()
            for raw, entry, data in contents(volume, volume.image()):
                path = raw.decode("iso-8859-1")
                self._paths[entry.key] = path
                content = Content(path, data if entry.is_file else None, entry.bits, date_text(entry.date), entry.comment)
                self.files[folded(raw)] = content

    def _save(self) -> None:
        try:
            found = salvage(self.data)
        except NotAnImage:
            return
        self.owners = found.owners
        for it in found:
            self._paths.setdefault(it.header, it.path)
            if it.state != State.LOST:
                data = it.read() if it.is_file else None
                self.files[folded(it.path)] = Content(it.path, data, it.bits, date_text(it.date), it.comment)

    def owner_of(self, block: int) -> str | None:
        """Returns who owns a block, in words; None if the image ends before the block, or has a size that no image has."""
        if self.owners is None or block >= len(self.owners):
            return None
        owner = self.owners[block]
        role = owner.role.name.lower()
        if owner.role in (Role.DATA, Role.EXTENSION, Role.FILE, Role.DIRECTORY):
            return f"{role} of {self._paths.get(owner.header, f'block {owner.header}')}"
        return role


def _reasons(before: Content, after: Content) -> Iterator[str]:
    if (before.data is None) != (after.data is None):
        yield "a directory became a file" if before.data is None else "a file became a directory"
    elif before.data is not None and after.data is not None and before.data != after.data:
        sizes = f"{len(before.data):,} became {len(after.data):,}" if len(before.data) != len(after.data) else f"{len(after.data):,}"
        yield f"bytes ({sizes})"
    if before.bits != after.bits:
        yield f"bits ({protection_letters(before.bits)} became {protection_letters(after.bits)})"
    if before.date != after.date:
        yield f"date ({before.date} became {after.date})"
    if before.comment != after.comment:
        yield f"comment ('{before.comment}' became '{after.comment}')"
    if before.path != after.path:
        yield f"name ({before.path} became {after.path})"


def changes(before: Side, after: Side) -> Iterator[Change]:
    """Yields the files and directories that differ. Names that are one on an Amiga are one here."""
    for name, content in before.files.items():
        other = after.files.get(name)
        if other is None:
            yield Change("removed", content.path)
        elif reasons := tuple(_reasons(content, other)):
            yield Change("changed", other.path, reasons)
    yield from (Change("added", content.path) for name, content in after.files.items() if name not in before.files)


def _different(before: Side, after: Side) -> Iterator[int]:
    longest = max(len(before.data), len(after.data))
    for block in range((longest + BLOCK_BYTES - 1) // BLOCK_BYTES):
        place = slice(block * BLOCK_BYTES, (block + 1) * BLOCK_BYTES)
        if before.data[place] != after.data[place]:
            yield block


def blocks(before: Side, after: Side) -> Iterator[Blocks]:
    """Yields the blocks that differ. Those in a row with the same owners are one."""
    row: Blocks | None = None
    for block in _different(before, after):
        owners = before.owner_of(block), after.owner_of(block)
        wrong = block in before.wrong_sums, block in after.wrong_sums
        if row is not None and (row.last + 1, row.owners, row.wrong) == (block, owners, wrong):
            row = row._replace(last=block)
            continue
        if row is not None:
            yield row
        row = Blocks(block, block, owners, wrong)
    if row is not None:
        yield row
