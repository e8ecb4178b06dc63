"""What a picture shows of one image. Each answer comes from the library."""
from __future__ import annotations

import hashlib
from collections import Counter
from dataclasses import dataclass, field
from functools import cached_property

from ... import Boot, Fault, FaultKind, Faults, Format, Info, NotAnImage, Owner, Role, Salvage, State, Volume, boot_block, label_of, open, salvage
from ..._numbers import BLOCK_BYTES, MOST_BLOCKS
from . import items
from .items import Item
from .kinds import OF_ROLE, Kind
from .pieces import Pieces, pieces_of
from .shape import Shape
from .texts import clean

_ZEROS = bytes(BLOCK_BYTES)


@dataclass
class Disk:
    """An image: its blocks, its files and directories, and its faults.

    `info` and `pieces` are None for an image that is refused, and `deleted` for one whose bitmap cannot be trusted. `owners` has
    the owner of each block, in a refused image as far as salvage tells. It is empty for bytes that are no image. `label` is
    the name in the root block, if that is valid.
    """

    name: str
    length: int
    sum: str
    kinds: list[Kind]
    owners: dict[int, Owner] = field(repr=False)
    faults: Faults = Faults()
    items: list[Item] = field(default_factory=list)
    label: str | None = None
    boot: Boot | None = None
    info: Info | None = None
    pieces: Pieces | None = None
    deleted: list[Item] | None = None
    is_rebuilt: bool = False

    @cached_property
    def shape(self) -> Shape:
        return Shape(len(self.kinds))

    @property
    def is_accepted(self) -> bool:
        return self.info is not None

    @property
    def shown_name(self) -> str:
        return clean(self.name)

    @property
    def title(self) -> str:
        """The label, or the name of the image if it has none."""
        return clean(self.label) if self.label else self.shown_name

    @property
    def format(self) -> Format | None:
        """The file system that the boot block names."""
        return self.boot.kind if self.boot and isinstance(self.boot.kind, Format) else None

    @property
    def facts(self) -> str:
        """The file system, the density and the number of blocks."""
        count = f"{len(self.kinds):,} blocks"
        return ", ".join(it for it in (self.format.name if self.format is not None else "", self.shape.density, count) if it)

    @property
    def lost(self) -> int:
        """The number of blocks that are used and part of nothing."""
        return self.kinds.count(Kind.LOST)

    @cached_property
    def faults_at(self) -> dict[int, list[Fault]]:
        """The faults of each block that has some and is there."""
        found: dict[int, list[Fault]] = {}
        for fault in self.faults:
            if fault.block < len(self.kinds) and fault.kind < FaultKind.NOT_WHOLE_BLOCKS:
                found.setdefault(fault.block, []).append(fault)
        return found

    @cached_property
    def paths(self) -> dict[int, str]:
        """The path of each file and directory, by the block of its header."""
        return {it.header: it.shown_path for it in self.items}

    @cached_property
    def _deleted_at(self) -> dict[int, str]:
        return {it.header: it.shown_path for it in self.deleted or ()}

    @cached_property
    def counts(self) -> Counter[Kind]:
        return Counter(self.kinds)

    def said(self, block: int) -> str:
        """Returns what a block is, with the path of its owner."""
        kind = self.kinds[block]
        if kind is Kind.FREE and block not in self._deleted_at:
            return _PLAIN[kind]
        owner = self.owners.get(block, _NOBODY)
        path = self.paths.get(owner.header, "?")
        if kind is Kind.DATA:
            return f"data {owner.index} of {path}"
        if kind is Kind.EXTENSION:
            return f"extension {owner.index} of {path}"
        if kind is Kind.FILE:
            return f"header of {path}"
        if kind is Kind.DIRECTORY:
            return f"directory {path}"
        if kind is Kind.GONE:
            return f"lost header of {path}"
        if kind is Kind.BITMAP:
            return f"bitmap block {owner.index}"
        if kind is Kind.FREE:
            return f"free, header of the deleted {self._deleted_at[block]}"
        return _PLAIN[kind]

    def about(self, block: int) -> str:
        """Returns the number of a block, where it is, what it is, and its faults."""
        place = self.shape.place(block)
        if block not in self.faults_at:
            return f"block {block:,}; {place}{place and '; '}{self.said(block)}"
        faults = "".join(f"; fault: {it.text}" for it in self.faults_at[block])
        return f"block {block:,}; {place}{place and '; '}{self.said(block)}{faults}"

    def runs(self) -> list[range]:
        """Returns all blocks, as runs that one row of a table describes: data blocks of one file in order, or blocks alike."""
        starts = [block for block in range(len(self.kinds)) if not block or not self._goes_on(block)]
        return [range(first, end) for first, end in zip(starts, [*starts[1:], len(self.kinds)])]

    def _goes_on(self, block: int) -> bool:
        """Whether a block continues the run of the block before it."""
        kind = self.kinds[block]
        if kind is not self.kinds[block - 1] or block in self.faults_at or block - 1 in self.faults_at:
            return False
        if kind is Kind.DATA:
            before, here = self.owners[block - 1], self.owners[block]
            return (before.header, before.index + 1) == (here.header, here.index)
        return kind in _ALIKE and block not in self._deleted_at and block - 1 not in self._deleted_at


_NOBODY = Owner(Role.FREE)
_PLAIN = {
    Kind.BOOT: "boot block",
    Kind.ROOT: "root block",
    Kind.LOST: "lost: used, and part of nothing",
    Kind.FREE: "free",
    Kind.BYTES: "has data of an unknown owner",
    Kind.ZEROS: "empty, all bytes are 0",
}
_ALIKE = {Kind.BOOT, Kind.LOST, Kind.FREE, Kind.BYTES, Kind.ZEROS}


def examined(data: bytes) -> Disk:
    """Returns what a picture shows of an image that has no name yet. Workers call it."""
    return disk_of("", data)


def disk_of(name: str, data: bytes) -> Disk:
    """Returns what a picture shows of the bytes of an image."""
    try:
        volume = open(data, read_only=True)
    except NotAnImage as refused:
        return _refused(name, data, refused.faults)
    with volume:
        return _accepted(name, data, volume)


def _sum(data: bytes) -> str:
    return hashlib.sha1(data, usedforsecurity=False).hexdigest()


def _accepted(name: str, data: bytes, volume: Volume) -> Disk:
    image, owners, info = volume.image(), volume.map(), volume.info()
    pieces = pieces_of(owners)
    found = items.as_tree(items.of_entry(path, it, pieces.of_file.get(it.key)) for path, it in volume.walk())
    is_rebuilt = image != data
    return Disk(
        name=name,
        length=len(data),
        sum=_sum(data),
        kinds=[OF_ROLE[it.role] for it in owners],
        owners=dict(enumerate(owners)),
        items=found,
        label=info.label,
        boot=boot_block(data),
        info=info,
        pieces=pieces,
        deleted=None if is_rebuilt else deleted_of(image, owners, {it for it, owner in enumerate(owners) if owner.role == Role.FREE}),
        is_rebuilt=is_rebuilt,
    )


def deleted_of(image: bytes, owners: list[Owner], headers: set[int]) -> list[Item]:
    """Returns the deleted files and directories of an image: the entries with one of these headers.

    They have sound headers in free blocks. What is saved of an image has them too, if the bitmap cannot be trusted. So a bit of
    each bitmap block is changed in a copy, and that is salvaged.
    """
    copy = bytearray(image)
    for block, owner in enumerate(owners):
        if owner.role == Role.BITMAP:
            copy[BLOCK_BYTES * (block + 1) - 1] ^= 1
    return items.as_tree(items.of_salvaged(it) for it in salvage(copy) if it.header in headers)


def _refused(name: str, data: bytes, faults: Faults) -> Disk:
    try:
        saved = salvage(data)
    except NotAnImage:
        return Disk(name, len(data), _sum(data), _shapeless(data), {}, faults)
    deleted = saved.deleted
    return Disk(
        name=name,
        length=len(data),
        sum=_sum(data),
        kinds=_kinds(saved),
        owners=dict(enumerate(saved.owners)),
        faults=faults,
        items=items.as_tree(items.of_salvaged(it) for it in saved),
        label=label_of(data),
        boot=boot_block(data),
        deleted=deleted_of(data, saved.owners, set(deleted)) if deleted else None if deleted is None else [],
    )


def _kinds(saved: Salvage) -> list[Kind]:
    """Returns the kind of each block of a refused image."""
    free = Kind.FREE if saved.trusts_bitmap else Kind.ZEROS
    kinds = [free if it.role == Role.FREE else OF_ROLE[it.role] for it in saved.owners]
    for it in saved:
        if it.state == State.LOST and it.header < len(kinds) and kinds[it.header] is Kind.FILE and saved.owners[it.header].header == it.header:
            kinds[it.header] = Kind.GONE
    return kinds


def _shapeless(data: bytes) -> list[Kind]:
    """Returns the kinds of the blocks of bytes that are no image."""
    blocks = min(len(data) // BLOCK_BYTES, MOST_BLOCKS)
    pieces = (data[at : at + BLOCK_BYTES] for at in range(0, BLOCK_BYTES * blocks, BLOCK_BYTES))
    return [Kind.ZEROS if it == _ZEROS else Kind.BYTES for it in pieces]
