"""What can be saved of a damaged image."""
from __future__ import annotations

import ctypes
import os
import struct
import threading
from collections.abc import Iterable
from dataclasses import dataclass, field
from functools import cached_property
from typing import NamedTuple

from ._errors import NotAnImage, settle
from ._library import CSalvage, CSalvaged, CTold, library
from ._names import text_by
from ._numbers import BLOCK_BYTES, Role, State, Status
from ._path import AnyBytes
from ._values import Date, Owner, date_of, letters, owner_of
from ._volume import HostPath, check, image_bytes

# The role of the header of a deleted entry, among the blocks that a list tells of.
DELETED = 9


class Told(NamedTuple):
    """A block with what it is, as a list tells it."""

    block: int
    role: int
    header: int
    number: int
    holder: int


class _List:
    """The entries of an image, in the library's memory. One thread at a time uses it."""

    def __init__(self, image: bytes, shown: object) -> None:
        self._handle = CSalvage()
        self._turns = threading.Lock()
        result = library.jip_salvage_open(image, len(image), self._handle)
        if result == Status.NOT_AN_IMAGE:
            raise NotAnImage(check(image), shown)
        settle(result, shown)

    def __del__(self) -> None:
        library.jip_salvage_close(self._handle)

    def __len__(self) -> int:
        with self._turns:
            return int(library.jip_salvage_count(self._handle))

    def entry(self, place: int) -> Salvaged:
        given = CSalvaged()
        with self._turns:
            settle(library.jip_salvage_entry(self._handle, place, given), None)
            path = text_by(library.jip_salvage_path, self._handle, place)
            name = text_by(library.jip_salvage_name, self._handle, place)
        return Salvaged(
            path=letters(path),
            name=letters(name),
            state=State(given.state) if given.state in list(State) else given.state,
            size=given.size,
            missing=given.missing,
            is_cut=given.is_cut != 0,
            is_found=given.is_found != 0,
            bits=given.protection,
            date=date_of(given.date),
            comment=letters(bytes(given.comment)[: given.comment_length]),
            header=given.header,
            _list=self,
            _place=place,
        )

    def read(self, place: int, size: int) -> bytes:
        room, length = ctypes.create_string_buffer(size), ctypes.c_size_t()
        with self._turns:
            settle(library.jip_salvage_read(self._handle, place, room, size, length), None)
        return room.raw[: length.value]

    def blocks(self, expected: int) -> list[Told]:
        """Returns what the blocks of the image are, of which there are as many as expected, or more."""
        count, room = ctypes.c_size_t(), (CTold * expected)()
        with self._turns:
            settle(library.jip_salvage_blocks(self._handle, room, expected, count), None)
            if count.value > expected:
                room = (CTold * count.value)()
                settle(library.jip_salvage_blocks(self._handle, room, count.value, count), None)
        # (faster than by the fields of each struct)
        return [Told._make(it) for it in struct.iter_unpack("=5I", memoryview(room)[: count.value])]

    def trusts_bitmap(self) -> bool:
        with self._turns:
            return bool(library.jip_salvage_trusts_bitmap(self._handle))


@dataclass(frozen=True)
class Salvaged:
    """A file or directory of a damaged image.

    `state` is a `State`; a later library may have other numbers. `missing` counts the data blocks that a broken file lacks.
    `is_cut` says that a broken file ends early, because all of them together would be too long. `is_found` says that no
    directory of the tree leads to it; its path then starts with `lost+found`. `size` is in bytes, `bits` are the protection
    bits, and `header` is the block number of the header.
    """

    path: str
    name: str
    state: int
    size: int
    missing: int
    is_cut: bool
    is_found: bool
    bits: int
    date: Date
    comment: str
    header: int
    _list: _List = field(repr=False, compare=False)
    _place: int = field(repr=False, compare=False)

    @property
    def is_dir(self) -> bool:
        return self.state in (State.DIRECTORY, State.DOUBTFUL_DIRECTORY)

    @property
    def is_file(self) -> bool:
        return self.state in (State.WHOLE, State.DOUBTFUL, State.BROKEN)

    @property
    def path_bytes(self) -> bytes:
        return self.path.encode("iso-8859-1")

    def read(self) -> bytes:
        """Returns the bytes of the file: all of a whole one; of a broken one what is left, in its place, with zeros between.

        A directory has no bytes.
        """
        return self._list.read(self._place, self.size)


class Salvage(list[Salvaged]):
    """What can be trusted of an image, a directory before its entries; and what its blocks are.

    `trusts_bitmap` says whether the bitmap of the image can be trusted. Only then it is known which entries are deleted.
    """

    def __init__(self, found: _List, blocks: int) -> None:
        super().__init__(found.entry(place) for place in range(len(found)))
        self.trusts_bitmap = found.trusts_bitmap()
        self._list = found
        self._blocks = blocks

    @cached_property
    def _told(self) -> list[Told]:
        return self._list.blocks(self._blocks)

    @property
    def deleted(self) -> list[int] | None:
        """The block numbers of the headers of the deleted entries, or None if the bitmap cannot be trusted."""
        return [it.block for it in self._told if it.role == DELETED] if self.trusts_bitmap else None

    @cached_property
    def owners(self) -> list[Owner]:
        """Who owns each block, as far as the entries tell it.

        A free block has nothing to tell: a trusted bitmap marks it free, or without one all its bytes are 0. A lost block is used, and
        part of nothing. The header of a lost entry has the role of a file. Blocks of a file that is not whole are those that
        its bytes are read from.
        """
        owners = [Owner(Role.FREE)] * self._blocks
        for block, owner in self._claims():
            if block < self._blocks:
                owners[block] = owner
        return owners

    def _claims(self) -> Iterable[tuple[int, Owner]]:
        """Yields blocks with their owners. The last owner of a block counts."""
        whole = [it for it in self if it.state in (State.DIRECTORY, State.WHOLE)]
        others = [it for it in self if it.state not in (State.DIRECTORY, State.WHOLE)]
        yield from self._alike(Role.LOST)
        yield from ((it.header, _header(it)) for it in others if it.state == State.LOST)
        yield from self._alike(Role.EXTENSION)
        yield from self._alike(Role.BITMAP)
        yield from ((it.block, _owner(it)) for it in self._told if it.role == Role.DATA and not it.holder)
        yield from ((it.header, _header(it)) for it in others if it.state != State.LOST)
        yield from self._data()
        yield from ((it.header, _header(it)) for it in whole)
        yield from self._alike(Role.ROOT)
        yield from self._alike(Role.BOOT)

    def _alike(self, role: Role) -> Iterable[tuple[int, Owner]]:
        return ((it.block, _owner(it)) for it in self._told if it.role == role)

    def _data(self) -> Iterable[tuple[int, Owner]]:
        """Yields the data blocks of whole files, and their extension blocks, which have the pointers to data blocks."""
        file, last, number = 0, 0, 0
        for it in self._told:
            if it.role != Role.DATA or not it.holder:
                continue
            if it.header != file:
                file, last, number = it.header, it.header, 0
            if it.holder != last:
                yield it.holder, Owner(Role.EXTENSION, file, number)
                last, number = it.holder, number + 1
            yield it.block, _owner(it)


def _header(entry: Salvaged) -> Owner:
    return Owner(Role.DIRECTORY if entry.is_dir else Role.FILE, entry.header)


def _owner(told: Told) -> Owner:
    return owner_of(told.role, told.header, told.number)


def salvage(source: HostPath | AnyBytes) -> Salvage:
    """Returns what can be trusted of the image in a file or in bytes: a list, a directory before its entries.

    Of an image without faults, these are all its files and directories. Bytes that are not whole blocks, or too few or too
    many, raise NotAnImage (225). An unreadable file raises OSError.
    """
    shown = None if isinstance(source, (bytes, bytearray, memoryview)) else os.fspath(source)
    image = image_bytes(source)
    return Salvage(_List(image, shown), len(image) // BLOCK_BYTES)
