"""What is recorded of one image. Every worker runs this code, here and on other machines."""
from __future__ import annotations

import functools
import hashlib
import zlib
from collections.abc import Iterator
from dataclasses import dataclass
from enum import IntEnum, StrEnum
from typing import Any, NamedTuple

from ... import Entry, Fault, Faults, Format, NotAnImage, Protected, Role, Salvaged, State, Volume, boot_block, create, date_text, label_of, salvage
from ... import open as open_volume
from ..._numbers import BLOCK_BYTES


class Verdict(StrEnum):
    """What is said of an image. A validated one is accepted, with a bitmap that was rebuilt. A fatal one ended each process that
    examined it."""

    OK = "ok"
    VALIDATED = "validated"
    REFUSED = "refused"
    UNREADABLE = "unreadable"
    FATAL = "fatal"


class Depth(IntEnum):
    """How much of an image is recorded: the verdict alone, also the names of its files, or also all sums."""

    VERDICT = 0
    NAMES = 1
    SUMS = 2


class Sums(NamedTuple):
    """The sums of some bytes, as hexadecimal digits."""

    crc32: str
    md5: str
    sha1: str
    sha256: str


class FileRow(NamedTuple):
    """A file or directory of an accepted image. A directory has no sums."""

    path: str
    type: str
    size: int
    bits: int
    date: str
    comment: str
    crc32: str | None
    md5: str | None
    sha1: str | None
    sha256: str | None


class FaultRow(NamedTuple):
    """A fault of a refused image."""

    kind: str
    block: int
    text: str
    at: int | None
    found: int | None
    wanted: int | None


class SavedRow(NamedTuple):
    """A file or directory that salvage gives of a refused image."""

    path: str
    state: str
    size: int
    missing: int
    is_cut: int
    is_found: int
    bits: int
    date: str
    comment: str
    crc32: str | None
    md5: str | None
    sha1: str | None
    sha256: str | None


class BootRow(NamedTuple):
    """The boot block of an image: its SHA-1, what it is, and the checksum in it."""

    sha1: str | None = None
    kind: str | None = None
    sum: int | None = None


@dataclass(frozen=True)
class Record:
    """An image as the archive commands know it. What is not known is None, and what was not asked for is empty."""

    verdict: Verdict
    reason: str | None = None
    bytes: int | None = None
    sums: Sums | None = None
    kind: str | None = None
    label: str | None = None
    blocks: int | None = None
    used: int | None = None
    free: int | None = None
    boot: BootRow = BootRow()
    more_faults: bool = False
    files: tuple[FileRow, ...] = ()
    faults: tuple[FaultRow, ...] = ()
    salvaged: tuple[SavedRow, ...] = ()


def sums_of(data: bytes) -> Sums:
    """Returns the sums of some bytes."""
    md5, sha1 = hashlib.md5(data, usedforsecurity=False), hashlib.sha1(data, usedforsecurity=False)
    return Sums(f"{zlib.crc32(data):08x}", md5.hexdigest(), sha1.hexdigest(), hashlib.sha256(data).hexdigest())


_NO_SUMS = (None, None, None, None)


def fault_row(fault: Fault) -> FaultRow:
    """Returns the row of a fault. Its kind is written as `adf_serve check` writes it."""
    kind = "".join(it.capitalize() for it in fault.kind.name.split("_"))
    return FaultRow(kind, fault.block, fault.text, fault.at, fault.found, fault.wanted)


def reason_of(faults: Faults) -> str:
    """Returns the first fault in words, and how many others there are."""
    if not faults:
        return "the library refuses the image"
    others = len(faults) - 1
    more = f", and {others:,}{' or more' if faults.more else ''} other fault{'s' * (others != 1)}" if others else ""
    return f"block {faults[0].block}: {faults[0].text}{more}"


# ---- The boot block ----


@functools.cache
def _boot_bytes() -> int:
    """Returns the number of bytes of a boot block: those of the boot blocks of a blank volume."""
    with create("Blank", blocks=16) as volume:
        length = BLOCK_BYTES * sum(it.role == Role.BOOT for it in volume.map())
        volume.close(discard=True)
    return length


def boot_of(image: bytes) -> BootRow:
    """Returns the row of the boot block of an image. Its kind is `none`, `wrong`, `standard` or `custom`."""
    try:
        boot = boot_block(image)
    except NotAnImage:
        return BootRow()
    sha1 = hashlib.sha1(image[: _boot_bytes()], usedforsecurity=False).hexdigest()
    return BootRow(sha1, boot.code.name.lower(), boot.sum)


# ---- Accepted and refused images ----


def contents(volume: Volume, image: bytes) -> Iterator[tuple[bytes, Entry, bytes]]:
    """Iterates over the paths, entries and bytes of all files and directories. Protection bits do not hide the bytes of a file."""
    saved: dict[int, Salvaged] = {}
    for path, entry in volume.walk(bytes):
        data = b""
        if entry.is_file:
            try:
                data = volume.read(path)
            except Protected:
                saved = saved or {it.header: it for it in salvage(image)}
                data = saved[entry.key].read()
        yield path, entry, data


def _file_row(path: bytes, entry: Entry, data: bytes | None) -> FileRow:
    kind = "file" if entry.is_file else "directory"
    sums = sums_of(data) if entry.is_file and data is not None else _NO_SUMS
    return FileRow(path.decode("iso-8859-1"), kind, entry.size, entry.bits, date_text(entry.date), entry.comment, *sums)


def _saved_row(entry: Salvaged, depth: Depth) -> SavedRow:
    state = State(entry.state).name.lower() if entry.state in list(State) else str(entry.state)
    sums = sums_of(entry.read()) if entry.is_file and depth == Depth.SUMS else _NO_SUMS
    flags = (int(entry.is_cut), int(entry.is_found))
    return SavedRow(entry.path, state, entry.size, entry.missing, *flags, entry.bits, date_text(entry.date), entry.comment, *sums)


def _file_rows(volume: Volume, image: bytes, depth: Depth) -> tuple[FileRow, ...]:
    if depth == Depth.SUMS:
        return tuple(_file_row(*it) for it in contents(volume, image))
    if depth == Depth.NAMES:
        return tuple(_file_row(path, entry, None) for path, entry in volume.walk(bytes))
    return ()


def _accepted(volume: Volume, data: bytes, depth: Depth) -> Record:
    image, info = volume.image(), volume.info()
    return Record(
        verdict=Verdict.OK if image == data else Verdict.VALIDATED,
        reason=None if image == data else "the bitmap is not marked valid; it is rebuilt in memory",
        bytes=len(data),
        sums=sums_of(data) if depth == Depth.SUMS else None,
        kind=info.format.name,
        label=info.label,
        blocks=len(image) // BLOCK_BYTES,
        used=info.used,
        free=info.free,
        boot=boot_of(data),
        files=_file_rows(volume, image, depth),
    )


def _saved_rows(data: bytes, depth: Depth) -> tuple[SavedRow, ...]:
    if depth == Depth.VERDICT:
        return ()
    try:
        return tuple(_saved_row(it, depth) for it in salvage(data))
    except NotAnImage:
        return ()


def _about(data: bytes) -> dict[str, Any]:
    """Returns what is known of a refused image with the size of one: its kind, its label and its blocks."""
    try:
        kind, label = boot_block(data).kind, label_of(data)
    except NotAnImage:
        return {}
    return {"kind": kind.name if isinstance(kind, Format) else None, "label": label, "blocks": len(data) // BLOCK_BYTES}


def _refused(faults: Faults, data: bytes, depth: Depth) -> Record:
    return Record(
        verdict=Verdict.REFUSED,
        reason=reason_of(faults),
        bytes=len(data),
        sums=sums_of(data) if depth == Depth.SUMS else None,
        **_about(data),
        boot=boot_of(data),
        more_faults=faults.more,
        faults=tuple(fault_row(it) for it in faults),
        salvaged=_saved_rows(data, depth),
    )


def _examined(data: bytes, depth: Depth) -> Record:
    try:
        volume = open_volume(data, read_only=True)
    except NotAnImage as refused:
        return _refused(refused.faults, data, depth)
    try:
        return _accepted(volume, data, depth)
    finally:
        volume.close(discard=True)


def check(data: bytes) -> Record:
    """Returns the verdict on an image, with its faults."""
    return _examined(data, Depth.VERDICT)


def names(data: bytes) -> Record:
    """Returns the record of an image with its files, without sums."""
    return _examined(data, Depth.NAMES)


def examine(data: bytes) -> Record:
    """Returns the whole record of an image."""
    return _examined(data, Depth.SUMS)
