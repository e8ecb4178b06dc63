"""What is copied: entries of images and files of the host, each with its names below the target, its bits, date and comment."""
from __future__ import annotations

import os
from collections.abc import Callable
from dataclasses import dataclass

from .. import Date, Entry, Note, Volume, entry_name
from .errors import RefusedError, ToolError
from .host import NOTE, HostFile, date_of_file, files_below, read_file
from .patterns import expand
from .sources import LARGEST, Source
from .volumes import contents
from .walking import walk


@dataclass(frozen=True)
class Item:
    """A file or directory that is copied.

    `names` are those of its entry, from the source that a user named on. They are empty for the root of an image, and for `.`
    of the host. `shown` is its name for people.
    """

    names: tuple[str, ...]
    is_dir: bool
    shown: str
    read: Callable[[], bytes]
    note: Callable[[], Note]


def _nothing() -> bytes:
    return b""


# ---- From images ----


def _of_entry(source: Source, volume: Volume, path: str, entry: Entry, names: tuple[str, ...]) -> Item:
    def read() -> bytes:
        return contents(volume, path)

    def note() -> Note:
        return Note(entry.bits, entry.date, entry.comment)

    return Item(names, entry.is_dir, f"{source.name}:{path}", read, note)


def items_of_image(source: Source, volume: Volume, inside: str, recursive: bool) -> list[list[Item]]:
    """Returns what a path of an image names, with what is below: a list of items for each match of a pattern."""
    found = []
    for path, entry in expand(volume, inside):
        parts = [it for it in path.rpartition(":")[2].split("/") if it]
        if entry.is_dir and not recursive:
            raise RefusedError(f"{source.name}:{path}: a directory; -r copies it with everything in it")
        items = [_of_entry(source, volume, path, entry, (entry.name,) if parts else ())]
        if entry.is_dir:
            skipped = len(parts) - bool(parts)
            items += [_of_entry(source, volume, it, below, tuple(it.split("/")[skipped:])) for it, below in walk(volume, path if parts else "")]
        found.append(items)
    return found


# ---- From the host ----


def _of_file(found: HostFile) -> Item:
    def read() -> bytes:
        return read_file(found.path, LARGEST)

    def note() -> Note:
        beside = found.path + NOTE
        if os.path.isfile(beside):
            try:
                return Note.of(read_file(beside, 4096))
            except ValueError as fault:
                raise ToolError(f"{beside}: {fault}") from None
        return Note(0, date_of_file(os.stat(found.path)))

    return Item(found.names, found.is_dir, found.path, _nothing if found.is_dir else read, note)


def items_of_host(path: str, recursive: bool, skipped: list[str]) -> list[Item]:
    """Returns a file of the host, or a directory with everything in it."""
    plain = path.rstrip("/").removesuffix("/.") or "/"
    base = os.path.basename(path.rstrip("/"))
    names = () if base in ("", ".", "..") else (entry_name(base),)
    if not os.path.isdir(path):
        if not os.path.isfile(path):
            os.stat(path)
            raise ToolError(f"{path}: neither a file nor a directory")
        return [_of_file(HostFile(plain, names, False))]
    if not recursive:
        raise RefusedError(f"{path}: a directory; -r copies it with everything in it")
    found = [HostFile(plain, names, True), *files_below(plain, names, skipped, notes=True)]
    return [_of_file(it) for it in found]
