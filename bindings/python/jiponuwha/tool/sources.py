"""Where images are: in files of the host, and in gzip, ZIP and DMS files.

An argument of the tool is IMAGE, or IMAGE:PATH with a path inside the image. IMAGE is a file, or `FILE.zip/MEMBER`.
"""
from __future__ import annotations

import errno
import os
import stat
from collections.abc import Callable, Iterable, Iterator
from dataclasses import dataclass
from typing import NamedTuple

from .bounded import DMS, GZIP, GZIP_IMAGES, LARGEST, PLAIN, ZIP, SourceError, TooLarge, bounded, ends, reason
from .errors import UsageError

__all__ = ["LARGEST", "Source", "SourceError", "Target", "TooLarge", "find_images", "is_image_name", "parse", "source_of", "zip_members"]


def is_image_name(name: str) -> bool:
    """Whether the name is that of an image, or of a packed one."""
    return ends(name, PLAIN + GZIP_IMAGES + DMS)


@dataclass(frozen=True)
class Source:
    """An image: a file of the host, or a member of a ZIP file."""

    path: str
    member: str | None = None

    @property
    def name(self) -> str:
        """The name for people."""
        return self.path if self.member is None else f"{self.path}/{self.member}"

    @property
    def can_write(self) -> bool:
        """Whether the image can be changed. One in a ZIP or DMS file cannot."""
        return self.member is None and not ends(self.path, DMS + ZIP)

    def read(self) -> bytes:
        """Returns the bytes of the image, at most those of the largest one."""
        if self.member is not None:
            from .packed import member

            return member(self.path, self.member)
        try:
            with open(self.path, "rb") as file:
                if not ends(self.path, GZIP + DMS):
                    return bounded(file, self.path)
                from .packed import unpacked

                return unpacked(self.path, file)
        except (OSError, ValueError) as fault:
            raise SourceError(f"{self.name}: {reason(fault)}") from None

    def write(self, data: bytes) -> None:
        """Replaces the file by this image, whole or not at all."""
        from .replace import replace

        if not self.can_write:
            raise SourceError(f"{self.name}: an image in a ZIP or DMS file cannot be changed")
        if ends(self.path, GZIP):
            from .packed import compressed

            data = compressed(data)
        replace(self.path, data)


class Target(NamedTuple):
    """An argument: an image, and the path inside it, or None if there is none."""

    source: Source
    inside: str | None


def _is_file(path: str) -> bool:
    try:
        return not stat.S_ISDIR(os.stat(path).st_mode)
    except (OSError, ValueError):
        return False


def source_of(text: str) -> Source | None:
    """Returns the image that the text names: a file, or `FILE.zip/MEMBER`. Returns None if there is no such file."""
    if _is_file(text):
        return _only_member(text) if ends(text, ZIP) else Source(text)
    at = text.find("/", 1)
    while at >= 0:
        if ends(text[:at], ZIP) and _is_file(text[:at]):
            return Source(text[:at], text[at + 1 :])
        at = text.find("/", at + 1)
    return None


def _only_member(path: str) -> Source:
    """Returns the image in a ZIP file that has only one."""
    members = zip_members(path)
    if len(members) == 1:
        return Source(path, members[0])
    if not members:
        raise SourceError(f"{path}: there is no image in the ZIP file")
    raise UsageError(f"{path}: the ZIP file has {len(members)} images; name one, as in {path}/{members[0]}")


def parse(argument: str) -> Target:
    """Returns the image and the path that an argument names.

    The path begins after a `:`. In an argument without a `/` before the first `:`, that is the one. Else it is the last `:` before
    which a file is named, so `./a:b.adf` is the file `a:b.adf`.
    """
    first = argument.find(":")
    if first < 0:
        return Target(source_of(argument) or Source(argument), None)
    if "/" not in argument[:first]:
        return Target(source_of(argument[:first]) or Source(argument[:first]), argument[first + 1 :])
    at = len(argument)
    while at >= 0:
        found = source_of(argument[:at])
        if found is not None and _has(found):
            return Target(found, argument[at + 1 :] if at < len(argument) else None)
        at = argument.rfind(":", 0, at)
    return Target(Source(argument[:first]), argument[first + 1 :])


def _has(source: Source) -> bool:
    """Whether the member of a source is there."""
    try:
        return source.member is None or source.member in zip_members(source.path, all_names=True)
    except SourceError:
        return ":" not in (source.member or "")


def zip_members(path: str, all_names: bool = False) -> list[str]:
    """Returns the names of the images in a ZIP file, or those of all its files, in its order."""
    from .packed import members

    return [it for it in members(path) if all_names or is_image_name(it)]


OnError = Callable[[SourceError], None]


def _raise(fault: SourceError) -> None:
    raise fault


def find_images(paths: Iterable[str], recursive: bool = True, on_error: OnError = _raise) -> Iterator[Source]:
    """Yields the images that these arguments name: a file, all images in a ZIP file, and all files in a directory that are named as
    images, sorted by the bytes of their names. Without `recursive`, directories in a directory are left out. A link to a directory in
    a directory is not followed.

    A path that cannot be read, or a ZIP file that is none, is a SourceError when its turn comes. `on_error` gets it; by default it
    is raised.
    """
    for path in paths:
        if os.path.isdir(path):
            yield from _in_directory(path, recursive, on_error)
        elif ends(path, ZIP) and _is_file(path):
            yield from _in_zip(path, on_error)
        else:
            found = source_of(path)
            if found is None:
                on_error(SourceError(f"{path}: {os.strerror(errno.ENOENT)}"))
            else:
                yield found


def _in_zip(path: str, on_error: OnError) -> Iterator[Source]:
    try:
        members = zip_members(path)
    except SourceError as fault:
        on_error(fault)
        return
    yield from (Source(path, it) for it in members)


def _in_directory(path: str, recursive: bool, on_error: OnError) -> Iterator[Source]:
    try:
        with os.scandir(path) as found:
            entries = sorted(found, key=lambda it: os.fsencode(it.name))
    except OSError as fault:
        on_error(SourceError(f"{path}: {reason(fault)}"))
        return
    for it in entries:
        if it.is_dir(follow_symlinks=False):
            if recursive:
                yield from _in_directory(it.path, recursive, on_error)
        elif ends(it.name, ZIP) and it.is_file():
            yield from _in_zip(it.path, on_error)
        elif is_image_name(it.name) and (it.is_file() or it.is_symlink()) and not it.is_dir():
            yield Source(it.path)
