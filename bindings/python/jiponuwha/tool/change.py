"""Changes of an image: all changes of one command are made in memory, and then the file is replaced once, or not at all."""
from __future__ import annotations

import argparse
import contextlib
import os
from collections.abc import Iterator, Sequence

from .. import DiskFull, Entry, Volume, protection_letters
from .console import Console
from .errors import RefusedError, UsageError
from .patterns import expand, folded
from .replace import locked
from .sources import Source, SourceError, Target, parse
from .volumes import opened


def quoted(name: str) -> str:
    return f"'{name}'"


class Change:
    """An image while it is changed, with the lines that say what was done."""

    def __init__(self, source: Source, volume: Volume) -> None:
        self.source, self.volume = source, volume
        self.lines: list[str] = []

    def did(self, line: str) -> None:
        self.lines.append(line)

    def name(self, path: str) -> str:
        """Returns a path of the image for people, with the image before it."""
        return quoted(f"{self.source.name}:{path}")

    def find(self, path: str) -> Entry | None:
        """Returns the entry at a path, if there is one."""
        return self.volume.stat(path) if path in self.volume else None

    def remove(self, path: str, force: bool) -> None:
        """Deletes a file or an empty directory; with `force` also one that is protected from deletion."""
        if force and "d" not in protection_letters(self.volume.stat(path).bits & 0xFF):
            self.volume.protect(path, 0)
        self.volume.remove(path)

    def write(self, path: str, data: bytes) -> None:
        """Writes a file. A full disk says how much is free."""
        try:
            self.volume.write(path, data)
        except DiskFull:
            free = self.volume.info().free // 2
            raise RefusedError(f"{self.source.name}: the disk is full: {free:,} KB are free, and {path} has {len(data):,} bytes") from None


@contextlib.contextmanager
def changing(source: Source, arguments: argparse.Namespace, console: Console) -> Iterator[Change]:
    """Opens an image for changes, and replaces its file at the end, unless this is a dry run. Then the lines of what was done are
    printed. If anything fails, nothing is changed and no line is printed."""
    if not source.can_write:
        raise SourceError(f"{source.name}: an image in a ZIP or DMS file cannot be changed; 'jip cp' copies files out of it")
    with locked(source.path), opened(source, read_only=False) as volume:
        change = Change(source, volume)
        yield change
        if volume.is_changed and not arguments.dry_run:
            source.write(volume.image())
    report(change.lines, arguments, console)


def report(lines: Sequence[str], arguments: argparse.Namespace, console: Console) -> None:
    """Prints what was done, or what would be done in a dry run."""
    for it in lines:
        console.note(f"would be done: {it}" if arguments.dry_run else it)


def same_image(one: Source, other: Source) -> bool:
    return os.path.realpath(one.path) == os.path.realpath(other.path) and one.member == other.member


def in_image(argument: str) -> Target:
    """Returns the image and the path that an argument names. One without a path raises UsageError."""
    found = parse(argument)
    if found.inside is None:
        raise UsageError(f"{argument}: name a path in an image, as in {argument}:PATH")
    return found


def one_image(arguments: Sequence[str]) -> tuple[Source, list[str]]:
    """Returns the image that all arguments name, and their paths. Several images raise UsageError, since the files of two images cannot
    be replaced at once."""
    targets = [in_image(it) for it in arguments]
    first = targets[0].source
    for it in targets:
        if not same_image(it.source, first):
            raise UsageError(f"{first.name} and {it.source.name}: one command changes one image")
    return first, [it.inside or "" for it in targets]


def matched(change: Change, paths: Sequence[str]) -> list[tuple[str, Entry]]:
    """Returns the entries that paths with patterns name, each once."""
    found: dict[bytes, tuple[str, Entry]] = {}
    for it in paths:
        for path, entry in expand(change.volume, it):
            found.setdefault(folded(path), (path, entry))
    return list(found.values())
