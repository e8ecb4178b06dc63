"""Directories of the host: reads those that are copied into images, and writes what is copied out of them.

Below the directory that a user names, no symbolic link to a directory is followed, and each file is written whole.
"""
from __future__ import annotations

import contextlib
import os
import stat
from collections.abc import Container, Iterator, Sequence
from typing import NamedTuple

from .. import Date, entry_name, host_name
from .._library import CDate, library
from .._values import date_of
from .errors import ToolError

LONGEST_PATH = 4_095
NOTE = ".uaem"
_FOLDER = os.O_RDONLY | os.O_DIRECTORY | os.O_NOFOLLOW


def date_of_file(found: os.stat_result) -> Date:
    """Returns the time of a file as a date of AmigaDOS."""
    given = CDate()
    seconds, nanoseconds = divmod(found.st_mtime_ns, 1_000_000_000)
    library.jip_date_of_time(seconds, nanoseconds, given)
    return date_of(given)


def nanoseconds_of(date: Date) -> int | None:
    """Returns a date as a time of the host, or None if the date read back from it would be another."""
    import ctypes

    seconds, rest, back = ctypes.c_int64(), ctypes.c_uint32(), CDate()
    library.jip_time_of_date(date.as_c(), seconds, rest)
    library.jip_date_of_time(seconds.value, rest.value, back)
    return seconds.value * 1_000_000_000 + rest.value if date_of(back) == date and seconds.value < 2**33 else None


class HostFile(NamedTuple):
    """A file or directory of the host: its path, the names of its entry below the top, and whether it is a directory."""

    path: str
    names: tuple[str, ...]
    is_dir: bool


def read_file(path: str, most: int) -> bytes:
    """Returns the bytes of a regular file. One of more than `most` bytes raises ToolError."""
    descriptor = os.open(path, os.O_RDONLY | os.O_NONBLOCK)
    with os.fdopen(descriptor, "rb") as file:
        if not stat.S_ISREG(os.fstat(descriptor).st_mode):
            raise ToolError(f"{path}: not a regular file")
        data = file.read(most + 1)
    if len(data) > most:
        raise ToolError(f"{path}: more than {most:,} bytes, so no image has room for it")
    return data


def is_note(name: str, beside: Container[str]) -> bool:
    """Whether a file of this name is the note of an entry that is beside it."""
    return name.endswith(NOTE) and name[: -len(NOTE)] in beside


def files_below(top: str, names: tuple[str, ...], skipped: list[str], notes: bool = False, without: str = "") -> Iterator[HostFile]:
    """Yields everything in a directory of the host, a directory before its contents, sorted by the bytes of the names. Links to
    directories, and what is neither a file nor a directory, are skipped and listed. With `notes` the notes of entries are left out,
    and so is the file of the top that is named `without`."""
    waiting = [(top, names)]
    while waiting:
        folder, above = waiting.pop()
        with os.scandir(folder) as scanned:
            entries = sorted(scanned, key=lambda it: os.fsencode(it.name))
        beside = {it.name for it in entries} if notes else ()
        inside = []
        for it in entries:
            is_dir = it.is_dir(follow_symlinks=False)
            if is_note(it.name, beside) or (folder == top and it.name == without):
                continue
            if is_dir or it.is_file():
                found = HostFile(it.path, (*above, entry_name(it.name)), is_dir)
                yield found
                if is_dir:
                    inside.append((found.path, found.names))
            else:
                skipped.append(it.path)
        waiting.extend(reversed(inside))


class Folder:
    """A directory of the host that files are written into. No link below it is followed."""

    def __init__(self, path: str) -> None:
        self.path = path
        self._top = os.open(path, os.O_RDONLY | os.O_DIRECTORY)
        self._here: tuple[tuple[str, ...], int] | None = None

    def __enter__(self) -> Folder:
        return self

    def __exit__(self, *fault: object) -> None:
        self._leave()
        os.close(self._top)

    def _leave(self) -> None:
        if self._here is not None:
            os.close(self._here[1])
            self._here = None

    def shown(self, names: Sequence[str]) -> str:
        return os.path.join(self.path, *names)

    def _at(self, names: Sequence[str]) -> int:
        """Returns a descriptor of a directory below, which is valid until the next call."""
        wanted = tuple(names)
        if not wanted:
            return self._top
        if self._here is None or self._here[0] != wanted:
            self._leave()
            descriptor = self._top
            for at, name in enumerate(wanted):
                try:
                    following = os.open(name, _FOLDER, dir_fd=descriptor)
                except OSError as fault:
                    raise OSError(fault.errno, fault.strerror, self.shown(wanted[: at + 1])) from None
                finally:
                    if at:
                        os.close(descriptor)
                descriptor = following
            self._here = wanted, descriptor
        return self._here[1]

    def refuse_long(self, names: Sequence[str]) -> None:
        """Refuses a path that the host cannot have."""
        if len(os.fsencode(self.shown(names))) > LONGEST_PATH:
            raise ToolError(f"{self.path}: a path below would have more than {LONGEST_PATH:,} bytes")

    def kind(self, names: Sequence[str]) -> str:
        """Returns what is at a path: `none`, `file`, `directory` or `other`."""
        self.refuse_long(names)
        try:
            mode = os.stat(names[-1], dir_fd=self._at(names[:-1]), follow_symlinks=False).st_mode
        except FileNotFoundError:
            return "none"
        return "file" if stat.S_ISREG(mode) else "directory" if stat.S_ISDIR(mode) else "other"

    def make(self, names: Sequence[str]) -> None:
        """Makes a directory, unless it is there."""
        with contextlib.suppress(FileExistsError):
            os.mkdir(names[-1], dir_fd=self._at(names[:-1]))

    def write(self, names: Sequence[str], data: bytes, date: Date | None = None) -> None:
        """Writes a file, whole or not at all."""
        folder, made = self._at(names[:-1]), f".jip-{os.getpid()}.new"
        descriptor = os.open(made, os.O_WRONLY | os.O_CREAT | os.O_EXCL | os.O_NOFOLLOW, 0o666, dir_fd=folder)
        try:
            with os.fdopen(descriptor, "wb") as file:
                file.write(data)
            os.rename(made, names[-1], src_dir_fd=folder, dst_dir_fd=folder)
        except BaseException:
            with contextlib.suppress(OSError):
                os.unlink(made, dir_fd=folder)
            raise
        self.stamp(names, date)

    def stamp(self, names: Sequence[str], date: Date | None) -> None:
        """Sets the time of a file or directory, if the host has such a time."""
        time = None if date is None else nanoseconds_of(date)
        if time is not None:
            os.utime(names[-1], ns=(time, time), dir_fd=self._at(names[:-1]), follow_symlinks=False)


def note_name(name: str) -> str:
    """Returns the host's name of an entry beside which notes are written: that of an entry `x.uaem` is no name of a note."""
    found = host_name(name)
    return f"{found[:-5]}%2E{found[-4:]}" if found.lower().endswith(NOTE) else found
