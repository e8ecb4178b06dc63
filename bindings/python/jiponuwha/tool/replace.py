"""Replaces a file of the host, whole or not at all."""
from __future__ import annotations

import contextlib
import fcntl
import hashlib
import os
import stat
from collections.abc import Iterator

from .errors import ToolError


def _new_name(target: str) -> str:
    """Returns the name of the new file beside the old one. Who has the old file locked owns it."""
    folder, name = os.path.split(target)
    return os.path.join(folder, f".jip-{hashlib.sha256(os.fsencode(name)).hexdigest()[:16]}.new")


def _write(descriptor: int, data: bytes, old: os.stat_result | None) -> None:
    rest = memoryview(data)
    while rest:
        rest = rest[os.write(descriptor, rest) :]
    if old is not None:
        with contextlib.suppress(OSError):
            os.fchown(descriptor, old.st_uid, old.st_gid)
        os.fchmod(descriptor, stat.S_IMODE(old.st_mode) & 0o777)
    os.fsync(descriptor)


def replace(path: str, data: bytes) -> None:
    """Replaces a file, or makes it. The new file is written beside the old one, flushed to the disk, and renamed; it gets the old one's
    permissions, and its owner if the process may set it. After any failure the old file is as it was. A symbolic link stays."""
    target = os.path.realpath(path)
    old = os.stat(target) if os.path.lexists(target) else None
    if old is not None and not stat.S_ISREG(old.st_mode):
        raise ToolError(f"{path}: not a regular file, so it cannot be replaced")
    made = _new_name(target)
    with contextlib.suppress(FileNotFoundError):
        os.unlink(made)
    descriptor = os.open(made, os.O_WRONLY | os.O_CREAT | os.O_EXCL | os.O_NOFOLLOW, 0o666)
    try:
        try:
            _write(descriptor, data, old)
        finally:
            os.close(descriptor)
        os.rename(made, target)
    except BaseException:
        with contextlib.suppress(OSError):
            os.unlink(made)
        raise
    folder = os.open(os.path.dirname(target), os.O_RDONLY | os.O_DIRECTORY)
    try:
        os.fsync(folder)
    finally:
        os.close(folder)


@contextlib.contextmanager
def locked(path: str) -> Iterator[None]:
    """Locks a file while its image is changed. Another program that has it locked, such as a mount, raises ToolError."""
    with open(path, "rb") as file:
        try:
            fcntl.flock(file, fcntl.LOCK_EX | fcntl.LOCK_NB)
        except BlockingIOError:
            raise ToolError(f"{path}: another program changes this image, or has it mounted") from None
        here, there = os.fstat(file.fileno()), os.stat(path)
        if (here.st_dev, here.st_ino) != (there.st_dev, there.st_ino):
            raise ToolError(f"{path}: another program replaced the file meanwhile; try again")
        yield
