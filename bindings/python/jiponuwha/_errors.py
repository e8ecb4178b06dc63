"""The exceptions. Each one is an OSError."""
from __future__ import annotations

import ctypes
import errno
import os
from collections.abc import Sequence
from typing import Any

from ._library import error_text
from ._numbers import Error, Status
from ._values import Fault, Faults

# The errno nearest to each error of AmigaDOS.
_ERRNOS = {
    Error.NO_FREE_STORE: errno.ENOMEM,
    Error.OBJECT_IN_USE: errno.EBUSY,
    Error.OBJECT_EXISTS: errno.EEXIST,
    Error.DIR_NOT_FOUND: errno.ENOENT,
    Error.OBJECT_NOT_FOUND: errno.ENOENT,
    Error.ACTION_NOT_KNOWN: errno.ENOSYS,
    Error.INVALID_COMPONENT_NAME: errno.EINVAL,
    Error.INVALID_LOCK: errno.EBADF,
    Error.OBJECT_WRONG_TYPE: errno.ENOTDIR,
    Error.DISK_WRITE_PROTECTED: errno.EROFS,
    Error.DIRECTORY_NOT_EMPTY: errno.ENOTEMPTY,
    Error.DEVICE_NOT_MOUNTED: errno.ENODEV,
    Error.SEEK_ERROR: errno.EINVAL,
    Error.COMMENT_TOO_BIG: errno.ERANGE,
    Error.DISK_FULL: errno.ENOSPC,
    Error.DELETE_PROTECTED: errno.EPERM,
    Error.WRITE_PROTECTED: errno.EACCES,
    Error.READ_PROTECTED: errno.EACCES,
}


class DosError(OSError):
    """The volume refuses a call. `dos` is the error number of AmigaDOS, and `strerror` its message. `filename` is the path,
    and `errno` the nearest error number of the host."""

    dos: int

    def __init__(self, dos: int, path: object = None) -> None:
        number = _ERRNOS[Error(dos)] if dos in _ERRNOS else errno.EIO
        super().__init__(number, error_text(dos), *([] if path is None else [path]))
        self.dos = dos

    def __str__(self) -> str:
        place = "" if self.filename is None else f": {self.filename!r}"
        return f"[DOS {self.dos}] {self.strerror}{place}"

    def __reduce__(self) -> tuple[Any, ...]:
        return type(self), (self.dos, self.filename)


class ObjectNotFound(DosError, FileNotFoundError, KeyError):
    """The file or directory does not exist (204, 205)."""


class ObjectExists(DosError, FileExistsError):
    """A file or directory with this name exists already (203)."""


class ObjectInUse(DosError):
    """The file or directory is open or locked (202)."""


class WrongType(DosError):
    """The call needs a file but the path is a directory, or the reverse, or the path is the root (212)."""


class DirectoryNotEmpty(DosError):
    """A directory with entries cannot be deleted (216)."""


class InvalidName(DosError, ValueError):
    """The text is not a valid name (210)."""


class DiskFull(DosError):
    """The volume has too few free blocks (221). Nothing has changed."""


class Protected(DosError, PermissionError):
    """The protection bits deny deleting (222), writing (223) or reading (224), or the volume is read-only (214)."""


class NotAnImage(DosError):
    """The bytes are not a valid image (225). `faults` has the reasons."""

    faults: Faults

    def __init__(self, faults: Sequence[Fault], path: object = None) -> None:
        super().__init__(Error.NOT_A_DOS_DISK, path)
        self.faults = faults if isinstance(faults, Faults) else Faults(faults)

    def __str__(self) -> str:
        shown = [f"block {it.block}: {it.text}" for it in self.faults]
        return "; ".join([super().__str__(), *shown, *(["more"] if self.faults.more else [])])

    def __reduce__(self) -> tuple[Any, ...]:
        return type(self), (self.faults, self.filename)


_CLASSES: dict[int, type[DosError]] = {
    Error.DIR_NOT_FOUND: ObjectNotFound,
    Error.OBJECT_NOT_FOUND: ObjectNotFound,
    Error.OBJECT_EXISTS: ObjectExists,
    Error.OBJECT_IN_USE: ObjectInUse,
    Error.OBJECT_WRONG_TYPE: WrongType,
    Error.DIRECTORY_NOT_EMPTY: DirectoryNotEmpty,
    Error.INVALID_COMPONENT_NAME: InvalidName,
    Error.DISK_FULL: DiskFull,
    Error.DISK_WRITE_PROTECTED: Protected,
    Error.DELETE_PROTECTED: Protected,
    Error.WRITE_PROTECTED: Protected,
    Error.READ_PROTECTED: Protected,
}


def dos_error(number: int, path: object = None) -> DosError:
    """Returns the exception for an error number of AmigaDOS."""
    return _CLASSES.get(number, DosError)(number, path)


def settle(result: int, shown: object) -> None:
    """Raises the exception for the result of a library call, unless the result is JIP_DONE."""
    if result == Status.DONE:
        return
    if result == Status.NO_MEMORY:
        raise MemoryError(error_text(result))
    if result == Status.HOST_FAILED:
        number = ctypes.get_errno()
        raise OSError(number, os.strerror(number), shown)
    if result == Status.WRONG_ARGUMENT:
        raise ValueError(error_text(result))
    raise dos_error(result, shown)
