"""Reads of files up to the size of the largest image, and the names of packed images."""
from __future__ import annotations

from typing import Protocol

from .._numbers import BLOCK_BYTES, MOST_BLOCKS
from .errors import RefusedError, ToolError

# The bytes of the largest image. One more is read, and then the file is refused.
LARGEST = MOST_BLOCKS * BLOCK_BYTES
PLAIN = (".adf", ".hdf")
# (`.gz` alone is read where a user names it)
GZIP = (".adz", ".hdz", ".gz")
GZIP_IMAGES = (".adz", ".hdz", ".adf.gz", ".hdf.gz")
DMS = (".dms",)
ZIP = (".zip",)


class SourceError(ToolError):
    """An image cannot be read or written."""


class TooLarge(RefusedError):
    """A file, or what is packed in it, is larger than the largest image."""


class Readable(Protocol):
    def read(self, size: int, /) -> bytes: ...


def ends(name: str, suffixes: tuple[str, ...]) -> bool:
    """Whether a name ends in one of these, in any case."""
    return name.lower().endswith(suffixes)


def reason(fault: Exception) -> str:
    if isinstance(fault, OSError) and fault.strerror:
        return fault.strerror
    return str(fault) or "it is damaged"


def bounded(file: Readable, name: str) -> bytes:
    """Reads a file to its end. One that is larger than the largest image raises TooLarge."""
    data = file.read(LARGEST + 1)
    if len(data) > LARGEST:
        raise TooLarge(f"{name}: more than {LARGEST:,} bytes, the size of the largest image")
    return data
