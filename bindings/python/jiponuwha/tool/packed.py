"""Files that have images packed in them: gzip and ZIP."""
from __future__ import annotations

import gzip
import zipfile
import zlib
from typing import IO

from .bounded import DMS, GZIP, SourceError, bounded, ends, reason

# What a damaged file raises while it is unpacked.
_DAMAGED = (OSError, EOFError, RuntimeError, ValueError, NotImplementedError, zipfile.BadZipFile, zlib.error)



def unpacked(name: str, file: IO[bytes] | zipfile.ZipExtFile) -> bytes:
    """Returns the image in an open file of this name."""
    if ends(name, DMS):
        from .dms import unpack

        return unpack(name, bounded(file, name))
    if not ends(name, GZIP):
        return bounded(file, name)
    try:
        with gzip.GzipFile(fileobj=file) as packed:
            return bounded(packed, name)
    except EOFError:
        raise SourceError(f"{name}: the gzip file is cut short") from None
    except (gzip.BadGzipFile, zlib.error) as fault:
        raise SourceError(f"{name}: not a sound gzip file: {fault}") from None


def member(path: str, name: str) -> bytes:
    """Returns the image in a member of a ZIP file."""
    shown = f"{path}/{name}"
    try:
        with zipfile.ZipFile(path) as packed, packed.open(name) as file:
            return unpacked(shown, file)
    except KeyError:
        raise SourceError(f"{shown}: the ZIP file has no such member") from None
    except _DAMAGED as fault:
        raise SourceError(f"{shown}: {reason(fault)}") from None


def members(path: str) -> list[str]:
    """Returns the names of the files in a ZIP file, in its order and each once."""
    try:
        with zipfile.ZipFile(path) as packed:
            return list(dict.fromkeys(it.filename for it in packed.infolist() if not it.is_dir()))
    except _DAMAGED as fault:
        raise SourceError(f"{path}: {reason(fault)}") from None


def compressed(data: bytes) -> bytes:
    """Returns the content of a gzip file. The same bytes give the same content."""
    return gzip.compress(data, mtime=0)
