"""All entries of a volume, with a bound on what their paths take: directories may be nested so deep that the paths of a small image
take gigabytes."""
from __future__ import annotations

import ctypes
from typing import Any

from .. import Entry, Volume
from .._errors import settle
from .._library import Visitor, library
from .._values import entry_of, letters
from .errors import RefusedError

# The most bytes of a path, and of all paths together.
LONGEST_PATH = 4_095
_ALL_PATHS = 1 << 26


def walk(volume: Volume, below: str = "") -> list[tuple[str, Entry]]:
    """Returns the paths and entries of all files and directories, or of those below a directory, a directory before its contents.

    `below` is a path from the root, as the volume spells it. A path of more than 4,095 bytes raises RefusedError.
    """
    prefix = f"{below}/".encode("iso-8859-1") if below else b""
    found: list[tuple[str, Entry]] = []
    raised: list[BaseException] = []
    total = 0

    def visit(context: object, path: Any, length: int, entry: Any) -> int:
        nonlocal total
        try:
            total += length
            if length > LONGEST_PATH or total > _ALL_PATHS:
                raise RefusedError(f"the directories are nested too deep: a path of {length:,} bytes")
            raw = ctypes.string_at(path, length)
            if raw.startswith(prefix):
                found.append((letters(raw), entry_of(entry.contents)))
        except BaseException as fault:
            raised.append(fault)
            return 1
        return 0

    with volume._turn() as handle:
        result = library.jip_walk(handle, Visitor(visit), None)
    if raised:
        raise raised[0]
    settle(result, volume.path)
    return found
