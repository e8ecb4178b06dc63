"""Which letters a volume takes for the same in names. The library answers that."""
from __future__ import annotations

import functools

from ._errors import settle
from ._library import CDate, CEntry, CHandle, library
from ._numbers import Error, Format

# Enough for a directory of each letter.
_BLOCKS = 300


@functools.cache
def _same_letters() -> dict[int, int]:
    """Returns the letters that are the same as an earlier one, each with that one.

    In a blank volume, it makes a directory for each letter. If there is one already, the letter is the same as the letter of that.
    """
    handle, entry, same = CHandle(), CEntry(), dict[int, int]()
    settle(library.jip_blank(Format.FFS, _BLOCKS, b"Names", 5, CDate(), handle), None)
    try:
        for letter in range(256):
            name = bytes([letter])
            if not library.jip_is_name(name, 1):
                continue
            result = library.jip_make_directory(handle, CDate(), name, 1)
            if result == Error.OBJECT_EXISTS:
                settle(library.jip_stat(handle, name, 1, entry), None)
                same[letter] = entry.name[0]
            else:
                settle(result, None)
    finally:
        library.jip_close(handle)
    return same


def folded(name: str) -> str:
    """Returns the name that stands for all names that a volume takes for this one."""
    return name.translate(_same_letters())
