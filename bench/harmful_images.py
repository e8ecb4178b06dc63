"""The images of tests/harmful.py by letters, with paths in them. The Python benchmarks share it.

    d  a chain of directories through all blocks
    f  files in the deepest of 100 directories, through all other blocks
    w  directories side by side, each with a chain of 1,000 below it
    c  files of one directory, all in one hash chain
    l  headers of files that claim gigabytes of one list of blocks; this one is refused, and so are the next ones
    e  extension blocks that follow themselves
    p  directories in cycles of parents
    n  one name in every header
    s  a thousand wrong checksums below 100 directories
"""
from __future__ import annotations

import sys
from functools import partial
from itertools import islice
from pathlib import Path
from typing import Callable, Dict, List, NamedTuple

sys.dont_write_bytecode = True
sys.path.insert(0, str(Path(__file__).resolve().parent.parent / "tests"))

import harmful
from harness import Image

# The blocks that a change may take: the files of a full image are that many fewer.
SPARE = 8


class Drawn(NamedTuple):
    """An image that was drawn, and the paths in it that commands name: an entry with everything below it, a file if there is one,
    and a directory."""

    data: bytes
    top: str
    file: str
    directory: str


# How headers are drawn over the blocks of a blank image.
Headers = Callable[[Image, List[int]], object]
REFUSED: Dict[str, Headers] = {
    "l": harmful.shares_list(0x7FFFFFFF),
    "e": harmful.extensions_round,
    "p": lambda image, places: harmful.parents_round(image, places, len(places)),
    "n": harmful.names_alike,
}


def headers(blank: bytes, draw: Headers) -> bytes:
    """An image of headers, with a sound root."""
    image = Image(blank)
    draw(image, harmful.places_in(image))
    return bytes(image.data)


def refused(blank: bytes, draw: Headers) -> Drawn:
    """An image of headers, with a wrong checksum in its root."""
    return Drawn(harmful.refused(Image(headers(blank, draw))), "d", "d", "d")


def one_chain(blank: bytes) -> Drawn:
    last = next(islice(harmful.names_of_one_chain(), harmful.headers_of(blank) - SPARE - 2, None)).decode()
    return Drawn(harmful.one_chain(blank, SPARE), "d", f"d/{last}", "d")


def deep_files(blank: bytes, wrong: int) -> Drawn:
    """Files in the deepest of 100 directories, so many of them with wrong checksums."""
    names = [it.decode() for it in islice(harmful.long_names(), 101)]
    return Drawn(harmful.deep_files(blank, 100, wrong), names[0], "/".join(names), names[0])


def drawings(blank: bytes) -> Dict[str, Callable[[], Drawn]]:
    """How each image is drawn over a blank one."""
    first = next(harmful.long_names()).decode()
    return {
        "d": lambda: Drawn(harmful.deep_chain(blank), first, first, first),
        "f": lambda: deep_files(blank, 0),
        "w": lambda: Drawn(harmful.deep_ways(blank, 1_000), "000000", "000000", "000000"),
        "c": lambda: one_chain(blank),
        **{letter: partial(refused, blank, draw) for letter, draw in REFUSED.items()},
        "s": lambda: deep_files(blank, 1_001),
    }
