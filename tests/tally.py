"""What is saved of damaged floppies, counted: a row for each kind of damage and each format, for tests/sweep.py."""
from __future__ import annotations

import os
import resource
import shutil
from collections import Counter
from pathlib import Path
from typing import Dict, Iterable, Iterator, List, Mapping, NamedTuple, Set

from harness import BLOCK, OFS_ROOM, run


class Whole(NamedTuple):
    """A file of a floppy as it was before the damage: its bytes, and of each of its data blocks whether it still is as it was."""

    content: bytes
    kept: List[bool]

    def pieces(self, room: int) -> Iterator[bytes]:
        """The bytes in each of its data blocks, of so many bytes each."""
        return (self.content[first : first + room] for first in range(0, len(self.content), room))

    def saved(self, data: bytes, room: int) -> int:
        """How many bytes of the blocks that are as they were stand at their place in other bytes."""
        return sum(len(piece) for at, piece in enumerate(self.pieces(room)) if self.kept[at] and data[room * at : room * at + len(piece)] == piece)

    def wrong(self, data: bytes, room: int) -> List[int]:
        """For each of its data blocks, how many bytes differ in other bytes; then how many these have too few or too many. Nothing where
        they are the same."""
        if data == self.content:
            return []
        others = (data[first : first + room] for first in range(0, len(self.content), room))
        differing = [sum(one != other for one, other in zip(piece, found)) for piece, found in zip(self.pieces(room), others)]
        return [*differing, abs(len(data) - len(self.content))]


class Tally(NamedTuple):
    """What is counted of floppies."""

    floppies: int = 0
    # Bytes of files in blocks that are as they were, how many of them are written at their place, and how many unadf writes there.
    there: int = 0
    saved: int = 0
    beside: int = 0
    # Files without a line.
    silent: int = 0
    # Files that are called whole and have other bytes than they had; how many bytes differ; and how many of these are not in a data
    # block that was hit, or are in one that has a checksum.
    false: int = 0
    wrong: int = 0
    blamed: int = 0

    def plus(self, other: Tally) -> Tally:
        return Tally(*(one + more for one, more in zip(self, other)))

    def share(self, bytes_saved: int) -> float:
        """How many of a hundred bytes that are there."""
        return 100 * bytes_saved / self.there if self.there else 100.0


def best(files: Mapping[int, Whole], room: int, written: Iterable[bytes]) -> Counter[int]:
    """For each file, how many of its bytes the best of the written files has at their place. Files are found again by the first bytes
    of their blocks, which are random."""
    known = {(at, piece[:16]): key for key, file in files.items() for at, piece in enumerate(file.pieces(room))}
    found: Counter[int] = Counter()
    for data in written:
        keys = {known.get((at, data[room * at : room * at + 16]), 0) for at in range(-(-len(data) // room))}
        for key in keys - {0}:
            found[key] = max(found[key], files[key].saved(data, room))
    return found


def tally_of(files: Mapping[int, Whole], ofs: bool, written: Iterable[bytes], whole: Mapping[int, bytes], named: Set[int], beside: Iterable[bytes]) -> Tally:
    """Counts a floppy with these files, by their headers: what was written, what of it is called whole, which files have a line, and
    what unadf wrote."""
    room = OFS_ROOM if ofs else BLOCK
    found = best(files, room, written)
    wrong = {key: files[key].wrong(data, room) for key, data in whole.items()}
    blamed = [count for key, counts in wrong.items() for at, count in enumerate(counts) if ofs or at == len(files[key].kept) or files[key].kept[at]]
    return Tally(
        floppies=1,
        there=sum(len(piece) for file in files.values() for at, piece in enumerate(file.pieces(room)) if file.kept[at]),
        saved=sum(found.values()),
        beside=sum(best(files, room, beside).values()),
        silent=sum(1 for it in files if it not in named and not found[it]),
        false=sum(1 for it in wrong.values() if any(it)),
        wrong=sum(sum(it) for it in wrong.values()),
        blamed=sum(blamed),
    )


def limits() -> None:
    """Bounds what unadf may do with a damaged floppy."""
    resource.setrlimit(resource.RLIMIT_CPU, (5, 5))
    resource.setrlimit(resource.RLIMIT_FSIZE, (2_000_000, 2_000_000))


def by_unadf(image: str) -> List[bytes]:
    """The files that unadf writes of an image; none where the machine has no unadf."""
    if not shutil.which("unadf"):
        return []
    shutil.rmtree("beside", ignore_errors=True)
    os.makedirs("beside/by/unadf")
    run(["unadf", image, "-d", "beside/by/unadf"], before=limits)
    return [it.read_bytes() for it in Path("beside").rglob("*") if it.is_file() and not it.is_symlink()]


def table(rows: Dict[str, Tally]) -> Iterator[str]:
    """The table, a row for each kind of damage, with a line above it."""
    has_unadf = shutil.which("unadf") is not None
    yield f"{'':34}{'floppies':>9}{'saved':>9}{'unadf':>9}{'silent':>8}{'false whole':>13}{'wrong bytes':>13}"
    for name, it in rows.items():
        beside = f"{it.share(it.beside):.2f} %" if has_unadf else "-"
        yield f"{name:34}{it.floppies:9,}{it.share(it.saved):7.2f} %{beside:>9}{it.silent:8,}{it.false:13,}{it.wrong:13,}"
