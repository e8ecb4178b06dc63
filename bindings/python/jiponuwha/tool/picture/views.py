"""What the pages list of a disk, as rows of texts."""
from __future__ import annotations

from collections.abc import Iterable, Iterator
from dataclasses import dataclass

from ... import Fault
from .disk import Disk
from .items import Item
from .kinds import Kind
from .need import kind_name

# Numbers up to this one are shown in decimal, others in hexadecimal.
_DECIMAL = 10**6


def plural(count: int, one: str, many: str = "") -> str:
    """Returns a number and its noun."""
    return f"{count:,} {one if count == 1 else many or one + 's'}"


def percent(part: int, whole: int) -> str:
    return f"{100 * part / whole:.0f} %" if whole else "0 %"


@dataclass(frozen=True)
class FaultRow:
    block: str
    place: str
    kind: str
    text: str
    detail: str
    owner: str


def _number(value: int) -> str:
    return f"{value:,}" if value < _DECIMAL else f"0x{value:08X}"


def _detail(fault: Fault) -> str:
    if fault.at is None or fault.found is None:
        return ""
    wanted = "" if fault.wanted is None else f", and should be {_number(fault.wanted)}"
    return f"long {fault.at} is {_number(fault.found)}{wanted}"


def fault_rows(disk: Disk) -> Iterator[FaultRow]:
    """Yields a row for each fault."""
    for fault in disk.faults:
        inside = fault.block in disk.faults_at
        place = disk.shape.place(fault.block) if inside else ""
        owner = disk.said(fault.block) if inside and disk.kinds[fault.block] not in (Kind.BYTES, Kind.ZEROS) else ""
        yield FaultRow(f"{fault.block:,}", place, kind_name(fault.kind), fault.text, _detail(fault), owner)


@dataclass(frozen=True)
class SavedRow:
    state: str
    count: str
    size: str
    meaning: str


_MEANINGS = {
    "whole": "All blocks are there and sound.",
    "doubtful": "No data block is missing, but the header or a block is damaged, is used by another file too, or holds a filler.",
    "broken": "Data blocks are missing. They are read as zeros.",
    "lost": "A directory names it, and nothing else of it is left.",
}


def saved_rows(disk: Disk) -> list[SavedRow]:
    """Returns a row for each state that files and directories have, from whole to unaccounted."""
    rows = []
    for state, meaning in _MEANINGS.items():
        its = [it for it in disk.items if it.state == state]
        if its or state == "whole":
            rows.append(SavedRow(state, _counts(its), _bytes(its), meaning))
    found = [it for it in disk.items if it.is_found]
    if found:
        rows.append(SavedRow("found", _counts(found), _bytes(found), "Of these, no directory of the tree leads to them. Some may have been deleted."))
    return [*rows, _deleted_row(disk), _unaccounted_row(disk)]


def _deleted_row(disk: Disk) -> SavedRow:
    if disk.deleted is None:
        return SavedRow("deleted", "unknown", "", "Only a bitmap that can be trusted says which entries are deleted.")
    return SavedRow("deleted", _counts(disk.deleted), _bytes(disk.deleted), "The header is left, in a free block.")


def _unaccounted_row(disk: Disk) -> SavedRow:
    meaning = "Used, and part of nothing."
    if disk.deleted is None and not disk.is_accepted:
        meaning = "Part of nothing, and not filled with zeros. The bitmap cannot be trusted."
    return SavedRow("unaccounted", plural(disk.lost, "block") if disk.owners else "unknown", "", meaning)


def _counts(its: Iterable[Item]) -> str:
    directories = [it.is_dir for it in its]
    parts = [plural(directories.count(False), "file")]
    if any(directories):
        parts.append(plural(directories.count(True), "directory", "directories"))
    return ", ".join(parts)


def _bytes(its: Iterable[Item]) -> str:
    return plural(sum(it.size for it in its), "byte")


@dataclass(frozen=True)
class BlockRow:
    blocks: str
    count: str
    place: str
    what: str
    faults: str


def block_rows(disk: Disk) -> Iterator[BlockRow]:
    """Yields a row for each run of blocks."""
    for run in disk.runs():
        first, last = run[0], run[-1]
        blocks = f"{first:,}" if first == last else f"{first:,} to {last:,}"
        faults = "; ".join(it.text for it in disk.faults_at.get(first, ()))
        yield BlockRow(blocks, f"{len(run):,}", disk.shape.place(first), _what(disk, run), faults)


def _what(disk: Disk, run: range) -> str:
    if disk.kinds[run[0]] is not Kind.DATA or len(run) == 1:
        return disk.said(run[0])
    owner = disk.owners[run[0]]
    return f"data {owner.index:,} to {disk.owners[run[-1]].index:,} of {disk.paths.get(owner.header, '?')}"


def scattered(disk: Disk) -> list[Item]:
    """Returns the files in more than one piece, those in most pieces first."""
    return sorted((it for it in disk.items if (it.pieces or 0) > 1), key=lambda it: -(it.pieces or 0))
