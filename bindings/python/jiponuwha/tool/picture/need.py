"""How much a disk needs a person, and the summary of it that an index shows."""
from __future__ import annotations

from collections import Counter
from dataclasses import dataclass, field, replace
from enum import IntEnum

from ... import FaultKind
from .disk import Disk, disk_of
from .svg import thumbnail
from .texts import clean


class Need(IntEnum):
    """What a disk is, the ones that need a person most first."""

    UNREADABLE = 0
    DAMAGED = 1
    DOUBTFUL = 2
    MISSIZED = 3
    FAULTY = 4
    FOREIGN = 5
    REMARKS = 6
    SOUND = 7

    @property
    def title(self) -> str:
        return _TEXTS[self][0]

    @property
    def word(self) -> str:
        """The title in a list of counts."""
        return _TEXTS[self][1]

    @property
    def meaning(self) -> str:
        return _TEXTS[self][2]


_TEXTS = {
    Need.UNREADABLE: ("Could not be read", "unreadable", "The host or the container gave no image."),
    Need.DAMAGED: ("Files are damaged", "damaged", "A file is broken or lost, and may need another copy of the disk."),
    Need.DOUBTFUL: (
        "Files are doubtful",
        "doubtful",
        "No data block is missing, but a header or a block has a fault, a block holds a filler, or no directory leads to the file.",
    ),
    Need.MISSIZED: (
        "Not the size of a disk",
        "of a wrong size",
        "The file is not whole blocks, or has too few or too many. It may be cut short.",
    ),
    Need.FAULTY: ("Faults outside the files", "faulty", "The disk is refused, and each file that it has is whole."),
    Need.FOREIGN: (
        "Not an AmigaDOS disk",
        "not of AmigaDOS",
        "Nothing of the file system was found. It may be a disk of another format.",
    ),
    Need.REMARKS: ("Sound, with remarks", "sound with remarks", "It has lost blocks or deleted files, or its bitmap was not valid."),
    Need.SOUND: ("Sound", "sound", "Nothing is wrong."),
}


def need_of(disk: Disk) -> Need:
    """Returns how much a disk needs a person."""
    kinds = {it.kind for it in disk.faults}
    states = {it.state for it in disk.items}
    if disk.is_accepted:
        return Need.REMARKS if disk.is_rebuilt or disk.deleted or disk.lost else Need.SOUND
    if any(it >= FaultKind.NOT_WHOLE_BLOCKS for it in kinds):
        return Need.MISSIZED
    if not disk.items:
        return Need.FOREIGN if kinds <= _FOREIGN else Need.FAULTY
    if states - {"whole", "doubtful"}:
        return Need.DAMAGED
    return Need.DOUBTFUL if "doubtful" in states or any(it.is_found for it in disk.items) else Need.FAULTY


_FOREIGN = {FaultKind.NOT_A_DOS_DISK, FaultKind.UNSUPPORTED_KIND}


@dataclass(frozen=True)
class Card:
    """A disk in an index. `link` leads to its own page, if it has one."""

    name: str
    title: str
    need: Need
    facts: str = ""
    thumb: str = ""
    faults: Counter[FaultKind] = field(default_factory=Counter)
    files: int = 0
    size: int = 0
    states: Counter[str] = field(default_factory=Counter)
    link: str = ""

    @property
    def saved(self) -> str:
        """How many files have which state, in words."""
        return ", ".join(f"{self.states[it]:,} {it}" for it in ("whole", "doubtful", "broken", "lost", "deleted") if self.states[it])

    @property
    def worst(self) -> str:
        """The kinds of faults, the most frequent ones first."""
        return ", ".join(f"{kind_name(kind)} {count:,}" for kind, count in self.faults.most_common(4))


def kind_name(kind: FaultKind) -> str:
    """Returns the name of a kind of fault as `check` prints it."""
    return kind.name.title().replace("_", "")


def card_of(disk: Disk) -> Card:
    """Returns the summary of a disk."""
    files = [it for it in disk.items if not it.is_dir]
    states = Counter(it.state for it in files)
    states["deleted"] = sum(not it.is_dir for it in disk.deleted or ())
    return Card(
        name=disk.shown_name,
        title=disk.title,
        need=need_of(disk),
        facts=disk.facts,
        thumb=thumbnail(disk) if disk.kinds else "",
        faults=Counter(it.kind for it in disk.faults),
        files=len(files),
        size=sum(it.size for it in files),
        states=states,
    )


def examined(data: bytes) -> Card:
    """Returns the summary of a disk that has no name yet. Workers call it."""
    return card_of(disk_of("", data))


def named(card: Card, name: str, link: str = "") -> Card:
    """Returns a summary with the name of its image and the link to its page."""
    return replace(card, name=clean(name), title=card.title or clean(name), link=link)


def unreadable(name: str, reason: str) -> Card:
    """Returns the summary of an image that could not be read."""
    return Card(clean(name), clean(name), Need.UNREADABLE, clean(reason))
