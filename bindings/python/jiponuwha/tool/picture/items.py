"""The files and directories of an image, as a picture lists them."""
from __future__ import annotations

from collections.abc import Iterable
from dataclasses import dataclass, replace

from ... import Date, Entry, Salvaged, State, date_text, protection_letters

from .texts import clean

_FOUND = "lost+found/"
STATES = {
    State.DIRECTORY: "whole",
    State.WHOLE: "whole",
    State.DOUBTFUL: "doubtful",
    State.DOUBTFUL_DIRECTORY: "doubtful",
    State.BROKEN: "broken",
    State.LOST: "lost",
}


@dataclass(frozen=True)
class Item:
    """A file or directory. `state` is one of the texts of STATES. `depth` counts the directories above it in the list, and `name`
    is the rest of its path. `pieces` counts the runs of its data blocks, if they are known."""

    path: str
    is_dir: bool
    size: int
    bits: int
    date: Date
    comment: str
    header: int
    state: str = "whole"
    missing: int = 0
    is_cut: bool = False
    is_found: bool = False
    pieces: int | None = None
    depth: int = 0
    name: str = ""

    @property
    def shown_path(self) -> str:
        return clean(self.path)

    @property
    def shown_name(self) -> str:
        return clean(self.name)

    @property
    def shown_comment(self) -> str:
        return clean(self.comment)

    @property
    def letters(self) -> str:
        """The protection bits, if something of the header is left."""
        return "" if self.state == "lost" else protection_letters(self.bits)

    @property
    def day(self) -> str:
        """The date, if something of the header is left."""
        return "" if self.state == "lost" else date_text(self.date)

    @property
    def loss(self) -> str:
        """What is missing, in words."""
        parts = [f"{self.missing:,} data block{'' if self.missing == 1 else 's'} missing"] if self.missing else []
        return ", ".join([*parts, *(["cut short"] if self.is_cut else [])])


def of_entry(path: str, entry: Entry, pieces: int | None) -> Item:
    """Returns the item for an entry of an open volume."""
    about = (path, entry.is_dir, entry.size, entry.bits, entry.date, entry.comment, entry.key)
    return Item(*about, pieces=pieces)


def of_salvaged(entry: Salvaged) -> Item:
    """Returns the item for an entry of a damaged image. Its path is that from where its directories are known."""
    state = STATES[State(entry.state)] if entry.state in STATES else f"state {entry.state}"
    path = entry.path.removeprefix(_FOUND) if entry.is_found else entry.path
    about = (path, entry.is_dir, entry.size, entry.bits, entry.date, entry.comment, entry.header)
    return Item(*about, state, entry.missing, entry.is_cut, entry.is_found)


def _order(item: Item) -> tuple[bool, list[str]]:
    return item.is_found, [it.lower() for it in item.path.split("/")]


def as_tree(items: Iterable[Item]) -> list[Item]:
    """Returns the items by path, each below its directory if that is there too."""
    depths: dict[tuple[bool, str], int] = {}
    placed = []
    for item in sorted(items, key=_order):
        above, _, name = item.path.rpartition("/")
        depth = depths.get((item.is_found, above))
        placed.append(replace(item, depth=0, name=item.path) if depth is None else replace(item, depth=depth + 1, name=name))
        if item.is_dir:
            depths[item.is_found, item.path] = placed[-1].depth
    return placed
