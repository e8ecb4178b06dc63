"""AmigaDOS patterns for names: `?` any letter, `#x` any number of x, `~x` all but x, `(a|b)` one or the other, `[a-z]` and `[~a-z]` a
letter of a class, `'` before a letter to quote it. `*` is the same as `#?`.

A name is matched in time that grows with the length of the pattern and the square of the length of the name: for each part of the
pattern and each place of the name, the places where a match may end are found once, as the bits of a number.
"""
from __future__ import annotations

from collections.abc import Iterator
from functools import lru_cache

from .. import DosError, Entry, ObjectExists, Volume
from .. import create as blank
from .._path import name_bytes
from .errors import UsageError

_SPECIAL = "#?~([*'"
# How deep a pattern may be nested.
_DEEPEST = 60


class PatternError(UsageError):
    """The text is not a pattern."""


@lru_cache(maxsize=1)
def same_letters() -> bytes:
    """Returns the table of the bytes that are the same in names, each with the first of them, as the library compares names: it makes
    a directory for each byte in a blank volume, and sees which are there already."""
    table = bytearray(range(256))
    with blank("Letters") as volume:
        for byte in range(256):
            try:
                volume.mkdir(bytes([byte]))
            except ObjectExists:
                table[byte] = volume.stat(bytes([byte])).name_bytes[0]
            except DosError:
                pass
        volume.close(discard=True)
    return bytes(table)


def folded(name: str | bytes) -> bytes:
    """Returns the bytes of a name; two names of a volume are the same if these are."""
    return name_bytes(name).translate(same_letters())


class _Part:
    """A part of a pattern. `ends` returns the places, as bits, where a match that starts at a place may end."""

    def ends(self, run: _Run, at: int) -> int:
        raise NotImplementedError


class _Run:
    """The match of one name: each part is asked once for each place."""

    def __init__(self, name: bytes) -> None:
        self.name = name
        self._known: dict[tuple[int, int], int] = {}

    def ends(self, part: _Part, at: int) -> int:
        key = id(part), at
        if key not in self._known:
            self._known[key] = part.ends(self, at)
        return self._known[key]

    def ends_of_all(self, part: _Part, places: int) -> int:
        found = 0
        for at in range(len(self.name) + 1):
            if places >> at & 1:
                found |= self.ends(part, at)
        return found


class _Letters(_Part):
    """One letter of a set."""

    def __init__(self, letters: frozenset[int]) -> None:
        self.letters = letters

    def ends(self, run: _Run, at: int) -> int:
        return 1 << at + 1 if at < len(run.name) and run.name[at] in self.letters else 0


class _Sequence(_Part):
    def __init__(self, parts: list[_Part]) -> None:
        self.parts = parts

    def ends(self, run: _Run, at: int) -> int:
        places = 1 << at
        for part in self.parts:
            places = run.ends_of_all(part, places)
        return places


class _Either(_Part):
    def __init__(self, parts: list[_Part]) -> None:
        self.parts = parts

    def ends(self, run: _Run, at: int) -> int:
        places = 0
        for part in self.parts:
            places |= run.ends(part, at)
        return places


class _Repeated(_Part):
    def __init__(self, part: _Part) -> None:
        self.part = part

    def ends(self, run: _Run, at: int) -> int:
        places = new = 1 << at
        while new:
            new = run.ends_of_all(self.part, new) & ~places
            places |= new
        return places


class _Not(_Part):
    def __init__(self, part: _Part) -> None:
        self.part = part

    def ends(self, run: _Run, at: int) -> int:
        everything = (1 << len(run.name) + 1) - 1 & ~((1 << at) - 1)
        return everything & ~run.ends(self.part, at)


class _Reader:
    """Reads a pattern."""

    def __init__(self, text: str) -> None:
        self.text, self.at, self.depth = text, 0, 0

    def fault(self, what: str) -> PatternError:
        return PatternError(f"the pattern {self.text!r} {what}")

    def next(self) -> str:
        if self.at == len(self.text):
            raise self.fault("ends early")
        self.at += 1
        return self.text[self.at - 1]

    def sequence(self, stops: str) -> _Part:
        parts = []
        while self.at < len(self.text) and self.text[self.at] not in stops:
            parts.append(self.part())
        return parts[0] if len(parts) == 1 else _Sequence(parts)

    def part(self) -> _Part:
        self.depth += 1
        if self.depth > _DEEPEST:
            raise self.fault(f"is nested more than {_DEEPEST} deep")
        letter = self.next()
        if letter == "#":
            made: _Part = _Repeated(self.part())
        elif letter == "~":
            made = _Not(self.part())
        elif letter == "(":
            made = self.group()
        elif letter == "[":
            made = _Letters(self.letters())
        elif letter in "?*":
            made = _Letters(frozenset(range(256)))
            made = _Repeated(made) if letter == "*" else made
        else:
            made = _Letters(frozenset(folded(self.next() if letter == "'" else letter)))
        self.depth -= 1
        return made

    def group(self) -> _Part:
        parts = [self.sequence("|)")]
        while self.next() == "|":
            parts.append(self.sequence("|)"))
        return parts[0] if len(parts) == 1 else _Either(parts)

    def letters(self) -> frozenset[int]:
        """Reads a class to its `]`."""
        is_not = self.text[self.at : self.at + 1] == "~"
        self.at += is_not
        found: set[int] = set()
        while (letter := self.next()) != "]":
            first = self.next() if letter == "'" else letter
            last = first
            if self.text[self.at : self.at + 1] == "-" and self.text[self.at + 1 : self.at + 2] not in ("", "]"):
                self.at += 1
                last = self.next()
                last = self.next() if last == "'" else last
            span = range(name_bytes(first)[0], name_bytes(last)[0] + 1)
            found.update(folded(bytes(span)))
        return frozenset(range(256)) - found if is_not else frozenset(found)


class Pattern:
    """A pattern for one name."""

    def __init__(self, text: str) -> None:
        name_bytes(text)
        reader = _Reader(text)
        self.text = text
        self._part = reader.sequence("")

    def matches(self, name: str | bytes) -> bool:
        """Whether a name matches, in any case, by the rule of the volume. A letter that no name can have matches nothing."""
        try:
            raw = folded(name)
        except DosError:
            return False
        return bool(_Run(raw).ends(self._part, 0) >> len(raw) & 1)


def has_pattern(text: str) -> bool:
    """Whether a text has a letter that means something in a pattern."""
    return any(it in text for it in _SPECIAL)


def expand(volume: Volume, path: str) -> list[tuple[str, Entry]]:
    """Returns the paths from the root, with their entries, that a path with patterns names: each name between `/` may be a pattern.
    If nothing matches, the path is taken as it is, since a name may have such letters.

    A path that names nothing raises ObjectNotFound.
    """
    found = list(_expanded(volume, path)) if has_pattern(path) else []
    return found or [_plain(volume, path)]


def _plain(volume: Volume, path: str) -> tuple[str, Entry]:
    """Returns the path of an entry as the volume spells it."""
    entry = volume.stat(path)
    parts = path.rpartition(":")[2].split("/")
    if "" in parts[:-1] or parts == [""]:
        return path, entry
    names: list[str] = []
    for it in parts:
        if it:
            names.append(volume.stat("/".join([*names, it])).name)
    return "/".join(names), entry


def _expanded(volume: Volume, path: str) -> Iterator[tuple[str, Entry]]:
    names = [it for it in path.rpartition(":")[2].split("/") if it]
    try:
        patterns = [Pattern(it) for it in names]
    except PatternError:
        if path in volume:
            return
        raise
    yield from _below(volume, "", patterns)


def _below(volume: Volume, folder: str, patterns: list[Pattern]) -> Iterator[tuple[str, Entry]]:
    for entry in volume.entries(folder):
        if patterns[0].matches(entry.name):
            path = f"{folder}/{entry.name}" if folder else entry.name
            if len(patterns) == 1:
                yield path, entry
            elif entry.is_dir:
                yield from _below(volume, path, patterns[1:])
