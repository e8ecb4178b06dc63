"""Paths on a volume, in the manner of pathlib."""
from __future__ import annotations

from collections.abc import Callable, Iterator
from typing import TYPE_CHECKING, Union

from ._errors import DosError, dos_error
from ._library import library
from ._numbers import Error
from ._rule import folded
from ._types import need_str, wrong_type
from ._values import Entry, letters

if TYPE_CHECKING:
    from ._file import File
    from ._volume import Volume

AnyPath = Union[str, bytes, "Path"]
# The types of data for a file.
AnyBytes = Union[bytes, bytearray, memoryview]
# What `Path.walk` gives for a directory.
Level = tuple["Path", list[str], list[str]]
# The letters of an Amiga's texts.
LETTERS = "iso-8859-1"


def name_bytes(name: str | bytes, what: str = "the name") -> bytes:
    """Returns the bytes of a name, a comment or a path. A letter outside ISO 8859-1 raises InvalidName (210)."""
    if isinstance(name, bytes):
        return name
    if not isinstance(name, str):
        raise wrong_type(what, name, "str or bytes")
    try:
        return name.encode(LETTERS)
    except UnicodeEncodeError:
        raise dos_error(Error.INVALID_COMPONENT_NAME, name) from None


def path_text(path: AnyPath) -> str:
    """Returns a path as text."""
    if isinstance(path, str):
        return path
    if isinstance(path, Path):
        return path.text
    if isinstance(path, bytes):
        return letters(path)
    raise wrong_type("the path", path, "str, bytes or a Path of a volume")


def path_bytes(path: AnyPath) -> bytes:
    """Returns a path as bytes."""
    return path if isinstance(path, bytes) else name_bytes(path_text(path))


def _names_of(text: str) -> tuple[str, ...]:
    """Returns the names that lead from the root to a path. An empty name stands for the parent of the root, which does not exist."""
    steps, names = text[text.find(":") + 1 :].split("/"), list[str]()
    if not steps[-1]:
        steps.pop()
    for step in steps:
        if step or not names or not names[-1]:
            names.append(step)
        else:
            names.pop()
    return tuple(names)


def _text_of(names: tuple[str, ...]) -> str:
    """Returns the path that these names lead to."""
    return "/".join(names) + "/" * (bool(names) and not names[-1])


def _steps_of(pattern: str) -> list[str]:
    """Returns the parts of a pattern for `glob`."""
    need_str("the pattern", pattern)
    steps = pattern.split("/")
    if ":" in pattern or not all(steps):
        raise ValueError(f"unacceptable pattern: {pattern!r}")
    return [step for at, step in enumerate(steps) if step != "**" or steps[at - 1 : at] != ["**"]]


def _matcher(step: str) -> Callable[[str], bool]:
    """Returns a function that says whether a name matches a part of a pattern."""
    import fnmatch
    import re

    found = re.compile(fnmatch.translate(folded(step))).match
    return lambda name: found(folded(name)) is not None


class Path:
    """A path on a volume, from the root. No file or directory has to exist at a path.

    The rules are those of AmigaDOS. A `/` separates names, and an empty component means the parent. Text up to a `:` is
    ignored. The empty path is the root. Two paths are equal if the volume takes them for the same, such as in another case.
    """

    __slots__ = ("volume", "text")

    def __init__(self, volume: Volume, path: AnyPath = "") -> None:
        self.volume = volume
        self.text = path_text(path)

    def __truediv__(self, name: AnyPath) -> Path:
        text = path_text(name)
        if ":" in text or not text:
            return Path(self.volume, text or self.text)
        joint = "" if not self.text or self.text.endswith((":", "/")) else "/"
        return Path(self.volume, self.text + joint + text)

    def joinpath(self, *names: AnyPath) -> Path:
        """Returns the path with these paths after it, as `/` does. One with a `:` starts at the root."""
        joined = self
        for name in names:
            joined = joined / name
        return joined

    def __str__(self) -> str:
        return self.text

    def __bytes__(self) -> bytes:
        return name_bytes(self.text)

    def __repr__(self) -> str:
        return f"Path({self.volume!r}, {self.text!r})"

    def _key(self) -> tuple[str, ...]:
        return tuple(folded(it) for it in self.parts)

    def __eq__(self, other: object) -> bool:
        return isinstance(other, Path) and self.volume is other.volume and self._key() == other._key()

    def __lt__(self, other: Path) -> bool:
        return self._key() < other._key() if isinstance(other, Path) else NotImplemented

    def __hash__(self) -> int:
        return hash((id(self.volume), self._key()))

    # ---- Names ----

    @property
    def parts(self) -> tuple[str, ...]:
        """The names that lead to the path from the root, without the volume name. Those of `d//b` are only `b`."""
        return _names_of(self.text)

    @property
    def name(self) -> str:
        """The last name. It is empty for the root."""
        return self.parts[-1] if self.parts else ""

    @property
    def stem(self) -> str:
        """The last name without its suffix."""
        return self.name[: len(self.name) - len(self.suffix)]

    @property
    def suffix(self) -> str:
        """The end of the last name from its last `.`. It is empty if that is the first or last letter, or if there is none."""
        at = self.name.rfind(".")
        return self.name[at:] if 0 < at < len(self.name) - 1 else ""

    @property
    def parent(self) -> Path:
        """The path without its last name."""
        return Path(self.volume, _text_of(self.parts[:-1]))

    def with_name(self, name: str | bytes) -> Path:
        """Returns the path with another last name. A text that is not a name raises InvalidName."""
        raw = name_bytes(name)
        if not self.name:
            raise ValueError(f"the path {self.text!r} has no name")
        if not library.jip_is_name(raw, len(raw)):
            raise dos_error(Error.INVALID_COMPONENT_NAME, name)
        return self.parent / name

    def with_suffix(self, suffix: str) -> Path:
        """Returns the path with another suffix, which begins with a `.`, or with none if it is empty."""
        need_str("the suffix", suffix)
        if suffix and (not suffix.startswith(".") or suffix == "."):
            raise ValueError(f"invalid suffix: {suffix!r}")
        return self.with_name(self.stem + suffix)

    def relative_to(self, other: AnyPath) -> Path:
        """Returns the path that leads here from another one: `other / path.relative_to(other) == path`. ValueError if this path is not
        below the other."""
        base, parts = Path(self.volume, other), self.parts
        count = len(base.parts)
        if isinstance(other, Path) and other.volume is not self.volume or self._key()[:count] != base._key():
            raise ValueError(f"the path {self.text!r} is not below {path_text(other)!r}")
        return Path(self.volume, _text_of(parts[count:]))

    # ---- What is there ----

    def stat(self) -> Entry:
        """Returns the entry at the path. A missing one raises ObjectNotFound."""
        return self.volume.stat(self)

    def exists(self) -> bool:
        return self in self.volume

    def is_file(self) -> bool:
        return self._is(file=True)

    def is_dir(self) -> bool:
        return self._is(file=False)

    def _is(self, file: bool) -> bool:
        try:
            return self.stat().is_file == file
        except DosError as fault:
            if fault.dos in (Error.DIR_NOT_FOUND, Error.OBJECT_NOT_FOUND, Error.INVALID_COMPONENT_NAME, Error.OBJECT_WRONG_TYPE):
                return False
            raise

    def iterdir(self) -> Iterator[Path]:
        """Iterates over the paths of the entries of a directory."""
        return iter([self / it.name for it in self.volume.entries(self)])

    def walk(self, top_down: bool = True) -> Iterator[Level]:
        """Iterates over this directory and all directories below it: the path, the names of its directories, and those of its
        files. A directory is before its contents, or after them if `top_down` is false. If it is before them, removing names of
        directories from the list leaves these directories out."""
        waiting: list[Path | Level] = [self]
        while waiting:
            here = waiting.pop()
            if isinstance(here, tuple):
                yield here
                continue
            entries = self.volume.entries(here)
            directories = [it.name for it in entries if it.is_dir]
            level = here, directories, [it.name for it in entries if it.is_file]
            if top_down:
                yield level
            else:
                waiting.append(level)
            waiting += [here / it for it in reversed(directories)]

    def glob(self, pattern: str) -> Iterator[Path]:
        """Iterates over the paths below this directory that match a pattern of pathlib: `*`, `?` and `[...]` within a name, and `**`
        for any number of directories. Names match as the volume compares them. At the end, `**` gives directories alone."""
        return iter({path: None for path in self._matching(_steps_of(pattern))})

    def rglob(self, pattern: str) -> Iterator[Path]:
        """Iterates over the paths at any depth below this directory that match a pattern: `glob` with `**/` before it."""
        return iter({path: None for path in self._matching(["**", *_steps_of(pattern)])})

    def _matching(self, steps: list[str]) -> Iterator[Path]:
        if not steps:
            yield self
        elif steps[0] == "**":
            for directory, _, _ in self.walk():
                yield from directory._matching(steps[1:])
        else:
            matches = _matcher(steps[0])
            for entry in self.volume.entries(self):
                if matches(entry.name) and (entry.is_dir or not steps[1:]):
                    yield from (self / entry.name)._matching(steps[1:])

    # ---- Its bytes ----

    def open(self, mode: str = "r") -> File:
        return self.volume.open(self, mode)

    def read(self) -> bytes:
        """Returns all bytes of the file."""
        return self.volume.read(self)

    def write(self, data: AnyBytes) -> int:
        """Replaces the content of the file, and creates the file if it does not exist. See `Volume.write`."""
        return self.volume.write(self, data)

    read_bytes = read
    write_bytes = write

    def read_text(self, encoding: str = LETTERS, errors: str = "strict") -> str:
        """Returns the text of the file. Line ends stay as they are."""
        return self.read().decode(encoding, errors)

    def write_text(self, data: str, encoding: str = LETTERS, errors: str = "strict") -> int:
        """Replaces the content of the file by a text, and returns the number of its letters. Line ends stay as they are."""
        need_str("the text", data)
        self.write(data.encode(encoding, errors))
        return len(data)

    # ---- Changes ----

    def touch(self, exist_ok: bool = True) -> None:
        """Makes an empty file. If there is a file or directory already, it gets the present date, or raises ObjectExists without
        `exist_ok`."""
        try:
            self.volume.open(self, "x").close()
        except DosError as fault:
            if not exist_ok or fault.dos != Error.OBJECT_EXISTS:
                raise
            self.volume.date(self, self.volume.clock())

    def mkdir(self, parents: bool = False, exist_ok: bool = False) -> None:
        self.volume.mkdir(self, parents, exist_ok)

    def remove(self) -> None:
        self.volume.remove(self)

    unlink = remove
    rmdir = remove

    def rename(self, target: AnyPath) -> Path:
        """Moves the file or directory to another path, also from the root. Returns the new path."""
        self.volume.rename(self, target)
        return Path(self.volume, target)

    def replace(self, target: AnyPath) -> Path:
        """Moves the file or directory to another path, in place of what is there. See `Volume.replace`. Returns the new path."""
        self.volume.replace(self, target)
        return Path(self.volume, target)
