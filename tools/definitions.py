"""Definitions of specs/ by their names, with their texts: for tools/contracts.py."""
from __future__ import annotations

import hashlib
import re
import sys
from collections.abc import Iterator
from dataclasses import dataclass, field
from functools import lru_cache
from pathlib import Path

sys.dont_write_bytecode = True

import reading  # noqa: E402

TOP = Path(__file__).resolve().parent.parent
# A comment, or a text, in which two dashes are no comment.
COMMENT = re.compile(r'"(?:\\.|[^"\\])*"|(?:(?<=\s)|^)--[^\n]*', re.M)
USE = re.compile(r"^\s*((?:(?:ghost|pub|unfoldable) )*)use (Rattle\.[^;\n]*)", re.M)
WORD = re.compile(r"(?<![\w.])[^\W\d][\w']*(?:\.[^\W\d][\w']*)*")
HEAD = re.compile(r"(?:(?:abbrev|unfoldable|opaque|pub|record|data) )*([^\W\d][\w']*)")


@dataclass(frozen=True, order=True)
class Definition:
    """A definition: its name, and its file without the ending."""

    name: str
    file: str

    @property
    def crate(self) -> str:
        return self.file.partition("/")[0]

    def line(self) -> str:
        """The name, the file and the checksum of the text."""
        text = module_of(TOP / "crates" / f"{self.file}.antt").texts[self.name]
        return f"{self.name}  {self.file}  {hashlib.sha256(' '.join(text.split()).encode()).hexdigest()[:8]}"


@dataclass
class Module:
    """A file of definitions: the text of each without comments, and the definition that each other name stands for."""

    texts: dict[str, str] = field(default_factory=dict)
    owners: dict[str, str] = field(default_factory=dict)
    names: dict[str, Definition] = field(default_factory=dict)
    aliases: dict[str, Path] = field(default_factory=dict)


def without_comments(text: str) -> str:
    return COMMENT.sub(lambda it: it[0] if it[0].startswith('"') else "", text)


@lru_cache(maxsize=None)
def module_of(file: Path) -> Module:
    """Reads a file of definitions."""
    text = without_comments(file.read_text())
    made = Module()
    add_definitions(text, made)
    made.names, made.aliases = imports_of(text)
    return made


def add_definitions(text: str, made: Module) -> None:
    """Splits a file at the first column, or at the third one in a `module _ .. where`, whose parameters belong to each text."""
    column, outer, opening, name = 0, "", False, ""
    for line in text.splitlines():
        indent = len(line) - len(line.lstrip())
        if not line.strip():
            continue
        if indent == 0 and re.match(r"module |(pub )?(unfoldable )?(use|mod) ", line):
            opening = line.startswith("module ")
            column, outer, name = 2 if opening else 0, "", ""
            if not opening:
                continue
        elif indent == 0 and not opening:
            column, outer = 0, ""
        if opening:
            outer += f"{line}\n"
            opening = not line.rstrip().endswith("where")
            continue
        head = HEAD.match(line, column) if indent == column else None
        if head and head[1] not in ("where", "unfolding"):
            name = head[1]
            made.texts.setdefault(name, outer)
        elif indent == column + 2 and "data " in made.texts.get(name, "").partition(":")[0]:
            constructor = HEAD.match(line, indent)
            if constructor:
                made.owners[constructor[1]] = name
        if name:
            made.texts[name] += f"{line}\n"


def imports_of(text: str) -> tuple[dict[str, Definition], dict[str, Path]]:
    """Returns the definitions that a text imports, by their names there, and the files that it gives a name."""
    names, aliases = dict[str, Definition](), dict[str, Path]()
    for _, line in USE.findall(text):
        module, braces, inner = line.partition(".{")
        module, _, alias = module.strip().partition(" as ")
        if re.search(r"\.specs\.(declared|contracts)\b", module) or not (TOP / "crates" / module.split(".")[1]).is_dir():
            continue
        if not braces:
            file = reading.file_of(module)
            if file and file.suffix == ".antt" and file.stem == module.split(".")[-1]:
                aliases[alias or file.stem] = file
        for item in inner.partition("}")[0].split(",") if braces else []:
            path, _, alias = item.strip().partition(" as ")
            is_of_code = ".declared." in f".{path}." or "◌" in path
            found = find(module, path) if path and not is_of_code else None
            if found:
                names[alias or path.split(".")[-1]] = found
    return names, aliases


def find(module: str, path: str) -> Definition | None:
    """Returns the definition that a path in a module names: the first of its parts that the file defines or passes on."""
    parts = path.split(".")
    file = reading.file_of(".".join([module, *parts[:-1]])) if len(parts) > 1 else reading.file_of(module)
    if file is None or file.suffix != ".antt":
        return None
    return next((found for part in parts for found in [named(file, part)] if found), None)


def named(file: Path, name: str) -> Definition | None:
    """Returns the definition that a name means in a file."""
    module = module_of(file)
    name = name if name in module.texts else module.owners.get(name, name)
    if name in module.texts:
        return Definition(name, str(file.relative_to(TOP / "crates").with_suffix("")))
    return module.names.get(name)


def cited(text: str, names: dict[str, Definition], aliases: dict[str, Path]) -> Iterator[Definition]:
    """The definitions that a text names, by the imports of its file."""
    for word in set(WORD.findall(text)):
        first, _, rest = word.partition(".")
        found = names.get(first) or (named(aliases[first], rest.partition(".")[0]) if first in aliases and rest else None)
        if found:
            yield found


def below(start: set[Definition]) -> set[Definition]:
    """These definitions, and all that their texts name, directly or not."""
    seen, left = set[Definition](), list(start)
    while left:
        one = left.pop()
        if one in seen:
            continue
        seen.add(one)
        file = TOP / "crates" / f"{one.file}.antt"
        module = module_of(file)
        text = module.texts[one.name]
        left += cited(text, module.names, module.aliases)
        left += [it for word in set(WORD.findall(text)) for part in word.split(".") for it in [named(file, part)] if it]
    return seen
