"""Reads the table of commands of the program, crates/adf_cli/src/table.rt, from which its help is made. The manual page and the
completions are made from the same rows. Reads its table of other tools' words too.
"""
from __future__ import annotations

import re
from pathlib import Path
from typing import Dict, Iterator, List, NamedTuple, Optional, Tuple, Union

TABLE = Path(__file__).resolve().parent.parent / "crates/adf_cli/src/table.rt"
GROUPS = TABLE.with_name("group.rt")
OTHER_WORDS = TABLE.with_name("other_words.rt")
TOKEN = re.compile(r'"(?:[^"\\]|\\.)*"|[A-Za-z_][A-Za-z0-9_]*(?:::[A-Za-z_][A-Za-z0-9_]*)*|[&\[\]{}(),:]')
Value = Union[str, bool, None, "Struct", List["Value"]]
# What stands for a value of an option or for an argument.
KINDS = {"FILE": "file", "DIR": "dir", "IMAGE": "file", "SCRIPT": "file", "LIST": "file", "PATH": "path", "OLD": "path", "NEW": "path", "NAME": "name",
         "N": "number", "WHEN": "date", "KEY": "key", "LETTERS": "letters", "TEXT": "text", "BLOCK": "number"}


class Struct(NamedTuple):
    """A value with named fields."""

    name: str
    fields: Dict[str, Value]


class Argument(NamedTuple):
    """An option, or an argument by its place."""

    name: str
    kind: str
    value: Optional[str]
    default: Optional[str]
    help: str
    # The arguments that may not stand beside it, as its row has them.
    excludes: Tuple[str, ...]

    def is_option(self) -> bool:
        return self.kind in ("Flag", "With", "Option", "Beside", "Instead")

    def value_kind(self) -> str:
        """What completes its value: empty for an option without one."""
        if self.is_option():
            return KINDS[self.value] if self.value else ""
        return KINDS[self.name]

    def has_more(self) -> bool:
        return self.kind in ("OneOrMore", "Unless", "Any")

    def may_lack(self) -> bool:
        return self.kind in ("Optional", "Unless", "Any")


class Command(NamedTuple):
    """A command with its arguments, the options first and then the others, each in the order of the help."""

    name: str
    about: str
    examples: List[str]
    # The forms that are allowed, with an option group such as `[--long | --json]`.
    forms: List[str]
    group: str
    changes: bool
    options: List[Argument]
    words: List[Argument]

    def excluded_by(self, one: Argument) -> List[Argument]:
        """The arguments that may not stand beside an argument: its row names them, or theirs name it."""
        return [it for it in [*self.options, *self.words] if it.name in one.excludes or one.name in it.excludes]


class Reader:
    """Reads the values of constants."""

    def __init__(self, text: str) -> None:
        self.known: Dict[str, Value] = {}
        for name, value in re.findall(r"(?s)\bconst ([A-Z_]+): [^=]*?=\s*(.*?);\n(?=\n|$)", text):
            if not name.endswith(("BLOCKS", "JOBS", "TURNS", "STAMP")):
                self.tokens = TOKEN.findall(value)
                self.known[name] = self.value()

    def take(self, wanted: Optional[str] = None) -> str:
        token = self.tokens.pop(0)
        if wanted is not None and token != wanted:
            raise ValueError(f"{TABLE}: {token} where {wanted} is expected")
        return str(token)

    def value(self) -> Value:
        token = self.take()
        if token == "&":
            return self.value()
        if token == "[":
            return list(self.values("]"))
        if token.startswith('"'):
            return re.sub(r"\\(.)", lambda it: {"n": "\n"}.get(it[1], it[1]), token[1:-1])
        if token in ("true", "false"):
            return token == "true"
        if token == "None":
            return None
        if token == "Some":
            return list(self.within("(", ")"))[0]
        if token in self.known:
            return self.known[token]
        return Struct(token.rpartition("::")[2], dict(self.fields()) if self.tokens[:1] == ["{"] else {})

    def within(self, start: str, end: str) -> Iterator[Value]:
        self.take(start)
        yield from self.values(end)

    def values(self, end: str) -> Iterator[Value]:
        while self.tokens[0] != end:
            yield self.value()
            if self.tokens[0] == ",":
                self.take()
        self.take(end)

    def fields(self) -> Iterator[Tuple[str, Value]]:
        self.take("{")
        while self.tokens[0] != "}":
            name = self.take()
            self.take(":")
            yield name, self.value()
            if self.tokens[0] == ",":
                self.take()
        self.take("}")


def text_of(value: Value) -> str:
    assert isinstance(value, str), value
    return value


def texts_of(value: Value) -> List[str]:
    assert isinstance(value, list), value
    return [text_of(it) for it in value]


def name_of(value: Value) -> str:
    """The name of a variant without fields."""
    assert isinstance(value, Struct)
    return value.name


def rows_of(value: Value) -> List[Struct]:
    assert isinstance(value, list)
    return [it for it in value if isinstance(it, Struct)]


def argument(row: Struct) -> Argument:
    kind = row.fields["kind"]
    assert isinstance(kind, Struct)
    value, default = kind.fields.get("value"), kind.fields.get("default")
    return Argument(
        text_of(row.fields["name"]),
        kind.name,
        None if value is None else text_of(value),
        None if default is None else text_of(default),
        text_of(row.fields["help"]),
        tuple(texts_of(kind.fields.get("excludes", []))),
    )


def headings() -> Dict[str, str]:
    """The heading of each group of commands, in the order of the help."""
    return dict(re.findall(r'Group::(\w+) => "([^"]*)"', GROUPS.read_text(encoding="utf-8")))


def other_words() -> List[Tuple[List[str], str]]:
    """The words of other tools for one thing, with what does it here: the rows of their table, in its order."""
    rows = rows_of(Reader(OTHER_WORDS.read_text(encoding="utf-8")).known["OTHER_WORDS"])
    return [(texts_of(it.fields["words"]), text_of(it.fields["tip"])) for it in rows]


def commands() -> List[Command]:
    """The commands of the table, in its order."""
    known = Reader(TABLE.read_text(encoding="utf-8")).known
    made = []
    for row in rows_of(known["COMMANDS"]):
        shared = rows_of(known["CHANGING"]) if row.fields["changes"] else []
        arguments = [argument(it) for it in [*shared, *rows_of(row.fields["arguments"])]]
        examples = text_of(row.fields["examples"]).split("\n")[1:]
        made.append(
            Command(
                text_of(row.fields["name"]),
                text_of(row.fields["about"]),
                [it.strip() for it in examples],
                [" ".join(it.split()[1:]) for it in re.split(r"\n(?= {7}adf_serve )", text_of(row.fields["usage"]))],
                name_of(row.fields["group"]),
                bool(row.fields["changes"]),
                [it for it in arguments if it.is_option()],
                [it for it in arguments if not it.is_option()],
            )
        )
    return made
