#!/usr/bin/env python3
"""Writes the parts of docs/adf_serve.1 that the table of commands determines: the synopsis of each command, and its options. Each
stands between two comments of the page, as `.\\" table: check` and `.\\" end`, below the heading of the command's group; the text
between these parts is written by hand.

    tools/manual.py            writes them
    tools/manual.py --check    prints each part that is not what the table makes, and exits with 1 then
"""
from __future__ import annotations

import re
import sys
import textwrap
from pathlib import Path
from typing import Dict, Iterator, List

sys.dont_write_bytecode = True

from command_table import Argument, Command, commands, headings

PAGE = Path(__file__).resolve().parent.parent / "docs/adf_serve.1"
PART = re.compile(r'(?ms)^(\.\\" table: ([a-z ]+)\n)(.*?)(^\.\\" end\n)')
TIME = ("date", "days", "minutes", "ticks")
CHANGE = ("out", "over", "blocks")


def changing() -> Command:
    """A command that changes an image: it has all options that the page explains once."""
    return next(it for it in commands() if it.changes)


def told_once(option: Argument) -> bool:
    """Whether the page explains an option once for all commands that have it."""
    return option.name in TIME or option in (it for it in changing().options if it.name in CHANGE)


def words_of(argument: Argument) -> str:
    return f"{argument.name} ..." if argument.has_more() else argument.name


def flag(option: Argument) -> str:
    return f"-{option.name}" + (f" Ar {option.value}" if option.value else "")


def synopsis(command: Command) -> Iterator[str]:
    """The item of a command: its options and its arguments."""
    yield from (".It Xo", f".Cm {command.name}")
    own = [it for it in command.options if it.name not in (*TIME, *(CHANGE if command.changes else ()))]
    yield from (f".Op Fl {flag(it)}" for it in own)
    if command.changes:
        yield ".Op Ar CHANGE"
    elif any(it.name in TIME for it in command.options):
        yield ".Op Ar TIME"
    yield from (f".Op Ar {words_of(it)}" if it.may_lack() else f".Ar {words_of(it)}" for it in command.words)
    yield ".Xc"


def text(told: str) -> Iterator[str]:
    """A text as lines of the page, each of one sentence at most: marks of code as quotes, and no line that looks like a request."""
    quoted = re.sub(r"`([^`]*)`", lambda it: f"\\(oq{it[1]}\\(cq", told.replace("\\", "\\e"))
    for sentence in re.split(r"(?<=[.!?]) +(?=[A-Z\\])", quoted):
        for it in textwrap.wrap(sentence, 78, break_long_words=False, break_on_hyphens=False):
            yield ("\\&" if it[:1] in (".", "'") else "") + it


def listed(arguments: List[Argument]) -> Iterator[str]:
    """A list of options and arguments with their help."""
    if arguments:
        yield ".Bl -tag -width Ds"
        for it in arguments:
            yield f".It Fl {flag(it)}" if it.is_option() else f".It Ar {words_of(it)}"
            yield from text(f"{it.help}.")
            if it.default and it.default != "0":
                yield f"The default is\n.Ql \\&{it.default} ."
        yield ".El"


def explained(command: Command) -> Iterator[str]:
    """The options and arguments of a command that are not explained once for all commands, and its examples."""
    yield from listed([it for it in command.options if not told_once(it)] + [it for it in command.words if it.help != "The image"])
    yield from (".Bd -literal -offset indent", *(it.replace("\\", "\\e") for it in command.examples), ".Ed")


def parts() -> Dict[str, str]:
    """Each part that the table makes, by its name."""
    made: Dict[str, Iterator[str]] = {}
    for it in commands():
        made[it.name] = synopsis(it)
        made[f"options of {it.name}"] = explained(it)
    shared = changing().options
    made["options of a change"] = listed([it for it in shared if it.name in CHANGE])
    made["options of a time stamp"] = listed([it for it in shared if it.name in TIME])
    return {name: "".join(f"{line}\n" for line in lines) for name, lines in made.items()}


def strays(page: str) -> Iterator[str]:
    """Says which commands do not stand below the heading of their group."""
    sections = re.split(r"(?m)^\.Ss (.*)\n", page)
    below = {it: heading for heading, text in zip(sections[1::2], sections[2::2]) for it in re.findall(r'(?m)^\.\\" table: ([a-z]+)$', text)}
    named = headings()
    for it in commands():
        if below.get(it.name) != named[it.group]:
            yield f"has '{it.name}' below '{below.get(it.name)}', and its group is '{named[it.group]}'"


def main(words: List[str]) -> int:
    page, made = PAGE.read_text(encoding="utf-8"), parts()
    found = [name for _, name, _, _ in PART.findall(page)]
    faults = [f"has the part '{it}' {found.count(it)} times" for it in made if found.count(it) != 1]
    faults += [f"has a part '{it}', which the table does not make" for it in found if it not in made]
    faults += strays(page)
    differing = [name for _, name, has, _ in PART.findall(page) if has != made.get(name, has)]
    stale = [f"has another part '{it}' than the table makes: tools/manual.py writes it" for it in differing]
    for it in [*faults, *(stale if words == ["--check"] else [])]:
        print(f"docs/adf_serve.1 {it}")
    if words != ["--check"]:
        PAGE.write_text(PART.sub(lambda it: it[1] + made.get(it[2], it[3]) + it[4], page), encoding="utf-8")
    return 1 if faults or words == ["--check"] and stale else 0


if __name__ == "__main__":
    sys.exit(main(sys.argv[1:]))
