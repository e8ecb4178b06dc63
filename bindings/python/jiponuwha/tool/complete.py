"""What a shell offers to complete a command line. The shells ask `jip --complete WORD..`, whose last word is the one at the cursor."""
from __future__ import annotations

import argparse
from collections.abc import Iterator, Sequence

from .. import DosError
from .cli import MODULES, modules_for, parser
from .console import Console
from .errors import DONE, ToolError
from .escape import shown
from .patterns import folded
from .sources import parse
from .volumes import opened


def commands() -> list[str]:
    return [it for names in MODULES.values() for it in names]


def options_of(name: str) -> list[argparse.Action]:
    """Returns the options and arguments of a command."""
    made = parser(modules_for([name]))
    found = next(it for it in made._actions if it.dest == "command")
    assert isinstance(found.choices, dict)
    chosen: argparse.ArgumentParser = found.choices[name]
    return list(chosen._actions)


def candidates(words: Sequence[str]) -> Iterator[str]:
    """Yields what may be in place of the last word. Files of the host are left to the shell."""
    *before, current = words or [""]
    if not before:
        yield from (it for it in (*commands(), "--help", "--version") if it.startswith(current))
        return
    if before[0] not in commands():
        return
    actions = options_of(before[0])
    valued = next((it for it in actions if before[-1] in it.option_strings and it.nargs != 0), None)
    if valued is not None:
        yield from (str(it) for it in valued.choices or () if str(it).startswith(current))
    elif current.startswith("-"):
        yield from (name for it in actions for name in it.option_strings if name.startswith(current))
    elif ":" in current and any(":PATH" in str(it.metavar) or it.metavar in ("SOURCE", "TARGET") for it in actions):
        yield from paths(current)


def paths(current: str) -> Iterator[str]:
    """Yields the paths inside an image that begin with what is typed, a level at a time."""
    source, inside = parse(current)
    if inside is None:
        return
    above, joint, name = inside.rpartition("/")
    start = current[: len(current) - len(name)]
    with opened(source) as volume:
        for entry in sorted(volume.entries(above), key=lambda it: folded(it.name)):
            # (a name with letters that are not shown cannot be typed)
            if folded(entry.name).startswith(folded(name)) and shown(entry.name) == entry.name:
                yield f"{start}{entry.name}{'/' * entry.is_dir}"


def print_candidates(words: Sequence[str], console: Console) -> int:
    """Prints a candidate a line. A fault offers nothing."""
    try:
        for it in candidates(words):
            console.line(it)
    except (ToolError, DosError, OSError):
        pass
    return DONE
