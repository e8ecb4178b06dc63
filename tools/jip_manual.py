#!/usr/bin/env python3
"""Writes docs/jip.1, the page for `man` of the tool jip, from the tool's own table of commands.

    tools/jip_manual.py            writes the page
    tools/jip_manual.py --check    prints the first line that differs from the page, and exits with 1 then

It loads the Python package of this repository, and so needs its library (JIPONUWHA_LIBRARY).
"""
from __future__ import annotations

import argparse
import sys
import textwrap
from pathlib import Path
from typing import Dict, Iterator, List

sys.dont_write_bytecode = True

TOP = Path(__file__).resolve().parent.parent
PAGE = TOP / "docs/jip.1"
sys.path.insert(0, str(TOP / "bindings/python"))

from jiponuwha.tool.cli import parser

HEAD = """.Dd November 30, 2026
.Dt JIP 1
.Os
.Sh NAME
.Nm jip
.Nd list, copy, change and compare Amiga floppy images
.Sh SYNOPSIS
.Nm
.Ar COMMAND
.Op Ar options
.Ar arguments ...
.Nm
.Ar COMMAND
.Fl -help
.Nm
.Fl -version
.Sh DESCRIPTION
The tool works on images of Amiga floppies, one or many.
An image is a file, or
.Ar IMAGE : Ns Ar PATH
with a path inside it, such as
.Ql work.adf:Docs/hello .
The image may be packed by gzip
.Pq Ql x.adz , x.adf.gz ,
a member of a ZIP file
.Pq Ql set.zip/disk1.adf ,
or a DMS file
.Pq by Ql xdms .
A
.Ql \\&:
in the name of a file is written with a directory before it, as
.Ql ./a:b.adf .
.Pp
A
.Ar PATH
may have patterns of AmigaDOS, in any case:
.Ql \\&?
is any letter,
.Ql #x
any number of x,
.Ql ~x
all but x,
.Ql (a|b)
a or b,
.Ql [a-z]
a letter of these, and
.Ql \\(aq
takes its meaning from the next letter.
.Ql *
is the same as
.Ql #\\&? .
.Pp
All changes of a command are made in memory, and then the file is replaced once:
all of them are made, or none.
.Sh COMMANDS
"""
TAIL = """.Sh ENVIRONMENT
.Bl -tag -width indent
.It Ev NO_COLOR
If it is set and not empty, nothing is coloured.
.It Ev JIPONUWHA_LIBRARY
The file of the shared library, if it is not that of the package or of the
system.
.It Ev JIPONUWHA_PROGRAM
The program
.Nm adf_serve Ns (1) ,
if it is not on the path.
.El
.Sh EXIT STATUS
.Bl -tag -width indent
.It 0
Done.
.It 1
The command line is wrong.
.It 2
A file cannot be read or written, or something that the command needs is
missing.
.It 3
An image, a name or a change is refused.
.It 130
The command was interrupted.
.El
.Sh SEE ALSO
.Nm adf_mount Ns (1) ,
.Nm adf_serve Ns (1)
"""


def text(said: str) -> str:
    """Returns a text as lines of the page, none of which looks like a request."""
    lines = textwrap.wrap(said.replace("\\", "\\e"), 78, break_long_words=False, break_on_hyphens=False)
    return "\n".join(("\\&" if it[:1] in (".", "'") else "") + it for it in lines)


def name_of(action: argparse.Action) -> str:
    """Returns the name of an argument, or of the value of an option."""
    if isinstance(action.metavar, str):
        return action.metavar
    return "KEY" if action.choices else action.dest.upper()


def flags(action: argparse.Action) -> str:
    names = " , ".join(f"Fl {it[1:]}" for it in action.option_strings)
    return names if action.nargs == 0 else f"{names} Ar {name_of(action)}"


def synopsis(name: str, actions: List[argparse.Action]) -> Iterator[str]:
    yield ".Nm"
    yield f".Cm {name}"
    for it in actions:
        if it.option_strings:
            value = "" if it.nargs == 0 else f" Ar {name_of(it)}"
            yield f".Op Fl {it.option_strings[0][1:]}{value}"
    for it in actions:
        if not it.option_strings:
            shown = f"Ar {name_of(it)}{' ...' if it.nargs in ('+', '*') else ''}"
            yield f".Op {shown}" if it.nargs in ("?", "*") else f".{shown}"


def command(name: str, about: str, made: argparse.ArgumentParser) -> Iterator[str]:
    """Yields the section of a command."""
    actions = [it for it in made._actions if it.dest != "help"]
    yield f".Ss jip {name}"
    yield from synopsis(name, actions)
    yield ".Pp"
    yield text(f"{about[0].upper()}{about[1:]}.")
    yield ".Bl -tag -width indent"
    for it in actions:
        yield f".It {flags(it)}" if it.option_strings else f".It Ar {name_of(it)}"
        choices = f" ({', '.join(map(str, it.choices))})" if it.choices else ""
        yield text(f"{(it.help or '')[:1].upper()}{(it.help or '')[1:]}{choices}.".replace("%%", "%"))
    yield ".El"
    examples = [it.strip() for it in (made.epilog or "").splitlines()[1:] if it.strip()]
    if examples:
        yield from (".Bd -literal -offset indent", *(it.replace("\\", "\\e") for it in examples), ".Ed")


def page() -> str:
    """Returns the whole page."""
    made = parser()
    found = next(it for it in made._actions if it.dest == "command")
    assert isinstance(found, argparse._SubParsersAction)
    abouts: Dict[str, str] = {it.dest: it.help or "" for it in found._choices_actions}
    lines = [line for name, it in found.choices.items() for line in command(name, abouts[name], it)]
    return HEAD + "".join(f"{it}\n" for it in lines) + TAIL


def main(words: List[str]) -> int:
    if words not in ([], ["--check"]):
        print(__doc__, end="", file=sys.stderr)
        return 2
    wanted = page()
    if not words:
        PAGE.write_text(wanted)
        return 0
    found = PAGE.read_text() if PAGE.exists() else ""
    if found == wanted:
        return 0
    pairs = enumerate(zip(found.splitlines() + [""], wanted.splitlines() + [""]), 1)
    line, (has, wants) = next((it for it in pairs if it[1][0] != it[1][1]), (0, ("", "")))
    print(f"docs/jip.1:{line}: '{has}' where the commands have '{wants}': tools/jip_manual.py writes it")
    return 1


if __name__ == "__main__":
    sys.exit(main(sys.argv[1:]))
