"""The command line of the tool."""
from __future__ import annotations

import argparse
import importlib
import io
import os
import sys
from collections.abc import Sequence

from .console import Console
from .declare import Parser
from .errors import DONE, HOST, USAGE

# The modules of `commands`, each with its commands. Only the module of the command that is run is imported.
MODULES = {
    "listing": ("ls", "tree"),
    "contents": ("cat", "hex"),
    "copying": ("cp",),
    "changing": ("mv", "rm", "mkdir", "touch", "protect", "note", "label"),
    "making": ("new",),
    "rescue": ("rescue",),
    "working": ("open", "close"),
    "report": ("report",),
    "map": ("map",),
    "check": ("check",),
    "catalog": ("catalog",),
    "find": ("find",),
    "grep": ("grep",),
    "dupes": ("dupes",),
    "verify": ("verify",),
    "diff": ("diff",),
    "dat": ("dat",),
}
INTERRUPTED = 130


def parser(modules: Sequence[str] = tuple(MODULES)) -> argparse.ArgumentParser:
    """Returns the parser with the commands of these modules."""
    made = Parser(prog="jip", description="List, copy, change and compare Amiga floppy images.", allow_abbrev=False)
    made.add_argument("--version", action="store_true", help="print the version of the tool, which is that of the library")
    subparsers = made.add_subparsers(metavar="COMMAND", dest="command", parser_class=Parser)
    for name in modules:
        importlib.import_module(f".commands.{name}", __package__).register(subparsers)
    return made


def modules_for(words: Sequence[str]) -> Sequence[str]:
    """Returns the module of the command that these words run, or all modules if that is no command."""
    found = [name for name, commands in MODULES.items() if words and words[0] in commands]
    return found or tuple(MODULES)


def run(words: Sequence[str], console: Console) -> int:
    """Runs a command line, and returns the exit status."""
    if words[:1] == ["--complete"]:
        from .complete import print_candidates

        return print_candidates(words[1:], console)
    made = parser(modules_for(words))
    arguments = made.parse_args(words)
    if arguments.version:
        from .. import version

        console.line(f"jip {version()}")
        return DONE
    if arguments.command is None:
        made.print_help(console.err)
        return USAGE
    console.quiet = getattr(arguments, "quiet", False)
    try:
        status = int(arguments.run(arguments, console))
        console.out.flush()
        return status
    except BrokenPipeError:
        # (what reads the output has ended)
        sys.stdout = open(os.devnull, "w")
        return HOST
    except Exception as fault:
        from .volumes import fault_line

        status, text = fault_line(fault)
        console.error(text)
        return status


def main(words: Sequence[str] | None = None) -> int:
    """Runs the tool with these arguments, or with those of the process."""
    for stream in (sys.stdout, sys.stderr):
        if isinstance(stream, io.TextIOWrapper):
            stream.reconfigure(errors="backslashreplace")
    try:
        return run(sys.argv[1:] if words is None else words, Console())
    except ImportError as fault:
        print(f"jip: {fault}", file=sys.stderr)
        return HOST
    except KeyboardInterrupt:
        return INTERRUPTED
