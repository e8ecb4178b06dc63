"""Declares commands and the options that several of them have."""
from __future__ import annotations

import argparse
import re
from collections.abc import Callable
from typing import TYPE_CHECKING, Any, NoReturn, TypeAlias

from .errors import USAGE

if TYPE_CHECKING:
    from .console import Console

Subparsers: TypeAlias = "argparse._SubParsersAction[Parser]"
Run = Callable[[argparse.Namespace, "Console"], int]


class Parser(argparse.ArgumentParser):
    """A parser that ends with the tool's own status for a wrong command line. With `takes_letters` arguments such as `-w` and
    `----rwed` are protection letters, and no options."""

    takes_letters = False

    def error(self, message: str) -> NoReturn:
        name = self.prog.removeprefix("jip").strip()
        self.exit(USAGE, f"{self.format_usage()}jip: {message}; 'jip {f'{name} ' if name else ''}--help' says more\n")

    def parse_known_args(self, args: Any = None, namespace: Any = None) -> Any:
        # (argparse takes an argument with a space for no option)
        form = "-(?!h$)[-hsparwedHSPARWED]*" if self.takes_letters else "$."
        return super().parse_known_args([f" {it}" if it != "--" and re.fullmatch(form, it) else it for it in args or ()], namespace)


def command(subparsers: Subparsers, name: str, run: Run, help: str, *examples: str) -> Parser:
    """Declares a command with its help and with examples, and returns its parser."""
    shown = "".join(f"\n  {it}" for it in examples)
    made: Parser = subparsers.add_parser(
        name,
        help=help,
        description=f"{help[0].upper()}{help[1:]}.",
        epilog=f"example{'s' * (len(examples) != 1)}:{shown}" if examples else None,
        formatter_class=argparse.RawDescriptionHelpFormatter,
        allow_abbrev=False,
    )
    made.set_defaults(run=run)
    return made


def add_json(made: argparse.ArgumentParser) -> None:
    made.add_argument("--json", action="store_true", help="print JSON, an object on a line for each argument")


def add_changes(made: argparse.ArgumentParser) -> None:
    """Adds the options of a command that changes an image."""
    made.add_argument("-n", "--dry-run", action="store_true", help="print what would be done, and change nothing")
    made.add_argument("-q", "--quiet", action="store_true", help="print nothing of what was done")
