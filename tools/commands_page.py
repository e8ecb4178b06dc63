#!/usr/bin/env python3
"""Holds docs/COMMANDS.md to the tables of the program (tools/command_table.py). The page has a row for each form of each command and
no other, it names the options of the commands and no others, and its table of other tools' words is the program's.

    tools/commands_page.py            writes the table of these words
    tools/commands_page.py --check    prints what is not so, and exits with 1 then
"""
from __future__ import annotations

import re
import sys
from pathlib import Path
from typing import Iterator, List

sys.dont_write_bytecode = True

from command_table import Command, commands, other_words

PAGE = Path(__file__).resolve().parent.parent / "docs/COMMANDS.md"
WORDS = re.compile(r"(?m)(^\| Word \| Here \|\n\|---\|---\|\n)((?:\|.*\n)*)")
# The option of all commands, that of the program, and that of adf_mount.
OTHER_OPTIONS = {"--help", "--version", "--wait"}


def words_table() -> str:
    """The rows of the table of other tools' words."""
    return "".join(f"| {', '.join(f'`{it}`' for it in words)} | {tip[0].upper()}{tip[1:]} |\n" for words, tip in other_words())


def form_of(command: Command, form: str) -> str:
    """A form of a command as the page has it. What `--blocks` means for commands that read an image stands there once."""
    return (form if command.name == "blank" else form.replace(" [--blocks N]", "")).replace("|", "\\|")


def faulty_forms(page: str) -> Iterator[str]:
    """Says which rows the tables of commands lack, and which they have beside those of the program."""
    section = page.partition("\n## With arguments\n")[2].partition("\n### ")[0]
    found = re.findall(r"(?m)^\| `([^`]+)` \| ", section)
    wanted = [form_of(command, form) for command in commands() for form in command.forms]
    yield from (f"has no row `{it}`" for it in wanted if it not in found)
    yield from (f"has a row `{it}`, which is no form of a command" for it in found if it not in wanted)
    yield from (f"has the row `{it}` twice" for it in sorted(set(found)) if found.count(it) > 1)


def faulty_options(page: str) -> Iterator[str]:
    """Says which options of commands the page lacks, and which it names that no command has."""
    wanted = {f"--{it.name}" for command in commands() for it in command.options} | OTHER_OPTIONS
    found = {*re.findall(r"(?<![\w-])--[a-z]+", page)}
    yield from (f"does not name the option {it}" for it in sorted(wanted - found))
    yield from (f"names {it}, which no command has" for it in sorted(found - wanted))


def faulty_words() -> Iterator[str]:
    """Says which words of the program's table are never looked up: names of commands, and words of a row before."""
    words: List[str] = [it.name for it in commands()]
    for it in (word for row, _ in other_words() for word in row):
        if it in words:
            yield f"has the word '{it}', which is a command or stands in another row"
        words.append(it)


def main(arguments: List[str]) -> int:
    page = PAGE.read_text(encoding="utf-8")
    written, tables = WORDS.subn(lambda it: it[1] + words_table(), page)
    faults = [*faulty_forms(page), *faulty_options(page), *faulty_words()]
    if tables != 1:
        faults.append(f"has {tables} tables of other tools' words")
    if arguments != ["--check"]:
        PAGE.write_text(written, encoding="utf-8")
    elif written != page:
        faults.append("has another table of other tools' words than the program: tools/commands_page.py writes it")
    for it in faults:
        print(f"docs/COMMANDS.md {it}")
    return 1 if faults else 0


if __name__ == "__main__":
    sys.exit(main(sys.argv[1:]))
