#!/usr/bin/env python3
"""Runs the commands in the pages for users line by line, as a new user does. Each command ends with status 0, and its standard
output and standard error together are the lines below it in the page.

    tests/walk.py [PROGRAM]
"""
from __future__ import annotations

import os
import re
import sys
from pathlib import Path
from typing import List, Sequence, Tuple

sys.dont_write_bytecode = True

from harness import TOP, Ran, Report, Room, done, run, try_all

QUICKSTART, LIBRARY = "docs/QUICKSTART.md", "docs/LIBRARY.md"
# The sections of README.md with commands: for a person with a floppy, and for the author of a handler.
FLOPPY, HANDLER = "You have a floppy", "Send packets"


def code_of(page: str, kind: str) -> List[str]:
    """The code blocks of one language in a page; plain blocks have none."""
    return [code for it, code in re.findall(r"(?ms)^```(\w*)\n(.*?)^```$", page) if it == kind]


def commands_of(page: str) -> List[Tuple[str, str]]:
    """The commands after `$ ` in the plain blocks of a page, each with the lines below it."""
    return [it for code in code_of(page, "") for it in re.findall(r"(?m)^\$ (.*)\n((?:(?!\$ ).*\n)*)", code)]


def section_of(page: str, heading: str) -> str:
    """The part of a page from this heading of the second level to the next one."""
    return page.partition(f"\n## {heading}\n")[2].partition("\n## ")[0]


def links_of(page: str) -> List[Tuple[str, str]]:
    """The links of a page into its own directory tree: the path, empty for the page itself, and the heading or an empty text."""
    prose = re.sub(r"(?ms)^```.*?^```$", "", page)
    return [(path, anchor) for path, anchor in re.findall(r"\]\(([^)#\s]*)#?([^)\s]*)\)", prose) if not re.match("[a-z]+:", path)]


def anchors_of(page: str) -> List[str]:
    """The names by which links lead to the headings of a page."""
    headings = re.findall(r"(?m)^#+ +(.*)$", re.sub(r"(?ms)^```.*?^```$", "", page))
    return [re.sub(r"[^a-z0-9 _-]", "", it.lower()).replace(" ", "-") for it in headings]


def first_program(page: str) -> bytes:
    """The program of docs/LIBRARY.md that sends a packet: its file `first.c`."""
    return code_of(section_of(page, "A program with packets"), "c")[0].encode()


def link_lines(page: str, prefix: Path, compiler: str) -> str:
    """The lines of docs/LIBRARY.md that build that program, with the static library below `prefix` and with this compiler."""
    lines = code_of(section_of(page, "Link"), "sh")[0].replace("jiponuwha-shared", "jiponuwha")
    return lines.replace("/usr/local", str(prefix)).replace("\ncc ", f"\n{compiler} ")


def in_new(tried: Room, name: str) -> List[str]:
    """The start of a command line that runs the rest in a new directory, with the program on the path."""
    folder = tried.top / "on the path"
    if not folder.exists():
        folder.mkdir()
        os.symlink(tried.program, folder / "adf_serve")
    os.mkdir(name)
    return ["env", "-C", name, f"PATH={folder}:{os.environ['PATH']}"]


def first_floppy(front: Sequence[str]) -> None:
    """Makes the floppy of QUICKSTART, with the directory that it puts in."""
    page = page_of(QUICKSTART)
    for command, _ in commands_of(section_of(page, "Make a floppy") + section_of(page, "Put files in")):
        done([*front, "bash", "-c", command])


def print_all() -> None:
    """A `before` of a run: standard error goes to standard output."""
    os.dup2(1, 2)


def walk(report: Report, name: str, page: str, front: Sequence[str]) -> None:
    """Runs each command of a page in a shell, after `front`, a command that selects the directory."""
    commands = commands_of(page)
    report.expect(f"{name} has commands", commands != [])
    for command, shown in commands:
        ran = run([*front, "bash", "-c", command], before=print_all)
        report.same(f"{name}: {command}", ran, Ran(0, shown.encode(), b""))


def page_of(name: str) -> str:
    return (TOP / name).read_text(encoding="utf-8")


def floppies_of_readme(front: Sequence[str]) -> None:
    """Makes the two floppies that the reader of README has: a sound one, and one whose root block is lost."""
    first_floppy(front)
    done([*front, "bash", "-c", "mv work.adf disk.adf && rm -r Docs && cp disk.adf bad.adf"])
    done([*front, "dd", "if=/dev/zero", "of=bad.adf", "bs=512", "seek=880", "count=1", "conv=notrunc", "status=none"])


def readme(report: Report, name: str, page: str, front: Sequence[str], *headings: str) -> None:
    """Sections of a README, in the directory that `front` selects."""
    floppies_of_readme(front)
    for heading in headings:
        walk(report, f"{name}, {heading}", section_of(page, heading), front)


def tour(tried: Room) -> None:
    readme(tried.report, "README.md", page_of("README.md"), in_new(tried, "README.md"), FLOPPY, HANDLER)


def commands_page(tried: Room) -> None:
    walk(tried.report, "COMMANDS.md", page_of("docs/COMMANDS.md"), in_new(tried, "COMMANDS.md"))


def quickstart(tried: Room) -> None:
    walk(tried.report, "QUICKSTART.md", page_of(QUICKSTART), in_new(tried, "QUICKSTART.md"))


def checkout(tried: Room) -> None:
    """The line of QUICKSTART for a checkout puts its program on the path."""
    (line,) = re.findall(r"`(export PATH=[^`]*)`", page_of(QUICKSTART))
    ran = run(["env", "-C", str(TOP), "bash", "-c", f"{line}; cd /; command -v adf_serve jip"])
    tried.report.same("QUICKSTART.md: the program of a checkout", ran.output.decode().split("\n")[:-1], [f"{TOP}/adf_serve", f"{TOP}/jip"])


if __name__ == "__main__":
    sys.exit(try_all(sys.argv[1:], Room, tour, commands_page, quickstart, checkout))
