#!/usr/bin/env python3
"""Tests the program without proof: it prints the stored output, passes the tests of the commands and the cases, and prints there what
the proved one does.

    tests/both.py [PROGRAM]     the proved program

The program without proof is that of the repository. If it is missing or not current, it is compiled, which takes two minutes.
"""
from __future__ import annotations

import sys
from pathlib import Path
from typing import Optional

sys.dont_write_bytecode = True

from harness import TOP, Ran, Room, run, try_all

CHECKED = TOP / "out/checked/adf_serve"
SOURCES = str(TOP / "tools/sources")


def is_current(program: Path, *parts: str) -> bool:
    """Whether a program is made from exactly these parts of the present sources."""
    return run([SOURCES, "current", str(program), *parts]).status == 0


def sources(word: str) -> str:
    """The checksum of the sources of the program (`sum`), or also of their times (`state`)."""
    return run([SOURCES, word, "src"]).output.decode().strip()


def record(summed: str) -> None:
    """Records that the program without proof is made from sources with this checksum or state, if they still have it."""
    run([SOURCES, "made", str(CHECKED), summed, "src"])


def compile_checked() -> None:
    """Compiles the program without proof."""
    state = sources("state")
    run([str(TOP / "tools/checked_build"), str(CHECKED)], longest=None)
    record(state)


def stored_run(room: Room, program: Path, kind: str) -> None:
    """A program prints the stored output of the stored script, and nothing else."""
    script, wanted = ((TOP / "crates/adf_serve" / it).read_bytes() for it in ("stdin", "stdout"))
    room.report.check(f"the program {kind} prints the stored output", run([str(program)], script), 0, wanted)


def prints_the_same(room: Room, test: str, proved: Optional[Path]) -> None:
    """The program without proof passes a test, and prints in it what the proved one does."""

    def tried(program: Path) -> Ran:
        return run([f"{TOP}/tests/{test}", str(program)], longest=None)

    checked = tried(CHECKED)
    last = checked.output.splitlines()[-1:]
    room.report.expect(f"it passes tests/{test}", checked.status == 0, last)
    if proved:
        room.report.expect("and prints there what the proved one does", tried(proved).output == checked.output, last)


def both(room: Room) -> None:
    if not is_current(CHECKED, "src"):
        compile_checked()
    if not is_current(CHECKED, "src"):
        room.report.lacks("the program without proof", "kit that provides its module")
        return
    proved = room.program if is_current(room.program, "src", "specs", "proofs") else None
    stored_run(room, CHECKED, "without proof")
    if proved:
        stored_run(room, proved, "with proof")
    else:
        room.report.lacks("what the proved one prints", f"proved program of these sources at {room.program}")
    for test in ("commands.py", "cases.py"):
        prints_the_same(room, test, proved)


if __name__ == "__main__":
    sys.exit(try_all(sys.argv[1:], Room, both))
