#!/usr/bin/env python3
"""Prints what each command takes at most over images that are drawn to exhaust time or memory.

    bench/worst.py [PROGRAM] [--blocks N..]

The images are those of tests/harmful.py, in three sizes: 1,760, 3,520 and 101,602 blocks. A row is a command. For each size it has
the most seconds of processor time and the most memory that the command took over any of the images, and the letter of that image.
Each run is measured by bench/measured.c, which needs a C compiler. All files are in a file system in memory, if there is one. A run
may take 120 seconds and 4 GB. A run that prints over 100 MB does not count.
bench/harmful_images.py has the letters.
"""
from __future__ import annotations

import argparse
import os
import shutil
import sys
import tempfile
from pathlib import Path
from typing import Callable, Dict, List, Sequence, Tuple

sys.dont_write_bytecode = True

from harmful_images import Drawn, drawings
from measuring import SECONDS, Run, compile_measured, measured
from harness import MOMENT, done, in_memory, program_of

SIZES = [1_760, 3_520, 101_602]
SCRIPT = b"""diskinfo
locate 0 -2 ""
examine $2
next 0 $3
next 0 $4
mkdir 0 "made"
rename 0 "made" 0 "moved"
delete 0 "moved"
free $2
"""


COMMANDS: Dict[str, Callable[[Drawn], Sequence[str]]] = {
    "check": lambda it: ["check", "image.adf"],
    "check --all": lambda it: ["check", "--all", "image.adf"],
    "check --all --json": lambda it: ["check", "--all", "--json", "image.adf"],
    "list": lambda it: ["list", "image.adf"],
    "list --letters": lambda it: ["list", "--letters", "image.adf"],
    "list --long": lambda it: ["list", "--long", "image.adf"],
    "list --json": lambda it: ["list", "--json", "image.adf"],
    "info": lambda it: ["info", "image.adf"],
    "boot --show": lambda it: ["boot", "--show", "image.adf"],
    "print": lambda it: ["print", "image.adf", it.file],
    "extract": lambda it: ["extract", "--to", "out", "image.adf"],
    "extract --damaged": lambda it: ["extract", "--damaged", "--to", "out", "image.adf"],
    "serve": lambda it: ["serve", *MOMENT, "--out", "made.adf", "image.adf", "script"],
    "add": lambda it: ["add", *MOMENT, "--to", it.directory, "--out", "made.adf", "image.adf", "host"],
    "mkdir --parents": lambda it: ["mkdir", "--parents", *MOMENT, "--out", "made.adf", "image.adf", f"{it.directory}/made/here"],
    "rename": lambda it: ["rename", *MOMENT, "--out", "made.adf", "image.adf", it.file, "moved"],
    "mkdir": lambda it: ["mkdir", *MOMENT, "--out", "made.adf", "image.adf", f"{it.directory}/made"],
    "delete": lambda it: ["delete", *MOMENT, "--out", "made.adf", "image.adf", it.file],
    "delete --all": lambda it: ["delete", "--all", *MOMENT, "--out", "made.adf", "image.adf", it.top],
    "protect": lambda it: ["protect", *MOMENT, "--out", "made.adf", "image.adf", it.file, "rwed"],
    "comment": lambda it: ["comment", *MOMENT, "--out", "made.adf", "image.adf", it.file, "text"],
    "relabel": lambda it: ["relabel", *MOMENT, "--out", "made.adf", "image.adf", "Other"],
    "boot": lambda it: ["boot", "--out", "made.adf", "image.adf"],
}


# A run, and the letter of its image.
Found = Tuple[Run, str]


def cell(found: Sequence[Found]) -> str:
    """The most seconds, and the most memory in MB, each with the letter of its image."""
    slow, slow_letter = max(found, key=lambda it: it[0].seconds)
    large, large_letter = max(found, key=lambda it: it[0].memory)
    seconds = f"over {SECONDS}" if slow.status < 0 else f"{slow.seconds:.2f}"
    return f"{seconds} {slow_letter}, {large.memory:.0f} {large_letter}"


def table(program: Path, sizes: Sequence[int]) -> None:
    rows: Dict[str, List[str]] = {name: [] for name in COMMANDS}
    for blocks in sizes:
        done([str(program), "blank", "--ffs", "--blocks", str(blocks), *MOMENT, "Work", "blank.adf"])
        found: Dict[str, List[Found]] = {name: [] for name in COMMANDS}
        for letter, draw in drawings(Path("blank.adf").read_bytes()).items():
            image = draw()
            Path("image.adf").write_bytes(image.data)
            for name, words in COMMANDS.items():
                run = measured([str(program), *words(image)])
                found[name] += [(run, letter)] if run else []
                print(blocks, letter, name, run, file=sys.stderr, flush=True)
        for name, row in rows.items():
            row.append(cell(found[name]))
    print(f"| Seconds and MB | {' | '.join(f'{it:,} blocks' for it in sizes)} |")
    for name, row in rows.items():
        print(f"| `{name}` | {' | '.join(row)} |")


def main(words: List[str]) -> int:
    parser = argparse.ArgumentParser(description="Measures the commands over the worst images that are drawn.")
    parser.add_argument("program", nargs="*", help="the program to measure")
    parser.add_argument("--blocks", type=int, nargs="+", default=SIZES, help="the sizes of the images")
    given = parser.parse_args(words)
    program = program_of(given.program)
    room = tempfile.mkdtemp(dir=in_memory())
    try:
        compile_measured(room)
        os.chdir(room)
        Path("script").write_bytes(SCRIPT)
        Path("host").write_bytes(b"one")
        table(program, given.blocks)
    finally:
        shutil.rmtree(room, ignore_errors=True)
    return 0


if __name__ == "__main__":
    sys.exit(main(sys.argv[1:]))
