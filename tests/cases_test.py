#!/usr/bin/env python3
"""Tests that the runner of the cases reports differences. It changes one thing at a time in a copy of a passing case.

    tests/cases_test.py [PROGRAM]
"""
from __future__ import annotations

import shlex
import sys
from pathlib import Path
from typing import Dict, List, Optional, Tuple

sys.dont_write_bytecode = True

import cases
from harness import Room, try_all

Texts = Dict[str, str]

# A case with a drawn image, a script for each of two clients, rows of each kind, and every kind of field.
SERVED: Texts = {
    "about": "Two clients, a drawn image and its bytes.\n",
    "image": "--ffs Work\n# the packets of a client, and bytes of a block that nothing names\nscript\n  mkdir 0 \"d\"\nlong 9 1 0x12345678\nbyte 9 8 255\n"
    "text 9 9 \"a b\"\nfill 10 0x78\nzero 11\ncopy 10 12\nlong 20-21 3-5 7\n",
    "script": 'output 0 "f"\nwrite $1 x*600\nend $1\nlocate 0 -2 "d"\n*1..3 copy $4 ; free ${r+1}\n',
    "script2": "other 999\n",
    "wanted": "1.1 -1 0\n1.2 600 0\n1.3 ? 0|232\n1.4 + 0\n*1..3 1.{r+1} + 0 ; 1.{r+2} -1 0\n2.1 0 209\n",
    "after": "long 9 1 0x12345678\nbyte 9 8 255\ntext 9 9 \"a b\"\nsame 0-1\nsame 10\nsame 12\nlong 880 127 1\nlong 20-21 3-5 7\nlong 20-21 6-127 0\n",
}

# A case with commands over a second blank image; the last one is refused.
COMMANDS: Texts = {
    "about": "A directory is made, and not made again.\n",
    "image": "--blocks 32 Other\nblank --blocks 16 Work\nsave base.adf\nlong 8 5 1\nsave broken.adf\nsum 8 5\n",
    "script": 'rename-disk "\\xE4 b"\n',
    "args": "serve --out after.adf image.adf script\nlist after.adf\nmkdir after.adf 'a b'\ncheck base.adf image.adf broken.adf\n",
    "wanted": "1.1 -1 0\nVolume \\xE4 b\nbase.adf\tok\nimage.adf\tok\nbroken.adf\trefused BadSum 8\nstatus 3\n",
    "after": "file base.adf\nsame all\nlike image.adf\nfile after.adf\nsame all but 2 8 9\ntext 2 433 'a b'\n",
}

# A script for standard input, with a read of many bytes and a fault.
READ: Texts = {
    "about": "A file that is made longer reads as zeros.\n",
    "script": 'output 0 "f"\nsize $1 300 -1\nread $1 300\nwhat\n',
    "wanted": "1.1 -1 0\n1.2 -1 0\n1.3 300 0 00*300\n1 fault line 4\nstatus 3\n",
}

# A refusal reported on standard error.
TOLD: Texts = {
    "about": "A name that is none is told.\n",
    "args": "blank a/b none.adf\n",
    "wanted": "status 3\n",
    "faults": "'a/b'\n30 bytes\n",
}

ROWS: Texts = {
    "about": "Scripts of a line.\n",
    "rows": "# a remark\n0||\n0|other 5|1.1 0 209~\n3|other 5~foo~|1.1 0 209~1 fault line 2~\n3|rename-disk x*256|1 fault line 1~\n",
}

# The changes: the case, its file, and the old and new text, or nothing to remove the file.
Change = Tuple[Texts, str, str, Optional[str]]

CHANGES: List[Change] = [
    (SERVED, "wanted", "2.1 0 209", "2.1 0 205"),
    (SERVED, "wanted", "1.2 600 0", "1.2 601 0"),
    (SERVED, "wanted", "1.1 -1 0", "1.1 + 0"),
    (SERVED, "wanted", "0|232", "212|232"),
    (SERVED, "wanted", "1.4 + 0", "1.4 1 0 0"),
    (SERVED, "wanted", "2.1 0 209\n", ""),
    (SERVED, "wanted", "2.1 0 209\n", "2.1 0 209"),
    (SERVED, "wanted", "2.1 0 209\n", "2.1 0 209\n2.2 0 209\n"),
    (SERVED, "wanted", "1.2 600 0\n", ""),
    (SERVED, "wanted", "*1..3", "*1..2"),
    (SERVED, "wanted", "*1..3", "*1..4"),
    (SERVED, "wanted", "2.1 0 209\n", "2.1 0 209\nstatus 3\n"),
    (SERVED, "script", "x*600", "x*599"),
    (SERVED, "script", "*1..3", "*1..2"),
    (SERVED, "script", 'locate 0 -2 "d"', 'locate 0 -2 "e"'),
    (SERVED, "script2", "other 999", "what"),
    (SERVED, "image", "0x12345678", "0x12345679"),
    (SERVED, "image", "byte 9 8 255", "byte 9 8 254"),
    (SERVED, "image", '"a b"', '"a c"'),
    (SERVED, "image", "script\n", ""),
    (SERVED, "image", "fill 10 0x78", "fill 10 0x100"),
    (SERVED, "image", "zero 11", "zero 1760"),
    (SERVED, "image", "zero 11", "zero"),
    (SERVED, "image", "zero 11", "zeros 11"),
    (SERVED, "image", "zero 11", "cut 901121"),
    (SERVED, "image", "zero 11", "cut 901119"),
    (SERVED, "image", "zero 11", "grow 1024"),
    (SERVED, "image", "zero 11", "load none.adf"),
    (SERVED, "image", "--ffs", "--fss"),
    (SERVED, "image", "mkdir 0", "mkdir"),
    (SERVED, "image", 'mkdir 0 "d"', 'mkdir 0 "d/"'),
    (SERVED, "image", 'mkdir 0 "d"', "die\n  diskinfo"),
    (SERVED, "after", "long 9 1 0x12345678", "long 9 1 0x12345679"),
    (SERVED, "after", "long 880 127 1", "long 880 127 2"),
    (SERVED, "after", "long 880 127 1", "long 880 128 1"),
    (SERVED, "after", "long 880 127 1", "longs 880 127 1"),
    (SERVED, "after", "20-21 3-5 7", "20-21 3-6 7"),
    (SERVED, "after", "20-21 3-5 7", "20-22 3-5 7"),
    (SERVED, "after", "20-21 3-5 7", "20-21 3-5 8"),
    (SERVED, "after", "20-21 3-5 7", "20-21 5-3 7"),
    (SERVED, "image", "20-21 3-5 7", "20-21 3-4 7"),
    (SERVED, "image", "20-21 3-5 7", "20-19 3-5 7"),
    (SERVED, "after", "byte 9 8 255", "byte 9 8 254"),
    (SERVED, "after", "byte 9 8 255", "byte 9 512 255"),
    (SERVED, "after", '"a b"', '"a c"'),
    (SERVED, "after", "same 0-1", "same 0-880"),
    (SERVED, "after", "same 10", "same 880"),
    (SERVED, "after", "same 10", "same 10-9"),
    (SERVED, "after", "same 10", "same all"),
    (SERVED, "after", "same 10", "same all but 2 3 4 5 881"),
    (SERVED, "after", "same 10", "like image.adf"),
    (SERVED, "after", "same 10", "like none.adf"),
    (SERVED, "after", "same 10", "file none.adf"),
    (SERVED, "wanted", "", None),
    (SERVED, "about", "", None),
    (SERVED, "script", "", None),
    (SERVED, "about", "Two clients, a drawn image and its bytes.", ""),
    (COMMANDS, "wanted", "status 3\n", ""),
    (COMMANDS, "wanted", "status 3", "status 2"),
    (COMMANDS, "wanted", "BadSum 8", "BadSum 9"),
    (COMMANDS, "wanted", "\\xE4", "\\xE5"),
    (COMMANDS, "args", "mkdir after.adf 'a b'", "mkdir after.adf 'a/b'"),
    (COMMANDS, "args", "mkdir after.adf 'a b'", "mkdir after.adf 'a b"),
    (COMMANDS, "args", "mkdir after.adf 'a b'\n", ""),
    (COMMANDS, "args", COMMANDS["args"], ""),
    (COMMANDS, "image", "blank --blocks 16 Work\n", ""),
    (COMMANDS, "image", "blank --blocks 16", "blank --blocks 15"),
    (COMMANDS, "image", "long 8 5 1", "long 8 4 0"),
    (COMMANDS, "image", "sum 8 5", "sum 8 4"),
    (COMMANDS, "after", "like image.adf", "like broken.adf"),
    (COMMANDS, "after", "same all but 2 8 9", "same all but 2 8"),
    (COMMANDS, "after", "same all but", "same all without"),
    (COMMANDS, "after", "'a b'", "'a c'"),
    (READ, "wanted", "00*300", "00*299"),
    (READ, "wanted", "00*300", "01*300"),
    (READ, "wanted", "status 3\n", ""),
    (READ, "script", "what\n", ""),
    (TOLD, "faults", "30 bytes", "31 bytes"),
    (TOLD, "faults", "'a/b'", "'a/c'"),
    (TOLD, "wanted", "status 3", "status 1"),
    (ROWS, "rows", "0||\n", "3||\n"),
    (ROWS, "rows", "0||\n", "0|\n"),
    (ROWS, "rows", "0||\n", "0||~\n"),
    (ROWS, "rows", "209~1 fault", "210~1 fault"),
    (ROWS, "rows", "line 2", "line 3"),
    (ROWS, "rows", "3|other 5~foo~", "0|other 5~foo~"),
    (ROWS, "rows", "x*256", "x*255"),
    (ROWS, "rows", ROWS["rows"], "# a remark\n"),
    (ROWS, "rows", "", None),
]

# Files that make a case invalid.
ADDED: List[Tuple[Texts, str]] = [(SERVED, "afterwards"), (SERVED, "script4"), (ROWS, "wanted"), (READ, "rows")]


class Tried(Room):
    """The room for the changes to try."""

    def fault(self, texts: Texts, program: Optional[Path] = None) -> Optional[str]:
        """What is wrong with a case with these texts."""
        with Room(program or self.program) as folder:
            for name, text in texts.items():
                folder.write(name, text.encode())
            return cases.fault_of(folder.program, folder.top)

    def refuses(self, name: str, texts: Texts, part: str = "", program: Optional[Path] = None) -> None:
        """The case fails, and the message contains this part."""
        fault = self.fault(texts, program)
        passes = f"it passes where {part or 'a fault'!r} is expected"
        self.report.expect(name, fault is not None and part in fault, passes if fault is None else f"{fault!r} has no {part!r}")

    def wrapped(self, name: str, command: str) -> Path:
        """A program that does this with its arguments before it runs the real one."""
        path = self.top / name
        path.write_text(f'#!/bin/sh\n{command}\nexec {shlex.quote(str(self.program))} "$@"\n', encoding="utf-8")
        path.chmod(0o755)
        return path


def changed(texts: Texts, name: str, old: str, new: Optional[str]) -> Texts:
    others = {it: text for it, text in texts.items() if it != name}
    if new is None:
        return others
    if texts[name].count(old) != 1:
        raise ValueError(f"{old!r} does not stand once in {name}")
    return {**others, name: texts[name].replace(old, new)}


def changes(tried: Tried) -> None:
    named = [("served", SERVED), ("commands", COMMANDS), ("read", READ), ("told", TOLD), ("rows", ROWS)]
    for name, texts in named:
        tried.report.hold(f"{name}: as it stands", tried.fault(texts))
    names = {id(texts): name for name, texts in named}
    for texts, file, old, new in CHANGES:
        what = f"without {file}" if new is None else f"{file}: {old.strip()[:40]!r} is {new.strip()[:40]!r}"
        tried.refuses(f"{names[id(texts)]}, {what}", changed(texts, file, old, new))
    for texts, file in ADDED:
        tried.refuses(f"{names[id(texts)]}, with {file}", {**texts, file: "x\n"})
    line = changed(SERVED, "wanted", "1.2 600 0", "1.2 601 0")
    tried.refuses("the first line that differs is told", line, "line 2: wanted '1.2 601 0', found '1.2 600 0'")
    tried.refuses("a case that is not there", {}, "there is no about")
    refusing = tried.wrapped("refusing", '[ "$1" != check ] || { echo "refused BadSum 2"; exit 3; }')
    tried.refuses("an image that is not accepted behind the run", SERVED, "refused BadSum 2", refusing)
    failing = tried.wrapped("failing", '[ "$1" != mkdir ] || exit 2')
    tried.refuses("a command before the last that fails", COMMANDS, "wanted status 0, found 2", failing)


if __name__ == "__main__":
    sys.exit(try_all(sys.argv[1:], Tried, changes))
