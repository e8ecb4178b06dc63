#!/usr/bin/env python3
"""Makes the hard disk of the machine: S/startup-sequence, which runs each line of a session, and the files that it copies.

    startup.py SESSION SYSTEM

Before each line the startup sequence prints that line. The output of all goes to SYS:out.txt, unless a line has a `>` itself.
"""
import sys
from pathlib import Path
from typing import Iterator

# Files with bytes that are easy to make again: one that fits on a floppy four times, and one that fits on none.
SIZES = {"mid": 150001, "big": 2000000}
BEFORE = """FailAt 1000
SYS:C/commands assign C SYS:C
SYS:C/commands assign T SYS:T
Run >NIL: SYS:task
commands device JIP
"""
THIRD = 'SYS:C/commands copy SYS:mid Work:r3\nSYS:C/commands wait Work:r1\nSYS:C/commands wait Work:r2\nEcho >SYS:T/third "done"\n'


def content(size: int) -> bytes:
    return bytes((k * k + k // 251) % 256 for k in range(size))


def commands(line: str) -> Iterator[str]:
    """The lines of the script for a line of the session."""
    if line.startswith(("If ", "EndIf")):
        yield line
        return
    shown = line.replace('"', "'").replace("*", "**")
    yield f'commands >>SYS:out.txt mark "{shown}"'
    name, _, words = line.partition(" ")
    yield line if ">" in line else f"{name} >>SYS:out.txt {words}".rstrip()


def main(session: Path, system: Path) -> None:
    lines = [it for line in session.read_text().splitlines() if line for it in commands(line)]
    (system / "S/startup-sequence").write_text(BEFORE + "\n".join(lines) + "\nEcho >SYS:done done\n")
    (system / "S/third").write_text(THIRD)
    for name, size in SIZES.items():
        (system / name).write_bytes(content(size))


if __name__ == "__main__":
    main(Path(sys.argv[1]), Path(sys.argv[2]))
