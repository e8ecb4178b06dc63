#!/usr/bin/env python3
"""Runs the session of examples/amiga in an emulated machine: fs-uae with the AROS ROM that is part of it, on a screen in memory.

    tests/emulator.py [PROGRAM]

The handler serves the programs of the machine, for double-density floppies of the Fast File System and high-density ones of the Old
File System. The transcript has to be that of expected.txt. Then the program, unadf and the machine's own handler read the same
floppy. A machine without the tools passes, and what is skipped is said.
"""
from __future__ import annotations

import os
import re
import shutil
import sys
from functools import partial
from pathlib import Path
from typing import Dict, List, NamedTuple, Optional, Set, Tuple

sys.dont_write_bytecode = True
sys.path.insert(0, str(Path(__file__).resolve().parent.parent / "examples" / "amiga"))

from boots import Screen, seconds_to_start
from harness import TOP, Report, built_program, in_memory, run, try_side_by_side
from library import Library, put_in_place
from startup import SIZES, content

EXAMPLE = TOP / "examples" / "amiga"
# The tools, and the packages of Debian that have them.
TOOLS = {"fs-uae": "fs-uae", "Xvfb": "xvfb", "m68k-linux-gnu-gcc": "gcc-m68k-linux-gnu", "m68k-linux-gnu-ld": "binutils-m68k-linux-gnu"}
# The most seconds of a session, and of a machine that starts from a floppy.
LONGEST, LONGEST_START = 400, 240
# Bytes of memory for the images of both kinds and for the hard disks of the machines.
ROOM = 64 << 20
# The actions that a handler serves, as docs/COMMANDS.md lists them for scripts, and those that the library adds.
SERVED = """DIE LOCATE_OBJECT RENAME_DISK FREE_LOCK DELETE_OBJECT RENAME_OBJECT COPY_DIR SET_PROTECT CREATE_DIR EXAMINE_OBJECT EXAMINE_NEXT
DISK_INFO INFO SET_COMMENT PARENT SET_DATE SAME_LOCK READ WRITE FINDUPDATE FINDINPUT FINDOUTPUT END SEEK SET_FILE_SIZE CURRENT_VOLUME
MORE_CACHE FLUSH INHIBIT WRITE_PROTECT FH_FROM_LOCK IS_FILESYSTEM COPY_DIR_FH PARENT_FH EXAMINE_FH""".split()

# Other packets that the programs send. Each is refused with 209.
REFUSED = ["EXAMINE_ALL", "CHANGE_MODE", "MAKE_LINK", "SET_OWNER", "LOCK_RECORD", "ADD_NOTIFY", "unknown action"]


class InMemory(Library):
    """A room in memory if that is possible: the host syncs the image after each packet that changes it."""

    def __init__(self, program: Path, report: Optional[Report] = None) -> None:
        super().__init__(program, report, in_memory(ROOM))


class Kind(NamedTuple):
    """What expected.txt leaves open: the blocks of a floppy after the boot blocks, the bytes of a data block, and its type."""

    blocks: str
    bytes: str
    type: str


KINDS = {"ffs": Kind("1758", "512", "444F5301"), "ofs": Kind("3518", "488", "444F5300")}


def sum_of(data: bytes) -> int:
    """The sum that `commands sum` prints."""
    total = 0
    for it in data:
        total = (total * 31 + it) % (1 << 32)
    return total


def expected(kind: str, size: int) -> str:
    """The transcript for a kind of floppy; `size` is the length of the program for the machine."""
    mid = content(SIZES["mid"])
    wanted = {**KINDS[kind]._asdict(), "size": f"{size:7}", "mid": f"{len(mid)} bytes, sum {sum_of(mid):X}"}
    return re.sub(r"@([a-z]+)@", lambda found: wanted[found[1]], (EXAMPLE / "expected.txt").read_text())


def first_difference(found: str, wanted: str) -> str:
    """The first line that differs from what is expected, with the line of the session before it."""
    command = ""
    for one, other in zip([*found.splitlines(), "(the end)"], [*wanted.splitlines(), "(the end)"]):
        if one != other:
            return f"after {command!r}: {one!r} where {other!r} is expected"
        command = one if one.startswith("> ") else command
    return "nothing"


def packets(log: str) -> Set[Tuple[str, str]]:
    """The packets that were served and accepted, each with the line of the session before it."""
    line, found = "", set()
    for it in log.splitlines():
        words = it.split()
        if it.startswith("## "):
            line = it[3:]
        elif len(words) == 3 and words[2] == "0":
            found.add((words[0], line))
    return found


def listed_packets() -> Dict[str, str]:
    """The table of the example's README: a line of the session for each packet."""
    return dict(re.findall(r"(?m)^\| ([A-Z_]+) \| `(.*)` \|$", (EXAMPLE / "README.md").read_text()))


def look_at_log(tried: Library, kind: str, log: str) -> None:
    served = packets(log)
    missing = sorted(set(SERVED) - {name for name, _ in served})
    tried.report.expect(f"{kind}: each packet was sent and accepted", not missing, missing)
    named = {name: line.replace('"', "'") for name, line in listed_packets().items()}
    tried.report.same(f"{kind}: the table of the README has each packet", sorted(named), sorted(SERVED))
    wrong = [name for name, line in named.items() if (name, line) not in served]
    tried.report.expect(f"{kind}: each by the line that the table names", not wrong, wrong)
    unserved = re.findall(r"(?m)^.* not served$", log)
    tried.report.same(f"{kind}: only the packet at an odd address was not served", unserved, ["DISK_INFO 0 0 not served"])
    refused = {name: set(re.findall(rf"(?m)^{name} (-?[0-9]+ [0-9]+)$", log)) for name in REFUSED}
    tried.report.same(f"{kind}: each other packet was sent and refused with 209", refused, {name: {"0 209"} for name in REFUSED})


def look_at_images(tried: Library, kind: str, out: Path, built: Path) -> None:
    """The program and unadf read what the programs of the machine have written."""
    report, work = tried.report, str(out / "disks" / "work.adf")
    for name in ("work", "other", "tab"):
        report.check(f"{kind}: {name}.adf", tried.run("check", str(out / "disks" / f"{name}.adf")), 0, b"ok\n")
    report.same(f"{kind}: tab.adf has one file", tried.done("list", str(out / "disks/tab.adf")).count(b"\n"), 2)
    wanted = {"mid": content(SIZES["mid"]), "docs/program": (built / "commands").read_bytes(), "victim": b"in the root\n"}
    for path, data in wanted.items():
        report.expect(f"{kind}: {path} by the program", tried.run("print", work, path).output == data)
    if not shutil.which("unadf"):
        report.lacks(f"{kind}: the floppy by unadf", "unadf (Debian: unadf)")
        return
    (out / "unpacked").mkdir()
    # (unadf takes a path below /dev, as /dev/shm, for that of a device)
    ran = run(["unadf", "disks/work.adf", "-d", "unpacked"], before=partial(os.chdir, out))
    report.expect(f"{kind}: unadf reads the floppy", ran.status == 0, ran)
    for path, data in wanted.items():
        unpacked = out / "unpacked" / path
        report.expect(f"{kind}: {path} by unadf", unpacked.is_file() and unpacked.read_bytes() == data)


def look_from_floppy(tried: Library, kind: str, out: Path) -> None:
    """A machine starts from the floppy. The handler of its ROM reads the program and the files that the other one has written."""
    report, image, mid = tried.report, str(out / "disks" / "work.adf"), content(SIZES["mid"])
    tried.done("boot", "--install", image)
    with Screen() as screen:
        took = seconds_to_start(tried, screen, image, LONGEST_START)
    report.expect(f"{kind}: a machine starts from the floppy", took is not None, f"not within {LONGEST_START} seconds")
    sums = f"SYS:mid: {len(mid)} bytes, sum {sum_of(mid):X}\n".encode()
    report.same(f"{kind}: its own handler reads a file", tried.run("print", image, "sums").output, sums)
    names = re.findall(r"(?m)^(\S+) ", tried.run("print", image, "listing").output.decode("latin-1"))
    listed = sorted(it for it in names if it != ":")
    report.same(f"{kind}: its own handler lists a directory", listed, ["GREETING", "deep", "here", "program"])
    report.check(f"{kind}: what that machine wrote", tried.run("check", image), 0, b"ok\n")


def session(kind: str, built: Path, tried: Library) -> None:
    """Runs the session with floppies of a kind."""
    report, out = tried.report, tried.top / kind
    words = [str(EXAMPLE / "run.sh"), str(built), str(out), kind]
    ran = run(words, env={"ADF_SERVE": str(tried.program), "LONGEST": str(LONGEST), "TMPDIR": str(tried.top)}, longest=LONGEST + 60)
    report.expect(f"{kind}: the session comes to its end", ran.status == 0, ran)
    if ran.status != 0:
        return
    found = (out / "transcript.txt").read_bytes().decode("latin-1")
    wanted = expected(kind, (built / "commands").stat().st_size)
    report.expect(f"{kind}: the transcript", found == wanted, first_difference(found, wanted))
    look_at_log(tried, kind, (out / "packets.log").read_bytes().decode("latin-1"))
    look_at_images(tried, kind, out, built)
    look_from_floppy(tried, kind, out)


def main(words: List[str]) -> int:
    report, program = Report(), built_program(words)
    with InMemory(program, report) as tried:
        lacking = [package for tool, package in TOOLS.items() if not shutil.which(tool)]
        report.same("the table of the example has each packet", sorted(listed_packets()), sorted(SERVED))
        if lacking:
            report.lacks("the session in an emulated machine", f"{lacking[0]} (a package of Debian)")
        elif not program.is_file():
            report.lacks("the session in an emulated machine", f"program {program}")
        elif put_in_place(tried):
            built = tried.top / "built"
            report.succeeds("the programs of the example are built without a warning", [str(EXAMPLE / "build.sh"), "here", str(built)])
            if (built / "commands").is_file():
                tasks = [(kind, InMemory, partial(session, kind, built)) for kind in KINDS]
                try_side_by_side(report, program, tasks, len(tasks))
    return report.end()


if __name__ == "__main__":
    sys.exit(main(sys.argv[1:]))
