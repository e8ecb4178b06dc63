#!/usr/bin/env python3
"""Boots floppies in an emulated machine: fs-uae with the AROS ROM that is part of it, on a screen in memory (Xvfb).

    tests/boots.py [PROGRAM]

Each floppy has a script `S/startup-sequence` that writes a file. With the boot block of `boot --install` the machine starts from
the floppy and runs the script, so the file is there afterwards. Without it nothing happens. On a machine without these tools the
floppies are made, and what is skipped is said.

Another machine formats floppies and copies files to them, by the commands of examples/amiga and the handler of its ROM. Then
`extract --damaged --out` has to make new images of them, as in tests/rescued.py: as they are, and damaged. The environment variable
ROUNDS is the number of damages of each.
"""
from __future__ import annotations

import os
import random
import shutil
import subprocess
import sys
import time
from functools import partial
from pathlib import Path
from typing import Callable, Dict, List, Optional

sys.dont_write_bytecode = True

from drawn_volume import Told, read
from harness import BLOCK, MOMENT, TOP, Room, run, try_all
from rescued import damage, fault_of_damaged, fault_of_sound

TOOLS = ("fs-uae", "Xvfb")
# The packages of Debian with the compiler for commands of the machine.
COMPILER = {"m68k-linux-gnu-gcc": "gcc-m68k-linux-gnu", "m68k-linux-gnu-ld": "binutils-m68k-linux-gnu"}
# How long a machine may take to start, and how much longer than the other one the floppy without a boot block has, in seconds.
LONGEST = 240
LONGER = 5
SCRIPT = b'Echo >SYS:started "from the floppy"\n'
STARTED = b"from the floppy\n"
QUIET = {"LIBGL_ALWAYS_SOFTWARE": "1", "SDL_AUDIODRIVER": "dummy", "ALSOFT_DRIVERS": "null"}
# An A1200 with a drive for floppies of high density, which reads those of double density too.
MACHINE = [
    *("--amiga-model=A1200", "--kickstart-file=internal", "--fast-memory=8192"),
    *("--uae-floppy0type=1", "--floppy-drive-speed=0", "--writable-floppy-images=1"),
    *("--fullscreen=0", "--window-width=320", "--window-height=240", "--automatic-input-grab=0", "--video-sync=off", "--warp-mode=1"),
]


def has_started(tried: Room, image: str) -> bool:
    """Whether the script of this floppy has written its file."""
    return tried.run("print", image, "started").output == STARTED


class Screen:
    """A screen in memory, while this is open."""

    def __enter__(self) -> Screen:
        reader, writer = os.pipe()
        words = ["Xvfb", "-displayfd", str(writer), "-screen", "0", "640x480x24", "-nolisten", "tcp"]
        self.server = subprocess.Popen(words, pass_fds=[writer], stdout=subprocess.DEVNULL, stderr=subprocess.DEVNULL)
        os.close(writer)
        with open(reader, encoding="ascii") as told:
            self.name = f":{told.readline().strip()}"
        return self

    def __exit__(self, *_: object) -> None:
        self.server.terminate()
        self.server.wait()


def seconds_to_start(tried: Room, screen: Screen, image: str, longest: float) -> Optional[float]:
    """How long a machine takes to start from this floppy; None if it has not done so after this time, or ends before."""
    return seconds_until(partial(has_started, tried, image), screen, image, [f"--floppy-drive-0={Path(image).absolute()}"], longest)


def seconds_until(ended: Callable[[], bool], screen: Screen, name: str, drives: List[str], longest: float) -> Optional[float]:
    """How long a machine with these drives takes until it has ended its work; None if it has not done so after this time, or ends before.
    What it says is in `NAME.log`."""
    home = Path(f"{name}.home").absolute()
    home.mkdir()
    variables: Dict[str, str] = {**os.environ, **QUIET, "DISPLAY": screen.name, "HOME": str(home)}
    words = ["fs-uae", f"--base-dir={home}/base", *drives, *MACHINE]
    began = time.monotonic()
    with open(f"{name}.log", "wb") as log:
        machine = subprocess.Popen(words, env=variables, stdin=subprocess.DEVNULL, stdout=log, stderr=log)
    try:
        while time.monotonic() - began < longest and machine.poll() is None:
            if ended():
                return time.monotonic() - began
            time.sleep(0.2)
        return None
    finally:
        machine.terminate()
        machine.wait()
        shutil.rmtree(home, ignore_errors=True)


def floppy(tried: Room, image: str, kind: List[str]) -> None:
    """Makes a floppy with the script, and installs the standard boot block."""
    tried.write("startup-sequence", SCRIPT)
    tried.done("blank", *kind, "Work", image)
    tried.done("mkdir", *MOMENT, image, "S")
    tried.done("add", *MOMENT, "--to", "S", image, "startup-sequence")
    tried.done("boot", "--install", image)


def boots(tried: Room) -> None:
    kinds: Dict[str, List[str]] = {"ffs.adf": ["--ffs"], "ofs.adf": [], "hd.adf": ["--ffs", "--hd"]}
    for image, kind in kinds.items():
        floppy(tried, image, kind)
        shown = tried.done("boot", "--show", image)
        tried.report.expect(f"{image} has the standard boot block", shown.startswith(b"boot block: standard\n"), shown[:60])
    lacking = [it for it in TOOLS if not shutil.which(it)]
    if lacking:
        tried.report.lacks("machines that start from the floppies", " and no ".join(lacking))
        return
    with Screen() as screen:
        slowest = 0.0
        for image in kinds:
            took = seconds_to_start(tried, screen, image, LONGEST)
            said = "" if took is not None else Path(f"{image}.log").read_bytes()[-300:]
            tried.report.expect(f"a machine starts from {image}", took is not None, f"not within {LONGEST} seconds: {said!r}")
            slowest = max(slowest, took or 0)
            checked = tried.run("check", image)
            tried.report.check(f"what it wrote on {image}", checked, 0, b"ok\n")
        tried.done("boot", "--clear", "--out", "none.adf", "ffs.adf")
        tried.done("delete", *MOMENT, "none.adf", "started")
        before = tried.content("none.adf")
        took = seconds_to_start(tried, screen, "none.adf", slowest + LONGER)
        tried.report.expect("no machine starts from a floppy without a boot block", took is None, f"it started after {took} seconds")
        tried.report.expect("that floppy stays as it is", tried.content("none.adf") == before, "none.adf has other bytes")


# ---- floppies that a machine formats and writes

# The kinds of the floppies in the drives of one machine, and how often each is damaged.
WRITTEN = [b"DOS\1", b"DOS\0"]
DAMAGES = int(os.environ.get("ROUNDS", "10"))
SIZES = [0, 1, 487, 488, 489, 511, 512, 513, 3_000, 36_864, 36_865, 72 * 488 + 1, 60_000]


def put_tree(top: Path, chance: random.Random) -> None:
    """A tree of files, which the machine copies to a floppy, with notes in the form of an emulator."""
    for number, size in enumerate(SIZES):
        place = top / chance.choice(["", "Docs", "Docs/old", "Docs/old/older", "S"])
        place.mkdir(parents=True, exist_ok=True)
        file = place / f"{chance.choice(['a', 'Letter', 'x' * 20])}{number}"
        file.write_bytes(chance.randbytes(size))
        if chance.random() < 0.5:
            letters = chance.choice(["----rwed", "-s--rw-d", "---arw--"])
            Path(f"{file}.uaem").write_text(f"{letters} 19{chance.randrange(80, 99)}-02-03 04:05:0{chance.randrange(10)}.00 {'c' * chance.choice([0, 5, 79])}\n")


def lines_for(drive: int, kind: bytes) -> List[str]:
    """The lines of the script for a drive: a new volume gets the tree, and some entries are made, renamed and deleted."""
    to = f"DF{drive}:"
    words = [
        f'format {to} "Disk {drive}" NUMBER {int.from_bytes(kind, "big")}',
        *(f"copy SYS:tree{drive} {to} ALL", f"copy SYS:C/commands {to}first", f"makedir {to}made", f"copy SYS:C/commands {to}made/second"),
        *(f"rename {to}made/second {to}third", f"delete {to}first", f'filenote {to}third "a note"', f"protect {to}third NUMBER 2"),
        # (the handler writes some time after the last change, so the machine waits half a minute of its time for what never comes)
        *(f"setdate {to}made NUMBER 5000", "wait SYS:never"),
    ]
    return [f"C:commands >>SYS:out.txt {it}" for it in words]


def floppies_by_aros(tried: Room, built: Path) -> List[bytes]:
    """Floppies that a machine formats and writes. Its hard disk is a directory of the host."""
    for it in ("C", "S", "T"):
        Path("system", it).mkdir(parents=True)
    shutil.copy(built / "commands", "system/C")
    drives = [f"--hard-drive-0={Path('system').absolute()}", "--hard-drive-0-label=System"]
    lines = ["FailAt 1000", "SYS:C/commands assign C SYS:C", "SYS:C/commands assign T SYS:T"]
    for drive, kind in enumerate(WRITTEN):
        put_tree(Path(f"system/tree{drive}"), random.Random(f"AROS {drive}"))
        tried.write(f"written-{drive}.adf", bytes(1_760 * BLOCK))
        drives.append(f"--floppy-drive-{drive}={Path(f'written-{drive}.adf').absolute()}")
        lines += lines_for(drive, kind)
    Path("system/S/startup-sequence").write_text("\n".join([*lines, "Echo >SYS:done done", ""]))
    with Screen() as screen:
        took = seconds_until(Path("system/done").is_file, screen, "writing", drives, LONGEST)
    said = Path("system/out.txt").read_bytes() if Path("system/out.txt").is_file() else b"nothing"
    tried.report.expect("a machine formats and writes floppies", took is not None, f"not within {LONGEST} seconds; it printed {said[-300:]!r}")
    return [tried.content(f"written-{drive}.adf") for drive in range(len(WRITTEN))] if took is not None else []


def has_files(tried: Room, drive: int, told: Told) -> bool:
    """Whether a floppy that a machine wrote has the files of its tree, and those that the script leaves."""
    tree = Path(f"system/tree{drive}")
    wanted = {str(it.relative_to(tree)).encode(): it.read_bytes() for it in tree.rglob("*") if it.is_file() and it.suffix != ".uaem"}
    found = {it.path: it.data for it in told.entries if it.data is not None}
    return found == {**wanted, b"third": tried.content("built/commands")}


def writes(tried: Room) -> None:
    tools = {**{it: it for it in TOOLS}, **COMPILER}
    lacking = [tools[it] for it in tools if not shutil.which(it)]
    if lacking:
        tried.report.lacks("floppies that a machine writes", " and no ".join(lacking))
        return
    ran = run([str(TOP / "examples/amiga/build.sh"), "-", "built"])
    tried.report.check("the commands of the machine are built", ran)
    for drive, data in enumerate(floppies_by_aros(tried, Path("built"))):
        name, told = f"floppy {drive} by AROS", read(data)
        tried.report.same(f"{name} is of its kind", told.kind, WRITTEN[drive])
        if not has_files(tried, drive, told):
            tried.report.skip(name, "the machine lost a write")
            continue
        tried.report.expect(f"{name} has comments", len({it.comment for it in told.entries}) > 2, [it.comment for it in told.entries])
        tried.report.ends(name, lambda: fault_of_sound(tried, data))
        for number in range(DAMAGES):
            bad = damage(data, random.Random(f"AROS {drive} {number}"))
            tried.report.ends(f"{name}, damage {number}", lambda: fault_of_damaged(tried, bad))


if __name__ == "__main__":
    sys.exit(try_all(sys.argv[1:], Room, boots, writes))
