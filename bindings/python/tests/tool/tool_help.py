"""Shared by the tests of the tool: each test has a directory of its own, and runs commands in this process."""
from __future__ import annotations

import contextlib
import io
import os
import shutil
import tempfile
import unittest
from pathlib import Path
from typing import NamedTuple, Optional

import jiponuwha as jip
from jiponuwha.tool.cli import run
from jiponuwha.tool.console import Console

DATE = jip.Date(4383, 61, 7)
# A name with letters that a terminal acts on, a markup of `rich`, HTML and a quote, of at most 30 bytes.
HOSTILE = "\x1b[31m\n\x9b2J<b>&\"'[red]\x7f\xe9%"
# How it is shown.
HOSTILE_SHOWN = "%1B[31m%0A%9B2J<b>&\"'[red]%7F\xe9%"

# Of each path the bytes, the bits, the date and the comment.
Tree = dict[str, tuple[Optional[bytes], int, jip.Date, str]]


class Ran(NamedTuple):
    """How a command ended: its status, its output as text and as bytes, and its messages."""

    status: int
    output: str
    errors: str
    raw: bytes

    @property
    def lines(self) -> list[str]:
        return self.output.splitlines()


class ToolCase(unittest.TestCase):
    """A test in a directory of its own, which is the current one."""

    def setUp(self) -> None:
        self.outside = os.getcwd()
        self.top = Path(tempfile.mkdtemp(prefix="jip-test-")).resolve()
        os.chdir(self.top)
        self.addCleanup(self.leave)

    def leave(self) -> None:
        os.chdir(self.outside)
        shutil.rmtree(self.top, ignore_errors=True)

    def jip(self, *words: str) -> Ran:
        """Runs a command line of the tool."""
        raw, errors = io.BytesIO(), io.StringIO()
        out = io.TextIOWrapper(raw, encoding="utf-8", errors="backslashreplace", write_through=True)
        with contextlib.redirect_stdout(out), contextlib.redirect_stderr(errors):
            try:
                status = run(list(words), Console())
            except SystemExit as ended:
                status = int(ended.code or 0)
        out.flush()
        data = raw.getvalue()
        return Ran(status, data.decode("utf-8", "replace"), errors.getvalue(), data)

    def done(self, *words: str) -> Ran:
        """Runs a command line that has to succeed without a message."""
        ran = self.jip(*words)
        self.assertEqual((ran.status, ran.errors), (0, ""), words)
        return ran

    def refused(self, status: int, part: str, *words: str) -> Ran:
        """Runs a command line that has to end with a status, and with a message that has a part."""
        ran = self.jip(*words)
        self.assertEqual(ran.status, status, (words, ran))
        self.assertIn(part, ran.errors)
        return ran

    def floppy(self, name: str = "work.adf", /, **files: bytes) -> str:
        """Makes a floppy `Work` with the directories Docs and S, and with files; `__` in a name is a `/`."""
        with jip.create("Work", name, clock=lambda: DATE) as volume:
            volume.mkdir("S")
            volume.mkdir("Docs")
            volume["S/startup-sequence"] = b"echo hello\n"
            for path, data in files.items():
                volume[path.replace("__", "/")] = data
            volume.save()
        return name

    def tree(self, image: str) -> Tree:
        """Returns everything in an image: the bytes, bits, date and comment of each path."""
        with jip.open(image, read_only=True) as volume:
            return {
                path: (volume.read(path) if it.is_file else None, it.bits, it.date, it.comment) for path, it in volume.walk()
            }


# The code of the standard boot block, which opens the library of DOS.
BOOT = bytes.fromhex("00000370 43fa0018 4eaeffa0 4a80 6604 5380 4e75 2240 20690016 7000 4e75") + b"dos.library\0"


def with_boot(data: bytes, code: bytes = BOOT) -> bytes:
    """Installs a boot block. Its checksum is the complement of the end-around-carry sum of the two blocks."""
    boot = bytearray((data[:4] + bytes(4) + code).ljust(1024, b"\0"))
    total = sum(int.from_bytes(boot[it : it + 4], "big") for it in range(0, len(boot), 4))
    while total >= 2**32:
        total = total % 2**32 + total // 2**32
    boot[4:8] = (2**32 - 1 - total).to_bytes(4, "big")
    return bytes(boot) + data[1024 :]
