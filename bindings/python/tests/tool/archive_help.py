"""What the tests of the archive commands share: images, archives of them, runs of the tool, and the rows of a catalogue."""
from __future__ import annotations

import contextlib
import os
import sqlite3
import subprocess
import sys
import unicodedata
from collections.abc import Mapping, Sequence
from pathlib import Path
from typing import Any, NamedTuple

import jiponuwha as jip

from .tool_help import ToolCase

PACKAGE = Path(jip.__file__).resolve().parent.parent
DAY = jip.Date(4383, 720, 0)
DAY_TEXT = "1990-01-01 12:00:00.00"
BLOCK = 512
# The longest run of the tool in a test, in seconds.
LONGEST = 120
# The tables of a catalogue, with the columns that the order of writing does not change.
TABLES = {"files": "image", "faults": "image", "salvaged": "image"}


class Ran(NamedTuple):
    status: int
    out: str
    err: str


def image(label: str | bytes = "Work", files: Mapping[Any, bytes] | None = None, blocks: int = 32, **more: Any) -> bytes:
    """Makes an image with these files. Directories on their paths are made too."""
    volume = jip.create(label, blocks=blocks, clock=lambda: DAY, **more)
    for path, data in (files or {}).items():
        raw = path if isinstance(path, bytes) else path.encode("iso-8859-1")
        for at in range(1, raw.count(b"/") + 1):
            volume.mkdir(b"/".join(raw.split(b"/")[:at]), exist_ok=True)
        volume[path] = data
    made = volume.image()
    volume.close(discard=True)
    return made


def changed(data: bytes, block: int, at: int, value: int, settle: bool = False) -> bytes:
    """Changes a long of a block, and its checksum (long 5) if `settle`."""
    made = bytearray(data)
    made[BLOCK * block + 4 * at : BLOCK * block + 4 * at + 4] = value.to_bytes(4, "big")
    if settle:
        made[BLOCK * block + 20 : BLOCK * block + 24] = bytes(4)
        longs = (int.from_bytes(made[it : it + 4], "big") for it in range(BLOCK * block, BLOCK * (block + 1), 4))
        made[BLOCK * block + 20 : BLOCK * block + 24] = (-sum(longs) % 2**32).to_bytes(4, "big")
    return bytes(made)


def root_of(data: bytes) -> int:
    """The number of the root of an image: half of its blocks."""
    return len(data) // BLOCK // 2


def refused(data: bytes) -> bytes:
    """An image whose root has a wrong checksum, and no other fault."""
    return changed(data, root_of(data), 5, 0x12345678)


def unvalidated(data: bytes) -> bytes:
    """An image that says that its bitmap is not valid."""
    return changed(data, root_of(data), 78, 0, settle=True)


def environment(**more: str) -> dict[str, str]:
    path = os.pathsep.join([*([more.pop("PYTHONPATH")] if "PYTHONPATH" in more else []), str(PACKAGE)])
    return {**os.environ, "PYTHONPATH": path, "PYTHONDONTWRITEBYTECODE": "1", "NO_COLOR": "1", **more}


def words_of(*words: str, python: str = sys.executable) -> list[str]:
    return [python, "-m", "jiponuwha.tool", *words]


def jip_process(*words: str, python: str = sys.executable, status: int | None = None, **more: Any) -> Ran:
    """Runs the tool in a process of its own. Another status than the one that is given fails."""
    env = environment(**more.pop("env", {}))
    done = subprocess.run(words_of(*words, python=python), capture_output=True, env=env, timeout=LONGEST, **more)
    ran = Ran(done.returncode, done.stdout.decode(errors="replace"), done.stderr.decode(errors="replace"))
    assert status in (None, ran.status), ran
    return ran


def rows(file: str | Path) -> dict[str, list[Any]]:
    """Returns all rows of a catalogue, with the paths of images in place of their numbers. It has to be whole."""
    with contextlib.closing(sqlite3.connect(file)) as connection:
        assert connection.execute("PRAGMA integrity_check").fetchall() == [("ok",)]
        assert connection.execute("PRAGMA foreign_key_check").fetchall() == []
        found = {"images": [it[1:] for it in connection.execute("SELECT * FROM images ORDER BY path")]}
        for table, column in TABLES.items():
            query = f"SELECT images.path, {table}.* FROM {table} JOIN images ON images.id = {column} ORDER BY images.path, place"
            found[table] = [(it[0], *it[2:]) for it in connection.execute(query)]
    return found


def is_plain(text: str) -> bool:
    """Whether no letter of the text is a control character."""
    return not any(unicodedata.category(it) == "Cc" for line in text.split("\n") for it in line)


def query(file: str | Path, text: str, *values: object) -> list[Any]:
    with contextlib.closing(sqlite3.connect(file)) as connection:
        return connection.execute(text, values).fetchall()


class Room(ToolCase):
    """A test with archives in a directory of its own."""

    def here(self, *words: str, status: int | None = None) -> Ran:
        """Runs the tool in this process. Another status than the one that is given fails."""
        ran = Ran(*self.jip(*words)[:3])
        self.assertIn(ran.status, (ran.status if status is None else status,), ran)
        return ran

    def write(self, path: str | bytes, data: bytes) -> None:
        raw = os.fsencode(path)
        os.makedirs(os.path.dirname(raw) or b".", exist_ok=True)
        with open(raw, "wb") as file:
            file.write(data)

    def archive(self, folder: str, count: int, sizes: Sequence[int] = (0, 10, 600, 3_000)) -> None:
        """Makes images that all differ, with one refused and one to be validated in each ten."""
        for number in range(count):
            files = {f"d/f{at}": bytes([number % 251]) * size for at, size in enumerate(sizes)}
            data = image(f"Disk{number}", files, format=jip.Format(number % 2))
            data = refused(data) if number % 10 == 3 else unvalidated(data) if number % 10 == 7 else data
            self.write(f"{folder}/{number // 20}/{number}.adf", data)
