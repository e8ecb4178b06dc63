"""`jip dat`: a Logiqx file for managers of ROM collections, and the comparison with one."""
from __future__ import annotations

import argparse
import datetime
import os
from collections import Counter

from ..archive.catalogue import NAME
from ..archive.collection import Collection, Image, catalogued, collected
from ..archive.dat import Rom, lines, names_of, roms
from ..archive.examine import examine
from ..archive.workers import add_worker_options, workers_of
from ..console import Console
from ..declare import Subparsers, command
from ..errors import DONE, HOST, ToolError
from ..escape import shown
from ..replace import replace

# The status if the images are not those of the file, as diff has it.
DIFFERENT = 1
_STYLES = {"have": "green", "misnamed": "yellow", "unknown": "yellow", "missing": "red"}


def register(subparsers: Subparsers) -> None:
    what = "write the images of a catalogue or directory to a Logiqx file, or compare them with one"
    made = command(subparsers, "dat", dat, what, "jip dat disks.dat disks.sqlite", "jip dat --compare disks.dat Disks")
    made.add_argument("file", metavar="FILE.dat")
    made.add_argument("path", nargs="?", metavar="CATALOGUE|DIR", help=f"by default {NAME} here")
    made.add_argument("--compare", action="store_true", help="read the file, and say what is there of what it names")
    made.add_argument("--name", help="the name in the header of the new file; the default is that of the file")
    made.add_argument("--over", action="store_true", help="write over a file that is there")
    made.add_argument("--json", action="store_true", help="print an object a line for each image that is compared")
    add_worker_options(made, dask=False)


def _write(arguments: argparse.Namespace, collection: Collection) -> int:
    name = arguments.name or os.path.splitext(os.path.basename(arguments.file))[0]
    today = datetime.datetime.now(datetime.timezone.utc).date().isoformat()
    replace(arguments.file, "".join(lines(collection, name, today)).encode())
    return HOST if collection.unread else DONE


class _Comparing:
    """A run that compares images with what a file names."""

    def __init__(self, arguments: argparse.Namespace, console: Console) -> None:
        self._arguments = arguments
        self._console = console
        self._counts: Counter[str] = Counter()
        # The images of the file by each of their sums, and those that were not found yet.
        self._by_sum: dict[tuple[str, str | None, int | None], list[Rom]] = {}
        self._missing: dict[Rom, None] = {}

    def _keys(self, size: int | None, crc: str | None, md5: str | None, sha1: str | None) -> list[tuple[str, str | None, int | None]]:
        return [(kind, it, size) for kind, it in (("sha1", sha1), ("md5", md5), ("crc", crc)) if it is not None]

    def _read(self) -> None:
        for rom in roms(self._arguments.file):
            self._missing[rom] = None
            for key in self._keys(rom.size, rom.crc, rom.md5, rom.sha1):
                self._by_sum.setdefault(key, []).append(rom)

    def _say(self, word: str, name: str, rom: Rom | None = None) -> None:
        self._counts[word] += 1
        if self._arguments.json:
            self._console.json({"what": word, "image": name, "rom": None if rom is None else rom._asdict()})
        elif word != "have":
            other = f": the file names it {rom.text}" if word == "misnamed" and rom is not None else ""
            self._console.parts((word, _STYLES[word]), (f" {name}{other}", None))

    def _take(self, name: str, image: Image) -> None:
        """Says what an image is for the file. It is told by the strongest sum that both have."""
        for key in self._keys(image.bytes, image.crc32, image.md5, image.sha1):
            found = self._by_sum.get(key)
            if found:
                wanted = os.path.basename(names_of(image)[1])
                # (of several with these bytes, the one of this name, and then one that is not found yet)
                rom = max(found, key=lambda it: (os.path.basename(it.name) == wanted, it in self._missing))
                self._missing.pop(rom, None)
                self._say("have" if os.path.basename(rom.name) == wanted else "misnamed", name, rom)
                return
        self._say("unknown", name)

    def run(self, collection: Collection) -> int:
        self._read()
        for image in collection.images():
            self._take(collection.name_of(image.path), image)
        for rom in self._missing:
            self._say("missing", rom.text, rom)
        self._console.out.flush()
        said = ", ".join(f"{self._counts[it]:,} {it}" for it in _STYLES if self._counts[it])
        self._console.err.write(f"{shown(self._arguments.file)}: {said or 'no image'}\n")
        if collection.unread:
            return HOST
        return DIFFERENT if any(self._counts[it] for it in ("misnamed", "unknown", "missing")) else DONE


def dat(arguments: argparse.Namespace, console: Console) -> int:
    if not arguments.compare and os.path.lexists(arguments.file) and not arguments.over:
        raise ToolError(f"{arguments.file}: the file is there already; --over writes over it")
    if arguments.path is None:
        place = catalogued(NAME)
    else:
        place = collected(arguments.path, examine, workers_of(arguments), console)
    with place as collection:
        return _Comparing(arguments, console).run(collection) if arguments.compare else _write(arguments, collection)
