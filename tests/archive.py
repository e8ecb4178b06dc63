#!/usr/bin/env python3
"""Tests the built program on whole archives: checks of many images, lists of names, all faults of an image, JSON, endless input, and the
salvage of damaged images, also where a block holds a filler.

    tests/archive.py [PROGRAM]

The environment variable ROUNDS is the number of changed images that are compared with the model of the faults. DAMAGED is the
number of damaged images of each format that are salvaged; half as many are served, since tests/c/changed.c opens 10,000. FILLED is the number of drawn volumes
whose data blocks hold fillers, and of those with deleted entries.
"""
from __future__ import annotations

import json
import multiprocessing
import os
import random
import re
import shutil
import subprocess
import sys
import threading
from functools import partial
from typing import Callable, Dict, Iterable, Iterator, List, NamedTuple, Optional, Sequence, Set, Tuple, TypeVar

sys.dont_write_bytecode = True

from all_faults_model import lines_of
from disk_model import account_of, doubts_told, rest_of, rest_text, rest_told
from drawn_volume import Drawer, drawn, read
from harmful import places_in, share_entries, share_extensions
from harness import BLOCK, DIRECTORY, FILE, HEADER, SLOTS, Image, Ran, Room, slot_of, try_all

ROUNDS = int(os.environ.get("ROUNDS", "1000"))
DAMAGED = int(os.environ.get("DAMAGED", "400"))
FILLED = int(os.environ.get("FILLED", "60"))
ROOT = 880
LARGEST = 101_602 * BLOCK
# The most bytes of a list of names.
LONGEST_LIST = 33_554_432
ALL_ONES = 2**32 - 1
# The arguments of `blank` for each kind.
KINDS: List[List[str]] = [["--ffs"], []]
NOT_BLOCKS = b"refused NotWholeBlocks 0\n"
NO_FILE = "adf_serve: cannot read 'none.adf': no such file"
FIELDS = ["path", "ok", "validated", "kind", "blocks", "name", "files", "directories", "free", "faults"]
# The kinds of faults that no long of their block shows.
WITHOUT_LONG = {"BlockUsedTwice", "WrongChain", "DuplicateName", "MarkedFree"}
# The bytes of files by their paths.
Files = Dict[str, bytes]
T = TypeVar("T")


class Volume(Image):
    """An image whose headers are found by name."""

    def change(self, block: int, at: int, value: int) -> None:
        self.put(block, at, value)
        self.settle(block)

    def clear(self, block: int) -> None:
        self.data[BLOCK * block : BLOCK * (block + 1)] = bytes(BLOCK)

    def changed(self, longs: Sequence[Tuple[int, int, int]]) -> "Volume":
        """A copy in which longs are changed, each with its block, its place and its new value. Each changed block but the boot block
        gets its checksum."""
        image, page = Volume(self.data), self.long(ROOT, 79)
        for block, at, value in longs:
            image.put(block, at, value)
        for block in {it[0] for it in longs} - {0}:
            image.settle(block, 0 if block == page else 5)
        return image

    def name(self, block: int) -> str:
        return self.text(block, 432).decode("latin-1")

    def header(self, name: str) -> int:
        """The header of the only entry with this name."""
        headers = [it for it in range(2, self.blocks) if self.long(it, 0) == 2 and self.long(it, 1) == it]
        found = [it for it in headers if self.name(it) == name]
        assert len(found) == 1, (name, found)
        return found[0]

    def pointers(self, block: int) -> List[int]:
        return [self.long(block, 77 - it) for it in range(self.long(block, 2))]


def totals(accepted: int, refused: int = 0, unreadable: int = 0) -> str:
    """The line on standard error after several images."""
    count = accepted + refused + unreadable
    return f"{count:,} image{'' if count == 1 else 's'}: {accepted:,} ok, {refused:,} refused, {unreadable:,} unreadable"


def reasons(*told: str) -> str:
    """The line after it: how many images are refused for which kind of fault."""
    return f"refused: {', '.join(told)}"


def saves(path: str, words: Optional[str] = None) -> str:
    """The next command for a damaged image."""
    return f"'{path}' is damaged; `adf_serve extract --damaged {words or path}` saves its files"


def lines_with(names: Sequence[str], told: str) -> bytes:
    return "".join(f"{it}\t{told}\n" for it in names).encode()


def put_files(room: Room, top: str, files: Files) -> None:
    """Makes files of the host in a directory."""
    shutil.rmtree(top, ignore_errors=True)
    for path, data in files.items():
        os.makedirs(os.path.dirname(f"{top}/{path}"), exist_ok=True)
        room.write(f"{top}/{path}", data)


def filled(room: Room, path: str, *kind: str) -> Files:
    """An image with directories and files, from 0 bytes to more than one extension block holds."""
    files = {
        "S/startup-sequence": b"echo hello\n",
        "Docs/empty": b"",
        "Docs/long": random.randbytes(60_000),
        "Docs/Deep/text": random.randbytes(3_000),
        "top": random.randbytes(1_500),
    }
    put_files(room, "in", files)
    room.done("blank", *kind, "Work", path)
    room.done("add", path, *(f"in/{name}" for name in sorted(os.listdir("in"))))
    return files


# ---- many images


def named_images(room: Room) -> None:
    room.done("blank", "--ffs", "Work", "good.adf")
    room.write("bad.adf", room.content("good.adf")[:-1])
    invalid = Volume(room.content("good.adf"))
    invalid.change(ROOT, 78, 0)
    room.write("invalid.adf", bytes(invalid.data))

    def check(name: str, words: Sequence[str], status: int, output: Optional[bytes], *parts: str) -> None:
        room.report.check(name, room.run("check", *words), status, output, *parts)

    good, bad, valid = b"good.adf\tok\n", b"bad.adf\trefused NotWholeBlocks 0\n", b"invalid.adf\tok validated\n"
    check("one image", ["good.adf"], 0, b"ok\n")
    check("one image to be validated", ["invalid.adf"], 0, b"ok validated\n")
    check("two images", ["good.adf", "invalid.adf"], 0, good + valid, totals(2))
    check("in the order of the words", ["invalid.adf", "good.adf", "invalid.adf"], 0, valid + good + valid, totals(3))
    check("one that is refused", ["good.adf", "bad.adf", "good.adf"], 3, good + bad + good, totals(2, 1))
    check("objects of two images", ["--json", "good.adf", "good.adf"], 0, None, totals(2))
    check("one that is not there", ["good.adf", "none.adf", "bad.adf", "good.adf"], 2, good + bad + good, NO_FILE, totals(2, 1, 1))
    check("only one that is not there", ["none.adf"], 2, b"", NO_FILE)
    check("wrong jobs", ["--jobs", "0", "good.adf"], 1, b"", "--jobs", "from 1")
    check("jobs that are no digits", ["--jobs", "+1", "good.adf"], 1, b"", "--jobs")
    check("no file", ["--all"], 1, b"", "FILE")


def directories(room: Room) -> None:
    """The files of a directory that count as images, and their order."""
    for it in ("tree/b/deep", "tree/a.adf", "tree/empty", "elsewhere"):
        os.makedirs(it)
    images = ["Z.ADF", "c.hdf", "b/x.Adf", "b/deep/y.adf", "a.adf/inner.adf", ".adf"]
    for it in [*images, "../elsewhere/far.adf", "text.txt", "b/adf", "b/x.adfs", "b/noadf.ad"]:
        shutil.copy("good.adf", f"tree/{it}")
    os.symlink("../elsewhere", "tree/link")
    os.symlink("../elsewhere", "tree/link.adf")
    os.symlink("../../good.adf", "tree/b/linked.adf")
    os.mkfifo("tree/b/pipe.adf")
    lines = lines_with(sorted(f"tree/{it}" for it in [*images, "b/linked.adf"]), "ok")

    def check(name: str, words: Sequence[str], status: int, output: bytes, *texts: str) -> None:
        """All lines on standard error are these."""
        room.report.same(name, room.run("check", *words), Ran(status, output, "".join(f"{it}\n" for it in texts).encode()))

    check("a directory", ["tree"], 0, lines, totals(7))
    check("a directory and a file of another name", ["tree", "tree/text.txt"], 0, lines + b"tree/text.txt\tok\n", totals(8))
    none = "adf_serve: 'tree/empty': no image in this directory"
    check("a directory with no image", ["tree/empty"], 2, b"", none, totals(0))
    check("a directory with no image beside an image", ["tree/empty", "good.adf"], 0, b"good.adf\tok\n", none, totals(1))
    check("a directory with one image", ["elsewhere"], 0, b"elsewhere/far.adf\tok\n", totals(1))
    check("an argument that is a link to a directory", ["tree/link"], 0, b"tree/link/far.adf\tok\n", totals(1))
    check("the same with a slash", ["tree/link/"], 0, b"tree/link/far.adf\tok\n", totals(1))
    os.symlink("nowhere", "tree/dead.adf")
    check("a link that leads nowhere", ["tree"], 2, lines, "adf_serve: cannot read 'tree/dead.adf': no such file", totals(7, 0, 1))
    os.makedirs("packed/more")
    packed = {"a.dms": "DMS", "e.Zip": "ZIP", "more/B.ADZ": "gzip", "more/d.adf.gz": "gzip"}
    for it in [*packed, "more/c.adf"]:
        shutil.copy("good.adf", f"packed/{it}")
    os.mkdir("packed/d.dms")
    skipped = [f"adf_serve: 'packed/{it}' skipped: a {kind} file, which has to be unpacked first" for it, kind in packed.items()]
    check("compressed files", ["packed"], 0, b"packed/more/c.adf\tok\n", *skipped, totals(1))
    os.remove("packed/more/c.adf")
    check("only compressed files", ["packed"], 2, b"", *skipped, "adf_serve: 'packed': no image in this directory", totals(0))
    check("a compressed file that is an argument is checked", ["packed/a.dms"], 0, b"ok\n")


def strange_names(room: Room) -> None:
    """Each name of a directory that is not UTF-8 is one unreadable line, and the other files are checked."""
    os.mkdir("strange")
    for it in (b"a.adf", b"b\xff\xc3%.adf", b"c\xe9.txt", b"z\xc3\xa9.adf"):
        shutil.copy(b"good.adf", b"strange/" + it)
    unread = [f"adf_serve: cannot read 'strange/{it}': name is not UTF-8" for it in ("b%FF%C3%25.adf", "c%E9.txt")]
    ran = room.run("check", "strange")
    texts = "".join(f"{it}\n" for it in [*unread, totals(2, 0, 2)]).encode()
    room.report.same("names that are not UTF-8", ran, Ran(2, lines_with(["strange/a.adf", "strange/z\u00e9.adf"], "ok"), texts))


def listed(room: Room) -> None:
    """The images that a list names, after those of the arguments. Each list is a file, and then standard input."""
    good, valid, far = b"good.adf\tok\n", b"invalid.adf\tok validated\n", b"elsewhere/far.adf\tok\n"

    def check(name: str, data: bytes, words: Sequence[str], status: int, output: bytes, *texts: str) -> None:
        """All lines on standard error are these, in which LIST stands for the list."""
        room.write("names", data)
        for file, input in (("names", b""), ("-", data)):
            told = "".join(f"{it}\n" for it in texts).replace("LIST", file).encode()
            ran = room.run("check", "--from", file, *words, input=input)
            room.report.same(f"a list as {file}: {name}", ran, Ran(status, output, told))

    check("one name", b"good.adf\n", [], 0, good, totals(1))
    check("a last line without an end", b"good.adf\ninvalid.adf", [], 0, good + valid, totals(2))
    check("lines of MS-DOS", b"good.adf\r\n\r\ninvalid.adf\r\n", [], 0, good + valid, totals(2))
    check("carriage returns", b"good.adf\rinvalid.adf", [], 0, good + valid, totals(2))
    check("empty lines", b"\n\ngood.adf\n\n\n", [], 0, good, totals(1))
    check("behind arguments, and in its order", b"invalid.adf\ngood.adf\ninvalid.adf\n", ["good.adf"], 0, good + valid + good + valid, totals(4))
    check("a directory", b"good.adf\nelsewhere\ngood.adf\n", [], 0, good + far + good, totals(3))
    none = "adf_serve: 'tree/empty': no image in this directory"
    check("a directory without an image", b"tree/empty\ngood.adf", [], 0, good, none, totals(1))
    check("only a directory without an image", b"tree/empty\n", [], 2, b"", none, totals(0))
    check("a name that is not there", b"none.adf\ngood.adf\n", [], 2, good, NO_FILE, totals(1, 0, 1))
    foreign = "adf_serve: cannot read 'x%FF%25.adf': name is not UTF-8"
    check("a name that is not UTF-8", b"x\xff%.adf\ngood.adf\n", [], 2, good, foreign, totals(1, 0, 1))
    for name in (" 'a' \"b\" #c.adf ", "# d\\n.adf", "--null", "e\nf.adf", "g\r.adf", "-"):
        shutil.copy("good.adf", name)
    check("names with marks", b" 'a' \"b\" #c.adf \n# d\\n.adf\n--null\n", [], 0, b" 'a' \"b\" #c.adf \tok\n# d\\n.adf\tok\n--null\tok\n", totals(3))
    check("the name -", b"-\ngood.adf\n", [], 0, b"./-\tok\n" + good, totals(2))
    broken = b"e%0Af.adf\tok\ng%0D.adf\tok\n"
    check("zero bytes", b"e\nf.adf\0\0g\r.adf\0good.adf\0", ["--null"], 0, broken + good, totals(3))
    check("a last name without a zero byte", b"good.adf\0e\nf.adf\0g\r.adf", ["--null"], 0, good + broken, totals(3))
    check("lines with --null", b"good.adf\n", ["--null"], 2, b"", "adf_serve: cannot read 'good.adf%0A': no such file", totals(0, 0, 1))
    for data, words in ((b"", []), (b"\n\r\n\r", []), (b"", ["--null"]), (b"\0\0", ["--null"]), (b"", ["good.adf"])):
        check(f"no name in {data!r} with {words}", data, words, 2, b"", "adf_serve: 'LIST' names no file")
    zero = "adf_serve: 'LIST' has a zero byte, which no name has: --null takes a list whose names end with one"
    check("zero bytes without --null", b"good.adf\0good.adf\n", ["good.adf"], 2, b"", zero)
    check("the longest list", b"good.adf\n".rjust(LONGEST_LIST, b"\n"), [], 0, good, totals(1))
    long = "adf_serve: 'LIST' has more than 33,554,432 bytes, the most of a list of names"
    check("a list that is too long", b"good.adf\n".rjust(LONGEST_LIST + 1, b"\n"), ["good.adf"], 2, b"", long)
    room.report.check("a list that does not end", room.run("check", "--from", "/dev/zero", "--null"), 2, b"", "'/dev/zero' has more than 33,554,432 bytes")
    for file, why in (("none.txt", "no such file"), ("tree", "is a directory")):
        room.report.check(f"a list that is {why}", room.run("check", "--from", file, "good.adf"), 2, b"", f"adf_serve: cannot read '{file}': {why}\n")
    names = ["good.adf", "bad.adf", "tree", "invalid.adf", "none.adf", "packed"]
    room.write("names", "".join(f"{it}\n" for it in names).encode())
    every: List[List[str]] = [[], ["--all"], ["--json"], ["--filler"], ["--jobs", "1"], ["--jobs", "1000"], ["--blocks", "16"]]
    for words in every:
        wanted = room.run("check", *words, *names)
        room.report.same(f"a list with {words} as arguments", room.run("check", *words, "--from", "names"), wanted)
        room.report.same(f"half a list with {words} as arguments", room.run("check", *words, "--from", "-", *names[:2], input="\n".join(names[2:]).encode()), wanted)
    many_listed(room)


def many_listed(room: Room) -> None:
    """A hundred thousand names of 200 bytes."""
    room.done("blank", "--blocks", "16", "Small", "small.adf")
    path = "./" * 95 + "/small.adf"
    room.write("names", f"{path}\n".encode() * 100_000)
    room.report.same("a path of 200 bytes", len(path), 200)
    ran = room.run("check", "--from", "names")
    room.report.same("100,000 names", ran, Ran(0, f"{path}\tok\n".encode() * 100_000, f"{totals(100_000)}\n".encode()))


def put_many(room: Room) -> None:
    """A directory with accepted, damaged and cut images, and a large one."""
    os.makedirs("many/more")
    draws = random.Random(5)
    good = room.content("good.adf")
    for count in range(60):
        image = Image(good)
        if count % 3 == 1:
            image.put(ROOT, draws.randrange(128), draws.randrange(2**32))
        if count % 3 == 2:
            image.data = image.data[: draws.randrange(len(good))]
        room.write(f"many/{'more/' if count % 2 else ''}{count}.adf", bytes(image.data))
    room.done("blank", "--ffs", "--blocks", "50000", "Large", "many/large.hdf")


def parallel(room: Room) -> None:
    put_many(room)
    every: List[List[str]] = [[], ["--all"], ["--json"], ["--all", "--json"]]
    for words in every:
        one = room.run("check", "--jobs", "1", *words, "many", "good.adf")
        for jobs in ["2", "4", "61", "1000"]:
            room.report.same(f"check {' '.join(words)} with {jobs} jobs", room.run("check", "--jobs", jobs, *words, "many", "good.adf"), one)
        room.report.same(f"check {' '.join(words)} with as many jobs as processors", room.run("check", *words, "many", "good.adf"), one)
    lines = room.run("check", "--jobs", "1", "many").output
    # (with JSON each thread has one image at a time, and else up to 32 in a row)
    ran, told = room.on_terminal(2, "check", "--jobs", "2", "--json", "many")
    room.report.expect("how many of how many on a terminal", b"2 of 61 images" in told, f"told {told[:200]!r}")
    shown = re.findall(rb"\[(#*)(-*)\] (\d+) of 61 images(?:, [\d,]+/s, \d+ (?:s|min|h) left)?, (\d+) refused\r\x1b\[K", told)
    room.report.same("a bar for each step", [(len(full), len(full + rest), int(done)) for full, rest, done, _ in shown], [(done * 10 // 61, 10, done) for done in range(0, 61, 2)])
    room.report.same("how many were refused so far", [int(it) for *_, it in shown], [refused_before(lines, done) for done in range(0, 61, 2)])
    room.report.expect("rate and time left", b"/s, " in told, f"told {told[:200]!r}")
    room.report.same("what is printed beside a terminal", ran.output, room.run("check", "--jobs", "1", "--json", "many").output)


def refused_before(lines: bytes, images: int) -> int:
    """How many of the first images are refused, by the lines of all."""
    return sum(b"\trefused " in it for it in lines.splitlines()[:images])


# ---- files that are no images


def other_files(room: Room) -> None:
    """What a person is told of a file that is no image: its length, its first bytes, its only byte, and where a root is."""
    good = room.content("good.adf")

    def check(name: str, data: bytes, answer: str, *texts: str) -> None:
        room.write("other.adf", data)
        said = "".join(f"{it}\n" for it in texts).encode()
        room.report.same(f"other files: {name}", room.run("check", "other.adf"), Ran(3, f"refused {answer}\n".encode(), said))

    whole = "are no whole number of blocks: cut short, or not an ADF file"
    few, many = (f"are too {it}: a volume has 16 to 101,602 blocks of 512 bytes" for it in ("few", "many"))
    fits = "the root at block 880 fits 1,760 blocks; the file has"
    cut = "'other.adf' is cut short; `adf_serve extract --damaged --blocks 1760 other.adf` saves its files"
    check("an image without its last byte", good[:-1], "NotWholeBlocks 0", f"901,119 bytes {whole}", f"{fits} 1,759 and 511 bytes", cut)
    check("an image and 100 bytes", good + bytes(100), "NotWholeBlocks 0", f"901,220 bytes {whole}", f"{fits} 1,760 and 100 bytes: try --blocks 1760")
    check("an image up to its root", good[: 881 * BLOCK + 1], "NotWholeBlocks 0", f"451,073 bytes {whole}", f"{fits} 881 and 1 byte", cut)
    check("an image without a byte of its root", good[: 881 * BLOCK - 1], "NotWholeBlocks 0", f"451,071 bytes {whole}")
    check("zeros of no whole blocks", bytes(1_234), "NotWholeBlocks 0", f"1,234 bytes {whole}", "each of its bytes is 00: nothing was written or read")
    check("three blocks of FF", b"\xff" * 3 * BLOCK, "TooFewBlocks 0", f"1,536 bytes {few}", "each of its bytes is FF: nothing was written or read")
    check("zeros but for the last byte", bytes(1_233) + b"x", "NotWholeBlocks 0", f"1,234 bytes {whole}")
    check("1,234 bytes", good[:1_234], "NotWholeBlocks 0", f"1,234 bytes {whole}")
    check("no bytes", b"", "TooFewBlocks 0", f"0 bytes {few}")
    check("fifteen blocks", good[: 15 * BLOCK], "TooFewBlocks 0", f"7,680 bytes {few}")
    room.write("other.adf")
    os.truncate("other.adf", LARGEST + BLOCK)
    ran = room.run("check", "other.adf")
    room.report.same("other files: too many blocks", ran, Ran(3, b"refused TooManyBlocks 0\n", f"52,020,736 bytes {many}\n".encode()))
    converts = "`gw convert` of Greaseweazle makes an ADF file of it"
    kinds = [
        (b"\x1f\x8b", "a gzip file, which has to be unpacked first"),
        (b"PK\x03\x04", "a ZIP file, which has to be unpacked first"),
        (b"DMS!", "a DMS file, which has to be unpacked first"),
        (b"CAPS", "an IPF file, which has the tracks of a disk and not its blocks: emulators read it"),
        (b"UAE-1ADF", "an extended ADF file (UAE-1ADF), which has the tracks of a disk: emulators read it"),
        (b"SCP", f"an SCP file, which has the magnetic flux of a disk: {converts}"),
        (b"HXCPICFE", f"an HFE file, which has the bits of tracks: {converts}"),
        (b"RDSK", "a hard disk with partitions (RDB): `rdbtool` of amitools reads it"),
    ]
    for magic, said in kinds:
        name, looks = said.split(",")[0], f"it looks like {said}"
        check(f"{name} of 1,234 bytes", magic + good[len(magic) : 1_234], "NotWholeBlocks 0", f"1,234 bytes {whole}", looks)
        check(f"{name} of whole blocks", magic + good[len(magic) :], "NotADosDisk 0", looks)
        check(f"{name} without its first letter", b"?" + magic[1:] + good[len(magic) : 1_234], "NotWholeBlocks 0", f"1,234 bytes {whole}")
    table = f"it looks like {kinds[-1][1]}"
    far = bytes(15 * BLOCK) + b"RDSK" + bytes(4_096)
    check("a table of partitions in block 15", far[: len(far) // BLOCK * BLOCK], "NotADosDisk 0", table)
    check("one in block 16", bytes(BLOCK) + far[: len(far) // BLOCK * BLOCK], "NotADosDisk 0", "block 0: not an AmigaDOS disk: its boot block begins with 00 00 00 00 (a game's own format, perhaps)")
    room.write("other.adf", far)
    os.truncate("other.adf", LARGEST + BLOCK)
    ran = room.run("check", "other.adf")
    room.report.same("a hard disk that is longer than an image", ran, Ran(3, b"refused TooManyBlocks 0\n", f"52,020,736 bytes {many}\n{table}\n".encode()))
    game = bytes.fromhex("b433751b")
    begins = "block 0: not an AmigaDOS disk: its boot block begins with B4 33 75 1B (a game's own format, perhaps)"
    check("the boot block of a game", game + good[4:], "NotADosDisk 0", begins)
    for byte in (0, 0xFF):
        begins = f"block 0: not an AmigaDOS disk: its boot block begins with {' '.join([f'{byte:02X}'] * 4)} (a game's own format, perhaps)"
        every = f"each of its bytes is {byte:02X}: nothing was written or read"
        check(f"only {byte:02X}", bytes([byte]) * len(good), "NotADosDisk 0", begins, every)
    begins = "block 0: not an AmigaDOS disk: its boot block begins with 00 00 00 00 (a game's own format, perhaps)"
    check("only 00 but for the last byte", bytes(len(good) - 1) + b"x", "NotADosDisk 0", begins)
    roots: List[Tuple[str, bytes, int, List[str]]] = [
        ("two cylinders more", good + bytes(44 * BLOCK), 902, [f"{fits} 1,804: try --blocks 1760"]),
        ("fewer blocks", good[: 1_000 * BLOCK], 500, [f"{fits} 1,000", cut]),
        ("so few that the root is missing", good[: 800 * BLOCK], 400, [saves("other.adf")]),
    ]
    for name, data, root, told in roots:
        check(name, data, f"BadType {root}", f"block {root}, the root: its primary type is 0; it should be 2", *told)
    room.write("other.adf", game + good[4:])
    room.write("more.adf", good[:1_234])
    ran = room.run("check", "--all", "other.adf", "more.adf")
    texts = ["other.adf: block 0: not an AmigaDOS disk: its boot block begins with B4 33 75 1B", f"more.adf: 1,234 bytes {whole}", totals(0, 2)]
    lines = lines_with(["other.adf"], "refused NotADosDisk 0") + lines_with(["more.adf"], "refused NotWholeBlocks 0")
    room.report.check("other files: several, with their paths", ran, 3, lines, *texts)
    ran = room.run("check", "other.adf", "more.adf")
    begins = "other.adf: block 0: not an AmigaDOS disk: its boot block begins with B4 33 75 1B (a game's own format, perhaps)"
    counts = reasons("1 NotWholeBlocks (no whole number of blocks)", "1 NotADosDisk (not an AmigaDOS disk)")
    said = "".join(f"{it}\n" for it in (begins, f"more.adf: 1,234 bytes {whole}", totals(0, 2), counts))
    room.report.same("other files: several, each with its first fault", ran, Ran(3, lines, said.encode()))


# ---- the next command for a refused image

# Names of files, and how a shell is given them.
SHOWN_NAMES = {
    "plain-1.adf": "plain-1.adf",
    "two words.adf": "'two words.adf'",
    "it's $HOME.adf": "'it'\\''s $HOME.adf'",
    "-dash.adf": "./-dash.adf",
    "-a b.adf": "./'-a b.adf'",
    "été.adf": "été.adf",
    "esc\x1b.adf": "IMAGE",
}


def next_commands(room: Room) -> None:
    """Behind each refusal the next command, which works as it is printed, in a shell too."""
    files = filled(room, "first.adf", "--ffs")
    good = Volume(room.content("first.adf"))
    bad = bytes(good.changed([(good.header("Docs"), 127, 7)]).data)
    text = f"block {good.header('Docs')}, in Work:Docs: its secondary type is 7; it should be 2 (a directory) or -3 (a file)"
    refused = f"refused BadType {good.header('Docs')}"
    for name, word in SHOWN_NAMES.items():
        room.write(name, bad)
        shown = name.replace("\x1b", "%1B")
        room.report.same(f"the next command for {shown}", room.run("check", "--", name), Ran(3, f"{refused}\n".encode(), f"{text}\n{saves(shown, word)}\n".encode()))
        if word != "IMAGE":
            saved = f"adf_serve extract --damaged --to saved {word}".replace("adf_serve", str(room.program))
            ended = subprocess.run(["sh", "-c", saved], stdout=subprocess.PIPE, stderr=subprocess.PIPE)
            whole = room.content("saved/top") == files["top"]
            room.report.same(f"the command for {shown} saves its files", (ended.returncode, whole), (3, True))
            shutil.rmtree("saved", ignore_errors=True)
    names = sorted(SHOWN_NAMES)
    ran = room.run("check", "--", *names)
    bares = [it.replace("\x1b", "%1B") for it in names]
    told = [it for name, bare in zip(names, bares) for it in (f"{bare}: {text}", saves(bare, SHOWN_NAMES[name]))]
    counts = [totals(0, len(names)), reasons(f"{len(names)} BadType (wrong type of block)")]
    room.report.same("the next commands for several", ran, Ran(3, lines_with(bares, refused), "".join(f"{it}\n" for it in [*told, *counts]).encode()))
    room.write("first.adf", bad + bytes(BLOCK))
    ran = room.run("check", "--blocks", str(good.blocks), "first.adf")
    room.report.check("with the first blocks of a file", ran, 3, f"{refused}\n".encode(), saves("first.adf", f"--blocks {good.blocks} first.adf"))
    bitmaps(room, good)


def bitmaps(room: Room, good: Volume) -> None:
    """A wrong bitmap alone is mended by `validate`, and that is the next command; with another fault it is not."""
    page = good.long(ROOT, 79)
    free, unsummed = Volume(good.data), Volume(good.data)
    free.put_all(page, 1, [ALL_ONES] * 55)
    free.settle(page, 0)
    unsummed.put(page, 0, good.long(page, 0) ^ 1)
    typed = free.changed([(good.header("Docs"), 127, 7)])
    for name, image, mended in (("blocks that are marked free", free, True), ("a wrong checksum of the bitmap", unsummed, True), ("a wrong type beside a wrong bitmap", typed, False)):
        room.write("bitmap.adf", bytes(image.data))
        said = "'bitmap.adf' has a wrong bitmap and no other fault; `adf_serve validate bitmap.adf` mends it"
        for words in (["check"], ["list"], ["check", "--all"]):
            ran = room.run(*words, "bitmap.adf")
            room.report.expect(f"{' '.join(words)} of {name}", ran.status == 3 and ran.texts.decode().splitlines()[-1] == (said if mended else saves("bitmap.adf")), ran)
        if mended:
            room.done("validate", "bitmap.adf")
            room.report.check(f"{name} is mended", room.run("check", "bitmap.adf"), 0, b"ok\n")


# ---- data blocks that hold a filler

# A sector that Greaseweazle could not read, and one that a PC formatted.
GREASEWEAZLE = b"-=[BAD SECTOR]=-"
FORMATTED = b"\xf6"
LONGEST_TOLD = 255


class Suspect(NamedTuple):
    """A data block that holds a filler: its number, the header of its file, its position in the file, and the file's path."""

    block: int
    header: int
    place: int
    path: bytes

    def line(self) -> str:
        letters = "".join(f"%{ord(it):02X}" if ord(it) < 32 or 127 <= ord(it) < 160 else it for it in self.path.decode("latin-1"))
        told = letters if len(self.path) <= LONGEST_TOLD else f"the file at block {self.header}"
        return f"suspect block {self.block}, data {self.place} of {told}\n"

    def member(self) -> Dict[str, object]:
        path = self.path.decode("latin-1") if len(self.path) <= LONGEST_TOLD else None
        return {"block": self.block, "header": self.header, "data": self.place, "path": path, "owner": "data", "number": self.place}


def cover(image: Image, block: int, text: bytes, first: int = 0) -> None:
    """Puts a text over all bytes for a file in a block, again and again, from one of its bytes on."""
    start = 24 if image.data[3] == 0 else 0
    many = text * (BLOCK // len(text) + 2)
    image.data[BLOCK * block + start : BLOCK * (block + 1)] = many[first : first + BLOCK - start]
    if start:
        image.settle(block)


def filler_blocks(room: Room) -> None:
    """The data blocks that are told: the first, one in the middle and the last of a file, which is partly used; and others that are not."""
    for kind in KINDS:
        said = kind[0] if kind else "--ofs"
        filled(room, "filler.adf", *kind)
        clean = Volume(room.content("filler.adf"))
        size = BLOCK if kind else 488
        header = clean.header("long")
        blocks = [*clean.pointers(header), *clean.pointers(clean.long(header, 126))]
        room.report.expect(f"filler {said}: the last block is partly used", 60_000 % size > 0 and len(blocks) == 60_000 // size + 1)

        def check(name: str, image: Image, told: Sequence[Suspect], *words: str, first: str = "ok\n") -> None:
            room.write("filled.adf", bytes(image.data))
            lines = first + "".join(it.line() for it in sorted(told))
            room.report.check(f"filler {said}: {name}", room.run("check", "--filler", *words, "filled.adf"), 0, lines.encode())

        check("none on a clean disk", clean, [])
        for text, length in ((GREASEWEAZLE, 16), (FORMATTED, 1)):
            for place in (0, 1, 71, 72, len(blocks) - 1):
                for first in {0, length // 2, length - 1}:
                    image = Volume(bytes(clean.data))
                    cover(image, blocks[place], text, first)
                    check(f"{text!r} from byte {first} in data block {place}", image, [Suspect(blocks[place], header, place, b"Docs/long")])
        free = next(it for it in range(2, clean.blocks) if not any(clean.data[BLOCK * it : BLOCK * (it + 1)]))
        image = Volume(bytes(clean.data))
        cover(image, free, GREASEWEAZLE)
        for at, text in enumerate((b"\0", b"\xe5", b"-=[BAD SECTOR]=", GREASEWEAZLE.lower())):
            cover(image, blocks[at], text)
        cover(image, blocks[20], GREASEWEAZLE)
        image.data[BLOCK * blocks[20] + BLOCK - 1] ^= 1
        cover(image, blocks[21], GREASEWEAZLE)
        image.data[BLOCK * blocks[21] + 24] ^= 1
        for it in [] if kind else blocks[20:22]:
            image.settle(it)
        check("a free block, other texts, and blocks with another first or last byte", image, [])
        image = Volume(bytes(clean.data))
        for it in blocks:
            cover(image, it, FORMATTED)
        told = [Suspect(it, header, place, b"Docs/long") for place, it in enumerate(blocks)]
        check("each block of a file", image, told)
        room.report.check(f"filler {said}: without the option", room.run("check", "filled.adf"), 0, b"ok\n")
        paths = [f"{it}.adf" for it in ("filled", "filler", "filled")]
        found = "".join(f"filled.adf\t{it.line()}" for it in sorted(told))
        several = f"filled.adf\tok\n{found}filler.adf\tok\nfilled.adf\tok\n{found}".encode()
        room.report.check(f"filler {said}: several", room.run("check", "--filler", *paths), 0, several, totals(3))
        objects = [json.loads(it) for it in room.run("check", "--filler", "--json", *paths[:2]).output.splitlines()]
        room.report.same(f"filler {said}: objects", [it["suspects"] for it in objects], [[it.member() for it in sorted(told)], []])
        room.report.same(f"filler {said}: the fields of an object", list(objects[0]), [*FIELDS, "suspects"])
        listed_too(room, said, clean, blocks, header)
        image.change(ROOT, 78, 0)
        check("a bitmap that is made anew", image, told, first="ok validated\n")
        image.put(header, 5, 0)
        room.write("filled.adf", bytes(image.data))
        every: List[List[str]] = [[], ["--all"], ["--json"]]
        for words in every:
            without = room.run("check", *words, "filled.adf")
            room.report.same(f"filler {said}: a refused image {' '.join(words)}", room.run("check", "--filler", *words, "filled.adf"), without)


def listed_too(room: Room, said: str, clean: Image, blocks: Sequence[int], header: int) -> None:
    """A list names a block that holds a filler, and others: each has one line, with both options. The bitmap is blocks too."""
    image = Volume(bytes(clean.data))
    for place in (1, 2):
        cover(image, blocks[place], FORMATTED)
    room.write("listed.adf", bytes(image.data))
    free = next(it for it in range(2, clean.blocks) if not any(clean.data[BLOCK * it : BLOCK * (it + 1)]))
    room.write("listed.txt", "".join(f"{it}\n" for it in (blocks[3], blocks[2], header, blocks[2], free, 0, ROOT)).encode())
    data = [Suspect(blocks[place], header, place, b"Docs/long") for place in (1, 2, 3)]
    others = {0: "boot block", ROOT: "root", header: "header of Docs/long"}
    lines = {**{it.block: it.line() for it in data}, **{block: f"suspect block {block}, {words}\n" for block, words in others.items()}}
    both = "ok\n" + "".join(lines[it] for it in sorted(lines))
    room.report.check(f"filler {said}: and a list", room.run("check", "--filler", "--bad", "listed.txt", "listed.adf"), 0, both.encode())
    alone = "ok\n" + "".join(lines[it] for it in sorted(lines) if it != blocks[1])
    room.report.check(f"filler {said}: a list alone", room.run("check", "--bad", "listed.txt", "listed.adf"), 0, alone.encode())


def long_paths_of_fillers(room: Room) -> None:
    """A path of 255 bytes is told, and of a longer one the header."""
    directory = "/".join(["d" * 30] * 8)
    for name in ("seven77", "eight888"):
        room.write(name, GREASEWEAZLE * 32)
    room.done("blank", "--ffs", "Work", "deep.adf")
    room.done("mkdir", "--parents", "deep.adf", directory)
    room.done("add", "--to", directory, "deep.adf", "seven77", "eight888")
    image = Volume(room.content("deep.adf"))
    told = []
    for name in ("seven77", "eight888"):
        header = image.header(name)
        told.append(Suspect(image.pointers(header)[0], header, 0, f"{directory}/{name}".encode()))
    room.report.same("filler: the lengths of two paths", [len(it.path) for it in told], [LONGEST_TOLD, LONGEST_TOLD + 1])
    lines = "".join(it.line() for it in sorted(told))
    room.report.check("filler: long paths", room.run("check", "--filler", "deep.adf"), 0, f"ok\n{lines}".encode())
    objects = json.loads(room.run("check", "--filler", "--json", "deep.adf").output)["suspects"]
    room.report.same("filler: objects of long paths", objects, [it.member() for it in sorted(told)])


def largest_filled(room: Room) -> None:
    """Each block of the largest image holds a filler, in a file with a long path. The last block is partly used, and holds zeros too."""
    directory = "/".join(["d" * 30] * 7)
    room.write("f6", FORMATTED * 51_000_000)
    room.done("blank", "--ffs", "--blocks", "101602", "Large", "large.hdf")
    room.done("mkdir", "--parents", "large.hdf", directory)
    room.done("add", "--to", directory, "large.hdf", "f6")
    for words in (["--filler"], ["--filler", "--json"]):
        with open("lines", "wb") as lines:
            ran = subprocess.Popen([str(room.program), "check", *words, "large.hdf"], stdout=lines)
            _, status, used = os.wait4(ran.pid, 0)
        said = f"filler: the largest image as {'JSON' if words[1:] else 'lines'}"
        room.report.same(said, (status, room.content("lines").count(b"/f6")), (0, 51_000_000 // BLOCK))
        room.report.expect(f"{said}: memory", used.ru_maxrss < 300_000, f"{used.ru_maxrss} KB")
        room.report.expect(f"{said}: time", used.ru_utime + used.ru_stime < 10, f"{used.ru_utime + used.ru_stime} seconds")
    for it in ("f6", "large.hdf", "lines"):
        os.remove(it)


class Filling(Drawer):
    """Draws a volume, and notes the data blocks of its files."""

    def __init__(self, chance: random.Random, blocks: int, ofs: bool) -> None:
        super().__init__(chance, blocks, ofs)
        self.held: Dict[int, Tuple[int, int]] = {}

    def put_bytes(self, key: int, blocks: List[int], data: bytes) -> None:
        super().put_bytes(key, blocks, data)
        self.held.update({it: (key, place) for place, it in enumerate(blocks[: (len(data) + self.room - 1) // self.room])})

    def path(self, key: int) -> bytes:
        return b"/".join(self.names_of(key))

    def fill_some(self) -> List[Suspect]:
        """Covers some data blocks with a filler, and others with nearly one. Those that are to be told."""
        told = []
        for block, (key, place) in self.held.items():
            draw = self.chance.randrange(12)
            text = self.chance.choice([GREASEWEAZLE, FORMATTED])
            if draw > 2:
                continue
            cover(self, block, text, self.chance.randrange(len(text)))
            if draw == 2:
                self.data[BLOCK * block + self.chance.randrange(24, BLOCK)] ^= 1 << self.chance.randrange(8)
                if self.ofs:
                    self.settle(block)
                continue
            told.append(Suspect(block, key, place, self.path(key)))
        return sorted(told)


def drawn_fillers(room: Room) -> None:
    """Drawn volumes, of which some data blocks hold a filler."""
    faults, count = [], 0
    for seed in range(FILLED):
        disk = drawn(seed, Filling)
        told = disk.fill_some()
        count += len(told)
        room.write("drawn.adf", bytes(disk.data))
        ran = room.run("check", "--filler", "drawn.adf")
        lines = "".join(it.line() for it in told).encode()
        if ran.status or ran.texts or ran.output not in (b"ok\n" + lines, b"ok validated\n" + lines):
            faults.append(f"{seed}: {ran}")
        objects = json.loads(room.run("check", "--filler", "--json", "drawn.adf").output)["suspects"]
        if objects != [it.member() for it in told]:
            faults.append(f"{seed}: {objects}")
    room.report.hold(f"filler: {count} blocks of {FILLED} drawn volumes", faults[0] if faults else None)


# ---- JSON reports


def accepted_objects(room: Room) -> None:
    files = filled(room, "filled.adf", "--ffs")
    told = json.loads(room.run("check", "--json", "filled.adf").output)
    room.report.same("the fields of an object, in their order", list(told), FIELDS)
    counted = room.run("info", "filled.adf").output.split()
    wanted = {
        "path": "filled.adf",
        "ok": True,
        "validated": False,
        "kind": "DOS\\1",
        "blocks": 1760,
        "name": "Work",
        "files": len(files),
        "directories": 3,
        "free": int(counted[3]) - int(counted[4]),
        "faults": [],
    }
    room.report.same("the object of an image", told, wanted)
    room.done("blank", "--letters", "--hd", "Wörk\u00ff", "letters.adf")
    told = json.loads(room.run("check", "--json", "letters.adf").output)
    room.report.same("a name in letters", (told["name"], told["kind"], told["blocks"]), ("Wörk\u00ff", "DOS\\0", 3520))
    hard = "odd \"name\" \\ \t ü.adf"
    shutil.copy("good.adf", hard)
    room.report.same("a path with all that JSON escapes", json.loads(room.run("check", "--json", hard).output)["path"], hard)


def refused_objects(room: Room) -> None:
    image = Volume(room.content("filled.adf"))
    block = image.header("startup-sequence")
    image.put(block, 5, image.long(block, 5) + 16)
    room.write("sum.adf", bytes(image.data))
    told = json.loads(room.run("check", "--json", "sum.adf").output)
    text = f"block {block}, in Work:S/startup-sequence: its checksum is wrong (off by 00000010)"
    sums = (image.long(block, 5), (image.long(block, 5) - 16) % 2**32)
    fault = {"kind": "BadSum", "block": block, "path": "S/startup-sequence", "found": sums[0], "wanted": sums[1], "text": text}
    wanted: Dict[str, object] = {
        "path": "sum.adf",
        "ok": False,
        "validated": False,
        "kind": "DOS\\1",
        "blocks": 1760,
        "name": None,
        "files": None,
        "directories": None,
        "free": None,
        "faults": [fault],
    }
    room.report.same("the object of an image that is refused", told, wanted)
    room.report.check("what a person is told of it", room.run("check", "sum.adf"), 3, f"refused BadSum {block}\n".encode(), text)
    told = json.loads(room.run("check", "--json", "bad.adf").output)
    fault = {"kind": "NotWholeBlocks", "block": 0, "path": None, "found": None, "wanted": None, "text": None}
    found = (told["ok"], told["kind"], told["blocks"], told["faults"])
    room.report.same("the object of a wrong size", found, (False, None, None, [fault]))
    ran = room.run("check", "--json", "filled.adf", "none.adf", "sum.adf")
    named = [json.loads(line)["path"] for line in ran.output.splitlines()]
    room.report.same("objects of several", named, ["filled.adf", "sum.adf"])
    room.report.same("their status", ran.status, 2)


# ---- the long that shows a fault


class Shown(NamedTuple):
    """A fault after some longs were changed: its kind and block, the value of the first long that shows it, and the only right one."""

    kind: str
    block: int
    found: Optional[int]
    wanted: Optional[int]


# Longs to change, each with its block and its new value, and a fault that is shown then. The blocks are settled.
ChangedLongs = Tuple[List[Tuple[int, int, int]], Shown]


def of_any_kind(image: Volume) -> Iterator[ChangedLongs]:
    """Damages of both kinds of volume, with the values that follow from the change."""
    docs, long = image.header("Docs"), image.header("long")
    extension, empty = image.long(long, 126), image.header("empty")
    for block, at, kind, value, wanted in [
        (ROOT, 0, "BadType", 3, 2),
        (ROOT, 3, "BadType", 71, 72),
        (ROOT, 127, "BadType", 2, 1),
        (ROOT, 125, "BadParent", 5, 0),
        (docs, 0, "BadType", 8, 2),
        (docs, 127, "BadType", 7, None),
        (docs, 127, "LinkEntry", 4, None),
        (docs, 1, "BadOwnKey", docs + 1, docs),
        (docs, 125, "BadParent", 5, ROOT),
        (docs, 108, "BadName", 0x00446F63, None),
        (docs, 108, "BadName", 0x1F446F63, None),
        (docs, 109, "BadName", 0x3A000000, None),
        (docs, 82, "BadComment", 0x50000000, None),
        (docs, 124, "BadPointer", 1, None),
        (docs, 6, "BadPointer", image.blocks, None),
        (long, 2, "BadCount", 71, 72),
        (long, 2, "BadCount", 73, 72),
        (long, 81, "BadCount", 1, None),
        (empty, 2, "BadCount", 73, None),
        (extension, 0, "BadType", 2, 16),
        (extension, 127, "BadType", 2, ALL_ONES - 2),
        (extension, 1, "BadOwnKey", 5, extension),
        (extension, 2, "BadCount", 0, None),
        (extension, 2, "BadCount", 80, None),
        (extension, 125, "BadParent", 5, long),
    ]:
        yield [(block, at, value)], Shown(kind, block, value, wanted)
    yield [(0, 0, 0x004F5300)], Shown("NotADosDisk", 0, 0x004F5300, None)
    yield [(0, 0, 0x444F5302)], Shown("UnsupportedKind", 0, 0x444F5302, None)
    yield [(ROOT, 127, 2), (ROOT, 3, 70)], Shown("BadType", ROOT, 70, 72)
    yield [(long, 2, 71), (long, 81, 1)], Shown("BadCount", long, 71, 72)
    yield [(docs, 109, 0x2F000000), (docs, 108, 0x1F3A3A3A)], Shown("BadName", docs, 0x1F3A3A3A, None)
    yield [(docs, 108, 0x05446F63), (docs, 109, 0x733A0000)], Shown("BadName", docs, 0x733A0000, None)
    # No long of the block itself is wrong.
    yield [(long, 76, image.long(long, 77))], Shown("BlockUsedTwice", image.long(long, 77), None, None)
    yield [(docs, 108, 0x03746F70), (docs, 109, 0)], Shown("DuplicateName", docs, None, None)
    yield [(docs, 108, 0x04446F64)], Shown("WrongChain", docs, None, None)
    yield [(image.long(ROOT, 79), it, ALL_ONES) for it in range(1, 56)], Shown("MarkedFree", ROOT, None, None)


def of_ofs(image: Volume) -> Iterator[ChangedLongs]:
    """Damages of the fields of OFS data blocks, and of the links to them."""
    long = image.header("long")
    extension = image.long(long, 126)
    blocks = image.pointers(long) + image.pointers(extension)
    for place, at, kind, value, wanted in [
        (1, 0, "BadType", 2, 8),
        (1, 1, "BadParent", 5, long),
        (1, 2, "BadSequence", 9, 2),
        (71, 2, "BadSequence", 0, 72),
        (72, 2, "BadSequence", 1, 73),
        (1, 3, "BadCount", 487, 488),
        (71, 3, "BadCount", 0, 488),
        (71, 3, "BadCount", 489, 488),
        (len(blocks) - 1, 3, "BadCount", 0, None),
        (len(blocks) - 1, 3, "BadCount", 489, None),
        (0, 4, "BadPointer", 5, blocks[1]),
        (71, 4, "BadPointer", 5, blocks[72]),
        (len(blocks) - 1, 4, "BadPointer", 5, 0),
    ]:
        yield [(blocks[place], at, value)], Shown(kind, blocks[place], value, wanted)
    yield [(long, 4, 5)], Shown("BadPointer", long, 5, blocks[0])
    # The link is the first long that shows it, before the pointer.
    yield [(long, 77, 1)], Shown("BadPointer", long, blocks[0], 1)
    yield [(long, 76, 1)], Shown("BadPointer", long, 1, None)
    yield [(long, 76, 1)], Shown("BadPointer", blocks[0], blocks[1], 1)


def shown_values(room: Room) -> None:
    """The first long that shows a fault, and the value that is wanted there, for each kind of fault."""
    for kind in KINDS:
        name = kind[0] if kind else "--ofs"
        filled(room, "shown.adf", *kind)
        good = Volume(room.content("shown.adf"))
        page = good.long(ROOT, 79)
        for count, (changes, shown) in enumerate([*of_any_kind(good), *([] if kind else of_ofs(good))]):
            room.report.same(f"{name}: long of fault {count}", told_of(room, good.changed(changes), shown), [shown])
        for block, at in [(ROOT, 5), (good.header("long"), 5), (page, 0), *([] if kind else [(good.pointers(good.header("long"))[3], 5)])]:
            image = Volume(good.data)
            image.put(block, at, good.long(block, at) + 16)
            shown = Shown("BadSum", block, image.long(block, at), good.long(block, at))
            room.report.same(f"{name}: the checksum of block {block}", told_of(room, image, shown), [shown])


def told_of(room: Room, image: Volume, shown: Shown) -> List[Shown]:
    """The faults of this kind and block, as JSON tells them."""
    room.write("shown.adf", bytes(image.data))
    faults = json.loads(room.run("check", "--all", "--json", "shown.adf").output)["faults"]
    every = [Shown(*(it[field] for field in Shown._fields)) for it in faults]
    return [it for it in every if it[:2] == shown[:2]]

# ---- the texts of faults


# Longs to change, each with its block and its new value; the kind of a fault, its block, and its text. The blocks are settled.
ToldChange = Tuple[List[Tuple[int, int, int]], str, int, str]


def texts_of_any_kind(image: Volume) -> Iterator[ToldChange]:
    """Damages of both kinds of volume, with what a person is told."""
    docs, long, top, startup = (image.header(it) for it in ("Docs", "long", "top", "S"))
    extension, empty, first = image.long(long, 126), image.header("empty"), image.long(long, 77)
    last = image.blocks - 1
    inside = f"it should name one of 2 to {last}"
    for block, at, value, kind, text in [
        (ROOT, 0, 3, "BadType", "its primary type is 3; it should be 2"),
        (ROOT, 3, 71, "BadType", "its number of hash slots is 71; it should be 72"),
        (ROOT, 3, ALL_ONES, "BadType", "its number of hash slots is 4,294,967,295; it should be 72"),
        (ROOT, 127, 2, "BadType", "its secondary type is 2; it should be 1"),
        (ROOT, 125, 5, "BadParent", "its parent is block 5; it should be 0"),
        (ROOT, 79, 1, "BadPointer", f"its bitmap block 1 names block 1; {inside}"),
        (docs, 127, 7, "BadType", "its secondary type is 7; it should be 2 (a directory) or -3 (a file)"),
        (docs, 127, 4, "LinkEntry", "it is a link (secondary type 4); only directories and files are supported"),
        (docs, 127, ALL_ONES - 3, "LinkEntry", "it is a link (secondary type -4); only directories and files are supported"),
        (extension, 127, 2, "BadType", "its secondary type is 2; it should be -3"),
        (docs, 1, docs + 1, "BadOwnKey", f"its own number is {docs + 1}; it should be {docs}"),
        (docs, 125, 5, "BadParent", f"its parent is block 5; it should be {ROOT}"),
        (extension, 125, 5, "BadParent", f"its file header is block 5; it should be {long}"),
        (docs, 124, 1, "BadPointer", f"its next entry names block 1; {inside}"),
        (docs, 6, image.blocks, "BadPointer", f"its hash slot 0 names block {image.blocks}; {inside}"),
        (long, 76, 1, "BadPointer", f"its pointer 2 names block 1; {inside}"),
        (extension, 126, 1, "BadPointer", f"its extension block names block 1; {inside}"),
        (docs, 108, 0x00446F63, "BadName", "its name has 0 characters; it should have 1 to 30"),
        (docs, 108, 0x1F446F63, "BadName", "its name has 31 characters; it should have 1 to 30"),
        (docs, 109, 0x3A000000, "BadName", "its name has a slash or a colon; no name may have one"),
        (docs, 82, 0x50000000, "BadComment", "its comment has 80 characters; it should have at most 79"),
        (long, 2, 71, "BadCount", "it has 71 data pointers; before an extension block it should have 72"),
        (long, 2, 73, "BadCount", "it has 73 data pointers; it should have at most 72"),
        (empty, 2, 73, "BadCount", "it has 73 data pointers; it should have at most 72"),
        (extension, 2, 0, "BadCount", "it is an extension block without data pointers; it should have 1 to 72"),
        (long, 81, 1, "BadCount", "its size of 1 bytes does not match its data blocks"),
        (long, 81, ALL_ONES, "BadCount", "its size of 4,294,967,295 bytes does not match its data blocks"),
        (long, 2, 1_234, "BadCount", "it has 1,234 data pointers; it should have at most 72"),
        (docs, 108, 0x04446F64, "WrongChain", f"its hash chain is that of slot {slot_of(b'Docs')}; its name belongs to slot {slot_of(b'Dods')}"),
        # The walk takes the longs of a block in rising order.
        (long, 76, first, "BlockUsedTwice", f"it is used twice: by block {long} (pointer 2) and by block {long} (pointer 1)"),
        (top, 126, extension, "BlockUsedTwice", f"it is used twice: by block {top} (extension block) and by block {long} (extension block)"),
        (docs, 6, ROOT, "BlockUsedTwice", f"it is the root; block {docs} (hash slot 0) names it too"),
        (docs, 7, startup, "BlockUsedTwice", f"it is used twice: by block {ROOT} (hash slot {slot_of(b'S')}) and by block {docs} (hash slot 1)"),
        (docs, 7, startup, "BadParent", f"its parent is block {ROOT}; block {docs} (hash slot 1) names it too"),
        (docs, 124, startup, "BlockUsedTwice", f"it is used twice: by block {ROOT} (hash slot {slot_of(b'S')}) and by block {docs} (next entry)"),
    ]:
        named = {"BlockUsedTwice": value, "BadParent": value if at == 7 else block}.get(kind, block)
        yield [(block, at, value)], kind, named, text
    same = "block {} of the same directory has its name too"
    yield [(docs, 108, 0x03746F70), (docs, 109, 0)], "DuplicateName", docs, same.format(top)
    yield [(docs, 108, 0x03544F50), (docs, 109, 0)], "DuplicateName", top, same.format(docs)
    free = "it is in use but marked free (adf_serve validate mends that)"
    yield [(image.long(ROOT, 79), it, ALL_ONES) for it in range(1, 56)], "MarkedFree", ROOT, free
    begins = "not an AmigaDOS disk: its boot block begins with 00 4F 53 00 (a game's own format, perhaps)"
    yield [(0, 0, 0x004F5300)], "NotADosDisk", 0, begins
    yield [(0, 0, 0x444F5302)], "UnsupportedKind", 0, "its file system is DOS\\2; only DOS\\0 (OFS) and DOS\\1 (FFS) are supported"


def texts_of_ofs(image: Volume) -> Iterator[ToldChange]:
    """Damages of OFS data blocks and of the links to them, with what a person is told."""
    long = image.header("long")
    blocks = image.pointers(long) + image.pointers(image.long(long, 126))
    end = len(blocks) - 1
    for place, at, value, kind, text in [
        (1, 0, 2, "BadType", "its primary type is 2; it should be 8"),
        (1, 1, 5, "BadParent", f"its file header is block 5; it should be {long}"),
        (1, 2, 9, "BadSequence", "its sequence number is 9; its place in the file is 2"),
        (1, 2, 1_234, "BadSequence", "its sequence number is 1,234; its place in the file is 2"),
        (72, 2, 1, "BadSequence", "its sequence number is 1; its place in the file is 73"),
        (1, 3, 487, "BadCount", "it holds 487 bytes; it should hold 488"),
        (1, 3, 1_000_000, "BadCount", "it holds 1,000,000 bytes; it should hold 488"),
        (end, 3, 489, "BadCount", "it holds 489 bytes; the last block of a file holds 1 to 488"),
        (0, 4, 5, "BadPointer", f"its next data block is 5; it should be {blocks[1]}"),
        (end, 4, 5, "BadPointer", "its next data block is 5; it should be 0"),
    ]:
        yield [(blocks[place], at, value)], kind, blocks[place], text
    yield [(long, 4, 5)], "BadPointer", long, f"its first data block is 5; it should be {blocks[0]}"


def texts_told(room: Room) -> None:
    """What a person is told of each kind of fault, in JSON and on standard error."""
    for kind in KINDS:
        name = kind[0] if kind else "--ofs"
        filled(room, "told.adf", *kind)
        good = Volume(room.content("told.adf"))
        for count, (changes, fault, block, text) in enumerate([*texts_of_any_kind(good), *([] if kind else texts_of_ofs(good))]):
            room.write("told.adf", bytes(good.changed(changes).data))
            ran = room.run("check", "--all", "--json", "told.adf")
            faults = json.loads(ran.output)["faults"]
            told = [it["text"] for it in faults if (it["kind"], it["block"]) == (fault, block)]
            is_told = len(told) == 1 and told[0].startswith(f"block {block}") and told[0].endswith(f": {text}")
            room.report.expect(f"{name}: text of fault {count}", is_told, f"{told} where {text!r} of block {block} is expected")
            lines = ran.texts.decode().splitlines()
            room.report.same(f"{name}: texts on standard error beside fault {count}", lines[: len(faults)], [it["text"].replace("\0", "%00") for it in faults])


# ---- input without an end


def bounded(room: Room) -> None:
    endless = "'/dev/zero' did not end after 2,097,152 reads"
    room.report.check("a device that never ends", room.run("check", "/dev/zero"), 2, b"", endless)
    for words in (["info"], ["list"], ["print"]):
        more = ["x"] if words == ["print"] else []
        room.report.check(f"{words[0]} of it", room.run(*words, "/dev/zero", *more), 2, b"", endless)
    room.report.check("extract of it", room.run("extract", "--to", "zero", "/dev/zero"), 2, b"", endless)
    room.report.check("extract --damaged of it", room.run("extract", "--damaged", "--to", "zero", "/dev/zero"), 2, b"", endless)
    room.report.check("serve over it", room.run("serve", "/dev/zero", "good.adf"), 2, b"", endless)
    ran = room.run("check", "--json", "good.adf", "/dev/zero")
    room.report.same("its object", (ran.status, len(ran.output.splitlines())), (2, 1))
    room.write("sparse.adf")
    os.truncate("sparse.adf", 2**40)
    room.report.check("a file of a terabyte", room.run("check", "sparse.adf"), 3, b"refused TooManyBlocks 0\n", "1,099,511,627,776 bytes", "101,602")
    os.truncate("sparse.adf", 2**40 + 1)
    room.report.check("one of a byte more", room.run("check", "sparse.adf"), 3, NOT_BLOCKS, "1,099,511,627,777 bytes")
    os.remove("sparse.adf")
    good = room.content("good.adf")
    for size, status, line in ((len(good), 0, b"ok\n"), (0, 3, b"refused TooFewBlocks 0\n"), (LARGEST + BLOCK, 3, b"refused TooManyBlocks 0\n")):
        os.mkfifo("stream")
        feeder = threading.Thread(target=feed, args=("stream", good, size))
        feeder.start()
        ran = room.run("check", "stream")
        feeder.join()
        os.remove("stream")
        room.report.same(f"a stream of {size} bytes", (ran.status, ran.output), (status, line))


def feed(path: str, data: bytes, size: int) -> None:
    """Writes the data, then zeros up to a size, as far as they are read."""
    try:
        with open(path, "wb", buffering=0) as file:
            file.write(data[:size])
            for _ in range((size - len(data)) // 65_536 + 1 if size > len(data) else 0):
                file.write(bytes(65_536))
    except BrokenPipeError:
        pass


# ---- every fault of an image


def many_faults(room: Room) -> None:
    """A volume with more files than faults are listed; each has a wrong checksum."""
    room.done("blank", "--ffs", "--blocks", "4000", "Full", "full.hdf")
    put_files(room, "thousand", {f"d/f{count}": b"" for count in range(1_050)})
    room.done("add", "full.hdf", "thousand/d")
    full = Image(room.content("full.hdf"))
    for block in range(2, 4000):
        if full.long(block, 0) == 2 and full.long(block, 127) == 2**32 - 3:
            full.put(block, 5, full.long(block, 5) + 1)
    room.write("thousand.hdf", bytes(full.data))
    ran = room.run("check", "--all", "thousand.hdf")
    lines = ran.output.splitlines()
    found = (ran.status, len(lines), lines[-1], {line.split()[1] for line in lines[:-1]})
    room.report.same("a thousand faults and more", found, (3, 1001, b"more", {b"BadSum"}))
    told = json.loads(room.run("check", "--all", "--json", "thousand.hdf").output)
    room.report.same("the object of these", (list(told), len(told["faults"]), told["more"]), ([*FIELDS, "more"], 1000, True))
    ran = room.run("check", "--all", "thousand.hdf", "good.adf")
    room.report.same("that of several", ran.output.splitlines()[1000:], [b"thousand.hdf\tmore", b"good.adf\tok"])
    room.succeeds("every fault of an image that shows none", "check", "--all", "filled.adf", output=b"ok\n")


def same_faults(room: Room, title: str, image: Image) -> None:
    """Compares the faults of an image, or the first 1,000 of them and `more`, with those of the model."""
    room.write("tangled.adf", bytes(image.data))
    ran = room.run("check", "--all", "tangled.adf")
    told = [b" ".join(line.split()[1:3]).decode() if line != b"more" else "more" for line in ran.output.splitlines()]
    room.report.same(f"all faults of {title}", (ran.status, told), (3, faults_by_model(room, "tangled.adf")))


def shared_entries(room: Room) -> None:
    """Directories whose slots all lead into one chain, so that its entries are reached in very many roles. The faults are listed, or
    the first 1,000 of them and `more`, also where the entries of the chain share names, or share one with an entry of a directory."""
    room.done("blank", "--ffs", "Tangled", "blank.adf")
    for directories, slots, entries, own, alike in ((60, SLOTS, 20, 0, 1), (1_100, 8, 10, 0, 1), (1_100, 8, 10, 0, 2), (700, 1, 40, 600, 1), (30, 2, 20, 25, 3)):
        image = Image(room.content("blank.adf"))
        places = places_in(image)
        shared, rest = places[:entries], places[entries:]
        share_entries(image, rest[:directories], shared, slots, rest[directories : directories + own], alike)
        same_faults(room, f"{directories} directories of one chain, {own} with entries of their own, {alike} of a name", image)


def shared_extensions(room: Room) -> None:
    """Files whose extension blocks lie on one chain, which ends or leads back, in both kinds: the faults by the model."""
    for kind in ("--ffs", None):
        room.done("blank", *([kind] if kind else []), "Tangled", "blank.adf")
        for files, extensions, back, spread in ((40, 12, -1, False), (40, 12, -1, True), (40, 12, 0, True), (40, 12, 5, True), (300, 60, -1, True), (300, 60, 20, True)):
            image = Image(room.content("blank.adf"))
            places = places_in(image)
            share_extensions(image, places[extensions : extensions + files], places[:extensions], back, spread)
            how = "that ends" if back < 0 else f"that leads back to block {back} of it"
            same_faults(room, f"{files} files of one chain of {extensions} extension blocks {how}, {kind or 'OFS'}, entered {'all along' if spread else 'at its start'}", image)


def other_kinds(room: Room) -> None:
    """Of a disk of another kind only that is listed, whatever the rest of the image is. With its first long back every fault is
    listed."""
    for kind in KINDS:
        name = kind[0] if kind else "--ofs"
        filled(room, "kinds.adf", *kind)
        good = Volume(room.content("kinds.adf"))
        docs, long = good.header("Docs"), good.header("long")
        damages: List[List[Tuple[int, int, int]]] = [
            [],
            [(docs, 1, docs + 1), (long, 81, 1)],
            [(ROOT, 127, 7), (ROOT, 79, 1), (docs, 124, long)],
            [(ROOT, it, docs) for it in range(6, 78)],
        ]
        for count, longs in enumerate(damages):
            damaged = good.changed(longs)
            for first, told in (
                (0x004F_5300, "NotADosDisk"),
                (0x444F_5401, "NotADosDisk"),
                (0x4B49_434B, "NotADosDisk"),
                (0x444F_5302, "UnsupportedKind"),
                (0x444F_53FF, "UnsupportedKind"),
            ):
                image = Volume(damaged.data)
                image.put(0, 0, first)
                see_alone(room, f"{name}: {first:08X} with damage {count}", image, told)
            room.write("kinds.adf", bytes(damaged.data))
            lines = [f"refused {it}" if it != "more" else it for it in lines_of(bytes(damaged.data))]
            found = room.run("check", "--all", "kinds.adf").output.decode().splitlines()
            room.report.same(f"{name}: every fault of damage {count}", found, lines or ["ok"])


def see_alone(room: Room, name: str, image: Volume, told: str) -> None:
    """One line, one fault in JSON and one text, which the model has too; `check` without `--all` prints the same line."""
    room.write("kinds.adf", bytes(image.data))
    line = f"refused {told} 0\n".encode()
    room.report.same(f"{name}, by the model", lines_of(bytes(image.data)), [f"{told} 0"])
    for words in (["check"], ["check", "--all"]):
        ran = room.run(*words, "kinds.adf")
        texts = [it for it in ran.texts.decode().splitlines() if it.startswith("block ")]
        room.report.same(f"{name}, {words[-1]}", (ran.status, ran.output, [it[:9] for it in texts]), (3, line, ["block 0: "]))
    faults = json.loads(room.run("check", "--all", "--json", "kinds.adf").output)["faults"]
    found = [(it["kind"], it["block"], it["found"], it["wanted"]) for it in faults]
    room.report.same(f"{name}, as an object", found, [(told, 0, image.long(0, 0), None)])


def put_changed(room: Room, good: bytes) -> None:
    """A directory with images in which a few longs are changed."""
    draws = random.Random(11)
    used = [it for it in range(2, 1760) if any(good[BLOCK * it : BLOCK * it + BLOCK])]
    os.makedirs("changed")
    for count in range(ROUNDS):
        image = Image(good)
        for _ in range(draws.randrange(1, 4)):
            block = draws.choice(used)
            at = draws.choice([0, 1, 2, 3, 4, 5, 77, 76, 81, 108, 124, 125, 126, 127, draws.randrange(128)])
            edges = [0, 1, 2, 3, 8, 16, 72, 73, 880, 881, 1759, 1760, 2**32 - 3]
            image.put(block, at, draws.choice([*edges, draws.choice(used), draws.randrange(2**32)]))
            if draws.random() < 0.7 and block != 881:
                image.settle(block)
        room.write(f"changed/{count:05}.adf", bytes(image.data))


def model(room: Room) -> None:
    """Compares `check --all` with the model on images with a few changed longs, many in parallel."""
    put_changed(room, room.content("filled.adf"))
    told: Dict[str, List[str]] = {}
    for line in room.run("check", "--all", "changed").output.decode().splitlines():
        path, words = line.split("\t")
        told.setdefault(path, []).append(words)
    with multiprocessing.Pool() as pool:
        expected = pool.map(partial(faults_by_model, room), sorted(told), chunksize=16)
    fault = None if len(told) == ROUNDS else f"{len(told)} images of {ROUNDS} were told of"
    for path, wanted in zip(sorted(told), expected):
        found = [] if told[path][0].startswith("ok") else [line.removeprefix("refused ") for line in told[path]]
        if found != wanted:
            fault = f"{path}: {found[:5]} where the model has {wanted[:5]}"
            break
    room.report.hold(f"every fault of {ROUNDS} changed images, as the model has them", fault)


def longs_told(room: Room) -> None:
    """A fault of an image that uses each block once is told with the long that shows it, unless its kind has none."""
    fault = None
    for line in room.run("check", "--all", "--json", "changed").output.splitlines():
        told = json.loads(line)
        kinds = {it["kind"] for it in told["faults"]}
        mixed = [it for it in told["faults"] if (it["found"] is None) != (it["kind"] in WITHOUT_LONG)]
        if mixed and "BlockUsedTwice" not in kinds:
            fault = f"{told['path']}: {mixed[0]}"
    room.report.hold(f"the longs that show the faults of {ROUNDS} changed images", fault)


def faults_by_model(room: Room, path: str) -> List[str]:
    """The faults of an image by the model, in the form of the program's lines after `refused`."""
    return lines_of(room.content(path))


# ---- damaged images


class Taken(NamedTuple):
    """The rescue of a damaged image: the status, the report by path, and the files that were written."""

    status: int
    lines: Dict[str, str]
    written: Files


LAST = re.compile(rb"(deleted|unaccounted) [1-9][0-9]*")


def account_lines(output: bytes) -> Tuple[List[bytes], List[bytes]]:
    """The lines of a report that tell of entries, and the last ones."""
    lines = output.splitlines()
    last = len(lines)
    while last and LAST.fullmatch(lines[last - 1]):
        last -= 1
    return lines[:last], lines[last:]


def taken(room: Room, image: Image, *words: str) -> Taken:
    shutil.rmtree("out", ignore_errors=True)
    room.write("damaged.adf", bytes(image.data))
    ran = room.run("extract", "--damaged", "--to", "out", *words, "damaged.adf")
    lines = {}
    for line in account_lines(ran.output)[0]:
        state, path = line.decode().rsplit(" ", 1)
        lines[path] = state
    paths = [os.path.join(top, name) for top, _, names in os.walk("out") for name in names]
    return Taken(ran.status, lines, {os.path.relpath(it, "out"): room.content(it) for it in paths})


class Salvage:
    """A volume with files, for trying damages."""

    def __init__(self, room: Room, kind: Sequence[str]) -> None:
        self.room, self.report = room, room.report
        self.is_ffs = bool(kind)
        self.title = f"salvage {kind[0] if kind else '--ofs'}"
        self.files = filled(room, "filled.adf", *kind)
        self.good = room.content("filled.adf")

    def others(self, files: Files, path: str) -> Files:
        return {name: data for name, data in files.items() if name != path}

    def accepted(self) -> None:
        wanted = Taken(0, {name: "whole" for name in self.files}, self.files)
        self.report.same(f"{self.title}: of an accepted image all is whole", taken(self.room, Volume(self.good)), wanted)

    def lost_data_block(self) -> None:
        image = Volume(self.good)
        image.clear(image.pointers(image.header("long"))[3])
        told = taken(self.room, image)
        hole = bytearray(self.files["Docs/long"])
        hole[3 * 488 : 4 * 488] = bytes(488)
        found = (told.status, told.lines["Docs/long"], told.written["Docs/long"])
        self.report.same(f"{self.title}: a data block that is lost", found, (3, "broken 1", bytes(hole)))
        others = self.others(told.written, "Docs/long")
        self.report.same(f"{self.title}: the other files", others, self.others(self.files, "Docs/long"))

    def lost_root(self) -> None:
        image = Volume(self.good)
        image.clear(ROOT)
        told = taken(self.room, image)
        found = (told.status, sorted(told.written.values()))
        self.report.same(f"{self.title}: a lost root", found, (3, sorted(self.files.values())))
        are_lost = all(path.startswith("lost+found/") for path in told.written)
        self.report.expect(f"{self.title}: all is found", are_lost, sorted(told.written))

    def cut_chains(self) -> None:
        image = Volume(self.good)
        docs = image.header("Docs")
        for slot in range(6, 78):
            if image.long(docs, slot):
                image.put(docs, slot, 0xFFFF_FFF0)
        image.settle(docs)
        told = taken(self.room, image)
        found = (told.status, sorted(told.written.values()))
        self.report.same(f"{self.title}: cut chains", found, (3, sorted(self.files.values())))
        self.report.expect(f"{self.title}: under the parent's path", "lost+found/Docs/long" in told.written, sorted(told.written))

    def shared_block(self) -> None:
        image = Volume(self.good)
        image.change(image.header("top"), 77, image.pointers(image.header("text"))[0])
        told = taken(self.room, image)
        # In OFS the block itself names its file, and the right one is linked. In FFS the first file is given it.
        found = (told.status, sorted([told.lines["top"], told.lines["Docs/Deep/text"]]), told.lines["Docs/long"])
        wanted = (3, ["broken 1", "doubtful"] if self.is_ffs else ["doubtful", "whole"], "whole")
        self.report.same(f"{self.title}: two files on one block are not whole", found, wanted)

    def lost_extension(self) -> None:
        image = Volume(self.good)
        image.change(image.header("long"), 126, 0)
        told = taken(self.room, image)
        # (in OFS the data blocks are linked, and in FFS the extension block names the file)
        wanted = {**{name: "whole" for name in self.files}, "Docs/long": "doubtful"}
        self.report.same(f"{self.title}: an extension block that the header does not name", told, Taken(3, wanted, self.files))

    def unused_page(self) -> None:
        image = Volume(self.good)
        header = image.header("long")
        image.put(header, 5, image.long(header, 5) ^ 1)
        image.change(ROOT, 80, image.pointers(header)[3])
        told = taken(self.room, image)
        found = (told.status, told.lines["Docs/long"], told.written["Docs/long"] == self.files["Docs/long"])
        self.report.same(f"{self.title}: a long of the root behind those of its bitmap blocks says nothing", found, (3, "doubtful", True))

    def noted(self) -> None:
        told = taken(self.room, Volume(self.good), "--meta")
        notes = [f"{name}.uaem" for name in [*self.files, "S", "Docs", "Docs/Deep"]]
        self.report.same(f"{self.title}: notes beside files", sorted(told.written), sorted([*self.files, *notes]))


def salvaged_fillers(room: Room) -> None:
    """A file with a data block that holds a filler is whole on an accepted disk. Where the disk is refused, or with a list of unread blocks,
    it is doubtful, with that reason, and keeps its bytes."""
    for kind in KINDS:
        said, size = f"filler {kind[0] if kind else '--ofs'}, salvaged", BLOCK if kind else 488
        files = filled(room, "filler.adf", *kind)
        clean = Volume(room.content("filler.adf"))
        header = clean.header("long")
        block = [*clean.pointers(header), *clean.pointers(clean.long(header, 126))][73]
        free = next(it for it in range(2, clean.blocks) if not any(clean.data[BLOCK * it : BLOCK * (it + 1)]))
        room.write("free.txt", f"{free}\n".encode())
        room.write("none.txt", b"# nothing\n")
        accepted = Volume(bytes(clean.data))
        cover(accepted, block, FORMATTED)
        nearly = Volume(bytes(accepted.data))
        nearly.data[BLOCK * block + BLOCK - 1] ^= 1
        for it in [] if kind else [block]:
            nearly.settle(it)
        refused, other = Volume(bytes(accepted.data)), Volume(bytes(nearly.data))
        for it in (refused, other):
            it.put(ROOT, 5, it.long(ROOT, 5) ^ 1)
        f6 = FORMATTED * size
        held, almost = ({**files, "Docs/long": files["Docs/long"][: 73 * size] + it + files["Docs/long"][74 * size :]} for it in (f6, f6[:-1] + b"\xf7"))
        whole = {it: "whole" for it in files}
        doubtful = {**whole, "Docs/long": "doubtful"}
        rows: List[Tuple[str, Volume, List[str], Taken]] = [
            ("of an accepted disk", accepted, [], Taken(0, whole, held)),
            ("of an accepted disk with its size", accepted, ["--blocks", "1760"], Taken(0, whole, held)),
            ("of a refused disk", refused, [], Taken(3, doubtful, held)),
            ("with a list of free blocks", accepted, ["--bad", "free.txt"], Taken(3, doubtful, held)),
            ("with a list of no blocks", accepted, ["--bad", "none.txt"], Taken(3, doubtful, held)),
            ("of a refused disk with a list", refused, ["--bad", "free.txt"], Taken(3, doubtful, held)),
            ("of a disk without one, with a list", clean, ["--bad", "free.txt"], Taken(0, whole, files)),
            ("nearly one, with a list", nearly, ["--bad", "free.txt"], Taken(0, whole, almost)),
            ("nearly one, of a refused disk", other, [], Taken(3, whole, almost)),
        ]
        for name, image, words, wanted in rows:
            room.report.same(f"{said}: {name}", taken(room, image, *words), wanted)
            texts = room.run("extract", "--damaged", "--list", *words, "damaged.adf").texts
            reason = f"block {block} holds a filler" if "doubtful" in wanted.lines.values() else None
            room.report.same(f"{said}: {name}, why", doubts_told(texts), [f"adf_serve: 'Docs/long' is doubtful: {reason}".encode()] if reason else [])
            entries = json.loads(room.run("extract", "--damaged", "--list", "--json", *words, "damaged.adf").output)["entries"]
            room.report.same(f"{said}: {name}, as JSON", {it["path"]: it["reason"] for it in entries if it["reason"]}, {"Docs/long": reason} if reason else {})


class Wide(NamedTuple):
    """An image with a file of many extension blocks: its bytes, its header with these, and its data blocks."""

    image: Volume
    data: bytes
    heads: List[int]
    blocks: List[int]

    def wiped(self, blocks: Sequence[int]) -> Volume:
        """A copy in which these blocks are zeros."""
        image = Volume(self.image.data)
        for it in blocks:
            image.clear(it)
        return image


def wide(room: Room, size: int, *kind: str) -> Wide:
    room.write("wide", random.randbytes(size))
    room.done("blank", *kind, "Work", "wide.adf")
    room.done("add", "wide.adf", "wide")
    image = Volume(room.content("wide.adf"))
    heads = [image.header("wide")]
    while image.long(heads[-1], 126):
        heads.append(image.long(heads[-1], 126))
    return Wide(image, room.content("wide"), heads, [block for head in heads for block in image.pointers(head)])


def unaccounted(room: Room) -> List[int]:
    """The blocks of the image that was last damaged that are used and belong to nothing."""
    told: List[int] = json.loads(room.run("extract", "--damaged", "--list", "--json", "damaged.adf").output)["unaccounted"]
    return told


def found_by_numbers(room: Room) -> None:
    """An OFS file whose extension blocks are wiped has all data blocks that say which one they are, also where none names the next one."""
    it = wide(room, 100_000)
    room.report.same("the blocks of 100,000 bytes", (len(it.heads), len(it.blocks)), (3, 205))
    for said, wiped in (("first", it.heads[1:2]), ("last", it.heads[2:]), ("extension blocks", it.heads[1:])):
        image = it.wiped(wiped)
        room.report.same(f"data blocks by links, {said}", taken(room, image), Taken(3, {"wide": "doubtful"}, {"wide": it.data}))
        for block in it.blocks:
            image.change(block, 4, 0)
        room.report.same(f"data blocks by numbers, {said}", taken(room, image), Taken(3, {"wide": "doubtful"}, {"wide": it.data}))
        # (an extension block that no other one leads to belongs to nothing)
        room.report.same(f"data blocks by numbers, {said}, what is left", unaccounted(room), sorted({*wiped, *it.heads[2:]}))
    image = it.wiped([*it.heads[1:], it.blocks[100], it.blocks[204]])
    image.put(it.blocks[150], 100, image.long(it.blocks[150], 100) ^ 1)
    for block in it.blocks[101:150]:
        image.change(block, 4, 0)
    held = bytearray(it.data[: 204 * 488])
    for k in (100, 150):
        held[488 * k : 488 * (k + 1)] = bytes(488)
    room.report.same("data blocks by numbers, with right checksums alone", taken(room, image), Taken(3, {"wide": "broken 3"}, {"wide": bytes(held)}))


def lowest_by_number(room: Room) -> None:
    """Of two OFS data blocks with one number the lower one is taken, where nothing names either of them."""
    it = wide(room, 100_000)
    block = it.blocks[150]
    for copy in (it.heads[1], max(it.blocks) + 4):
        image = it.wiped(it.heads[1:])
        image.data[BLOCK * copy : BLOCK * (copy + 1)] = image.data[BLOCK * block : BLOCK * (block + 1)]
        image.data[BLOCK * copy + 24 : BLOCK * (copy + 1)] = b"copy" * 122
        image.settle(copy)
        image.change(it.blocks[149], 4, 0)
        held = it.data[: 150 * 488] + (b"copy" * 122 if copy < block else it.data[150 * 488 : 151 * 488]) + it.data[151 * 488 :]
        found = taken(room, image)
        room.report.same(f"two data blocks with one number, block {copy}", found, Taken(3, {"wide": "doubtful"}, {"wide": held}))


def placed(parts: Sequence[Optional[int]], count: int) -> Dict[int, int]:
    """The data blocks of an FFS file of so many, by the numbers at which they stand, if those of these pointer blocks stand one behind
    another."""
    pairs = [(72 * at + nth, 72 * part + nth) for at, part in enumerate(parts) if part is not None for nth in range(72)]
    return {at: number for at, number in pairs if max(at, number) < count}


class Loose(NamedTuple):
    """Extension blocks of an FFS file with four of them: those that are wiped, next ones that are other ones, by their numbers, and the
    pointer blocks by whose data blocks the file is made."""

    wiped: List[int]
    links: Dict[int, int]
    parts: List[Optional[int]]


LOOSE = [
    Loose([2], {}, [0, 1, None, 3, 4]),
    Loose([1], {}, [0, None, 2, 3, 4]),
    Loose([1, 2], {}, [0, None, None, 3, 4]),
    Loose([4], {}, [0, 1, 2, 3]),
    Loose([1, 3], {}, [0, None, 2, None, 4]),
    Loose([2, 4], {}, [0, 1, None, 3]),
    # (how many blocks are missing before a chain that does not end the file is not known)
    Loose([1, 2, 4], {}, [0, None, 3]),
    # Nothing is wiped, and the links alone are other ones: none, to the last one, round, and to itself.
    Loose([], {0: 0}, [0, 1, 2, 3, 4]),
    Loose([], {1: 0}, [0, 1, 2, 3, 4]),
    Loose([2], {4: 3}, [0, 1, None, 3, 4]),
    Loose([3], {2: 2}, [0, 1, 2, None, 4]),
    Loose([2], {3: 3}, [0, 1, None, 3, 4]),
    # Two end the file, and the second one finds no place.
    Loose([2], {3: 0}, [0, 1, None, None, 3]),
]


def loose_extensions(room: Room) -> None:
    """Extension blocks of an FFS file to which no link leads stand behind as many missing ones as fit in, or behind one. They belong to the
    file, wherever they stand."""
    it = wide(room, 150_000, "--ffs")
    room.report.same("the blocks of 150,000 bytes", (len(it.heads), len(it.blocks)), (5, 293))
    for loose in LOOSE:
        image = it.wiped([it.heads[nth] for nth in loose.wiped])
        for nth, link in loose.links.items():
            image.change(it.heads[nth], 126, it.heads[link] if link else 0)
        said = f"extension blocks, {loose.wiped} wiped, links {loose.links}"
        there = placed(loose.parts, 293)
        state = f"broken {293 - len(there)}" if len(there) < 293 else "doubtful"
        held = b"".join(it.data[BLOCK * there[at] :][:BLOCK] if at in there else bytes(BLOCK) for at in range(max(there) + 1))[:150_000]
        room.report.same(said, taken(room, image), Taken(3, {"wide": state}, {"wide": held}))
        rest = sorted({*(it.heads[nth] for nth in loose.wiped), *it.blocks} - {it.blocks[number] for number in there.values()})
        room.report.same(f"{said}: what belongs to nothing", unaccounted(room), rest)


def put_right(room: Room) -> None:
    """The header of an entry, of which a bit of a type or of its own number is another one, is doubtful, and nothing is lost."""
    for kind in KINDS:
        files = filled(room, "fields.adf", *kind)
        good, whole = Volume(room.content("fields.adf")), {it: "whole" for it in files}
        for name, path in (("long", "Docs/long"), ("text", "Docs/Deep/text"), ("Deep", "Docs/Deep/"), ("Docs", "Docs/")):
            block = good.header(name)
            for at, bit in ((0, 0), (0, 3), (0, 31), (1, 1), (1, 9), (1, 30), (127, 0), (127, 2), (127, 31)):
                image = Volume(good.data)
                image.put(block, at, image.long(block, at) ^ 1 << bit)
                said = f"bit {bit} of long {at} of {name} {kind}"
                room.report.same(said, taken(room, image), Taken(3, {**whole, path: "doubtful"}, files))
                texts = room.run("extract", "--damaged", "--list", "damaged.adf").texts
                reason = f"adf_serve: '{path.removesuffix('/')}' is doubtful: block {block} has a wrong checksum".encode()
                room.report.same(f"{said}: why", (doubts_told(texts), unaccounted(room)), ([reason], []))


def not_put_right(room: Room) -> None:
    """Two wrong fields, a field and another long, a field with a right checksum, a name that is not valid or a place of another directory:
    the entry stays lost."""
    for kind in KINDS:
        files = filled(room, "fields.adf", *kind)
        good = Volume(room.content("fields.adf"))
        block, docs = good.header("Deep"), good.header("Docs")
        files = {"lost+found/text" if it == "Docs/Deep/text" else it: data for it, data in files.items()}
        found = {it: "found whole" if it.startswith("lost+found/") else "whole" for it in files}
        longs = {0: 3, 1: block ^ 1, 127: 6, 90: 1, 5: good.long(block, 5) ^ 1, 125: good.long(docs, 125), 108: 0}
        rows = [(0, 1), (0, 127), (1, 127), (0, 1, 127), (0, 90), (1, 90), (127, 90), (0, 5), (1, 5), (127, 5), (0, 125), (0, 108), (1, 108), (127, 108)]
        for row in rows:
            image = Volume(good.data)
            for at in row:
                image.put(block, at, longs[at])
            if 125 in row or 108 in row:
                # (the checksum comes right with the due field)
                image.put(block, 5, image.long(block, 5) - image.sum(block) + longs[row[0]] - good.long(block, row[0]))
            path = f"Docs/block-{block}" if 108 in row else "Docs/Deep"
            room.report.same(f"longs {row} of a directory {kind}", taken(room, image), Taken(3, {**found, path: "lost"}, files))
        for at in (0, 1, 127):
            image = Volume(good.data)
            image.change(block, at, longs[at])
            room.report.same(f"long {at} of a directory with its checksum {kind}", taken(room, image), Taken(3, {**found, "Docs/Deep": "lost"}, files))


def data_like_a_header(room: Room) -> None:
    """The bytes of an FFS file that look like a header with one wrong field stay as they are."""
    files = filled(room, "like.adf", "--ffs")
    image = Volume(room.content("like.adf"))
    block = image.pointers(image.header("top"))[2]
    image.put_all(block, 0, [HEADER, block])
    image.put_all(block, 127, [FILE])
    image.data[BLOCK * block + 432 : BLOCK * block + 435] = b"\2no"
    image.settle(block)
    image.data[BLOCK * block : BLOCK * block + 4] = b"last"
    image.put(image.header("text"), 1, 9)
    files["top"] = files["top"][:1024] + bytes(image.data[BLOCK * block : BLOCK * (block + 1)])[: len(files["top"]) - 1024]
    wanted = {**{it: "whole" for it in files}, "Docs/Deep/text": "doubtful"}
    room.report.same("data that looks like a header", taken(room, image), Taken(3, wanted, files))


def salvage(room: Room) -> None:
    for kind in KINDS:
        tried = Salvage(room, kind)
        tried.accepted()
        if not tried.is_ffs:
            tried.lost_data_block()
        tried.lost_root()
        tried.cut_chains()
        tried.shared_block()
        tried.lost_extension()
        tried.unused_page()
        tried.noted()


# ---- one damage alone, with files around it


def based(room: Room, path: str, kind: Sequence[str], size: int) -> Files:
    """An image with the directories A and DP in blocks 2 and 3, the file A/f with a size in block 4, and files around
    these."""
    files = {
        "A/f": random.randbytes(size),
        "S/startup-sequence": b"echo hello\n",
        "S/Deep/text": random.randbytes(3_000),
        "S/empty": b"",
        "top": random.randbytes(40_000),
    }
    put_files(room, "around", files)
    room.done("blank", *kind, "Work", path)
    room.done("mkdir", path, "A", "DP")
    room.done("add", "--to", "A", path, "around/A/f")
    room.done("add", path, "around/S", "around/top")
    return files


class Damage(NamedTuple):
    """A changed long of a block, the check's possible results, and whether A/f is whole. The block's checksum is then
    set or left."""

    name: str
    block: int
    at: int
    value: int
    answers: List[str]
    is_whole: bool = True
    is_settled: bool = True


def damages_of(good: Volume, is_ffs: bool) -> List[Damage]:
    name = good.long(ROOT, 108) & 0xFF_FFFF
    extension, second = good.long(4, 126), good.long(4, 76)
    itself = [f"BadCount {extension}", f"BlockUsedTwice {extension}"]
    every = [
        Damage("no disk of DOS", 0, 0, good.long(0, 0) & 0xFF_FFFF, ["NotADosDisk 0"], True, False),
        Damage("size of the table", ROOT, 3, 71, ["BadType 880"]),
        Damage("type of an extension block", extension, 0, 2, [f"BadType {extension}"], False),
        Damage("own key of a directory", 2, 1, 3, ["BadOwnKey 2"]),
        Damage("parent of an extension block", extension, 125, ROOT, [f"BadParent {extension}"], False),
        Damage("a slot that is too low", ROOT, 6, 1, ["BadPointer 880"]),
        Damage("a slot that is too high", ROOT, 6, 1_760, ["BadPointer 880"]),
        Damage("a chain that goes round", 3, 124, 2, ["BlockUsedTwice 2"]),
        Damage("another letter", 2, 108, 0x0142_0000, ["WrongChain 2"]),
        Damage("a name twice", 3, 108, 0x0161_0000, ["DuplicateName 2", "DuplicateName 3"]),
        Damage("a root without a name", ROOT, 108, name, ["BadName 880"]),
        Damage("a root with a long name", ROOT, 108, name | 31 << 24, ["BadName 880"]),
        Damage("a long comment", 2, 82, 80 << 24, ["BadComment 2"]),
        Damage("an extension block that names itself", extension, 126, extension, itself, False),
        Damage("a link", 3, 127, 4, ["LinkEntry 3"]),
        Damage("the root's sum", ROOT, 5, good.long(ROOT, 5) + 1, ["BadSum 880"], True, False),
    ]
    if is_ffs:
        kind = Damage("another kind of DOS", 0, 0, 0x444F_5307, ["UnsupportedKind 0"], True, False)
        return [*every, kind, Damage("a size of fewer blocks", 4, 81, 36_864, ["BadCount 4"], False)]
    parent = Damage("header of a data block", second, 1, 2, [f"BadParent {second}"], False)
    return [*every, parent, Damage("number of a data block", second, 2, 1, [f"BadSequence {second}"], False)]


def rows(room: Room) -> None:
    """The check's result for each damage, and the rescue: whether A/f is whole, and everything around it is unchanged."""
    sizes: List[Tuple[List[str], int]] = [(["--ffs"], 36_865), ([], 35_137)]
    for kind, size in sizes:
        files = based(room, "based.adf", kind, size)
        good = Volume(room.content("based.adf"))
        room.report.same(f"{kind} the base", (good.name(2), good.name(3), good.name(4)), ("A", "DP", "f"))
        for damage in damages_of(good, bool(kind)):
            image = Volume(good.data)
            image.put(damage.block, damage.at, damage.value)
            if damage.is_settled:
                image.settle(damage.block)
            try_damage(room, f"{kind[0] if kind else '--ofs'}, {damage.name}", image, files, damage)


def try_damage(room: Room, name: str, image: Volume, files: Files, damage: Damage) -> None:
    told = taken(room, image)
    ran = room.run("check", "damaged.adf")
    line = ran.output.decode().removeprefix("refused ").rstrip("\n")
    is_said = ran.status == 3 and line in damage.answers
    room.report.expect(f"{name}: what the check says", is_said, f"{ran[:2]} where {damage.answers} is expected")
    states = {path.rsplit("/", 1)[-1]: state for path, state in told.lines.items()}
    whole = sorted(data for path, data in told.written.items() if states[path.rsplit("/", 1)[-1]].endswith("whole"))
    wanted = sorted(data for path, data in files.items() if damage.is_whole or path != "A/f")
    room.report.same(f"{name}: what is whole", [len(it) for it in whole], [len(it) for it in wanted])
    room.report.expect(f"{name}: its bytes", whole == wanted, "other bytes than were there")
    is_left = states["f"].split()[-1] == "doubtful" or states["f"].split()[-2:-1] == ["broken"]
    room.report.same(f"{name}: the rest is not whole", (is_left, told.status), (not damage.is_whole, 3))


# ---- random and systematic damage: files reported as whole have their old bytes


class Struck(NamedTuple):
    """A damaged image: its name, its bytes, the original files, and in FFS the sizes of files with damaged data, which
    no checksum shows."""

    number: object
    data: bytes
    files: Files
    sizes: Set[int]


def untrue(room: Room, job: Struck) -> Optional[str]:
    """What is wrong with the rescue of a damaged image: a file reported as whole has other bytes than any original
    file, except in FFS one with damaged data; or an undefined status."""
    at = f"damaged{os.getpid()}"
    shutil.rmtree(at, ignore_errors=True)
    room.write(f"{at}.adf", job.data)
    ran = room.run("extract", "--damaged", "--to", at, f"{at}.adf")
    if ran.status not in (0, 3) or any(b"' is doubtful: " not in it for it in doubts_told(ran.texts)):
        return f"image {job.number}: status {ran.status}, {ran.texts[:200]!r}"
    for line in ran.output.split(b"\n"):
        if line.startswith((b"whole ", b"found whole ")):
            path = os.path.join(at, os.fsdecode(line.split(b"whole ", 1)[1]))
            if os.path.isdir(path):
                continue
            found = room.content(path)
            if found not in job.files.values() and len(found) not in job.sizes:
                return f"image {job.number}: {path} is told as whole with other bytes"
    return None


def mistaken(room: Room, job: Struck) -> Optional[str]:
    """What is wrong with `serve` without packets on a damaged image. It must be refused with nothing written, or be
    accepted and written unchanged unless its root says that the bitmap is not valid."""
    at = f"changed{os.getpid()}"
    room.write(f"{at}.adf", job.data)
    room.write(f"{at}.script")
    room.write(f"{at}.out")
    ran = room.run("serve", "--out", f"{at}.out", f"{at}.adf", f"{at}.script")
    written = room.content(f"{at}.out")
    if ran.status == 3:
        is_told = ran.output.startswith(b"refused ") and written == b""
        return None if is_told else f"image {job.number}: refused as {ran.output!r}, {len(written)} bytes written"
    is_valid = Image(job.data).long(len(job.data) // BLOCK // 2, 78) == ALL_ONES
    if ran != (0, b"", b"") or len(written) != len(job.data) or is_valid and written != job.data:
        return f"image {job.number}: status {ran.status}, {ran.output[:200]!r}, {ran.texts[:200]!r}, or other bytes than it had"
    return None


class Flawed(NamedTuple):
    """An image with a single damage: its name, its bytes, the files whose header was not hit, and for those of them whose other
    blocks were not hit their bytes."""

    number: object
    data: bytes
    names: List[str]
    files: Files


def silent(room: Room, job: Flawed) -> Optional[str]:
    """What is wrong with the account of an image with a single damage: it is not that of the model, a file has no line, a file that was
    not hit has other bytes, or standard error does not name just what is doubtful, and the blocks that belong to nothing."""
    at = f"flawed{os.getpid()}"
    shutil.rmtree(at, ignore_errors=True)
    room.write(f"{at}.adf", job.data)
    ran = room.run("extract", "--damaged", "--to", at, f"{at}.adf")
    lines = ran.output.decode().splitlines()
    status, wanted, rest = account_of(job.data)
    if (ran.status, lines) != (status, wanted):
        return f"image {job.number}: {ran.status} {lines} where {status} {wanted} is expected"
    doubtful = doubts_told(ran.texts)
    told = {re.split("[ /]", line.removesuffix("/"))[-1] for line in lines}
    silent = [it for it in job.names if it.rsplit("/", 1)[-1] not in told]
    doubts = sum("doubtful " in it for it in lines)
    if silent or len(doubtful) != doubts or any(b"' is doubtful: " not in it for it in doubtful) or rest_told(ran.texts) != rest_text(rest):
        return f"image {job.number}: no line for {silent}, {ran}"
    written = [room.content(os.path.join(top, name)) for top, _, names in os.walk(at) for name in names]
    other = [path for path, data in job.files.items() if data not in written]
    return f"image {job.number}: other bytes than {other}" if other else None


class Damages:
    """The damages of one volume, and for each data block the size of its file."""

    def __init__(self, room: Room, kind: Sequence[str]) -> None:
        self.room, self.report = room, room.report
        self.is_ffs = bool(kind)
        self.files = filled(room, "damages.adf", *kind, "--blocks", "200")
        self.good = room.content("damages.adf")
        self.holders = self.data_holders()

    def data_holders(self) -> Dict[int, int]:
        image = Volume(self.good)
        held = {}
        for path, data in self.files.items():
            block = image.header(path.rsplit("/", 1)[-1])
            while block:
                for pointer in image.pointers(block):
                    held[pointer] = len(data)
                block = image.long(block, 126)
        return held

    def struck(self, number: object, data: bytes, blocks: Iterable[int] = ()) -> Struck:
        """An image with these blocks damaged."""
        sizes = {self.holders[it] for it in blocks if it in self.holders and self.is_ffs}
        return Struck(number, data, self.files, sizes)

    def noise(self) -> Iterator[Struck]:
        """One track after another, 22 blocks, becomes noise."""
        for number, first in enumerate(range(2, len(self.good) // BLOCK - 22, 22)):
            data = bytearray(self.good)
            data[BLOCK * first : BLOCK * (first + 22)] = random.Random(number).randbytes(22 * BLOCK)
            yield self.struck(number, bytes(data), range(first, first + 22))

    def changed(self, first: int, volumes: int) -> Iterator[Struck]:
        """One to eight bytes from this one on are changed in each of so many volumes."""
        for number in range(volumes):
            chance = random.Random(number)
            data = bytearray(self.good)
            places = [chance.randrange(first, len(data)) for _ in range(chance.randint(1, 8))]
            for place in places:
                data[place] ^= chance.randint(1, 255)
            yield self.struck(number, bytes(data), [it // BLOCK for it in places])

    def swept(self) -> Iterator[Struck]:
        """Each long of the root, the bitmap block, each header, the extension block and a data block is changed, to one of three values by
        turns: a wrong checksum does not tell them apart. In OFS, where each block names its file, the checksum is also set right, with
        another one of the three."""
        image = Volume(self.good)
        root = image.blocks // 2
        page = image.long(root, 79)
        headers = [it for it in range(2, image.blocks) if image.long(it, 1) == it and image.long(it, 0) in (2, 16)]
        of_data = [] if self.is_ffs else [image.pointers(image.header("long"))[1]]
        for block in [root, page, *headers, *of_data]:
            for at in range(128):
                values = (0, image.long(block, at) + 1, ALL_ONES)
                is_left = self.is_ffs or at == 5 or block in of_data and at > 5
                turn = (block + at) % 3
                for value, is_settled in [(values[turn], False), *([] if is_left else [(values[turn - 1], True)])]:
                    other = Volume(self.good)
                    other.put(block, at, value)
                    if is_settled:
                        other.settle(block, 0 if block == page else 5)
                    yield self.struck((block, at, value, is_settled), bytes(other.data))

    def entries(self) -> Dict[int, str]:
        """The names of the entries by their headers."""
        image = Volume(self.good)
        headers = [it for it in range(2, image.blocks) if image.long(it, 1) == it and image.long(it, 0) == 2]
        return {it: image.name(it) for it in headers}

    def owners(self) -> Dict[int, str]:
        """The name of the file of each data block and extension block."""
        image = Volume(self.good)
        owners: Dict[int, str] = {}
        for path in self.files:
            name = path.rsplit("/", 1)[-1]
            block = image.header(name)
            while block:
                owners |= {it: name for it in [block, *image.pointers(block)]}
                block = image.long(block, 126)
        return owners

    def flawed(self, number: object, data: bytes, block: int) -> Flawed:
        """An image in which this block was damaged."""
        header, owner = self.entries().get(block), self.owners().get(block)
        names = [path for path in self.files if path.rsplit("/", 1)[-1] != header]
        return Flawed(number, data, names, {path: data for path, data in self.files.items() if path.rsplit("/", 1)[-1] not in (header, owner)})

    def flipped(self) -> Iterator[Flawed]:
        """One bit in each long of the root, the bitmap block, each header, the extension block and two data blocks."""
        image = Volume(self.good)
        root, long = image.blocks // 2, image.header("long")
        for block in [root, image.long(root, 79), *self.entries(), image.long(long, 126), *image.pointers(long)[:2]]:
            for at in range(128):
                bit = (13 * block + 7 * at) % 32
                other = Volume(self.good)
                other.put(block, at, image.long(block, at) ^ 1 << bit)
                yield self.flawed((block, at, bit), bytes(other.data), block)

    def zeroed(self) -> Iterator[Flawed]:
        """Each block behind the boot blocks becomes zeros."""
        for block in range(2, len(self.good) // BLOCK):
            other = Volume(self.good)
            other.clear(block)
            yield self.flawed(block, bytes(other.data), block)

    def all_true(self, name: str, jobs: Iterable[T], fault_in: Callable[[Room, T], Optional[str]]) -> None:
        with multiprocessing.Pool() as pool:
            faults = [it for it in pool.imap_unordered(partial(fault_in, self.room), jobs, 50) if it]
        self.report.hold(name, f"{len(faults)}, as {faults[0]}" if faults else None)


def damages(room: Room) -> None:
    for kind in KINDS:
        said = kind[0] if kind else "--ofs"
        tried = Damages(room, kind)
        tried.all_true(f"salvage {said}: each track that is noise", tried.noise(), untrue)
        tried.all_true(f"salvage {said}: {DAMAGED} volumes with a few changed bytes behind the boot blocks", tried.changed(2 * BLOCK, DAMAGED), untrue)
        tried.all_true(f"serve {said}: {DAMAGED // 2} volumes with a few changed bytes", tried.changed(0, DAMAGED // 2), mistaken)
        tried.all_true(f"salvage {said}: each long that is another", tried.swept(), untrue)
        tried.all_true(f"salvage {said}: a bit in each long", tried.flipped(), silent)
        tried.all_true(f"salvage {said}: each block of zeros", tried.zeroed(), silent)


# ---- deleted entries


class Deleting(Filling):
    """Draws a volume, and leaves deleted entries in its free blocks."""

    def leave(self, most: int) -> int:
        """Leaves at most so many deleted entries. Live files have data blocks of the files, and a directory names any blocks. How many
        there are."""
        live = sorted(self.held)
        left = 0
        while left < most and len(self.unused) > 12:
            key, data = self.take(), [self.take() for _ in range(self.chance.randrange(5))]
            is_directory = self.chance.random() < 0.3
            self.put_all(key, 0, [HEADER, key])
            self.put_text(key, 432, self.name())
            self.put(key, 125, self.root)
            self.put(key, 127, DIRECTORY if is_directory else FILE)
            if is_directory:
                self.put_all(key, 6, [self.chance.randrange(2, self.blocks) for _ in range(72)])
            else:
                self.put_bytes(key, data, self.chance.randbytes(self.room * len(data)))
                for at, block in enumerate(self.chance.sample(live, min(len(data), len(live), self.chance.randrange(5)))):
                    self.put(key, 77 - at, block)
            self.settle(key)
            left += 1
        return left

    def misplace(self) -> bool:
        """Renames an entry of the root in its block, which is then in another hash chain than that of its name."""
        for at in range(72):
            key = self.long(self.root, 6 + at)
            names = [bytes([first]) + self.text(key, 432)[1:] for first in b"abcdefgh"] if key else []
            others = [it for it in names if slot_of(it) != at]
            if others:
                self.put_text(key, 432, others[0])
                self.settle(key)
                return True
        return False


class Left(NamedTuple):
    """How deleted entries are told: the status, how many lines start with each word, the last lines, which tell of no entry, the blocks that
    standard error names, and the bytes of the files in order."""

    status: int
    whole: int
    found: int
    others: int
    last: List[bytes]
    rest: bytes
    written: List[bytes]


def left_in(room: Room, data: bytes) -> Left:
    shutil.rmtree("left", ignore_errors=True)
    room.write("left.adf", data)
    ran = room.run("extract", "--damaged", "--to", "left", "left.adf")
    lines, last = account_lines(ran.output)
    whole = sum(it.startswith(b"whole ") for it in lines)
    found = sum(it.startswith(b"found ") and not it.startswith(b"found lost ") for it in lines)
    written = [room.content(os.path.join(top, name)) for top, _, names in os.walk("left") for name in names]
    return Left(ran.status, whole, found, len(lines) - whole - found, last, rest_told(ran.texts), sorted(written))


def last_lines(deleted: int, rest: List[int]) -> List[bytes]:
    """The last lines of a report: so many entries are deleted, and these blocks belong to nothing."""
    return [*[b"deleted %d" % deleted] * bool(deleted), *[b"unaccounted %d" % len(rest)] * bool(rest)]


def deleted_entries(room: Room) -> None:
    """Drawn volumes with deleted entries, whose blocks live files have now: accepted, and refused for one other fault. Then with a bitmap
    that is not valid, in which nothing is deleted."""
    faults, count = [], 0
    for seed in range(FILLED):
        volume = drawn(seed, Deleting)
        left = volume.leave(volume.chance.choice([1, 5, 200]))
        if volume.long(volume.root, 78) != ALL_ONES or not left:
            continue
        files = sorted(it.data for it in read(bytes(volume.data)).entries if it.data is not None)
        # (no entry but the deleted ones is lost, so what belongs to nothing is the same if the image is refused)
        rest = rest_of(bytes(volume.data))
        wanted = Left(0, len(files), 0, 0, last_lines(left, rest), rest_text(rest), files)
        accepted = left_in(room, bytes(volume.data))
        if not volume.misplace():
            continue
        refused = left_in(room, bytes(volume.data))
        volume.put(volume.root, 78, 0)
        volume.settle(volume.root)
        untrusted, rest = left_in(room, bytes(volume.data)), rest_of(bytes(volume.data))
        told = (untrusted.found, untrusted.last, untrusted.rest)
        if accepted != wanted or refused != wanted._replace(status=3) or told != (left, last_lines(0, rest), rest_text(rest)):
            faults.append((seed, wanted[:6], accepted[:6], refused[:6], untrusted[:6]))
        count += 1
    room.report.expect(f"{count} drawn volumes with deleted entries, whose blocks live files have", count > FILLED // 3 and not faults, faults[:1])


def main(words: List[str]) -> int:
    random.seed(3)
    parts = (named_images, directories, strange_names, listed, other_files, next_commands, filler_blocks, long_paths_of_fillers, largest_filled, drawn_fillers, parallel, accepted_objects, refused_objects, shown_values, texts_told, bounded, many_faults, shared_entries, shared_extensions, other_kinds, model, longs_told, salvage, salvaged_fillers, found_by_numbers, lowest_by_number, loose_extensions, put_right, not_put_right, data_like_a_header, rows, deleted_entries, damages)
    return try_all(words, Room, *parts)


if __name__ == "__main__":
    sys.exit(main(sys.argv[1:]))
