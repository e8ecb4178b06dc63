#!/usr/bin/env python3
"""Runs all commands that read an image over images that it damages by itself, as many as there is time for.

    tests/fuzz.py [PROGRAM] [--minutes N] [--jobs N] [--seed S] [--only NUMBER]

It draws accepted images of both formats and of several sizes with the program, and damages each many times: longs and bytes,
pointers to blocks of the same and of another role, chains that are cut or lead back, sizes, counts, names, the bitmap, whole
blocks, and the length of the file. In most of them it then sets the checksums right. Each image is determined by the seed and by
its number. A failure names both and keeps the image; `--seed S --only NUMBER` tries it alone.

Each command has to end with a documented status, within 2 seconds of processor time and 300 MB. What `check` prints is compared
with the model in tests/all_faults_model.py, what the others print with each other, and the files of accepted images with those of
`unadf`, if it is installed.
"""
from __future__ import annotations

import argparse
import json
import multiprocessing
import os
import random
import resource
import shutil
import signal
import subprocess
import sys
import tempfile
import time
import unicodedata
from collections import defaultdict
from functools import partial
from pathlib import Path
from typing import Callable, Dict, List, NamedTuple, Optional, Sequence, Set, Tuple

sys.dont_write_bytecode = True

from all_faults_model import KINDS, LINKS, MOST, Model
from harness import BLOCK, MOMENT, Image, Report, Room, in_memory, program_of

# The bounds of a run: seconds of processor time, seconds until it is killed, and bytes of memory.
LONGEST, HANGS, MEMORY = 2.0, 60, 300 << 20
FEWEST, LARGEST = 16, 101_602
# How many damaged images are made of one that is accepted.
PER_BASE = 25
ALL_ONES, DIRECTORY, FILE = 2**32 - 1, 2, 2**32 - 3
# Longs of a block that have a meaning, and values that are at the edge of one.
LONGS = [0, 1, 2, 3, 4, 5, 6, 77, 76, 78, 79, 80, 81, 82, 104, 108, 124, 125, 126, 127]
EDGES = [0, 1, 2, 3, 4, 8, 16, 71, 72, 73, 488, 512, 0x7FFFFFFF, 0x80000000, ALL_ONES, FILE, 2**32 - 4]
# Files from none to more blocks than a header and an extension block name.
SIZES = [0, 1, 487, 488, 489, 511, 512, 513, 3_000, 72 * 488, 72 * 488 + 1, 72 * 512, 72 * 512 + 1, 145 * 512]
# The files of a host by their paths; a directory has None.
Tree = Dict[str, Optional[bytes]]


class Ran(NamedTuple):
    """How a command ended, and what it took: seconds of processor time and bytes of memory."""

    status: int
    output: bytes
    texts: bytes
    seconds: float
    memory: int


class Base(NamedTuple):
    """An accepted image, and whether all of its names have only letters and digits."""

    data: bytes
    is_plain: bool


class Fault(NamedTuple):
    """What is wrong, and with which image."""

    number: int
    what: str


def measured(words: Sequence[str]) -> Ran:
    """Runs a command to its end, or kills it after a minute."""
    with tempfile.TemporaryFile() as output, tempfile.TemporaryFile() as texts:
        began = subprocess.Popen(words, stdin=subprocess.DEVNULL, stdout=output, stderr=texts)
        signal.signal(signal.SIGALRM, lambda *_: began.kill())
        signal.alarm(HANGS)
        status, used = os.wait4(began.pid, 0)[1:]
        signal.alarm(0)
        began.returncode = os.WEXITSTATUS(status) if os.WIFEXITED(status) else -os.WTERMSIG(status)
        output.seek(0)
        texts.seek(0)
        return Ran(began.returncode, output.read(), texts.read(), used.ru_utime + used.ru_stime, used.ru_maxrss * 1024)


# ---- accepted images


def name_of(chance: random.Random, is_plain: bool) -> str:
    """A name of the host, which stands for at most 30 bytes."""
    letters = "abcdefghijklmnopqrstuvwxyzABCDEFGHIJKLMNOPQRSTUVWXYZ0123456789"
    odd = [" ", ".", "-", "!", "'", '"', "*", "\u00e4", "\u00ff", "\u00c9", "%1B", "%0A", "%7F", "%9B", "%25", "%5C"]
    drawn = [chance.choice(letters if is_plain or chance.random() < 0.6 else odd) for _ in range(chance.choice([1, 1, 2, 5, 12, 29, 30]))]
    return "".join([chance.choice(letters), *drawn[1:]])


def tree_of(chance: random.Random, most: int, is_plain: bool) -> Tree:
    """Directories and files, of no more bytes than this. No two names differ only in case."""
    tree: Tree = {}
    taken: Set[str] = set()
    above = [""]
    for _ in range(chance.choice([0, 3, 12, 40])):
        path = chance.choice(above) + name_of(chance, is_plain)
        if path.lower() in taken:
            continue
        taken.add(path.lower())
        if chance.random() < 0.3 and path.count("/") < 8:
            tree[path] = None
            above.append(f"{path}/")
            continue
        size = chance.choice(SIZES)
        if size + BLOCK <= most:
            tree[path] = chance.randbytes(size)
            most -= size + 2 * BLOCK
    return tree


def put_tree(top: Path, tree: Tree) -> None:
    for path, data in tree.items():
        if data is None:
            (top / path).mkdir()
        else:
            (top / path).write_bytes(data)


def base_of(room: Room, seed: str, number: int) -> Base:
    """An accepted image, drawn by the program."""
    chance = random.Random(f"{seed} base {number}")
    is_plain = chance.random() < 0.5
    blocks = chance.choice([40, 64, 200, 880, 1_760, 1_760, 1_761, 4_070])
    kind: List[str] = ["--ffs"] if chance.random() < 0.5 else []
    room.done("blank", *kind, "--blocks", str(blocks), *MOMENT, name_of(chance, True), "base.adf")
    shutil.rmtree("tree", ignore_errors=True)
    os.mkdir("tree")
    tree = tree_of(chance, (blocks - 30) * 400, is_plain)
    put_tree(Path("tree"), tree)
    tops = sorted(os.listdir("tree"))
    if tops:
        room.done("add", *MOMENT, "base.adf", *(f"tree/{it}" for it in tops))
    for it in tops[:2]:
        path = it if is_plain else ""
        if path:
            room.done("comment", *MOMENT, "base.adf", path, "x" * chance.choice([1, 40, 79]))
            room.done("protect", *MOMENT, "base.adf", path, chance.choice(["rwed", "r", "hsparwed", "+s", "-w", "=rwed", "s--rwed"]))
    return Base(room.content("base.adf"), is_plain)


# ---- damage


class Damaged(Image):
    """An image while it is damaged. It knows the roles of blocks and the places of pointers of the accepted image."""

    def __init__(self, base: Base, chance: random.Random) -> None:
        super().__init__(base.data)
        self.chance, self.touched = chance, {0}
        sound = Model(base.data)
        self.places = sound.places
        self.roles: Dict[str, List[int]] = defaultdict(list)
        for block, role in sorted(sound.reached):
            self.roles[role.what].append(block)
        self.used = sorted({block for block, _ in sound.reached})
        self.headers = [*self.roles["root"], *self.roles["entry"]]

    def role(self, block: int) -> str:
        return next((what for what, blocks in self.roles.items() if block in blocks), "free")

    def change(self, block: int, at: int, value: int) -> None:
        self.put(block, at, value)
        self.touched.add(block)

    def value(self) -> int:
        """A number that a long may have, also one that it should not."""
        chance = self.chance
        drawn = [chance.choice(EDGES), chance.choice(self.used), chance.randrange(self.blocks), self.blocks, self.blocks - 1, self.root]
        return chance.choice([*drawn, chance.randrange(2**32)])

    def mend(self) -> None:
        """Sets the checksums of most changed blocks right."""
        for block in self.touched - {0}:
            if self.chance.random() < 0.85 and (self.ofs or block not in self.roles["data"]):
                self.settle(block, 0 if block in self.roles["page"] else 5)


def a_long(image: Damaged) -> None:
    image.change(image.chance.choice(image.used), image.chance.choice([*LONGS, image.chance.randrange(128)]), image.value())


def some_bytes(image: Damaged) -> None:
    for _ in range(image.chance.randint(1, 8)):
        block = image.chance.choice([0, *image.used])
        image.data[BLOCK * block + image.chance.randrange(4 if block == 0 else BLOCK)] ^= image.chance.randint(1, 255)
        image.touched.add(block)


def a_pointer(image: Damaged) -> None:
    """A pointer leads to another block of its role, or of another one."""
    holder, at, named = image.chance.choice(image.places)
    alike = image.roles.get(image.role(named), image.used)
    image.change(holder, at, image.chance.choice([image.chance.choice(alike), image.chance.choice(image.used), image.value()]))


def a_chain(image: Damaged) -> None:
    """A chain of entries or extension blocks is cut, or leads back, or into another one."""
    links = [it for it in image.places if it[1] in (124, 126)] or image.places
    holder, at, named = image.chance.choice(links)
    others = image.roles[image.role(named)]
    image.change(holder, at, image.chance.choice([0, holder, named, *image.chance.sample(others, min(3, len(others)))]))


def a_parent(image: Damaged) -> None:
    """An entry has another parent, which may be below it, or itself; or another own key."""
    block = image.chance.choice(image.headers)
    image.change(block, image.chance.choice([125, 125, 1]), image.chance.choice([block, image.value(), *image.headers]))


def a_size(image: Damaged) -> None:
    """The size of a file, the number of its pointers, or in OFS what a data block says of itself."""
    block = image.chance.choice(image.roles["entry"] or image.headers)
    at = image.chance.choice([81, 81, 2, 4])
    if image.ofs and image.roles["data"] and image.chance.random() < 0.4:
        block, at = image.chance.choice(image.roles["data"]), image.chance.choice([1, 2, 3, 4])
    now = image.long(block, at)
    image.change(block, at, image.chance.choice([now + 1, now - 1, now + 512, image.chance.choice(EDGES)]))


def a_name(image: Damaged) -> None:
    """A name or a comment of another length, with other letters, or that of another entry."""
    block = image.chance.choice(image.headers)
    start = BLOCK * block + image.chance.choice([432, 432, 328])
    part = image.chance.random()
    if part < 0.3:
        image.data[start] = image.chance.choice([0, 1, 29, 30, 31, 79, 80, 255])
    elif part < 0.7:
        image.data[start + 1 + image.chance.randrange(30)] = image.chance.choice([0, 10, 27, 47, 58, 65, 97, 127, 155, 228])
    else:
        other = BLOCK * image.chance.choice(image.headers) + 432
        image.data[start : start + 31] = image.data[other : other + 31]
    image.touched.add(block)


def a_page(image: Damaged) -> None:
    """Bits of the bitmap, whether it is valid, or where it is."""
    if image.chance.random() < 0.3:
        image.change(image.root, image.chance.choice([78, 79, 80, 104]), image.chance.choice([0, 1, ALL_ONES, image.value()]))
    else:
        page = image.chance.choice(image.roles["page"])
        image.change(page, image.chance.randrange(128), image.chance.choice([0, ALL_ONES, image.chance.randrange(2**32)]))


def a_type(image: Damaged) -> None:
    kinds = [0, 1, 2, 3, 8, 16, 33, FILE, 2**32 - 5, *LINKS]
    image.change(image.chance.choice(image.used), image.chance.choice([0, 127]), image.chance.choice(kinds))


def a_block(image: Damaged) -> None:
    """A whole block is another one, is empty, or is noise."""
    block, other = (BLOCK * image.chance.choice(image.used) for _ in range(2))
    ones = bytes(image.data[block : block + BLOCK])
    others = bytes(image.data[other : other + BLOCK])
    image.data[block : block + BLOCK] = image.chance.choice([others, others, bytes(BLOCK), image.chance.randbytes(BLOCK)])
    if image.chance.random() < 0.5:
        image.data[other : other + BLOCK] = ones


def the_kind(image: Damaged) -> None:
    image.data[:4] = image.chance.choice([b"DOS\0", b"DOS\1", b"DOS\2", b"DOS\7", b"dos\0", b"KICK", bytes(4)])


def the_length(image: Damaged) -> None:
    """The file is cut, or goes on."""
    chance, size = image.chance, len(image.data)
    sizes = [size - 1, size + 1, size - BLOCK, size + BLOCK, BLOCK * (FEWEST - 1), BLOCK * FEWEST, chance.randrange(2 * size), 0]
    wanted = chance.choice(sizes)
    image.data = bytearray((bytes(image.data) + chance.randbytes(max(0, wanted - size)))[:wanted])


DAMAGES: List[Callable[[Damaged], None]] = [a_long, some_bytes, a_pointer, a_chain, a_parent, a_size, a_name, a_page, a_type, a_block]


def damaged(base: Base, seed: str, number: int) -> bytes:
    """An image with up to four damages. One in thirty has none."""
    chance = random.Random(f"{seed} image {number}")
    image = Damaged(base, chance)
    for _ in range(0 if chance.random() < 0.03 else chance.choice([1, 1, 1, 2, 3, 4])):
        chance.choice(DAMAGES)(image)
    if chance.random() < 0.03:
        the_kind(image)
    image.mend()
    if chance.random() < 0.03:
        the_length(image)
    return bytes(image.data)


# ---- what the model says


class Told(NamedTuple):
    """What the definitions say of an image: all its faults as lines, or `ok`."""

    accepted: Optional[bytes]
    faults: List[str]


def told_of(data: bytes) -> Told:
    blocks = len(data) // BLOCK
    if len(data) % BLOCK:
        return Told(None, ["NotWholeBlocks 0"])
    if blocks < FEWEST or blocks > LARGEST:
        return Told(None, ["TooFewBlocks 0" if blocks < FEWEST else "TooManyBlocks 0"])
    model = Model(data)
    faults = [f"{KINDS[kind]} {block}" for block, kind in model.all_faults()]
    is_valid = model.long(model.root, 78) == ALL_ONES
    return Told(None if faults else b"ok\n" if is_valid else b"ok validated\n", faults)


# ---- one image


SCRIPT = b"""diskinfo
locate 0 -2 ""
examine $2
next 0 $3
mkdir 0 "made here"
output 0 "made here/file"
write $6 "some bytes"
end $6
rename 0 "made here/file" 0 "moved"
delete 0 "made here"
free $2
"""


def controls_in(text: str) -> List[str]:
    """The control characters of a text, without line feeds."""
    return sorted({it for it in text if unicodedata.category(it) == "Cc" and it != "\n"})


def escaped(text: str) -> str:
    """A text for people: its control characters are escapes."""
    return "".join(f"%{ord(it):02X}" if unicodedata.category(it) == "Cc" else it for it in text)


def files_below(top: str) -> Tree:
    """The files and directories below a directory of the host."""
    found: Tree = {}
    for folder, folders, files in os.walk(top):
        for it in folders:
            found[os.path.relpath(f"{folder}/{it}", top)] = None
        for it in files:
            found[os.path.relpath(f"{folder}/{it}", top)] = Path(folder, it).read_bytes()
    return found


class Tried:
    """All commands over one image. A broken rule raises AssertionError."""

    def __init__(self, room: Room, base: Base, data: bytes) -> None:
        self.room, self.base, self.data, self.told = room, base, data, told_of(data)
        self.is_accepted = self.told.accepted is not None
        self.refused = b""
        room.write("image.adf", data)

    def run(self, *words: str) -> Ran:
        """Runs a command, within its bounds. Status 2 needs a fault of the host, and there is none."""
        ran = measured([str(self.room.program), *words])
        said = f"{' '.join(words)}: status {ran.status}, printed {ran.output[:200]!r}, on standard error {ran.texts[:200]!r}"
        assert ran.status in (0, 3), said
        assert ran.seconds <= LONGEST, f"{ran.seconds} seconds, {said}"
        assert ran.memory <= MEMORY, f"{ran.memory} bytes of memory, {said}"
        assert not controls_in(ran.texts.decode()), f"control characters on standard error, {said}"
        return ran

    def agrees(self, *words: str) -> Ran:
        """Runs a command that prints the refusal of `check`, or succeeds where that accepts the image."""
        ran = self.run(*words)
        refused = self.refused_object() if "--json" in words else self.refused
        wanted = (0, ran.output) if self.is_accepted else (3, refused)
        assert (ran.status, ran.output) == wanted, f"{' '.join(words)}: status {ran.status}, {ran.output[:200]!r} where {refused!r} is expected"
        return ran

    def refused_object(self) -> bytes:
        """What a command that prints JSON prints for a refused image."""
        if self.is_accepted:
            return b""
        _, kind, block = self.refused.decode().split()
        return json.dumps({"refused": {"kind": kind, "block": int(block)}}, separators=(",", ":")).encode() + b"\n"

    def checked(self) -> None:
        """`check` says what the model says."""
        ran = self.run("check", "image.adf")
        self.refused = ran.output
        if self.is_accepted:
            assert (ran.status, ran.output) == (0, self.told.accepted), f"check: {ran.output!r} where {self.told.accepted!r} is expected"
            return
        fault = ran.output.decode().removeprefix("refused ").rstrip("\n")
        is_one = ran.status == 3 and ran.output == f"refused {fault}\n".encode() and fault in self.told.faults
        assert is_one, f"check: {ran.output!r} where one of {self.told.faults[:9]} is expected"

    def all_checked(self) -> None:
        ran = self.run("check", "--all", "image.adf")
        wanted = [f"refused {it}" for it in self.told.faults[:MOST]] + ["more"] * (len(self.told.faults) > MOST)
        if self.told.accepted is not None:
            wanted = self.told.accepted.decode().splitlines()
        lines = ran.output.decode().splitlines()
        assert lines == wanted, f"check --all: {lines[:9]} where {wanted[:9]} is expected"

    def objects(self) -> Dict[str, object]:
        """`check --all --json`, which tells the same faults."""
        ran = self.run("check", "--all", "--json", "image.adf")
        told: Dict[str, object] = json.loads(ran.output)
        faults = told["faults"]
        assert isinstance(faults, list)
        found = [f"{it['kind']} {it['block']}" for it in faults]
        same = found[:MOST] == self.told.faults[:MOST] and told["ok"] is self.is_accepted
        assert same, f"check --all --json: {found[:9]} where {self.told.faults[:9]} is expected"
        for it in faults:
            self.has_values(it)
        return told

    def has_values(self, fault: Dict[str, object]) -> None:
        """What was found is a long of the fault's block, and another number than what is wanted."""
        found, block = fault["found"], fault["block"]
        assert isinstance(block, int) and (found is None or isinstance(found, int)), fault
        if found is not None:
            start = BLOCK * block
            longs = {self.data[at : at + 4] for at in range(start, start + BLOCK, 4)}
            assert found.to_bytes(4, "big") in longs and found != fault["wanted"], fault
        else:
            assert fault["wanted"] is None, fault

    def listed(self, told: Dict[str, object]) -> List[str]:
        """`list` has a line for each entry, and so have its other forms; those for people steer no terminal."""
        lines = self.agrees("list", "image.adf").output.count(b"\n")
        text, long, objects = (self.agrees("list", f"--{form}", "image.adf").output.decode() for form in ("letters", "long", "json"))
        bad = controls_in(text + long)
        assert not bad, f"list --letters or --long prints {bad}"
        if not self.is_accepted:
            return []
        entries = [told["files"], told["directories"]]
        names = text.split("\n")[1:-1]
        # (a line feed of a name is a line feed in the form that has raw bytes)
        assert lines > len(names) == sum(it for it in entries if isinstance(it, int)), f"list: {lines} lines for {entries}"
        assert long.count("\n") == len(names) + 1, f"list --long: {long}"
        paths = [str(json.loads(it)["path"]) for it in objects.split("\n")[:-1]]
        assert len(paths) == len(names) and all(name.endswith(" " + escaped(path)) for name, path in zip(names, paths)), f"list --json: {paths}"
        return names

    def taken_out(self) -> Tree:
        """`extract` writes the files, or none of an image that is refused."""
        shutil.rmtree("out", ignore_errors=True)
        self.agrees("extract", "--to", "out", "image.adf")
        found = files_below("out")
        assert self.is_accepted or not found, f"extract of an image that is refused wrote {sorted(found)[:5]}"
        return found

    def rescued(self, whole: Tree) -> None:
        """`extract --damaged` writes no more than five times the bytes of the image, and all of one that is accepted. Whatever else it
        writes of that is below `lost+found`."""
        shutil.rmtree("rescue", ignore_errors=True)
        ran = self.run("extract", "--damaged", "--to", "rescue", "image.adf")
        found = files_below("rescue")
        written = sum(len(data) for data in found.values() if data is not None)
        assert written <= 5 * len(self.data), f"extract --damaged wrote {written} bytes"
        if self.is_accepted:
            tree = {path: data for path, data in found.items() if path in whole or not path.startswith("lost+found")}
            assert (ran.status, tree) == (0, whole), f"extract --damaged: status {ran.status}, {len(tree)} of {len(whole)} entries"

    def printed(self, whole: Tree) -> None:
        """`print` of the first files of an accepted image, by paths without escapes."""
        self.agrees("info", "image.adf")
        booted = self.run("boot", "--show", "image.adf")
        wanted = (0, b"boot block: ") if len(self.data) >= 2 * BLOCK else (3, self.refused)
        assert (booted.status, booted.output[: len(wanted[1])]) == wanted, f"boot --show: status {booted.status}, {booted.output[:200]!r}"
        mapped = self.run("map", "image.adf")
        wanted = (0, b"") if self.is_accepted else (3, self.refused)
        assert (mapped.status, mapped.output[: len(wanted[1])]) == wanted, f"map: status {mapped.status}, {mapped.output[:200]!r}"
        self.placed()
        self.agrees("where", "--path", "", "image.adf")
        if not self.is_accepted:
            self.agrees("print", "image.adf", "any")
        for path in [it for it, data in sorted(whole.items()) if data is not None and not set('%:"\\') & set(it)][:2]:
            ran = self.run("print", "image.adf", path)
            # (a file that denies to be read is refused, and so is a path with an empty name)
            assert ran.output == whole[path] or ran.status == 3, f"print: {ran.output[:200]!r}"

    def placed(self) -> None:
        """`where` of blocks begins with the refusal of an image that is refused."""
        ran = self.run("where", "image.adf", "0", "15", "c0.h1.s3")
        front = b"" if self.is_accepted else self.refused
        assert (ran.status, ran.output[: len(front)]) == (0 if self.is_accepted else 3, front), f"where: status {ran.status}, {ran.output[:200]!r}"

    def served(self) -> None:
        """`serve` refuses what `check` refuses, and otherwise leaves an image that is accepted."""
        ran = self.run("serve", *MOMENT, "--out", "after.adf", "image.adf", "script")
        if self.is_accepted:
            assert ran.output.count(b"\n1.") == SCRIPT.count(b"\n") - 1, f"serve: {ran.output[:300]!r}"
            after = self.run("check", "after.adf")
            assert after.output == b"ok\n", f"after serve: {after.output!r}"
        else:
            assert ran.output == self.refused, f"serve: {ran.output[:300]!r} where {self.refused!r} is expected"

    def read_by_unadf(self, whole: Tree) -> None:
        """`unadf` reads the same files, where it reads the image at all. It starts at a header's first-data long, which in FFS
        means nothing."""
        model = Model(self.data)
        files = [block for block, role in model.reached if role.what == "entry" and model.long(block, 127) == FILE]
        if not self.base.is_plain or any(model.long(it, 4) != (model.data_of(it) or [0])[0] for it in files):
            return
        shutil.rmtree("other", ignore_errors=True)
        os.mkdir("other")
        ran = measured(["unadf", "image.adf", "-d", "other"])
        if ran.status == 0:
            # (its names of files have the bytes of the image's names)
            found = {os.fsencode(path).decode("latin-1"): data for path, data in files_below("other").items() if data is not None}
            wanted = {path: data for path, data in whole.items() if data is not None}
            differ = sorted(path for path in {*found, *wanted} if found.get(path) != wanted.get(path))
            assert not differ, f"unadf reads other bytes of {differ[:5]}"

    def all(self) -> None:
        self.checked()
        self.all_checked()
        told = self.objects()
        self.listed(told)
        whole = self.taken_out()
        self.rescued(whole)
        self.run("undelete", "--list", "image.adf")
        self.printed(whole)
        self.served()
        if self.is_accepted and shutil.which("unadf"):
            self.read_by_unadf(whole)


# ---- workers


class Done(NamedTuple):
    """What a worker tried: the numbers of accepted and of refused images, and the faults."""

    accepted: int
    refused: int
    faults: List[Fault]


def try_one(room: Room, base: Base, seed: str, number: int) -> Tuple[bool, Optional[Fault]]:
    """Whether the image with a number is accepted, and what is wrong. An image that shows a fault is kept."""
    data = damaged(base, seed, number)
    tried = Tried(room, base, data)
    try:
        tried.all()
    except Exception as fault:
        kept = Path(tempfile.gettempdir(), f"adf-fuzz-{seed}-{number}.adf")
        kept.write_bytes(data)
        return tried.is_accepted, Fault(number, f"--seed {seed} --only {number}, kept as {kept}: {str(fault)[:600] or repr(fault)}")
    return tried.is_accepted, None


def work(program: Path, seed: str, ends: float, workers: int, worker: int) -> Done:
    """Tries every image of each base in turn whose number belongs to this worker, until the time is over."""
    accepted, refused = 0, 0
    faults: List[Fault] = []
    with Room(program, inside=in_memory()) as room:
        room.write("script", SCRIPT)
        turn = worker
        while time.monotonic() < ends and len(faults) < 5:
            base = base_of(room, seed, turn)
            for number in range(turn * PER_BASE, (turn + 1) * PER_BASE):
                if time.monotonic() >= ends:
                    break
                is_accepted, fault = try_one(room, base, seed, number)
                accepted, refused = accepted + is_accepted, refused + (not is_accepted)
                faults += [fault] if fault else []
            turn += workers
    return Done(accepted, refused, faults)


def all_at_once(program: Path, seed: str, minutes: float, workers: int) -> Done:
    """So many workers side by side."""
    with multiprocessing.Pool(workers) as pool:
        done = pool.map(partial(work, program, seed, time.monotonic() + 60 * minutes, workers), range(workers), 1)
    return Done(sum(it.accepted for it in done), sum(it.refused for it in done), [it for found in done for it in found.faults])


def alone(program: Path, seed: str, number: int) -> Done:
    with Room(program, inside=in_memory()) as room:
        room.write("script", SCRIPT)
        is_accepted, fault = try_one(room, base_of(room, seed, number // PER_BASE), seed, number)
    return Done(int(is_accepted), int(not is_accepted), [fault] if fault else [])


def main(words: List[str]) -> int:
    parser = argparse.ArgumentParser(description="Runs the commands that read an image over damaged images.")
    parser.add_argument("program", nargs="*", help="the program to test")
    parser.add_argument("--minutes", type=float, default=0.25, help="how long (default: 0.25)")
    parser.add_argument("--jobs", type=int, default=len(os.sched_getaffinity(0)), help="how many images at a time (default: one for each processor)")
    parser.add_argument("--seed", default=str(random.randrange(10**6)), help="selects the images")
    parser.add_argument("--only", type=int, help="the number of the only image to try")
    given = parser.parse_args(words)
    program, report = program_of(given.program), Report()
    # (a command that needs far too much memory fails, and does not take it from others)
    resource.setrlimit(resource.RLIMIT_AS, (4 << 30, 4 << 30))
    done = all_at_once(program, given.seed, given.minutes, given.jobs) if given.only is None else alone(program, given.seed, given.only)
    if not shutil.which("unadf"):
        report.lacks("the files by another reader", "unadf")
    for fault in done.faults:
        report.hold(f"image {fault.number}", fault.what)
    if done.accepted + done.refused:
        name = f"seed {given.seed}: {done.accepted} images that are accepted and {done.refused} that are refused"
        report.hold(name, f"{len(done.faults)} of them show faults" if done.faults else None)
    return report.end()


if __name__ == "__main__":
    sys.exit(main(sys.argv[1:]))
