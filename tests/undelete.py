#!/usr/bin/env python3
"""Tests the command `undelete` of the built program: the line of each deleted file and directory, what it writes, and what it
refuses.

    tests/undelete.py [PROGRAM]

The images are drawn in Python, and entries are deleted there as an Amiga does, or by the program's `delete`. A reader in Python
finds the deleted entries of the changed image, the blocks that their headers name, and who uses these now. The bytes are those
that were drawn. The environment variable ROUNDS is the number of drawn images.
"""
from __future__ import annotations

import json
import os
import random
import re
import shutil
import sys
import time
from collections import Counter
from pathlib import Path
from typing import Dict, Iterator, List, NamedTuple, Optional, Set, Tuple

sys.dont_write_bytecode = True

from drawn_volume import Drawer, Reader, drawn
from harness import (
    BLOCK,
    DATA,
    DIRECTORY,
    FILE,
    HEADER,
    LIST,
    MOMENT,
    OFS_ROOM,
    PAGE_BITS,
    POINTERS,
    Image,
    Room,
    fault_of,
    host_name,
    slot_of,
    try_all,
    upper,
)

ROUNDS = int(os.environ.get("ROUNDS", "60"))
LONGEST = 255


# ---- the reader


class Found(NamedTuple):
    """A deleted entry: its header, its line, whether it is written without `--force`, and what is said of its blocks."""

    header: int
    path: Optional[str]
    line: str
    is_directory: bool
    is_written: bool
    said: str
    user: Optional[int]

    def object(self) -> Dict[str, object]:
        """What `--json` prints of it."""
        numbers = [int(it) for it in re.findall("[0-9]+", self.said)]
        words = (("directory", "a directory"), ("damaged", "damaged"), ("free", "are free"), ("used", "are used"), ("shared", "in another"))
        word = next(word for word, part in words if part in self.said)
        counts = {"blocks": numbers[-1], "taken": 0 if word == "free" else numbers[0]} if numbers else {"blocks": None, "taken": None}
        return {"path": self.path, "header": self.header, "recovery": word, **counts, "by": self.user}


class Deleting(Image):
    """Finds the deleted entries of an image with a valid bitmap."""

    def __init__(self, data: bytes) -> None:
        super().__init__(data)
        self.users: Dict[int, int] = {}
        self.live: Set[int] = {self.root}
        self.reach(self.root)
        self.sound = [it for it in range(2, self.blocks) if self.is_sound(it)]
        self.deleted = [it for it in self.sound if it not in self.live and it not in self.users and self.is_free(it)]
        self.own = {it: self.blocks_of(it) for it in self.sound if self.long(it, 127) == FILE}
        self.claims = Counter(it for header in self.sound for it in self.named_by(header))
        self.names: Dict[int, bytes] = {}
        self.taken: Set[Tuple[int, bytes]] = set()

    def is_sound(self, block: int) -> bool:
        if self.long(block, 0) != HEADER or self.long(block, 1) != block or self.long(block, 127) not in (DIRECTORY, FILE):
            return False
        length = self.data[BLOCK * block + 432]
        return 1 <= length <= 30 and not {*b"/:"} & {*self.text(block, 432)} and self.data[BLOCK * block + 328] <= 79 and self.sum(block) == 0

    def reach(self, directory: int) -> None:
        """Notes who uses each block of the tree."""
        for key in self.keys(directory):
            self.live.add(key)
            self.users[key] = key
            if self.long(key, 127) == DIRECTORY:
                self.reach(key)
            else:
                self.users.update({it: key for it in self.blocks_of(key)[0] or []})

    def blocks_of(self, file: int) -> Tuple[Optional[List[int]], bool]:
        """The blocks that a file names, its header, its extensions and its data, and whether all of them are still its own. None if
        an extension is another's."""
        size, room = self.long(file, 81), self.room
        needed = (size + room - 1) // room
        holders, holder = [file], file
        data: List[int] = []
        while True:
            held = min(POINTERS, needed - len(data))
            if self.long(holder, 2) != held:
                return None, False
            data += [self.long(holder, 77 - at) for at in range(held)]
            holder = self.long(holder, 126)
            if len(data) == needed:
                break
            if not self.is_extension(file, holder) or self.sum(holder):
                return None, False
            holders.append(holder)
        if holder:
            return None, False
        blocks = holders + data
        is_whole = len({*blocks}) == len(blocks) and all(2 <= it < self.blocks for it in data)
        if is_whole and self.ofs:
            for at, it in enumerate(data):
                wanted = [DATA, file, at + 1, min(room, size - room * at), data[at + 1] if at + 1 < needed else 0]
                is_whole = is_whole and [self.long(it, place) for place in range(5)] == wanted and self.sum(it) == 0
        return blocks, is_whole

    def is_extension(self, file: int, block: int) -> bool:
        return 2 <= block < self.blocks and [self.long(block, it) for it in (0, 1, 125, 127)] == [LIST, block, file, FILE]

    def named_by(self, header: int) -> Set[int]:
        """The blocks of the volume that a sound header names, whatever is in them now: its own, and those in the pointers and links of a
        file's header and of its extension blocks, as far as one leads to the next."""
        named: Set[int] = {header}
        passed: Set[int] = set()
        holder = header if self.long(header, 127) == FILE else 0
        while holder and holder not in passed:
            passed.add(holder)
            further = self.long(holder, 126)
            named |= {further, *(self.long(holder, 77 - at) for at in range(min(POINTERS, self.long(holder, 2))))}
            holder = further if self.is_extension(header, further) else 0
        return {it for it in named if 2 <= it < self.blocks}

    def place(self, key: int) -> None:
        """Gives an entry its name after the directories above it. The later of two with one name has its block behind it."""
        way = []
        while key not in self.names and self.is_one(key):
            if key in way:
                break
            way.append(key)
            key = self.parent(key)
        for it in reversed(way):
            if it in self.names:
                continue
            name = self.text(it, 432)
            while (self.parent(it) if self.parent(it) in self.names else 0, name) in self.taken:
                name += b"~%d" % it
            self.taken.add((self.parent(it) if self.parent(it) in self.names else 0, name))
            self.names[it] = name

    def is_one(self, key: int) -> bool:
        return 2 <= key < self.blocks and key != self.root and self.is_sound(key)

    def parent(self, key: int) -> int:
        above = self.long(key, 125)
        return above if self.is_one(above) and self.long(above, 127) == DIRECTORY else 0

    def path(self, key: int) -> Optional[str]:
        names: List[bytes] = []
        while key in self.names:
            names.append(self.names[key])
            key = self.parent(key)
        path = b"/".join(reversed(names))
        return path.decode("latin-1") if path and len(path) <= LONGEST else None

    def label(self, key: int) -> str:
        path = self.path(key)
        if path is None:
            return f"the entry at block {key}"
        return "".join(f"%{ord(it):02X}" if ord(it) < 32 or 127 <= ord(it) < 160 else it for it in path)

    def state(self, key: int) -> Tuple[str, bool, Optional[int]]:
        """What is said of a deleted entry, whether it is written, and who uses its blocks."""
        if self.long(key, 127) == DIRECTORY:
            return "/: a directory", True, None
        blocks, is_whole = self.own[key]
        if blocks is None:
            return ": the blocks are damaged", False, None
        used = [it for it in blocks if 2 <= it < self.blocks and not self.is_free(it)]
        if used:
            user = next((self.users[it] for it in blocks if it in self.users), None)
            return f": {len(used)} of {len(blocks)} blocks are used", False, user
        shared = [it for it in blocks if self.claims[it] > 1]
        if shared:
            return f": {len(shared)} of {len(blocks)} are in another deleted file", False, None
        if not is_whole:
            return ": the blocks are damaged", False, None
        return f": all {len(blocks)} blocks are free", True, None

    def found(self) -> Iterator[Found]:
        states = {it: self.state(it) for it in self.deleted}
        for it in self.deleted:
            if states[it][2] is not None:
                self.place(states[it][2] or 0)
        for it in self.deleted:
            self.place(it)
        for it in self.deleted:
            said, is_written, user = states[it]
            line = self.label(it) + said + ("" if user is None else f" by {self.label(user)}")
            yield Found(it, self.path(it), f"{line}\n", self.long(it, 127) == DIRECTORY, is_written, said, user)


# ---- drawn images with deleted entries


class Deleter(Drawer):
    """A drawn volume with a valid bitmap, from which entries are deleted as an Amiga does: the header leaves its hash chain, and the
    blocks are marked free. Nothing else changes."""

    def finish(self) -> None:
        super().finish()
        self.put_bitmap(self.unused)
        self.put(self.root, 78, 2**32 - 1)
        self.settle(self.root)

    def mark_free(self, block: int, is_free: bool = True) -> None:
        page, bit = divmod(block - 2, PAGE_BITS)
        at, mask = 1 + bit // 32, 1 << bit % 32
        old = self.long(self.pages[page], at)
        self.put(self.pages[page], at, old | mask if is_free else old & ~mask)
        self.settle(self.pages[page], 0)

    def unlink(self, directory: int, key: int) -> None:
        at = slot_of(self.text(key, 432))
        holder, place = directory, 6 + at
        while self.long(holder, place) != key:
            holder, place = self.long(holder, place), 124
        self.put(holder, place, self.long(key, 124))
        self.settle(holder)


def all_below(image: Reader, key: int) -> List[int]:
    """An entry after everything in it."""
    below: List[int] = []
    if image.long(key, 127) == DIRECTORY:
        for it in image.keys(key):
            below += all_below(image, it)
    return [*below, key]


def delete_some(disk: Deleter, chance: random.Random) -> Dict[int, bytes]:
    """Deletes entries at random, directories with everything in them. Returns the bytes of the deleted files by their headers."""
    reader, own = Reader(bytes(disk.data)), Deleting(bytes(disk.data)).own
    bytes_of: Dict[int, bytes] = {}
    levels = [disk.root]
    while levels:
        for key in reader.keys(levels.pop()):
            is_directory = disk.long(key, 127) == DIRECTORY
            if chance.random() >= (0.3 if is_directory else 0.5):
                levels += [key] if is_directory else []
                continue
            for it in all_below(reader, key):
                disk.unlink(disk.long(it, 125), it)
                if it in own:
                    bytes_of[it] = reader.bytes_of(it)
                for block in own[it][0] or [] if it in own else [it]:
                    disk.mark_free(block)
    return bytes_of


def reuse_some(disk: Deleter, chance: random.Random, deleted: Dict[int, bytes]) -> None:
    """Some blocks of deleted files are used again: lost, or overwritten and free again; and some files name another's block."""
    reader = Deleting(bytes(disk.data))
    for key in deleted:
        blocks = reader.own[key][0] if key in reader.own else None
        kind = chance.randrange(8)
        if not blocks:
            continue
        block = chance.choice(blocks)
        if kind == 0:
            disk.mark_free(block, False)
        elif kind == 1 and block != key:
            disk.data[BLOCK * block : BLOCK * (block + 1)] = chance.randbytes(BLOCK)
        elif kind == 2:
            others = [it for it in deleted if it != key and disk.long(it, 2) and disk.long(key, 2)]
            if others:
                disk.put(key, 77, disk.long(chance.choice(others), 77))
                disk.settle(key)
        elif kind == 3 and block != key and disk.is_free(block):
            move_to(disk, chance, block, reader)


def move_to(disk: Deleter, chance: random.Random, block: int, reader: Deleting) -> None:
    """A file of the tree has its first data block here now."""
    files = [it for it in sorted(reader.live) if disk.long(it, 127) == FILE and disk.long(it, 2)]
    if files:
        key = chance.choice(files)
        old = disk.long(key, 77)
        disk.data[BLOCK * block : BLOCK * (block + 1)] = disk.data[BLOCK * old : BLOCK * (old + 1)]
        disk.put(key, 77, block)
        disk.put(key, 4, block)
        disk.settle(key)
        disk.mark_free(block, False)
        disk.mark_free(old)


def disks(kind: str, seed: int) -> Tuple[bytes, Dict[int, bytes]]:
    chance = random.Random(f"{kind}{seed}")
    disk = drawn(seed, Deleter)
    deleted = delete_some(disk, chance)
    if kind == "reused":
        reuse_some(disk, chance, deleted)
        deleted = {}
    return bytes(disk.data), deleted


def host_path(image: Deleting, key: int) -> str:
    names: List[str] = []
    while key in image.names:
        names.append(host_name(image.names[key]))
        key = image.parent(key)
    return "/".join(reversed(names))


def files_below(top: str) -> Dict[str, bytes]:
    return {str(it.relative_to(top)): it.read_bytes() for it in Path(top).rglob("*") if it.is_file()}


def fault_of_disk(room: Room, data: bytes, bytes_of: Dict[int, bytes]) -> Optional[str]:
    room.write("deleted.adf", data)
    image = Deleting(data)
    found = [*image.found()]
    lines = "".join(it.line for it in found).encode()
    fault = fault_of(room.run("undelete", "--list", "--to", "listed", "deleted.adf"), 0, lines)
    ran = room.run("undelete", "--list", "--json", "--to", "listed", "deleted.adf")
    objects = [json.loads(it) for it in ran.output.splitlines()]
    fault = fault or fault_of(ran, 0, None) or (None if objects == [it.object() for it in found] else f"other objects: {ran.output[:300]!r}")
    if fault or os.path.exists("listed"):
        return fault or "a list makes a directory"
    forces: List[Tuple[List[str], bool]] = [([], False), (["--force"], True)]
    for words, forced in forces:
        shutil.rmtree("here", ignore_errors=True)
        ran = room.run("undelete", *words, "--to", "here", "deleted.adf")
        if ran.status == 2 and (b"longer than the 4,095" in ran.texts or b"written twice" in ran.texts):
            continue
        fault = fault_of(ran, 0, lines)
        if fault:
            return fault
        wanted = {host_path(image, it.header): it for it in found if not it.is_directory and (it.is_written or forced)}
        written = files_below("here")
        if written.keys() != wanted.keys():
            return f"{sorted(written.keys() ^ wanted.keys())[:5]} written or missing"
        for path, it in wanted.items():
            if it.is_written and written[path] != bytes_of.get(it.header, Reader(data).bytes_of(it.header)):
                return f"other bytes in {path}"
    return None if room.content("deleted.adf") == data else "the image changed"


def drawn_volumes(room: Room) -> None:
    for seed in range(ROUNDS):
        for kind in ("plain", "reused"):
            room.report.ends(f"{kind} volume {seed}", lambda: fault_of_disk(room, *disks(kind, seed)))


def chosen_paths(room: Room) -> None:
    """Of drawn disks, one path, in another case, and directories."""
    for seed in range(0, ROUNDS, 3):

        def fault() -> Optional[str]:
            data, _ = disks("plain", seed)
            room.write("deleted.adf", data)
            image = Deleting(data)
            found = [*image.found()]
            paths = [it.path for it in found if it.path is not None and not {"\0"} & {*it.path}]
            for path in random.Random(seed).sample(paths, min(6, len(paths))):
                word = path.swapcase() if path.isascii() else path
                for asked in (path, word, path.split("/")[0], f":{path}"):
                    wanted = upper(asked.lstrip(":").encode("latin-1")).split(b"/")
                    lines = []
                    for it in found:
                        up = [] if it.path is None else upper(it.path.encode("latin-1")).split(b"/")
                        if up[: len(wanted)] == wanted or (it.path is None and is_below(image, it.header, wanted)):
                            lines.append(it.line)
                    fault = fault_of(room.run("undelete", "--list", "--", "deleted.adf", asked), 0, "".join(lines).encode())
                    if fault:
                        return f"{asked!r}: {fault}"
            return None

        room.report.ends(f"paths in volume {seed}", fault)


def is_below(image: Deleting, key: int, wanted: List[bytes]) -> bool:
    """Whether an entry without a path is in a directory with this one."""
    while key in image.names:
        path = image.path(key)
        if path is not None and upper(path.encode("latin-1")).split(b"/")[: len(wanted)] == wanted:
            return True
        key = image.parent(key)
    return False


# ---- entries that the program deleted


def by_the_program(room: Room) -> None:
    """Files of both formats that `delete` took away."""
    room.write("long", bytes(range(256)) * 400)
    room.write("short", b"short")
    room.write("empty")
    kinds: List[List[str]] = [[], ["--ffs"]]
    for kind in kinds:
        name = f"made{''.join(kind)}.adf"
        room.done("blank", *kind, *MOMENT, "Made", name)
        room.done("mkdir", *MOMENT, name, "Docs", "Docs/old", "s")
        room.done("add", *MOMENT, "--to", "Docs/old", name, "long", "short", "empty")
        room.done("add", *MOMENT, "--to", "s", name, "short")
        room.done("protect", *MOMENT, name, "Docs/old/short", "-s--rw-d")
        room.done("comment", *MOMENT, name, "Docs/old/short", "it is kept")
        room.done("extract", "--meta", "--to", "before", name, "Docs")
        before = files_below("before")
        room.done("delete", "--all", "--force", *MOMENT, name, "Docs")
        room.succeeds(f"check of {name}", "check", name, output=b"ok\n")
        data = room.content(name)
        blocks = 1 + (len(room.content("long")) + (BLOCK if kind else OFS_ROOM) - 1) // (BLOCK if kind else OFS_ROOM)
        blocks += (blocks - 2) // POINTERS
        lines = [*Deleting(data).found()]
        text = "".join(it.line for it in lines).encode()
        room.report.expect(f"the lines of {name}", f"Docs/old/long: all {blocks} blocks are free\n".encode() in text and b"Docs/old/empty: all 1 blocks are free\n" in text, text)
        room.succeeds(f"list of {name}", "undelete", "--list", name, output=text)
        room.succeeds(f"undelete of {name}", "undelete", "--meta", "--to", "after", name, output=text)
        after = files_below("after")
        notes = {it: data for it, data in after.items() if it in before}
        room.report.same(f"the files of {name}", (notes, after.keys() - before.keys()), (before, set()))
        room.report.same(f"{name} stays", room.content(name), data)
        room.report.check(f"files of {name} that are there", room.run("undelete", "--to", "after", name), 2, b"", "already exists")
        room.succeeds(f"files of {name} that are replaced", "undelete", "--force", "--to", "after", name, output=text)
        one = [it for it in lines if it.path == "Docs/old/short"][0].line.encode()
        room.succeeds(f"one file of {name}", "undelete", "--to", "one", name, "DOCS/old//OLD/short", output=one)
        room.report.same(f"that file of {name}", files_below("one"), {"Docs/old/short": b"short"})
        for it in ("before", "after", "one"):
            shutil.rmtree(it)
        used_again(room, name)


def used_again(room: Room, name: str) -> None:
    """A new file takes blocks of a deleted one."""
    room.write("new", b"n" * 700)
    room.done("add", *MOMENT, "--to", "s", name, "new")
    data = room.content(name)
    found = [*Deleting(data).found()]
    text = "".join(it.line for it in found).encode()
    room.report.expect(f"blocks of {name} are used again", len(found) == 2 and b"Docs" not in text, text)
    room.succeeds(f"lines of used blocks of {name}", "undelete", "--to", "rest", name, output=text)
    wanted = {it.path for it in found if it.is_written and not it.is_directory}
    room.report.same(f"files of {name} that are still free", files_below("rest").keys(), wanted)
    room.succeeds(f"all files of {name}", "undelete", "--force", "--to", "rest", name, output=text)
    room.report.same(f"forced files of {name}", files_below("rest").keys(), {it.path for it in found if not it.is_directory})
    room.report.same(f"{name} stays again", room.content(name), data)
    shutil.rmtree("rest")


# ---- blocks that other deleted headers name


def put_file(image: Image, block: int, name: bytes, size: int, pointers: List[int], further: int = 0) -> None:
    put_header(image, block, 880, name, FILE)
    image.put(block, 2, len(pointers))
    for at, it in enumerate(pointers):
        image.put(block, 77 - at, it)
    image.put(block, 81, size)
    image.put(block, 126, further)
    image.settle(block)


def put_extension(image: Image, block: int, file: int, pointer: int) -> None:
    image.put_all(block, 0, [LIST, block, 1, 0])
    image.put(block, 77, pointer)
    image.put(block, 125, file)
    image.put(block, 127, FILE)
    image.settle(block)


def named_by_others(room: Room) -> None:
    """Deleted files of FFS whose blocks are named by other deleted headers. The files of these are damaged, so a block does not show
    whose bytes are in it."""
    room.done("blank", "--ffs", *MOMENT, "Others", "others.adf")
    image = Image(bytearray(room.content("others.adf")))
    # (three blocks are needed, and there are two pointers)
    put_file(image, 10, b"mine", 500, [11])
    put_file(image, 12, b"theirs", 1_200, [13, 11])
    # (the extension block has a wrong sum)
    put_file(image, 14, b"short", 500, [15])
    put_file(image, 16, b"long", 73 * BLOCK, [*range(20, 92)], 17)
    put_extension(image, 17, 16, 15)
    image.put(17, 3, 1)
    # (the extension block is another file's, so nothing leads to its pointer)
    put_file(image, 92, b"kept", 500, [93])
    image.data[93 * BLOCK : 93 * BLOCK + 500] = b"k" * 500
    put_file(image, 94, b"cut", 73 * BLOCK, [*range(100, 172)], 95)
    put_extension(image, 95, 96, 93)
    # (the disk has 1,760 blocks)
    put_file(image, 200, b"out", 1_000, [201, 5_000])
    put_file(image, 202, b"other", 500, [201])
    put_file(image, 204, b"alone", 1_000, [205, 5_000])
    # (a directory was made in the file's block)
    put_file(image, 206, b"over", 500, [207])
    put_header(image, 207, 880, b"dir", DIRECTORY)
    room.write("others.adf", bytes(image.data))
    lines = (
        b"mine: 1 of 2 are in another deleted file\n"
        b"theirs: the blocks are damaged\n"
        b"short: 1 of 2 are in another deleted file\n"
        b"long: the blocks are damaged\n"
        b"kept: all 2 blocks are free\n"
        b"cut: the blocks are damaged\n"
        b"out: 1 of 3 are in another deleted file\n"
        b"other: 1 of 2 are in another deleted file\n"
        b"alone: the blocks are damaged\n"
        b"over: 1 of 2 are in another deleted file\n"
        b"dir/: a directory\n"
    )
    room.succeeds("blocks of other headers", "undelete", "--to", "others", "others.adf", output=lines)
    room.report.same("only what is free is written", (files_below("others"), os.path.isdir("others/dir")), ({"kept": b"k" * 500}, True))
    room.report.same("the reader has the same lines", "".join(it.line for it in Deleting(bytes(image.data)).found()), lines.decode())


# ---- what is refused


def refused(room: Room) -> None:
    room.write("file", b"x" * 3_000)
    room.done("blank", *MOMENT, "Small", "small.adf")
    room.succeeds("nothing was deleted", "undelete", "--list", "small.adf")
    room.report.check("a path without anything deleted", room.run("undelete", "small.adf", ""), 3, b"", "nothing that was deleted is at ''")
    room.done("mkdir", *MOMENT, "small.adf", "d", "e")
    room.done("add", *MOMENT, "--to", "d", "small.adf", "file")
    room.done("delete", *MOMENT, "small.adf", "d/file")
    data = room.content("small.adf")
    line = b"d/file: all 8 blocks are free\n"
    asked: List[List[str]] = [[], ["d"], ["d/"], ["D/FILE"], [":d/file"], [""], ["d", "d/file", "d"], ["e//d"]]
    for words in asked:
        room.succeeds(f"paths {words}", "undelete", "--list", "small.adf", *words, output=line)
    for path in ("e", "file", "d/x", "d/file/x", "f"):
        room.report.check(f"path {path!r}", room.run("undelete", "--to", "none", "small.adf", "d", path), 3, b"", f"nothing that was deleted is at '{path}' or below it")
    room.report.check("a letter past U+00FF", room.run("undelete", "small.adf", "\u0100"), 1, b"", "\u0100")
    room.report.check("no image", room.run("undelete", "--list"), 1, b"", "IMAGE")
    room.report.check("an unknown option", room.run("undelete", "--all", "small.adf"), 1, b"", "--all")
    room.report.check("no such file", room.run("undelete", "none.adf"), 2, b"", "none.adf")
    room.write("short.adf", bytes(100))
    room.report.check("too few bytes", room.run("undelete", "short.adf"), 3, b"refused NotWholeBlocks 0\n", "100 bytes")
    size = b'{"refused":{"kind":"NotWholeBlocks","block":0}}\n'
    room.report.check("too few bytes, as JSON", room.run("undelete", "--json", "short.adf"), 3, size, "100 bytes")
    os.mkdir("link")
    os.symlink("..", "link/d")
    room.report.check("a link on the way", room.run("undelete", "--to", "link", "small.adf"), 2, b"", "is a symbolic link")
    room.report.expect("nothing was written", not os.path.exists("none") and not os.path.exists("d"))
    room.report.same("the image stays", room.content("small.adf"), data)


def bitmaps(room: Room) -> None:
    """Bitmaps that cannot be trusted, and images that are refused with one that can."""
    data = room.content("small.adf")
    root = 880
    page = Image(data).long(root, 79)
    deleted = [it.header for it in Deleting(data).found()][0]

    def changed(name: str, block: int, at: int, value: int, settles: Optional[int] = 5) -> None:
        image = Image(bytearray(data))
        image.put(block, at, value)
        if settles is not None:
            image.settle(block, settles)
        room.write(name, bytes(image.data))

    changed("invalid.adf", root, 78, 0)
    changed("sum.adf", page, 3, 0, None)
    changed("root.adf", root, 20, 1, None)
    changed("outside.adf", root, 79, 1)
    live = next(it for it in Reader(data).keys(root) if it != Image(data).long(deleted, 125))
    bit = live - 2
    changed("free.adf", page, 1 + bit // 32, Image(data).long(page, 1 + bit // 32) | 1 << bit % 32, 0)
    for it in ("invalid", "sum", "root", "outside", "free"):
        before = room.content(f"{it}.adf")
        for words in (["--list"], ["--to", "none"], ["--force", "--to", "none"]):
            room.report.check(f"{it} bitmap, {words[0]}", room.run("undelete", *words, f"{it}.adf"), 3, b"", "the bitmap cannot be trusted")
            told = b'{"refused":{"kind":"UntrustedBitmap","block":0}}\n'
            room.report.check(f"{it} bitmap, {words[0]}, as JSON", room.run("undelete", "--json", *words, f"{it}.adf"), 3, told, "the bitmap cannot be trusted")
        room.report.expect(f"{it} bitmap: nothing is written", not os.path.exists("none") and room.content(f"{it}.adf") == before)
    changed("refused.adf", live, 126, 1, None)
    room.report.check("the image is refused", room.run("check", "refused.adf"), 3, None, "its checksum is wrong")
    room.succeeds("a refused image", "undelete", "--to", "saved", "refused.adf", output=b"d/file: all 8 blocks are free\n")
    room.report.same("its file", files_below("saved"), {"d/file": b"x" * 3_000})
    for kind in (b"DOS\2", b"dos\0", bytes(4)):
        room.write("kind.adf", kind + data[4:])
        texts = "read as OFS, as its blocks say; the boot block says neither OFS nor FFS"
        room.report.check(f"a boot block of {kind!r}", room.run("undelete", "--list", "kind.adf"), 0, b"d/file: all 8 blocks are free\n", texts)


# ---- hostile disks


def deep(room: Room, blocks: int) -> bytes:
    """A chain of deleted directories as deep as the disk has room, with an empty file in each."""
    room.done("blank", "--ffs", "--blocks", str(blocks), *MOMENT, "Deep", "deep.adf")
    image = Image(bytearray(room.content("deep.adf")))
    root = (blocks + 1) // 2
    above, taken = root, {root, *(image.long(root, 79 + at) for at in range(25))}
    for at, it in enumerate(it for it in range(2, blocks) if it not in taken):
        put_header(image, it, above, b"f" if at % 2 else b"d", FILE if at % 2 else DIRECTORY)
        above = above if at % 2 else it
    return bytes(image.data)


def put_header(image: Image, block: int, above: int, name: bytes, kind: int) -> None:
    image.put_all(block, 0, [HEADER, block, 0, 0])
    image.data[BLOCK * block + 432 : BLOCK * block + 433 + len(name)] = bytes([len(name)]) + name
    image.put(block, 125, above)
    image.put(block, 127, kind)
    image.settle(block)


def chains(room: Room) -> None:
    """Directories thousands deep: the time grows about as the number of blocks."""
    seconds = []
    for blocks in (12_000, 96_000):
        room.write("deep.adf", deep(room, blocks))
        start = time.monotonic()
        ran = room.run("undelete", "--list", "deep.adf")
        seconds.append(time.monotonic() - start)
        room.report.check(f"a chain on {blocks} blocks", ran, 0, None)
        lines = ran.output.splitlines()
        room.report.expect(f"a chain on {blocks} blocks: a line each", len(lines) > 0.99 * blocks and lines[256] == b"the entry at block 258/: a directory", lines[254:258])
    room.report.expect("the time of a chain is linear", seconds[1] < 24 * seconds[0] + 2, seconds)


def many_arguments(room: Room) -> None:
    """Each of thousands of deleted files by an argument of its own."""
    room.done("blank", *MOMENT, "Wide", "wide.adf")
    image = Image(bytearray(room.content("wide.adf")))
    chosen = [it for it in range(2, 1_760) if it not in (880, image.long(880, 79))]
    for it in chosen:
        put_header(image, it, 880, b"file%d" % it, FILE)
    room.write("wide.adf", bytes(image.data))
    start = time.monotonic()
    words = [f"FILE{it}" for it in reversed(chosen)]
    room.succeeds("many arguments", "undelete", "--list", "wide.adf", *words, output=b"".join(b"file%d: all 1 blocks are free\n" % it for it in chosen))
    room.report.expect("they take no time", time.monotonic() - start < 5)


def main(words: List[str]) -> int:
    return try_all(words, Room, by_the_program, named_by_others, refused, bitmaps, chains, many_arguments, drawn_volumes, chosen_paths)


if __name__ == "__main__":
    sys.exit(main(sys.argv[1:]))
