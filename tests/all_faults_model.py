#!/usr/bin/env python3
"""Prints every fault of an image as a line `KIND BLOCK`, sorted by block and then by kind; of an image that is no DOS disk, or
one of an unsupported kind, only that.

    tests/all_faults_model.py IMAGE

It follows only the definition `Shows` of crates/ados_model/specs/Faults.antt. It first computes all reachable pairs of a block and
a role, then applies each rule to all of them, and leaves out the rest of a disk of another kind at the end. If there are more than
1,000 faults, the last line is `more`.
"""
from __future__ import annotations

import sys
from collections import defaultdict
from pathlib import Path
from typing import Dict, Iterator, List, NamedTuple, Optional, Set, Tuple

sys.dont_write_bytecode = True

from harness import DATA, DIRECTORY, FILE, HEADER, LIST, ROOT, Image, slot_of, upper

KINDS = ["NotADosDisk", "UnsupportedKind", "BadSum", "BadType", "BadOwnKey", "BadParent", "BadPointer", "BlockUsedTwice",
         "WrongChain", "BadName", "DuplicateName", "BadComment", "BadCount", "BadSequence", "LinkEntry", "MarkedFree"]
OTHER_KINDS = {"NotADosDisk", "UnsupportedKind"}
LINKS = {3, 4, 2 ** 32 - 4}
# The roles of blocks that name no other block.
WITHOUT_PLACES = {"data", "page"}
MOST = 1000


class Role(NamedTuple):
    """The role of a block: the root, a bitmap block, an entry of a directory in a slot, or a data block or an extension
    block of a file."""

    what: str
    holder: int = 0
    slot: int = 0


class Model(Image):
    """An image, the blocks reached in it, and its faults."""

    def __init__(self, data: bytes) -> None:
        super().__init__(data)
        self.found: Set[Tuple[int, int]] = set()
        self.reached: Set[Tuple[int, Role]] = set()
        self.places: List[Tuple[int, int, int]] = []  # (holder, long, named block)
        self.reach()

    def inside(self, block: int) -> bool:
        return 2 <= block < self.blocks

    def length(self, block: int, offset: int) -> int:
        """The length byte before a text."""
        return self.data[512 * block + offset]

    # ---- the reached blocks

    def pages(self) -> int:
        return (self.blocks - 2 + 4063) // 4064

    def places_of(self, block: int, role: Role) -> Iterator[Tuple[int, Role]]:
        """The longs that are places of a block in a role, each with the role that it gives."""
        longs = self.longs(block)
        secondary = longs[127]
        if role.what == "root":
            for page in range(self.pages()):
                yield 79 + page, Role("page")
        if role.what == "root" or role.what == "entry" and secondary == DIRECTORY:
            for slot, named in enumerate(longs[6:78]):
                if named != 0:
                    yield 6 + slot, Role("entry", block, slot)
        if role.what == "entry" and longs[124] != 0:
            yield 124, role
        file = self.file_of(block, role)
        if file is not None:
            if longs[2] <= 72:
                role_of_data = Role("data", file)
                for at in range(longs[2]):
                    yield 77 - at, role_of_data
            if longs[126] != 0:
                yield 126, Role("extension", file)

    def file_of(self, block: int, role: Role) -> Optional[int]:
        """The file of the data blocks in this header or extension block."""
        if role.what == "entry" and self.long(block, 127) == FILE:
            return block
        return role.holder if role.what == "extension" else None

    def reach(self) -> None:
        pending = [(self.root, Role("root"))]
        while pending:
            block, role = pending.pop()
            if (block, role) in self.reached:
                continue
            self.reached.add((block, role))
            if role.what in WITHOUT_PLACES:
                continue
            longs = self.longs(block)
            for at, next_role in self.places_of(block, role):
                named = longs[at]
                self.places.append((block, at, named))
                if self.inside(named):
                    pending.append((named, next_role))
                else:
                    self.show("BadPointer", block)

    # ---- the rules

    def show(self, kind: str, block: int) -> None:
        self.found.add((block, KINDS.index(kind)))

    def show_if(self, wrong: bool, kind: str, block: int) -> None:
        if wrong:
            self.show(kind, block)

    def all_faults(self) -> List[Tuple[int, int]]:
        """The faults as they are told: of a disk of another kind nothing but that."""
        every = self.shown_faults()
        return [it for it in every if KINDS[it[1]] in OTHER_KINDS] or every

    def shown_faults(self) -> List[Tuple[int, int]]:
        """Every fault that the image shows, of whatever kind the disk is."""
        if self.data[:3] != b"DOS":
            self.show("NotADosDisk", 0)
        elif self.data[3] > 1:
            self.show("UnsupportedKind", 0)
        for block, role in self.reached:
            if role.what != "data" or self.ofs:
                self.show_if(self.sum(block) != 0, "BadSum", block)
            self.marked_free(block)
            if role.what == "root":
                self.root_block(block)
            elif role.what == "entry":
                self.entry(block, role.holder, role.slot)
            elif role.what == "extension":
                self.extension(block, role.holder)
            elif role.what == "data" and self.ofs:
                self.show_if(self.long(block, 0) != DATA, "BadType", block)
                self.show_if(self.long(block, 1) != role.holder, "BadParent", block)
        for file in {block for block, role in self.reached if role.what == "entry" and self.long(block, 127) == FILE}:
            self.file(file)
        self.used_twice()
        self.duplicates()
        return sorted(self.found)

    def marked_free(self, block: int) -> None:
        if self.long(self.root, 78) != 2 ** 32 - 1:
            return
        page = self.long(self.root, 79 + (block - 2) // 4064)
        if self.inside(page):
            bit = self.long(page, 1 + (block - 2) % 4064 // 32) >> (block - 2) % 32 & 1
            self.show_if(bit == 1, "MarkedFree", block)

    def root_block(self, block: int) -> None:
        self.show_if(self.long(block, 0) != HEADER, "BadType", block)
        self.show_if(self.long(block, 3) != 72, "BadType", block)
        self.show_if(self.long(block, 127) != ROOT, "BadType", block)
        self.show_if(self.long(block, 125) != 0, "BadParent", block)
        self.name(block)

    def name(self, block: int) -> None:
        text = self.text(block, 432)
        length = self.length(block, 432)
        self.show_if(length == 0 or length > 30 or b"/" in text or b":" in text, "BadName", block)

    def entry(self, block: int, directory: int, slot: int) -> None:
        secondary = self.long(block, 127)
        self.show_if(self.long(block, 0) != HEADER, "BadType", block)
        self.show_if(secondary in LINKS, "LinkEntry", block)
        self.show_if(secondary not in LINKS | {DIRECTORY, FILE}, "BadType", block)
        self.show_if(self.long(block, 1) != block, "BadOwnKey", block)
        self.show_if(self.long(block, 125) != directory, "BadParent", block)
        self.name(block)
        if self.length(block, 432) <= 30:
            self.show_if(slot_of(self.text(block, 432)) != slot, "WrongChain", block)
        if secondary in (DIRECTORY, FILE):
            self.show_if(self.length(block, 328) > 79, "BadComment", block)
        if secondary == FILE:
            self.pointers(block)
            if self.ofs:
                first = self.data_of(block)[:1] or [0]
                self.show_if(self.long(block, 4) != first[0], "BadPointer", block)

    def extension(self, block: int, file: int) -> None:
        self.show_if(self.long(block, 0) != LIST, "BadType", block)
        self.show_if(self.long(block, 127) != FILE, "BadType", block)
        self.show_if(self.long(block, 1) != block, "BadOwnKey", block)
        self.show_if(self.long(block, 125) != file, "BadParent", block)
        self.show_if(self.long(block, 2) == 0, "BadCount", block)
        self.pointers(block)

    def pointers(self, block: int) -> None:
        count = self.long(block, 2)
        self.show_if(count > 72, "BadCount", block)
        self.show_if(count < 72 and self.long(block, 126) != 0, "BadCount", block)

    def data_of(self, block: int) -> List[int]:
        longs = self.longs(block)
        count = longs[2]
        return [*longs[78 - count : 78]][::-1] if count <= 72 else []

    def headers_of(self, file: int) -> List[int]:
        """The header of a file and its extension blocks, up to the first one that is invalid or was visited before."""
        headers = [file]
        while True:
            link = self.long(headers[-1], 126)
            if not self.inside(link) or link in headers:
                return headers
            headers.append(link)

    def file(self, file: int) -> None:
        blocks = [block for header in self.headers_of(file) for block in self.data_of(header)]
        size = self.long(file, 81)
        self.show_if(len(blocks) != (size + self.room - 1) // self.room, "BadCount", file)
        if not self.ofs:
            return
        for at, block in enumerate(blocks):
            if not self.inside(block):
                continue
            number, held, link = self.longs(block)[2:5]
            is_last = at + 1 == len(blocks)
            self.show_if(number != at + 1, "BadSequence", block)
            self.show_if(held == 0 or held > 488 or not is_last and held != 488, "BadCount", block)
            self.show_if(link != (0 if is_last else blocks[at + 1]), "BadPointer", block)
        if all(self.inside(block) for block in blocks):
            self.show_if(sum(self.long(block, 3) for block in blocks) != size, "BadCount", file)

    def used_twice(self) -> None:
        names: Dict[int, Set[Tuple[int, int]]] = defaultdict(set)
        for holder, at, named in self.places:
            names[named].add((holder, at))
        for named, holders in names.items():
            if self.inside(named):
                self.show_if(len(holders) > 1 or named == self.root, "BlockUsedTwice", named)

    def duplicates(self) -> None:
        names: Dict[Tuple[int, bytes], Set[int]] = defaultdict(set)
        for block, role in self.reached:
            if role.what == "entry" and self.length(block, 432) <= 30:
                names[role.holder, upper(self.text(block, 432))].add(block)
        for blocks in names.values():
            if len(blocks) > 1:
                for block in blocks:
                    self.show("DuplicateName", block)


def lines_of(image: bytes) -> List[str]:
    """The faults of an image, one line each, and `more` if there are more than are listed."""
    found = Model(image).all_faults()
    return [f"{KINDS[kind]} {block}" for block, kind in found[:MOST]] + ["more"] * (len(found) > MOST)


def main(words: List[str]) -> int:
    for line in lines_of(Path(words[0]).read_bytes()):
        print(line)
    return 0


if __name__ == "__main__":
    sys.exit(main(sys.argv[1:]))
