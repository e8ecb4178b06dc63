"""Volumes that other programs could have written, and a reader of volumes: both in Python alone.

`draw` draws an image at random: blocks and the order of hash chains are not those that the tested program would choose. `read`
walks the header blocks of an image, and gives all that a volume tells but its block numbers.
"""
from __future__ import annotations

import random
from typing import Dict, Iterable, Iterator, List, NamedTuple, Optional, Tuple, Type, TypeVar

from harness import BLOCK, DATA, DIRECTORY, FILE, HEADER, LIST, OFS_ROOM, PAGE_BITS, POINTERS, SLOTS, Image, slot_of, upper

Stamp = Tuple[int, int, int]
AnyDrawer = TypeVar("AnyDrawer", bound="Drawer")
# The bytes that a name may have, and those of a plain one.
LEGAL = bytes(it for it in range(256) if it not in b"/:")
# The longs of a bitmap block after its checksum.
BITMAP_LONGS = PAGE_BITS // 32
PLAIN = b"abcDEF.-0189_\xe4\xd6"


class Entry(NamedTuple):
    """A file, or a directory if `data` is None."""

    path: bytes
    data: Optional[bytes]
    bits: int
    date: Stamp
    comment: bytes


class Told(NamedTuple):
    """All that a volume tells but its block numbers: the entries in the order of the disk, a directory before its own."""

    kind: bytes
    blocks: int
    label: bytes
    created: Stamp
    changed: Stamp
    root: Stamp
    boot: bytes
    entries: List[Entry]


# ---- the reader


class Reader(Image):
    """Reads a volume from its header blocks."""

    def told(self) -> Told:
        root = self.root
        return Told(
            kind=bytes(self.data[:4]),
            blocks=self.blocks,
            label=self.text(root, 432),
            created=self.stamp(root, 121),
            changed=self.stamp(root, 118),
            root=self.stamp(root, 105),
            boot=bytes(self.data[:1024]),
            entries=list(self.entries(root, b"")),
        )

    def stamp(self, block: int, at: int) -> Stamp:
        return self.long(block, at), self.long(block, at + 1), self.long(block, at + 2)

    def entries(self, directory: int, front: bytes) -> Iterator[Entry]:
        levels = [(front, self.keys(directory))]
        while levels:
            front, keys = levels[-1]
            key = next(keys, None)
            if key is None:
                levels.pop()
                continue
            path = front + self.text(key, 432)
            is_file = self.long(key, 127) == FILE
            data = self.bytes_of(key) if is_file else None
            yield Entry(path, data, self.long(key, 80), self.stamp(key, 105), self.text(key, 328))
            if not is_file:
                levels.append((path + b"/", self.keys(key)))

    def bytes_of(self, key: int) -> bytes:
        size, found, holder = self.long(key, 81), bytearray(), key
        while holder:
            for at in range(self.long(holder, 2)):
                start = BLOCK * self.long(holder, 77 - at)
                found += self.data[start + BLOCK - self.room : start + BLOCK]
            holder = self.long(holder, 126)
        return bytes(found[:size])


def read(data: bytes) -> Told:
    return Reader(data).told()


def difference(old: Told, new: Told) -> Optional[str]:
    """What differs between two volumes, if anything does."""
    for field in Told._fields:
        if field != "entries" and getattr(old, field) != getattr(new, field):
            return f"{field} is {getattr(new, field)!r}, and was {getattr(old, field)!r}"
    if len(old.entries) != len(new.entries):
        return f"there are {len(new.entries)} entries, and were {len(old.entries)}"
    for one, other in zip(old.entries, new.entries):
        if one != other:
            return f"an entry is {str(other)[:200]}, and was {str(one)[:200]}"
    return None


# ---- drawn volumes


class Full(Exception):
    """No block is left."""


class Drawer(Image):
    """Draws a volume at random."""

    def __init__(self, chance: random.Random, blocks: int, ofs: bool) -> None:
        super().__init__(bytes(BLOCK * blocks))
        self.chance, self.ofs = chance, ofs
        self.room = OFS_ROOM if ofs else BLOCK
        self.unused = [it for it in range(2, blocks) if it != self.root]
        chance.shuffle(self.unused)
        self.pages = [self.unused.pop() for _ in range((blocks - 2 + PAGE_BITS - 1) // PAGE_BITS)]

    def take(self) -> int:
        if len(self.unused) < 2:
            raise Full
        return self.unused.pop()

    def stamp(self) -> Stamp:
        """A date of the calendar, or one out of it."""
        if self.chance.random() < 0.8:
            return self.chance.randrange(20_000), self.chance.randrange(1_440), self.chance.randrange(3_000)
        return self.chance.randrange(2**32), self.chance.choice([0, 1_440, 2**32 - 1]), self.chance.choice([0, 2_999, 3_000, 2**32 - 1])

    def name(self) -> bytes:
        """A name: plain, of any bytes, or of marks that hosts and texts may trip over."""
        kind = self.chance.randrange(8)
        length = self.chance.choice([1, 2, 3, 8, 29, 30])
        if kind == 0:
            return bytes(self.chance.choices(LEGAL, k=length))
        if kind == 1:
            return self.chance.choice([b"..", b".", b"%41", b'"', b"\\", b"\0", b"\n", b"con", b"x.uaem", b"\xff\xfe", b" ", b"{", b"volume.json"])
        return bytes(self.chance.choices(PLAIN, k=length))

    def put_stamp(self, block: int, at: int, stamp: Stamp) -> None:
        self.put_all(block, at, stamp)

    def put_text(self, block: int, offset: int, text: bytes) -> None:
        start = BLOCK * block + offset
        self.data[start : start + 1 + len(text)] = bytes([len(text)]) + text

    def draw(self, most: int) -> None:
        """Draws a volume with at most so many entries."""
        self.left = most
        self.put_all(self.root, 0, [HEADER, 0, 0, SLOTS])
        self.put_text(self.root, 432, self.name())
        for at in (105, 118, 121):
            self.put_stamp(self.root, at, self.stamp())
        self.put(self.root, 127, 1)
        try:
            self.fill(self.root, 0)
        except Full:
            pass
        self.finish()

    def fill(self, directory: int, depth: int) -> None:
        """Draws the entries of a directory. Their names share few slots, so that the chains are long."""
        names: Dict[bytes, bytes] = {}
        few = {self.chance.randrange(SLOTS) for _ in range(self.chance.choice([1, 3, SLOTS]))}
        for _ in range(400):
            name = self.name()
            if slot_of(name) in few and len(names) < self.chance.choice([4, 12, 40]):
                names.setdefault(upper(name), name)
        chosen = list(names.values())
        self.chance.shuffle(chosen)
        made: List[Tuple[int, bool]] = []
        ends: Dict[int, int] = {}
        try:
            for name in chosen:
                if self.left <= 0:
                    break
                self.left -= 1
                made.append(self.entry(directory, name, ends))
        finally:
            self.settle(directory)
            for key, _ in made:
                self.settle(key)
        for key, is_directory in made:
            if is_directory and depth < 12 and self.chance.random() < 0.8:
                self.fill(key, depth + 1)

    def entry(self, directory: int, name: bytes, ends: Dict[int, int]) -> Tuple[int, bool]:
        """Draws a file or a directory, first or last in its chain."""
        size = self.file_size()
        is_directory = self.chance.random() < 0.3
        blocks = self.blocks_of(0 if is_directory else size)
        key = blocks[0]
        self.put_all(key, 0, [HEADER, key, 0, 0])
        self.put(key, 80, self.chance.choice([0, 1, 0x0F, 0xF0, 0xFFFFFFFF, self.chance.randrange(2**32)]))
        self.put_text(key, 328, self.chance.randbytes(self.chance.choice([0, 0, 5, 79])))
        self.put_stamp(key, 105, self.stamp())
        self.put_text(key, 432, name)
        self.put(key, 125, directory)
        self.put(key, 127, DIRECTORY if is_directory else FILE)
        if not is_directory:
            self.put_bytes(key, blocks[1:], self.chance.randbytes(size))
        self.chain(directory, slot_of(name), key, ends)
        return key, is_directory

    def file_size(self) -> int:
        """The number of bytes of a file."""
        if self.chance.random() < 0.5:
            return self.chance.choice([0, 1, 487, 488, 489, 511, 512, 513, 5_000, 36_864, 36_865, 60_000])
        return self.chance.randrange(3_000)

    def blocks_of(self, size: int) -> List[int]:
        """The blocks of a file: its header, its data and its extension blocks."""
        data = (size + self.room - 1) // self.room
        wanted = 1 + data + max(0, (data + POINTERS - 1) // POINTERS - 1)
        if len(self.unused) < wanted + 2:
            raise Full
        return [self.take() for _ in range(wanted)]

    def put_bytes(self, key: int, blocks: List[int], data: bytes) -> None:
        count = (len(data) + self.room - 1) // self.room
        used, extensions = blocks[:count], blocks[count:]
        self.put(key, 81, len(data))
        self.put(key, 4, used[0] if used else 0)
        for at, block in enumerate(used):
            piece = data[self.room * at : self.room * (at + 1)]
            start = BLOCK * block
            if self.ofs:
                self.put_all(block, 0, [DATA, key, at + 1, len(piece), used[at + 1] if at + 1 < count else 0])
                start += 24
            self.data[start : start + len(piece)] = piece
            if self.ofs:
                self.settle(block)
        holders = [key, *extensions]
        for at, holder in enumerate(holders):
            mine = used[POINTERS * at : POINTERS * (at + 1)]
            if at:
                self.put_all(holder, 0, [LIST, holder])
                self.put(holder, 125, key)
                self.put(holder, 127, FILE)
            self.put(holder, 2, len(mine))
            for place, block in enumerate(mine):
                self.put(holder, 77 - place, block)
            self.put(holder, 126, holders[at + 1] if at + 1 < len(holders) else 0)
            if at:
                self.settle(holder)

    def chain(self, directory: int, at: int, key: int, ends: Dict[int, int]) -> None:
        first = self.long(directory, 6 + at)
        if first and self.chance.random() < 0.5:
            self.put(ends[at], 124, key)
            ends[at] = key
            return
        self.put(key, 124, first)
        self.put(directory, 6 + at, key)
        ends.setdefault(at, key)

    def finish(self) -> None:
        """Draws the boot block and the bitmap: valid, valid with lost blocks, or invalid and damaged."""
        boot = self.chance.choice([b"", b"", self.chance.randbytes(1020), b"\0\0\0\0\0\0\x03\x70" + b"code"])
        self.data[: 4 + len(boot)] = b"DOS" + (b"\0" if self.ofs else b"\1") + boot
        is_valid = self.chance.random() < 0.8
        lost = set(self.unused[: self.chance.choice([0, 0, 3])])
        for it in lost:
            self.data[BLOCK * it : BLOCK * (it + 1)] = self.chance.randbytes(BLOCK)
        self.put_all(self.root, 79, self.pages)
        self.put_bitmap(set(self.unused) - lost)
        if not is_valid:
            for page in self.pages:
                self.data[BLOCK * page + 4 : BLOCK * (page + 1)] = self.chance.randbytes(BLOCK - 4)
                self.settle(page, 0)
        self.put(self.root, 78, 2**32 - 1 if is_valid else 0)
        self.settle(self.root)

    def put_bitmap(self, unused: Iterable[int]) -> None:
        """Marks exactly these blocks as free."""
        longs = [[0] * BITMAP_LONGS for _ in self.pages]
        for block in unused:
            page, bit = divmod(block - 2, PAGE_BITS)
            longs[page][bit // 32] |= 1 << bit % 32
        for page, marks in zip(self.pages, longs):
            self.put_all(page, 1, marks)
            self.settle(page, 0)


def drawn(seed: int, kind: Type[AnyDrawer]) -> AnyDrawer:
    """The volume with this number, as it was drawn."""
    chance = random.Random(seed)
    blocks = chance.choice([16, 40, 200, 880, 1_760, 1_760, 1_760, 3_520, 8_300])
    drawer = kind(chance, blocks, ofs=bool(seed % 2))
    drawer.draw(chance.choice([0, 1, 20, 200, 200, 2_000, 2_000]))
    return drawer


def draw(seed: int) -> bytes:
    """The image with this number."""
    return bytes(drawn(seed, Drawer).data)
