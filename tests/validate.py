#!/usr/bin/env python3
"""Tests the command `validate` of the built program: bitmaps with wrong bits and sums, bitmap blocks that were overwritten, lost
blocks, other faults, and images of several sizes.

    tests/validate.py [PROGRAM]

The expected image, numbers and refusals are computed here, from the blocks that the model of the faults reaches. The environment
variable ROUNDS is the number of images with random damage to their bitmaps.
"""
from __future__ import annotations

import json
import os
import random
import struct
import sys
from typing import Callable, Dict, List, NamedTuple, Optional, Sequence, Set, Tuple

sys.dont_write_bytecode = True

from all_faults_model import KINDS, Model
from harness import BLOCK, DATA, DIRECTORY, FILE, HEADER, LIST, LONGS, PAGE_BITS, ROOT, Room, try_all

ROUNDS = int(os.environ.get("ROUNDS", "200"))
VALID = 2**32 - 1
# The bits of a bitmap block.
# The longs of a bitmap block after its sum, in the order in which the bits of blocks go up.
PAGE = struct.Struct("<127I")
# The most bits of a bitmap block with a wrong sum that change without `--force`.
FEW_BITS = 64
# The arguments of `blank` for each kind and size, with the number of bytes of the largest file that is put there.
BASES: List[Tuple[List[str], int]] = [
    (["--ffs"], 60_000),
    ([], 60_000),
    (["--hd", "--ffs"], 60_000),
    (["--blocks", "16"], 600),
    (["--blocks", "4066", "--ffs"], 60_000),
    (["--blocks", "4067"], 60_000),
    (["--blocks", "101602", "--ffs"], 60_000),
]


class Disk(Model):
    """An image whose bitmap is read and damaged."""

    def pages_at(self) -> List[int]:
        """The bitmap blocks that the root names."""
        return [self.long(self.root, 79 + it) for it in range(self.pages())]

    def bit(self, block: int) -> int:
        page, at = divmod(block - 2, PAGE_BITS)
        return self.long(self.long(self.root, 79 + page), 1 + at // 32) >> at % 32 & 1

    def bits(self) -> int:
        """The bits of all blocks as one number; its lowest bit is that of block 2."""
        pages = (PAGE.pack(*LONGS.unpack_from(self.data, BLOCK * it)[1:]) for it in self.pages_at())
        return int.from_bytes(b"".join(pages), "little") & self.all_free()

    def all_free(self) -> int:
        """These bits if every block is free."""
        return (1 << self.blocks - 2) - 1

    def flip(self, block: int) -> None:
        """Changes the bit of a block, and makes the sum of its bitmap block right."""
        page, at = divmod(block - 2, PAGE_BITS)
        held = self.long(self.root, 79 + page)
        self.put(held, 1 + at // 32, self.long(held, 1 + at // 32) ^ 1 << at % 32)
        self.settle(held, 0)

    def spoil(self, page: int) -> None:
        """Makes the sum of a bitmap block wrong."""
        self.put(page, 0, self.long(page, 0) + 1)

    def copy(self, source: int, target: int) -> None:
        self.data[BLOCK * target : BLOCK * (target + 1)] = self.data[BLOCK * source : BLOCK * (source + 1)]

    def flag(self, value: int) -> None:
        self.put(self.root, 78, value)
        self.settle(self.root)

    def in_use(self) -> Set[int]:
        return {block for block, _ in self.reached}

    def free_blocks(self) -> List[int]:
        used = self.in_use()
        return [it for it in range(2, self.blocks) if it not in used]

    def headers(self) -> List[int]:
        """The headers of directories and files that are reached."""
        return sorted(block for block, role in self.reached if role.what == "entry")

    def block_of(self, what: str) -> Optional[int]:
        """The lowest reached block of a kind of role."""
        return min((block for block, role in self.reached if role.what == what), default=None)

    def is_header(self, block: int) -> bool:
        """Whether the block is a sound header of a directory or file."""
        name, comment = self.text(block, 432), self.data[BLOCK * block + 328]
        is_name = 0 < len(name) <= 30 and self.data[BLOCK * block + 432] <= 30 and not set(name) & set(b"/:")
        is_typed = self.long(block, 0) == HEADER and self.long(block, 127) in (DIRECTORY, FILE)
        return is_typed and is_name and self.long(block, 1) == block and self.sum(block) == 0 and comment <= 79


class Wanted(NamedTuple):
    """What `validate` has to do: its status and output, the block that a question is about, and the new image."""

    status: int
    output: bytes
    asked: Optional[int]
    image: bytes


def counted(number: int, one: str, many: str) -> str:
    return f"{number} {one if number == 1 else many}"


def validated(data: bytes) -> Disk:
    """The image with a new bitmap, by the rules: the bit of each block is set if nothing names it."""
    old, new = Disk(data), Disk(data)
    bits = old.all_free()
    for block in old.in_use():
        bits &= ~(1 << block - 2)
    for index, page in enumerate(old.pages_at()):
        here = bits >> PAGE_BITS * index & (1 << PAGE_BITS) - 1
        new.put_all(page, 1, PAGE.unpack(here.to_bytes(PAGE.size, "little")))
        new.settle(page, 0)
    new.flag(VALID)
    return new


def question(old: Disk, new: Disk) -> Optional[int]:
    """The first block for which `--force` is needed."""
    for page in old.pages_at():
        primary, secondary = old.long(page, 0), old.long(page, 127)
        is_header = primary == HEADER and secondary in (ROOT, DIRECTORY, FILE)
        if is_header or primary == LIST and secondary == FILE or primary == DATA:
            return page
        bits = sum(bin(old.long(page, it) ^ new.long(page, it)).count("1") for it in range(1, 128))
        if old.sum(page) != 0 and bits > FEW_BITS:
            return page
    used, marks = old.in_use(), f"{old.bits():0{old.blocks - 2}b}"[::-1]
    lost = (it for it, mark in enumerate(marks, 2) if mark == "0" and it not in used)
    return next((it for it in lost if old.is_header(it)), None)


def wanted_of(data: bytes, force: bool) -> Wanted:
    old = Disk(data)
    pages = set(old.pages_at())
    named = [(KINDS[kind], block) for block, kind in old.all_faults()]
    others = [(kind, block) for kind, block in named if kind != "MarkedFree" and not (kind == "BadSum" and block in pages)]
    if others:
        return Wanted(3, f"refused {others[0][0]} {others[0][1]}\n".encode(), None, data)
    new = validated(data)
    asked = None if force else question(old, new)
    if asked is not None:
        return Wanted(3, b"", asked, data)
    was, now = old.bits(), new.bits()
    freed, used = bin(was & ~now).count("1"), bin(now & ~was).count("1")
    line = f"validated: {counted(freed, 'block was', 'blocks were')} marked free, {counted(used, 'was', 'were')} marked used\n"
    return Wanted(0, line.encode(), None, bytes(new.data))


def object_of(output: bytes) -> bytes:
    """What `--json` prints in place of this line."""
    if not output:
        return b""
    words = output.decode().split()
    if words[0] == "refused":
        told: Dict[str, object] = {"refused": {"kind": words[1], "block": int(words[2])}}
    else:
        freed, used = (int(it) for it in words if it.isdecimal())
        told = {"were_free": freed, "were_used": used}
    return json.dumps(told, separators=(",", ":")).encode() + b"\n"


def fault_of_run(room: Room, data: bytes, force: bool, out: bool = False) -> Optional[str]:
    """What is wrong with a run over these bytes."""
    return fault_beside(room, data, force, wanted_of(data, force), out)


def fault_beside(room: Room, data: bytes, force: bool, wanted: Wanted, out: bool = False) -> Optional[str]:
    """What is wrong with a run over these bytes, where this is expected of it."""
    room.write("damaged.adf", data)
    ran = room.run("validate", *["--force"] * force, "--json", "--out", "object.adf", "damaged.adf")
    if (ran.status, ran.output) != (wanted.status, object_of(wanted.output)):
        return f"{ran} where {object_of(wanted.output)!r} is expected"
    options = ["--force"] * force + ["--out", "out.adf"] * out
    ran = room.run("validate", *options, "damaged.adf")
    if (ran.status, ran.output) != (wanted.status, wanted.output):
        return f"{ran} where {wanted[:3]} is expected"
    said = ran.texts.decode()
    if wanted.output.startswith(b"refused "):
        block = wanted.output.split()[2].decode()
        if f"block {block}" not in said:
            return f"{said!r} on standard error, where the fault of block {block} is expected"
    elif wanted.asked is None and said or wanted.asked is not None and not (f"block {wanted.asked} " in said and "--force" in said):
        return f"{said!r} on standard error, where a question about block {wanted.asked} is expected"
    if out and room.content("damaged.adf") != data:
        return "the old image changed"
    target = "out.adf" if out and not wanted.status else "damaged.adf"
    if room.content(target) != wanted.image:
        return f"other bytes than expected in {target}"
    return "a fault is left" if not wanted.status and Model(wanted.image).all_faults() else None


def hold(room: Room, name: str, disk: Disk, asks: Optional[bool] = None) -> None:
    """A damaged image is validated as the rules say, or refused, without `--force` and with it. `asks` says whether a question is
    expected at all."""
    data = bytes(disk.data)
    wanted = wanted_of(data, False)
    room.report.hold(name, fault_beside(room, data, False, wanted))
    room.report.hold(f"{name}, forced", fault_of_run(room, data, True))
    if asks is not None:
        room.report.same(f"{name}: whether it asks", wanted.asked is not None, asks)


# ---- each damage


def base(room: Room, kind: Sequence[str], size: int) -> bytes:
    room.done("blank", *kind, "Work", "base.adf")
    os.makedirs("in/Docs", exist_ok=True)
    room.write("in/Docs/long", random.randbytes(size))
    room.write("in/top", random.randbytes(700))
    room.done("add", "base.adf", "in/Docs", "in/top")
    data = room.content("base.adf")
    os.remove("base.adf")
    return data


Damage = Tuple[str, Callable[[Disk], None], Optional[bool]]


def flip_used(disk: Disk) -> None:
    disk.flip(disk.headers()[0])


def flip_free(disk: Disk) -> None:
    disk.flip(disk.free_blocks()[-1])


def flip_several(disk: Disk) -> None:
    for block in disk.headers()[:1] + disk.free_blocks()[:3]:
        disk.flip(block)


def spoil_sum(disk: Disk) -> None:
    disk.spoil(disk.pages_at()[-1])


def clear_page(disk: Disk) -> None:
    page = disk.pages_at()[0]
    disk.data[BLOCK * page : BLOCK * (page + 1)] = bytes(BLOCK)


def put_header(disk: Disk) -> None:
    disk.copy(disk.headers()[0], disk.pages_at()[0])


def put_root(disk: Disk) -> None:
    disk.copy(disk.root, disk.pages_at()[-1])


def put_block(what: str) -> Callable[[Disk], None]:
    def put(disk: Disk) -> None:
        block = disk.block_of(what)
        assert block is not None
        disk.copy(block, disk.pages_at()[0])

    return put


def spoiled(damage: Callable[[Disk], None]) -> Callable[[Disk], None]:
    """The damage, and then a wrong sum of the last bitmap block."""

    def spoil(disk: Disk) -> None:
        damage(disk)
        disk.put(disk.pages_at()[0], 60, disk.long(disk.pages_at()[0], 60) + 1)

    return spoil


def put_noise(disk: Disk) -> None:
    page = disk.pages_at()[0]
    disk.data[BLOCK * page : BLOCK * (page + 1)] = b"\xa5" + random.randbytes(BLOCK - 1)


def flags(value: int) -> Callable[[Disk], None]:
    return lambda disk: disk.flag(value)


def invalid(damage: Callable[[Disk], None]) -> Callable[[Disk], None]:
    """The damage of an image whose root says that the bitmap is not valid."""

    def flagged(disk: Disk) -> None:
        damage(disk)
        disk.flag(0)

    return flagged


def lose_header(disk: Disk) -> None:
    """Takes the first entry out of its hash chain. Its blocks stay marked used."""
    for slot in range(6, 78):
        first = disk.long(disk.root, slot)
        if first != 0:
            disk.put(disk.root, slot, disk.long(first, 124))
            disk.settle(disk.root)
            return


def each_damage(disk: Disk) -> List[Damage]:
    rows: List[Damage] = [
        ("as it is", lambda _: None, False),
        ("a used block marked free", flip_used, False),
        ("a free block marked used", flip_free, False),
        ("several bits", flip_several, False),
        ("a wrong sum", spoil_sum, False),
        ("a bitmap block of zeros", clear_page, False),
        ("a header over a bitmap block", put_header, True),
        ("a header with a wrong sum over a bitmap block", spoiled(put_header), True),
        ("the root over a bitmap block", put_root, True),
        ("noise over a bitmap block", put_noise, True),
        ("a bitmap that is not valid", flags(0), False),
        ("a flag of 1", flags(1), False),
        ("a used block marked free in a bitmap that is not valid", invalid(flip_used), False),
        ("a wrong sum in a bitmap that is not valid", invalid(spoil_sum), False),
        ("noise in a bitmap that is not valid", invalid(put_noise), True),
        ("a lost header", lose_header, True),
        ("a lost header in a bitmap that is not valid", invalid(lose_header), True),
    ]
    if disk.ofs:
        rows.append(("a data block over a bitmap block", put_block("data"), True))
        rows.append(("a data block with a wrong sum over a bitmap block", spoiled(put_block("data")), True))
    if disk.block_of("extension") is not None:
        rows.append(("an extension block over a bitmap block", put_block("extension"), True))
    return rows


def damages(room: Room) -> None:
    for kind, size in BASES:
        data = base(room, kind, size)
        said = " ".join(kind) or "--ofs"
        for name, damage, asks in each_damage(Disk(data)):
            disk = Disk(data)
            damage(disk)
            hold(room, f"{said}, {name}", disk, asks)


def many_bits(room: Room) -> None:
    """With a wrong sum 64 bits are changed without a question, and 65 are not. With a right sum any number is."""
    data = base(room, ["--ffs"], 60_000)
    for number, is_spoiled, asks in [(64, True, False), (65, True, True), (65, False, False), (1_000, False, False)]:
        disk = Disk(data)
        for block in disk.free_blocks()[:number]:
            disk.flip(block)
        if is_spoiled:
            disk.spoil(disk.pages_at()[0])
        hold(room, f"{number} bits, {'a wrong' if is_spoiled else 'a right'} sum", disk, asks)


def other_faults(room: Room) -> None:
    """Any other fault is refused, with `--force` too, and the image stays as it is."""
    data = base(room, [], 60_000)
    good = Disk(data)
    first, last = good.headers()[0], good.headers()[-1]
    rows = [
        ("the root's sum", good.root, 5, good.long(good.root, 5) + 1, False),
        ("a bitmap block outside the volume", good.root, 79, good.blocks, True),
        ("a bitmap block that is the root", good.root, 79, good.root, True),
        ("a bitmap block that is a header", good.root, 79, first, True),
        ("the sum of a header", first, 5, good.long(first, 5) + 1, False),
        ("the type of a header", last, 127, 77, True),
        ("another parent", last, 125, 3, True),
        ("no disk of DOS", 0, 0, 0, False),
        ("another kind of DOS", 0, 0, 0x444F_5305, False),
    ]
    for name, block, at, value, is_settled in rows:
        for is_spoiled in (False, True):
            disk = Disk(data)
            disk.put(block, at, value)
            if is_settled:
                disk.settle(block)
            if is_spoiled and good.pages_at()[0] not in (block, value):
                disk.spoil(good.pages_at()[0])
            hold(room, f"{name}{' and a wrong sum of the bitmap' if is_spoiled else ''}", disk, False)
            room.report.same(f"{name}: it is refused", wanted_of(bytes(disk.data), True).status, 3)


def to_other_file(room: Room) -> None:
    disk = Disk(base(room, ["--ffs"], 600))
    disk.flip(disk.headers()[0])
    room.report.hold("--out", fault_of_run(room, bytes(disk.data), False, out=True))
    room.report.check("a second time", room.run("validate", "out.adf"), 0, b"validated: 0 blocks were marked free, 0 were marked used\n")
    room.report.check("the new image is accepted", room.run("check", "out.adf"), 0, b"ok\n")
    put_header(disk)
    os.remove("out.adf")
    room.report.hold("--out of a question", fault_of_run(room, bytes(disk.data), False, out=True))
    room.report.expect("no file is made", not os.path.exists("out.adf"))
    room.report.hold("--out and --force", fault_of_run(room, bytes(disk.data), True, out=True))
    room.report.check("no such image", room.run("validate", "none.adf"), 2, b"", "none.adf")
    room.write("short.adf", bytes(100))
    room.report.check("no image", room.run("validate", "short.adf"), 3, b"refused NotWholeBlocks 0\n", "100 bytes are no whole number of blocks: cut short")
    room.report.check("no argument", room.run("validate"), 1, b"", "IMAGE")


def at_random(room: Room) -> None:
    """Random bits, sums and flags, and now and then a lost header or another fault."""
    kinds: List[List[str]] = [["--ffs"], [], ["--blocks", "4067"]]
    for kind in kinds:
        data = base(room, kind, 60_000)
        faults = [fault for fault in (drawn(room, data) for _ in range(ROUNDS // 3)) if fault]
        room.report.hold(f"{' '.join(kind) or '--ofs'}, random damage", f"{len(faults)}, as {faults[0]}" if faults else None)


def drawn(room: Room, data: bytes) -> Optional[str]:
    disk = Disk(data)
    for block in random.sample(range(2, disk.blocks), random.choice([0, 1, 3, 60, 70, 300])):
        disk.flip(block)
    if random.random() < 0.3:
        disk.spoil(random.choice(disk.pages_at()))
    if random.random() < 0.3:
        disk.flag(random.choice([0, 1, VALID - 1]))
    if random.random() < 0.2:
        lose_header(disk)
    if random.random() < 0.2:
        block = random.choice(sorted(disk.in_use() - {disk.root}))
        disk.put(block, random.randrange(128), random.getrandbits(32))
    return fault_of_run(room, bytes(disk.data), random.random() < 0.5)


def main(words: List[str]) -> int:
    random.seed(17)
    return try_all(words, Room, damages, many_bits, other_faults, to_other_file, at_random)


if __name__ == "__main__":
    sys.exit(main(sys.argv[1:]))
