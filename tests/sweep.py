#!/usr/bin/env python3
"""Tests that nothing of a damaged floppy is lost in silence: `extract --damaged` of the built program has a line for each file.

    tests/sweep.py [PROGRAM] [--all | --floppies N] [--images N] [--seed S] [--page] [--jobs N] [--keep DIR]

The floppies are drawn in Python, in both formats. Each gets one damage: a flipped bit in a block of each role, a track of noise,
a block of zeros, or no root. The expected account comes from the floppy as it was: each file has exactly one line, a file that was
not hit is whole with its bytes, and the status is the one that `check` asks for. The blocks that are used and belong to nothing
are those of tests/disk_model.py. Another kind of disk in the boot block is one more damage of this sort. Others are only counted: no
boot blocks, a file that is cut short, and sectors that a copying program could not read. On a few floppies with large files one or two
extension blocks of a file are gone, and the bytes that are left are expected.

A table says how much is saved, for each damage and format: how many of a hundred bytes, of all files and of the blocks that are as
they were, are written at their place; the same of `unadf`, if it is installed; how many files have no line; and how many are called
whole with bytes that they did not have. Some 200 floppies are tried, with `--floppies` about N, and with `--all` every damage of six.
They are the same in each run.

Files that end early follow, with `--blocks`: what is behind their ends is missing in each file that it belongs to.

Then come images that tests/fuzz.py damages at random, and accepted ones with headers that nothing names, 100 or N. Half of them have
data blocks that hold a filler.
tests/disk_model.py says what `extract --damaged` has to print and to write, also where some blocks could not be read (`--bad`), what
`map` and `where` print of those that are accepted, and `where` of those that are refused. `--page` compares with the pages alone, and
so shows where the program does more or less. `--keep` keeps the images that show a fault.
"""
from __future__ import annotations

import argparse
import os
import random
import re
import shutil
import sys
from functools import partial
from itertools import combinations_with_replacement
from multiprocessing import Pool
from pathlib import Path
from typing import Callable, Dict, Iterator, List, Mapping, NamedTuple, Optional, Sequence, Set, Tuple, Type, TypeVar

sys.dont_write_bytecode = True

from all_faults_model import Model, lines_of
from disk_model import FILLERS, NO_SUMS, NOW, PAGE, Account, Bitmap, Disk, Headers, Owners, Rules, rest_of, rest_text, rest_told, runs_of, texts_told
from drawn_volume import Drawer
from fuzz import FEWEST, LARGEST, PER_BASE, Base, Damaged, a_chain, a_name, a_parent, a_pointer, a_size, base_of, damaged, told_of
from harness import BLOCK, FILE, Image, Ran, Report, Room, host_name, in_memory, processors, program_of
from tally import Tally, Whole, by_unadf, table, tally_of
from where import Owned, Reading, page_of, placed_lines, places_of, words_of

T = TypeVar("T")
FLOPPY = 1760
TRACK = 11
# The roles of blocks, as `Reading` calls them. Blocks of data have headers in OFS alone.
ROLES = ["root", "directory", "file", "extension", "bitmap", "data"]
# Longs of a block that have a meaning in one role at least.
TELLING = [*range(0, 6), 6, 7, 30, 75, 76, 77, 78, 79, 80, 81, 82, 83, 104, 105, 106, 107, 108, 109, 124, 125, 126, 127]
# Longs of a header without which not all of its entry can be told: types and own number, of which one alone is put right; size and
# directory; in FFS count, pointers and next extension block. Longs of which an extension block has more than one right.
FIXED, LISTED, KNOWN = {0, 1, 127}, {2, *range(6, 78), 126}, {0, 1, 125, 127}
CRUCIAL = {"file": {81, 125}, "directory": {125}}
NAME = range(108, 116)
LINE = re.compile(r"(found )?(?:(whole|doubtful|lost|broken [0-9]+) )?(.+)")
LETTERS = {"boot": "B", "root": "R", "bitmap": "M", "directory": "D", "file": "F", "extension": "X", "data": "#", "lost": "L", "free": "."}
LAST = re.compile(r"(unaccounted|deleted) [1-9][0-9]*")
# How many of a hundred bytes that are there have to be saved, of all floppies of a format.
LEAST = {"OFS": 99.9, "FFS": 97.0}


# ---- floppies


class Distinct(Drawer):
    """Draws a volume in which no two entries have one name. It has at most so many entries, and at least so many of each kind."""

    names = 0
    most = 40
    least = {"directory": 3, "file": 10, "extension": 1}

    def name(self) -> bytes:
        self.names += 1
        front = bytes(self.chance.choices(b"abcDEF.-0189_%\\\x9b\xe4\xd6", k=self.chance.choice([0, 1, 4, 20])))
        return b"%bn%d" % (front, self.names)


class Large(Distinct):
    """Draws few files, some of them with several extension blocks."""

    most = 20
    least = {"directory": 1, "file": 4, "extension": 6}

    def file_size(self) -> int:
        return self.chance.randrange(60_000, 300_000) if self.chance.random() < 0.3 else self.chance.randrange(3_000)


class Floppy(NamedTuple):
    """An accepted floppy: its bytes, its format, and for each header the path, the data blocks in order, and all of its blocks."""

    data: bytes
    ofs: bool
    paths: Dict[int, str]
    parts: Dict[int, List[int]]
    own: Dict[int, Set[int]]
    roles: Dict[str, List[int]]

    def kind(self) -> str:
        return "OFS" if self.ofs else "FFS"

    def files(self) -> List[int]:
        return [it for it in self.paths if it in self.parts]

    def extensions(self, key: int) -> List[int]:
        """The extension blocks of a file in their order."""
        image, blocks = Image(self.data), [key]
        while image.long(blocks[-1], 126):
            blocks.append(image.long(blocks[-1], 126))
        return blocks[1:]

    def content(self, image: Image, key: int) -> bytes:
        """The bytes of a file in this image, by the blocks that it has on the floppy."""
        first = 24 if self.ofs else 0
        pieces = [image.data[BLOCK * it + first : BLOCK * (it + 1)] for it in self.parts[key]]
        return b"".join(pieces)[: Image(self.data).long(key, 81)]


def host_path(image: Reading, key: int) -> str:
    return "/".join(map(host_name, image.names_of(key)))


def floppy_of(data: bytes) -> Floppy:
    image = Reading(data)
    roles: Dict[str, List[int]] = {it: [] for it in ROLES}
    for block, owned in sorted(image.owners.items()):
        if owned.owner in roles:
            roles[owned.owner].append(block)
    own = {it: blocks for it, blocks in image.own.items() if it != image.root}
    numbered = {it: sorted((image.owners[block].number or 0, block) for block in own[it] if image.owners[block].owner == "data") for it in roles["file"]}
    return Floppy(
        data=data,
        ofs=data[3] == 0,
        paths={it: host_path(image, it) for it in own},
        parts={it: [block for _, block in pairs] for it, pairs in numbered.items()},
        own=own,
        roles=roles,
    )


def floppies(ofs: bool, count: int, kind: Type[Distinct] = Distinct) -> Iterator[Floppy]:
    """So many drawn floppies that have blocks of each role, and a bitmap that is valid."""
    seed = 0
    while count:
        seed += 1
        drawer = kind(random.Random(f"floppy {seed} {ofs}"), FLOPPY, ofs)
        drawer.draw(kind.most)
        data = bytes(drawer.data)
        if drawer.long(drawer.root, 78) == 0:
            continue
        floppy = floppy_of(data)
        if all(len(floppy.roles[role]) >= least for role, least in kind.least.items()):
            assert not lines_of(data), f"floppy {seed} is not accepted"
            count -= 1
            yield floppy


# ---- damages


class Damage(NamedTuple):
    """A damaged floppy: what was done, and the bytes of each block that was hit."""

    what: str
    hit: Mapping[int, bytes]
    # Nothing leads to any entry.
    is_rootless: bool = False
    # The file has only this many blocks.
    left: int = FLOPPY

    def of(self, floppy: Floppy) -> Image:
        """The image as it would be with all of its blocks."""
        image = Image(floppy.data)
        for block, data in self.hit.items():
            image.data[BLOCK * block : BLOCK * (block + 1)] = data
        return image


class Flip(NamedTuple):
    """A flipped bit."""

    block: int
    long: int
    bit: int

    def damage(self, floppy: Floppy) -> Damage:
        image = Image(floppy.data)
        image.put(self.block, self.long, image.long(self.block, self.long) ^ 1 << self.bit)
        return Damage(f"bit {self.bit} of long {self.long} of block {self.block}", {self.block: bytes(image.data[BLOCK * self.block : BLOCK * (self.block + 1)])})


def flips(floppy: Floppy, chance: random.Random, each: int) -> Iterator[Damage]:
    """So many flipped bits in blocks of each role, each block as often as the others."""
    for role in ROLES[: 6 if floppy.ofs else 5]:
        blocks = list(floppy.roles[role])
        chance.shuffle(blocks)
        for number in range(each):
            at = chance.randrange(6) if role == "data" else chance.choice(TELLING) if chance.random() < 0.7 else chance.randrange(128)
            yield Flip(blocks[number % len(blocks)], at, chance.randrange(32)).damage(floppy)


def tracks(floppy: Floppy) -> Iterator[Damage]:
    """Each track in turn is noise."""
    for first in range(0, FLOPPY, TRACK):
        chance = random.Random(f"track {first}")
        yield Damage(f"noise from block {first}", {it: chance.randbytes(BLOCK) for it in range(first, first + TRACK)})


def zeros(floppy: Floppy) -> Iterator[Damage]:
    """Each block in turn is zeros, if it is not yet."""
    for block in (it for it in range(FLOPPY) if any(floppy.data[BLOCK * it : BLOCK * (it + 1)])):
        yield Damage(f"zeros in block {block}", {block: bytes(BLOCK)})


def rootless(floppy: Floppy) -> Iterator[Damage]:
    """The root is gone, alone, with the boot blocks, or with the bitmap."""
    root, page, chance = floppy.roles["root"][0], floppy.roles["bitmap"][0], random.Random("root")
    yield Damage("no root", {root: bytes(BLOCK)}, True)
    yield Damage("noise for the root", {root: chance.randbytes(BLOCK)}, True)
    yield Damage("no root and no boot blocks", {it: bytes(BLOCK) for it in (0, 1, root)}, True)
    yield Damage("no root and no bitmap", {it: bytes(BLOCK) for it in (root, page)}, True)
    yield Damage("a bitmap block for the root", {root: floppy.data[BLOCK * page : BLOCK * (page + 1)]}, True)


def gone_extensions(floppy: Floppy) -> Iterator[Damage]:
    """One or two extension blocks of each file are zeros or noise."""
    for file in floppy.files():
        blocks = floppy.extensions(file)
        for one, other in combinations_with_replacement(blocks, 2):
            hit = sorted({one, other})
            chance = random.Random(f"extension blocks {hit}")
            yield Damage(f"no extension blocks {hit}", {it: chance.choice([bytes(BLOCK), chance.randbytes(BLOCK)]) for it in hit})


def other_kind(floppy: Floppy) -> Iterator[Damage]:
    """The boot block has the other kind of disk."""
    yield Flip(0, 0, 0).damage(floppy)


def bootless(floppy: Floppy) -> Iterator[Damage]:
    """The boot blocks, or the first of them, are gone."""
    yield Damage("no boot blocks", {it: bytes(BLOCK) for it in (0, 1)})
    yield Damage("noise for the first block", {0: random.Random("boot").randbytes(BLOCK)})


def cuts(floppy: Floppy) -> Iterator[Damage]:
    """The file ends after some block behind the root."""
    for left in range(floppy.roles["root"][0] + 1, FLOPPY, 8):
        yield Damage(f"cut after {left} blocks", {it: bytes(BLOCK) for it in range(left, FLOPPY)}, left=left)


def bad_sectors(floppy: Floppy) -> Iterator[Damage]:
    """Some data blocks have the filler of a copying program."""
    filler = (b"-=[BAD SECTOR]=-" * 32)[:BLOCK]
    blocks = sorted(it for parts in floppy.parts.values() for it in parts)
    for first in range(0, len(blocks) - 4, 4):
        yield Damage(f"bad sectors from block {blocks[first]}", {it: filler for it in blocks[first : first + 3]})


def first_longs(floppy: Floppy) -> Iterator[Damage]:
    """Each bit of the first long in turn is another one. Then the boot block is gone, and each header of a file has a wrong sum."""
    for bit in range(32):
        yield Flip(0, 0, bit).damage(floppy)
    hit = {0: bytes(BLOCK)}
    for file in floppy.files():
        hit.update(Flip(file, 105, 0).damage(floppy).hit)
    yield Damage("no boot block and no sound header of a file", hit)


# ---- the account


class Line(NamedTuple):
    """A line of the account. A directory has no state, or is doubtful or lost."""

    found: bool
    state: str
    path: str

    def names(self) -> Set[str]:
        """The last part of the path, with and without the ending of a name that was taken."""
        last = self.path.rstrip("/").rsplit("/", 1)[-1]
        return {last, re.sub(r"~[0-9]+$", "", last)}


def parsed(output: bytes) -> List[Line]:
    """The lines of an account but for the last ones, which tell of no entry."""
    lines = output.decode().splitlines()
    while lines and LAST.fullmatch(lines[-1]):
        lines.pop()
    found = [LINE.fullmatch(it) for it in lines]
    bad = [line for line, match in zip(lines, found) if match is None]
    assert not bad, f"no line of an account: {bad[0]!r}"
    return [Line(bool(it[1]), it[2] or "", it[3]) for it in found if it]


class Told:
    """What the program tells of a damaged floppy, and what it wrote. A broken rule raises AssertionError."""

    def __init__(self, room: Room, floppy: Floppy, damage: Damage) -> None:
        self.room, self.floppy, self.damage, self.image = room, floppy, damage, damage.of(floppy)
        # (a test that goes on after a fault may not find files of the one before)
        shutil.rmtree("out", ignore_errors=True)
        room.write("image.adf", bytes(self.image.data[: BLOCK * damage.left]))
        front = [] if damage.left == FLOPPY else ["--blocks", str(FLOPPY)]
        self.ran = room.run("extract", "--damaged", *front, "--to", "out", "image.adf")
        self.lines = parsed(self.ran.output)
        self.by_name: Dict[str, List[Line]] = {}
        for it in self.lines:
            for name in it.names():
                self.by_name.setdefault(name, []).append(it)

    def all(self) -> None:
        checked = self.room.run("check", "image.adf")
        wanted = 0 if checked.output.startswith(b"ok") else 3
        assert (checked.status, self.ran.status) == (wanted, wanted), f"status {self.ran.status} where check has {checked}"
        for key in self.floppy.files():
            self.file(key)
        for key in self.floppy.roles["directory"]:
            self.directory(key)
        self.nothing_else()
        self.rest()
        self.written()

    def tally(self) -> Tally:
        """What is saved, by the floppy as it was."""
        sound, files = Image(self.floppy.data), {}
        for key in self.floppy.files():
            kept = [self.image.data[BLOCK * it : BLOCK * (it + 1)] == sound.data[BLOCK * it : BLOCK * (it + 1)] for it in self.floppy.parts[key]]
            files[key] = Whole(self.floppy.content(sound, key), kept)
        lines = {key: self.lines_for(key) for key in files}
        return tally_of(
            files,
            self.floppy.ofs,
            (it.read_bytes() for it in Path("out").rglob("*") if it.is_file()),
            {key: self.content(it) for key, mine in lines.items() for it in mine if it.state == "whole"},
            {key for key, mine in lines.items() if mine},
            by_unadf("image.adf"),
        )

    def names(self, key: int) -> Set[str]:
        """The names that an entry may have in the account: its own, and if its header was hit that of the block."""
        names = {host_name(Image(self.floppy.data).text(key, 432))}
        if key in self.damage.hit:
            names |= {host_name(self.image.text(key, 432)), f"block-{key}"}
        return names

    def lines_for(self, key: int) -> List[Line]:
        return list(dict.fromkeys(line for name in self.names(key) for line in self.by_name.get(name, [])))

    def file(self, key: int) -> None:
        """A file has one line, with the state that its blocks leave it, and the bytes of the blocks that are left."""
        path, lines = self.floppy.paths[key], self.lines_for(key)
        assert len(lines) == 1, f"{path} has {len(lines)} lines: {lines[:3]}"
        line, wanted = lines[0], self.state(key)
        assert line.state == wanted if wanted else line.state not in ("", "whole"), f"{path}: {line} where {wanted} is expected"
        if wanted:
            assert self.content(line) == self.left(key), f"{path} has other bytes"
        if wanted and self.damage.hit.keys() <= self.floppy.own[key]:
            assert not line.found, f"its directory leads to {path}: {line}"

    def state(self, key: int) -> str:
        """The state of a file after this damage; nothing where it may be any but whole."""
        hit = self.floppy.own[key] & self.damage.hit.keys()
        headers = hit - set(self.floppy.parts[key])
        # (of three that are gone, two may be side by side before one whose place is not known)
        if any(self.is_crucial(it, "file" if it == key else "extension") for it in headers) or len(headers - {key}) > 2:
            return ""
        if not hit or not self.floppy.ofs and not headers:
            # (no checksum covers a data block of FFS)
            return "whole"
        missing = self.missing(key)
        return f"broken {len(missing)}" if missing else "doubtful"

    def missing(self, key: int) -> Set[int]:
        """The numbers of the data blocks of a file that are missing: in OFS those that do not say that they are those; in FFS those that
        an extension block named which is gone."""
        if self.floppy.ofs:
            return {at for at, it in enumerate(self.floppy.parts[key]) if it in self.damage.hit and self.changed(it) & {0, 1, 2}}
        firsts = [72 * at for at, it in enumerate(self.floppy.extensions(key), 1) if it in self.damage.hit and self.is_gone(it)]
        return {at for first in firsts for at in range(first, min(first + 72, len(self.floppy.parts[key])))}

    def left(self, key: int) -> bytes:
        """The bytes of a file up to the last data block that is left, with zeros where blocks are missing."""
        room, missing = Image(self.floppy.data).room, self.missing(key)
        data = bytearray(self.floppy.content(self.image, key))
        for at in missing:
            data[room * at : room * (at + 1)] = bytes(len(data[room * at : room * (at + 1)]))
        there = [at for at in range(len(self.floppy.parts[key])) if at not in missing]
        return bytes(data[: room * (there[-1] + 1)]) if there else b""

    def is_gone(self, block: int) -> bool:
        """Whether nothing says any more that a block is an extension block."""
        return len(self.changed(block) & KNOWN) > 1

    def changed(self, block: int) -> Set[int]:
        """The longs that are other ones than before."""
        sound = Image(self.floppy.data)
        return {at for at in range(128) if sound.long(block, at) != self.image.long(block, at)}

    def is_crucial(self, block: int, role: str) -> bool:
        """Whether something differs in a header without which not all of it can be told. In OFS the data blocks tell all that pointers do."""
        changed, listed = self.changed(block), set() if self.floppy.ofs or role == "directory" else LISTED
        if role == "extension":
            return bool(changed & listed) and not self.is_gone(block)
        is_named = not changed & set(NAME) or Headers(self.image.data).has_name(block)
        return bool(changed & (CRUCIAL[role] | listed | (FIXED if len(changed) > 1 else set()))) or not is_named

    def content(self, line: Line) -> bytes:
        return Path("out", line.path).read_bytes()

    def directory(self, key: int) -> None:
        """A directory that was hit has a line. Another one has one where no directory leads to it."""
        path, lines = self.floppy.paths[key], self.lines_for(key)
        if key in self.damage.hit:
            is_doubtful = len(lines) == 1 and lines[0].state == "doubtful" and lines[0].path.endswith("/")
            is_lost = self.is_crucial(key, "directory") and len(lines) == 1 and lines[0].state == "lost"
            assert is_doubtful or is_lost, f"{path}/ was hit: {lines}"
        else:
            is_told = len(lines) == 1 and lines[0].found and lines[0].state == ""
            assert is_told or not lines and not self.damage.is_rootless, f"{path}/ was not hit: {lines}"

    def nothing_else(self) -> None:
        """The other lines are of blocks that a damaged place names."""
        known = {name for key in self.floppy.paths for name in self.names(key)}
        for it in self.lines:
            assert it.names() & known or it.state == "lost", f"a line for nothing: {it}"
        paths = [it.path for it in self.lines]
        assert len(set(paths)) == len(paths), "two lines have one path"

    def rest(self) -> None:
        """The blocks that are used and belong to nothing are those of the model: their line is the last, and standard error has their
        numbers."""
        rest = rest_of(bytes(self.image.data))
        last = self.ran.output.splitlines()[-1:]
        wanted = [b"unaccounted %d" % len(rest)] if rest else []
        told = last if last and last[0].startswith(b"unaccounted ") else []
        assert told == wanted, f"{told} where {wanted} is expected"
        assert rest_told(self.ran.texts) == rest_text(rest), f"standard error: {rest_told(self.ran.texts)!r} where {rest_text(rest)!r} is expected"

    def written(self) -> None:
        """Exactly the files that are told are written, but for the lost ones."""
        told = {it.path for it in self.lines if it.state not in ("", "lost") and not it.path.endswith("/")}
        written = {os.path.relpath(os.path.join(top, name), "out") for top, _, names in os.walk("out") for name in names}
        assert told == written, f"told or written alone: {sorted(told ^ written)[:4]}"


# ---- the floppies


class Job(NamedTuple):
    """A damage of the floppy with a number."""

    title: str
    floppy: int
    damage: Damage


# The floppies, in each process of a pool.
BASES: List[Floppy] = []


def tried(program: Path, kept: Optional[Path], job: Job) -> Tuple[Optional[str], Tally]:
    """What is wrong with the account of a damaged floppy, which is kept then; and what is saved of it."""
    floppy, tally = BASES[job.floppy], Tally()
    with Room(program, inside=in_memory()) as room:
        try:
            told = Told(room, floppy, job.damage)
            tally = told.tally()
            if job.title not in COUNTED:
                told.all()
        except Exception as fault:
            said = f"{job.damage.what} of {floppy.kind()} floppy {job.floppy}: {str(fault)[:400] or repr(fault)}"
            keep(kept, f"sweep-{job.floppy}-{job.damage.what.replace(' ', '-')}", bytes(job.damage.of(floppy).data), said)
            return said, tally
    return None, tally


def keep(kept: Optional[Path], name: str, data: bytes, said: str) -> None:
    if kept:
        kept.mkdir(parents=True, exist_ok=True)
        kept.joinpath(f"{name}.adf").write_bytes(data)
        kept.joinpath(f"{name}.txt").write_text(f"{said}\n")


def some(damages: Iterator[Damage], count: Optional[int], chance: random.Random) -> List[Damage]:
    every = list(damages)
    return every if count is None else chance.sample(every, min(count, len(every)))


# Kinds of damages: how many of them a floppy gets without options, and with `--floppies`.
Damages = Callable[[Floppy], Iterator[Damage]]
KINDS: List[Tuple[str, Damages, int, int]] = [
    ("a track of noise", tracks, 12, 7),
    ("a block of zeros", zeros, 25, 8),
    ("no root", rootless, 5, 3),
    ("the other kind", other_kind, 1, 1),
    ("another first long", first_longs, 33, 1),
    ("no boot blocks", bootless, 2, 1),
    ("cut short", cuts, 6, 2),
    ("bad sectors", bad_sectors, 6, 2),
]
# The kinds for which no account is expected.
COUNTED = ("no boot blocks", "cut short", "bad sectors")
# The one damage of floppies with large files, which counts by itself alone.
LARGE = "extension blocks, large files"
# How many floppies with one damage each are made of a floppy of each format with `--floppies`.
PER_PAIR = 83


def jobs_of(bases: Sequence[Floppy], is_all: bool, is_many: bool) -> List[Job]:
    """The damages of each floppy: all of them, or some."""
    jobs: List[Job] = []
    for number, floppy in enumerate(bases):
        chance = random.Random(f"damages {number}")
        jobs += [Job("a flipped bit", number, it) for it in flips(floppy, chance, 61 if is_all else 3 if is_many else 10)]
        for title, damages, few, share in KINDS:
            # (zeros in each block of one floppy of each format are enough)
            if not is_all or title != "a block of zeros" or number in (0, len(bases) // 2):
                jobs += [Job(title, number, it) for it in some(damages(floppy), None if is_all else share if is_many else few, chance)]
    return jobs


def large_jobs(bases: Sequence[Floppy], first: int, most: int) -> List[Job]:
    """Damages of floppies with large files, of which the first has this number. Each has at most so many."""
    chance = random.Random("large")
    return [Job(LARGE, first + number, it) for number, floppy in enumerate(bases) for it in some(gone_extensions(floppy), most, chance)]


def swept(report: Report, program: Path, is_all: bool, many: int, most: int, kept: Optional[Path]) -> None:
    """Each title is one check, with the number of its floppies."""
    count = 3 if is_all else -(-many // PER_PAIR) or 1
    bases, large = ([*floppies(True, each, kind), *floppies(False, each, kind)] for each, kind in ((count, Distinct), (-(-count // 4), Large)))
    jobs = [*jobs_of(bases, is_all, many > 0), *large_jobs(large, len(bases), 40 if is_all else 10)]
    bases += large
    with Pool(most, BASES.extend, (bases,)) as pool:
        ended = pool.map(partial(tried, program, kept), jobs, 8)
    for title in dict.fromkeys(it.title for it in jobs):
        mine = [fault for job, (fault, _) in zip(jobs, ended) if job.title == title]
        wrong = [it for it in mine if it]
        report.hold(f"{title}: {len(mine)} floppies", f"{len(wrong)}, as {'; '.join(wrong[:3])}" if wrong else None)
    saved(report, [(job.title, bases[job.floppy].kind(), tally) for job, (_, tally) in zip(jobs, ended)])


def saved(report: Report, tallies: Sequence[Tuple[str, str, Tally]]) -> None:
    """Prints how much is saved, and compares it with what has to be."""
    rows: Dict[str, Tally] = {}
    for title, kind, tally in tallies:
        for name in [f"{title}, {kind}", *[f"all, {kind}"] * (title != LARGE)]:
            rows[name] = rows.get(name, Tally()).plus(tally)
    for line in table(dict(sorted(rows.items(), key=lambda it: it[0].startswith("all,")))):
        print(line)
    for kind, least in LEAST.items():
        share = rows[f"all, {kind}"].share(rows[f"all, {kind}"].saved)
        report.expect(f"{kind}: at least {least} % of the bytes that are there are saved", share >= least, f"{share:.3f} %")
    blamed = {name: it.blamed for name, it in rows.items() if it.blamed}
    report.same("no file is called whole with a wrong byte that a checksum or a pointer shows", blamed, {})


# ---- images damaged at random, and the model


def differing(found: Sequence[object], wanted: Sequence[object]) -> str:
    """The first elements that are in one list only, or in other places."""
    alone = [it for it in found if it not in wanted], [it for it in wanted if it not in found]
    if any(alone):
        return f"{alone[0][:4]} where {alone[1][:4]} is expected"
    first = next(at for at, (one, other) in enumerate(zip(found, wanted)) if one != other)
    return f"in another order from {found[first]} on, where {wanted[first]} is expected"


class Compared:
    """An image, what the model says of it, and what the program does. A difference raises AssertionError."""

    def __init__(self, room: Room, data: bytes, rules: Rules) -> None:
        shutil.rmtree("out", ignore_errors=True)
        room.write("image.adf", data)
        self.room, self.data, self.rules, self.words = room, data, rules, ["image.adf"]

    def all(self) -> None:
        faults = told_of(self.data)
        # (another file is no image, and nothing is told of it)
        if len(self.data) % BLOCK == 0 and FEWEST <= len(self.data) // BLOCK <= LARGEST:
            self.account(Account(self.data, self.rules))
            if faults.accepted is None:
                self.places(Owners(self.data))
        if faults.accepted is not None:
            self.owners()

    def cut(self, count: int) -> None:
        """The first bytes of the image alone, so many: each block that is not all there is a hole."""
        blocks = len(self.data) // BLOCK
        self.room.write("image.adf", self.data[:count])
        holes = frozenset(range(count // BLOCK, blocks))
        self.words = ["--blocks", str(blocks), "image.adf"]
        self.account(Account(self.data, self.rules, holes))

    def bad(self, chance: random.Random) -> None:
        """With `--bad`: some blocks of the image are holes, whatever stands there."""
        blocks = len(self.data) // BLOCK
        if len(self.data) % BLOCK or not FEWEST <= blocks <= LARGEST:
            return
        track = 22 if blocks == 3520 else 11
        holes = frozenset(chance.sample(range(blocks), min(blocks, chance.choice([1, 2, 20, 200]))))
        words = [chance.choice([f"{it}", f" {it}\t# {it + 1}", f"c{it // track // 2}.h{it // track % 2}.s{it % track}\r"]) for it in holes]
        self.room.write("bad.txt", "\n".join(["# what could not be read", "", *words]).encode() + chance.choice([b"", b"\n"]))
        self.words = ["--bad", "bad.txt", "image.adf"]
        self.account(Account(self.data, self.rules, holes, True))

    def account(self, account: Account) -> None:
        wanted, runs = account.lines(), runs_of(account.rest) if len(account.rest) % 2 else []
        ran = self.room.run("extract", "--damaged", "--to", "out", *["--unaccounted"] * bool(runs), *self.words)
        lines = ran.output.decode().splitlines()
        doubts = sum(it.state == "doubtful" for it in account.told_entries)
        assert ran.status == (0 if account.is_accepted else 3), f"status {ran.status}"
        assert ran.texts.count(b"' is doubtful: ") == doubts, f"standard error: {ran.texts[:300]!r}"
        assert ran.texts.count(NO_SUMS) == (not account.ofs), f"standard error: {ran.texts[:300]!r}"
        assert lines == wanted, differing(lines, wanted)
        texts = [it for it in texts_told(ran.texts) if it.startswith(b"adf_serve: '") and b": missing bytes are read as" not in it]
        assert texts == account.texts(), differing(texts, account.texts())
        rest, wanted_rest = rest_told(ran.texts).splitlines(), rest_text(account.rest).splitlines()
        assert rest == wanted_rest, differing(rest, wanted_rest)
        written = {os.path.relpath(os.path.join(top, name), "out"): Path(top, name).read_bytes() for top, _, names in os.walk("out") for name in names}
        told = {it.path: account.bytes[it.header] for it in account.told_entries if it.header in account.bytes}
        told.update((f"lost+found/unaccounted/{first}-{last}", self.data[BLOCK * first : BLOCK * (last + 1)]) for first, last in runs)
        assert written.keys() == told.keys(), differing(sorted(written), sorted(told))
        other = sorted(it for it in told if told[it] != written[it])
        assert not other, f"other bytes in {other[:4]}: {[(len(written[it]), len(told[it])) for it in other[:4]]}"
        self.listed(account, ran)

    def listed(self, account: Account, ran: Ran) -> None:
        """`--list` prints the same, and with `--json` the object, and neither writes anything."""
        before = sorted(os.listdir())
        lines = self.room.run("extract", "--damaged", "--list", *self.words)
        assert lines == ran, f"--list: {lines} where {ran} is expected"
        told = self.room.run("extract", "--damaged", "--list", "--json", *self.words)
        assert told._replace(output=ran.output) == ran, f"--json: {told}"
        wanted = account.object()
        assert told.output == wanted, differing(told.output.split(b"},{"), wanted.split(b"},{"))
        assert sorted(os.listdir()) == before, f"--list wrote {sorted(os.listdir())}"

    def owners(self) -> None:
        """`map` and `where` of an accepted image."""
        model = Owners(self.data)
        owned = [self.owned(model, it) for it in range(model.blocks)]
        letters = "".join(LETTERS[it.owner] for it in owned)
        self.same(self.room.run("map", "image.adf"), page_of(letters))
        lines = [f"{it}  cyl {place[0]} head {place[1]} sector {place[2]}  {words_of(owned[it])}\n" for it, place in enumerate(places_of(model.blocks))]
        self.same(self.room.run("where", "image.adf", *map(str, range(model.blocks))), "".join(lines).encode())

    def places(self, model: Owners) -> None:
        """`where` of a refused image: the places that name the first blocks and those of which two places or a fault tell."""
        asked = [it for it in range(model.blocks) if it < 8 or len(model.named_by(it)) > 1 or model.faults_of(it)][:200]
        first, _, rest = self.room.run("where", "image.adf", *map(str, asked)).output.partition(b"\n")
        assert first.startswith(b"refused "), first
        wanted = placed_lines(model, places_of(model.blocks), asked)
        assert rest == wanted, differing(rest.splitlines(), wanted.splitlines())

    def same(self, ran: Ran, wanted: bytes) -> None:
        assert ran.status == 0, ran
        assert ran.output == wanted, differing(ran.output.splitlines(), wanted.splitlines())

    def owned(self, model: Owners, block: int) -> Owned:
        """The one owner of a block of an accepted image."""
        owners = model.owners.get(block)
        if owners is None:
            return Owned(model.unowned(block))
        assert len(owners) == 1, f"block {block} has {len(owners)} owners"
        owner = next(iter(owners))
        path = self.path(model, owner.header) if owner.header not in (None, model.root) else None
        if owner.what != "data":
            return Owned(owner.what, path, owner.number)
        assert owner.header is not None and owner.number is not None
        first = model.room * owner.number
        return Owned("data", path, owner.number, first, min(first + model.room, model.long(owner.header, 81)) - 1)

    def path(self, model: Owners, header: Optional[int]) -> str:
        names = []
        while header is not None and header != model.root:
            names.append(model.text(header, 432).decode("latin-1"))
            header = model.long(header, 125)
        return "/".join(reversed(names))


def scattered(base: Base, seed: str, number: int) -> bytes:
    """An image with many damages of names, parents and pointers, in most cases without a root: most entries are found, many in
    directories that lead to each other, or under a name that is taken."""
    chance = random.Random(f"{seed} scattered {number}")
    image = Damaged(base, chance)
    for _ in range(chance.choice([1, 4, 12, 30])):
        chance.choice([a_parent, a_parent, a_name, a_chain, a_pointer, a_size])(image)
    image.mend()
    if chance.random() < 0.7:
        first = chance.choice([0, 24])
        image.data[BLOCK * image.root + first : BLOCK * (image.root + 1)] = bytes(BLOCK - first)
    return bytes(image.data)


def unlink(image: Damaged, key: int) -> None:
    """Takes an entry out of its hash chain, and leaves its blocks marked used."""
    holder, at = next((holder, at) for holder, at, named in image.places if named == key and (at == 124 or 6 <= at < 78) and holder in image.headers)
    image.change(holder, at, image.long(key, 124))
    image.settle(holder, 5)
    image.places = [(holder, at, image.long(key, 124)) if it == (holder, at, key) else it for it in image.places]


def copied_header(image: Damaged) -> None:
    """The header of a file stands in a free block too, under its own number and another name. So it names the blocks of that file."""
    bitmap = Bitmap(Disk(bytes(image.data)), Model(bytes(image.data)))
    free = [it for it in range(2, image.blocks) if it not in image.used and bitmap.is_free(it)]
    files = [it for it in image.roles["entry"] if image.long(it, 127) == FILE]
    if not free or not files:
        return
    block, file = image.chance.choice(free), image.chance.choice(files)
    image.data[BLOCK * block : BLOCK * (block + 1)] = image.data[BLOCK * file : BLOCK * (file + 1)]
    image.put(block, 1, block)
    image.data[BLOCK * block + 433] ^= 1
    image.settle(block, 5)
    page = bitmap.pages[(block - 2) // 4064]
    at, bit = 1 + (block - 2) % 4064 // 32, (block - 2) % 32
    image.put(page, at, image.long(page, at) & ~(1 << bit))
    image.settle(page, 0)


def with_old_headers(base: Base, seed: str, number: int) -> bytes:
    """An image of which some entries are in no hash chain, though their blocks are marked used, and in which some headers stand twice. Most
    of these are accepted; the others have one damage more."""
    chance = random.Random(f"{seed} old {number}")
    image = Damaged(base, chance)
    for _ in range(chance.choice([1, 2, 5])):
        entries = [named for holder, at, named in image.places if (at == 124 or 6 <= at < 78) and holder in image.headers and named in image.roles["entry"]]
        chains = [it for it in entries if image.long(it, 125) in image.headers]
        if chains:
            unlink(image, chance.choice(chains))
    for _ in range(chance.choice([0, 1, 4])):
        copied_header(image)
    if chance.random() < 0.3:
        chance.choice([a_parent, a_name, a_chain, a_pointer, a_size])(image)
        image.mend()
    return bytes(image.data)


def with_fillers(data: bytes, chance: random.Random) -> bytes:
    """The image, of which some data blocks hold a filler, from some byte of its text on, and others one but for a byte. A right checksum
    stays right."""
    image = Image(data)
    blocks = sorted({block for block, role in Model(data).reached if role.what == "data"})
    for block in chance.sample(blocks, min(len(blocks), chance.choice([1, 2, 8]))):
        text, was_right = chance.choice(FILLERS), image.sum(block) == 0
        first, start = chance.randrange(len(text)), BLOCK * (block + 1) - image.room
        image.data[start : BLOCK * (block + 1)] = (text * (2 + BLOCK // len(text)))[first : first + image.room]
        if chance.random() < 0.2:
            image.data[chance.randrange(start, BLOCK * (block + 1))] ^= 1
        if image.ofs and was_right:
            image.settle(block)
    return bytes(image.data)


class Cut(NamedTuple):
    """A floppy of which only the first bytes are there, so many."""

    floppy: int
    size: int


def fault_of_cut(bases: Sequence[Floppy], program: Path, kept: Optional[Path], cut: Cut) -> Optional[str]:
    """What is wrong with the account of a file that ends early, which is kept then. Each file with a block behind the end is not whole."""
    with Room(program, inside=in_memory()) as room:
        floppy = bases[cut.floppy]
        try:
            compared = Compared(room, floppy.data, NOW)
            compared.cut(cut.size)
            whole = {it.path for it in parsed(room.run("extract", "--damaged", "--list", *compared.words).output) if it.state == "whole"}
            hurt = {path for key, path in floppy.paths.items() if any(it >= cut.size // BLOCK for it in floppy.own[key])}
            assert not whole & hurt, f"whole without all blocks: {sorted(whole & hurt)[:4]}"
        except Exception as fault:
            said = f"the first {cut.size} bytes of {'OFS' if floppy.ofs else 'FFS'} floppy {cut.floppy}: {str(fault)[:400] or repr(fault)}"
            keep(kept, f"cut-{cut.floppy}-{cut.size}", floppy.data[: cut.size], said)
            return said
    return None


def ended_early(report: Report, program: Path, is_all: bool, most: int, kept: Optional[Path]) -> None:
    """Floppies of which the last bytes are missing: a whole number of blocks, or not."""
    bases, chance = [*floppies(True, 2), *floppies(False, 2)], random.Random("cuts")
    jobs = [Cut(number, chance.randrange(FLOPPY) * BLOCK + chance.choice([0, 0, 1, 511])) for number in range(len(bases)) for _ in range(100 if is_all else 10)]
    with Pool(most) as pool:
        faults = [it for it in pool.map(partial(fault_of_cut, bases, program, kept), jobs, 4) if it]
    report.hold(f"a file that ends early: {len(jobs)} floppies", f"{len(faults)}, as {'; '.join(faults[:3])}" if faults else None)


def fault_of_base(program: Path, seed: str, rules: Rules, kept: Optional[Path], number: int) -> List[str]:
    """What is wrong with the images of a base."""
    faults = []
    with Room(program, inside=in_memory()) as room:
        base = base_of(room, seed, number)
        for at in range(number * PER_BASE, (number + 1) * PER_BASE):
            data = {3: with_old_headers, 4: scattered}.get(at % 5, damaged)(base, seed, at)
            if at % 2 and len(data) % BLOCK == 0 and FEWEST <= len(data) // BLOCK <= LARGEST:
                data = with_fillers(data, random.Random(f"{seed} fillers {at}"))
            try:
                Compared(room, data, rules).all()
                Compared(room, data, rules).bad(random.Random(f"{seed} bad {at}"))
            except Exception as fault:
                faults.append(f"image {at} of seed {seed}: {str(fault)[:600] or repr(fault)}")
                keep(kept, f"random-{seed}-{at}", data, faults[-1])
    return faults


def compared(report: Report, program: Path, images: int, seed: str, rules: Rules, most: int, kept: Optional[Path]) -> None:
    with Pool(most) as pool:
        bases = range(-(-images // PER_BASE))
        faults = [fault for it in pool.imap(partial(fault_of_base, program, seed, rules, kept), bases) for fault in it]
    title = f"{len(bases) * PER_BASE} images damaged at random are told as by the model"
    report.hold(title, f"{len(faults)} are not, as {'; '.join(faults[:3])}" if faults else None)


def main(words: List[str]) -> int:
    parser = argparse.ArgumentParser(description="Tests the account of damaged floppies.")
    parser.add_argument("program", nargs="*", help="the program to test")
    which = parser.add_mutually_exclusive_group()
    which.add_argument("--all", action="store_true", help="all damages, not some of them")
    which.add_argument("--floppies", type=int, default=0, help="about so many floppies with one damage each, of many")
    parser.add_argument("--images", type=int, default=100, help="how many images damaged at random (default: 100)")
    parser.add_argument("--seed", default="sweep", help="selects these images")
    parser.add_argument("--page", action="store_true", help="compares with the pages alone")
    parser.add_argument("--jobs", type=int, default=processors(), help="how many floppies at a time (default: one for each processor)")
    parser.add_argument("--keep", type=Path, help="a directory for images that show a fault")
    given = parser.parse_args(words)
    program, report = program_of(given.program), Report()
    kept = given.keep and given.keep.absolute()
    swept(report, program, given.all, given.floppies, given.jobs, kept)
    ended_early(report, program, given.all, given.jobs, kept)
    compared(report, program, given.images, given.seed, PAGE if given.page else NOW, given.jobs, kept)
    return report.end()


if __name__ == "__main__":
    sys.exit(main(sys.argv[1:]))
