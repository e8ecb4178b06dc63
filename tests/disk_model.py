#!/usr/bin/env python3
"""A model of an image that may be damaged: who owns each block, and what `extract --damaged` has to tell of it.

    tests/disk_model.py IMAGE [--page | --owners]

It prints the lines of `extract --damaged`, the exit status, and what standard error says of blocks that are used and belong to
nothing; with `--owners`, for each block its faults and what the places that name it make of it, also where the image is refused.
It works from the definitions and in an order of its own: all places that name a block come first, then the headers that can be
told, then each file by itself. What the pages say of damaged images and the program does not do yet, or does otherwise, is in
`Rules`, each with its reason. `--page` follows the pages alone.
"""
from __future__ import annotations

import json
import sys
from collections import defaultdict
from pathlib import Path
from typing import Dict, FrozenSet, Iterable, Iterator, List, NamedTuple, Optional, Set, Tuple

sys.dont_write_bytecode = True

from all_faults_model import KINDS, Model, Role
from harness import BLOCK, DATA, DIRECTORY, FILE, HEADER, LIST, ROOT, Image, host_name, ranges_of

ALL_ONES = 2**32 - 1
SLOTS = range(6, 78)


class Rules(NamedTuple):
    """What is read in which way. The defaults are the definitions."""

    # In OFS a block that no pointer names is there if the data block before it names it.
    links: bool = False
    # A block counts as an extension block only by its types, its file and its own number.
    typed: bool = False
    # A count over 72 counts as 72.
    capped: bool = False
    # A block that an earlier pointer of the file named, and that was not its data there, may be there at a later one.
    again: bool = False
    # Deleted entries claim no block and are counted in a line of their own.
    deleted: bool = True
    # Blocks that are used and belong to nothing are counted in the last line.
    unaccounted: bool = True
    # In OFS data blocks whose header is gone become a file, and in FFS extension blocks with what they name.
    headless: bool = True
    # In OFS a block that neither a pointer nor a link names is there if a data block with a right checksum says that it is that one.
    numbered: bool = False
    # In FFS extension blocks to which no link leads belong to the file that they name.
    chained: bool = False
    # A wrong type or own number of a header is put right where all else is.
    mended: bool = False


PAGE = Rules()
# What the program does with files and used blocks.
NOW = Rules(links=True, typed=True, capped=True, again=True, numbered=True, chained=True, mended=True)
# What stands on standard error of an FFS disk.
NO_SUMS = b"adf_serve: the data blocks of this FFS disk have no checksums: 'whole' means that every pointer and header is right\n"
# Why entries are doubtful or cut short.
REASONS = {
    "sum": "block {} has a wrong checksum",
    "comment": "the comment in its header is too long",
    "hole": "block {} could not be read",
    "shared": "block {} is in '{}' too",
    "filler": "block {} holds a filler",
    "field": "block {} has a wrong field",
    "gone": "its header is gone, and it is made of the data blocks that name it",
    "cut": "incomplete files may have at most four times the bytes of the image in all",
}
# The texts of known fillers: of Greaseweazle's host tools, and of a PC.
FILLERS = (b"-=[BAD SECTOR]=-", b"\xf6")
# What stands on standard error before the numbers of the blocks that are used and belong to nothing.
HEADING = b"adf_serve: blocks in use that belong to no reported entry:\n"


class Place(NamedTuple):
    """A long that names an entry: the block that has it, and the directory whose entry is named."""

    holder: int
    at: int
    directory: int


class Entry(NamedTuple):
    """A line of the account: the header, the state, the path, and whether the entry was found. A sound directory has no state."""

    header: int
    state: str
    path: str
    found: bool

    def line(self) -> str:
        return " ".join([*["found"] * self.found, *[self.state] * bool(self.state), self.path])


class Hole(NamedTuple):
    """A run of data blocks that are missing: the bytes of the file in them, and their numbers."""

    first: int
    last: int
    first_data: int
    last_data: int


class Blocks(NamedTuple):
    """The blocks of a file: its header with its extension blocks, and its data blocks, both in order."""

    heads: List[int]
    data: List[int]


class Owner(NamedTuple):
    """What a place makes of a block: `boot`, `root`, `bitmap`, `directory`, `file`, `extension` or `data`, the header of its file or
    directory, and its number among the blocks of its kind."""

    what: str
    header: Optional[int] = None
    number: Optional[int] = None


class Named(NamedTuple):
    """A place: the block that has it, its long there, and what it makes of the block that it names."""

    holder: int
    at: int
    role: str


def majority(votes: Dict[bytes, int]) -> Optional[bytes]:
    ofs, ffs = votes[b"DOS\0"], votes[b"DOS\1"]
    return None if ofs == ffs else b"DOS\0" if ofs > ffs else b"DOS\1"


def with_kind(data: bytes) -> bytes:
    """The image with the kind that its blocks say. The files decide to which the root leads; else the boot block, unless all others are
    against it; else all files; else whether there is any data of OFS."""
    disk = Headers(data)
    reached = {block for block, role in Model(data).reached if role.what == "entry"}
    near: Dict[bytes, int] = {b"DOS\0": 0, b"DOS\1": 0}
    far = dict(near)
    for block in range(2, disk.blocks):
        vote = disk.vote(block)
        if vote:
            far[vote] += 1
            near[vote] += block in reached
    boot = bytes(data[:4])
    if boot in far and far[boot] == 0 and sum(far.values()):
        boot = b""
    is_data = any(disk.is_any_data(it) for it in range(2, disk.blocks))
    kind = majority(near) or (boot if boot in far else None) or majority(far) or (b"DOS\0" if is_data else b"DOS\1")
    return kind + data[4:]


def emptied(data: bytes, holes: FrozenSet[int]) -> bytes:
    """The image with nothing in its holes, the blocks that nobody read: no type of the disk, and a wrong checksum."""
    return b"".join(b"\0\0\0\1" + bytes(BLOCK - 4) if it in holes else data[BLOCK * it : BLOCK * (it + 1)] for it in range(-(-len(data) // BLOCK)))


def is_filler(data: bytes) -> bool:
    """Whether these bytes are the text of a filler from end to end, from some byte of it on."""
    return any(data in text * (2 + len(data) // len(text)) for text in FILLERS)


class Headers(Image):
    """An image, and which of its blocks are headers."""

    def is_summed(self, block: int) -> bool:
        return self.sum(block) == 0

    def has_name(self, block: int) -> bool:
        return 1 <= self.data[BLOCK * block + 432] <= 30 and not set(self.text(block, 432)) & set(b"/:")

    def has_fields(self, block: int) -> bool:
        """The types of a header, its own number and a legal name."""
        types = (self.long(block, 0), self.long(block, 127))
        return types in ((HEADER, DIRECTORY), (HEADER, FILE)) and self.long(block, 1) == block and self.has_name(block)

    def is_sound_header(self, block: int) -> bool:
        return self.has_fields(block) and self.is_summed(block) and self.data[BLOCK * block + 328] <= 79

    def is_directory(self, block: int) -> bool:
        return self.long(block, 127) == DIRECTORY

    def mend(self, block: int) -> None:
        """Gives the header of an entry its due type or own number, if that is its one wrong field and all longs would add up to 0 with it.
        The checksum stays as wrong as it was."""
        dues = {0: (HEADER,), 1: (block,), 127: (FILE, DIRECTORY)}
        wrong, excess = [at for at, values in dues.items() if self.long(block, at) not in values], self.sum(block)
        if len(wrong) == 1 and self.has_name(block) and (self.long(block, wrong[0]) - excess) % 2**32 in dues[wrong[0]]:
            self.put(block, wrong[0], self.long(block, wrong[0]) - excess)
            self.put(block, 5, self.long(block, 5) + excess)

    def holds_filler(self, block: int) -> bool:
        """Whether the bytes for a file in a data block are a filler: behind 24 bytes in OFS, and all in FFS."""
        return is_filler(bytes(self.data[BLOCK * (block + 1) - self.room : BLOCK * (block + 1)]))

    def is_any_data(self, block: int) -> bool:
        """An OFS data block of some file."""
        return self.long(block, 0) == DATA and self.long(block, 2) > 0 and self.is_summed(block)

    def vote(self, header: int) -> Optional[bytes]:
        """The kind for which a header speaks: that of its first data block, or of the number of its pointers."""
        first = self.long(header, 77)
        if 2 <= first < self.blocks and self.is_any_data(first) and self.long(first, 1) == header and self.long(first, 2) == 1:
            return b"DOS\0"
        if [self.long(header, it) for it in (0, 1, 127)] == [HEADER, header, FILE] and self.is_summed(header):
            ofs, ffs = (min(72, -(-self.long(header, 81) // room)) for room in (488, 512))
            if self.long(header, 2) == ffs != ofs:
                return b"DOS\1"
        return None


def mended(data: bytes, blocks: Iterable[int]) -> bytes:
    """The image with the fields of these headers that can be put right."""
    disk = Headers(data)
    for block in blocks:
        disk.mend(block)
    return bytes(disk.data)


class Disk(Headers):
    """An image of a known kind, with the headers that are sound by themselves."""

    def __init__(self, data: bytes) -> None:
        super().__init__(data)
        self.inside = range(2, self.blocks)
        self.sound = {it for it in self.inside if self.is_sound_header(it)}


class Bitmap:
    """What the bitmap says, and whether it can be trusted."""

    def __init__(self, disk: Disk, shown: Model) -> None:
        self.disk = disk
        self.pages = [disk.long(disk.root, 79 + it) for it in range(shown.pages())]
        sound = all(it in disk.inside and disk.is_summed(it) for it in self.pages) and len(set(self.pages)) == len(self.pages)
        shown.shown_faults()
        root = not any(block == disk.root for block, _ in shown.found)
        reached = {block for block, _ in shown.reached}
        self.is_trusted = sound and root and disk.long(disk.root, 78) == ALL_ONES and not any(self.is_free(it) for it in reached)

    def is_free(self, block: int) -> bool:
        return self.disk.long(self.disk.root, 78) != ALL_ONES or self.marks_free(block)

    def marks_free(self, block: int) -> bool:
        """Whether its bit is set, whether the bitmap can be trusted or not."""
        page = self.pages[(block - 2) // 4064]
        return page in self.disk.inside and bool(self.disk.long(page, 1 + (block - 2) % 4064 // 32) >> (block - 2) % 32 & 1)


class Owners(Model):
    """The owners of the blocks of any image, by all places that name them."""

    def __init__(self, data: bytes) -> None:
        super().__init__(data)
        self.bitmap = Bitmap(Disk(data), Model(data))
        self.owners: Dict[int, Set[Owner]] = defaultdict(set)
        self.names: Dict[int, Set[Named]] = defaultdict(set)
        self.shown: Dict[int, List[str]] = defaultdict(list)
        for block in (0, 1):
            self.owners[block].add(Owner("boot"))
        self.owners[self.root].add(Owner("root", self.root))
        for block, role in self.reached:
            for at, next_role in self.places_of(block, role):
                self.names[self.long(block, at)].add(self.named_as(block, at, next_role))
                if self.inside(self.long(block, at)):
                    self.owners[self.long(block, at)].add(self.owner(block, at, next_role))

    def owner(self, holder: int, at: int, role: Role) -> Owner:
        named = self.long(holder, at)
        if role.what == "page":
            return Owner("bitmap", None, at - 79)
        if role.what == "entry":
            return Owner("file" if self.long(named, 127) == FILE else "directory", named)
        before = self.headers_of(role.holder)
        if role.what == "extension":
            return Owner("extension", role.holder, before.index(holder))
        pointers = sum(len(self.data_of(it)) for it in before[: before.index(holder)])
        return Owner("data", role.holder, pointers + 77 - at)

    def named_as(self, holder: int, at: int, role: Role) -> Named:
        """The place, with what it makes of the block that it names."""
        if role.what == "entry":
            return Named(holder, at, "next" if at == 124 else "entry")
        return Named(holder, at, "bitmap" if role.what == "page" else role.what)

    def named_by(self, block: int) -> List[Named]:
        """The places that name a block, by the blocks that have them and then by their longs."""
        order = ["entry", "next", "extension", "data", "bitmap"]
        return sorted(self.names.get(block, ()), key=lambda it: (it.holder, it.at, order.index(it.role)))

    def faults_of(self, block: int) -> List[str]:
        """The kinds of all faults that a block shows, of whatever kind the disk is."""
        if not self.shown:
            for shown, kind in self.shown_faults():
                self.shown[shown].append(KINDS[kind])
        return self.shown.get(block, [])

    def lines(self) -> List[str]:
        """For each block that has any its owners, and the kinds of its faults."""
        lines = []
        for block in range(self.blocks):
            owners = [" ".join(str(it) for it in owner if it is not None) for owner in self.owners.get(block, [])] or [self.unowned(block)]
            if owners != ["free"] or self.faults_of(block):
                lines.append(f"{block}: {', '.join([*sorted(owners), *self.faults_of(block)])}")
        return lines

    def unowned(self, block: int) -> str:
        """What a block is that no place names."""
        return "free" if self.bitmap.is_free(block) else "lost"


class Account(Disk):
    """What has to be told of an image with these holes. It is accepted only where the root leads to none of them. With a list of unread
    blocks it is accepted only where no file has a data block that holds a filler either; there, and in an image that is refused, a
    filler may stand in place of what a program could not read, so that the file is doubtful."""

    def __init__(self, data: bytes, rules: Rules, holes: FrozenSet[int] = frozenset(), listed: bool = False) -> None:
        data = emptied(data, holes)
        model = Model(data)
        self.is_accepted = not model.all_faults() and not holes & {block for block, _ in model.reached}
        if self.is_accepted and listed:
            disk = Headers(data)
            self.is_accepted = not any(role.what == "data" and disk.holds_filler(block) for block, role in model.reached)
        self.fillers = listed or not self.is_accepted
        self.rules, self.holes = rules, holes
        self.read(data if self.is_accepted else with_kind(data))
        if rules.mended and not self.is_accepted:
            # A lost entry that no sound file uses is put right where that can be.
            self.read(mended(bytes(self.data), [it for it in self.lost if not self.users[it]]))
        self.given: Dict[int, int] = {}
        self.bytes: Dict[int, bytes] = {}
        self.left = 4 * len(self.data)
        self.cut: Set[int] = set()
        self.there: Dict[int, Dict[int, int]] = {}
        self.numbers: Dict[int, Tuple[Set[int], int]] = {}
        self.loose: Dict[int, Dict[int, int]] = {}
        self.lists: Dict[int, List[Tuple[int, int]]] = {}
        self.passed: Set[int] = set()

    def read(self, data: bytes) -> None:
        """Finds the headers of the image with these bytes, and the blocks of its sound files."""
        super().__init__(data)
        shown = Model(bytes(self.data))
        self.bitmap = Bitmap(self, shown)
        self.pages = self.bitmap_blocks()
        self.reached_blocks = {block for block, _ in shown.reached}
        self.reached_entries = {block for block, role in shown.reached if role.what == "entry"}
        self.deleted = {it for it in self.sound if self.is_deleted(it)} if self.rules.deleted else set()
        self.places: Dict[int, List[Place]] = defaultdict(list)
        self.told = self.headers_of_accepted() if self.is_accepted else self.headers()
        self.lost = [it for it in self.places if it not in self.told and it not in self.sound]
        kept = self.told if self.is_accepted else self.sound - self.deleted
        self.intact = {it: blocks for it in kept if (blocks := self.sound_blocks(it)) is not None}
        self.users: Dict[int, Set[int]] = defaultdict(set)
        for file, blocks in self.intact.items():
            for block in [*blocks.heads, *blocks.data]:
                self.users[block].add(file)

    # ---- which headers are told

    def has_root(self) -> bool:
        """Whether the root has the types of one."""
        return (self.long(self.root, 0), self.long(self.root, 127)) == (HEADER, ROOT)

    def bitmap_blocks(self) -> Set[int]:
        """The bitmap blocks that the root names, as many as the volume needs, where it has the types of a root."""
        return set(self.bitmap.pages) if self.has_root() else set()

    def is_deleted(self, block: int) -> bool:
        return self.bitmap.is_trusted and block not in self.reached_blocks and self.bitmap.is_free(block)

    def headers_of_accepted(self) -> Set[int]:
        """The headers of the tree of an accepted image, and the sound ones among its lost blocks, if its bitmap can be trusted."""
        lost = {it for it in self.sound - self.reached_blocks if self.bitmap.is_trusted and not self.bitmap.is_free(it)}
        return self.reached_entries | lost

    def places_in(self, holder: int) -> Iterator[Tuple[int, Place]]:
        """The accepted places of a header that is told, or of the root."""
        if self.is_directory(holder) or holder == self.root and self.long(holder, 127) == ROOT:
            for at in SLOTS:
                yield self.long(holder, at), Place(holder, at, holder)
        if self.long(holder, 127) != ROOT:
            yield self.long(holder, 124), Place(holder, 124, self.long(holder, 125))

    def headers(self) -> Set[int]:
        """All headers that are told. Each accepted place is looked at once, and may add one."""
        told = self.sound - self.deleted
        pending = [*[self.root] * self.has_root(), *sorted(told - {self.root}), *({self.root} & told)]
        while pending:
            for named, place in self.places_in(pending.pop()):
                if named in self.inside:
                    self.places[named].append(place)
                    if named not in told and named not in self.sound and self.has_fields(named) and self.long(named, 125) == place.directory:
                        told.add(named)
                        pending.append(named)
        return told

    # ---- files that are whole

    def sound_blocks(self, file: int) -> Optional[Blocks]:
        """All blocks of a file with the right fields and distinct, or None. Its header is sound."""
        needed, heads = -(-self.long(file, 81) // self.room), [file]
        if self.is_directory(file) or needed > self.blocks:
            return None
        while len(heads) * 72 < needed:
            after = self.long(heads[-1], 126)
            if after not in self.inside or after in heads or not self.is_extension(file, after) or not self.is_summed(after):
                return None
            heads.append(after)
        counts = [min(72, needed - 72 * it) for it in range(len(heads))]
        if [self.long(it, 2) for it in heads] != counts or self.long(heads[-1], 126) != 0:
            return None
        data = [self.long(head, 77 - it) for head, count in zip(heads, counts) for it in range(count)]
        if any(it not in self.inside for it in data) or len({*heads, *data}) < len(heads) + len(data):
            return None
        return Blocks(heads, data) if not self.ofs or self.is_linked(file, data) else None

    def is_extension(self, file: int, block: int) -> bool:
        return [self.long(block, it) for it in (0, 1, 125, 127)] == [LIST, block, file, FILE]

    def is_linked(self, file: int, data: List[int]) -> bool:
        """The data blocks of OFS have all their fields, and each names the next one."""
        size = self.long(file, 81)
        for i, block in enumerate(data):
            wanted = [DATA, file, i + 1, min(488, size - 488 * i), data[i + 1] if i + 1 < len(data) else 0]
            if [self.long(block, it) for it in range(5)] != wanted or not self.is_summed(block):
                return False
        return self.long(file, 4) == (data[0] if data else 0)

    def is_whole(self, file: int) -> bool:
        """Only this file names its blocks, none is a hole, and where fillers count no data block holds one. A reached one keeps its blocks
        against those to which nothing leads."""
        if file not in self.intact:
            return False
        users = [self.users[it] for part in self.intact[file] for it in part]
        if file in self.reached_entries:
            users = [it & self.reached_entries for it in users]
        if self.fillers and any(self.holds_filler(it) for it in self.intact[file].data):
            return False
        return all(it == {file} for it in users) and not any(it in self.holes for part in self.intact[file] for it in part)

    # ---- files that are not

    def pointer_blocks(self, file: int) -> List[int]:
        """The header and the blocks that L126 longs reach from it, each once."""
        heads = [file]
        while True:
            after = self.long(heads[-1], 126)
            if after not in self.inside or after in heads or self.rules.typed and not self.is_extension(file, after):
                return heads
            heads.append(after)

    def is_nearly_extension(self, file: int, block: int) -> bool:
        """Whether a block counts as an extension block of a file: its types, its own number and its file are right, or all of these but one
        and its checksum is wrong."""
        right = sum(self.long(block, at) == value for at, value in ((0, LIST), (1, block), (125, file), (127, FILE)))
        return right == 4 or right == 3 and not self.is_summed(block)

    def passed_blocks(self, file: int, needed: int) -> List[Optional[int]]:
        """The header and the extension blocks after it, as far as so many data blocks need them, with nothing for a missing one. A block is
        passed once, by one file."""
        heads = [file]
        while len(heads) <= needed // 72:
            after = self.long(heads[-1], 126)
            if after not in self.inside or after in heads:
                break
            if self.rules.typed and (after in self.passed or not self.is_nearly_extension(file, after)):
                break
            heads.append(after)
            self.passed.add(after)
        return self.with_loose(file, heads, max(1, -(-needed // 72))) if self.rules.chained and not self.ofs else [*heads]

    def with_loose(self, file: int, heads: List[int], total: int) -> List[Optional[int]]:
        """These pointer blocks of a file that needs so many in all, and behind them its loose extension blocks, each chain of them behind
        missing pointer blocks: before the end of the file as many as fit in, and before any other one."""
        filled: List[Optional[int]] = [*heads]
        for chain in self.chains_of([it for it in self.own_extensions(file) if it not in self.passed]):
            missing = 1 if self.long(chain[-1], 126) else total - len(filled) - len(chain)
            if 0 <= missing <= total - len(filled) - len(chain):
                filled += [*[None] * missing, *chain]
                self.passed.update(chain)
        return filled

    def own_extensions(self, file: int) -> List[int]:
        """The blocks that have all fields of an extension block of a file, and a right checksum."""
        return [it for it in self.inside if self.is_extension(file, it) and self.is_summed(it)]

    def named_by_pointers(self, file: int, needed: int) -> Dict[int, int]:
        """The block that the pointer for each data block names, where that is within a count."""
        named = {}
        for q, head in enumerate(self.passed_blocks(file, needed)):
            count = self.long(head, 2) if head is not None else 0
            count = min(count, 72) if self.rules.capped or count <= 72 else 0
            named.update({72 * q + it: self.long(head, 77 - it) for it in range(count) if head is not None})
        return named

    def piece_of(self, file: int, k: int, block: Optional[int]) -> bool:
        """Whether a block is data block `k` of a file, and not given away."""
        if block not in self.inside or block is None or block == self.root or block in self.pages or block in self.given or block in self.holes:
            return False
        return not self.ofs or [self.long(block, it) for it in range(3)] == [DATA, file, k + 1]

    def give(self, file: int) -> Tuple[int, Dict[int, int]]:
        """How many data blocks the size needs, and which of them are there. From now on they are this file's."""
        needed = min(-(-self.long(file, 81) // self.room), self.blocks)
        named = self.named_by_pointers(file, needed)
        there: Dict[int, int] = {}
        passed: Set[int] = set()
        for k in range(needed):
            before = there.get(k - 1) if k else file
            linked = self.long(before, 4) if self.rules.links and self.ofs and before is not None else None
            for block in (named.get(k), linked):
                if block is not None and k not in there and block not in passed and self.piece_of(file, k, block):
                    there[k] = block
                    self.given[block] = file
            if not self.rules.again:
                passed.add(named.get(k, 0))
        if self.rules.numbered and self.ofs:
            for k, block in self.by_number(file).items():
                if k < needed and k not in there:
                    there[k] = block
                    self.given[block] = file
        return needed, there

    def by_number(self, file: int) -> Dict[int, int]:
        """The OFS data blocks of a file with right checksums that are not given away, by their numbers in it; of one number the lowest."""
        found: Dict[int, int] = {}
        for block in self.inside:
            number = self.long(block, 2)
            if number and self.is_summed(block) and self.piece_of(file, number - 1, block):
                found.setdefault(number - 1, block)
        return found

    def broken_state(self, file: int) -> str:
        """The state of a file that is not whole; keeps its bytes."""
        needed, there = self.give(file)
        self.there[file] = there
        self.numbers[file] = (set(there), needed)
        size = min(self.long(file, 81), self.blocks * self.room)
        end = min(size, self.room * (max(there) + 1)) if there else 0
        kept = min(end, self.left)
        self.left -= kept
        self.keep(file, there, kept)
        if kept < end:
            self.cut.add(file)
        missing = needed - len(there)
        return f"broken {missing}" if missing or kept < end else "doubtful"

    def keep(self, file: int, there: Dict[int, int], size: int) -> None:
        data = bytearray(-(-size // self.room) * self.room)
        for k, block in there.items():
            piece = self.data[BLOCK * block + BLOCK - self.room : BLOCK * (block + 1)]
            if self.room * k < len(data):
                data[self.room * k : self.room * (k + 1)] = piece
        self.bytes[file] = bytes(data[:size])

    # ---- where entries are

    def in_chains(self) -> Dict[int, int]:
        """The headers to which hash chains lead from the root, each with its directory, in the order of the walk. Of an accepted
        image each directory comes directly before what is in it; of a refused one all that is in a directory comes before what is in
        the next. (The root's slots are followed whatever its types are.)"""
        above: Dict[int, int] = {}
        levels = [(self.root, self.along(self.root, above))]
        while levels:
            at = -1 if self.is_accepted else 0
            directory, chain = levels[at]
            block = next(chain, None)
            if block is None:
                levels.pop(at)
                continue
            above[block] = directory
            if self.is_directory(block):
                levels.append((block, self.along(block, above)))
        return above

    def along(self, directory: int, met: Dict[int, int]) -> Iterator[int]:
        """The headers along the hash chains of a directory, up to one that is not told or was met before."""
        for at in SLOTS:
            block = self.long(directory, at)
            while block in self.told and block not in met:
                yield block
                block = self.long(block, 124)

    def entries(self) -> List[Entry]:
        """All entries in the order of the account; of an accepted image, its tree."""
        walk = Walk(self)
        if self.rules.headless and not self.is_accepted:
            self.loose = self.loose_blocks() if self.ofs else {}
            self.lists = {} if self.ofs else self.loose_lists()
        entries = [Entry(it, self.state(it), walk.paths[it] + self.ending(it), it in walk.found) for it in walk.order]
        found = sorted({*self.loose, *self.lists} - set(walk.order))
        headless = [(it, self.headless_state(it)) for it in found]
        return [*entries, *(Entry(it, state, f"lost+found/block-{it}", True) for it, state in headless if state != "lost")]

    def headless_state(self, header: int) -> str:
        """The state of an entry without a header that is told."""
        if header in self.loose:
            return self.loose_state(header)
        return self.listed_state(header) if header in self.lists else "lost"

    def loose_lists(self) -> Dict[int, List[Tuple[int, int]]]:
        """The extension blocks with right checksums that name a header which is not told, by that header: each with its number among the
        pointer blocks of the file, of which the header is number 0. Those of a deleted file are left out."""
        named: Dict[int, List[int]] = defaultdict(list)
        for block in self.inside:
            header = self.long(block, 125)
            if header not in self.told and self.is_extension(header, block) and self.is_summed(block):
                named[header].append(block)
        used = (it for it in named.items() if not self.bitmap.is_trusted or not all(self.bitmap.is_free(block) for block in it[1]))
        return {header: self.numbered(blocks) for header, blocks in used}

    def numbered(self, blocks: List[int]) -> List[Tuple[int, int]]:
        """The extension blocks of one file with their numbers. Before the first of each chain one pointer block is missing, the header or
        another."""
        chains = self.chains_of(blocks)
        return [(sum(1 + len(it) for it in chains[:k]) + 1 + nth, block) for k, chain in enumerate(chains) for nth, block in enumerate(chain)]

    def chains_of(self, blocks: List[int]) -> List[List[int]]:
        """These extension blocks of one file in chains. One directly before another names it. Chains at the end of the file come last, and
        else the one with the lower first block comes first."""
        after = {it: self.long(it, 126) for it in blocks}
        left, chains = list(blocks), []
        while left:
            heads = [it for it in left if it not in after.values()] or left
            chain = [heads[0]]
            left.remove(heads[0])
            while after[chain[-1]] in left:
                chain.append(after[chain[-1]])
                left.remove(chain[-1])
            chains.append(chain)
        return sorted(chains, key=lambda it: (after[it[-1]] == 0, it[0]))

    def listed_state(self, header: int) -> str:
        """The state of a file whose header is gone and some of whose extension blocks are left; keeps its bytes. It is lost if none of its
        data is left."""
        there: Dict[int, int] = {}
        needed = 0
        for number, block in self.lists[header]:
            count = min(72, self.long(block, 2))
            needed = 72 * number + count
            for it in range(count):
                if self.piece_of(header, 72 * number + it, self.long(block, 77 - it)):
                    there[72 * number + it] = self.long(block, 77 - it)
                    self.given[self.long(block, 77 - it)] = header
        if not there:
            return "lost"
        end = 512 * min(max(there) + 1, self.blocks)
        kept = min(end, self.left)
        self.left -= kept
        self.keep(header, there, kept)
        if kept < end:
            self.cut.add(header)
        needed += self.long(self.lists[header][-1][1], 126) != 0
        self.numbers[header] = (set(there), needed)
        return f"broken {needed - len(there)}"

    def loose_blocks(self) -> Dict[int, Dict[int, int]]:
        """The OFS data blocks with right checksums that name a header which is not told, by that header and by their numbers; of one
        number the lowest. Those of a deleted file are left out."""
        blocks: Dict[int, Dict[int, int]] = defaultdict(dict)
        used = set()
        for block in self.inside:
            kind, header, number = (self.long(block, it) for it in range(3))
            if kind == DATA and number and self.is_summed(block) and header not in self.told:
                if not self.bitmap.is_trusted or not self.bitmap.is_free(block):
                    used.add(header)
                if block not in {self.root, *self.pages}:
                    blocks[header].setdefault(number, block)
        return {header: there for header, there in blocks.items() if header in used}

    def loose_state(self, header: int) -> str:
        """The state of a file without a header; keeps its bytes."""
        there = self.loose[header]
        last = max(there)
        end = min(488 * (last - 1) + min(488, self.long(there[last], 3)), 488 * self.blocks)
        kept = min(end, self.left)
        self.left -= kept
        self.keep(header, {number - 1: block for number, block in there.items()}, kept)
        self.given.update({it: header for it in there.values()})
        if kept < end:
            self.cut.add(header)
        needed = last + (self.long(there[last], 4) != 0)
        self.numbers[header] = ({number - 1 for number in there}, needed)
        missing = needed - len(there)
        return f"broken {missing}" if missing or kept < end else "doubtful"

    def holes_in(self, file: int) -> List[Hole]:
        """The runs of data blocks that are missing in a file."""
        there, needed = self.numbers.get(file, (set(), 0))
        edges = [-1, *sorted(it for it in there if it < needed), needed]
        return [self.hole(file, before + 1, after - 1) for before, after in zip(edges, edges[1:]) if before + 1 < after]

    def hole(self, file: int, first: int, last: int) -> Hole:
        """A run of data blocks with the bytes of the file in it. The last block of a file has the bytes that its size says."""
        end = self.room * (last + 1)
        if file < self.blocks and [self.long(file, it) for it in (0, 1, 127)] == [HEADER, file, FILE]:
            size = self.long(file, 81)
            end = size if self.room * last < size < end else end
        return Hole(self.room * first, end - 1, first, last)

    def reason(self, it: Entry) -> Optional[str]:
        """Why an entry is doubtful or cut short."""
        if it.header in self.cut:
            return REASONS["cut"]
        if it.state != "doubtful":
            return None
        if it.header not in self.told:
            return REASONS["hole"].format(it.header) if it.header in self.holes else REASONS["gone"]
        return self.block_reason(it.header) if it.header in self.sound else self.header_reason(it.header)

    def header_reason(self, header: int) -> str:
        """Why a header is doubtful."""
        if not self.is_summed(header):
            return REASONS["sum"].format(header)
        return REASONS["comment"]

    def block_reason(self, file: int) -> str:
        """Why a file with a sound header is doubtful: what is wrong with its pointer blocks, then with its data blocks, then the first data
        block that holds a filler, and then the first of all of its blocks that another file has too."""
        heads, wrong = self.chain(file)
        if wrong is None and self.ofs:
            wrong = self.data_reason(file)
        if wrong is None and self.fillers:
            filled = [block for _, block in sorted(self.there[file].items()) if self.holds_filler(block)]
            wrong = REASONS["filler"].format(filled[0]) if filled else None
        if wrong is None and not self.ofs:
            wrong = self.shared_reason(file, [it for head in heads for it in [head, *(self.long(head, 77 - at) for at in range(self.long(head, 2)))]])
        return wrong or REASONS["field"].format(file)

    def chain(self, file: int) -> Tuple[List[int], Optional[str]]:
        """The pointer blocks of a file that its size needs, and what is wrong with the first wrong one."""
        needed, heads = -(-self.long(file, 81) // self.room), [file]
        while True:
            head, after = heads[-1], self.long(heads[-1], 126)
            ends = needed <= 72 * len(heads)
            if self.long(head, 2) != max(0, min(72, needed - 72 * (len(heads) - 1))) or ends and after or not ends and after not in self.inside:
                return heads, REASONS["field"].format(head)
            if ends:
                return heads, None
            if after in self.holes or not self.is_summed(after):
                return heads, REASONS["hole" if after in self.holes else "sum"].format(after)
            if after in heads or not self.is_extension(file, after):
                return heads, REASONS["field"].format(head if after in heads else after)
            heads.append(after)

    def data_reason(self, file: int) -> Optional[str]:
        """What is wrong with the first wrong one of the OFS data blocks of a file."""
        size, before = self.long(file, 81), file
        for k, block in sorted(self.there[file].items()):
            if not self.is_summed(block):
                return REASONS["sum"].format(block)
            if self.long(block, 3) != max(0, min(488, size - 488 * k)):
                return REASONS["field"].format(block)
            if self.long(before, 4) != block:
                break
            before = block
        else:
            if self.long(before, 4) == 0:
                return None
        return REASONS["field"].format(before)

    def shared_reason(self, file: int, blocks: List[int]) -> Optional[str]:
        """The first of these blocks of a file that another one has too, with the first such file of the account."""
        for block in blocks:
            for it in self.told_entries:
                if it.header != file and it.header in self.users.get(block, ()):
                    return REASONS["shared"].format(block, it.path)
        return None

    def is_deleted_but_for_trust(self, it: Entry) -> bool:
        """Whether a found entry would be a deleted one if the bitmap could be trusted."""
        return not self.bitmap.is_trusted and it.found and it.header in self.sound and self.bitmap.marks_free(it.header)

    def texts(self) -> List[bytes]:
        """The lines of standard error about entries, after `lines`: why they are doubtful or cut short, and what is missing."""
        texts = []
        for it in self.told_entries:
            reason, holes = self.reason(it), self.holes_in(it.header)
            path = it.path.removesuffix("/") if it.state == "doubtful" else it.path
            if reason:
                texts.append(f"adf_serve: '{path}' is {'cut short' if it.header in self.cut else 'doubtful'}: {reason}")
            if holes:
                texts.append(f"adf_serve: '{path}': {missing_words(holes)}")
        return [it.encode() for it in texts]

    def is_told_directory(self, block: int) -> bool:
        return block in self.told and self.is_directory(block)

    def state(self, block: int) -> str:
        if block not in self.told:
            return self.headless_state(block)
        if self.is_directory(block):
            return "" if block in self.sound else "doubtful"
        if self.is_whole(block):
            self.keep(block, dict(enumerate(self.intact[block].data)), self.long(block, 81))
            return "whole"
        return self.broken_state(block)

    def ending(self, block: int) -> str:
        return "/" if self.is_told_directory(block) and block not in self.sound else ""

    def lines(self) -> List[str]:
        """The lines; the entries stay, the bytes of each file that is written, and the blocks that are used and belong to nothing."""
        entries = self.told_entries = self.entries()
        self.rest = self.unaccounted(entries) if self.rules.unaccounted else []
        shown = [it for it in entries if it.found or it.state]
        last = []
        if self.deleted:
            last.append(f"deleted {len(self.deleted)}")
        if self.rest:
            last.append(f"unaccounted {len(self.rest)}")
        return [it.line() for it in shown] + last

    def object(self) -> bytes:
        """The object that `--json` prints in place of `lines`, which come first."""
        entries = []
        for it in self.told_entries:
            if it.found or it.state:
                state, _, missing = (it.state or "whole").partition(" ")
                path = it.path + "/" * (not it.state)
                told = {"path": path, "state": state, "found": it.found, "missing": int(missing or 0), "cut": it.header in self.cut}
                size = len(self.bytes[it.header]) if it.header in self.bytes else None
                more = {"header": it.header, "size": size, "reason": self.reason(it), "deleted": self.is_deleted_but_for_trust(it)}
                entries.append({**told, **more, "holes": [hole._asdict() for hole in self.holes_in(it.header)]})
        report = {"entries": entries, "deleted": len(self.deleted), "unaccounted": self.rest, "summed": self.ofs}
        return json.dumps(report, ensure_ascii=False, separators=(",", ":")).encode() + b"\n"

    def unaccounted(self, entries: List[Entry]) -> List[int]:
        """The blocks that are used and belong to nothing. A whole file has all its blocks; another one those that are written, and the
        extension blocks that its header leads to, or if these may be any blocks, those that full lists lead to, and in FFS those that name
        it."""
        known = {self.root, *self.bitmap.pages, *(it.header for it in entries), *self.given}
        for it in entries:
            known |= {block for part in self.intact[it.header] for block in part} if it.state == "whole" else set()
            is_headless = it.header not in self.told and it.header in self.bytes
            if it.state != "whole" and it.header in self.inside and (is_headless or it.header in self.told and not self.is_directory(it.header)):
                needed = min(-(-self.long(it.header, 81) // self.room), self.blocks)
                heads = self.pointer_blocks(it.header)
                known |= set(heads if self.rules.typed else heads[: 1 + needed // 72])
                known |= set(self.own_extensions(it.header)) if self.rules.chained and not self.ofs else set()
        return [it for it in self.inside if it not in known and it not in self.holes and self.is_used(it)]

    def is_used(self, block: int) -> bool:
        if self.bitmap.is_trusted:
            return not self.bitmap.is_free(block)
        return block in self.reached_blocks or any(self.data[BLOCK * block : BLOCK * (block + 1)])


class Walk:
    """The order of the entries of an account, and their paths."""

    def __init__(self, account: Account) -> None:
        self.account = account
        above = self.above = account.in_chains()
        self.order: List[int] = list(above)
        self.found = account.told - set(above)
        self.paths: Dict[int, str] = {}
        self.taken: Set[str] = set()
        for block, directory in above.items():
            self.put(block, self.paths[directory] + "/" if directory != account.root else "")
        # (a directory in the tree that has found entries is below lost+found too, and takes its name there first)
        for block in self.found:
            directory = account.long(block, 125)
            while directory in above and account.is_told_directory(directory):
                self.taken.add(f"lost+found/{self.paths[directory]}")
                directory = above[directory]
        for block in sorted(self.found):
            self.put_found(block)
        if not account.is_accepted:
            self.put_lost()

    def name(self, block: int) -> str:
        account = self.account
        return host_name(account.text(block, 432)) if account.has_name(block) else f"block-{block}"

    def put(self, block: int, front: str) -> None:
        name = self.name(block)
        while front + name in self.taken:
            name += f"~{block}"
        self.taken.add(front + name)
        self.paths[block] = front + name

    def put_found(self, block: int) -> None:
        """A found entry stands behind the directories that it is in. If these lead round to it, it is the top itself; if they lead round
        without it, the last new one is."""
        climbed = [block]
        while climbed[-1] not in self.paths:
            above = self.account.long(climbed[-1], 125)
            if not self.account.is_told_directory(above):
                break
            is_round = above in climbed
            if not is_round or above == block:
                climbed.append(above)
            if is_round:
                break
        for entry in reversed(climbed):
            if entry not in self.paths:
                self.put_at(entry, self.front_of(self.account.long(entry, 125)))

    def front_of(self, directory: int) -> str:
        """The path below lost+found before the names in a directory."""
        path = self.paths.get(directory) if self.account.is_told_directory(directory) else None
        if path is None:
            return "lost+found/"
        return f"{path}/" if directory in self.found else f"lost+found/{path}/"

    def put_at(self, block: int, front: str) -> None:
        self.put(block, front)
        self.order.append(block)

    def put_lost(self) -> None:
        """Lost entries come last, in the order of the first places that name them. The root may be one of them."""
        account = self.account
        fronts = {it: f"{path}/" for it, path in self.paths.items() if account.is_told_directory(it)}
        first = {it: min(account.places[it]) for it in account.lost}
        for block in sorted(first, key=lambda it: first[it]):
            place = first[block]
            is_found = place.holder in self.found
            # (an entry is in the directory whose hash chain leads to it, whatever the one before it has as its parent)
            directory = self.above.get(place.holder, place.directory) if place.at == 124 else place.directory
            self.put_at(block, self.front_of(directory) if is_found else fronts.get(directory, ""))
            if is_found:
                self.found.add(block)


def listed_words(words: List[str]) -> str:
    return " and ".join([*[", ".join(words[:-1])] * (len(words) > 1), words[-1]])


def missing_words(holes: List[Hole]) -> str:
    """What standard error says of the missing parts of a file."""
    spans = [f"{it.first}" if it.first == it.last else f"{it.first} to {it.last}" for it in holes]
    numbers: List[str] = []
    for it in holes:
        ends = sorted({it.first_data, it.last_data})
        numbers += [f"{end}" for end in ends] if it.last_data - it.first_data < 2 else [f"{it.first_data} to {it.last_data}"]
    what, are = ("byte", "is") if spans[0].isdigit() and len(spans) == 1 else ("bytes", "are")
    return f"{what} {listed_words(spans)} {are} missing (data {listed_words(numbers)})"


def account_of(data: bytes, rules: Rules = NOW) -> Tuple[int, List[str], List[int]]:
    """The exit status of `extract --damaged`, its lines, and the blocks that are used and belong to nothing."""
    account = Account(data, rules)
    lines = account.lines()
    return 0 if account.is_accepted else 3, lines, account.rest


def rest_of(data: bytes) -> List[int]:
    """The blocks of an image that are used and belong to nothing that `extract --damaged` tells."""
    return account_of(data)[2]


def rest_text(blocks: List[int]) -> bytes:
    """How standard error ends after `extract --damaged` of an image with these blocks: their numbers, as ranges."""
    return HEADING + ranges_of(set(blocks)) if blocks else b""


def runs_of(blocks: List[int]) -> List[Tuple[int, int]]:
    """The first and the last block of each run of consecutive ones."""
    all_blocks = set(blocks)
    firsts, lasts = (sorted(it for it in all_blocks if it + step not in all_blocks) for step in (-1, 1))
    return list(zip(firsts, lasts))


def rest_told(texts: bytes) -> bytes:
    """The end of standard error after `extract --damaged`, from its blocks that belong to nothing on."""
    return b"".join(texts.partition(HEADING)[1:])


def texts_told(texts: bytes) -> List[bytes]:
    """The lines of standard error before these blocks, but for those about checksums and about the kind of the disk: those about files."""
    lines = texts.partition(HEADING)[0].replace(NO_SUMS, b"", 1).splitlines()
    return [it for it in lines if not it.startswith(b"adf_serve: read as ")]


def doubts_told(texts: bytes) -> List[bytes]:
    """Those of them that do not say which bytes are missing."""
    return [it for it in texts_told(texts) if not it.endswith(b")") or b" missing (data " not in it]


def main(words: List[str]) -> int:
    data = Path(words[0]).read_bytes()
    if "--owners" in words:
        print("\n".join(Owners(data).lines()))
        return 0
    status, lines, rest = account_of(data, PAGE if "--page" in words else NOW)
    print("\n".join([*lines, f"status {status}"]))
    print(rest_text(rest).decode(), end="")
    return 0


if __name__ == "__main__":
    sys.exit(main(sys.argv[1:]))
