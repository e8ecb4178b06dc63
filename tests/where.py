#!/usr/bin/env python3
"""Tests the commands `map` and `where` of the built program: the owner of each block, as text and as JSON, the blocks of each
file and directory, what they refuse, the places that name the blocks of a refused image, with its map, and the blocks of a list
of those that could not be read.

    tests/where.py [PROGRAM]

The images are drawn in Python. For `map`, the drawing program notes the owner of each block as it draws. For `where`, a reader
goes through the blocks of the drawn image: it counts the cylinders, heads and sectors off one by one, adds the bytes of a file
up block by block, and finds the path of an entry from its parents. tests/disk_model.py has the places that name a block of a
damaged image, and `refused_letter` makes the letters of its map of these. The environment variable ROUNDS is the number of images.
"""
from __future__ import annotations

import json
import os
import random
import sys
from itertools import islice
from typing import Dict, Iterator, List, NamedTuple, Optional, Sequence, Set, Tuple

sys.dont_write_bytecode = True

from disk_model import Named, Owners
from drawn_volume import Drawer, drawn
from fuzz import base_of, damaged
from harness import BLOCK, DIRECTORY, FILE, MOMENT, PAGE_BITS, Image, Ran, Room, fault_of, ranges_of, try_all

ROUNDS = int(os.environ.get("ROUNDS", "60"))
MEANINGS = [
    *(("B", "boot"), ("R", "root"), ("M", "bitmap"), ("D", "directories"), ("F", "file headers"), ("X", "extensions")),
    *(("#", "data"), ("L", "lost"), (".", "free")),
]
# What the letter of a block means that could not be read.
UNREAD = ("U", "unread")
SMALLEST = b"""BB......RM......

B boot: 2
R root: 1
M bitmap: 1
D directories: 0
F file headers: 0
X extensions: 0
# data: 0
L lost: 0
. free: 12
"""


class Noting(Drawer):
    """Draws a volume, and notes the letter of each block, and the header of its owner."""

    def __init__(self, chance: random.Random, blocks: int, ofs: bool) -> None:
        super().__init__(chance, blocks, ofs)
        self.letters: Dict[int, str] = {0: "B", 1: "B", self.root: "R", **{it: "M" for it in self.pages}}
        self.headers: Dict[int, int] = {self.root: self.root}

    def entry(self, directory: int, name: bytes, ends: Dict[int, int]) -> Tuple[int, bool]:
        key, is_directory = super().entry(directory, name, ends)
        self.letters[key] = "D" if is_directory else "F"
        self.headers[key] = key
        return key, is_directory

    def put_bytes(self, key: int, blocks: List[int], data: bytes) -> None:
        super().put_bytes(key, blocks, data)
        count = (len(data) + self.room - 1) // self.room
        self.letters.update({block: "#" if at < count else "X" for at, block in enumerate(blocks)})
        self.headers.update({block: key for block in blocks})

    def letter(self, block: int) -> str:
        """Its letter. A block that nothing took is lost if a valid bitmap says that it is used."""
        is_valid = self.long(self.root, 78) == 2**32 - 1
        return self.letters.get(block) or ("L" if is_valid and not self.is_free(block) else ".")


def tracks_of(letters: str, meanings: Sequence[Tuple[str, str]] = MEANINGS) -> bytes:
    """The map by tracks."""
    line = 11 if len(letters) == 1760 else 22
    lines = [letters[at : at + line] for at in range(0, len(letters), line)]
    return "".join(f"{it}\n" for it in [*lines, "", *(f"{mark} {what}: {letters.count(mark):,}" for mark, what in meanings)]).encode()


def page_of(letters: str, meanings: Sequence[Tuple[str, str]] = MEANINGS) -> bytes:
    """The map as text: that of a floppy has a column for each cylinder. The letter of unread blocks has a line of its own."""
    if len(letters) not in (1760, 3520):
        return tracks_of(letters, meanings)
    size = len(letters) // 80
    cylinders = [letters[at : at + size] for at in range(0, len(letters), size)]
    lines = ["".join(column[at] for column in cylinders) for at in range(size)]
    counts = [f"{mark} {what} {letters.count(mark):,}" for mark, what in meanings]
    ends = len(counts) - (UNREAD in meanings)
    return "".join(f"{it}\n" for it in [*lines, "  ".join(counts[:5]), "  ".join(counts[5:ends]), *counts[ends:]]).encode()


def bad_list(room: Room, blocks: int, chance: random.Random) -> Set[int]:
    """Some blocks, and a list of them: each by its number or by its place."""
    places = places_of(blocks)
    bad = {chance.randrange(blocks) for _ in range(chance.choice((0, 1, 9, blocks)))}
    lines = [str(it) if chance.random() < 0.5 else "c{}.h{}.s{}".format(*places[it]) for it in sorted(bad)]
    room.write("bad.txt", "".join(f"{it} # bad\n" for it in ["", *lines]).encode())
    return bad


def fault_of_map(room: Room, options: List[str], letters: str, headers: List[Optional[int]], meanings: Sequence[Tuple[str, str]]) -> Optional[str]:
    """What is wrong with the map of an accepted image, in each form."""
    line = json.dumps({"map": letters, "headers": headers}, separators=(",", ":")).encode() + b"\n"
    fault = fault_of(room.run("map", *options, "drawn.adf"), 0, page_of(letters, meanings))
    fault = fault or fault_of(room.run("map", "--json", *options, "drawn.adf"), 0, line)
    return fault or fault_of(room.run("map", "--tracks", *options, "drawn.adf"), 0, tracks_of(letters, meanings))


def fault_of_maps(room: Room, seed: int) -> Optional[str]:
    disk = drawn(seed, Noting)
    room.write("drawn.adf", bytes(disk.data))
    blocks = range(len(disk.data) // BLOCK)
    letters = "".join(disk.letter(it) for it in blocks)
    headers = [disk.headers.get(it) for it in blocks]
    bad = bad_list(room, len(blocks), random.Random(seed))
    marked = "".join("U" if it in bad else letters[it] for it in blocks)
    fault = fault_of_map(room, [], letters, headers, MEANINGS) or fault_of_map(room, ["--bad", "bad.txt"], marked, headers, [*MEANINGS, UNREAD])
    return fault or (None if room.content("drawn.adf") == bytes(disk.data) else "the image changed")


def drawn_volumes(room: Room) -> None:
    for seed in range(ROUNDS):
        room.report.ends(f"map of volume {seed}", lambda: fault_of_maps(room, seed))


# ---- who owns a block


class Owned(NamedTuple):
    """What `where` tells of a block."""

    owner: str
    path: Optional[str] = None
    number: Optional[int] = None
    first: Optional[int] = None
    last: Optional[int] = None


Place = Tuple[int, int, int]


def places_of(blocks: int) -> List[Place]:
    """The cylinder, the head and the sector of each block, counted off one after the other."""
    track = 22 if blocks == 3520 else 11
    places = ((cylinder, head, sector) for cylinder in range(blocks) for head in range(2) for sector in range(track))
    return [place for place, _ in zip(places, range(blocks))]


class Reading(Image):
    """Finds the owner of each block from the blocks of an accepted image."""

    def __init__(self, data: bytes) -> None:
        super().__init__(data)
        self.owners: Dict[int, Owned] = {0: Owned("boot"), 1: Owned("boot"), self.root: Owned("root")}
        self.own: Dict[int, Set[int]] = {self.root: {self.root}}
        for at in range((self.blocks - 2 + PAGE_BITS - 1) // PAGE_BITS):
            self.owners[self.long(self.root, 79 + at)] = Owned("bitmap", None, at)
        for key in self.all_keys():
            is_file = self.long(key, 127) == FILE
            path = self.path(key)
            self.owners[key] = Owned("file" if is_file else "directory", path)
            self.own[key] = {key}
            if is_file:
                self.read_file(key, path)

    def all_keys(self) -> Iterator[int]:
        """All entries, each directory after the one that it is in."""
        left = [self.root]
        while left:
            for key in self.keys(left.pop()):
                yield key
                if self.long(key, 127) == DIRECTORY:
                    left.append(key)

    def path(self, key: int) -> str:
        return b"/".join(self.names_of(key)).decode("latin-1")

    def read_file(self, key: int, path: str) -> None:
        """The data and extension blocks of a file. Each data block begins where the one before it ends."""
        left, number, first, holder, extension = self.long(key, 81), 0, 0, key, 0
        while True:
            for at in range(self.long(holder, 2)):
                held = min(self.room, left)
                block = self.long(holder, 77 - at)
                self.put_owner(block, key, Owned("data", path, number, first, first + held - 1))
                number, first, left = number + 1, first + held, left - held
            holder = self.long(holder, 126)
            if not holder:
                return
            self.put_owner(holder, key, Owned("extension", path, extension))
            extension += 1

    def put_owner(self, block: int, key: int, owned: Owned) -> None:
        self.owners[block] = owned
        self.own[key].add(block)

    def owned(self, block: int) -> Owned:
        if block in self.owners:
            return self.owners[block]
        return Owned("free" if self.long(self.root, 78) == 0 or self.is_free(block) else "lost")


def words_of(owned: Owned, spans: bool = True) -> str:
    """What a block is, in the words of the text, of a data block with its bytes or without."""
    path = "".join(f"%{ord(it):02X}" if ord(it) < 32 or 127 <= ord(it) < 160 else it for it in owned.path or "")
    return {
        "boot": "boot block",
        "root": "root",
        "bitmap": f"bitmap block {owned.number}",
        "directory": f"header of {path}/",
        "file": f"header of {path}",
        "data": f"data {owned.number} of {path}" + f", bytes {owned.first} to {owned.last}" * spans,
        "extension": f"extension {owned.number} of {path}",
        "lost": "lost",
        "free": "free",
    }[owned.owner]


def lines_of(image: Reading, places: List[Place], asked: List[int], bad: Optional[Set[int]] = None) -> bytes:
    """The text for these blocks, of which some could not be read."""
    lines = []
    for it in asked:
        cylinder, head, sector = places[it]
        lines.append(f"{it}  cyl {cylinder} head {head} sector {sector}  {words_of(image.owned(it))}\n")
        lines += [f"{it}  unread\n"] * (it in (bad or ()))
    return "".join(lines).encode()


def objects_of(image: Reading, places: List[Place], asked: List[int], bad: Optional[Set[int]] = None) -> object:
    """The objects for these blocks, of which some could not be read."""
    return [
        {**dict(zip(("block", "cylinder", "head", "sector"), (it, *places[it]))), **image.owned(it)._asdict(), **unread_of(it, bad)} for it in asked
    ]


def unread_of(block: int, bad: Optional[Set[int]]) -> Dict[str, bool]:
    """The member that says whether a block could not be read, if there is a list of such blocks."""
    return {} if bad is None else {"unread": block in bad}


def suspects_of(image: Reading, bad: Set[int]) -> List[Tuple[int, Owned, Optional[int]]]:
    """The blocks of a list that are not free, in order, with their owners and the headers of their entries."""
    headers = {block: key for key, blocks in image.own.items() if key != image.root for block in blocks}
    owned = [(it, image.owned(it), headers.get(it)) for it in sorted(bad)]
    return [it for it in owned if it[1].owner != "free"]


def is_told(path: Optional[str]) -> bool:
    """Whether a path has at most 255 bytes. A longer one is not told of a suspect block."""
    return len(path or "") <= 255


def suspect_line(block: int, owned: Owned, header: Optional[int]) -> str:
    """The line of a block of a list."""
    if is_told(owned.path):
        return f"suspect block {block}, {words_of(owned, False)}\n"
    kind = "directory" if owned.owner == "directory" else "file"
    return f"suspect block {block}, {words_of(owned._replace(owner='file' if kind == 'directory' else owned.owner, path=''), False)}the {kind} at block {header}\n"


def suspect_object(block: int, owned: Owned, header: Optional[int]) -> Dict[str, object]:
    """The object of a block of a list."""
    data = owned.number if owned.owner == "data" else None
    path = owned.path if is_told(owned.path) else None
    return {"block": block, "header": header, "data": data, "path": path, "owner": owned.owner, "number": owned.number}


def fault_of_check(room: Room, name: str, image: Reading, bad: Set[int]) -> Optional[str]:
    """What is wrong with the suspect blocks that `check` reports of an accepted image, by a list in `bad.txt`."""
    suspects = suspects_of(image, bad)
    lines = "ok\n" if image.long(image.root, 78) else "ok validated\n"
    lines += "".join(suspect_line(*it) for it in suspects)
    fault = fault_of(room.run("check", "--bad", "bad.txt", name), 0, lines.encode())
    ran = room.run("check", "--json", "--bad", "bad.txt", name)
    fault = fault or fault_of(ran, 0, None)
    told = b"" if fault else json.dumps(json.loads(ran.output)["suspects"]).encode() + b"\n"
    return fault or fault_of_json(told, [suspect_object(*it) for it in suspects])


# ---- what names a block of a refused image


def words_of_place(named: Named) -> str:
    """What a place makes of the block that it names, in the words of the text."""
    of_block = f"of block {named.holder}"
    return {
        "entry": f"entry {of_block}, long {named.at}",
        "next": f"next entry {of_block}",
        "extension": f"extension {of_block}",
        "data": f"data {77 - named.at} {of_block}",
        "bitmap": f"bitmap block {named.at - 79} {of_block}",
    }[named.role]


def placed_lines(model: Owners, places: List[Place], asked: List[int], bad: Optional[Set[int]] = None) -> bytes:
    """The text for these blocks of a refused image, after the line of the refusal; some could not be read."""
    lines = []
    for it in asked:
        cylinder, head, sector = places[it]
        words = [words_of_place(named) for named in model.named_by(it)]
        fixed = ["boot block"] * (it < 2) + ["root"] * (it == model.root)
        for said in fixed + words or ["named by nothing"]:
            lines.append(f"{it}  cyl {cylinder} head {head} sector {sector}  {said}\n")
        lines += [f"{it}  fault {kind}\n" for kind in model.faults_of(it)]
        lines += [f"{it}  unread\n"] * (it in (bad or ()))
    return "".join(lines).encode()


def placed_objects(model: Owners, places: List[Place], asked: List[int], bad: Optional[Set[int]] = None) -> object:
    """The objects for these blocks, of which some could not be read."""
    named = {it: [{"block": one.holder, "long": one.at, "role": one.role} for one in model.named_by(it)] for it in asked}
    return [
        {**dict(zip(("block", "cylinder", "head", "sector"), (it, *places[it]))), "places": named[it], "faults": model.faults_of(it), "more": False, **unread_of(it, bad)}
        for it in asked
    ]


# What the letters of a refused image mean, and the letters of the roles in which a place names a block.
REFUSED_MEANINGS = [*MEANINGS, ("!", "faulty"), ("?", "shared")]
LETTERS = {"bitmap": "M", "extension": "X", "data": "#"}


def refused_letter(model: Owners, block: int) -> str:
    """The letter of a block of a refused image."""
    named = model.named_by(block)
    if block >= 2 and len({(it.holder, it.at) for it in named}) > 1:
        return "?"
    if model.faults_of(block):
        return "!"
    if block < 2 or block == model.root:
        return "B" if block < 2 else "R"
    if named:
        return LETTERS.get(named[0].role) or ("F" if model.long(block, 127) == FILE else "D")
    page, bit = model.long(model.root, 79 + (block - 2) // PAGE_BITS), (block - 2) % PAGE_BITS
    return "." if 2 <= page < model.blocks and model.long(page, 1 + bit // 32) >> bit % 32 & 1 else "L"


def fault_of_refused_map(room: Room, name: str, model: Owners, bad: Optional[Set[int]] = None) -> Optional[str]:
    """What is wrong with the map of a refused image, in each form; some blocks could not be read. An image that is none of this file
    system has no map."""
    options, meanings = ([], REFUSED_MEANINGS) if bad is None else (["--bad", "bad.txt"], [*REFUSED_MEANINGS, UNREAD])
    refused = room.run("check", name).output
    _, kind, at = refused.split()
    told: Dict[str, object] = {"refused": {"kind": kind.decode(), "block": int(at)}}
    page = tracks = b""
    if kind not in (b"NotADosDisk", b"UnsupportedKind"):
        letters = "".join("U" if it in (bad or ()) else refused_letter(model, it) for it in range(model.blocks))
        told.update({"map": letters, "more": False})
        page, tracks = page_of(letters, meanings), tracks_of(letters, meanings)
    ran = room.run("map", "--json", *options, name)
    fault = None if ran.status == 3 else f"status {ran.status}"
    fault = fault or fault_of_json(ran.output, told)
    fault = fault or fault_of(room.run("map", *options, name), 3, refused + page, " blocks\n")
    return fault or fault_of(room.run("map", "--tracks", *options, name), 3, refused + tracks, " blocks\n")


def fault_of_places(room: Room, name: str, chance: random.Random) -> Optional[str]:
    """What is wrong with the places that name the blocks of a refused image."""
    data = room.content(name)
    model = Owners(data)
    places = places_of(model.blocks)
    asked = [it for it in range(model.blocks) if model.named_by(it) and chance.random() < 0.1 or model.faults_of(it) or len(model.named_by(it)) > 1][:300]
    asked += [0, 1, model.root, model.blocks - 1, *(chance.randrange(model.blocks) for _ in range(10))]
    chance.shuffle(asked)
    words = [str(it) if chance.random() < 0.5 else "c{}.h{}.s{}".format(*places[it]) for it in asked]
    refused = room.run("check", name).output
    fault = None
    for bad in (None, bad_list(room, model.blocks, chance)):
        options = [] if bad is None else ["--bad", "bad.txt"]
        fault = fault or fault_of(room.run("where", *options, name, *words), 3, refused + placed_lines(model, places, asked, bad), " blocks\n")
        _, kind, at = refused.split()
        wanted = {"refused": {"kind": kind.decode(), "block": int(at)}, "blocks": placed_objects(model, places, asked, bad)}
        ran = room.run("where", "--json", *options, name, *words)
        fault = fault or (None if ran.status == 3 else f"status {ran.status}") or fault_of_json(ran.output, wanted)
        fault = fault or fault_of_refused_map(room, name, model, bad)
    return fault or (None if room.content(name) == data else "the image changed")


def places_in_volumes(room: Room) -> None:
    """Images that are damaged at random."""
    for seed in range(ROUNDS):
        base = base_of(room, "places", seed)
        datas = (damaged(base, "places", at) for at in range(20 * seed, 20 * seed + 20))
        refused = (it for it in datas if len(it) % BLOCK == 0 and len(it) >= 16 * BLOCK and Owners(it).all_faults())
        for number, data in enumerate(islice(refused, 2)):
            room.write("damaged.adf", data)
            room.report.ends(f"places in damaged volume {seed} {number}", lambda: fault_of_places(room, "damaged.adf", random.Random(seed)))


def known_places(room: Room) -> None:
    """Lines that are known from the layout of the disk."""
    room.done("blank", "--blocks", "16", *MOMENT, "Known", "placed.adf")
    room.write("f", b"x")
    room.done("add", *MOMENT, "placed.adf", "f")
    data = bytearray(room.content("placed.adf"))
    image = Image(bytes(data))
    key = next(iter(image.keys(image.root)))
    # (a pointer of the root to a bitmap block names the header too)
    at = BLOCK * image.root + 4 * 79
    data[at : at + 4] = key.to_bytes(4, "big")
    room.write("placed.adf", bytes(data))
    slot = next(it for it in range(6, 78) if image.long(image.root, it) == key)
    front = f"{key}  cyl 0 head 0 sector {key}  " if key < 11 else f"{key}  cyl 0 head 1 sector {key - 11}  "
    wanted = f"{front}entry of block {image.root}, long {slot}\n{front}bitmap block 0 of block {image.root}\n{key}  fault BlockUsedTwice\n"
    ran = room.run("where", "placed.adf", str(key))
    room.report.expect("a header that two places name", ran.status == 3 and ran.output.partition(b"\n")[2] == wanted.encode(), ran)


def fault_of_json(output: bytes, wanted: object) -> Optional[str]:
    """What is wrong with JSON on a line of its own."""
    if output.count(b"\n") != 1 or not output.endswith(b"\n"):
        return f"no line: {output[:300]!r}"
    found = json.loads(output)
    return None if found == wanted else f"other JSON: {str(found)[:300]} where {str(wanted)[:300]} is expected"


def fault_of_blocks(room: Room, name: str, chance: random.Random, most: int = 9_000) -> Optional[str]:
    """What is wrong with the answers for the blocks of an image, in any order and some of them twice, by number and by place."""
    data = room.content(name)
    image = Reading(data)
    places = places_of(image.blocks)
    asked = [chance.randrange(image.blocks) for _ in range(most - 2)] if image.blocks > most else [*range(image.blocks), 0]
    asked += [image.blocks - 1, *image.own]
    chance.shuffle(asked)
    words = [str(it) if chance.random() < 0.5 else "c{}.h{}.s{}".format(*places[it]) for it in asked]
    fault = None
    for bad in (None, bad_list(room, image.blocks, chance)):
        options = [] if bad is None else ["--bad", "bad.txt"]
        fault = fault or fault_of(room.run("where", *options, name, *words), 0, lines_of(image, places, asked, bad))
        ran = room.run("where", "--json", *options, name, *words)
        fault = fault or fault_of(ran, 0, None) or fault_of_json(ran.output, objects_of(image, places, asked, bad))
        fault = fault or (None if bad is None else fault_of_check(room, name, image, bad))
    for key in chance.sample(sorted(image.own), min(20, len(image.own))):
        path = "" if key == image.root else image.path(key)
        if not {"\0"} & set(path):
            fault = fault or fault_of(room.run("where", f"--path={path}", name), 0, ranges_of(image.own[key]))
            ran = room.run("where", "--json", f"--path={path}", name)
            fault = fault or fault_of(ran, 0, None) or fault_of_json(ran.output, {"blocks": sorted(image.own[key])})
    return fault or (None if room.content(name) == data else "the image changed")


def owners_of_volumes(room: Room) -> None:
    for seed in range(ROUNDS):

        def fault() -> Optional[str]:
            room.write("drawn.adf", bytes(drawn(seed, Drawer).data))
            return fault_of_blocks(room, "drawn.adf", random.Random(seed))

        room.report.ends(f"owners in volume {seed}", fault)


def sizes(room: Room) -> None:
    """Volumes of each size in both formats, with an empty file, and with a file that has extension blocks if there is room."""
    room.write("empty")
    room.write("one", b"x")
    room.write("long", bytes(60_000))
    kinds: List[List[str]] = [[], ["--ffs"]]
    for blocks in (16, 1_760, 3_520, 101_602):
        for kind in kinds:
            name = f"sized{blocks}{''.join(kind)}.adf"
            room.done("blank", *kind, "--blocks", str(blocks), *MOMENT, "Sized", name)
            room.done("mkdir", *MOMENT, name, "d")
            room.done("add", *MOMENT, "--to", "d", name, "empty", "one", *(["long"] if blocks > 16 else []))
            room.report.ends(f"owners in {name}", lambda: fault_of_blocks(room, name, random.Random(blocks), 3_000))


def known_lines(room: Room) -> None:
    """Lines that are known from the layout of the disk."""
    room.done("blank", *MOMENT, "Known", "known.adf")
    room.write("list", bytes(20_000))
    room.done("mkdir", *MOMENT, "known.adf", "Docs")
    room.done("add", *MOMENT, "--to", "Docs", "known.adf", "list")
    blocks = {it.path: at for at, it in Reading(room.content("known.adf")).owners.items() if it.number == 34}
    block = str(blocks["Docs/list"])
    line = room.run("where", "known.adf", block).output.decode()
    room.report.expect("data block 34 holds bytes 16592 to 17079", line.endswith("  data 34 of Docs/list, bytes 16592 to 17079\n"), line)
    room.succeeds("block 912", "where", "known.adf", "912", output=b"912  cyl 41 head 0 sector 10  " + words_at(room, 912))
    room.succeeds("the root by its place", "where", "known.adf", "c40.h0.s0", output=b"880  cyl 40 head 0 sector 0  root\n")
    room.succeeds("the blocks of the root", "where", "--path", "", "known.adf", output=b"880\n")
    room.done("blank", "--hd", *MOMENT, "Known", "high.adf")
    room.succeeds("a track of 22 sectors", "where", "high.adf", "c40.h0.s0", "21", output=b"1760  cyl 40 head 0 sector 0  root\n21  cyl 0 head 0 sector 21  free\n")


def words_at(room: Room, block: int) -> bytes:
    return words_of(Reading(room.content("known.adf")).owned(block)).encode() + b"\n"


def known_maps(room: Room) -> None:
    """The maps of two blank floppies, by hand: the root is the first block of cylinder 40, and the bitmap block follows it."""
    for option, size in ((), 22), (("--hd",), 44):
        room.done("blank", *option, *MOMENT, "Known", "blank.adf")
        first = "B" + 39 * "." + "R" + 39 * "."
        second = "B" + 39 * "." + "M" + 39 * "."
        free = 80 * size - 4
        legend = ["B boot 2  R root 1  M bitmap 1  D directories 0  F file headers 0", f"X extensions 0  # data 0  L lost 0  . free {free:,}"]
        page = "".join(f"{it}\n" for it in [first, second, *(size - 2) * ["." * 80], *legend])
        room.succeeds(f"the map of a blank floppy of {80 * size} blocks", "map", "blank.adf", output=page.encode())
    room.report.check("a map by tracks and as JSON", room.run("map", "--tracks", "--json", "blank.adf"), 1, b"", "--json")


def known_damage(room: Room) -> None:
    """The map of a floppy with three files of a byte, by hand. The header of `b` names the data block of `a`, and that of `c` has a wrong
    checksum."""
    for name in "abc":
        room.write(name, b"x")
    room.done("blank", "--ffs", *MOMENT, "Known", "hurt.adf")
    room.done("add", *MOMENT, "hurt.adf", "a", "b", "c")
    image = Image(room.content("hurt.adf"))
    a, b, c = sorted(image.keys(image.root), key=image.names_of)
    shared, left, kept = (image.long(key, 77) for key in (a, b, c))
    image.put(b, 77, shared)
    image.settle(b)
    image.put(c, 105, image.long(c, 105) + 1)
    room.write("hurt.adf", image.data)
    letters = [*"BB", *1758 * "."]
    for block, letter in ((880, "R"), (881, "M"), (a, "F"), (b, "F"), (c, "!"), (shared, "?"), (left, "L"), (kept, "#")):
        letters[block] = letter
    lines = ["".join(letters[sector::22]) for sector in range(22)]
    legend = ["B boot 2  R root 1  M bitmap 1  D directories 0  F file headers 2", "X extensions 0  # data 1  L lost 1  . free 1,750  ! faulty 1  ? shared 1"]
    page = room.run("check", "hurt.adf").output + "".join(f"{it}\n" for it in [*lines, *legend]).encode()
    room.report.check("the map of a damaged floppy", room.run("map", "hurt.adf"), 3, page, "'hurt.adf'")
    room.report.same("the image stays", room.content("hurt.adf"), bytes(image.data))


def wrong_blocks(room: Room) -> None:
    room.done("blank", *MOMENT, "Small", "plain.adf")
    data = room.content("plain.adf")
    for word in ("x", "+1", "007", "1.5", "", "4294967296", "c40", "c40.h0", "c40.h2.s0", "c40.h0.s22", "c040.h0.s0", "C40.h0.s0", "c.h0.s0", "c40.h0.s0 ", "c40.h0.s-1"):
        room.report.check(f"block {word!r}", room.run("where", "plain.adf", "880", word), 1, b"", f"'{word}'", "BLOCK")
    for word in ("1760", "4294967295", "c80.h0.s0", "c0.h0.s11", "c79.h1.s11", "c4294967295.h1.s10"):
        fault = f"'plain.adf' has no block {word}: it has 1,760 blocks"
        room.report.check(f"no block {word}", room.run("where", "plain.adf", "880", word), 3, b"", fault)
        room.report.check(f"no object of block {word}", room.run("where", "--json", "plain.adf", "880", word, "1"), 3, b"", fault)
    room.report.check("no block is named", room.run("where", "plain.adf"), 1, b"", "BLOCK")
    room.write("bad.txt", b"880\n")
    room.report.check("a path and a list of bad blocks", room.run("where", "--path", "", "--bad", "bad.txt", "plain.adf"), 1, b"", "--bad")
    room.report.check("a path and a block", room.run("where", "--path", "c", "plain.adf", "880"), 1, b"", "--path")
    room.report.check("a path that leads nowhere", room.run("where", "--path", "c", "plain.adf"), 3, b"refused 205 c\n", "c")
    object = b'{"refused":{"number":205,"path":"c"}}\n'
    room.report.check("a path that leads nowhere, as JSON", room.run("where", "--path", "c", "--json", "plain.adf"), 3, object, "c")
    room.report.check("a path with a letter past U+00FF", room.run("where", "--path", "\u0100", "plain.adf"), 1, b"", "\u0100")
    room.report.same("the image stays", room.content("plain.adf"), data)


def other_images(room: Room) -> None:
    room.done("blank", "--blocks", "16", "Small", "small.adf")
    room.succeeds("map of 16 blocks", "map", "small.adf", output=SMALLEST)
    data = bytearray(room.content("small.adf"))
    data[8 * BLOCK + 5] ^= 1
    room.write("bad.adf", bytes(data))
    page = SMALLEST.replace(b"BB......R", b"BB......!").replace(b"R root: 1", b"R root: 0") + b"! faulty: 1\n? shared: 0\n"
    room.report.check("a wrong checksum", room.run("map", "bad.adf"), 3, b"refused BadSum 8\n" + page, "its checksum is wrong")
    object = b'{"refused":{"kind":"BadSum","block":8},"map":"BB......!M......","more":false}\n'
    room.report.check("a wrong checksum, as JSON", room.run("map", "--json", "bad.adf"), 3, object, "its checksum is wrong")
    room.report.same("the image stays", room.content("bad.adf"), bytes(data))
    room.write("short.adf", bytes(100))
    size = b'{"refused":{"kind":"NotWholeBlocks","block":0}}\n'
    room.report.check("no image", room.run("map", "--json", "short.adf"), 3, size, "100 bytes are no whole number of blocks")
    room.write("other.adf", b"PFS\1" + bytes(BLOCK * 1760 - 4))
    room.report.check("another kind of disk", room.run("map", "other.adf"), 3, b"refused NotADosDisk 0\n", "not an AmigaDOS disk")
    room.report.check("no such file", room.run("map", "none.adf"), 2, b"", "none.adf")
    bad = b"refused BadSum 8\n8  cyl 0 head 0 sector 8  root\n8  fault BadSum\n0  cyl 0 head 0 sector 0  boot block\n12  cyl 0 head 1 sector 1  named by nothing\n"
    room.report.check("where in a refused image", room.run("where", "bad.adf", "8", "0", "12"), 3, bad, "its checksum is wrong")
    room.report.check("no such block in a refused image", room.run("where", "bad.adf", "8", "16"), 3, b"refused BadSum 8\n", "'bad.adf' has no block 16: it has 16 blocks", "its checksum is wrong")
    told = b'{"refused":{"kind":"BadSum","block":8}'
    end = b"}\n"
    objects = b',"blocks":[{"block":8,"cylinder":0,"head":0,"sector":8,"places":[],"faults":["BadSum"],"more":false}]'
    room.report.check("where --json in a refused image", room.run("where", "--json", "bad.adf", "8"), 3, told + objects + end, "its checksum is wrong")
    room.report.check("where --json of no such block", room.run("where", "--json", "bad.adf", "16"), 3, told + end, "'bad.adf' has no block 16", "its checksum is wrong")
    room.report.check("where --json in no image", room.run("where", "--json", "short.adf", "8"), 3, size, "100 bytes")
    room.report.check("a path in a refused image", room.run("where", "--path", "", "bad.adf"), 3, b"refused BadSum 8\n", "its checksum is wrong")
    room.report.check("a path in a refused image, as JSON", room.run("where", "--path", "", "--json", "bad.adf"), 3, told + end, "its checksum is wrong")
    room.report.check("where in no image", room.run("where", "short.adf", "8"), 3, b"refused NotWholeBlocks 0\n", "100 bytes")
    room.report.check("where in no file", room.run("where", "none.adf", "8"), 2, b"", "none.adf")
    room.report.check("no argument", room.run("map"), 1, b"", "IMAGE")
    room.report.check("two images", room.run("map", "small.adf", "small.adf"), 1, b"", "small.adf")


def unread_blocks(room: Room) -> None:
    """Blocks that could not be read, by hand: of a volume of 16 blocks, and of the same one with a wrong checksum."""
    room.done("blank", "--blocks", "16", "Small", "small.adf")
    data = bytearray(room.content("small.adf"))
    data[8 * BLOCK + 5] ^= 1
    room.write("hurt.adf", bytes(data))
    room.write("bad.txt", b"# by Greaseweazle\n 9\nc0.h1.s0\n\n")
    page = SMALLEST.replace(b"RM.....", b"RU.U...").replace(b"bitmap: 1", b"bitmap: 0").replace(b"free: 12", b"free: 11")
    room.succeeds("a map of unread blocks", "map", "--bad", "bad.txt", "small.adf", output=page + b"U unread: 2\n")
    page = page.replace(b"......RU", b"......!U").replace(b"root: 1", b"root: 0") + b"! faulty: 1\n? shared: 0\nU unread: 2\n"
    room.report.check("and of a refused image", room.run("map", "--bad", "bad.txt", "hurt.adf"), 3, b"refused BadSum 8\n" + page, "its checksum is wrong")
    room.write("none.txt")
    room.succeeds("an empty list", "map", "--bad", "none.txt", "small.adf", output=SMALLEST + b"U unread: 0\n")
    lines = b"9  cyl 0 head 0 sector 9  bitmap block 0\n9  unread\n8  cyl 0 head 0 sector 8  root\n11  cyl 0 head 1 sector 0  free\n11  unread\n"
    room.succeeds("where unread blocks are", "where", "--bad", "bad.txt", "small.adf", "9", "8", "c0.h1.s0", output=lines)
    room.succeeds("where an empty list is", "where", "--bad", "none.txt", "small.adf", "8", output=b"8  cyl 0 head 0 sector 8  root\n")
    object = b'[{"block":8,"cylinder":0,"head":0,"sector":8,"owner":"root","path":null,"number":null,"first":null,"last":null,"unread":false}]\n'
    room.succeeds("where an empty list is, as JSON", "where", "--json", "--bad", "none.txt", "small.adf", "8", output=object)
    lines = b"refused BadSum 8\n8  cyl 0 head 0 sector 8  root\n8  fault BadSum\n11  cyl 0 head 1 sector 0  named by nothing\n11  unread\n"
    room.report.check("where unread blocks of a refused image are", room.run("where", "--bad", "bad.txt", "hurt.adf", "8", "11"), 3, lines, "its checksum is wrong")
    room.succeeds("suspect blocks of a list", "check", "--bad", "bad.txt", "small.adf", output=b"ok\nsuspect block 9, bitmap block 0\n")
    room.succeeds("no suspect blocks of an empty list", "check", "--bad", "none.txt", "small.adf", output=b"ok\n")
    room.report.check("no suspect blocks of a refused image", room.run("check", "--bad", "bad.txt", "hurt.adf"), 3, b"refused BadSum 8\n", "its checksum is wrong")
    for image in ("small.adf", "hurt.adf"):
        for line in ("x", "16", "c0.h0.s11", "3 4"):
            room.write("wrong.txt", f"5\n{line}\n".encode())
            said = "'wrong.txt', line 2: the number of one of the image's 16 blocks is expected"
            for words in (["map", "--bad", "wrong.txt", image], ["map", "--json", "--bad", "wrong.txt", image], ["where", "--bad", "wrong.txt", image, "8"], ["where", "--bad", "wrong.txt", image, "99"]):
                room.report.check(f"{' '.join(words)}: {line}", room.run(*words), 2, b"", said)
            said = f"'{image}' is not checked: line 2 of the list of bad blocks names none of its 16 blocks"
            room.report.check(f"check --bad wrong.txt {image}: {line}", room.run("check", "--bad", "wrong.txt", image), 2, b"", said)
        room.write("long.txt", bytes(4_194_305))
        for words in (["map", "--bad", "{}", image], ["where", "--json", "--bad", "{}", image, "8"], ["check", "--bad", "{}", image]):
            for list, fault in (("missing.txt", "cannot read 'missing.txt'"), ("long.txt", "'long.txt' has more than 4,194,304 bytes")):
                room.report.check(f"{words[0]} --bad {list} of {image}", room.run(*(it.format(list) for it in words)), 2, b"", fault)


def main(words: List[str]) -> int:
    return try_all(words, Room, drawn_volumes, owners_of_volumes, places_in_volumes, sizes, known_lines, known_maps, known_damage, known_places, wrong_blocks, other_images, unread_blocks)


if __name__ == "__main__":
    sys.exit(main(sys.argv[1:]))
