"""Images that are drawn to exhaust time, memory or disk: as deep, as wide or as tangled as their blocks allow.

Those of the first part are accepted. Those of the second and the third part consist of headers only; `refused` puts a wrong
checksum into the root of one, so that only a rescue reads it.
"""
from __future__ import annotations

import struct
from typing import Callable, Dict, Iterator, List, NamedTuple, Sequence, Tuple

from harness import BLOCK, DIRECTORY, FILE, SLOTS, Image, slot_of

# The names of an image are at most this many.
MOST_NAMES = 101_602


# ---- images that are accepted


class Drawing:
    """A blank image into which entries are drawn. Its bitmap is to be rebuilt."""

    def __init__(self, blank: bytes) -> None:
        self.image = Image(blank)
        self.root = self.image.root
        self.image.put(self.root, 78, 0)
        self.left = [it for it in range(self.image.blocks - 1, 1, -1) if blank[it * BLOCK : (it + 1) * BLOCK] == bytes(BLOCK)]
        self.drawn = [self.root]
        self.last: Dict[Tuple[int, int], int] = {}

    def entry(self, directory: int, name: bytes, kind: int = DIRECTORY) -> int:
        """Draws an empty directory or file with the next free block, last in its hash chain, and returns that block."""
        block = self.left.pop()
        for at, value in ((0, 2), (1, block), (125, directory), (127, kind)):
            self.image.put(block, at, value)
        put_name(self.image, block, name)
        slot = 6 + slot_of(name)
        before = self.last.get((directory, slot))
        self.image.put(*((directory, slot) if before is None else (before, 124)), block)
        self.last[directory, slot] = block
        self.drawn.append(block)
        return block

    def done(self, wrong: Sequence[int] = ()) -> bytes:
        """The image, with wrong checksums in some blocks."""
        for block in self.drawn:
            self.image.settle(block)
        for block in wrong:
            self.image.put(block, 5, self.image.long(block, 5) + 1)
        return bytes(self.image.data)


def put_name(image: Image, block: int, name: bytes) -> None:
    """Writes a name into a header. Its checksum is not changed."""
    start = block * BLOCK + 432
    image.data[start : start + 1 + len(name)] = bytes([len(name)]) + name


def headers_of(blank: bytes) -> int:
    """The number of entries for which a blank image has room."""
    return len(Drawing(blank).left)


def long_names() -> Iterator[bytes]:
    """Names of 30 letters, all different."""
    return (b"%030d" % it for it in range(MOST_NAMES))


def names_of_one_chain() -> Iterator[bytes]:
    """Names of eight letters, all different and in the same slot. The last two letters of each are chosen for that."""
    letters = b"ABCDEFGHIJKLMNOPQRSTUVWXYZ"
    ends: Dict[int, bytes] = {}
    for hashed in range(2048):
        pairs = ((one, two) for one in letters for two in letters)
        ends[hashed] = next(bytes(it) for it in pairs if (13 * ((13 * hashed + it[0]) % 2048) + it[1]) % 2048 % SLOTS == 0)
    for number in range(MOST_NAMES):
        front, hashed = b"%06d" % number, 8
        for it in front:
            hashed = (13 * hashed + it) % 2048
        yield front + ends[hashed]


def deep_chain(blank: bytes) -> bytes:
    """Each directory is in the one before, through all blocks."""
    drawing, names = Drawing(blank), long_names()
    here = drawing.root
    while drawing.left:
        here = drawing.entry(here, next(names))
    return drawing.done()


def deep_files(blank: bytes, depth: int, wrong: int = 0, most: int = MOST_NAMES) -> bytes:
    """A chain of directories, and files through all other blocks in the deepest, at most so many. The last files have wrong checksums."""
    drawing, names = Drawing(blank), long_names()
    here = drawing.root
    for _ in range(depth):
        here = drawing.entry(here, next(names))
    files: list[int] = []
    while drawing.left and len(files) < most:
        files.append(drawing.entry(here, next(names), FILE))
    return drawing.done(files[len(files) - wrong :])


def deep_ways(blank: bytes, depth: int) -> bytes:
    """Directories side by side in the root, each the first of a chain this deep, with names of one letter."""
    drawing = Drawing(blank)
    for number in range(MOST_NAMES):
        here = drawing.entry(drawing.root, b"%06d" % number)
        for _ in range(min(depth - 1, len(drawing.left))):
            here = drawing.entry(here, b"d")
        if not drawing.left:
            break
    return drawing.done()


def one_chain(blank: bytes, spare: int) -> bytes:
    """A directory `d` whose files are all in one hash chain. So many blocks are left free."""
    drawing, names = Drawing(blank), names_of_one_chain()
    directory = drawing.entry(drawing.root, b"d")
    while len(drawing.left) > spare:
        drawing.entry(directory, next(names), FILE)
    return drawing.done()


# ---- images of headers


def put_entry(image: Image, block: int, kind: int, name: bytes, parent: int = 0, slot: int = 0) -> None:
    """Draws the header of a directory or an empty file over a block, sound by itself: with its parent, and the first entry of
    its first slot."""
    first, last, text = (2, block, 0, 0, 0, 0, slot), (parent, 0, kind), bytes([len(name)]) + name
    image.data[block * BLOCK : (block + 1) * BLOCK] = bytes(BLOCK)
    image.put_all(block, 0, first)
    image.put_all(block, 125, last)
    image.data[block * BLOCK + 432 : block * BLOCK + 432 + len(text)] = text
    # (these are all of its longs that are not 0)
    image.put(block, 5, -sum(first) - sum(last) - sum(struct.unpack(">8I", text.ljust(32, b"\0"))))


def put_pointers(image: Image, block: int, size: int, pointers: Sequence[int], extension: int = 0) -> None:
    """Gives a file a size, these first data blocks, and an extension block."""
    for at, value in ((2, len(pointers)), (81, size), (126, extension)):
        image.put(block, at, value)
    image.put_all(block, 78 - len(pointers), pointers[::-1])
    image.settle(block)


def put_header(image: Image, block: int, size: int, pointers: Sequence[int]) -> None:
    """Draws the header of a file over a block, sound by itself: with this size and these first data blocks."""
    put_entry(image, block, FILE, f"f{block}".encode(), image.blocks // 2)
    put_pointers(image, block, size, pointers)


def refused(image: Image) -> bytes:
    """The image with a wrong checksum in its root, so that it is refused."""
    image.data[len(image.data) // 2 + 20] ^= 1
    return bytes(image.data)


Places = Sequence[int]


def places_in(image: Image) -> List[int]:
    """The blocks of a blank image other than those of the volume itself."""
    root = image.blocks // 2
    pages = {image.long(root, 79 + it) for it in range(25)}
    return [it for it in range(2, image.blocks) if it != root and it not in pages]


def parents_up(image: Image, places: Places, depth: int) -> None:
    """Directories that only their parents hold together: chains of this depth, from the first header up to the last."""
    for at, block in enumerate(places):
        is_last = (at + 1) % depth == 0 or at + 1 == len(places)
        put_entry(image, block, DIRECTORY, b"d", 0 if is_last else places[at + 1])


def parents_round(image: Image, places: Places, depth: int) -> None:
    """Directories in cycles of parents."""
    for at, block in enumerate(places):
        first = at - at % depth
        is_last = (at + 1) % depth == 0 or at + 1 == len(places)
        put_entry(image, block, DIRECTORY, b"d", places[first if is_last else at + 1])


def chains_down(image: Image, places: Places, depth: int) -> None:
    """Directories in directories, by the slots of the root, and an empty file in the last one."""
    root = image.blocks // 2
    for at, block in enumerate(places):
        is_last = (at + 1) % depth == 0 or at + 1 == len(places)
        if at % depth == 0 and at // depth < SLOTS:
            image.put(root, 6 + at // depth, block)
        if is_last:
            put_entry(image, block, FILE, b"f%d" % (at // depth))
        else:
            put_entry(image, block, DIRECTORY, b"d", slot=places[at + 1])


def shares_list(size: int) -> Callable[[Image, Places], None]:
    """All headers have one list of blocks."""

    def draw(image: Image, places: Places) -> None:
        for block in places:
            put_header(image, block, size, places[100 : 100 + SLOTS])

    return draw


def grows_by_one(image: Image, places: Places) -> None:
    """All headers have a part of one list of blocks, each one block more."""
    for at, block in enumerate(places):
        put_header(image, block, BLOCK * (1 + at % SLOTS), places[100 : 101 + at % SLOTS])


def ends_late(image: Image, places: Places) -> None:
    """Each file has one block, which is the last of 72."""
    half = len(places) // 2
    for block, data in zip(places[:half], places[half:]):
        put_header(image, block, SLOTS * BLOCK, [0] * (SLOTS - 1) + [data])


def extensions_round(image: Image, places: Places) -> None:
    """The extension block of each file is its own next one."""
    half = len(places) // 2
    for block, extension in zip(places[:half], places[half:]):
        put_header(image, block, 0xFFFFFFFF, places[half : half + SLOTS])
        put_pointers(image, block, 0xFFFFFFFF, places[half : half + SLOTS], extension)
        image.data[extension * BLOCK : (extension + 1) * BLOCK] = bytes(BLOCK)
        for at, value in ((0, 16), (1, extension), (2, SLOTS), (125, block), (126, extension), (127, FILE)):
            image.put(extension, at, value)
        image.settle(extension)


def names_alike(image: Image, places: Places) -> None:
    """Entries with one name, and with the names that they get instead."""
    for at, block in enumerate(places):
        put_entry(image, block, FILE, b"same" if at % 3 else b"same~%d" % places[(at + 1) % len(places)])


# ---- images of which a rescue may take long: the way from one entry to the next, or the blocks of each file


# The levels of directories in images that are made to take long: as many as a path of the host can have, and as many as leave less
# than 100 MB of lines for the largest image.
HIGH, LOW = 1_900, 400


class Worst(NamedTuple):
    """An image made to take long: its name, and how it is drawn. The drawing returns the status, the lines and the files of its
    rescue."""

    name: str
    draw: Callable[[Image, Places], Tuple[int, int, int]]


def hang(image: Image, directory: int, first: int, slot: int = 0) -> None:
    """Makes an entry the first one of a slot of a directory."""
    image.put(directory, 6 + slot, first)
    image.settle(directory)


def join(image: Image, chain: Places) -> None:
    """Makes entries a hash chain."""
    for before, behind in zip(chain, chain[1:]):
        image.put(before, 124, behind)
        image.settle(before)


def go_down(image: Image, directories: Places) -> None:
    """Draws directories by hash chains, each in the one before."""
    for at, block in enumerate(directories):
        put_entry(image, block, DIRECTORY, b"d%d" % block if at == 0 else b"d", slot=0 if at + 1 == len(directories) else directories[at + 1])


def put_extension(image: Image, block: int, file: int, pointers: Sequence[int], extension: int) -> None:
    """Draws an extension block of a file over a block, with these data blocks and the next extension block."""
    image.data[block * BLOCK : (block + 1) * BLOCK] = bytes(BLOCK)
    for at, value in ((0, 16), (1, block), (2, len(pointers)), (125, file), (126, extension), (127, FILE)):
        image.put(block, at, value)
    image.put_all(block, 78 - len(pointers), pointers[::-1])
    image.settle(block)


def share_entries(image: Image, directories: Places, shared: Places, slots: int = 1, own: Places = (), alike: int = 1) -> None:
    """Directories in the root whose chains all lead into one chain of files. So many files in a row have one name. Each directory
    may have a file of its own before the chain, with the name of one in it."""
    def name(at: int) -> bytes:
        return b"f%d" % (at // alike)

    for at, block in enumerate(directories):
        put_entry(image, block, DIRECTORY, b"d%d" % block, image.root)
        image.put_all(block, 6, [own[at] if at < len(own) else shared[0]] * slots)
    for at, block in enumerate(own):
        put_entry(image, block, FILE, name(at % len(shared)), directories[at])
        image.put(block, 124, shared[at % len(shared)])
        image.settle(block)
    for at, block in enumerate(shared):
        put_entry(image, block, FILE, name(at), directories[0])
    join(image, directories)
    join(image, shared)
    image.settle(directories[-1])
    hang(image, image.root, directories[0])


def share_extensions(image: Image, files: Places, chain: Places, back: int, spread: bool) -> None:
    """Files in the root whose extension blocks all lie on one chain. Its last block leads back to the one with this number, or
    ends the chain if there is none. The files enter it at its first block, or at different ones."""
    for at, block in enumerate(files):
        put_entry(image, block, FILE, b"f%d" % block, image.root)
        put_pointers(image, block, 30_000 + at, chain[: at % 3], chain[at % len(chain) if spread else 0])
    for at, block in enumerate(chain):
        following = chain[at + 1] if at + 1 < len(chain) else chain[back] if back >= 0 else 0
        put_extension(image, block, files[0], chain[at : at + at % 4], following)
    join(image, files)
    image.settle(files[-1])
    hang(image, image.root, files[0])


def parts_of(places: Places, size: int) -> List[Places]:
    """Parts of the places with so many each; what is left over is in none."""
    return [places[at : at + size] for at in range(0, len(places) - size + 1, size)]


def chains_beside(image: Image, places: Places) -> Tuple[int, int, int]:
    """As many chains of directories as the root has slots, all equally deep."""
    for slot, chain in enumerate(parts_of(places, len(places) // SLOTS)[:SLOTS]):
        go_down(image, chain)
        hang(image, image.blocks // 2, chain[0], slot)
    return 3, 0, 0


def comb(image: Image, places: Places) -> Tuple[int, int, int]:
    """One chain of directories, and in the last one many chains that are longer than as many directories as are open at a time."""
    high = min(HIGH, len(places) // 2)
    go_down(image, places[:high])
    hang(image, image.blocks // 2, places[0])
    chains_of_last = parts_of(places[high:], 62)
    for chain in chains_of_last:
        go_down(image, chain)
    join(image, [it[0] for it in chains_of_last])
    hang(image, places[high - 1], chains_of_last[0][0])
    return 3, 0, 0


def comb_by_parents(image: Image, places: Places) -> Tuple[int, int, int]:
    """The same, held together by parents alone, and the last directories first."""
    trunk = places[-LOW:]
    go_up(image, trunk, 0)
    teeth = parts_of(places[:-LOW], 62)
    for chain in teeth:
        go_up(image, chain, trunk[0])
    count = LOW + 62 * len(teeth)
    return 3, count, 0


def go_up(image: Image, directories: Places, parent: int) -> None:
    """Draws directories by their parents, each in the one behind it, and the last one in this parent."""
    for block, above in zip(directories, [*directories[1:], parent]):
        put_entry(image, block, DIRECTORY, b"d%d" % block if above == parent else b"d", above)


def by_turns(image: Image, places: Places) -> Tuple[int, int, int]:
    """Two chains of directories, and files that no directory leads to, by turns with the last one of each chain as parent."""
    chains = (places[:LOW], places[LOW : 2 * LOW])
    for slot, chain in enumerate(chains):
        go_down(image, chain)
        hang(image, image.blocks // 2, chain[0], slot)
    files = places[2 * LOW :]
    for at, block in enumerate(files):
        put_entry(image, block, FILE, b"f%d" % block, chains[at % 2][-1])
    return 3, len(files), len(files)


def one_in_each(image: Image, places: Places) -> Tuple[int, int, int]:
    """Chains of directories, and in each directory a file that only its parent holds there. The first directory has the last file."""
    half = len(places) // 2
    found = parts_of(places[:half], min(LOW, half // SLOTS))[:SLOTS]
    for slot, chain in enumerate(found):
        go_down(image, chain)
        hang(image, image.blocks // 2, chain[0], slot)
    directories = [it for chain in found for it in chain]
    for block, parent in zip(reversed(places[half:]), directories):
        put_entry(image, block, FILE, b"f", parent)
    return 3, len(directories), len(directories)


def files_in_one_chain(image: Image, places: Places) -> Tuple[int, int, int]:
    """All files in one hash chain."""
    for block in places:
        put_entry(image, block, FILE, b"f%d" % block)
    join(image, places)
    hang(image, image.blocks // 2, places[0])
    return 3, len(places), len(places)


def lost_names(image: Image, places: Places) -> Tuple[int, int, int]:
    """Directories without parents that all name the same blocks, which are no headers."""
    directories, lost = places[SLOTS:], places[:SLOTS]
    for block in directories:
        put_entry(image, block, DIRECTORY, b"d%d" % block)
        image.put_all(block, 6, lost)
        image.settle(block)
    return 3, len(directories) + len(lost), 0


def sound_lists(image: Image, places: Places) -> Tuple[int, int, int]:
    """Sound files that all have one list of blocks."""
    files = places[SLOTS:]
    for block in files:
        put_header(image, block, SLOTS * BLOCK, places[:SLOTS])
    return 3, len(files), len(files)


def spoil(image: Image, places: Places) -> None:
    """Makes the checksums of headers wrong."""
    for block in places:
        image.put(block, 5, image.long(block, 5) + 1)


def doubtful_chains(image: Image, places: Places) -> Tuple[int, int, int]:
    """As many chains of directories with wrong checksums as the root has slots."""
    chains = parts_of(places, min(LOW, len(places) // SLOTS))[:SLOTS]
    for slot, chain in enumerate(chains):
        parents = [image.blocks // 2, *chain]
        for at, block in enumerate(chain):
            put_entry(image, block, DIRECTORY, b"d%d" % block if at == 0 else b"d", parents[at], slot=0 if at + 1 == len(chain) else chain[at + 1])
        hang(image, image.blocks // 2, chain[0], slot)
        spoil(image, chain)
    return 3, sum(map(len, chains)), 0


def doubtful_tables(image: Image, places: Places) -> Tuple[int, int, int]:
    """Directories with wrong checksums, in a hash chain, that all name each of the first ones in their slots."""
    for block in places:
        put_entry(image, block, DIRECTORY, b"d%d" % block, image.blocks // 2)
        image.put_all(block, 6, places[:SLOTS])
    join(image, places)
    hang(image, image.blocks // 2, places[0])
    spoil(image, places)
    return 3, len(places), 0


def extensions_fit(image: Image, places: Places) -> Tuple[int, int, int]:
    """The extension block of each file is its own next one, and the file is as long as the image."""
    half = len(places) // 2
    extensions_round(image, places)
    for block in places[:half]:
        image.put(block, 81, image.blocks * BLOCK)
        image.settle(block)
    return 3, half, half


WORST = [
    Worst("chains side by side", chains_beside),
    Worst("chains in the last directory of a chain", comb),
    Worst("the same, by their parents", comb_by_parents),
    Worst("files that are in two deep directories by turns", by_turns),
    Worst("a file in each of many deep directories", one_in_each),
    Worst("all files in one chain", files_in_one_chain),
    Worst("directories that name the same lost entries", lost_names),
    Worst("sound files of one list", sound_lists),
    Worst("chains of doubtful directories", doubtful_chains),
    Worst("doubtful directories that all name the same ones", doubtful_tables),
    Worst("extension blocks that follow themselves, in files that fit", extensions_fit),
]
