#!/usr/bin/env python3
"""Prints what the commands for damaged disks take, as tables in Markdown.

    bench/damage.py [PROGRAM] [--blocks N..] [--runs N] [--group NAME..] [--letters LETTERS] [--images DIR] [--adflib] [--nice N]

Each image is made in each size and in both formats. A cell has the milliseconds of processor time of the fastest of three runs (or
of N), with the start of the program: in the Old File System, and in the Fast File System. If a group has several images, it is that
of the slowest, with its name. Then come two ratios, each the larger of the formats and images:

    growth      the time for each block of the largest image, to that of the next smaller one: 1 if the time grows as the blocks
    to `check`  the time in the largest image, to the `check` of the same image; over 4 it is bold

The groups:

    sound       full: files and directories on all blocks (bench/full_image.rs); filler: 1,100 files of a filler
    fault       header: a flipped bit in the header of a file of a full image; bitmap: used blocks marked free in a full image
    deleted     1,000 of 1,100 files deleted
    cut         20,000 files in the root of the largest image, and in the others as many for each block; in the middle of one hash
                chain the number of the next entry leads out of the volume
    hostile     images that are drawn to take long. Lower case letters are those of bench/harmful_images.py and of FURTHER here. In
                upper case it is the same image with a sound root: all its headers count as deleted

A cell says so if the command printed over 100 MB, or took over 60 seconds, or a peer over 3. The last table compares `check --all` with
`check` of the same refused image; for floppies a ratio over 2 is bold. Below it is what the host's kernel alone takes of some rows, by
bench/floor.c, and how many times the `check` of the row that is. `unadf` runs on the same images if it is installed, and `cat`
too. With `--adflib` ADFlib in process lists deleted entries (bench/adflib_peer.c over Debian's source, which is fetched). `--images`
keeps the hostile images in a directory, and takes those that it has. `--nice` sets the priority of the measured runs. It needs cc and
rustc. All files are in a file system in memory, if there is one.
"""
from __future__ import annotations

import argparse
import json
import os
import shutil
import signal
import subprocess
import sys
import tempfile
from functools import partial
from pathlib import Path
from typing import Callable, Dict, Iterator, List, NamedTuple, Optional, Sequence, Tuple

sys.dont_write_bytecode = True

from harmful_images import REFUSED, Drawn, Headers, drawings, headers, refused
from measuring import HERE, Run, compile_measured, measured
import harmful
from harness import BLOCK, FILE, MOMENT, OFS_ROOM, PAGE_BITS, POINTERS, Image, done, in_memory, program_of

SIZES = [1_760, 3_520, 25_400, 101_602]
LARGEST, FLOPPY = 101_602, 3_520
# The seconds after which a run is ended, and one of a peer.
LONGEST, LONGEST_PEER = 60, 3
# The bounds of the two ratios.
MOST, MOST_ALL = 4.0, 2.0
# The files of the images with deleted entries, and how many of them are deleted; the entries of the largest image with a cut chain.
FILES, DELETED, ENTRIES = 1_100, 1_000, 20_000
FILLER = b"\xf6"
# The letters of the hostile images that are measured, and of further images, by their names in tests/harmful.py.
CHOSEN = "dcnstgNL"
FURTHER = {
    "b": "chains side by side",
    "k": "chains in the last directory of a chain",
    "u": "the same, by their parents",
    "t": "files that are in two deep directories by turns",
    "i": "a file in each of many deep directories",
    "o": "all files in one chain",
    "m": "directories that name the same lost entries",
    "q": "sound files of one list",
    "a": "chains of doubtful directories",
    "g": "doubtful directories that all name the same ones",
    "x": "extension blocks that follow themselves, in files that fit",
}
Words = Callable[[Drawn], Sequence[str]]


def spread(it: Drawn) -> List[str]:
    """The numbers of 1,000 blocks all over the image."""
    blocks = len(it.data) // BLOCK
    return [str(block) for block in range(0, blocks, max(1, blocks // 1_000))][:1_000]


COMMANDS: Dict[str, Words] = {
    "check": lambda it: ["check", "image.adf"],
    "check --all": lambda it: ["check", "--all", "image.adf"],
    "check --all --json": lambda it: ["check", "--all", "--json", "image.adf"],
    "check --filler": lambda it: ["check", "--filler", "image.adf"],
    "extract --damaged": lambda it: ["extract", "--damaged", "--to", "out", "image.adf"],
    "where, 1 block": lambda it: ["where", "image.adf", str(len(it.data) // BLOCK - 1)],
    "where, 1,000 blocks": lambda it: ["where", "image.adf", *spread(it)],
    "where --path": lambda it: ["where", f"--path={it.file}", "image.adf"],
    "map": lambda it: ["map", "image.adf"],
    "map --json": lambda it: ["map", "--json", "image.adf"],
    "validate": lambda it: ["validate", *MOMENT, "--out", "made.adf", "image.adf"],
    "validate --force": lambda it: ["validate", "--force", *MOMENT, "--out", "made.adf", "image.adf"],
    "undelete --list": lambda it: ["undelete", "--list", "image.adf"],
    "undelete": lambda it: ["undelete", "--to", "out", "image.adf"],
    "undelete --force": lambda it: ["undelete", "--force", "--to", "out", "image.adf"],
}
# Those that run over hostile images. The other forms take the same ways there, or print a thousand paths of a megabyte each.
OVER_HOSTILE = [it for it in COMMANDS if "json" not in it and "1,000" not in it and "force" not in it]
PEERS: Dict[str, Sequence[str]] = {
    "cat": ["cat", "image.adf"],
    "unadf -lr": ["unadf", "-lr", "image.adf"],
    "unadf -d": ["unadf", "image.adf", "-d", "out"],
    "ADFlib: deleted entries": ["./peer", "deleted", "image.adf"],
}


# ---- images


class Disk(NamedTuple):
    """What images are made for: a program that makes them, a format, a size, a directory that keeps the hostile ones, and the letters
    of these."""

    program: str
    ofs: bool
    blocks: int
    images: Optional[Path]
    letters: str

    def blank(self) -> bytes:
        done([self.program, "blank", *([] if self.ofs else ["--ffs"]), "--blocks", str(self.blocks), *MOMENT, "Work", "blank.adf"])
        return Path("blank.adf").read_bytes()

    def full(self, entries: Optional[int] = None) -> Image:
        """An image that is full, or has so many empty files in the root."""
        words = ["ofs" if self.ofs else "ffs", str(self.blocks), "full.adf", *([] if entries is None else [str(entries)])]
        done(["./full_image", *words])
        return Image(Path("full.adf").read_bytes())


def of_full(image: Image) -> Drawn:
    return Drawn(bytes(image.data), "Directory 1", "File 0", "Directory 1")


def files_of_filler(disk: Disk) -> Drawn:
    """Files in one directory, all of one size, that hold nothing but a filler. On small disks they are empty."""
    Path("made.adf").write_bytes(disk.blank())
    count = max((disk.blocks - 100) // FILES - 1, 0)
    count -= count // POINTERS
    Path("one").write_bytes(FILLER * (count * (OFS_ROOM if disk.ofs else BLOCK)))
    os.mkdir("files")
    for number in range(FILES):
        os.link("one", f"files/{number}")
    done([disk.program, "add", *MOMENT, "made.adf", "files"])
    shutil.rmtree("files")
    return Drawn(Path("made.adf").read_bytes(), "files", f"files/{FILES - 1}", "files")


def with_deleted(disk: Disk) -> Drawn:
    made = files_of_filler(disk)
    done([disk.program, "delete", *MOMENT, "made.adf", *(f"files/{it}" for it in range(DELETED))])
    return made._replace(data=Path("made.adf").read_bytes())


def flipped_header(disk: Disk) -> Drawn:
    """A bit of the number of a data block in the header of a file is flipped."""
    image = disk.full()
    file = next(it for it in image.keys(image.root) if image.long(it, 127) == FILE)
    image.put(file, 77, image.long(file, 77) ^ 1 << 9)
    return of_full(image)


def wrong_bitmap(disk: Disk) -> Drawn:
    """The first long of each bitmap block marks its blocks free."""
    image = disk.full()
    for at in range(-(-(disk.blocks - 2) // PAGE_BITS)):
        page = image.long(image.root, 79 + at)
        image.put(page, 1, -1)
        image.settle(page, 0)
    return of_full(image)


def cut_chain(disk: Disk) -> Drawn:
    """A directory with many entries, of which the first hash chain is cut in the middle."""
    image = disk.full(ENTRIES * disk.blocks // LARGEST)
    chain = [image.long(image.root, 6)]
    while image.long(chain[-1], 124):
        chain.append(image.long(chain[-1], 124))
    middle = chain[len(chain) // 2]
    image.put(middle, 124, disk.blocks)
    image.settle(middle)
    return Drawn(bytes(image.data), "File 0", "File 0", "File 0")


def deleted_headers(blank: bytes, draw: Headers) -> Drawn:
    """An image of headers, with a sound root and a bitmap that marks all of them free."""
    return Drawn(headers(blank, draw), "d", "d", "d")


def hostile(blank: bytes) -> Dict[str, Callable[[], Drawn]]:
    """How each hostile image is drawn over a blank one."""
    further: Dict[str, Headers] = {letter: it.draw for letter, name in FURTHER.items() for it in harmful.WORST if it.name == name}
    return {
        **drawings(blank),
        **{letter: partial(refused, blank, draw) for letter, draw in further.items()},
        **{letter.upper(): partial(deleted_headers, blank, draw) for letter, draw in {**REFUSED, **further}.items()},
    }


def kept(disk: Disk, letter: str, draw: Callable[[], Drawn]) -> Drawn:
    """A hostile image. It consists of headers, which are the same in both formats: so it is drawn once, in the Fast File System."""
    file = Path("hostile") if disk.images is None else disk.images
    file = file / f"{letter}-{disk.blocks}.adf"
    paths = file.with_suffix(".json")
    if not paths.exists():
        made = draw()
        file.write_bytes(made.data)
        paths.write_text(json.dumps(made[1:]))
    data = bytearray(file.read_bytes())
    data[3] = 0 if disk.ofs else 1
    return Drawn(bytes(data), *json.loads(paths.read_text()))


def hostile_images(disk: Disk) -> Iterator[Tuple[str, Callable[[], Drawn]]]:
    found = hostile(disk._replace(ofs=False).blank())
    return ((letter, partial(kept, disk, letter, draw)) for letter, draw in found.items() if letter in disk.letters)


Images = Callable[[Disk], Iterator[Tuple[str, Callable[[], Drawn]]]]
GROUPS: Dict[str, Tuple[str, Images]] = {
    "sound": ("Sound images", lambda it: iter([("full", lambda: of_full(it.full())), ("filler", lambda: files_of_filler(it))])),
    "fault": ("One fault", lambda it: iter([("header", lambda: flipped_header(it)), ("bitmap", lambda: wrong_bitmap(it))])),
    "deleted": ("1,000 deleted files", lambda it: iter([("", lambda: with_deleted(it))])),
    "cut": ("A directory with a cut hash chain", lambda it: iter([("", lambda: cut_chain(it))])),
    "hostile": ("Hostile images", hostile_images),
}
# What bench/floor.c does of a row: the row's group, its image, and its command.
FLOORS = {"write": ("sound", "full", "validate"), "extract": ("sound", "full", "extract --damaged"), "undelete": ("deleted", "", "undelete")}


# ---- runs

# A row in an image: the group, the name of the image, the command, whether the format is OFS, and the blocks.
Key = Tuple[str, str, str, bool, int]


class Took(NamedTuple):
    """The milliseconds of the fastest run, or why there are none; and its status."""

    milliseconds: float
    why: str = ""
    status: int = 0


def least(command: Sequence[str], runs: int, longest: int, nice: Optional[int]) -> Took:
    """Measures a command several times."""
    found: List[Run] = []
    for _ in range(runs):
        if command[0] == "unadf":
            os.makedirs("out", exist_ok=True)
        run = measured(command, longest, nice)
        if run is None:
            return Took(float("inf"), "over 100 MB")
        if run.status < 0:
            is_late = -run.status in (signal.SIGXCPU, signal.SIGKILL)
            return Took(float("inf"), f"over {longest} s" if is_late else f"signal {-run.status}")
        found.append(run)
    return Took(1_000 * min(it.seconds for it in found), "", found[0].status)


def commands_of(group: str) -> List[str]:
    return OVER_HOSTILE if group == "hostile" else [*COMMANDS]


class Measuring:
    """Measures the commands over images, and keeps what they took."""

    def __init__(self, program: str, runs: int, nice: Optional[int], peers: Sequence[str]) -> None:
        self.program, self.runs, self.nice, self.peers = program, runs, nice, peers
        self.took: Dict[Key, Took] = {}

    def image(self, group: str, name: str, disk: Disk, drawn: Drawn) -> None:
        Path("image.adf").write_bytes(drawn.data)
        for command in commands_of(group):
            took = least([self.program, *COMMANDS[command](drawn)], self.runs, LONGEST, self.nice)
            self.keep((group, name, command, disk.ofs, disk.blocks), took)
        for command in self.peers:
            took = least(PEERS[command], self.runs, LONGEST_PEER, self.nice)
            self.keep((group, name, command, disk.ofs, disk.blocks), took)

    def full(self, ofs: bool, blocks: int) -> None:
        Path("image.adf").write_bytes(Disk(self.program, ofs, blocks, None, "").full().data)

    def base_again(self, blocks: int) -> List[float]:
        """The check of a full image of each format once more: what the machine changed meanwhile."""
        found = []
        for ofs in (True, False):
            self.full(ofs, blocks)
            found.append(least([self.program, "check", "image.adf"], self.runs, LONGEST, self.nice).milliseconds)
        return found

    def floor(self, kind: str, blocks: int) -> str:
        """What the kernel alone takes of a row, in the largest image."""
        group, name, command = FLOORS[kind]
        self.full(True, blocks)
        took = least(["./floor", kind, "image.adf"], self.runs, LONGEST, self.nice).milliseconds
        checks = [self.took.get((group, name, "check", ofs, blocks), Took(float("nan"))).milliseconds for ofs in (True, False)]
        return f"`{command}` {number(took)} ({', '.join(f'{took / it:.2f}' for it in checks)})"

    def keep(self, key: Key, took: Took) -> None:
        self.took[key] = took
        print(*key, *took, file=sys.stderr, flush=True)


# ---- tables


def number(milliseconds: float) -> str:
    return f"{milliseconds:.1f}" if milliseconds < 100 else f"{milliseconds:,.0f}"


class Tables:
    """The tables of what was measured."""

    def __init__(self, took: Dict[Key, Took], sizes: Sequence[int]) -> None:
        self.took, self.sizes = took, sorted(sizes)
        self.names: Dict[str, List[str]] = {}
        for group, name, _, _, _ in took:
            names = self.names.setdefault(group, [])
            names += [name] if name not in names else []
        self.over: List[str] = []

    def named(self, group: str, text: str, name: str) -> str:
        return f"{text} {name}" if len(self.names[group]) > 1 else text

    def cell(self, group: str, command: str, blocks: int) -> str:
        """The slowest image in each format."""
        texts = []
        for ofs in (True, False):
            name = max(self.names[group], key=lambda it: self.took[group, it, command, ofs, blocks].milliseconds)
            took = self.took[group, name, command, ofs, blocks]
            texts.append(self.named(group, took.why or number(took.milliseconds), name))
        return ", ".join(texts)

    def ratio(self, group: str, command: str, of: Callable[[str, bool], float], most: Optional[float]) -> str:
        """The largest ratio of the images and formats."""
        found = [(of(name, ofs), name) for name in self.names[group] for ofs in (True, False)]
        measured_ones = [it for it in found if it[0] < float("inf")]
        if not measured_ones:
            return "-"
        ratio, name = max(measured_ones)
        if most is None or not ratio > most:
            return self.named(group, f"{ratio:.2f}", name)
        self.over.append(f"`{command}` of {group}{f' {name}' if name else ''}: {ratio:.2f}")
        return self.named(group, f"**{ratio:.2f}**", name)

    def growth(self, group: str, command: str) -> str:
        """The time for a block of the largest size, to that of the size before it."""
        small, large = self.sizes[-2:]

        def of(name: str, ofs: bool) -> float:
            times = [self.took[group, name, command, ofs, it].milliseconds / it for it in (small, large)]
            return times[1] / times[0]

        return self.ratio(group, command, of, None)

    def to_check(self, group: str, command: str) -> str:
        def of(name: str, ofs: bool) -> float:
            times = [self.took[group, name, it, ofs, self.sizes[-1]].milliseconds for it in (command, "check")]
            return times[0] / times[1]

        return self.ratio(group, command, of, None if command in PEERS else MOST)

    def group(self, group: str, title: str, commands: Sequence[str]) -> None:
        print(f"\n{title}:\n")
        print(f"| Milliseconds, OFS, FFS | {' | '.join(f'{it:,} blocks' for it in self.sizes)} | Growth | To `check` |")
        print(f"|---|{'---:|' * (len(self.sizes) + 2)}")
        for command in commands:
            cells = [self.cell(group, command, it) for it in self.sizes]
            grows = self.growth(group, command) if len(self.sizes) > 1 else "-"
            print(f"| `{command}` | {' | '.join(cells)} | {grows} | {self.to_check(group, command)} |")

    def of_all(self) -> None:
        """What `check --all` takes of each refused image, to the check of it."""
        print("\nTo `check` of the same refused image, `check --all`:\n")
        print(f"| | {' | '.join(f'{it:,} blocks' for it in self.sizes)} |\n|---|{'---:|' * len(self.sizes)}")
        for form in ("check --all", "check --all --json"):
            cells = []
            for blocks in self.sizes:
                found: List[Tuple[float, str]] = []
                for (group, name, command, ofs, size), took in self.took.items():
                    if (command, size) == (form, blocks) and self.took[group, name, "check", ofs, size].status == 3:
                        ratio = took.milliseconds / self.took[group, name, "check", ofs, size].milliseconds
                        found.append((ratio, f"{name or group} {'OFS' if ofs else 'FFS'}"))
                ratio, name = max(found, default=(float("nan"), ""))
                is_over = ratio > MOST_ALL and blocks <= FLOPPY
                cells.append(f"{f'**{ratio:.2f}**' if is_over else f'{ratio:.2f}'} {name}")
            print(f"| `{form}` | {' | '.join(cells)} |")


# ---- all of it


def build_peer(room: str) -> None:
    """Builds bench/adflib_peer.c over ADFlib, as the scripts do."""
    done(["bash", "-c", f"set -e; here={HERE}; room={room}; . {HERE}/adflib.sh"])


def prepare(room: str, peers: Sequence[str]) -> None:
    """Builds what the benchmark runs besides the program."""
    compile_measured(room)
    done(["rustc", "--edition", "2021", "-O", "-o", f"{room}/full_image", str(HERE / "full_image.rs")])
    done([os.environ.get("CC") or "cc", "-O2", "-o", f"{room}/floor", str(HERE / "floor.c")])
    if "ADFlib: deleted entries" in peers:
        build_peer(room)
    os.chdir(room)
    os.mkdir("hostile")


def parsed(words: List[str]) -> argparse.Namespace:
    parser = argparse.ArgumentParser(description="Measures the commands for damaged disks.")
    parser.add_argument("program", nargs="*", help="the program to measure")
    parser.add_argument("--blocks", type=int, nargs="+", default=SIZES, help="the sizes of the images")
    parser.add_argument("--runs", type=int, default=3, help="how many times each command runs (default: 3)")
    parser.add_argument("--group", nargs="+", choices=[*GROUPS], default=[*GROUPS], help="the groups of images")
    parser.add_argument("--letters", default=CHOSEN, help=f"the hostile images (default: {CHOSEN})")
    parser.add_argument("--images", type=Path, help="a directory for drawn images")
    parser.add_argument("--adflib", action="store_true", help="measures ADFlib too")
    parser.add_argument("--nice", type=int, help="the priority of the measured runs")
    return parser.parse_args(words)


def measure(measuring: Measuring, given: argparse.Namespace) -> None:
    for group in given.group:
        for blocks in given.blocks:
            for ofs in (True, False):
                disk = Disk(measuring.program, ofs, blocks, given.images, given.letters)
                for name, draw in GROUPS[group][1](disk):
                    measuring.image(group, name, disk, draw())


def main(words: List[str]) -> int:
    given = parsed(words)
    program = str(program_of(given.program))
    if given.images is not None:
        given.images = given.images.absolute()
        given.images.mkdir(parents=True, exist_ok=True)
    # (as `adf_serve` at the top starts the program)
    os.environ.setdefault("GLIBC_TUNABLES", "glibc.malloc.hugetlb=1")
    peers = [it for it in PEERS if (it != "ADFlib: deleted entries" or given.adflib) and (PEERS[it][0] != "unadf" or shutil.which("unadf"))]
    room = tempfile.mkdtemp(dir=in_memory())
    try:
        prepare(room, peers)
        measuring = Measuring(program, given.runs, given.nice, peers)
        measure(measuring, given)
        tables = Tables(measuring.took, given.blocks)
        for group in given.group:
            tables.group(group, GROUPS[group][0], [*commands_of(group), *peers])
        tables.of_all()
        print(f"\nOver {MOST:.0f}: {'; '.join(tables.over) or 'none'}.")
        floors = [measuring.floor(kind, max(given.blocks)) for kind in FLOORS]
        print(f"\nThe kernel alone, of {max(given.blocks):,} blocks, with OFS, FFS to `check`: {'; '.join(floors)}.")
        again = measuring.base_again(max(given.blocks))
        print(f"\n`check` of the full images of {max(given.blocks):,} blocks once more, at the end: {', '.join(map(number, again))}.")
    finally:
        shutil.rmtree(room, ignore_errors=True)
    return 0


if __name__ == "__main__":
    sys.exit(main(sys.argv[1:]))
