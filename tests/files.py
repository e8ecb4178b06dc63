#!/usr/bin/env python3
"""Tests how the built program copies real files of the host into images and out of them.

    tests/files.py [PROGRAM]
"""
from __future__ import annotations

import datetime
import fcntl
import os
import random
import re
import resource
import shutil
import stat
import subprocess
import sys
from typing import Callable, Dict, List, NamedTuple, Optional, Sequence, Set, Tuple

sys.dont_write_bytecode = True

from disk_model import NO_SUMS
from harness import TOP, Report, Room, escaped, fault_of, host_name, limited, program_of, upper

# 1 January 1978, midnight, in seconds of the host's clock.
FIRST_DAY = 252_460_800
DAY = 86_400 * 50
TICK = 20_000_000
HELD = {"ofs": 488, "ffs": 512}
# Memory that is enough for any image.
HALF_A_GIBIBYTE = 1 << 29
EXISTS = "object already exists"
# The names on the way to a file or a directory.
Place = Tuple[bytes, ...]


class Note(NamedTuple):
    """The contents of a note: protection bits, a date in ticks, and a comment."""

    bits: int
    ticks: int
    comment: bytes

    def line(self) -> bytes:
        return f"{letters(self.bits)} {civil(self.ticks)} {noted_comment(self.comment)}\n".encode()


class Entry(NamedTuple):
    """A file, or a directory if `data` is None, with its metadata."""

    data: Optional[bytes]
    ticks: int
    note: Optional[Note]

    def told(self) -> Note:
        return self.note or Note(0, self.ticks, b"")


Tree = Dict[Place, Entry]


def refuses(
    room: Room, name: str, words: Sequence[str], line: Optional[bytes], *parts: str, status: int = 3, image: str = "image.adf"
) -> None:
    """A refused command prints its line and changes no byte of the image. It leaves no file beside it."""
    before, beside = room.content(image), sorted(os.listdir("."))
    fault = fault_of(room.run(*words), status, line, *parts)
    if not fault and room.content(image) != before:
        fault = "the image's file has changed"
    if not fault and sorted(os.listdir(".")) != beside:
        fault = f"the directory has other files: {sorted(os.listdir('.'))}"
    room.report.hold(name, fault)


def blank(room: Room, kind: str = "ffs", size: Sequence[str] = (), file: str = "image.adf") -> None:
    room.done("blank", *(["--ffs"] if kind == "ffs" else []), *size, "Work", file)


# ---- names, dates and notes, as emulators keep them


def noted_comment(comment: bytes) -> str:
    return escaped(comment, b"%")


def letters(bits: int) -> str:
    shown = "".join(it if bits & bit else "-" for it, bit in zip("hspa", (128, 64, 32, 16)))
    return shown + "".join("-" if bits & bit else it for it, bit in zip("rwed", (8, 4, 2, 1)))


def civil(ticks: int) -> str:
    """The text of a date, this many ticks after the start of the first day."""
    day = datetime.datetime(1978, 1, 1) + datetime.timedelta(seconds=ticks // 50)
    return f"{day:%Y-%m-%d %H:%M:%S}.{ticks % 50 * 2:02}"


def nanoseconds(ticks: int) -> int:
    return FIRST_DAY * 1_000_000_000 + ticks * TICK


# ---- whole trees


class Drawn:
    """A tree of 500 files in 40 directories five deep: names with all possible bytes, empty files, and files with sizes
    at the limits of data and extension blocks."""

    def __init__(self, kind: str, seed: str) -> None:
        self.random = random.Random(seed)
        self.held = held = HELD[kind]
        self.plain = [it for it in range(256) if it not in b"/:"]
        self.names = [bytes(self.plain[at : at + 30]) for at in range(0, len(self.plain), 30)]
        self.names += [b".", b"..", b"%", b"%41", b'"', b"a\\b", b" ", b"~", b"-", b"x" * 30, b"com1.txt", b".hidden"]
        self.sizes = [0, 0, 1, held - 1, held, held + 1, 2 * held, 2 * held + 1, 71 * held, 72 * held - 1, 72 * held, 72 * held + 1]
        self.taken: Dict[Place, Set[bytes]] = {}
        self.tree: Tree = {}
        fronts = self.draw_directories()
        for count in range(500):
            self.draw_file(fronts[count % len(fronts)])
        assert max(map(len, self.tree)) >= 5 and sum(it.data is None for it in self.tree.values()) == 40

    def name(self, front: Place) -> bytes:
        """A name that is free in this directory."""
        taken = self.taken.setdefault(front, set())
        while True:
            drawn = self.names.pop() if self.names else bytes(self.random.choice(self.plain) for _ in range(self.random.randint(1, 30)))
            if upper(drawn) not in taken and not drawn.lower().endswith(b".uaem"):
                taken.add(upper(drawn))
                return drawn

    def date(self) -> int:
        return self.random.randrange(16_000 * DAY)

    def note(self) -> Optional[Note]:
        size = self.random.choice([0, 0, 1, 10, 79])
        comment = bytes(self.random.randrange(256) for _ in range(size))
        return Note(self.random.randrange(256), self.date(), comment) if self.random.random() < 0.6 else None

    def draw_directories(self) -> List[Place]:
        """The root and 40 directories, the first ones each inside the one before."""
        fronts: List[Place] = [()]
        while len(fronts) < 41:
            higher = [it for it in fronts if len(it) < 5]
            deepest = [it for it in higher if len(it) == max(map(len, higher))]
            front = self.random.choice(deepest if len(fronts) < 6 else higher)
            fronts.append((*front, self.name(front)))
            self.tree[fronts[-1]] = Entry(None, self.date(), self.note())
        return fronts

    def draw_file(self, front: Place) -> None:
        drawn = [] if self.sizes else [0, self.random.randrange(self.held), self.random.randrange(self.held)]
        size = self.sizes.pop() if self.sizes else self.random.choice(drawn)
        entry = Entry(self.random.randbytes(size), self.date(), self.note())
        self.tree[(*front, self.name(front))] = entry


def host_path(top: str, place: Place) -> str:
    return os.path.join(top, *map(host_name, place))


def put_tree(room: Room, top: str, tree: Tree) -> None:
    """Makes the host files of a tree, each with its note if it has one."""
    os.mkdir(top)
    for place, entry in tree.items():
        at = host_path(top, place)
        if entry.data is None:
            os.mkdir(at)
        else:
            room.write(at, entry.data)
            os.utime(at, ns=(0, nanoseconds(entry.ticks)))
        if entry.note:
            room.write(at + ".uaem", entry.note.line())
    for place, entry in sorted(tree.items(), reverse=True, key=lambda it: it[0]):
        if entry.data is None:
            os.utime(host_path(top, place), ns=(0, nanoseconds(entry.ticks)))


def differs(room: Room, top: str, tree: Tree, noted: bool) -> Optional[str]:
    """How the host files differ from the tree: a path, its bytes, its time or its note; None if they do not."""
    wanted: Dict[str, Tuple[Optional[bytes], Optional[int]]] = {}
    for place, entry in tree.items():
        at = host_path("", place)
        wanted[at] = (entry.data, nanoseconds(entry.told().ticks))
        if noted:
            wanted[at + ".uaem"] = (entry.told().line(), None)
    found = set()
    for folder, directories, files in os.walk(top):
        for name in [*directories, *files]:
            whole = os.path.join(folder, name)
            path = os.path.relpath(whole, top)
            found.add(path)
            if path not in wanted:
                return f"{path!r} is there"
            data, time = wanted[path]
            if (data is None) != (name in directories):
                return f"{path!r} is of another kind"
            if data is not None and room.content(whole) != data:
                return f"{path!r} has {room.content(whole)[:60]!r} where {data[:60]!r} is expected"
            if time is not None and os.stat(whole).st_mtime_ns != time:
                return f"{path!r} has the time {os.stat(whole).st_mtime_ns} where {time} is expected"
    lacking = sorted(set(wanted) - found)
    return f"{lacking[0]!r} is not there" if lacking else None


def entries_of(top: str) -> List[str]:
    return [os.path.join(top, it) for it in sorted(os.listdir(top)) if not it.endswith(".uaem")]


def whole_tree(room: Room, kind: str, size: str) -> None:
    label, tree = f"a tree, {kind} {size}", Drawn(kind, f"{kind} {size}").tree
    flags = ["--hd"] if size == "hd" else []
    put_tree(room, "in", tree)
    blank(room, kind, flags)
    room.succeeds(f"{label}: goes in", "add", "image.adf", *entries_of("in"))
    room.succeeds(f"{label}: is accepted", "check", "image.adf", output=b"ok\n")
    room.succeeds(f"{label}: comes out", "extract", "--to", "out", "image.adf")
    room.report.hold(f"{label}: bytes and times", differs(room, "out", tree, False))
    room.succeeds(f"{label}: comes out with notes", "extract", "--meta", "--to", "noted", "image.adf")
    room.report.hold(f"{label}: bytes, times and notes", differs(room, "noted", tree, True))
    blank(room, kind, flags, "again.adf")
    room.succeeds(f"{label}: goes in again", "add", "again.adf", *entries_of("noted"))
    room.succeeds(f"{label}: comes out again", "extract", "--meta", "--to", "third", "again.adf")
    room.report.hold(f"{label}: all the same", differs(room, "third", tree, True))


def whole_trees(outer: Room) -> None:
    for kind in ("ofs", "ffs"):
        for size in ("dd", "hd"):
            with Room(outer.program, outer.report) as room:
                whole_tree(room, kind, size)


# ---- paths and fields


def long_path(room: Room) -> None:
    """A path longer than the 255 bytes of a packet's text."""
    front = ""
    for depth in range(11):
        front += ("/" if front else "") + chr(ord("a") + depth) * 30
        ran = room.run("mkdir", "image.adf", front)
    room.report.check("a path of 340 bytes: made", ran)
    room.write("file", b"deep")
    room.succeeds("a path of 340 bytes: added to", "add", "--to", front, "image.adf", "file")
    room.succeeds("a path of 340 bytes: printed", "print", "image.adf", f"{front}/FILE", output=b"deep")
    room.succeeds("a path of 340 bytes: taken out", "extract", "--to", "deep", "image.adf", f"{front}/file")
    room.report.expect("a path of 340 bytes: under its own name", room.content("deep/file") == b"deep", "other bytes")
    room.succeeds("a path of 340 bytes: deleted", "delete", "image.adf", f"{front}/file")


def paths(room: Room) -> None:
    """Long paths, and names with marks of their own."""
    blank(room)
    long_path(room)
    for name in ('say "hi"', "100%", ".", "..", "%41", "caf\u00e9", "a.b.c"):
        ran = room.run("mkdir", "image.adf", name)
        listed = room.run("list", "--letters", "image.adf", name)
        room.report.hold(f"a name {name!r}: made and listed", fault_of(ran) or fault_of(listed, 0, None))
    refuses(room, "a letter past U+00FF in a word", ["mkdir", "image.adf", "\u0142"], b"", "\u0142", status=1)
    room.write("\u0142ysy", b"x")
    refused = "refused 210 \u0142ysy\n".encode()
    refuses(room, "a letter past U+00FF in a host file", ["add", "image.adf", "\u0142ysy"], refused, "'\u0142ysy' has a '\u0142', which is not in ISO 8859-1")
    ran = room.run("print", "image.adf", "nowhere//x")
    room.report.check("up from a directory", ran, 3, b"refused 204 nowhere//x\n", "directory not found")
    room.succeeds("behind the colon", "list", "image.adf", "Any:" + "a" * 30, output=None)
    room.report.check("above the root", room.run("print", "image.adf", "/x"), 3, b"refused 205 /x\n", "object not found")


def listed_fields(room: Room) -> None:
    """Protection, comments, names and dates, as `list` prints them."""
    moment = ["--days", "1", "--minutes", "61", "--ticks", "101"]
    room.succeeds("mkdir of two", "mkdir", *moment, "image.adf", "S", "S/Inner")
    room.write("startup", b"echo\n")
    os.utime("startup", ns=(0, nanoseconds(DAY * 2 + 7)))
    room.succeeds("add to a directory", "add", "--to", "s", *moment, "image.adf", "startup")
    room.succeeds("protect", "protect", "image.adf", "S/startup", "-s--rwed")
    room.succeeds("protect by some letters", "protect", "image.adf", "S/Inner", "rwed")
    room.succeeds("comment", "comment", "image.adf", "S/startup", "caf\u00e9")
    room.succeeds("rename", "rename", "image.adf", "S/Inner", "Outer")
    room.succeeds("relabel", "relabel", "image.adf", "Caf\u00e9")
    room.succeeds("list --letters", "list", "--letters", "image.adf", output=None)
    listed = room.run("list", "image.adf").output
    volume, file = b"Volume Caf\xe9\n", b"       5 s--rwed 1978-01-03 00:00:00.14 S/startup\n"
    room.report.expect("list: the volume's bytes", listed.startswith(volume), listed[:40])
    room.report.expect("list: bits and date", file in listed, listed)
    room.report.expect("list: moved", b" Outer\n" in listed, listed)
    room.succeeds("list of a directory", "list", "image.adf", "S", output=volume + file)
    room.succeeds("extract with notes", "extract", "--meta", "--to", "out", "image.adf", "S/startup")
    note = room.content("out/startup.uaem")
    wanted = "-s--rwed 1978-01-03 00:00:00.14 caf\u00e9\n".encode()
    room.report.same("a note's bits, date and comment", note, wanted)


def names_of_notes(room: Room) -> None:
    """Beside notes an entry with the name of a note has an escape in its host name, and so comes back."""
    room.write("a", b"bytes of a")
    room.write("twice", b"bytes of a.uaem")
    room.succeeds("add of a file", "add", "image.adf", "a")
    room.succeeds("add of a file with the name of its note", "add", "--as", "a.uaem", "image.adf", "twice")
    room.succeeds("mkdir of a name that is only an ending", "mkdir", "image.adf", ".uaem")
    room.succeeds("add of a note of nothing", "add", "--as", "b.uaem", "--to", ".uaem", "image.adf", "a")
    listed = room.run("list", "image.adf").output
    room.succeeds("extract with notes of such names", "extract", "--meta", "--to", "noted", "image.adf")
    found = sorted(os.path.relpath(f"{top}/{it}", "noted") for top, dirs, files in os.walk("noted") for it in [*dirs, *files])
    wanted = ["%2Euaem", "%2Euaem.uaem", "%2Euaem/b%2Euaem", "%2Euaem/b%2Euaem.uaem", "a", "a%2Euaem", "a%2Euaem.uaem", "a.uaem"]
    room.report.same("names beside notes", found, wanted)
    room.report.same("the bytes of such a file", room.content("noted/a%2Euaem"), b"bytes of a.uaem")
    room.succeeds("a volume for them", "blank", "again", "again.adf")
    room.succeeds("add of such names", "add", "again.adf", "noted/a", "noted/a%2Euaem", "noted/%2Euaem")
    room.report.same("such names come back", room.run("list", "again.adf").output.replace(b"Volume again", listed.splitlines()[0]), listed)
    room.succeeds("extract without notes", "extract", "--to", "plain", "image.adf")
    room.report.same("names without notes", sorted(os.listdir("plain")), [".uaem", "a", "a.uaem"])
    ran = room.run("extract", "--damaged", "--meta", "--to", "saved", "image.adf")
    room.report.same("extract --damaged with notes of such names", (ran.status, ran.texts), (0, NO_SUMS))
    room.report.same("names beside notes of a rescue", sorted(os.listdir("saved")), ["%2Euaem", "%2Euaem.uaem", "a", "a%2Euaem", "a%2Euaem.uaem", "a.uaem"])
    for it in ("noted", "plain", "saved"):
        shutil.rmtree(it)
    for it in ("a", "twice", "again.adf"):
        os.remove(it)


def boot_blocks(room: Room) -> None:
    room.succeeds("boot", "boot", "image.adf")
    room.succeeds("no boot block", "info", "image.adf", output=b"-1 0 82 1758 6 488 444f5300\nboot no\n")
    room.write("code", b"DOS\x01....\x00\x00\x03\x70" + b"\x4e\x75" * 100)
    before, code = room.content("image.adf"), room.content("code")
    room.succeeds("boot with code", "boot", "image.adf", "code")
    after = room.content("image.adf")
    has_code = after[:4] == b"DOS\0" and after[8:212] == code[8:] and not any(after[212:1024])
    room.report.expect("boot: what stays", after[1024:] == before[1024:] and has_code, "other bytes")
    room.succeeds("boot: it boots", "info", "image.adf", output=b"-1 0 82 1758 6 488 444f5300\nboot yes\n")
    room.write("long", bytes(1025))
    ran = room.run("boot", "image.adf", "long")
    is_refused = ran.status in (2, 3) and ran.texts != b"" and room.content("image.adf") == after
    room.report.expect("boot: a file of 1,025 bytes", is_refused, ran)
    room.succeeds("boot again without code", "boot", "image.adf")
    room.report.expect("boot: zeros", room.content("image.adf")[:1024] == b"DOS\0" + bytes(1020), "other bytes")


def fields(room: Room) -> None:
    blank(room, "ffs")
    names_of_notes(room)
    blank(room, "ofs")
    listed_fields(room)
    boot_blocks(room)


# ---- refusals

# A volume has the directory `d` with `other`, and `file`, which is protected against deletion. The commands, the number
# and path after `refused`, and a part of the message.
REFUSED: List[Tuple[str, List[str], str, str]] = [
    ("203: a directory that is there", ["mkdir", "image.adf", "new", "D"], "203 D", f"'D': {EXISTS}"),
    ("203: a file that is there", ["add", "image.adf", "other", "file"], "203 file", EXISTS),
    ("204: no such directory", ["mkdir", "image.adf", "new", "x/y"], "204 x/y", "directory not found"),
    ("204: nowhere to put it", ["add", "--to", "nowhere/x", "image.adf", "other"], "204 nowhere/x", "not found"),
    ("205: not there", ["delete", "image.adf", "d/other", "none"], "205 none", "object not found"),
    ("210: no name", ["mkdir", "image.adf", "x" * 31], "210 " + "x" * 31, f"'{'x' * 31}' has 31 characters; AmigaDOS allows 30"),
    ("210: no volume's name", ["relabel", "image.adf", "a/b"], "210 a/b", "'a/b' has a '/'"),
    ("212: a directory is no file", ["print", "image.adf", "d"], "212 d", "'d' is a directory; print needs a file"),
    ("212: a file on the way", ["print", "image.adf", "file/x"], "212 file/x", "'file/x': object is not of required type"),
    ("222: protected, with everything below", ["delete", "--all", "image.adf", "file"], "222 file", "'file': object is protected from deletion"),
    ("212: the root stays", ["delete", "--all", "image.adf", ""], "212 ", ""),
    ("216: not empty", ["delete", "image.adf", "d"], "216 d", ""),
    ("222: protected from deletion", ["delete", "image.adf", "file"], "222 file", ""),
    ("202: under itself", ["rename", "image.adf", "d", "d/e/f"], "202 d", "cannot move 'd' into itself"),
    ("203: a name that is taken", ["rename", "image.adf", "d", "FILE"], "203 FILE", EXISTS),
    ("220: a long comment", ["comment", "image.adf", "file", "x" * 80], "220 file", ""),
    ("deleted twice", ["delete", "image.adf", "d/other", "d/other"], "205 d/other", "object not found"),
    ("222: replaced by force, protected", ["add", "--force", "image.adf", "file"], "222 file", ""),
]


def refusals(room: Room) -> None:
    """Each refusal prints its number and its path, and changes nothing; of several arguments all are done, or none."""
    blank(room)
    room.write("file", b"12345")
    room.write("other", b"abc")
    for words in (["mkdir", "image.adf", "d", "d/e"], ["add", "image.adf", "file"], ["protect", "image.adf", "file", "rwe"]):
        room.succeeds(f"made: {' '.join(words)}", *words)
    room.succeeds("made: add --to d image.adf other", "add", "--to", "d", "image.adf", "other")
    for name, words, refused, told in REFUSED:
        refuses(room, name, words, f"refused {refused}\n".encode(), told)
    refuses(room, "letters that are none", ["protect", "image.adf", "file", "rwx"], b"", "rwx", status=1)
    room.succeeds("deleted by force", "delete", "--force", "image.adf", "file")
    room.succeeds("deleted with all", "delete", "--all", "image.adf", "d")
    room.succeeds("nothing is left", "list", "image.adf", output=b"Volume Work\n")
    room.succeeds("all blocks are free again", "info", "image.adf", output=b"-1 0 82 1758 2 512 444f5301\nboot no\n")
    os.mkdir("two")
    room.write("two/A", b"1")
    room.write("two/a", b"2")
    refuses(room, "203: two names that are one", ["add", "image.adf", "two"], b"refused 203 two/a\n", "'two/a' and 'two/A' are one name on an Amiga")
    os.mkdir("names")
    name = "names/" + "n" * 31
    room.write(name, b"1")
    refuses(room, "210: a host name of 31 letters", ["add", "image.adf", "names"], f"refused 210 {name}\n".encode(), f"'{'n' * 31}' has 31 characters; AmigaDOS allows 30")


# ---- replaced files, and obstacles


def replaced(room: Room) -> None:
    """`--force` replaces files and uses existing directories; `--out` leaves the image; the mode of the file stays."""
    os.mkdir("d")
    room.write("d/f", b"x" * 3000)
    room.succeeds("add a directory", "add", "image.adf", "d")
    room.write("d/f", b"short")
    room.write("d/g", b"new")
    refuses(room, "203 without force", ["add", "image.adf", "d"], None, EXISTS)
    os.chmod("image.adf", 0o640)
    room.succeeds("add by force", "add", "--force", "image.adf", "d")
    room.report.expect("the mode stays", stat.S_IMODE(os.stat("image.adf").st_mode) == 0o640, "another mode")
    room.succeeds("what was replaced", "print", "image.adf", "d/f", output=b"short")
    room.succeeds("what is new", "print", "image.adf", "d/g", output=b"new")
    room.succeeds("accepted", "check", "image.adf", output=b"ok\n")
    before = room.content("image.adf")
    room.succeeds("--out", "delete", "--all", "--out", "after.adf", "image.adf", "d")
    room.report.expect("--out: the image stays", room.content("image.adf") == before, "it has changed")
    room.succeeds("--out: the other file", "list", "after.adf", output=b"Volume Work\n")


def targets(room: Room) -> None:
    """Links, files that cannot be written, and a locked image."""
    os.symlink("image.adf", "link.adf")
    room.succeeds("through a link", "mkdir", "link.adf", "e")
    room.report.expect("the link stays", os.path.islink("link.adf"), "it is a file")
    room.succeeds("the linked image has changed", "list", "image.adf", "e", output=b"Volume Work\n")
    for name, target, told in (
        ("a full device", "/dev/full", "/dev/full"),
        ("a directory as target", "d", "'d'"),
        ("a target nowhere", "no/where.adf", "no/where.adf"),
    ):
        refuses(room, name, ["mkdir", "--out", target, "image.adf", "n"], b"", told, status=2)
    with open("image.adf", "rb") as held:
        fcntl.flock(held, fcntl.LOCK_EX)
        refuses(room, "held by another", ["mkdir", "image.adf", "n"], b"", "image.adf", status=2)
    room.succeeds("held no longer", "mkdir", "image.adf", "n")


def at_once(room: Room) -> None:
    """Commands that change one image at the same time: each succeeds, or says that it does not."""
    turns = range(8)
    began = [subprocess.Popen([str(room.program), "mkdir", "image.adf", f"at once {it}"], stderr=subprocess.DEVNULL) for it in turns]
    ended = [it.wait() for it in began]
    listed = room.run("list", "image.adf").output
    made = [it for it in turns if f"at once {it}\n".encode() in listed]
    is_told = made == [it for it in turns if ended[it] == 0] and set(ended) <= {0, 2}
    room.report.expect("eight at once", is_told, f"{ended}, made {made}")
    room.succeeds("accepted after eight", "check", "image.adf", output=b"ok\n")


def replacing(room: Room) -> None:
    blank(room)
    replaced(room)
    targets(room)
    at_once(room)
    more = set(os.listdir(".")) - {"d", "image.adf", "after.adf", "link.adf"}
    room.report.expect("no file is left beside", not more, more)


def below(top: str) -> Dict[str, List[str]]:
    """The contents of a directory and of those below it."""
    return {folder: sorted([*directories, *files]) for folder, directories, files in os.walk(top)}


def stays(room: Room, what: str, make: Callable[[], None]) -> None:
    """An obstacle for `extract` stays, and nothing is written."""
    os.mkdir("out")
    make()
    before = below("out")
    ran = room.run("extract", *([] if what == "a file" else ["--force"]), "--to", "out", "image.adf")
    is_kept = before == below("out") and not os.path.exists("elsewhere/g")
    room.report.hold(f"{what} in the way", fault_of(ran, 2, b"", "out/") or (None if is_kept else "something was written"))
    shutil.rmtree("out")
    shutil.rmtree("elsewhere", ignore_errors=True)


def link_to_directory() -> None:
    os.mkdir("elsewhere")
    os.symlink("../elsewhere", "out/d")


def taken_out(room: Room) -> None:
    os.mkdir("out")
    room.write("out/f", b"old")
    room.succeeds("a file that is replaced", "extract", "--force", "--to", "out", "image.adf")
    room.report.expect("its bytes", room.content("out/f") == b"1" and room.content("out/d/g") == b"2", "others")
    shutil.rmtree("out")
    room.succeeds("only one entry", "extract", "--to", "out", "image.adf", "d")
    room.report.same("under its own name", os.listdir("out"), ["d"])
    words = ["extract", "--to", "none", "image.adf", "f", "nothing"]
    refuses(room, "an entry that is not there", words, b"refused 205 nothing\n", "object not found")
    room.report.expect("then nothing is written", not os.path.exists("none"), "there is 'none'")


def links_and_pipes(room: Room) -> None:
    """What `add` puts in of a directory with more than files and directories."""
    os.symlink("f", "src/to-file")
    os.symlink("d", "src/to-directory")
    os.mkfifo("src/pipe")
    blank(room, file="links.adf")
    room.report.check("links and pipes", room.run("add", "links.adf", "src"), 0, b"", "skipped 'src/to-directory': it is a symbolic link to a directory", "skipped 'src/pipe': it is neither")
    room.succeeds("a link to a file is its file", "print", "links.adf", "src/to-file", output=b"1")
    listed = room.run("list", "links.adf").output
    room.report.expect("what is passed over", b"to-directory" not in listed and b"pipe" not in listed, listed)


def in_the_way(room: Room) -> None:
    """An existing file in the way stays, and nothing at all is written."""
    blank(room)
    os.makedirs("src/d")
    room.write("src/f", b"1")
    room.write("src/d/g", b"2")
    room.succeeds("added", "add", "image.adf", "src/f", "src/d")
    stays(room, "a file", lambda: room.write("out/f", b"old"))
    stays(room, "a directory", lambda: os.mkdir("out/f"))
    stays(room, "a link", lambda: os.symlink("elsewhere", "out/f"))
    stays(room, "a link to a directory", link_to_directory)
    stays(room, "a file for a directory", lambda: room.write("out/d", b"old"))
    taken_out(room)
    links_and_pipes(room)


# ---- full disks, streams and the pages


def full_disks(room: Room) -> None:
    """A file of four blocks and its header, with 0 to 9 blocks free, in both formats."""
    for kind in ("ofs", "ffs"):
        room.write("four", bytes(4 * HELD[kind]))
        for free in range(10):
            name = f"{kind}, {free} free"
            blank(room, kind, ["--blocks", "30"])
            # A root, a bitmap block and two boot blocks, and a header for the filler.
            room.write("filler", bytes((30 - 4 - 1 - free) * HELD[kind]))
            filled = fault_of(room.run("add", "image.adf", "filler"))
            if filled:
                room.report.hold(f"{name}: filled", filled)
            elif free < 5:
                refuses(room, name, ["add", "image.adf", "four"], b"refused 221 four\n", "disk is full", "5", str(free))
            else:
                room.succeeds(name, "add", "image.adf", "four")
                room.succeeds(f"{name}: accepted", "check", "image.adf", output=b"ok\n")


def bad_input(room: Room) -> None:
    """No command keeps more of a file than the size of the largest image, and each stops reading an endless device."""
    room.write("short", b"x")
    refuses(room, "too short", ["mkdir", "short", "n"], b"refused NotWholeBlocks 0\n", "1 bytes are no whole number of blocks", image="short")
    for words in (["check"], ["list"], ["info"], ["extract"], ["print"], ["mkdir", "--out", "x"]):
        more = ["x"] if words[0] in ("print", "mkdir") else []
        ran = room.run(*words, "/dev/zero", *more, before=limited(resource.RLIMIT_AS, HALF_A_GIBIBYTE))
        room.report.check(f"a device that never ends: {words[0]}", ran, 2, b"", "'/dev/zero' did not end after 2,097,152 reads")


def manual(room: Room) -> None:
    """The page for `man` has every command and option of the program's help, and so has the page of commands."""

    def help_of(*words: str) -> str:
        return room.run(*words, "--help").texts.decode()

    listed = help_of().partition("Usage:")[2].partition("Options:")[0]
    commands: List[str] = re.findall(r"(?m)^  ([a-z]+)(?: |$)", listed)
    room.report.expect("help: there are commands", {"blank", "extract", "add", "serve"} <= {*commands}, commands)
    page = (TOP / "docs/adf_serve.1").read_text(encoding="utf-8")
    told = (TOP / "docs/COMMANDS.md").read_text(encoding="utf-8")
    for command in commands:
        shown = help_of(command).partition("Options:")[2]
        options = sorted({*re.findall(r"(?m)^ +(?:-\w, )?--([a-z]+)", shown)} - {"help"})
        lacking = [it for it in options if f"Fl -{it}" not in page or f"--{it}" not in told]
        known = re.search(rf"(?m)^\.Cm {command}$", page) and re.search(rf"(?m)^\| `{command}[ `]", told)
        room.report.hold(f"pages: {command}", f"without {lacking}" if lacking else None if known else "it is not there")
        room.report.expect(f"help of {command}: an example", f"adf_serve {command} " in shown, "there is none")


def main(words: List[str]) -> int:
    program, report = program_of(words), Report()
    for part in (whole_trees, paths, fields, refusals, replacing, in_the_way, full_disks, bad_input, manual):
        with Room(program, report) as room:
            room.part(part)
    return report.end()


if __name__ == "__main__":
    sys.exit(main(sys.argv[1:]))
