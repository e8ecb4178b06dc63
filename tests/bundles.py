#!/usr/bin/env python3
"""Tests `extract --bundle` and `add --bundle`: a volume that becomes a directory, and a volume again.

    tests/bundles.py [PROGRAM]

200 images that ADFlib wrote, and some that `drawn_volume.py` draws, become bundles and then volumes again. A reader in Python compares
the trees. Then each refusal: of what is in the way, of images, of descriptions, and of files that are not as described. Without
ADFlib (`tests/adflib.py`) as many more images are drawn.
"""
from __future__ import annotations

import json
import os
import resource
import shutil
import sys
from pathlib import Path
from typing import Any, Callable, Dict, List, Optional, Set, Tuple

sys.dont_write_bytecode = True

from adflib import LACKING, SHAPES, built_adflib
from drawn_volume import Told, difference, draw, read
from harness import (
    BLOCK,
    MOMENT,
    OFS_ROOM,
    POINTERS,
    Report,
    Room,
    boot_sum,
    fault_of,
    has_strace,
    in_memory,
    injected,
    limited,
    program_of,
    slot_of,
)

DRAWN, BY_ADFLIB = 40, 200
# Enough memory for any bundle.
GIBIBYTE = 1 << 30
Json = Dict[str, Any]


def kind_words(told: Told) -> List[str]:
    """The arguments of `blank` for an empty volume of this kind and size."""
    return [*(["--ffs"] if told.kind[3] else []), "--blocks", str(told.blocks)]


def boot_told(boot: bytes) -> bytes:
    """What is said of a boot block, if there is one. None of the tests has the standard one."""
    if not any(boot[4:]):
        return b""
    checksum = "right" if boot[4:8] == boot_sum(boot) else "wrong: not bootable"
    return f"adf_serve: boot block: custom, checksum {checksum}\n".encode()


def there_and_back(room: Room, data: bytes) -> Optional[str]:
    """What is wrong with a volume that was made of the bundle of this image."""
    old = read(data)
    room.write("old.adf", data)
    for it in ("bundle", "again"):
        shutil.rmtree(it, ignore_errors=True)
    ran = room.run("extract", "--bundle", "bundle", "old.adf")
    if ran.status or ran.output or ran.texts != boot_told(old.boot):
        return f"extract: {ran}"
    if room.content("old.adf") != data:
        return "extract: the image changed"
    room.done("blank", *kind_words(old), "Other", "new.adf")
    ran = room.run("add", "--bundle", "bundle", "new.adf")
    if ran.status or ran.output or ran.texts:
        return f"add: {ran}"
    ran = room.run("check", "new.adf")
    if ran.status:
        return f"check: {ran}"
    found = difference(old, read(room.content("new.adf"))) or described(old, Path("bundle"))
    if found:
        return found
    room.done("extract", "--bundle", "again", "new.adf")
    same = room.content("again/volume.json") == room.content("bundle/volume.json")
    return None if same else "the second bundle has another description"


def described(old: Told, bundle: Path) -> Optional[str]:
    """What is wrong with a bundle's description of a volume, and with its files."""
    if sorted(os.listdir(bundle)) != ["files", "volume.json"]:
        return f"in the bundle are {sorted(os.listdir(bundle))}"
    found = json.loads((bundle / "volume.json").read_bytes())
    wanted = [(it.path.decode("latin-1"), it.bits, it.comment.decode("latin-1"), None if it.data is None else len(it.data)) for it in old.entries]
    told = [(it["path"], it["bits"], it["comment"], it.get("size")) for it in found["entries"]]
    if told != wanted:
        return f"the description has the entries {str(told)[:300]}"
    head = (found["kind"], found["blocks"], found["label"], bytes.fromhex(found["boot"]))
    kind = "FFS" if old.kind[3] else "OFS"
    if head != (kind, old.blocks, old.label.decode("latin-1"), old.boot.rstrip(b"\0")):
        return f"the description begins with {head}"
    files = sum(len(names) for _, _, names in os.walk(bundle / "files"))
    return None if files == sum(it.data is not None for it in old.entries) else f"{files} files are in the bundle"


# ---- images that other programs wrote


def drawn_volumes(room: Room) -> None:
    for seed in range(DRAWN):
        room.report.ends(f"drawn volume {seed}", lambda: there_and_back(room, draw(seed)))


def adflib_volumes(room: Room) -> None:
    adflib = built_adflib(SHAPES)
    if adflib is None:
        room.report.lacks("volumes by ADFlib", f"{LACKING}; more volumes are drawn")
        for seed in range(DRAWN, DRAWN + BY_ADFLIB):
            room.report.ends(f"drawn volume {seed}", lambda: there_and_back(room, draw(seed)))
        return
    found: Set[str] = set()
    for seed in range(BY_ADFLIB):
        data = adflib.volume(seed)
        found |= traits(read(data))
        room.report.ends(f"volume {seed} by ADFlib", lambda: there_and_back(room, data))
    wanted = {f"{kind} of {blocks} blocks" for kind in ("OFS", "FFS") for blocks in (800, 1760, 3520)} | TRAITS
    room.report.same("ADFlib's volumes have all that is wanted", wanted - found, set())


TRAITS = {*("boot code", "a label beyond ASCII", "nine levels", "a name of 30 letters", "a name beyond ASCII", "a comment of 79 letters"),
          *("bits above the eighth", "bits of a directory", "an empty directory", "an empty file", "a full header", "three extension blocks")}


def traits(told: Told) -> Set[str]:
    """What a volume has of TRAITS, and its kind with its size."""
    names = [it.path.rpartition(b"/")[2] for it in told.entries]
    files = [it.data for it in told.entries if it.data is not None]
    room = BLOCK if told.kind[3] else OFS_ROOM
    parents = {it.path.rpartition(b"/")[0] for it in told.entries}
    found = {
        "boot code": any(told.boot[12:]),
        "a label beyond ASCII": not told.label.isascii(),
        "nine levels": any(it.path.count(b"/") == 8 for it in told.entries),
        "a name of 30 letters": any(len(it) == 30 for it in names),
        "a name beyond ASCII": any(not it.isascii() for it in names),
        "a comment of 79 letters": any(len(it.comment) == 79 for it in told.entries),
        "bits above the eighth": any(it.bits > 255 for it in told.entries),
        "bits of a directory": any(it.bits and it.data is None for it in told.entries),
        "an empty directory": any(it.data is None and it.path not in parents for it in told.entries),
        "an empty file": b"" in files,
        "a full header": any(len(it) == POINTERS * room for it in files),
        "three extension blocks": any(len(it) > 3 * POINTERS * room for it in files),
    }
    return {f"{'FFS' if told.kind[3] else 'OFS'} of {told.blocks} blocks"} | {name for name, holds in found.items() if holds}


# ---- refusals


def small_volume(room: Room) -> None:
    """`small.adf`, its bundle `small`, and `empty.adf`."""
    for words in (["blank", "--ffs", "Small", "small.adf"], ["mkdir", *MOMENT, "small.adf", "d", "e", "d/in"], ["blank", "--ffs", "Other", "empty.adf"]):
        room.done(*words)
    for name, data in (("f", b"x" * 600), ("g", b"")):
        room.write(name, data)
    room.done("add", *MOMENT, "--to", "d", "small.adf", "f", "g")
    room.done("comment", *MOMENT, "small.adf", "d/f", "a comment")
    room.done("extract", "--bundle", "small", "small.adf")


def in_the_way(room: Room) -> None:
    """What is in the way of a bundle."""
    small_volume(room)
    os.mkdir("taken")
    room.write("taken/it", b"kept")
    os.mkdir("free")
    for name, words, status, told in (
        ("a directory that is not empty", ["--bundle", "taken", "small.adf"], 2, "'taken' is not empty"),
        ("a file", ["--bundle", "f", "small.adf"], 2, "cannot read 'f': Not a directory"),
        ("an image that is not there", ["--bundle", "b", "no.adf"], 2, "no.adf"),
    ):
        before = sorted(os.listdir("."))
        room.report.check(f"extract --bundle: {name}", room.run("extract", *words), status, b"", told)
        room.report.same(f"extract --bundle: {name}, nothing is written", (sorted(os.listdir(".")), os.listdir("taken")), (before, ["it"]))
    room.write("bad.adf", b"DOS\1" + bytes(901_116))
    ran = room.run("extract", "--bundle", "b", "bad.adf")
    room.report.expect("extract --bundle: a refused image", ran.status == 3 and ran.output.startswith(b"refused ") and not os.path.exists("b"), ran)
    room.succeeds("extract --bundle: an empty directory", "extract", "--bundle", "free", "small.adf")
    room.report.same("it has the bundle", sorted(os.listdir("free")), ["files", "volume.json"])


def refused(room: Room, name: str, words: List[str], status: int, *told: str, image: str = "empty.adf") -> None:
    """`add --bundle` is refused, and nothing changes."""
    before, names = room.content(image), sorted(os.listdir("."))
    # (a refusal by AmigaDOS has a line on standard output)
    ran = room.run("add", *words, before=limited(resource.RLIMIT_AS, GIBIBYTE))
    fault = fault_of(ran, status, None, *told)
    if fault is None and (room.content(image) != before or sorted(os.listdir(".")) != names):
        fault = "something changed"
    room.report.hold(f"add --bundle: {name}", fault)


def other_images(room: Room) -> None:
    """Images that a bundle is not put into."""
    small_volume(room)
    room.done("blank", "Other", "ofs.adf")
    room.done("blank", "--ffs", "--hd", "Other", "large.adf")
    room.write("bad.adf", b"DOS\1" + bytes(901_116))
    for name, image, told in (
        ("an image with entries", "small.adf", "its volume is not empty"),
        ("an image of another kind", "ofs.adf", "FFS with 1,760 blocks"),
        ("an image of another size", "large.adf", "FFS with 1,760 blocks"),
        ("a refused image", "bad.adf", ""),
    ):
        refused(room, name, ["--bundle", "small", image], 3, told, image=image)
    room.done("blank", "--ffs", "Other", "out.adf")
    old = room.content("empty.adf")
    room.succeeds("add --bundle --out", "add", "--bundle", "small", "--out", "made.adf", "empty.adf")
    room.report.same("--out leaves the image", room.content("empty.adf"), old)
    room.report.hold("--out has the volume", difference(read(room.content("small.adf")), read(room.content("made.adf"))))


def descriptions(room: Room) -> None:
    """Descriptions that are not those of a bundle."""
    small_volume(room)
    good: Json = json.loads(room.content("small/volume.json"))
    os.mkdir("b")
    shutil.copytree("small/files", "b/files")

    def with_text(name: str, data: bytes, *told: str, status: int = 2) -> None:
        room.write("b/volume.json", data)
        refused(room, name, ["--bundle", "b", "empty.adf"], status, *told)

    def with_json(name: str, change: Callable[[Json], object], *told: str, status: int = 2) -> None:
        made: Json = json.loads(json.dumps(good))
        change(made)
        with_text(name, json.dumps(made).encode(), *told, status=status)

    refused(room, "no description", ["--bundle", "b", "empty.adf"], 2, "b/volume.json")
    for name, data in (("empty", b""), ("a list", b"[]"), ("no JSON", b"{"), ("two objects", b"{}{}"), ("a long number", b'{"blocks": 1e999}'),
                       ("not UTF-8", b'{"label": "\xff"}'), ("lists in lists", b"[" * 1_000_000), ("objects in objects", b'{"a":' * 1_000_000)):
        with_text(f"description: {name}", data, "'b/volume.json'")
    with_text("description: 100 MB", b" " * 100_000_000, "is longer than")
    many = b'{"entries":[' + b",".join([b'{"path":"a","type":"directory","bits":0,"date":"1978-01-01 00:00:00.00","comment":""}'] * 101_700) + b"]}"
    with_text("description: more entries than blocks", many, "more than the 101,602 entries")
    with_text("description: a million empty entries", b'{"entries":[' + b"{}," * 1_000_000 + b"{}]}", "entry 1 has no")
    for key in good:
        with_json(f"description: no {key}", lambda it: it.pop(key), f'has no "{key}"')
        text = json.dumps(good)
        twice = text[:-1] + f', "{key}": {json.dumps(good[key])}}}'
        with_text(f"description: {key} twice", twice.encode(), f'has "{key}" twice')
        with_json(f"description: {key} is null", lambda it: it.update({key: None}), f'"{key}"')
    with_json("description: a member too many", lambda it: it.update({"more\x1b": 1}), "has a ")
    with_json("description: a member with a long name", lambda it: it.update({"\u00e9" * 100_000: 1}), 'has a "' + "\u00e9" * 80 + '", which no bundle has')
    for key, value in (("kind", "PFS"), ("blocks", 15), ("blocks", 101_603), ("blocks", 2**32), ("blocks", 1.5), ("blocks", -1), ("label", ""), ("label", "a/b"), ("label", "a:b"),
                       ("label", "a" * 31), ("label", "\u0100"), ("created", "1990-02-30 00:00:00.00"), ("changed", "now"), ("root", ""),
                       ("boot", "0"), ("boot", "zz"), ("boot", ""), ("boot", "444f5300"), ("boot", "444f5301" + "00" * 1_021), ("entries", {})):
        with_json(f"description: {key} {str(value)[:20]!r}", lambda it: it.update({key: value}), f'"{key}"')
    place = next(at for at, it in enumerate(good["entries"]) if it["path"] == "d/f")
    for key in good["entries"][place]:
        with_json(f"entry: no {key}", lambda it: it["entries"][place].pop(key), f'entry {place + 1} has no "{key}"')
        with_json(f"entry: {key} is a list", lambda it: it["entries"][place].update({key: []}), f"entry {place + 1} ")
    with_json("entry: a member too many", lambda it: it["entries"][place].update({"more": 1}), "which no bundle has")
    with_json("entry: a member with a long name", lambda it: it["entries"][place].update({"m" * 81: 1}), 'has a "' + "m" * 80 + '", which no bundle has')
    for key, value in (("path", ""), ("path", "d/"), ("path", "/f"), ("path", "d//f"), ("path", "d:f"), ("path", "d/" + "a" * 31), ("path", "d/\u0100"),
                       ("path", "e/f"), ("path", "x/f"), ("path", "d/in/x/f"), ("type", "link"), ("size", -1), ("size", 2**32), ("bits", 2**32),
                       ("date", "raw 4294967296 0 0"), ("comment", "c" * 80), ("comment", "\u0100")):
        with_json(f"entry: {key} {str(value)[:20]!r}", lambda it: it["entries"][place].update({key: value}), f"entry {place + 1} ")
    with_json("entry: a directory with a size", lambda it: it["entries"][0].update({"size": 0}), "entry 1 ")
    with_json("entry: a child before its directory", lambda it: it["entries"].insert(0, it["entries"].pop(place)), "entry 1 has a")
    with_json("entry: one path twice", lambda it: it["entries"].insert(place, it["entries"][place]), "is in the description twice")
    shutil.copy("b/files/d/f", "b/files/d/F")
    with_json("entry: two names that are one on an Amiga", lambda it: it["entries"].insert(place, {**it["entries"][place], "path": "d/F"}), "is in the description twice")
    with_json("entry: one directory twice", lambda it: it["entries"].append(next(entry for entry in it["entries"] if entry["path"] == "e")), "'b/files/e' is in the description twice")
    shutil.copy("b/files/d/f", "b/files/E")
    with_json("entry: a file with the name of a directory", lambda it: it["entries"].append({**it["entries"][place], "path": "E"}), "'b/files/E' is in the description twice")
    wrong = sorted(("zz%d" % at for at in range(6)), key=lambda it: -slot_of(it.encode()))
    row: Json = {"type": "directory", "bits": 0, "date": "1978-01-01 00:00:00.00", "comment": ""}
    with_json("entries in an order that no disk has", lambda it: it.update({"entries": [{"path": name, **row} for name in wrong]}), "order")
    # A name with dots is a name on an Amiga, and leads nowhere on the host.
    os.makedirs("b/files", exist_ok=True)
    with_json("entry: a path with '..'", lambda it: it["entries"][place].update({"path": "d/.."}), "b/files/d/")
    room.report.expect("nothing is read outside of the bundle", not os.path.exists("b/files/d/.uaem"))


def other_files(room: Room) -> None:
    """Files that are not as the description has them."""
    small_volume(room)
    file = Path("small/files/d/f")
    good = file.read_bytes()
    changes: List[Tuple[str, Callable[[], object], str]] = [
        ("a file is missing", lambda: None, "cannot read 'small/files/d/f': no such file"),
        ("a file is longer", lambda: file.write_bytes(good + b"x"), "has 601 bytes, and the description says 600"),
        ("a file is shorter", lambda: file.write_bytes(good[:-1]), "has 599 bytes, and the description says 600"),
        ("a file is empty", lambda: file.write_bytes(b""), "has 0 bytes, and the description says 600"),
        ("a link in place of a file", lambda: file.symlink_to("/etc/passwd"), "is no regular file"),
        ("a directory in place of a file", lambda: file.mkdir(), "is no regular file"),
        ("a pipe in place of a file", lambda: os.mkfifo(file), "is no regular file"),
    ]
    for name, change, told in changes:
        file.unlink()
        change()
        refused(room, name, ["--bundle", "small", "empty.adf"], 2, told)
        if file.is_dir() and not file.is_symlink():
            file.rmdir()
        else:
            file.unlink(missing_ok=True)
        file.write_bytes(good)
    shutil.rmtree("small/files/d/in")
    room.succeeds("add --bundle: an empty directory that the host has lost", "add", "--bundle", "small", "--out", "made.adf", "empty.adf")
    text = json.loads(room.content("small/volume.json"))
    place = next(at for at, it in enumerate(text["entries"]) if it["path"] == "d/f")
    for size in (900_000, 1_000_000_000):
        with open(file, "wb") as out:
            out.truncate(size)
        text["entries"][place]["size"] = size
        room.write("small/volume.json", json.dumps(text).encode())
        refused(room, f"a file of {size} bytes that finds no room", ["--bundle", "small", "empty.adf"], 3, "disk is full")


def links(room: Room) -> None:
    """What stands in place of directories. No link is followed, but for the one to the bundle."""
    small_volume(room)
    aside = Path("aside")
    for path in ("files", "files/d", "files/d/in", "files/e"):
        place = Path("small", path)
        place.rename(aside)
        for name, to in (("a link to the same files", aside.absolute()), ("a link to nowhere", Path("nowhere"))):
            place.symlink_to(to)
            refused(room, f"{name} in place of {path}", ["--bundle", "small", "empty.adf"], 2, f"'small/{path}' is a link or a file, and no directory")
            place.unlink()
        place.write_bytes(b"")
        refused(room, f"a file in place of {path}", ["--bundle", "small", "empty.adf"], 2, f"'small/{path}' is a link or a file, and no directory")
        place.unlink()
        aside.rename(place)
    Path("linked").symlink_to("small")
    room.succeeds("add --bundle: a link to the bundle", "add", "--bundle", "linked", "--out", "made.adf", "empty.adf")
    room.report.hold("the link to the bundle is followed", difference(read(room.content("small.adf")), read(room.content("made.adf"))))


def stopped(room: Room) -> None:
    """A kill, or a host disk that is full, leaves the image as it was."""
    small_volume(room)
    old = room.content("empty.adf")
    for most in (0, 1_000, 900_000):
        ran = room.run("add", "--bundle", "small", "empty.adf", before=limited(resource.RLIMIT_FSIZE, most))
        whole = ran.status == 2 and ran.texts and room.content("empty.adf") == old and "empty.adf" in os.listdir(".")
        room.report.expect(f"add --bundle: the host takes only {most} bytes", bool(whole), ran)
    ran = room.run("extract", "--bundle", "part", "small.adf", before=limited(resource.RLIMIT_FSIZE, 100))
    room.report.expect("extract --bundle: the host takes only 100 bytes", ran.status == 2 and not os.path.exists("part/volume.json"), ran)
    if not has_strace("error=EIO"):
        room.report.lacks("add --bundle: a kill", "strace")
        return
    for calls in ("write", "fsync", "rename"):
        ran = room.run("add", "--bundle", "small", "empty.adf", front=injected(f"{calls}:signal=SIGKILL:when=1"))
        room.report.same(f"add --bundle: killed at {calls}", room.content("empty.adf"), old)


def main() -> int:
    report = Report()
    program = program_of(sys.argv[1:])
    parts: Tuple[Callable[[Room], None], ...] = (drawn_volumes, adflib_volumes, in_the_way, other_images, descriptions, other_files, links, stopped)
    for part in parts:
        with Room(program, report, in_memory(GIBIBYTE)) as room:
            room.part(part)
    return report.end()


if __name__ == "__main__":
    sys.exit(main())
