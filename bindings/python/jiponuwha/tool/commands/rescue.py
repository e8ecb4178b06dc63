"""`jip rescue`: what can be saved of a damaged image, in a new image."""
from __future__ import annotations

import argparse
import os
from dataclasses import dataclass, field

from ... import DOUBLE_DENSITY, HIGH_DENSITY, DiskFull, DosError, Faults, NotAnImage, Salvaged, State, Volume, check, salvage
from ..._numbers import BLOCK_BYTES
from ..blank_like import blank_like
from ..change import report
from ..console import Console
from ..declare import Subparsers, add_changes, command
from ..errors import DONE, REFUSED, ToolError, UsageError
from ..escape import shown
from ..patterns import folded
from ..replace import replace
from ..sources import Source, parse

DAMAGED = "Damaged"
FOUND = "lost+found"


def register(subparsers: Subparsers) -> None:
    made = command(
        subparsers,
        "rescue",
        rescue,
        "save what is left of a damaged image into a new image",
        "jip rescue bad.adf saved.adf",
    )
    made.add_argument("image", metavar="IMAGE", help="the damaged image, which stays as it is")
    made.add_argument("new", metavar="NEW", help="the new image; NEW.txt is the report")
    made.add_argument("--label", metavar="NAME", help="the name of the new volume; default: that of the old one, if it can be read")
    add_changes(made)


@dataclass
class Rescue:
    """A new volume, the names of its two own directories, and the report of what was put into it."""

    volume: Volume
    damaged: str
    found: str
    lines: list[str] = field(default_factory=list)
    is_whole: bool = True

    def tell(self, what: str, path: str, why: str = "") -> None:
        self.lines.append(f"{what} {path}{f': {why}' if why else ''}")
        self.is_whole = self.is_whole and what == "whole"


def padded(image: bytes) -> tuple[bytes, str]:
    """Returns the bytes of a file that is shorter than a floppy and no whole number of blocks, with zeros up to the size of a floppy,
    and the line that says so."""
    if len(image) % BLOCK_BYTES == 0 or len(image) > HIGH_DENSITY * BLOCK_BYTES:
        return image, ""
    blocks = DOUBLE_DENSITY if len(image) < DOUBLE_DENSITY * BLOCK_BYTES else HIGH_DENSITY
    return image.ljust(blocks * BLOCK_BYTES, b"\0"), f"the file has {len(image):,} bytes; the rest is read as zeros, up to {blocks:,} blocks"


def own_name(name: str, entries: list[Salvaged]) -> str:
    """Returns a name for a directory of the new root that no entry of the old one has."""
    taken = {folded(it.path) for it in entries if "/" not in it.path and not it.is_found}
    found, number = name, 0
    while folded(found) in taken:
        number += 1
        found = f"{name}-{number}"
    return found


def label_of_file(name: str) -> str:
    """Returns a name for a volume from that of the file."""
    stem = os.path.basename(name).partition(".")[0]
    kept = "".join(it for it in stem if it not in "/:" and " " <= it <= "\xff")
    return kept[:30] or "Rescued"


# ---- What is put into the new volume ----


def why(entry: Salvaged) -> str:
    if entry.state == State.BROKEN:
        missing = f"{entry.missing:,} block{'s' * (entry.missing != 1)} missing"
        return f"broken: {missing}{', cut short' if entry.is_cut else ''}"
    return "doubtful: a wrong checksum or field, a block in two files, or a filler"


def free_path(volume: Volume, path: str) -> str:
    """Returns the path, or one with a number after its name if that is taken."""
    found, number = path, 0
    while found in volume:
        number += 1
        above, joint, name = path.rpartition("/")
        found = f"{above}{joint}{name[: 29 - len(str(number))]}-{number}"
    return found


def make_folders(volume: Volume, path: str) -> None:
    here = ""
    for name in path.split("/"):
        here = f"{here}/{name}" if here else name
        if here not in volume:
            volume.mkdir(here)


def settle_entry(volume: Volume, path: str, entry: Salvaged, comment: str) -> None:
    volume.comment(path, comment)
    volume.protect(path, entry.bits)
    volume.date(path, entry.date)


def put_file(made: Rescue, entry: Salvaged) -> None:
    """Puts a file where it was, or below `Damaged` if it is not whole. What has no room is left out."""
    is_whole = entry.state == State.WHOLE
    above = "" if is_whole else made.damaged
    path = place_of(made, entry)
    path = f"{above}/{path}" if above else path
    try:
        if "/" in path:
            make_folders(made.volume, path.rpartition("/")[0])
        path = free_path(made.volume, path)
        made.volume.write(path, entry.read())
        settle_entry(made.volume, path, entry, entry.comment if is_whole else why(entry))
    except DiskFull:
        made.tell("no room", entry.path, f"{entry.size:,} bytes")
    except DosError as fault:
        made.tell("not saved", entry.path, str(fault.strerror))
    else:
        made.tell(("found" if entry.is_found else "whole") if is_whole else "damaged", path, "" if is_whole else why(entry))


def place_of(made: Rescue, entry: Salvaged) -> str:
    """Returns the path of an entry in the new volume. That of a found one begins with this volume's own directory."""
    first, joint, rest = entry.path.partition("/")
    return made.found + joint + rest if entry.is_found else entry.path


def put_all(made: Rescue, entries: list[Salvaged]) -> None:
    """Puts what is whole first, then what no directory leads to, what is doubtful, and what is broken."""
    order = {State.WHOLE: 0, State.DOUBTFUL: 2, State.BROKEN: 3}
    folders = [it for it in entries if it.is_dir]
    for it in folders:
        try:
            make_folders(made.volume, place_of(made, it))
        except DosError as fault:
            made.tell("not saved", it.path + "/", str(fault.strerror))
            continue
        if it.state != State.DIRECTORY:
            made.tell("doubtful", it.path + "/", "its header has a wrong checksum or field")
    files = [it for it in entries if it.is_file]
    for it in sorted(files, key=lambda it: (order.get(State(it.state), 4), it.is_found)):
        put_file(made, it)
    for it in entries:
        if not it.is_dir and not it.is_file:
            made.tell("lost", it.path)
    for it in reversed(folders):
        if (path := place_of(made, it)) in made.volume:
            settle_entry(made.volume, path, it, it.comment)


# ---- The command ----


def text_of(name: str, faults: Faults, heads: list[str], made: Rescue) -> bytes:
    """Returns the report."""
    found = [f"fault block {it.block}: {it.text}" for it in faults]
    lines = [f"rescued from {name}", *heads, *found, *(["more faults"] if faults.more else []), *made.lines]
    return "".join(f"{shown(it)}\n" for it in lines).encode()


def rescued(damaged: bytes, faults: Faults, label: str | None, name: str) -> tuple[Rescue, list[str]]:
    """Returns the new volume with everything that was saved, and what is to be said of its label and its boot block."""
    entries = salvage(damaged)
    volume, has_label, has_boot = blank_like(damaged, faults, label or label_of_file(name))
    if label:
        volume.label(label)
    made = Rescue(volume, own_name(DAMAGED, entries), own_name(FOUND, entries))
    put_all(made, entries)
    origin = "that of the old volume" if has_label else "of the file, since that of the old volume is damaged"
    heads = [
        f"label {volume.label()}: {'as given' if label else origin}",
        "boot block: that of the old volume" if has_boot else "boot block: a blank one, since that of the old volume is damaged",
    ]
    return made, heads


def rescue(arguments: argparse.Namespace, console: Console) -> int:
    source, inside = parse(arguments.image)
    new, beside = Source(arguments.new), f"{arguments.new}.txt"
    if inside:
        raise UsageError(f"{arguments.image}: a whole image is rescued, and no path in it")
    for it in (arguments.new, beside):
        if os.path.lexists(it):
            raise ToolError(f"{it}: there is a file with this name already")
    damaged, cut = padded(source.read())
    faults = check(damaged)
    try:
        made, heads = rescued(damaged, faults, arguments.label, source.path)
        heads = [cut, *heads] if cut else heads
    except NotAnImage as fault:
        raise NotAnImage(fault.faults, source.name) from None
    with made.volume:
        image = made.volume.image()
        made.volume.close(discard=True)
    if not arguments.dry_run:
        new.write(image)
        replace(beside, text_of(source.name, faults, heads, made))
    report([*heads, *made.lines], arguments, console)
    return DONE if made.is_whole else REFUSED
