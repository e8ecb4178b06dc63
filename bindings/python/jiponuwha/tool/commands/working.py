"""`jip open` and `jip close`: an image as a directory of the host, in which people edit its files."""
from __future__ import annotations

import argparse
import hashlib
import json
import os
from typing import Any, NamedTuple

from ... import Volume, host_name, protection_bits
from ..change import Change, changing, report
from ..console import Console
from ..declare import Subparsers, add_changes, command
from ..errors import DONE, RefusedError, ToolError, UsageError
from ..host import Folder, HostFile, date_of_file, files_below, read_file
from ..patterns import folded
from ..replace import replace
from ..sources import LARGEST, Source, parse
from ..volumes import contents, opened
from ..walking import walk

# The file in an open directory that keeps which image it is, and what the files were. No entry has this host name, since it has more
# than 30 letters.
STATE = ".jip-image-of-this-directory.json"
VERSION = 1


class Known(NamedTuple):
    """What an open directory has: the image's file, the checksum of its bytes, and the checksum of each file, or None for a directory,
    by the path of its entry."""

    source: Source
    image: str
    files: dict[str, str | None]


def register(subparsers: Subparsers) -> None:
    made = command(
        subparsers,
        "open",
        open_command,
        "write the files of an image into a directory, to be edited there",
        "jip open work.adf work",
        "jip close work",
    )
    made.add_argument("image", metavar="IMAGE", help="the image")
    made.add_argument("folder", metavar="DIR", help="a new or empty directory")
    add_changes(made)
    made = command(
        subparsers,
        "close",
        close,
        "write back into the image what changed in a directory of 'jip open'",
        "jip close work",
        "jip close -n work",
    )
    made.add_argument("folder", metavar="DIR", help="the directory")
    made.add_argument("-f", "--force", action="store_true", help="also delete and replace files that are protected")
    add_changes(made)


def sum_of(data: bytes) -> str:
    return hashlib.sha256(data).hexdigest()


# ---- The state of an open directory ----


def save_state(folder: str, known: Known) -> None:
    value = {"version": VERSION, "image": known.source.path, "sha256": known.image, "files": known.files}
    replace(os.path.join(folder, STATE), json.dumps(value, indent=0).encode())


def saved_state(folder: str) -> Known:
    """Returns what an open directory has. Another directory raises ToolError."""
    path = os.path.join(folder, STATE)
    try:
        value: Any = json.loads(read_file(path, 1 << 30))
        if value["version"] != VERSION:
            raise ToolError(f"{path}: of another version of jip")
        files = {str(path): None if it is None else str(it) for path, it in value["files"].items()}
        return Known(Source(str(value["image"])), str(value["sha256"]), files)
    except FileNotFoundError:
        raise ToolError(f"{folder}: not a directory of 'jip open'") from None
    except (ValueError, KeyError, TypeError, AttributeError, RecursionError):
        raise ToolError(f"{path}: damaged, so it is not known what changed; 'jip cp' copies files into the image") from None


def state_of(source: Source, image: bytes, volume: Volume) -> Known:
    files = {path: None if entry.is_dir else sum_of(contents(volume, path)) for path, entry in walk(volume)}
    return Known(Source(os.path.abspath(source.path)), sum_of(image), files)


# ---- open ----


def open_command(arguments: argparse.Namespace, console: Console) -> int:
    source, inside = parse(arguments.image)
    if inside:
        raise UsageError(f"{arguments.image}: the whole image is opened, and no path in it")
    if not source.can_write:
        raise ToolError(f"{source.name}: an image in a ZIP or DMS file cannot be changed; 'jip cp -r' copies its files out")
    folder = arguments.folder
    if os.path.lexists(folder) and (not os.path.isdir(folder) or os.listdir(folder)):
        raise ToolError(f"{folder}: not an empty directory")
    image = source.read()
    with opened(source) as volume:
        known = state_of(source, image, volume)
        lines = [f"'{source.name}' -> '{folder}': {volume.info().label}, {len(known.files):,} files and directories"]
        if not arguments.dry_run:
            os.makedirs(folder, exist_ok=True)
            save_state(folder, known)
            write_files(volume, folder)
    report(lines, arguments, console)
    return DONE


def write_files(volume: Volume, folder: str) -> None:
    entries = [([host_name(it) for it in path.split("/")], path, entry) for path, entry in walk(volume)]
    with Folder(folder) as below:
        for names, _, _ in entries:
            below.refuse_long(names)
        for names, path, entry in entries:
            if entry.is_dir:
                below.make(names)
            else:
                below.write(names, contents(volume, path), entry.date)
        for names, _, entry in reversed(entries):
            if entry.is_dir:
                below.stamp(names, entry.date)


# ---- close ----


def found_in(folder: str) -> dict[str, HostFile]:
    """Returns the files and directories of an open directory, by the paths of their entries."""
    skipped: list[str] = []
    found: dict[str, HostFile] = {}
    same: dict[bytes, HostFile] = {}
    for it in files_below(folder, (), skipped, without=STATE):
        path = "/".join(it.names)
        other = same.setdefault(folded(path), it)
        if other is not it:
            raise RefusedError(f"'{other.path}' and '{it.path}' are one name in the image")
        if os.path.islink(it.path):
            skipped.append(it.path)
        found[path] = it
    if skipped:
        raise RefusedError(f"{skipped[0]}: neither a file nor a directory, so it cannot be written back")
    return found


def close(arguments: argparse.Namespace, console: Console) -> int:
    folder = arguments.folder
    known = saved_state(folder)
    found = found_in(folder)
    with changing(known.source, arguments, console) as change:
        if sum_of(known.source.read()) != known.image:
            raise RefusedError(f"{known.source.name}: the image was changed since it was opened; nothing is written back")
        write_back(change, known, found, arguments.force)
        if not change.lines:
            change.did(f"'{folder}': nothing changed")
        image, state = change.volume.image(), state_of(known.source, change.volume.image(), change.volume)
    if not arguments.dry_run:
        save_state(folder, state._replace(image=sum_of(image)))
    return DONE


def write_back(change: Change, known: Known, found: dict[str, HostFile], force: bool) -> None:
    """Renames what is spelled in another case, deletes what is gone, makes what is new, and writes what has other bytes. A file that
    was moved keeps its bits and its comment."""
    files = respelled(change, known.files, found)
    sums = {path: None if it.is_dir else sum_of(read_file(it.path, LARGEST)) for path, it in found.items()}
    gone = [it for it in files if it not in sums or (sums[it] is None) != (files[it] is None)]
    for path in [it for it in reversed(gone) if is_in_the_way(it, found)]:
        remove(change, path, force)
        gone.remove(path)
        del files[path]
    for path in [it for it in sums if sums[it] is None and it not in files]:
        change.volume.mkdir(path)
        change.did(f"made {change.name(path)}")
    for path in [it for it in sums if sums[it] is not None and it not in files]:
        old = next((it for it in gone if files[it] == sums[path]), None)
        if old is not None:
            change.volume.rename(old, path)
            change.did(f"{change.name(old)} -> {change.name(path)}")
            gone.remove(old)
            files[path] = files.pop(old)
    for path in reversed(gone):
        remove(change, path, force)
    for path in [it for it in sums if sums[it] is not None and sums[it] != files.get(it)]:
        write_one(change, path, found[path], force)
        change.did(f"{'changed' if path in files else 'added'} {change.name(path)}")


def is_in_the_way(path: str, found: dict[str, HostFile]) -> bool:
    """Whether what is gone has the path of something else, or is in a directory that has."""
    parts = path.split("/")
    return any("/".join(parts[:at]) in found and not found["/".join(parts[:at])].is_dir for at in range(1, len(parts))) or path in found


def remove(change: Change, path: str, force: bool) -> None:
    change.remove(path, force)
    change.did(f"removed {change.name(path)}")


def respelled(change: Change, files: dict[str, str | None], found: dict[str, HostFile]) -> dict[str, str | None]:
    """Renames the entries whose names have another case in the directory, and returns all of them by their present paths."""
    spelled = {folded(it): it for it in found}
    now: dict[str, str | None] = {}
    for path, it in files.items():
        new = spelled.get(folded(path), path)
        if new.rpartition("/")[2] != path.rpartition("/")[2]:
            change.volume.rename(path, new)
            change.did(f"{change.name(path)} -> {change.name(new)}")
        now[new] = it
    return now


def write_one(change: Change, path: str, file: HostFile, force: bool) -> None:
    """Writes a file, with the time of the host's file. Its bits, except `archived`, and its comment stay."""
    data, old = read_file(file.path, LARGEST), change.find(path)
    if force and old:
        change.volume.protect(path, 0)
    change.write(path, data)
    if force and old:
        change.volume.protect(path, old.bits & ~protection_bits("arwed"))
    change.volume.date(path, date_of_file(os.stat(file.path)))
