"""`jip cp`: copies between the host and images."""
from __future__ import annotations

import argparse
import contextlib
import os
from collections.abc import Sequence

from ... import Note, host_name
from ..change import Change, changing, quoted, report
from ..console import Console
from ..declare import Subparsers, add_changes, command
from ..errors import DONE, RefusedError, ToolError, UsageError
from ..host import NOTE, Folder, nanoseconds_of, note_name
from ..items import Item, items_of_host, items_of_image
from ..patterns import folded
from ..sources import Target, parse
from ..volumes import opened


def register(subparsers: Subparsers) -> None:
    made = command(
        subparsers,
        "cp",
        cp,
        "copy files into images, out of images, and from image to image",
        "jip cp letter work.adf:Docs",
        "jip cp 'work.adf:Docs/#?.txt' texts",
        "jip cp -r -p old.adf: new.adf:",
    )
    made.add_argument("sources", nargs="+", metavar="SOURCE", help="a file of the host, or IMAGE:PATH; PATH may have patterns")
    made.add_argument("target", metavar="TARGET", help="an existing directory, or the new name; IMAGE: is the root of an image")
    made.add_argument("-r", "--recursive", action="store_true", help="copy directories with everything in them")
    made.add_argument(
        "-p",
        "--preserve",
        action="store_true",
        help="keep protection bits, date and comment; on the host a file NAME.uaem keeps what a time cannot",
    )
    add_changes(made)


def cp(arguments: argparse.Namespace, console: Console) -> int:
    target = parse(arguments.target)
    sources = [parse(it) for it in arguments.sources]
    if target.inside is None and all(it.inside is None for it in sources):
        raise UsageError(f"nothing here names a path in an image; {arguments.target}: is the root of the image {arguments.target}")
    with contextlib.ExitStack() as volumes:
        skipped: list[str] = []
        groups: list[list[Item]] = []
        for argument, it in zip(arguments.sources, sources):
            if it.inside is None:
                groups.append(items_of_host(argument, arguments.recursive, skipped))
            else:
                volume = volumes.enter_context(opened(it.source))
                groups += items_of_image(it.source, volume, it.inside, arguments.recursive)
        for path in skipped:
            console.error(f"{path}: skipped, since it is neither a file nor a directory")
        if target.inside is None:
            copy_to_host(groups, arguments, console)
        else:
            copy_to_image(groups, target, arguments, console)
    return DONE


def placed(groups: Sequence[Sequence[Item]], is_folder: bool, name: str) -> list[tuple[tuple[str, ...], Item]]:
    """Returns the names that each item gets below the target's directory: its own, or below the new name if the target is one."""
    found = []
    for items in groups:
        for it in items:
            below = it.names[1:] if items[0].names else it.names
            found.append((it.names if is_folder else (name, *below), it))
    return found


def checked(found: Sequence[tuple[tuple[str, ...], Item]], target: str) -> None:
    """Refuses two sources that would get the same name."""
    seen: dict[bytes, Item] = {}
    for names, it in found:
        other = seen.setdefault(folded("/".join(names)), it)
        if other is not it and not (other.is_dir and it.is_dir):
            raise RefusedError(f"'{other.shown}' and '{it.shown}' would be one entry: '{target}{'/'.join(names)}'")


# ---- Into an image ----


def copy_to_image(groups: Sequence[Sequence[Item]], target: Target, arguments: argparse.Namespace, console: Console) -> None:
    with changing(target.source, arguments, console) as change:
        path = (target.inside or "").rpartition(":")[2]
        there = change.find(path)
        is_folder = there is not None and there.is_dir
        if not is_folder and (len(groups) > 1 or path.endswith("/")):
            raise RefusedError(f"{target.source.name}:{path}: not a directory")
        above, _, name = ("", "", "") if is_folder else path.rpartition("/")
        base = path.strip("/") if is_folder else above
        found = placed(groups, is_folder, name)
        checked(found, f"{target.source.name}:{base and base + '/'}")
        for names, it in found:
            put("/".join([base, *names] if base else names), it, change)
        if arguments.preserve:
            for names, it in reversed(found):
                if names:
                    keep("/".join([base, *names] if base else names), it.note(), change)


def put(path: str, item: Item, change: Change) -> None:
    """Puts a file, or makes a directory. The directory may be there, and a file that is there is replaced."""
    if not path:
        return
    there = change.find(path)
    if there is not None and (there.is_dir or item.is_dir):
        if not (there.is_dir and item.is_dir):
            raise RefusedError(f"{change.source.name}:{path}: a {'directory' if there.is_dir else 'file'} with this name is there")
        return
    if item.is_dir:
        change.volume.mkdir(path)
    else:
        change.write(path, item.read())
    change.did(f"{quoted(item.shown)} -> {change.name(path)}")


def keep(path: str, note: Note, change: Change) -> None:
    """Gives an entry the bits, the comment and the date of what it was copied from."""
    change.volume.comment(path, note.comment)
    change.volume.protect(path, note.bits)
    change.volume.date(path, note.date)


# ---- To the host ----


def copy_to_host(groups: Sequence[Sequence[Item]], arguments: argparse.Namespace, console: Console) -> None:
    target = arguments.target
    is_folder = os.path.isdir(target)
    if not is_folder and (len(groups) > 1 or (target.endswith("/") and not groups[0][0].is_dir)):
        raise ToolError(f"{target}: not a directory")
    if is_folder:
        top, name = target, ""
    else:
        # (a link to a file leads to the file that is replaced)
        real = os.path.realpath(target)
        top, name = os.path.dirname(real), os.path.basename(real)
    found = placed(groups, is_folder, name)
    checked([(it, item) for it, item in found if it], "")
    spelled = note_name if arguments.preserve else host_name
    with Folder(top) as folder:
        plan = [(host_path(names, is_folder, spelled), it) for names, it in found]
        for names, it in plan:
            refuse_conflict(folder, names, it)
        lines = [f"{quoted(it.shown)} -> {quoted(os.path.join(target, *names[not is_folder :]))}" for names, it in plan if names]
        if not arguments.dry_run:
            write_all(folder, plan, arguments.preserve)
    report(lines, arguments, console)


def host_path(names: tuple[str, ...], is_folder: bool, spelled: object) -> tuple[str, ...]:
    """Returns the names of the host's file. The first one is as the user wrote it, if it is the target."""
    assert callable(spelled)
    start = 0 if is_folder else 1
    return (*names[:start], *(str(spelled(it)) for it in names[start:]))


def refuse_conflict(folder: Folder, names: tuple[str, ...], item: Item) -> None:
    """Refuses a file where a directory is, the reverse, and a link, device or pipe in the way."""
    if not names:
        return
    try:
        kind = folder.kind(names)
    except (FileNotFoundError, NotADirectoryError):
        return
    if kind == "none" or kind == ("directory" if item.is_dir else "file"):
        return
    what = {"file": "a file", "directory": "a directory", "other": "a link, a device or a pipe"}[kind]
    raise ToolError(f"{folder.shown(names)}: {what} with this name is there")


def write_all(folder: Folder, plan: Sequence[tuple[tuple[str, ...], Item]], preserve: bool) -> None:
    for names, it in plan:
        if it.is_dir and names:
            folder.make(names)
        elif names:
            folder.write(names, it.read(), it.note().date if preserve else None)
    if not preserve:
        return
    for names, it in reversed(plan):
        note = it.note()
        if names and (note.bits & 0xFF or note.comment or nanoseconds_of(note.date) is None):
            folder.write((*names[:-1], names[-1] + NOTE), note.line())
    for names, it in reversed(plan):
        if names and it.is_dir:
            folder.stamp(names, it.note().date)
