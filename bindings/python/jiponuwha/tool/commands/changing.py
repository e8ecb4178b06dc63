"""Commands that change entries of one image: `jip mv`, `rm`, `mkdir`, `touch`, `protect`, `note` and `label`."""
from __future__ import annotations

import argparse

from ... import Date, DosError, Entry, ObjectExists, date_of_text, protection_bits, protection_letters
from ..change import Change, changing, in_image, matched, one_image, same_image
from ..console import Console
from ..declare import Subparsers, add_changes, command
from ..errors import DONE, RefusedError, UsageError
from ..patterns import folded
from ..sources import parse
from ..volumes import opened
from ..walking import walk

LETTERS = "hsparwed"
PATH = "IMAGE:PATH"


def register(subparsers: Subparsers) -> None:
    made = command(
        subparsers,
        "mv",
        mv,
        "move or rename files and directories in an image",
        "jip mv work.adf:Docs/a work.adf:Docs/b",
        "jip mv 'work.adf:#?.txt' work.adf:Docs",
    )
    made.add_argument("sources", nargs="+", metavar=PATH, help="what is moved; patterns are allowed")
    made.add_argument("target", metavar="IMAGE:TARGET", help="an existing directory, or the new name")
    add_changes(made)
    made = command(subparsers, "rm", rm, "delete files and directories in an image", "jip rm work.adf:Docs/old", "jip rm -r work.adf:Docs")
    made.add_argument("paths", nargs="+", metavar=PATH, help="what is deleted; patterns are allowed")
    made.add_argument("-r", "--recursive", action="store_true", help="delete directories with everything in them")
    made.add_argument("-f", "--force", action="store_true", help="also delete what is protected from deletion, and skip what is not there")
    add_changes(made)
    made = command(subparsers, "mkdir", mkdir, "make directories in an image", "jip mkdir work.adf:Docs", "jip mkdir -p work.adf:Docs/Old/1990")
    made.add_argument("paths", nargs="+", metavar=PATH, help="the new directory")
    made.add_argument("-p", "--parents", action="store_true", help="also make missing parents, and accept existing directories")
    add_changes(made)
    _register_settings(subparsers)


def _register_settings(subparsers: Subparsers) -> None:
    made = command(
        subparsers,
        "touch",
        touch,
        "set the date of files and directories, and make empty files",
        "jip touch work.adf:Docs/new",
        "jip touch -d '1990-01-01 12:00' 'work.adf:#?'",
    )
    made.add_argument("paths", nargs="+", metavar=PATH, help="a file or a directory; a missing file is made")
    made.add_argument("-d", "--date", metavar="WHEN", help="YYYY-MM-DD, with HH:MM, HH:MM:SS or HH:MM:SS.CC after a space; default: now (UTC)")
    add_changes(made)
    made = command(
        subparsers,
        "protect",
        protect,
        "set protection bits",
        "jip protect work.adf:S/startup +s",
        "jip protect 'work.adf:Docs/#?' -wd",
        "jip protect work.adf:Docs ----rwed",
    )
    made.takes_letters = True
    made.add_argument("paths", nargs="+", metavar=PATH, help="files and directories; patterns are allowed")
    made.add_argument("letters", metavar="LETTERS", help=f"letters of {LETTERS}: rwed or =rwed sets these, +s adds, -w removes, ----rwed has all places")
    add_changes(made)
    made = command(subparsers, "note", note, "set the comment of files and directories", "jip note work.adf:Docs/hello 'read me'")
    made.add_argument("paths", nargs="+", metavar=PATH, help="files and directories; patterns are allowed")
    made.add_argument("text", metavar="TEXT", help="the comment, of at most 79 letters; '' removes it")
    add_changes(made)
    made = command(subparsers, "label", label, "rename a volume, or print its name", "jip label work.adf", "jip label work.adf Games")
    made.add_argument("image", metavar="IMAGE", help="the image")
    made.add_argument("name", nargs="?", metavar="NAME", help="the new name, of 1 to 30 letters without / and :")
    add_changes(made)


# ---- mv, rm, mkdir ----


def is_inside(path: str, folder: str) -> bool:
    """Whether a path is that of a directory, or below it."""
    return folded(f"{path}/").startswith(folded(f"{folder}/"))


def target_of(change: Change, path: str, target: str, is_folder: bool) -> str:
    """Returns the path that an entry gets: in the directory that is the target, or the target itself."""
    name = path.rpartition("/")[2]
    if is_folder:
        return f"{target.rstrip('/')}/{name}" if target.rstrip("/") else name
    return target


def mv(arguments: argparse.Namespace, console: Console) -> int:
    source, paths = one_image(arguments.sources)
    to = in_image(arguments.target)
    if not same_image(source, to.source):
        raise UsageError("jip mv moves in one image; 'jip cp' copies to another one, and 'jip rm' deletes")
    with changing(source, arguments, console) as change:
        target = (to.inside or "").rpartition(":")[2]
        there = change.find(target)
        moved = matched(change, paths)
        # (a new case of its own name is a new name)
        is_own = len(moved) == 1 and there is not None and there.key == moved[0][1].key
        is_folder = there is not None and there.is_dir and not is_own
        if not is_folder and (len(moved) > 1 or target.endswith("/")):
            raise RefusedError(f"{source.name}:{target}: not a directory")
        for path, _ in moved:
            move(change, path, target_of(change, path, target, is_folder))
    return DONE


def move(change: Change, path: str, to: str) -> None:
    """Moves an entry. A file at its new path is replaced by a file."""
    if not path:
        raise RefusedError(f"{change.source.name}: the root cannot be moved; 'jip label' renames the volume")
    entry, there = change.volume.stat(path), change.find(to)
    if entry.is_dir and is_inside(to, path) and folded(to) != folded(path):
        raise RefusedError(f"{change.source.name}:{path}: a directory cannot be moved into itself")
    if there is not None and there.key != entry.key:
        if there.is_dir or entry.is_dir:
            raise ObjectExists(203, to)
        change.remove(to, force=False)
    change.volume.rename(path, to)
    change.did(f"{change.name(path)} -> {change.name(to)}")


def rm(arguments: argparse.Namespace, console: Console) -> int:
    source, paths = one_image(arguments.paths)
    with changing(source, arguments, console) as change:
        for given in paths:
            for path, entry in found_for_rm(change, given, arguments.force):
                remove_all(change, path, entry, arguments)
    return DONE


def found_for_rm(change: Change, path: str, force: bool) -> list[tuple[str, Entry]]:
    try:
        return matched(change, [path])
    except DosError as fault:
        if force and fault.dos in (204, 205):
            return []
        raise


def remove_all(change: Change, path: str, entry: Entry, arguments: argparse.Namespace) -> None:
    """Deletes an entry, with everything in it."""
    if not path.rpartition(":")[2].strip("/"):
        raise RefusedError(f"{change.source.name}: the root cannot be deleted; '{change.source.name}:#?' names everything in it")
    if entry.is_dir and not arguments.recursive:
        raise RefusedError(f"{change.source.name}:{path}: a directory; -r deletes it with everything in it")
    inside = [it for it, _ in walk(change.volume, path)] if entry.is_dir else []
    for it in [*reversed(inside), path]:
        change.remove(it, arguments.force)
        change.did(f"removed {change.name(it)}")


def mkdir(arguments: argparse.Namespace, console: Console) -> int:
    source, paths = one_image(arguments.paths)
    with changing(source, arguments, console) as change:
        for path in paths:
            path = path.rstrip("/")
            if arguments.parents:
                make_parents(change, path)
            else:
                change.volume.mkdir(path)
                change.did(f"made {change.name(path)}")
    return DONE


def make_parents(change: Change, path: str) -> None:
    """Makes a directory and its missing parents."""
    here = ""
    for name in path.rpartition(":")[2].split("/"):
        here = f"{here}/{name}" if here else name
        there = change.find(here)
        if there is None:
            change.volume.mkdir(here)
            change.did(f"made {change.name(here)}")
        elif there.is_file:
            raise RefusedError(f"{change.source.name}:{here}: a file, and not a directory")


# ---- touch, protect, note, label ----


def date_of(text: str) -> Date:
    """Returns the date that a text names: what is left out of hours, minutes, seconds and hundredths is 0."""
    full = {10: " 00:00:00.00", 16: ":00.00", 19: ".00"}
    try:
        return date_of_text(text + full.get(len(text), ""))
    except ValueError:
        raise UsageError(f"no date: '{text}'; expected YYYY-MM-DD, or YYYY-MM-DD HH:MM:SS, from 1978-01-01 on") from None


def touch(arguments: argparse.Namespace, console: Console) -> int:
    when = Date.now() if arguments.date in (None, "now") else date_of(arguments.date)
    source, paths = one_image(arguments.paths)
    with changing(source, arguments, console) as change:
        for given in paths:
            try:
                found = [path for path, _ in matched(change, [given])]
            except DosError as fault:
                if fault.dos != 205:
                    raise
                change.write(given, b"")
                change.volume.date(given, when)
                change.did(f"made {change.name(given)}")
                continue
            for path in found:
                change.volume.date(path, when)
                change.did(f"dated {change.name(path)}")
    return DONE


def changed_bits(bits: int, text: str) -> int:
    """Returns protection bits after a change by letters. A text of another form raises UsageError."""
    shown, letters = protection_letters(bits & 0xFF), text.strip().lower()
    if len(letters) == 7 and all(it in (letter, "-") for it, letter in zip(letters, LETTERS[1:])):
        letters = shown[0] + letters
    if len(letters) == 8 and all(it in (letter, "-") for it, letter in zip(letters, LETTERS)):
        return bits & ~0xFF | protection_bits(letters)
    sign, rest = (letters[0], letters[1:]) if letters[:1] in ("+", "-", "=") else ("=", letters)
    if not rest or len(set(rest)) != len(rest) or not set(rest) <= set(LETTERS):
        raise UsageError(f"no protection letters: '{text.strip()}'; expected letters of {LETTERS}, as in rwed, ----rwed, +s or -w")
    have = set(shown) - {"-"}
    wanted = {"+": have | set(rest), "-": have - set(rest), "=": set(rest)}[sign]
    return bits & ~0xFF | protection_bits("".join(it for it in LETTERS if it in wanted) or "--------")


def protect(arguments: argparse.Namespace, console: Console) -> int:
    changed_bits(0, arguments.letters)
    source, paths = one_image(arguments.paths)
    with changing(source, arguments, console) as change:
        for path, entry in matched(change, paths):
            bits = changed_bits(entry.bits, arguments.letters)
            change.volume.protect(path, bits)
            change.did(f"{protection_letters(bits & 0xFF)} {change.name(path)}")
    return DONE


def note(arguments: argparse.Namespace, console: Console) -> int:
    source, paths = one_image(arguments.paths)
    with changing(source, arguments, console) as change:
        for path, _ in matched(change, paths):
            change.volume.comment(path, arguments.text)
            change.did(f'{change.name(path)} "{arguments.text}"')
    return DONE


def label(arguments: argparse.Namespace, console: Console) -> int:
    target = parse(arguments.image)
    if target.inside:
        raise UsageError(f"{arguments.image}: a label is that of the whole image")
    if arguments.name is None:
        with opened(target.source) as volume:
            console.line(volume.label())
        return DONE
    with changing(target.source, arguments, console) as change:
        old = change.volume.label()
        new = change.volume.label(arguments.name)
        change.did(f"'{old}:' -> '{new}:'")
    return DONE
