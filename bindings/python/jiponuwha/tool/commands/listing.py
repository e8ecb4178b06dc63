"""`jip ls` and `jip tree`."""
from __future__ import annotations

import argparse
from collections.abc import Iterable, Iterator, Sequence
from typing import NamedTuple

from ... import Entry, Info, Volume, date_text, protection_letters
from ..console import Console
from ..declare import Subparsers, add_json, command
from ..escape import shown
from ..patterns import expand, folded, has_pattern
from ..sources import Source, parse
from ..volumes import each_argument, opened
from ..walking import walk

SORTS = ("name", "size", "date", "disk")
# The deepest level that a tree shows.
DEEPEST = 100


class Row(NamedTuple):
    """An entry, with the path that is shown and the one from the root."""

    shown: str
    path: str
    entry: Entry


class Listing(NamedTuple):
    """What an argument names: a heading, its entries, and the volume."""

    source: Source
    heading: str
    rows: list[Row]
    info: Info


def register(subparsers: Subparsers) -> None:
    made = command(
        subparsers,
        "ls",
        ls,
        "list the files and directories of images",
        "jip ls work.adf",
        "jip ls -l work.adf:Docs",
        "jip ls -1 'work.adf:C/#?.info' games.zip/disk1.adf",
    )
    made.add_argument("images", nargs="+", metavar="IMAGE[:PATH]", help="an image, or a path or a pattern in it")
    made.add_argument("-l", "--long", action="store_true", help="print protection bits, size, date and comment too")
    made.add_argument("-R", "--recursive", action="store_true", help="list everything below the directories too")
    made.add_argument("-1", "--names", action="store_true", help="print one name a line, and nothing else")
    made.add_argument("--sort", choices=SORTS, default="name", help="order the entries of each directory by this; default: name")
    add_json(made)
    made = command(subparsers, "tree", tree, "show the files and directories of images as a tree", "jip tree work.adf", "jip tree work.adf:Docs")
    made.add_argument("images", nargs="+", metavar="IMAGE[:PATH]", help="an image, or a directory in it")
    made.add_argument("--sort", choices=SORTS, default="name", help="order the entries of each directory by this; default: name")
    add_json(made)


# ---- What is listed ----


def sort_key(sort: str, entry: Entry) -> tuple[int, int, int, bytes]:
    """Returns what entries are ordered by: files before directories by size, the largest first, or the latest date first, or none of
    these, and then the name."""
    first = {"size": (int(entry.is_dir), -entry.size, 0), "date": (-entry.date.days, -entry.date.minutes, -entry.date.ticks)}
    return (*first.get(sort, (0, 0, 0)), folded(entry.name))


def in_order(entries: Iterable[Entry], sort: str) -> list[Entry]:
    return list(entries) if sort == "disk" else sorted(entries, key=lambda it: sort_key(sort, it))


def rows_below(volume: Volume, folder: str, sort: str) -> list[Row]:
    """Returns everything below a directory, each directory before its contents, in order."""
    inside: dict[str, list[Entry]] = {}
    for path, entry in walk(volume, folder):
        inside.setdefault(path.rpartition("/")[0], []).append(entry)
    rows: list[Row] = []
    start = len(folder) + 1 if folder else 0
    waiting = [(folder, iter(in_order(inside.get(folder, []), sort)))]
    while waiting:
        above, entries = waiting[-1]
        try:
            entry = next(entries)
        except StopIteration:
            waiting.pop()
            continue
        path = f"{above}/{entry.name}" if above else entry.name
        rows.append(Row(path[start:], path, entry))
        if entry.is_dir:
            waiting.append((path, iter(in_order(inside.get(path, []), sort))))
    return rows


def listed(volume: Volume, path: str, arguments: argparse.Namespace, recursive: bool) -> list[Row]:
    """Returns the entries that a path names: those of a directory, or the file, or what a pattern matches."""
    found = expand(volume, path)
    if not has_pattern(path) and found[0][1].is_dir:
        folder = found[0][0]
        if recursive:
            return rows_below(volume, folder, arguments.sort)
        entries = in_order(volume.entries(folder), arguments.sort)
        return [Row(it.name, f"{folder}/{it.name}" if folder else it.name, it) for it in entries]
    rows = [Row(path, path, entry) for path, entry in found]
    rows = rows if arguments.sort == "disk" else sorted(rows, key=lambda it: sort_key(arguments.sort, it.entry))
    if not recursive:
        return rows
    below = ((it, rows_below(volume, it.path, arguments.sort) if it.entry.is_dir else []) for it in rows)
    return [row for top, inside in below for row in (top, *(Row(it.path, it.path, it.entry) for it in inside))]


def listing_of(argument: str, arguments: argparse.Namespace, recursive: bool) -> Listing:
    source, inside = parse(argument)
    with opened(source) as volume:
        rows = listed(volume, inside or "", arguments, recursive)
        return Listing(source, f"{source.name}:{inside}" if inside else source.name, rows, volume.info())


# ---- How it is shown ----


def kilobytes(blocks: int) -> str:
    return f"{blocks // 2:,} KB"


def many(number: int, one: str, more: str) -> str:
    return f"{number:,} {one if number == 1 else more}"


def totals(given: Listing) -> str:
    files = sum(it.entry.is_file for it in given.rows)
    size = sum(it.entry.size for it in given.rows)
    counted = f"{many(files, 'file', 'files')}, {many(len(given.rows) - files, 'directory', 'directories')}, {size:,} bytes"
    return f"{given.info.label}: {counted}; {kilobytes(given.info.free)} of {kilobytes(given.info.blocks)} free"


def short_date(entry: Entry) -> str:
    """Returns the date of an entry without hundredths of a second."""
    text = date_text(entry.date)
    return text if text.startswith("raw") else text[:19]


def with_slash(row: Row) -> str:
    return row.shown + "/" * row.entry.is_dir


def print_long(rows: Sequence[Row], console: Console) -> None:
    sizes = [f"{it.entry.size:,}" if it.entry.is_file else "dir" for it in rows]
    widest = max(map(len, sizes), default=0)
    for row, size in zip(rows, sizes):
        start = f"{protection_letters(row.entry.bits & 0xFF)} {size.rjust(widest)} {short_date(row.entry)} "
        comment = f' "{row.entry.comment}"' if row.entry.comment else ""
        console.parts((start, None), (with_slash(row), "bold" if row.entry.is_dir else None), (comment, "dim"))


def print_columns(rows: Sequence[Row], console: Console) -> None:
    """Prints names in columns from top to bottom, as many as the terminal has room for; elsewhere one a line."""
    names = [(shown(with_slash(it)), "bold" if it.entry.is_dir else None) for it in rows]
    widest = max((len(it) for it, _ in names), default=0) + 2
    count = max(1, console.width // widest) if console.is_terminal else 1
    lines = -(-len(names) // count)
    for at in range(lines):
        row = names[at::lines]
        padded = [part for name, style in row for part in ((name, style), (" " * (widest - len(name)), None))]
        console.parts(*padded[:-1])


def object_of(given: Listing) -> dict[str, object]:
    """Returns a listing for JSON."""
    info = given.info
    entries = [
        {
            "path": it.path,
            "type": "file" if it.entry.is_file else "directory",
            "size": it.entry.size,
            "blocks": it.entry.blocks,
            "header": it.entry.key,
            "bits": it.entry.bits,
            "letters": protection_letters(it.entry.bits & 0xFF),
            "date": date_text(it.entry.date),
            "comment": it.entry.comment,
        }
        for it in given.rows
    ]
    volume = {"label": info.label, "kind": info.format.name, "blocks": info.blocks, "used": info.used, "free": info.free}
    return {"image": given.source.name, **volume, "entries": entries}


def print_listing(given: Listing, arguments: argparse.Namespace, console: Console) -> None:
    if arguments.names:
        for it in given.rows:
            console.line(it.shown)
        return
    if arguments.long:
        print_long(given.rows, console)
    else:
        print_columns(given.rows, console)
    console.line(totals(given), "dim")


def ls(arguments: argparse.Namespace, console: Console) -> int:
    shows_heading = len(arguments.images) > 1 and not arguments.names
    first = True

    def one(argument: str) -> None:
        nonlocal first
        given = listing_of(argument, arguments, arguments.recursive)
        if arguments.json:
            console.json(object_of(given))
            return
        if shows_heading:
            if not first:
                console.line()
            console.line(f"{given.heading}:")
        first = False
        print_listing(given, arguments, console)

    return each_argument(arguments.images, one, console, arguments.json)


def tree_lines(rows: Sequence[Row]) -> Iterator[tuple[str, Row]]:
    """Yields the lines of a tree: what is before the name, and the entry."""
    levels = [it.shown.count("/") for it in rows]
    lasts: list[bool] = [False] * len(rows)
    open_at: dict[int, bool] = {}
    for at in range(len(rows) - 1, -1, -1):
        level = levels[at]
        lasts[at] = not open_at.get(level, False)
        open_at = {it: is_open for it, is_open in open_at.items() if it < level} | {level: True}
    stems: list[str] = []
    for row, level, is_last in zip(rows, levels, lasts):
        del stems[level:]
        if level <= DEEPEST:
            yield "".join(stems) + ("└── " if is_last else "├── "), row
        stems.append("    " if is_last else "│   ")


def tree(arguments: argparse.Namespace, console: Console) -> int:
    def one(argument: str) -> None:
        given = listing_of(argument, arguments, recursive=True)
        if arguments.json:
            console.json(object_of(given))
            return
        console.line(given.heading, "bold")
        for start, row in tree_lines(given.rows):
            name = row.shown.rpartition("/")[2] + "/" * row.entry.is_dir
            console.parts((start, "dim"), (name, "bold" if row.entry.is_dir else None))
        if any(it.shown.count("/") > DEEPEST for it in given.rows):
            console.error(f"{given.heading}: deeper than {DEEPEST} levels; 'jip ls -R' lists everything")
        console.line(totals(given), "dim")

    return each_argument(arguments.images, one, console, arguments.json)
