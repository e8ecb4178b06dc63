"""`jip find`: files and directories by their names, in many images."""
from __future__ import annotations

import argparse

from ... import protection_letters
from ..archive.collection import Collection, Found, Image, collected
from ..archive.examine import names
from ..archive.workers import add_worker_options, workers_of
from ..console import Console
from ..declare import Subparsers, command
from ..errors import DONE, HOST
from ..patterns import Pattern


def register(subparsers: Subparsers) -> None:
    what = "find files and directories by a pattern, in images, directories and catalogues"
    made = command(subparsers, "find", find, what, "jip find '#?.info' Disks", "jip find -l 'S/startup#?' disks.sqlite")
    made.add_argument("pattern", metavar="PATTERN", help="an AmigaDOS pattern of a name, or of the last names of a path with '/' between")
    made.add_argument("paths", nargs="+", metavar="IMAGE|DIR|CATALOGUE")
    made.add_argument("-l", "--long", action="store_true", help="print size, protection bits and date before each path")
    made.add_argument("--type", choices=("file", "directory"), help="find only files, or only directories")
    made.add_argument("--json", action="store_true", help="print an object a line")
    add_worker_options(made, dask=False)


class _Names:
    """The pattern of a name, or of the last names of a path."""

    def __init__(self, text: str) -> None:
        self._patterns = [Pattern(it) for it in text.split("/")]

    def matches(self, path: str) -> bool:
        last = path.split("/")[-len(self._patterns) :]
        return len(last) == len(self._patterns) and all(it.matches(name) for it, name in zip(self._patterns, last))


def _print(arguments: argparse.Namespace, console: Console, name: str, it: Found) -> None:
    state = "" if it.state is None or it.state in ("whole", "directory") else f" ({it.state.replace('_', ' ')})"
    if arguments.json:
        console.json({"image": name, **it._asdict()})
    elif arguments.long:
        console.line(f"{it.size:>9} {protection_letters(it.bits)} {it.date} {name}:{it.path}{state}")
    else:
        console.line(f"{name}:{it.path}{state}")


def find(arguments: argparse.Namespace, console: Console) -> int:
    wanted = _Names(arguments.pattern)
    unread = 0

    def look(collection: Collection, image: Image) -> None:
        for it in collection.files(image):
            if arguments.type in (None, it.type) and wanted.matches(it.path):
                _print(arguments, console, collection.name_of(image.path), it)

    for path in arguments.paths:
        with collected(path, names, workers_of(arguments), console) as collection:
            for image in collection.images():
                look(collection, image)
            unread += collection.unread
    return HOST if unread else DONE
