"""`jip grep`: the contents of files in many images."""
from __future__ import annotations

import argparse
import contextlib
import re
from collections.abc import Iterator
from functools import partial
from typing import NamedTuple

from ... import DosError, NotAnImage, salvage
from ... import open as open_image
from ..._path import name_bytes
from ..archive.catalogue import is_catalogue
from ..archive.collection import catalogued
from ..archive.examine import contents
from ..archive.workers import add_worker_options, in_order, run, workers_of
from ..console import Console
from ..declare import Subparsers, command
from ..errors import DONE, HOST, UsageError
from ..sources import Source, find_images

# The status if nothing was found, as grep has it.
NOTHING = 1


class Hit(NamedTuple):
    """A file in which something was found: the numbers and the letters of the lines, or none for a file that is not text."""

    path: str
    lines: tuple[tuple[int, str], ...] | None


def register(subparsers: Subparsers) -> None:
    what = "print the lines of files that match a regular expression, in images, directories and catalogues"
    made = command(subparsers, "grep", grep, what, "jip grep -i 'assign .*libs:' Disks", "jip grep -F -l 'Copyright' disks.sqlite")
    made.add_argument("expression", metavar="EXPRESSION", help="a regular expression of Python, over letters of ISO 8859-1")
    made.add_argument("paths", nargs="+", metavar="IMAGE|DIR|CATALOGUE")
    made.add_argument("-F", "--fixed", action="store_true", help="find the text as it is")
    made.add_argument("-i", "--ignore-case", action="store_true", help="find it in upper and lower case")
    made.add_argument("-l", "--files", action="store_true", help="print only the paths of the files")
    made.add_argument("--json", action="store_true", help="print an object a line, one for each file")
    add_worker_options(made, dask=False)


def _expression(arguments: argparse.Namespace) -> re.Pattern[bytes]:
    try:
        raw = name_bytes(arguments.expression)
    except DosError:
        raise UsageError(f"'{arguments.expression}' has letters outside ISO 8859-1, which no file of an Amiga has") from None
    try:
        return re.compile(re.escape(raw) if arguments.fixed else raw, re.IGNORECASE if arguments.ignore_case else 0)
    except re.error as fault:
        raise UsageError(f"'{arguments.expression}' is not a regular expression: {fault}") from None


def _texts(data: bytes) -> Iterator[tuple[str, bytes]]:
    """Yields the paths and the contents of all files of an image, or those that salvage gives of a refused one."""
    try:
        with open_image(data, read_only=True) as volume:
            for path, entry, content in contents(volume, volume.image()):
                if entry.is_file:
                    yield path.decode("iso-8859-1"), content
    except NotAnImage:
        with contextlib.suppress(NotAnImage):
            yield from ((it.path, it.read()) for it in salvage(data) if it.is_file)


def search(data: bytes, expression: re.Pattern[bytes]) -> list[Hit]:
    """Returns the files of an image in which the expression is found."""
    found = []
    for path, content in _texts(data):
        if b"\0" in content:
            if expression.search(content):
                found.append(Hit(path, None))
            continue
        lines = ((number, it) for number, it in enumerate(content.split(b"\n"), 1) if expression.search(it))
        hits = tuple((number, it.decode("iso-8859-1")) for number, it in lines)
        if hits:
            found.append(Hit(path, hits))
    return found


def _sources(paths: list[str], unread: list[str], console: Console) -> Iterator[Source]:
    def fault(said: Exception) -> None:
        unread.append(str(said))
        console.error(said)

    for path in paths:
        if is_catalogue(path):
            with catalogued(path) as collection:
                yield from (collection.source_of(it) for it in collection.images())
        else:
            yield from find_images([path], on_error=fault)


def _print(arguments: argparse.Namespace, console: Console, image: str, hit: Hit) -> None:
    name = f"{image}:{hit.path}"
    if arguments.json:
        console.json({"image": image, "path": hit.path, "lines": None if hit.lines is None else [list(it) for it in hit.lines]})
    elif arguments.files:
        console.line(name)
    elif hit.lines is None:
        console.line(f"{name}: a file that is not text matches")
    else:
        for number, line in hit.lines:
            console.parts((name, "blue"), (f":{number}:{line}", None))


def grep(arguments: argparse.Namespace, console: Console) -> int:
    unread: list[str] = []
    found = False
    examiner = partial(search, expression=_expression(arguments))
    with contextlib.closing(run(examiner, _sources(arguments.paths, unread, console), workers_of(arguments))) as outcomes:
        for outcome in in_order(outcomes):
            if outcome.failure is not None:
                unread.append(outcome.failure)
                console.error(f"{outcome.source.name}: {outcome.failure}")
                continue
            for hit in outcome.value:
                found = True
                _print(arguments, console, outcome.source.name, hit)
    return HOST if unread else DONE if found else NOTHING
