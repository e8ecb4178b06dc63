"""`jip diff`: what differs between two images, two directories of images or two catalogues."""
from __future__ import annotations

import argparse
import os
from collections.abc import Iterator
from typing import NamedTuple

from ... import protection_letters
from ..archive.catalogue import is_catalogue
from ..archive.collection import Collection, Found, Image, collected
from ..archive.compare import Blocks, Change, Side, blocks, changes
from ..archive.examine import examine
from ..archive.workers import add_worker_options, workers_of
from ..console import Console
from ..declare import Subparsers, command
from ..errors import DONE, HOST, UsageError
from ..patterns import folded
from ..sources import parse

# The status if something differs, as diff has it.
DIFFERENT = 1
_STYLES = {"added": "green", "removed": "red", "changed": "yellow"}
_SIGNS = {"added": "+", "removed": "-", "changed": "~"}


def register(subparsers: Subparsers) -> None:
    what = "print what differs between two images, two directories of images or two catalogues"
    made = command(subparsers, "diff", diff, what, "jip diff old.adf new.adf", "jip diff 2024.sqlite 2025.sqlite")
    made.add_argument("before", metavar="A")
    made.add_argument("after", metavar="B")
    made.add_argument("--no-blocks", action="store_true", help="print no blocks")
    made.add_argument("--json", action="store_true", help="print an object a line")
    add_worker_options(made, dask=False)


def _print_change(arguments: argparse.Namespace, console: Console, change: Change, image: str | None = None) -> None:
    if arguments.json:
        console.json({**({} if image is None else {"image": image}), **change._asdict()})
        return
    name = change.path if image is None else f"{image}:{change.path}"
    reasons = f": {', '.join(change.reasons)}" if change.reasons else ""
    console.parts((f"{_SIGNS[change.what]} ", _STYLES[change.what]), (f"{change.what} {name}{reasons}", None))


# ---- Two images ----


def _sums_text(wrong: tuple[bool, bool], names: tuple[str, str]) -> str:
    if wrong == (True, True):
        return "; the checksum is wrong in both"
    for is_wrong, name in zip(wrong, names):
        if is_wrong:
            return f"; the checksum is wrong in {name}"
    return ""


def _print_blocks(arguments: argparse.Namespace, console: Console, it: Blocks) -> None:
    if arguments.json:
        console.json({"what": "blocks", **it._asdict()})
        return
    place = f"block {it.first}" if it.first == it.last else f"blocks {it.first} to {it.last}"
    owners = ", then ".join(dict.fromkeys(owner for owner in it.owners if owner is not None)) or "the owner is not known"
    console.line(f"  {place}: {owners}{_sums_text(it.wrong, (arguments.before, arguments.after))}")


def _two_images(arguments: argparse.Namespace, console: Console) -> int:
    sides = []
    for argument in (arguments.before, arguments.after):
        source, path = parse(argument)
        if path is not None:
            raise UsageError(f"{argument}: diff compares whole images")
        sides.append(Side.of(source.read()))
    for it in changes(sides[0], sides[1]):
        _print_change(arguments, console, it)
    if not arguments.no_blocks:
        for row in blocks(sides[0], sides[1]):
            _print_blocks(arguments, console, row)
    return DONE if sides[0].data == sides[1].data else DIFFERENT


# ---- Two collections ----


class _File(NamedTuple):
    """A file of a collection as it is compared."""

    path: str
    sums: tuple[str, str | None, int]
    bits: int
    date: str
    comment: str


def _files(collection: Collection, image: Image) -> dict[bytes, _File]:
    return {folded(it.path): _file(it) for it in collection.files(image)}


def _file(it: Found) -> _File:
    return _File(it.path, (it.type, it.sha256, it.size), it.bits, it.date, it.comment)


def _reasons(before: _File, after: _File) -> tuple[str, ...]:
    said = ["bytes"] if before.sums != after.sums else []
    if before.bits != after.bits:
        said.append(f"bits ({protection_letters(before.bits)} became {protection_letters(after.bits)})")
    said += ["date"] if before.date != after.date else []
    said += ["comment"] if before.comment != after.comment else []
    return (*said, *(["name"] if before.path != after.path else []))


def _changed_files(before: dict[bytes, _File], after: dict[bytes, _File]) -> Iterator[Change]:
    for name, it in before.items():
        other = after.get(name)
        if other is None:
            yield Change("removed", it.path)
        elif reasons := _reasons(it, other):
            yield Change("changed", other.path, reasons)
    yield from (Change("added", it.path) for name, it in after.items() if name not in before)


def _image_reasons(before: Image, after: Image) -> tuple[str, ...]:
    said = [f"verdict ({before.verdict} became {after.verdict})"] if before.verdict != after.verdict else []
    said += [f"label ({before.label} became {after.label})"] if before.label != after.label else []
    return tuple(said or ["bytes"])


def _two_collections(arguments: argparse.Namespace, console: Console, before: Collection, after: Collection) -> int:
    status = DONE
    for image in before.images():
        other = after.image(image.path)
        if other is not None and (image.sha256, image.verdict) == (other.sha256, other.verdict):
            continue
        status = DIFFERENT
        if other is None:
            _print_change(arguments, console, Change("removed", image.path))
            continue
        _print_change(arguments, console, Change("changed", image.path, _image_reasons(image, other)))
        for it in _changed_files(_files(before, image), _files(after, other)):
            _print_change(arguments, console, it, image.path)
    for image in after.images():
        if before.image(image.path) is None:
            status = DIFFERENT
            _print_change(arguments, console, Change("added", image.path))
    return HOST if before.unread or after.unread else status


def diff(arguments: argparse.Namespace, console: Console) -> int:
    many = [os.path.isdir(it) or is_catalogue(it) for it in (arguments.before, arguments.after)]
    if many == [False, False]:
        return _two_images(arguments, console)
    if many != [True, True]:
        raise UsageError("diff compares two images, or two directories or catalogues")
    workers = workers_of(arguments)
    with collected(arguments.before, examine, workers, console) as before:
        with collected(arguments.after, examine, workers, console) as after:
            return _two_collections(arguments, console, before, after)
