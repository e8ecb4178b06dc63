"""`jip map`: the blocks of an image as letters."""
from __future__ import annotations

import argparse

from ..console import Console
from ..errors import DONE, REFUSED, RefusedError, UsageError
from ..picture.disk import Disk, disk_of
from ..picture.grid import heading, legend, letter, rows
from ..picture.need import kind_name
from ..sources import parse


def register(subparsers: argparse._SubParsersAction[argparse.ArgumentParser]) -> None:
    made = subparsers.add_parser(
        "map",
        help="print the blocks of an image, a letter each",
        description="Prints a letter for each block of an image, also of one that is refused. A column of a floppy is a cylinder.",
    )
    made.add_argument("image", metavar="IMAGE")
    made.add_argument("--json", action="store_true", help="print an object with the letters, the owners and the faults")
    made.set_defaults(run=print_map)


def as_object(disk: Disk) -> dict[str, object]:
    """Returns the map for JSON. `headers` has the header of the owner of each block, and `paths` the path of each header."""
    blocks = range(len(disk.kinds))
    headers = [disk.owners[it].header or None if it in disk.owners else None for it in blocks]
    faults = [{"block": it.block, "kind": kind_name(it.kind), "text": it.text} for it in disk.faults]
    return {
        "image": disk.name,
        "label": disk.label,
        "kind": disk.format.name if disk.format is not None else None,
        "blocks": len(blocks),
        "map": "".join(letter(disk, it) for it in blocks),
        "headers": headers,
        "paths": {str(it.header): it.path for it in disk.items},
        "faults": faults,
        "more_faults": disk.faults.more,
    }


def print_map(arguments: argparse.Namespace, console: Console) -> int:
    source, path = parse(arguments.image)
    if path is not None:
        raise UsageError(f"{arguments.image}: map shows a whole image; name it without a path")
    disk = disk_of(source.name, source.read())
    if arguments.json:
        console.json(as_object(disk))
    elif not disk.kinds:
        raise RefusedError(f"{source.name}: refused: {disk.faults[0].text}")
    else:
        _print_grid(disk, console)
    return DONE if disk.is_accepted else REFUSED


def _print_grid(disk: Disk, console: Console) -> None:
    """Prints the grid, and two lines that explain it. The colours are more than those of texts."""
    for it in rows(disk, console.has_colours):
        console.out.write(f"{it}\n")
    console.line(heading(disk))
    console.out.write(f"{legend(disk, console.has_colours)}\n")
