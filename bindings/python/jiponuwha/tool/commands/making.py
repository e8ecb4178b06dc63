"""`jip new`: makes an image, with files."""
from __future__ import annotations

import argparse
import os

from ... import DOUBLE_DENSITY, HIGH_DENSITY, Format, Volume, create, with_boot_block
from ..change import Change, report
from ..console import Console
from ..declare import Subparsers, add_changes, command
from ..errors import DONE, RefusedError, ToolError
from ..items import items_of_host
from ..sources import Source
from .copying import checked, keep, put


def register(subparsers: Subparsers) -> None:
    made = command(
        subparsers,
        "new",
        new,
        "make an image, empty or with the files of a directory",
        "jip new work.adf Work",
        "jip new --ffs --from files games.adf Games",
    )
    made.add_argument("image", metavar="IMAGE", help="the new file; a name that ends in .adz is compressed")
    made.add_argument("label", metavar="LABEL", help="the name of the volume, of 1 to 30 letters without / and :")
    made.add_argument("--ffs", action="store_true", help="the Fast File System; default: the Old File System")
    size = made.add_mutually_exclusive_group()
    size.add_argument("--hd", action="store_true", help=f"high density, {HIGH_DENSITY:,} blocks; default: {DOUBLE_DENSITY:,}")
    size.add_argument("--blocks", type=int, metavar="N", help="another number of blocks, from 16 to 101,602")
    made.add_argument("--boot", action="store_true", help="install the standard boot block")
    made.add_argument("--from", dest="folder", metavar="DIR", help="put everything in this directory into the image")
    add_changes(made)


def blank(label: str, format: Format, blocks: int) -> Volume:
    """Returns a blank volume. A name or a size that no volume has is refused."""
    try:
        return create(label, format=format, blocks=blocks)
    except ValueError:
        # (the library does not say which of both is wrong)
        raise RefusedError(
            f"no volume '{label}' of {blocks:,} blocks: the name has 1 to 30 letters of ISO 8859-1 without / and :, the size is 16 to 101,602 blocks"
        ) from None


def fill(volume: Volume, source: Source, folder: str, console: Console) -> list[str]:
    """Puts everything in a directory of the host into a volume, and returns what was done."""
    if not os.path.isdir(folder):
        raise ToolError(f"{folder}: not a directory")
    skipped: list[str] = []
    items = items_of_host(os.path.join(folder, "."), True, skipped)
    for path in skipped:
        console.error(f"{path}: skipped, since it is neither a file nor a directory")
    checked([(it.names, it) for it in items], f"{source.name}:")
    change = Change(source, volume)
    for it in items:
        put("/".join(it.names), it, change)
    for it in reversed(items):
        if it.names:
            keep("/".join(it.names), it.note(), change)
    return change.lines


def new(arguments: argparse.Namespace, console: Console) -> int:
    source = Source(arguments.image)
    if os.path.lexists(arguments.image):
        raise ToolError(f"{arguments.image}: there is a file with this name already")
    if not source.can_write:
        raise ToolError(f"{arguments.image}: an image in a ZIP or DMS file cannot be made")
    blocks = HIGH_DENSITY if arguments.hd else DOUBLE_DENSITY if arguments.blocks is None else arguments.blocks
    with blank(arguments.label, Format.FFS if arguments.ffs else Format.OFS, blocks) as volume:
        info = volume.info()
        lines = [f"made '{source.name}': {info.label}, {info.format.name}, {len(volume.map()):,} blocks"]
        if arguments.folder is not None:
            lines += fill(volume, source, arguments.folder, console)
        image = volume.image()
        volume.close(discard=True)
    if not arguments.dry_run:
        if arguments.boot:
            image = with_boot_block(image)
        source.write(image)
    report(lines, arguments, console)
    return DONE
