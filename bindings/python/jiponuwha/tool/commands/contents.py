"""`jip cat` and `jip hex`: the bytes of files, and of blocks."""
from __future__ import annotations

import argparse
import re
from collections.abc import Iterator

from ... import DOUBLE_DENSITY, HIGH_DENSITY, NotAnImage, Owner, Role, Volume, salvage
from ..._numbers import BLOCK_BYTES
from ..change import in_image
from ..console import Console
from ..declare import Subparsers, command
from ..errors import DONE, RefusedError, UsageError
from ..patterns import expand
from ..sources import Source
from ..volumes import contents, each_argument, opened

PLACE = re.compile(r"c([0-9]{1,6})\.h([01])\.s([0-9]{1,6})")
PARTS = {
    Role.FREE: "free",
    Role.BOOT: "boot block",
    Role.ROOT: "root",
    Role.BITMAP: "bitmap block {index}",
    Role.DIRECTORY: "header of {path}/",
    Role.FILE: "header of {path}",
    Role.EXTENSION: "extension {index} of {path}",
    Role.DATA: "data {index} of {path}",
    Role.LOST: "lost: in use, and of no file",
}


def register(subparsers: Subparsers) -> None:
    made = command(
        subparsers,
        "cat",
        cat,
        "write the bytes of files to standard output",
        "jip cat work.adf:S/startup-sequence",
        "jip cat 'work.adf:Docs/#?.txt'",
    )
    made.add_argument("paths", nargs="+", metavar="IMAGE:PATH", help="a file; patterns are allowed")
    made = command(
        subparsers,
        "hex",
        hex_command,
        "show the bytes of a file or of a block in hexadecimal",
        "jip hex work.adf:Docs/hello",
        "jip hex work.adf:@880",
        "jip hex work.adf:@c40.h0.s0",
    )
    made.add_argument(
        "paths",
        nargs="+",
        metavar="IMAGE:PATH or IMAGE:@BLOCK",
        help="a file, or a block by its number, or by cylinder, head and sector; the owner of a block is shown too",
    )


def files_of(volume: Volume, inside: str) -> Iterator[tuple[str, bytes]]:
    """Yields the files that a path names, each with its bytes. A directory is refused."""
    for path, entry in expand(volume, inside):
        if entry.is_dir:
            raise RefusedError(f"{volume.path}:{path}: a directory, and not a file")
        yield path, contents(volume, path)


def cat(arguments: argparse.Namespace, console: Console) -> int:
    def one(argument: str) -> None:
        source, inside = in_image(argument)
        with opened(source) as volume:
            for _, data in files_of(volume, inside or ""):
                console.data(data)

    return each_argument(arguments.paths, one, console)


def hex_lines(data: bytes, start: int = 0) -> Iterator[str]:
    """Yields lines of 16 bytes: the offset, the bytes, and the printable letters of ASCII."""
    for at in range(0, len(data), 16):
        part = data[at : at + 16]
        letters = "".join(chr(it) if 0x20 <= it < 0x7F else "." for it in part)
        yield f"{start + at:06x}  {part[:8].hex(' '):<23}  {part[8:].hex(' '):<23}  |{letters}|"


def sectors_of(blocks: int) -> int:
    """Returns the number of sectors of a track, as on a floppy."""
    return HIGH_DENSITY // 160 if blocks == HIGH_DENSITY else DOUBLE_DENSITY // 160


def block_of(text: str, blocks: int) -> int:
    """Returns the number of the block that a text names. One that the image does not have raises RefusedError."""
    sectors = sectors_of(blocks)
    if re.fullmatch(r"[0-9]{1,9}", text):
        block = int(text)
    elif (found := PLACE.fullmatch(text)) and int(found[3]) < sectors:
        block = (int(found[1]) * 2 + int(found[2])) * sectors + int(found[3])
    else:
        raise UsageError(f"no block: '@{text}'; expected a number as @880, or cylinder, head and sector as @c40.h0.s0")
    if block >= blocks:
        raise RefusedError(f"there is no block {block:,}; the image has {blocks:,} blocks")
    return block


def owner_line(owner: Owner, path: str | None) -> str:
    shown = f"the file at block {owner.header}" if path is None else path
    return PARTS[owner.role].format(index=owner.index, path=shown)


def owner_of(source: Source, block: int) -> str:
    """Returns what a block is used for, or that the image is refused."""
    try:
        with opened(source) as volume:
            return owner_line(*volume.where(block))
    except NotAnImage as fault:
        here = [it for it in fault.faults if it.block == block]
        return f"{salvaged_owner(source.read(), block)}; the image is refused{''.join(f'; {it.text}' for it in here)}"


def salvaged_owner(image: bytes, block: int) -> str:
    """Returns what a block of a refused image is used for, as far as salvage tells."""
    try:
        saved = salvage(image)
    except NotAnImage:
        return "owner unknown"
    owner = saved.owners[block]
    if owner.role == Role.FREE and not saved.trusts_bitmap:
        return "empty"
    return owner_line(owner, next((it.path for it in saved if it.header == owner.header), None))


def print_block(source: Source, text: str, console: Console) -> None:
    image = source.read()
    blocks = len(image) // BLOCK_BYTES
    block = block_of(text, blocks)
    track, sector = divmod(block, sectors_of(blocks))
    console.line(f"{source.name}: block {block}, cylinder {track // 2} head {track % 2} sector {sector}: {owner_of(source, block)}", "bold")
    for line in hex_lines(image[block * BLOCK_BYTES : (block + 1) * BLOCK_BYTES]):
        console.line(line)


def hex_command(arguments: argparse.Namespace, console: Console) -> int:
    def one(argument: str) -> None:
        source, given = in_image(argument)
        inside = given or ""
        if inside.startswith("@"):
            print_block(source, inside[1:], console)
            return
        with opened(source) as volume:
            for path, data in files_of(volume, inside):
                console.line(f"{source.name}:{path}: {len(data):,} bytes", "bold")
                for line in hex_lines(data):
                    console.line(line)

    return each_argument(arguments.paths, one, console)
