"""What a picture shows a block as: its kind, with the letter, the colour's class and the text of the legend."""
from __future__ import annotations

from enum import Enum

from ... import Role


class Kind(Enum):
    """A kind of block. The last three are of an image that is refused. `BYTES` is for a size that no image has, where nothing is known."""

    BOOT = ("B", "boot", "boot block", "boot blocks")
    ROOT = ("R", "root", "root block", "root blocks")
    BITMAP = ("M", "bitmap", "bitmap block", "bitmap blocks")
    DIRECTORY = ("D", "dir", "directory", "directories")
    FILE = ("F", "file", "file header", "file headers")
    EXTENSION = ("X", "ext", "extension block", "extension blocks")
    DATA = ("#", "data", "data block", "data blocks")
    LOST = ("L", "lost", "lost block", "lost blocks")
    FREE = (".", "free", "free block", "free blocks")
    GONE = ("?", "gone", "lost header", "lost headers")
    BYTES = ("+", "bytes", "block with data", "blocks with data")
    ZEROS = (".", "zeros", "empty block", "empty blocks")

    def __init__(self, letter: str, look: str, one: str, many: str) -> None:
        self.letter = letter
        self.look = look
        self.one = one
        self.many = many

    def counted(self, count: int) -> str:
        """Returns the text of the legend for so many blocks."""
        return f"{count:,} {self.one if count == 1 else self.many}"


OF_ROLE = {
    Role.FREE: Kind.FREE,
    Role.BOOT: Kind.BOOT,
    Role.ROOT: Kind.ROOT,
    Role.BITMAP: Kind.BITMAP,
    Role.DIRECTORY: Kind.DIRECTORY,
    Role.FILE: Kind.FILE,
    Role.EXTENSION: Kind.EXTENSION,
    Role.DATA: Kind.DATA,
    Role.LOST: Kind.LOST,
}
