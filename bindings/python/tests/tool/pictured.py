"""Images whose pictures are tested."""
from __future__ import annotations

import importlib.util
import os
import shutil

import jiponuwha as jip

from .tool_help import ToolCase

ROOT, BITMAP = 880, 881
JINJA = importlib.util.find_spec("jinja2") is not None
NO_JINJA = "there is no jinja2 (Debian: python3-jinja2)"
CHROMIUM = shutil.which("chromium") or ""
NO_CHROMIUM = "there is no chromium (Debian: chromium)"
# Names and texts that a page, a terminal or a picture must not act on. A name has no `/` and no `:`, and at most 30 bytes.
MARKUP = b"<img src=x onerror=alert(1)>"
QUOTES = b"\"'><b>&amp;{{7*7}}"
CONTROLS = bytes(range(1, 30))
HIGH = bytes(range(0x7F, 0x9A))
COMMENT = b"</title></svg></style><script>alert(1)</script>{% raw %}\x1b[2J"
HOSTILE = (MARKUP, QUOTES, CONTROLS, HIGH)


class Tried(ToolCase):
    """A test that writes images and documents into its directory."""

    def path(self, name: str | bytes) -> str:
        return os.path.join(self.top, os.fsdecode(name))

    def write(self, name: str | bytes, data: bytes) -> str:
        """Writes a file, and returns its path."""
        path = self.path(name)
        with open(path, "wb") as file:
            file.write(data)
        return path

    def content(self, name: str) -> str:
        with open(self.path(name), encoding="utf-8") as file:
            return file.read()


def sound(format: jip.Format = jip.Format.FFS, blocks: int = jip.DOUBLE_DENSITY) -> bytes:
    """Returns an image with two directories, three files, a deleted file, and a comment."""
    with jip.create("Work", format=format, blocks=blocks, clock=lambda: jip.Date(4383, 720)) as floppy:
        floppy.mkdir("Docs")
        floppy.mkdir("Empty")
        floppy["Docs/long"] = bytes(range(256)) * 200
        floppy["Docs/short"] = b"a letter"
        floppy.comment("Docs/short", "read \xe9t")
        floppy.protect("Docs/short", 5)
        floppy["none"] = b""
        floppy["gone"] = bytes(3_000)
        floppy.remove("gone")
        image = floppy.image()
        floppy.close(discard=True)
    return image


def hostile() -> bytes:
    """Returns an image whose label, names and comments are hostile."""
    with jip.create(MARKUP) as floppy:
        for name in HOSTILE:
            floppy[name] = b"x" * 600
            floppy.comment(name, COMMENT)
        floppy.mkdir(b"{{ 7 }}")
        image = floppy.image()
        floppy.close(discard=True)
    return image


def header(image: bytes, path: str | bytes) -> int:
    """Returns the number of the header of an entry."""
    with jip.open(image) as floppy:
        return floppy.stat(path).key


def damaged(image: bytes, *places: int) -> bytes:
    """Returns an image with another value of one bit in each of these bytes."""
    changed = bytearray(image)
    for place in places:
        changed[place] ^= 1
    return bytes(changed)


def without(image: bytes, block: int) -> bytes:
    """Returns an image in which a block is all zeros."""
    return image[: 512 * block] + bytes(512) + image[512 * (block + 1) :]
