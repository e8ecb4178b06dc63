"""Logiqx files, which managers of ROM collections read: written from a collection, and read for a comparison."""
from __future__ import annotations

import os
import re
from collections.abc import Iterator
from typing import NamedTuple
from xml.etree import ElementTree

from ..errors import ToolError
from ..escape import shown
from .collection import Collection, Image
from .examine import Verdict

_HEAD = (
    '<?xml version="1.0" encoding="UTF-8"?>\n'
    '<!DOCTYPE datafile PUBLIC "-//Logiqx//DTD ROM Management Datafile//EN" "http://www.logiqx.com/Dats/datafile.dtd">\n'
    "<datafile>\n"
)
# What XML 1.0 cannot hold, and is no control character.
_NO_XML = re.compile("[\ufffe\uffff]")
# Kinds of faults that say that an image is of another file system, and not that it is damaged.
_OTHER_DISKS = ("NotADosDisk", "UnsupportedKind")


class Rom(NamedTuple):
    """An image that a file names: the set, the name in it, and what is known of its bytes."""

    game: str
    name: str
    size: int | None
    crc: str | None
    md5: str | None
    sha1: str | None

    @property
    def text(self) -> str:
        return f"{self.game}/{self.name}"


def xml_text(text: str) -> str:
    """Returns a text that XML can hold. Control characters and bytes that are not UTF-8 are `%` and two hexadecimal digits."""
    return _NO_XML.sub(lambda found: "".join(f"%{it:02X}" for it in found[0].encode()), shown(text))


def _safe(path: str) -> str:
    """Returns a path that leads nowhere else when a manager makes a file of it."""
    parts = [it for it in path.replace("\\", "/").split("/") if it]
    return "/".join("%2E" * len(it) if it in (".", "..") else it for it in parts) or "%2E"


def _set_of(image: Image) -> str:
    """Returns what is one set: a ZIP file with all its images, and any other image by itself."""
    return image.path if image.member is None else image.path.removesuffix(f"/{image.member}")


def names_of(image: Image) -> tuple[str, str]:
    """Returns the names of the set and of the image in it."""
    if image.member is not None:
        return _set_of(image).removesuffix(".zip"), image.member
    folder, name = os.path.split(image.path)
    stem = re.sub(r"(?i)\.(adf\.gz|hdf\.gz|adz|hdz|dms)$", "", name)
    name = name if stem == name else f"{stem}.adf"
    return os.path.join(folder, name.removesuffix(".adf")), name


def _rom(image: Image, name: str) -> ElementTree.Element:
    said = {"name": name, "size": str(image.bytes), "crc": image.crc32, "md5": image.md5, "sha1": image.sha1}
    made = ElementTree.Element("rom", {key: xml_text(str(it)) for key, it in said.items() if it is not None})
    if image.verdict == Verdict.REFUSED and image.fault not in _OTHER_DISKS:
        made.set("status", "baddump")
    return made


def _text_of(element: ElementTree.Element) -> str:
    ElementTree.indent(element, "\t", 1)
    return f"\t{ElementTree.tostring(element, encoding='unicode')}\n"


def _header(name: str, date: str) -> ElementTree.Element:
    made = ElementTree.Element("header")
    said = {"name": name, "description": f"{name}: images of Amiga disks", "version": date, "date": date, "author": "jip"}
    for key, text in said.items():
        ElementTree.SubElement(made, key).text = xml_text(text)
    return made


def lines(collection: Collection, name: str, date: str) -> Iterator[str]:
    """Yields the parts of a Logiqx file with the images of a collection that were read."""
    yield _HEAD + _text_of(_header(name, date))
    used: set[str] = set()
    game: ElementTree.Element | None = None
    last: str | None = None
    for image in collection.images():
        if image.sha1 is None:
            continue
        of, rom = (_safe(it) for it in names_of(image))
        if game is None or _set_of(image) != last:
            if game is not None:
                yield _text_of(game)
            last, of = _set_of(image), _safe(_set_of(image)) if of in used else of
            used.add(of)
            game = ElementTree.Element("game", {"name": xml_text(of)})
            ElementTree.SubElement(game, "description").text = xml_text(image.label or of)
        game.append(_rom(image, rom))
    if game is not None:
        yield _text_of(game)
    yield "</datafile>\n"


def _number(text: str | None) -> int | None:
    return int(text) if text is not None and text.isascii() and text.isdigit() and len(text) < 19 else None


def _lower(text: str | None) -> str | None:
    return text.strip().lower() if text else None


def roms(file: str) -> Iterator[Rom]:
    """Yields the images that a Logiqx file names, in its order. The file is never held as a whole."""
    try:
        for _, element in ElementTree.iterparse(file):
            if element.tag not in ("game", "machine", "set"):
                continue
            for it in element.iter("rom"):
                sums = (_lower(it.get("crc")), _lower(it.get("md5")), _lower(it.get("sha1")))
                yield Rom(element.get("name", ""), it.get("name", ""), _number(it.get("size")), *sums)
            element.clear()
    except ElementTree.ParseError as fault:
        raise ToolError(f"{file}: not a Logiqx file: {fault}") from None
