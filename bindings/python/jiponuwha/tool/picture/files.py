"""Writes pages and pictures to files. Nothing else is replaced by them."""
from __future__ import annotations

import os
import re

from ..console import Console
from ..errors import RefusedError
from ..replace import replace

# What the first bytes of each page and picture have.
_OURS = (b'<meta name="generator" content="jip ', b'<svg xmlns="http://www.w3.org/2000/svg" class="blocks"')
_FIRST = 2048
_LONGEST = 60


def write_document(path: str, text: str, console: Console) -> None:
    """Writes a page or a picture to a file, or to standard output if the path is `-`. A file that is there already is replaced only
    if it is such a document. A pipe or a device is written directly."""
    data = text.encode()
    if path == "-":
        console.data(data)
    elif os.path.exists(path) and not os.path.isfile(path):
        with open(path, "wb") as file:
            file.write(data)
    else:
        _look_before(path)
        replace(path, data)


def _look_before(path: str) -> None:
    """Raises RefusedError if a file is there that is no document of ours."""
    if not os.path.exists(path):
        return
    with open(path, "rb") as file:
        first = file.read(_FIRST)
    if first and not any(it in first for it in _OURS):
        raise RefusedError(f"{path}: this file is there already, and is no page or picture of jip; nothing was written")


def is_folder(path: str) -> bool:
    """Whether a path names a directory, which may still have to be made."""
    return path.endswith("/") or os.path.isdir(path)


class Names:
    """The names of the files of a directory, one for each image. They have plain letters, and differ in any case."""

    def __init__(self, suffix: str, taken: str = "") -> None:
        self._suffix = suffix
        self._taken = {taken}

    def name(self, image: str) -> str:
        """Returns a new name that looks like that of an image."""
        plain = re.sub(r"[^A-Za-z0-9._-]+", "_", os.path.basename(image)).lstrip("._-")[:_LONGEST] or "disk"
        name, count = plain + self._suffix, 1
        while name.lower() in self._taken:
            count += 1
            name = f"{plain}-{count}{self._suffix}"
        self._taken.add(name.lower())
        return name
