"""The images that a command looks through: those of a catalogue, or those of images and directories, which are examined first."""
from __future__ import annotations

import contextlib
import os
import sqlite3
from collections.abc import Iterator
from dataclasses import dataclass
from typing import Any, NamedTuple

from ..console import Console
from ..errors import ToolError
from ..sources import Source, find_images
from .catalogue import NAME, TEMPORARY, Catalogue, CatalogueError, is_catalogue, named, opened, reported, stamp_of, stored
from .outcomes import Examiner
from .progress import Progress, counted
from .verdicts import Totals, line_of, record_of
from .workers import Workers, run

_IMAGE = "id, path, member, file_size, file_time, bytes, crc32, md5, sha1, sha256, verdict, reason, label, faults.kind"


class Image(NamedTuple):
    """A row of the images of a catalogue, with the kind of its first fault."""

    id: int
    path: str
    member: str | None
    file_size: int | None
    file_time: int | None
    bytes: int | None
    crc32: str | None
    md5: str | None
    sha1: str | None
    sha256: str | None
    verdict: str
    reason: str | None
    label: str | None
    fault: str | None


class Found(NamedTuple):
    """A file or directory of an image. `state` is None, or what salvage says of it."""

    path: str
    type: str
    size: int
    bits: int
    date: str
    comment: str
    sha256: str | None
    state: str | None

    @property
    def name(self) -> str:
        return self.path.rpartition("/")[2]


@dataclass
class Collection:
    """Images, with their files, in the order of their paths. `folder` is what the paths begin at."""

    connection: sqlite3.Connection
    file: str
    folder: str
    unread: int = 0

    def name_of(self, path: object) -> str:
        """Returns the name of an image that is stored by this path, for people and as an argument."""
        return os.path.join(self.folder, named(path)) if self.folder != "." else named(path)

    def _image(self, row: tuple[Any, ...]) -> Image:
        """Returns a row as an image. A catalogue from elsewhere may hold anything."""
        image = Image(*row)
        texts = (image.member, image.crc32, image.md5, image.sha1, image.sha256, image.verdict, image.reason, image.label)
        if not all(it is None or isinstance(it, str) for it in texts) or not isinstance(image.bytes, (int, type(None))):
            raise CatalogueError(f"{self.file}: the row of an image is damaged")
        return image._replace(path=named(image.path))

    def _found(self, row: tuple[Any, ...]) -> Found:
        """Returns a row as a file or directory."""
        it = Found(*row)
        numbers = all(isinstance(number, int) and 0 <= number < 2**32 for number in (it.size, it.bits))
        if not numbers or not all(isinstance(text, str) for text in (it.path, it.type, it.date, it.comment)):
            raise CatalogueError(f"{self.file}: the row of a file is damaged")
        return it

    def images(self) -> Iterator[Image]:
        """Yields the images that are not gone."""
        query = f"SELECT {_IMAGE} FROM images LEFT JOIN faults ON faults.image = id AND place = 0 WHERE gone = 0 ORDER BY path"
        with reported(self.file):
            yield from map(self._image, self.connection.execute(query))

    def image(self, path: str) -> Image | None:
        """Returns the image that is stored by this path, if it is there and not gone."""
        query = f"SELECT {_IMAGE} FROM images LEFT JOIN faults ON faults.image = id AND place = 0 WHERE gone = 0 AND path = ?"
        with reported(self.file):
            row = self.connection.execute(query, (stored(path),)).fetchone()
        return None if row is None else self._image(row)

    def files(self, image: Image) -> Iterator[Found]:
        """Yields the files and directories of an image, or those that salvage gives of a refused one."""
        columns = "path, {}, size, bits, date, comment, sha256, {} FROM {} WHERE image = ? ORDER BY place"
        kind = "CASE WHEN state IN ('directory', 'doubtful_directory') THEN 'directory' ELSE 'file' END"
        with reported(self.file):
            for said in (("type", "NULL", "files"), (kind, "state", "salvaged")):
                yield from map(self._found, self.connection.execute(f"SELECT {columns.format(*said)}", (image.id,)))

    def source_of(self, image: Image) -> Source:
        """Returns where an image is. A path that leads out of the directory raises ToolError."""
        path = image.path if image.member is None else image.path.removesuffix(f"/{image.member}")
        if os.path.isabs(path) or ".." in path.split("/"):
            raise ToolError(f"{self.file}: '{image.path}' is outside the directory of the catalogue")
        return Source(self.name_of(path), image.member)


def _folder_of(connection: sqlite3.Connection, file: str) -> str:
    """Returns the directory of the images of a catalogue. One with the usual name is in that directory."""
    if os.path.basename(file) == NAME:
        return os.path.dirname(file) or "."
    found = connection.execute("SELECT value FROM about WHERE name = 'folder'").fetchone()
    return named(found[0]) if found else "."


@contextlib.contextmanager
def catalogued(file: str) -> Iterator[Collection]:
    """Opens the catalogue in a file."""
    with contextlib.closing(opened(file)) as connection:
        with reported(file):
            folder = _folder_of(connection, file)
        yield Collection(connection, file, folder)


class _Gathering:
    """Examines the images that an argument names into a temporary catalogue."""

    def __init__(self, path: str, console: Console, catalogue: Catalogue) -> None:
        self._path = path
        self._console = console
        self._catalogue = catalogue
        self._totals = Totals()

    def _unread(self, fault: Exception) -> None:
        self._totals.unread += 1
        self._console.error(fault)

    def run(self, examiner: Examiner, workers: Workers) -> int:
        """Returns how many could not be read."""
        sources = find_images([self._path], on_error=self._unread)
        with Progress(self._console, counted([self._path], self._console)) as progress:
            with contextlib.closing(run(examiner, sources, workers)) as outcomes:
                for outcome in outcomes:
                    record = record_of(outcome)
                    if outcome.failure is not None:
                        self._unread(ToolError("".join(text for text, _ in line_of(outcome.source.name, record))))
                    self._catalogue.put(outcome.source, stamp_of(outcome.source), record)
                    progress.step(record.verdict)
        return self._totals.unread


@contextlib.contextmanager
def collected(path: str, examiner: Examiner, workers: Workers, console: Console) -> Iterator[Collection]:
    """Opens the catalogue at a path, or examines the images that the path names."""
    if is_catalogue(path):
        with catalogued(path) as collection:
            yield collection
        return
    folder = path if os.path.isdir(path) else os.path.dirname(path) or "."
    with contextlib.closing(Catalogue(TEMPORARY, folder)) as catalogue:
        unread = _Gathering(path, console, catalogue).run(examiner, workers)
        yield Collection(catalogue.connection, catalogue.file, folder, unread)
