"""A catalogue of an archive: a SQLite file with the records of its images. One process at a time writes to it."""
from __future__ import annotations

import contextlib
import os
import sqlite3
from collections.abc import Iterator
from pathlib import Path
from typing import Any, NamedTuple

from ..errors import ToolError
from ..sources import Source
from .examine import FaultRow, FileRow, Record, SavedRow, Verdict
from .schema import APPLICATION, TABLES, VERSION

# The name of the catalogue in the directory of its images, unless another file is named.
NAME = "jip-catalogue.sqlite"
_IMAGE = (
    "path, member, container, file_size, file_time, bytes, crc32, md5, sha1, sha256, verdict, reason, kind, label, blocks, used, free, "
    "boot_sha1, boot, boot_sum, more_faults"
)
TEMPORARY = ""
# The first bytes of each file of SQLite.
_MAGIC = b"SQLite format 3\0"
# How long a catalogue that another process writes to is waited for, in seconds.
_PATIENCE = 30


class CatalogueError(ToolError):
    """A catalogue cannot be read or written."""


class Stamp(NamedTuple):
    """The size of a file of the host in bytes, and the time of its last change in nanoseconds, if they can be had."""

    size: int | None
    time: int | None


def stamp_of(source: Source) -> Stamp:
    """Returns the size and the time of the file that an image is in."""
    try:
        found = os.stat(source.path)
    except (OSError, ValueError):
        return Stamp(None, None)
    return Stamp(found.st_size, found.st_mtime_ns)


def below(folder: str, source: Source) -> str:
    """Returns the path of an image below a directory. The name of a member in a ZIP file follows as it is."""
    path = os.path.relpath(source.path, folder)
    return path if source.member is None else f"{path}/{source.member}"


def container_of(source: Source) -> str:
    """Returns what an image is packed in: `zip`, `gzip`, `dms`, or `` if it is a file by itself."""
    if source.member is not None:
        return "zip"
    name = source.path.lower()
    return "dms" if name.endswith(".dms") else "gzip" if name.endswith((".adz", ".hdz", ".gz")) else ""


def stored(text: str) -> str | bytes:
    """Returns a name of the host as it is stored: text, or its bytes if it is not UTF-8."""
    try:
        text.encode()
    except UnicodeEncodeError:
        return os.fsencode(text)
    return text


def named(value: object) -> str:
    """Returns the name of the host that was stored."""
    return os.fsdecode(value) if isinstance(value, bytes) else str(value)


# The first bytes of each file of SQLite.
_MAGIC = b"SQLite format 3\0"


@contextlib.contextmanager
def reported(file: str) -> Iterator[None]:
    """Raises each failure of SQLite as a CatalogueError with the name of the file."""
    try:
        yield
    except sqlite3.Error as fault:
        raise CatalogueError(f"{file}: {fault}") from None


def _connected(file: str, write: bool) -> sqlite3.Connection:
    place = f"{Path(file).absolute().as_uri()}?mode={'rwc' if write else 'ro'}" if file != TEMPORARY else file
    made = sqlite3.connect(place, uri=True, timeout=_PATIENCE, isolation_level=None)
    made.execute("PRAGMA trusted_schema = OFF")
    made.execute("PRAGMA foreign_keys = ON")
    return made


def _number(connection: sqlite3.Connection, name: str) -> int:
    return int(connection.execute(f"PRAGMA {name}").fetchone()[0])


def is_catalogue(path: str) -> bool:
    """Whether a file is one of SQLite, so that it is read as a catalogue and not as an image."""
    try:
        if not os.path.isfile(path):
            return False
        with open(path, "rb") as file:
            return file.read(len(_MAGIC)) == _MAGIC
    except (OSError, ValueError):
        return False


def _expect_version(connection: sqlite3.Connection, file: str) -> None:
    if _number(connection, "application_id") != APPLICATION:
        raise CatalogueError(f"{file}: not a catalogue of jip")
    version = _number(connection, "user_version")
    if version != VERSION:
        raise CatalogueError(f"{file}: a catalogue of version {version}, and this jip has version {VERSION}; catalog to another file")


def opened(file: str) -> sqlite3.Connection:
    """Opens a catalogue to read it."""
    if not os.path.isfile(file):
        raise CatalogueError(f"{file}: no such catalogue; 'jip catalog DIR --db {file}' makes one")
    with reported(file):
        connection = _connected(file, write=False)
        try:
            _expect_version(connection, file)
        except BaseException:
            connection.close()
            raise
        return connection


class Catalogue:
    """A catalogue that is open for writing. Each image is one transaction, so a killed process loses at most the image at work."""

    def __init__(self, file: str, folder: str) -> None:
        """Opens the catalogue of a directory. A new or empty file becomes one. TEMPORARY is a new one, which is deleted at the end."""
        self.file = file or "the temporary catalogue"
        self._folder = folder
        with reported(self.file):
            self._connection = _connected(file, write=True)
        try:
            with reported(self.file):
                self._prepare()
        except BaseException:
            self._connection.close()
            raise

    def _prepare(self) -> None:
        is_new = _number(self._connection, "application_id") == 0 and not self._all("SELECT 1 FROM sqlite_master")
        if not is_new:
            _expect_version(self._connection, self.file)
        # (a commit then costs no wait for the disk; a crash of the machine may lose the last ones, and nothing else)
        self._connection.execute("PRAGMA journal_mode = WAL")
        self._connection.execute("PRAGMA synchronous = NORMAL")
        if is_new:
            with self._transaction():
                for statement in TABLES.split(";"):
                    self._connection.execute(statement)
                self._connection.execute(f"PRAGMA application_id = {APPLICATION}")
                self._connection.execute(f"PRAGMA user_version = {VERSION}")
        self._connection.execute("CREATE TEMP TABLE seen (id INTEGER PRIMARY KEY)")

    def _all(self, query: str, *values: object) -> list[Any]:
        return self._connection.execute(query, values).fetchall()

    @contextlib.contextmanager
    def _transaction(self) -> Iterator[None]:
        self._connection.execute("BEGIN IMMEDIATE")
        try:
            yield
        except BaseException:
            with contextlib.suppress(sqlite3.Error):
                self._connection.execute("ROLLBACK")
            raise
        self._connection.execute("COMMIT")

    # ---- The directory ----

    @property
    def folder(self) -> str | None:
        """The directory of the images, as it was at the last run."""
        found = self._all("SELECT value FROM about WHERE name = 'folder'")
        return named(found[0][0]) if found else None

    def settle_folder(self) -> None:
        """Notes the directory of the images."""
        with reported(self.file), self._transaction():
            self._connection.execute("INSERT OR REPLACE INTO about VALUES ('folder', ?)", (stored(self._folder),))

    def path_of(self, source: Source) -> str:
        """Returns the path of an image below the directory."""
        return below(self._folder, source)

    # ---- Images ----

    def is_known(self, source: Source, stamp: Stamp) -> bool:
        """Whether the image is in the catalogue, and its file has the same size and time as then. It is then seen in this run. One that
        could not be read is never known."""
        query = "SELECT id, file_size, file_time, verdict, gone FROM images WHERE path = ?"
        with reported(self.file):
            found = self._all(query, stored(self.path_of(source)))
            if not found or tuple(found[0][1:3]) != stamp or found[0][3] == Verdict.UNREADABLE:
                return False
            self._connection.execute("INSERT OR IGNORE INTO seen VALUES (?)", (found[0][0],))
            if found[0][4]:
                self._connection.execute("UPDATE images SET gone = 0 WHERE id = ?", (found[0][0],))
        return True

    def put(self, source: Source, stamp: Stamp, record: Record) -> None:
        """Writes the record of an image, in place of an older one."""
        path = stored(self.path_of(source))
        sums = record.sums or (None, None, None, None)
        values = (
            *(path, source.member, container_of(source), *stamp, record.bytes, *sums, record.verdict, record.reason),
            *(record.kind, record.label, record.blocks, record.used, record.free, *record.boot, int(record.more_faults)),
        )
        with reported(self.file), self._transaction():
            self._connection.execute("DELETE FROM images WHERE path = ?", (path,))
            query = f"INSERT INTO images ({_IMAGE}) VALUES ({', '.join('?' * len(values))})"
            image = self._connection.execute(query, values).lastrowid
            self._put_rows("files", image, record.files)
            self._put_rows("faults", image, record.faults)
            self._put_rows("salvaged", image, record.salvaged)
            self._connection.execute("INSERT OR IGNORE INTO seen VALUES (?)", (image,))

    def _put_rows(self, table: str, image: int | None, rows: tuple[FileRow, ...] | tuple[FaultRow, ...] | tuple[SavedRow, ...]) -> None:
        if rows:
            query = f"INSERT INTO {table} VALUES ({', '.join('?' * (2 + len(rows[0])))})"
            self._connection.executemany(query, ((image, place, *row) for place, row in enumerate(rows)))

    def settle_gone(self, prune: bool = False) -> int:
        """Marks the images that were not seen in this run as gone, or deletes them. Returns how many there are."""
        unseen = "id NOT IN (SELECT id FROM seen)"
        with reported(self.file), self._transaction():
            count = int(self._all(f"SELECT count(*) FROM images WHERE {unseen}")[0][0])
            self._connection.execute(f"DELETE FROM images WHERE {unseen}" if prune else f"UPDATE images SET gone = 1 WHERE {unseen}")
        return count

    def verdicts(self) -> dict[str, int]:
        """Returns how many images have each verdict. Those that are gone are left out."""
        with reported(self.file):
            return dict(self._all("SELECT verdict, count(*) FROM images WHERE gone = 0 GROUP BY verdict ORDER BY verdict"))

    @property
    def connection(self) -> sqlite3.Connection:
        """The connection, for queries."""
        return self._connection

    def close(self) -> None:
        """Closes the catalogue. What is in it is in the one file then."""
        with contextlib.suppress(sqlite3.Error):
            self._connection.execute("PRAGMA journal_mode = DELETE")
        self._connection.close()
