"""Entries, volumes, dates and faults, as Python values."""
from __future__ import annotations

import ctypes
import struct
import time as clock
from typing import TYPE_CHECKING, NamedTuple

from ._library import CDate, CDisk, CEntry, CFault, CFinding, COwner, fault_text, library
from ._numbers import EntryType, FaultKind, Format, Role
from ._types import wrong_type

if TYPE_CHECKING:
    import datetime

_SECOND = 10**9


def letters(data: bytes) -> str:
    """Decodes bytes of an Amiga as ISO 8859-1."""
    return data.decode("iso-8859-1")


class Date(NamedTuple):
    """A date of AmigaDOS: days since 1 January 1978, minutes since midnight, and ticks of 1/50 second in the minute."""

    days: int
    minutes: int = 0
    ticks: int = 0

    @classmethod
    def of(cls, time: datetime.datetime) -> Date:
        """Converts a time. A time with a zone is converted to UTC. A time before 1978 becomes the first day."""
        import datetime

        if not isinstance(time, datetime.datetime):
            raise wrong_type("the time", time, "a datetime")
        if time.tzinfo is not None:
            time = time.astimezone(datetime.timezone.utc).replace(tzinfo=None)
        past = time - datetime.datetime(1970, 1, 1)
        return cls._at(past.days * 86_400 + past.seconds, past.microseconds * 1_000)

    @classmethod
    def now(cls) -> Date:
        """Returns the date of the host's clock, in UTC."""
        return cls._at(*divmod(clock.time_ns(), _SECOND))

    @classmethod
    def _at(cls, seconds: int, nanoseconds: int) -> Date:
        found = CDate()
        library.jip_date_of_time(seconds, nanoseconds, found)
        return cls(found.days, found.minutes, found.ticks)

    def time(self) -> datetime.datetime:
        """Converts the date to a time without a zone. A date after the year 9999 raises OverflowError."""
        import datetime

        seconds, nanoseconds = ctypes.c_int64(), ctypes.c_uint32()
        library.jip_time_of_date(self.as_c(), seconds, nanoseconds)
        past = datetime.timedelta(seconds=seconds.value, microseconds=nanoseconds.value // 1_000)
        return datetime.datetime(1970, 1, 1) + past

    def as_c(self) -> CDate:
        """Converts the date to the struct of the library. A number outside 0 to 2**32 - 1 raises ValueError."""
        if not all(0 <= it < 2**32 for it in self):
            raise ValueError(f"no date of AmigaDOS: {self}")
        return CDate(self.days, self.minutes, self.ticks)


def date_of(given: CDate) -> Date:
    return Date(given.days, given.minutes, given.ticks)


class Entry(NamedTuple):
    """A file or a directory.

    `size` is in bytes, and 0 for a directory. `blocks` counts all blocks of the entry. `bits` are the protection bits: set
    bits 0 to 3 deny deleting, executing, writing and reading. `date` is the date of the last change. `key` is the block
    number of the header.
    """

    name: str
    type: EntryType
    size: int
    blocks: int
    bits: int
    date: Date
    comment: str
    key: int

    @property
    def is_file(self) -> bool:
        return self.type == EntryType.FILE

    @property
    def is_dir(self) -> bool:
        return not self.is_file

    @property
    def name_bytes(self) -> bytes:
        return self.name.encode("iso-8859-1")

    @property
    def comment_bytes(self) -> bytes:
        return self.comment.encode("iso-8859-1")


def entry_of(given: CEntry) -> Entry:
    return Entry(
        name=letters(bytes(given.name)[: given.name_length]),
        type=EntryType(given.entry_type),
        size=given.size,
        blocks=given.blocks,
        bits=given.protection,
        date=date_of(given.date),
        comment=letters(bytes(given.comment)[: given.comment_length]),
        key=given.key,
    )


class Info(NamedTuple):
    """A volume. `blocks` counts the blocks after the two boot blocks, and `used` and `free` are of these.

    `bytes_per_block` is the number of a file's bytes in a data block: 488 with OFS and 512 with FFS.
    """

    label: str
    format: Format
    blocks: int
    used: int
    bytes_per_block: int

    @property
    def free(self) -> int:
        return self.blocks - self.used


def info_of(label: str, given: CDisk) -> Info:
    kind = int(given.disk_type).to_bytes(4, "big")
    return Info(label, Format(kind[3]), given.blocks, given.used, given.bytes_per_block)


class Fault(NamedTuple):
    """A fault of an image: its kind, and the number of the block that shows it.

    If a single long of the block shows the fault, `at` says which, from 0 to 127, and `found` what it is. `wanted` is what it
    has to be, if only one number is right.
    """

    kind: FaultKind
    block: int
    at: int | None = None
    found: int | None = None
    wanted: int | None = None

    @property
    def text(self) -> str:
        return fault_text(self.kind)


class Faults(tuple[Fault, ...]):
    """The faults of an image, by block and then by kind, the first 1,000. `more` says whether there are others."""

    more: bool = False


def fault_of(given: CFault) -> Fault:
    return Fault(FaultKind(given.kind), given.block)


def finding_of(given: CFinding) -> Fault:
    kind, block = FaultKind(given.kind), given.block
    if given.known == 0:
        return Fault(kind, block)
    return Fault(kind, block, given.at, given.found, given.wanted if given.known == 2 else None)


class Owner:
    """Who owns a block.

    `header` is the block number of the header of its file or directory, also for that header itself, and 0 if there is none.
    `index` says which data block, extension block or bitmap block it is, from 0.
    """

    __slots__ = ("role", "header", "index")

    def __init__(self, role: Role, header: int = 0, index: int = 0) -> None:
        self.role, self.header, self.index = role, header, index

    def _fields(self) -> tuple[Role, int, int]:
        return self.role, self.header, self.index

    def __eq__(self, other: object) -> bool:
        return isinstance(other, Owner) and self._fields() == other._fields()

    def __hash__(self) -> int:
        return hash(self._fields())

    def __repr__(self) -> str:
        return f"Owner(role={self.role!r}, header={self.header}, index={self.index})"


# (looked up, since an image has many blocks)
_ROLES = {int(it): it for it in Role}
_PLAIN = {int(it): Owner(it) for it in Role}


def owner_of(role: int, header: int, index: int) -> Owner:
    return Owner(_ROLES[role], header, index) if header or index else _PLAIN[role]


def owners_of(given: ctypes.Array[COwner]) -> list[Owner]:
    # (faster than by the fields of each struct)
    return [owner_of(*it) for it in struct.iter_unpack("=3I", given)]
