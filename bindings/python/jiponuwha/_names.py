"""Names of host files, protection letters, and the notes that emulators keep beside files. The library converts them."""
from __future__ import annotations

import ctypes
from collections.abc import Callable
from typing import Any, NamedTuple

from ._errors import dos_error
from ._library import CDate, CNote, error_text, library
from ._numbers import Error, Status
from ._path import name_bytes
from ._types import need_int, need_str, wrong_type
from ._values import Date, date_of, letters


def text_by(function: Callable[..., int], *arguments: Any) -> bytes:
    """Calls a library function that writes a text into a buffer, and returns the text."""
    room = ctypes.create_string_buffer(256)
    length = ctypes.c_size_t()
    _settle(function(*arguments, room, len(room), length))
    if length.value > len(room):
        room = ctypes.create_string_buffer(length.value)
        _settle(function(*arguments, room, len(room), length))
    return room.raw[: length.value]


def _settle(status: int) -> None:
    if status == Status.NO_MEMORY:
        raise MemoryError(error_text(status))
    if status != Status.DONE:
        raise ValueError(error_text(status))


def host_name(name: str | bytes) -> str:
    """Returns the name of the host file for an entry: `%` and two digits for bytes that a host cannot have in a name.

    A text that is not the name of an entry raises InvalidName.
    """
    raw = name_bytes(name)
    if not library.jip_is_name(raw, len(raw)):
        raise dos_error(Error.INVALID_COMPONENT_NAME, name)
    return text_by(library.jip_host_of_name, raw, len(raw)).decode()


def entry_name(host: str) -> str:
    """Returns the name of the entry for a host file. A file that no entry can be named after raises InvalidName."""
    need_str("the name of the host file", host)
    raw = host.encode(errors="surrogateescape")
    try:
        name = text_by(library.jip_name_of_host, raw, len(raw))
    except ValueError:
        raise dos_error(Error.INVALID_COMPONENT_NAME, host) from None
    if not library.jip_is_name(name, len(name)):
        raise dos_error(Error.INVALID_COMPONENT_NAME, host)
    return letters(name)


def checked_bits(bits: int) -> None:
    """Raises an exception if a number cannot be protection bits."""
    need_int("the protection bits", bits)
    if not 0 <= bits < 2**32:
        raise ValueError(f"no protection bits: {bits}")


def protection_letters(bits: int) -> str:
    """Returns the low eight protection bits as `hsparwed`, with a dash for each letter that is not shown."""
    checked_bits(bits)
    return text_by(library.jip_letters_of_protection, bits).decode("ascii")


def protection_bits(text: str) -> int:
    """Returns the protection bits of such letters, or of some of them in any order. Another text raises ValueError."""
    need_str("the text", text)
    raw, bits = text.encode(), ctypes.c_uint32()
    if library.jip_protection_of_letters(raw, len(raw), bits) != Status.DONE:
        raise ValueError(f"no protection letters: {text!r}")
    return bits.value


class Note(NamedTuple):
    """The metadata in a `.uaem` file: the low eight protection bits, the date, and the comment."""

    bits: int
    date: Date
    comment: str = ""

    @classmethod
    def of(cls, data: bytes) -> Note:
        """Reads the content of a `.uaem` file. Any fault raises ValueError."""
        if not isinstance(data, bytes):
            raise wrong_type("the content", data, "bytes")
        found = CNote()
        if library.jip_read_uaem(data, len(data), found) != Status.DONE:
            raise ValueError("the file is not one line of protection letters, date and comment")
        return cls(found.bits, date_of(found.date), letters(bytes(found.comment)[: found.comment_length]))

    def line(self) -> bytes:
        """Returns the content of the `.uaem` file. A comment of more than 79 bytes raises ValueError."""
        checked_bits(self.bits)
        raw = name_bytes(self.comment, "the comment")
        return text_by(library.jip_uaem_line, self.bits, self.date.as_c(), raw, len(raw))


def date_text(date: Date) -> str:
    """Returns the text of a date: `YYYY-MM-DD hh:mm:ss.cc`, or `raw DAYS MINUTES TICKS` if it has none of this form."""
    if not isinstance(date, Date):
        raise wrong_type("the date", date, "a Date")
    return text_by(library.jip_text_of_date, date.as_c()).decode("ascii")


def date_of_text(text: str) -> Date:
    """Returns the date that has this text, as `date_text` writes it. A text of no date raises ValueError."""
    need_str("the text", text)
    raw, found = text.encode(), CDate()
    status = library.jip_date_of_text(raw, len(raw), found)
    if status == Status.WRONG_ARGUMENT:
        raise ValueError(f"no text of a date: {text!r}")
    _settle(status)
    return date_of(found)
