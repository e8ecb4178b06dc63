"""An open file of a volume."""
from __future__ import annotations

import ctypes
import io
from typing import TYPE_CHECKING

from ._errors import dos_error
from ._numbers import Action, Error, SeekMode
from ._path import AnyPath, path_text
from ._types import need_int, need_str, wrong_type

if TYPE_CHECKING:
    from _typeshed import ReadableBuffer, WriteableBuffer

    from ._volume import Volume

# The action that opens a file in each mode.
MODES = {
    "r": Action.FINDINPUT,
    "r+": Action.FINDINPUT,
    "w": Action.FINDOUTPUT,
    "w+": Action.FINDOUTPUT,
    "x": Action.FINDOUTPUT,
    "x+": Action.FINDOUTPUT,
    "a": Action.FINDUPDATE,
    "a+": Action.FINDUPDATE,
}
_WHENCE = {
    io.SEEK_SET: SeekMode.OFFSET_BEGINNING,
    io.SEEK_CUR: SeekMode.OFFSET_CURRENT,
    io.SEEK_END: SeekMode.OFFSET_END,
}
_FARTHEST = 2**31 - 1


def data_bytes(data: ReadableBuffer) -> bytes:
    """Returns the bytes of an object with a buffer."""
    try:
        view = memoryview(data)
    except TypeError:
        raise wrong_type("the data", data, "an object with bytes") from None
    return bytes(view)


class File(io.RawIOBase):
    """An open file of a volume, as `open` returns it. It is not buffered, and io.BufferedReader, io.TextIOWrapper and the like
    can wrap it.

    While a file is open in mode "w" or "x", every other open of it is refused with 202. A seek to outside the file is refused with
    219, and the position stays. Positions and sizes are in bytes. The file is usable until it or its volume is closed.
    """

    def __init__(self, volume: Volume, path: AnyPath, mode: str = "r") -> None:
        super().__init__()
        need_str("the mode", mode)
        self._mode = mode.replace("b", "", 1)
        if self._mode not in MODES:
            raise ValueError(f"invalid mode: {mode!r}")
        self.volume = volume
        self.name = path_text(path)
        self._number = volume._find(MODES[self._mode], path, is_new=self._mode.startswith("x"))
        if self._mode.startswith("a"):
            self.seek(0, io.SEEK_END)

    @property
    def mode(self) -> str:
        return self._mode.replace("+", "") + "b" + "+" * self._mode.endswith("+")

    def close(self) -> None:
        if not self.closed:
            super().close()
            # (the number is missing if opening failed)
            number = getattr(self, "_number", None)
            if number is not None:
                self.volume._drop(number)

    def readable(self) -> bool:
        return self._mode.endswith("+") or self._mode == "r"

    def writable(self) -> bool:
        return self._mode != "r"

    def seekable(self) -> bool:
        return True

    def _open_for(self, allowed: bool, what: str) -> None:
        if self.closed:
            raise ValueError("I/O operation on closed file")
        if not allowed:
            raise io.UnsupportedOperation(what)

    def readinto(self, buffer: WriteableBuffer) -> int:
        self._open_for(self.readable(), "not readable")
        view = memoryview(buffer).cast("B")
        if not len(view):
            return 0
        place = (ctypes.c_char * len(view)).from_buffer(view)
        return self.volume._transfer(Action.READ, self._number, ctypes.addressof(place), len(view), self.name)

    def readall(self) -> bytes:
        at = self.tell()
        end = self.seek(0, io.SEEK_END)
        self.seek(at)
        data = bytearray(end - at)
        return bytes(data[: self.readinto(data)])

    def write(self, data: ReadableBuffer) -> int:
        """Writes all of the data at the position, and returns its length. A refusal writes nothing."""
        self._open_for(self.writable(), "not writable")
        given = data_bytes(data)
        if self._mode.startswith("a"):
            self.seek(0, io.SEEK_END)
        place = ctypes.cast(ctypes.c_char_p(given), ctypes.c_void_p)
        return self.volume._transfer(Action.WRITE, self._number, place.value or 0, len(given), self.name)

    def _move(self, action: Action, offset: int, mode: SeekMode) -> int:
        if not -_FARTHEST <= offset <= _FARTHEST:
            raise dos_error(Error.SEEK_ERROR, self.name)
        return self.volume._move(action, self._number, offset, mode, self.name)

    def seek(self, offset: int, whence: int = io.SEEK_SET) -> int:
        self._open_for(True, "")
        need_int("the offset", offset)
        if whence not in _WHENCE:
            raise ValueError(f"invalid whence: {whence}")
        self._move(Action.SEEK, offset, _WHENCE[whence])
        return self.tell()

    def tell(self) -> int:
        self._open_for(True, "")
        return self._move(Action.SEEK, 0, SeekMode.OFFSET_CURRENT)

    def truncate(self, size: int | None = None) -> int:
        """Sets the size in bytes, by default to the position, and returns it. New bytes are zero."""
        self._open_for(self.writable(), "not writable")
        wanted = self.tell() if size is None else size
        need_int("the size", wanted)
        self._move(Action.SET_FILE_SIZE, wanted, SeekMode.OFFSET_BEGINNING)
        return wanted
