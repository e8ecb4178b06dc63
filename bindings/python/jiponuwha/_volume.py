"""Volumes: open images, as mappings from paths to files and directories."""
from __future__ import annotations

import contextlib
import ctypes
import io
import os
import threading
import warnings
from collections import deque
from collections.abc import Callable, Iterable, Iterator, Mapping
from typing import TYPE_CHECKING, Any, TypeVar, Union, overload

from ._errors import DosError, NotAnImage, dos_error, settle
from ._file import File, data_bytes
from ._library import CAnswer, CDate, CEntry, CFault, CFinding, CHandle, COwner, CPacket, Visitor, library
from ._numbers import (
    BLOCK_BYTES,
    DOUBLE_DENSITY,
    MOST_BLOCKS,
    MOST_FAULTS,
    PATH_BYTES,
    Action,
    Error,
    FaultKind,
    Format,
    LockMode,
    Role,
    SeekMode,
    Status,
)
from ._path import AnyBytes, AnyPath, Path, name_bytes, path_bytes, path_text
from ._types import need_int, wrong_type
from ._values import Date, Entry, Fault, Faults, Info, Owner, entry_of, fault_of, finding_of, info_of, letters, owners_of

if TYPE_CHECKING:
    import datetime

HostPath = Union[str, "os.PathLike[str]"]
Clock = Callable[[], Date]
Default = TypeVar("Default")
# What `Volume.update` takes.
Files = Union[
    Mapping[str, Union[AnyBytes, Path]], Mapping[AnyPath, Union[AnyBytes, Path]], Iterable[tuple[AnyPath, Union[AnyBytes, Path]]]
]
# The largest file that is read in one call, in bytes, and the most entries that are listed in one.
_ROOM = 1 << 16
_ENTRIES = 128
# No default for `Volume.pop`.
_NONE = object()
_NOT_THERE = (Error.DIR_NOT_FOUND, Error.OBJECT_NOT_FOUND, Error.INVALID_COMPONENT_NAME, Error.OBJECT_WRONG_TYPE)


class Volume(Mapping[AnyPath, Path]):
    """An open floppy image, or another volume, in memory. `open` and `create` return one.

    A volume is a mapping from paths to Paths: `volume[path].read()`, `volume[path] = data`, `del volume[path]` and
    `path in volume`. A loop visits the paths of all files and directories. Only `save` writes changes to a file of the host.

    One thread at a time uses a volume. A call during another thread's call raises RuntimeError. A call on a closed volume
    raises ValueError. Closing or dropping a volume with unsaved changes, or one that was made and never saved, gives a
    ResourceWarning. Changes get the date that `clock` returns. A change of a read-only volume raises Protected (214). A volume
    cannot be copied or pickled.
    """

    def __init__(
        self, handle: CHandle, path: HostPath | None, clock: Clock = Date.now, read_only: bool = False, is_new: bool = False
    ) -> None:
        self._handle = handle
        self._turns = threading.Lock()
        self._dropped: deque[int] = deque()
        self._is_open = True
        self._room = ctypes.create_string_buffer(_ROOM)
        self._saved = None if is_new else int(library.jip_changes(handle))
        self.path = None if path is None else os.fspath(path)
        self.clock = clock
        self._is_read_only = read_only

    # ---- Packets of one thread at a time ----

    @contextlib.contextmanager
    def _turn(self) -> Iterator[CHandle]:
        """Yields the handle to one thread at a time. It first closes the file handles of dropped files."""
        if not self._turns.acquire(blocking=False):
            raise RuntimeError("another thread is using this volume, which belongs to one at a time")
        try:
            if not self._is_open:
                raise ValueError("the volume is closed")
            while self._dropped:
                self._ask(Action.END, handle=self._dropped.popleft())
            yield self._handle
        finally:
            self._turns.release()

    def _ask(self, action: Action, shown: object = None, **fields: Any) -> CAnswer:
        """Sends a packet and returns its answer. A refusal raises DosError."""
        packet, answer = CPacket(action=action, moment=self._moment(), **fields), CAnswer()
        settle(library.jip_serve(self._handle, packet, answer), shown)
        if answer.res2:
            raise dos_error(answer.res2, shown)
        return answer

    def _moment(self) -> CDate:
        return self.clock().as_c()

    @contextlib.contextmanager
    def _place(self, path: AnyPath) -> Iterator[tuple[int, bytes]]:
        """Yields a lock and the rest of the path from there, which fits into a packet. The lock is freed afterwards."""
        raw = path_bytes(path)
        if len(raw) <= PATH_BYTES:
            yield 0, raw
            return
        lock, rest, length = ctypes.c_uint32(), ctypes.c_void_p(), ctypes.c_size_t()
        settle(library.jip_reach(self._handle, raw, len(raw), lock, rest, length), path_text(path))
        try:
            yield lock.value, raw[len(raw) - length.value :]
        finally:
            self._free(lock.value)

    def _free(self, lock: int) -> None:
        self._ask(Action.FREE_LOCK, lock=lock)

    def _at(self, action: Action, path: AnyPath, **fields: Any) -> CAnswer:
        """Sends a packet with a path and returns its answer."""
        with self._place(path) as (lock, rest):
            return self._ask(action, path_text(path), lock=lock, path=rest, path_length=len(rest), **fields)

    # ---- For open files ----

    def _find(self, action: Action, path: AnyPath, is_new: bool) -> int:
        """Opens a file, which may not exist if it has to be new, and returns the number of its handle."""
        with self._turn():
            if is_new and self._is_there(path):
                raise dos_error(Error.OBJECT_EXISTS, path_text(path))
            return int(self._at(action, path).handle)

    def _is_there(self, path: AnyPath) -> bool:
        """Whether a file or directory is at a path. A path that cannot have one raises DosError."""
        raw = path_bytes(path)
        found = library.jip_stat(self._handle, raw, len(raw), CEntry())
        if found == Error.OBJECT_NOT_FOUND:
            return False
        if found != Error.OBJECT_IN_USE:
            settle(found, path_text(path))
        return True

    def _drop(self, number: int) -> None:
        """Closes a file handle. If the volume is in use, the next call closes it."""
        self._dropped.append(number)
        with contextlib.suppress(RuntimeError, ValueError), self._turn():
            pass

    def _transfer(self, action: Action, number: int, place: int, length: int, shown: str) -> int:
        with self._turn():
            return int(self._ask(action, shown, handle=number, buffer=place, buffer_length=length).res1)

    def _move(self, action: Action, number: int, offset: int, mode: SeekMode, shown: str) -> int:
        with self._turn():
            return int(self._ask(action, shown, handle=number, offset=offset, mode=mode).res1)

    # ---- Files and directories ----

    def open(self, path: AnyPath, mode: str = "r") -> File:
        """Opens a file as a raw stream of io. The modes are "r", "w", "x" and "a", with or without "+" and "b".

        "r" and "r+" need an existing file, and raise ObjectNotFound otherwise. "w" empties the file, and needs that no one
        else has it open (ObjectInUse). "x" makes a new file, and raises ObjectExists if there is one.
        """
        return File(self, path, mode)

    def read(self, path: AnyPath) -> bytes:
        """Returns all bytes of a file."""
        raw, length = path_bytes(path), ctypes.c_size_t()
        with self._turn() as handle:
            room: ctypes.Array[ctypes.c_char] = self._room
            settle(library.jip_read_file(handle, raw, len(raw), room, len(room), length), path_text(path))
            if length.value > len(room):
                room = ctypes.create_string_buffer(length.value)
                settle(library.jip_read_file(handle, raw, len(raw), room, len(room), length), path_text(path))
            return ctypes.string_at(room, length.value)

    def write(self, path: AnyPath, data: AnyBytes) -> int:
        """Replaces the content of a file, and creates the file if it does not exist. Returns the number of bytes.

        A refusal, such as DiskFull, changes nothing. If memory runs out half way, an old file may keep its old size.
        """
        raw, given = path_bytes(path), data_bytes(data)
        with self._turn() as handle:
            result = library.jip_write_file(handle, self._moment(), raw, len(raw), given, len(given))
            settle(result, path_text(path))
        return len(given)

    def stat(self, path: AnyPath) -> Entry:
        """Returns the entry at a path."""
        raw, entry = path_bytes(path), CEntry()
        with self._turn() as handle:
            settle(library.jip_stat(handle, raw, len(raw), entry), path_text(path))
        return entry_of(entry)

    def entries(self, path: AnyPath = "") -> list[Entry]:
        """Returns the entries of a directory."""
        raw, count = path_bytes(path), ctypes.c_size_t()
        with self._turn() as handle:
            room = (CEntry * _ENTRIES)()
            settle(library.jip_list(handle, raw, len(raw), room, len(room), count), path_text(path))
            if count.value > len(room):
                room = (CEntry * count.value)()
                settle(library.jip_list(handle, raw, len(raw), room, len(room), count), path_text(path))
        return [entry_of(room[at]) for at in range(count.value)]

    @overload
    def walk(self, names: type[str] = ...) -> Iterator[tuple[str, Entry]]: ...

    @overload
    def walk(self, names: type[bytes]) -> Iterator[tuple[bytes, Entry]]: ...

    def walk(self, names: type[str] | type[bytes] = str) -> Iterator[tuple[str, Entry]] | Iterator[tuple[bytes, Entry]]:
        """Iterates over the paths and entries of all files and directories. A directory is before its contents.

        The whole volume is read at the call, so later changes do not affect the loop. With `names=bytes` the paths are bytes.
        A directory with an exclusive lock raises ObjectInUse.
        """
        walked = self._walked()
        if names is bytes:
            return iter(walked)
        return ((letters(path), entry) for path, entry in walked)

    def _walked(self) -> list[tuple[bytes, Entry]]:
        found: list[tuple[bytes, Entry]] = []
        raised: list[BaseException] = []

        def visit(context: object, path: Any, length: int, entry: Any) -> int:
            try:
                found.append((ctypes.string_at(path, length), entry_of(entry.contents)))
            except BaseException as fault:
                raised.append(fault)
                return 1
            return 0

        with self._turn() as handle:
            result = library.jip_walk(handle, Visitor(visit), None)
        if raised:
            raise raised[0]
        settle(result, self.path)
        return found

    def mkdir(self, path: AnyPath, parents: bool = False, exist_ok: bool = False) -> None:
        """Makes a directory. `parents` also makes missing parents, and `exist_ok` accepts an existing directory."""
        if parents:
            here = Path(self)
            for name in Path(self, path).parts[:-1]:
                here = here / name
                self.mkdir(here, exist_ok=True)
        raw = path_bytes(path)
        try:
            with self._turn() as handle:
                settle(library.jip_make_directory(handle, self._moment(), raw, len(raw)), path_text(path))
        except DosError as fault:
            if not exist_ok or fault.dos != Error.OBJECT_EXISTS or not self.stat(path).is_dir:
                raise

    def remove(self, path: AnyPath) -> None:
        """Deletes a file or an empty directory."""
        raw = path_bytes(path)
        with self._turn() as handle:
            settle(library.jip_delete(handle, self._moment(), raw, len(raw)), path_text(path))

    def rename(self, path: AnyPath, target: AnyPath) -> None:
        """Moves a file or a directory. An existing target is not replaced: it raises ObjectExists."""
        raw, to = path_bytes(path), path_bytes(target)
        with self._turn() as handle:
            settle(library.jip_rename(handle, self._moment(), raw, len(raw), to, len(to)), path_text(path))

    def replace(self, path: AnyPath, target: AnyPath) -> None:
        """Moves a file or a directory, in place of a file, or of an empty directory, at the target. A refusal changes nothing.

        The target may be missing. If it is of another type, it raises WrongType. If there is one, the change is first tried on a copy
        of the volume.
        """
        if not self._exists(target) or self.stat(path).key == self.stat(target).key:
            return self.rename(path, target)
        if self.stat(path).is_dir != self.stat(target).is_dir:
            raise dos_error(Error.OBJECT_WRONG_TYPE, path_text(target))
        self._need_unused(path)
        with open(self.image(), clock=self.clock) as copy:
            copy.remove(path_text(target))
            copy.rename(path_text(path), path_text(target))
            copy.close(discard=True)
        self.remove(target)
        self.rename(path, target)

    def _exists(self, path: AnyPath) -> bool:
        with self._turn():
            return self._is_there(path)

    def _need_unused(self, path: AnyPath) -> None:
        """Raises ObjectInUse if something has a file or directory open."""
        with self._turn():
            self._free(int(self._at(Action.LOCATE_OBJECT, path, mode=LockMode.EXCLUSIVE_LOCK).res1))

    def protect(self, path: AnyPath, bits: int) -> None:
        """Sets the protection bits: 1, 2, 4 and 8 deny deleting, executing, writing and reading; 16 to 128 are a, p, s and h."""
        need_int("the protection bits", bits)
        if not 0 <= bits < 2**32:
            raise ValueError(f"no protection bits: {bits}")
        with self._turn():
            self._at(Action.SET_PROTECT, path, bits=bits)

    def comment(self, path: AnyPath, text: str | bytes) -> None:
        """Sets the comment. More than 79 bytes are refused with 220."""
        raw = name_bytes(text, "the comment")
        if len(raw) > PATH_BYTES:
            raise dos_error(Error.COMMENT_TOO_BIG, path_text(path))
        with self._turn():
            self._at(Action.SET_COMMENT, path, text=raw, text_length=len(raw))

    def date(self, path: AnyPath, date: Date | datetime.datetime) -> None:
        """Sets the date of the last change."""
        given = date if isinstance(date, Date) else Date.of(date)
        with self._turn():
            self._at(Action.SET_DATE, path, date=given.as_c())

    # ---- The volume ----

    def label(self, name: str | bytes | None = None) -> str:
        """Returns the name of the volume. If a name is given, the volume is renamed first."""
        if name is not None:
            raw = name_bytes(name, "the label")
            if len(raw) > PATH_BYTES:
                raise dos_error(Error.INVALID_COMPONENT_NAME, name)
            with self._turn():
                self._ask(Action.RENAME_DISK, name, path=raw, path_length=len(raw))
        return self.stat("").name

    def info(self) -> Info:
        """Returns the label, the file system, and the numbers of used and free blocks."""
        label = self.label()
        with self._turn():
            return info_of(label, self._ask(Action.DISK_INFO).disk)

    def map(self) -> list[Owner]:
        """Returns the owner of each block of the image, block 0 first."""
        count = ctypes.c_size_t()
        with self._turn() as handle:
            room = (COwner * (library.jip_image_length(handle) // BLOCK_BYTES))()
            settle(library.jip_map(handle, room, len(room), count), self.path)
        return owners_of(room)

    @overload
    def where(self, place: int) -> tuple[Owner, str | None]: ...

    @overload
    def where(self, place: AnyPath) -> list[int]: ...

    def where(self, place: int | AnyPath) -> tuple[Owner, str | None] | list[int]:
        """Returns the owner of a block, and the path of its file or directory, or None if it has none. The root has the empty
        path. A block outside the image raises IndexError.

        For a path, returns the numbers of all blocks of its file or directory, in the order of the blocks.
        """
        owners = self.map()
        if not isinstance(place, int):
            key = self.stat(place).key
            return [block for block, it in enumerate(owners) if it.header == key]
        if not 0 <= place < len(owners):
            raise IndexError(f"no block of the image: {place}")
        owner = owners[place]
        if owner.role == Role.ROOT:
            return owner, ""
        return owner, next((path for path, it in self.walk() if it.key == owner.header), None)

    def image(self) -> bytes:
        """Returns the bytes of the image, in the order of its file."""
        with self._turn() as handle:
            room = ctypes.create_string_buffer(library.jip_image_length(handle))
            settle(library.jip_copy_image(handle, room, len(room)), self.path)
            return room.raw

    @property
    def is_changed(self) -> bool:
        """Whether the volume may have unsaved changes, or was made and never saved."""
        return self._is_open and int(library.jip_changes(self._handle)) != self._saved

    @property
    def is_read_only(self) -> bool:
        """Whether the image of the volume never changes."""
        return self._is_read_only

    def save(self, path: HostPath | None = None) -> None:
        """Replaces or creates a file of the host with the image, whole or not at all. The default is the file that was opened.

        A failure raises OSError and leaves the old file unchanged. A device or a pipe is written directly. The file of a
        read-only volume is not replaced: that raises Protected (214).
        """
        target = self.path if path is None else os.fspath(path)
        if target is None:
            raise ValueError("the volume comes from no file: save(path) says where to")
        if self._is_read_only and target == self.path:
            raise dos_error(Error.DISK_WRITE_PROTECTED, target)
        with self._turn() as handle:
            settle(library.jip_store(handle, os.fsencode(target)), target)
            self._saved = int(library.jip_changes(handle))
        self.path = target

    def close(self, discard: bool = False) -> None:
        """Closes the volume and its open files, and frees its memory. Unsaved changes are lost, with a ResourceWarning unless
        `discard` is true. A second call does nothing."""
        if not self._is_open:
            return
        if self.is_changed and not discard:
            done = "changed and not saved" if self._saved is not None else "made and never saved"
            warnings.warn(f"{self!r} was {done}", ResourceWarning, stacklevel=2, source=self)
        with self._turn() as handle:
            self._is_open = False
            library.jip_close(handle)

    def __enter__(self) -> Volume:
        return self

    def __exit__(self, kind: object, fault: object, trace: object) -> None:
        self.close(discard=fault is not None)

    def __del__(self) -> None:
        if getattr(self, "_is_open", False):
            self.close()

    def __reduce__(self) -> str:
        raise TypeError("a Volume cannot be copied or pickled: `open(volume.image())` makes another one")

    def __repr__(self) -> str:
        return f"<Volume {self.path!r}>" if self._is_open else f"<closed Volume {self.path!r}>"

    # ---- The mapping ----

    def __getitem__(self, path: AnyPath) -> Path:
        self.stat(path)
        return Path(self, path)

    def __setitem__(self, path: AnyPath, data: AnyBytes | Path) -> None:
        self.write(path, data.read() if isinstance(data, Path) else data)

    def __delitem__(self, path: AnyPath) -> None:
        self.remove(path)

    @overload
    def pop(self, path: AnyPath) -> bytes: ...

    @overload
    def pop(self, path: AnyPath, default: Default) -> bytes | Default: ...

    def pop(self, path: AnyPath, default: Any = _NONE) -> Any:
        """Deletes a file, and returns its bytes. If nothing is there, returns the default, or raises ObjectNotFound without one."""
        try:
            data = self.read(path)
        except DosError as fault:
            if default is _NONE or fault.dos not in (Error.DIR_NOT_FOUND, Error.OBJECT_NOT_FOUND):
                raise
            return default
        self.remove(path)
        return data

    def update(self, files: Files) -> None:
        """Writes the files of a mapping from paths to data, or of pairs of them. After a refusal, the files before it are written."""
        for path, data in files.items() if isinstance(files, Mapping) else files:
            self[path] = data

    def setdefault(self, path: AnyPath, data: AnyBytes | Path = b"") -> Path:
        """Writes a file if nothing is at the path. Returns the Path of what is there then."""
        if not self._exists(path):
            self[path] = data
        return Path(self, path)

    def __contains__(self, path: object) -> bool:
        if not isinstance(path, (str, bytes, Path)):
            return False
        try:
            self.stat(path)
        except DosError as fault:
            if fault.dos in _NOT_THERE:
                return False
            if fault.dos != Error.OBJECT_IN_USE:
                raise
        return True

    def __iter__(self) -> Iterator[str]:
        return (path for path, _ in self.walk())

    def __len__(self) -> int:
        return len(self._walked())

    def __bool__(self) -> bool:
        return True

    def __truediv__(self, name: AnyPath) -> Path:
        return Path(self) / name

    def __eq__(self, other: object) -> bool:
        return self is other

    __hash__ = object.__hash__


def image_bytes(source: HostPath | AnyBytes) -> bytes:
    """Returns the bytes of an image, or the content of a file up to one byte more than the largest image."""
    if isinstance(source, (bytes, bytearray, memoryview)):
        return bytes(memoryview(source))
    with io.open(os.fspath(source), "rb") as file:
        return file.read(MOST_BLOCKS * BLOCK_BYTES + 1)


def _all_faults(source: HostPath | AnyBytes, fault: Fault) -> Faults:
    """Returns the faults of an image that shows this one. That of a size is alone."""
    if fault.kind >= FaultKind.NOT_WHOLE_BLOCKS:
        return Faults([fault])
    image = image_bytes(source)
    room, count, more = (CFinding * MOST_FAULTS)(), ctypes.c_size_t(), ctypes.c_int32()
    settle(library.jip_check_values(image, len(image), room, len(room), count, more), None)
    faults = Faults(finding_of(it) for it in room[: count.value])
    faults.more = bool(more.value)
    return faults or Faults([fault])


def _opened(source: HostPath | AnyBytes, handle: CHandle, read_only: bool) -> None:
    """Opens a closed handle on the image in a file of the host, or on the bytes of an image."""
    fault = CFault()
    if isinstance(source, (bytes, bytearray, memoryview)):
        image, shown = bytes(memoryview(source)), None
        open_bytes = library.jip_open_read_only if read_only else library.jip_open
        result = open_bytes(image, len(image), handle, fault)
    else:
        shown = os.fspath(source)
        load = library.jip_load_read_only if read_only else library.jip_load
        result = load(os.fsencode(shown), handle, fault)
    if result == Status.NOT_AN_IMAGE:
        raise NotAnImage(_all_faults(source, fault_of(fault)), shown)
    settle(result, shown)


def open(source: HostPath | AnyBytes, *, read_only: bool = False, clock: Clock = Date.now) -> Volume:
    """Checks and opens the image in a file, or an image in bytes, and returns its Volume.

    An image with a fault raises NotAnImage (225), and an unreadable file OSError. The source is not changed, and `clock`
    dates changes. The image of a read-only volume never changes: calls that would change it raise Protected (214).
    """
    handle = CHandle()
    checked_clock(clock)
    _opened(source, handle, read_only)
    return Volume(handle, None if isinstance(source, (bytes, bytearray, memoryview)) else source, clock, read_only)


def create(
    label: str | bytes,
    path: HostPath | None = None,
    *,
    format: Format = Format.FFS,
    blocks: int = DOUBLE_DENSITY,
    clock: Clock = Date.now,
) -> Volume:
    """Returns a blank Volume in memory. `save` writes it to the file at `path`.

    It has 16 to 101,602 blocks of 512 bytes. The label has 1 to 30 bytes, without `/` and `:`. A wrong argument raises
    ValueError.
    """
    raw, handle = name_bytes(label, "the label"), CHandle()
    need_int("the format", format)
    need_int("the number of blocks", blocks)
    if not 0 <= blocks < 2**32:
        raise ValueError(f"no number of blocks: {blocks}")
    checked_clock(clock)
    shown = None if path is None else os.fspath(path)
    settle(library.jip_blank(format, blocks, raw, len(raw), clock().as_c(), handle), shown)
    return Volume(handle, shown, clock, is_new=True)


def checked_clock(clock: Clock) -> None:
    """Raises TypeError if a clock is not a function."""
    if not callable(clock):
        raise wrong_type("the clock", clock, "a function")


def check(source: HostPath | AnyBytes) -> Faults:
    """Returns the faults of an image, at most 1,000; none if it is valid. Of an image that is no DOS disk, or one of an unsupported
    kind, it returns only that."""
    handle = CHandle()
    try:
        _opened(source, handle, read_only=True)
    except NotAnImage as refused:
        return refused.faults
    library.jip_close(handle)
    return Faults()
