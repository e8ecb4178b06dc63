"""The shared library, loaded by ctypes, with the structs and functions of jiponuwha.h.

The library is the file that the environment variable JIPONUWHA_LIBRARY names. Without it, the library is next to this
module. In a checkout of the repository it is the one that `tools/program --shared` prints, which compiles it if necessary. Otherwise
it is in the system's library path.
"""
from __future__ import annotations

import ctypes
import os
from typing import Any

from ._numbers import FaultKind

NAME = "libjiponuwha.so.1"
# The version of the header that this package was written for. The library has the same major version, and is not older.
WRITTEN_FOR = (1, 3)


class CHandle(ctypes.Structure):
    _fields_ = [("behind", ctypes.c_void_p)]


class CDate(ctypes.Structure):
    _fields_ = [("days", ctypes.c_uint32), ("minutes", ctypes.c_uint32), ("ticks", ctypes.c_uint32)]


class CFault(ctypes.Structure):
    _fields_ = [("kind", ctypes.c_int32), ("block", ctypes.c_uint32)]


class CPacket(ctypes.Structure):
    _fields_ = [
        ("action", ctypes.c_int32),
        ("lock", ctypes.c_uint32),
        ("to_lock", ctypes.c_uint32),
        ("handle", ctypes.c_uint32),
        ("key", ctypes.c_uint32),
        ("bits", ctypes.c_uint32),
        ("offset", ctypes.c_int32),
        ("mode", ctypes.c_int32),
        ("date", CDate),
        ("moment", CDate),
        ("path", ctypes.c_char_p),
        ("path_length", ctypes.c_size_t),
        ("text", ctypes.c_char_p),
        ("text_length", ctypes.c_size_t),
        ("buffer", ctypes.c_void_p),
        ("buffer_length", ctypes.c_size_t),
    ]


class CEntry(ctypes.Structure):
    _fields_ = [
        ("key", ctypes.c_uint32),
        ("entry_type", ctypes.c_int32),
        ("protection", ctypes.c_uint32),
        ("size", ctypes.c_uint32),
        ("blocks", ctypes.c_uint32),
        ("date", CDate),
        ("name_length", ctypes.c_uint32),
        ("comment_length", ctypes.c_uint32),
        ("name", ctypes.c_uint8 * 32),
        ("comment", ctypes.c_uint8 * 80),
    ]


class CDisk(ctypes.Structure):
    _fields_ = [
        ("state", ctypes.c_uint32),
        ("blocks", ctypes.c_uint32),
        ("used", ctypes.c_uint32),
        ("bytes_per_block", ctypes.c_uint32),
        ("disk_type", ctypes.c_uint32),
    ]


class CAnswer(ctypes.Structure):
    _fields_ = [
        ("res1", ctypes.c_int32),
        ("res2", ctypes.c_int32),
        ("handle", ctypes.c_uint32),
        ("entry", CEntry),
        ("disk", CDisk),
    ]


class CNote(ctypes.Structure):
    _fields_ = [
        ("bits", ctypes.c_uint32),
        ("date", CDate),
        ("comment_length", ctypes.c_uint32),
        ("comment", ctypes.c_uint8 * 80),
    ]


class COwner(ctypes.Structure):
    _fields_ = [("role", ctypes.c_uint32), ("header", ctypes.c_uint32), ("index", ctypes.c_uint32)]


class CSalvage(ctypes.Structure):
    _fields_ = [("behind", ctypes.c_void_p)]


class CSalvaged(ctypes.Structure):
    _fields_ = [
        ("directory", ctypes.c_size_t),
        ("size", ctypes.c_size_t),
        ("state", ctypes.c_uint32),
        ("header", ctypes.c_uint32),
        ("is_found", ctypes.c_uint32),
        ("missing", ctypes.c_uint32),
        ("is_cut", ctypes.c_uint32),
        ("protection", ctypes.c_uint32),
        ("date", CDate),
        ("comment_length", ctypes.c_uint32),
        ("comment", ctypes.c_uint8 * 80),
    ]


class CFinding(ctypes.Structure):
    _fields_ = [
        ("kind", ctypes.c_int32),
        ("block", ctypes.c_uint32),
        ("known", ctypes.c_uint32),
        ("at", ctypes.c_uint32),
        ("found", ctypes.c_uint32),
        ("wanted", ctypes.c_uint32),
    ]


class CTold(ctypes.Structure):
    _fields_ = [
        ("block", ctypes.c_uint32),
        ("role", ctypes.c_uint32),
        ("header", ctypes.c_uint32),
        ("index", ctypes.c_uint32),
        ("holder", ctypes.c_uint32),
    ]


class CBoot(ctypes.Structure):
    _fields_ = [
        ("kind", ctypes.c_uint32),
        ("code", ctypes.c_uint32),
        ("sum", ctypes.c_uint32),
        ("right_sum", ctypes.c_uint32),
    ]


# The structs, by their names in the header without `jip_`.
STRUCTS: dict[str, type[ctypes.Structure]] = {
    "handle": CHandle,
    "date": CDate,
    "fault": CFault,
    "packet": CPacket,
    "entry": CEntry,
    "disk": CDisk,
    "answer": CAnswer,
    "note": CNote,
    "owner": COwner,
    "finding": CFinding,
    "salvage": CSalvage,
    "salvaged": CSalvaged,
    "told": CTold,
    "boot": CBoot,
}

Visitor = ctypes.CFUNCTYPE(
    ctypes.c_int32, ctypes.c_void_p, ctypes.POINTER(ctypes.c_char), ctypes.c_size_t, ctypes.POINTER(CEntry)
)

_HANDLE = ctypes.POINTER(CHandle)
_SIZE = ctypes.POINTER(ctypes.c_size_t)
_FAULT = ctypes.POINTER(CFault)
_SALVAGE = ctypes.POINTER(CSalvage)
_PATH = (ctypes.c_char_p, ctypes.c_size_t)
# A text to convert, and the buffer for its result.
_TEXT = (ctypes.c_char_p, ctypes.c_size_t)
_ROOM = (ctypes.c_void_p, ctypes.c_size_t, _SIZE)
# The functions that this package calls: the type of the result, and the types of the arguments.
FUNCTIONS: dict[str, tuple[Any, list[Any]]] = {
    "jip_version": (ctypes.c_char_p, []),
    "jip_error_text": (ctypes.c_char_p, [ctypes.c_int32]),
    "jip_fault_text": (ctypes.c_char_p, [ctypes.c_int32]),
    "jip_open": (ctypes.c_int32, [ctypes.c_char_p, ctypes.c_size_t, _HANDLE, _FAULT]),
    "jip_open_read_only": (ctypes.c_int32, [ctypes.c_char_p, ctypes.c_size_t, _HANDLE, _FAULT]),
    "jip_blank": (
        ctypes.c_int32,
        [ctypes.c_int32, ctypes.c_uint32, ctypes.c_char_p, ctypes.c_size_t, CDate, _HANDLE],
    ),
    "jip_close": (ctypes.c_int32, [_HANDLE]),
    "jip_serve": (ctypes.c_int32, [_HANDLE, ctypes.POINTER(CPacket), ctypes.POINTER(CAnswer)]),
    "jip_image_length": (ctypes.c_size_t, [_HANDLE]),
    "jip_copy_image": (ctypes.c_int32, [_HANDLE, ctypes.c_void_p, ctypes.c_size_t]),
    "jip_changes": (ctypes.c_uint64, [_HANDLE]),
    "jip_read_file": (ctypes.c_int32, [_HANDLE, *_PATH, ctypes.c_void_p, ctypes.c_size_t, _SIZE]),
    "jip_write_file": (ctypes.c_int32, [_HANDLE, CDate, *_PATH, ctypes.c_char_p, ctypes.c_size_t]),
    "jip_make_directory": (ctypes.c_int32, [_HANDLE, CDate, *_PATH]),
    "jip_delete": (ctypes.c_int32, [_HANDLE, CDate, *_PATH]),
    "jip_rename": (ctypes.c_int32, [_HANDLE, CDate, *_PATH, *_PATH]),
    "jip_stat": (ctypes.c_int32, [_HANDLE, *_PATH, ctypes.POINTER(CEntry)]),
    "jip_list": (ctypes.c_int32, [_HANDLE, *_PATH, ctypes.POINTER(CEntry), ctypes.c_size_t, _SIZE]),
    "jip_walk": (ctypes.c_int32, [_HANDLE, Visitor, ctypes.c_void_p]),
    "jip_reach": (
        ctypes.c_int32,
        [_HANDLE, *_PATH, ctypes.POINTER(ctypes.c_uint32), ctypes.POINTER(ctypes.c_void_p), _SIZE],
    ),
    "jip_load": (ctypes.c_int32, [ctypes.c_char_p, _HANDLE, _FAULT]),
    "jip_load_read_only": (ctypes.c_int32, [ctypes.c_char_p, _HANDLE, _FAULT]),
    "jip_store": (ctypes.c_int32, [_HANDLE, ctypes.c_char_p]),
    "jip_check_values": (
        ctypes.c_int32,
        [
            ctypes.c_char_p,
            ctypes.c_size_t,
            ctypes.POINTER(CFinding),
            ctypes.c_size_t,
            _SIZE,
            ctypes.POINTER(ctypes.c_int32),
        ],
    ),
    "jip_map": (ctypes.c_int32, [_HANDLE, ctypes.POINTER(COwner), ctypes.c_size_t, _SIZE]),
    "jip_salvage_open": (ctypes.c_int32, [ctypes.c_char_p, ctypes.c_size_t, _SALVAGE]),
    "jip_salvage_close": (ctypes.c_int32, [_SALVAGE]),
    "jip_salvage_count": (ctypes.c_size_t, [_SALVAGE]),
    "jip_salvage_entry": (ctypes.c_int32, [_SALVAGE, ctypes.c_size_t, ctypes.POINTER(CSalvaged)]),
    "jip_salvage_name": (ctypes.c_int32, [_SALVAGE, ctypes.c_size_t, *_ROOM]),
    "jip_salvage_path": (ctypes.c_int32, [_SALVAGE, ctypes.c_size_t, *_ROOM]),
    "jip_salvage_read": (ctypes.c_int32, [_SALVAGE, ctypes.c_size_t, *_ROOM]),
    "jip_salvage_blocks": (ctypes.c_int32, [_SALVAGE, ctypes.POINTER(CTold), ctypes.c_size_t, _SIZE]),
    "jip_salvage_trusts_bitmap": (ctypes.c_int32, [_SALVAGE]),
    "jip_label": (ctypes.c_int32, [*_TEXT, *_ROOM]),
    "jip_boot_block": (ctypes.c_int32, [*_TEXT, ctypes.POINTER(CBoot)]),
    "jip_install_boot": (ctypes.c_int32, [ctypes.c_void_p, ctypes.c_size_t]),
    "jip_is_name": (ctypes.c_int32, [*_TEXT]),
    "jip_host_of_name": (ctypes.c_int32, [*_TEXT, *_ROOM]),
    "jip_name_of_host": (ctypes.c_int32, [*_TEXT, *_ROOM]),
    "jip_letters_of_protection": (ctypes.c_int32, [ctypes.c_uint32, *_ROOM]),
    "jip_protection_of_letters": (ctypes.c_int32, [*_TEXT, ctypes.POINTER(ctypes.c_uint32)]),
    "jip_uaem_line": (ctypes.c_int32, [ctypes.c_uint32, CDate, *_TEXT, *_ROOM]),
    "jip_read_uaem": (ctypes.c_int32, [*_TEXT, ctypes.POINTER(CNote)]),
    "jip_text_of_date": (ctypes.c_int32, [CDate, *_ROOM]),
    "jip_date_of_text": (ctypes.c_int32, [*_TEXT, ctypes.POINTER(CDate)]),
    "jip_date_of_time": (ctypes.c_int32, [ctypes.c_int64, ctypes.c_uint32, ctypes.POINTER(CDate)]),
    "jip_time_of_date": (
        ctypes.c_int32,
        [CDate, ctypes.POINTER(ctypes.c_int64), ctypes.POINTER(ctypes.c_uint32)],
    ),
}


def _output_of(command: str, *arguments: str) -> bytes:
    """Returns the output of a command, or nothing if it fails. (`subprocess` takes longer to import than this takes to run.)"""
    ours, theirs = os.pipe()
    try:
        silence = (os.POSIX_SPAWN_OPEN, 0, os.devnull, os.O_RDONLY, 0)
        actions = [silence, (os.POSIX_SPAWN_DUP2, theirs, 1)]
        process = os.posix_spawn(command, [command, *arguments], os.environ, file_actions=actions)
    finally:
        os.close(theirs)
    with open(ours, "rb") as output:
        said = output.read()
    return said if os.waitpid(process, 0)[1] == 0 else b""


def _of_checkout() -> str | None:
    """Returns the file of the library of the present sources, if this module is in a checkout that can make it."""
    top, is_checkout = os.path.abspath(__file__), True
    for name in (os.path.basename(__file__), "jiponuwha", "python", "bindings"):
        top, last = os.path.split(top)
        is_checkout = is_checkout and last == name
    tool = os.path.join(top, "tools", "program")
    if not is_checkout or not os.access(tool, os.X_OK):
        return None
    return os.fsdecode(_output_of(tool, "--shared").rstrip(b"\n")) or None


def _found() -> ctypes.CDLL:
    beside = os.path.join(os.path.dirname(__file__), NAME)
    file = os.environ.get("JIPONUWHA_LIBRARY") or (beside if os.path.exists(beside) else _of_checkout() or NAME)
    try:
        return ctypes.CDLL(file, use_errno=True)
    except OSError as fault:
        raise ImportError(f"{fault}: JIPONUWHA_LIBRARY may name the file of the library") from fault


def _loaded() -> ctypes.CDLL:
    """Returns the library with its functions declared. A version that this package cannot use raises ImportError."""
    found = _found()
    for name, (result, arguments) in FUNCTIONS.items():
        function = getattr(found, name)
        function.restype, function.argtypes = result, arguments
    said = found.jip_version().decode("ascii")
    major, minor = (int(it) for it in said.split(".")[:2])
    if major != WRITTEN_FOR[0] or minor < WRITTEN_FOR[1]:
        raise ImportError(f"{NAME} is of version {said}, and not of {WRITTEN_FOR[0]}.{WRITTEN_FOR[1]} or later")
    return found


library = _loaded()


def version() -> str:
    """Returns the version of the library, such as `1.3.0`, with ` (not proved)` after it if it was compiled without proof."""
    return str(library.jip_version().decode("ascii"))


def error_text(number: int) -> str:
    """Returns the message for an error number of AmigaDOS or a status of the library."""
    return str(library.jip_error_text(number).decode("ascii"))


def fault_text(kind: FaultKind) -> str:
    """Returns the message for a fault of an image."""
    return str(library.jip_fault_text(kind).decode("ascii"))
