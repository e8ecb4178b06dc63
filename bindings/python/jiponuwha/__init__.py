"""Read and change the files and directories of Amiga floppy images (`.adf` files).

    import jiponuwha as jip

    with jip.open("work.adf") as floppy:
        for path, entry in floppy.walk():
            print(path, entry.size, entry.comment)
        data = floppy["S/startup-sequence"].read()
        floppy["Docs/new"] = b"text"
        floppy.save()

The package calls the shared library `libjiponuwha.so.1`, and knows nothing of an image's layout itself. Names and paths
are `str` with letters of ISO 8859-1, or `bytes`.

A refusal by the volume raises a DosError, with the error number of AmigaDOS in `dos`. A failure of the host raises a plain
OSError. A refused call changes nothing, unless its text says otherwise.
"""
from __future__ import annotations

from typing import TYPE_CHECKING

from ._errors import (
    DirectoryNotEmpty,
    DiskFull,
    DosError,
    InvalidName,
    NotAnImage,
    ObjectExists,
    ObjectInUse,
    ObjectNotFound,
    Protected,
    WrongType,
)
from ._file import File
from ._library import version
from ._numbers import DOUBLE_DENSITY, HIGH_DENSITY, BootCode, EntryType, Error, FaultKind, Format, Role, State
from ._path import Path
from ._values import Date, Entry, Fault, Faults, Info, Owner
from ._volume import Volume, check, create, open

if TYPE_CHECKING:
    from ._disk import Boot, boot_block, label_of, with_boot_block
    from ._names import Note, date_of_text, date_text, entry_name, host_name, protection_bits, protection_letters
    from ._salvage import Salvage, Salvaged, salvage

__version__ = version().partition(" ")[0]

__all__ = [
    "DOUBLE_DENSITY",
    "HIGH_DENSITY",
    "Boot",
    "BootCode",
    "Date",
    "DirectoryNotEmpty",
    "DiskFull",
    "DosError",
    "Entry",
    "EntryType",
    "Error",
    "Fault",
    "FaultKind",
    "Faults",
    "File",
    "Format",
    "Info",
    "InvalidName",
    "NotAnImage",
    "Note",
    "ObjectExists",
    "ObjectInUse",
    "ObjectNotFound",
    "Owner",
    "Path",
    "Protected",
    "Role",
    "Salvage",
    "Salvaged",
    "State",
    "Volume",
    "WrongType",
    "boot_block",
    "check",
    "create",
    "date_of_text",
    "date_text",
    "entry_name",
    "host_name",
    "label_of",
    "open",
    "protection_bits",
    "protection_letters",
    "salvage",
    "version",
    "with_boot_block",
]

# The names of modules that are loaded when one of them is used.
_LATER = {
    "Boot": "_disk",
    "Note": "_names",
    "Salvage": "_salvage",
    "Salvaged": "_salvage",
    "boot_block": "_disk",
    "date_of_text": "_names",
    "date_text": "_names",
    "entry_name": "_names",
    "host_name": "_names",
    "label_of": "_disk",
    "protection_bits": "_names",
    "protection_letters": "_names",
    "salvage": "_salvage",
    "with_boot_block": "_disk",
}


if not TYPE_CHECKING:

    def __getattr__(name: str) -> object:
        if name not in _LATER:
            raise AttributeError(f"module {__name__!r} has no attribute {name!r}")
        import importlib

        found = globals()[name] = getattr(importlib.import_module(f"{__name__}.{_LATER[name]}"), name)
        return found


def __dir__() -> list[str]:
    return sorted({*globals(), *_LATER})
