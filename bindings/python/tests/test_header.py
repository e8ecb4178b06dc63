"""Compares numbers, structs and functions with jiponuwha.h, if the tests run in the repository."""
from __future__ import annotations

import ctypes
import re
import unittest
from enum import IntEnum
from pathlib import Path

from jiponuwha import _disk, _library, _numbers, _salvage

HEADER = Path(__file__).resolve().parents[2] / "c" / "jiponuwha.h"
# The ctypes of fields, by their types in C.
TYPES = {
    "int32_t": ctypes.c_int32,
    "uint32_t": ctypes.c_uint32,
    "size_t": ctypes.c_size_t,
    "jip_date": _library.CDate,
    "jip_entry": _library.CEntry,
    "jip_disk": _library.CDisk,
    "const uint8_t *": ctypes.c_char_p,
    "uint8_t *": ctypes.c_void_p,
    "void *": ctypes.c_void_p,
    "uint8_t[32]": ctypes.c_uint8 * 32,
    "uint8_t[80]": ctypes.c_uint8 * 80,
}
# The classes of numbers, with the prefix of their constants in C.
PREFIXES: dict[type[IntEnum], str] = {
    _numbers.Status: "JIP_",
    _numbers.Format: "JIP_",
    _numbers.EntryType: "JIP_",
    _numbers.LockMode: "JIP_",
    _numbers.SeekMode: "JIP_",
    _numbers.Action: "JIP_ACTION_",
    _numbers.Error: "JIP_ERROR_",
    _numbers.FaultKind: "JIP_FAULT_",
    _numbers.Role: "JIP_ROLE_",
    _numbers.State: "JIP_STATE_",
    _numbers.BootCode: "JIP_BOOT_",
}


def fields_of(struct: str, text: str) -> list[tuple[str, object]]:
    """Returns the fields of a struct of the header, with their types."""
    body = re.search(rf"typedef struct jip_{struct} \{{(.*?)\}} jip_{struct};", text, re.S)
    assert body is not None, struct
    plain = re.sub(r"/\*.*?\*/", "", body[1], flags=re.S)
    found = re.findall(r"([a-z0-9_ ]+?[ *])(\w+)(\[\d+\])?;", plain)
    return [(name, TYPES[" ".join(kind.split()) + size]) for kind, name, size in found]


@unittest.skipUnless(HEADER.exists(), "there is no header")
class Header(unittest.TestCase):
    text = HEADER.read_text() if HEADER.exists() else ""

    def test_numbers(self) -> None:
        for enum, prefix in PREFIXES.items():
            for it in enum:
                with self.subTest(it):
                    self.assertRegex(self.text, rf"\b{prefix}{it.name} = {it.value}\b")

    def test_all_numbers(self) -> None:
        for enum in (_numbers.Error, _numbers.FaultKind, _numbers.Role, _numbers.State):
            declared = set(re.findall(rf"\b{PREFIXES[enum]}([A-Z_]+) = ", self.text)) - {"NONE"}
            self.assertEqual({it.name for it in enum}, declared)

    def test_limits(self) -> None:
        for name, value in (
            ("NAME_BYTES", _numbers.NAME_BYTES),
            ("PATH_BYTES", _numbers.PATH_BYTES),
            ("BLOCK_BYTES", _numbers.BLOCK_BYTES),
            ("MOST_BLOCKS", _numbers.MOST_BLOCKS),
            ("DOUBLE_DENSITY", _numbers.DOUBLE_DENSITY),
            ("HIGH_DENSITY", _numbers.HIGH_DENSITY),
        ):
            self.assertRegex(self.text, rf"\bJIP_{name} = {value}\b")
        self.assertRegex(self.text, rf"#define JIP_MOST_FAULTS {_numbers.MOST_FAULTS}\b")
        self.assertRegex(self.text, rf"#define JIP_ROLE_DELETED {_salvage.DELETED}\b")
        self.assertRegex(self.text, rf"#define JIP_NO_DOS {_disk.NO_DOS}\b")

    def test_structs(self) -> None:
        for name, struct in _library.STRUCTS.items():
            with self.subTest(name):
                self.assertEqual([it[:2] for it in struct._fields_], fields_of(name, self.text))

    def test_functions(self) -> None:
        for name, (_, arguments) in _library.FUNCTIONS.items():
            with self.subTest(name):
                declared = re.search(rf"(?m)^[a-z0-9_ ]+[ *]{name}\(([^)]*)\);", self.text)
                assert declared is not None, name
                count = 0 if declared[1] == "void" else declared[1].count(",") + 1
                self.assertEqual(len(arguments), count)

    def test_version(self) -> None:
        numbers = [re.search(rf"#define JIP_VERSION_{it} (\d+)", self.text) for it in ("MAJOR", "MINOR", "PATCH")]
        self.assertEqual(_library.version().removesuffix(" (not proved)"), ".".join(it[1] for it in numbers if it))
        self.assertEqual(_library.version().split(".")[:2], [str(it) for it in _library.WRITTEN_FOR])


if __name__ == "__main__":
    unittest.main()
