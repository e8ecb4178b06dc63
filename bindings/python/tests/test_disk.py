"""Tests the label and the boot block of any image."""
from __future__ import annotations

import tempfile
import unittest
from pathlib import Path

import jiponuwha as jip

ROOT = 880
# The code of the standard boot block, behind its checksum.
CODE = bytes.fromhex("00000370 43fa0018 4eaeffa0 4a80 6604 5380 4e75 2240 20690016 7000 4e75") + b"dos.library\0"


def blank(format: jip.Format = jip.Format.OFS, label: str = "Work") -> bytes:
    with jip.create(label, format=format) as floppy:
        image = floppy.image()
        floppy.close(discard=True)
    return image


def sum_of(boot: bytes) -> int:
    """Returns the checksum that belongs into two boot blocks: the complement of the sum of the other longs, with the carries added."""
    total = sum(int.from_bytes(boot[it : it + 4], "big") for it in range(0, 1024, 4) if it != 4)
    while total >= 2**32:
        total = total % 2**32 + total // 2**32
    return 2**32 - 1 - total


class Labels(unittest.TestCase):
    def test_labels(self) -> None:
        for label in ("Work", "A", "x" * 30, "Na\xefve"):
            self.assertEqual(jip.label_of(blank(label=label)), label)

    def test_a_refused_image(self) -> None:
        """The name is in the bytes 432 to 462 of the root, with its length before it."""
        image = bytearray(blank())
        image[512 * ROOT + 20] ^= 1
        self.assertNotEqual(jip.check(image), ())
        self.assertEqual(jip.label_of(image), "Work")
        for length in (0, 31, 255):
            image[512 * ROOT + 432] = length
            self.assertIsNone(jip.label_of(image))
        image[512 * ROOT + 432 : 512 * ROOT + 434] = b"\1:"
        self.assertIsNone(jip.label_of(image))
        self.assertIsNone(jip.label_of(bytes(901_120)))

    def test_files_of_the_host(self) -> None:
        with tempfile.TemporaryDirectory() as room:
            path = Path(room) / "some.adf"
            path.write_bytes(blank(label="There"))
            self.assertEqual((jip.label_of(path), jip.boot_block(path).code), ("There", jip.BootCode.NONE))
            with self.assertRaises(FileNotFoundError):
                jip.label_of(Path(room) / "none")

    def test_no_image(self) -> None:
        for image in (b"", b"x", bytes(511), bytes(512 * 15), bytes(512 * 101_603)):
            for call in (jip.label_of, jip.boot_block, jip.with_boot_block):
                with self.assertRaises(jip.NotAnImage):
                    call(image)


class Boots(unittest.TestCase):
    def test_the_standard_one(self) -> None:
        for format in jip.Format:
            image = blank(format)
            made = jip.with_boot_block(image)
            self.assertEqual((made[:4], made[8:1024]), (image[:4], CODE.ljust(1016, b"\0")))
            self.assertEqual(made[1024:], image[1024:])
            self.assertEqual(int.from_bytes(made[4:8], "big"), sum_of(made))
            self.assertEqual(jip.boot_block(made), jip.Boot(format, jip.BootCode.STANDARD, sum_of(made), sum_of(made)))
            self.assertEqual(jip.with_boot_block(made), made)

    def test_none(self) -> None:
        image = blank(jip.Format.FFS)
        self.assertEqual(jip.boot_block(image), jip.Boot(jip.Format.FFS, jip.BootCode.NONE, 0, sum_of(image)))
        self.assertFalse(jip.boot_block(image).is_bootable)

    def test_others(self) -> None:
        made = bytearray(jip.with_boot_block(blank()))
        made[700] = 1
        self.assertEqual(jip.boot_block(made).code, jip.BootCode.WRONG)
        self.assertEqual(jip.boot_block(made).right_sum, sum_of(made))
        made[4:8] = sum_of(made).to_bytes(4, "big")
        self.assertEqual((jip.boot_block(made).code, jip.boot_block(made).is_bootable), (jip.BootCode.CUSTOM, True))

    def test_kinds(self) -> None:
        image = bytearray(blank())
        for kind in (0, 1, 2, 7, 255):
            image[3] = kind
            self.assertEqual(jip.boot_block(image).kind, kind)
        image[0] = 0
        self.assertIsNone(jip.boot_block(image).kind)


if __name__ == "__main__":
    unittest.main()
