"""Tests the lists of faults of images, and maps of blocks."""
from __future__ import annotations

import os
import pickle
import tempfile
import unittest
from pathlib import Path

import jiponuwha as jip

ROOT, BITMAP = 880, 881


class Faults(unittest.TestCase):
    def setUp(self) -> None:
        with jip.create("Work") as floppy:
            self.image = bytearray(floppy.image())
            floppy.close(discard=True)

    def test_a_valid_image(self) -> None:
        self.assertEqual(jip.check(self.image), ())

    def test_each_fault(self) -> None:
        self.image[512 * ROOT + 433] = ord("/")
        self.image[512 * BITMAP + 100] ^= 1
        wanted = jip.check(self.image)
        shown = [(jip.FaultKind.BAD_SUM, ROOT, 5), (jip.FaultKind.BAD_NAME, ROOT, 108), (jip.FaultKind.BAD_SUM, BITMAP, 0)]
        self.assertEqual([(it.kind, it.block, it.at) for it in wanted], shown)
        for fault in wanted:
            place = 512 * fault.block + 4 * (fault.at or 0)
            self.assertEqual(fault.found, int.from_bytes(self.image[place : place + 4], "big"))
        self.assertEqual(wanted[1].wanted, None)
        with tempfile.TemporaryDirectory() as room:
            path = Path(room) / "bad.adf"
            path.write_bytes(self.image)
            self.assertEqual(jip.check(path), wanted)
            with self.assertRaises(jip.NotAnImage) as raised:
                jip.open(path)
        self.assertEqual(raised.exception.faults, wanted)
        self.assertEqual(raised.exception.filename, os.fspath(path))
        self.assertEqual(pickle.loads(pickle.dumps(raised.exception)).faults, wanted)
        self.assertIn("block 881: ", str(raised.exception))

    def test_more_than_a_thousand(self) -> None:
        with jip.create("Work", blocks=4_000) as floppy:
            for count in range(1_001):
                floppy[f"f{count}"] = b""
            headers = [entry.key for _, entry in floppy.walk()]
            image = bytearray(floppy.image())
            floppy.close(discard=True)
        for header in headers[1:]:
            image[512 * header + 23] ^= 1
        self.assertEqual((len(jip.check(image)), jip.check(image).more), (1_000, False))
        image[512 * headers[0] + 23] ^= 1
        with self.assertRaises(jip.NotAnImage) as raised:
            jip.open(image)
        found = pickle.loads(pickle.dumps(raised.exception)).faults
        self.assertEqual((len(found), found.more), (1_000, True))
        self.assertTrue(str(raised.exception).endswith("; more"))

    def test_sizes(self) -> None:
        self.assertEqual(jip.check(self.image[:-1]), (jip.Fault(jip.FaultKind.NOT_WHOLE_BLOCKS, 0),))
        self.assertEqual(jip.check(b""), (jip.Fault(jip.FaultKind.TOO_FEW_BLOCKS, 0),))


class Map(unittest.TestCase):
    def setUp(self) -> None:
        self.floppy = jip.create("Work", format=jip.Format.OFS)
        self.addCleanup(self.floppy.close, discard=True)
        self.floppy.mkdir("Docs")
        self.floppy["Docs/long"] = bytes(488 * 75)
        self.floppy["empty"] = b""

    def test_map(self) -> None:
        found = self.floppy.map()
        self.assertEqual(len(found), jip.DOUBLE_DENSITY)
        self.assertEqual(found[:2], [jip.Owner(jip.Role.BOOT)] * 2)
        self.assertEqual(found[ROOT], jip.Owner(jip.Role.ROOT, ROOT))
        self.assertEqual(found[BITMAP], jip.Owner(jip.Role.BITMAP))
        free = [it for it in found if it.role == jip.Role.FREE]
        self.assertEqual(len(free), self.floppy.info().free)
        key = self.floppy.stat("Docs/long").key
        data = sorted(it.index for it in found if it.role == jip.Role.DATA and it.header == key)
        self.assertEqual(data, list(range(75)))
        self.assertIn(jip.Owner(jip.Role.EXTENSION, key, 0), found)
        self.assertNotIn(jip.Role.LOST, {it.role for it in found})

    def test_where(self) -> None:
        key = self.floppy.stat("Docs/long").key
        blocks = self.floppy.where("Docs/long")
        self.assertEqual(len(blocks), self.floppy.stat("Docs/long").blocks)
        self.assertIn(key, blocks)
        for block in blocks:
            owner, path = self.floppy.where(block)
            self.assertEqual((owner.header, path), (key, "Docs/long"))
        self.assertEqual(self.floppy.where(key)[0], jip.Owner(jip.Role.FILE, key))
        self.assertEqual(self.floppy.where("Docs"), [self.floppy.stat("Docs").key])
        self.assertEqual(self.floppy.where(""), [ROOT])
        self.assertEqual(self.floppy.where(ROOT), (jip.Owner(jip.Role.ROOT, ROOT), ""))
        self.assertEqual(self.floppy.where(0), (jip.Owner(jip.Role.BOOT), None))
        for block in (-1, jip.DOUBLE_DENSITY):
            with self.assertRaises(IndexError):
                self.floppy.where(block)
        with self.assertRaises(jip.ObjectNotFound):
            self.floppy.where("none")

    def test_closed(self) -> None:
        with jip.create("Work") as floppy:
            floppy.close(discard=True)
            with self.assertRaises(ValueError):
                floppy.map()


if __name__ == "__main__":
    unittest.main()
