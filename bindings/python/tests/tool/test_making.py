"""Tests `jip new`."""
from __future__ import annotations

import gzip
import os
import unittest

import jiponuwha as jip

from .tool_help import DATE, ToolCase, with_boot


class New(ToolCase):
    def test_kinds_and_sizes(self) -> None:
        rows = (("", "OFS", 1760), ("--ffs", "FFS", 1760), ("--hd", "OFS", 3520), ("--ffs --blocks 16", "FFS", 16), ("--blocks 101602", "OFS", 101602))
        for words, kind, blocks in rows:
            self.assertEqual(self.done("new", *words.split(), "x.adf", "Na\xefve").lines, [f"made 'x.adf': Na\xefve, {kind}, {blocks:,} blocks"])
            self.assertEqual(os.stat("x.adf").st_size, blocks * 512)
            with jip.open("x.adf") as volume:
                info = volume.info()
                self.assertEqual((info.label, info.format.name, len(volume)), ("Na\xefve", kind, 0))
            os.remove("x.adf")

    def test_what_is_refused(self) -> None:
        self.floppy()
        data = (self.top / "work.adf").read_bytes()
        self.refused(2, "there is a file with this name already", "new", "work.adf", "Work")
        self.assertEqual((self.top / "work.adf").read_bytes(), data)
        for label in ("", "a/b", "a:b", "n" * 31, "\u20ac"):
            self.refused(3, "no volume", "new", "x.adf", label)
        for blocks in ("15", "101603", "0", "-1"):
            self.assertIn(self.jip("new", "--blocks", blocks, "x.adf", "Work").status, (1, 3), blocks)
        self.refused(1, "not allowed with", "new", "--hd", "--blocks", "16", "x.adf", "Work")
        self.refused(2, "cannot be made", "new", "x.zip", "Work")
        self.refused(2, "none: not a directory", "new", "--from", "none", "x.adf", "Work")
        self.refused(2, "No such file", "new", "no/such/x.adf", "Work")
        self.assertEqual(os.listdir("."), ["work.adf"])

    def test_from_a_directory(self) -> None:
        os.makedirs("files/sub")
        (self.top / "files/a").write_bytes(b"one")
        (self.top / "files/a.uaem").write_bytes(jip.Note(0x10, DATE, "said").line())
        (self.top / "files/sub/b").write_bytes(bytes(50_000))
        lines = self.done("new", "--ffs", "--from", "files", "x.adf", "Files").lines
        self.assertEqual(lines[1:], ["'files/a' -> 'x.adf:a'", "'files/sub' -> 'x.adf:sub'", "'files/sub/b' -> 'x.adf:sub/b'"])
        tree = self.tree("x.adf")
        self.assertEqual(tree["a"], (b"one", 0x10, DATE, "said"))
        self.assertEqual(tree["sub/b"][0], bytes(50_000))
        (self.top / "files/large").write_bytes(bytes(900_000))
        self.refused(3, "the disk is full", "new", "--from", "files", "y.adf", "Files")
        self.assertFalse(os.path.exists("y.adf"))

    def test_a_compressed_image(self) -> None:
        self.done("new", "x.adz", "Zip")
        self.assertEqual(len(gzip.decompress((self.top / "x.adz").read_bytes())), 901_120)
        self.assertEqual(self.done("label", "x.adz").lines, ["Zip"])

    def test_dry_run(self) -> None:
        self.assertEqual(self.done("new", "-n", "x.adf", "Work").lines, ["would be done: made 'x.adf': Work, OFS, 1,760 blocks"])
        self.assertEqual(os.listdir("."), [])

    def test_the_standard_boot_block(self) -> None:
        for number, kind in enumerate(((), ("--ffs",))):
            name = f"{number}.adf"
            self.done("new", "--boot", *kind, name, "Work")
            made = (self.top / name).read_bytes()
            self.assertEqual(made[:1024], with_boot(made[:4] + bytes(len(made) - 4))[:1024])
            self.assertEqual((made[3], jip.boot_block(made).code, jip.check(made)), (number, jip.BootCode.STANDARD, ()))


if __name__ == "__main__":
    unittest.main()
