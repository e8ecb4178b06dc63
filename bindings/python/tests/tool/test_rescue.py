"""Tests `jip rescue`: damaged images become new ones that are accepted, with a report."""
from __future__ import annotations

import os
import unittest

import jiponuwha as jip

from .tool_help import DATE, HOSTILE, HOSTILE_SHOWN, ToolCase, Tree


class Damage(ToolCase):
    """A disk with files, a boot block, and blocks that are damaged by the numbers that the library names."""

    format = jip.Format.OFS

    def setUp(self) -> None:
        super().setUp()
        with jip.create("Ol\xe9d", "old.adf", format=self.format, clock=lambda: DATE) as volume:
            volume.mkdir("Docs")
            volume["Docs/a"] = bytes(range(250)) * 20
            volume["Docs/b"] = b"b" * 3000
            volume["hello"] = b"hi"
            volume.comment("hello", "said")
            volume.protect("hello", 0x40)
            volume.date("hello", jip.Date(5000, 1, 2))
            self.places = {it: volume.where(it) for it in ("Docs", "Docs/a", "Docs/b", "hello", "")}
            volume.save()
        data = bytearray((self.top / "old.adf").read_bytes())
        data[12:20] = b"\x60\x00\x00\x02boot"
        (self.top / "old.adf").write_bytes(data)
        self.data = data

    def break_block(self, block: int, data: bytes = bytes(512)) -> None:
        self.data[block * 512 : block * 512 + len(data)] = data
        (self.top / "bad.adf").write_bytes(self.data)

    def rescued(self, status: int, *words: str) -> tuple[list[str], Tree]:
        """Rescues the damaged image, and returns the lines of the report and the new tree."""
        before = (self.top / "bad.adf").read_bytes()
        ran = self.jip("rescue", *words, "bad.adf", "new.adf")
        self.assertEqual((ran.status, ran.errors), (status, ""))
        self.assertEqual((self.top / "bad.adf").read_bytes(), before)
        self.assertEqual(jip.check("new.adf"), ())
        lines = (self.top / "new.adf.txt").read_text().splitlines()
        self.assertEqual([it for it in lines[1:] if not it.startswith("fault ")], ran.lines)
        return lines, self.tree("new.adf")


class Rescues(Damage):
    def test_an_image_without_faults_is_copied(self) -> None:
        (self.top / "bad.adf").write_bytes(self.data)
        lines, tree = self.rescued(0)
        self.assertEqual(tree, self.tree("old.adf"))
        self.assertEqual(lines[0], "rescued from bad.adf")
        self.assertIn("whole Docs/a", lines)
        with jip.open("new.adf") as volume:
            info = volume.info()
            self.assertEqual((info.label, info.format, volume.stat("").date), ("Ol\xe9d", self.format, DATE))
        self.assertEqual((self.top / "new.adf").read_bytes()[:1024], bytes(self.data[:1024]))

    def test_a_missing_data_block(self) -> None:
        self.break_block(self.places["Docs/a"][3])
        lines, tree = self.rescued(3)
        room = 488 if self.format == jip.Format.OFS else 512
        wanted = bytearray(bytes(range(250)) * 20)
        if self.format == jip.Format.OFS:
            # (block 3 of the file is data 2, after the header)
            wanted[2 * room : 3 * room] = bytes(room)
            self.assertIn("damaged Damaged/Docs/a: broken: 1 block missing", lines)
            self.assertEqual(tree["Damaged/Docs/a"][0], bytes(wanted))
            self.assertEqual(tree["Damaged/Docs/a"][3], "broken: 1 block missing")
            self.assertNotIn("Docs/a", tree)
        self.assertEqual(tree["hello"], (b"hi", 0x40, jip.Date(5000, 1, 2), "said"))

    def test_a_missing_directory(self) -> None:
        self.break_block(self.places["Docs"][0])
        lines, tree = self.rescued(3)
        self.assertEqual([tree[it][0] for it in tree if it.endswith("/b")], [b"b" * 3000])
        self.assertTrue(any(it.startswith("lost+found") for it in tree), tree)
        self.assertTrue(any(it.startswith("lost ") for it in lines), lines)

    def test_the_root_is_gone(self) -> None:
        self.break_block(self.places[""][0])
        lines, tree = self.rescued(3)
        self.assertEqual([tree[it][0] for it in tree if it.endswith("/hello")], [b"hi"])
        with jip.open("new.adf") as volume:
            self.assertEqual(volume.label(), "bad")
        self.assertIn("label bad: of the file, since that of the old volume is damaged", lines)

    def test_a_label_that_is_given(self) -> None:
        self.break_block(self.places[""][0])
        lines, _ = self.rescued(3, "--label", "Mine")
        self.assertIn("label Mine: as given", lines)

    def test_the_boot_block_is_gone(self) -> None:
        self.break_block(0)
        ran = self.jip("rescue", "bad.adf", "new.adf")
        self.assertIn(ran.status, (0, 3))
        self.assertEqual(jip.check("new.adf"), ())
        self.assertIn("boot block: a blank one, since that of the old volume is damaged", ran.lines)

    def test_a_file_that_was_cut_short(self) -> None:
        self.data = self.data[: 901_120 - 100]
        (self.top / "bad.adf").write_bytes(self.data)
        lines, tree = self.rescued(0)
        self.assertEqual(tree, self.tree("old.adf"))
        self.assertEqual(lines[1], "the file has 901,020 bytes; the rest is read as zeros, up to 1,760 blocks")

    def test_own_names_are_not_those_of_entries(self) -> None:
        with jip.open("old.adf") as volume:
            volume["Damaged"] = b"mine"
            volume.save()
        self.data = bytearray((self.top / "old.adf").read_bytes())
        self.break_block(self.places["Docs/b"][2])
        lines, tree = self.rescued(3)
        self.assertEqual(tree["Damaged"][0], b"mine")
        if self.format == jip.Format.OFS:
            self.assertIn("Damaged-1/Docs/b", tree)

    def test_what_is_in_the_way(self) -> None:
        self.break_block(self.places["hello"][0])
        self.refused(2, "old.adf: there is a file with this name already", "rescue", "bad.adf", "old.adf")
        (self.top / "new.adf.txt").write_bytes(b"mine")
        self.refused(2, "new.adf.txt: there is a file with this name already", "rescue", "bad.adf", "new.adf")
        self.assertFalse(os.path.exists("new.adf"))
        self.refused(1, "no path in it", "rescue", "bad.adf:Docs", "other.adf")
        self.refused(2, "No such file", "rescue", "none.adf", "other.adf")
        self.jip("rescue", "-n", "bad.adf", "other.adf")
        self.assertFalse(os.path.exists("other.adf"))

    def test_hostile_names(self) -> None:
        with jip.open("old.adf") as volume:
            volume[HOSTILE] = b"x" * 2000
            blocks = volume.where(HOSTILE)
            volume.save()
        self.data = bytearray((self.top / "old.adf").read_bytes())
        self.break_block(blocks[1])
        ran = self.jip("rescue", "bad.adf", "new.adf")
        self.assertIn(HOSTILE_SHOWN, ran.output)
        report = (self.top / "new.adf.txt").read_text()
        self.assertIn(HOSTILE_SHOWN, report)
        for text in (ran.output, report):
            self.assertFalse([it for it in text if it < " " and it != "\n" or "\x7f" <= it <= "\x9f"])


class RescuesOfFastDisks(Rescues):
    format = jip.Format.FFS

    def test_a_missing_data_block(self) -> None:
        """In the Fast File System a data block has nothing by which damage shows: the image is accepted."""
        self.break_block(self.places["Docs/a"][3])
        _, tree = self.rescued(0)
        self.assertEqual(tree, self.tree("bad.adf"))

    def test_own_names_are_not_those_of_entries(self) -> None:
        pass

    def test_a_missing_header(self) -> None:
        self.break_block(self.places["hello"][0])
        lines, tree = self.rescued(3)
        self.assertTrue(any(it.startswith("lost ") for it in lines), lines)
        self.assertEqual(sorted(tree), ["Docs", "Docs/a", "Docs/b"])


if __name__ == "__main__":
    unittest.main()
