"""Tests the commands that change entries of one image."""
from __future__ import annotations

import unittest

import jiponuwha as jip

from .tool_help import HOSTILE, HOSTILE_SHOWN, ToolCase


class Moves(ToolCase):
    def test_a_new_name_and_a_directory(self) -> None:
        self.floppy(a=b"1", b=b"2")
        self.assertEqual(self.done("mv", "work.adf:a", "work.adf:c").lines, ["'work.adf:a' -> 'work.adf:c'"])
        self.done("mv", "work.adf:b", "work.adf:C", "work.adf:docs")
        self.assertEqual(sorted(self.tree("work.adf")), ["Docs", "Docs/b", "Docs/c", "S", "S/startup-sequence"])
        self.done("mv", "work.adf:Docs/#?", "work.adf:")
        self.assertEqual(sorted(self.tree("work.adf")), ["Docs", "S", "S/startup-sequence", "b", "c"])

    def test_another_case(self) -> None:
        self.floppy(readme=b"1")
        self.done("mv", "work.adf:readme", "work.adf:README")
        self.done("mv", "work.adf:Docs", "work.adf:DOCS")
        self.assertEqual(sorted(self.tree("work.adf")), ["DOCS", "README", "S", "S/startup-sequence"])

    def test_a_file_is_replaced_and_a_directory_is_not(self) -> None:
        self.floppy(a=b"1", b=b"2", Docs__S=b"3")
        self.done("mv", "work.adf:a", "work.adf:b")
        self.assertEqual(self.tree("work.adf")["b"][0], b"1")
        self.refused(3, "(203)", "mv", "work.adf:S", "work.adf:Docs")

    def test_refusals_change_nothing(self) -> None:
        self.floppy(a=b"1")
        self.floppy("other.adf")
        data = (self.top / "work.adf").read_bytes()
        self.refused(3, "into itself", "mv", "work.adf:Docs", "work.adf:docs/x")
        self.refused(3, "the root cannot be moved", "mv", "work.adf:", "work.adf:Docs")
        self.refused(3, "(205)", "mv", "work.adf:a", "work.adf:none", "work.adf:Docs")
        self.refused(3, "not a directory", "mv", "work.adf:a", "work.adf:S", "work.adf:new")
        self.refused(1, "moves in one image", "mv", "work.adf:a", "other.adf:a")
        self.refused(1, "one command changes one image", "mv", "work.adf:a", "other.adf:S", "work.adf:Docs")
        self.refused(1, "name a path in an image", "mv", "work.adf", "work.adf:x")
        self.assertEqual((self.top / "work.adf").read_bytes(), data)


class Removes(ToolCase):
    def test_files_and_trees(self) -> None:
        self.floppy(a=b"1", Docs__b=b"2", Docs__Old=b"3")
        self.assertEqual(self.done("rm", "work.adf:a").lines, ["removed 'work.adf:a'"])
        self.refused(3, "-r deletes it", "rm", "work.adf:Docs")
        self.done("rm", "-r", "work.adf:Docs", "work.adf:S")
        self.assertEqual(self.tree("work.adf"), {})

    def test_patterns_and_what_is_gone_by_then(self) -> None:
        self.floppy(**{"a.info": b"", "b.info": b"", "Docs__c.info": b""})
        self.done("rm", "-r", "work.adf:(a|b).info", "work.adf:Docs", "work.adf:S")
        self.assertEqual(self.tree("work.adf"), {})
        self.refused(3, "(205)", "rm", "work.adf:#?")
        self.done("rm", "-f", "work.adf:#?", "work.adf:none/x")

    def test_all_or_nothing(self) -> None:
        self.floppy(a=b"1")
        data = (self.top / "work.adf").read_bytes()
        self.refused(3, "(205)", "rm", "work.adf:a", "work.adf:none")
        self.refused(3, "the root cannot be deleted", "rm", "-rf", "work.adf:")
        self.assertEqual((self.top / "work.adf").read_bytes(), data)

    def test_protected_entries(self) -> None:
        self.floppy(Docs__a=b"1")
        self.done("protect", "work.adf:Docs/a", "-d")
        self.refused(3, "work.adf:Docs/a: refused: object is protected from deletion (222)", "rm", "-r", "work.adf:Docs")
        self.done("rm", "-rf", "work.adf:Docs")
        self.assertNotIn("Docs", self.tree("work.adf"))


class Makes(ToolCase):
    def test_directories(self) -> None:
        self.floppy(a=b"1")
        self.assertEqual(self.done("mkdir", "work.adf:New", "work.adf:New/Sub/").lines, ["made 'work.adf:New'", "made 'work.adf:New/Sub'"])
        self.done("mkdir", "-p", "work.adf:x/y/z", "work.adf:Docs/y")
        self.assertIn("x/y/z", self.tree("work.adf"))
        self.refused(3, "(203)", "mkdir", "work.adf:Other", "work.adf:docs")
        self.refused(3, "a file, and not a directory", "mkdir", "-p", "work.adf:a/b")
        self.refused(3, "(210)", "mkdir", "work.adf:" + "n" * 31)
        self.refused(3, "(210)", "mkdir", "work.adf:\u20ac")
        self.assertNotIn("Other", self.tree("work.adf"))

    def test_touch(self) -> None:
        self.floppy(a=b"1")
        self.done("touch", "-d", "1992-01-01", "work.adf:a", "work.adf:new")
        tree = self.tree("work.adf")
        self.assertEqual((tree["a"][0], tree["a"][2]), (b"1", jip.Date(5113)))
        self.assertEqual((tree["new"][0], tree["new"][2]), (b"", jip.Date(5113)))
        for text, date in (("1990-01-01 01:01", (4383, 61, 0)), ("1990-01-01 01:01:01", (4383, 61, 50)), ("1978-01-01 00:00:00.02", (0, 0, 1))):
            self.done("touch", "-d", text, "work.adf:Docs")
            self.assertEqual(self.tree("work.adf")["Docs"][2], date)
        for text in ("yesterday", "1977-12-31", "1990-13-01", "1990-1-1", ""):
            self.refused(1, "no date", "touch", "-d", text, "work.adf:a")
        before = jip.Date.now()
        self.done("touch", "work.adf:a")
        self.assertGreaterEqual(self.tree("work.adf")["a"][2], before)


class Settings(ToolCase):
    def test_letters(self) -> None:
        self.floppy(a=b"1")
        for letters, bits in (
            ("----rwed", 0), ("+s", 0x40), ("-wd", 0x45), ("rwed", 0), ("=re", 5), ("hsparwed", 0xF0), ("-H", 0x70), ("s--rw-d", 0x42), ("-S-", None),
            ("--------", 0xF), ("+RW", 3),
        ):
            ran = self.jip("protect", "work.adf:a", letters)
            if bits is None:
                self.assertEqual(ran.status, 1, letters)
            else:
                with jip.open("work.adf", read_only=True) as volume:
                    self.assertEqual((ran.status, volume.stat("a").bits), (0, bits), letters)
        for letters in ("", "x", "+", "rr", "+rx", "---"):
            self.refused(1, "no protection letters", "protect", "work.adf:a", letters)

    def test_upper_bits_stay(self) -> None:
        self.floppy(a=b"1")
        with jip.open("work.adf") as volume:
            volume.protect("a", 0xABCDEF00)
            volume.save()
        self.assertEqual(self.done("protect", "work.adf:a", "-w").lines, ["----r-ed 'work.adf:a'"])
        self.assertEqual(self.tree("work.adf")["a"][1], 0xABCDEF04)

    def test_comments(self) -> None:
        self.floppy(a=b"1", b=b"2")
        self.assertEqual(self.done("note", "work.adf:?", "work.adf:Docs", "read \xe9").lines[0][-8:], '"read \xe9"')
        tree = self.tree("work.adf")
        self.assertEqual([tree[it][3] for it in ("a", "b", "Docs", "S")], ["read \xe9"] * 4)
        self.done("note", "work.adf:a", "")
        self.assertEqual(self.tree("work.adf")["a"][3], "")
        self.refused(3, "(220)", "note", "work.adf:a", "n" * 80)
        self.refused(3, "(210)", "note", "work.adf:a", "\u20ac")

    def test_labels(self) -> None:
        self.floppy()
        self.assertEqual(self.done("label", "work.adf").lines, ["Work"])
        self.assertEqual(self.done("label", "work.adf", "Ga\xe9mes").lines, ["'Work:' -> 'Ga\xe9mes:'"])
        self.assertEqual(self.done("label", "work.adf:").lines, ["Ga\xe9mes"])
        self.refused(3, "(210)", "label", "work.adf", "a/b")
        self.refused(1, "whole image", "label", "work.adf:Docs", "x")

    def test_hostile_names(self) -> None:
        self.floppy()
        with jip.open("work.adf") as volume:
            volume[HOSTILE] = b"x"
            volume.save()
        for words in (["note"], ["protect"]):
            ran = self.done(*words, "work.adf:#?m#?", "rwd" if words == ["protect"] else "\x1b[2J")
            self.assertIn(HOSTILE_SHOWN, ran.output)
            self.assertNotIn("\x1b", ran.output)
        self.assertIn(HOSTILE_SHOWN, self.done("touch", "-n", "work.adf:#?m#?").output)
        self.assertIn(HOSTILE_SHOWN, self.done("mv", "-n", "work.adf:#?m#?", "work.adf:x").output)
        self.assertIn(HOSTILE_SHOWN, self.done("rm", "work.adf:#?m#?").output)


if __name__ == "__main__":
    unittest.main()
