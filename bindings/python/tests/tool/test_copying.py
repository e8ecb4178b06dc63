"""Tests `jip cp`: between the host and images, with bits, dates and comments, and everything that is in the way."""
from __future__ import annotations

import os
import unittest
from unittest import mock

import jiponuwha as jip

from .tool_help import DATE, HOSTILE, HOSTILE_SHOWN, ToolCase


class Into(ToolCase):
    def test_a_file_and_a_directory(self) -> None:
        self.floppy()
        os.makedirs("host/sub")
        (self.top / "host/a").write_bytes(b"one")
        (self.top / "host/sub/b").write_bytes(bytes(range(256)) * 40)
        self.assertEqual(self.done("cp", "host/a", "work.adf:Docs").lines, ["'host/a' -> 'work.adf:Docs/a'"])
        self.done("cp", "host/a", "work.adf:Docs/new")
        self.done("cp", "-r", "host", "work.adf:")
        tree = self.tree("work.adf")
        self.assertEqual(tree["Docs/a"][0], b"one")
        self.assertEqual(tree["Docs/new"][0], b"one")
        self.assertEqual(tree["host/sub/b"][0], bytes(range(256)) * 40)
        self.done("cp", "-r", "host/.", "work.adf:S")
        self.assertIn("S/sub/b", self.tree("work.adf"))
        self.done("cp", "-r", "host", "work.adf:Docs/other")
        self.assertIn("Docs/other/sub/b", self.tree("work.adf"))

    def test_a_file_that_is_there_is_replaced(self) -> None:
        self.floppy(hello=b"old")
        (self.top / "HELLO").write_bytes(b"new")
        self.done("cp", "HELLO", "work.adf:")
        self.assertEqual(self.tree("work.adf")["hello"][0], b"new")
        with jip.open("work.adf") as volume:
            volume.protect("hello", 4)
            volume.save()
        self.refused(3, "(223)", "cp", "HELLO", "work.adf:")

    def test_all_or_nothing(self) -> None:
        self.floppy()
        data = (self.top / "work.adf").read_bytes()
        (self.top / "a").write_bytes(b"fits")
        (self.top / "b").write_bytes(bytes(901_120))
        (self.top / ("n" * 31)).write_bytes(b"")
        self.refused(3, "the disk is full: 875 KB are free, and b has 901,120 bytes", "cp", "a", "b", "work.adf:")
        self.refused(3, "210", "cp", "a", "n" * 31, "work.adf:")
        self.refused(3, "not a directory", "cp", "a", "b", "work.adf:New")
        self.refused(3, "not a directory", "cp", "a", "work.adf:New/")
        self.refused(3, "(204)", "cp", "a", "work.adf:No/such")
        self.refused(2, "none: No such file", "cp", "a", "none", "work.adf:")
        self.refused(3, "-r copies it", "cp", ".", "work.adf:")
        self.assertEqual((self.top / "work.adf").read_bytes(), data)

    def test_two_host_files_of_one_name(self) -> None:
        self.floppy()
        for name in ("a", "A"):
            (self.top / name).write_bytes(name.encode())
        self.refused(3, "would be one entry", "cp", "a", "A", "work.adf:")
        self.assertEqual(sorted(self.tree("work.adf")), ["Docs", "S", "S/startup-sequence"])

    def test_kinds_that_conflict(self) -> None:
        self.floppy(file=b"x")
        os.makedirs("file")
        (self.top / "Docs").write_bytes(b"")
        self.refused(3, "a file with this name is there", "cp", "-r", "file", "work.adf:")
        self.refused(3, "a directory with this name is there", "cp", "Docs", "work.adf:")

    def test_links_and_pipes(self) -> None:
        self.floppy()
        os.makedirs("host")
        (self.top / "text").write_bytes(b"text")
        os.symlink("../text", "host/link")
        os.symlink("..", "host/loop")
        os.mkfifo("host/pipe")
        ran = self.jip("cp", "-r", "host", "work.adf:")
        self.assertEqual(ran.status, 0)
        skipped = [f"jip: host/{it}: skipped, since it is neither a file nor a directory" for it in ("loop", "pipe")]
        self.assertEqual(ran.errors.splitlines(), skipped)
        self.assertEqual(self.tree("work.adf")["host/link"][0], b"text")
        self.refused(2, "neither a file nor a directory", "cp", "host/pipe", "work.adf:")

    def test_notes_give_bits_date_and_comment(self) -> None:
        self.floppy()
        (self.top / "a").write_bytes(b"x")
        (self.top / "a.uaem").write_bytes(jip.Note(0x45, DATE, "said").line())
        (self.top / "b").write_bytes(b"y")
        os.utime("b", ns=(0, 694_224_000_000_000_000))
        self.done("cp", "-p", "a", "b", "work.adf:")
        self.assertEqual(self.tree("work.adf")["a"], (b"x", 0x45, DATE, "said"))
        # (1 January 1992 is day 5,113)
        self.assertEqual(self.tree("work.adf")["b"], (b"y", 0, jip.Date(5113), ""))
        os.makedirs("d")
        for name in ("a", "a.uaem"):
            os.rename(name, f"d/{name}")
        (self.top / "d/alone.uaem").write_bytes(b"a file")
        self.done("cp", "-r", "d", "work.adf:")
        self.assertEqual([it for it in self.tree("work.adf") if it.startswith("d/")], ["d/a", "d/alone.uaem"])
        (self.top / "d/a.uaem").write_bytes(b"no note")
        self.refused(2, "d/a.uaem: the file is not one line", "cp", "-rp", "d", "work.adf:")


class Out(ToolCase):
    def test_out_and_in_gives_the_same_tree(self) -> None:
        self.floppy(hello=b"hi", Docs__empty=b"", Docs__large=bytes(range(256)) * 300)
        with jip.open("work.adf", clock=lambda: DATE) as volume:
            for number, name in enumerate((HOSTILE, "x.uaem", "X.UAEM.uaem", "..", "a\\b", "100%41", "\xe4\xff", ".jip")):
                volume[name] = bytes([number])
                volume.date(name, jip.Date(3000 + number, 1439, 2999))
            volume.mkdir("Docs/Old/Older", parents=True)
            volume.protect("hello", 0xF5)
            volume.comment("Docs", "all of them")
            volume.comment("Docs/empty", "\x1b[2J\xe9")
            volume.date("Docs/Old", jip.Date(0, 0, 1))
            volume.date("Docs/Old/Older", jip.Date(2**32 - 1, 2000, 9999))
            volume.save()
        self.done("cp", "-rp", "work.adf:", "out")
        self.done("new", "--ffs", "again.adf", "Work")
        self.done("cp", "-rp", "out/.", "again.adf:")
        self.assertEqual(self.tree("again.adf"), self.tree("work.adf"))
        self.done("new", "other.adf", "Work")
        self.done("cp", "-rp", "work.adf:", "other.adf:")
        self.assertEqual(self.tree("other.adf"), self.tree("work.adf"))

    def test_a_file_gets_its_name_or_a_new_one(self) -> None:
        self.floppy(hello=b"hi")
        self.done("cp", "work.adf:hello", ".")
        self.assertEqual((self.top / "hello").read_bytes(), b"hi")
        self.done("cp", "work.adf:HELLO", "other")
        self.assertEqual((self.top / "other").read_bytes(), b"hi")
        os.makedirs("d")
        self.done("cp", "-r", "work.adf:#?", "d")
        self.assertEqual(sorted(os.listdir("d")), ["Docs", "S", "hello"])
        self.refused(2, "not a directory", "cp", "-r", "work.adf:#?", "none")
        self.refused(3, "-r copies it", "cp", "work.adf:Docs", "d")

    def test_nothing_is_written_through_a_link_or_over_a_device(self) -> None:
        self.floppy(Docs__passwd=b"x", hello=b"hi")
        os.makedirs("out")
        os.makedirs("outside")
        os.symlink("../outside", "out/Docs")
        self.refused(2, "out/Docs: a link, a device or a pipe with this name is there", "cp", "-r", "work.adf:Docs", "out")
        self.assertEqual(os.listdir("outside"), [])
        os.mkfifo("pipe")
        self.refused(2, "pipe: a link, a device or a pipe", "cp", "work.adf:hello", "pipe")
        self.refused(2, "/dev/null: a link, a device or a pipe", "cp", "work.adf:hello", "/dev/null")
        (self.top / "real").write_bytes(b"old")
        os.symlink("real", "link")
        self.done("cp", "work.adf:hello", "link")
        self.assertTrue(os.path.islink("link"))
        self.assertEqual((self.top / "real").read_bytes(), b"hi")

    def test_a_conflict_writes_nothing(self) -> None:
        self.floppy(a=b"1", b=b"2")
        os.makedirs("out/b")
        self.refused(2, "out/b: a directory with this name is there", "cp", "work.adf:a", "work.adf:b", "out")
        self.assertEqual(os.listdir("out"), ["b"])

    def test_a_full_disk_of_the_host(self) -> None:
        self.floppy(a=b"1")
        with mock.patch("os.rename", side_effect=OSError(28, "No space left on device")):
            self.refused(2, "No space left", "cp", "work.adf:a", "out")
        self.assertEqual(os.listdir("."), ["work.adf"])

    def test_hostile_names(self) -> None:
        self.floppy()
        with jip.open("work.adf") as volume:
            volume[HOSTILE] = b"x"
            volume.save()
        ran = self.done("cp", "work.adf:#?m#?", "out")
        self.assertIn(HOSTILE_SHOWN, ran.output)
        self.assertEqual(len(ran.lines), 1)


class Words(ToolCase):
    def test_host_to_host_is_refused_with_the_way(self) -> None:
        self.floppy()
        self.refused(1, "work.adf: is the root of the image work.adf", "cp", "a", "work.adf")

    def test_dry_run(self) -> None:
        self.floppy(hello=b"hi")
        data = (self.top / "work.adf").read_bytes()
        self.assertEqual(self.done("cp", "-n", "work.adf:hello", "out").lines, ["would be done: 'work.adf:hello' -> 'out'"])
        self.assertEqual(self.done("cp", "-n", "work.adf:hello", "work.adf:S").lines, ["would be done: 'work.adf:hello' -> 'work.adf:S/hello'"])
        self.assertEqual(os.listdir("."), ["work.adf"])
        self.assertEqual((self.top / "work.adf").read_bytes(), data)
        self.refused(3, "205", "cp", "-n", "work.adf:none", "work.adf:S")

    def test_quiet(self) -> None:
        self.floppy(hello=b"hi")
        self.assertEqual(self.done("cp", "-q", "work.adf:hello", "work.adf:S").output, "")
        self.assertIn("S/hello", self.tree("work.adf"))

    def test_image_to_image(self) -> None:
        self.floppy(hello=b"hi")
        self.done("new", "other.adf", "Other")
        with jip.open("work.adf", clock=lambda: DATE) as volume:
            volume.protect("hello", 0x12345640)
            volume.comment("hello", "said")
            volume.date("hello", DATE)
            volume.save()
        self.done("cp", "-p", "work.adf:hello", "other.adf:")
        self.assertEqual(self.tree("other.adf")["hello"], (b"hi", 0x12345640, DATE, "said"))
        self.done("cp", "work.adf:hello", "other.adf:plain")
        self.assertEqual(self.tree("other.adf")["plain"][1:2], (0,))


if __name__ == "__main__":
    unittest.main()
