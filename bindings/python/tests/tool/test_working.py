"""Tests `jip open` and `jip close`."""
from __future__ import annotations

import json
import os
import unittest

import jiponuwha as jip

from .tool_help import DATE, HOSTILE, HOSTILE_SHOWN, ToolCase

STATE = ".jip-image-of-this-directory.json"


class Working(ToolCase):
    def opened(self, **files: bytes) -> None:
        self.floppy(**files)
        self.done("open", "work.adf", "d")

    def test_open_writes_the_files_with_their_dates(self) -> None:
        self.opened(hello=b"hi", Docs__a=b"1")
        self.assertEqual(sorted(os.listdir("d")), [STATE, "Docs", "S", "hello"])
        self.assertEqual((self.top / "d/Docs/a").read_bytes(), b"1")
        # (1 January 1990 is 631,152,000 seconds after that of 1970, to which an hour, a minute and 7 ticks are added)
        self.assertAlmostEqual(os.stat("d/S").st_mtime, 631_152_000 + 3660.14, places=3)

    def test_an_edit_by_hand(self) -> None:
        self.opened(hello=b"hi", Docs__a=b"1", gone=b"2", kept=b"3")
        with jip.open("work.adf", clock=lambda: DATE) as volume:
            for path in ("hello", "Docs/a"):
                volume.comment(path, f"of {path}")
                volume.protect(path, 0x50)
            volume.save()
        (self.top / "d" / STATE).unlink()
        for path in ("hello", "gone", "kept", "Docs/a", "S/startup-sequence"):
            os.remove(f"d/{path}")
        os.rmdir("d/Docs")
        os.rmdir("d/S")
        self.done("open", "work.adf", "d")
        with open("d/hello", "ab") as file:
            file.write(b" there")
        os.utime("d/hello", (0, 694_224_000))
        os.remove("d/gone")
        os.makedirs("d/New/Sub")
        (self.top / "d/New/Sub/n").write_bytes(b"new")
        os.rename("d/Docs/a", "d/New/moved")
        before = self.tree("work.adf")
        ran = self.done("close", "d")
        image = str(self.top / "work.adf")
        self.assertEqual(
            sorted(ran.lines),
            sorted(
                [
                    f"made '{image}:New'",
                    f"made '{image}:New/Sub'",
                    f"'{image}:Docs/a' -> '{image}:New/moved'",
                    f"removed '{image}:gone'",
                    f"added '{image}:New/Sub/n'",
                    f"changed '{image}:hello'",
                ]
            ),
        )
        tree = self.tree("work.adf")
        # (a change of a file clears its bit `archived`)
        self.assertEqual(tree["hello"], (b"hi there", 0x40, jip.Date(5113), "of hello"))
        self.assertEqual(tree["New/moved"], before["Docs/a"])
        self.assertEqual(tree["New/Sub/n"][0], b"new")
        self.assertEqual(tree["kept"], before["kept"])
        self.assertNotIn("gone", tree)
        self.assertIn("nothing changed", self.done("close", "d").output)

    def test_names_of_another_case_are_renamed(self) -> None:
        self.opened(Docs__readme=b"1")
        self.done("note", "work.adf:Docs/readme", "said")
        self.refused(3, "the image was changed since it was opened", "close", "d")
        os.rename("d", "old")
        self.done("open", "work.adf", "d")
        os.rename("d/Docs/readme", "d/Docs/README")
        os.rename("d/Docs", "d/docs")
        self.done("close", "d")
        tree = self.tree("work.adf")
        self.assertEqual((sorted(tree)[1:2], tree["docs/README"][3]), (["S/startup-sequence"], "said"))

    def test_what_cannot_be_is_refused_and_nothing_changes(self) -> None:
        self.opened(hello=b"hi", Docs__a=b"1")
        data = (self.top / "work.adf").read_bytes()

        def refuses(status: int, part: str) -> None:
            self.refused(status, part, "close", "d")
            self.assertEqual((self.top / "work.adf").read_bytes(), data)

        (self.top / "d/hello").write_bytes(b"changed")
        (self.top / f"d/{'n' * 31}").write_bytes(b"")
        refuses(3, "(210)")
        os.remove(f"d/{'n' * 31}")
        (self.top / "d/HELLO").write_bytes(b"x")
        refuses(3, "are one name in the image")
        os.remove("d/HELLO")
        os.symlink("hello", "d/link")
        refuses(3, "neither a file nor a directory")
        os.remove("d/link")
        os.mkfifo("d/pipe")
        refuses(3, "neither a file nor a directory")
        os.remove("d/pipe")
        (self.top / "d/large").write_bytes(bytes(900_000))
        refuses(3, "the disk is full")
        os.remove("d/large")
        self.assertIn("would be done: changed", self.done("close", "-n", "d").output)
        self.assertEqual((self.top / "work.adf").read_bytes(), data)
        self.done("close", "d")
        self.assertEqual(self.tree("work.adf")["hello"][0], b"changed")

    def test_protected_files_need_force(self) -> None:
        self.floppy(hello=b"hi", gone=b"1")
        self.done("protect", "work.adf:hello", "work.adf:gone", "-wd")
        self.done("open", "work.adf", "d")
        (self.top / "d/hello").write_bytes(b"changed")
        self.refused(3, "(223)", "close", "d")
        os.remove("d/gone")
        self.refused(3, "(222)", "close", "d")
        self.done("close", "-f", "d")
        tree = self.tree("work.adf")
        self.assertEqual(tree["hello"][:2], (b"changed", 5))
        self.assertNotIn("gone", tree)

    def test_a_file_becomes_a_directory_and_the_reverse(self) -> None:
        self.opened(hello=b"hi", Docs__a=b"1")
        os.remove("d/hello")
        os.makedirs("d/hello/sub")
        os.rename("d/Docs/a", "d/hello/a")
        os.rmdir("d/Docs")
        (self.top / "d/Docs").write_bytes(b"file")
        self.done("close", "d")
        tree = self.tree("work.adf")
        self.assertEqual(sorted(tree), ["Docs", "S", "S/startup-sequence", "hello", "hello/a", "hello/sub"])
        self.assertEqual(tree["Docs"][0], b"file")

    def test_hostile_names_come_back(self) -> None:
        self.floppy()
        with jip.open("work.adf") as volume:
            for name in (HOSTILE, "..", ".", "a\\b", "%41"):
                volume[name] = b"x"
            volume.save()
        before = self.tree("work.adf")
        self.done("open", "work.adf", "d")
        self.assertIn("nothing changed", self.done("close", "d").output)
        self.assertEqual(self.tree("work.adf"), before)
        self.assertIn("%1B[31m", " ".join(os.listdir("d")))
        for it in os.listdir("d"):
            if it.startswith("%1B"):
                os.remove(f"d/{it}")
        self.assertIn(f":{HOSTILE_SHOWN}'", self.done("close", "d").output)

    def test_what_is_in_the_way(self) -> None:
        self.floppy()
        os.makedirs("full")
        (self.top / "full/x").write_bytes(b"")
        self.refused(2, "full: not an empty directory", "open", "work.adf", "full")
        self.refused(2, "work.adf: not an empty directory", "open", "work.adf", "work.adf")
        self.refused(1, "no path in it", "open", "work.adf:Docs", "d")
        self.refused(2, "full: not a directory of 'jip open'", "close", "full")
        self.refused(2, "none: not a directory of 'jip open'", "close", "none")
        self.done("open", "-n", "work.adf", "d")
        self.assertFalse(os.path.exists("d"))
        self.done("open", "work.adf", "d")
        for text in ("{", "[]", '{"version":1}', '{"version":1,"image":"x","sha256":"","files":7}', "[" * 100_000):
            (self.top / "d" / STATE).write_text(text)
            self.refused(2, "damaged", "close", "d")
        value = {"version": 99, "image": "x", "sha256": "", "files": {}}
        (self.top / "d" / STATE).write_text(json.dumps(value))
        self.refused(2, "another version", "close", "d")


if __name__ == "__main__":
    unittest.main()
