"""Tests `jip ls` and `jip tree`."""
from __future__ import annotations

import json
import unittest

import jiponuwha as jip
from .tool_help import DATE, HOSTILE, HOSTILE_SHOWN, ToolCase


class Lists(ToolCase):
    def test_one_level_with_totals(self) -> None:
        self.floppy(hello=b"hi")
        self.assertEqual(
            self.done("ls", "work.adf").lines,
            # (of 1,758 blocks the root, the bitmap, two headers of directories, and two blocks of each file are used)
            ["Docs/", "hello", "S/", "Work: 1 file, 2 directories, 2 bytes; 875 KB of 879 KB free"],
        )

    def test_names_alone(self) -> None:
        self.floppy(hello=b"hi")
        self.assertEqual(self.done("ls", "-1", "work.adf").lines, ["Docs", "hello", "S"])
        self.assertEqual(self.done("ls", "-1R", "work.adf").lines, ["Docs", "hello", "S", "S/startup-sequence"])

    def test_long_has_bits_size_date_and_comment(self) -> None:
        self.floppy(hello=b"hi")
        with jip.open("work.adf", clock=lambda: DATE) as volume:
            volume.protect("hello", 0x45)
            volume.comment("hello", "read me")
            volume.date("hello", DATE)
            volume.save()
        lines = self.done("ls", "-l", "work.adf").lines
        self.assertEqual(lines[0], "----rwed dir 1990-01-01 01:01:00 Docs/")
        self.assertEqual(lines[1], '-s--r-e-   2 1990-01-01 01:01:00 hello "read me"')

    def test_several_images_have_headings(self) -> None:
        self.floppy()
        self.floppy("other.adf")
        lines = self.done("ls", "work.adf:S", "other.adf").lines
        self.assertEqual(lines[0], "work.adf:S:")
        self.assertIn("other.adf:", lines)

    def test_a_missing_path_and_a_missing_image_do_not_stop_the_others(self) -> None:
        self.floppy()
        ran = self.refused(3, "work.adf:nix: refused: object not found (205)", "ls", "work.adf:nix", "work.adf:S")
        self.assertIn("startup-sequence", ran.output)
        self.refused(2, "none.adf: No such file", "ls", "none.adf", "work.adf:nix")

    def test_a_refused_image_has_a_reason_and_the_next_command(self) -> None:
        self.floppy()
        data = bytearray((self.top / "work.adf").read_bytes())
        data[880 * 512 + 20] ^= 1
        (self.top / "bad.adf").write_bytes(data)
        self.refused(3, "bad.adf: refused: block 880", "ls", "bad.adf")
        self.refused(3, "jip rescue", "ls", "bad.adf")
        ran = self.jip("ls", "--json", "bad.adf")
        self.assertEqual(json.loads(ran.output)["refused"]["block"], 880)
        (self.top / "text.adf").write_bytes(b"no image" * 64 * 20)
        ran = self.refused(3, "text.adf: refused: block 0", "ls", "text.adf")
        self.assertNotIn("rescue", ran.errors)

    def test_json_has_all_of_an_entry(self) -> None:
        self.floppy(hello=b"hi")
        given = json.loads(self.done("ls", "--json", "work.adf").output)
        self.assertEqual((given["label"], given["kind"], given["free"]), ("Work", "FFS", 1750))
        entry = next(it for it in given["entries"] if it["path"] == "hello")
        wanted = {"type": "file", "size": 2, "blocks": 2, "bits": 0, "letters": "----rwed", "date": "1990-01-01 01:01:00.14", "comment": ""}
        self.assertEqual({name: entry[name] for name in wanted}, wanted)

    def test_orders(self) -> None:
        self.floppy(b=b"1", A=b"333", c=b"22")
        self.assertEqual(self.done("ls", "-1", "--sort", "size", "work.adf").lines, ["A", "c", "b", "Docs", "S"])
        self.assertEqual(self.done("ls", "-1", "work.adf").lines, ["A", "b", "c", "Docs", "S"])
        with jip.open("work.adf") as volume:
            volume.date("c", jip.Date(9000))
            volume.save()
            on_disk = [it.name for it in volume.entries()]
        self.assertEqual(self.done("ls", "-1", "--sort", "date", "work.adf").lines[0], "c")
        self.assertEqual(self.done("ls", "-1", "--sort", "disk", "work.adf").lines, on_disk)

    def test_a_pattern_lists_what_matches(self) -> None:
        self.floppy(**{"a.txt": b"", "b.TXT": b"", "c": b""})
        self.assertEqual(self.done("ls", "-1", "work.adf:#?.txt").lines, ["a.txt", "b.TXT"])
        self.assertEqual(self.done("ls", "-1", "work.adf:S/*").lines, ["S/startup-sequence"])
        self.assertEqual(self.done("ls", "-1", "work.adf:D#?").lines, ["Docs"])

    def test_hostile_names_have_no_control_characters(self) -> None:
        self.floppy()
        with jip.open("work.adf") as volume:
            volume[HOSTILE] = b"x"
            volume.comment(HOSTILE, "\x1b]0;title\x07")
            volume.label("\x1b[2J")
            volume.save()
        for words in (["ls"], ["ls", "-l"], ["ls", "-1"], ["ls", "-R"], ["tree"]):
            ran = self.done(*words, "work.adf")
            self.assertIn(HOSTILE_SHOWN, ran.output)
            self.assertFalse([it for it in ran.output if it < " " and it != "\n" or "\x7f" <= it <= "\x9f"], words)
        ran = self.done("ls", "--json", "work.adf")
        self.assertTrue(ran.output.isascii())
        self.assertIn(HOSTILE, [it["path"] for it in json.loads(ran.output)["entries"]])
        self.refused(3, "work.adf:%1B2J", "ls", "work.adf:\x1b2J")


class Trees(ToolCase):
    def test_a_tree(self) -> None:
        self.floppy(hello=b"hi", Docs__a=b"1", Docs__b=b"2")
        self.assertEqual(
            self.done("tree", "work.adf").lines[:-1],
            ["work.adf", "├── Docs/", "│   ├── a", "│   └── b", "├── hello", "└── S/", "    └── startup-sequence"],
        )

    def test_a_deep_tree_is_cut_and_says_so(self) -> None:
        with jip.create("Deep", "deep.adf") as volume:
            path = "d"
            for _ in range(130):
                volume.mkdir(path)
                path += "/d"
            volume.save()
        ran = self.jip("tree", "deep.adf")
        self.assertEqual((ran.status, len(ran.lines)), (0, 103))
        self.assertIn("deeper than 100 levels", ran.errors)
        self.assertEqual(len(self.done("ls", "-1R", "deep.adf").lines), 130)

    def test_paths_without_end_are_refused(self) -> None:
        with jip.create("Deep", "deep.adf") as volume:
            path = name = "n" * 30
            for _ in range(140):
                volume.mkdir(path)
                path += "/" + name
            volume.save()
        self.refused(3, "nested too deep", "ls", "-R", "deep.adf")


if __name__ == "__main__":
    unittest.main()
