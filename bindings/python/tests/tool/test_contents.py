"""Tests `jip cat` and `jip hex`."""
from __future__ import annotations

import unittest

import jiponuwha as jip

from .tool_help import HOSTILE, HOSTILE_SHOWN, ToolCase


class Bytes(ToolCase):
    def test_cat(self) -> None:
        data = bytes(range(256)) * 5
        self.floppy(a=data, b=b"two")
        self.assertEqual(self.done("cat", "work.adf:a", "work.adf:b").raw, data + b"two")
        self.assertEqual(self.done("cat", "work.adf:[ab]").raw, data + b"two")
        ran = self.refused(3, "(205)", "cat", "work.adf:none", "work.adf:b")
        self.assertEqual(ran.raw, b"two")
        self.refused(3, "a directory, and not a file", "cat", "work.adf:Docs")
        self.refused(1, "name a path in an image", "cat", "work.adf")
        self.done("protect", "work.adf:a", "-r")
        self.assertEqual(self.done("cat", "work.adf:a").raw, data)

    def test_hex_of_a_file(self) -> None:
        self.floppy(a=b"Amiga \x1b[2J\xe9\x00 and more")
        self.assertEqual(
            self.done("hex", "work.adf:a").lines,
            [
                "work.adf:a: 21 bytes",
                "000000  41 6d 69 67 61 20 1b 5b  32 4a e9 00 20 61 6e 64  |Amiga .[2J.. and|",
                "000010  20 6d 6f 72 65                                    | more|",
            ],
        )

    def test_hex_of_a_block(self) -> None:
        self.floppy(a=b"here it is")
        with jip.open("work.adf") as volume:
            header, data = volume.where("a")
        lines = self.done("hex", f"work.adf:@{data}").lines
        self.assertEqual(lines[0], f"work.adf: block {data}, cylinder {data // 22} head {data // 11 % 2} sector {data % 11}: data 0 of a")
        self.assertIn("|here it is......|", lines[1])
        self.assertEqual(len(lines), 33)
        # (the root of a floppy of double density is the first sector of cylinder 40)
        self.assertEqual(self.done("hex", "work.adf:@c40.h0.s0").lines[0], "work.adf: block 880, cylinder 40 head 0 sector 0: root")
        self.assertIn(f"block {header},", self.done("hex", f"work.adf:@c0.h0.s{header}").lines[0])
        self.assertTrue(self.done("hex", "work.adf:@0", "work.adf:@1759").lines[0].endswith("boot block"))

    def test_blocks_that_are_none(self) -> None:
        self.floppy()
        self.refused(3, "there is no block 1,760", "hex", "work.adf:@1760")
        self.refused(3, "there is no block 1,760", "hex", "work.adf:@c80.h0.s0")
        for text in ("@", "@x", "@-1", "@c0.h2.s0", "@c0.h0.s11", "@0x10", "@\u0664"):
            self.refused(1, "no block", "hex", f"work.adf:{text}")

    def test_a_refused_image_has_its_blocks(self) -> None:
        self.floppy()
        data = bytearray((self.top / "work.adf").read_bytes())
        data[880 * 512 + 20] ^= 1
        (self.top / "bad.adf").write_bytes(data)
        lines = self.done("hex", "bad.adf:@880").lines
        self.assertTrue(lines[0].endswith(": root; the image is refused; the checksum of the block is wrong"), lines[0])
        self.assertEqual(len(lines), 33)
        with jip.open("work.adf") as volume:
            block = next(at for at, it in enumerate(volume.map()) if it.role == jip.Role.DATA)
            owner = volume.where(block)[1]
        self.assertTrue(self.done("hex", f"bad.adf:@{block}").lines[0].endswith(f": data 0 of {owner}; the image is refused"))
        self.write_short()

    def write_short(self) -> None:
        """A file that no image is has blocks without owners."""
        (self.top / "short.adf").write_bytes(bytes(1024))
        self.assertIn("owner unknown", self.done("hex", "short.adf:@1").lines[0])

    def test_hostile_names(self) -> None:
        self.floppy()
        with jip.open("work.adf") as volume:
            volume[HOSTILE] = b"x"
            header = volume.stat(HOSTILE).key
            volume.save()
        self.assertIn(HOSTILE_SHOWN, self.done("hex", f"work.adf:@{header}").lines[0])
        self.assertIn(HOSTILE_SHOWN, self.done("hex", "work.adf:#?m#?").lines[0])


if __name__ == "__main__":
    unittest.main()
