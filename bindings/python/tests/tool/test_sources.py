"""Tests where images are found: arguments, packed images, and files that are none."""
from __future__ import annotations

import gzip
import os
import shutil
import stat
import unittest
import zipfile
import zlib
from pathlib import Path
from unittest import mock

import jiponuwha as jip
from jiponuwha.tool.sources import LARGEST, Source, SourceError, TooLarge, find_images, parse

from .tool_help import ToolCase


class Arguments(ToolCase):
    def test_image_and_path(self) -> None:
        self.floppy()
        self.assertEqual(parse("work.adf"), (Source("work.adf"), None))
        self.assertEqual(parse("work.adf:"), (Source("work.adf"), ""))
        self.assertEqual(parse("work.adf:Docs/a:b"), (Source("work.adf"), "Docs/a:b"))
        self.assertEqual(parse("./work.adf:Docs"), (Source("./work.adf"), "Docs"))
        self.assertEqual(parse(f"{self.top}/work.adf:Docs"), (Source(f"{self.top}/work.adf"), "Docs"))

    def test_a_colon_in_the_name_of_a_file(self) -> None:
        self.floppy("a:b.adf")
        self.assertEqual(parse("./a:b.adf"), (Source("./a:b.adf"), None))
        self.assertEqual(parse("./a:b.adf:Docs"), (Source("./a:b.adf"), "Docs"))
        self.assertEqual(parse("a:b.adf"), (Source("a"), "b.adf"))
        self.assertEqual(self.done("ls", "-1", "./a:b.adf:S").lines, ["startup-sequence"])

    def test_members(self) -> None:
        self.floppy()
        with zipfile.ZipFile("set.zip", "w") as packed:
            packed.write("work.adf", "disk1.adf")
            packed.write("work.adf", "more/a:b.adf")
            packed.writestr("readme.txt", "no image")
        self.assertEqual(parse("set.zip/disk1.adf:S"), (Source("set.zip", "disk1.adf"), "S"))
        self.assertEqual(parse("set.zip/more/a:b.adf"), (Source("set.zip", "more/a:b.adf"), None))
        self.assertEqual(parse("set.zip/more/a:b.adf:S"), (Source("set.zip", "more/a:b.adf"), "S"))
        self.assertEqual([it.name for it in find_images(["set.zip"])], ["set.zip/disk1.adf", "set.zip/more/a:b.adf"])
        self.assertEqual(self.done("ls", "-1", "set.zip/disk1.adf:S").lines, ["startup-sequence"])
        self.refused(1, "name one, as in set.zip/disk1.adf", "ls", "set.zip")
        self.refused(2, "no such member", "ls", "set.zip/none.adf")
        self.refused(2, "cannot be changed", "rm", "set.zip/disk1.adf:S/startup-sequence")

    def test_directories(self) -> None:
        self.floppy()
        os.makedirs("d/sub/deep")
        for name in ("b.ADF", "a.adf", "c.hdf", "text", "sub/x.adz", "sub/deep/y.adf.gz", "sub/z.dms"):
            (self.top / "d" / name).write_bytes(b"")
        os.symlink("..", "d/sub/loop")
        os.symlink("nowhere", "d/gone.adf")
        self.assertEqual(
            [it.name for it in find_images(["d"])],
            ["d/a.adf", "d/b.ADF", "d/c.hdf", "d/gone.adf", "d/sub/deep/y.adf.gz", "d/sub/x.adz", "d/sub/z.dms"],
        )
        self.assertEqual([it.name for it in find_images(["d"], recursive=False)], ["d/a.adf", "d/b.ADF", "d/c.hdf", "d/gone.adf"])
        faults: list[str] = []
        found = list(find_images(["none", "work.adf"], on_error=lambda it: faults.append(str(it))))
        self.assertEqual([it.name for it in found], ["work.adf"])
        self.assertIn("none: No such file", faults[0])


class Packed(ToolCase):
    def test_gzip_is_read_and_written_back_whole(self) -> None:
        self.floppy()
        data = (self.top / "work.adf").read_bytes()
        for name in ("w.adz", "w.adf.gz", "w.ADZ"):
            (self.top / name).write_bytes(gzip.compress(data))
            self.assertEqual(Source(name).read(), data)
            os.chmod(name, 0o640)
            self.done("mkdir", f"{name}:New")
            self.assertIn("New", self.done("ls", "-1", name).lines)
            self.assertEqual(stat.S_IMODE(os.stat(name).st_mode), 0o640)
            self.assertEqual(gzip.decompress((self.top / name).read_bytes())[:4], b"DOS\1")

    def test_a_gzip_file_that_is_damaged(self) -> None:
        self.floppy()
        packed = gzip.compress((self.top / "work.adf").read_bytes())
        (self.top / "cut.adz").write_bytes(packed[:-20])
        self.refused(2, "cut.adz: the gzip file is cut short", "ls", "cut.adz")
        (self.top / "sum.adz").write_bytes(packed[:-8] + bytes(4) + packed[-4:])
        self.refused(2, "sum.adz: not a sound gzip file", "ls", "sum.adz")
        (self.top / "none.adz").write_bytes(b"DOS\1" + bytes(1000))
        self.refused(2, "none.adz: not a sound gzip file", "ls", "none.adz")
        self.refused(2, "cut.adz: the gzip file is cut short", "mkdir", "cut.adz:New")
        self.assertEqual((self.top / "cut.adz").read_bytes(), packed[:-20])

    def test_bombs_are_refused_at_one_byte_more_than_the_largest_image(self) -> None:
        packer = zlib.compressobj(1, zlib.DEFLATED, 31)
        with open("bomb.adz", "wb") as file:
            for _ in range(52):
                file.write(packer.compress(bytes(1 << 20)))
            file.write(packer.flush())
        with zipfile.ZipFile("bomb.zip", "w", zipfile.ZIP_DEFLATED) as packed, packed.open("big.adf", "w") as member:
            for _ in range(52):
                member.write(bytes(1 << 20))
        for name in ("bomb.adz", "bomb.zip/big.adf"):
            self.refused(3, "52,020,224 bytes, the size of the largest image", "ls", name)
        sizes: list[int] = []

        def read(file: gzip.GzipFile, size: int) -> bytes:
            sizes.append(size)
            return bytes(size)

        with mock.patch.object(gzip.GzipFile, "read", read), self.assertRaises(TooLarge):
            Source("bomb.adz").read()
        self.assertEqual(sizes, [LARGEST + 1])

    def test_a_zip_file_with_odd_members(self) -> None:
        self.floppy()
        with zipfile.ZipFile("odd.zip", "w") as packed:
            for name in ("../../up.adf", "/abs.adf"):
                packed.writestr(name, (self.top / "work.adf").read_bytes())
        self.assertEqual([it.member for it in find_images(["odd.zip"])], ["../../up.adf", "/abs.adf"])
        self.done("cp", "-r", "odd.zip/../../up.adf:", "out")
        self.assertEqual(sorted(os.listdir("out")), ["Docs", "S"])
        outside = (self.top.parent / "up.adf", self.top.parent.parent / "up.adf", Path("/abs.adf"))
        self.assertEqual([it for it in outside if it.exists()], [])
        (self.top / "none.zip").write_bytes(b"no zip file")
        self.refused(2, "none.zip", "ls", "none.zip")
        data = bytearray((self.top / "odd.zip").read_bytes())
        data[200] ^= 0xFF
        (self.top / "sum.zip").write_bytes(data)
        self.refused(2, "Bad CRC-32", "ls", "sum.zip/../../up.adf")
        with zipfile.ZipFile("empty.zip", "w"):
            pass
        self.refused(2, "there is no image in the ZIP file", "ls", "empty.zip")

    def test_dms(self) -> None:
        (self.top / "x.dms").write_bytes(b"no DMS file")
        self.refused(2, "x.dms: xdms" if shutil.which("xdms") else "the program 'xdms'", "ls", "x.dms")
        with mock.patch("shutil.which", lambda name: None):
            self.refused(2, "Debian: xdms", "ls", "x.dms")

    def test_what_cannot_be_read(self) -> None:
        os.mkdir("d.adf")
        self.refused(2, "d.adf: Is a directory", "ls", "d.adf")
        self.floppy()
        if os.geteuid():
            os.chmod("work.adf", 0)
            self.refused(2, "work.adf: Permission denied", "ls", "work.adf")
        self.refused(2, "none.adf: No such file", "mkdir", "none.adf:New")
        (self.top / "large.adf").touch()
        os.truncate("large.adf", LARGEST + 512)
        self.refused(3, "the size of the largest image", "ls", "large.adf")


class Replaced(ToolCase):
    def test_a_failure_leaves_the_old_file(self) -> None:
        self.floppy()
        data = (self.top / "work.adf").read_bytes()
        with mock.patch("os.rename", side_effect=OSError(28, "No space left on device")):
            self.refused(2, "No space left", "mkdir", "work.adf:New")
        self.assertEqual((self.top / "work.adf").read_bytes(), data)
        self.assertEqual(os.listdir("."), ["work.adf"])

    def test_a_link_and_the_permissions_stay(self) -> None:
        self.floppy("real.adf")
        os.chmod("real.adf", 0o604)
        os.symlink("real.adf", "link.adf")
        self.done("mkdir", "link.adf:New")
        self.assertTrue(os.path.islink("link.adf"))
        self.assertIn("New", self.tree("real.adf"))
        self.assertEqual(stat.S_IMODE(os.stat("real.adf").st_mode), 0o604)

    def test_a_locked_image_stays(self) -> None:
        import fcntl

        self.floppy()
        with open("work.adf", "rb") as file:
            fcntl.flock(file, fcntl.LOCK_EX)
            self.refused(2, "another program changes this image", "mkdir", "work.adf:New")
            self.done("ls", "work.adf")
        self.done("mkdir", "work.adf:New")

    def test_no_change_writes_nothing(self) -> None:
        self.floppy()
        before = os.stat("work.adf").st_ino
        self.done("mkdir", "-p", "work.adf:Docs")
        self.done("mkdir", "-n", "work.adf:New")
        self.assertEqual(os.stat("work.adf").st_ino, before)


class Errors(ToolCase):
    def test_sources_say_what_is_wrong(self) -> None:
        with self.assertRaises(SourceError):
            Source("none.adf").read()
        with self.assertRaises(SourceError):
            Source("a.zip", "b.adf").write(b"")
        self.assertFalse(Source("a.dms").can_write)
        self.assertTrue(Source("a.adz").can_write)
        self.assertEqual(jip.check(bytes(100))[0].kind, jip.FaultKind.NOT_WHOLE_BLOCKS)


if __name__ == "__main__":
    unittest.main()
