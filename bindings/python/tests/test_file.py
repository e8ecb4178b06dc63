"""Tests open files, alone and wrapped by the streams of io."""
from __future__ import annotations

import io
import os
import unittest

import jiponuwha as jip


class Opened(unittest.TestCase):
    def setUp(self) -> None:
        self.volume = jip.create("Work")
        self.addCleanup(self.volume.close, discard=True)
        self.volume["f"] = b"0123456789"

    def test_reading(self) -> None:
        with self.volume.open("f", "rb") as file:
            self.assertTrue(file.readable() and file.seekable() and not file.writable())
            self.assertEqual((file.read(4), file.tell(), file.read(), file.read()), (b"0123", 4, b"456789", b""))
            self.assertEqual((file.seek(-3, io.SEEK_END), file.read()), (7, b"789"))
            self.assertEqual((file.seek(2), file.seek(3, io.SEEK_CUR), file.read(1)), (2, 5, b"5"))
            self.assertEqual((file.mode, file.name), ("rb", "f"))
            with self.assertRaises(io.UnsupportedOperation):
                file.write(b"x")
        with self.assertRaises(ValueError):
            file.read()
        self.assertTrue(file.closed)

    def test_seeking_out(self) -> None:
        with self.volume.open("f") as file:
            for offset, whence in ((11, io.SEEK_SET), (-1, io.SEEK_SET), (1, io.SEEK_END), (2**40, io.SEEK_SET)):
                with self.assertRaisesRegex(jip.DosError, r"^\[DOS 219\] "):
                    file.seek(offset, whence)
            with self.assertRaises(ValueError):
                file.seek(0, 7)

    def test_writing(self) -> None:
        with self.volume.open("g", "w") as file:
            self.assertEqual(file.write(b"written"), 7)
            with self.assertRaises(io.UnsupportedOperation):
                file.read()
            with self.assertRaises(jip.ObjectInUse):
                self.volume.read("g")
            self.assertIn("g", self.volume)
        self.assertEqual(self.volume.read("g"), b"written")
        with self.volume.open("g", "w") as file:
            file.write(memoryview(b"new"))
        self.assertEqual(self.volume.read("g"), b"new")

    def test_updating(self) -> None:
        with self.volume.open("f", "r+b") as file:
            file.seek(8)
            file.write(b"abcd")
            self.assertEqual(file.truncate(3), 3)
            self.assertEqual((file.tell(), file.truncate(5)), (3, 5))
        self.assertEqual(self.volume.read("f"), b"012\0\0")
        with self.assertRaises(jip.ObjectNotFound):
            self.volume.open("none", "r+")

    def test_appending(self) -> None:
        with self.volume.open("f", "a+") as file:
            file.seek(0)
            self.assertEqual(file.read(2), b"01")
            file.write(b"a")
        with self.volume.open("g", "a") as file:
            file.write(b"b")
        self.assertEqual((self.volume.read("f"), self.volume.read("g")), (b"0123456789a", b"b"))

    def test_a_full_disk(self) -> None:
        with self.volume.open("f", "r+") as file:
            with self.assertRaises(jip.DiskFull):
                file.write(bytes(1_000_000))
            with self.assertRaises(jip.DiskFull):
                file.truncate(1_000_000)
        self.assertEqual(self.volume.read("f"), b"0123456789")

    def test_modes(self) -> None:
        for mode in ("", "xx", "rx", "rw", "rt", "rbb", "b"):
            with self.assertRaises(ValueError):
                self.volume.open("f", mode)
        with self.assertRaises(jip.WrongType):
            self.volume.open("")

    def test_dropped(self) -> None:
        self.volume.open("g", "w").write(b"x")
        self.assertEqual(self.volume.read("g"), b"x")
        file = self.volume.open("f")
        self.volume.close(discard=True)
        with self.assertRaises(ValueError):
            file.read()
        file.close()

    def test_below_streams(self) -> None:
        data = os.urandom(100_000)
        with io.BufferedWriter(self.volume.open("big", "w"), 5000) as writer:
            for at in range(0, len(data), 777):
                writer.write(data[at : at + 777])
        with io.BufferedReader(self.volume.open("big")) as reader:
            self.assertEqual(reader.read(), data)
        with io.TextIOWrapper(io.BufferedWriter(self.volume.open("text", "w")), "iso-8859-1", newline="\n") as text:
            text.write("caf\xe9\nzwei\n")
        with io.TextIOWrapper(io.BufferedReader(self.volume.open("text")), "iso-8859-1") as lines:
            self.assertEqual(list(lines), ["caf\xe9\n", "zwei\n"])


class Dates(unittest.TestCase):
    def test_dates(self) -> None:
        for date in (jip.Date(0), jip.Date(4383, 720, 51), jip.Date(20000, 1439, 2999)):
            self.assertEqual(jip.Date.of(date.time()), date)
        self.assertEqual(jip.Date.of(jip.Date(0).time().replace(year=1970)), jip.Date(0))
        with self.assertRaises(OverflowError):
            jip.Date(2**32 - 1).time()
        self.assertGreater(jip.Date.now(), jip.Date(17000))


if __name__ == "__main__":
    unittest.main()
