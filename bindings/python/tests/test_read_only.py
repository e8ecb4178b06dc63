"""Tests of read-only volumes."""
from __future__ import annotations

import errno
import tempfile
import unittest
from collections.abc import Callable
from pathlib import Path as HostPath

import jiponuwha as jip


def image() -> bytes:
    with jip.create("Work") as volume:
        volume.mkdir("d")
        volume["d/f"] = b"four"
        volume["kept"] = b""
        volume.protect("kept", 1)
        data = volume.image()
        volume.close(discard=True)
    return data


class ReadOnly(unittest.TestCase):
    def setUp(self) -> None:
        self.image = image()
        self.volume = jip.open(self.image, read_only=True)
        self.addCleanup(self.volume.close)

    def test_changes_are_refused(self) -> None:
        calls: dict[str, Callable[[], object]] = {
            "write": lambda: self.volume.write("d/f", b"five"),
            "new": lambda: self.volume.write("new", b""),
            "mkdir": lambda: self.volume.mkdir("new"),
            "remove": lambda: self.volume.remove("d/f"),
            "rename": lambda: self.volume.rename("d/f", "g"),
            "protect": lambda: self.volume.protect("d", 1),
            "comment": lambda: self.volume.comment("d", "c"),
            "date": lambda: self.volume.date("d", jip.Date(1)),
            "label": lambda: self.volume.label("Other"),
            "too much": lambda: self.volume.write("new", bytes(2_000_000)),
        }
        for name, call in calls.items():
            with self.subTest(name), self.assertRaises(jip.Protected) as raised:
                call()
            self.assertEqual((raised.exception.dos, raised.exception.errno), (214, errno.EROFS))
        with self.volume.open("d/f", "r+") as file, self.assertRaises(jip.Protected):
            file.write(b"x")
        self.assertEqual(self.volume.image(), self.image)
        self.assertFalse(self.volume.is_changed)

    def test_other_refusals_come_first(self) -> None:
        with self.assertRaises(jip.ObjectNotFound):
            self.volume.remove("none")
        with self.assertRaises(jip.ObjectExists):
            self.volume.mkdir("D")
        with self.assertRaises(jip.DirectoryNotEmpty):
            self.volume.remove("d")
        with self.assertRaises(jip.Protected) as raised:
            self.volume.remove("kept")
        self.assertEqual(raised.exception.dos, 222)

    def test_reading(self) -> None:
        self.assertEqual(self.volume.read("d/f"), b"four")
        self.assertEqual(sorted(path for path, _ in self.volume.walk()), ["d", "d/f", "kept"])
        self.assertEqual(self.volume.info().label, "Work")
        self.assertTrue(self.volume.is_read_only)

    def test_files_of_the_host(self) -> None:
        with tempfile.TemporaryDirectory() as folder:
            path, other = HostPath(folder, "a.adf"), HostPath(folder, "b.adf")
            path.write_bytes(self.image)
            with jip.open(path, read_only=True) as volume:
                with self.assertRaises(jip.Protected):
                    volume["new"] = b""
                with self.assertRaises(jip.Protected):
                    volume.save()
                volume.save(other)
            self.assertEqual(other.read_bytes(), self.image)


if __name__ == "__main__":
    unittest.main()
