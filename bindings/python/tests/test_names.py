"""Tests of names of host files, protection letters and notes."""
from __future__ import annotations

import unittest

import jiponuwha as jip


class Names(unittest.TestCase):
    def test_host_names(self) -> None:
        rows = {"a": "a", ".": "%2E", "..": "%2E.", "a%b": "a%25b", "\u00e9": "\u00e9", "\x9f": "%9F", "a\\b": "a%5Cb"}
        for name, host in rows.items():
            with self.subTest(name):
                self.assertEqual(jip.host_name(name), host)
                self.assertEqual(jip.entry_name(host), name)
        self.assertEqual(jip.host_name(b"\xe9"), "\u00e9")

    def test_each_byte_comes_back(self) -> None:
        for byte in set(range(256)) - set(b"/:"):
            name = bytes([byte]).decode("iso-8859-1")
            self.assertEqual(jip.entry_name(jip.host_name(name)), name)

    def test_no_names(self) -> None:
        for name in ("", "a/b", "a:", "x" * 31, "\u0100"):
            with self.subTest(name), self.assertRaises(jip.InvalidName):
                jip.host_name(name)
        for host in ("", "a%2Fb", "\u0100", "\udcff", "x" * 31):
            with self.subTest(host), self.assertRaises(jip.InvalidName):
                jip.entry_name(host)

    def test_protection(self) -> None:
        for bits, text in ((0, "----rwed"), (255, "hspa----"), (0x12, "---arw-d")):
            self.assertEqual(jip.protection_letters(bits), text)
            self.assertEqual(jip.protection_bits(text), bits)
        self.assertEqual(jip.protection_bits("wr"), 3)
        for text in ("rr", "x", "rwed----", "\u00e9"):
            with self.subTest(text), self.assertRaises(ValueError):
                jip.protection_bits(text)
        with self.assertRaises(ValueError):
            jip.protection_letters(-1)

    def test_notes(self) -> None:
        note = jip.Note(0x12, jip.Date(4383, 720, 1), "\u00e9%\n")
        line = "---arw-d 1990-01-01 12:00:00.02 \u00e9%25%0A\n".encode()
        self.assertEqual(note.line(), line)
        self.assertEqual(jip.Note.of(line), note)
        self.assertEqual(jip.Note.of(b"-------- raw 1 2000 3"), jip.Note(15, jip.Date(1, 2000, 3)))
        for data in (b"", b"rwed 1990-01-01 12:00:00.00 \n", line + b"x", b"\xff"):
            with self.subTest(data), self.assertRaises(ValueError):
                jip.Note.of(data)
        with self.assertRaises(ValueError):
            jip.Note(0, jip.Date(0), "x" * 80).line()
        self.assertEqual(len(jip.Note(0, jip.Date(0), "\xff" * 79).line()), 32 + 2 * 79 + 1)

    def test_dates(self) -> None:
        for date, text in ((jip.Date(8095, 754, 2003), "2000-03-01 12:34:40.06"), (jip.Date(1, 1440, 0), "raw 1 1440 0")):
            self.assertEqual(jip.date_text(date), text)
            self.assertEqual(jip.date_of_text(text), date)
        for text in ("", "2001-02-29 00:00:00.00", "raw 0 0 0", "raw 1 1440 0 x", "\u00e9"):
            with self.subTest(text), self.assertRaises(ValueError):
                jip.date_of_text(text)


if __name__ == "__main__":
    unittest.main()
