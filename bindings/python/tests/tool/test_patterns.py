"""Tests patterns of AmigaDOS."""
from __future__ import annotations

import time
import unittest

import jiponuwha as jip
from jiponuwha.tool.patterns import Pattern, PatternError, expand, same_letters

from .tool_help import ToolCase

# A pattern, names that match, and names that do not.
ROWS: list[tuple[str, list[str], list[str]]] = [
    ("#?", ["", "a", "any.name"], []),
    ("*", ["", "a", "any.name"], []),
    ("a?c", ["abc", "ABC", "a.c"], ["ac", "abbc"]),
    ("#?.info", ["a.info", ".INFO"], ["a.inf", "info"]),
    ("~(#?.info)", ["a", "info"], ["a.info", "A.INFO"]),
    ("#a", ["", "a", "aAa"], ["b", "ab"]),
    ("#(ab)c", ["c", "abc", "ABabC"], ["ac", "abab"]),
    ("(a|bc)d", ["ad", "BCD"], ["abcd", "d"]),
    ("(a|)b", ["ab", "b"], ["a"]),
    ("[a-c]x", ["ax", "Bx", "cX"], ["dx", "x"]),
    ("[~a-c]x", ["dx", "-x"], ["ax", "Bx"]),
    ("[a'-c]", ["a", "-", "c"], ["b"]),
    ("'#'?", ["#?"], ["a", ""]),
    ("it''s", ["it's"], ["its"]),
    ("#[0-9].txt", ["1.txt", ".TXT", "2026.txt"], ["a1.txt"]),
    ("~a", ["", "b", "aa"], ["a", "A"]),
    ("a~(b|c)", ["a", "ad", "abc"], ["ab", "aC"]),
    ("\xe9?", ["\xe9a"], ["\xc9a"]),
    ("a b", ["a b", "A B"], ["ab"]),
]


class Patterns(ToolCase):
    def test_rows(self) -> None:
        for text, matching, others in ROWS:
            pattern = Pattern(text)
            for name in matching:
                self.assertTrue(pattern.matches(name), (text, name))
            for name in others:
                self.assertFalse(pattern.matches(name), (text, name))

    def test_letters_are_the_same_as_in_a_volume(self) -> None:
        """Two names of one letter are one name exactly if the volume says so."""
        table = same_letters()
        names = [bytes([it]) for it in range(1, 256) if it not in b"/:"]
        with jip.create("Letters") as volume:
            for name in names:
                if name not in volume:
                    volume.mkdir(name)
            for name in names:
                self.assertEqual(table[name[0]], volume.stat(name).name_bytes[0], name)
            volume.close(discard=True)
        # (in these file systems only the letters of ASCII have two cases)
        self.assertEqual(table[ord("a")], table[ord("A")])
        self.assertNotEqual(table[0xE9], table[0xC9])

    def test_what_is_no_pattern(self) -> None:
        for text in ("(a", "[a", "a#", "~", "'", "(a|b", "[a-", "#(" * 40 + "a", "(" * 200):
            with self.assertRaises(PatternError, msg=text):
                Pattern(text)

    def test_hostile_patterns_take_little_time(self) -> None:
        name = "a" * 30
        began = time.process_time()
        for text in ("#(#a)" * 12 + "b", "#?" * 60 + "b", "#(a|aa|#a|#?)" * 10 + "~(#?)", "~(~(~(#?a)))" * 10, "(#a|#a)" * 20 + "b", "*" * 200 + "b"):
            self.assertFalse(Pattern(text).matches(name), text)
        self.assertLess(time.process_time() - began, 5)

    def test_paths(self) -> None:
        with jip.create("Work") as volume:
            for path in ("Docs/a.txt", "Docs/b.doc", "Devs/c.txt", "Docs/Old/d.txt"):
                volume.mkdir(path.rpartition("/")[0], parents=True, exist_ok=True)
                volume[path] = b""
            for odd in ("it's", "a[1]", "100%"):
                volume[odd] = b""

            def found(path: str) -> list[str]:
                return sorted(it for it, _ in expand(volume, path))

            self.assertEqual(found("D#?/#?.txt"), ["Devs/c.txt", "Docs/a.txt"])
            self.assertEqual(found("docs/A.TXT"), ["Docs/a.txt"])
            self.assertEqual(found("Work:docs/?.doc"), ["Docs/b.doc"])
            self.assertEqual(found("*/*/*"), ["Docs/Old/d.txt"])
            self.assertEqual(found("it's"), ["it's"])
            self.assertEqual(found("a[1]"), ["a[1]"])
            self.assertEqual(found("a'[1']"), ["a[1]"])
            self.assertEqual(found(""), [""])
            with self.assertRaises(jip.ObjectNotFound):
                expand(volume, "x#?")
            with self.assertRaises(PatternError):
                expand(volume, "a(b")
            volume.close(discard=True)


if __name__ == "__main__":
    unittest.main()
