"""Tests paths in the manner of pathlib: what they are equal to, their names, patterns, walks, texts and changes."""
from __future__ import annotations

import copy
import inspect
import pathlib
import pickle
import sys
import tempfile
import unittest
from collections.abc import Callable

import jiponuwha as jip
from tests.test_volume import NOW, OnVolume

FILES = ("a.txt", "B.TXT", "d/c.txt", "d/e/f.txt", "d/e/g", "h/i.txt")
PATTERNS = ("*", "*.txt", "?.txt", "[ab]*", "[!a]*", "d/*", "*/*", "**", "**/*", "**/*.txt", "d/**/*", "**/e/*", "*/e/**", "x*", "d/e/g/*")


class Same(OnVolume):
    def path(self, text: str | bytes) -> jip.Path:
        return jip.Path(self.volume, text)

    def test_equal(self) -> None:
        """Paths are equal if the volume finds the same file by them. In a name, only `a` to `z` are the same as `A` to `Z`."""
        pairs = [("d/f", "D/F", True), ("d", "Work:d", True), ("d/", "d", True), ("d//b", "b", True), ("d//b", "d/b", False)]
        pairs += [("caf\xe9", "caf\xc9", False), ("f", "g", False), ("", ":", True), ("d//", "", True), ("/", "", False)]
        pairs += [("[", "{", False), ("@", "`", False), ("\xff", "\xdf", False), ("a/b/c///d", "A/D", True), ("x:d/e//f", "d/f", True)]
        for one, other, same in pairs:
            with self.subTest(one=one, other=other):
                self.assertEqual(self.path(one) == self.path(other), same)
                self.assertEqual(len({self.path(one), self.path(other)}), 2 - same)
        self.assertNotEqual(self.path("f"), "f")
        with jip.open(self.volume.image()) as other_volume:
            self.assertNotEqual(self.path("f"), other_volume / "f")

    def test_as_the_volume(self) -> None:
        """Each pair of letters is the same in paths exactly if a file is found by the other one."""
        names = [bytes([it]) for it in range(256) if bytes([it]) not in b"/:"]
        for name in names:
            if name not in self.volume:
                self.volume[name] = b""
        kept = {path.name for path in jip.Path(self.volume).iterdir()}
        self.assertEqual(len({self.path(it) for it in names}), len(kept))
        for name in names:
            self.assertEqual(self.path(name), self.path(self.volume.stat(name).name))

    def test_sorted(self) -> None:
        paths = [self.path(it) for it in ("b", "A/z", "a", "C")]
        self.assertEqual([str(it) for it in sorted(paths)], ["a", "A/z", "b", "C"])
        with self.assertRaises(TypeError):
            sorted([self.path("a"), "b"])  # type: ignore[type-var]

    def test_up_and_down(self) -> None:
        self.volume.mkdir("d/e", parents=True)
        self.volume["b"] = b"found"
        path = self.path("d//b")
        self.assertEqual((path.read(), path.parts, path.name, str(path.parent)), (b"found", ("b",), "b", ""))
        self.assertEqual((self.path("d/e///b").read(), self.path("d") / "/b", self.path("d//") / "b"), (b"found", path, path))
        above = self.path("/b")
        self.assertEqual((above.exists(), above.parts, str(above.parent), above.parent.parts), (False, ("", "b"), "/", ("",)))


class Names(OnVolume):
    def test_joining(self) -> None:
        path = jip.Path(self.volume, "d")
        self.assertEqual(str(path.joinpath("e", b"f", path / "g")), "d/e/f/d/g")
        self.assertEqual((str(path.joinpath()), str(path / ""), str(path / "Work:x")), ("d", "d", "Work:x"))

    def test_other_names(self) -> None:
        """As pathlib does, where both have such a name."""
        for text in ("a.txt", "d/a.tar.gz", "d/a", "d/.b", "d/c.", "x.y/z"):
            ours, theirs = jip.Path(self.volume, text), pathlib.PurePosixPath(text)
            self.assertEqual(str(ours.with_name("n.o")), str(theirs.with_name("n.o")))
            for suffix in (".info", ""):
                self.assertEqual(str(ours.with_suffix(suffix)), str(theirs.with_suffix(suffix)))
        for name in ("", "a/b", "a:b", "x" * 31):
            with self.refused(210, jip.InvalidName, ValueError):
                jip.Path(self.volume, "d/a").with_name(name)
        for suffix in ("info", ".", "a.b"):
            with self.assertRaises(ValueError):
                jip.Path(self.volume, "a").with_suffix(suffix)
        with self.assertRaises(ValueError):
            jip.Path(self.volume).with_name("a")

    def test_relative(self) -> None:
        path = jip.Path(self.volume, "Work:Docs/a/b")
        rows: tuple[tuple[str, str], ...] = (("docs", "a/b"), ("DOCS/A", "b"), ("", "Docs/a/b"), ("Docs/a/b", ""), ("x//docs", "a/b"))
        for base, wanted in rows:
            left = path.relative_to(base)
            self.assertEqual((str(left), jip.Path(self.volume, base) / left), (wanted, path))
        with jip.open(self.volume.image()) as other:
            refused: list[str | jip.Path] = ["Docs/b", "Docs/a/b/c", other / "Docs"]
            for wrong in refused:
                with self.assertRaises(ValueError):
                    path.relative_to(wrong)


class Below(OnVolume):
    def setUp(self) -> None:
        super().setUp()
        room = tempfile.TemporaryDirectory()
        self.addCleanup(room.cleanup)
        self.host = pathlib.Path(room.name)
        for name in FILES:
            self.volume.mkdir(str(pathlib.PurePosixPath(name).parent).replace(".", "") or "d", parents=True, exist_ok=True)
            self.volume[name] = name.encode()
            (self.host / name).parent.mkdir(parents=True, exist_ok=True)
            (self.host / name).write_text(name)

    def test_patterns(self) -> None:
        """Matches what pathlib does, in lower case, since the host's names are not the same in another case."""
        for pattern in PATTERNS:
            for find in ("glob", "rglob"):
                found = sorted(str(it).lower() for it in getattr(jip.Path(self.volume), find)(pattern))
                with self.subTest(pattern=pattern, find=find):
                    self.assertEqual(found, sorted({it.lower() for it in self.wanted(pattern, find == "rglob")}))
        self.assertEqual([str(it) for it in (self.volume / "D").glob("E/G")], ["D/e/g"])
        self.assertEqual([str(it) for it in jip.Path(self.volume).glob("[A-B]*")], [str(it) for it in jip.Path(self.volume).glob("[a-b]*")])

    def wanted(self, pattern: str, is_deep: bool) -> list[str]:
        """What pathlib finds on the host, where the file B.TXT is b.txt."""
        upper = self.host / "B.TXT"
        if upper.exists():
            upper.rename(self.host / "b.txt")
        found = self.host.rglob(pattern) if is_deep else self.host.glob(pattern)
        # (at the end `**` gives directories alone, in each version of Python)
        return [str(it.relative_to(self.host)).removeprefix(".") for it in found if not pattern.endswith("**") or it.is_dir()]

    def test_wrong_patterns(self) -> None:
        for pattern in ("", "a//b", "/a", "a/", "Work:a"):
            with self.assertRaises(ValueError):
                jip.Path(self.volume).glob(pattern)
        with self.refused(205):
            list((self.volume / "none").glob("*"))

    def test_walks(self) -> None:
        for top_down in (True, False):
            ours = [(str(it), sorted(below), sorted(files)) for it, below, files in jip.Path(self.volume).walk(top_down)]
            self.assertEqual(sorted(ours), [("", ["d", "h"], ["B.TXT", "a.txt"]), ("d", ["e"], ["c.txt"]), ("d/e", [], ["f.txt", "g"]), ("h", [], ["i.txt"])])
            self.assertEqual(ours.index(("d/e", [], ["f.txt", "g"])) > ours.index(("d", ["e"], ["c.txt"])), top_down)
        seen = []
        for path, below, _ in jip.Path(self.volume).walk():
            seen.append(str(path))
            below[:] = [it for it in below if it != "d"]
        self.assertEqual(seen, ["", "h"])

    def test_far_down(self) -> None:
        """Deeper than functions may call each other."""
        (self.volume / "/".join(["d"] * 150)).mkdir(parents=True)
        limit = sys.getrecursionlimit()
        self.addCleanup(sys.setrecursionlimit, limit)
        sys.setrecursionlimit(len(inspect.stack(0)) + 100)
        self.assertEqual(sum(1 for _ in jip.Path(self.volume, "d/d").rglob("d")), 148)
        self.assertEqual(sum(1 for _ in jip.Path(self.volume, "d/d").walk(top_down=False)), 149)


class Texts(OnVolume):
    def test_texts(self) -> None:
        path = self.volume / "t"
        self.assertEqual((path.write_text("caf\xe9\r\nb\n"), path.read(), path.read_text()), (8, b"caf\xe9\r\nb\n", "caf\xe9\r\nb\n"))
        self.assertEqual((path.write_text("caf\xe9", "utf-8"), path.read_text("utf-8"), path.read_text()), (4, "caf\xe9", "caf\xc3\xa9"))
        with self.assertRaises(UnicodeEncodeError):
            path.write_text("\u65e5")
        self.assertEqual((path.write_text("\u65e5", errors="replace"), path.read()), (1, b"?"))
        with self.assertRaises(UnicodeDecodeError):
            self.volume["t"] = b"\xff"
            path.read_text("utf-8")

    def test_touch(self) -> None:
        path = self.volume / "f"
        path.touch()
        self.assertEqual((path.read(), path.stat().date), (b"", NOW))
        path.write(b"kept")
        self.volume.date("f", jip.Date(1))
        path.touch()
        self.assertEqual((path.read(), path.stat().date), (b"kept", NOW))
        with self.refused(203, FileExistsError):
            path.touch(exist_ok=False)
        with self.refused(204):
            (self.volume / "none/f").touch()
        self.volume.mkdir("d")
        (self.volume / "d").touch()


class Replaced(OnVolume):
    def setUp(self) -> None:
        super().setUp()
        for name in ("a", "b"):
            self.volume[name] = name.encode()
            self.volume.mkdir(f"d-{name}")

    def test_replacing(self) -> None:
        self.assertEqual(((self.volume / "a").replace("B"), self.volume.read("b")), (self.volume / "b", b"a"))
        self.assertEqual((str((self.volume / "b").replace("d-a/c")), self.volume.read("d-a/c")), ("d-a/c", b"a"))
        self.assertEqual(str((self.volume / "d-a").replace("d-b")), "d-b")
        self.assertEqual(sorted(self.volume), ["d-b", "d-b/c"])
        (self.volume / "d-b").replace("D-B")
        self.assertEqual(sorted(self.volume), ["D-B", "D-B/c"])
        self.assertEqual(jip.check(self.volume.image()), ())

    def test_refusals(self) -> None:
        """A refused replacement changes nothing."""
        self.volume["d-b/full"] = b"x"
        self.volume.protect("b", 1)
        self.volume["c"] = b"c"
        image = self.volume.image()
        rows = (("none", "c", 205), ("a", "b", 222), ("a", "d-a", 212), ("d-a", "a", 212), ("d-a", "d-b", 216), ("d-b", "d-b/full", 212))
        for path, target, dos in rows:
            with self.subTest(path=path, target=target), self.refused(dos):
                self.volume.replace(path, target)
        for path, target in (("a", "c"), ("c", "a")):
            with self.volume.open("a"), self.refused(202, jip.ObjectInUse):
                self.volume.replace(path, target)
        self.assertEqual(self.volume.image(), image)


class Exclusive(OnVolume):
    def test_new_files(self) -> None:
        with self.volume.open("f", "xb") as file:
            self.assertEqual((file.write(b"new"), file.mode, file.writable(), file.readable()), (3, "xb", True, False))
        with self.volume.open("g", "x+") as file:
            file.write(b"new")
            self.assertEqual((file.seek(0), file.read()), (0, b"new"))
        self.volume.mkdir("d")
        for there in ("f", "F", "d"):
            with self.refused(203, FileExistsError):
                self.volume.open(there, "x")
        with self.volume.open("h", "w"), self.refused(203):
            self.volume.open("h", "x")
        with self.refused(204):
            self.volume.open("none/f", "x")
        self.assertEqual(self.volume.read("f"), b"new")


class AsMapping(OnVolume):
    def test_pop(self) -> None:
        self.volume["f"] = b"x"
        self.assertEqual((self.volume.pop("F"), "f" in self.volume), (b"x", False))
        self.assertEqual((self.volume.pop("f", None), self.volume.pop("none/f", 7)), (None, 7))
        with self.assertRaises(KeyError):
            self.volume.pop("f")
        self.volume.mkdir("d")
        with self.refused(212):
            self.volume.pop("d", None)

    def test_update(self) -> None:
        self.volume.update({"f": b"1", "g": bytearray(b"2")})
        self.volume.update([("h", memoryview(b"3")), (b"i", self.volume["f"])])
        self.assertEqual([self.volume.read(it) for it in "fghi"], [b"1", b"2", b"3", b"1"])
        with jip.create("Other") as other:
            other.update(self.volume)
            self.assertEqual({path: there.read() for path, there in other.items()}, {path: there.read() for path, there in self.volume.items()})
            other.close(discard=True)

    def test_setdefault(self) -> None:
        self.assertEqual(self.volume.setdefault("f", b"first").read(), b"first")
        self.assertEqual(self.volume.setdefault("F", b"second").read(), b"first")
        self.assertEqual(self.volume.setdefault("g").read(), b"")

    def test_no_copies(self) -> None:
        copies: tuple[Callable[[jip.Volume], object], ...] = (copy.copy, copy.deepcopy, pickle.dumps)
        for made in copies:
            with self.assertRaisesRegex(TypeError, "a Volume cannot be copied"):
                made(self.volume)
        self.assertEqual(copy.copy(self.volume / "f"), self.volume / "f")


class Types(OnVolume):
    def test_wrong_types(self) -> None:
        """A wrong type is a TypeError that names the argument and the type."""
        volume, seven, date = self.volume, 7, jip.Date(0)
        calls: dict[str, Callable[[], object]] = {
            "the path .* int": lambda: volume.read(seven),  # type: ignore[arg-type]
            "the path .* NoneType": lambda: volume / None,  # type: ignore[operator]
            "the path .* PosixPath": lambda: volume.stat(pathlib.PosixPath("f")),  # type: ignore[arg-type]
            "the data .* str": lambda: volume.write("f", "text"),  # type: ignore[arg-type]
            "the mode .* int": lambda: volume.open("f", seven),  # type: ignore[arg-type]
            "the protection bits .* str": lambda: volume.protect("f", "rwed"),  # type: ignore[arg-type]
            "the comment .* int": lambda: volume.comment("f", seven),  # type: ignore[arg-type]
            "the time .* str": lambda: volume.date("f", "1990-01-01"),  # type: ignore[arg-type]
            "the label .* int": lambda: volume.label(seven),  # type: ignore[arg-type]
            "the label .* NoneType": lambda: jip.create(None),  # type: ignore[arg-type]
            "the number of blocks .* str": lambda: jip.create("Work", blocks="many"),  # type: ignore[arg-type]
            "the format .* str": lambda: jip.create("Work", format="FFS"),  # type: ignore[arg-type]
            "the clock .* Date": lambda: jip.create("Work", clock=date),  # type: ignore[arg-type]
            "the name of the host file .* int": lambda: jip.entry_name(seven),  # type: ignore[arg-type]
            "the text .* int": lambda: jip.protection_bits(seven),  # type: ignore[arg-type]
            "the date .* int": lambda: jip.date_text(seven),  # type: ignore[arg-type]
            "the content .* str": lambda: jip.Note.of("line"),  # type: ignore[arg-type]
            "the text must .* bytes": lambda: (volume / "f").write_text(b"x"),  # type: ignore[arg-type]
            "the pattern .* bytes": lambda: (volume / "f").glob(b"*"),  # type: ignore[arg-type]
            "the suffix .* int": lambda: (volume / "f").with_suffix(seven),  # type: ignore[arg-type]
            "PathLike object, not int": lambda: jip.open(seven),  # type: ignore[arg-type]
        }
        for wanted, call in calls.items():
            with self.subTest(wanted), self.assertRaisesRegex(TypeError, wanted):
                call()
        volume["f"] = b"x"
        with volume.open("f") as file:
            with self.assertRaisesRegex(TypeError, "the offset .* str"):
                file.seek("x")  # type: ignore[arg-type]
        with volume.open("f", "r+") as file, self.assertRaisesRegex(TypeError, "the size .* float"):
            file.truncate(1.5)  # type: ignore[arg-type]


if __name__ == "__main__":
    unittest.main()
