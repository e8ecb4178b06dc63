"""Tests `jip find`, `grep`, `dupes`, `verify`, `diff` and `dat`, over images, directories and catalogues."""
from __future__ import annotations

import contextlib
import hashlib
import json
import os
import sqlite3
import unittest
import zipfile
import zlib
from pathlib import Path
from xml.etree import ElementTree

import jiponuwha as jip

from .archive_help import BLOCK, DAY, Room, image, is_plain, query, refused, root_of, unvalidated

CATALOGUE = "in/jip-catalogue.sqlite"


class Found(Room):
    def setUp(self) -> None:
        super().setUp()
        texts = {"S/Startup-Sequence": b"echo hello\nassign LIBS: Work:libs\n", "C/Dir": b"\0program LIBS\0", "read.me": b"caf\xe9 2\n"}
        self.write("in/a.adf", image("A", texts))
        self.write("in/deep/b.adf", image("B", {"Docs/READ.ME": b"caf\xe9 2\n", "empty": b"", "none": b""}))
        self.write("in/c.adf", refused(image("C", {"read.me": b"LIBS in a refused image\n"})))
        with zipfile.ZipFile("in/d.zip", "w") as packed:
            packed.writestr("../d.adf", image("D", {"only": b"d"}))
        self.here("catalog", "--jobs", "1", "in", status=0)

    def test_find(self) -> None:
        for place in ("in", CATALOGUE):
            with self.subTest(place):
                found = self.here("find", "read#?", place, status=0).out.splitlines()
                self.assertEqual(found, ["in/a.adf:read.me", "in/c.adf:read.me", "in/deep/b.adf:Docs/READ.ME"])
                self.assertEqual(self.here("find", "s/#?", place, status=0).out, "in/a.adf:S/Startup-Sequence\n")
                self.assertEqual(self.here("find", "only", place, status=0).out, "in/d.zip/../d.adf:only\n")
                found = self.here("find", "--type", "directory", "?", place, status=0).out.splitlines()
                self.assertEqual(sorted(found), ["in/a.adf:C", "in/a.adf:S"])
                self.assertEqual(self.here("find", "nothing", place, status=0).out, "")
        line = self.here("find", "-l", "Dir", "in/a.adf", status=0).out
        self.assertEqual(line, "       14 ----rwed 1990-01-01 12:00:00.00 in/a.adf:C/Dir\n")
        said = json.loads(self.here("find", "--json", "Dir", CATALOGUE, status=0).out)
        wanted = (said["image"], said["path"], said["size"], said["sha256"])
        self.assertEqual(wanted, ("in/a.adf", "C/Dir", 14, hashlib.sha256(b"\0program LIBS\0").hexdigest()))
        self.assertEqual(self.here("find", "x", "none.adf").status, 2)
        self.assertEqual(self.here("find", "(x", "in").status, 1)

    def test_grep(self) -> None:
        wanted = [
            "in/a.adf:S/Startup-Sequence:2:assign LIBS: Work:libs",
            "in/a.adf:C/Dir: a file that is not text matches",
            "in/c.adf:read.me:1:LIBS in a refused image",
        ]
        for place in ("in", CATALOGUE):
            self.assertEqual(sorted(self.here("grep", "LIBS", place, status=0).out.splitlines()), sorted(wanted))
        self.assertEqual(self.here("grep", "-F", "a.*b", "in").status, 1)
        self.assertEqual(len(self.here("grep", "-i", "^ASSIGN.*work", "in", status=0).out.splitlines()), 1)
        self.assertEqual(self.here("grep", "-l", "caf\xe9 \\d", "in/a.adf", status=0).out, "in/a.adf:read.me\n")
        said = json.loads(self.here("grep", "--json", "hello", "in", status=0).out)
        self.assertEqual(said, {"image": "in/a.adf", "path": "S/Startup-Sequence", "lines": [[1, "echo hello"]]})
        for text in ("(", "\u0100"):
            self.assertEqual(self.here("grep", text, "in").status, 1)

    def test_dupes(self) -> None:
        for place in ("in", CATALOGUE):
            lines = self.here("dupes", place, status=0).out.splitlines()
            self.assertEqual(lines[0], f"2 times 7 bytes, SHA-256 {hashlib.sha256(b'caf' + bytes([0xE9]) + b' 2' + bytes([10])).hexdigest()}")
            self.assertEqual(lines[1:], ["  in/a.adf:read.me", "  in/deep/b.adf:Docs/READ.ME"])
        empty = json.loads(self.here("dupes", "--smallest", "0", "--json", CATALOGUE, status=0).out.splitlines()[-1])
        self.assertEqual((empty["size"], sorted(empty["places"])), (0, [["in/deep/b.adf", "empty"], ["in/deep/b.adf", "none"]]))
        self.assertEqual(self.here("dupes", "--images", "in", status=0).out, "")
        with open("in/a.adf", "rb") as file:
            self.write("in/z.adf", file.read())
        self.assertEqual(self.here("dupes", "--images", "in", status=0).out.splitlines()[1:], ["  in/a.adf", "  in/z.adf"])

    def test_verify(self) -> None:
        self.assertEqual(self.here("verify", "in", status=0), (0, "", f"{CATALOGUE}: 4 same\n"))
        times = os.stat("in/a.adf")
        with open("in/a.adf", "r+b") as file:
            file.seek(BLOCK)
            file.write(b"rot")
        os.utime("in/a.adf", ns=(times.st_atime_ns, times.st_mtime_ns))
        self.write("in/deep/b.adf", image("New"))
        os.utime("in/d.zip", (7, 7))
        os.unlink("in/c.adf")
        self.write("in/e.adf", image("E"))
        said = {it.split(": ")[0]: it.split(": ")[1] for it in self.here("verify", CATALOGUE, status=3).out.splitlines()}
        wanted = {"in/a.adf": "rotted", "in/deep/b.adf": "changed", "in/d.zip/../d.adf": "touched", "in/c.adf": "gone", "in/e.adf": "new"}
        self.assertEqual(said, wanted)
        self.assertEqual({it["path"]: it["verdict"] for it in map(json.loads, self.here("verify", "--json", "in").out.splitlines())}, wanted)

    def test_a_hostile_catalogue(self) -> None:
        """A catalogue leads to no file outside its directory."""
        self.write("out.adf", image("Out", {"f": b"LIBS"}))
        for path in ("../out.adf", os.path.abspath("out.adf")):
            with contextlib.closing(sqlite3.connect(CATALOGUE)) as connection, connection:
                connection.execute("UPDATE images SET path = ? WHERE label = 'A'", (path,))
            for words in (["grep", "LIBS", CATALOGUE], ["verify", CATALOGUE]):
                ran = self.here(*words, status=2)
                self.assertIn("outside the directory", ran.err)
                self.assertNotIn("out.adf:f", ran.out)

    def test_a_damaged_catalogue(self) -> None:
        for change in ("files SET bits = 'x'", "files SET size = -1", "images SET label = X'00'", "images SET bytes = 'x'"):
            self.here("catalog", "--jobs", "1", "--again", "in", status=0)
            with contextlib.closing(sqlite3.connect(CATALOGUE)) as connection, connection:
                connection.execute(f"UPDATE {change}")
            self.assertIn("is damaged", self.here("find", "-l", "#?", CATALOGUE, status=2).err)
        os.truncate(CATALOGUE, 8192)
        self.here("find", "#?", CATALOGUE, status=2)


class Different(Room):
    def changed(self, data: bytes) -> bytes:
        with jip.open(data, clock=lambda: DAY) as volume:
            volume["same/changed"] = b"other bytes"
            volume.protect("bits", 1)
            volume.comment("comment", "new")
            volume.date("date", jip.Date(1))
            volume.remove("removed")
            volume["added"] = b"new"
            volume.rename("case", "CASE")
            found = volume.image()
            volume.close(discard=True)
        return found

    def setUp(self) -> None:
        super().setUp()
        names = ("same/changed", "same/kept", "bits", "comment", "date", "removed", "case")
        before = image("Work", {name: b"some bytes" for name in names}, blocks=64)
        self.write("a/x.adf", before)
        self.write("b/x.adf", self.changed(before))

    def test_two_images(self) -> None:
        self.assertEqual(self.here("diff", "a/x.adf", "a/x.adf"), (0, "", ""))
        lines = self.here("diff", "a/x.adf", "b/x.adf", status=1).out.splitlines()
        self.assertIn("- removed removed", lines)
        self.assertIn("+ added added", lines)
        self.assertIn("~ changed same/changed: bytes (10 became 11)", lines)
        self.assertIn("~ changed bits: bits (----rwed became ----rwe-)", lines)
        self.assertIn("~ changed comment: comment ('' became 'new')", lines)
        self.assertIn("~ changed date: date (1990-01-01 12:00:00.00 became 1978-01-02 00:00:00.00)", lines)
        self.assertIn("~ changed CASE: name (case became CASE)", lines)
        self.assertFalse([it for it in lines if "same/kept" in it])
        self.assertTrue([it for it in lines if it.startswith("  block") and "root" in it])
        said = [json.loads(it) for it in self.here("diff", "--json", "a/x.adf", "b/x.adf", status=1).out.splitlines()]
        found = [it for it in said if it["what"] == "blocks"]
        before, after = (Path(it, "x.adf").read_bytes() for it in "ab")
        wanted = {at for at in range(64) if before[BLOCK * at :][:BLOCK] != after[BLOCK * at :][:BLOCK]}
        self.assertEqual({at for it in found for at in range(it["first"], it["last"] + 1)}, wanted)
        self.assertNotIn("block", self.here("diff", "--no-blocks", "a/x.adf", "b/x.adf", status=1).out)

    def test_which_checksum_is_right(self) -> None:
        with open("a/x.adf", "rb") as file:
            data = file.read()
        self.write("bad.adf", refused(data))
        root = root_of(data)
        lines = self.here("diff", "a/x.adf", "bad.adf", status=1).out.splitlines()
        self.assertEqual(lines, [f"  block {root}: root; the checksum is wrong in bad.adf"])
        lines = self.here("diff", "bad.adf", "a/x.adf", status=1).out.splitlines()
        self.assertEqual(lines, [f"  block {root}: root; the checksum is wrong in bad.adf"])
        self.assertNotIn("checksum", self.here("diff", "a/x.adf", "b/x.adf", status=1).out)
        self.assertEqual(self.here("diff", "a/x.adf", "none.adf").status, 2)
        self.assertEqual(self.here("diff", "a/x.adf", "a").status, 1)

    def test_two_directories(self) -> None:
        for folder, name in (("a", "gone.adf"), ("b", "new.adf"), ("a", "kept.adf"), ("b", "kept.adf")):
            self.write(f"{folder}/{name}", image("Kept"))
        for folder in "ab":
            self.here("catalog", "--jobs", "1", "--db", f"{folder}.sqlite", folder, status=0)
        for words in (["a", "b"], ["a.sqlite", "b.sqlite"], ["a", "b.sqlite"]):
            lines = self.here("diff", *words, status=1).out.splitlines()
            self.assertIn("- removed gone.adf", lines)
            self.assertIn("+ added new.adf", lines)
            self.assertIn("~ changed x.adf: bytes", lines)
            self.assertIn("- removed x.adf:removed", lines)
            self.assertIn("~ changed x.adf:same/changed: bytes", lines)
            self.assertFalse([it for it in lines if "kept.adf" in it])
        self.assertEqual(self.here("diff", "a", "a.sqlite"), (0, "", ""))


class Logiqx(Room):
    def roms(self, file: str) -> dict[tuple[str, str], dict[str, str]]:
        top = ElementTree.parse(file).getroot()
        self.assertEqual((top.tag, [it.tag for it in top][0]), ("datafile", "header"))
        self.assertEqual([it.tag for it in top[0]], ["name", "description", "version", "date", "author"])
        games = top.findall("game")
        self.assertEqual(len({it.get("name") for it in games}), len(games))
        return {(str(game.get("name")), str(rom.get("name"))): dict(rom.attrib) for game in games for rom in game.findall("rom")}

    def test_written_and_compared(self) -> None:
        good = image("Good")
        self.write("in/a.adf", good)
        self.write("in/bad.adf", refused(image("Bad")))
        self.write("in/game.adf", bytes(len(good)))
        self.write("in/deep/a.adf", unvalidated(good))
        with zipfile.ZipFile("in/a.zip", "w") as packed:
            for name in ("one.adf", "../two.adf"):
                packed.writestr(name, image(name[-7:-4]))
        self.here("catalog", "--jobs", "1", "in", status=0)
        self.here("dat", "x.dat", CATALOGUE, status=0)
        self.here("dat", "y.dat", "in", status=0)
        self.assertEqual(self.roms("x.dat"), self.roms("y.dat"))
        found = self.roms("x.dat")
        self.assertEqual(set(found), {("a", "a.adf"), ("bad", "bad.adf"), ("game", "game.adf"), ("deep/a", "a.adf"),
                                      ("a.zip", "one.adf"), ("a.zip", "%2E%2E/two.adf")})
        sums = {"crc": f"{zlib.crc32(good):08x}", "md5": hashlib.md5(good).hexdigest(), "sha1": hashlib.sha1(good).hexdigest()}
        self.assertEqual(found["a", "a.adf"], {"name": "a.adf", "size": str(len(good)), **sums})
        self.assertEqual([it.get("status") for it in (found["bad", "bad.adf"], found["game", "game.adf"])], ["baddump", None])
        self.assertIn("--over", self.here("dat", "x.dat", "in", status=2).err)
        self.assertEqual(self.here("dat", "--compare", "x.dat", "in", status=0).out, "")
        os.rename("in/bad.adf", "in/other.adf")
        os.unlink("in/game.adf")
        self.write("in/new.adf", image("New"))
        lines = self.here("dat", "--compare", "x.dat", "in", status=1).out.splitlines()
        self.assertEqual(lines, ["unknown in/new.adf", "misnamed in/other.adf: the file names it bad/bad.adf", "missing game/game.adf"])

    def test_hostile(self) -> None:
        for name in (b"\x1b[31m", b"\xff", b"a&b<c>\"d'", b"]]>", "\uffff\u202e".encode()):
            self.write(b"in/" + name + b".adf", image("\x01&<>\x7f"))
        self.here("dat", "x.dat", "in", status=0)
        names = {name for _, name in self.roms("x.dat")}
        self.assertEqual(names, {"%1B[31m.adf", "%FF.adf", "a&b<c>\"d'.adf", "]]>.adf", "%EF%BF%BF%E2%80%AE.adf"})
        bombs = {
            "text.dat": b"no XML",
            "cut.dat": b"<datafile><game name='x'>",
            "bomb.dat": b"<!DOCTYPE d [<!ENTITY a '" + b"x" * 1000 + b"'>" + b"".join(
                b"<!ENTITY %c '%s'>" % (97 + it, b"&%c;" % (96 + it) * 30) for it in range(1, 8)) + b"]><d>&h;</d>",
            "file.dat": b"<!DOCTYPE d [<!ENTITY a SYSTEM 'file:///etc/passwd'>]><d>&a;</d>",
        }
        for file, data in bombs.items():
            self.write(file, data)
            ran = self.here("dat", "--compare", file, "in")
            self.assertEqual(ran.status, 2, ran)
            self.assertNotIn("root:", ran.out + ran.err)
            self.assertTrue(is_plain(ran.err))


if __name__ == "__main__":
    unittest.main()
