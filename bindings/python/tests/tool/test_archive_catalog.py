"""Tests `jip catalog`: what the rows say, what is examined again, hostile names, killed runs and full disks."""
from __future__ import annotations

import gzip
import hashlib
import os
import random
import re
import resource
import signal
import sqlite3
import subprocess
import time
import unittest
import zlib

import jiponuwha as jip

from .archive_help import BLOCK, DAY, DAY_TEXT, LONGEST, PACKAGE, Room, environment, image, is_plain, jip_process, query, refused, root_of, rows, words_of
from .tool_help import with_boot

PAGE = PACKAGE.parents[1] / "docs" / "ARCHIVES.md"
NAME = "in/jip-catalogue.sqlite"


def sums(data: bytes) -> tuple[str, str, str, str]:
    named = [hashlib.new(it, data).hexdigest() for it in ("md5", "sha1", "sha256")]
    return (f"{zlib.crc32(data):08x}", named[0], named[1], named[2])


class Rows(Room):
    def test_an_image(self) -> None:
        data = image("Label", {"Docs/text": b"text", "secret": b"hidden"}, format=jip.Format.OFS, blocks=40)
        with jip.open(data, clock=lambda: DAY) as volume:
            volume.comment("Docs/text", "a comment")
            volume.protect("Docs/text", 0x25)
            volume.protect("secret", 8)
            volume.date("Docs/text", DAY)
            data = volume.image()
            volume.close(discard=True)
        self.write("in/a.adf", data)
        self.write("in/b.adz", gzip.compress(data))
        self.here("catalog", "--jobs", "1", "in", status=0)
        said = "path, container, bytes, crc32, md5, sha1, sha256, verdict, reason, kind, label, blocks, free, boot_sha1, boot, boot_sum, gone"
        boot = hashlib.sha1(data[: 2 * BLOCK]).hexdigest()
        rest = (len(data), *sums(data), "ok", None, "OFS", "Label", 40, 40 - 2 - 2 - 5, boot, "none", 0, 0)
        self.assertEqual(query(NAME, f"SELECT {said} FROM images ORDER BY path"), [("a.adf", "", *rest), ("b.adz", "gzip", *rest)])
        said = "type, files.path, size, bits, date, comment, files.crc32, files.md5, files.sha1, files.sha256"
        found = set(query(NAME, f"SELECT {said} FROM files JOIN images ON images.id = image WHERE images.path = 'a.adf'"))
        nothing = (None, None, None, None)
        self.assertEqual(
            found,
            {
                ("directory", "Docs", 0, 0, DAY_TEXT, "", *nothing),
                ("file", "Docs/text", 4, 0x25, DAY_TEXT, "a comment", *sums(b"text")),
                ("file", "secret", 6, 8, DAY_TEXT, "", *sums(b"hidden")),
            },
        )

    def test_a_refused_image(self) -> None:
        good = image("Label", {"d/whole": b"all of it", "d/other": b"x" * 700}, format=jip.Format.OFS)
        with jip.open(good) as volume:
            block = next(at for at, it in enumerate(volume.map()) if it.role == jip.Role.DATA and it.header == volume.stat("d/other").key)
        data = refused(good)
        data = data[: BLOCK * block] + bytes(BLOCK) + data[BLOCK * (block + 1) :]
        self.write("in/a.adf", data)
        self.here("catalog", "--jobs", "1", "in", status=0)
        self.assertEqual(query(NAME, "SELECT verdict, sha1, label FROM images"), [("refused", hashlib.sha1(data).hexdigest(), "Label")])
        self.assertIn(("BadSum", root_of(data), 5, 0x12345678), query(NAME, "SELECT kind, block, at, found FROM faults"))
        saved = query(NAME, "SELECT path, state, size, missing, sha1 FROM salvaged WHERE state != 'directory'")
        self.assertIn(("d/whole", "whole", 9, 0, hashlib.sha1(b"all of it").hexdigest()), saved)
        self.assertIn(("d/other", "broken", 1), [(it[0], it[1], it[3]) for it in saved])

    def test_unreadable(self) -> None:
        os.makedirs("in")
        os.symlink("none", "in/a.adf")
        self.write("in/b.adf", image())
        self.assertIn("a.adf: unreadable", self.here("catalog", "--jobs", "1", "in", status=2).err)
        self.assertEqual(query(NAME, "SELECT path, verdict FROM images ORDER BY path"), [("a.adf", "unreadable"), ("b.adf", "ok")])
        os.unlink("in/a.adf")
        self.write("in/a.adf", image())
        self.assertIn("1 examined, 1 as before", self.here("catalog", "--jobs", "1", "in", status=0).out)

    def test_boot_blocks(self) -> None:
        for number, format in enumerate(jip.Format):
            self.write(f"in/{number}.adf", image(format=format))
            self.write(f"in/{2 + number}.adf", with_boot(image(format=format)))
        code = with_boot(image())
        self.write("in/4.adf", code[:100] + b"code" + code[104:])
        self.write("in/5.adf", with_boot(image(), b"another code"))
        self.write("in/6.adf", refused(with_boot(image())))
        self.write("in/7.adf", b"no image")
        self.here("catalog", "--jobs", "1", "in", status=0)
        found = query(NAME, "SELECT boot, boot_sum FROM images ORDER BY path")
        self.assertEqual([it[0] for it in found], ["none", "none", "standard", "standard", "wrong", "custom", "standard", None])
        self.assertEqual(found[3][1], int.from_bytes(with_boot(image())[4:8], "big"))
        self.assertEqual((found[0][1], found[7][1]), (0, None))


class Again(Room):
    def test_what_changed(self) -> None:
        self.archive("in", 6)
        self.assertIn("6 examined, 0 as before", self.here("catalog", "--jobs", "1", "in", status=0).out)
        first = rows(NAME)
        self.assertIn("0 examined, 6 as before", self.here("catalog", "--jobs", "1", "in", status=0).out)
        self.assertEqual(rows(NAME), first)
        self.write("in/0/1.adf", image("New"))
        os.utime("in/0/2.adf", (1, 1))
        os.unlink("in/0/4.adf")
        self.assertIn("2 examined, 3 as before, 1 gone", self.here("catalog", "--jobs", "1", "in", status=0).out)
        self.assertEqual(query(NAME, "SELECT label FROM images WHERE path = '0/1.adf'"), [("New",)])
        self.assertEqual(query(NAME, "SELECT path FROM images WHERE gone"), [("0/4.adf",)])
        self.assertIn("5 examined, 0 as before", self.here("catalog", "--jobs", "1", "--again", "in", status=0).out)
        self.assertIn("1 deleted", self.here("catalog", "--jobs", "1", "--prune", "in", status=0).out)
        self.assertEqual(len(rows(NAME)["images"]), 5)
        self.archive("in", 6)
        self.here("catalog", "--jobs", "1", "in", status=0)
        self.assertEqual([it[:-1] for it in rows(NAME)["files"]], [it[:-1] for it in first["files"]])

    def test_a_directory_that_cannot_be_searched(self) -> None:
        """What is in it is not gone."""
        self.write("in/a.adf", image())
        self.write("in/set.zip", b"no zip file")
        self.here("catalog", "--jobs", "1", "in", status=2)
        os.unlink("in/a.adf")
        self.here("catalog", "--jobs", "1", "in", status=2)
        self.assertEqual(query(NAME, "SELECT gone FROM images"), [(0,)])

    def test_another_directory(self) -> None:
        for folder in ("in", "other"):
            self.write(f"{folder}/a.adf", image(folder))
        self.here("catalog", "--jobs", "1", "--db", "c.sqlite", "in", status=0)
        self.assertIn("--moved", self.here("catalog", "--jobs", "1", "--db", "c.sqlite", "other", status=2).err)
        self.assertEqual(query("c.sqlite", "SELECT label FROM images"), [("in",)])
        self.here("catalog", "--jobs", "1", "--db", "c.sqlite", "--moved", "other", status=0)
        os.rename("in", "moved")
        self.here("catalog", "--jobs", "1", "moved", status=0)
        self.here("catalog", "--jobs", "1", "none", status=2)

    def test_no_catalogue(self) -> None:
        self.write("in/a.adf", image())
        self.write("text.sqlite", b"no database " * 100)
        self.here("catalog", "--jobs", "1", "--db", "old.sqlite", "in", status=0)
        for name, statement in (("old.sqlite", "PRAGMA user_version = 99"), ("other.sqlite", "CREATE TABLE t (x)")):
            connection = sqlite3.connect(name)
            connection.execute(statement)
            connection.commit()
            connection.close()
        for name, part in (("text.sqlite", "not a database"), ("old.sqlite", "version 99"), ("other.sqlite", "not a catalogue")):
            with open(name, "rb") as file:
                before = file.read()
            self.assertIn(part, self.here("catalog", "--jobs", "1", "--db", name, "in", status=2).err)
            with open(name, "rb") as file:
                self.assertEqual(file.read(), before, name)
        for words in (["verify", "old.sqlite"], ["find", "x", "old.sqlite"]):
            self.assertIn("version 99", self.here(*words, status=2).err)
        self.assertIn("no such catalogue", self.here("verify", "none.sqlite", status=2).err)


@unittest.skipUnless(PAGE.exists(), "there is no docs/ARCHIVES.md")
class Page(Room):
    def test_schema(self) -> None:
        """The page has each table and each column of the catalogue."""
        self.write("in/a.adf", image())
        self.here("catalog", "--jobs", "1", "in", status=0)
        lines = [it.split("|") for it in PAGE.read_text().splitlines() if it.startswith("| ")]
        rows_of_page = [[set(re.findall("\\w+", "".join(re.findall("`[^`]+`", it)))) for it in line[1:3]] for line in lines]
        said: dict[str, set[str]] = {}
        table = ""
        for tables, columns in rows_of_page:
            table = min(tables, default=table)
            said.setdefault(table, set()).update(columns)
        for (name,) in query(NAME, "SELECT name FROM sqlite_master WHERE type = 'table'"):
            columns = {it[1] for it in query(NAME, f"PRAGMA table_info({name})")}
            self.assertEqual(columns - said[name] - {"id", "image", "place"}, set(), name)

    def test_queries(self) -> None:
        """The ten queries of the page find what they say."""
        texts = {"S/startup-sequence": b"echo", "same": b"same"}
        self.write("in/a.adf", image("A", texts))
        self.write("in/b.adf", image("B", {"same": b"same"}, blocks=40))
        self.write("in/c.adf", refused(image("C", texts)))
        self.write("in/d.adf", image("A", texts))
        self.here("catalog", "--jobs", "1", "in", status=0)
        block = PAGE.read_text().split("```sql\n")[1].split("```")[0]
        found = [query(NAME, it) for it in re.split(r"(?m)^-- [0-9]+\. .*$", block)[1:]]
        self.assertEqual(len(found), 10)
        self.assertEqual(found[0], [("ok", 3), ("refused", 1)])
        self.assertEqual(found[1], [("the checksum of the block is wrong", 1)])
        self.assertEqual(sorted(found[2]), [("a.adf", "S/startup-sequence"), ("d.adf", "S/startup-sequence")])
        self.assertEqual([(it[1], it[2]) for it in found[3]], [(2, "a.adf, d.adf")])
        self.assertEqual(found[4][0], ("same", 4, 3))
        self.assertEqual((found[5], found[6], found[7]), ([], [("c.adf",)], []))
        self.assertEqual(len(found[8]), 7)
        self.assertEqual(found[9][0], ("b.adf", "B", 40 - 2 - 2 - 2))


class Hostile(Room):
    def test_bytes_of_names(self) -> None:
        wanted = []
        for start in (1, 31, 64, 94, 124, 154, 184, 214, 226):
            name = bytes(it for it in range(start, start + 29) if it not in b"/:" and it < 256)
            wanted.append(name.decode("iso-8859-1"))
        files = {name.encode("iso-8859-1"): b"x" for name in wanted}
        label = "\x1b]0;label\x07'\"--"
        for path in (b"in/\xff\xfe.adf", b"in/\x1b[2J.adf", "in/\u202e.adf".encode(), b"in/it's; DROP TABLE images.adf"):
            self.write(path, image(label, files, blocks=80))
        self.here("catalog", "--jobs", "1", "in", status=0)
        self.assertEqual({os.fsencode(it[0]) for it in query(NAME, "SELECT path FROM images")},
                         {b"\xff\xfe.adf", b"\x1b[2J.adf", "\u202e.adf".encode(), b"it's; DROP TABLE images.adf"})
        self.assertEqual(query(NAME, "SELECT DISTINCT label FROM images"), [(label,)])
        self.assertEqual({it[0] for it in query(NAME, "SELECT path FROM files")}, set(wanted))
        self.assertIn("0 examined, 4 as before", self.here("catalog", "--jobs", "1", "in", status=0).out)
        ran = self.here("find", "#?", NAME, status=0)
        self.assertEqual(ran.out.count("\n"), 4 * len(wanted))
        self.assertTrue(is_plain(ran.out))
        self.here("verify", "in", status=0)


class Harm(Room):
    def test_killed(self) -> None:
        """A run that is killed at random moments leaves a whole catalogue, and the next one goes on."""
        self.archive("in", 240, sizes=(0, 300))
        jip_process("catalog", "--jobs", "1", "--db", "whole.sqlite", "in", status=0)
        chance = random.Random(5)
        for jobs, most in (("1", 60), ("2", 120), ("2", 160)):
            self._killed_at(jobs, chance.randrange(most // 2, most))
            self.assertLess(len(rows("killed.sqlite")["images"]), 241)
        ran = jip_process("catalog", "--jobs", "2", "--db", "killed.sqlite", "in", status=0)
        self.assertRegex(ran.out, r"[1-9][0-9]* as before")
        self.assertEqual(rows("killed.sqlite"), rows("whole.sqlite"))

    def _killed_at(self, jobs: str, count: int) -> None:
        words = words_of("catalog", "--jobs", jobs, "--db", "killed.sqlite", "in")
        with subprocess.Popen(words, stdout=subprocess.DEVNULL, stderr=subprocess.DEVNULL, env=environment()) as running:
            deadline = time.monotonic() + LONGEST
            while running.poll() is None and self._written() < count and time.monotonic() < deadline:
                time.sleep(0.002)
            running.send_signal(signal.SIGKILL)

    def _written(self) -> int:
        try:
            return int(query("killed.sqlite", "SELECT count(*) FROM images")[0][0])
        except sqlite3.Error:
            return 0

    def test_a_full_disk(self) -> None:
        """A limit on the size of files is met in the middle, as a full disk is."""
        self.archive("in", 120, sizes=(0, 10, 20))
        jip_process("catalog", "--jobs", "1", "--db", "whole.sqlite", "in", status=0)
        limit = (200_000, 200_000)
        words = ["catalog", "--jobs", "1", "--db", "full.sqlite", "in"]
        ran = jip_process(*words, status=2, preexec_fn=lambda: resource.setrlimit(resource.RLIMIT_FSIZE, limit))
        self.assertIn("what is in the catalogue is whole", ran.err)
        count = len(rows("full.sqlite")["images"])
        self.assertTrue(0 < count < 120, count)
        self.assertRegex(jip_process(*words, status=0).out, "[1-9][0-9]* as before")
        self.assertEqual(rows("full.sqlite"), rows("whole.sqlite"))


if __name__ == "__main__":
    unittest.main()
