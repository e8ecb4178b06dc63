"""Tests `jip check`: verdicts, reasons, counts, hostile names, packed images, and a run that is stopped."""
from __future__ import annotations

import gzip
import io
import json
import os
import shlex
import signal
import subprocess
import sys
import unittest
import zipfile
from functools import partial
from unittest import mock

from jiponuwha.tool.archive import progress
from jiponuwha.tool.archive.progress import Progress
from jiponuwha.tool.console import Console

from .archive_help import LONGEST, Room, environment, image, is_plain, jip_process, refused, root_of, unvalidated, words_of

SUM = "the checksum of the block is wrong"


class Verdicts(Room):
    def test_each_verdict(self) -> None:
        good = image()
        for name, data in (("a", good), ("b", unvalidated(good)), ("c", refused(good)), ("d", good[:-1])):
            self.write(f"in/{name}.adf", data)
        os.symlink("none", "in/e.adf")
        ran = self.here("check", "in", status=2)
        lines = ran.out.splitlines()
        self.assertEqual(lines[0], "in/a.adf: ok")
        self.assertTrue(lines[1].startswith("in/b.adf: validated: "))
        self.assertEqual(lines[2], f"in/c.adf: refused: block {root_of(good)}: {SUM}")
        self.assertEqual(lines[3], "in/d.adf: refused: block 0: the image is not whole blocks of 512 bytes")
        self.assertEqual(lines[4], "in/e.adf: unreadable: No such file or directory")
        said = ran.err.splitlines()
        self.assertEqual(said[0], "5 images: 1 ok, 1 validated, 2 refused, 1 unreadable")
        self.assertIn(f"  1 {SUM}", said)

    def test_statuses(self) -> None:
        self.write("good.adf", image())
        self.write("bad.adf", refused(image()))
        os.mkdir("empty")
        for paths, status in (("good.adf", 0), ("good.adf bad.adf", 3), ("good.adf none.adf", 2), ("empty", 2)):
            self.here("check", *paths.split(), status=status)
        self.assertEqual(self.here("check", "-q", "good.adf"), (0, "", ""))
        self.assertIn("no image", self.here("check", "empty").err)
        for words in (["--jobs", "0"], ["--jobs", "x"], ["--jobs", "2", "--dask", "tcp://x:1"], ["--send"]):
            self.here("check", *words, "good.adf", status=1)

    def test_json(self) -> None:
        data = image()
        self.write("in/bad.adf", refused(data))
        self.write("in/good.adf", data)
        bad, good = (json.loads(it) for it in self.here("check", "--json", "in", status=3).out.splitlines())
        self.assertEqual((bad["path"], bad["verdict"], bad["kind"]), ("in/bad.adf", "refused", "FFS"))
        self.assertEqual((bad["faults"][0]["kind"], bad["faults"][0]["block"]), ("BadSum", root_of(data)))
        self.assertEqual((bad["faults"][0]["at"], bad["faults"][0]["found"]), (5, 0x12345678))
        self.assertEqual((good["kind"], good["label"], good["blocks"], good["faults"]), ("FFS", "Work", 32, []))

    def test_the_same_by_a_pool(self) -> None:
        self.archive("in", 150, sizes=())
        one, pool = (jip_process("check", "--jobs", jobs, "in", status=3) for jobs in ("1", "3"))
        self.assertEqual(one, pool)
        self.assertEqual(len(one.out.splitlines()), 150)


class Hostile(Room):
    def test_names(self) -> None:
        names = [b"\x1b[31mred", b"two\nlines", b"\xff\xfe", "\u202eright".encode(), b"tab\there", b"<b>&\"'", b"%00", b"-q"]
        for name in names:
            self.write(b"in/" + name + b".adf", image())
        ran = jip_process("check", "in", status=0)
        self.assertEqual(len(ran.out.splitlines()), len(names))
        self.assertTrue(is_plain(ran.out), ran.out)
        said = [json.loads(it)["path"] for it in jip_process("check", "--json", "in", status=0).out.splitlines()]
        self.assertEqual({os.fsencode(it) for it in said}, {b"in/" + it + b".adf" for it in names})

    def test_packed(self) -> None:
        good = image()
        os.mkdir("in")
        with zipfile.ZipFile("in/set.zip", "w", zipfile.ZIP_DEFLATED) as packed:
            for name in ("one.adf", "../out.adf", "/tmp/absolute.adf", "text.txt", "deep/two.adf"):
                packed.writestr(name, good)
            packed.writestr("bomb.adf", bytes(60_000_000))
        self.write("in/whole.adz", gzip.compress(good))
        self.write("in/cut.adz", gzip.compress(good)[:-9])
        self.write("in/bomb.adz", gzip.compress(bytes(60_000_000), 1))
        self.write("in/none.zip", b"PK\x03\x04 no zip file")
        self.write("in/text.adz", b"no gzip file")
        os.symlink("/proc/self/mem", "in/mem.adf")
        before = os.listdir("in")
        ran = self.here("check", "in", status=2)
        said = dict(it.split(": ", 1) for it in ran.out.splitlines())
        for name in ("in/set.zip/one.adf", "in/set.zip/../out.adf", "in/set.zip//tmp/absolute.adf", "in/set.zip/deep/two.adf", "in/whole.adz"):
            self.assertEqual(said.pop(name), "ok")
        for name, part in (("in/set.zip/bomb.adf", "more than"), ("in/bomb.adz", "more than"), ("in/cut.adz", "cut short")):
            self.assertIn(part, said.pop(name))
        for name in ("in/mem.adf", "in/text.adz"):
            self.assertTrue(said.pop(name).startswith("unreadable: "))
        self.assertEqual(said, {})
        self.assertIn("none.zip", ran.err)
        self.assertEqual((os.listdir("."), os.listdir("in")), (["in"], before))


class Stopped(Room):
    def test_an_interrupt(self) -> None:
        """The third image is a pipe, from which nothing comes until the run is interrupted."""
        for name in "abd":
            self.write(f"{name}.adf", image())
        os.mkfifo("c.adf")
        paths = ["a.adf", "b.adf", "c.adf", "d.adf"]
        words = words_of("check", "--jobs", "1", *paths)
        # (what starts the tests may ignore interrupts, as a shell does for its background jobs)
        restored = partial(signal.signal, signal.SIGINT, signal.SIG_DFL)
        pipe = subprocess.PIPE
        with subprocess.Popen(words, stdout=pipe, stderr=pipe, env=environment(), preexec_fn=restored) as running:
            with open("c.adf", "wb"):
                running.send_signal(signal.SIGINT)
                out, err = (it.decode() for it in running.communicate(timeout=LONGEST))
        self.assertEqual((running.returncode, out), (130, "a.adf: ok\nb.adf: ok\n"))
        self.assertIn("stopped after 2 images", err)
        line = err.splitlines()[-1]
        again = shlex.split(line[line.index("jip check") :])[1:]
        os.unlink("c.adf")
        self.write("c.adf", refused(image()))
        ran = self.here(*again, status=3)
        self.assertEqual([it.split(":")[0] for it in ran.out.splitlines()], ["c.adf", "d.adf"])
        self.assertEqual(self.here("check", "--after", "none.adf", *paths).status, 1)


class Terminal(io.StringIO):
    def isatty(self) -> bool:
        return True


class Shown(unittest.TestCase):
    def _shown(self, without: bool) -> str:
        err = Terminal()
        hidden = {"rich": None} if without else {}
        with mock.patch.dict(sys.modules, hidden), mock.patch.object(progress, "_PAUSE", 0):
            with Progress(Console(io.StringIO(), err), 3) as bar:
                for found in ("ok", "ok", "refused"):
                    bar.step(found)
        return err.getvalue()

    def test_lines_without_rich(self) -> None:
        said = self._shown(without=True).splitlines()
        self.assertEqual(len(said), 3)
        self.assertRegex(said[2], r"^jip: 3 of 3 images, .* a second, 0 seconds left: 2 ok, 1 refused$")

    def test_a_bar(self) -> None:
        try:
            import rich  # noqa: F401
        except ImportError:
            self.skipTest("there is no rich (Debian: python3-rich)")
        said = self._shown(without=False)
        for part in ("3/3", "a second", "2 ok, 1 refused"):
            self.assertIn(part, said)

    def test_no_terminal(self) -> None:
        err = io.StringIO()
        with Progress(Console(io.StringIO(), err), None) as bar:
            bar.step("ok")
        self.assertEqual(err.getvalue(), "")


if __name__ == "__main__":
    unittest.main()
