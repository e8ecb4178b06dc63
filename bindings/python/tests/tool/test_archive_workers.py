"""Tests the workers of the archive commands: a process, a pool and a Dask cluster on loopback give the same rows, also where images kill
the workers that examine them."""
from __future__ import annotations

import json
import os
import re
import subprocess
import sys
import unittest
from pathlib import Path
from typing import Any, ClassVar

from .archive_help import LONGEST, Ran, Room, environment, image, jip_process, query, rows

# The workers load this at their start. An image with POISON ends each worker that examines it, and one with ONCE ends the first. The
# workers see no file in a directory `unseen`.
HOOK = """
import functools, os, signal
import jiponuwha.tool.archive.examine as module
from jiponuwha.tool.sources import Source
plain, read, room = module.examine, Source.read, os.environ["JIP_TEST_ROOM"]

@functools.wraps(plain)
def examine(data):
    once = os.path.join(room, "once")
    if b"POISON" in data or (b"ONCE" in data and not os.path.exists(once)):
        with open(os.path.join(room, "deaths" if b"POISON" in data else "once"), "a") as file:
            file.write("x")
        os.kill(os.getpid(), signal.SIGKILL)
    return plain(data)

def unseen(source):
    if "/unseen/" in source.path:
        raise FileNotFoundError(2, os.strerror(2))
    return read(source)

module.examine = examine
if os.environ.get("JIP_TEST_WORKER"):
    Source.read = unseen
"""
# A scheduler and two workers, each with a process that starts it again. They end with standard input.
CLUSTER = """
import asyncio, logging, sys
from distributed import Nanny, Scheduler

async def main():
    async with Scheduler(host="127.0.0.1", port=0, dashboard=False) as scheduler:
        more = {"nthreads": 1, "host": "127.0.0.1", "memory_limit": 0, "dashboard": False}
        async with Nanny(scheduler.address, **more), Nanny(scheduler.address, **more):
            print(scheduler.address, flush=True)
            await asyncio.get_running_loop().run_in_executor(None, sys.stdin.read)

if __name__ == "__main__":
    logging.getLogger("distributed").setLevel(logging.CRITICAL)
    asyncio.run(main())
"""
SAID = "the process that examined it ended 3 times"


def python_with_dask() -> str | None:
    """Returns a Python that has `distributed`, if there is one."""
    for python in (sys.executable, "/usr/bin/python3"):
        find = "import importlib.util, sys; sys.exit(sys.version_info < (3, 11) or not importlib.util.find_spec('distributed'))"
        try:
            if subprocess.run([python, "-c", find], capture_output=True).returncode == 0:
                return python
        except OSError:
            continue
    return None


class Hooked(Room):
    """A test whose workers load the hook."""

    def setUp(self) -> None:
        super().setUp()
        self.write("hook/sitecustomize.py", HOOK.encode())

    def hooked(self, *words: str, **more: Any) -> Ran:
        return jip_process(*words, env={"PYTHONPATH": str(self.top / "hook"), "JIP_TEST_ROOM": str(self.top)}, **more)

    def poisoned(self, folder: str, count: int) -> None:
        """Makes an archive with an image that kills each worker, and one that kills the first."""
        self.archive(folder, count, sizes=(0, 300))
        self.write(f"{folder}/1/poison.adf", image("POISON"))
        self.write(f"{folder}/2/once.adf", image("ONCE"))
        jip_process("catalog", "--jobs", "1", "--db", "one.sqlite", folder, status=0)

    def expect_rows(self, file: str) -> None:
        """Expects the rows of the run in one process, but for the image that has no record."""
        wanted, found = rows("one.sqlite"), rows(file)
        poison = [it for it in found["images"] if it[0] == "1/poison.adf"]
        self.assertEqual(len(poison), 1)
        self.assertEqual(query(file, "SELECT path, verdict, reason FROM images WHERE verdict = 'fatal'"), [("1/poison.adf", "fatal", SAID)])
        for it in (wanted, found):
            it["images"] = [row for row in it["images"] if row[0] != "1/poison.adf"]
        self.assertEqual(found, wanted)


class InAPool(Hooked):
    def test_the_same_rows(self) -> None:
        self.archive("in", 200, sizes=(0, 300))
        for name, jobs in (("one", "1"), ("two", "2")):
            jip_process("catalog", "--jobs", jobs, "--db", f"{name}.sqlite", "in", status=0)
        self.assertEqual(rows("one.sqlite"), rows("two.sqlite"))

    def test_killed_workers(self) -> None:
        self.poisoned("in", 150)
        ran = self.hooked("catalog", "--jobs", "2", "--db", "pool.sqlite", "in", status=2)
        self.assertIn(f"in/1/poison.adf: fatal: {SAID}", ran.err)
        self.expect_rows("pool.sqlite")
        self.assertEqual((self.top / "deaths").read_text(), "xxx")
        again = self.hooked("catalog", "--jobs", "2", "--db", "pool.sqlite", "in", status=0)
        self.assertIn("0 examined, 152 as before", again.out)


class OnACluster(Hooked):
    python: ClassVar[str | None] = python_with_dask()

    def setUp(self) -> None:
        super().setUp()
        if self.python is None:
            self.skipTest("there is no distributed (Debian: python3-distributed)")
        self.write("cluster.py", CLUSTER.encode())
        more = {"PYTHONPATH": str(self.top / "hook"), "JIP_TEST_ROOM": str(self.top), "JIP_TEST_WORKER": "1"}
        words = [str(self.python), "cluster.py"]
        pipes = {"stdin": subprocess.PIPE, "stdout": subprocess.PIPE, "stderr": subprocess.DEVNULL}
        self.cluster = subprocess.Popen(words, env=environment(**more), text=True, **pipes)  # type: ignore[call-overload]
        self.addCleanup(self._stop)
        self.address = self.cluster.stdout.readline().strip()
        self.assertRegex(self.address, r"^tcp://127\.0\.0\.1:[0-9]+$")

    def _stop(self) -> None:
        self.cluster.stdin.close()
        try:
            self.cluster.wait(timeout=20)
        except subprocess.TimeoutExpired:
            self.cluster.kill()
            self.cluster.wait()
        self.cluster.stdout.close()

    def dask(self, *words: str, **more: Any) -> Ran:
        command, *rest = words
        return jip_process(command, "--dask", self.address, *rest, python=str(self.python), **more)

    def test_killed_workers(self) -> None:
        """The rows are those of one process, though workers are killed. Files of a directory that the workers do not see are sent."""
        self.poisoned("in", 150)
        ran = self.dask("catalog", "--db", "dask.sqlite", "in", status=2)
        self.assertIn(f"in/1/poison.adf: fatal: {SAID}", ran.err)
        self.expect_rows("dask.sqlite")
        self.assertEqual((self.top / "deaths").read_text(), "xxx")
        self._sent()
        self._checked()

    def _sent(self) -> None:
        self.archive("unseen", 30, sizes=(0, 300))
        os.symlink("none", "unseen/none.adf")
        jip_process("catalog", "--jobs", "1", "--db", "seen.sqlite", "unseen", status=2)
        ran = self.dask("catalog", "--db", "blind.sqlite", "unseen", status=2)
        self.assertIn("--send sends the images along", ran.err)
        self.assertEqual(query("blind.sqlite", "SELECT DISTINCT verdict FROM images"), [("unreadable",)])
        self.dask("catalog", "--send", "--db", "sent.sqlite", "unseen", status=2)
        self.assertEqual(rows("sent.sqlite"), rows("seen.sqlite"))

    def _checked(self) -> None:
        one = jip_process("check", "--jobs", "1", "--json", "in", status=3)
        found = self.dask("check", "--json", "in", status=3)
        self.assertEqual(found.out, one.out)
        self.assertEqual(len([json.loads(it) for it in found.out.splitlines()]), 152)


class WithoutACluster(Room):
    def test_no_scheduler(self) -> None:
        python = python_with_dask()
        if python is None:
            self.skipTest("there is no distributed (Debian: python3-distributed)")
        self.write("in/a.adf", image())
        for address, part in (("no address", "tcp://HOST:PORT"), ("tcp://127.0.0.1:1", "refused")):
            ran = jip_process("check", "--dask", address, "in", python=python, status=2)
            self.assertIn(f"no Dask scheduler answers at '{address}': ", ran.err)
            self.assertIn(part, ran.err)

    def test_no_distributed(self) -> None:
        """A module that cannot be imported stands in for a missing one."""
        self.write("in/a.adf", image())
        self.write("hook/distributed/__init__.py", b"raise ImportError('not here')")
        ran = jip_process("check", "--dask", "tcp://127.0.0.1:1", "in", env={"PYTHONPATH": str(self.top / "hook")}, status=2)
        self.assertRegex(ran.err, re.escape("'distributed'") + ".*python3-distributed")
        self.assertFalse(Path("in/jip-catalogue.sqlite").exists())


if __name__ == "__main__":
    unittest.main()
