"""Tests volumes: their content, changes and refusals."""
from __future__ import annotations

import contextlib
import copy
import datetime
import gc
import os
import pickle
import random
import tempfile
import threading
import unittest
import warnings
from collections.abc import Callable, Iterator
from pathlib import Path as HostPath

import jiponuwha as jip

NOW = jip.Date(9000, 61, 7)


def blank(format: jip.Format = jip.Format.FFS) -> jip.Volume:
    return jip.create("Work", format=format, clock=lambda: NOW)


def unchanged() -> bytes:
    """Returns the image of a blank volume."""
    volume = blank()
    image = volume.image()
    volume.close(discard=True)
    return image


class OnVolume(unittest.TestCase):
    """A test with a blank volume, which is not saved."""

    def setUp(self) -> None:
        self.volume = blank()
        self.addCleanup(self.volume.close, discard=True)

    @contextlib.contextmanager
    def refused(self, dos: int, *kinds: type[Exception]) -> Iterator[None]:
        """Checks that the block raises this DOS error, as an exception of these classes."""
        with self.assertRaisesRegex(jip.DosError, rf"^\[DOS {dos}\] ") as raised:
            yield
        for kind in kinds:
            self.assertIsInstance(raised.exception, kind)


class Files(OnVolume):
    def test_a_file(self) -> None:
        self.volume["hello"] = b"Hi Amiga"
        self.assertEqual(self.volume["HELLO"].read(), b"Hi Amiga")
        self.assertEqual(self.volume.read(b"hello"), b"Hi Amiga")
        self.volume["hello"] = bytearray(b"Hi")
        self.assertEqual(self.volume["Work:hello"].read(), b"Hi")
        for wrong in (7, "text", None):
            with self.assertRaises(TypeError):
                self.volume.write("hello", wrong)  # type: ignore[arg-type]
        self.assertEqual(self.volume.read("hello"), b"Hi")

    def test_sizes(self) -> None:
        for format in jip.Format:
            volume = blank(format)
            for size in (0, 1, 487, 488, 489, 511, 512, 513, 65535, 65536, 65537, 200_000):
                data = os.urandom(size)
                volume["f"] = data
                self.assertEqual(volume.read("f"), data)
                self.assertEqual(volume.stat("f").size, size)
            volume.close(discard=True)

    def test_whole_or_not_at_all(self) -> None:
        self.volume["old"] = b"old bytes"
        image = self.volume.image()
        for path in ("old", "new"):
            with self.refused(221, jip.DiskFull):
                self.volume[path] = bytes(1_000_000)
            self.assertEqual(self.volume.image(), image)

    def test_protected(self) -> None:
        self.volume["f"] = b"bytes"
        self.volume.protect("f", 1 | 4 | 8)
        with self.refused(224, PermissionError):
            self.volume.read("f")
        with self.refused(223):
            self.volume["f"] = b"other"
        with self.refused(222):
            del self.volume["f"]
        self.assertEqual(self.volume.stat("f").bits, 13)

    def test_what_is_noted(self) -> None:
        self.volume["f"] = b"bytes"
        self.volume.comment("f", "k\xfcrzer")
        self.volume.date("f", datetime.datetime(1990, 1, 1, 12, 0, 1, 20_000))
        entry = self.volume.stat("f")
        self.assertEqual((entry.name, entry.comment, entry.comment_bytes), ("f", "k\xfcrzer", b"k\xfcrzer"))
        self.assertEqual(entry.date, jip.Date(4383, 720, 51))
        self.assertEqual(entry.date.time(), datetime.datetime(1990, 1, 1, 12, 0, 1, 20_000))
        self.assertTrue(entry.is_file and not entry.is_dir)
        for wrong in (jip.Date(-1), jip.Date(2**32)):
            with self.assertRaises(ValueError):
                self.volume.date("f", wrong)
        with self.refused(220):
            self.volume.comment("f", "x" * 80)
        with self.refused(220):
            self.volume.comment("f", "x" * 300)

    def test_names(self) -> None:
        names: list[str | bytes] = ["caf\xe9", b"caf\xc9", "zero\0name", "a.b", ".", ".."]
        for name in names:
            self.volume[name] = b"x"
            self.assertIn(name, self.volume)
            self.assertEqual(self.volume.read(name), b"x")
        self.assertIn(b"caf\xe9", [path for path, _ in self.volume.walk(names=bytes)])
        self.assertNotIn("\u65e5\u672c", self.volume)
        self.assertNotIn(7, self.volume)
        for wrong in ("\u65e5\u672c", "x" * 31):
            with self.refused(210, jip.InvalidName):
                self.volume[wrong] = b"x"


class Directories(OnVolume):
    def test_a_walk(self) -> None:
        self.volume.mkdir("a/b/c", parents=True)
        self.volume["a/b/c/f"] = b"x"
        self.volume["g"] = b"y"
        paths = list(self.volume)
        self.assertEqual(sorted(paths), ["a", "a/b", "a/b/c", "a/b/c/f", "g"])
        self.assertLess(paths.index("a/b"), paths.index("a/b/c"))
        self.assertEqual(len(self.volume), 5)
        for path, there in self.volume.items():
            self.assertEqual(str(there), path)
        for path, entry in self.volume.walk():
            self.assertEqual(self.volume.stat(path), entry)

    def test_a_walk_is_apart(self) -> None:
        for name in "abc":
            self.volume[name] = b"x"
        for path, _ in self.volume.walk():
            del self.volume[path]
        self.assertEqual(len(self.volume), 0)
        self.assertTrue(self.volume)

    def test_entries(self) -> None:
        self.volume.mkdir("d")
        self.volume["d/f"] = b"xy"
        self.assertEqual([(it.name, it.size) for it in self.volume.entries("d")], [("f", 2)])
        with self.refused(212):
            self.volume.entries("d/f")

    def test_making(self) -> None:
        self.volume.mkdir("d")
        with self.refused(203, FileExistsError):
            self.volume.mkdir("d")
        self.volume.mkdir("d", exist_ok=True)
        self.volume["f"] = b"x"
        with self.refused(203):
            self.volume.mkdir("f", exist_ok=True)
        with self.refused(212):
            self.volume["d"] = b"x"

    def test_removing(self) -> None:
        self.volume.mkdir("d")
        self.volume["d/f"] = b"x"
        with self.refused(216, jip.DirectoryNotEmpty):
            self.volume.remove("d")
        del self.volume["d/f"]
        self.volume.remove("d")
        with self.refused(205, FileNotFoundError):
            self.volume.remove("d")
        with self.assertRaises(KeyError):
            del self.volume["d"]

    def test_renaming(self) -> None:
        self.volume.mkdir("d")
        self.volume["f"] = b"x"
        self.volume.rename("f", "d/g")
        self.assertEqual(self.volume.read("d/g"), b"x")
        self.volume["f"] = b"y"
        with self.refused(203):
            self.volume.rename("f", "d/g")

    def test_long_paths(self) -> None:
        path = "/".join(f"{it:030}" for it in range(20))
        self.volume.mkdir(path, parents=True)
        self.volume[f"{path}/f"] = b"far"
        self.volume.comment(f"{path}/f", "down")
        self.volume.rename(f"{path}/f", f"{path}/g")
        with self.volume.open(f"{path}/g", "r+") as file:
            file.write(b"F")
        self.assertEqual(self.volume[f"{path}/g"].read(), b"Far")
        self.assertEqual(self.volume.stat(f"{path}/g").comment, "down")
        self.assertIn(f"{path}/g", list(self.volume))
        self.assertNotIn(f"{path}/f", self.volume)
        self.volume.remove(f"{path}/g")

    def test_mapping(self) -> None:
        self.volume["f"] = b"x"
        self.assertIsNone(self.volume.get("g"))
        with self.assertRaises(KeyError):
            self.volume["g"]
        self.assertEqual({self.volume: 1}[self.volume], 1)
        with jip.open(self.volume.image()) as other:
            self.assertNotEqual(self.volume, other)


class Paths(OnVolume):
    def test_parts(self) -> None:
        path = self.volume / "S" / b"startup-sequence.old"
        self.assertEqual((str(path), bytes(path)), ("S/startup-sequence.old", b"S/startup-sequence.old"))
        self.assertEqual((path.name, path.stem, path.suffix), ("startup-sequence.old", "startup-sequence", ".old"))
        self.assertEqual((path.parts, str(path.parent)), (("S", "startup-sequence.old"), "S"))
        self.assertEqual(jip.Path(self.volume, "Work:") / "S", jip.Path(self.volume, "Work:S"))
        self.assertEqual((jip.Path(self.volume).name, str(path.parent.parent)), ("", ""))

    def test_what_is_there(self) -> None:
        here = self.volume / "d"
        self.assertFalse(here.exists() or here.is_dir() or here.is_file())
        here.mkdir()
        self.assertTrue(here.exists() and here.is_dir() and not here.is_file())
        file = here / "f"
        self.assertEqual((file.write(b"xyz"), file.read(), file.read_bytes()), (3, b"xyz", b"xyz"))
        self.assertTrue(file.is_file())
        self.assertFalse((file / "g").exists())
        self.assertEqual(list(here.iterdir()), [file])
        moved = file.rename("g")
        self.assertEqual((str(moved), moved.stat().size), ("g", 3))
        with moved.open() as opened:
            self.assertEqual(opened.read(), b"xyz")
        moved.remove()
        self.assertEqual(len(here.volume), 1)


class Volumes(OnVolume):
    def test_label(self) -> None:
        self.assertEqual(self.volume.label(), "Work")
        self.assertEqual(self.volume.label("K\xe4se"), "K\xe4se")
        with self.refused(210):
            self.volume.label("a:b")
        with self.refused(210):
            self.volume.label("x" * 300)

    def test_info(self) -> None:
        for format, bytes_per_block in ((jip.Format.OFS, 488), (jip.Format.FFS, 512)):
            volume = jip.create("Work", format=format, blocks=jip.HIGH_DENSITY)
            info = volume.info()
            self.assertEqual((info.label, info.format, info.bytes_per_block), ("Work", format, bytes_per_block))
            self.assertEqual(info.free, info.blocks - info.used)
            self.assertEqual(len(volume.image()), 512 * jip.HIGH_DENSITY)
            volume.close(discard=True)

    def test_wrong_volumes(self) -> None:
        for label, blocks in (("", 1760), ("a/b", 1760), ("Work", 15), ("Work", -1), ("Work", 2**33)):
            with self.assertRaises(ValueError):
                jip.create(label, blocks=blocks)

    def test_faults(self) -> None:
        image = bytearray(self.volume.image())
        self.assertEqual(jip.check(image), ())
        self.assertEqual(jip.check(b"x" * 512), (jip.Fault(jip.FaultKind.TOO_FEW_BLOCKS, 0),))
        image[880 * 512 + 20] ^= 1
        with self.assertRaisesRegex(jip.NotAnImage, r"^\[DOS 225\] ") as refused:
            jip.open(image)
        self.assertEqual([(it.kind, it.block, it.at) for it in refused.exception.faults], [(jip.FaultKind.BAD_SUM, 880, 5)])
        self.assertIn("block 880: the checksum of the block is wrong", str(refused.exception))
        for fault in (refused.exception, jip.NotAnImage([], "x")):
            again = pickle.loads(pickle.dumps(fault))
            self.assertEqual((again.faults, str(again)), (fault.faults, str(fault)))

    def test_errors(self) -> None:
        with self.assertRaises(jip.ObjectNotFound) as refused:
            self.volume.read("none/f")
        fault = refused.exception
        self.assertEqual((fault.dos, fault.strerror, fault.filename), (204, "directory not found", "none/f"))
        self.assertEqual(str(copy.copy(fault)), str(fault))
        self.assertIsInstance(fault, OSError)

    def test_closed(self) -> None:
        self.volume.close(discard=True)
        self.volume.close()
        calls: list[Callable[[], object]] = [self.volume.info, self.volume.image, self.volume.save, lambda: self.volume.read("f")]
        for call in calls:
            with self.assertRaises(ValueError):
                call()
        self.assertFalse(self.volume.is_changed)
        self.assertIn("closed", repr(self.volume))


class OnHost(unittest.TestCase):
    def setUp(self) -> None:
        room = tempfile.TemporaryDirectory()
        self.addCleanup(room.cleanup)
        self.file = HostPath(room.name, "work.adf")

    def test_saving(self) -> None:
        with jip.create("Work", self.file) as floppy:
            floppy["f"] = b"saved"
            floppy.save()
            self.assertFalse(floppy.is_changed)
        os.chmod(self.file, 0o640)
        with jip.open(str(self.file)) as floppy:
            self.assertEqual(floppy["f"].read(), b"saved")
            floppy["f"] = b"saved again"
            self.assertTrue(floppy.is_changed)
            floppy.save()
            self.assertEqual(self.file.read_bytes(), floppy.image())
        self.assertEqual(os.stat(self.file).st_mode & 0o777, 0o640)
        self.assertEqual([it.name for it in self.file.parent.iterdir()], ["work.adf"])
        self.assertEqual(jip.check(self.file), ())

    def test_other_files(self) -> None:
        with jip.create("Work") as floppy:
            with self.assertRaises(ValueError):
                floppy.save()
            with self.assertRaises(FileNotFoundError) as refused:
                floppy.save(self.file / "below")
            self.assertEqual(refused.exception.filename, str(self.file / "below"))
            floppy.save(self.file)
            self.assertEqual(floppy.path, str(self.file))
        with self.assertRaises(FileNotFoundError):
            jip.open(self.file.with_name("none.adf"))
        with self.assertRaises(IsADirectoryError):
            jip.open(self.file.parent)

    def test_dropped(self) -> None:
        image = unchanged()
        floppy = jip.open(image)
        floppy["f"] = b"x"
        with self.assertWarnsRegex(ResourceWarning, "was changed and not saved"):
            del floppy
            gc.collect()
        with self.assertWarnsRegex(ResourceWarning, "was made and never saved"), blank() as floppy:
            self.assertTrue(floppy.is_changed)
        with warnings.catch_warnings():
            warnings.simplefilter("error")
            with jip.open(image) as floppy:
                with self.assertRaises(jip.ObjectNotFound):
                    floppy.read("f")
            with jip.create("Work", self.file) as floppy:
                floppy.save()
            with self.assertRaises(ZeroDivisionError), jip.create("Work") as floppy:
                floppy["f"] = b"x"
                raise ZeroDivisionError


class Drawn(unittest.TestCase):
    def test_as_a_dictionary(self) -> None:
        """Applies random operations to a volume and to a dictionary, which stay equal."""
        drawn = random.Random(1)
        for format in jip.Format:
            volume, model = blank(format), dict[str, bytes]()
            for _ in range(600):
                path, other = (f"F{drawn.randrange(20)}" for _ in range(2))
                action = drawn.randrange(4)
                if action < 2:
                    model[path] = drawn.randbytes(drawn.choice([0, 1, 500, 30_000]))
                    volume[path] = model[path]
                elif action == 2 and path in model:
                    del model[path], volume[path.lower()]
                elif path in model and other not in model:
                    model[other] = model.pop(path)
                    volume.rename(path, other)
                self.assertEqual(path in volume, path in model)
            self.assertEqual({path: there.read() for path, there in volume.items()}, model)
            self.assertEqual(jip.check(volume.image()), ())
            volume.close(discard=True)


class Threads(unittest.TestCase):
    def test_side_by_side(self) -> None:
        done: list[bytes] = []

        def work(number: int) -> None:
            with blank() as volume:
                for at in range(50):
                    volume[f"f{at}"] = bytes([number]) * 1000
                done.append(volume["f49"].read())
                volume.close(discard=True)

        threads = [threading.Thread(target=work, args=[it]) for it in range(4)]
        for it in threads:
            it.start()
        for it in threads:
            it.join()
        self.assertEqual(sorted(done), [bytes([it]) * 1000 for it in range(4)])

    def test_one_at_a_time(self) -> None:
        entered, leave = threading.Event(), threading.Event()

        def clock() -> jip.Date:
            if threading.current_thread() is not threading.main_thread():
                entered.set()
                leave.wait(10)
            return NOW

        volume = jip.create("Work", clock=clock)
        volume["f"] = b"x"
        file = volume.open("f")
        other = threading.Thread(target=volume.mkdir, args=["d"])
        other.start()
        entered.wait(10)
        with self.assertRaisesRegex(RuntimeError, "another thread"):
            volume.read("f")
        # (a later call closes its handle)
        file.close()
        leave.set()
        other.join()
        self.assertEqual(volume.read("f"), b"x")
        volume["d/g"] = b"y"
        volume.remove("f")
        volume.close(discard=True)


if __name__ == "__main__":
    unittest.main()
