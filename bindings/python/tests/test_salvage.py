"""Tests what is saved of damaged images."""
from __future__ import annotations

import gc
import random
import tempfile
import threading
import unittest
from pathlib import Path

import jiponuwha as jip

ROOT = 880
DATA = bytes(range(1, 251)) * 5


class Salvage(unittest.TestCase):
    def setUp(self) -> None:
        with jip.create("Work", format=jip.Format.OFS, clock=lambda: jip.Date(4383, 720)) as floppy:
            floppy.mkdir("Docs")
            floppy["Docs/text"] = DATA
            floppy.comment("Docs/text", "r\u00e9ad me")
            floppy.protect("Docs/text", 5)
            self.header = floppy.stat("Docs/text").key
            owners = floppy.map()
            self.data = [owners.index(jip.Owner(jip.Role.DATA, self.header, it)) for it in range(3)]
            self.second = self.data[1]
            self.image = bytearray(floppy.image())
            floppy.close(discard=True)

    def entry(self, path: str) -> jip.Salvaged:
        return next(it for it in jip.salvage(self.image) if it.path == path)

    def test_a_valid_image(self) -> None:
        self.assertEqual([it.path for it in jip.salvage(self.image)], ["Docs", "Docs/text"])
        directory, file = self.entry("Docs"), self.entry("Docs/text")
        self.assertEqual((directory.state, directory.is_dir, directory.read()), (jip.State.DIRECTORY, True, b""))
        self.assertEqual((file.state, file.missing, file.is_cut, file.is_found), (jip.State.WHOLE, 0, False, False))
        self.assertEqual((file.name, file.bits, file.comment, file.date), ("text", 5, "r\u00e9ad me", jip.Date(4383, 720)))
        self.assertEqual((file.size, file.header, file.is_file, file.read()), (len(DATA), self.header, True, DATA))

    def test_without_a_root(self) -> None:
        self.image[512 * ROOT : 512 * (ROOT + 1)] = bytes(512)
        with self.assertRaises(jip.NotAnImage):
            jip.open(self.image)
        file = self.entry("lost+found/Docs/text")
        self.assertEqual((file.state, file.is_found, file.read()), (jip.State.WHOLE, True, DATA))
        self.assertEqual(file.path_bytes, b"lost+found/Docs/text")

    def test_from_a_blank_floppy_to_what_is_left(self) -> None:
        with tempfile.TemporaryDirectory() as room:
            path = Path(room) / "life.adf"
            with jip.create("Work", path) as floppy:
                floppy.mkdir("Docs")
                floppy["Docs/text"] = b"old"
                floppy.save()
            with jip.open(path) as floppy:
                floppy["Docs/text"] = b"new"
                floppy.save()
            self.assertEqual(jip.check(path), ())
            image = bytearray(path.read_bytes())
            image[512 * ROOT : 512 * (ROOT + 1)] = bytes(512)
            path.write_bytes(image)
            self.assertGreater(len(jip.check(path)), 0)
            found = {it.path: it.read() for it in jip.salvage(path)}
        self.assertEqual(found, {"lost+found/Docs": b"", "lost+found/Docs/text": b"new"})

    def test_a_lost_block(self) -> None:
        self.image[512 * self.second : 512 * (self.second + 1)] = bytes(512)
        file = self.entry("Docs/text")
        self.assertEqual((file.state, file.missing), (jip.State.BROKEN, 1))
        self.assertEqual(file.read(), DATA[:488] + bytes(488) + DATA[976:])

    def test_a_doubtful_block(self) -> None:
        self.image[512 * self.second + 24] ^= 1
        file = self.entry("Docs/text")
        self.assertEqual((file.state, file.missing, file.is_file), (jip.State.DOUBTFUL, 0, True))
        self.assertEqual(file.read(), DATA[:488] + bytes([DATA[488] ^ 1]) + DATA[489:])

    def test_doubtful_headers(self) -> None:
        self.image[512 * self.header + 400] ^= 1
        directory = self.entry("Docs").header
        self.image[512 * directory + 400] ^= 1
        docs, file = self.entry("Docs"), self.entry("Docs/text")
        self.assertEqual((docs.state, docs.is_dir, docs.is_found), (jip.State.DOUBTFUL_DIRECTORY, True, False))
        self.assertEqual((file.state, file.header, file.is_file, file.read()), (jip.State.DOUBTFUL, self.header, True, DATA))

    def test_a_header_that_is_gone(self) -> None:
        self.image[512 * self.header + 7] ^= 1
        file = self.entry("Docs/text")
        self.assertEqual((file.state, file.header, file.missing, file.is_found), (jip.State.DOUBTFUL, self.header, 0, False))
        self.assertEqual((file.size, file.is_file, file.read()), (len(DATA), True, DATA))

    def test_a_lost_header(self) -> None:
        for block in (self.header, *self.data):
            self.image[512 * block + 3] ^= 1
            self.image[512 * block + 7] ^= 1
        file = self.entry("Docs/text")
        self.assertEqual((file.state, file.header, file.size, file.is_file, file.read()), (jip.State.LOST, self.header, 0, False, b""))

    def test_files_of_the_host(self) -> None:
        with tempfile.TemporaryDirectory() as room:
            path = Path(room) / "some.adf"
            path.write_bytes(self.image)
            self.assertEqual([it.path for it in jip.salvage(path)], ["Docs", "Docs/text"])
            with self.assertRaises(FileNotFoundError):
                jip.salvage(Path(room) / "none")

    def test_no_image(self) -> None:
        for image in (b"", self.image[:-1]):
            with self.assertRaises(jip.NotAnImage) as raised:
                jip.salvage(image)
            self.assertEqual(len(raised.exception.faults), 1)

    def test_an_entry_outlives_the_list(self) -> None:
        files = jip.salvage(self.image)
        file = files[-1]
        del files
        gc.collect()
        self.assertEqual(file.read(), DATA)
        self.assertEqual(file, self.entry("Docs/text"))

    def test_threads(self) -> None:
        file, found = self.entry("Docs/text"), list[bytes]()
        readers = [threading.Thread(target=lambda: found.extend(file.read() for _ in range(50))) for _ in range(4)]
        for it in readers:
            it.start()
        for it in readers:
            it.join()
        self.assertEqual(found, [DATA] * 200)


class Blocks(unittest.TestCase):
    """What the blocks of an image are. A sound image has a map, which is another way to the same owners."""

    def setUp(self) -> None:
        self.maps: dict[jip.Format, list[jip.Owner]] = {}
        self.images: dict[jip.Format, bytes] = {}
        self.gone: dict[jip.Format, int] = {}
        for format in jip.Format:
            with jip.create("Work", format=format, clock=lambda: jip.Date(4383, 720)) as floppy:
                floppy.mkdir("Docs")
                floppy["Docs/long"] = bytes(range(1, 251)) * 400
                floppy["Docs/short"] = b"text"
                floppy["none"] = b""
                floppy["gone"] = b"deleted"
                self.gone[format] = floppy.stat("gone").key
                floppy.remove("gone")
                # (both have the same blocks)
                self.key = floppy.stat("Docs/long").key
                self.maps[format] = floppy.map()
                self.images[format] = floppy.image()
                floppy.close(discard=True)

    def without(self, format: jip.Format, *blocks: int) -> jip.Salvage:
        image = bytearray(self.images[format])
        for it in blocks:
            image[512 * it : 512 * (it + 1)] = bytes(512)
        return jip.salvage(image)

    def place(self, format: jip.Format, role: jip.Role, index: int = 0) -> int:
        return self.maps[format].index(jip.Owner(role, self.key, index))

    def test_a_sound_image(self) -> None:
        for format, owners in self.maps.items():
            saved = jip.salvage(self.images[format])
            self.assertGreater(sum(it.role == jip.Role.EXTENSION for it in owners), 1)
            self.assertEqual(saved.owners, owners)
            self.assertEqual((saved.trusts_bitmap, saved.deleted), (True, [self.gone[format]]))

    def test_lost_blocks(self) -> None:
        """The bit of the last block is the lowest bit of the last long of the bitmap, and a set bit is a free block."""
        for format, owners in self.maps.items():
            image = bytearray(self.images[format])
            page = next(at for at, it in enumerate(owners) if it.role == jip.Role.BITMAP)
            at = 512 * page + 4 + 4 * ((1759 - 2) // 32)
            bits = int.from_bytes(image[at : at + 4], "big")
            bit = 1 << (1759 - 2) % 32
            image[at : at + 4] = (bits & ~bit).to_bytes(4, "big")
            total = int.from_bytes(image[512 * page : 512 * page + 4], "big")
            image[512 * page : 512 * page + 4] = ((total + bit) % 2**32).to_bytes(4, "big")
            saved = jip.salvage(image)
            self.assertEqual(saved.owners, [*owners[:1759], jip.Owner(jip.Role.LOST)])

    def test_without_a_root(self) -> None:
        """Headers, data and extensions have the owners that they had. The bitmap is one block with data that nothing names."""
        for format, owners in self.maps.items():
            saved = self.without(format, ROOT)
            self.assertEqual((saved.trusts_bitmap, saved.deleted), (False, None))
            for block, (was, now) in enumerate(zip(owners, saved.owners, strict=True)):
                if was.role in (jip.Role.DIRECTORY, jip.Role.FILE, jip.Role.EXTENSION, jip.Role.DATA, jip.Role.BOOT, jip.Role.ROOT):
                    self.assertEqual(now, was, block)
                elif was.role == jip.Role.BITMAP:
                    self.assertEqual(now.role, jip.Role.LOST)
            self.assertEqual(saved.owners[self.gone[format]], jip.Owner(jip.Role.FILE, self.gone[format]))

    def test_a_broken_file(self) -> None:
        """The blocks that are left have the same owners. A block of zeros has none in the Old File System, where blocks have headers."""
        owners = self.maps[jip.Format.OFS]
        lost = self.place(jip.Format.OFS, jip.Role.DATA, 100)
        saved = self.without(jip.Format.OFS, lost)
        self.assertEqual(next(it.state for it in saved if it.header == self.key), jip.State.BROKEN)
        for block, (was, now) in enumerate(zip(owners, saved.owners, strict=True)):
            if was.role == jip.Role.EXTENSION:
                self.assertEqual((now.role, now.header), (was.role, was.header))
            elif block != lost:
                self.assertEqual(now, was, block)
        self.assertNotEqual(saved.owners[lost].role, jip.Role.DATA)

    def test_a_doubtful_header(self) -> None:
        for format, owners in self.maps.items():
            image = bytearray(self.images[format])
            image[512 * self.key + 400] ^= 1
            saved = jip.salvage(image)
            self.assertEqual(saved.owners[self.key], jip.Owner(jip.Role.FILE, self.key))
            data = [block for block, it in enumerate(owners) if it.role == jip.Role.DATA]
            self.assertEqual([saved.owners[it] for it in data], [owners[it] for it in data])

    def test_any_bytes(self) -> None:
        """Each block of an image has an owner, whatever is in it."""
        for seed in range(20):
            image = random.Random(seed).randbytes(512 * 40)
            self.assertEqual(len(jip.salvage(image).owners), 40)
            mixed = bytearray(self.images[jip.Format.OFS])
            for it in random.Random(seed).sample(range(len(mixed)), 300):
                mixed[it] ^= 255
            self.assertEqual(len(jip.salvage(mixed).owners), 1760)


if __name__ == "__main__":
    unittest.main()
