"""Tests the grid of an image on a terminal."""
from __future__ import annotations

import json
import re
import unittest

import jiponuwha as jip
from jiponuwha.tool.picture.disk import disk_of
from jiponuwha.tool.picture.grid import legend, rows
from jiponuwha.tool.picture.shape import Shape

from . import pictured
from .pictured import BITMAP, ROOT, Tried
from .tool_help import Ran

CODES = re.compile("\033\\[[0-9;]*m")


def blank() -> bytes:
    with jip.create("Work") as floppy:
        image = floppy.image()
        floppy.close(discard=True)
    return image


class Map(Tried):
    def grid(self, image: bytes) -> Ran:
        return self.jip("map", self.write("work.adf", image))

    def test_a_blank_floppy(self) -> None:
        """Blocks 0 and 1 are boot blocks; the root is block 880, sector 0 of head 0 of cylinder 40; the bitmap follows it."""
        wanted = [["."] * 80 for _ in range(22)]
        wanted[0][0] = wanted[1][0] = "B"
        wanted[0][40], wanted[1][40] = "R", "M"
        ran = self.grid(blank())
        lines = ran.output.splitlines()
        self.assertEqual((ran.status, ran.errors), (0, ""))
        self.assertEqual(lines[:22], ["".join(row) for row in wanted])
        self.assertEqual(len(lines), 24)
        self.assertTrue(lines[22].startswith("Work, FFS, 2 of 1,758 blocks used"), lines[22])
        self.assertEqual(lines[23], "B 2 boot  R 1 root  M 1 bitmap  . 1,756 free")

    def test_it_fits_a_terminal(self) -> None:
        for image in (pictured.sound(), pictured.hostile(), pictured.without(pictured.sound(), ROOT)):
            lines = self.grid(image).output.splitlines()
            self.assertEqual(len(lines), 24)
            self.assertLessEqual(max(len(it) for it in lines), 80)

    def test_owners(self) -> None:
        image = pictured.sound(jip.Format.OFS)
        lines = self.grid(image).output.splitlines()
        with jip.open(image) as floppy:
            blocks = {path: floppy.where(path) for path in ("Docs", "Docs/long", "none")}
            keys = {path: floppy.stat(path).key for path in blocks}
        for path, letters in (("Docs", "D"), ("Docs/long", "FX#"), ("none", "F")):
            for block in blocks[path]:
                self.assertIn(lines[block % 22][block // 22], letters)
            self.assertEqual(lines[keys[path] % 22][keys[path] // 22], letters[0])

    def test_colours(self) -> None:
        for image in (pictured.sound(), pictured.without(pictured.sound(), ROOT)):
            disk = disk_of("work.adf", image)
            plain, coloured = [*rows(disk, False), legend(disk, False)], [*rows(disk, True), legend(disk, True)]
            self.assertTrue(all("\033[" in it for it in coloured))
            self.assertEqual([CODES.sub("", it) for it in coloured], plain)
            self.assertEqual("".join(plain).count("\033"), 0)

    def test_high_density(self) -> None:
        lines = self.grid(pictured.sound(blocks=jip.HIGH_DENSITY)).output.splitlines()
        self.assertEqual(len(lines), 46)
        self.assertEqual({len(it) for it in lines[:44]}, {80})
        self.assertEqual(lines[0][40], "R")

    def test_another_size(self) -> None:
        lines = self.grid(pictured.sound(blocks=1000)).output.splitlines()
        self.assertEqual([len(it) for it in lines[:13]], [80] * 12 + [40])
        self.assertEqual(lines[0][:2], "BB")
        self.assertEqual(lines[500 // 80][500 % 80], "R")

    def test_refused(self) -> None:
        sound = pictured.sound()
        header = pictured.header(sound, "Docs/long")
        ran = self.grid(pictured.damaged(sound, 512 * header + 350, 512 * BITMAP + 20))
        lines = ran.output.splitlines()
        self.assertEqual(ran.status, 3)
        self.assertEqual(lines[1][40], "!")
        self.assertEqual(lines[header % 22][header // 22], "!")
        self.assertIn("refused, ", lines[22])
        self.assertRegex(lines[23], "! (2 )?fault")

    def test_refused_blocks_have_their_letters(self) -> None:
        """All blocks but the root and the bitmap block are as before. Without a root, blocks of deleted files belong to them."""
        with jip.create("Work", format=jip.Format.OFS) as floppy:
            floppy["long"] = bytes(range(1, 251)) * 400
            sound = floppy.image()
            floppy.close(discard=True)
        lines = self.grid(pictured.without(sound, ROOT)).output.splitlines()
        wanted = [list(it) for it in self.grid(sound).output.splitlines()[:22]]
        wanted[0][40], wanted[1][40] = "!", "L"
        self.assertEqual(lines[:22], ["".join(it) for it in wanted])

    def test_json(self) -> None:
        sound = pictured.sound()
        header = pictured.header(sound, "Docs/long")
        found = json.loads(self.jip("map", "--json", self.write("work.adf", sound)).output)
        self.assertEqual((found["label"], found["kind"], found["blocks"], found["faults"]), ("Work", "FFS", 1760, []))
        self.assertEqual((len(found["map"]), len(found["headers"]), found["map"][ROOT]), (1760, 1760, "R"))
        self.assertEqual((found["headers"][header], found["paths"][str(header)]), (header, "Docs/long"))
        ran = self.jip("map", "--json", self.write("bad.adf", pictured.damaged(sound, 512 * BITMAP + 20)))
        refused = json.loads(ran.output)
        self.assertEqual((ran.status, refused["label"], refused["kind"], refused["map"][BITMAP]), (3, "Work", "FFS", "!"))
        owned = [(block, header) for block, header in enumerate(found["headers"]) if header and block != BITMAP]
        self.assertEqual([(block, refused["headers"][block]) for block, _ in owned], owned)
        self.assertIn({"block": BITMAP, "kind": "BadSum", "text": "the checksum of the block is wrong"}, refused["faults"])

    def test_no_disk(self) -> None:
        ran = self.grid(b"no image")
        self.assertEqual((ran.status, ran.output), (3, ""))
        self.assertIn("not whole blocks", ran.errors)
        self.assertEqual(json.loads(self.jip("map", "--json", self.write("none", b"x")).output)["map"], "")
        self.assertEqual(self.grid(bytes(512 * 20)).status, 3)

    def test_wrong_arguments(self) -> None:
        path = self.write("work.adf", blank())
        self.assertEqual(self.jip("map", f"{path}:Docs").status, 1)
        self.assertEqual(self.jip("map", "none.adf").status, 2)

    def test_hostile_names(self) -> None:
        for image in (pictured.hostile(), bytes(901_120)):
            ran = self.jip("map", self.write(b"a\x1b[2J\xff\n.adf", image))
            self.assertEqual(re.sub(r"[\n -~]", "", ran.output), "")
            self.assertEqual(len(ran.lines), 24)


class Shapes(unittest.TestCase):
    def test_places(self) -> None:
        """A cylinder of a double-density floppy has 22 blocks, 11 a head; one of high density has 44."""
        self.assertEqual(Shape(1760).track(880), (40, 0, 0))
        self.assertEqual(Shape(1760).place(912), "cyl 41 head 0 sector 10")
        self.assertEqual(Shape(3520).place(1760), "cyl 40 head 0 sector 0")
        self.assertEqual(Shape(3520).track(3519), (79, 1, 21))
        self.assertEqual(Shape(2000).place(10), "")

    def test_each_block_has_a_cell(self) -> None:
        for blocks in (16, 1000, 1760, 3520):
            shape = Shape(blocks)
            cells = [shape.cell(it) for it in range(blocks)]
            self.assertEqual(len(set(cells)), blocks)
            self.assertEqual([shape.block(*it) for it in cells], list(range(blocks)))
            self.assertTrue(all(0 <= column < 80 and 0 <= row < shape.rows for column, row in cells))
            self.assertEqual([it for part in shape.parts() for it in part], list(range(blocks)))


if __name__ == "__main__":
    unittest.main()
