"""Tests the pages and pictures of disks, and their index."""
from __future__ import annotations

import os
import re
import subprocess
import sys
import time
import unittest
import unittest.mock
import zipfile
from html.parser import HTMLParser
from xml.etree import ElementTree

import jiponuwha as jip
from jiponuwha import Owner, Role
from jiponuwha.tool.picture import pages
from jiponuwha.tool.picture.disk import disk_of
from jiponuwha.tool.picture.need import Need, need_of
from jiponuwha.tool.picture.pieces import pieces_of

from . import pictured
from .pictured import BITMAP, CHROMIUM, NO_CHROMIUM, NO_JINJA, ROOT, Tried, damaged, header, sound, without

SVG = "{http://www.w3.org/2000/svg}"
ALLOWED = set(
    "html head meta link title style body main footer header div h1 h2 h3 p span dl dt dd i small nav a section article svg g path circle"
    " text rect table caption thead tbody tr th td details summary".split()
)
VOID = {"meta", "link"}


class Read(HTMLParser):
    """What a page has: its elements, its attributes and its texts. Its elements are properly nested."""

    def __init__(self, page: str) -> None:
        super().__init__(convert_charrefs=True)
        self.tags: set[str] = set()
        self.attributes: list[tuple[str, str]] = []
        self.ids: set[str] = set()
        self.cells: list[tuple[str, str]] = []
        self.open: list[str] = []
        self.text = ""
        self._look = ""
        self.feed(page)
        self.close()
        assert not self.open, self.open

    def handle_starttag(self, tag: str, attributes: list[tuple[str, str | None]]) -> None:
        found = {name: value or "" for name, value in attributes}
        self.tags.add(tag)
        self.attributes += found.items()
        self.ids |= {found["id"]} if "id" in found else set()
        self._look = found.get("class", "") if tag == "path" else self._look
        if tag not in VOID:
            self.open.append(tag)

    def handle_startendtag(self, tag: str, attributes: list[tuple[str, str | None]]) -> None:
        self.tags.add(tag)
        self.attributes += [(name, value or "") for name, value in attributes]

    def handle_endtag(self, tag: str) -> None:
        assert self.open.pop() == tag, (tag, self.open)

    def handle_data(self, data: str) -> None:
        if self.open[-2:] == ["path", "title"]:
            self.cells.append((self._look, data))
        elif self.open[-1:] != ["style"]:
            self.text += data


def cells_of(titles: list[tuple[str, str]]) -> dict[int, tuple[str, str]]:
    """Returns the class and the tooltip of each block."""
    return {int(title.split(";")[0].removeprefix("block ").replace(",", "")): (look, title) for look, title in titles}


class ReportCase(Tried):
    def safe(self, page: Read) -> None:
        """Checks that a page loads nothing, runs nothing, and has no control characters."""
        self.assertLessEqual(page.tags, ALLOWED)
        for name, value in page.attributes:
            self.assertFalse(name.startswith("on") or name in ("src", "srcset"), name)
            if name == "href":
                self.assertRegex(value, r"\A(#[a-z]+|[A-Za-z0-9._-]+\.html|data:,)\Z")
        self.assertNotRegex(page.text, "[\x00-\x09\x0b-\x1f\x7f-\x9f]")
        for name, value in page.attributes:
            if name == "href" and value.startswith("#"):
                self.assertIn(value[1:], page.ids)


@unittest.skipUnless(pictured.JINJA, NO_JINJA)
class Page(ReportCase):
    def page(self, image: bytes, name: str = "work.adf") -> Read:
        ran = self.jip("report", self.write(name, image))
        self.assertEqual((ran.status, ran.errors), (0, ""))
        self.assertEqual('class="blocks"' in ran.output, len(image) >= 512)
        self.assertNotIn("url(", ran.output)
        self.assertNotRegex(ran.output.replace("http://www.w3.org/2000/svg", ""), "https?:")
        read = Read(ran.output)
        self.safe(read)
        return read

    def test_a_sound_disk(self) -> None:
        """The root is block 880 and the bitmap block 881. The numbers of the volume are those of a packet to it."""
        image = sound()
        with jip.open(image) as floppy:
            info, keys = floppy.info(), {path: entry.key for path, entry in floppy.walk()}
            blocks = floppy.where("Docs/long")
        page = self.page(image)
        cells = cells_of(page.cells)
        self.assertEqual((len(page.cells), set(cells)), (1760, set(range(1760))))
        self.assertEqual(cells[0], ("boot", "block 0; cyl 0 head 0 sector 0; boot block"))
        self.assertEqual(cells[ROOT], ("root", "block 880; cyl 40 head 0 sector 0; root block"))
        self.assertEqual(cells[BITMAP][0], "bitmap")
        self.assertEqual(cells[keys["Docs/long"]][0], "file")
        self.assertTrue(cells[keys["Docs"]][1].endswith("; directory Docs"))
        for block in blocks:
            self.assertTrue(cells[block][1].endswith(" of Docs/long"), cells[block])
        self.assertEqual(sum(look == "free" for look, _ in cells.values()), info.free)
        for text in ("Work", "FFS", "boot block: none", "double density", f"{info.used:,} blocks of 1,758", f"{info.free:,} blocks", "read \xe9t"):
            self.assertIn(text, page.text)

    def test_the_tree(self) -> None:
        """Day 4,383 and minute 720 are noon of 1 January 1990; the bits 5 deny deleting and writing."""
        page = self.page(sound())
        self.assertIn("1990-01-01 12:00:00.00", page.text)
        self.assertIn("----r-e-", page.text)
        self.assertIn("51,200", page.text)
        self.assertIn("Empty/", page.text)

    def test_a_table_has_the_owners(self) -> None:
        image = sound(jip.Format.OFS)
        page = self.page(image)
        self.assertIn("Table of all blocks", page.text)
        self.assertIn("data 0 to 71 of Docs/long", page.text)
        runs = disk_of("", image).runs()
        self.assertEqual([it for run in runs for it in run], list(range(1760)))

    def test_deleted_files(self) -> None:
        page = self.page(sound())
        self.assertIn("Deleted files", page.text)
        self.assertIn("no block is in another file", page.text)
        disk = disk_of("", sound())
        self.assertEqual([(it.path, it.size, it.state) for it in disk.deleted or ()], [("gone", 3_000, "whole")])
        self.assertEqual(need_of(disk), Need.REMARKS)

    def test_a_bitmap_that_is_not_valid(self) -> None:
        """Long 78 of the root is -1 if the bitmap is valid. Long 5 makes the sum of the block 0."""
        image = bytearray(sound())
        flag, total = 512 * ROOT + 4 * 78, 512 * ROOT + 4 * 5
        image[flag : flag + 4] = bytes(4)
        image[total : total + 4] = ((int.from_bytes(image[total : total + 4], "big") - 1) % 2**32).to_bytes(4, "big")
        page = self.page(bytes(image))
        self.assertIn("Bitmap not valid", page.text)
        self.assertIn("Only a bitmap that can be trusted says which entries are deleted.", page.text)
        self.assertEqual(need_of(disk_of("", bytes(image))), Need.REMARKS)

    def test_a_damaged_disk(self) -> None:
        image = sound()
        key = header(image, "Docs/long")
        page = self.page(damaged(image, 512 * key + 350, 512 * BITMAP + 20))
        cells = cells_of(page.cells)
        self.assertEqual(len(page.cells), 1760)
        for block in (key, BITMAP):
            self.assertIn("; fault: the checksum of the block is wrong", cells[block][1])
        self.assertIn(f"block {key}; ", cells[key][1])
        self.assertIn("header of Docs/long", cells[key][1])
        for text in ("Refused", "BadSum", "doubtful", "cyl 40 head 0 sector 1", "unaccounted"):
            self.assertIn(text, page.text)
        self.assertEqual(sum(value == "mark" for name, value in page.attributes if name == "class"), 2)

    def test_no_root(self) -> None:
        """Data blocks keep their owners. The bitmap block is the only one that has data and is part of nothing."""
        image = sound()
        with jip.open(image) as floppy:
            owners, key = floppy.map(), floppy.stat("Docs/long").key
        page = self.page(without(image, ROOT))
        cells = cells_of(page.cells)
        self.assertEqual(len(page.cells), 1760)
        self.assertIn("Found outside the tree", page.text)
        for block, owner in enumerate(owners):
            if owner.role == Role.DATA and owner.header == key:
                self.assertEqual(cells[block][0][:6], "data t")
                self.assertTrue(cells[block][1].endswith(f"data {owner.index} of Docs/long"), cells[block])
            elif owner.role == Role.EXTENSION:
                self.assertEqual(cells[block][0], "ext")
        self.assertEqual(cells[BITMAP][0], "lost")
        self.assertIn("1 lost block", page.text)
        for text in ("deletedunknown", "unaccounted1 block"):
            self.assertIn(text, page.text.replace("\n", ""))

    def test_a_refused_disk_has_its_label_and_deleted_files(self) -> None:
        """A fault in a file leaves the bitmap trusted."""
        image = damaged(sound(), 512 * header(sound(), "Docs/long") + 350)
        disk = disk_of("work.adf", image)
        self.assertEqual((disk.is_accepted, disk.title, disk.facts), (False, "Work", "FFS, double density, 1,760 blocks"))
        self.assertEqual([(it.path, it.size, it.state) for it in disk.deleted or ()], [("gone", 3_000, "whole")])
        page = self.page(image)
        for text in ("Deleted files", "gone", "0 blocks", "work.adf", "checksum 0x00000000"):
            self.assertIn(text, page.text)
        with jip.open(sound()) as floppy:
            info = floppy.info()
        self.assertEqual(sum(look == "free" for look, _ in page.cells), info.free)

    def test_broken_and_lost_files(self) -> None:
        image = sound(jip.Format.OFS)
        with jip.open(image) as floppy:
            owners = floppy.map()
            key, short = floppy.stat("Docs/long").key, floppy.stat("Docs/short").key
        data = owners.index(Owner(Role.DATA, key, 3))
        lost = [short, owners.index(Owner(Role.DATA, short, 0))]
        for block in (data, *lost):
            image = without(image, block)
        page = self.page(image)
        self.assertIn("1 data block missing", page.text)
        self.assertIn("lost header", page.text)
        self.assertEqual(need_of(disk_of("", image)), Need.DAMAGED)

    def test_other_sizes(self) -> None:
        page = self.page(sound(blocks=9_000))
        self.assertEqual((len(page.cells), len(cells_of(page.cells))), (9_000, 9_000))
        self.assertNotIn("circle", page.tags)
        self.assertIn("circle", self.page(sound(blocks=jip.HIGH_DENSITY)).tags)

    def test_no_disk(self) -> None:
        self.assertEqual(len(self.page(b"DOS\1" + bytes(600)).cells), 1)
        self.assertEqual(self.page(b"x").cells, [])
        self.assertEqual(len(self.page(bytes(901_120)).cells), 1760)

    def test_hostile_names(self) -> None:
        image = pictured.hostile()
        page = self.page(image, os.fsdecode(b"<b>\x1b[2J\xff\n.adf"))
        for text in ("<img src=x onerror=alert(1)>", "\"'><b>&amp;{{7*7}}", "<script>alert(1)</script>", "%01%02", "%1B[2J"):
            self.assertIn(text, page.text)
        self.assertIn("header of <img src=x onerror=alert(1)>", " ".join(title for _, title in page.cells))
        self.page(without(image, ROOT), os.fsdecode(b"<i>\x1b[2J\xff\n.adf"))

    def test_the_largest_image(self) -> None:
        with jip.create("Largest", blocks=101_602) as volume:
            for number in range(200):
                volume[f"file{number}"] = bytes(200_000)
            path = self.write("largest.hdf", volume.image())
            volume.close(discard=True)
        start = time.process_time()
        ran = self.jip("report", "--html", self.path("page.html"), path)
        took = time.process_time() - start
        self.assertEqual(ran.status, 0)
        self.assertEqual(self.content("page.html").count("<title>block "), 101_602)
        # (in under five seconds, where Python is not in its development mode)
        self.assertLess(took, 20)


class Pieces(unittest.TestCase):
    def test_pieces(self) -> None:
        free, file, extension = Owner(Role.FREE), Owner(Role.FILE, 2), Owner(Role.EXTENSION, 2)
        data = [Owner(Role.DATA, 2, it) for it in range(4)]
        boot = [Owner(Role.BOOT)] * 2
        found = pieces_of([*boot, file, data[0], extension, data[1], free, free, data[2], free, data[3]])
        self.assertEqual((found.of_file, found.free, found.whole), ({2: 3}, [2, 1], 0))
        found = pieces_of([*boot, file, data[1], data[0], free])
        self.assertEqual((found.of_file, found.free), ({2: 2}, [1]))
        self.assertEqual(pieces_of([*boot, file, *data]).whole, 1)
        self.assertEqual(pieces_of([*boot, Owner(Role.FILE, 2)]).of_file, {})


class Picture(ReportCase):
    def picture(self, image: bytes, name: str = "work.adf") -> ElementTree.Element:
        ran = self.jip("report", "--svg", self.path("picture.svg"), self.write(name, image))
        self.assertEqual((ran.status, ran.errors), (0, ""))
        return ElementTree.fromstring(self.content("picture.svg"))

    def titles(self, picture: ElementTree.Element) -> list[str]:
        return [it.text or "" for it in picture.findall(f".//{SVG}path/{SVG}title")]

    def test_cells(self) -> None:
        for blocks in (1000, 1760, 3520):
            picture = self.picture(sound(blocks=blocks))
            self.assertEqual(len(self.titles(picture)), blocks)
            disks = [it for it in picture.iter(f"{SVG}circle") if it.get("class") == "hub"]
            self.assertEqual(len(disks), 0 if blocks == 1000 else 2)

    def test_marks(self) -> None:
        """A fault has a mark of its own shape in the grid and on the disk: two rings."""
        picture = self.picture(damaged(sound(), 512 * BITMAP + 20))
        marks = [it.get("d") or "" for it in picture.iter(f"{SVG}path") if it.get("class") == "mark"]
        self.assertEqual(len(re.findall("a[0-9.]+ [0-9.]+ 0 1 0 [0-9]", marks[0])), 2)
        self.assertEqual(len([it for it in self.picture(sound()).iter() if it.get("class") == "mark"]), 0)

    def test_hostile_names(self) -> None:
        picture = self.picture(pictured.hostile(), os.fsdecode(b"<b>&\x1b[2J\xff\n\xef\xbf\xbe.adf"))
        self.assertTrue(any("<img src=x onerror=alert(1)>" in it for it in self.titles(picture)))
        self.assertLessEqual({it.tag for it in picture.iter()}, {f"{SVG}{it}" for it in ("svg", "title", "style", "rect", "text", "g", "path", "circle")})

    def test_no_picture(self) -> None:
        ran = self.jip("report", "--svg", self.path("none.svg"), self.write("none.adf", b"x"))
        self.assertEqual((ran.status, os.path.exists(self.path("none.svg"))), (3, False))
        self.assertIn("without a whole block", ran.errors)


@unittest.skipUnless(pictured.JINJA, NO_JINJA)
class Index(ReportCase):
    def setUp(self) -> None:
        super().setUp()
        self.disks = self.path("disks")
        os.mkdir(self.disks)
        image = sound()
        with jip.create("Clean") as floppy:
            clean = floppy.image()
            floppy.close(discard=True)
        lost = without(without(image, header(image, "Docs/long")), header(image, "Docs/short"))
        for name, data in (
            ("a-clean.adf", clean),
            ("b-remarks.adf", image),
            ("c-foreign.adf", bytes(range(256)) * 3520),
            ("d-bitmap.adf", damaged(clean, 512 * BITMAP + 20)),
            ("e-cut.adf", image[:5000]),
            ("f-doubtful.adf", damaged(image, 512 * header(image, "Docs/short") + 350)),
            ("g-damaged.adf", lost),
            ("h-unreadable.adz", b"no gzip"),
        ):
            self.write(os.path.join("disks", name), data)

    def test_the_order(self) -> None:
        ran = self.jip("report", "--html", self.path("index.html"), self.disks)
        self.assertEqual(ran.status, 2)
        self.assertIn("h-unreadable.adz", ran.errors)
        page = Read(self.content("index.html"))
        self.safe(page)
        places = [page.text.index(f"{it}-") for it in "hgfedcba"]
        self.assertEqual(places, sorted(places))
        for text in ("8 disks", "Faults by kind", "BadSum", "NotADosDisk", "NotWholeBlocks", "Could not be read"):
            self.assertIn(text, page.text)
        self.assertEqual(sum(value == "thumb" for name, value in page.attributes if name == "class"), 7)

    def test_pages_and_pictures(self) -> None:
        os.remove(os.path.join(self.disks, "h-unreadable.adz"))
        ran = self.jip("report", "--html", self.path("pages/"), "--svg", self.path("pictures/"), self.disks)
        self.assertEqual((ran.status, ran.errors), (0, ""))
        self.assertEqual(len(os.listdir(self.path("pages"))), 8)
        self.assertEqual(len(os.listdir(self.path("pictures"))), 7)
        page = Read(self.content("pages/index.html"))
        links = {value for name, value in page.attributes if name == "href" and value.endswith(".html")}
        self.assertEqual(links | {"index.html"}, set(os.listdir(self.path("pages"))))
        one = Read(self.content("pages/f-doubtful.adf.html"))
        self.assertIn(("href", "index.html"), one.attributes)
        self.assertIn("f-doubtful.adf", one.text)

    def test_names_of_pages(self) -> None:
        names = [b"index", b"a b<.adf", b"A_B_.adf", b"\xff\n.adf", b"-.adf"]
        for name in names:
            self.write(b"disks/" + name + b".adf", sound())
        with zipfile.ZipFile(self.path("disks/set.zip"), "w") as packed:
            packed.writestr("../../a b<.adf.adf", sound())
        os.mkdir(self.path("pages"))
        self.assertEqual(self.jip("report", "--html", self.path("pages"), self.disks).status, 2)
        found = os.listdir(self.path("pages"))
        self.assertEqual(len(found), 14)
        self.assertEqual(len({it.lower() for it in found}), 14)
        self.assertTrue(all(re.fullmatch(r"[A-Za-z0-9][A-Za-z0-9._-]*\.html", it) for it in found), found)
        self.safe(Read(self.content("pages/index.html")))

    def test_several_images(self) -> None:
        paths = [os.path.join(self.disks, it) for it in ("a-clean.adf", "b-remarks.adf")]
        page = Read(self.jip("report", *paths).output)
        self.assertIn("2 disks", page.text)
        ran = self.jip("report", "--svg", self.path("one.svg"), *paths)
        self.assertEqual((ran.status, os.path.exists(self.path("one.svg"))), (1, False))

    def test_nothing_there(self) -> None:
        os.mkdir(self.path("empty"))
        ran = self.jip("report", self.path("empty"))
        self.assertEqual((ran.status, ran.output), (2, ""))
        self.assertIn("no image", ran.errors)
        self.assertEqual(self.jip("report", self.path("none.adf")).status, 2)

    def test_two_jobs(self) -> None:
        os.remove(os.path.join(self.disks, "h-unreadable.adz"))
        pages = [self.jip("report", "--jobs", jobs, self.disks).output for jobs in ("1", "2")]
        self.assertEqual(pages[0], pages[1])


class Files(ReportCase):
    def test_without_jinja2(self) -> None:
        """The page says what it lacks, and the picture needs nothing."""
        path = self.write("work.adf", sound())
        pages._environment.cache_clear()
        self.addCleanup(pages._environment.cache_clear)
        with unittest.mock.patch.dict(sys.modules, {"jinja2": None}):
            ran = self.jip("report", "--html", self.path("page.html"), path)
            self.assertEqual((ran.status, ran.output, os.path.exists(self.path("page.html"))), (2, "", False))
            self.assertIn("apt install python3-jinja2", ran.errors)
            self.assertEqual(self.jip("report", "--svg", self.path("page.svg"), path).status, 0)

    def test_other_files_stay(self) -> None:
        path = self.write("work.adf", sound())
        other = self.write("notes.txt", b"my notes")
        for words in (("--svg", path), ("--svg", other)):
            ran = self.jip("report", *words, path)
            self.assertEqual(ran.status, 3)
            self.assertIn("is there already", ran.errors)
        with open(path, "rb") as file:
            self.assertEqual(file.read(), sound())

    def test_pictures_are_replaced(self) -> None:
        path = self.write("work.adf", sound())
        for _ in range(2):
            ran = self.jip("report", "--svg", self.path("work.svg"), path)
            self.assertEqual((ran.status, ran.output), (0, f"written {self.path('work.svg')}\n"))
        self.assertEqual(self.jip("report", "-q", "--svg", self.path("work.svg"), path).output, "")
        self.assertEqual(self.jip("report", "--svg", self.path("none/work.svg"), path).status, 2)

    def test_a_pipe(self) -> None:
        path = self.write("work.adf", sound())
        os.mkfifo(self.path("pipe"))
        with open(self.path("read"), "wb") as read, subprocess.Popen(["cat", "pipe"], stdout=read, cwd=self.top) as reader:
            self.assertEqual(self.jip("report", "--svg", self.path("pipe"), path).status, 0)
            reader.wait(60)
        self.assertTrue(self.content("read").startswith("<svg "))
        self.assertEqual(self.jip("report", "--svg", "/dev/full", path).status, 2)

    def test_a_directory(self) -> None:
        path = self.write("work.adf", sound())
        self.assertEqual(self.jip("report", "--svg", self.path("new/"), path).status, 0)
        self.assertEqual(os.listdir(self.path("new")), ["work.adf.svg"])


@unittest.skipUnless(pictured.JINJA, NO_JINJA)
@unittest.skipUnless(CHROMIUM, NO_CHROMIUM)
class Browser(ReportCase):
    def browser(self, page: str, *words: str) -> subprocess.CompletedProcess[str]:
        """Opens a page in Chromium, which is away from any network and from the user's settings."""
        head = [CHROMIUM, "--headless", "--no-sandbox", "--disable-gpu", "--enable-logging=stderr", "--host-resolver-rules=MAP * ~NOTFOUND"]
        room = f"--user-data-dir={self.path('chromium')}"
        return subprocess.run(
            [*head, room, *words, f"file://{self.path(page)}"], capture_output=True, text=True, timeout=120, cwd=self.top
        )

    def said(self, ran: subprocess.CompletedProcess[str]) -> list[str]:
        """Returns what a page said on the browser's console."""
        return [it for it in ran.stderr.splitlines() if ":CONSOLE" in it]

    def written(self, name: str, image: bytes) -> None:
        self.assertEqual(self.jip("report", "--html", self.path(name), self.write(f"{name}.adf", image)).status, 0)

    def test_pages(self) -> None:
        self.write("wrong.html", b"<!DOCTYPE html><script>console.error('seen')</script>")
        self.assertEqual(len(self.said(self.browser("wrong.html", "--dump-dom"))), 1)
        image = sound()
        for name, image in (("sound.html", image), ("hostile.html", pictured.hostile()), ("refused.html", without(image, ROOT))):
            self.written(name, image)
            ran = self.browser(name, "--dump-dom")
            self.assertEqual((ran.returncode, self.said(ran)), (0, []))
            self.assertNotIn("<script", ran.stdout)
            cells = re.findall(r'<path class="[a-z0-9 ]+" d="[^"]+"><title>block ([0-9,]+); [^<]+</title></path>', ran.stdout)
            self.assertEqual([int(it.replace(",", "")) for it in sorted(cells, key=lambda it: int(it.replace(",", "")))], list(range(1760)))

    def test_print(self) -> None:
        """A sheet of A4 is 595 by 842 points."""
        self.written("page.html", damaged(sound(), 512 * BITMAP + 20))
        self.browser("page.html", f"--print-to-pdf={self.path('page.pdf')}")
        with open(self.path("page.pdf"), "rb") as file:
            sheets = re.findall(rb"/MediaBox \[0 0 ([0-9.]+) ([0-9.]+)\]", file.read())
        self.assertEqual({(round(float(width)), round(float(height))) for width, height in sheets}, {(595, 842)})
        self.assertLess(len(sheets), 6)


if __name__ == "__main__":
    unittest.main()
