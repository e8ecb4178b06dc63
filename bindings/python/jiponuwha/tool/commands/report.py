"""`jip report`: a page or a picture of a disk, and an index of many disks."""
from __future__ import annotations

import argparse
import contextlib
import os
from collections.abc import Generator

from ..archive.outcomes import Outcome
from ..archive.progress import Progress, counted
from ..archive.workers import add_worker_options, in_order, run, workers_of
from ..console import Console
from ..errors import DONE, HOST, RefusedError, ToolError, UsageError
from ..picture import need
from ..picture.disk import Disk, disk_of, examined
from ..picture.files import Names, is_folder, write_document
from ..picture.pages import disk_page, index_page, prepare
from ..picture.svg import picture_file
from ..picture.views import plural
from ..sources import Source, SourceError, find_images

INDEX = "index.html"


def register(subparsers: argparse._SubParsersAction[argparse.ArgumentParser]) -> None:
    made = subparsers.add_parser(
        "report",
        help="write a page of a disk with its picture, or an index of many",
        description="Writes a page in HTML, with a picture of the blocks: of one image, or an index of several, of a directory or of a ZIP "
        "file. Refused images have a picture too.",
    )
    made.add_argument("images", nargs="+", metavar="IMAGE|DIR")
    made.add_argument("--html", metavar="FILE", help="write the page to FILE; if FILE is a directory, an index and a page for each image")
    made.add_argument("--svg", metavar="FILE", help="write the picture alone to FILE; if FILE is a directory, one for each image")
    made.add_argument("-q", "--quiet", action="store_true", help="do not say what was written")
    add_worker_options(made)
    made.set_defaults(run=report)


def report(arguments: argparse.Namespace, console: Console) -> int:
    if arguments.html is None and arguments.svg is None:
        if console.is_terminal:
            raise UsageError("say where the page goes: jip report --html FILE IMAGE, or redirect standard output")
        arguments.html = "-"
    if arguments.html is not None:
        prepare()
    one = _only(arguments.images)
    if one is not None:
        return _one(one, arguments, console)
    if arguments.svg is not None and not is_folder(arguments.svg):
        raise UsageError(f"--svg {arguments.svg}: the pictures of several images need a directory; write {arguments.svg}/")
    return _Many(arguments, console).run()


def _only(paths: list[str]) -> Source | None:
    """Returns the image if the arguments name just one, and no directory."""
    if len(paths) > 1 or os.path.isdir(paths[0]):
        return None
    found = list(find_images(paths))
    return found[0] if len(found) == 1 else None


def _place(path: str, source: Source, suffix: str) -> str:
    """Returns the file for one image. In a directory it is named after the image."""
    if not is_folder(path):
        return path
    os.makedirs(path, exist_ok=True)
    return os.path.join(path, Names(suffix).name(source.name))


def _picture(disk: Disk) -> str:
    if not disk.kinds:
        raise RefusedError(f"{disk.name}: there is no picture of an image without a whole block")
    return picture_file(disk)


def _one(source: Source, arguments: argparse.Namespace, console: Console) -> int:
    disk = disk_of(source.name, source.read())
    documents = []
    if arguments.html is not None:
        documents.append((_place(arguments.html, source, ".html"), disk_page(disk)))
    if arguments.svg is not None:
        documents.append((_place(arguments.svg, source, ".svg"), _picture(disk)))
    for path, text in documents:
        write_document(path, text, console)
        if path != "-":
            console.note(f"written {path}")
    return DONE


class _Many:
    """A run over many images: the cards of the index, and the files that each image has."""

    def __init__(self, arguments: argparse.Namespace, console: Console) -> None:
        self._paths: list[str] = arguments.images
        self._html: str | None = arguments.html
        self._svg: str | None = arguments.svg
        self._workers = workers_of(arguments)
        self._console = console
        self._cards: list[need.Card] = []
        self._pages, self._pictures = Names(".html", INDEX), Names(".svg")
        self._has_pages = self._html is not None and is_folder(self._html)
        for folder in (self._html if self._has_pages else None, self._svg):
            if folder is not None:
                os.makedirs(folder, exist_ok=True)

    def _unread(self, fault: SourceError) -> None:
        path, _, reason = str(fault).partition(": ")
        self._cards.append(need.unreadable(path, reason or str(fault)))
        self._console.error(fault)

    def _outcomes(self) -> Generator[Outcome, None, None]:
        """Yields what comes of each image: a card, or all of a disk if it has a page or a picture of its own."""
        examiner = examined if self._has_pages or self._svg is not None else need.examined
        yield from run(examiner, find_images(self._paths, on_error=self._unread), self._workers)

    def run(self) -> int:
        with Progress(self._console, counted(self._paths, self._console)) as progress:
            with contextlib.closing(self._outcomes()) as outcomes:
                for outcome in in_order(outcomes):
                    self._take(outcome)
                    progress.step("unreadable" if outcome.failure else "drawn")
        if not self._cards:
            raise ToolError("there is no image in what is named")
        self._write_index()
        return HOST if any(it.need is need.Need.UNREADABLE for it in self._cards) else DONE

    def _take(self, outcome: Outcome) -> None:
        name = outcome.source.name
        if outcome.failure is not None:
            self._cards.append(need.unreadable(name, outcome.failure))
            self._console.error(f"{name}: {outcome.failure}")
        elif isinstance(outcome.value, Disk):
            outcome.value.name = name
            self._cards.append(self._written(outcome.value))
        else:
            self._cards.append(need.named(outcome.value, name))

    def _written(self, disk: Disk) -> need.Card:
        """Writes the page and the picture of a disk, and returns its card."""
        link = ""
        if self._html is not None and self._has_pages:
            link = self._pages.name(disk.name)
            write_document(os.path.join(self._html, link), disk_page(disk, INDEX), self._console)
        if self._svg is not None and disk.kinds:
            write_document(os.path.join(self._svg, self._pictures.name(disk.name)), picture_file(disk), self._console)
        return need.named(need.card_of(disk), disk.name, link)

    def _write_index(self) -> None:
        if self._html is None:
            self._console.note(f"written {plural(len(self._cards), 'picture')} to {self._svg}")
            return
        path = os.path.join(self._html, INDEX) if self._has_pages else self._html
        title = self._paths[0].rstrip("/") if len(self._paths) == 1 else plural(len(self._cards), "disk")
        write_document(path, index_page(os.path.basename(title) or title, self._cards), self._console)
        if path != "-":
            counts = {it: sum(card.need is it for card in self._cards) for it in need.Need}
            said = ", ".join(f"{count:,} {it.word}" for it, count in counts.items() if count)
            self._console.note(f"written {path}: {plural(len(self._cards), 'disk')} ({said})")
