"""`jip catalog`: a SQLite file with what is known of all images of a directory."""
from __future__ import annotations

import argparse
import contextlib
import os
from collections.abc import Iterator

from ..archive.catalogue import NAME, Catalogue, CatalogueError, Stamp, stamp_of
from ..archive.examine import Verdict, examine
from ..archive.progress import Progress, counted
from ..archive.verdicts import Totals, line_of, plural, record_of
from ..archive.workers import add_worker_options, run, workers_of
from ..cli import INTERRUPTED
from ..console import Console
from ..declare import Subparsers, command
from ..errors import DONE, HOST, ToolError
from ..escape import shown
from ..sources import Source, SourceError, find_images


def register(subparsers: Subparsers) -> None:
    what = "write a catalogue of all images in a directory, as a SQLite file"
    made = command(subparsers, "catalog", catalog, what, "jip catalog Disks", "jip catalog --db disks.sqlite --jobs 4 Disks")
    made.add_argument("directory", metavar="DIR")
    made.add_argument("--db", metavar="FILE", help=f"the catalogue; the default is {NAME} in the directory")
    made.add_argument("--again", action="store_true", help="examine all images, also those that have not changed")
    made.add_argument("--prune", action="store_true", help="delete what is known of images that are gone")
    made.add_argument("--moved", action="store_true", help="the directory of this catalogue has another path now")
    made.add_argument("-q", "--quiet", action="store_true", help="print nothing but errors")
    add_worker_options(made)


class _Cataloguing:
    """A run of the command over an open catalogue."""

    def __init__(self, arguments: argparse.Namespace, console: Console, catalogue: Catalogue) -> None:
        self._arguments = arguments
        self._console = console
        self._catalogue = catalogue
        self._stamps: dict[Source, Stamp] = {}
        self._as_before = 0
        self._totals = Totals()

    def _unread(self, fault: SourceError) -> None:
        self._totals.unread += 1
        self._console.error(fault)

    def _wanted(self) -> Iterator[Source]:
        """Yields the images that are new or have changed."""
        for source in find_images([self._arguments.directory], on_error=self._unread):
            stamp = stamp_of(source)
            if self._catalogue.is_known(source, stamp) and not self._arguments.again:
                self._as_before += 1
            else:
                self._stamps[source] = stamp
                yield source

    def run(self) -> int:
        workers = workers_of(self._arguments)
        try:
            with Progress(self._console, counted([self._arguments.directory], self._console)) as progress:
                with contextlib.closing(run(examine, self._wanted(), workers, here=False)) as outcomes:
                    for outcome in outcomes:
                        record = record_of(outcome)
                        self._catalogue.put(outcome.source, self._stamps.pop(outcome.source), record)
                        self._totals.add(record)
                        if record.verdict in (Verdict.UNREADABLE, Verdict.FATAL):
                            self._console.error("".join(str(text) for text, _ in line_of(outcome.source.name, record)))
                        progress.step(record.verdict)
        except KeyboardInterrupt:
            self._console.error(f"stopped after {plural(self._totals.count, 'image')}; the same command goes on")
            return INTERRUPTED
        self._end()
        verdicts = self._totals.verdicts
        return HOST if self._totals.unread or verdicts[Verdict.UNREADABLE] or verdicts[Verdict.FATAL] else DONE

    def _end(self) -> None:
        # (what is below a directory that cannot be read is not gone)
        gone = 0 if self._totals.unread else self._catalogue.settle_gone(self._arguments.prune)
        if self._console.quiet:
            return
        said = [f"{self._totals.count:,} examined", f"{self._as_before:,} as before"]
        said += [f"{gone:,} {'deleted' if self._arguments.prune else 'gone'}"] if gone else []
        self._console.line(f"{self._catalogue.file}: {', '.join(said)}")
        verdicts = ", ".join(f"{count:,} {name}" for name, count in self._catalogue.verdicts().items())
        self._console.line(f"in the catalogue: {verdicts or 'no image'}")


def _expect_folder(catalogue: Catalogue, arguments: argparse.Namespace, folder: str) -> None:
    """Refuses the catalogue of another directory, in which all images would be gone."""
    was = catalogue.folder
    if was not in (None, folder) and arguments.db is not None and not arguments.moved:
        raise ToolError(f"{arguments.db}: the catalogue of {shown(was)}; if that is now {arguments.directory}, use --moved")
    catalogue.settle_folder()


def catalog(arguments: argparse.Namespace, console: Console) -> int:
    if not os.path.isdir(arguments.directory):
        raise ToolError(f"{arguments.directory}: not a directory")
    folder = os.path.abspath(arguments.directory)
    file = arguments.db or os.path.join(arguments.directory, NAME)
    with contextlib.closing(Catalogue(file, folder)) as catalogue:
        _expect_folder(catalogue, arguments, folder)
        try:
            return _Cataloguing(arguments, console, catalogue).run()
        except CatalogueError as fault:
            raise ToolError(f"{fault}; what is in the catalogue is whole, and the same command goes on") from None
