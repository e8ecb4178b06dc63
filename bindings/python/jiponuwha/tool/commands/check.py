"""`jip check`: the verdict on each of many images."""
from __future__ import annotations

import argparse
import contextlib
import shlex
from collections.abc import Iterable, Iterator

from ..archive.examine import Record, check
from ..archive.progress import Progress, counted
from ..archive.verdicts import Totals, line_of, plural, record_of
from ..archive.workers import Workers, add_worker_options, in_order, run, workers_of
from ..cli import INTERRUPTED
from ..console import Console
from ..declare import Subparsers, command
from ..errors import UsageError
from ..sources import Source, SourceError, find_images


def register(subparsers: Subparsers) -> None:
    what = "check images, and all images in directories and ZIP files"
    made = command(subparsers, "check", check_images, what, "jip check work.adf", "jip check --jobs 4 Disks", "jip check -q --json Disks")
    made.add_argument("paths", nargs="+", metavar="IMAGE|DIR")
    made.add_argument("--after", metavar="IMAGE", help="leave out the images up to this one, which a stopped run names")
    made.add_argument("--json", action="store_true", help="print an object a line, with all faults")
    made.add_argument("-q", "--quiet", action="store_true", help="print no line for an image without a fault")
    add_worker_options(made)


def _after(sources: Iterable[Source], name: str | None) -> Iterator[Source]:
    """Leaves out the sources up to this one."""
    rest = iter(sources)
    if name is not None and all(it.name != name for it in rest):
        raise UsageError(f"--after {name}: there is no such image")
    yield from rest


def as_object(name: str, record: Record) -> dict[str, object]:
    """Returns the verdict on an image for JSON."""
    faults = [it._asdict() for it in record.faults]
    said = {"path": name, "verdict": record.verdict, "reason": record.reason, "kind": record.kind, "label": record.label}
    return {**said, "blocks": record.blocks, "free": record.free, "faults": faults, "more_faults": record.more_faults}


class _Checking:
    """A run of the command: what it prints and counts."""

    def __init__(self, arguments: argparse.Namespace, console: Console) -> None:
        self._arguments = arguments
        self._console = console
        self._workers: Workers = workers_of(arguments)
        self._last: str | None = None
        self.totals = Totals()

    def _unread(self, fault: SourceError) -> None:
        self.totals.unread += 1
        self._console.error(fault)

    def run(self) -> int:
        paths = self._arguments.paths
        sources = _after(find_images(paths, on_error=self._unread), self._arguments.after)
        try:
            with Progress(self._console, counted(paths, self._console)) as progress:
                with contextlib.closing(run(check, sources, self._workers)) as outcomes:
                    for outcome in in_order(outcomes):
                        self._take(progress, outcome.source.name, record_of(outcome))
        except KeyboardInterrupt:
            self._stopped()
            return INTERRUPTED
        self._end()
        return self.totals.status()

    def _take(self, progress: Progress, name: str, record: Record) -> None:
        self.totals.add(record)
        self._last = name
        if self._arguments.json:
            self._console.json(as_object(name, record))
        elif record.reason is not None or not self._arguments.quiet:
            progress.parts(*line_of(name, record))
        progress.step(record.verdict)

    def _end(self) -> None:
        if not self.totals.count and not self.totals.unread:
            self._console.error("there is no image in what is named")
        elif self.totals.count > 1 or self.totals.unread:
            self.totals.say(self._console)

    def _stopped(self) -> None:
        self.totals.say(self._console)
        paths = [shlex.quote(it) for it in self._arguments.paths]
        words = [] if self._last is None else ["--after", shlex.quote(self._last)]
        self._console.error(f"stopped after {plural(self.totals.count, 'image')}; to go on: {' '.join(['jip check', *words, *paths])}")


def check_images(arguments: argparse.Namespace, console: Console) -> int:
    return _Checking(arguments, console).run()
