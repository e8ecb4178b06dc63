"""`jip verify`: what has changed since a catalogue was written."""
from __future__ import annotations

import argparse
import contextlib
import hashlib
import os
from collections import Counter
from collections.abc import Iterator

from ..archive.catalogue import NAME, Stamp, below, stamp_of
from ..archive.collection import Collection, Image, catalogued
from ..archive.outcomes import Outcome
from ..archive.progress import Progress
from ..archive.workers import add_worker_options, run, workers_of
from ..console import Console
from ..declare import Subparsers, command
from ..errors import DONE, HOST, REFUSED
from ..escape import shown
from ..sources import Source, find_images

_STYLES = {"same": "green", "touched": "green", "new": "yellow", "changed": "yellow", "gone": "red", "rotted": "red", "unreadable": "red"}
_REASONS = {
    "touched": "its time is another, and its bytes are the same",
    "changed": "its file was written since, and its bytes are others",
    "rotted": "size and time of its file are as they were, and its bytes are others",
    "gone": "there is no such file",
    "new": "it is not in the catalogue",
}


def register(subparsers: Subparsers) -> None:
    what = "compare the images of a directory with its catalogue: changed, rotted, gone and new ones"
    made = command(subparsers, "verify", verify, what, "jip verify Disks", "jip verify disks.sqlite")
    made.add_argument("path", metavar="DIR|CATALOGUE", help=f"a catalogue, or a directory with {NAME} in it")
    made.add_argument("--json", action="store_true", help="print an object a line, one for each image")
    add_worker_options(made, dask=False)


def sha256(data: bytes) -> str:
    """Returns the SHA-256 of an image."""
    return hashlib.sha256(data).hexdigest()


class _Verifying:
    """A run of the command over a catalogue."""

    def __init__(self, arguments: argparse.Namespace, console: Console, collection: Collection) -> None:
        self._arguments = arguments
        self._console = console
        self._collection = collection
        self._waiting: dict[Source, tuple[Image, Stamp]] = {}
        self._counts: Counter[str] = Counter()

    def _say(self, name: str, word: str, reason: str | None = None) -> None:
        self._counts[word] += 1
        if self._arguments.json:
            self._console.json({"path": name, "verdict": word})
        elif word != "same":
            self._console.parts((f"{name}: ", None), (word, _STYLES[word]), (f": {reason or _REASONS[word]}", None))

    def _there(self) -> Iterator[Source]:
        """Yields the images of the catalogue whose files are there."""
        for image in self._collection.images():
            source = self._collection.source_of(image)
            if not os.path.lexists(source.path):
                self._say(source.name, "gone")
                continue
            self._waiting[source] = image, stamp_of(source)
            yield source

    def _take(self, outcome: Outcome) -> None:
        image, stamp = self._waiting.pop(outcome.source)
        name = outcome.source.name
        is_touched = stamp != (image.file_size, image.file_time)
        if outcome.failure is not None:
            same = image.sha256 is None
            self._say(name, "same" if same else "unreadable", outcome.failure)
        elif outcome.value != image.sha256:
            self._say(name, "changed" if is_touched or image.sha256 is None else "rotted")
        else:
            self._say(name, "touched" if is_touched else "same")

    def _new(self) -> None:
        """Names the images of the directory that the catalogue does not have."""
        folder = self._collection.folder
        for source in find_images([folder], on_error=self._console.error):
            if self._collection.image(below(folder, source)) is None:
                self._say(source.name, "new")

    def run(self) -> int:
        total = sum(1 for _ in self._collection.images()) if self._console.is_error_terminal else None
        with Progress(self._console, total) as progress:
            with contextlib.closing(run(sha256, self._there(), workers_of(self._arguments))) as outcomes:
                for outcome in outcomes:
                    self._take(outcome)
                    progress.step("examined")
        self._new()
        self._console.out.flush()
        said = ", ".join(f"{self._counts[it]:,} {it}" for it in _STYLES if self._counts[it])
        self._console.err.write(f"{shown(self._collection.file)}: {said or 'no image'}\n")
        if self._counts["unreadable"]:
            return HOST
        return REFUSED if any(self._counts[it] for it in ("changed", "rotted", "gone")) else DONE


def verify(arguments: argparse.Namespace, console: Console) -> int:
    file = os.path.join(arguments.path, NAME) if os.path.isdir(arguments.path) else arguments.path
    with catalogued(file) as collection:
        return _Verifying(arguments, console, collection).run()
