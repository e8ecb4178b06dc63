"""`jip dupes`: the same contents in several places."""
from __future__ import annotations

import argparse
from collections.abc import Iterator
from typing import NamedTuple

from ..archive.catalogue import reported
from ..archive.collection import Collection, collected
from ..archive.examine import examine
from ..archive.workers import add_worker_options, workers_of
from ..console import Console
from ..declare import Subparsers, command
from ..errors import DONE, HOST

# The contents that there are, each with its image and its path there.
_FILES = """
    SELECT images.path AS image, files.path AS path, files.size AS size, files.sha256 AS sha256, place
    FROM files JOIN images ON images.id = files.image WHERE gone = 0 AND type = 'file'
    UNION ALL
    SELECT images.path, salvaged.path, salvaged.size, salvaged.sha256, place
    FROM salvaged JOIN images ON images.id = salvaged.image WHERE gone = 0 AND state = 'whole'
"""
_IMAGES = "SELECT path AS image, NULL AS path, bytes AS size, sha256, 0 AS place FROM images WHERE gone = 0 AND sha256 IS NOT NULL"


class Group(NamedTuple):
    """Contents that are in several places: pairs of an image and a path in it, or None for the whole image."""

    sha256: str
    size: int
    places: list[tuple[str, str | None]]


def register(subparsers: Subparsers) -> None:
    what = "print the files that are in several places with the same contents"
    made = command(subparsers, "dupes", dupes, what, "jip dupes Disks", "jip dupes --images disks.sqlite")
    made.add_argument("path", metavar="IMAGE|DIR|CATALOGUE")
    made.add_argument("--images", action="store_true", help="compare whole images, and not their files")
    made.add_argument("--smallest", type=int, default=1, metavar="BYTES", help="leave out smaller contents; the default is 1")
    made.add_argument("--json", action="store_true", help="print an object a line")
    add_worker_options(made, dask=False)


def groups_of(collection: Collection, images: bool, smallest: int) -> Iterator[Group]:
    """Yields the contents that are in several places, those first that take the most bytes more than once."""
    every = _IMAGES if images else _FILES
    groups = (
        f"SELECT sha256, size, count(*) FROM ({every}) WHERE size >= ? GROUP BY sha256, size HAVING count(*) > 1 "
        "ORDER BY size * (count(*) - 1) DESC, sha256"
    )
    places = f"SELECT image, path FROM ({every}) WHERE sha256 = ? ORDER BY image, place"
    with reported(collection.file):
        for sha256, size, _ in collection.connection.execute(groups, (smallest,)):
            found = collection.connection.execute(places, (sha256,))
            yield Group(sha256, size, [(collection.name_of(image), path) for image, path in found])


def dupes(arguments: argparse.Namespace, console: Console) -> int:
    with collected(arguments.path, examine, workers_of(arguments), console) as collection:
        for group in groups_of(collection, arguments.images, arguments.smallest):
            if arguments.json:
                console.json(group._asdict())
                continue
            console.parts((f"{len(group.places):,} times {group.size:,} bytes", "bold"), (f", SHA-256 {group.sha256}", None))
            for image, path in group.places:
                console.line(f"  {image}" if path is None else f"  {image}:{path}")
        return HOST if collection.unread else DONE
