"""Examines many images: in this process, in processes of this machine, or on a Dask cluster. The code that examines is the same.

    for outcome in run(examiner, find_images(paths), workers_of(arguments)):
        print(outcome.source.name, outcome.value or outcome.failure)

An examiner is a function of the bytes of an image, at the top level of a module.
"""
from __future__ import annotations

import argparse
import os
from collections.abc import Generator, Iterable, Iterator, Sequence
from dataclasses import dataclass
from itertools import chain

from ..errors import UsageError
from ..sources import Source
from .outcomes import Examiner, Outcome, Task, batches, outcome_of


@dataclass(frozen=True)
class Workers:
    """Who examines: `jobs` processes, or the workers of the Dask scheduler at an address, to which `send` sends the images."""

    jobs: int = 1
    dask: str | None = None
    send: bool = False


def _count(text: str) -> int:
    if not text.isascii() or not text.isdigit() or not 1 <= int(text) <= 1024:
        raise argparse.ArgumentTypeError(f"expected a number from 1 to 1024, found {text!r}")
    return int(text)


def add_worker_options(parser: argparse.ArgumentParser, dask: bool = True) -> None:
    """Declares `--jobs`, and `--dask` and `--send` if the command can use a cluster."""
    where = parser.add_mutually_exclusive_group()
    where.add_argument("--jobs", type=_count, metavar="N", help="examine with N processes; the default is one for each processor")
    if dask:
        where.add_argument("--dask", metavar="ADDRESS", help="examine on the Dask cluster of the scheduler at ADDRESS")
        parser.add_argument("--send", action="store_true", help="send the images to the workers, which do not see the files")


def workers_of(arguments: argparse.Namespace) -> Workers:
    """Returns the workers that the options ask for."""
    dask, send = getattr(arguments, "dask", None), getattr(arguments, "send", False)
    if send and dask is None:
        raise UsageError("--send needs --dask ADDRESS")
    return Workers(arguments.jobs or len(os.sched_getaffinity(0)), dask, send)


def run(examiner: Examiner, sources: Iterable[Source], workers: Workers, here: bool = True) -> Generator[Outcome, None, None]:
    """Yields the outcome of each image once, as they are ready. Sources are taken one by one, a few batches ahead.

    `here` lets this process examine a few images by itself, which is faster; an image that ends its process then ends the command.
    """
    made = batches(sources)
    first = list(_up_to(2, made))
    if workers.dask is not None:
        from .cluster import Cluster

        return Cluster(examiner, workers.dask, workers.send).outcomes(chain(first, made))
    if workers.jobs == 1 or not first or (here and len(first) < 2):
        return (outcome_of(examiner, task) for batch in chain(first, made) for task in batch)
    from .pool import Pool

    return Pool(examiner, workers.jobs).outcomes(chain(first, made))


def _up_to(count: int, made: Iterator[Sequence[Task]]) -> Iterator[Sequence[Task]]:
    while count and (batch := next(made, None)) is not None:
        count -= 1
        yield batch


def in_order(outcomes: Iterable[Outcome]) -> Iterator[Outcome]:
    """Yields outcomes in the order of their sources. It keeps those that are ready before their turn."""
    waiting: dict[int, Outcome] = {}
    turn = 0
    for outcome in outcomes:
        waiting[outcome.number] = outcome
        while turn in waiting:
            yield waiting.pop(turn)
            turn += 1
    assert not waiting, "each image has one outcome"
