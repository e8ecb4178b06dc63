"""What comes of an image: the value of a function of its bytes, or the reason why there is none."""
from __future__ import annotations

import os
from collections.abc import Callable, Iterable, Iterator, Sequence
from dataclasses import dataclass
from typing import Any, NamedTuple

from ..errors import ToolError
from ..sources import Source

# The most images of a batch, and the bytes of their files after which a batch ends.
MOST_IMAGES = 64
MOST_BYTES = 8 << 20
# A process that ends this often while it examines an image ends because of the image.
MOST_DEATHS = 3

# A function of the bytes of an image. Workers find it by its module and its name.
Examiner = Callable[[bytes], Any]


class Task(NamedTuple):
    """An image to be examined: its place in the list of all, where it is, and its bytes if they are sent along."""

    number: int
    source: Source
    data: bytes | None = None


@dataclass(frozen=True)
class Outcome:
    """What came of an image: the value of the examiner, or else a failure in words. `is_fatal` says that the image ended each
    process that examined it."""

    number: int
    source: Source
    value: Any = None
    failure: str | None = None
    is_fatal: bool = False


def fatal(task: Task) -> Outcome:
    """Returns the outcome of an image that ended each process that examined it."""
    said = f"the process that examined it ended {MOST_DEATHS} times"
    return Outcome(task.number, task.source, failure=said, is_fatal=True)


def outcome_of(examiner: Examiner, task: Task) -> Outcome:
    """Examines one image. Nothing that it holds ends the list: each exception is a failure of this image."""
    try:
        data = task.source.read() if task.data is None else task.data
        return Outcome(task.number, task.source, examiner(data))
    except MemoryError:
        said = "out of memory"
    except ToolError as fault:
        said = str(fault).removeprefix(f"{task.source.name}: ")
    except OSError as fault:
        said = fault.strerror or str(fault)
    except Exception as fault:
        said = f"it cannot be examined: {type(fault).__name__}: {fault}"
    return Outcome(task.number, task.source, failure=said)


def outcomes_of(examiner: Examiner, batch: Sequence[Task]) -> list[Outcome]:
    """Examines the images of a batch."""
    return [outcome_of(examiner, it) for it in batch]


def _size(source: Source) -> int:
    try:
        return os.stat(source.path).st_size
    except (OSError, ValueError):
        return 0


def batches(sources: Iterable[Source]) -> Iterator[tuple[Task, ...]]:
    """Yields the images in batches, so that small images are many in one and large ones few."""
    batch: list[Task] = []
    size = 0
    for number, source in enumerate(sources):
        batch.append(Task(number, source))
        size += _size(source)
        if len(batch) == MOST_IMAGES or size >= MOST_BYTES:
            yield tuple(batch)
            batch, size = [], 0
    if batch:
        yield tuple(batch)
