"""Workers of a Dask cluster. `distributed` is imported only here, when an address of a scheduler is given."""
from __future__ import annotations

import dataclasses
import errno
import importlib
import logging
import os
import socket
import urllib.parse
import uuid
from collections import deque
from collections.abc import Generator, Iterator, Sequence
from typing import Any

from ... import version
from ..errors import ToolError, lacking
from ..sources import Source
from .outcomes import MOST_DEATHS, Examiner, Outcome, Task, fatal, outcome_of, outcomes_of

# How long a scheduler may take to answer, and a first worker to come, in seconds.
_PATIENCE = 15


def _distributed() -> Any:
    try:
        return importlib.import_module("distributed")
    except ImportError:
        raise lacking("distributed", "python3-distributed", "dask") from None


# ---- On the workers ----


def worker_version() -> str:
    """Returns the version of the library of a worker."""
    return version()


def _start_names(run: str, batch: Sequence[Task], most: int) -> list[str]:
    """Returns the names under which the scheduler keeps the starts of a batch."""
    return [f"jip-{run}-{batch[0].number}-{len(batch)}-{it}" for it in range(most)]


def _is_started(names: Sequence[str]) -> bool:
    """Notes a start of a batch at the scheduler. Returns False if all its starts were noted before."""
    event = _distributed().Event
    for name in names:
        noted = event(name)
        if not noted.is_set():
            noted.set()
            return True
    return False


def run_batch(examiner: Examiner, batch: Sequence[Task], names: Sequence[str]) -> list[Outcome] | None:
    """Examines the images of a batch. Returns None if the batch was started too often: each time its worker ended."""
    return outcomes_of(examiner, batch) if _is_started(names) else None


# ---- At the client ----


def _absolute(source: Source) -> Source:
    return dataclasses.replace(source, path=os.path.abspath(source.path))


def _expect_listener(address: str) -> None:
    """Raises OSError or ValueError at once if nobody listens at an address of TCP. Dask would try again and again."""
    kind, _, rest = address.rpartition("://")
    if kind in ("", "tcp", "tls"):
        place = urllib.parse.urlsplit(f"//{rest}")
        if not place.hostname or place.port is None:
            raise ValueError("an address is written as tcp://HOST:PORT")
        socket.create_connection((place.hostname, place.port), timeout=_PATIENCE).close()


class Cluster:
    """Examines batches on the workers of a scheduler. With `send` the images are sent along, and the workers see no files of ours.

    A batch that starts a second time has lost its worker. Its images are then suspects, and run one after the other. A suspect that
    loses its worker MOST_DEATHS times, with the batch counted, is fatal.
    """

    def __init__(self, examiner: Examiner, address: str, send: bool = False) -> None:
        self._module = _distributed()
        self._examiner = examiner
        self._send = send
        self._run = uuid.uuid4().hex
        logging.getLogger("distributed").setLevel(logging.CRITICAL)
        self._client = self._connected(address)
        self._running: dict[Any, tuple[Sequence[Task], int]] = {}
        self._suspects: deque[Task] = deque()
        self._suspect: Any = None

    def _connected(self, address: str) -> Any:
        try:
            _expect_listener(address)
            client = self._module.Client(address, timeout=_PATIENCE, set_as_default=False)
        except (OSError, ValueError) as fault:
            raise ToolError(f"no Dask scheduler answers at '{address}': {fault or 'it took too long'}") from None
        try:
            client.wait_for_workers(1, timeout=_PATIENCE)
            found = set(client.run(worker_version).values())
        except TimeoutError:
            client.close()
            raise ToolError(f"the Dask scheduler at '{address}' has no workers; dask-worker starts one") from None
        except (ImportError, AttributeError) as fault:
            client.close()
            raise ToolError(f"the workers of '{address}' lack the package jiponuwha, or have another version: {fault}") from None
        if found != {version()}:
            client.close()
            raise ToolError(f"the workers of '{address}' have version {', '.join(sorted(found))} of the library, and not {version()}")
        return client

    def outcomes(self, batches: Iterator[Sequence[Task]]) -> Generator[Outcome, None, None]:
        """Yields the outcome of each image once, as they are ready."""
        ready = self._module.as_completed(loop=self._client.loop, raise_errors=False)
        try:
            yield from self._fill(ready, batches)
            while self._running:
                future = next(ready)
                batch, most = self._running.pop(future)
                yield from self._ended(ready, future, batch, most)
                yield from self._fill(ready, batches)
        finally:
            for future in self._running:
                future.cancel()
            self._client.close()

    def _fill(self, ready: Any, batches: Iterator[Sequence[Task]]) -> Iterator[Outcome]:
        """Keeps two batches for each thread of the workers under way, and one suspect."""
        if self._suspect is None and self._suspects:
            self._suspect = self._submitted(ready, [self._suspects.popleft()], MOST_DEATHS - 1)
        while len(self._running) < max(4, 2 * sum(self._client.nthreads().values())):
            batch = next(batches, None)
            if batch is None:
                return
            if self._send:
                given = [(it, self._loaded(it)) for it in batch]
                yield from (found for _, found in given if isinstance(found, Outcome))
                batch = [found for _, found in given if isinstance(found, Task)]
            if batch:
                self._submitted(ready, batch, MOST_DEATHS if len(batch) == 1 else 1)

    def _loaded(self, task: Task) -> Task | Outcome:
        """Returns the task with the bytes of its image, or its failure."""
        found = outcome_of(bytes, task)
        return found if found.failure is not None else task._replace(data=found.value)

    def _submitted(self, ready: Any, batch: Sequence[Task], most: int) -> Any:
        names = _start_names(self._run, batch, most)
        key = f"jip-{uuid.uuid4().hex}"
        sent = tuple(it._replace(source=_absolute(it.source)) for it in batch)
        future = self._client.submit(run_batch, self._examiner, sent, names, key=key, pure=False)
        self._running[future] = batch, most
        ready.add(future)
        return future

    def _ended(self, ready: Any, future: Any, batch: Sequence[Task], most: int) -> Iterator[Outcome]:
        """Takes what came of a batch."""
        is_suspect = future is self._suspect
        found: list[Outcome] | None = None
        if future.status == "finished":
            found = future.result()
        elif future.status != "error":
            raise ToolError("the Dask scheduler is gone, or gave up a batch")
        elif not isinstance(future.exception(), self._module.KilledWorker):
            raise ToolError(f"a worker cannot examine images: {future.exception()}")
        elif len(batch) == 1:
            # (the scheduler gave it up; it goes on until its starts are used up)
            again = self._submitted(ready, batch, most)
            self._suspect = again if is_suspect else self._suspect
            return
        self._forget(batch, most)
        self._suspect = None if is_suspect else self._suspect
        if found is not None:
            yield from (self._with_source(task, outcome) for task, outcome in zip(batch, found))
        elif len(batch) == 1:
            yield fatal(batch[0])
        else:
            self._suspects.extend(batch)

    def _with_source(self, task: Task, outcome: Outcome) -> Outcome:
        """Returns the outcome under the name that the image has here."""
        failure = outcome.failure
        if failure == os.strerror(errno.ENOENT) and os.path.exists(task.source.path):
            failure = "the worker sees no such file; --send sends the images along"
        return dataclasses.replace(outcome, source=task.source, failure=failure)

    def _forget(self, batch: Sequence[Task], most: int) -> None:
        """Removes what the scheduler keeps of the starts of a batch."""
        for name in _start_names(self._run, batch, most):
            self._module.Event(name, client=self._client).clear()
