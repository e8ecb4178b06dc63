"""Workers that are processes of this machine."""
from __future__ import annotations

import multiprocessing
import os
import signal
import threading
from collections.abc import Generator, Iterator, Sequence
from concurrent.futures import FIRST_COMPLETED, Future, ProcessPoolExecutor, wait
from concurrent.futures.process import BrokenProcessPool
from multiprocessing.connection import wait as wait_for

from .outcomes import MOST_DEATHS, Examiner, Outcome, Task, fatal, outcomes_of


def _end_with_parent() -> None:
    """Ends this process when the one that made it has ended, however that came."""
    parent = multiprocessing.parent_process()
    if parent is not None:
        wait_for([parent.sentinel])
        os._exit(1)


def _started() -> None:
    """Leaves an interrupt from the keyboard to the process that made the workers."""
    signal.signal(signal.SIGINT, signal.SIG_IGN)
    threading.Thread(target=_end_with_parent, daemon=True).start()


def _processes(count: int) -> ProcessPoolExecutor:
    """Makes worker processes. They come from a server without threads, as the library asks of a process that forks."""
    context = multiprocessing.get_context("forkserver")
    context.set_forkserver_preload(["jiponuwha.tool.archive.examine", "jiponuwha.tool.archive.outcomes"])
    return ProcessPoolExecutor(count, mp_context=context, initializer=_started)


class Pool:
    """A number of worker processes that examine batches. A batch whose process ended is examined again, an image at a time."""

    def __init__(self, examiner: Examiner, jobs: int) -> None:
        self._examiner = examiner
        self._jobs = jobs
        self._executor = _processes(jobs)

    def _ended(self, executor: ProcessPoolExecutor) -> None:
        executor.shutdown(wait=False, cancel_futures=True)

    def outcomes(self, batches: Iterator[Sequence[Task]]) -> Generator[Outcome, None, None]:
        """Yields the outcome of each image once, as they are ready."""
        running: dict[Future[list[Outcome]], Sequence[Task]] = {}
        try:
            while self._fill(running, batches):
                done, _ = wait(running, return_when=FIRST_COMPLETED)
                for it in done:
                    if isinstance(it.exception(), BrokenProcessPool):
                        yield from self._after_a_death(running)
                        break
                    del running[it]
                    yield from it.result()
        finally:
            self._ended(self._executor)

    def _fill(self, running: dict[Future[list[Outcome]], Sequence[Task]], batches: Iterator[Sequence[Task]]) -> bool:
        """Gives each process a batch, and one to follow. Returns whether any is running."""
        while len(running) < 2 * self._jobs:
            batch = next(batches, None)
            if batch is None:
                break
            running[self._submitted(self._executor, batch)] = batch
        return bool(running)

    def _submitted(self, executor: ProcessPoolExecutor, batch: Sequence[Task]) -> Future[list[Outcome]]:
        try:
            return executor.submit(outcomes_of, self._examiner, batch)
        except BrokenProcessPool as fault:
            broken: Future[list[Outcome]] = Future()
            broken.set_exception(fault)
            return broken

    def _after_a_death(self, running: dict[Future[list[Outcome]], Sequence[Task]]) -> Iterator[Outcome]:
        """Makes new processes. Each batch that was at work is examined again in a process where nothing else runs, so that an image
        that ends it is known."""
        self._ended(self._executor)
        lost = []
        for future, batch in running.items():
            if future.done() and not future.cancelled() and future.exception() is None:
                yield from future.result()
            else:
                lost.append(batch)
        running.clear()
        yield from self._one_by_one([task for batch in lost for task in batch])
        self._executor = _processes(self._jobs)

    def _one_by_one(self, tasks: Sequence[Task]) -> Iterator[Outcome]:
        alone = _processes(1)
        try:
            for task in tasks:
                # (the death in the batch is the first)
                for _ in range(1, MOST_DEATHS):
                    try:
                        yield from self._submitted(alone, [task]).result()
                        break
                    except BrokenProcessPool:
                        self._ended(alone)
                        alone = _processes(1)
                else:
                    yield fatal(task)
        finally:
            self._ended(alone)
