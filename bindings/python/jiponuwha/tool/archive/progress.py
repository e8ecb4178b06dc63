"""How far a command over many images is: a bar on a terminal, or a line every few seconds where `rich` is not there."""
from __future__ import annotations

import time
from collections.abc import Iterable
from typing import Any

from ..console import Console
from ..sources import Source, find_images

# Seconds between two lines.
_PAUSE = 5.0


def counted(paths: Iterable[str], console: Console) -> int | None:
    """Returns the number of images that these arguments name, for a bar; None if nobody sees one."""
    if not console.is_error_terminal:
        return None
    return sum(1 for _ in find_images(paths, on_error=lambda fault: None))


class Progress:
    """Shows on standard error how many images are done and what was found so far. Away from a terminal it shows nothing.

    It is used with `with`, and `step` counts an image, with the name of what was found.
    """

    def __init__(self, console: Console, total: int | None) -> None:
        self._console = console
        self._total = total
        self._found: dict[str, int] = {}
        self._start = self._last = time.monotonic()
        self._bar: Any = None
        self._task: Any = None
        self.done = 0

    def __enter__(self) -> Progress:
        if self._console.is_error_terminal and self._total is not None:
            self._bar = self._made_bar()
        if self._bar is not None:
            self._bar.start()
            self._task = self._bar.add_task("images", total=self._total, found="", rate="")
        return self

    def __exit__(self, *raised: object) -> None:
        if self._bar is not None:
            self._bar.stop()

    def _made_bar(self) -> Any:
        try:
            from rich import console, progress
        except ImportError:
            return None
        columns = (
            progress.BarColumn(),
            progress.MofNCompleteColumn(),
            progress.TextColumn("{task.fields[rate]}"),
            progress.TimeRemainingColumn(),
            progress.TextColumn("{task.fields[found]}", markup=False),
        )
        screen = console.Console(file=self._console.err, no_color=not self._console.has_colours)
        return progress.Progress(*columns, console=screen, transient=True, redirect_stdout=False, redirect_stderr=False)

    def _said(self) -> str:
        return ", ".join(f"{count:,} {name}" for name, count in self._found.items())

    def _rate(self) -> str:
        return f"{self.done / max(time.monotonic() - self._start, 0.001):,.0f} a second"

    def parts(self, *parts: tuple[object, str | None]) -> None:
        """Prints a line of several texts on standard output, above the bar."""
        if self._bar is None or not self._console.is_terminal:
            self._console.parts(*parts)
            return
        from rich import text

        line = "".join(self._console.styled(*it) for it in parts)
        self._bar.console.print(text.Text.from_ansi(line), soft_wrap=True)

    def step(self, found: str) -> None:
        """Counts an image."""
        self.done += 1
        self._found[found] = self._found.get(found, 0) + 1
        if self._bar is not None:
            self._bar.update(self._task, completed=self.done, found=self._said(), rate=self._rate())
        elif self._total is not None and time.monotonic() - self._last >= _PAUSE:
            self._last = time.monotonic()
            left = (self._last - self._start) / self.done * max(self._total - self.done, 0)
            self._console.error(f"{self.done:,} of {self._total:,} images, {self._rate()}, {left:,.0f} seconds left: {self._said()}")
