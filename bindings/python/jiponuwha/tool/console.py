"""What the tool prints. Every text on its way to a terminal or a file goes through here, and none has control characters."""
from __future__ import annotations

import os
import sys
from collections.abc import Collection, Iterable, Sequence
from typing import TextIO

from .escape import shown

_STYLES = {"bold": "1", "dim": "2", "red": "31", "green": "32", "yellow": "33", "blue": "34"}


def _is_terminal(stream: TextIO) -> bool:
    try:
        return stream.isatty()
    except ValueError:
        return False


class Console:
    """Standard output and standard error. There are colours on a terminal only, and none if NO_COLOR is set.

    `quiet` leaves out what `note` prints.
    """

    def __init__(self, out: TextIO | None = None, err: TextIO | None = None, quiet: bool = False) -> None:
        self.out = sys.stdout if out is None else out
        self.err = sys.stderr if err is None else err
        self.quiet = quiet
        self.is_terminal = _is_terminal(self.out)
        self.is_error_terminal = _is_terminal(self.err)
        self.has_colours = self.is_terminal and not os.environ.get("NO_COLOR")

    @property
    def width(self) -> int:
        """The columns of the terminal, or 80."""
        try:
            return int(os.environ.get("COLUMNS") or os.get_terminal_size(self.out.fileno()).columns) or 80
        except (OSError, ValueError):
            return 80

    def styled(self, text: object, style: str | None = None) -> str:
        """Returns a text as it is shown, in a style of `bold`, `dim`, `red`, `green`, `yellow` and `blue` if there are colours."""
        plain = shown(text)
        return f"\033[{_STYLES[style]}m{plain}\033[0m" if style and self.has_colours else plain

    def line(self, text: object = "", style: str | None = None) -> None:
        """Prints a line."""
        self.out.write(self.styled(text, style) + "\n")

    def parts(self, *parts: tuple[object, str | None]) -> None:
        """Prints a line of several texts, each in a style of its own or in none."""
        self.out.write("".join(self.styled(*it) for it in parts) + "\n")

    def note(self, text: object) -> None:
        """Prints a line that says what was done, unless the command is quiet."""
        if not self.quiet:
            self.line(text)

    def error(self, text: object) -> None:
        """Prints a line on standard error, after the name of the tool."""
        self.out.flush()
        self.err.write(f"jip: {shown(text)}\n")
        self.err.flush()

    def json(self, value: object) -> None:
        """Prints a value as JSON on one line, in ASCII."""
        import json

        self.out.write(json.dumps(value, separators=(",", ":")) + "\n")

    def data(self, data: bytes) -> None:
        """Writes bytes as they are."""
        self.out.flush()
        self.out.buffer.write(data)
        self.out.buffer.flush()

    def table(self, headers: Sequence[str], rows: Iterable[Sequence[object]], right: Collection[int] = ()) -> None:
        """Prints rows below headers. The columns `right` are set to the right. On a terminal `rich` draws it, if it is there."""
        cells = [[shown(it) for it in row] for row in rows]
        if not self.is_terminal or not self._rich_table(headers, cells, right):
            self._plain_table(headers, cells, right)

    def _rich_table(self, headers: Sequence[str], cells: list[list[str]], right: Collection[int]) -> bool:
        try:
            from rich import box, console, table, text
        except ImportError:
            return False
        drawn = table.Table(box=box.SIMPLE_HEAD)
        for at, it in enumerate(headers):
            drawn.add_column(text.Text(it), justify="right" if at in right else "left", overflow="fold")
        for row in cells:
            drawn.add_row(*(text.Text(it) for it in row))
        console.Console(file=self.out, no_color=not self.has_colours, highlight=False).print(drawn)
        return True

    def _plain_table(self, headers: Sequence[str], cells: list[list[str]], right: Collection[int]) -> None:
        everything = [list(headers), *cells]
        widths = [max(len(row[at]) for row in everything) for at in range(len(headers))]
        for number, row in enumerate(everything):
            placed = (it.rjust(width) if at in right else it.ljust(width) for at, (it, width) in enumerate(zip(row, widths)))
            self.line("  ".join(placed).rstrip(), None if number else "bold")
