"""The exit statuses of the tool, and the exceptions that end a command with one of them."""
from __future__ import annotations

DONE = 0
USAGE = 1
HOST = 2
REFUSED = 3


class ToolError(Exception):
    """A command cannot go on. The text says why, and `status` is the exit status."""

    status = HOST


class UsageError(ToolError):
    """The command line is wrong."""

    status = USAGE


class RefusedError(ToolError):
    """An image, a name or a change is refused."""

    status = REFUSED


def lacking(library: str, package: str, extra: str) -> ToolError:
    """Returns the error for a missing Python library, with the ways to install it."""
    return ToolError(f"this needs the Python library '{library}': pip install 'jiponuwha[{extra}]', or on Debian apt install {package}")
