"""Open images of the tool's arguments."""
from __future__ import annotations

import contextlib
import os
from collections.abc import Callable, Iterator, Sequence

from .. import DosError, Error, FaultKind, NotAnImage, Protected, Volume
from .. import open as open_image
from .console import Console
from .errors import DONE, HOST, REFUSED, USAGE, ToolError
from .sources import Source


def advice(kind: FaultKind) -> str:
    """Returns what to do about an image with a fault of this kind."""
    if kind in (FaultKind.NOT_A_DOS_DISK, FaultKind.UNSUPPORTED_KIND) or kind >= FaultKind.NOT_WHOLE_BLOCKS:
        return ""
    return "; 'jip rescue' saves its files"


def refusal(fault: DosError) -> str:
    """Returns the line that says what an image, a name or a change was refused for."""
    place = "" if fault.filename is None else f"{fault.filename}: "
    if not isinstance(fault, NotAnImage) or not fault.faults:
        return f"{place}refused: {fault.strerror} ({fault.dos})"
    first = fault.faults[0]
    others = len(fault.faults) - 1
    more = f", and {others:,}{' or more' if fault.faults.more else ''} other fault{'s' * (others != 1)}" if others else ""
    return f"{place}refused: block {first.block}: {first.text}{more}{advice(first.kind)}"


def fault_line(fault: Exception) -> tuple[int, str]:
    """Returns the exit status for an exception, and the line for standard error. An exception of another kind is raised again."""
    if isinstance(fault, ToolError):
        return fault.status, str(fault)
    if isinstance(fault, DosError):
        return REFUSED, refusal(fault)
    if isinstance(fault, MemoryError):
        return HOST, "out of memory"
    if isinstance(fault, OSError):
        place = "" if fault.filename is None else f"{os.fsdecode(fault.filename)}: "
        return HOST, f"{place}{fault.strerror or fault}"
    raise fault


@contextlib.contextmanager
def opened(source: Source, read_only: bool = True) -> Iterator[Volume]:
    """Opens an image, by default to read it. An image that is refused raises NotAnImage with the name of the source."""
    try:
        volume = open_image(source.read(), read_only=read_only)
    except NotAnImage as fault:
        raise NotAnImage(fault.faults, source.name) from None
    volume.path = source.name
    try:
        yield volume
    except DosError as fault:
        # (the path of a refusal is shown with its image)
        if fault.filename is not None and not isinstance(fault, NotAnImage):
            fault.filename = f"{source.name}:{fault.filename}"
        raise
    finally:
        volume.close(discard=True)


def contents(volume: Volume, path: str) -> bytes:
    """Returns the bytes of a file, also of one that is protected from reading: that is read from a copy of the volume."""
    try:
        return volume.read(path)
    except Protected as fault:
        if fault.dos != Error.READ_PROTECTED:
            raise
    with open_image(volume.image()) as copy:
        copy.protect(path, 0)
        data = copy.read(path)
        copy.close(discard=True)
    return data


def refused_object(name: str, fault: NotAnImage) -> dict[str, object]:
    """Returns the JSON of an image that is refused."""
    found = [{"kind": it.kind.name, "block": it.block, "text": it.text} for it in fault.faults[:1]]
    return {"image": name, "refused": found[0] if found else None}


def each_argument(arguments: Sequence[str], one: Callable[[str], None], console: Console, as_json: bool = False) -> int:
    """Runs a function for each argument. One that fails has a line on standard error, and the others are still done. Returns the exit
    status: that of a failed host before that of a refusal. With JSON a refused image has its object too."""
    statuses = [DONE]
    for it in arguments:
        try:
            one(it)
        except BrokenPipeError:
            raise
        except (ToolError, OSError, MemoryError) as fault:
            status, text = fault_line(fault)
            console.error(text)
            statuses.append(status)
            if as_json and isinstance(fault, NotAnImage):
                console.json(refused_object(str(fault.filename), fault))
    worst = [it for it in (HOST, REFUSED, USAGE) if it in statuses]
    return worst[0] if worst else DONE
