"""The label and the boot block of an image, whether it is a valid volume or not."""
from __future__ import annotations

import ctypes
import os
from typing import NamedTuple

from ._errors import NotAnImage, settle
from ._library import CBoot, library
from ._numbers import NAME_BYTES, BootCode, Format, Status
from ._path import AnyBytes
from ._values import letters
from ._volume import HostPath, check, image_bytes

# The kind of a boot block without the letters `DOS`.
NO_DOS = 256


class Boot(NamedTuple):
    """The boot block of an image.

    `kind` is the byte after the letters `DOS`: a `Format`, or another number. It is None if these letters are not there. `code` says
    what the boot block is. `sum` is the checksum in it, and `right_sum` the one that belongs there.
    """

    kind: int | None
    code: BootCode
    sum: int
    right_sum: int

    @property
    def is_bootable(self) -> bool:
        return self.sum == self.right_sum


def _settle(result: int, image: bytes, shown: object) -> None:
    if result == Status.NOT_AN_IMAGE:
        raise NotAnImage(check(image), shown)
    settle(result, shown)


def _shown(source: HostPath | AnyBytes) -> object:
    return None if isinstance(source, (bytes, bytearray, memoryview)) else os.fspath(source)


def label_of(source: HostPath | AnyBytes) -> str | None:
    """Returns the label of the image in a file or in bytes: the name in its root block, whatever else is wrong there. It is None if there
    is no valid name.

    Bytes that are not whole blocks, or too few or too many, raise NotAnImage (225). An unreadable file raises OSError.
    """
    image, room, length = image_bytes(source), ctypes.create_string_buffer(NAME_BYTES), ctypes.c_size_t()
    result = library.jip_label(image, len(image), room, NAME_BYTES, length)
    if result == Status.WRONG_ARGUMENT:
        return None
    _settle(result, image, _shown(source))
    return letters(room.raw[: length.value])


def boot_block(source: HostPath | AnyBytes) -> Boot:
    """Returns what the boot block of the image in a file or in bytes is. It raises as `label_of` does."""
    image, given = image_bytes(source), CBoot()
    _settle(library.jip_boot_block(image, len(image), given), image, _shown(source))
    kind = None if given.kind == NO_DOS else Format(given.kind) if given.kind in list(Format) else given.kind
    return Boot(kind, BootCode(given.code), given.sum, given.right_sum)


def with_boot_block(source: HostPath | AnyBytes) -> bytes:
    """Returns the bytes of an image with the standard boot block. The DOS type stays. It raises as `label_of` does."""
    image = image_bytes(source)
    made = ctypes.create_string_buffer(image, len(image))
    _settle(library.jip_install_boot(made, len(image)), image, _shown(source))
    return made.raw
