"""A blank volume with the label, the dates and the boot block of a damaged image.

Where these are on a disk is not written here: it is found by comparing blank volumes that the library makes.
"""
from __future__ import annotations

from typing import NamedTuple

from .. import Date, FaultKind, Faults, Format, Owner, Role, Volume, check, create
from .. import open as open_image
from .._numbers import BLOCK_BYTES

_EARLY, _LATE = Date(0, 0, 0), Date(2**32 - 1, 2**32 - 1, 2**32 - 1)
# Faults of the root with which its label and its dates are not trusted.
_UNTRUSTED = {FaultKind.BAD_SUM, FaultKind.BAD_TYPE, FaultKind.BAD_NAME}


class Made(NamedTuple):
    """The volume, and whether its label with the dates, and its boot block, are those of the damaged image."""

    volume: Volume
    has_label: bool
    has_boot: bool


def _blank(label: str, blocks: int, date: Date = _EARLY) -> tuple[bytes, list[Owner]]:
    with create(label, format=Format.FFS, blocks=blocks, clock=lambda: date) as volume:
        image, owners = volume.image(), volume.map()
        volume.close(discard=True)
    return image, owners


def _settled(image: bytearray, block: int) -> bytes:
    """Puts the checksum of a block right, as the check says that it has to be."""
    for it in check(image):
        if it.block == block and it.kind == FaultKind.BAD_SUM and it.at is not None and it.wanted is not None:
            place = block * BLOCK_BYTES + 4 * it.at
            image[place : place + 4] = it.wanted.to_bytes(4, "big")
    return bytes(image)


def _is_volume(image: bytes) -> bool:
    return not check(image)


def _with_boot(damaged: bytes, image: bytes, owners: list[Owner]) -> bytes:
    made = bytearray(image)
    for block, owner in enumerate(owners):
        if owner.role == Role.BOOT:
            place = slice(block * BLOCK_BYTES, (block + 1) * BLOCK_BYTES)
            made[place] = damaged[place]
    return bytes(made)


def _with_label(damaged: bytes, image: bytes, owners: list[Owner]) -> bytes:
    """Returns the image with the label and the dates of the damaged one: the bytes of the root that differ between blank volumes."""
    root = next(block for block, owner in enumerate(owners) if owner.role == Role.ROOT)
    others = [_blank(label, len(owners), date)[0] for label, date in (("B" * 30, _EARLY), ("A", _EARLY), ("A" * 30, _LATE))]
    made = bytearray(image)
    for at in range(root * BLOCK_BYTES, (root + 1) * BLOCK_BYTES):
        if any(it[at] != image[at] for it in others):
            made[at] = damaged[at]
    return _settled(made, root)


def _trusts_root(faults: Faults, owners: list[Owner]) -> bool:
    root = next(block for block, owner in enumerate(owners) if owner.role == Role.ROOT)
    return not any(it.block == root and it.kind in _UNTRUSTED for it in faults)


def blank_like(damaged: bytes, faults: Faults, label: str) -> Made:
    """Returns a blank volume of the size of a damaged image, with its label, dates and boot block as far as they are sound. `label` is
    the name of a volume whose own name is not."""
    blocks = len(damaged) // BLOCK_BYTES
    image, owners = _blank("A" * 30, blocks)
    with_boot = _with_boot(damaged, image, owners)
    has_boot = _is_volume(with_boot)
    base = with_boot if has_boot else image
    with_label = _with_label(damaged, base, owners) if _trusts_root(faults, owners) else b""
    has_label = bool(with_label) and _is_volume(with_label)
    volume = open_image(with_label if has_label else base)
    if has_label:
        # (what is put into the volume leaves its dates as they are)
        date = volume.stat("").date
        volume.clock = lambda: date
    else:
        volume.label(label)
    return Made(volume, has_label, has_boot)
