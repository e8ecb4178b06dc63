"""Volumes that ADFlib writes, for the tests. `tests/c/adflib_volumes.c` writes them; it is built here with Debian's source of `unadf`,
of which ADFlib is a part."""
from __future__ import annotations

import os
import subprocess
from pathlib import Path
from typing import NamedTuple, Optional, Sequence, Tuple

from harness import TOP

# The cylinders, heads and sectors of an image.
Shape = Tuple[int, int, int]
DOUBLE_DENSITY, HIGH_DENSITY, HARD_FILE = (80, 2, 11), (80, 2, 22), (50, 1, 16)
# The shapes of ADFlib's images in turn. Each stands beside both kinds, since their number is odd.
SHAPES = [DOUBLE_DENSITY, HIGH_DENSITY, DOUBLE_DENSITY, HARD_FILE, DOUBLE_DENSITY]
FLOPPIES = [DOUBLE_DENSITY, HIGH_DENSITY, DOUBLE_DENSITY]
# What a test says where ADFlib cannot be built.
LACKING = "source of unadf, or no compiler"


class Adflib(NamedTuple):
    """The program that writes images by ADFlib, and the shapes of these images."""

    program: Path
    shapes: Sequence[Shape]

    def volume(self, seed: int) -> bytes:
        """The volume with this number: of the Old File System if that is odd, else of the Fast File System."""
        shape = self.shapes[seed % len(self.shapes)]
        words = [str(self.program), str(seed), "adflib.adf", *map(str, shape), "ofs" if seed % 2 else "ffs"]
        subprocess.run(words, check=True, capture_output=True)
        return Path("adflib.adf").read_bytes()


def built_adflib(shapes: Sequence[Shape]) -> Optional[Adflib]:
    """Builds the program in a new directory of the current one. Nothing where the machine lacks Debian's sources or a compiler."""
    os.mkdir("adflib")
    folder = Path("adflib").absolute()
    script = f"""
        set -e
        . /etc/os-release
        mkdir -p apt/lists/partial
        echo "deb-src http://deb.debian.org/debian $VERSION_CODENAME main" > apt/sources
        set -- -o Dir::Etc::sourcelist=$PWD/apt/sources -o Dir::Etc::sourceparts=/dev/null -o Dir::State::lists=$PWD/apt/lists
        apt-get "$@" update
        apt-get "$@" source unadf
        make -C unadf-*/Lib
        cc -O2 -std=c11 -w -I "$(echo unadf-*/Lib)" -I "$(echo unadf-*/Lib/Generic)" -o writer {TOP}/tests/c/adflib_volumes.c "$(echo unadf-*/Lib/libadf.a)"
    """
    built = subprocess.run(["bash", "-c", script], cwd=folder, stdin=subprocess.DEVNULL, capture_output=True)
    program = folder / "writer"
    return Adflib(program, shapes) if built.returncode == 0 and program.exists() else None
