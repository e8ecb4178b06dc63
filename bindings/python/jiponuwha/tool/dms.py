"""Images in DMS files, which the program `xdms` unpacks."""
from __future__ import annotations

import resource
import shutil
import subprocess
import tempfile
from pathlib import Path

from .bounded import LARGEST, SourceError

# The longest run of xdms, in seconds.
_LONGEST = 60


def _bound() -> None:
    """Bounds the file that the process may write."""
    resource.setrlimit(resource.RLIMIT_FSIZE, (LARGEST, LARGEST))


def unpack(name: str, packed: bytes) -> bytes:
    """Returns the image in a DMS file. One that is larger than the largest image, or a damaged file, raises SourceError."""
    program = shutil.which("xdms")
    if program is None:
        raise SourceError(f"{name}: the program 'xdms' unpacks DMS files (Debian: xdms)")
    with tempfile.TemporaryDirectory(prefix="jip-") as room:
        source, image = Path(room, "in.dms"), Path(room, "out.adf")
        source.write_bytes(packed)
        try:
            ran = subprocess.run(
                [program, "-q", "u", str(source), f"+{image}"],
                stdin=subprocess.DEVNULL,
                capture_output=True,
                preexec_fn=_bound,
                timeout=_LONGEST,
            )
        except subprocess.TimeoutExpired:
            raise SourceError(f"{name}: xdms did not end within {_LONGEST} seconds") from None
        if ran.returncode != 0 or not image.is_file():
            said = (ran.stderr or ran.stdout).decode(errors="replace").strip().splitlines()
            raise SourceError(f"{name}: xdms cannot unpack it{f': {said[-1]}' if said else ''}")
        return image.read_bytes()
