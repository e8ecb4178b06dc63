"""Refuses to pack a library that was compiled without proof. tools/wheel and tools/debian use it, and tools/dist.sh through the first."""
import sys
from pathlib import Path

# What `jip_version` says of such a library, after the numbers.
MARK = b"(not proved)"


def need_proved(place: Path, tool: str) -> None:
    """Ends the script if a library below a directory is not proved. bindings/c/build.sh installed them there."""
    for file in sorted((place / "lib").glob("libjiponuwha.*")):
        if MARK in file.read_bytes():
            print(f"{tool}: {file} is not proved, and is not packed; ./prove makes the proved library", file=sys.stderr)
            sys.exit(2)
