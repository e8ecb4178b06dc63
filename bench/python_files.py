"""Makes an image with 1,000 files, and reads them, by the package `jiponuwha`:

    python_files.py make OFS|FFS IMAGE     a high-density floppy with 1,000 files of 500 bytes in ten directories
    python_files.py read IMAGE             walks and reads all files, and prints the microseconds, without the start of Python
    python_files.py write IMAGE DIR        writes them below a directory as well
"""
from __future__ import annotations

import sys
import time
from pathlib import Path

import jiponuwha as jip

FILES, BYTES = 1000, 500


def make(kind: str, image: str) -> None:
    with jip.create("Bench", image, format=jip.Format[kind], blocks=jip.HIGH_DENSITY) as floppy:
        for number in range(10):
            floppy.mkdir(f"d{number}")
        for number in range(FILES):
            floppy[f"d{number % 10}/file{number}"] = bytes([number % 256]) * BYTES
        floppy.save()


def read(image: str, to: Path | None) -> None:
    start, count = time.perf_counter(), 0
    with jip.open(image) as floppy:
        for path, entry in floppy.walk():
            if entry.is_dir:
                if to is not None:
                    (to / path).mkdir(parents=True, exist_ok=True)
                continue
            data = floppy.read(path)
            count += len(data)
            if to is not None:
                (to / path).write_bytes(data)
    if count != FILES * BYTES:
        sys.exit(f"{count} bytes were read")
    print(round((time.perf_counter() - start) * 1e6))


def main(words: list[str]) -> None:
    if words[:1] == ["make"]:
        make(words[1], words[2])
    else:
        read(words[1], Path(words[2]) if words[0] == "write" else None)


if __name__ == "__main__":
    main(sys.argv[1:])
