#!/usr/bin/env python3
"""Wraps code that runs at any address into a load file of AmigaDOS with one hunk.

    hunk.py FLAT OUT
"""
import struct
import sys
from pathlib import Path

HUNK_HEADER, HUNK_CODE, HUNK_END = 0x3F3, 0x3E9, 0x3F2


def load_file(code: bytes) -> bytes:
    code += bytes(-len(code) % 4)
    longs = len(code) // 4
    # No names of resident libraries; one hunk, from number 0 to 0, of so many longs.
    return struct.pack(">8I", HUNK_HEADER, 0, 1, 0, 0, longs, HUNK_CODE, longs) + code + struct.pack(">I", HUNK_END)


if __name__ == "__main__":
    Path(sys.argv[2]).write_bytes(load_file(Path(sys.argv[1]).read_bytes()))
