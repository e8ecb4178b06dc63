#!/usr/bin/env python3
"""Tests packets in an emulated machine's memory (bindings/c/jiponuwha_amiga.h): worked packets, and random ones in harmful
memory, under sanitizers.

    tests/amiga.py [SECONDS [SEED]]     runs random packets for SECONDS in all; the default is 20

The same seed gives the same packets, and the time determines their number. `tests/amiga.py 600` is the long run.
"""
from __future__ import annotations

import re
import shutil
import sys
from pathlib import Path
from typing import List, Sequence

sys.dont_write_bytecode = True

from harness import TOP, Report, run
from library import SANITIZED, Library, put_in_place

C = TOP / "tests" / "c"
HEADER = TOP / "bindings/c/jiponuwha_amiga.h"
SOURCE = Path("here/share/jiponuwha/amiga.c")
# The other C files of the library, which are compiled with sanitizers too.
OTHERS = [str(it) for it in sorted((TOP / "bindings/c/src").glob("*.c")) if it.name != "amiga.c"]
# Worked packets, and disks that are changed while locks and files are held.
WORKED = ("amiga", "stale")
STRICT = ["-Wall", "-Wextra", "-Wpedantic", "-Wconversion", "-Werror", "-g", "-O1", "-Ihere/include"]
LINKED = ["-Lhere/lib", "-ljiponuwha"]
WRAPPED = [f"-Wl,--wrap={it}" for it in ("malloc", "calloc", "realloc")]


def builds(report: Report, name: str, command: Sequence[str]) -> bool:
    """Returns whether a compiler accepts this without a message."""
    ran = run(command, longest=None)
    report.expect(name, ran.status == 0 and not ran.texts, ran)
    return ran.status == 0


def quick_start() -> str:
    """Returns the program in the first comment of the header."""
    head = HEADER.read_text().partition(" * WHAT THE CALLER GUARANTEES")[0]
    return "\n".join(it[7:] for it in re.findall(r"(?m)^ \*     .*$|^ \*$", head)).strip("\n") + "\n"


def quick_starts(tried: Library, compiler: str) -> None:
    """Checks the quick start of the header: it compiles, and is at most twenty lines of C."""
    tried.write("quick.c", quick_start().encode())
    words = ["-std=c11", *STRICT, "-Wno-missing-prototypes", "-c", "quick.c", "-o", "quick.o"]
    if builds(tried.report, f"{compiler} the quick start of the header", [compiler, *words]):
        lines = [it for it in quick_start().splitlines() if it]
        tried.report.expect("it has at most twenty lines", len(lines) <= 20, len(lines))


def in_c(tried: Library, compiler: str) -> bool:
    """Runs the worked packets in C: with the library, and with its source under sanitizers. Returns whether they ran."""
    report = tried.report
    words = [compiler, "-std=c11", *STRICT]
    for name in WORKED:
        if builds(report, f"{compiler} {name}", [*words, str(C / f"{name}.c"), *LINKED, "-o", f"{compiler}-{name}"]):
            tried.passes_checked(f"{compiler}-{name}")
    quick_starts(tried, compiler)
    if not tried.has_sanitizers(compiler):
        return False
    for name in WORKED:
        sanitized = [*words, *SANITIZED, str(C / f"{name}.c"), str(SOURCE), *OTHERS, *LINKED, "-o", f"{compiler}-{name}-sanitized"]
        if builds(report, f"{compiler} {name} with sanitizers", sanitized):
            tried.passes(f"{compiler} {name} with sanitizers runs", [f"./{compiler}-{name}-sanitized"])
    twin = [*words, *SANITIZED, str(C / "amiga_twin.c"), str(SOURCE), *OTHERS, *LINKED, "-o", f"{compiler}-twin"]
    if builds(report, f"{compiler} sessions beside a twin", twin):
        tried.passes(f"{compiler} sessions beside a twin run", [f"./{compiler}-twin", "1", "500"])
    return True


def in_cpp(tried: Library, compiler: str) -> None:
    """Compiles the header and the source as C++17."""
    words = [compiler, "-std=c++17", *STRICT]
    builds(tried.report, f"{compiler} the source", [*words, "-x", "c++", "-c", str(SOURCE), "-o", "source.o"])
    if builds(tried.report, f"{compiler} amiga", [*words, str(C / "amiga.cc"), *LINKED, "-o", f"{compiler}-amiga"]):
        tried.passes(f"{compiler} amiga runs", [f"./{compiler}-amiga"])


def random_packets(tried: Library, compiler: str, seconds: float, seed: int) -> None:
    """Runs random packets for a time in seconds. A failure reports its seed and its round."""
    words = [compiler, "-std=c11", *STRICT, *SANITIZED, str(C / "amiga_fuzz.c"), str(SOURCE), *OTHERS, *LINKED, *WRAPPED]
    if not builds(tried.report, f"{compiler} random packets", [*words, "-o", f"{compiler}-fuzz"]):
        return
    ran = run([f"./{compiler}-fuzz", str(seed), str(seconds)], longest=None)
    tried.report.expect(f"{compiler} random packets, seed {seed}, {seconds:g} seconds", ran.status == 0 and not ran.texts, ran)
    print(f"      {ran.output.decode(errors='replace').splitlines()[0] if ran.output else 'nothing printed'}", flush=True)


def main(words: List[str]) -> int:
    seconds = float(words[0]) if words else 20.0
    seed = int(words[1]) if len(words) > 1 else 1
    report = Report()
    with Library(TOP / "crates/adf_serve/out/adf_serve", report) as tried:
        if put_in_place(tried):
            there = [it for it in ("gcc", "clang", "g++", "clang++") if shutil.which(it)]
            for it in ("gcc", "clang", "g++", "clang++", "valgrind"):
                if not shutil.which(it):
                    report.skip(f"packets in a machine's memory by {it}", f"there is no {it}")
            sanitizing = [it for it in there if not it.endswith("+") and in_c(tried, it)]
            for it in there:
                if it.endswith("+"):
                    in_cpp(tried, it)
            for it in sanitizing:
                random_packets(tried, it, seconds / len(sanitizing), seed)
    return report.end()


if __name__ == "__main__":
    sys.exit(main(sys.argv[1:]))
