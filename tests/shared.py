#!/usr/bin/env python3
"""Tests the shared C library and its C functions over packets: the exported symbols, whole files, and the examples of the
header and of docs/LIBRARY.md.

    tests/shared.py

It prints a line for each check, reports what it skipped, and ends with `N passed, M failed`. The status is 1 if a check failed.
It proves nothing. It uses the proved library if that is current, and otherwise the one without proof.
"""
from __future__ import annotations

import os
import platform
import re
import shutil
import sys
from functools import partial
from pathlib import Path
from typing import Callable, Dict, List, Set

sys.dont_write_bytecode = True

from harness import TOP, Report, built_program, run
from library import SANITIZED, Library, put_in_place
from walk import section_of

C = TOP / "bindings" / "c"
HEADER, AMIGA = C / "jiponuwha.h", C / "jiponuwha_amiga.h"
SYMBOLS, TEXTS = C / "jiponuwha.map", C / "src" / "texts.c"
PAGE = TOP / "docs" / "LIBRARY.md"
WORDS = TOP / "crates/adf_cli/src/refused.rt"
STRICT = ["-Wall", "-Wextra", "-Wpedantic", "-Wconversion", "-Werror"]
STANDARDS = {"gcc": "c11", "clang": "c11", "g++": "c++17", "clang++": "c++17"}
LIBRARY = "here/lib/libjiponuwha.so.1"
SHARED = [LIBRARY, "-Wl,-rpath,$ORIGIN/here/lib"]
STATIC = ["here/lib/libjiponuwha.a"]
CMAKE = """cmake_minimum_required(VERSION 3.10)
project(whole C)
find_package(jiponuwha REQUIRED)
add_executable(whole {})
target_link_libraries(whole jiponuwha::shared)
"""
# The programs that test the library, for each language.
SOURCES = {"c11": ["whole.c", "paths.c", "account.c", "read_only.c", "names.c", "salvage.c"], "c++17": ["floppy.cc"]}
# The error that no packet of the program has: that of a read-only handle.
OWN = {"DiskWriteProtected": "disk is write-protected"}
# Makes work.adf with the file Docs/hello, and checks the results of the examples.
WORK = """#include <jiponuwha.h>
int main(int count, char **words) {
    const jip_date now = {4383, 0, 0};
    jip_handle h = JIP_CLOSED;
    jip_fault fault;
    jip_packet packet;
    jip_answer answer;
    char text[8];
    size_t length;
    if (count > 1)
        return jip_load(words[1], &h, &fault) != JIP_DONE ||
               jip_read_file(&h, words[2], JIP_TO_ZERO, text, sizeof text, &length) != JIP_DONE || length != 5;
    jip_blank(JIP_FFS, JIP_DOUBLE_DENSITY, "Work", 4, now, &h);
    jip_create_dir(&packet, now, 0, "Docs");
    if (jip_serve(&h, &packet, &answer) != JIP_DONE) return 1;
    return jip_write_file(&h, now, "Docs/hello", JIP_TO_ZERO, "hello", 5) != JIP_DONE || jip_store(&h, "work.adf") != JIP_DONE;
}
"""


class Place(Library):
    """The room for the library and for programs that use its shared form."""

    def __init__(self, report: Report) -> None:
        super().__init__(built_program([]), report)

    def compile(self, compiler: str, source: Path, to: str, *flags: str) -> bool:
        """Builds a program. Returns whether that succeeded."""
        words = [compiler, f"-std={STANDARDS[compiler]}", "-O1", "-g", *STRICT, "-Ihere/include", str(source), "-o", to]
        return self.runs(f"{to} is built", [*words, *flags])


# ---- Exported symbols ----


def header_text() -> str:
    """Returns the two headers without their comments."""
    return re.sub(r"/\*.*?\*/", "", HEADER.read_text() + AMIGA.read_text(), flags=re.S)


def declared() -> Set[str]:
    """Returns the functions that the headers declare and do not define."""
    return set(re.findall(r"(?m)^(?!static)[a-z0-9_]+[a-z0-9_ ]* \*?(jip_[a-z_]+)\([^)]*\);", header_text()))


def listed() -> Set[str]:
    """Returns the symbols of the list."""
    return set(re.findall(r"(?m)^ *(jip_[a-z_]+);$", SYMBOLS.read_text()))


def inline() -> Set[str]:
    """Returns the functions that the headers define."""
    return set(re.findall(r"(?m)^static inline [a-z0-9_]+ \*?(jip_[a-z_]+)\(", header_text()))


def exports() -> Set[str]:
    """Returns the exports of the crate adf_c."""
    texts = [it.read_text() for it in (TOP / "crates/adf_c/src").glob("*.rt")]
    return {part.partition(" fn ")[2].partition("(")[0] for text in texts for part in text.split("no_mangle")[1:]}


def exported(archive: Path) -> Set[str]:
    """Returns the symbols that an archive of that crate defines for others."""
    words = ["nm", "--extern-only", "--defined-only", str(archive)]
    return set(re.findall(r"(?m) [A-Z] (jip_lib_\w+)$", run(words).output.decode()))


def tables() -> List[List[str]]:
    """Returns the calls in the first column of each table in the section of all calls."""
    rows = section_of(PAGE.read_text(), "All calls in C").splitlines()
    parts = "\n".join(it.split(" | ")[0] if it.startswith("|") else "" for it in rows).split("\n\n")
    return [found for found in (re.findall(r"`(jip_[a-z_]+)`", it) for it in parts) if found]


def version() -> List[str]:
    """Returns the numbers of the header's version."""
    return re.findall(r"(?m)^#define JIP_VERSION_(?:MAJOR|MINOR|PATCH) (\d+)$", HEADER.read_text())


def camel_case(name: str) -> str:
    """Converts the name of an error in the header to its name in Rattle."""
    return "".join(it.capitalize() for it in name.split("_")).replace("DirNot", "DirectoryNot")


def quick_start() -> str:
    """Returns the program in the first comment of the header."""
    found = re.search(r"(?ms)^ \*     #include.*?^ \*     \}$", HEADER.read_text())
    return "".join(f"{it[7:]}\n" for it in found[0].splitlines()) if found else ""


def texts(report: Report) -> None:
    """Compares the library's messages for errors with those of the program."""
    words: Dict[str, str] = dict(re.findall(r'DosError::(\w+) => "(.*)",', WORDS.read_text()))
    rows = re.findall(r'\{JIP_ERROR_([A-Z_]+), "(.*)"\},', TEXTS.read_text())
    report.same("errors have the program's words", {camel_case(name): text for name, text in rows}, {**words, **OWN})
    errors = re.findall(r"JIP_ERROR_([A-Z_]+) = ", HEADER.read_text())
    faults = re.findall(r"JIP_FAULT_([A-Z_]+) = ", HEADER.read_text())
    report.same("each error has words", sorted(name for name, _ in rows), sorted(errors))
    named = re.findall(r"\{JIP_FAULT_([A-Z_]+), ", TEXTS.read_text())
    report.same("each fault has words", sorted(named), sorted(faults))


def lists(report: Report) -> None:
    report.same("the list has the functions of the headers", listed(), declared())
    used = {it for file in (C / "src").glob("*.c") for it in re.findall(r"\bjip_lib_[a-z_]+", file.read_text())}
    report.same("the C names each export of adf_c", sorted(used), sorted(exports()))
    nodes = re.findall(r"(?m)^JIPONUWHA_([0-9.]+) \{$", SYMBOLS.read_text())
    report.expect("the list has the header's version", bool(nodes) and nodes[-1] == ".".join(version()[:2]), nodes)
    named = tables()
    exported = [it for table in named[:-1] for it in table]
    report.same("docs/LIBRARY.md has each exported function once in its tables of calls", sorted(exported), sorted(listed()))
    report.same("its last table has each inline function once", sorted(named[-1] if named else []), sorted(inline()))
    lines = quick_start().count("\n")
    report.expect("the header begins with a quick start of at most 20 lines", 0 < lines <= 20, lines)


def symbols(tried: Place) -> None:
    """Checks that the built library exports the symbols of the list, and nothing else."""
    if not shutil.which("nm") or not shutil.which("readelf"):
        tried.report.skip("the symbols", "there is no nm, or no readelf")
        return
    ran = run(["nm", "-D", "--defined-only", LIBRARY])
    found = {it.split()[2].partition("@")[0] for it in ran.output.decode().splitlines() if it.split()[1] != "A"}
    tried.report.same("the library exports the symbols of the list", found, listed())
    tried.report.same("the static library has each export of adf_c", exported(Path(STATIC[0])), exports())
    dynamic = run(["readelf", "-d", LIBRARY]).output.decode()
    tried.report.expect("its soname", "soname: [libjiponuwha.so.1]" in dynamic, dynamic)
    needed = re.findall(r"\(NEEDED\).*\[(.*)\]", dynamic)
    tried.report.same("it needs the C library alone", needed, ["libc.so.6"])
    tried.report.expect("it is position-independent", "TEXTREL" not in dynamic, dynamic)


# ---- Clients ----


def clients(tried: Place, compiler: str) -> None:
    """Runs the tests in C or C++ with this compiler."""
    has_sanitizers = tried.has_sanitizers(compiler)
    for source in SOURCES[STANDARDS[compiler]]:
        client(tried, compiler, TOP / "tests" / "c" / source, has_sanitizers)


def is_first(compiler: str) -> bool:
    """Whether this is the first compiler of its language here."""
    return compiler == next(it for it, standard in STANDARDS.items() if standard == STANDARDS[compiler] and shutil.which(it))


def client(tried: Place, compiler: str, source: Path, has_sanitizers: bool) -> None:
    """Runs one program: plain and with sanitizers, and by the first compiler of its language under valgrind and over the static library,
    since both look at the library, which is the same for all."""
    name = f"{compiler}-{source.stem}"
    if tried.compile(compiler, source, name, *SHARED):
        if is_first(compiler):
            tried.passes_checked(name)
        else:
            tried.passes(f"{name} runs", [f"./{name}"])
    if is_first(compiler) and tried.compile(compiler, source, f"{name}-static", *STATIC):
        tried.passes(f"{name}-static runs", [f"./{name}-static"])
    if has_sanitizers and tried.compile(compiler, source, f"{name}-sanitized", *SHARED, *SANITIZED):
        tried.passes(f"{name}-sanitized runs", [f"./{name}-sanitized"])


def sanitized_library(tried: Place) -> None:
    """Runs the tests with the C code of the library under sanitizers too."""
    if not tried.has_sanitizers("gcc"):
        return
    built = tried.runs("a sanitized library", [str(C / "build.sh"), "sane"], {"CC": "gcc", "CFLAGS": " ".join(SANITIZED)})
    for name in SOURCES["c11"] if built else []:
        program = f"sane-{Path(name).stem}"
        if tried.compile("gcc", TOP / "tests" / "c" / name, program, "sane/lib/libjiponuwha.a", *SANITIZED):
            tried.passes(f"{name} over it", [f"./{program}"])


def refused_growths(tried: Place) -> None:
    """Refuses each growth of memory in turn."""
    if platform.libc_ver()[0] != "glibc":
        tried.report.skip("refused growths", "the C library is not glibc")
        return
    for name, library in (("refused", SHARED), ("refused-static", STATIC)):
        if tried.compile("gcc", TOP / "tests" / "c" / "refused.c", name, *library):
            tried.passes(f"{name} runs", [f"./{name}"])


def compilers(tried: Place) -> None:
    for compiler in STANDARDS:
        if shutil.which(compiler):
            clients(tried, compiler)
        else:
            tried.report.skip(f"clients by {compiler}", f"there is no {compiler}")
    if shutil.which("gcc"):
        sanitized_library(tried)
        refused_growths(tried)
    if not shutil.which("valgrind"):
        tried.report.skip("runs under valgrind", "there is no valgrind")


# ---- Examples ----


def examples(tried: Place, compiler: str) -> None:
    """Runs the programs of the header and of the page unchanged."""
    tried.write("work.c", WORK.encode())
    tried.write("start.c", quick_start().encode())
    programs = re.findall(r"(?ms)^```c\n(.*?)^```$", PAGE.read_text())
    whole = [it for it in programs if "int main(" in it]
    tried.report.expect("docs/LIBRARY.md has programs", len(whole) > 0)
    for at, program in enumerate(whole):
        tried.write(f"page-{at}.c", program.encode())
    tried.compile(compiler, Path("work.c"), "work", *SHARED)
    for name in ["start", *(f"page-{at}" for at in range(len(whole)))]:
        if tried.compile(compiler, Path(f"{name}.c"), name, *SHARED):
            tried.runs(f"{name} has its floppy", ["./work"])
            tried.runs(f"{name} runs", [f"./{name}"])
            if name == "start":
                tried.runs("the quick start copies a file", ["./work", "work.adf", "Docs/copy"])


def odd_prefix(tried: Place, source: str) -> None:
    """Builds programs by pkg-config over libraries in a directory whose name a shell has to quote."""
    place = 'a "b" #c'
    if not tried.runs("installed in a directory with a space", [str(C / "build.sh"), place]):
        return
    for name in ("jiponuwha", "jiponuwha-shared"):
        line = f'eval "gcc -std=c11 {source} -o by-{name} $(pkg-config --cflags --libs {name})"'
        if tried.runs(f"built there by {name}", ["bash", "-e", "-c", line], {"PKG_CONFIG_PATH": f"{place}/lib/pkgconfig"}):
            tried.passes("it runs", [f"./by-{name}"])


def builders(tried: Place) -> None:
    """Builds programs that find the shared library by pkg-config and by CMake."""
    source = str(TOP / "tests" / "c" / "whole.c")
    if shutil.which("pkg-config"):
        found = {"PKG_CONFIG_PATH": "here/lib/pkgconfig"}
        flags = run(["pkg-config", "--cflags", "--libs", "jiponuwha-shared"], env=found).output.decode().split()
        if tried.runs("built by pkg-config", ["gcc", "-std=c11", source, "-o", "by-pkg-config", *flags]):
            tried.passes("it runs", ["./by-pkg-config"])
        said = [run(["pkg-config", "--modversion", it], env=found).output.decode().strip() for it in ("jiponuwha", "jiponuwha-shared")]
        tried.report.same("pkg-config says the header's version", said, [".".join(version())] * 2)
        odd_prefix(tried, source)
    else:
        tried.report.skip("the pkg-config file", "there is no pkg-config")
    if shutil.which("cmake"):
        os.mkdir("cmake")
        tried.write("cmake/CMakeLists.txt", CMAKE.format(source).encode())
        words = ["cmake", "-S", "cmake", "-B", "cmake/built", f"-DCMAKE_PREFIX_PATH={tried.top}/here"]
        if tried.runs("cmake", words) and tried.runs("built by cmake", ["cmake", "--build", "cmake/built"]):
            tried.passes("it runs", ["cmake/built/whole"])
    else:
        tried.report.skip("the CMake file", "there is no cmake")


def main() -> int:
    report = Report()
    with Place(report) as tried:
        report.ends("the texts", partial(texts, report))
        report.ends("the lists", partial(lists, report))
        if put_in_place(tried):
            parts: Dict[str, Callable[[], None]] = {"the symbols": partial(symbols, tried), "clients": partial(compilers, tried)}
            if shutil.which("gcc"):
                parts = {**parts, "examples": partial(examples, tried, "gcc"), "builders": partial(builders, tried)}
            for name, part in parts.items():
                report.ends(name, part)
    return report.end()


if __name__ == "__main__":
    sys.exit(main())
