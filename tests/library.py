#!/usr/bin/env python3
"""Builds the tests and examples of the C library and the first program of docs/LIBRARY.md with the compilers of this machine,
and runs them.

    tests/library.py [PROGRAM]     the program `adf_serve` to compare with; the default is that of this repository, if it is built
"""
from __future__ import annotations

import os
import re
import shutil
import sys
from functools import partial
from pathlib import Path
from typing import List, Optional, Sequence, Tuple

sys.dont_write_bytecode = True

from harness import TOP, Report, Room, Variables, built_program, fault_of, run
from walk import LIBRARY, code_of, first_floppy, first_program, in_new, link_lines, page_of, walk

TESTS, EXAMPLES = TOP / "tests" / "c", TOP / "examples" / "c"
HEADER = TOP / "bindings/c/jiponuwha.h"
PACKET, ACTIONS = (TOP / f"crates/ados_model/specs/{it}.antt" for it in ("Packet", "Actions"))
CALLS, READ_ONLY = (TOP / f"crates/adf_c/specs/{it}.antt" for it in ("Calls", "ReadOnly"))
FAULTS, STATUS = (TOP / f"crates/adf_c/specs/{it}.antt" for it in ("Faults", "Status"))
BUILT = TOP / "crates/adf_c/out/libadf_c.a"
STRICT = ["-Wall", "-Wextra", "-Wpedantic", "-Werror"]
SANITIZED = ["-fsanitize=address,undefined", "-fno-sanitize-recover=all"]
VALGRIND = ["valgrind", "-q", "--error-exitcode=9", "--leak-check=full"]
# Constants of the header, each with the file and the line of the definition that has its number.
STATED = """
DOSTRUE = -1|ados_model/specs/Packet.antt|dos_true = negsuc 0
DOSFALSE = 0|ados_model/specs/Packet.antt|dos_false = pos 0
EXCLUSIVE_LOCK = -1|ados_model/specs/Objects.antt|is_exclusive_mode (negsuc zero) = true
SHARED_LOCK = -2|ados_model/specs/Objects.antt|is_exclusive_mode _ = false
OFFSET_BEGINNING = -1|ados_model/specs/Objects.antt|seek_base position size (negsuc zero) = Some 0
OFFSET_CURRENT = 0|ados_model/specs/Objects.antt|seek_base position size (pos zero) = Some position
OFFSET_END = 1|ados_model/specs/Objects.antt|seek_base position size (pos (suc zero)) = Some size
ROOT = 1|ados_model/specs/Objects.antt|entry_type None content = pos 1
DIRECTORY = 2|ados_model/specs/Objects.antt|entry_type (Some dir) (Directory keys) = pos 2
FILE = -3|ados_model/specs/Objects.antt|entry_type (Some dir) (File bytes) = negsuc 2
VALIDATED = 82|ados_model/specs/Objects.antt|state = 82;
WRITE_PROTECTED = 80|adf_c/specs/ReadOnly.antt|protected_body (Disk info) = Disk (record info { state = 80 })
ROLE_FREE = 0|adf_c/specs/Owners.antt|told_owner block Free = record { role = 0; header = 0; index = 0 }
ROLE_BOOT = 1|adf_c/specs/Owners.antt|told_owner block Boot = record { role = 1; header = 0; index = 0 }
ROLE_ROOT = 2|adf_c/specs/Owners.antt|told_owner block Root = record { role = 2; header = block; index = 0 }
ROLE_BITMAP = 3|adf_c/specs/Owners.antt|told_owner block (Page i) = record { role = 3; header = 0; index = i }
ROLE_DIRECTORY = 4|adf_c/specs/Owners.antt|told_owner block Directory = record { role = 4; header = block; index = 0 }
ROLE_FILE = 5|adf_c/specs/Owners.antt|told_owner block File = record { role = 5; header = block; index = 0 }
ROLE_EXTENSION = 6|adf_c/specs/Owners.antt|told_owner block (Extension file k) = record { role = 6; header = file; index = k }
ROLE_DATA = 7|adf_c/specs/Owners.antt|told_owner block (Data file k) = record { role = 7; header = file; index = k }
ROLE_LOST = 8|adf_c/specs/Owners.antt|told_owner block Lost = record { role = 8; header = 0; index = 0 }
STATE_DIRECTORY = 1|adf_c/specs/Salvaged.antt|told_state Directory = 1
STATE_WHOLE = 2|adf_c/specs/Salvaged.antt|told_state Whole = 2
STATE_BROKEN = 3|adf_c/specs/Salvaged.antt|told_state (Broken missing cut size) = 3
STATE_LOST = 4|adf_c/specs/Salvaged.antt|told_state Lost = 4
STATE_DOUBTFUL = 5|adf_c/specs/Salvaged.antt|told_state (Doubtful header size) = 5
STATE_DOUBTFUL_DIRECTORY = 6|adf_c/specs/Salvaged.antt|told_state DoubtfulDirectory = 6
NAME_BYTES = 30|ados_name/specs/Name.antt|pub short : length name ≤ 30
COMMENT_BYTES = 79|ados_name/specs/Name.antt|pub short : length comment ≤ 79
PATH_BYTES = 255|ados_name/specs/Path.antt|pub short : length path ≤ 255
BLOCK_BYTES = 512|adf_block/src/layout.rt|pub const BLOCK_BYTES: u32 = 512;
FEWEST_BLOCKS = 16|adf_block/src/layout.rt|pub const FEWEST_BLOCKS: u32 = 16;
MOST_BLOCKS = 101602|adf_block/src/layout.rt|pub const MOST_BLOCKS: u32 = 101_602;
"""
# What the example of a handler prints.
HANDLED = b"""1006: -1 0
87: 8 0
1008: 8 0
1007: -1 0
23: -1 0
24: -1 0
hello has 8 bytes
999: 0 209
"""


# ---- The header's numbers, which need no compiler ----

Numbers = List[Tuple[str, str]]


def spelled(name: str) -> str:
    """The name of a number in the header's spelling."""
    divided = re.sub(r"([a-z])([A-Z])", r"\1_\2", name).replace("ADos", "A_Dos").upper()
    joined = re.sub(r"^(FIND|DIRECTORY)_(UPDATE|INPUT|OUTPUT|NOT_FOUND)$", r"\1\2", divided)
    return re.sub(r"^DIRECTORYNOT", "DIR_NOT", joined)


def proved_numbers(file: Path, function: str) -> Numbers:
    """The rows of a definition of numbers."""
    rows = re.findall(rf"(?m)^{function} (?:action\.)?([A-Za-z]+) = (?:pos )?([0-9]+)$", file.read_text())
    return sorted((spelled(name), number) for name, number in rows)


def declared_numbers(prefix: str) -> Numbers:
    """The header's constants of that prefix."""
    return sorted(re.findall(rf"(?m)^ *{prefix}([A-Z_]+) = ([0-9]+),?$", HEADER.read_text()))


def declares(constant: str) -> bool:
    """Whether the header has a constant, which is given as `NAME = NUMBER`."""
    return re.search(rf"(?m)JIP_{constant}(,| |$)", HEADER.read_text()) is not None


def other_than(declared: Numbers, proved: Numbers) -> Optional[str]:
    """What is wrong if the header's constants are not the proved numbers."""
    if not proved:
        return "no proved numbers"
    return None if declared == proved else f"only one has each of {sorted(set(declared) ^ set(proved))}"


def undeclared(proved: Numbers) -> Optional[str]:
    """What is wrong if proved numbers are missing in the header."""
    lacking = [f"no JIP_{name} = {number}" for name, number in proved if not declares(f"{name} = {number}")]
    return "; ".join(lacking) or (None if proved else "no proved numbers")


def unstated() -> Optional[str]:
    """What is wrong if the header lacks another constant, or the definition does not have its line."""
    faults = []
    for constant, file, wanted in (it.split("|") for it in STATED.split("\n") if it):
        lines = (TOP / f"crates/{file}").read_text().split("\n")
        faults += [] if declares(constant) else [f"no JIP_{constant}"]
        faults += [] if wanted in (it.lstrip(" ") for it in lines) else [f"no line '{wanted}' in crates/{file}"]
    return "; ".join(faults) or None


def numbers(tried: Library) -> None:
    """The numbers in the header."""
    report = tried.report
    actions = declared_numbers("JIP_ACTION_")
    report.hold("the numbers of actions", other_than(actions, proved_numbers(ACTIONS, "action_number")))
    protected = re.findall(r"res2 = pos ([0-9]+);", READ_ONLY.read_text())
    errors = [*proved_numbers(PACKET, "error_number"), *(("DISK_WRITE_PROTECTED", it) for it in protected)]
    report.hold("the numbers of errors", other_than(declared_numbers("JIP_ERROR_"), sorted(errors)))
    faults = [it for it in declared_numbers("JIP_FAULT_") if it[0] != "NONE"]
    proved = [it for it in proved_numbers(FAULTS, "fault_number") if it[0] != "NO_MEMORY"]
    report.hold("the numbers of faults", other_than(faults, sorted(proved + proved_numbers(FAULTS, "size_fault_number"))))
    report.hold("the numbers of a status", undeclared(proved_numbers(STATUS, "refusal_number")))
    report.hold("the numbers of formats", undeclared(proved_numbers(CALLS, "format_number")))
    report.hold("the numbers of results, modes, types, states and limits", unstated())
    functions = re.findall(r"(?m)^static inline void jip_([a-z_]+)\(", HEADER.read_text())
    lacking = [name for name, _ in actions if name.lower() not in functions]
    report.expect("each action has its function", not lacking, f"none for {lacking}")


# ---- The library in C and C++ ----


class Library(Room):
    """The room for the library, below `here`, and for programs that use it."""

    def runs(self, name: str, command: Sequence[str], env: Variables = None) -> bool:
        """A command of this machine succeeds. Returns whether it did."""
        ran = run(command, env=env, longest=None)
        self.report.expect(name, ran.status == 0, ran)
        return ran.status == 0

    def passes(self, name: str, command: Sequence[str]) -> None:
        """The command succeeds, and its last line is `N passed, 0 failed`."""
        ran = run(command, longest=None)
        passed = ran.status == 0 and re.search(rb"(^|\n)[1-9][0-9]* passed, 0 failed\n?$", ran.output) is not None
        self.report.expect(name, passed, ran)

    def passes_checked(self, name: str) -> None:
        """A program in the room passes, and again under valgrind, if it is installed."""
        self.passes(f"{name} runs", [f"./{name}"])
        if shutil.which("valgrind"):
            self.passes(f"{name} under valgrind", [*VALGRIND, f"./{name}"])

    def has_sanitizers(self, compiler: str) -> bool:
        """Whether a compiler has the libraries of its sanitizers."""
        self.write("empty.c", b"int main(void) { return 0; }\n")
        found = run([compiler, *SANITIZED, "empty.c", "-o", "empty"]).status == 0
        if not found:
            self.report.lacks(f"{compiler} with sanitizers", "library of them")
        return found

    def build(self, compiler: str, name: str, *flags: str) -> None:
        """Builds a test or an example. The name up to a dash is that of its source."""
        source = f"{name.partition('-')[0]}.c"
        place = TESTS if (TESTS / source).exists() else EXAMPLES
        words = [compiler, "-std=c11", "-O1", "-g", *STRICT, "-Ihere/include", str(place / source), *flags]
        self.report.succeeds(f"{compiler} {name}", [*words, "-Lhere/lib", "-ljiponuwha", "-lpthread", "-o", f"{compiler}-{name}"])


def put_in_place(tried: Library) -> bool:
    """Whether a library of the present sources is below `here`. If the proved one is not built, but the gate built everything below it,
    it is built. Where there is no proved one, the one without proof is used. It is compiled if it is missing, which takes two minutes."""
    report, build = tried.report, str(TOP / "bindings/c/build.sh")
    tools = [it for it in ("ar", "rt", os.environ.get("CC") or "cc") if not shutil.which(it)]
    if tools:
        report.lacks("the library", tools[0])
        return False
    if not BUILT.is_file():
        run([str(TOP / "tools/gate_libraries")], longest=None)
        if (TOP / "crates/ados_handler/out/rlib/stamp").is_file():
            run(["timeout", "900", build, "--prove", "here"], longest=None)
    ran = run([build, "here"], longest=None)
    report.expect("the library is put in its place", ran.status == 0, ran)
    if ran.status == 0 and not is_proved(Path("here")):
        report.skip("the proved library", "it is not built, or not of these sources; the one without proof is tested")
    return ran.status == 0


def is_proved(place: Path) -> bool:
    """Whether the library that is installed there is proved."""
    return b"(not proved)" not in (place / "lib/libjiponuwha.a").read_bytes()


def is_first(compiler: str) -> bool:
    """Whether this is the first C compiler here. What looks at the library, and not at its header, needs only one."""
    return compiler == "gcc" or not shutil.which("gcc")


def tests(tried: Library, compiler: str) -> None:
    """The tests in C with this compiler, plain and sanitized; with the first one under valgrind, and over 10,000 changed images."""
    sanitized = tried.has_sanitizers(compiler)
    for name in ("cases", "calls", "threads", *["changed"] * is_first(compiler)):
        tried.build(compiler, name)
        # (10,000 images take valgrind 20 seconds)
        if is_first(compiler) and name != "changed":
            tried.passes_checked(f"{compiler}-{name}")
        else:
            tried.passes(f"{compiler}-{name} runs", [f"./{compiler}-{name}"])
        if sanitized:
            tried.build(compiler, f"{name}-sanitized", *SANITIZED)
            tried.passes(f"{compiler}-{name}-sanitized runs", [f"./{compiler}-{name}-sanitized"])


def examples(tried: Library, compiler: str) -> None:
    """The examples in C with this compiler."""
    report = tried.report
    for name in ("tour", "handler", "drawn"):
        tried.build(compiler, name)
    shared = [compiler, "-shared", "-fPIC", *STRICT, "-std=c11", "-Ihere/include", str(EXAMPLES / "tour.c"), "-Wl,-z,text"]
    report.succeeds(f"{compiler} shared library", [*shared, "-Lhere/lib", "-ljiponuwha", "-o", f"{compiler}-tour.so"])
    Path("tour.adf").unlink(missing_ok=True)
    for name in ("tour runs", "tour runs on the image that it saved"):
        report.succeeds(f"{compiler} {name}", [f"./{compiler}-tour", "tour.adf"])
    report.check(f"{compiler} handler runs", run([f"./{compiler}-handler"]), 0, HANDLED)
    for words in ([f"./{compiler}-tour", "tour.adf"], [f"./{compiler}-handler"]) if is_first(compiler) and shutil.which("valgrind") else []:
        checked = ["valgrind", "-q", "--error-exitcode=9", "--leak-check=full", *words]
        ran = run(checked)
        # (valgrind reports debug information that it does not know)
        report.expect(f"{words[0][2:]} under valgrind", ran.status == 0, ran)


def program_of_page(tried: Library, compiler: str) -> None:
    """The first program of docs/LIBRARY.md, built as the page says and run on the page's floppy."""
    page, front = page_of(LIBRARY), in_new(tried, f"{compiler}-first")
    tried.write(f"{compiler}-first/first.c", first_program(page))
    lines = link_lines(page, tried.top / "here", f"{compiler} -std=c11 -Wall -Wextra -Werror")
    tried.report.succeeds(f"{compiler} LIBRARY.md: the first program", [*front, "bash", "-e", "-c", lines])
    first_floppy(front)
    walk(tried.report, f"{compiler} LIBRARY.md", page, front)


def drawn(tried: Library, compiler: str, kind: str, seed: int) -> Optional[str]:
    """What is wrong if a random client differs from the program with its script."""
    blank = tried.run("blank", *(["--ffs"] if kind == "ffs" else []), "Work", "floppy.adf")
    client = run([f"./{compiler}-drawn", str(seed), "floppy.adf", "script", "wanted", "mine.adf"])
    fault = fault_of(blank) or fault_of(client, 0, None)
    if fault:
        return fault
    served = tried.run("serve", "--out", "theirs.adf", "floppy.adf", "script")
    fault = fault_of(served, 0, tried.content("wanted"))
    same = fault is None and tried.content("mine.adf") == tried.content("theirs.adf")
    return fault or (None if same else "the images differ")


def beside_program(tried: Library, compiler: str) -> None:
    """The tests that need the program adf_serve."""
    if not os.access(tried.program, os.X_OK):
        tried.report.lacks("the random client", "program adf_serve")
        return
    for seed in range(1, 6):
        for kind in ("ffs", "ofs"):
            tried.report.hold(f"{compiler} drawn {kind} {seed}", drawn(tried, compiler, kind, seed))
    if shutil.which("pkg-config"):
        program_of_page(tried, compiler)
    else:
        tried.report.lacks(f"{compiler} LIBRARY.md: the first program", "pkg-config")


def by_compilers(tried: Library) -> None:
    """The tests of the library with each compiler."""
    report = tried.report
    for compiler in ("gcc", "clang"):
        if shutil.which(compiler):
            tests(tried, compiler)
            examples(tried, compiler)
            beside_program(tried, compiler)
        else:
            report.lacks(f"C by {compiler}", compiler)
    for compiler in ("g++", "clang++"):
        if not shutil.which(compiler):
            report.lacks(f"C++ by {compiler}", compiler)
            continue
        words = [compiler, "-std=c++11", *STRICT, "-Ihere/include", str(TESTS / "header.cc")]
        report.succeeds(f"{compiler} header", [*words, "-Lhere/lib", "-ljiponuwha", "-o", f"{compiler}-header"])
        tried.passes(f"{compiler} header runs", [f"./{compiler}-header"])
    if not shutil.which("valgrind"):
        report.lacks("runs under valgrind", "valgrind")


def by_builders(tried: Library) -> None:
    """The files by which others find the library."""
    report = tried.report
    if shutil.which("pkg-config"):
        found = {"PKG_CONFIG_PATH": "here/lib/pkgconfig"}
        report.succeeds("pkg-config", ["pkg-config", "--exists", "jiponuwha"], env=found)
    else:
        report.lacks("the pkg-config file", "pkg-config")
    if shutil.which("cmake") and shutil.which("gcc"):
        page = page_of(LIBRARY)
        os.mkdir("cmake")
        tried.write("cmake/CMakeLists.txt", code_of(page, "cmake")[0].encode())
        tried.write("cmake/first.c", first_program(page))
        report.succeeds("cmake", ["cmake", "-S", "cmake", "-B", "cmake/built", f"-DCMAKE_PREFIX_PATH={tried.top}/here"])
        report.succeeds("cmake builds", ["cmake", "--build", "cmake/built"])
    else:
        report.lacks("the CMake file", "cmake")


def main(words: List[str]) -> int:
    report = Report()
    with Library(built_program(words), report) as tried:
        tried.part(numbers)
        if put_in_place(tried):
            tried.part(by_compilers)
            tried.part(by_builders)
    return report.end()


if __name__ == "__main__":
    sys.exit(main(sys.argv[1:]))
