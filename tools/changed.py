#!/usr/bin/env python3
"""Finds the parts of ./test that a change touches: `./test changed` runs them.

    tools/changed.py [COMMIT]   prints a line for each part, with the first file that touches it: `NAME (FILE)`, `proofs:CRATE .. (FILE)`
                                or `everything (FILE)`
    tools/changed.py --check    prints each file that the table below lacks, and each row that is not right

A change is all that differs from COMMIT, with files that are not committed. Without COMMIT it is what is not on `origin/main`, or
else the last commit and what is not committed. A file that no row has touches everything.
"""
from __future__ import annotations

import ast
import re
import subprocess
import sys
from collections.abc import Iterator
from dataclasses import dataclass, field
from fnmatch import fnmatchcase
from functools import lru_cache
from pathlib import Path

TOP = Path(__file__).resolve().parent.parent
EVERYTHING = "everything"
# The parts that run the program, and those that use the library for C.
PROGRAM = (
    "both walk commands files bundles cases kills archive validate where undelete rescued hostile fuzz sweep boots completions"
    " library emulator mount dist"
)
LIBRARY = "library shared python jip amiga emulator mount dist"
# The parts that a crate's code touches, by a crate that stands on it.
OVER = {"adf_serve": f"first {PROGRAM}", "adf_c": f"first {LIBRARY}", "cases": "growths"}

# Which parts a file touches: those of each row that its path matches. Every change touches `pages` too, because pages name files of
# all kinds. `proofs` are those of the file's crate and of the crates above it, with its wrong bodies, and `code` also the parts of
# OVER. `scripts` are the parts whose scripts import the file.
ROWS = [
    ("crates/*/src/*", "edits code"),
    ("crates/*/specs/*", "edits proofs"),
    ("crates/*/proofs/*", "proofs"),
    ("crates/*/args", "code"),
    ("crates/*/std*", "code"),
    ("crates/*/wrong-bodies/*", "edits"),
    ("crates/*/wrong-bodies/gate/*", "bodies"),
    ("crates/*/README.md", ""),
    # (tables of the library are compared with definitions)
    ("crates/*/specs/*", "library"),
    ("crates/adf_cli/src/*", "shared"),
    ("crates.txt", EVERYTHING),
    ("HANDLES", EVERYTHING),
    ("test", EVERYTHING),
    (".ci/run", EVERYTHING),
    (".gitignore", ""),
    ("mypy.ini", ""),
    ("prove", "first"),
    ("adf_serve", "first walk"),
    ("jip", "jip"),
    ("README.md", "walk emulator dist"),
    ("docs/*", ""),
    ("docs/*.1", "files jip dist"),
    ("docs/*.svg", "dist"),
    ("docs/*.png", "dist"),
    ("docs/ARCHIVES.md", "jip dist"),
    ("docs/CHANGELOG.md", "dist"),
    ("docs/COMMANDS.md", "walk files hostile emulator dist"),
    ("docs/LIBRARY.md", "walk library shared python dist"),
    ("docs/QUICKSTART.md", "walk dist"),
    ("docs/SECURITY.md", "dist"),
    ("bench/*", ""),
    ("bench/jip_start", "jip"),
    ("bindings/README.md", ""),
    ("bindings/c/*", f"first {LIBRARY}"),
    ("bindings/c/*.h", f"first commands {LIBRARY}"),
    ("bindings/fuse/*", "completions mount dist"),
    ("bindings/python/*", "first python jip dist"),
    ("examples/c/*", "library shared dist"),
    ("examples/amiga/*", "emulator boots"),
    ("tests/*.py", "scripts"),
    ("tests/mount_client.py", "mount"),
    ("tests/growths.c", "growths commands"),
    ("tests/c/*", "library shared amiga"),
    ("tests/c/adflib_volumes.c", "bundles rescued jip"),
    ("tests/c/changed.c", "archive"),
    ("tests/cases/*", "cases"),
    ("tools/*.py", "scripts"),
    ("tools/case_rows.py", ""),
    ("tools/changed.py", ""),
    ("tools/contracts.py", ""),
    ("tools/edges.py", ""),
    ("tools/frames", ""),
    ("tools/commands_page.py", ""),
    ("tools/manual.py", ""),
    ("tools/messages.py", ""),
    ("tools/pages", ""),
    ("tools/pictures.py", ""),
    ("tools/reading.py", ""),
    ("tools/gate_minutes", ""),
    ("tools/mixed_check", ""),
    ("tools/command_table.py", "completions dist"),
    ("tools/completions/*", "completions jip dist"),
    ("tools/jip_manual.py", "jip"),
    ("tools/sources", f"first {PROGRAM} {LIBRARY}"),
    ("tools/program", f"first {PROGRAM} {LIBRARY}"),
    ("tools/checked_build", f"first {PROGRAM} {LIBRARY}"),
    ("tools/cut_copy.py", "first bodies"),
    ("tools/edits.py", "edits bodies"),
    ("tools/wrong_bodies", "edits bodies"),
    ("tools/kit.py", "first bodies library dist"),
    ("tools/early_library", "first"),
    ("tools/tasks", "first"),
    ("tools/gate_libraries", "first library"),
    ("tools/growths.sh", "growths"),
    ("tools/dist.sh", "dist"),
    ("tools/debian", "first dist"),
    ("tools/notices.py", "dist python"),
    ("tools/proved.py", "first dist python"),
    ("tools/wheel", "first dist python"),
]


def git(*words: str, may_fail: bool = False) -> list[str]:
    """Returns the paths or names that git prints, each ended by a zero or a new line. If it fails, the script ends, or there are none."""
    ran = subprocess.run(["git", "-C", str(TOP), *words], capture_output=True, text=True)
    if ran.returncode and not may_fail:
        sys.exit(f"changed: {ran.stderr}")
    return [it for it in re.split(r"[\0\n]", ran.stdout) if it] if ran.returncode == 0 else []


def files() -> list[str]:
    """Returns the files of the repository, also those that are not committed yet, without those that git ignores."""
    return sorted({*git("ls-files", "-z"), *git("ls-files", "-z", "--others", "--exclude-standard")})


def base(words: list[str]) -> str:
    """Returns the commit that the change is compared with."""
    if words:
        found = git("rev-parse", "--verify", f"{words[0]}^{{commit}}", may_fail=True)
        if not found:
            sys.exit(f"changed: there is no commit {words[0]}")
        return found[0]
    before = [*git("merge-base", "HEAD", "origin/main", may_fail=True), *git("rev-parse", "--verify", "HEAD~1", may_fail=True)]
    return [*before, *git("hash-object", "-t", "tree", "/dev/null")][0]


def changes(commit: str) -> list[str]:
    """Returns the files that were changed, added or removed since a commit."""
    return sorted({*git("diff", "--name-only", "--no-renames", "-z", commit), *git("ls-files", "-z", "--others", "--exclude-standard")})


@dataclass
class Crates:
    """The crates, lowest first, each with its dependencies."""

    below: dict[str, list[str]] = field(default_factory=dict)

    @staticmethod
    def read() -> Crates:
        """Reads crates.txt."""
        rows = re.findall(r"(?m)^([a-z0-9_]+)[^:#\n]*:([^#\n]*)", (TOP / "crates.txt").read_text())
        return Crates({name: below.split() for name, below in rows})

    def above(self, name: str) -> list[str]:
        """Returns a crate and all that stand on it, lowest first. The crate need not be there any longer."""
        found = {name}
        for other, below in self.below.items():
            if found.intersection(below):
                found.add(other)
        return [it for it in self.below if it in found]


@dataclass
class Parts:
    """What a change touches: parts, and crates to prove, each with the first file that touches it."""

    crates: Crates
    names: dict[str, str] = field(default_factory=dict)
    proofs: dict[str, str] = field(default_factory=dict)

    def touch(self, path: str) -> None:
        """Adds what a file touches."""
        rows = [it for pattern, named in ROWS if fnmatchcase(path, pattern) for it in named.split()]
        known = any(fnmatchcase(path, pattern) for pattern, _ in ROWS)
        for name in ["pages", *rows] if known else [EVERYTHING]:
            if name in ("code", "proofs"):
                self.touch_crate(path, name == "code")
            elif name == "scripts":
                self.add(path, parts_of_script(path))
            else:
                self.add(path, [name])

    def touch_crate(self, path: str, is_code: bool) -> None:
        """Adds the proofs of a file's crate and of those above it, with what tests them."""
        above = self.crates.above(path.split("/")[1])
        for name in above:
            self.proofs.setdefault(name, path)
            if any((TOP / "crates" / name / "wrong-bodies/gate").glob("*")):
                self.add(path, ["bodies"])
        if is_code:
            self.add(path, [it for name in above for it in OVER.get(name, "").split()])

    def add(self, path: str, names: list[str]) -> None:
        for name in names:
            self.names.setdefault(name, path)

    def steps(self) -> Iterator[tuple[str, str]]:
        """Each step that ./test is to run, with a file that touches it: what takes seconds first, then proofs, then what they make."""
        if EVERYTHING in self.names:
            yield EVERYTHING, self.names[EVERYTHING]
            return
        first = [it for it in ("edits", "pages") if it in self.names]
        yield from ((it, self.names[it]) for it in first)
        if self.proofs:
            named = [it for it in self.crates.below if it in self.proofs]
            yield f"proofs:{' '.join(named)}", self.proofs[named[0]]
        yield from ((it, self.names[it]) for it in commands() if it in self.names and it not in first)


@lru_cache(maxsize=None)
def commands() -> dict[str, list[str]]:
    """Returns the parts of ./test in their order, each with the scripts that it runs."""
    run = (TOP / "test").read_text().partition("\nrun() {\n")[2].partition("\n}\n")[0]
    rows = re.findall(r"(?m)^    (\w+)\) (.*) ;;$", run)
    return {name: re.findall(r"tests/(\w+)\.py", run) for name, run in rows}


@lru_cache(maxsize=None)
def imports(path: Path) -> set[Path]:
    """Returns the scripts of tests/ and tools/ that a script imports, directly or not, with itself."""
    found: set[Path] = set()
    left = [path]
    while left:
        file = left.pop()
        if file in found:
            continue
        found.add(file)
        for node in ast.walk(ast.parse(file.read_text())):
            names = [it.name for it in node.names] if isinstance(node, ast.Import) else []
            names += [str(node.module)] if isinstance(node, ast.ImportFrom) else []
            left += [it for name in names for it in (TOP / "tests" / f"{name}.py", TOP / "tools" / f"{name}.py") if it.is_file()]
    return found


def parts_of_script(path: str) -> list[str]:
    """Returns the parts whose scripts are this file or import it; `everything` if it is not there any longer."""
    if not (TOP / path).is_file():
        return [EVERYTHING]
    return [name for name, scripts in commands().items() if any(TOP / path in imports(TOP / f"tests/{it}.py") for it in scripts)]


def faults() -> Iterator[str]:
    """The faults of the table: files and parts that it lacks, and rows that match or name nothing."""
    every, parts, crates = files(), commands(), Crates.read()
    for path in every:
        if not any(fnmatchcase(path, pattern) for pattern, _ in ROWS):
            yield f"tools/changed.py: no row has {path}, so `./test changed` runs everything for it"
    known = {*parts, EVERYTHING, "code", "proofs", "scripts"}
    for pattern, named in ROWS:
        if not any(fnmatchcase(path, pattern) for path in every):
            yield f"tools/changed.py: no file is {pattern}"
        yield from (f"tools/changed.py: {pattern}: there is no part {it}" for it in named.split() if it not in known)
    touched = Parts(crates)
    for path in every:
        touched.touch(path)
    yield from (f"tools/changed.py: no file touches the part {it}" for it in parts if it not in touched.names and it != "gate")
    for name, scripts in parts.items():
        for script in scripts:
            yield from (f"tools/changed.py: {path} does not touch {name}, which uses it" for path in untouched(name, script, crates))


def untouched(name: str, script: str, crates: Crates) -> Iterator[str]:
    """The files that the script of a part names or imports, and that do not touch it. Code does if its crate does."""
    file = TOP / f"tests/{script}.py"
    named = re.findall(r"[\"'`/ ]((?:docs|tools|tests|bench|examples|bindings)/[\w./-]*\w|README\.md)\b", file.read_text())
    for path in sorted({*(it for it in named if (TOP / it).is_file()), *(str(it.relative_to(TOP)) for it in imports(file))}):
        touched = Parts(crates)
        touched.touch(path)
        if not {name, EVERYTHING} & set(touched.names):
            yield path


def main(words: list[str]) -> int:
    if words == ["--check"]:
        found = list(faults())
        print("".join(f"{it}\n" for it in found), end="")
        return 1 if found else 0
    if len(words) > 1 or any(it.startswith("-") for it in words):
        print(__doc__, end="", file=sys.stderr)
        return 2
    touched = Parts(Crates.read())
    for path in changes(base(words)):
        touched.touch(path)
    for name, path in touched.steps():
        print(f"{name} ({path})")
    return 0


if __name__ == "__main__":
    sys.exit(main(sys.argv[1:]))
