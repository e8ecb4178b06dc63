#!/usr/bin/env python3
"""Checks the table of worked cases in docs/TESTED.md against the tests.

Each row has one or more places: `tests/cases` with directories there, `cases` with tests of that crate, or a file of tests with texts
or functions in it. Prints each that is missing; the status is then 1.
"""
import re
import sys
from pathlib import Path
from typing import Iterator

TOP = Path(__file__).resolve().parent.parent
PAGE = TOP / "docs/TESTED.md"
HEADING = "## Worked cases"


def rows() -> Iterator[tuple[str, str]]:
    """Yields both cells of each row of the table."""
    _, _, behind = PAGE.read_text(encoding="utf-8").partition(f"\n{HEADING}\n")
    for case, place in re.findall(r"(?m)^\| (.+?) \| (.+) \|$", re.split(r"(?m)^##+ ", behind)[0]):
        if case != "Case":
            yield case, place


def named(place: str) -> Iterator[tuple[str, str]]:
    """Yields the places that a cell has: where, and the name there, which is empty if none follows."""
    where, is_named = "", True
    for word in [*re.findall(r"`([^`]+)`", place), "cases"]:
        if word == "cases" or re.fullmatch(r"tests/(cases|\w+\.py)", word):
            if not is_named:
                yield where, ""
            where, is_named = word, False
        else:
            yield where, word
            is_named = True


def is_there(where: str, name: str, tests: set[str]) -> bool:
    if not name:
        return False
    if where == "tests/cases":
        return (TOP / where / name / "about").is_file()
    if where == "cases":
        return name in tests
    text = (TOP / where).read_text(encoding="utf-8") if (TOP / where).is_file() else ""
    return f'"{name}"' in text or f"def {name}(" in text


def main() -> int:
    sources = "\n".join(it.read_text(encoding="utf-8") for it in sorted((TOP / "crates/cases/src").glob("*.rt")))
    tests = {*re.findall(r"#\[test\]\s+fn (\w+)", sources)}
    found = list(rows())
    faults = [f"{case}: {where or 'no place'} has no test {name!r}" for case, place in found for where, name in named(place) if not is_there(where, name, tests)]
    faults += [f"{case}: there is no place" for case, place in found if not any(name for _, name in named(place))]
    faults += [f"{case} has two rows" for case in {case for case, _ in found} if [it for it, _ in found].count(case) > 1]
    print("\n".join(faults or ([] if found else ["there is no table"])), end="\n" if faults or not found else "")
    return 1 if faults or not found else 0


if __name__ == "__main__":
    sys.exit(main())
