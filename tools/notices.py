#!/usr/bin/env python3
"""Names the crates of the kit that are compiled into the program and the library for C, with the licences that the kit's files state:

    tools/notices.py FOLDER     writes FOLDER/NOTICES, and the files with licences to FOLDER/notices/CRATE/

tools/wheel and tools/debian put the same into their packages. The crates are those that the kit compiles for the crates of
crates.txt.
"""
from __future__ import annotations

import re
import sys
import textwrap
from collections.abc import Callable
from pathlib import Path
from types import ModuleType

sys.dont_write_bytecode = True
import kit

TOP = Path(__file__).resolve().parent.parent
PROGRAM, LIBRARY = "adf_serve", "adf_c"
LICENCES = re.compile(r"(LICEN[CS]E|NOTICE|COPYING|COPYRIGHT|UNLICENSE)")
# What the text of a licence begins with, or has in its first sentence.
KINDS = {
    "Apache License 2.0": re.compile(r"\s*Apache License\s+Version 2\.0, January 2004\s"),
    "Boost Software License 1.0": re.compile(r"\s*Boost Software License - Version 1\.0\b"),
    "Unicode License v3": re.compile(r"\s*UNICODE LICENSE V3\s"),
    "MIT License": re.compile(r"(?s).{0,400}?Permission is hereby granted, free of charge, to any\s+person obtaining a copy\s+of this software"),
}
NO_LICENCE = "The repository of jiponuwha states no licence for its own files."
HEAD = """The compiled files contain code of the crates below, which come with the Rattle kit. Each line has the licences that the files
of the crate in the kit state."""

# The files with licences of each crate: their names and texts.
Notices = dict[str, dict[str, str]]


def reader() -> ModuleType:
    """Returns the module of the kit that reads crates. Without the kit, it ends the script."""
    try:
        return kit.load("rtlib.py")
    except FileNotFoundError:
        print("notices: the Rattle kit is not there, whose files state the licences of its crates", file=sys.stderr)
        sys.exit(2)


def crates_of_kit(names: list[str]) -> list[str]:
    """Returns the names of the kit's crates that are compiled into these crates of the repository."""
    rtlib = reader()
    wanted = [it for it in rtlib.crates_below(str(TOP)) if it.name in names]
    listed = [of for crate in wanted for it in [crate, *crate.below()] for of in it.of_kit]
    return sorted({word.partition(":")[0] for word in rtlib.kit_sources(listed) if word != "--lib"})


def notices_of(names: list[str]) -> Notices:
    """Returns the licences of the kit's crates that are compiled into these crates of the repository."""
    crates = Path(reader().KIT) / "rattle"
    found = {}
    for name in crates_of_kit(names):
        files = [it for it in sorted((crates / name).iterdir()) if it.is_file() and LICENCES.match(it.name)]
        found[name] = {it.name: it.read_text() for it in files}
    return found


def kind_of(text: str) -> str:
    """Returns the name of a licence, or an empty text if it is none of the known ones."""
    return next((name for name, begins in KINDS.items() if begins.match(text)), "")


def listed(notices: Notices) -> str:
    """Returns the list of crates: a line for each, with its licences."""
    lines = []
    for crate, files in notices.items():
        kinds = [f"{kind_of(text) or 'another licence'} ({file})" for file, text in files.items()]
        lines.append(f"{crate}: {', '.join(kinds) or 'no file of the kit states a licence'}")
    return f"{NO_LICENCE}\n\n{HEAD}\n\n" + "".join(f"{it}\n" for it in lines)


def whole(notices: Notices, shown: Callable[[str], str] = str.strip) -> str:
    """Returns the list of crates and then the texts of their licences, each once, as a function shows them."""
    owners: dict[str, list[str]] = {}
    for crate, files in notices.items():
        for file, text in files.items():
            owners.setdefault(shown(text), []).append(f"{crate} ({file})")
    heads = {text: textwrap.fill(", ".join(names), 120) for text, names in owners.items()}
    return listed(notices) + "".join(f"\n----\n{heads[text]}\n----\n\n{text}\n" for text in owners)


def main(words: list[str]) -> int:
    if len(words) != 1 or words[0].startswith("-"):
        print(__doc__, end="", file=sys.stderr)
        return 2
    to, notices = Path(words[0]).absolute(), notices_of([PROGRAM, LIBRARY])
    to.mkdir(parents=True, exist_ok=True)
    (to / "NOTICES").write_text(listed(notices))
    for crate, files in notices.items():
        for name, text in files.items():
            (to / "notices" / crate).mkdir(parents=True, exist_ok=True)
            (to / "notices" / crate / name).write_text(text)
    return 0


if __name__ == "__main__":
    sys.exit(main(sys.argv[1:]))
