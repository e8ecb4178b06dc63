#!/usr/bin/env python3
"""Prints the dependencies in crates.txt that a crate does not use: tools/edges.py

Code may use a dependency, or a definition, or only a proof. If no code uses it, the line before the crate's says for what it is:
`# (for definitions: NAME..; for proofs: NAME..)`.
"""
import re
import sys
from pathlib import Path
from typing import Dict, Iterator, List, Set, Tuple

sys.dont_write_bytecode = True

TOP = Path(__file__).resolve().parent.parent
NO_CODE = ("//", "ghost use", "#[tactic")


def crates() -> Iterator[Tuple[str, List[str], Dict[str, Set[str]]]]:
    """Each crate with its dependencies, and those that the line before says to be for definitions or for proofs."""
    said: Dict[str, Set[str]] = {}
    for line in (TOP / "crates.txt").read_text().splitlines():
        found = re.match(r"([a-z0-9_]+)[^:#]*:([^#]*)", line)
        if found:
            yield found[1], found[2].split(), said
        said = {kind: set(names.split()) for kind, names in re.findall(r"for (definitions|proofs): ([a-z0-9_ ]+)", line)} if line.startswith("# (") else {}


def texts(name: str, part: str, kind: str) -> List[str]:
    return [it.read_text() for it in (TOP / "crates" / name / part).rglob(f"*.{kind}")]


def use_of(name: str, below: str) -> str:
    """For what a crate uses a dependency."""
    code = texts(name, "src", "rt")
    lines = (line for text in code for line in text.splitlines() if not line.lstrip().startswith(NO_CODE))
    if any(re.search(rf"(?<![\w.]){below}::", line) for line in lines):
        return "code"
    if any(f"Rattle.{below}." in text for text in [*code, *texts(name, "specs", "antt")]):
        return "definitions"
    return "proofs" if any(f"Rattle.{below}." in text for text in texts(name, "proofs", "antt")) else "nothing"


def main() -> int:
    known = {it.name for it in (TOP / "crates").iterdir()}
    faults = 0
    for name, dependencies, said in crates():
        for below in dependencies:
            use = use_of(name, below) if below in known else "code"
            wanted = next((kind for kind, names in said.items() if below in names), "code")
            if use != wanted:
                faults += 1
                print(f"crates.txt: {name} uses {below} for {use}, and not for {wanted}")
        for below in sorted(set().union(*said.values()) - set(dependencies)):
            faults += 1
            print(f"crates.txt: {name} does not depend on {below}")
    return 1 if faults else 0


if __name__ == "__main__":
    sys.exit(main())
