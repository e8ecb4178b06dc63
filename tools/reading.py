#!/usr/bin/env python3
"""Holds the lists of docs/READING.md to the files that the contracts stand on.

  tools/reading.py --check    prints each fault of the page
  tools/reading.py --write    sets the numbers of lines, removes the rows of files that a part does not stand on, and gives each
                              new file a row after the last row of its crate in its part; its first sentence is the description

A part of the page begins with one of the headings below. It lists the files that the definitions of a contract import, directly or
not, without those of the parts before it. Blocks of definitions that the page shows are those of the sources, word for word.
"""
import re
import sys
from pathlib import Path
from typing import Dict, Iterator, List, NamedTuple, Optional, Set

sys.dont_write_bytecode = True

TOP = Path(__file__).resolve().parent.parent
PAGE = TOP / "docs/READING.md"
ROW = re.compile(r"\| \[([^]]*)\]\(\.\./(crates/[^)]*)\) \| (\d+) \| (.*) \|$")
TOTAL = re.compile(r"\| \d+ files \| \d+ \| \|$")
# The most letters of a line in a listed file of definitions, and the most lines of the page before its first part.
WIDEST, LONGEST_FRONT = 120, 120


class Part(NamedTuple):
    """A part of the page: its heading, and the files that say the contract."""

    heading: str
    roots: List[str]


PARTS = [
    Part("## The headline: `run_volume`", ["ados_run/src/run.rt", "ados_run/specs/Runs.antt", "ados_run/specs/Refused.antt"]),
    Part("## Clients on threads: `serve_volume`", ["ados_run/src/serve.rt", "ados_run/specs/ServesVolume.antt"]),
    Part("## What no packet changes: `KeepsVolume`", ["ados_run/specs/Keeping.antt"]),
    Part("## The same steps give the same bytes: `same_steps_same_bytes`", ["ados_run/specs/Replays.antt"]),
    Part("## The check: `check`", ["ados_volume/src/checking.rt", "ados_volume/specs/Checked.antt"]),
    Part("## The program without arguments", ["adf_serve/src/words.rt", "adf_serve/specs/Script.antt"]),
]
# The files that say as what a value is seen.
MODELS = Part("## How values are seen", [])


def crate_file(crate: str, kind: str, path: List[str]) -> Optional[Path]:
    """The file of a module of `specs`, `proofs` or `src` of a crate. The last names may be those of a type in it."""
    top, ending = (TOP / "crates" / crate / kind), "rt" if kind == "src" else "antt"
    for count in range(len(path), 0, -1):
        file = top.joinpath(*path[:count]).with_suffix(f".{ending}")
        if file.is_file():
            return file
    return top / "lib.rt" if kind == "src" else None


def passed_on(crate: str, kind: str, name: str) -> Optional[str]:
    """The module that Lib.antt of a crate passes on under this name."""
    lib = TOP / "crates" / crate / kind / "Lib.antt"
    for line in lib.read_text().splitlines() if lib.is_file() else []:
        found = re.fullmatch(r"pub use (Rattle\.[\w.]+?)(?: as (\w+))?", line)
        if found and name in (found[2], found[1].rsplit(".", 1)[1]):
            return found[1]
    return None


def file_of(module: str) -> Optional[Path]:
    """The file of a module of this repository; none for a module of the kit."""
    _, crate, kind, *path = module.split(".")
    if not (TOP / "crates" / crate).is_dir() or not path:
        return None
    further = passed_on(crate, kind, path[0])
    if further:
        return file_of(".".join([further, *path[1:]]))
    if path[0] == "declared":
        kind, path = "src", path[1:]
    file = crate_file(crate, kind, path)
    if file is None:
        sys.exit(f"reading: no file for {module}")
    return file


def imports_of(file: Path) -> Iterator[str]:
    """The modules that a file of definitions imports. A name in braces may have its module before it."""
    for line in re.findall(r"^\s*(?:(?:pub|unfoldable)\s+)*use\s+(Rattle\.[^\n]*)", file.read_text(), re.M):
        module, _, names = line.partition(".{")
        module = module.split(" as ")[0].strip()
        inner = [it.strip().split(" as ")[0] for it in names.rstrip("} ").split(",")] if names else []
        yield from (f"{module}.{it.rsplit('.', 1)[0]}" for it in inner if re.search(r"\w\.", it))
        if not inner or any(not re.search(r"\w\.", it) for it in inner):
            yield module


def files_below(roots: List[str]) -> List[Path]:
    """These files, and all that they import."""
    seen: Dict[Path, None] = {}
    left = [TOP / "crates" / it for it in roots]
    while left:
        file = left.pop()
        if file in seen:
            continue
        seen[file] = None
        if file.suffix == ".antt":
            left.extend(found for found in map(file_of, imports_of(file)) if found)
    return list(seen)


def files_of_parts() -> List[Set[str]]:
    """The files of each part, by their paths in crates/, without those of the parts before it."""
    known: Set[str] = set()
    parts = []
    for part in PARTS:
        mine = {str(it.relative_to(TOP / "crates")) for it in files_below(part.roots)} - known
        known |= mine
        parts.append(mine)
    models = {str(it.relative_to(TOP / "crates")) for it in (TOP / "crates").glob("*/src/*.rt") if is_model(it, known)}
    return [*parts, models - known]


def is_model(file: Path, known: Set[str]) -> bool:
    """Whether a file says as what a type is seen, in a crate below the headline's."""
    crates = {it.split("/")[0] for it in known} | {"ados_port", "ados_handler", "ados_volume"}
    return file.parts[-3] in crates - {"adf_serve"} and re.search(r"^impl.* Model for (Image|Name|Comment|PathText|Text|Buffer|Volume|Handler|Exchange)\b", file.read_text(), re.M) is not None


def lines_in(name: str) -> int:
    return len((TOP / "crates" / name).read_text().splitlines())


def part_at(line: str, now: Optional[int]) -> Optional[int]:
    """The part that goes on after a line of the page."""
    if not line.startswith("## "):
        return now
    headings = [it.heading for it in [*PARTS, MODELS]]
    return headings.index(line) if line in headings else None


def total_row(names: Set[str]) -> str:
    return f"| {len(names)} files | {sum(map(lines_in, names))} | |"


def faults(lines: List[str]) -> Iterator[str]:
    """The faults of the page."""
    wanted, had, now = files_of_parts(), [set() for _ in range(len(PARTS) + 1)], None  # type: ignore[var-annotated]
    for line in lines:
        now = part_at(line, now)
        row = ROW.match(line)
        if row and now is not None:
            name = row[2].removeprefix("crates/")
            if name not in wanted[now]:
                yield f"{name} is one too many: '{[*PARTS, MODELS][now].heading}' does not stand on it"
            elif lines_in(name) != int(row[3]):
                yield f"{name} has {lines_in(name)} lines, and not {row[3]}"
            if name in had[now]:
                yield f"{name} stands there twice"
            if row[1] != name or not row[4].strip():
                yield f"{name} is called {row[1]}, and described by '{row[4]}'"
            had[now].add(name)
    for part, names, found in zip([*PARTS, MODELS], wanted, had):
        yield from (f"{it} is missing below '{part.heading}'" for it in sorted(names - found))
        if total_row(names) not in lines:
            yield f"the row of all files below '{part.heading}' is not: {total_row(names)}"
    yield from wide_lines(set().union(*wanted))
    yield from other_blocks("\n".join(lines))
    front = next((at for at, line in enumerate(lines) if line == PARTS[0].heading), len(lines))
    if front > LONGEST_FRONT:
        yield f"the page before its first part has {front} lines"


def wide_lines(names: Set[str]) -> Iterator[str]:
    """The lines of listed files that are too wide to read."""
    for name in sorted(names):
        for number, line in enumerate((TOP / "crates" / name).read_text().splitlines(), 1):
            if len(line) > WIDEST:
                yield f"crates/{name}:{number}: {len(line)} letters"


def other_blocks(page: str) -> Iterator[str]:
    """The blocks of definitions in the page that no listed file has."""
    sources = [re.sub(r"\s+", " ", it.read_text()) for it in (TOP / "crates").glob("*/specs/*.antt")]
    for block in re.findall(r"^```text\n(.*?)^```", page, re.M | re.S):
        if not any(re.sub(r"\s+", " ", block).strip() in it for it in sources):
            yield f"no definition is: {block.strip().splitlines()[0]}"


def first_words(name: str) -> str:
    """The first sentence of a file without its comment mark."""
    first = (TOP / "crates" / name).read_text().splitlines()[0]
    return re.sub(r"[.:]( .*)?$", "", re.sub(r"^(--|//!) *", "", first))


def row_of(name: str, said: str) -> str:
    return f"| [{name}](../crates/{name}) | {lines_in(name)} | {said} |"


def brought_up(lines: List[str]) -> List[str]:
    """The page with the rows of all files."""
    wanted = files_of_parts()
    now: Optional[int] = None
    made: List[str] = []
    for line in lines:
        now = part_at(line, now)
        row = ROW.match(line)
        if row and now is not None:
            name = row[2].removeprefix("crates/")
            if name in wanted[now]:
                made.append(row_of(name, row[4]))
        elif TOTAL.match(line) and now is not None:
            made.append(total_row(wanted[now]))
        else:
            made.append(line)
    for at, (part, names) in enumerate(zip([*PARTS, MODELS], wanted)):
        add_rows(made, at, names)
    return made


def add_rows(made: List[str], at: int, names: Set[str]) -> None:
    """Gives each file without a row in a part one after the last row of its crate there, or after the last row."""
    for name in sorted(names):
        now: Optional[int] = None
        mine: Optional[int] = None
        last: Optional[int] = None
        is_there = False
        for place, line in enumerate(made):
            now = part_at(line, now)
            row = ROW.match(line)
            if now == at and row:
                last = place
                is_there = is_there or row[2] == f"crates/{name}"
                if row[2].split("/")[1] == name.split("/")[0]:
                    mine = place
            elif now == at and last is None and line.startswith("|---"):
                last = place
        behind = last if mine is None else mine
        if not is_there and behind is not None:
            made.insert(behind + 1, row_of(name, first_words(name)))


def main(words: List[str]) -> int:
    lines = PAGE.read_text().splitlines()
    if words == ["--write"]:
        PAGE.write_text("\n".join(brought_up(lines)) + "\n")
        return 0
    if words == ["--check"]:
        found = [f"docs/READING.md: {it}" for it in faults(lines)]
        print(*found, sep="\n", end="\n" if found else "")
        return 1 if found else 0
    print(__doc__, end="", file=sys.stderr)
    return 2


if __name__ == "__main__":
    sys.exit(main(sys.argv[1:]))
