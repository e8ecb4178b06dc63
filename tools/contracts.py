#!/usr/bin/env python3
"""Lists the public calls of each crate with their clauses, one page per crate in docs/contracts.

    tools/contracts.py           writes the pages
    tools/contracts.py --check   prints each page that differs from the sources, and exits with 1 then

At its end a page lists the definitions that its clauses cite, and those of its crate that clauses of any page stand on through
others. Each has the checksum of its text, without comments, so that a change of it shows in the page.

A public call is a function that the crate's lib.rt or main.rt exports by `pub use` or `pub mod`, also through a module with files
of its own, a method of an exported type, or a member of an exported trait. The sources must have the layout of rustfmt: items of a file begin in the first
column, and members of an `impl` or a trait in the fifth.
"""
from __future__ import annotations

import re
import sys
from dataclasses import dataclass
from pathlib import Path

sys.dont_write_bytecode = True

from definitions import Definition, below, cited, imports_of  # noqa: E402

TOP = Path(__file__).resolve().parent.parent
PAGES = TOP / "docs/contracts"
MARKS = re.compile(r"//[^\n]*|\"(?:\\.|[^\"\\])*\"|[(\[{]|[)\]}]|;")
CLAUSE = re.compile(r"\b(?:requires|ensures)(?:\s+\w+)?\s*\Z")
CALL = re.compile(r"( *)(pub )?(?:unsafe |extern \"C\" )*fn (\w+)")
TYPE = re.compile(r"pub (?:struct|enum|trait) (\w+)")
USE = re.compile(r"^pub use (\w+)(?:::(\w+)|::\{([^}]*)\});", re.M)


@dataclass(frozen=True)
class Call:
    """A public call, or the ghost members of a trait."""

    owner: str
    name: str
    file: str
    doc: str
    text: str
    imports: str

    def cites(self) -> set[Definition]:
        """The definitions that the clauses of this call cite."""
        clauses = self.text if self.name.startswith("trait ") else "".join(re.split(r"\b(?=requires\b|ensures\b)", self.text)[1:])
        return set(cited(clauses, *imports_of(self.imports)))

    def markdown(self, crate: str) -> str:
        """The text of this call on the page of its crate."""
        link = f"[{self.file}](../../crates/{crate}/src/{self.file})"
        head = f"**`{self.name}`**, {link}" + (f": {self.doc}" if self.doc else "")
        return f"{head}\n\n```rust\n{self.text}\n```\n"


@dataclass
class Exports:
    """The exports of a crate: its own names in order, its public modules, and names of other crates."""

    names: list[str]
    modules: set[str]
    passed_on: dict[str, list[str]]


def exports_of(root: Path) -> Exports:
    """Returns the exports of the lib.rt or main.rt of a crate."""
    text = re.sub(r"//[^\n]*", "", root.read_text())
    found = Exports([], set(re.findall(r"^pub mod (\w+);", text, re.M)), {})
    for module, one, several in USE.findall(text):
        names = [one] if one else [name.strip() for name in several.split(",") if name.strip()]
        if (root.parent / f"{module}.rt").is_file():
            found.names += names
        else:
            found.passed_on.setdefault(module, []).extend(names)
    for module in sorted(found.modules):
        inner = USE.findall(re.sub(r"//[^\n]*", "", (root.parent / f"{module}.rt").read_text()))
        for _, one, several in (it for it in inner if (root.parent / module / f"{it[0]}.rt").is_file()):
            found.names += [name.strip() for name in (one or several).split(",") if name.strip() not in ("", *found.names)]
    for file in [root, *(root.parent / f"{module}.rt" for module in sorted(found.modules))]:
        found.names += [name for name in TYPE.findall(file.read_text()) if name not in found.names]
    return found


def end_of_head(text: str, start: int) -> int:
    """Returns the end of a function's head, before its body or the semicolon. A brace after a clause's name belongs to
    the clause."""
    depth = 0
    for mark in MARKS.finditer(text, start):
        at, sign = mark.start(), mark[0]
        if sign in ("{", ";") and depth == 0 and not (sign == "{" and CLAUSE.search(text, start, at)):
            return at
        depth += 1 if sign in ("(", "[", "{") else -1 if sign in (")", "]", "}") else 0
    raise ValueError(f"a function without an end: {text[start:start + 60]}")


def doc_above(lines: list[str], at: int) -> str:
    """Returns the first sentence of the comment above a line."""
    at -= 1
    while at >= 0 and lines[at].lstrip().startswith("#["):
        at -= 1
    said: list[str] = []
    while at >= 0 and lines[at].lstrip().startswith("///"):
        said.insert(0, lines[at].lstrip()[3:].strip())
        at -= 1
    text = " ".join(said if "" not in said else said[: said.index("")])
    text = re.sub(r"\[(`[^`]*`)\]", r"\1", text)
    return re.split(r"(?<=\.)\s", text)[0]


def owner_of(header: str) -> str:
    """Returns the type or trait of an `impl` or `trait` header, or nothing for an impl of a trait."""
    header = re.sub(r"\bwhere\b.*", "", header, flags=re.S).replace("->", "")
    while re.search(r"<[^<>]*>", header):
        header = re.sub(r"<[^<>]*>", "", header)
    found = re.fullmatch(r"\s*(?:impl|pub trait)\s+(\w+)\s*(?::[^{]*)?", header)
    return found[1] if found else ""


def ghosts_of(lines: list[str], at: int) -> str:
    """Returns the head of a trait and its ghost members."""
    shown, inside = [lines[at]], False
    for line in lines[at + 1 :]:
        if line.startswith("}"):
            return "\n".join([*shown, "}"]) if len(shown) > 1 else ""
        inside = inside or re.match(r"    ghost (?!use )", line) is not None
        if inside:
            shown.append(line)
        inside = inside and not line.endswith(";")
    return ""


def calls_of(src: Path, file: Path, exports: Exports) -> list[Call]:
    """Returns the public calls in a file below a folder of sources."""
    text, place = file.read_text(), str(file.relative_to(src))
    lines = text.split("\n")
    starts = [0]
    for line in lines:
        starts.append(starts[-1] + len(line) + 1)
    calls, owner, is_trait = [], "", False
    outer = "\n".join(line for line in lines if line.startswith("ghost use "))
    inner = ""
    for at, line in enumerate(lines):
        if line.startswith("}"):
            owner = inner = ""
        elif re.match(r"(impl|pub trait)\b", line):
            owner = owner_of(text[starts[at] : text.index("{", starts[at])])
            owner, is_trait = owner if owner in exports.names else "", line.startswith("pub trait")
            inner = "\n".join(it for it in text[starts[at] :].partition("\n}")[0].split("\n") if it.startswith("    ghost use "))
            ghosts = ghosts_of(lines, at) if is_trait and owner else ""
            if ghosts:
                calls.append(Call(owner, f"trait {owner}", place, doc_above(lines, at), ghosts, f"{outer}\n{inner}"))
        call = CALL.match(line)
        if not call:
            continue
        indent, is_pub, name = len(call[1]), call[2], call[3]
        is_free = indent == 0 and is_pub and (name in exports.names or file.stem in exports.modules)
        if is_free or (indent == 4 and owner and (is_pub or is_trait)):
            head = text[starts[at] : end_of_head(text, starts[at])].rstrip()
            head = "\n".join(part[indent:] for part in head.split("\n"))
            whose = owner if indent else name
            calls.append(Call(whose, f"{owner}::{name}" if indent else name, place, doc_above(lines, at), head, f"{outer}\n{inner}"))
    return calls


@dataclass
class Crate:
    """A crate with its exports and its public calls, in their order."""

    path: Path
    exports: Exports
    calls: list[Call]

    @staticmethod
    def read(path: Path) -> Crate:
        root = path / "src/lib.rt" if (path / "src/lib.rt").is_file() else path / "src/main.rt"
        exports = exports_of(root)
        calls = [call for file in sorted((path / "src").rglob("*.rt")) for call in calls_of(path / "src", file, exports)]
        order = {name: at for at, name in enumerate(exports.names)}
        return Crate(path, exports, sorted(calls, key=lambda call: order.get(call.owner, len(order))))

    def cites(self) -> set[Definition]:
        return {it for call in self.calls for it in call.cites()}

    def page(self, known: set[Definition]) -> str:
        """Returns the page of this crate. `known` are all definitions that clauses of any crate stand on."""
        parts = [f"# {self.path.name}\n", "Its public calls with their clauses, made by `tools/contracts.py`.\n"]
        for other, names in self.exports.passed_on.items():
            parts.append(f"From [{other}]({other}.md) it exports {', '.join(f'`{name}`' for name in names)}.\n")
        direct = self.cites()
        further = {it for it in known if it.crate == self.path.name} - direct
        lists = list_of("Definitions that these clauses cite", direct)
        lists += list_of("Definitions of this crate below those of clauses", further)
        return "\n".join([*parts, *(call.markdown(self.path.name) for call in self.calls), *lists])


def list_of(heading: str, definitions: set[Definition]) -> list[str]:
    """The part of a page that lists definitions, if there are some."""
    lines = "".join(f"{it.line()}\n" for it in sorted(definitions))
    return [f"## {heading}\n", f"```text\n{lines}```\n"] if definitions else []


def main(arguments: list[str]) -> int:
    """Writes or checks the pages, and returns the exit status."""
    if arguments not in ([], ["--check"]):
        print(__doc__)
        return 0 if arguments in (["-h"], ["--help"]) else 1
    crates = [Crate.read(path) for path in sorted((TOP / "crates").iterdir()) if (path / "src").is_dir()]
    known = below({it for crate in crates for it in crate.cites()})
    pages = {PAGES / f"{crate.path.name}.md": crate.page(known) for crate in crates if crate.calls}
    left_over = [page for page in sorted(PAGES.glob("*.md")) if page not in pages]
    if arguments:
        stale = [page for page, text in pages.items() if not page.is_file() or page.read_text() != text]
        for page in [*stale, *left_over]:
            print(f"{page.relative_to(TOP)} is not what the sources make: run tools/contracts.py")
        return 1 if stale or left_over else 0
    PAGES.mkdir(exist_ok=True)
    for page in left_over:
        page.unlink()
    for page, text in pages.items():
        page.write_text(text)
    return 0


if __name__ == "__main__":
    sys.exit(main(sys.argv[1:]))
