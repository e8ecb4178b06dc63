"""Edits: wrong bodies of functions, which the prover must refuse. An edit is a file with lines 'file:', 'old:' and 'new:'. A line
'refused:' names the function that the prover must refuse, if that is a caller of the changed one."""
from __future__ import annotations

import re
from dataclasses import dataclass, field
from pathlib import Path
from typing import Iterator

from cut_copy import TOP

# Those that each run of the test tries, and all of them.
GATE, OTHERS = "wrong-bodies/gate", "wrong-bodies"
# The first line of a function, with its name; of an `impl` block, with its trait if it has one, and its type; or of another item.
IMPL = r"impl\b(?:<[^{]*?>(?=\s))?\s+(?:(.*)\sfor\s+)?(?:&?(?:'\w+\s+)?(?:mut\s+)?)?(?:\w+::)*(\w+)"
ITEM = re.compile(rf"\s*(?:pub(?:\([^)]*\))?\s+)?(?:const\s+|unsafe\s+|extern\s+\S+\s+)*(?:fn\s+(\w+)|{IMPL}|(?:struct|enum|impl|trait|mod)\b)")


def edits_of(name: str, folders: list[str], top: Path = TOP) -> list[Path]:
    """Returns the files in these folders of a crate of the repository, or of a copy of it, pages aside."""
    found = [it for folder in folders for it in (top / "crates" / name / folder).glob("*")]
    return sorted(it for it in found if it.is_file() and it.suffix != ".md")


def crate_of(edit: Path) -> Path:
    """Returns the folder of an edit's crate."""
    return next(it.parent for it in edit.parents if it.name == OTHERS)


def replacements(edit: Path) -> Iterator[tuple[str, str, str]]:
    """Yields the file, the old text and the new text of each replacement of an edit."""
    file = old = ""
    for line in edit.read_text().split("\n"):
        word, _, rest = line.partition(":")
        rest = rest.removeprefix(" ")
        if word == "file":
            file = rest.strip()
        elif word == "old":
            old = rest
        elif word == "new":
            yield file, old, rest


def misfit(edit: Path) -> str:
    """Returns why an edit does not apply to its crate, or nothing."""
    if not re.fullmatch(r"[A-Za-z0-9_-][A-Za-z0-9_.-]*\.edit", edit.name):
        return "only edits NAME.edit, and pages .md, have a place here"
    crate, texts, pairs = crate_of(edit), dict[str, str](), 0
    for file, old, new in replacements(edit):
        if not re.match(r"(src|proofs)/", file) or not (crate / file).is_file():
            return f"there is no file {file} of code or proofs"
        text = texts.get(file) or (crate / file).read_text()
        if not old or text.count(old) != 1:
            return f"an 'old:' text is in {file} {text.count(old)} times, and not once"
        if old == new:
            return f"the texts of a pair for {file} are the same: only one line of each is read"
        texts[file], pairs = text.replace(old, new), pairs + 1
    return "" if pairs else "it has no 'old:' and 'new:' pair"


def function_at(text: str, place: int) -> str:
    """Returns the path in its file, as `name`, `Type::name` or `TypeTrait::name`, of the function around a place, or nothing if that
    place is in none."""
    above = [*text[:place].split("\n")[:-1], text[text.rfind("\n", 0, place) + 1 :].split("\n")[0]]
    least, path = len(above[-1]) - len(above[-1].lstrip()), ""
    for line in reversed(above):
        indent = len(line) - len(line.lstrip())
        item = ITEM.match(line) if line.strip() and indent <= least else None
        if item and path:
            # (the prover's name of a trait's method has both: CommandFaultFromArchiveFault::from)
            return "".join([item[3], *re.findall(r"(?<!')\b[A-Z]\w*", item[2] or "")]) + f"::{path}" if item[3] else path
        if item and (not item[1] or not indent):
            return item[1] or ""
        if item:
            path = item[1]
        least = min(least, indent - bool(item)) if line.strip() else least
    return path


def label(edit: Path) -> str:
    return f"{crate_of(edit).name}/{edit.stem}"


def functions_of(edit: Path) -> set[str]:
    """Returns the functions whose bodies an edit changes, each by its path in the crate; none if it changes anything else."""
    found = set[str]()
    for file, old, new in replacements(edit):
        text = (crate_of(edit) / file).read_text()
        name = function_at(text, text.find(old))
        if not name or not file.startswith("src/") or re.search(r"\bfn \w", old + new):
            return set()
        found.add(f"{module_of(file)}::{name}")
    return found


def refused_of(edit: Path) -> set[str]:
    """Returns the functions one of which the prover must refuse: those that the edit names, or else those that it changes."""
    return {*re.findall(r"(?m)^refused: (\S+)$", edit.read_text())} or functions_of(edit)


def module_of(file: str) -> str:
    """Returns the path of the module of a file of src/."""
    return file.removeprefix("src/").removesuffix(".rt").replace("/", "::")


def last_name(path: str) -> str:
    """Returns the name of a function in its path."""
    return path.split("::")[-1]


@dataclass
class Round:
    """Edits of one crate that are made together, each with the functions one of which must be refused; the names of these and of the
    changed functions, without their modules, by which the prover's lines are told apart; and the texts of the changed files. An edit
    that changes more than bodies is alone."""

    edits: dict[Path, set[str]] = field(default_factory=dict)
    names: set[str] = field(default_factory=set)
    texts: dict[str, str] = field(default_factory=dict)

    @property
    def asked(self) -> set[str]:
        """What the prover is asked for: these functions, or if there are none the modules of the changed files."""
        functions = {it for found in self.edits.values() for it in found}
        return functions or {module_of(it) for it in self.texts if it.startswith("src/")}

    def take(self, edit: Path) -> bool:
        """Adds an edit that changes functions with other names than those before, and that fits beside these."""
        texts, changed, refused = dict(self.texts), functions_of(edit), refused_of(edit)
        names = {*map(last_name, changed | refused)}
        if self.edits and (not changed or not self.names or self.names & names):
            return False
        for file, old, new in replacements(edit):
            text = texts.get(file) or (crate_of(edit) / file).read_text()
            if text.count(old) != 1:
                return False
            texts[file] = text.replace(old, new)
        self.edits[edit], self.texts = refused, texts
        # (nothing fits beside one that changes more than bodies)
        self.names |= names if changed else set()
        return True


def rounds_of(edits: list[Path]) -> list[Round]:
    """Divides the edits of a crate, each of which applies, among rounds."""
    rounds: list[Round] = []
    for edit in edits:
        if not any(it.take(edit) for it in rounds):
            rounds.append(Round())
            rounds[-1].take(edit)
    return rounds
