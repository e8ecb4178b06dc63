#!/usr/bin/env python3
"""Tests the tool jip: its own suite, the first hour of docs/ARCHIVES.md line by line, images that other programs wrote beside other
readers, the page for `man`, the completions, the script ./jip, and what it loads.

    tests/jip.py [MODULE..]     runs only these modules of the suite, such as test_listing

It uses a Python that has `rich` and `jinja2`: that of the path, or else the system's. Without one it says so and runs what needs none.
It proves nothing, and uses the built library.
"""
from __future__ import annotations

import hashlib
import os
import re
import shlex
import shutil
import sys
from collections import Counter
from concurrent.futures import ThreadPoolExecutor
from functools import partial
from pathlib import Path
from typing import Dict, Iterable, Iterator, List, Optional, Tuple

sys.dont_write_bytecode = True

from adflib import HARD_FILE, LACKING, SHAPES, built_adflib
from completions import FISH, ZSH, at_terminal
from drawn_volume import Entry, draw, read
from harness import TOP, Ran, Report, fault_of, processors, run
from library import put_in_place
from shared import LIBRARY, Place
from walk import commands_of, page_of, section_of, walk

PACKAGE = TOP / "bindings" / "python"
SUITE = PACKAGE / "tests" / "tool"
PAGE = "docs/ARCHIVES.md"
# How many volumes of each kind are copied out and in.
DRAWN, BY_ADFLIB = 12, 12
NEEDS = "import sys; sys.exit(not (sys.version_info >= (3, 11) and all(map(__import__('importlib.util').util.find_spec, sys.argv[1:]))))"
SHELLS = {"bash": ["bash/jip"], "zsh": ["zsh/_jip"], "fish": ["fish/jip.fish"]}
BASH = """source bash/jip
compopt() { :; }
complete_line() { COMP_LINE=$1 COMP_POINT=${#1} COMPREPLY=(); _jip; printf '%s\\n' "${COMPREPLY[@]}"; }
"""
# Lines, and what bash offers for their last words. It keeps by itself what is before a colon.
LINES: List[Tuple[str, List[str]]] = [
    ("jip l", ["ls", "label"]),
    ("jip ls --s", ["--sort"]),
    ("jip ls --sort d", ["date", "disk"]),
    ("jip ls floppy.adf:", ["Docs/", "S/"]),
    ("jip cp -r floppy.adf:d", ["Docs/"]),
    ("jip cat floppy.adf:docs/", ["docs/one two"]),
    ("jip cat floppy.adf:docs/one\\ ", ["docs/one two"]),
    ("jip ls none.adf:", []),
    ("jip ls flop", []),
    ("jip none ", []),
]


class Tool(Place):
    """The room for the tool: the library, a Python, and the script `jip` on the path."""

    python = ""

    @property
    def env(self) -> Dict[str, str]:
        return {
            "JIPONUWHA_LIBRARY": str(self.top / LIBRARY),
            "PYTHONPATH": str(PACKAGE),
            "PYTHONDONTWRITEBYTECODE": "1",
            "PATH": f"{self.top}/bin:{os.environ['PATH']}",
            "LC_ALL": "C.UTF-8",
        }

    def jip(self, *words: str) -> Ran:
        return run([self.python, "-m", "jiponuwha.tool", *words], env=self.env)


def python_with(*libraries: str) -> Optional[str]:
    """Returns a Python that has these libraries: that of the path, or the system's."""
    for python in (shutil.which("python3"), "/usr/bin/python3"):
        if python and run([python, "-c", NEEDS, *libraries]).status == 0:
            return python
    return None


# ---- The suite ----


def tried_module(tried: Tool, name: str) -> Ran:
    # (each line of what was skipped has its reason)
    return run([tried.python, "-m", "unittest", "-v", f"tests.tool.{name}"], before=partial(os.chdir, PACKAGE), env=tried.env, longest=600)


def suite(tried: Tool, names: List[str]) -> None:
    """Runs the modules of the suite side by side."""
    found = names or sorted(it.stem for it in SUITE.glob("test_*.py"))
    with ThreadPoolExecutor(processors()) as pool:
        runs = list(pool.map(partial(tried_module, tried), found))
    for name, ran in zip(found, runs):
        text = ran.texts.decode(errors="replace")
        count = re.search(r"(?m)^Ran ([0-9]+) tests?", text)
        good = ran.status == 0 and count is not None and count[1] != "0"
        tried.report.expect(f"{name}: {count[1] if count else 0} tests", good, f"status {ran.status}, printed {text[-2000:]}")
        for reason in sorted(set(re.findall(r"\.\.\. skipped (.+)$", text, re.M))):
            tried.report.skip(name, reason.strip("'\""))


# ---- The pages ----


def first_hour(tried: Tool) -> None:
    """The lines of docs/ARCHIVES.md, with the script ./jip of this repository as `jip`."""
    os.makedirs("hour")
    words = ["env", "-C", "hour", *(f"{name}={value}" for name, value in tried.env.items())]
    page = section_of(page_of(PAGE), "A first hour")
    walk(tried.report, PAGE, page, words)
    listed = {it.split()[1] for it, _ in commands_of(page) if it.startswith("jip ")}
    tried.report.expect(f"{PAGE} shows each command for one disk", len(listed) >= 14, sorted(listed))


def reference(tried: Tool) -> None:
    """Each command of the tool has its row in docs/ARCHIVES.md, and its section in the page for `man`."""
    ran = tried.jip("--complete", "")
    names = [it for it in ran.output.decode().split() if not it.startswith("-")]
    page = page_of(PAGE)
    lacking = [it for it in names if f"`jip {it}" not in page]
    tried.report.expect(f"{PAGE} has each command", bool(names) and not lacking, lacking)
    manual = [tried.python, str(TOP / "tools/jip_manual.py"), "--check"]
    tried.report.check("docs/jip.1 has the commands and options of the tool", run(manual, env=tried.env), 0)
    if shutil.which("mandoc"):
        tried.report.check("mandoc says nothing of docs/jip.1", run(["mandoc", "-Tlint", str(TOP / "docs/jip.1")]))
    else:
        tried.report.lacks("mandoc of docs/jip.1", "mandoc (Debian: mandoc)")


# ---- Completions ----


def completions(tried: Tool) -> None:
    tried.report.succeeds("the completions are written", [str(TOP / "tools/completions/make"), "."])
    tried.jip("new", "-q", "floppy.adf", "Work")
    tried.jip("mkdir", "-q", "floppy.adf:Docs", "floppy.adf:S", "floppy.adf:Docs/one two")
    tried.jip("rm", "-qr", "floppy.adf:Docs/one two")
    tried.jip("touch", "-q", "floppy.adf:Docs/one two")
    tried.write("rc", BASH.encode())
    for shell, files in SHELLS.items():
        if not shutil.which(shell):
            tried.report.lacks(f"completions of {shell}", shell)
            continue
        for it in files:
            tried.report.succeeds(f"{it} can be read", [shell, "-n", it])
    for line, wanted in LINES:
        ran = run(["bash", "-c", 'source rc; complete_line "$1"', "bash", line], env=tried.env)
        tried.report.same(f"bash: {line}", ran.output.decode().split("\n")[:-1] if wanted else ran.output, wanted or b"\n")
    tried.write("lines", "".join(f"{line}|\n" for line, _ in LINES).encode())
    for shell, offers in (("zsh", zsh_offers), ("fish", fish_offers)):
        if shutil.which(shell):
            found = offers(tried)
            tried.report.same(f"{shell} completes each line", len(found), len(LINES))
            for (line, wanted), words in zip(LINES, found):
                tried.report.same(f"{shell}: {line}", words, sorted(it.rstrip("/") for it in whole_words(line, wanted)))


def split_line(line: str) -> Tuple[str, str]:
    """Returns what is before the last word of a line, and that word. A blank behind a backslash is part of a word."""
    found = re.fullmatch(r"(.*(?<!\\) )((?:[^ ]|\\ )*)", line)
    assert found is not None
    return found[1], found[2]


def whole_words(line: str, offered: Iterable[str]) -> List[str]:
    """Returns the words that are offered, each with what bash leaves out: all before the colon. Where the tool offers nothing, a shell offers
    files of the host, except for paths in an image."""
    word = split_line(line)[1]
    start, colon, _ = word.rpartition(":")
    if colon:
        return [f"{start}:{it}" for it in offered]
    return [*offered] or [it for it in os.listdir() if it.startswith(word) and not it.startswith(".")]


def zsh_offers(tried: Tool) -> List[List[str]]:
    """Returns the words that zsh inserts for each line: all that is offered."""
    tried.write(".zshrc", ZSH.encode())
    env = {**tried.env, "ZDOTDIR": str(tried.top), "HOME": str(tried.top), "TERM": "xterm"}
    lines = at_terminal(["zsh", "-d", "-i"], env)
    # (a line to which nothing is added ends in what was typed)
    words = [shlex.split(found)[len(shlex.split(split_line(line)[0])) :] for (line, _), found in zip(LINES, lines)]
    return [sorted(it.rstrip("/") for it in its if it != split_line(line)[1]) for (line, _), its in zip(LINES, words)]


def fish_offers(tried: Tool) -> List[List[str]]:
    """Returns the words that fish offers for each line."""
    tried.write("offers.fish", FISH.encode())
    env = {**tried.env, "XDG_CONFIG_HOME": str(tried.top), "XDG_DATA_HOME": str(tried.top), "HOME": str(tried.top)}
    lines = run(["fish", "offers.fish"], env=env).output.decode().split("\n")[:-1]
    return [sorted(it.rstrip("/") for it in line.split("\t") if it) for line in lines]


# ---- The script ./jip ----


def script(tried: Tool) -> None:
    ran = run([str(TOP / "jip"), "--version"], env=tried.env)
    tried.report.expect("./jip runs the tool", ran.status == 0 and ran.output.startswith(b"jip 1."), ran)
    ran = run(["env", "-C", "/", str(TOP / "jip"), "ls", str(tried.top / "none.adf")], env=tried.env)
    tried.report.check("and passes its status on", ran, 2, b"", "none.adf: No such file")
    os.makedirs("empty-path")
    tools = ("bash", "env", "dirname", "readlink", "mkdir", "mv")
    for it in tools:
        os.symlink(shutil.which(it) or it, f"empty-path/{it}")
    ran = run([str(TOP / "jip"), "--version"], env={**tried.env, "PATH": f"{tried.top}/empty-path"})
    known = Path("/usr/bin/python3").exists()
    tried.report.expect("without python3 on the path it takes the system's, or says what is missing", ran.status == (0 if known else 2), ran)


# What `jip ls` must not load: the libraries that take long, and the modules that only a catalogue needs.
HEAVY = ("rich", "jinja2", "distributed", "sqlite3", "concurrent.futures")


def start(tried: Tool) -> None:
    """`jip ls` loads nothing that only other commands need. How long it takes is measured by bench/jip_start."""
    tried.jip("new", "-q", "start.adf", "Work")
    loads = f"import sys; from jiponuwha.tool.cli import main; status = main(['ls', 'start.adf']); print(sorted({set(HEAVY)} & set(sys.modules))); sys.exit(status)"
    ran = run([tried.python, "-c", loads], env=tried.env)
    tried.report.expect("jip ls loads only what it needs", ran.status == 0 and ran.output.endswith(b"[]\n"), ran)


# ---- Images of other programs ----


def out_and_in(tried: Tool, data: bytes) -> Optional[str]:
    """What is wrong with an image that was copied out to the host, and into a new image."""
    old = read(data)
    tried.write("old.adf", data)
    shutil.rmtree("out", ignore_errors=True)
    Path("new.adf").unlink(missing_ok=True)
    kind = ["--ffs"] if old.kind[3] else []
    made = ["new", "-q", *kind, "--blocks", str(old.blocks), "new.adf", "Other"]
    for words in (made, ["cp", "-q", "-r", "-p", "old.adf:", "out"], ["cp", "-q", "-r", "-p", "out/.", "new.adf:"]):
        fault = fault_of(tried.jip(*words))
        if fault:
            return f"{words[0]}: {fault}"
    wanted, found = entries_of(data), entries_of(tried.content("new.adf"))
    differing = [it for it in sorted({*wanted, *found}) if wanted.get(it) != found.get(it)]
    return f"{differing[0]!r} is {str(found.get(differing[0]))[:200]}, and was {str(wanted.get(differing[0]))[:200]}" if differing else None


def entries_of(data: bytes) -> Dict[bytes, Entry]:
    """Returns the entries of a volume, as a reader in Python finds them, by their paths. A note of the host keeps 8 of the 32 protection
    bits."""
    return {it.path: it._replace(bits=it.bits & 0xFF) for it in read(data).entries}


def sums_of(files: Iterable[bytes]) -> Counter[str]:
    """Returns the checksums of files, each with how often it is there. (unadf writes names in bytes of its own.)"""
    return Counter(hashlib.sha256(it).hexdigest() for it in files)


def files_below(folder: str) -> Iterator[bytes]:
    return (it.read_bytes() for it in Path(folder).rglob("*") if it.is_file())


def beside_unadf(tried: Tool, data: bytes) -> Optional[str]:
    """What is wrong if the files that `unadf` extracts have other sums than those that jip copies."""
    tried.write("old.adf", data)
    for it in ("ours", "theirs"):
        shutil.rmtree(it, ignore_errors=True)
        os.mkdir(it)
    ours = tried.jip("cp", "-q", "-r", "old.adf:", "ours")
    theirs = run(["unadf", "old.adf", "-d", "theirs"])
    if ours.status or theirs.status:
        return f"jip: {ours}; unadf: {theirs}"
    # (of a file that is protected from reading unadf writes an empty one)
    hidden = [it.data for it in read(data).entries if it.data is not None and it.bits & 8]
    found = sums_of(files_below("ours")) - sums_of(hidden) + sums_of([b""] * len(hidden))
    wanted = sums_of(files_below("theirs"))
    return None if found == wanted and found else f"{sum(found.values())} files, of which {sum((found & wanted).values())} are among the {sum(wanted.values())} of unadf"


def drawn(tried: Tool) -> None:
    """Volumes that Python draws."""
    for seed in range(DRAWN):
        tried.report.ends(f"drawn volume {seed}", lambda: out_and_in(tried, draw(seed)))


def by_adflib(tried: Tool) -> None:
    """Volumes that ADFlib writes, also beside its own reader."""
    adflib = built_adflib(SHAPES)
    if adflib is None:
        tried.report.lacks("volumes by ADFlib", LACKING)
        return
    for seed in range(BY_ADFLIB):
        data = adflib.volume(seed)
        tried.report.ends(f"volume {seed} by ADFlib", lambda: out_and_in(tried, data))
        # (unadf knows floppies of both densities)
        if shutil.which("unadf") and SHAPES[seed % len(SHAPES)] != HARD_FILE:
            tried.report.ends(f"volume {seed} by ADFlib beside unadf", lambda: beside_unadf(tried, data))
    if not shutil.which("unadf"):
        tried.report.lacks("sums of files", "unadf (Debian: unadf)")


def main(words: List[str]) -> int:
    report = Report()
    with Tool(report) as tried:
        tried.python = python_with("rich", "jinja2") or python_with() or ""
        if not tried.python:
            report.skip("the tool", "there is no Python 3.11 or later")
            return report.end()
        if not python_with("rich", "jinja2"):
            report.lacks("tables and pages", "Python with rich and jinja2 (Debian: python3-rich, python3-jinja2)")
        if not put_in_place(tried):
            return report.end()
        os.makedirs("bin")
        os.symlink(TOP / "jip", "bin/jip")
        suite(tried, words)
        for part in () if words else (first_hour, reference, completions, script, start, drawn, by_adflib):
            tried.part(part)
    return report.end()


if __name__ == "__main__":
    sys.exit(main(sys.argv[1:]))
