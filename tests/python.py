#!/usr/bin/env python3
"""Tests the Python package: its own suite over the shared library, its types, and its wheel in an empty environment.

    tests/python.py

It prints a line for each check, reports what it skipped, and ends with `N passed, M failed`. The status is 1 if a check failed.
It proves nothing. It uses the proved library if that is current, and otherwise the one without proof, of which no wheel is made.
"""
from __future__ import annotations

import importlib.util
import os
import re
import shutil
import sys
import zipfile
from functools import partial
from pathlib import Path
from typing import List, Optional, Set

sys.dont_write_bytecode = True

from harness import TOP, Ran, Report, run
from library import is_proved, put_in_place
from shared import LIBRARY, PAGE, Place, version

PACKAGE = TOP / "bindings" / "python"
WHEEL = str(TOP / "tools" / "wheel")
# Makes the floppy that the code of docs/LIBRARY.md reads and changes.
WORK = """import jiponuwha as jip
with jip.create("Work", "work.adf") as floppy:
    floppy.mkdir("S")
    floppy.mkdir("Docs")
    floppy["S/startup-sequence"] = b"echo hello"
    floppy.save()
"""
# Checks the floppy afterwards.
LEFT = """import jiponuwha as jip
with jip.open("work.adf") as floppy:
    assert floppy["Docs/new"].read() == b"text"
"""
# Damages 60 floppies at random, and compares the faults that the package lists with those of the model.
DAMAGED = """import random, sys
import jiponuwha as jip
from all_faults_model import Model
chance = random.Random(7)
faulty = 0
for round in range(60):
    with jip.create("Work", format=jip.Format(round % 2)) as floppy:
        for at in range(chance.randrange(1, 8)):
            floppy.mkdir(f"d{at}", parents=True)
            floppy[f"d{at}/f"] = bytes(chance.randrange(60_000))
        used = [0, 1, 880, 881, *(entry.key for _, entry in floppy.walk())]
        used += [key + 1 for key in used]
        image = bytearray(floppy.image())
        floppy.close(discard=True)
    for _ in range(chance.randrange(4)):
        place = 512 * chance.choice(used) + 4 * chance.choice([0, 1, 2, 3, 5, 6, 7, 77, 79, 81, 108, 124, 125, 126, 127])
        image[place : place + 4] = chance.choice([bytes(4), chance.randrange(1760).to_bytes(4, "big"), chance.randbytes(4)])
    wanted = [(block, rank + 1 if rank < 15 else 17) for block, rank in Model(bytes(image)).all_faults()]
    found = [(fault.block, int(fault.kind)) for fault in jip.check(image)]
    assert found == wanted[:1000], (round, found, wanted)
    faulty += bool(found)
assert faulty > 20, faulty
"""
# Modules that take long to import, and that the package imports only if they are needed.
HEAVY = {"dataclasses", "datetime", "inspect", "pathlib", "re", "subprocess", "tempfile"}
# Prints the modules that `import jiponuwha` imports.
IMPORTED = """import sys
before = set(sys.modules)
import jiponuwha
print(*set(sys.modules) - before)
"""
# Prints the names that the package exports, and those of its classes.
NAMES = """import jiponuwha as jip
for name in jip.__all__:
    print(name)
for kind in (jip.Volume, jip.Path, jip.File):
    for name in vars(kind):
        if not name.startswith("_"):
            print(name)
"""


def suite_fault(ran: Ran) -> Optional[str]:
    """Returns the failure of a run of the suite, if any."""
    tried = re.search(rb"(?m)^Ran ([0-9]+) tests", ran.texts)
    if ran.status == 0 and tried and int(tried[1]) > 20 and b"Exception ignored" not in ran.texts:
        return None
    return f"status {ran.status}, printed {ran.texts[-1500:].decode(errors='replace')}"


def run_suite(tried: Place, name: str, python: str, library: Optional[str]) -> None:
    """Runs the suite below `suite`. It uses the installed package, or that of the repository."""
    found = {"JIPONUWHA_LIBRARY": library or "", "PYTHONPATH": str(PACKAGE) if library else ""}
    words = [python, "-X", "dev", "-m", "unittest", "discover", "-s", "tests", "-t", "."]
    ran = run(words, before=partial(os.chdir, tried.top / "suite"), env={**found, "PYTHONDONTWRITEBYTECODE": "1"}, longest=None)
    tried.report.hold(name, suite_fault(ran))


def suite(tried: Place) -> None:
    """Runs the suite with the package of the repository, next to its header and elsewhere."""
    library = str(tried.top / LIBRARY)
    # (tests/jip.py runs the tests of the tool)
    shutil.copytree(PACKAGE / "tests", "suite/tests", ignore=shutil.ignore_patterns("tool"))
    run_suite(tried, "the suite, away from the repository", sys.executable, library)
    here = {"JIPONUWHA_LIBRARY": library, "PYTHONDONTWRITEBYTECODE": "1"}
    words = [sys.executable, "-m", "unittest", *(f"tests.{it.stem}" for it in sorted((PACKAGE / "tests").glob("test_*.py")))]
    tried.report.hold("the suite beside the header", suite_fault(run(words, before=partial(os.chdir, PACKAGE), env=here, longest=None)))
    lost = run([sys.executable, "-c", "import jiponuwha"], env={"PYTHONPATH": str(PACKAGE), "JIPONUWHA_LIBRARY": "/none"})
    said = lost.status == 1 and b"ImportError" in lost.texts and b"JIPONUWHA_LIBRARY" in lost.texts
    tried.report.expect("without the library it says what is missing", said, lost)


def types(tried: Place) -> None:
    """Checks with mypy that the package and its suite are fully typed."""
    if shutil.which("mypy"):
        words = ["mypy"]
    elif importlib.util.find_spec("mypy"):
        words = [sys.executable, "-m", "mypy"]
    else:
        tried.report.skip("the types", "there is no mypy")
        return
    where = ["--cache-dir", str(tried.top / "mypy"), "--python-version", "3.11", "jiponuwha", "tests"]
    ran = run([*words, "--strict", *where], before=partial(os.chdir, PACKAGE), longest=None)
    tried.report.expect("mypy --strict", ran.status == 0, ran)
    found = {"MYPYPATH": str(TOP / "tools")}
    tried.runs("mypy --strict of the tool", [*words, "--strict", "--cache-dir", "mypy", "--python-version", "3.11", WHEEL], found)


def names(tried: Place) -> None:
    """Checks that docs/LIBRARY.md lists each name of the package."""
    found = {"PYTHONPATH": str(PACKAGE), "JIPONUWHA_LIBRARY": str(tried.top / LIBRARY), "PYTHONDONTWRITEBYTECODE": "1"}
    given = run([sys.executable, "-c", NAMES], env=found).output.decode().split()
    page = PAGE.read_text()
    lacking = sorted({it for it in given if not re.search(rf"`[^`]*\b{it}\b[^`]*`", page)})
    tried.report.expect("docs/LIBRARY.md has each name of the package", bool(given) and not lacking, lacking)


def imports(tried: Place) -> None:
    """Checks that the package imports no module that takes long, where the machine's start of Python has not done so itself."""
    found = {"PYTHONPATH": str(PACKAGE), "JIPONUWHA_LIBRARY": str(tried.top / LIBRARY), "PYTHONDONTWRITEBYTECODE": "1"}
    ran = run([sys.executable, "-c", IMPORTED], env=found)
    tried.report.same("it imports none of the modules that take long", HEAVY & {*ran.output.decode().split()}, set())
    tried.report.expect("but its own", b"jiponuwha._volume" in ran.output, ran)


def faults(tried: Place) -> None:
    """Compares the faults of damaged floppies with those of the model."""
    found = {"PYTHONPATH": f"{PACKAGE}:{TOP / 'tests'}", "JIPONUWHA_LIBRARY": str(tried.top / LIBRARY), "PYTHONDONTWRITEBYTECODE": "1"}
    tried.runs("all faults of damaged floppies", [sys.executable, "-c", DAMAGED], found)


# ---- The wheel ----


def pack(tried: Place) -> Optional[Path]:
    """Makes a wheel with the built library."""
    tried.runs("a wheel is packed", [sys.executable, WHEEL, "here", "wheels"])
    tried.runs("and packed again", [sys.executable, WHEEL, "here", "again"])
    found = sorted(Path("wheels").iterdir())
    if len(found) != 1:
        return None
    wheel = found[0].resolve()
    tried.report.same("it has the same bytes", wheel.read_bytes(), Path("again", wheel.name).read_bytes())
    inside = set(zipfile.ZipFile(wheel).namelist())
    info = f"jiponuwha-{'.'.join(version())}.dist-info"
    wanted = {"jiponuwha/__init__.py", "jiponuwha/py.typed", "jiponuwha/libjiponuwha.so.1"}
    wanted |= {f"{info}/{it}" for it in ("METADATA", "WHEEL", "RECORD", "entry_points.txt", "licenses/NOTICES")}
    wanted |= {"jiponuwha/tool/cli.py", "jiponuwha/tool/commands/listing.py"}
    tried.report.expect("it has the package, the tool, the library and what is said of them", wanted <= inside, sorted(inside))
    notices(tried, wheel, info)
    return wheel


def kit_crates() -> Set[str]:
    """Returns the kit's crates that crates.txt names for adf_c and the crates below it."""
    rows = [it.partition(":") for it in (TOP / "crates.txt").read_text().splitlines() if ":" in it and not it.startswith("#")]
    below = {name.split()[0]: listed.split() for name, _, listed in rows}
    found, waiting = set(), ["adf_c"]
    while waiting:
        more = {it for it in below.get(waiting.pop(), []) if it not in found}
        found |= more
        waiting += more
    return found - {*below}


def notices(tried: Place, wheel: Path, info: str) -> None:
    """Checks that the wheel names the kit's crates in it with their licences, and says that the repository states none."""
    packed = zipfile.ZipFile(wheel)
    metadata, text = (packed.read(f"{info}/{it}").decode() for it in ("METADATA", "licenses/NOTICES"))
    lines = dict(re.findall(r"(?m)^(\w+): (.+)$", text.partition("----")[0]))
    lacking = kit_crates() - {*lines}
    tried.report.expect("its notices name each crate of the kit", len(lines) > 20 and not lacking, (lacking, lines))
    tried.report.same("with its licence", lines.get("jiff"), "MIT License (LICENSE-MIT)")
    tried.report.expect("and have the text of it", "Copyright (c) 2015 Andrew Gallant" in text and "Version 2.0, January 2004" in text)
    said = re.search(r"(?m)^License: The repository of jiponuwha states no licence", metadata) is not None
    tried.report.expect("a packager sees that the repository states no licence", said and "states no licence" in text, metadata[:600])


def page_lines() -> List[str]:
    """Returns the Python code of docs/LIBRARY.md."""
    return re.findall(r"(?ms)^```python\n(.*?)^```$", PAGE.read_text())


def installed(tried: Place, python: str) -> None:
    """Returns the files that the wheel installs into an empty environment."""
    plain = {"PYTHONPATH": "", "JIPONUWHA_LIBRARY": "", "PYTHONDONTWRITEBYTECODE": "1"}
    run_suite(tried, "the suite over what is installed", python, None)
    tool = str(tried.top / "empty/bin/jip")
    if tried.runs("the tool that is installed makes an image", [tool, "new", "tool.adf", "Work"], plain):
        ran = run([tool, "label", "tool.adf"], env=plain)
        tried.report.check("and reads it", ran, 0, b"Work\n")
    lines = page_lines()
    tried.report.expect("docs/LIBRARY.md has Python", bool(lines))
    for at, program in enumerate(lines):
        name = f"the Python of docs/LIBRARY.md, {at + 1}"
        tried.write("page.py", program.encode())
        if tried.runs(f"{name}: a floppy", [python, "-c", WORK], plain):
            tried.runs(f"{name}: it runs", [python, "-X", "dev", "page.py"], plain)
            tried.runs(f"{name}: the floppy is changed", [python, "-c", LEFT], plain)


def wheel(tried: Place) -> None:
    if not is_proved(Path("here")):
        ran = run([sys.executable, WHEEL, "here", "wheels"])
        refused = ran.status == 2 and b"is not proved" in ran.texts and not Path("wheels").exists()
        tried.report.expect("a library without proof is not packed", refused, ran)
        tried.report.skip("the wheel", "the library is not proved")
        return
    packed = pack(tried)
    if packed is None:
        return
    if not importlib.util.find_spec("venv") or not importlib.util.find_spec("ensurepip"):
        tried.report.skip("an empty environment", "there is no venv, or no ensurepip (Debian: python3-venv)")
        return
    if not tried.runs("an empty environment", [sys.executable, "-m", "venv", "empty"]):
        return
    python = str(tried.top / "empty/bin/python")
    words = [python, "-m", "pip", "--isolated", "--disable-pip-version-check", "install", "--no-index", str(packed)]
    if tried.runs("the wheel is installed without a network", words):
        installed(tried, python)


def main() -> int:
    report = Report()
    written_for = re.search(r"WRITTEN_FOR = \((\d+), (\d+)\)", (PACKAGE / "jiponuwha/_library.py").read_text())
    report.same("the package is for the version of the header", written_for and list(written_for.groups()), version()[:2])
    if sys.version_info < (3, 11):
        report.skip("the package", f"this is Python {sys.version.split()[0]}, and not 3.11 or later")
        return report.end()
    with Place(report) as tried:
        report.ends("the types", partial(types, tried))
        if put_in_place(tried):
            for name, part in (("the suite", suite), ("the imports", imports), ("the faults", faults), ("the names", names), ("the wheel", wheel)):
                report.ends(name, partial(part, tried))
    return report.end()


if __name__ == "__main__":
    sys.exit(main())
