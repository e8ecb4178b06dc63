"""Copies some crates and their dependencies, so that the kit's gate proves only these.

./prove, tools/early_library and tools/wrong_bodies use this module. With a kit that keeps proofs the gate reuses those that `rt ci`
made in such a copy, since the key of a kept proof covers neither the edits nor the path of the files.
"""
import os
import re
import shutil
import subprocess
import time
from pathlib import Path

TOP = Path(__file__).resolve().parent.parent
PARTS = ("src", "specs", "proofs")
# The files that `rt ci` uses as input and expected output of a program.
RUN = ("args", "status", "stdin", "stdout")


def needed(names: list[str]) -> list[str]:
    """Returns these crates and all their dependencies, lowest first."""
    ran = subprocess.run([str(TOP / "tools/sources"), "needed", *names], check=True, stdout=subprocess.PIPE, text=True)
    return ran.stdout.split()


def copy_crates(names: list[str], to: Path) -> None:
    """Copies these crates without their edits, and copies their lines of crates.txt."""
    for name in names:
        for part in PARTS:
            if (TOP / "crates" / name / part).is_dir():
                shutil.copytree(TOP / "crates" / name / part, to / "crates" / name / part)
        for file in RUN:
            if (TOP / "crates" / name / file).is_file():
                shutil.copy2(TOP / "crates" / name / file, to / "crates" / name / file)
    listed = (TOP / "crates.txt").read_text().splitlines()
    (to / "crates.txt").write_text("".join(f"{it}\n" for it in listed if re.split(r"[ :]", it)[0] in names))
    shutil.copy2(TOP / "HANDLES", to)
    # (`rt ci` holds a lock in it)
    (to / ".git").mkdir()
    (to / "tools").mkdir()
    for tool in ("gate_libraries", "kit.py"):
        shutil.copy2(TOP / "tools" / tool, to / "tools")


def link(file: str, to: str) -> None:
    """Makes a link to a file, or a copy on another file system."""
    try:
        os.link(file, to)
    except OSError:
        shutil.copy2(file, to)


def take_libraries(names: set[str], copy: Path) -> bool:
    """Puts the libraries of these crates that `rt ci` built here into a copy of the crates. Returns whether they are those of the
    sources there."""
    for name in names:
        made = TOP / "crates" / name / "out/rlib"
        if not made.is_dir():
            return False
        to = copy / "crates" / name / "out/rlib"
        shutil.rmtree(to, ignore_errors=True)
        shutil.copytree(made, to, copy_function=link)
    subprocess.run([str(copy / "tools/gate_libraries")], check=True)
    ran = subprocess.run([str(copy / "tools/gate_libraries"), "current"], check=True, stdout=subprocess.PIPE, text=True)
    return names <= {*ran.stdout.split()}


def all_proved(names: set[str], said: Path, during: Path) -> bool:
    """Waits until these crates are proved. Returns false if `rt ci`, or what started this script, ends before."""
    parent, goes_on = os.getppid(), True
    while goes_on:
        goes_on = during.is_dir() and os.getppid() == parent
        text = said.read_text(errors="replace") if said.exists() else ""
        if names <= {*re.findall(r"(?m)^rt: (\w+) (?:proved\b|is kept:)", text)}:
            return True
        time.sleep(2)
    return False


def hand_over(made: Path, to: Path) -> None:
    """Replaces a file in one step."""
    to.parent.mkdir(parents=True, exist_ok=True)
    beside = to.with_name(f"{to.name}.{os.getpid()}")
    shutil.copy2(made, beside)
    os.replace(beside, to)
