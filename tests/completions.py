#!/usr/bin/env python3
"""Tests the completions that tools/completions/make writes, in the shells that are there: bash, zsh and fish complete lines as at a
terminal, with the program in the path and real images.

    tests/completions.py [PROGRAM]
"""
from __future__ import annotations

import os
import pty
import select
import shlex
import shutil
import signal
import sys
import time
from functools import partial
from pathlib import Path
from typing import Callable, Dict, List, NamedTuple, Optional, Sequence

sys.dont_write_bytecode = True

from harness import MOMENT, TOP, Room, done, run, try_all

MAKE = str(TOP / "tools/completions/make")
# How long a shell may take, in seconds.
LONGEST = 60
ODD = "s/sub dir/caf\xe9 (1) $x;&*"
# What is in the directory s, and what is in it at the next level.
BELOW_S = ["s/it's", "s/one two", 's/say "hi"', "s/sub dir/", ODD]
IN_S = BELOW_S[:-1]


class Row(NamedTuple):
    """A line: what is before a word, the word, what a shell offers for it, and what is behind the cursor."""

    start: str
    word: str
    offered: List[str]
    behind: str = ""

    def typed(self, mark: str = "") -> str:
        """The line, with a mark at the cursor."""
        return f"{self.start} {self.word}{mark}{self.behind and ' '}{self.behind}"

    def has(self, found: Sequence[str]) -> bool:
        """Whether a shell offers what it should. A directory of an image ends in a slash, and one of the host may."""
        return sorted(it if it in self.offered else it.rstrip("/") for it in found) == sorted(self.offered)


ROWS = [
    Row("adf_serve", "pr", ["print", "protect"]),
    Row("adf_serve", "--", ["--help", "--version"]),
    # Options and their values.
    Row("adf_serve show", "--", ["--blocks", "--help", "--json"]),
    Row("adf_serve add", "--fo", ["--force"]),
    Row("adf_serve protect work.adf libs", "--", ["--help", "--out", "--over", "--blocks", "--date", "--days", "--minutes", "--ticks"]),
    Row("adf_serve list --sort", "s", ["size"]),
    Row("adf_serve mkdir --date", "", []),
    # Files and directories of the host.
    Row("adf_serve delete --all", "wo", ["work.adf"]),
    Row("adf_serve check work.adf", "wo", ["work.adf"]),
    Row("adf_serve check --from", "wo", ["work.adf"]),
    Row("adf_serve mkdir --out", "wo", ["work.adf"]),
    Row("adf_serve boot --save other.adf", "wo", ["work.adf"]),
    Row("adf_serve add other.adf", "wo", ["work.adf"]),
    Row("adf_serve add --to s --as x other.adf", "wo", ["work.adf"]),
    Row("adf_serve extract --to", "ho", ["host"]),
    Row("adf_serve extract --bundle", "ho", ["host"]),
    # Paths inside an image.
    Row("adf_serve print work.adf", "", ["libs/", "s/"]),
    Row("adf_serve print work.adf", "s", ["s/"]),
    Row("adf_serve print work.adf", "s/", IN_S),
    Row("adf_serve print work.adf", "s/o", ["s/one two"]),
    Row("adf_serve print work.adf", "s/su", ["s/sub dir/"]),
    Row("adf_serve print work.adf", "s/one\\ ", ["s/one two"]),
    Row("adf_serve print work.adf", "s/it", ["s/it's"]),
    Row("adf_serve print work.adf", "s/it\\'", ["s/it's"]),
    Row("adf_serve print work.adf", "s/sub\\ dir/", [ODD]),
    Row("adf_serve print work.adf", "'s/it", ["s/it's"]),
    Row("adf_serve print work.adf", "'s/sub dir/", [ODD]),
    Row("adf_serve print work.adf", "'s/su", ["s/sub dir/"]),
    Row("adf_serve print work.adf", '"s/sub dir/', [ODD]),
    Row("adf_serve delete --all work.adf s", "l", ["libs/"]),
    Row("adf_serve rename work.adf libs", "l", ["libs/"]),
    # The image: behind options with values, with blanks in its name, below the home directory, or behind the cursor.
    Row("adf_serve mkdir --out other.adf work.adf", "l", ["libs/"]),
    Row("adf_serve print my\\ disk.adf", "e", ["elsewhere/"]),
    Row("adf_serve print 'my disk.adf'", "e", ["elsewhere/"]),
    Row("adf_serve print ~/host/home.adf", "e", ["elsewhere/"]),
    Row("adf_serve add --to", "l", ["libs/"], "work.adf"),
    Row("adf_serve add --to", "e", ["elsewhere/"], "my\\ disk.adf"),
    # What was deleted, level by level: nothing that is still there.
    Row("adf_serve undelete bin.adf", "", ["a/", "gone", "kept/"]),
    Row("adf_serve undelete --list bin.adf", "k", ["kept/"]),
    Row("adf_serve undelete bin.adf gone", "kept/", ["kept/old one"]),
    Row("adf_serve undelete bin.adf", "a/", ["a/b/"]),
    Row("adf_serve undelete bin.adf", "a/b/", ["a/b/first", "a/b/second"]),
    Row("adf_serve extract bin.adf", "", ["kept/"]),
    Row("adf_serve undelete work.adf", "", []),
    # A program that is run by a path is asked itself.
    Row("host/adf_serve", "pr", ["print", "protect"]),
    Row("./host/adf_serve print work.adf", "", ["by path"]),
    Row("~/host/adf_serve print work.adf", "b", ["by path"]),
    Row("./host/adf_serve undelete work.adf", "", ["deleted by path"]),
    # Standard input as an image is not read.
    Row("adf_serve print -", "l", []),
    # Where an option excludes an argument or another option, nothing is offered for it.
    Row("adf_serve boot --show work.adf", "wo", []),
    Row("adf_serve boot --install work.adf", "wo", []),
    Row("adf_serve boot --save new work.adf", "wo", []),
    Row("adf_serve boot --show", "wo", ["work.adf"]),
    Row("adf_serve boot work.adf", "wo", ["work.adf"]),
    Row("adf_serve boot --show work.adf", "--s", []),
    Row("adf_serve boot work.adf", "--s", ["--save", "--show"]),
    Row("adf_serve extract --damaged --list work.adf", "s", []),
    Row("adf_serve extract --damaged work.adf", "s", []),
    Row("adf_serve extract --bundle new work.adf", "s", []),
    Row("adf_serve add --bundle host work.adf", "wo", []),
    Row("adf_serve add --bundle", "ho", ["host"]),
    # Where a path is expected no file of the host is offered, and where nothing is expected nothing.
    Row("adf_serve delete work.adf", "my", []),
    Row("adf_serve print none.adf", "s", []),
    Row("adf_serve print work.adf libs", "l", []),
    Row("adf_serve relabel work.adf", "l", []),
    Row("adf_serve none work.adf", "l", []),
    Row("adf_mount -o", "allow", ["allow_other"]),
    Row("adf_mount", "wo", ["work.adf"]),
    Row("adf_mount work.adf", "ho", ["host"]),
]

# In bash, which closes the quotes behind a directory.
BASH_ROWS = [*ROWS, Row("adf_serve print work.adf", "'s/sub dir/'", [ODD])]

# Prints a line after its completion; the keys that complete, insert all that is offered, and print.
BASH = """PS1='> '
source bash/adf_serve
source bash/adf_mount
bind 'set bell-style none'
bind '"\\C-t": insert-completions'
print_line() { printf '%s\\n' "$READLINE_LINE" >>completed; }
bind -x '"\\C-g": print_line'
"""
COMPLETE, COMPLETE_ALL, PRINT, LEFT, CLEAR = "\t", "\x14", "\x07", "\x02", "\x01\x0b"
# Completes each line of the file `lines` by all that is offered, and prints it.
ZSH = """fpath=($PWD/zsh $fpath)
autoload -Uz compinit && compinit -u -D
all() { _main_complete; compstate[insert]=all; compstate[list]= }
zle -C all complete-word all
each() {
    local line
    for line in ${(f)"$(<lines)"}; do
        BUFFER=${line%%|*} CURSOR=$#BUFFER
        BUFFER+=${line#*|}
        zle all
        print -r -- $BUFFER >>completed
    done
    BUFFER=
    exit
}
zle -N zle-line-init each
"""
# Prints what is offered for each line of the file `lines`, one line for each.
FISH = """set -p fish_complete_path $PWD/fish
while read -l -d '|' line behind
    printf '%s\\n' (string join -- \\t (complete -C "$line" | string replace -r '\\t.*' ''))
end <lines
"""


def at_terminal(words: Sequence[str], env: Dict[str, str], keys: Sequence[str] = ()) -> List[str]:
    """Runs a shell at a terminal until it ends, and returns the lines of the file `completed`. Each of the keys is typed once there is
    a line for each of those before it."""
    completed = Path("completed")
    completed.write_bytes(b"")
    process, terminal = pty.fork()
    if process == 0:
        try:
            os.execvpe(words[0], list(words), {**os.environ, **env})
        finally:
            os._exit(127)
    typed, ends = 0, time.monotonic() + LONGEST
    try:
        while time.monotonic() < ends:
            if typed < len(keys) and completed.read_bytes().count(b"\n") >= typed:
                os.write(terminal, keys[typed].encode())
                typed += 1
            if select.select([terminal], [], [], 0.01)[0]:
                os.read(terminal, 65536)
    except OSError:
        # (the shell has ended)
        pass
    os.kill(process, signal.SIGKILL)
    os.waitpid(process, 0)
    os.close(terminal)
    return completed.read_text(encoding="utf-8").splitlines()


def fault_of_line(row: Row, completed: str) -> Optional[str]:
    """What is wrong with a completed line: the words that are offered stand in place of the word, each quoted as a shell reads it."""
    if not row.offered:
        return None if completed.rstrip() == row.typed().rstrip() else f"the line is {completed!r}"
    # (shlex keeps the backslash of a dollar in double quotes; a shell may leave the quotes of a directory open)
    closed = completed.replace("\\$", "$") + (row.word[:1] if row.word[:1] in ("'", '"') and completed.endswith("/") else "")
    start, behind, words = shlex.split(row.start), shlex.split(row.behind), shlex.split(closed)
    whole = words[: len(start)] == start and words[len(words) - len(behind) :] == behind
    same = row.has(words[len(start) : len(words) - len(behind)])
    return None if whole and same else f"the line is {completed!r}"


def check_lines(room: Room, shell: str, rows: Sequence[Row], completed: Sequence[str]) -> None:
    room.report.same(f"{shell} completes each line", len(completed), len(rows))
    for row, line in zip(rows, completed):
        room.report.ends(f"{shell}: {row.typed('|')}", partial(fault_of_line, row, line))


def in_bash(room: Room, env: Dict[str, str]) -> None:
    room.write("rc", BASH.encode())
    keys = [f"{it.typed()}{LEFT * (len(it.typed('|')) - 1 - it.typed('|').index('|'))}" for it in BASH_ROWS]
    ends = [COMPLETE if it.word[:1] in ("'", '"') else COMPLETE_ALL for it in BASH_ROWS]
    typed = [f"{line}{key}{PRINT}{CLEAR}" for line, key in zip(keys, ends)]
    check_lines(room, "bash", BASH_ROWS, at_terminal(["bash", "--rcfile", "rc", "-i"], {**env, "INPUTRC": "/dev/null"}, [*typed, "exit\n"]))


def in_zsh(room: Room, env: Dict[str, str]) -> None:
    room.write(".zshrc", ZSH.encode())
    check_lines(room, "zsh", ROWS, at_terminal(["zsh", "-d", "-i"], {**env, "ZDOTDIR": str(room.top)}))


def in_fish(room: Room, env: Dict[str, str]) -> None:
    """In fish, whose completions know nothing of what is behind the cursor."""
    room.write("offers.fish", FISH.encode())
    rows = [it for it in ROWS if not it.behind]
    room.write("lines", "".join(f"{it.typed('|')}\n" for it in rows).encode())
    lines = done(["fish", "offers.fish"], env={**env, "XDG_CONFIG_HOME": str(room.top), "XDG_DATA_HOME": str(room.top)}).decode().splitlines()
    room.report.same("fish completes each line", len(lines), len(rows))
    for row, line in zip(rows, lines):
        found = [it for it in line.split("\t") if it]
        room.report.expect(f"fish: {row.typed('|')}", row.has(found), found)


# A program that is run by its path: what it prints is not what the one of the path would print.
BY_PATH = """#!/bin/sh
case $1 in
list) printf 'Volume Other\\n       1 ---rwed 2002-08-23 01:01:00.14 by path\\n' ;;
undelete) echo 'deleted by path: all 2 blocks are free' ;;
esac
"""


def images(room: Room) -> None:
    """The images of the rows, the program in a directory of the path, and another one in a directory that is not."""
    os.makedirs("host/inner")
    os.mkdir("bin")
    os.symlink(room.program, "bin/adf_serve")
    # (fish completes only commands that are there)
    os.symlink(shutil.which("true") or "/bin/true", "bin/adf_mount")
    for label, image in (("Work", "work.adf"), ("Other", "other.adf"), ("Blanks", "my disk.adf"), ("Home", "host/home.adf")):
        room.done("blank", "--ffs", label, image)
        directories = ["s", "s/sub dir", "libs"] if label == "Work" else ["elsewhere"]
        room.done("mkdir", *MOMENT, image, *directories)
    for path in BELOW_S:
        where, _, name = path.rpartition("/")
        if name:
            room.done("add", *MOMENT, "--to", where, "--as", name, "work.adf", "-")
    room.write("host/adf_serve", BY_PATH.encode())
    os.chmod("host/adf_serve", 0o755)
    deleted(room)


def deleted(room: Room) -> None:
    """An image with deleted files in its root, in a directory that is still there, and in one that is deleted too."""
    room.done("blank", "--ffs", "Bin", "bin.adf")
    room.done("mkdir", *MOMENT, "bin.adf", "kept", "a", "a/b")
    for where, name in (("", "gone"), ("kept", "old one"), ("kept", "new"), ("a/b", "first"), ("a/b", "second")):
        room.done("add", *MOMENT, "--to", where, "--as", name, "bin.adf", "-")
    room.done("delete", *MOMENT, "--all", "bin.adf", "gone", "kept/old one", "a")


def completions(room: Room) -> None:
    images(room)
    room.report.succeeds("the completions are written", [MAKE, "."])
    room.write("lines", "".join(f"{it.typed('|')}\n" for it in ROWS).encode())
    env = {"HOME": str(room.top), "PATH": f"{room.top}/bin:{os.environ['PATH']}", "LC_ALL": "C.UTF-8", "TERM": "xterm"}
    shells: Dict[str, Callable[[Room, Dict[str, str]], None]] = {"bash": in_bash, "zsh": in_zsh, "fish": in_fish}
    for shell, complete in shells.items():
        if not shutil.which(shell):
            room.report.lacks(f"completions of {shell}", shell)
            continue
        for it in sorted(Path(shell).iterdir()):
            room.report.succeeds(f"{it} can be read", [shell, "-n", str(it)])
        complete(room, env)


def wrong_words(room: Room) -> None:
    """A word that begins with a dash is no directory, and neither are none or two."""
    os.mkdir("empty")
    wrong: List[List[str]] = [["--check"], ["--help"], ["-"], [], ["a", "b"]]
    for words in wrong:
        ran = run(["env", "-C", "empty", MAKE, *words])
        room.report.check(f"make {' '.join(words)}", ran, 2, b"", "tools/completions/make TO")
    room.report.same("wrong arguments write nothing", os.listdir("empty"), [])


if __name__ == "__main__":
    sys.exit(try_all(sys.argv[1:], Room, wrong_words, completions))
