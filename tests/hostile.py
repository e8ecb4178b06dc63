#!/usr/bin/env python3
"""Tests the program against attackers: a process that swaps files in its directory, endless input, and an image made to exhaust
resources. It also tests limits on the length of files, and commands that are killed.

    tests/hostile.py [PROGRAM [PART..]]

PART is a part of a task's name; without one all tasks run. The environment variable SECONDS=N lengthens each race to N seconds; the
default is 4, or 2 for the one of which `strace` tries the same. With TIMES=1 the test prints how long each task took.

A task is some of the checks, in a process and a directory of its own. As many run side by side as there are processors. The races
come first, half as many at a time. The bounds on time are on the processor time of the program, so that they hold beside other work.

The program runs as root on files of another user. A process of that user replaces a file by a link. The target of the link must not
change. If `strace` is installed, it stops the program directly after the relevant call, and the program goes on when the file was
swapped: so the order is exact. Besides, the swap is tried at any time for some seconds. The test also checks that owners, groups
and modes are kept.

Endless streams, and files as long as a disk, take the place of images and scripts. With little memory the program must end
soon.

Directories are swapped for links to one that must stay empty: while the program is stopped, and at any time for some seconds. An
image with more levels of directories than are open at a time is taken out, and `/proc` is taken away.

The made images consist of headers only: of files that claim too many blocks, of directories in chains and cycles, and of one name
again and again. The time and the memory of their salvage must be bounded, and so must be the size of the salvaged files.

Other images are accepted, and as deep or as full as their blocks allow: a chain of directories through all blocks, many files in
the deepest directory, all names in one hash chain. Others are refused, since half of their blocks are directories or files that all
lead into one chain of the other half. Each command over them has a bound on its memory, its stack and its processor time.

A limit on the length of files is set as a shell sets it, so that a write past it would end the program. Commands are killed by
the signals of a terminal, and the next command must remove what they left.

Programs of this test lock images while commands read them.

The test reports the checks that it skips on this machine.
"""
from __future__ import annotations

import ctypes
import fcntl
import json
import os
import random
import re
import resource
import shutil
import signal
import stat
import subprocess
import sys
import threading
import time
import unicodedata
from contextlib import suppress
from functools import partial
from itertools import islice
from pathlib import Path
from typing import Callable, Dict, List, NamedTuple, NoReturn, Optional, Sequence, Tuple

sys.dont_write_bytecode = True

from harmful import (
    WORST,
    Places,
    Worst,
    chains_down,
    deep_chain,
    deep_files,
    ends_late,
    extensions_round,
    grows_by_one,
    hang,
    headers_of,
    join,
    long_names,
    names_alike,
    names_of_one_chain,
    one_chain,
    parents_round,
    parents_up,
    places_in,
    put_header,
    put_name,
    refused,
    share_entries,
    share_extensions,
    shares_list,
)
from harness import (
    BLOCK,
    FILE,
    LONGEST,
    MOMENT,
    POINTERS,
    TOP,
    Call,
    Ended,
    Image,
    Ran,
    Report,
    Room,
    Task,
    fault_of,
    has_strace,
    in_memory,
    injected,
    limited,
    processors,
    program_of,
    run,
    traced,
    try_side_by_side,
)

# A user other than root, and two groups, by numbers that need no name.
OTHER, GROUP, SECOND = 65_534, 65_534, 65_533
# How long races last, in seconds: those that are left to chance alone, and those that strace decides too.
RACE, BOUND = (float(os.environ.get("SECONDS") or it) for it in (4, 2))
# How often it is looked whether a program has stopped, and how often it is told to go on, in seconds.
LOOK, AGAIN = 0.002, 0.2
# The files in a directory that is swapped, and the least number of swaps in a race before the command ended.
FILES, SWAPS = 200, 100
# Bytes in the largest image, and the most seconds of processor time for reading an endless stream.
LARGEST, SOON, AT_ONCE = 101_602 * BLOCK, 3.0, 0.3
# The most bytes of the files in a room at one time: an image, and four times as much that was taken out of it.
MOST_FILES = 6 * LARGEST


class Known(NamedTuple):
    """What must not change in a file: its kind and owner, and its bytes."""

    mode: int
    user: int
    group: int
    modified: int
    inode: int
    data: bytes


def as_other() -> None:
    """Makes this process one of the other user, who is in both groups."""
    os.setgroups([GROUP, SECOND])
    os.setgid(GROUP)
    os.setuid(OTHER)


def has_other() -> bool:
    """Whether there is another user here that this process can become."""
    if os.geteuid() != 0:
        return False
    process = os.fork()
    if process == 0:
        try:
            as_other()
        except OSError:
            os._exit(1)
        os._exit(0)
    return os.waitpid(process, 0)[1] == 0


class Shared(Room):
    """A room of this user with a directory of the other user in it, the program, and a file of this user that nobody
    may change."""

    def __init__(self, program: Path, report: Report, inside: Optional[str] = None) -> None:
        super().__init__(program, report, inside)
        self.owner = OTHER if has_other() else None

    def __enter__(self) -> Shared:
        """Puts the files into it that the other user may read and all checks start from."""
        super().__enter__()
        os.chmod(self.top, 0o755)
        self.program = Path(shutil.copy(self.program, self.top / "program"))
        self.program.chmod(0o755)
        self.done("blank", "--ffs", *MOMENT, "Work", "empty.adf")
        self.write("one", b"1" * 3_000)
        self.done("add", *MOMENT, "--out", "full.adf", "empty.adf", "one")
        self.empty, self.full = self.content("empty.adf"), self.content("full.adf")
        self.write("script", b'mkdir 0 "made"\n')
        # If this process can become another user, both files are in a directory where that user may change names.
        os.mkdir("theirs")
        self.give("theirs")
        self.refresh()
        return self

    def give(self, path: str) -> None:
        """Gives a file or a directory to the other user, if there is one."""
        if self.owner is not None:
            os.chown(path, self.owner, self.owner)

    def put(self, path: str, data: bytes, mode: int = 0o644) -> None:
        """A new file with these bytes and this mode."""
        if os.path.lexists(path):
            os.remove(path)
        self.write(path, data)
        os.chmod(path, mode)

    def refresh(self) -> None:
        """Restores everything to the state before a check."""
        for it in os.listdir("theirs"):
            path = f"theirs/{it}"
            if os.path.isdir(path) and not os.path.islink(path):
                shutil.rmtree(path)
            else:
                os.remove(path)
        os.mkdir("theirs/out")
        self.put("theirs/image.adf", self.full)
        self.put("theirs/other.adf", self.empty)
        self.put("theirs/out/one", b"old")
        for it in ("theirs/out", "theirs/image.adf", "theirs/other.adf", "theirs/out/one"):
            self.give(it)
        self.put("victim", b"kept", 0o600)
        self.put("victim.adf", self.empty, 0o600)

    def known(self, path: str) -> Known:
        found = os.lstat(path)
        return Known(found.st_mode, found.st_uid, found.st_gid, found.st_mtime_ns, found.st_ino, self.content(path))

    def number_of(self, words: Sequence[str], call: str, front: str) -> int:
        """The number of the first call with this name about a file whose path begins like this, in a run with these arguments.
        Everything is then as before."""
        calls = traced(self, words, [call])
        number = next(it.number for it in calls if f"<{front}" in it.about)
        self.refresh()
        return number


class InMemory(Shared):
    """Such a room in memory, if there is enough of it. A disk may take ten seconds to remove a thousand directories, each in the one
    before."""

    def __init__(self, program: Path, report: Report) -> None:
        super().__init__(program, report, in_memory(processors() * MOST_FILES))


# ---- names that change meanwhile


def when_there(path: str) -> None:
    while not os.path.lexists(path):
        pass


def when_beside(folder: str) -> None:
    while not besides(folder):
        pass


def as_another(room: Shared, change: Callable[[], None]) -> bool:
    """Makes a change in a process of the other user, if there is one. Returns whether it was made."""
    process = os.fork()
    if process == 0:
        try:
            if room.owner is not None:
                as_other()
            change()
            os._exit(0)
        finally:
            os._exit(1)
    return os.waitpid(process, 0)[1] == 0


def stopped_at(
    room: Shared, words: Sequence[str], call: Call, change: Callable[[], None], longest: float = LONGEST
) -> Tuple[Ran, Optional[str]]:
    """Runs the program, and lets the other user make a change directly after this call. Returns how it ended, and why the change was
    not made, or that it did not end in so many seconds.

    The order is exact, however busy the machine is. `strace` sends the signal to stop when the call begins; the call is done, and the
    program stops before its next instruction. The change is made once strace says that it has stopped, and only then it goes on. A
    delay of 0.3 seconds in place of the stop at times ended before the change was made: by then the program had opened the directory,
    and rightly ended well.
    """
    ready, ends = "stops", time.monotonic() + longest
    front = ["strace", "-f", "-o", ready, "-e", f"trace={call.name}", "-e", f"inject={call.name}:signal=STOP:when={call.number}"]
    room.write(ready)
    # (pipes, as where the calls were counted: of a file the program asks for the limit on its length)
    words = [*front, str(room.program), *words]
    with subprocess.Popen(words, stdin=subprocess.DEVNULL, stdout=subprocess.PIPE, stderr=subprocess.PIPE, start_new_session=True) as began:
        while began.poll() is None and b"stopped by SIGSTOP" not in room.content(ready) and time.monotonic() < ends:
            time.sleep(LOOK)
        fault = "it was not stopped" if began.poll() is not None or time.monotonic() > ends else None
        if fault is None and not as_another(room, change):
            fault = "the change was not made"
        while began.poll() is None and time.monotonic() < ends:
            os.killpg(began.pid, signal.SIGCONT)
            with suppress(subprocess.TimeoutExpired):
                began.wait(AGAIN)
        if began.poll() is None:
            os.killpg(began.pid, signal.SIGKILL)
            fault = "it did not go on"
        output, texts = began.communicate()
        ran = Ran(began.returncode, output, texts)
    os.remove(ready)
    return ran, fault and f"{fault}: {ran}"


class Swap:
    """A process, of the other user if there is one, that waits for something and then changes names in the
    directory."""

    def __init__(self, room: Shared, wait: Callable[[], None], change: Callable[[], None]) -> None:
        ready, told = os.pipe()
        self.process = os.fork()
        if self.process == 0:
            os.close(ready)
            self.go(room, wait, change, told)
        os.close(told)
        os.read(ready, 1)
        os.close(ready)

    @staticmethod
    def go(room: Shared, wait: Callable[[], None], change: Callable[[], None], told: int) -> NoReturn:
        try:
            if room.owner is not None:
                as_other()
            os.write(told, b"1")
            wait()
            change()
            os._exit(0)
        finally:
            os._exit(1)

    def end(self) -> bool:
        """Ends it, and returns whether it had made its change."""
        found, status = os.waitpid(self.process, os.WNOHANG)
        if found == 0:
            os.kill(self.process, signal.SIGKILL)
            status = os.waitpid(self.process, 0)[1]
        return status == 0


def put_link_beside(room: Shared, folder: str) -> Callable[[], None]:
    """Puts a link to a file of this user in the place of the file beside in a directory, in one step."""
    link = f"{folder}/link"
    os.symlink(room.top / "victim", link)
    return lambda: os.rename(link, besides(folder)[0])


def put_link(room: Shared, target: str, place: str) -> Callable[[], None]:
    """Puts a link to a file of this user in the place of a name, in one step."""
    link = f"{os.path.dirname(place)}/link"
    os.symlink(room.top / target, link)
    return lambda: os.rename(link, place)


# What the name of a file beside is, for its new bytes, and how it begins.
BESIDE, FRONT = re.compile(r"\.adf_serve-[a-z]{16}\.new"), "/.adf_serve-"


def besides(folder: str) -> List[str]:
    """The files beside in a directory."""
    return sorted(f"{folder}/{it}" for it in os.listdir(folder) if BESIDE.fullmatch(it))


class Writing(NamedTuple):
    """A command that replaces a file of the other user, and the directory in which the file beside it with the new bytes is."""

    name: str
    words: List[str]
    folder: str


CHANGE = Writing("a change", ["mkdir", *MOMENT, "theirs/image.adf", "new"], "theirs")
TO_ANOTHER = ["mkdir", *MOMENT, "--out", "theirs/other.adf", "full.adf", "new"]
NEW_VOLUME = Writing("a new volume", ["blank", *MOMENT, "Work", "theirs/image.adf"], "theirs")
SERVES = ["serve", *MOMENT, "--out", "theirs/other.adf", "full.adf", "script"]
TAKES_OUT = Writing("files out by force", ["extract", "--force", "--to", "theirs/out", "full.adf"], "theirs/out")
WRITINGS = [
    CHANGE,
    Writing("a change to another file", TO_ANOTHER, "theirs"),
    NEW_VOLUME,
    Writing("scripts", SERVES, "theirs"),
    TAKES_OUT,
]


def fault_of_victim(room: Shared, before: Known) -> Optional[str]:
    """What is wrong if the file that a link leads to has changed."""
    after = room.known("victim")
    return None if after == before else f"the link's target has changed: user {after.user}, group {after.group}, mode {after.mode:o}"


def given_away(room: Shared, writing: Writing, names: Sequence[str]) -> Optional[str]:
    """What is wrong after a link was put in the place of the file beside, directly after the first of these calls that is about it."""
    room.refresh()
    call = find_call(room, writing.words, names, FRONT)
    room.refresh()
    before = room.known("victim")
    ran, fault = stopped_at(room, writing.words, call, put_link_beside(room, writing.folder))
    return fault_of_victim(room, before) or fault


def links_beside(room: Shared) -> None:
    """A link is put in the place of the file beside: when that was just made and is not locked, and when its bytes were written."""
    for writing in WRITINGS:
        for when, names in (("just made", ["open", "openat"]), ("written", ["write"])):
            fault = given_away(room, writing, names)
            room.report.hold(f"a link in the place of the file beside that is {when}, {writing.name}", fault)


def raced_beside(room: Shared) -> None:
    """A link takes the place of the file beside as soon as that is there, again and again for some seconds."""
    ends, turns = time.monotonic() + BOUND, 0
    fault: Optional[str] = None
    while fault is None and time.monotonic() < ends:
        room.refresh()
        before = room.known("victim")
        swap = Swap(room, lambda: when_beside(CHANGE.folder), put_link_beside(room, CHANGE.folder))
        room.run(*CHANGE.words)
        swap.end()
        fault = fault_of_victim(room, before)
        turns += 1
    room.report.hold("a link in the place of the file beside, again and again", fault and f"in turn {turns}: {fault}")


# The commands that lock an existing file from start to end: the image of the other user.
PLACE = "theirs/image.adf"
HOLDS = [
    ("a change", CHANGE.words),
    ("a boot block", ["boot", PLACE]),
    ("a change by another name", ["mkdir", *MOMENT, "--out", "theirs/../theirs/image.adf", PLACE, "new"]),
]


def swapped_after(room: Shared, words: List[str], call: Call, change: Callable[[], None]) -> Optional[str]:
    """What is wrong after a locked file was swapped: another one has changed, or the fault is not reported."""
    before = room.known("victim.adf")
    ran, fault = stopped_at(room, words, call, change)
    if fault:
        return fault
    if room.known("victim.adf") != before:
        return f"another file was written: {ran}"
    if ran.status != 2 or not ran.texts:
        return f"status 2 and a text are wanted: {ran}"
    left = [it for place in (".", "theirs") for it in os.listdir(place) if it.startswith(".adf_serve")]
    return f"{left} is left" if left else None


def others_in_place(room: Shared) -> None:
    """Another file takes the place of a locked one, which was just read."""
    for name, words in HOLDS:
        room.refresh()
        call = find_call(room, words, ["read"], f"<{os.path.realpath(PLACE)}>")
        room.refresh()
        fault = swapped_after(room, words, call, put_link(room, "victim.adf", PLACE))
        room.report.hold(f"a link in the place of a held file, {name}", fault)
        room.refresh()
        fault = swapped_after(room, words, call, lambda: os.rename("theirs/other.adf", PLACE))
        if fault is None and room.content(PLACE) != room.empty:
            fault = "it was written over"
        room.report.hold(f"another file in the place of a held one, {name}", fault)
        room.refresh()
        fault = swapped_after(room, words, call, lambda: os.remove(PLACE))
        room.report.hold(f"a held file is removed, {name}", fault or ("it is there again" if os.path.exists(PLACE) else None))


# ---- files that are swapped while they are read

# What only this user may read, and the seconds in which a command ends that meets a pipe, also on a busy machine.
SECRET, NO_WAIT = b"for this user only\n" * 40, 60.0
SECRET_NOTE = b"----rwed 2000-01-01 00:00:00.00 for this user only"
# What shows that it was read: in an image, and in what is printed of one.
MARKS = [b"for this user only", b"Hidden"]


class Reading(NamedTuple):
    """A command that reads a file of the other user, that file, and the file of this user with which it is confused."""

    name: str
    words: List[str]
    place: str
    secret: str


IN_BUNDLE = "theirs/bundle/files/one"
READINGS = [
    Reading("add --bundle", ["add", "--out", "got.adf", "--bundle", "theirs/bundle", "bare.adf"], IN_BUNDLE, "secret"),
    Reading("the description of a bundle", ["add", "--out", "got.adf", "--bundle", "theirs/bundle", "bare.adf"], "theirs/bundle/volume.json", "secret"),
    Reading("add of a tree", ["add", *MOMENT, "--out", "got.adf", "bare.adf", "theirs/tree"], "theirs/tree/below/one", "secret"),
    Reading("add of a file", ["add", *MOMENT, "--out", "got.adf", "bare.adf", "theirs/tree/below/one"], "theirs/tree/below/one", "secret"),
    Reading("add of a note", ["add", *MOMENT, "--out", "got.adf", "bare.adf", "theirs/tree"], "theirs/tree/below/one.uaem", "secret.uaem"),
    Reading("check of a directory", ["check", "--json", "theirs/archive"], "theirs/archive/below/one.adf", "secret.adf"),
]
FORCED = Reading("extract --force", ["extract", "--force", "--to", "theirs/out", "full.adf"], "theirs/out/one", "victim")


def put_readings(room: Shared) -> None:
    """The files of this user that nobody may read, and those of the other user that commands read."""
    room.done("blank", "--ffs", *MOMENT, "Hidden", "secret.adf")
    room.done("blank", "--ffs", *MOMENT, "Work", "bare.adf")
    room.put("secret", SECRET, 0o600)
    room.put("secret.uaem", SECRET_NOTE, 0o600)
    os.chmod("secret.adf", 0o600)
    room.write("open", SECRET.replace(b"for", b"not"))
    room.done("add", *MOMENT, "--as", "one", "--out", "bundled.adf", "bare.adf", "open")


def with_readings(room: Shared) -> None:
    """Everything as it was before a file is swapped."""
    room.refresh()
    room.done("extract", "--bundle", "theirs/bundle", "bundled.adf")
    os.makedirs("theirs/tree/below")
    room.write("theirs/tree/below/one", SECRET.replace(b"for", b"not"))
    room.write("theirs/tree/below/one.uaem", SECRET_NOTE.replace(b"for", b"not"))
    os.makedirs("theirs/archive/below")
    room.write("theirs/archive/below/one.adf", room.full)
    for folder, below, files in os.walk("theirs"):
        for it in below + files:
            room.give(f"{folder}/{it}")


def beside_place(room: Shared, reading: Reading, is_pipe: bool) -> None:
    """Puts beside a file what takes its place: a pipe, or a link to the file of this user."""
    if is_pipe:
        os.mkfifo(f"{reading.place}.link")
        room.give(f"{reading.place}.link")
    else:
        os.symlink(room.top / reading.secret, f"{reading.place}.link")


def fault_of_read(room: Room, ran: Ran, began: float) -> Optional[str]:
    """What is wrong after a file was swapped while it was read: what only this user may read is told or in the image, or the command
    ended in another way than well or with a fault of the file, or it waited."""
    took = time.monotonic() - began
    told = ran.output + (room.content("got.adf") if os.path.exists("got.adf") else b"")
    with suppress(FileNotFoundError):
        os.remove("got.adf")
    if any(it in told for it in MARKS):
        return f"what only this user may read was read: {ran}"
    if ran.status not in (0, 2) or (ran.status == 2 and not ran.texts):
        return f"status 0, or 2 and a text are wanted: {ran}"
    return f"{took} seconds: {ran}" if took > NO_WAIT else None


def swapped_reads(room: Shared, reading: Reading, is_pipe: bool) -> Optional[str]:
    """What is wrong after the file was swapped directly after any of the calls that look at it or open it."""
    with_readings(room)
    name = f'/{os.path.basename(reading.place)}"'
    looks = ["statx", "newfstatat", "lstat", "stat", "open", "openat"]
    calls = [it for it in traced(room, reading.words, looks) if name in it.about]
    for call in calls[:12]:
        with_readings(room)
        beside_place(room, reading, is_pipe)
        began = time.monotonic()
        ran, late = stopped_at(room, reading.words, call, exchanged(reading.place), 2 * NO_WAIT)
        fault = late or fault_of_read(room, ran, began) or fault_of_secret(room)
        if fault:
            return f"after {call.name} {call.number}: {fault}"
    return None if calls else "no call looks at the file"


def fault_of_secret(room: Room) -> Optional[str]:
    """What is wrong if a file of this user has changed."""
    return None if (room.content("victim"), room.content("secret")) == (b"kept", SECRET) else "a file of this user is changed"


def swapped_files(room: Shared) -> None:
    """A link or a pipe takes the place of a file between a look at it and the next."""
    put_readings(room)
    for reading in (*READINGS, FORCED):
        for what, is_pipe in (("a link", False), ("a pipe", True)):
            room.report.hold(f"{what} in the place of a file, {reading.name}", swapped_reads(room, reading, is_pipe))


def raced_files(room: Shared) -> None:
    """A link or a pipe takes the place of a file, and the file its place, again and again while a command runs."""
    put_readings(room)
    for reading in (*READINGS, FORCED):
        for what, is_pipe in (("a link", False), ("a pipe", True)):
            fault = raced_reads(room, reading, is_pipe)
            room.report.hold(f"{what} in the place of a file again and again, {reading.name}", fault)


def raced_reads(room: Shared, reading: Reading, is_pipe: bool) -> Optional[str]:
    """What is wrong after a file was swapped at any time, for a second."""
    with_readings(room)
    beside_place(room, reading, is_pipe)
    swap = Swap(room, lambda: None, lambda: swap_for(reading.place, NO_WAIT))
    ends, turns = time.monotonic() + RACE / 4, 0
    fault: Optional[str] = None
    try:
        while fault is None and time.monotonic() < ends:
            began = time.monotonic()
            fault = fault_of_read(room, run_within(room, reading.words, NO_WAIT), began) or fault_of_secret(room)
            turns += 1
    finally:
        swap.end()
    return fault and f"in turn {turns}: {fault}"


def swap_for(place: str, seconds: float) -> None:
    """Swaps a file and what is beside it for some seconds."""
    change, ends = exchanged(place), time.monotonic() + seconds
    while time.monotonic() < ends:
        change()


def run_within(room: Room, words: Sequence[str], seconds: float) -> Ran:
    """Runs the program. If it does not end in so many seconds, it is killed, and its status is -9."""
    with open("lines", "w+b") as lines, open("texts", "w+b") as texts:
        began = subprocess.Popen([str(room.program), *words], stdin=subprocess.DEVNULL, stdout=lines, stderr=texts)
        try:
            status = began.wait(seconds)
        except subprocess.TimeoutExpired:
            began.kill()
            began.wait()
            status = -9
        return Ran(status, room.content("lines"), room.content("texts"))


def links_of_others(room: Shared) -> None:
    """A link is followed to a file that its maker may read, and not to one that only this user may read."""
    put_readings(room)
    with_readings(room)
    os.symlink(room.top / "secret", "theirs/tree/a")
    os.symlink("one", "theirs/tree/below/b")
    ran = room.run("add", *MOMENT, "--out", "got.adf", "bare.adf", "theirs/tree")
    fault = fault_of(ran, 0, b"", "skipped 'theirs/tree/a': it is a symbolic link of another user")
    room.report.hold("a link of another user is skipped", fault or fault_of_read(room, ran, time.monotonic()))
    os.remove("theirs/tree/a")
    room.done("add", *MOMENT, "--out", "got.adf", "bare.adf", "theirs/tree")
    own = SECRET.replace(b"for", b"not")
    room.report.same("a link to a file of its maker", room.done("print", "got.adf", "tree/below/b"), own)
    os.symlink(room.top / "secret", "mine")
    room.done("add", *MOMENT, "--out", "got.adf", "bare.adf", "mine")
    room.report.same("a link of this user", room.done("print", "got.adf", "mine"), SECRET)
    os.symlink(room.top / "secret.adf", "theirs/archive/two.adf")
    ran = room.run("check", "theirs/archive")
    room.report.hold("a link of another user to an image", fault_of(ran, 2, None, "two.adf': it is a symbolic link of another user"))


# ---- directories that are swapped


# What is taken out: a file, and then a directory of files. And an image that is changed, in a directory of its own.
TAKEN = ["extract", "--to", "theirs/out", "way.adf", "a", "way"]
CHANGED = ["mkdir", *MOMENT, "theirs/dir/image.adf", "new"]
WAY = [f"way/f{number:02}" for number in range(FILES)]
# The levels of directories in a deep image: more than are open at a time. The handles that a process then has at most: 64, and those
# of its standard streams.
LEVELS, HANDLES = 150, 67
LIBC = ctypes.CDLL(None, use_errno=True)
AT_FDCWD, RENAME_EXCHANGE = -100, 2


class Held(NamedTuple):
    """A directory that is swapped while the program is stopped: after a call, with a part of its arguments."""

    name: str
    swapped: str
    call: str
    about: str
    # How the program ends. A directory that it has still to open is refused. In one that is open it goes on, wherever that is moved.
    status: int


HOLD_UPS = [
    Held("on the way, as soon as it is made", "theirs/out/way", "mkdir", '/way"', 2),
    Held("on the way, after a file in it", "theirs/out/way", "write", "/out/way/", 0),
    Held("that was named", "theirs/out", "write", "/out/a>", 0),
]
HOLD_UP_FOUND = Held("on the way, that was there", "theirs/out/way", "write", "/out/a>", 2)


def exchanged(place: str) -> Callable[[], None]:
    """Exchanges a directory and the link beside it, in one step."""
    words = (ctypes.c_char_p(place.encode()), AT_FDCWD, ctypes.c_char_p(f"{place}.link".encode()), RENAME_EXCHANGE)
    return lambda: None if LIBC.renameat2(AT_FDCWD, *words) == 0 else sys.exit(1)


def put_directory_link(room: Shared, place: str) -> None:
    """A link, beside a directory, to the directory of this user that must stay empty."""
    os.symlink(room.top / "outside", f"{place}.link")


def moved_away(room: Shared, place: str) -> Callable[[], None]:
    """Moves a directory away, and puts a link to the directory of this user there."""

    def change() -> None:
        os.rename(place, f"{place}.away")
        os.symlink(room.top / "outside", place)

    return change


def outside_of(ran: Ran) -> Optional[str]:
    """What is wrong after a directory was swapped for a link to one that must stay empty."""
    found = sorted(f"{folder}/{it}" for folder, below, files in os.walk("outside") for it in below + files)
    shutil.rmtree("outside")
    os.mkdir("outside")
    return f"{len(found)} names, the first {found[0]!r}, were made outside: {ran}" if found else None


def find_call(room: Room, words: Sequence[str], names: Sequence[str], part: str) -> Call:
    """The first call with one of these names that has this part in its arguments."""
    return next(it for it in traced(room, words, names) if part in it.about)


def fault_of_taken(top: str, way: str, is_whole: bool) -> Optional[str]:
    """What is wrong with the files below a directory: the old one, the first that is taken out, and all those of the directory on the
    way or none. That one may have another name by now."""
    wanted = {f"{top}/one": b"old", f"{top}/a": b"a" * 400}
    if is_whole:
        wanted.update({f"{way}/{it[4:]}": it.encode() * 400 for it in WAY})
    found = files_below(top)
    other = sorted(it for it in {*wanted, *found} if wanted.get(it) != found.get(it))
    return f"{len(other)} files are not as wanted, the first {other[0]!r}" if other else None


def swapped_in(room: Shared, held: Held, prepare: Callable[[], None]) -> Optional[str]:
    """What is wrong after a directory was swapped for a link while the program was stopped."""
    prepare()
    call = find_call(room, TAKEN, [held.call, f"{held.call}at"], held.about)
    prepare()
    ran, late = stopped_at(room, TAKEN, call, moved_away(room, held.swapped))
    fault = outside_of(ran) or late or fault_of(ran, held.status, None, *(["theirs/out/way"] if held.status else []))
    moved = f"{held.swapped}.away"
    places = (moved, f"{moved}/way") if held.swapped == "theirs/out" else ("theirs/out", moved)
    return fault or fault_of_taken(*places, held.status == 0)


def with_way(room: Shared) -> None:
    """The other user has made the directory of files."""
    room.refresh()
    os.mkdir("theirs/out/way")
    room.give("theirs/out/way")


def swapped_new(room: Shared) -> Optional[str]:
    """What is wrong after the directory of a new image was swapped for a link. It comes after the last leftover is removed."""
    words, last = ["blank", *MOMENT, "Work", "theirs/dir/new.adf"], "theirs/dir/.adf_serve-999.new"

    def prepare() -> None:
        room.refresh()
        os.mkdir("theirs/dir")
        room.give("theirs/dir")
        room.write(last)

    prepare()
    call = find_call(room, words, ["unlink", "unlinkat"], "/.adf_serve-999.new")
    prepare()
    ran, late = stopped_at(room, words, call, moved_away(room, "theirs/dir"))
    fault = outside_of(ran) or late or fault_of(ran)
    is_there = os.path.isfile("theirs/dir.away/new.adf")
    return fault or (None if is_there else "it is not in the directory that was open")


def swapped_image(room: Shared) -> Optional[str]:
    """What is wrong after the directory of an image was swapped for a link. It comes after the image is locked, and its path was seen
    to lead to the locked file."""
    with_dir(room)
    call = find_call(room, CHANGED, ["statx", "newfstatat", "stat"], '"theirs/dir/image.adf"')
    with_dir(room)
    ran, late = stopped_at(room, CHANGED, call, moved_away(room, "theirs/dir"))
    fault = outside_of(ran) or late or fault_of(ran, 2, None, "theirs/dir/image.adf")
    is_kept = room.content("theirs/dir.away/image.adf") == room.full
    return fault or (None if is_kept else "the image is changed")


class Race(NamedTuple):
    """A command that runs again and again, and a directory that is swapped meanwhile."""

    words: List[str]
    place: str
    prepare: Callable[[], None]
    # What is wrong if the command ended well, or if it did not, with the place where the directory is by now.
    fault_of_end: Callable[[bool, str], Optional[str]]


def raced(room: Shared, race: Race) -> Optional[str]:
    """What is wrong after a command ran again and again, for some seconds, while a directory was swapped at any time. The command ends
    well, and then it has done all in that directory; or it says why not."""
    race.prepare()
    begins = time.monotonic()
    room.run(*race.words)
    lasts, turns, swaps, drawn_by = time.monotonic() - begins, 0, 0, random.Random(1)
    fault: Optional[str] = None
    while fault is None and (time.monotonic() < begins + RACE or swaps < SWAPS):
        race.prepare()
        put_directory_link(room, race.place)
        after = drawn_by.uniform(0, lasts)
        swap = Swap(room, lambda: time.sleep(after), exchanged(race.place))
        ran = room.run(*race.words)
        swaps += swap.end()
        place = f"{race.place}.link" if os.path.islink(race.place) else race.place
        is_well = ran.status == 0
        fault = outside_of(ran) or (None if is_well else fault_of(ran, 2, None, "theirs/")) or race.fault_of_end(is_well, place)
        turns += 1
    return fault and f"in turn {turns}: {fault}"


def with_dir(room: Shared) -> None:
    """The image is in a directory of its own, of the other user."""
    room.refresh()
    os.mkdir("theirs/dir")
    room.put("theirs/dir/image.adf", room.full)
    room.give("theirs/dir")
    room.give("theirs/dir/image.adf")


def put_way(room: Shared) -> None:
    """The image whose files are taken out, and the directory that must stay empty."""
    os.mkdir("outside")
    os.mkdir("way")
    for it in ("a", *WAY):
        room.write(it, it.encode() * 400)
    room.done("blank", "--ffs", *MOMENT, "Work", "way.adf")
    room.done("add", *MOMENT, "way.adf", "a", "way")


def race_on_the_way(room: Shared) -> None:
    """A directory on the way of files that are taken out is swapped at any time."""

    def fault_of_end(is_well: bool, place: str) -> Optional[str]:
        return fault_of_taken("theirs/out", place, True) if is_well else None

    put_way(room)
    fault = raced(room, Race(TAKEN, "theirs/out/way", lambda: with_way(room), fault_of_end))
    room.report.hold("a link for a directory on the way, again and again", fault)


def race_of_an_image(room: Shared) -> None:
    """The directory of an image that is changed is swapped at any time."""

    def fault_of_end(is_well: bool, place: str) -> Optional[str]:
        is_changed = room.content(f"{place}/image.adf") != room.full
        return None if is_changed == is_well else f"the image is {'changed' if is_changed else 'unchanged'}"

    put_way(room)
    fault = raced(room, Race(CHANGED, "theirs/dir", lambda: with_dir(room), fault_of_end))
    room.report.hold("a link for the directory of an image, again and again", fault)


def swapped_directories(room: Shared) -> None:
    """Nothing is written outside the directory that was named, whatever is put in the place of one meanwhile."""
    put_way(room)
    for held in HOLD_UPS:
        room.report.hold(f"a link for a directory {held.name}", swapped_in(room, held, room.refresh))
    fault = swapped_in(room, HOLD_UP_FOUND, lambda: with_way(room))
    room.report.hold(f"a link for a directory {HOLD_UP_FOUND.name}", fault)
    room.report.hold("a link for the directory of a new image", swapped_new(room))
    room.report.hold("a link for the directory of an image, once it is locked", swapped_image(room))


def put_deep(room: Shared) -> List[str]:
    """An image with more levels of directories than are open at a time, each with three files. Returns the paths of the
    directories."""
    way = ["/".join("d" * level) for level in range(1, LEVELS + 1)]
    os.makedirs(f"deep/{way[-1]}")
    for it in way:
        for name in "abc":
            room.write(f"deep/{it}/{name}", f"{it} {name}".encode())
    room.done("blank", "--ffs", *MOMENT, "Work", "deep.adf")
    room.done("add", *MOMENT, "deep.adf", "deep/d")
    return way


TAKEN_DEEP = ["extract", "--to", "theirs/out", "deep.adf"]


def deep_directories(room: Shared) -> None:
    """More levels of directories than are open at a time are taken out."""
    way = put_deep(room)
    ran = room.run(*TAKEN_DEEP, before=limited(resource.RLIMIT_NOFILE, HANDLES))
    same = run(["diff", "-r", "deep/d", "theirs/out/d"])
    fault = fault_of(ran) or (None if (same.status, same.output) == (0, b"") else f"other files: {same}")
    room.report.hold(f"{LEVELS} levels of directories with {HANDLES} handles", fault)
    faults = (fault_of_time(f"theirs/out/{it}", f"deep/{it}") for it in way)
    room.report.hold("the times of these directories", next(filter(None, faults), None))


def opened_again(room: Shared) -> None:
    """A directory that is opened again must be the same."""
    put_deep(room)
    os.mkdir("outside")
    for title, change in (("a link", moved_away(room, "theirs/out/d")), ("another one", other_in_place)):
        room.refresh()
        call = find_call(room, TAKEN_DEEP, ["write"], f"/{'/'.join('d' * LEVELS)}/")
        room.refresh()
        ran, late = stopped_at(room, TAKEN_DEEP, call, change)
        fault = outside_of(ran) or late or fault_of(ran, 2, None, "theirs/out/d")
        room.report.hold(f"{title} for a directory that is opened again", fault)


def other_in_place() -> None:
    """Puts another directory in the place of the first."""
    os.rename("theirs/out/d", "theirs/out/e")
    os.mkdir("theirs/out/d")


def fault_of_time(path: str, like: str) -> Optional[str]:
    """What is wrong with the time of a directory: that of another one is wanted, down to a tick."""
    wanted = os.stat(like).st_mtime_ns // 20_000_000 * 20_000_000
    found = os.stat(path).st_mtime_ns
    return None if found == wanted else f"{path}: {found} where {wanted} is expected"


def long_paths(room: Shared) -> None:
    """An entry whose host path would be too long is refused before anything is written."""
    room.done("blank", "--ffs", *MOMENT, "Work", "long.adf")
    names = [f"{level:03}".ljust(30, "n") for level in range(140)]
    room.done("mkdir", *MOMENT, "long.adf", *("/".join(names[: level + 1]) for level in range(len(names))))
    ran = room.run("extract", "--to", "long", "long.adf")
    fault = fault_of(ran, 2, b"", "4,095")
    room.report.hold("a path of over 4,095 bytes", fault or ("something was written" if os.path.exists("long") else None))


def without_proc(room: Shared) -> None:
    """Without /proc nothing is taken out, and images are changed as with it."""
    front = ["unshare", "-m", "sh", "-c", 'mount -t tmpfs none /proc && exec "$@"', "sh"]
    if run([*front, "true"]).status != 0:
        room.report.skip("without /proc", "it cannot be taken away here")
        return
    for title, words in (("a directory that is there", ["--to", "theirs/out"]), ("a new directory", ["--to", "theirs/none"])):
        room.refresh()
        before = files_below("theirs")
        ran = room.run("extract", *words, "full.adf", front=front)
        fault = fault_of(ran, 2, b"", "/proc")
        is_kept = files_below("theirs") == before and not os.path.exists("theirs/none")
        room.report.hold(f"without /proc, extract to {title}", fault or (None if is_kept else "something was written"))
    ran = room.run("mkdir", *MOMENT, "theirs/image.adf", "new", front=front)
    room.report.hold("without /proc, a change", fault_of(ran) or (None if room.content("theirs/image.adf") != room.full else "none"))


# ---- owners, groups and modes


def kept_of(path: str, user: int, group: int, mode: int) -> Optional[str]:
    found = os.stat(path)
    here = (found.st_uid, found.st_gid, stat.S_IMODE(found.st_mode))
    return None if here == (user, group, mode) else f"user, group and mode are {here[0]}, {here[1]}, {here[2]:o}"


def fault_of_owner(
    room: Room, words: Sequence[str], path: str, wanted: Tuple[int, int, int], before: Optional[Callable[[], None]] = None
) -> Optional[str]:
    """What is wrong after a file was replaced; its user, group and mode have to be these."""
    old = room.content(path)
    ran = room.run(*words, before=before)
    if ran.status != 0 or room.content(path) == old:
        return f"it is not done: {ran}"
    return kept_of(path, *wanted)


def modes(room: Shared) -> None:
    """The rights to read, write and run a file stay; all other bits are cleared."""
    here = os.stat(PLACE)
    for writing, path in ((CHANGE, PLACE), (NEW_VOLUME, PLACE), (TAKES_OUT, "theirs/out/one")):
        for mode in (0o6755, 0o1644, 0o640, 0o777):
            room.refresh()
            os.chmod(path, mode)
            fault = fault_of_owner(room, writing.words, path, (here.st_uid, here.st_gid, mode & 0o777))
            room.report.hold(f"mode {mode:04o} of a file that is replaced, {writing.name}", fault)


def not_kept(room: Shared) -> None:
    """What docs/COMMANDS.md says that a change does not keep: another hard link leads to the old image, and extended attributes are
    gone."""
    page = (TOP / "docs/COMMANDS.md").read_text()
    for said in ("Another hard link to the old file leads to the old image from then on.", "other extended attributes."):
        room.report.expect(f"docs/COMMANDS.md says: {said}", said in page)
    room.refresh()
    os.link(PLACE, "theirs/linked.adf")
    try:
        os.setxattr(PLACE, "user.kept", b"1")
    except OSError:
        room.report.lacks("extended attributes", "host for them")
    room.report.check("a change of a file with another hard link", room.run(*CHANGE.words))
    found = (room.content(PLACE) != room.full, room.content("theirs/linked.adf") == room.full, os.listxattr(PLACE))
    room.report.same("the other link leads to the old image, and attributes are gone", found, (True, True, []))


def owners(room: Shared) -> None:
    """Owner and group stay if the process may set them."""
    for name, user, group, mode, after, before in (
        ("root leaves a file to its owner", 12_345, 23_456, 0o640, 12_345, None),
        ("the group of one's own file", OTHER, SECOND, 0o664, OTHER, as_other),
        ("another's file becomes one's own, in its group", 12_345, SECOND, 0o660, OTHER, as_other),
    ):
        room.refresh()
        os.chown(PLACE, user, group)
        os.chmod(PLACE, mode)
        room.report.hold(name, fault_of_owner(room, CHANGE.words, PLACE, (after, group, mode), before))


# ---- limits and leftovers


def files_below(top: str) -> Dict[str, bytes]:
    """The regular files below a directory, with their bytes."""
    paths = [f"{folder}/{it}" for folder, _, files in os.walk(top) for it in files]
    return {it: Path(it).read_bytes() for it in paths}


def short_files(room: Shared) -> None:
    """Under a limit on the length of files no file is begun that would exceed it."""
    cases = [(it.name, it.words) for it in WRITINGS]
    cases.append(("a file that is new", ["blank", *MOMENT, "Work", "theirs/new.adf"]))
    cases.append(("a boot block", ["boot", *MOMENT, "theirs/image.adf"]))
    cases.append(("files out", ["extract", "--to", "theirs/out/new", "full.adf"]))
    for name, words in cases:
        for most in (0, 1_000):
            room.refresh()
            before = files_below("theirs")
            ran = room.run(*words, before=limited(resource.RLIMIT_FSIZE, most))
            fault = fault_of(ran, 2, None, "limit on files")
            if fault is None and files_below("theirs") != before:
                fault = f"there is {sorted(files_below('theirs'))}"
            room.report.hold(f"files of at most {most} bytes, {name}", fault)


def served_over(room: Shared) -> None:
    """The image of `serve --out X X` is that of the file that was locked, whatever has its name meanwhile: the other one comes after
    the path was seen to lead to the locked file."""
    room.write("asks", b'locate 0 -2 "one"\n')
    words = ["serve", *MOMENT, "--out", PLACE, PLACE, "asks"]
    room.refresh()
    seen = [it for it in traced(room, words, ["statx", "newfstatat", "stat"]) if f'"{PLACE}"' in it.about]
    room.refresh()
    # (before that it is looked whether it is locked, and whether it is a file)
    ran, fault = stopped_at(room, words, seen[2], lambda: os.rename("theirs/other.adf", PLACE))
    # (only the locked one has the file)
    room.report.hold("another file in the place of one that is read and written", fault or fault_of(ran, 2, b"1.1 1 0\n", "another file has taken its place"))
    room.report.same("that other file stays", room.content(PLACE), room.empty)
    os.remove("asks")


def short_output(room: Shared) -> None:
    """Standard output that is a file with a limit is written as far as that, as on a full disk."""
    room.write("long", b"x" * 5_000)
    room.done("add", *MOMENT, "--out", "long.adf", "empty.adf", "long")
    said = b"adf_serve: standard output cannot be written\n"
    most = 1_000
    writes: Sequence[Tuple[str, List[str], bytes, str]] = (
        ("print", ["print", "long.adf", "long"], b"", "wb"),
        ("print behind what is there", ["print", "long.adf", "long"], b"y" * 900, "ab"),
        ("print over what is there", ["print", "long.adf", "long"], b"y" * 2_000, "r+b"),
        ("boot --show", ["boot", "--show", "long.adf"], b"y" * 999, "ab"),
        ("a script", [], b"y" * 999, "ab"),
    )
    for name, words, begins, mode in writes:
        room.write("printed", begins)
        with open("printed", mode) as printed:
            ended = subprocess.run(
                [str(room.program), *words], input=None, stdin=open("script", "rb"), stdout=printed, stderr=subprocess.PIPE, preexec_fn=limited(resource.RLIMIT_FSIZE, most)
            )
        length = max(most, len(begins))
        found = (ended.returncode, ended.stderr, os.path.getsize("printed"))
        room.report.same(f"an output of at most {most} bytes, {name}", found, (2, said, length))
    room.write("texts", b"y" * 999)
    with open("texts", "ab") as texts:
        ended = subprocess.run([str(room.program), "list", "missing"], stdout=subprocess.PIPE, stderr=texts, preexec_fn=limited(resource.RLIMIT_FSIZE, most))
    room.report.same("texts of at most 1,000 bytes", (ended.returncode, os.path.getsize("texts")), (2, most))
    for it in ("long", "long.adf", "printed", "texts"):
        os.remove(it)


def beside(number: int) -> str:
    """The file beside an image of the other user, by its number, as versions before named it."""
    return f"theirs/.adf_serve-{number}.new"


def lettered(number: int) -> str:
    """A name of a file beside, one for each number."""
    return f"theirs/.adf_serve-{'a' * 13}{''.join(chr(97 + int(it)) for it in f'{number:03}')}.new"


def still_there() -> List[int]:
    """The numbers of the files beside that are there."""
    return [it for it in range(1_000) if os.path.lexists(beside(it)) or os.path.lexists(lettered(it))]


# Names that are like those of files beside, and are none.
LIKE_BESIDE = ["1000", "007", "", "abc", "A" * 16, "a" * 15, "a" * 17, "+5"]


def leftovers(room: Shared) -> None:
    """A command removes the temporary files that others of its user left, and no other files of such names."""
    room.refresh()
    for number in range(1_000):
        room.write(beside(number), b"left")
        room.write(lettered(number), b"left")
    others = [f"theirs/.adf_serve-{it}.new" for it in LIKE_BESIDE]
    for it in others:
        room.write(it, b"kept")
    room.report.check("two thousand temporary files that were left", room.run(*CHANGE.words))
    room.report.same("two thousand temporary files are removed", still_there(), [])
    room.report.same("files of other names stay", [it for it in others if not os.path.exists(it)], [])
    for named in (beside, lettered):
        some_left(room, named)


def some_left(room: Shared, beside: Callable[[int], str]) -> None:
    """A command removes its user's files of these names, and nothing else."""
    room.refresh()
    for number in (0, 3, 999):
        room.write(beside(number), b"kept")
    os.symlink("../victim", beside(1))
    os.mkdir(beside(2))
    os.mkfifo(beside(4))
    room.give(beside(3))
    with open(beside(0), "rb") as locked:
        fcntl.flock(locked, fcntl.LOCK_EX)
        room.report.check("some temporary files that were left", room.run(*CHANGE.words))
    stay = [0, 1, 2, 4] if room.owner is None else [0, 1, 2, 3, 4]
    room.report.same("no file of another user, of another kind or that is locked is removed", still_there(), stay)
    room.report.same("a link under such a name leads to the same file", room.content("victim"), b"kept")


def made_beside(room: Shared, front: Sequence[str] = ()) -> List[str]:
    """The names of the files beside that a change makes."""
    room.refresh()
    names = ["open", "openat"]
    trace = ["strace", "-f", "-o", "trace", "-e", "trace=" + ",".join(f"?{it}" for it in [*names, "getrandom"]), *front]
    room.report.check("a change whose file beside is traced", room.run(*CHANGE.words, front=trace))
    made = [BESIDE.search(it) for it in room.content("trace").decode().splitlines() if "O_CREAT" in it]
    os.remove("trace")
    return [it[0] for it in made if it]


def random_names(room: Shared) -> None:
    """Nobody can take the name of a file beside first, with or without random numbers of the host."""
    ways: Sequence[Tuple[str, List[str]]] = (("random numbers", []), ("no random numbers", ["-e", "inject=getrandom:error=ENOSYS"]))
    for name, front in ways:
        made = [it for _ in range(3) for it in made_beside(room, front)]
        room.report.expect(f"names of files beside, with {name}", len(made) == len(set(made)) == 3, made)


def entries_like_leftovers(room: Shared) -> None:
    """Entries whose names are those of leftovers are taken out as any others, also over files that are there."""
    names = [".adf_serve-5.new", ".adf_serve-0.new", "z"]
    # (beside the image the next change would remove them)
    os.mkdir("entries")
    for it in names:
        room.write(f"entries/{it}", it.encode())
        room.done("add", *MOMENT, "full.adf", f"entries/{it}")
    for turn in ("new", "over files"):
        ran = room.run("extract", "--force", "--to", "theirs/out", "full.adf")
        found = {it: room.content(f"theirs/out/{it}") for it in names if os.path.exists(f"theirs/out/{it}")}
        room.report.expect(f"entries like leftovers, {turn}", (ran.status, found) == (0, {it: it.encode() for it in names}), (ran, found))
    room.write("full.adf", room.full)
    shutil.rmtree("entries")


def heeds_signals() -> None:
    """Signals of the terminal end this process, even if the test runs in the background."""
    for it in (signal.SIGINT, signal.SIGTERM, signal.SIGHUP):
        signal.signal(it, signal.SIG_DFL)


def killed(room: Shared) -> None:
    """After a kill by a signal of the terminal the next command removes the temporary file."""
    for writing in WRITINGS:
        for name in ("INT", "TERM", "HUP"):
            room.refresh()
            number = room.number_of(writing.words, "write", f"{os.path.realpath(writing.folder)}{FRONT}")
            room.run(*writing.words, front=injected(f"write:signal=SIG{name}:when={number}"), before=heeds_signals)
            fault = None if besides(writing.folder) else "it was not killed in mid-change"
            ran = room.run(*writing.words)
            if besides(writing.folder):
                fault = "the temporary file is still there"
            room.report.hold(f"killed by {name}, {writing.name}", fault or fault_of(ran, 0, None))


def at_once(room: Shared) -> None:
    """Commands that change images of one directory at the same time do not take each other's files for leftovers."""
    room.refresh()
    images = [f"theirs/{it}.adf" for it in range(6)]
    for it in images:
        room.write(it, room.empty)
    faults = []
    for turn in range(20):
        words = [[str(room.program), "mkdir", *MOMENT, it, f"d{turn}"] for it in images]
        began = [subprocess.Popen(it, stdout=subprocess.DEVNULL, stderr=subprocess.PIPE) for it in words]
        faults += [texts for it in began for texts in [it.communicate()[1]] if it.returncode != 0]
    room.report.expect("six changes at once, twenty times", not faults, faults[:3])
    room.report.same("they leave no temporary file", still_there(), [])


def links_to_nothing(room: Shared) -> None:
    """A link that leads nowhere is a file that is not there."""
    os.mkdir("folder")
    for place in ("lost", "folder/lost"):
        os.symlink("nowhere", place)
    for words in (["missing"], ["lost"], ["folder"], ["one", "lost"]):
        ran = room.run("add", "--out", "added.adf", "empty.adf", *words)
        fault = fault_of(ran, 2, b"", "cannot read '") or ("an image is written" if os.path.exists("added.adf") else None)
        room.report.hold(f"add of {' and '.join(words)}", fault)
    os.remove("lost")
    shutil.rmtree("folder")


# ---- endless input


def used_by_children() -> float:
    """The seconds of processor time of all processes that this one started and that have ended."""
    used = resource.getrusage(resource.RUSAGE_CHILDREN)
    return used.ru_utime + used.ru_stime


def endless(room: Shared) -> None:
    """Images and scripts without an end, or as long as a disk."""
    little = limited(resource.RLIMIT_AS, MEMORY + 3 * LARGEST)
    said = b"'/dev/zero' did not end after 2,097,152 reads"
    cases: List[List[str]] = [["list", "/dev/zero"], ["mkdir", "--out", "x", "/dev/zero", "n"], ["serve", "empty.adf", "/dev/zero"], []]
    for words in cases:
        name, before = " ".join(words[:1]) or "standard input", used_by_children()
        with open("/dev/zero", "rb") as zeros:
            ended = subprocess.run([str(room.program), *words], stdin=zeros, capture_output=True, preexec_fn=little, timeout=LONGEST)
        took, ran = used_by_children() - before, Ran(ended.returncode, ended.stdout, ended.stderr)
        is_told = said in ran.texts if words else ran.texts == b"adf_serve: standard input does not end\n"
        room.report.expect(f"{name} without an end", (ran.status, ran.output, is_told) == (2, b"", True), ran)
        room.report.expect(f"{name} without an end: soon", took < SOON, f"{took} seconds")
    room.write("sparse")
    os.truncate("sparse", 2**40)
    room.report.check("an image of a terabyte", room.run("list", "sparse", before=little), 3, b"refused TooManyBlocks 0\n", "1,099,511,627,776 bytes are too many")
    too_long = "the script has more than 1,048,576 bytes"
    room.report.check("a script of a terabyte", room.run("serve", "empty.adf", "sparse", before=little), 3, b"1 fault line 0\n", too_long)
    runs: Sequence[Tuple[List[str], int, bytes]] = (
        ([], 3, b"1 fault line 0\n"),
        (["list", "-"], 3, b"refused TooManyBlocks 0\n"),
        (["check", "-"], 3, b"refused TooManyBlocks 0\n"),
    )
    for words, status, output in runs:
        before = used_by_children()
        with open("sparse", "rb") as sparse:
            ended = subprocess.run([str(room.program), *words], stdin=sparse, capture_output=True, preexec_fn=little, timeout=LONGEST)
        took, ran = used_by_children() - before, Ran(ended.returncode, ended.stdout, ended.stderr)
        name = f"standard input of a terabyte, {' '.join(words) or 'as a script'}"
        is_told = bool(words) or too_long.encode() in ran.texts
        room.report.expect(name, (ran.status, ran.output) == (status, output) and is_told, ran)
        room.report.expect(f"{name}: at once", took < AT_ONCE, f"{took} seconds")
    os.remove("sparse")


# ---- harmful disks

# Letters that steer a terminal, as they are in a name on the disk and as a path of the host, and as they are printed.
STEERS, SHOWN = "\x1b[2J\x07\x9b1m\x7f\n", b"%1B[2J%07%9B1m%7F%0A"
# The memory that a rescue may use in addition to the image, and its most seconds of processor time, for images of at most this
# many blocks.
MEMORY = 64 << 20
SECONDS = [(3_520, 10), (101_602, 60)]


class Rescued(NamedTuple):
    """How a rescue ended: its status or None if it took too long, its lines but that of blocks that belong to nothing, its messages, and
    the sizes of the files that it wrote, or None if it made no directory."""

    status: Optional[int]
    lines: List[bytes]
    texts: bytes
    sizes: Optional[List[int]]

    def __str__(self) -> str:
        wrote = "no directory" if self.sizes is None else f"{len(self.sizes)} files of {sum(self.sizes)} bytes"
        return f"status {self.status}, {len(self.lines)} lines, {wrote}, on standard error {self.texts[:200]!r}"


def rescued(room: Room, image: bytes) -> Rescued:
    """Rescues an image, with memory for the image and 64 MB, in the processor time for its size."""
    room.write("bomb.adf", image)
    most = next(seconds for blocks, seconds in SECONDS if len(image) <= blocks * BLOCK)
    words = [str(room.program), "extract", "--damaged", "--to", "bomb", "bomb.adf"]
    def within_bounds() -> None:
        resource.setrlimit(resource.RLIMIT_AS, (len(image) + MEMORY, len(image) + MEMORY))
        resource.setrlimit(resource.RLIMIT_CPU, (most, most + 1))

    with open("lines", "wb") as lines, open("texts", "wb") as texts:
        ended = subprocess.run(words, stdout=lines, stderr=texts, preexec_fn=within_bounds).returncode
    status = None if ended in (-signal.SIGXCPU, -signal.SIGKILL) else ended
    sizes: Optional[List[int]] = None
    if os.path.exists("bomb"):
        found = subprocess.run(["find", "bomb", "-type", "f", "-printf", "%s\\n"], capture_output=True).stdout
        sizes = [int(it) for it in found.split()]
    # (deeper than Python's own removal can go)
    subprocess.run(["rm", "-rf", "bomb"])
    told = [it for it in room.content("lines").splitlines() if not it.startswith(b"unaccounted ")]
    return Rescued(status, told, room.content("texts"), sizes)


def deep(room: Room, title: str, words: List[str], depths: Sequence[int], drawn_by: Callable[[Image, Places, int], None]) -> None:
    """Directories in directories: every recovered one is told, as long as no path is too long for the host."""
    room.done("blank", "--ffs", *words, *MOMENT, "Work", "blank.adf")
    for depth in depths:
        image = Image(room.content("blank.adf"))
        places = places_in(image)
        drawn_by(image, places if drawn_by is not chains_down else places[:depth], depth)
        told = rescued(room, refused(image))
        name = f"{title}, {depth} deep"
        if 2 * depth > 4_095:
            room.report.expect(name, (told.status, told.lines, told.sizes) == (2, [], None), told)
        elif drawn_by is chains_down:
            room.report.expect(name, (told.status, len(told.lines), told.sizes) == (3, 1, [0]), told)
        else:
            is_found = all(it.startswith(b"found lost+found/d") for it in told.lines)
            room.report.expect(name, is_found and (told.status, len(set(told.lines))) == (3, len(places)), told)


SIZES: List[Tuple[str, List[str], int]] = [
    ("a floppy", [], 1_756),
    ("a floppy of twice the bytes", ["--hd"], 3_516),
    ("the largest image", ["--blocks", "101602"], 101_575),
]


# The largest image is the last of them.
LARGE = len(SIZES) - 1


def chains(size: int, room: Shared) -> None:
    """Chains and cycles of directories."""
    shapes: List[Tuple[str, Callable[[Image, Places, int], None]]] = [
        ("parents upward", parents_up),
        ("parents in cycles", parents_round),
        ("hash chains", chains_down),
    ]
    title, words, most = SIZES[size]
    for name, drawn_by in shapes:
        depths: Sequence[int] = (500, 1_756) if most == 1_756 else (1_756, most)
        if size == LARGE:
            # (one of each, with fewer than 100 MB of lines)
            depths = [{"parents upward": 300, "parents in cycles": most, "hash chains": 1_400}[name]]
        deep(room, f"{title}, {name}", words, depths, drawn_by)


def taken_out(room: Room, name: str, image: bytes, is_cut: bool) -> None:
    """Rescues broken files that claim too much: each is told, and all together are at most four times the image."""
    told = rescued(room, image)
    broken = [it for it in told.lines if it.startswith((b"found broken ", b"found doubtful "))]
    headers = len(told.lines)
    is_told = told.status == 3 and len(set(broken)) == headers and len(told.sizes or []) == headers and headers > 800
    room.report.expect(f"{name}: every file is told", is_told, told)
    room.report.expect(f"{name}: at most four times the image", sum(told.sizes or []) <= 4 * len(image), told)
    room.report.expect(f"{name}: what is cut short is told", (b" is cut short" in told.texts) == is_cut, told)


def floppies(size: int, room: Shared) -> None:
    """Broken files that claim more than there is."""
    cases: List[Tuple[str, Callable[[Image, Places], None], bool]] = [
        ("headers that claim 7fffffff bytes of one list", shares_list(0x7FFFFFFF), False),
        ("headers that claim ffffffff bytes of one list", shares_list(0xFFFFFFFF), False),
        ("headers that claim a block more each", grows_by_one, False),
        ("files that end behind a hole", ends_late, True),
        ("extension blocks that follow themselves", extensions_round, False),
    ]
    title, words, _ = SIZES[size]
    room.done("blank", "--ffs", *words, *MOMENT, "Work", "blank.adf")
    for name, draw, is_cut in cases[3:] if size == LARGE else cases:
        image = Image(room.content("blank.adf"))
        draw(image, places_in(image))
        taken_out(room, f"{title} of {name}", refused(image), is_cut)


def one_name(size: int, room: Shared) -> None:
    """Entries with one name, and with the names that they get instead."""
    title, words, _ = SIZES[size]
    room.done("blank", "--ffs", *words, *MOMENT, "Work", "blank.adf")
    image = Image(room.content("blank.adf"))
    places = places_in(image)
    names_alike(image, places)
    told = rescued(room, refused(image))
    found = (told.status, len(set(told.lines)), told.sizes)
    room.report.expect(f"{title} of one name", found == (3, len(places), [0] * len(places)), told)


def worst(size: int, it: Worst, room: Shared) -> None:
    """Rescues one of the images of which the way from one entry to the next, or the blocks of each file, may take long."""
    title, words, _ = SIZES[size]
    room.done("blank", "--ffs", *words, *MOMENT, "Work", "blank.adf")
    image = Image(room.content("blank.adf"))
    wanted = it.draw(image, places_in(image))
    told = rescued(room, refused(image))
    found = (told.status, len(set(told.lines)), len(told.sizes or []))
    room.report.expect(f"{title}, {it.name}", found == wanted, f"{wanted} is wanted: {told}")


def holes(room: Shared) -> None:
    """A file ends after its last existing block, with zeros for missing blocks before that."""
    cases: List[Tuple[str, List[int], bytes]] = [
        ("the first", [900], b"a"),
        ("the third", [0, 0, 902], b"\0\0c"),
        ("none", [], b""),
        ("the first, and one past the volume,", [900, 5_000], b"a"),
    ]
    for name, pointers, parts in cases:
        image = Image(room.empty)
        for block, letter in ((900, b"a"), (902, b"c")):
            image.data[block * BLOCK : (block + 1) * BLOCK] = letter * BLOCK
        put_header(image, 1000, 60 * BLOCK, pointers)
        room.write("hole.adf", refused(image))
        ran = room.run("extract", "--damaged", "--to", "hole", "hole.adf")
        wanted = b"".join(bytes([it]) * BLOCK for it in parts)
        found = room.content("hole/lost+found/f1000")
        shutil.rmtree("hole", ignore_errors=True)
        room.report.expect(f"a file of which {name} of 60 blocks is there", (ran.status, found) == (3, wanted), f"{ran}, {len(found)} bytes")


def terminals(room: Shared) -> None:
    """No name steers the terminal through standard error."""
    image = Image(room.full)
    put_name(image, image.blocks // 2, STEERS.encode("latin-1"))
    image.settle(image.blocks // 2)
    header = next(it for it in range(2, image.blocks) if image.long(it, 127) == FILE and image.text(it, 432) == b"one")
    put_name(image, header, STEERS.encode("latin-1"))
    room.write("steers.adf", bytes(image.data))
    room.write(STEERS, bytes(image.data))
    os.mkfifo(f"{STEERS}.pipe")
    for name, words, status in (
        ("a fault of one image", ["check", "steers.adf"], 3),
        ("all faults of two images", ["check", "--all", "steers.adf", STEERS], 3),
        ("a file that is not there", ["list", f"no{STEERS}"], 2),
        ("a file that is skipped", ["add", "empty.adf", f"{STEERS}.pipe"], 0),
        ("an argument that is wrong", [f"no{STEERS}"], 1),
        ("a number that is wrong", ["blank", "--blocks", f"no{STEERS}", "Work", "x.adf"], 1),
    ):
        ran = room.run(*words)
        # (a line feed of an argument stays where a text has several lines)
        shown = SHOWN if status != 1 else SHOWN.replace(b"%0A", b"\n")
        bad = [it for it in ran.texts.decode() if unicodedata.category(it) == "Cc" and it != "\n"]
        fault = f"{bad} is printed" if bad else None if shown in ran.texts else "the name is not printed"
        if ran.status != status:
            fault = "another status"
        room.report.hold(f"control characters, {name}", fault and f"{fault}: {ran}")
    for it in ("steers.adf", STEERS, f"{STEERS}.pipe"):
        os.remove(it)


def listings(room: Shared) -> None:
    """The listing for people escapes control characters; the other one has the bytes of names."""
    os.mkdir("odd")
    room.write(f"odd/{SHOWN.decode()}", b"")
    room.done("add", *MOMENT, "--out", "odd.adf", "empty.adf", f"odd/{SHOWN.decode()}")
    front = room.done("list", "odd.adf").split(STEERS.encode("latin-1"))[0]
    room.report.check("control characters in a listing, as bytes", room.run("list", "odd.adf"), 0, front + STEERS.encode("latin-1") + b"\n")
    room.report.check("control characters in a listing for people", room.run("list", "--letters", "odd.adf"), 0, front + SHOWN + b"\n")
    shutil.rmtree("odd")


def forged_lines(room: Shared) -> None:
    """On standard output no name of a file or of an entry steers a terminal, or looks like a line for another file."""
    forger, shown = f"good.adf\tok\n{STEERS}", f"good.adf%09ok%0A{SHOWN.decode()}"
    os.makedirs("forge/below")
    for it in (f"forge/{forger}.adf", f"forge/below/{forger}.adf"):
        room.write(it, room.full)
    lines = [f"forge/below/{shown}.adf\tok\n", f"forge/{shown}.adf\tok\n"]
    for words in ([], ["--all"], ["--filler"]):
        ran = room.run("check", *words, "forge")
        room.report.same(f"check {' '.join(words)} of names that forge lines", (ran.status, ran.output.decode()), (0, "".join(lines)))
    damaged = f"forge/{forger}.adf"
    room.write(damaged, room.full[:-1])
    ran = room.run("check", damaged, "full.adf")
    room.report.same("refused, with such a name", (ran.status, ran.output.decode()), (3, f"forge/{shown}.adf\trefused NotWholeBlocks 0\nfull.adf\tok\n"))
    objects = room.run("check", "--json", "forge").output
    room.report.same("an object has the name itself", [json.loads(it)["path"] for it in objects.splitlines()], [f"forge/below/{forger}.adf", damaged])
    os.mkdir("forge/in")
    room.write(f"forge/in/{STEERS}\u0100")
    ran = room.run("add", "--out", "forged.adf", "empty.adf", "forge/in")
    room.report.same("add of a name that is none", (ran.status, ran.output.decode()), (3, f"refused 210 forge/in/{SHOWN.decode()}\u0100\n"))
    room.done("mkdir", *MOMENT, "--out", "forged.adf", "empty.adf", "d")
    room.done("add", *MOMENT, "--to", "d", "--as", STEERS, "forged.adf", "one")
    room.done("protect", "forged.adf", f"d/{STEERS}", "-d")
    for name, words, answer in (
        ("delete --all of a protected entry", ["delete", "--all", "forged.adf", "d"], f"222 d/{SHOWN.decode()}"),
        ("print of what is not there", ["print", "forged.adf", f"{STEERS}ok"], f"205 {SHOWN.decode()}ok"),
        ("mkdir of what is there", ["mkdir", "forged.adf", f"d/{STEERS}"], f"203 d/{SHOWN.decode()}"),
    ):
        ran = room.run(*words)
        room.report.same(f"control characters in {name}", (ran.status, ran.output.decode()), (3, f"refused {answer}\n"))
    shutil.rmtree("forge")


# ---- images that others work on

HELD = "is mounted or being changed: the state saved last is read"


def held_images(room: Shared) -> None:
    """Whoever reads an image while another program has it locked is told so, once for each image."""
    os.makedirs("archive/below")
    paths = ["archive/a.adf", "archive/b.adf", "archive/below/c.adf"]
    for path in paths:
        room.write(path, room.full)
    words = [["info", paths[0]], ["list", paths[0]], ["print", paths[0], "one"], ["check", paths[0]], ["check", "archive"]]
    words += [["extract", "--force", "--to", "taken", paths[0]], ["extract", "--damaged", "--to", "rescue", paths[0]]]
    before = [room.run(*it) for it in words]
    shutil.rmtree("rescue", ignore_errors=True)
    with open(paths[0], "rb") as one, open(paths[2], "rb") as other:
        for how in (fcntl.LOCK_SH, fcntl.LOCK_EX):
            fcntl.flock(one, how)
            fcntl.flock(other, how)
            for it, free in zip(words, before):
                held = ([paths[0], paths[2]] if it[-1] == "archive" else [paths[0]]) if how == fcntl.LOCK_EX else []
                texts = "".join(f"adf_serve: '{path}' {HELD}\n" for path in held).encode()
                name = f"{' '.join(it[:2])} while the image is locked {'against others' if held else 'by a reader'}"
                room.report.same(name, room.run(*it), free._replace(texts=texts + free.texts))
                shutil.rmtree("rescue", ignore_errors=True)
    shutil.rmtree("archive")
    shutil.rmtree("taken")


def readers_stopped(room: Shared) -> None:
    """A change waits for a command that was stopped while it looked for the lock, but not without end."""
    room.refresh()
    image = "theirs/image.adf"
    for seconds, status in ((0.3, 0), (30.0, 2)):
        with open(image, "rb") as looked:
            fcntl.flock(looked, fcntl.LOCK_SH)
            timer = threading.Timer(seconds, fcntl.flock, (looked, fcntl.LOCK_UN))
            timer.start()
            # (/proc/locks may have another number for the file)
            texts = b"" if status == 0 else f"adf_serve: '{image}' is locked by another command: process {os.getpid()}\n".encode()
            ran = room.run("mkdir", *MOMENT, image, f"s{status}")
            timer.cancel()
            room.report.same(f"a change while a reader is stopped for {seconds} s", ran, Ran(status, b"", texts))


def readers_beside(room: Shared) -> None:
    """Commands that only read never make a change fail, though they look whether the image is locked."""
    room.refresh()
    reads = [str(room.program), "check", *["theirs/image.adf"] * 300]
    reader = subprocess.Popen(reads, stdout=subprocess.DEVNULL, stderr=subprocess.DEVNULL)
    faults = []
    for turn in range(30):
        ran = room.run("mkdir", *MOMENT, "theirs/image.adf", f"r{turn}")
        faults += [ran] if ran.status else []
        if reader.poll() is not None:
            reader = subprocess.Popen(reads, stdout=subprocess.DEVNULL, stderr=subprocess.DEVNULL)
    reader.kill()
    reader.wait()
    room.report.expect("thirty changes beside readers", not faults, faults[:2])


# ---- images as deep and as full as their blocks allow


# The memory and the stack that a command may use over the largest image, and the processor time by the blocks of the image.
WORST_MEMORY, WORST_STACK, WORST_TIMES = 300 << 20, 1 << 20, {3_520: 10.0, 101_602: 60.0}
# The addresses for a bundle of the largest image whose description is refused, and those for the longest description. The program keeps
# at most 135 MB of the latter in memory (`ru_maxrss`); the rest is room of the text while it grows.
BUNDLE_MEMORY, LONGEST_MEMORY = 150 << 20, 160 << 20
# The most bytes of a description, and how many directories and files make one that is shorter by less than the name of one more.
LONGEST_BUNDLE, BUNDLE_DIRECTORIES, BUNDLE_FILES = 67_108_864, 125, 16_734
# The processor time of a change of the largest image that does not depend on the length of hash chains. The program without proof
# takes 1.3 to 1.6 seconds for all names in one chain, as for a chain of directories, also with three times as many processes beside it
# as there are processors; by the clock it took up to 20 then.
LIKE_OTHERS = 5.0
# The most bytes that such a command writes to a file.
WORST_OUTPUT = 100 << 20
# The most faults that are told of an image.
MOST_FAULTS = 1_000
def limit_worst(memory: int) -> None:
    """Limits the memory of this process to so many bytes, and its stack, the bytes of each file that it writes, and its processor time."""
    most = int(max(WORST_TIMES.values())) + 1
    resource.setrlimit(resource.RLIMIT_CPU, (most, most))
    resource.setrlimit(resource.RLIMIT_AS, (memory, memory))
    resource.setrlimit(resource.RLIMIT_STACK, (WORST_STACK, WORST_STACK))
    resource.setrlimit(resource.RLIMIT_FSIZE, (WORST_OUTPUT, WORST_OUTPUT))


def bounded(
    room: Room, blocks: int, title: str, words: Sequence[str], status: int, said: bytes = b"", within: Optional[float] = None, memory: int = WORST_MEMORY
) -> bytes:
    """Runs a command over an image with so many blocks and with limited memory. Checks its status, a part of what it says, and
    its processor time, by the blocks if it is not given. Returns its output."""
    with open("lines", "wb") as lines, open("texts", "wb") as texts:
        began = subprocess.Popen([str(room.program), *words], stdin=subprocess.DEVNULL, stdout=lines, stderr=texts, preexec_fn=partial(limit_worst, memory))
        ended, used = os.wait4(began.pid, 0)[1:]
    began.returncode = os.WEXITSTATUS(ended) if os.WIFEXITED(ended) else -os.WTERMSIG(ended)
    seconds, text = used.ru_utime + used.ru_stime, room.content("texts")
    is_right = began.returncode == status and said in text
    fault = None if is_right else f"status {began.returncode}, {text[:200]!r}"
    if is_right and seconds > (within or WORST_TIMES[blocks]):
        fault = f"{seconds} seconds"
    room.report.hold(f"{title} of {blocks} blocks", fault)
    return room.content("lines")


def deep_images(blocks: int, room: Shared) -> None:
    """Commands over an image of which the paths alone would have hundreds of megabytes."""
    first = next(long_names()).decode()
    room.done("blank", "--ffs", "--blocks", str(blocks), *MOMENT, "Work", "blank.adf")
    blank = room.content("blank.adf")
    room.write("deep.adf", deep_chain(blank))
    title = "a chain of directories"
    bounded(room, blocks, f"check of {title}", ["check", "deep.adf"], 0)
    told = bounded(room, blocks, f"check --all --json of {title}", ["check", "--all", "--json", "deep.adf"], 0)
    room.report.expect(f"the directories of {title} of {blocks} blocks", b'"directories":%d,' % headers_of(blank) in told, f"{told!r}")
    bounded(room, blocks, f"print of {title}", ["print", "deep.adf", first], 3, f"'{first}' is a directory; print needs a file\n".encode())
    bounded(room, blocks, f"extract of {title}", ["extract", "--to", "bottom", "deep.adf"], 2, b"4,095")
    room.report.expect(f"extract of {title} of {blocks} blocks writes nothing", not os.path.exists("bottom"), "it did")
    if blocks == LARGEST // BLOCK:
        bounded(room, blocks, f"extract --bundle of {title}", ["extract", "--bundle", "bottom", "deep.adf"], 2, b"67,108,864", memory=BUNDLE_MEMORY)
    bounded(room, blocks, f"info of {title}", ["info", "deep.adf"], 0)
    bounded(room, blocks, f"extract --damaged of {title}", ["extract", "--damaged", "--to", "bottom", "deep.adf"], 2, b"4,095")
    bounded(room, blocks, f"serve over {title}", ["serve", *MOMENT, "--out", "made.adf", "deep.adf", "script"], 0)
    bounded(room, blocks, f"mkdir in {title}", ["mkdir", *MOMENT, "--out", "made.adf", "deep.adf", f"{first}/made"], 3, b"disk is full")
    bounded(room, blocks, f"rename in {title}", ["rename", *MOMENT, "--out", "made.adf", "deep.adf", first, "moved"], 0)
    bounded(room, blocks, f"delete --all of {title}", ["delete", "--all", *MOMENT, "deep.adf", first], 0)
    listed = bounded(room, blocks, f"list after delete --all of {title}", ["list", "deep.adf"], 0)
    room.report.expect(f"what is left of {title} of {blocks} blocks", listed == b"Volume Work\n", f"{listed[:200]!r}")
    # (a word has at most 131,071 bytes)
    parts = min(60_000, headers_of(blank))
    for what in (f"mkdir --parents that makes {title}", f"mkdir --parents of {title} that is there"):
        bounded(room, blocks, what, ["mkdir", "--parents", *MOMENT, "deep.adf", "/".join("a" * parts)], 0)
    told = bounded(room, blocks, f"check --json after mkdir --parents of {title}", ["check", "--json", "deep.adf"], 0)
    room.report.expect(f"what mkdir --parents made of {title} of {blocks} blocks", b'"directories":%d,' % parts in told, f"{told[:300]!r}")


def counted(room: Room, words: Sequence[str]) -> Tuple[int, int, bytes]:
    """Runs a command with the memory for the largest image. Returns its status, the bytes that it printed, and what it said."""

    def within_bounds() -> None:
        resource.setrlimit(resource.RLIMIT_AS, (WORST_MEMORY, WORST_MEMORY))

    with open("texts", "w+b") as texts:
        began = subprocess.Popen([str(room.program), *words], stdin=subprocess.DEVNULL, stdout=subprocess.PIPE, stderr=texts, preexec_fn=within_bounds)
        assert began.stdout
        count = 0
        while piece := began.stdout.read(1 << 20):
            count += len(piece)
        return began.wait(), count, room.content("texts")


def asked_blocks(blocks: int, room: Shared) -> None:
    """`where` prints far more than it may keep: of an image in which all headers name one block again and again, and of one whose
    paths are too long to be printed."""
    room.done("blank", "--ffs", "--blocks", str(blocks), *MOMENT, "Work", "blank.adf")
    image = Image(room.content("blank.adf"))
    places = places_in(image)
    named = places[-1]
    for block in places[:-1]:
        put_header(image, block, POINTERS * BLOCK, [named] * POINTERS)
    join(image, places[:-1])
    hang(image, image.root, places[0])
    room.write("shares.adf", bytes(image.data))
    for times in (1, 3):
        for form in FORMS:
            status, count, said = counted(room, ["where", *form, "shares.adf", *[str(named)] * times])
            name = f"where {' '.join(form)} of a block that all name, {times} times, of {blocks} blocks"
            room.report.expect(name, status == 3 and count > times * len(places) * POINTERS * 20, (status, count, said[-200:]))
    room.write("deep.adf", deep_chain(room.content("blank.adf")))
    # (the stack of one MB has room for some 15,000 words)
    asked = [str(it) for it in range(0, blocks, -(-blocks // 10_000))]
    for form in FORMS:
        bounded(room, blocks, f"where {' '.join(form)} of the blocks of a chain of directories", ["where", *form, "deep.adf", *asked], 0)


# No option, and that for JSON.
FORMS: Sequence[List[str]] = ([], ["--json"])

# The most bytes that a report on directories in one another may have: some thousand paths of up to 4,095 bytes, and a line each.
MOST_TOLD = 24 << 20


def found_chain(blocks: int, room: Shared) -> None:
    """A report on directories that only their parents hold together, each in the one before: a path that is too long is cut."""
    room.done("blank", "--ffs", "--blocks", str(blocks), *MOMENT, "Work", "blank.adf")
    image = Image(room.content("blank.adf"))
    places = places_in(image)
    parents_up(image, places, len(places))
    room.write("found.adf", refused(image))
    for form in FORMS:
        told = bounded(room, blocks, f"a report {' '.join(form)} on a chain of directories", ["extract", "--damaged", "--list", *form, "found.adf"], 3)
        name, cut = f"a report {' '.join(form)} on directories in one another of {blocks} blocks", told.count(b"the entry at block ")
        # (`lost+found` and `/d` again and again: 2,042 of them have 4,094 bytes)
        room.report.expect(name, len(told) < MOST_TOLD and cut == len(places) - 2_042, (len(told), cut, told[:200]))


# The blocks that stay free in an image whose names are all in one hash chain.
SPARE = 8


def one_hash_chain(blocks: int, room: Shared) -> None:
    """Commands over a directory whose names are all in one hash chain. Each change looks for a name once or twice, and to delete all
    of them takes no longer than with many chains."""
    room.done("blank", "--ffs", "--blocks", str(blocks), *MOMENT, "Work", "blank.adf")
    blank = room.content("blank.adf")
    room.write("wide.adf", one_chain(blank, SPARE))
    files = headers_of(blank) - SPARE - 1
    last = next(islice(names_of_one_chain(), files - 1, None)).decode()
    title, out = "one hash chain", ["--out", "made.adf", "wide.adf"]
    room.write("chain", f'locate 0 -2 "d/{last}"\nexamine $1\nfree $1\n'.encode())
    bounded(room, blocks, f"check of {title}", ["check", "wide.adf"], 0)
    told = bounded(room, blocks, f"check --all --json of {title}", ["check", "--all", "--json", "wide.adf"], 0)
    room.report.expect(f"the files of {title} of {blocks} blocks", b'"files":%d,' % files in told, f"{told!r}")
    listed = bounded(room, blocks, f"list of {title}", ["list", "wide.adf"], 0)
    room.report.same(f"the lines of {title} of {blocks} blocks", listed.count(b"\n"), files + 2)
    bounded(room, blocks, f"print of {title}", ["print", "wide.adf", f"d/{last}"], 0)
    bounded(room, blocks, f"extract of {title}", ["extract", "--to", "chain.out", "wide.adf"], 0)
    room.report.same(f"the files out of {title} of {blocks} blocks", len(os.listdir("chain.out/d")), files)
    subprocess.run(["rm", "-rf", "chain.out"])
    bounded(room, blocks, f"serve over {title}", ["serve", *MOMENT, *out, "chain"], 0)
    bounded(room, blocks, f"add to {title}", ["add", *MOMENT, "--to", "d", *out, "one"], 0)
    bounded(room, blocks, f"rename in {title}", ["rename", *MOMENT, *out, f"d/{last}", "d/moved"], 0)
    bounded(room, blocks, f"delete --all of {title}", ["delete", "--all", *MOMENT, "wide.adf", "d"], 0, within=LIKE_OTHERS)
    left = bounded(room, blocks, f"list after delete --all of {title}", ["list", "wide.adf"], 0)
    room.report.same(f"what is left of {title} of {blocks} blocks", left, b"Volume Work\n")


def shared_chains(blocks: int, room: Shared) -> None:
    """Directories that all lead into one chain of entries, and files that all lead into one chain of extension blocks, each as many as
    the chain has blocks. What they show is listed, and the kinds of the blocks are told, in time."""
    for kind in ("--ffs", None):
        room.done("blank", *([kind] if kind else []), "--blocks", str(blocks), *MOMENT, "Work", "blank.adf")
        drawn = Image(room.content("blank.adf"))
        places = places_in(drawn)
        half = len(places) // 2
        if kind:
            share_entries(drawn, places[half:], places[:half])
        else:
            share_extensions(drawn, places[half:], places[:half], -1, False)
        title = "directories of one chain" if kind else "files of one chain of extension blocks"
        room.write("shared.adf", bytes(drawn.data))
        told = bounded(room, blocks, f"check --all of {title}", ["check", "--all", "shared.adf"], 3)
        room.report.same(f"the faults of {title} of {blocks} blocks", (told.count(b"refused "), told.splitlines()[-1]), (MOST_FAULTS, b"more"))
        bounded(room, blocks, f"map of {title}", ["map", "shared.adf"], 3)
        bounded(room, blocks, f"where of {title}", ["where", "shared.adf", str(places[0])], 3)
        bounded(room, blocks, f"validate of {title}", ["validate", *MOMENT, "shared.adf"], 3)


def longest_bundle(room: Shared) -> None:
    """A bundle of the largest image: the longest description that is written, and one that is too long by one file."""
    blocks = LARGEST // BLOCK
    room.done("blank", "--ffs", "--blocks", str(blocks), *MOMENT, "Work", "blank.adf")
    for files, status in ((BUNDLE_FILES, 0), (BUNDLE_FILES + 1, 2)):
        room.write("deep.adf", deep_files(room.content("blank.adf"), BUNDLE_DIRECTORIES, most=files))
        room.done("validate", *MOMENT, "deep.adf")
        said = b"" if status == 0 else b"67,108,864"
        bounded(room, blocks, f"extract --bundle with {files:,} long paths", ["extract", "--bundle", "bundle", "deep.adf"], status, said, memory=LONGEST_MEMORY)
        room.report.expect(f"a bundle with {files:,} long paths", os.path.exists("bundle") == (status == 0), status)
        if status == 0:
            size = os.path.getsize("bundle/volume.json")
            one = size // files
            room.report.expect("the longest description of a bundle", LONGEST_BUNDLE - one < size <= LONGEST_BUNDLE, f"{size:,} bytes")
            subprocess.run(["rm", "-rf", "bundle"])


def deep_faults(depth: int, is_told: bool, room: Shared) -> None:
    """A thousand faults in a directory whose path is told, or too long for that."""
    blocks = LARGEST // BLOCK
    room.done("blank", "--ffs", "--blocks", str(blocks), *MOMENT, "Work", "blank.adf")
    room.write("deep.adf", deep_files(room.content("blank.adf"), depth, MOST_FAULTS + 1))
    words = ["check", "--all", "--json", "deep.adf"]
    told = bounded(room, blocks, f"faults below {depth} directories", words, 3)
    unknown = told.count(b'"path":null')
    wanted = (MOST_FAULTS, 0 if is_told else MOST_FAULTS)
    found = (told.count(b'"kind":"') - 1, unknown)
    room.report.expect(f"paths of faults below {depth} directories", found == wanted, f"{found}: {told[:300]!r}")


# ---- all of them

def races() -> List[Task[Shared]]:
    """The races. Each needs a processor for the program and one for whoever swaps or reads: they run before the other tasks, so many
    at a time that each has both."""
    found: List[Task[Shared]] = [("readers beside", Shared, readers_beside), ("a race for the file beside", Shared, raced_beside)]
    if hasattr(LIBC, "renameat2"):
        found.append(("a race for a directory on the way", Shared, race_on_the_way))
        found.append(("a race for the directory of an image", Shared, race_of_an_image))
        found.append(("a race for files that are read", Shared, raced_files))
    return found


def disks() -> List[Task[Shared]]:
    """The harmful disks, and those that are as deep or as full as their blocks allow: the large ones first."""
    found: List[Tuple[str, Callable[[Shared], None]]] = []
    for blocks in sorted(WORST_TIMES, reverse=True):
        found.append((f"one hash chain of {blocks} blocks", partial(one_hash_chain, blocks)))
        found.append((f"a chain of directories of {blocks} blocks", partial(deep_images, blocks)))
        found.append((f"directories that are found of {blocks} blocks", partial(found_chain, blocks)))
        found.append((f"blocks that are asked for of {blocks} blocks", partial(asked_blocks, blocks)))
        found.append((f"chains that are shared of {blocks} blocks", partial(shared_chains, blocks)))
    for size, (title, _, _) in reversed(list(enumerate(SIZES))):
        found.append((f"{title}, files that claim more", partial(floppies, size)))
        found.append((f"{title}, chains", partial(chains, size)))
        found.append((f"{title}, one name", partial(one_name, size)))
        found += [(f"{title}, {it.name}", partial(worst, size, it)) for it in WORST]
    found.append(("the longest description of a bundle", longest_bundle))
    for depth, is_told in ((50_000, False), (100, True)):
        found.append((f"faults below {depth} directories", partial(deep_faults, depth, is_told)))
    return [(name, InMemory, part) for name, part in found]


def commands() -> List[Task[Shared]]:
    """What is not a disk."""
    parts = [endless, killed, at_once, leftovers, random_names, entries_like_leftovers, short_files, short_output, served_over, held_images, readers_stopped, links_to_nothing, terminals, listings, forged_lines, holes]
    parts += [long_paths, without_proc, modes, not_kept, owners, links_beside, others_in_place, links_of_others, swapped_files]
    found: List[Task[Shared]] = [(it.__name__.replace("_", " "), Shared, it) for it in parts]
    return found + [(it.__name__.replace("_", " "), InMemory, it) for it in (swapped_directories, deep_directories, opened_again)]


# Those that need another user than the test's own, and those that need `strace` to stop or to end the program.
BY_OTHERS = {
    owners: "owners and groups that stay",
    links_beside: "links in the place of the file beside",
    links_of_others: "links of another user",
    raced_files: "files that are swapped while they are read",
    swapped_files: "files that are swapped while they are read, step by step",
}
BY_STRACE = {
    killed: "commands that are killed",
    swapped_directories: "links for directories, while the program is stopped",
    opened_again: "a directory that is opened again",
    links_beside: "links in the place of the file beside",
    random_names: "names of files beside",
    served_over: "another file in the place of one that is read and written",
    others_in_place: "other files in the place of those that are held",
    swapped_files: "files that are swapped while they are read, step by step",
}


def can_be_tried(report: Report, tasks: Sequence[Task[Shared]]) -> List[Task[Shared]]:
    """The tasks for which this machine has what they need. The others are skipped."""
    lacks: Dict[Callable[[Shared], None], Tuple[str, str]] = {}
    if not has_strace("signal=STOP"):
        lacks.update({it: (name, "there is no strace here") for it, name in BY_STRACE.items()})
    if not has_other():
        why = "this is not root" if os.geteuid() != 0 else "there is no second user here"
        lacks.update({it: (name, why) for it, name in BY_OTHERS.items()})
        report.skip("temporary files of another user", why)
    if not hasattr(LIBC, "renameat2"):
        report.lacks("races for directories", "call that exchanges names")
    for name, why in lacks.values():
        report.skip(name, why)
    return [it for it in tasks if it[2] not in lacks]


def tell_times(ended: Sequence[Ended]) -> None:
    """Prints how long tasks took, on standard error."""
    print("Seconds by the clock and of processors of each task:", file=sys.stderr)
    for it in sorted(ended, key=lambda it: -it.processor):
        print(f"{it.seconds:7.1f} {it.processor:7.1f}  {it.name}", file=sys.stderr)
    print(f"{'':7} {sum(it.processor for it in ended):7.1f}  all", file=sys.stderr)


def main(words: Sequence[str]) -> int:
    # (the directories of the tasks are removed if the test is terminated)
    signal.signal(signal.SIGTERM, lambda *_: sys.exit(1))
    program, report, parts = program_of(words[:1]), Report(), words[1:]
    ended: List[Ended] = []
    tried, front = can_be_tried(report, [*races(), *disks(), *commands()]), {it[0] for it in races()}
    first, others = [it for it in tried if it[0] in front], [it for it in tried if it[0] not in front]
    for tasks, most in ((first, processors() // 2), (others, processors())):
        named = [it for it in tasks if not parts or any(part in it[0] for part in parts)]
        ended += try_side_by_side(report, program, named, max(1, most))
    if "TIMES" in os.environ:
        tell_times(ended)
    return report.end()


if __name__ == "__main__":
    sys.exit(main(sys.argv[1:]))
