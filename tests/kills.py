#!/usr/bin/env python3
"""Tests commands that change an image, stopped at each system call that writes.

    tests/kills.py [PROGRAM]

Each command runs on copies of one image. At one system call the call fails or the program is killed. Afterwards the file of the
image must be the complete old one or the complete new one. After a failed call it must be the old one, the status must be 2, a
message must say why, and no temporary file may be left. `strace` injects the failures. Without it only size limits, existing
names and unwritable targets are tested.
"""
from __future__ import annotations

import fcntl
import os
import re
import resource
import shutil
import subprocess
import sys
from typing import Dict, Iterator, List, Optional, Sequence, Tuple

sys.dont_write_bytecode = True

from harness import MOMENT, Call, Ran, Room, has_strace, injected, limited, traced, try_all

# Calls of the host that lock a file, or change one or its names; those that open are checked one by one.
WRITES = """flock write pwrite64 writev pwritev fsync fdatasync ftruncate fallocate sendfile copy_file_range fchmod chmod fchmodat rename
renameat renameat2 link linkat unlink unlinkat symlink symlinkat mkdir mkdirat""".split()
OPENS = "open openat creat".split()
# These may fail without harm: an owner that cannot be given away, a time. So may the lock of a temporary file.
HARMLESS = "chown fchown lchown fchownat utimensat".split()
READS = "read pread64 readv preadv".split()
IMAGE = "image.adf"
# An image's file that is invalid, and is overwritten.
OTHER = b"DOS\1 is another file"  # It begins as an image does, so that `--out` writes over it.


class Change:
    """A command, the file that it writes, and the file's contents before and after it."""

    def __init__(self, room: Room, name: str, words: Sequence[str], target: str = IMAGE) -> None:
        self.room, self.report = room, room.report
        self.name, self.words, self.target = name, words, target
        self.old = self.now()
        self.beside = sorted(os.listdir("."))
        room.done(*words)
        self.new = room.content(target)
        assert self.new != self.old, f"{name} changes nothing"
        self.restore()

    def restore(self) -> None:
        """The directory as it was before the command."""
        for it in os.listdir("."):
            if it not in self.beside:
                os.remove(it)
        if self.old is not None:
            self.room.write(self.target, self.old)
        elif os.path.exists(self.target):
            os.remove(self.target)

    def now(self) -> Optional[bytes]:
        return self.room.content(self.target) if os.path.exists(self.target) else None

    def run(self, *faults: str) -> Ran:
        """Runs the command with these faults in its calls."""
        return self.room.run(*self.words, front=injected(*faults) if faults else ())

    def is_done(self, ran: Ran) -> bool:
        return ran.status == 0 and self.now() == self.new

    def hold(self, name: str, fault: Optional[str]) -> None:
        """Reports a check of this command. The directory must be as before."""
        self.report.hold(f"{self.name}: {name}", fault)
        self.restore()

    def left(self) -> List[str]:
        return [it for it in sorted(os.listdir(".")) if it not in self.beside and it != self.target]

    def fault_of(self, ran: Ran, harmless: bool = False) -> Optional[str]:
        """What is wrong after a failed call: everything has to be as before, with a message; or, if that call does no
        harm, everything is done."""
        if self.left():
            return f"{self.left()} is left"
        if harmless and ran.status == 0:
            return None if self.now() == self.new else "status 0, and the file is not the new one"
        if self.now() != self.old:
            return "the file is not the old one"
        if ran.status != 2:
            return f"status {ran.status} where 2 is expected; it told {ran.texts[:200]!r}"
        return None if ran.texts.strip() else "it told nothing"

    def fault_of_kill(self) -> Optional[str]:
        """What is wrong after a kill: the file is neither the old one nor the new one, or the command cannot be repeated and
        then leave no file beside it."""
        if self.now() not in (self.old, self.new):
            return "the file is neither the old one nor the new one"
        if self.now() == self.old:
            ran = self.run()
            if not self.is_done(ran):
                return f"it does not go on from there: status {ran.status}, {ran.texts[:200]!r}"
        return f"{self.left()} is left" if self.left() else None


def put_files(room: Room) -> None:
    """The image that all commands change, and the files that they read."""
    room.done("blank", "--ffs", "Work", IMAGE)
    os.mkdir("host")
    room.write("host/one", b"1" * 3000)
    room.write("host/two", b"2" * 70_000)
    room.write("host/two.uaem", b"-s--rwed 1994-02-03 04:05:06.08 noted\n")
    for it in ("one", "two"):
        os.utime(f"host/{it}", ns=(0, 800_000_000_000_000_000))
    room.write("code", b"DOS\1" + b"code" * 100)
    room.write("script", b'mkdir 0 "made"\n')
    room.write("other.adf", OTHER)
    room.done("mkdir", *MOMENT, IMAGE, "d", "empty")
    room.done("add", *MOMENT, "--to", "d", IMAGE, "host/one")


def changes(room: Room) -> Iterator[Change]:
    """The commands, one after the other, each over a fresh copy of the image."""
    put_files(room)
    yield Change(room, "mkdir", ["mkdir", *MOMENT, IMAGE, "new"])
    yield Change(room, "add of two files", ["add", *MOMENT, IMAGE, "host/one", "host/two"])
    yield Change(room, "add by force", ["add", *MOMENT, "--force", "--to", "d", IMAGE, "host/one", "host/two"])
    yield Change(room, "delete of all", ["delete", *MOMENT, "--all", IMAGE, "d", "empty"])
    yield Change(room, "comment", ["comment", *MOMENT, IMAGE, "d/one", "text"])
    yield Change(room, "rename", ["rename", *MOMENT, IMAGE, "d/one", "empty/two"])
    yield Change(room, "boot", ["boot", *MOMENT, IMAGE, "code"])
    yield Change(room, "mkdir to another file", ["mkdir", *MOMENT, "--out", "other.adf", IMAGE, "new"], "other.adf")
    yield Change(room, "mkdir to a new file", ["mkdir", *MOMENT, "--out", "new.adf", IMAGE, "new"], "new.adf")
    yield Change(room, "blank over an image", ["blank", "--ffs", "Other", IMAGE])
    yield Change(room, "blank as a new file", ["blank", "Other", "new.adf"], "new.adf")
    yield Change(room, "serve over its image", ["serve", *MOMENT, "--out", IMAGE, IMAGE, "script"])


# ---- a fault at each call


def writes_of(change: Change) -> List[Tuple[Call, bool]]:
    """The calls that write, each with whether it may fail without harm. After the file has its place, only the names in
    its directory are synced to disk. A shared lock only asks whether another command has the file locked, and is given back."""
    writes: List[Tuple[Call, bool]] = []
    placed = False
    for call in traced(change.room, change.words, [*WRITES, *OPENS, *HARMLESS]):
        opens_to_read = call.name in OPENS and not placed and not re.search("O_WRONLY|O_RDWR|O_CREAT", call.about)
        prints = call.name == "write" and re.match("[12]<", call.about)
        if not (opens_to_read or prints or call.answer.startswith("-")):
            asks = call.name == "flock" and re.search("/\\.adf_serve-|LOCK_SH|LOCK_UN", call.about) is not None
            writes.append((call, placed or asks or call.name in HARMLESS))
            placed = placed or call.name.startswith("rename")
    change.restore()
    return writes


def reads_of(change: Change) -> Iterator[Tuple[str, Call]]:
    """The first, the middle and the last call that reads each file here."""
    files: Dict[str, List[Call]] = {}
    for call in traced(change.room, change.words, READS):
        found = re.match(f"\\d+<({re.escape(os.getcwd())}/[^>]*)>", call.about)
        if found:
            files.setdefault(found.group(1), []).append(call)
    change.restore()
    for path, calls in files.items():
        for at in sorted({0, len(calls) // 2, len(calls) - 1}):
            yield os.path.basename(path), calls[at]


def at_a_write(change: Change, call: Call, harmless: bool) -> None:
    """The call fails in two ways, the program is killed there, or the call is interrupted."""
    name, when = call.name, f"when={call.number}"
    place = f"{name} {call.number}"
    for error in ("ENOSPC", "EIO"):
        ran = change.run(f"{name}:error={error}:{when}")
        change.hold(f"{place} fails with {error}", change.fault_of(ran, harmless))
    change.run(f"{name}:signal=SIGKILL:{when}")
    change.hold(f"{place} is the last", change.fault_of_kill())
    if name in ("write", "pwrite64", "fsync"):
        ran = change.run(f"{name}:error=EINTR:{when}")
        change.hold(f"{place} is interrupted", None if change.is_done(ran) else str(ran))


def at_each_call(change: Change) -> None:
    """The command with each of its calls failing, and with the program killed at each that writes."""
    writes = writes_of(change)
    for file, call in reads_of(change):
        ran = change.run(f"{call.name}:error=EIO:when={call.number}")
        change.hold(f"'{file}' cannot be read, {call.name} {call.number}", change.fault_of(ran))
    first = [call.name for call, harmless in writes if not harmless]
    is_synced = bool({"fsync", "fdatasync"} & {*first}) and first[-1].startswith("rename")
    change.report.expect(f"{change.name}: the new bytes are on the disk before they have their place", is_synced, first)
    for call, harmless in writes:
        at_a_write(change, call, harmless)
    # The file beside cannot be removed, because the program ends there.
    change.run("write:error=ENOSPC:when=1", "unlink,unlinkat:signal=SIGKILL:when=1")
    change.hold("is killed as it tidies up", change.fault_of_kill())


# ---- tests that need no strace


def limits(change: Change) -> None:
    """The host accepts only the first bytes of a file."""
    for most in (0, 1, 512, 8_192, len(change.new) // 2, len(change.new) - 1):
        ran = change.room.run(*change.words, before=limited(resource.RLIMIT_FSIZE, most))
        change.hold(f"only {most} bytes are taken", change.fault_of(ran))
    ran = change.room.run(*change.words, before=limited(resource.RLIMIT_FSIZE, len(change.new)))
    change.hold("just its bytes are taken", None if change.is_done(ran) else str(ran))


def tree_in_part(room: Room) -> None:
    """A file that cannot be written whole does not stay in an extracted tree, and an old one stays whole."""
    # (in a folder of its own, since the checks of a change look at all that stands beside its file)
    os.mkdir("tree")
    os.chdir("tree")
    os.mkdir("in")
    room.write("in/f", b"new" * 1_000)
    for words in (["blank", "--ffs", "Work", "part.adf"], ["mkdir", *MOMENT, "part.adf", "d"], ["add", "--to", "d", "part.adf", "in/f"]):
        room.done(*words)
    taken, told = limited(resource.RLIMIT_FSIZE, 1_000), b"one file or directory was written before it"
    ran = room.run("extract", "--to", "out", "part.adf", before=taken)
    is_whole = ran.status == 2 and told in ran.texts and os.listdir("out/d") == []
    room.report.expect("extract: only 1000 bytes of a file are taken", is_whole, ran)
    room.write("out/d/f", b"old")
    ran = room.run("extract", "--force", "--to", "out", "part.adf", before=taken)
    is_whole = ran.status == 2 and os.listdir("out/d") == ["f"] and room.content("out/d/f") == b"old"
    room.report.expect("extract --force: only 1000 bytes of a file are taken", is_whole, ran)
    os.chdir("..")
    shutil.rmtree("tree")


def killed_in_time(change: Change) -> None:
    """The program is killed at a random time."""
    faults = []
    for turn in range(20):
        words = [str(change.room.program), *change.words]
        began = subprocess.Popen(words, stdin=subprocess.DEVNULL, stdout=subprocess.DEVNULL, stderr=subprocess.DEVNULL)
        try:
            began.wait(0.001 * turn)
        except subprocess.TimeoutExpired:
            began.kill()
            began.wait()
        faults.append(change.fault_of_kill())
        change.restore()
    change.hold("is killed after 0 to 19 milliseconds", next(filter(None, faults), None))


def taken_names(change: Change) -> None:
    """What has a name for the file beside, and is no file that a command left, is unchanged: a link to a file, a file that
    is locked, and a directory. All names that versions before used may be taken."""
    room = change.room
    room.write("elsewhere", b"kept")
    names = [f".adf_serve-{it}.new" for it in [*range(1_000), "a" * 16]]
    os.symlink("elsewhere", names[0])
    room.write(names[1], b"kept")
    for it in names[2:]:
        os.mkdir(it)
    with open(names[1], "rb") as locked:
        fcntl.flock(locked, fcntl.LOCK_EX)
        ran = change.run()
        change.report.expect("a thousand names that are taken: it is done", change.is_done(ran), ran)
        is_kept = os.path.islink(names[0]) and room.content("elsewhere") == room.content(names[1]) == b"kept" and all(map(os.path.isdir, names[2:]))
    for it in names[2:]:
        os.rmdir(it)
    change.report.expect("names that are taken: they stay", is_kept, "one has changed")
    change.restore()


def targets(change: Change) -> None:
    """A target that cannot be written is reported by its name, and nothing has changed."""
    os.mkdir("directory")
    os.symlink("nowhere", "lost")
    before = sorted(os.listdir("."))
    for target in ("directory", "lost", "none/x.adf", "other.adf/x", "/dev/full"):
        for words in (["mkdir", *MOMENT, "--out", target, IMAGE, "n"], ["blank", "Work", target]):
            ran = change.room.run(*words)
            fault = None if ran.status == 2 and target.encode() in ran.texts else str(ran)
            if sorted(os.listdir(".")) != before or change.now() != change.old:
                fault = "something has changed"
            change.report.hold(f"{words[0]}: '{target}' cannot be written", fault)
    os.rmdir("directory")
    os.remove("lost")


def straight(room: Room) -> None:
    """A target that is not a file is written directly."""
    ran = room.run("blank", "--ffs", "Work", "/dev/null")
    room.report.expect("a device is written straight", ran.status == 0 and not os.path.isfile("/dev/null"), ran)
    os.mkfifo("pipe")
    with open("read", "wb") as taken:
        reader = subprocess.Popen(["cat", "pipe"], stdout=taken)
        ran = room.run("blank", "--ffs", "Work", "pipe")
        reader.wait()
    room.report.expect("a pipe is written straight", ran.status == 0 and os.path.getsize("read") == 901_120, ran)
    os.remove("pipe")
    os.remove("read")


def denied(change: Change) -> None:
    """Targets that the host does not let this user write."""
    os.chmod(".", 0o555)
    ran = change.run()
    os.chmod(".", 0o755)
    change.report.hold("a directory that takes no files", change.fault_of(ran))
    os.chmod(IMAGE, 0o444)
    ran = change.run()
    os.chmod(IMAGE, 0o644)
    change.report.hold("a file that may not be written", change.fault_of(ran))


def held_by_another(change: Change) -> None:
    """No command overwrites an image that another command has locked, by whatever name."""
    room = change.room
    os.link(IMAGE, "hard.adf")
    os.symlink(IMAGE, "soft.adf")
    for it in ("good.adf", "other.adf"):
        shutil.copyfile(IMAGE, it)
    with open(IMAGE, "rb") as held:
        fcntl.flock(held, fcntl.LOCK_EX)
        for words in (
            change.words,
            ["mkdir", "hard.adf", "n"],
            ["comment", "soft.adf", "d", "text"],
            ["mkdir", "--out", IMAGE, "other.adf", "n"],
            ["blank", "Work", IMAGE],
            ["serve", "--out", IMAGE, "good.adf", "script"],
        ):
            ran = room.run(*words)
            is_kept = room.content(IMAGE) == room.content("hard.adf") == change.old
            change.report.expect(f"held by another: {' '.join(words)}", ran.status == 2 and ran.texts != b"" and is_kept, ran)
        ran = room.run("list", IMAGE)
        change.report.expect("held by another: it can be read", ran.status == 0 and b"the state saved last is read" in ran.texts, ran)
    for it in ("hard.adf", "soft.adf", "good.adf"):
        os.remove(it)
    room.write("other.adf", OTHER)
    change.restore()


def checks(room: Room) -> None:
    stops = has_strace("error=EIO")
    if not stops:
        room.report.lacks("a fault at each call", "strace")
    for place, change in enumerate(changes(room)):
        limits(change)
        killed_in_time(change)
        if stops:
            at_each_call(change)
        if place == 0:
            tree_in_part(room)
            taken_names(change)
            targets(change)
            straight(room)
            if os.geteuid() != 0:
                denied(change)
            held_by_another(change)


if __name__ == "__main__":
    sys.exit(try_all(sys.argv[1:], Room, checks))
