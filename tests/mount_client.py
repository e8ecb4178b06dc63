#!/usr/bin/env python3
"""Clients of a mounted image, for tests/mount.py.

    tests/mount_client.py shadow MOUNTED SHADOW STEPS SEED   does the same random operations in two directories and compares them
    tests/mount_client.py kill ADF_MOUNT ADF_SERVE IMAGE DIR ROUNDS SEED   kills the mount at random times and checks the file
    tests/mount_client.py cases MOUNTED   tests the POSIX rules for open files, renames and a full disk
    tests/mount_client.py same MOUNTED SHADOW   compares two directories

Each prints the errors that it finds, and then exits with status 1.
"""
from __future__ import annotations

import ctypes
import errno
import os
import random
import subprocess
import sys
import threading
import time
from pathlib import Path
from typing import Callable, Dict, List, NamedTuple, Optional, Tuple, TypeVar

sys.dont_write_bytecode = True

from harness import Room, fault_of

RENAME_NOREPLACE = 1
DATES_SET = 946_684_800  # dates that are set are before the year 2000
C = ctypes.CDLL(None, use_errno=True)
Result = TypeVar("Result")


def rename_new(old: str, new: str) -> None:
    """Renames to a name that is free."""
    if C.renameat2(-100, os.fsencode(old), -100, os.fsencode(new), RENAME_NOREPLACE) != 0:
        raise OSError(ctypes.get_errno(), os.strerror(ctypes.get_errno()))


class Found(NamedTuple):
    """What is at a path: the bytes of a file, its user's rights, and its date if that was set."""

    data: Optional[bytes]
    mode: int
    date: Optional[int]


def tree(top: str) -> Dict[str, Found]:
    """Each path below a directory in lower case, with what is there."""
    found = {}
    for folder, folders, files in os.walk(top):
        for name in folders + files:
            path = Path(folder, name)
            status = path.lstat()
            data = path.read_bytes() if name in files else None
            date = status.st_mtime_ns if status.st_mtime < DATES_SET else None
            found[os.path.relpath(path, top).lower()] = Found(data, status.st_mode >> 6 & 7, date)
    return found


def same_trees(mounted: str, shadow: str) -> Optional[str]:
    here, there = tree(mounted), tree(shadow)
    if here.keys() != there.keys():
        return f"only mounted: {sorted(here.keys() - there.keys())}, only in the shadow: {sorted(there.keys() - here.keys())}"
    for path, wanted in there.items():
        found = here[path]
        if found.data != wanted.data:
            return f"{path} has other bytes"
        if found.mode != wanted.mode:
            return f"{path} has the mode {found.mode:o} and not {wanted.mode:o}"
        if wanted.date is not None and found.date != wanted.date:
            return f"{path} has the date {found.date} and not {wanted.date}"
    return None


# ---- the same operations in two directories


class Shadow:
    """One random client. Each operation is done in the mounted directory first. If the disk is full, it is not done in
    the shadow; otherwise both have to end alike."""

    def __init__(self, mounted: str, shadow: str, seed: int) -> None:
        self.mounted, self.shadow = mounted, shadow
        self.random = random.Random(seed)
        self.open: List[List[int]] = []  # pairs of descriptors for one file
        self.full = 0

    def name(self) -> str:
        return self.random.choice("abcdefgh") + self.random.choice(["", "x", " y", "\u00e9"])

    def path(self) -> str:
        depth = self.random.choice([1, 1, 2, 2, 3])
        return "/".join(self.name() for _ in range(depth))

    def spelled(self, path: str) -> str:
        """A spelling of the path: upper and lower case are the same for ASCII letters."""
        return "".join(it.upper() if it.isascii() and self.random.random() < 0.2 else it for it in path)

    def in_turn(self, what: str, here: Callable[[], Result], there: Callable[[], Result]) -> Optional[List[Result]]:
        """Does something in the mounted directory, and in the shadow unless the disk is full: both end alike. Returns
        both results, or None if they failed."""
        errors: List[int] = []
        results: List[Result] = []
        for action in (here, there):
            try:
                results.append(action())
                errors.append(0)
            except OSError as fault:
                errors.append(fault.errno or -1)
            if errors == [errno.ENOSPC]:
                self.full += 1
                return None
        if errors[0] != errors[1]:
            raise AssertionError(f"{what}: {errors[0]} where {errors[1]} is expected")
        return results or None

    def both(self, action: Callable[..., Result], *paths: str) -> Optional[List[Result]]:
        """Does an action on paths in both directories."""
        here = [os.path.join(self.mounted, self.spelled(it)) for it in paths]
        there = [os.path.join(self.shadow, it) for it in paths]
        return self.in_turn(f"{action} {paths}", lambda: action(*here), lambda: action(*there))

    def on_open(self, action: Callable[[int], object]) -> None:
        """Does an action on one of the open files, in both."""
        if self.open:
            here, there = self.random.choice(self.open)
            results = self.in_turn("an open file", lambda: action(here), lambda: action(there))
            if results and results[0] != results[1]:
                raise AssertionError(f"an open file: {str(results[0])[:80]} where {str(results[1])[:80]} is expected")

    def is_directory(self, path: str) -> bool:
        return os.path.isdir(os.path.join(self.shadow, path))

    def is_protected(self, path: str) -> bool:
        """Whether protection denies writing and deleting an object. Only root in the shadow ignores it."""
        try:
            return os.lstat(os.path.join(self.shadow, path)).st_mode & 0o200 == 0
        except OSError:
            return False

    def refused(self, number: int, action: Callable[[str], object], path: str) -> None:
        try:
            action(os.path.join(self.mounted, path))
        except OSError as fault:
            if fault.errno == number:
                return
            raise AssertionError(f"{action} {path}: {fault.errno} where {number} is expected") from fault
        raise AssertionError(f"{action} {path}: it is not refused")

    def step_open(self) -> None:
        path = self.path()
        flags = os.O_RDWR | self.random.choice([0, os.O_CREAT, os.O_CREAT, os.O_CREAT | os.O_TRUNC, os.O_CREAT | os.O_EXCL])
        if self.is_protected(path) and not flags & os.O_EXCL and not self.is_directory(path):
            self.refused(errno.EACCES, lambda it: os.open(it, flags), path)
            return
        opened = self.both(lambda it: os.open(it, flags, 0o644), path)
        if opened:
            self.open.append(opened)
        while len(self.open) > 6:
            for descriptor in self.open.pop(self.random.randrange(len(self.open))):
                os.close(descriptor)

    def step_write(self) -> None:
        data = self.random.randbytes(self.random.choice([1, 10, 487, 488, 512, 513, 3000, 20000]))
        place = self.random.choice([0, 1, 488, 512, 700, 5000, 40000])
        self.on_open(lambda it: os.pwrite(it, data, place))

    def step_append(self) -> None:
        data = self.random.randbytes(self.random.randrange(1, 2000))

        def append(descriptor: int) -> int:
            os.lseek(descriptor, 0, os.SEEK_END)
            return os.write(descriptor, data)

        self.on_open(append)

    def step_cut(self) -> None:
        size = self.random.choice([0, 1, 488, 511, 512, 4000, 36864, 37000])
        self.on_open(lambda it: os.ftruncate(it, size))

    def step_read(self) -> None:
        size, place = self.random.choice([1, 600, 100000]), self.random.choice([0, 3, 500, 60000])
        self.on_open(lambda it: os.pread(it, size, place))

    def step_status(self) -> None:
        self.on_open(lambda it: (os.fstat(it).st_size, os.fstat(it).st_nlink))

    def step_truncate(self) -> None:
        path, size = self.path(), self.random.choice([0, 5, 600, 10000])
        if self.is_protected(path) and not self.is_directory(path):
            self.refused(errno.EACCES, lambda it: os.truncate(it, size), path)
        else:
            self.both(lambda it: os.truncate(it, size), path)

    def step_mkdir(self) -> None:
        self.both(lambda it: os.mkdir(it, 0o755), self.path())

    def step_unlink(self) -> None:
        path = self.path()
        if self.is_protected(path) and not self.is_directory(path):
            self.refused(errno.EPERM, os.unlink, path)
        else:
            self.both(os.unlink, path)

    def step_rmdir(self) -> None:
        path = self.path()
        if self.is_protected(path) and self.is_directory(path) and not os.listdir(os.path.join(self.shadow, path)):
            self.refused(errno.EPERM, os.rmdir, path)
        else:
            self.both(os.rmdir, path)

    def step_rename(self) -> None:
        ways: List[Callable[[str, str], None]] = [os.rename, os.rename, rename_new]
        old, new = self.path(), self.path()
        if not self.is_protected(new):
            self.both(self.random.choice(ways), old, new)

    def step_chmod(self) -> None:
        mode = self.random.choice([0o755, 0o644, 0o644, 0o700, 0o444])
        self.both(lambda it: os.chmod(it, mode), self.path())

    def step_date(self) -> None:
        date = self.random.randrange(315_532_800 * 50, DATES_SET * 50) * 20_000_000
        self.both(lambda it: os.utime(it, ns=(date, date)), self.path())

    def step_list(self) -> None:
        pair = self.both(lambda it: sorted(name.lower() for name in os.listdir(it)), os.path.dirname(self.path()) or ".")
        if pair and pair[0] != pair[1]:
            raise AssertionError(f"{pair[0]} is listed where {pair[1]} is expected")

    def run(self, steps: int) -> Optional[str]:
        weights = {self.step_open: 20, self.step_write: 20, self.step_append: 8, self.step_cut: 5, self.step_read: 8,
                   self.step_status: 3, self.step_truncate: 3, self.step_mkdir: 8, self.step_unlink: 8, self.step_rmdir: 4,
                   self.step_rename: 8, self.step_chmod: 3, self.step_date: 3, self.step_list: 3}  # fmt: skip
        choices = self.random.choices(list(weights), list(weights.values()), k=steps)
        for count, step in enumerate(choices, 1):
            try:
                step()
                fault = same_trees(self.mounted, self.shadow) if count % 100 == 0 or count == steps else None
            except AssertionError as wrong:
                fault = str(wrong)
            if fault:
                return f"step {count}, {step.__name__}: {fault}"
        for pair in self.open:
            for descriptor in pair:
                os.close(descriptor)
        return same_trees(self.mounted, self.shadow)


def shadow(mounted: str, other: str, steps: str, seed: str) -> Optional[str]:
    client = Shadow(mounted, other, int(seed))
    fault = client.run(int(steps))
    print(f"      the disk was full {client.full} times")
    return f"seed {seed}: {fault}" if fault else None


# ---- a mount that is killed

# The files of an image.
State = Dict[str, bytes]
Step = Callable[[], None]


class Killed:
    """One mount that is killed while a client changes it, one step and one save at a time. The disk is never full: a
    file that was emptied by its opening and then found no room would be a state between two steps."""

    # If the files have more bytes than this, one is deleted. A step adds at most 60,000, and a floppy has room for
    # both.
    MANY = 600_000

    def __init__(self, adf_mount: str, room: Room, image: str, place: str, chance: random.Random) -> None:
        self.adf_mount, self.room, self.image, self.place = adf_mount, room, image, place
        self.random = chance
        self.states: List[State] = [{}]
        self.done = 0
        self.saves = 0

    def mount(self, *options: str) -> subprocess.Popen[bytes]:
        process = subprocess.Popen([self.adf_mount, "-f", *options, self.image, self.place])
        for _ in range(2000):
            if os.path.ismount(self.place) or process.poll() is not None:
                break
            time.sleep(0.002)
        return process

    def unmount(self, process: subprocess.Popen[bytes]) -> None:
        subprocess.run(["fusermount3", "-u", "-z", self.place], check=False, stderr=subprocess.DEVNULL)
        process.wait()

    def at(self, name: str) -> str:
        return os.path.join(self.place, name)

    def write(self, name: str, mode: str, data: bytes) -> None:
        """Writes a file and saves it: a new one by its close, any other by itself."""
        with open(self.at(name), mode) as file:
            file.write(data)
            file.flush()
            if mode == "r+b":
                os.fsync(file.fileno())

    def settle(self) -> None:
        """Saves a change of names."""
        folder = os.open(self.place, os.O_RDONLY)
        os.fsync(folder)
        os.close(folder)

    def delete(self, name: str) -> None:
        os.unlink(self.at(name))
        self.settle()

    def move(self, old: str, new: str) -> None:
        os.rename(self.at(old), self.at(new))
        self.settle()

    def next_step(self, state: State) -> Tuple[Step, State]:
        """The next step, as a function, and the state after it."""
        after, names = dict(state), sorted(state)
        kind = self.random.choice(["write", "write", "write", "part", "delete", "move"]) if names else "write"
        if sum(map(len, state.values())) > self.MANY:
            kind = "delete"
        name = self.random.choice(names) if kind != "write" else f"f{self.random.randrange(12)}"
        data = self.random.randbytes(self.random.randrange(1, 60000))
        if kind == "write":
            after[name] = data
            return lambda: self.write(name, "wb", data), after
        if kind == "part":
            after[name] = data + state[name][len(data) :]
            return lambda: self.write(name, "r+b", data), after
        del after[name]
        if kind == "delete":
            return lambda: self.delete(name), after
        moved = f"g{name}"[-9:]
        after[moved] = state[name]
        return lambda: self.move(name, moved), after

    def work(self) -> None:
        """Makes changes until the mount is gone."""
        try:
            while True:
                step, after = self.next_step(self.states[-1])
                self.states.append(after)
                step()
                self.done = len(self.states) - 1
        except OSError:
            return

    def round(self) -> Optional[str]:
        self.states, self.done = [self.states[self.done]], 0
        process = self.mount()
        client = threading.Thread(target=self.work)
        client.start()
        time.sleep(self.random.random() * 0.06)
        process.kill()
        client.join()
        self.saves += self.done
        self.unmount(process)
        return fault_of(self.room.run("check", self.image), 0, b"ok\n") or self.fault_of_files()

    def fault_of_files(self) -> Optional[str]:
        """What is wrong with the files of the image: they are neither those before a step nor those after it."""
        process = self.mount("-o", "ro")
        found = {path: it.data for path, it in tree(self.place).items()}
        self.unmount(process)
        image = Path(self.image)
        for beside in image.parent.glob(f"{image.name}.*"):
            beside.unlink()
        allowed = [count for count in range(self.done, len(self.states)) if self.states[count] == found]
        if not allowed:
            return f"the file is no state before or after step {self.done + 1} of {len(self.states) - 1}"
        self.done = allowed[0]
        return None


def kill(adf_mount: str, adf_serve: str, image: str, place: str, rounds: str, seed: str) -> Optional[str]:
    with Room(Path(adf_serve).absolute()) as room:
        killed = Killed(adf_mount, room, image, place, random.Random(int(seed)))
        for count in range(1, int(rounds) + 1):
            fault = killed.round()
            if fault:
                return f"seed {seed}, round {count}: {fault}"
    print(f"      killed {rounds} times, behind {killed.saves} saves")
    return None if killed.saves else "nothing was saved before a kill"


# ---- POSIX rules

# An action, and the number of the error that it has to end with, or 0.
Attempt = Tuple[int, Callable[[], object]]


def end_so(*attempts: Attempt) -> bool:
    """Whether each action ends as expected, one after the other."""
    for number, action in attempts:
        try:
            action()
            if number != 0:
                return False
        except OSError as fault:
            if fault.errno != number:
                return False
    return True


def put(name: str, data: bytes) -> None:
    Path(name).write_bytes(data)


def get(name: str) -> bytes:
    return Path(name).read_bytes()


def kept_when_unlinked() -> bool:
    put("open", b"bytes")
    with open("open", "r+b", buffering=0) as file:
        os.unlink("open")
        file.write(b"BYTE")
        file.seek(0)
        gone = not os.path.exists("open") and os.fstat(file.fileno()).st_nlink == 0
        return gone and os.listdir() == [] and file.read() == b"BYTEs"


def kept_when_renamed() -> bool:
    put("old", b"bytes")
    put("there", b"other")
    with open("old", "r+b", buffering=0) as file, open("there", "rb") as other:
        os.rename("old", "there")
        file.write(b"new")
        return get("there") == b"newes" and other.read() == b"other" and os.listdir() == ["there"]


def kept_when_directory_goes() -> bool:
    os.mkdir("dir")
    put("dir/f", b"1")
    with open("dir/f", "rb") as file:
        os.unlink("dir/f")
        os.rmdir("dir")
        return file.read() == b"1"


def mode_of_open_file() -> bool:
    descriptor = os.open("mode", os.O_CREAT | os.O_RDWR, 0o400)
    os.write(descriptor, b"12")
    os.close(descriptor)
    refused = end_so((errno.EACCES, lambda: open("mode", "r+b")), (errno.EPERM, lambda: os.unlink("mode")))
    os.chmod("mode", 0o600)
    return refused and get("mode") == b"12"


def spellings() -> bool:
    put("Name", b"1")
    put("nAME", b"22")
    same = os.stat("NAME").st_ino == os.stat("Name").st_ino
    return same and os.listdir() == ["Name"] and get("name") == b"22"


def sparse() -> bool:
    descriptor = os.open("sparse", os.O_CREAT | os.O_RDWR)
    os.pwrite(descriptor, b"x", 100000)
    os.close(descriptor)
    return get("sparse") == bytes(100000) + b"x"


def too_large() -> bool:
    put("large", b"kept")
    before, date = os.statvfs(".").f_bfree, os.stat("large").st_mtime_ns
    time.sleep(0.05)
    descriptor = os.open("large", os.O_RDWR)
    beyond = before * os.statvfs(".").f_bsize + 100000
    refused = end_so(
        (errno.ENOSPC, lambda: os.pwrite(descriptor, b"y" * 1000, beyond)),
        (errno.ENOSPC, lambda: os.ftruncate(descriptor, beyond)),
        (errno.EFBIG, lambda: os.pwrite(descriptor, b"y", 1 << 31)),
    )
    os.close(descriptor)
    stayed = os.stat("large").st_mtime_ns == date and os.statvfs(".").f_bfree == before
    return refused and stayed and get("large") == b"kept"


def full() -> bool:
    before = os.statvfs(".")
    size = before.f_bfree * before.f_bsize * 9 // 10
    put("most", b"z" * size)
    descriptor = os.open("rest", os.O_CREAT | os.O_WRONLY)
    written = 0
    try:
        while True:
            written += os.write(descriptor, b"r" * 10000)
    except OSError as fault:
        number = fault.errno
    os.close(descriptor)
    told = number == errno.ENOSPC and get("rest") == b"r" * written and get("most") == b"z" * size
    os.unlink("most")
    os.unlink("rest")
    return told and os.statvfs(".").f_bfree == before.f_bfree


def names() -> bool:
    refused = end_so(
        (errno.ENAMETOOLONG, lambda: put("n" * 31, b"")),
        (0, lambda: put("n" * 30, b"1")),
        (errno.EINVAL, lambda: put("a:b", b"")),
        (errno.EINVAL, lambda: put("a%2Fb", b"")),
        (errno.EINVAL, lambda: put("\u0142", b"")),
    )
    put("%41%e9%", b"1")
    return refused and sorted(os.listdir()) == ["A\u00e9%25", "n" * 30] and get("a\u00e9%") == b"1"


def attributes() -> bool:
    put("f", b"")
    path, comment, bits = "f", "user.amiga.comment", "user.amiga.protection"
    os.setxattr(path, comment, "hall\u00f6".encode())
    os.setxattr(path, bits, b"-s--rwed")
    good = os.getxattr(path, comment) == "hall\u00f6".encode() and os.getxattr(path, bits) == b"-s--rwed"
    good = good and sorted(os.listxattr(path)) == [comment, bits]
    good = good and end_so(
        (errno.EEXIST, lambda: os.setxattr(path, comment, b"x", os.XATTR_CREATE)),
        (errno.EINVAL, lambda: os.setxattr(path, bits, b"what")),
        (errno.EINVAL, lambda: os.setxattr(path, comment, "\u0142".encode())),
        (errno.ERANGE, lambda: os.setxattr(path, comment, b"x" * 80)),
        (errno.EOPNOTSUPP, lambda: os.setxattr(path, "user.other", b"x")),
    )
    os.setxattr(path, bits, b"rd")
    good = good and os.stat(path).st_mode & 0o777 == 0o444 and os.getxattr(path, bits) == b"----r--d"
    os.removexattr(path, comment)
    os.removexattr(path, bits)
    gone = end_so((errno.ENODATA, lambda: os.getxattr(path, comment)), (errno.ENODATA, lambda: os.removexattr(path, comment)))
    return good and gone and os.stat(path).st_mode & 0o777 == 0o755


def renames() -> bool:
    put("a", b"a")
    put("b", b"b")
    os.mkdir("d")
    os.mkdir("e")
    put("e/f", b"")
    good = end_so((errno.EEXIST, lambda: rename_new("a", "b"))) and get("b") == b"b"
    good = good and end_so(
        (errno.EISDIR, lambda: os.rename("a", "d")),
        (errno.ENOTDIR, lambda: os.rename("d", "a")),
        (errno.ENOTEMPTY, lambda: os.rename("d", "e")),
        (errno.EINVAL, lambda: os.rename("e", "e/g")),
    )
    os.rename("e", "d")
    os.rename("a", "b")
    return good and sorted(os.listdir()) == ["b", "d"] and os.listdir("d") == ["f"] and get("b") == b"a"


def refusals() -> bool:
    os.mkdir("d")
    put("f", b"")
    return end_so(
        (errno.EEXIST, lambda: os.mkdir("F")),
        (errno.ENOTDIR, lambda: os.rmdir("f")),
        (errno.EISDIR, lambda: os.unlink("d")),
        (errno.ENOENT, lambda: os.unlink("x")),
        (errno.EPERM, lambda: os.symlink("f", "l")),
        (errno.EPERM, lambda: os.link("f", "l")),
        (errno.EPERM, lambda: os.mkfifo("p")),
        (errno.EPERM, lambda: os.chown("f", 12345, -1)),
    )


def dates() -> bool:
    put("f", b"")
    os.utime("f", ns=(0, 320_000_000_020_000_000))
    early = os.stat("f").st_mtime_ns == 320_000_000_020_000_000
    os.utime("f", ns=(0, 5_000_000_000))
    return early and os.stat("f").st_mtime == 2922 * 86400


CASES = [kept_when_unlinked, kept_when_renamed, kept_when_directory_goes, mode_of_open_file, spellings, sparse, too_large,
         full, names, attributes, renames, refusals, dates]  # fmt: skip


def clear() -> None:
    """The current directory is empty."""
    for folder, folders, files in os.walk(".", topdown=False):
        for name in files:
            os.unlink(os.path.join(folder, name))
        for name in folders:
            os.rmdir(os.path.join(folder, name))


def cases(top: str) -> Optional[str]:
    """What is wrong in the first case that fails. Each case has the mounted directory as its current one, empty, and
    returns whether everything is as in POSIX."""
    os.chdir(top)
    for case in CASES:
        if not case():
            return case.__name__.replace("_", " ")
        clear()
    return None


def main(words: List[str]) -> int:
    clients: Dict[str, Callable[..., Optional[str]]] = {"shadow": shadow, "kill": kill, "cases": cases, "same": same_trees}
    wrong = clients[words[0]](*words[1:])
    if wrong:
        print(wrong)
    return 1 if wrong else 0


if __name__ == "__main__":
    sys.exit(main(sys.argv[1:]))
