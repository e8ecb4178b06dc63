#!/usr/bin/env python3
"""Mounts images by bindings/fuse/adf_mount, and tests them with the machine's own tools and with the clients of
tests/mount_client.py.

    tests/mount.py [PROGRAM [PREFIX]]

PREFIX is a directory with the C library as bindings/c/build.sh installs it; the default is crates/adf_c/out. Nothing is proved,
and only the mount itself is built. The test reports and skips checks whose tools are missing. The environment variable SEED=N
selects the random clients. STEPS=N and ROUNDS=N are their numbers of steps and rounds.
"""
from __future__ import annotations

import fcntl
import os
import random
import re
import resource
import shutil
import signal
import subprocess
import sys
import tempfile
import time
from contextlib import contextmanager
from functools import partial
from pathlib import Path
from typing import Callable, Dict, Iterator, List, Mapping, Optional, Sequence, Tuple

sys.dont_write_bytecode = True

from harmful import Drawing
from harness import (
    BLOCK,
    DIRECTORY,
    FILE,
    TOP,
    Failed,
    Image,
    Ran,
    Report,
    Room,
    built_program,
    done,
    fault_of,
    in_memory,
    limited,
    run,
    slot_of,
    wait_until_free,
)

FUSE, CLIENT = TOP / "bindings/fuse", TOP / "tests/mount_client.py"
SEED = os.environ.get("SEED") or str(random.randrange(32_768))
STEPS, ROUNDS = os.environ.get("STEPS") or "10000", os.environ.get("ROUNDS") or "100"
# The longest time for a mount, in seconds: it waits 5 for the lock of its image. That for its last save. How long `--wait` waits.
LONGEST_START, LONGEST_SAVE, LONGEST_WAIT = 8, 30, 60
# The address space, the memory and the stack of a mount over a floppy, in bytes.
MOST_SPACE, MOST_MEMORY, MOST_STACK = 256 << 20, 64 << 20, 1 << 20
# The user and the group of another's file.
OTHER = 65_534
NO_ROOM = b"No space left"
# The fields that `find` prints of each entry: name, size of a file, mode and date.
PRINTED = ["-type", "d", "-printf", "%P/ %m %T@\\n", "-o", "-printf", "%P %s %m %T@\\n"]
# Packets that make entries with bytes that a host name cannot have, and the names that the mount shows.
STRANGE = [b'output 0 "\x01\x7f\x9f"', b"end $1", b'output 0 "caf\xe9"', b"end $3", b'output 0 ".."', b"end $5"]
STRANGE += [b'output 0 "%41\\"', b"end $7", b'mkdir 0 "."', b""]
SHOWN = ["%01%7F%9F", "%2541%5C", "%2E", "%2E.", "caf\u00e9"]


class Mount(Room):
    """The room for the images, with the directory `mount` on which one image at a time is mounted."""

    def __init__(self, program: Path, report: Report) -> None:
        # (an image in memory needs no disk when it is saved)
        super().__init__(program, report, in_memory())
        self.place, self.adf_mount = str(self.top / "mount"), ""
        self.process: Optional[subprocess.Popen[bytes]] = None
        # Runs in the process of a mount before it.
        self.before: Optional[Callable[[], None]] = None

    def start(self, image: str, *options: str) -> subprocess.Popen[bytes]:
        """Mounts an image in its own process."""
        with open("texts", "wb") as texts:
            words = [self.adf_mount, "-f", *options, str(self.top / image), self.place]
            self.process = subprocess.Popen(words, stdin=subprocess.DEVNULL, stderr=texts, preexec_fn=self.before)
        ends = time.monotonic() + LONGEST_START
        while not os.path.ismount(self.place):
            if self.process.poll() is not None or time.monotonic() > ends:
                raise OSError(f"it does not mount {image}: {self.content('texts')[-300:].decode().strip()}")
            time.sleep(0.01)
        return self.process

    def leave(self) -> None:
        """Unmounts the image and ends the process, if there are any."""
        if os.path.ismount(self.place):
            run(["fusermount3", "-u", "-z", self.place])
        if self.process:
            self.process.kill()
            self.process.wait()
            self.process = None

    @contextmanager
    def mounted(self, image: str, *options: str) -> Iterator[None]:
        """The image is mounted within `with`; then it is unmounted, and saved."""
        try:
            process = self.start(image, *options)
            yield
            done(["fusermount3", "-u", self.place])
            status = process.wait()
            if status != 0:
                self.report.hold("it ends well", f"status {status}")
        finally:
            self.leave()

    def blank(self, image: str, kind: str = "ofs") -> None:
        self.done("blank", *(["--ffs"] if kind == "ffs" else []), "Work", image)

    def listing(self, image: str) -> str:
        return self.done("list", image).decode("latin-1")

    def client(self, name: str, *words: str) -> None:
        self.report.succeeds(name, [sys.executable, str(CLIENT), *words])

    def ends(self, name: str, part: Callable[[Mount], Optional[str]]) -> None:
        self.report.ends(name, partial(part, self))


def untrue(facts: Mapping[str, bool]) -> Optional[str]:
    """The facts that do not hold."""
    return "; ".join(f"it does not hold that {it}" for it, holds in facts.items() if not holds) or None


def same_bytes(one: str, other: str) -> bool:
    return Path(one).read_bytes() == Path(other).read_bytes()


# ---- what the machine has


def readable(tried: Mount) -> None:
    """The scripts and clients have no syntax errors."""
    for script in ("build.sh", "adf_mount"):
        tried.report.succeeds(f"{script} can be read", ["bash", "-n", str(FUSE / script)])
    tried.report.succeeds("the clients can be read", [sys.executable, "-c", f"import ast; ast.parse(open({str(CLIENT)!r}).read())"])


def compilers() -> List[str]:
    """The C compilers. `cc` counts only if there is no other one."""
    found = [it for it in ("gcc", "clang", "cc") if shutil.which(it)]
    return found if found == ["cc"] else [it for it in found if it != "cc"]


def lacking(program: Path) -> Optional[str]:
    """What the machine lacks for a mount, apart from the library."""
    tools = [it for it in ("fusermount3", "pkg-config") if not shutil.which(it)]
    if not Path("/dev/fuse").is_char_device():
        return "there is no /dev/fuse"
    if tools:
        return f"there is no {tools[0]}"
    if run(["pkg-config", "--exists", "fuse3"]).status != 0:
        return "there is no libfuse 3 (Debian: libfuse3-dev and fuse3)"
    if not compilers():
        return "there is no C compiler"
    return None if os.access(program, os.X_OK) else f"there is no program {program}"


def no_library() -> Optional[str]:
    """Why the built library cannot be put below `library`."""
    if not (TOP / "crates/adf_c/out/libadf_c.a").is_file():
        return "there is no library for C that was built"
    ran = run([str(TOP / "bindings/c/build.sh"), "--built", "library"])
    return None if ran.status == 0 else f"the library for C: {ran}"


def refused(tried: Mount) -> Optional[str]:
    """Why no mount is allowed here. A machine may have everything and still forbid mounts."""
    tried.blank("probe.adf")
    try:
        with tried.mounted("probe.adf"):
            return None
    except OSError as fault:
        return str(fault) if re.search("(?i)not permitted|denied", str(fault)) else None


def is_ready(tried: Mount, words: Sequence[str]) -> bool:
    """Whether the mount is built, and may be used here. Reports what is missing."""
    skip = partial(tried.report.skip, "all that is mounted")
    lacks = lacking(tried.program) or (None if words else no_library())
    if lacks:
        skip(lacks)
        return False
    prefix = os.path.join(tried.outside, words[0]) if words else "library"
    for compiler in compilers():
        build = [str(FUSE / "build.sh"), f"adf_mount_{compiler}", prefix]
        tried.report.succeeds(f"it is built by {compiler}", build, env={"CC": compiler})
    tried.adf_mount = str(tried.top / f"adf_mount_{compilers()[0]}")
    if not os.access(tried.adf_mount, os.X_OK):
        return False
    why = refused(tried)
    if why:
        skip(why)
    return not why


# ---- the machine's tools


def make_tree(top: Path) -> None:
    """Makes files and directories of many sizes, with old dates."""
    chance = random.Random(5)
    for folder in ("", "docs", "docs/more and more", "Caf\u00e9", "empty", "a/b/c/d/e/f"):
        (top / folder).mkdir(parents=True)
        for count in range(0 if folder == "empty" else 6):
            path = top / folder / f"file {count} of {len(folder)}"
            path.write_bytes(chance.randbytes(chance.choice([0, 1, 487, 488, 489, 512, 513, 4000, 9000])))
            path.chmod(chance.choice([0o644, 0o755]))
            os.utime(path, (0, chance.randrange(400_000_000, 1_000_000_000)))
    for folder, _, _ in os.walk(top, topdown=False):
        os.chmod(folder, 0o755)
        os.utime(folder, (0, 500_000_000))


def found_alike() -> Optional[str]:
    here, there = (sorted(done(["find", it, *PRINTED]).splitlines()) for it in ("tree", "mount/tree"))
    return None if here == there else f"only one has each of {sorted({*here} ^ {*there})}"


def written_by_dd() -> Optional[str]:
    """The same writes at random positions into a file of the mount and a file of the host."""
    Path("dd").write_bytes(os.urandom(50_000))
    shutil.copyfile("dd", "mount/dd")
    for _ in range(40):
        size, place = random.randrange(1, 901), random.randrange(90)
        Path("part").write_bytes(os.urandom(size))
        for file in ("dd", "mount/dd"):
            done(["dd", "if=part", f"of={file}", f"bs={size}", f"seek={place}", "conv=notrunc", "status=none"])
    return None if same_bytes("dd", "mount/dd") else "other bytes"


def cut_by_truncate() -> Optional[str]:
    for size in ("20000", "488", "70000", "0", "1"):
        done(["truncate", "-s", size, "dd", "mount/dd"])
        if not same_bytes("dd", "mount/dd"):
            return f"other bytes after a cut to {size}"
    return None


def full_disk() -> Optional[str]:
    """Existing files stay when the disk is full, and all blocks are free again after the deletes."""
    before = os.statvfs("mount").f_bavail
    ran = run(["cp", "/dev/zero", "mount/zeros"])
    more = ["mount/one", "mount/two", "mount/three"]
    run(["mkdir", *more])
    done(["diff", "-r", "tree", "mount/tree"])
    done(["rm", "-r", "mount/zeros"])
    done(["rm", "-df", *more])
    is_refused = ran.status != 0 and NO_ROOM in ran.texts
    return untrue({"the copy is refused": is_refused, "all is free again": os.statvfs("mount").f_bavail == before})


def synced(report: Report, kind: str) -> None:
    if not shutil.which("rsync"):
        report.lacks(kind, "rsync")
        return
    report.succeeds(f"{kind}: rsync -a", ["rsync", "-a", "tree/", "mount/synced/"])
    report.succeeds(f"{kind}: what rsync put there", ["diff", "-r", "tree", "mount/synced"])
    report.check(f"{kind}: rsync finds nothing to do again", run(["rsync", "-ai", "tree/", "mount/synced/"]))


def used(report: Report, kind: str) -> None:
    """The machine's tools on a mounted floppy."""
    succeeds = report.succeeds
    succeeds(f"{kind}: cp -a", ["cp", "-a", "tree", "mount/"])
    succeeds(f"{kind}: diff -r", ["diff", "-r", "tree", "mount/tree"])
    report.ends(f"{kind}: find prints names, sizes, modes and dates", found_alike)
    for it in ("mount/tarred", "back"):
        os.mkdir(it)
    succeeds(f"{kind}: tar into it", ["sh", "-c", "tar cf - -C tree . | tar xf - -C mount/tarred"])
    succeeds(f"{kind}: what tar put there", ["diff", "-r", "tree", "mount/tarred"])
    succeeds(f"{kind}: tar out of it", ["sh", "-c", "tar cf - -C mount/tree . | tar xf - -C back && diff -r tree back"])
    synced(report, kind)
    succeeds(f"{kind}: mv of a directory", ["mv", "mount/tarred", "mount/tree/Moved Here"])
    succeeds(f"{kind}: what was moved", ["diff", "-r", "tree", "mount/tree/moved here"])
    succeeds(f"{kind}: rm -r", ["rm", "-r", "mount/tree/Moved Here"])
    report.ends(f"{kind}: dd at places drawn anew", written_by_dd)
    report.ends(f"{kind}: truncate", cut_by_truncate)
    report.ends(f"{kind}: a full disk", full_disk)


def tools(tried: Mount) -> None:
    """The machine's tools on a floppy of each format, and the contents after a new mount."""
    for kind in ("ofs", "ffs"):
        image = f"{kind}.adf"
        for it in ("kept", "back", "out"):
            shutil.rmtree(it, ignore_errors=True)
        tried.blank(image, kind)
        with tried.mounted(image):
            used(tried.report, kind)
            done(["cp", "-a", "mount", "kept"])
        tried.succeeds(f"{kind}: check says ok", "check", image, output=b"ok\n")
        with tried.mounted(image, "-o", "ro"):
            tried.report.succeeds(f"{kind}: the same files when it is mounted again", ["diff", "-r", "kept", "mount"])
        tried.done("extract", "--to", "out", image)
        tried.report.succeeds(f"{kind}: extract gives the same files", ["diff", "-r", "kept", "out"])


def clients(tried: Mount) -> None:
    """A random client on a floppy of each format, and the rules of POSIX."""
    for kind in ("ofs", "ffs"):
        os.mkdir("shadow")
        tried.blank("client.adf", kind)
        with tried.mounted("client.adf"):
            tried.client(f"{kind}: cases of open, renamed, full and refused", "cases", "mount")
            tried.client(f"{kind}: {STEPS} steps beside a shadow, seed {SEED}", "shadow", "mount", "shadow", STEPS, SEED)
        tried.succeeds(f"{kind}: check says ok after them", "check", "client.adf", output=b"ok\n")
        with tried.mounted("client.adf", "-o", "ro"):
            tried.client(f"{kind}: the same files when it is mounted again after them", "same", "mount", "shadow")
        shutil.rmtree("shadow")


# ---- one image, mounted in turn


def strange_names(tried: Mount) -> Optional[str]:
    """Names with bytes that a host name cannot have."""
    tried.write("script", b"\n".join(STRANGE))
    tried.done("serve", "--out", "names.adf", "blank.adf", "script")
    with tried.mounted("names.adf"):
        shown = sorted(os.listdir("mount"))
        Path("mount/%e4%").touch()
    return untrue({f"{SHOWN} is shown, not {shown}": shown == SHOWN, "\xe4% is in it": " \xe4%\n" in tried.listing("names.adf")})


def read_only(tried: Mount) -> Optional[str]:
    """-o ro writes nothing."""
    before = tried.content("ofs.adf")
    cut = [sys.executable, "-c", "import os; os.truncate('mount/dd', 0)"]
    writes = [["touch", "mount/new"], ["rm", "-rf", "mount/tree"], ["mkdir", "mount/dir"], cut]
    with tried.mounted("ofs.adf", "-o", "ro"):
        facts = {f"{' '.join(it)} is refused": run(it).status != 0 for it in writes}
        facts["what is there can be read"] = os.access("mount/tree", os.R_OK)
        facts["it cannot be written"] = not os.access("mount/tree", os.W_OK)
    return untrue({**facts, "the image stays": tried.content("ofs.adf") == before})


def locked(tried: Mount) -> Optional[str]:
    """An image is mounted once, and no command changes it meanwhile."""
    os.mkdir("second")
    again = [tried.adf_mount, "blank.adf", "second"]
    with tried.mounted("blank.adf"):
        ran = [run(again)]
        Path("mount/f").write_text("1\n")
        ran += [run([*again, "-o", "ro"]), tried.run("mkdir", "blank.adf", "dir")]
    return untrue({f"this is refused: {it}": it.status == 2 for it in ran})


def saved(tried: Mount) -> Optional[str]:
    """A file is saved when it is closed and when it is flushed, a directory when it is flushed; the mode stays."""
    os.chmod("blank.adf", 0o640)
    with tried.mounted("blank.adf"):
        Path("mount/closed").write_text("closed\n")
        shutil.copyfile("blank.adf", "one.adf")
        os.mkdir("mount/dir")
        done(["sync", "mount/dir"])
        shutil.copyfile("blank.adf", "two.adf")
        os.mkdir("mount/last")
        # A file deleted while open is in no image. It still exists for the process that has it open.
        with open("mount/unlinked", "w+b", buffering=0) as file:
            file.write(b"open\n")
            os.remove("mount/unlinked")
            done(["sync", "mount"])
            shutil.copyfile("blank.adf", "three.adf")
    three = tried.listing("three.adf")
    return untrue({
        "the image is accepted": tried.run("check", "three.adf").output == b"ok\n",
        "a directory is saved by sync": " last\n" in three,
        "an open file that was deleted is not": not re.search("unlinked|adf_mount", three),
        "a file is saved when it is closed": " closed\n" in tried.listing("one.adf"),
        "a new directory is saved by sync": " dir\n" in tried.listing("two.adf"),
        "all is saved at the end": " last\n" in tried.listing("blank.adf"),
        "the mode stays": os.stat("blank.adf").st_mode & 0o777 == 0o640,
        "nothing is left beside": not list(tried.top.rglob("blank.adf.*")),
    })  # fmt: skip


def asked_to_end(tried: Mount) -> Optional[str]:
    """The mount saves the image on a signal to end."""
    process = tried.start("blank.adf")
    try:
        os.mkdir("mount/told")
        process.send_signal(signal.SIGTERM)
        status = process.wait()
    finally:
        tried.leave()
    return untrue({f"status {status} is 0": status == 0, "it is saved": " told\n" in tried.listing("blank.adf")})


def without_room(tried: Mount) -> Optional[str]:
    """If the host has no room, the old image stays whole, the process that closes a file gets an error, and the image
    is saved later."""
    image = "small/floppy.adf"
    shutil.copyfile("blank.adf", image)
    tried.write("part", os.urandom(700))
    before = tried.content(image)
    with tried.mounted(image):
        ran = run(["cp", "part", "mount/file"])
        # (when the kernel lets go of the file, the mount tries once more to save it, so the file beside the image may come again)
        ends, is_alone = time.monotonic() + LONGEST_START, False
        while not is_alone and time.monotonic() < ends:
            time.sleep(0.02)
            is_alone = os.listdir("small") == ["floppy.adf"]
        stays = is_alone and tried.content(image) == before
        done(["mount", "-o", "remount,size=4m", "small"])
        done(["sync", "mount/file"])
        is_saved = same_bytes("part", "mount/file") and " file\n" in tried.listing(image)
    is_refused = ran.status != 0 and NO_ROOM in ran.texts
    return untrue({"the copy is refused": is_refused, "the image stays": stays, "it is saved with more room": is_saved})


def full_host(tried: Mount) -> None:
    os.mkdir("small")
    if run(["mount", "-t", "tmpfs", "-o", "size=1400k", "none", "small"]).status != 0:
        tried.report.skip("a full disk of the host", "no tmpfs can be mounted")
        return
    try:
        tried.ends("a full disk of the host", without_room)
    finally:
        run(["umount", "-l", "small"])


def in_background(tried: Mount) -> Optional[str]:
    done([tried.adf_mount, "blank.adf", "mount"])
    Path("mount/background").write_text("1\n")
    done(["fusermount3", "-u", "mount"])
    wait_until_free("blank.adf")
    return untrue({"it is saved": " background\n" in tried.listing("blank.adf")})


# ---- one mount after another


def leave_background(tried: Mount) -> None:
    done(["fusermount3", "-u", tried.place])


def make_in_background(tried: Mount, image: str, name: str) -> None:
    """Mounts an image in the background, makes a directory, and unmounts it again. The mount may still save."""
    done([tried.adf_mount, image, "mount"])
    Path(f"mount/{name}").mkdir()
    leave_background(tried)


def one_after_another(tried: Mount) -> Optional[str]:
    """Each mount starts as soon as the one before is unmounted, which may still save."""
    tried.blank("turns.adf")
    for turn in range(20):
        make_in_background(tried, "turns.adf", f"dir{turn}")
    ran = run([tried.adf_mount, "--wait", "turns.adf"])
    found = [f" dir{turn}\n" in tried.listing("turns.adf") for turn in range(20)]
    return fault_of(ran) or untrue({"all directories are there": all(found)})


def while_locked(seconds: float, words: Sequence[str]) -> Ran:
    """A command, while its image is locked by this process for some seconds. The output has how long it took."""
    with open("blank.adf", "rb") as held:
        fcntl.flock(held, fcntl.LOCK_EX)
        began = time.monotonic()
        process = subprocess.Popen(words, stdout=subprocess.DEVNULL, stderr=subprocess.PIPE)
        time.sleep(seconds)
        fcntl.flock(held, fcntl.LOCK_UN)
        texts = process.communicate()[1]
    return Ran(process.returncode, b"late" if time.monotonic() - began >= seconds else b"early", texts)


def waits_for_lock(tried: Mount) -> Optional[str]:
    """A mount waits for whoever has the image locked; `--wait` too, and it mounts nothing."""
    waited = while_locked(1.5, [tried.adf_mount, "--wait", "blank.adf"])
    is_mounted = os.path.ismount("mount")
    mounted = while_locked(1.5, [tried.adf_mount, "blank.adf", "mount"])
    leave_background(tried)
    after = run([tried.adf_mount, "--wait", "blank.adf"])
    return fault_of(waited, 0, b"late") or fault_of(mounted, 0, b"late") or fault_of(after) or untrue({"nothing is mounted": not is_mounted})


def waits_for_save(tried: Mount) -> Optional[str]:
    """After `--wait` the image's file has what was written last."""
    for turn in range(10):
        make_in_background(tried, "blank.adf", f"last{turn}")
        ran = run([tried.adf_mount, "--wait", "blank.adf"])
        if ran != (0, b"", b"") or f" last{turn}\n" not in tried.listing("blank.adf"):
            return f"in turn {turn}: {ran}"
    return None


def refused_waits(tried: Mount) -> None:
    """What `--wait` cannot wait for."""
    cases: List[Tuple[str, int, List[str], str]] = [
        ("what is no image", 3, ["1760.adf"], "refused"),
        ("no image at all", 2, ["none.adf"], "No such file"),
        ("a directory", 2, ["mount"], "no regular file"),
        ("no name", 1, [], "usage"),
        ("an image and a directory", 1, ["blank.adf", "mount"], "usage"),
    ]
    for name, status, words, text in cases:
        tried.report.check(f"--wait for {name}", run([tried.adf_mount, "--wait", *words]), status, b"", text)


def in_turn(tried: Mount) -> None:
    """One mount directly after another."""
    tried.blank("blank.adf")
    tried.write("1760.adf", bytes(BLOCK * 1760))
    tried.ends("twenty mounts, each directly after the last", one_after_another)
    tried.ends("a mount, and --wait, wait for a lock", waits_for_lock)
    tried.ends("--wait sees the new bytes", waits_for_save)
    refused_waits(tried)


# ---- names that change while an image is mounted


def owner_stays(tried: Mount) -> Optional[str]:
    """The new file has the owner and the permissions of the old one, and no other bits of its mode."""
    tried.blank("owned.adf")
    user = OTHER if os.geteuid() == 0 else os.getuid()
    os.chown("owned.adf", user, user if os.geteuid() == 0 else -1)
    os.chmod("owned.adf", 0o6751)
    before = os.stat("owned.adf")
    with tried.mounted("owned.adf"):
        os.mkdir("mount/made")
    after = os.stat("owned.adf")
    return untrue({
        "it is another file": after.st_ino != before.st_ino,
        "the owner stays": (after.st_uid, after.st_gid) == (before.st_uid, before.st_gid),
        f"the mode is 751, not {after.st_mode & 0o7777:o}": after.st_mode & 0o7777 == 0o751,
    })  # fmt: skip


def another_in_place(tried: Mount) -> Optional[str]:
    """Another file, or a link, that has the image's name meanwhile is left as it is, and whoever closes a file gets an error."""
    faults = []
    for what in ("file", "link"):
        tried.blank("held.adf")
        tried.write("victim", b"kept")
        with open("victim", "rb"), subprocess_of(tried, "held.adf"):
            os.rename("held.adf", "old.adf")
            if what == "file":
                tried.write("held.adf", b"mine")
            else:
                os.symlink("victim", "held.adf")
            ran = run(["cp", "texts", "mount/file"])
            is_left = tried.content("held.adf") == (b"mine" if what == "file" else b"kept") and os.path.islink("held.adf") == (what == "link")
        faults.append(untrue({f"a {what} stays": is_left, f"with a {what} the copy is refused": ran.status != 0}))
        faults.append(left_beside("held.adf"))
        os.remove("held.adf")
    return "; ".join(it for it in faults if it) or None


def left_beside(image: str) -> Optional[str]:
    """The files beside an image that are still there when the mount has had time for its last save."""
    for _ in range(100):
        left = [it for it in os.listdir(".") if it.startswith(f"{image}.")]
        if not left:
            return None
        time.sleep(0.1)
    return f"{left} is left"


@contextmanager
def subprocess_of(tried: Mount, image: str) -> Iterator[None]:
    """An image that is mounted, whatever becomes of it: its last save may fail. It has time for that save, and is killed only then."""
    try:
        process = tried.start(image)
        yield
        run(["fusermount3", "-u", tried.place])
        process.wait(LONGEST_SAVE)
    finally:
        tried.leave()


def swapped_folder(tried: Mount) -> Optional[str]:
    """The image is saved in its directory, also when that has another name by then and a link has the old one."""
    os.mkdir("folder")
    os.mkdir("elsewhere")
    tried.blank("folder/image.adf")
    shutil.copyfile("folder/image.adf", "elsewhere/image.adf")
    before = tried.content("elsewhere/image.adf")
    with tried.mounted("folder/image.adf"):
        os.rename("folder", "moved")
        os.symlink("elsewhere", "folder")
        os.mkdir("mount/made")
    return untrue({
        "it is saved in its directory": " made\n" in tried.listing("moved/image.adf"),
        "nothing is written elsewhere": tried.content("elsewhere/image.adf") == before and os.listdir("elsewhere") == ["image.adf"],
    })  # fmt: skip


def short_files(tried: Mount) -> Optional[str]:
    """Under a limit on the length of files a save fails, and the mount goes on."""
    tried.blank("short.adf")
    before = tried.content("short.adf")
    tried.before = limited(resource.RLIMIT_FSIZE, 1_000)
    try:
        with subprocess_of(tried, "short.adf"):
            ran = run(["cp", "texts", "mount/file"])
            goes_on = os.listdir("mount") == ["file"]
    finally:
        tried.before = None
    left = [it for it in os.listdir(".") if it.startswith("short.adf.")]
    facts = {"the copy is refused": ran.status != 0, "the mount goes on": goes_on, f"nothing is left, as {left}": not left}
    return untrue({**facts, "the image stays": tried.content("short.adf") == before})


def changing_names(tried: Mount) -> None:
    """Files and directories that others swap."""
    tried.ends("owner and permissions of a new file", owner_stays)
    tried.ends("another file in the place of the image", another_in_place)
    tried.ends("another directory in the place of the image's", swapped_folder)
    tried.ends("a limit on the length of files", short_files)


# ---- images that are accepted, and harmful


def drawn(blank: bytes, names: Sequence[bytes], is_deep: bool) -> bytes:
    """A blank image with an entry for each name: directories that each have the next one in them, or files of the root."""
    drawing = Drawing(blank)
    parent = drawing.root
    for name in names:
        block = drawing.entry(parent, name, DIRECTORY if is_deep else FILE)
        parent = block if is_deep else parent
    return drawing.done()


def limit_mount() -> None:
    """Limits the address space and the stack of this process."""
    resource.setrlimit(resource.RLIMIT_AS, (MOST_SPACE, MOST_SPACE))
    resource.setrlimit(resource.RLIMIT_STACK, (MOST_STACK, MOST_STACK))


def walked(tried: Mount, name: str, image: bytes, tools: Mapping[str, Sequence[str]]) -> None:
    """Mounts an image with little memory, and compares what tools find with the files of `extract`."""
    tried.write("drawn.adf", image)
    tried.done("extract", "--to", "taken", "drawn.adf")
    tried.before = limit_mount
    try:
        with tried.mounted("drawn.adf", "-o", "ro"):
            for tool, words in tools.items():
                os.makedirs("walked", exist_ok=True)
                there, here = run(["sh", "-c", " ".join(words), "sh", "mount"]), run(["sh", "-c", " ".join(words), "sh", "taken"])
                same = there == here and there.status == 0 and there.output
                tried.report.expect(f"{tool} of {name}", bool(same), f"{there} where {here} is expected")
                shutil.rmtree("walked", ignore_errors=True)
            peak = peak_of(tried)
    finally:
        tried.before = None
        # (Python's own call is recursive)
        run(["rm", "-rf", "taken"])
    tried.report.expect(f"{name}: memory", 0 < peak <= MOST_MEMORY, f"{peak} bytes")


def peak_of(tried: Mount) -> int:
    """The most bytes of memory that the mount has had."""
    status = Path(f"/proc/{tried.process.pid if tried.process else 0}/status").read_text()
    found = re.search(r"VmHWM:\s+(\d+) kB", status)
    return int(found[1]) * 1024 if found else 0


FIND = ["cd", '"$1"', "&& find . -print0 | sort -z"]
TAR = ["tar cf -", "--sort=name --mtime=@0 --mode=0 --owner=0 --group=0", '-C "$1" . | sha256sum']
RSYNC = ["rsync -a", '"$1"/ walked/', "&& cd walked && find . -print0 | sort -z"]


def harmful(tried: Mount) -> None:
    """Floppies as deep and as wide as they have blocks, and all names that an entry may have."""
    tried.blank("blank.adf", "ffs")
    blank = tried.content("blank.adf")
    tools = {"find": FIND, "tar": TAR}
    if shutil.which("rsync"):
        tools["rsync"] = RSYNC
    else:
        tried.report.lacks("rsync of harmful images", "rsync")
    every = [b"%c%d" % (it, it) for it in range(1, 256) if it not in b"/:"]
    odd = [b".", b"..", b"...", b"-rf", b"%41", b"\\", b"~", b"$(id)", b"a\nb", b"\x1b[2J", bytes(range(1, 31)), bytes(range(128, 158))]
    walked(tried, "names with every byte", drawn(blank, [*every, *odd], False), tools)
    # (rsync itself follows at most 1,024 levels)
    walked(tried, "directories 1,756 deep", drawn(blank, [b"d"] * 1756, True), {"find": FIND, "tar": TAR})
    wide = [b"f%d" % it for it in range(20_000)]
    walked(tried, "1,756 files in one chain", drawn(blank, [it for it in wide if slot_of(it) == 7][:1756], False), tools)


def fault_numbers() -> Dict[str, int]:
    """The number of each fault in the header, by the fault's name."""
    found = re.findall(r"JIP_FAULT_(\w+) = (\d+)", (TOP / "bindings/c/jiponuwha.h").read_text())
    return {name.title().replace("_", ""): int(number) for name, number in found}


def changed(base: bytes, turn: int) -> bytes:
    """An image with one to four changed bytes in blocks that are not empty. In each second one their checksums are right."""
    chance, image = random.Random(turn), Image(base)
    used = [it for it in range(image.blocks) if any(base[it * BLOCK : (it + 1) * BLOCK])]
    for _ in range(chance.randint(1, 4)):
        block = chance.choice(used)
        image.data[block * BLOCK + chance.randrange(BLOCK)] ^= chance.randint(1, 255)
        if turn % 2 == 1:
            image.settle(block, 0 if block == image.long(image.blocks // 2, 79) else 5)
    return bytes(image.data)


def mounted_as_listed(tried: Mount) -> Optional[str]:
    """What is wrong if an image that `check` accepts is not mounted, or with other entries than `list` has."""
    try:
        with tried.mounted("damaged.adf", "-o", "ro"):
            found = sum(len(below) + len(files) for _, below, files in os.walk("mount"))
    except (OSError, Failed) as fault:
        return str(fault)
    listed = tried.done("list", "damaged.adf").count(b"\n") - 1
    return None if found == listed else f"{found} entries are mounted, and {listed} are listed"


def fault_of_damaged(tried: Mount, told: Ran, numbers: Mapping[str, int]) -> Optional[str]:
    """What is wrong if the mount refuses an image that `check` accepts, or does not refuse one for the fault that `check` tells."""
    if told == (0, b"ok\n", b""):
        return mounted_as_listed(tried)
    words = told.output.decode().split()
    if told.status != 3 or len(words) != 3 or words[0] != "refused":
        return "this is no end of a check"
    text = f": it is refused: fault {numbers[words[1]]}, block {words[2]}\n"
    return fault_of(run([tried.adf_mount, "damaged.adf", "mount"]), 3, b"", text)


def damaged(image: str, expected: Sequence[int], tried: Mount) -> Optional[str]:
    """The mount refuses exactly those images with changed bytes that `check` refuses, and for the same fault.

    How many these are says nothing of the mount, because a change in a block that a deleted file left, or in the data of a file of FFS,
    is harmless. Of the floppy that was used, 1,684 blocks are not empty, and 319 of them are in use, 162 where there is no rsync: with
    wrong checksums alone 39 images of 100 are refused, or 18, and those are all that have a change in a block in use. Of an OFS floppy
    from which nothing was deleted most are refused, and of each other floppy some.
    """
    base, numbers, refused = tried.content(image), fault_numbers(), 0
    for turn in range(100):
        tried.write("damaged.adf", changed(base, turn))
        told = tried.run("check", "damaged.adf")
        fault = fault_of_damaged(tried, told, numbers)
        if fault:
            return f"image {turn}, {told}: {fault}"
        refused += told.status == 3
    return None if refused in expected else f"{refused} images are refused"


def damaged_images(tried: Mount) -> None:
    """A floppy that was used and mostly cleared, and new ones."""
    tried.ends("damaged images are refused as by check, of a floppy that was used", partial(damaged, "ofs.adf", range(1, 100)))
    for kind, expected in (("ofs", range(51, 101)), ("ffs", range(1, 100))):
        tried.blank("new.adf", kind)
        tried.done("add", "new.adf", "tree")
        tried.ends(f"damaged images are refused as by check, of a new floppy of {kind}", partial(damaged, "new.adf", expected))


def one_image(tried: Mount) -> None:
    """When an image is written, and by whom."""
    tried.blank("blank.adf")
    tried.ends("names that no host has", strange_names)
    tried.ends("-o ro writes nothing", read_only)
    damaged_images(tried)
    tried.ends("an image is mounted once", locked)
    tried.ends("when it is saved", saved)
    tried.ends("asked to end", asked_to_end)
    full_host(tried)
    tried.ends("in the background", in_background)


def statuses(tried: Mount) -> None:
    """The exit status when nothing is mounted."""
    for size in (1760, 101_603):
        tried.write(f"{size}.adf", bytes(BLOCK * size))
    for name, status, words in (
        ("what is no image", 3, ["1760.adf", "mount"]),
        ("no image at all", 2, ["none.adf", "mount"]),
        ("what is larger than any image", 3, ["101603.adf", "mount"]),
        ("a wrong command line", 1, ["blank.adf"]),
        ("help", 0, ["--help"]),
    ):
        tried.report.check(name, run([tried.adf_mount, *words]), status, None, "")
    os.remove("101603.adf")


def killed(tried: Mount) -> None:
    """Mounts that are killed during changes."""
    os.mkdir("killed")
    tried.blank("killed/floppy.adf", "ffs")
    words = [tried.adf_mount, str(tried.program), str(tried.top / "killed/floppy.adf"), tried.place, ROUNDS, SEED]
    tried.client(f"killed {ROUNDS} times, seed {SEED}", "kill", *words)


@contextmanager
def held_for_long(tried: Mount) -> Iterator[None]:
    """An image is locked all the time. Meanwhile `--wait` gives up, which the end reports."""
    tried.blank("long.adf")
    with open("long.adf", "rb") as held, tempfile.TemporaryFile() as texts:
        fcntl.flock(held, fcntl.LOCK_EX)
        process = subprocess.Popen([tried.adf_mount, "--wait", "long.adf"], stderr=texts)
        began = time.monotonic()
        try:
            yield
            status = process.wait(LONGEST_WAIT + 5)
            took = time.monotonic() - began
        finally:
            process.kill()
            process.wait()
        texts.seek(0)
        tried.report.check("--wait for an image that stays locked", Ran(status, b"", texts.read()), 2, b"", "it is mounted")
        tried.report.expect("--wait: for a minute", took >= LONGEST_WAIT - 1, f"{took} seconds")


def main(words: List[str]) -> int:
    os.environ["LC_ALL"] = "C.UTF-8"
    # (nothing stays mounted if the test is terminated)
    signal.signal(signal.SIGTERM, lambda *_: sys.exit(1))
    report = Report()
    with Mount(built_program(words), report) as tried:
        os.mkdir(tried.place)
        tried.part(readable)
        try:
            if is_ready(tried, words[1:]):
                make_tree(Path("tree"))
                with held_for_long(tried):
                    for part in (tools, clients, one_image, statuses, in_turn, changing_names, harmful, killed):
                        tried.part(part)
        finally:
            tried.leave()
    return report.end()


if __name__ == "__main__":
    sys.exit(main(sys.argv[1:]))
