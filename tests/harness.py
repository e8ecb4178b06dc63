"""Shared code of the tests in Python: the tested program, a temporary directory for it, and the report of each check.

A test prints a line for each check, `ok    NAME` or `FAIL  NAME: FAULT`, reports what it skips, and ends with `N passed, M
failed`. Its status is 1 if a check failed or none passed. Its first argument is the program to test; the default is that of
this repository. A fault is a text that describes the error, or None.
"""
from __future__ import annotations

import fcntl
import os
import pty
import re
import resource
import shutil
import signal
import struct
import subprocess
import sys
import tempfile
import time
from contextlib import suppress
from functools import partial
from pathlib import Path
from types import TracebackType
from typing import IO, Callable, Dict, Iterator, List, Mapping, NamedTuple, NoReturn, Optional, Sequence, Set, Tuple, Type, TypeVar, Union

TOP = Path(__file__).resolve().parent.parent
BLOCK = 512
# How long a run may take, in seconds.
LONGEST = 300
# The same time stamp for all commands that record one.
MOMENT = ["--days", "9000", "--minutes", "61", "--ticks", "7"]
AnyRoom = TypeVar("AnyRoom", bound="Room")
# A function to run in the process of a command before it, and variables to add to its environment.
Before = Optional[Callable[[], None]]
Variables = Optional[Mapping[str, str]]


# The last line of a report.
ENDS = re.compile(r"(\d+) passed, (\d+) failed")


class Failed(Exception):
    """A command that has to succeed fails."""


class Ran(NamedTuple):
    """How a run ended: its status, its output, and its messages on standard error."""

    status: int
    output: bytes
    texts: bytes

    def __str__(self) -> str:
        return f"status {self.status}, printed {self.output[-300:]!r}, on standard error {self.texts[-300:]!r}"


def fault_of(ran: Ran, status: int = 0, output: Optional[bytes] = b"", *parts: str) -> Optional[str]:
    """What is wrong with a run: another status or output than expected, or messages without one of these parts. Without
    parts there may be no messages."""
    if ran.status != status:
        return f"status {ran.status} where {status} is expected; on standard error {ran.texts[:300]!r}"
    if output is not None and ran.output != output:
        return f"printed {ran.output[:300]!r} where {output[:300]!r} is expected"
    if not parts and ran.texts:
        return f"{ran.texts[:300]!r} on standard error"
    lacking = [it for it in parts if it.encode() not in ran.texts]
    return f"{ran.texts[:300]!r} on standard error, without {lacking[0]!r}" if lacking else None


def fault_in(part: Callable[[], Optional[str]]) -> Optional[str]:
    """What is wrong with a part that must run to its end: the fault that it returns, or the error that ended it."""
    try:
        return part()
    except Failed as failed:
        return str(failed)
    except Exception as fault:
        return f"it was cut short: {fault!r}"


class Report:
    """Reports each check, and counts what passed and what failed."""

    def __init__(self) -> None:
        self.passed = self.failed = 0

    def hold(self, name: str, fault: Optional[str]) -> None:
        if fault is None:
            self.passed += 1
            print(f"ok    {name}", flush=True)
        else:
            self.failed += 1
            print(f"FAIL  {name}: {fault}", flush=True)

    def expect(self, name: str, holds: bool, said: object = "it does not hold") -> None:
        """Something has to hold. If it does not, this is the message."""
        self.hold(name, None if holds else str(said))

    def same(self, name: str, found: object, wanted: object) -> None:
        self.hold(name, None if found == wanted else f"{str(found)[:300]} where {str(wanted)[:300]} is expected")

    def check(self, name: str, ran: Ran, status: int = 0, output: Optional[bytes] = b"", *parts: str) -> None:
        """A run has the expected result, as in `fault_of`."""
        self.hold(name, fault_of(ran, status, output, *parts))

    def succeeds(self, name: str, command: Sequence[str], before: Before = None, env: Variables = None) -> None:
        """A command of the machine succeeds, without a time limit: its status is 0, and standard error is empty."""
        ran = run(command, before=before, env=env, longest=None)
        self.expect(name, ran.status == 0 and not ran.texts, ran)

    def ends(self, name: str, part: Callable[[], Optional[str]]) -> None:
        """A part that is one check: it runs to its end, and returns no fault."""
        self.hold(name, fault_in(part))

    def skip(self, name: str, why: str) -> None:
        print(f"skip  {name}: {why}", flush=True)

    def lacks(self, name: str, what: str) -> None:
        """Skips a check because the machine has no such tool."""
        self.skip(name, f"there is no {what}")

    def take_over(self, name: str, said: str) -> None:
        """Prints the checks that another process reported, and adds them up. If it did not come to its end, that is one more failed
        check with this name."""
        lines = said.splitlines()
        found = ENDS.fullmatch(lines[-1]) if lines else None
        for it in lines[:-1] if found else lines:
            print(it)
        sys.stdout.flush()
        if found:
            self.passed += int(found[1])
            self.failed += int(found[2])
        else:
            self.hold(name, "its process did not come to its end")

    def end(self) -> int:
        """Prints the last line. The status of the whole is 1 if a check failed or none passed."""
        print(f"{self.passed} passed, {self.failed} failed", flush=True)
        return 0 if self.passed and not self.failed else 1


def run(
    command: Sequence[str], input: bytes = b"", before: Before = None, env: Variables = None, longest: Optional[float] = LONGEST
) -> Ran:
    """Runs a command. `before` runs in its process first, and `env` is added to its environment. A missing command has
    the status 127, as in a shell."""
    try:
        ran = subprocess.run(
            command,
            input=input or None,
            stdin=None if input else subprocess.DEVNULL,
            capture_output=True,
            preexec_fn=before,
            env={**os.environ, **(env or {})},
            timeout=longest,
        )
    except OSError as fault:
        return Ran(127, b"", str(fault).encode())
    return Ran(ran.returncode, ran.stdout, ran.stderr)


def done(command: Sequence[str], env: Variables = None) -> bytes:
    """The output of a command, which has to end with status 0."""
    ran = run(command, env=env)
    if ran.status != 0:
        raise Failed(f"{' '.join(command)}: {ran}")
    return ran.output


def wait_until_free(image: str) -> None:
    """Waits until no process has locked the image. A mount has it locked until the image is saved."""
    with open(image, "rb") as file:
        fcntl.flock(file, fcntl.LOCK_EX)


class Room:
    """A temporary directory with the program to test in it, and the report. Within `with` it is the current directory;
    then it is removed.

    Names of files are those of the current directory.
    """

    def __init__(self, program: Path, report: Optional[Report] = None, inside: Optional[str] = None) -> None:
        self.program, self.report = program, report or Report()
        self.top = Path(tempfile.mkdtemp(dir=inside)).resolve()
        self.outside = os.getcwd()

    def __enter__(self: AnyRoom) -> AnyRoom:
        os.chdir(self.top)
        return self

    def __exit__(self, kind: Optional[Type[BaseException]], fault: Optional[BaseException], trace: Optional[TracebackType]) -> None:
        os.chdir(self.outside)
        shutil.rmtree(self.top, ignore_errors=True)

    def run(self, *words: str, input: bytes = b"", front: Sequence[str] = (), before: Before = None, env: Variables = None) -> Ran:
        """Runs the program with these arguments, after a command `front` that runs it."""
        return run([*front, str(self.program), *words], input, before, env)

    def on_terminal(self, standard: int, *words: str, env: Variables = None) -> Tuple[Ran, bytes]:
        """Runs the program with these arguments. Its standard output (1) or standard error (2) is a terminal. Returns also what the
        terminal got."""
        ours, theirs = pty.openpty()
        ran = self.run(*words, before=redirected(theirs, standard), env=env)
        os.close(theirs)
        text = b""
        # (the read after the last byte fails)
        with suppress(OSError):
            while more := os.read(ours, 65536):
                text += more
        os.close(ours)
        return ran, text

    def succeeds(self, name: str, *words: str, output: Optional[bytes] = b"") -> None:
        """The program succeeds with these arguments: it prints this output, and nothing on standard error."""
        self.report.check(name, self.run(*words), 0, output)

    def part(self: AnyRoom, part: Callable[[AnyRoom], None]) -> None:
        """Runs some of the checks. A part that does not run to its end is a failed check with the part's name."""
        fault = fault_in(partial(part, self))
        if fault:
            self.report.hold(part.__name__.replace("_", " "), fault)

    def done(self, *words: str) -> bytes:
        """The output of the program with these arguments, which have to succeed."""
        return done([str(self.program), *words])

    def write(self, name: str, data: bytes = b"") -> None:
        Path(name).write_bytes(data)

    def content(self, name: str) -> bytes:
        return Path(name).read_bytes()


def try_all(words: Sequence[str], kind: Type[AnyRoom], *parts: Callable[[AnyRoom], None]) -> int:
    """Tests a program, as `program_of` finds it, with these parts in one room of that kind. Returns the status of the
    test."""
    report = Report()
    with kind(program_of(words), report) as tried:
        for it in parts:
            tried.part(it)
    return report.end()


# ---- tasks side by side


def processors() -> int:
    """The number of processors that this process may use."""
    return len(os.sched_getaffinity(0))


class Ended(NamedTuple):
    """A task that has ended: its name, and the seconds that it took by the clock and of all processors."""

    name: str
    seconds: float
    processor: float


# Some of the checks: their name, the kind of the room for them, and the function that makes them there.
Task = Tuple[str, Type[AnyRoom], Callable[[AnyRoom], None]]


def try_task(program: Path, name: str, kind: Type[AnyRoom], part: Callable[[AnyRoom], None], said: IO[str]) -> NoReturn:
    """Runs a task in a room of its own, writes its report to a file, and ends this process."""
    try:
        os.dup2(said.fileno(), 1)
        report = Report()

        def in_room() -> None:
            with kind(program, report) as room:
                part(room)

        fault = fault_in(in_room)
        if fault:
            report.hold(name, fault)
        report.end()
    finally:
        os._exit(0)


def try_side_by_side(report: Report, program: Path, tasks: Sequence[Task[AnyRoom]], most: int) -> List[Ended]:
    """Runs tasks side by side, at most so many at a time, each in a process and in a room of its own. Their reports are printed in
    the order of the tasks. Returns how long each took. If this process is ended, so are they."""
    said = [tempfile.TemporaryFile("w+") for _ in tasks]
    running: Dict[int, Tuple[int, float]] = {}
    ended: Dict[int, Ended] = {}
    begun = told = 0
    try:
        while told < len(tasks):
            while begun < len(tasks) and len(running) < most:
                sys.stdout.flush()
                process = os.fork()
                if process == 0:
                    try_task(program, *tasks[begun], said[begun])
                running[process] = begun, time.monotonic()
                begun += 1
            process, _, used = os.wait4(-1, 0)
            at, began = running.pop(process)
            ended[at] = Ended(tasks[at][0], time.monotonic() - began, used.ru_utime + used.ru_stime)
            while told in ended:
                said[told].seek(0)
                report.take_over(tasks[told][0], said[told].read())
                told += 1
    finally:
        for process in running:
            os.kill(process, signal.SIGTERM)
    return list(ended.values())


def in_memory(least: int = 0) -> Optional[str]:
    """A directory in memory for a room, if there is one with so many bytes left from which programs run: the program flushes each
    image to the disk, which may be slow."""
    place = "/dev/shm"
    if "TMPDIR" in os.environ or not os.access(place, os.W_OK):
        return None
    found = os.statvfs(place)
    is_good = found.f_bavail * found.f_frsize >= least and not found.f_flag & os.ST_NOEXEC
    return place if is_good else None


def built_program(words: Sequence[str]) -> Path:
    """The program that the first command line argument names, or that of this repository. It may not be built."""
    return Path(words[0] if words else TOP / "crates/adf_serve/out/adf_serve").absolute()


def program_of(words: Sequence[str]) -> Path:
    """The program that the first command line argument names, or that of this repository, which is built if necessary."""
    if words:
        program = Path(words[0]).absolute()
    else:
        # (which reports by itself what is wrong)
        named = subprocess.run([str(TOP / "tools" / "program")], stdout=subprocess.PIPE)
        if named.returncode != 0:
            sys.exit(2)
        program = Path(os.fsdecode(named.stdout.strip()))
    if not os.access(program, os.X_OK) or program.is_dir():
        print(f"there is no program {program}", file=sys.stderr)
        sys.exit(2)
    return program


# A long, and the longs of a block.
LONG = struct.Struct(">I")
LONGS = struct.Struct(f">{BLOCK // 4}I")
# The numbers of the disk: primary and secondary types of blocks, the slots of a directory and the pointers of a list, the bits of a
# bitmap block, and the bytes of a file in an OFS data block.
HEADER, DATA, LIST = 2, 8, 16
ROOT, DIRECTORY, FILE = 1, 2, 2**32 - 3
SLOTS = POINTERS = 72
PAGE_BITS, OFS_ROOM = 4064, 488


class Image:
    """The bytes of an image, with its longs. `ofs` says whether it is an OFS disk, and `room` how many bytes of a file a data block
    holds."""

    def __init__(self, data: Union[bytes, bytearray]) -> None:
        self.data = bytearray(data)
        self.blocks = len(data) // BLOCK
        self.root = (self.blocks + 1) // 2
        self.ofs = self.data[3:4] == b"\0"
        self.room = OFS_ROOM if self.ofs else BLOCK

    def long(self, block: int, at: int) -> int:
        found: int = LONG.unpack_from(self.data, BLOCK * block + 4 * at)[0]
        return found

    def longs(self, block: int) -> Tuple[int, ...]:
        """All longs of a block."""
        return LONGS.unpack_from(self.data, BLOCK * block)

    def put(self, block: int, at: int, value: int) -> None:
        LONG.pack_into(self.data, BLOCK * block + 4 * at, value % 2**32)

    def put_all(self, block: int, at: int, values: Sequence[int]) -> None:
        """Sets longs one after another."""
        struct.pack_into(f">{len(values)}I", self.data, BLOCK * block + 4 * at, *values)

    def settle(self, block: int, at: int = 5) -> None:
        """Sets the checksum of the block: all its longs add up to 0."""
        self.put(block, at, self.long(block, at) - self.sum(block))

    def sum(self, block: int) -> int:
        return sum(self.longs(block)) % 2**32

    def is_free(self, block: int) -> bool:
        """Whether the bitmap marks a block as free."""
        page, bit = divmod(block - 2, PAGE_BITS)
        return bool(self.long(self.long(self.root, 79 + page), 1 + bit // 32) >> bit % 32 & 1)

    def keys(self, directory: int) -> Iterator[int]:
        """The entries of a directory, in the order of its hash chains."""
        for key in self.longs(directory)[6 : 6 + SLOTS]:
            while key:
                yield key
                key = self.long(key, 124)

    def names_of(self, key: int) -> List[bytes]:
        """The names on the path from the root to an entry."""
        names: List[bytes] = []
        while key != self.root:
            names.insert(0, self.text(key, 432))
            key = self.long(key, 125)
        return names

    def text(self, block: int, offset: int) -> bytes:
        """The bytes after their number, as a name or a comment is stored in a block."""
        start = BLOCK * block + offset + 1
        return bytes(self.data[start : start + self.data[start - 1]])


def upper(name: bytes) -> bytes:
    """A name in upper case; only ASCII letters change."""
    return name.upper()


def slot_of(name: bytes) -> int:
    """The hash slot of a name."""
    value = len(name)
    for it in upper(name):
        value = (13 * value + it) % 2048
    return value % SLOTS


def boot_sum(blocks: bytes) -> bytes:
    """The checksum of two boot blocks: the complement of the sum of their longs, with each carry added again and without the
    checksum itself."""
    total = sum(int.from_bytes(blocks[it : it + 4], "big") for it in range(0, 2 * BLOCK, 4) if it != 4)
    while total >> 32:
        total = (total & 0xFFFFFFFF) + (total >> 32)
    return (total ^ 0xFFFFFFFF).to_bytes(4, "big")


def escaped(text: bytes, marks: bytes) -> str:
    """A text for the host: each byte as its letter; control characters and these marks as escapes."""
    return "".join(f"%{it:02X}" if it < 0x20 or 0x7F <= it <= 0x9F or it in marks else chr(it) for it in text)


def host_name(name: bytes) -> str:
    """The name of an entry as that of a file of the host."""
    shown = escaped(name, b"%\\")
    return "%2E" + shown[1:] if name in (b".", b"..") else shown


def ranges_of(blocks: Set[int]) -> bytes:
    """Numbers as ranges: each begins at a number whose predecessor is missing, and ends before the next missing one."""
    lines = []
    for first in sorted(it for it in blocks if it - 1 not in blocks):
        last = next(it for it in range(first, first + len(blocks)) if it + 1 not in blocks)
        lines.append(f"{first}\n" if first == last else f"{first} to {last}\n")
    return "".join(lines).encode()


def redirected(descriptor: int, standard: int) -> Callable[[], None]:
    """For `before` of a run: this descriptor becomes standard input (0), standard output (1) or standard error (2)."""

    def redirect() -> None:
        os.dup2(descriptor, standard)

    return redirect


def limited(what: int, most: int) -> Callable[[], None]:
    """For `before` of a run: the host limits a resource to this, where `what` is one of resource.RLIMIT_*. Signals are as a
    shell leaves them: a write past RLIMIT_FSIZE ends the process."""
    return partial(resource.setrlimit, what, (most, most))


# ---- calls of the host, by strace


class Call(NamedTuple):
    """A call of the host: its name, its number among those of this name in its process, its arguments, and its
    result."""

    name: str
    number: int
    about: str
    answer: str


CALL = re.compile(r"(\d+) +(\w+)\((.*)\) += (-?\d+|\?)")
# The two lines of a call during which another thread did something that is traced.
BEGUN = re.compile(r"(\d+) +(\w+\(.*) <unfinished \.\.\.>")
RESUMED = re.compile(r"(\d+) +<\.\.\. \w+ resumed>(.*)")


def has_strace(fault: str) -> bool:
    """Whether `strace` is installed, and can inject such a fault into the calls of a program."""
    if not shutil.which("strace"):
        return False
    words = [*injected(f"fsync:{fault}"), "true"]
    return subprocess.run(words, stdout=subprocess.DEVNULL, stderr=subprocess.DEVNULL).returncode == 0


def injected(*faults: str) -> List[str]:
    """A command that runs another one and injects these faults: each is `CALLS:FAULT`, in the form of strace."""
    options = [it for fault in faults for it in ("-e", f"inject={fault}")]
    names = ",".join(it.partition(":")[0] for it in faults)
    return ["strace", "-f", "-qq", "-o", "/dev/null", "-e", f"trace={names}", *options]


def joined(lines: Sequence[str]) -> Iterator[str]:
    """The lines of a trace, each call in one of them."""
    begun: Dict[str, str] = {}
    for line in lines:
        start, end = BEGUN.fullmatch(line), RESUMED.fullmatch(line)
        if start:
            begun[start[1]] = start[2]
        elif end:
            yield f"{end[1]} {begun.pop(end[1], '')}{end[2]}"
        else:
            yield line


def traced(room: Room, words: Sequence[str], names: Sequence[str]) -> List[Call]:
    """The calls with these names, as far as the host has them, in a run without faults."""
    room.run(*words, front=["strace", "-f", "-y", "-s", "0", "-o", "trace", "-e", "trace=" + ",".join(f"?{it}" for it in names)])
    lines = room.content("trace").decode(errors="replace").splitlines()
    os.remove("trace")
    found = [CALL.match(line) for line in joined(lines)]
    counts: Dict[Tuple[str, str], int] = {}
    calls = []
    for process, name, about, answer in (it.groups() for it in found if it):
        counts[process, name] = counts.get((process, name), 0) + 1
        calls.append(Call(name, counts[process, name], about, answer))
    return calls
