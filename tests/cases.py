#!/usr/bin/env python3
"""Runs the cases of the built program. Each case is a directory of text files in tests/cases.

    tests/cases.py [PROGRAM [NAME..]]

Each case runs in a fresh folder. Without a name all cases run.

The files of a case are texts. In each of them `\\xHH` stands for one byte.

`about`   What the case tests. Each case has this file.
`script`, `script2` ..  The scripts of client 1, 2 .. A field `x*600` is a quoted text of 600 x. A line `*A..B LINE ; LINE` repeats its
          lines for each n from A to B. In them `{n}` is n, `{n:04}` is n in four digits, and `{r}` is the number of the last reply
          before this round. The braces may add a number, as in `{r+1}`.
`image`   How to make image.adf. The first line has the arguments of `blank` without the file. Each further line is a row:
          `long BLOCK LONG VALUE`, `byte BLOCK OFFSET VALUE`, `text BLOCK OFFSET "TEXT"` write big-endian longs, bytes and texts,
          and the BLOCK and the LONG of a `long` may each be a range `A-B`;
          `fill BLOCK BYTE` and `zero BLOCK` write a whole block; `copy FROM TO` copies one;
          `sum BLOCK LONG` sets this long so that the sum of the longs of the block is 0;
          `cut BYTES` and `grow BYTES` set the size of the file, and `grow` appends zeros;
          `script` sends the packets of the indented lines that follow, and each of them must succeed;
          `save NAME` writes the image to a file, and `load NAME` continues with the bytes of a file;
          `blank ARGUMENTS` continues with a new blank image.
          Empty lines and lines that begin with `#` are skipped.
`args`    Commands of the program, one per line, quoted as in a shell. Without this file and with an `image`, an `after` or a
          `script2`, the program runs `serve --out after.adf image.adf script ..` and then `check after.adf`, which must print `ok`.
          In that case image.adf is a blank FFS floppy `Work` if there is no `image`.
          Otherwise the program reads `script` from standard input.
`wanted`  The expected output of all commands. A field `+` matches any positive number, `?` any field, and `A|B` A or B.
          `00*599` in a field is the two digits before the star 599 times. A line `*A..B` is as in a script. A last line `status N`
          is the exit status of the last command, which is 0 otherwise. Each other command must exit with 0.
`faults`  Lines that the standard error of the commands must contain.
`after`   Rows that must hold for after.adf after the commands: `long`, `byte` and `text` as above. `same BLOCK`,
          `same BLOCK-BLOCK` and `same all [but BLOCK..]` name blocks that are equal to those of image.adf before the commands.
          `like NAME` names a file with the same bytes. The rows after `file NAME` apply to that file.
`rows`    A table of scripts, used with `about` alone. The program runs once for each line and reads its script from standard
          input. A line is `STATUS|SCRIPT|OUTPUT`, and `~` stands for a line feed.
"""
from __future__ import annotations

import multiprocessing
import os
import re
import shlex
import sys
from functools import partial
from pathlib import Path
from typing import Callable, Dict, List, Optional, Sequence, Tuple, Union

sys.dont_write_bytecode = True

from harness import BLOCK, TOP, Failed, Ran, Report, Room, fault_in, in_memory, program_of

IMAGE = "image.adf"
AFTER = "after.adf"
SCRIPT = re.compile(r"script([2-9]|[1-9][0-9]+)?")
FILES = {"about", "image", "args", "wanted", "faults", "after", "rows"}
ESCAPED = re.compile(rb"\\x([0-9A-Fa-f]{2})")
REPEATED = re.compile(r"\*([0-9]+)\.\.([0-9]+) (.*)")
COUNTED = re.compile(r"\{([nr])([+-][0-9]+)?(?::0([1-9]))?\}")
LONG_TEXT = re.compile(r"(?<= )([!#-~])\*([0-9]+)(?= |$)")
LONG_DIGITS = re.compile(r"([0-9a-f]{2})\*([0-9]+)")
REPLY = re.compile(r"[0-9]+\.([0-9]+) ")
Bytes = Union[bytes, bytearray]


class Wrong(Failed):
    """What is wrong with a case: a difference from the expected result, or a wrong form of the case."""


class Folder(Room):
    """The room in which a case runs. Its texts have one character for each byte, and its files have plain names."""

    def write(self, name: str, data: bytes = b"") -> None:
        super().write(plain(name), data)

    def content(self, name: str) -> bytes:
        if not os.path.isfile(plain(name)):
            raise Wrong(f"there is no file {name}")
        return super().content(name)

    def command(self, words: Sequence[str], script: str = "") -> Ran:
        return self.run(*map(as_word, words), input=script.encode("latin-1"))

    def make(self, words: Sequence[str]) -> str:
        """The output of a command of the set-up, which has to succeed."""
        return text_of(self.done(*map(as_word, words)))


def plain(name: str) -> str:
    """The name of a file in the directory of the case."""
    if not re.fullmatch(r"[\w.-]+", name) or name.startswith("."):
        raise Wrong(f"{name!r} is no name of a file")
    return name


def as_word(text: str) -> str:
    """The argument with the bytes of a text."""
    return os.fsdecode(text.encode("latin-1"))


def text_of(data: bytes) -> str:
    return data.decode("latin-1")


def shown(text: str) -> str:
    """A text for a message, cut off if it is long."""
    line = text.encode("latin-1").decode("utf-8", "backslashreplace").replace("\n", "\\n")
    return repr(line if len(line) <= 160 else line[:150] + " ...")


def read_text(path: Path) -> str:
    """The text of a file of a case, with one character for each byte."""
    return ESCAPED.sub(lambda it: bytes([int(it[1], 16)]), path.read_bytes()).decode("latin-1")


def reply_in_script(line: str, last: int) -> int:
    """The number of the last reply after a line of a script."""
    return last if line == "" or line.startswith("#") else last + 1


def reply_in_wanted(line: str, last: int) -> int:
    """The number of the reply in a line."""
    told = REPLY.match(line)
    return int(told[1]) if told else last


def counted(line: str, n: int, r: int) -> str:
    """A line of a round, with its numbers."""

    def digits(it: re.Match[str]) -> str:
        value = (n if it[1] == "n" else r) + int(it[2] or 0)
        return str(value).zfill(int(it[3] or 0))

    return COUNTED.sub(digits, line)


def unrolled(text: str, reply: Callable[[str, int], int]) -> List[str]:
    """The lines of a text; those of `*A..B` once for each round."""
    lines: List[str] = []
    last = 0
    for line in text.split("\n"):
        repeated = REPEATED.fullmatch(line)
        rounds = range(int(repeated[1]), int(repeated[2]) + 1) if repeated else range(1)
        parts = repeated[3].split(" ; ") if repeated else [line]
        for n in rounds:
            before = last
            for part in parts:
                lines.append(counted(part, n, before) if repeated else part)
                last = reply(lines[-1], last)
    return lines


def lengthened(line: str) -> str:
    """A line in which each `x*600` outside quotes is a quoted text."""
    parts = line.split('"')
    parts[::2] = [LONG_TEXT.sub(lambda it: '"' + it[1] * int(it[2]) + '"', it) for it in parts[::2]]
    return '"'.join(parts)


def script_text(text: str) -> str:
    return "\n".join(lengthened(it) for it in unrolled(text, reply_in_script))


def wanted_lines(text: str) -> List[str]:
    return [LONG_DIGITS.sub(lambda it: it[1] * int(it[2]), it) for it in unrolled(text, reply_in_wanted)]


def number(word: str) -> int:
    try:
        return int(word, 0)
    except ValueError:
        raise Wrong(f"{word!r} is no number") from None


def numbers(words: Sequence[str], count: int) -> List[int]:
    if len(words) != count:
        raise Wrong(f"{count} numbers are wanted where there are {len(words)} fields: {' '.join(words)}")
    return [number(it) for it in words]


def between(word: str) -> range:
    """The numbers from A to B of the word `A-B`, or the single number of a word without a dash."""
    first, _, last = word.partition("-")
    every = range(number(first), number(last or first) + 1)
    if not every:
        raise Wrong(f"{word} names none")
    return every


def longs_of(words: List[str]) -> Tuple[range, range, int]:
    """The blocks, the longs and the value of a row."""
    if len(words) != 3:
        raise Wrong(f"three fields are wanted where there are {len(words)}: {' '.join(words)}")
    return between(words[0]), between(words[1]), number(words[2]) & 0xFFFFFFFF


def name_of(words: Sequence[str]) -> str:
    if len(words) != 1:
        raise Wrong(f"one name is wanted where there are {len(words)} fields: {' '.join(words)}")
    return words[0]


def words_of(row: str) -> List[str]:
    """The words of a row, or the arguments of a command."""
    try:
        return shlex.split(lengthened(row))
    except ValueError as fault:
        raise Wrong(f"{shown(row)}: {fault}") from None


def place(image: Bytes, block: int, offset: int, size: int) -> int:
    """The position of a block's bytes in an image."""
    at = BLOCK * block + offset
    if block < 0 or offset < 0 or offset + size > BLOCK or at + size > len(image):
        raise Wrong(f"block {block} has no {size} bytes from {offset} on")
    return at


def long_at(image: Bytes, block: int, at: int) -> int:
    start = place(image, block, 4 * at, 4)
    return int.from_bytes(image[start : start + 4], "big")


class Drawing:
    """An image, drawn row by row."""

    def __init__(self, room: Folder) -> None:
        self.room = room
        self.image = bytearray(room.content(IMAGE))
        self.rows: Dict[str, Callable[[List[str]], None]] = {
            "long": self.put_long,
            "byte": self.put_byte,
            "text": self.put_text,
            "fill": self.fill,
            "zero": lambda words: self.fill([*words, "0"]),
            "copy": self.copy,
            "sum": self.settle,
            "cut": lambda words: self.resize(numbers(words, 1)[0], shorter=True),
            "grow": lambda words: self.resize(numbers(words, 1)[0], shorter=False),
            "save": lambda words: self.room.write(name_of(words), bytes(self.image)),
            "load": self.load,
            "blank": self.begin,
        }

    def put_long(self, words: List[str]) -> None:
        blocks, longs, value = longs_of(words)
        for block in blocks:
            for at in longs:
                start = place(self.image, block, 4 * at, 4)
                self.image[start : start + 4] = value.to_bytes(4, "big")

    def put_byte(self, words: List[str]) -> None:
        block, offset, value = numbers(words, 3)
        self.image[place(self.image, block, offset, 1)] = value

    def put_text(self, words: List[str]) -> None:
        block, offset = numbers(words[:2], 2)
        text = name_of(words[2:]).encode("latin-1")
        at = place(self.image, block, offset, len(text))
        self.image[at : at + len(text)] = text

    def fill(self, words: List[str]) -> None:
        block, value = numbers(words, 2)
        at = place(self.image, block, 0, BLOCK)
        self.image[at : at + BLOCK] = bytes([value]) * BLOCK

    def copy(self, words: List[str]) -> None:
        source, target = (place(self.image, it, 0, BLOCK) for it in numbers(words, 2))
        self.image[target : target + BLOCK] = self.image[source : source + BLOCK]

    def settle(self, words: List[str]) -> None:
        block, at = numbers(words, 2)
        total = sum(long_at(self.image, block, it) for it in range(BLOCK // 4) if it != at)
        self.put_long([str(block), str(at), str(-total)])

    def resize(self, size: int, shorter: bool) -> None:
        if size < 0 or (size < len(self.image)) != shorter:
            raise Wrong(f"a file of {len(self.image)} bytes does not become {'shorter' if shorter else 'longer'} by {size} bytes")
        self.image = self.image[:size] + bytes(max(0, size - len(self.image)))

    def load(self, words: List[str]) -> None:
        self.image = bytearray(self.room.content(name_of(words)))

    def begin(self, words: List[str]) -> None:
        self.room.make(["blank", *words, IMAGE])
        self.load([IMAGE])

    def put_packets(self, script: str) -> None:
        self.room.write(IMAGE, bytes(self.image))
        self.room.write("packets", script_text(script).encode("latin-1"))
        for line in self.room.make(["serve", "--out", IMAGE, IMAGE, "packets"]).split("\n"):
            if line and line.split(" ")[2:3] != ["0"]:
                raise Wrong(f"image: a packet is refused: {shown(line)}")
        self.load([IMAGE])

    def draw(self, rows: List[str]) -> None:
        at = 0
        while at < len(rows):
            words = words_of(rows[at])
            at += 1
            if words == ["script"]:
                last = at
                while last < len(rows) and rows[last].startswith(" "):
                    last += 1
                self.put_packets("".join(f"{it.lstrip()}\n" for it in rows[at:last]))
                at = last
            elif words and not words[0].startswith("#"):
                row = self.rows.get(words[0])
                if row is None:
                    raise Wrong(f"image: there is no row {words[0]!r}")
                row(words[1:])
        self.room.write(IMAGE, bytes(self.image))


def draw(room: Folder, text: str) -> None:
    """Draws image.adf from the lines of an `image`."""
    lines = text.split("\n")
    room.make(["blank", *words_of(lines[0]), IMAGE])
    Drawing(room).draw(lines[1:])


class Looking:
    """An image, checked row by row."""

    def __init__(self, room: Folder, before: bytes) -> None:
        self.room = room
        self.before = before
        self.name = AFTER
        self.rows: Dict[str, Callable[[List[str]], None]] = {
            "file": self.name_file,
            "long": self.see_long,
            "byte": self.see_byte,
            "text": self.see_text,
            "same": self.see_same,
            "like": self.see_like,
        }

    def image(self) -> bytes:
        return self.room.content(self.name)

    def name_file(self, words: List[str]) -> None:
        self.name = name_of(words)
        self.image()

    def see(self, what: str, wanted: str, found: str) -> None:
        if found != wanted:
            raise Wrong(f"{self.name}, {what}: wanted {wanted}, found {found}")

    def see_long(self, words: List[str]) -> None:
        blocks, longs, value = longs_of(words)
        image = self.image()
        for block in blocks:
            for at in longs:
                found = long_at(image, block, at)
                if found != value:
                    self.see(f"long {at} of block {block}", f"0x{value:08X}", f"0x{found:08X}")

    def see_byte(self, words: List[str]) -> None:
        block, offset, value = numbers(words, 3)
        image = self.image()
        self.see(f"byte {offset} of block {block}", f"{value}", f"{image[place(image, block, offset, 1)]}")

    def see_text(self, words: List[str]) -> None:
        block, offset = numbers(words[:2], 2)
        wanted = name_of(words[2:])
        image = self.image()
        at = place(image, block, offset, len(wanted))
        found = image[at : at + len(wanted)].decode("latin-1")
        self.see(f"the text at {offset} of block {block}", shown(wanted), shown(found))

    def see_same(self, words: List[str]) -> None:
        image = self.image()
        if words[:1] == ["all"] and (len(words) == 1 or words[1] == "but"):
            self.see("the length", f"{len(self.before)}", f"{len(image)}")
            left_out = numbers(words[2:], len(words) - 2) if len(words) > 1 else []
            blocks = [it for it in range(len(image) // BLOCK) if it not in left_out]
        else:
            blocks = list(between(name_of(words)))
        for block in blocks:
            at = place(image, block, 0, BLOCK)
            if image[at : at + BLOCK] != self.before[at : at + BLOCK]:
                raise Wrong(f"{self.name}, block {block}: wanted the bytes of before, found others")

    def see_like(self, words: List[str]) -> None:
        if self.image() != self.room.content(name_of(words)):
            raise Wrong(f"{self.name}: wanted the bytes of {words[0]}, found others")

    def look(self, rows: List[str]) -> None:
        for text in rows:
            words = words_of(text)
            if words and not words[0].startswith("#"):
                row = self.rows.get(words[0])
                if row is None:
                    raise Wrong(f"after: there is no row {words[0]!r}")
                row(words[1:])


def is_field(wanted: str, found: str) -> bool:
    if wanted == "+":
        return re.fullmatch(r"[1-9][0-9]*", found) is not None
    return wanted in ("?", found) or found in wanted.split("|")


def is_line(wanted: str, found: str) -> bool:
    fields, others = wanted.split(" "), found.split(" ")
    return len(fields) == len(others) and all(map(is_field, fields, others))


def difference(wanted: str, found: str) -> str:
    """The difference of two lines. Long lines are shown from shortly before the first difference."""
    equal = len(os.path.commonprefix([wanted, found]))
    start = equal - 20 if equal > 100 else 0
    where = f" from character {start + 1} on" if start else ""
    return f"wanted {shown(wanted[start:])}, found {shown(found[start:])}{where}"


def see_lines(wanted: List[str], found: List[str]) -> None:
    """Compares lines, each with its end."""
    for at, line in enumerate(wanted):
        if at >= len(found):
            raise Wrong(f"line {at + 1}: wanted {shown(line)}, found the end")
        if not is_line(line, found[at]):
            raise Wrong(f"line {at + 1}: {difference(line, found[at])}")
    if len(found) > len(wanted):
        raise Wrong(f"line {len(wanted) + 1}: wanted the end, found {shown(found[len(wanted)])}")


def see_status(wanted: int, ran: Ran) -> None:
    if ran.status != wanted:
        raise Wrong(f"wanted status {wanted}, found {ran.status}; on standard error {shown(text_of(ran.texts))}")


class Case:
    """The texts of a case."""

    def __init__(self, folder: Path) -> None:
        if not folder.is_dir():
            raise Wrong("there is no such folder")
        self.texts = {it.name: read_text(it) for it in sorted(folder.iterdir())}
        self.scripts = sorted((it for it in self.texts if SCRIPT.fullmatch(it)), key=lambda it: int(it[6:] or 1))
        unknown = [it for it in self.texts if it not in FILES and it not in self.scripts]
        if unknown:
            raise Wrong(f"a case has no file {unknown[0]}")
        if self.texts.get("about", "").strip() == "":
            raise Wrong("there is no about")
        if "wanted" not in self.texts and "rows" not in self.texts:
            raise Wrong("there is no wanted")
        if "rows" in self.texts and len(self.texts) > 2:
            raise Wrong("a case with rows has no other file but about")
        if self.scripts != ["script", *(f"script{it}" for it in range(2, len(self.scripts) + 1))][: len(self.scripts)]:
            raise Wrong("the scripts are not numbered")

    def run(self, room: Folder) -> None:
        if "rows" in self.texts:
            run_rows(room, self.texts["rows"])
            return
        commands = self.commands()
        reads = commands == [[]]
        for name in self.scripts:
            room.write(name, script_text(self.texts[name]).encode("latin-1"))
        if "image" in self.texts or not ("args" in self.texts or reads):
            draw(room, self.texts.get("image", "--ffs Work"))
        before = room.content(IMAGE) if os.path.exists(IMAGE) else b""
        script = text_of(room.content("script")) if reads else ""
        self.compare([room.command(words, script) for words in commands], commands)
        if "args" not in self.texts and os.path.exists(AFTER):
            see_accepted(room)
        if "after" in self.texts:
            Looking(room, before).look(self.texts["after"].split("\n"))

    def commands(self) -> List[List[str]]:
        """The arguments of each command: those of `args`, or those of the one that runs the scripts."""
        if "args" in self.texts:
            commands = [words_of(it) for it in self.texts["args"].split("\n") if it.strip() and not it.startswith("#")]
            if not commands:
                raise Wrong("args: there is no command")
            return commands
        if "script" not in self.texts:
            raise Wrong("there is neither args nor a script")
        if {"image", "after", "script2"} & set(self.texts):
            return [["serve", "--out", AFTER, IMAGE, *self.scripts]]
        return [[]]

    def compare(self, ran: List[Ran], commands: List[List[str]]) -> None:
        """Compares the output and the status of the commands with the expected ones."""
        wanted = wanted_lines(self.texts["wanted"])
        status = 0
        ending = re.fullmatch(r"status ([0-9]+)", wanted[-2]) if len(wanted) > 1 and wanted[-1] == "" else None
        if ending:
            status = int(ending[1])
            wanted = [*wanted[:-2], ""]
        see_lines(wanted, text_of(b"".join(it.output for it in ran)).split("\n"))
        for words, each in zip(commands[:-1], ran):
            try:
                see_status(0, each)
            except Wrong as wrong:
                raise Wrong(f"{' '.join(words)}: {wrong}") from None
        see_status(status, ran[-1])
        texts = text_of(b"".join(it.texts for it in ran))
        for line in self.texts.get("faults", "").split("\n"):
            if line not in texts:
                raise Wrong(f"wanted {shown(line)} on standard error, found {shown(texts)}")


def see_accepted(room: Folder) -> None:
    checked = room.run("check", AFTER)
    if checked.output != b"ok\n":
        raise Wrong(f"check {AFTER}: wanted 'ok', found {shown(text_of(checked.output))}")


def run_rows(room: Folder, text: str) -> None:
    """Runs each script of a table."""
    tried = 0
    for row in text.split("\n"):
        if row == "" or row.startswith("#"):
            continue
        parts = row.split("|")
        if len(parts) != 3:
            raise Wrong(f"{shown(row)} has {len(parts)} parts, not three")
        script, wanted = (it.replace("~", "\n") for it in parts[1:])
        ran = room.command([], script_text(script))
        try:
            see_lines(wanted_lines(wanted), text_of(ran.output).split("\n"))
            see_status(number(parts[0]), ran)
        except Wrong as wrong:
            raise Wrong(f"{shown(row)}: {wrong}") from None
        tried += 1
    if tried == 0:
        raise Wrong("there is no row")


def fault_of(program: Path, folder: Path) -> Optional[str]:
    """What is wrong with the case in a directory, or None."""

    def run() -> None:
        case = Case(folder)
        with Folder(program, inside=in_memory()) as room:
            case.run(room)

    return fault_in(run)


def main(words: List[str]) -> int:
    program, report = program_of(words[:1]), Report()
    top = TOP / "tests" / "cases"
    names = words[1:] or sorted(it.name for it in top.iterdir())
    with multiprocessing.Pool() as pool:
        faults = pool.imap(partial(fault_of, program), [top / it for it in names])
        for name, fault in zip(names, faults):
            report.hold(name, fault)
    return report.end()


if __name__ == "__main__":
    sys.exit(main(sys.argv[1:]))
