#!/usr/bin/env python3
"""Runs each command of the built program on real files, and compares its output, its messages and its exit status with the
expected ones. tests/cases tests scripts on standard input.

    tests/commands.py [PROGRAM]
"""
from __future__ import annotations

import datetime
import errno
import fcntl
import json
import os
import pty
import re
import resource
import shlex
import shutil
import sys
import time
from functools import partial
from pathlib import Path
from typing import Callable, Dict, Iterable, List, NamedTuple, Optional, Sequence, Set, Tuple, Union

sys.dont_write_bytecode = True
sys.path.insert(0, str(Path(__file__).resolve().parent.parent / "tools"))

from command_table import commands, headings
from disk_model import NO_SUMS
from harmful import Drawing
from harness import BLOCK, FILE, TOP, Failed, Image, Ran, Room, Variables, boot_sum, fault_of, redirected, run, try_all

COMMANDS = "blank info show map where check list print extract undelete add mkdir delete rename protect date comment relabel validate boot serve".split()
# The commands for an image other than `info`, `check`, `list` and `serve`, with arguments.
ON_IMAGES = [
    *("print IMAGE x", "extract IMAGE", "add IMAGE x", "mkdir IMAGE x", "delete IMAGE x", "rename IMAGE x y"),
    *("protect IMAGE x rwed", "date IMAGE x now", "comment IMAGE x y", "relabel IMAGE x", "boot IMAGE"),
    *("boot --clear IMAGE", "boot --install IMAGE", "info --json IMAGE", "where --path x --json IMAGE"),
]
# The commands that read the two boot blocks of any file.
ON_BOOT_BLOCKS = ["boot --show IMAGE", "boot --save none.bin IMAGE"]
# The command that prints more of a refused image than that it is refused.
MAPS = ["map IMAGE", "map --tracks IMAGE", "map --json IMAGE"]
AT = "--days 1 --minutes 0 --ticks 0"
# An entry of `list`, from its date on.
MADE = "     dir ---rwed 1978-01-02 00:00:00.00 "
WRITTEN = "1.1 -1 0\n1.2 1 0\n1.3 -1 0\n"
UNWRITTEN = "standard output cannot be written"
# How long a run with growths refused may take, in seconds.
LONGEST_OF_GROWTHS = 3600
HELD = "is locked by another command"
# What is printed of a file whose length is no number of blocks.
NOT_BLOCKS = "refused NotWholeBlocks 0\n"
WHY_NOT_BLOCKS = " bytes are no whole number of blocks: cut short, or not an ADF file\n"


class Row(NamedTuple):
    """A run of the program, and the expected result."""

    name: str
    words: List[str]
    status: int
    output: bytes
    parts: Tuple[str, ...]


def row(name: str, words: Union[str, Sequence[str]], status: int = 0, output: Union[str, bytes] = b"", *parts: str) -> Row:
    """A row whose arguments may be one text, as in a shell."""
    separate = shlex.split(words) if isinstance(words, str) else list(words)
    return Row(name, separate, status, output.encode() if isinstance(output, str) else output, parts)


def wrong(name: str, words: Union[str, Sequence[str]], *parts: str) -> Row:
    """A row with wrong arguments: the messages contain these parts."""
    return row(name, words, 1, b"", *parts)


def lacking(name: str, words: Union[str, Sequence[str]], *parts: str) -> Row:
    """A row with a file that cannot be used: the messages contain these parts."""
    return row(name, words, 2, b"", *parts)


class Commands(Room):
    """The room for the commands."""

    def rows(self, *rows: Row) -> None:
        for it in rows:
            self.report.check(it.name, self.run(*it.words), it.status, it.output, *it.parts)

    def stays(self, name: str, file: str, before: bytes) -> None:
        self.report.expect(name, self.content(file) == before, f"{file} has other bytes")

    def absent(self, name: str, file: str) -> None:
        self.report.expect(name, not os.path.exists(file), f"there is a file {file}")


def drawn(blank: bytes, longs: str, sums: str = "") -> bytes:
    """An image with each long `BLOCK.LONG=VALUE` written, then each checksum `BLOCK.LONG` of `sums` set: all longs of
    its block add up to 0."""
    image = Image(blank)
    for it in longs.split():
        place, _, value = it.partition("=")
        block, at = place.split(".")
        image.put(int(block), int(at), int(value, 0))
    for it in sums.split():
        block, at = it.split(".")
        image.settle(int(block), int(at))
    return bytes(image.data)


def poked(blank: bytes, block: int, long: int, written: bytes) -> bytes:
    """An image with these bytes written from this long."""
    at = BLOCK * block + 4 * long
    return blank[:at] + written + blank[at + len(written) :]


# ---- Blank images ----


def blank_images(tried: Commands) -> None:
    """Blank images, and the reports on them. The other parts use ofs.adf and ffs.adf."""
    tried.rows(
        row("blank", "blank Work ofs.adf"),
        row("check of blank", "check ofs.adf", 0, "ok\n"),
        row("info of blank", "info ofs.adf", 0, "-1 0 82 1758 2 488 444f5300\nboot no\n"),
        row("list of blank", "list ofs.adf", 0, "Volume Work\n"),
        row("blank --ffs", "blank --ffs Work ffs.adf"),
        row("info of blank --ffs", "info ffs.adf", 0, "-1 0 82 1758 2 512 444f5301\nboot no\n"),
        row("blank --hd", "blank --hd Work hd.adf"),
        row("info of blank --hd", "info hd.adf", 0, "-1 0 82 3518 2 488 444f5300\nboot no\n"),
        row("blank --blocks 16", "blank --blocks 16 Work small.adf"),
        row("info of blank --blocks 16", "info small.adf", 0, "-1 0 82 14 2 488 444f5300\nboot no\n"),
        row("blank --blocks 101602", "blank --ffs --blocks 101602 Work large.adf"),
        row("info of blank --blocks 101602", "info large.adf", 0, "-1 0 82 101600 26 512 444f5301\nboot no\n"),
        row("blank over an image", "blank --ffs --days 1 --minutes 2 --ticks 3 Other hd.adf"),
        row("list of the image written over", "list hd.adf", 0, "Volume Other\n"),
        row("blank of 4,067 blocks", "blank --blocks 4067 Work pages.adf"),
        row("info of 4,067 blocks", "info pages.adf", 0, "-1 0 82 4065 3 488 444f5300\nboot no\n"),
    )
    tried.report.same("blank: 901,120 bytes", len(tried.content("ofs.adf")), 901120)
    os.remove("large.adf")


def moments(tried: Commands) -> None:
    """The dates of a blank image are at the longs 105, 118 and 121 of its root, which is block 8 of 16."""
    tried.rows(row("blank with a moment", "blank --blocks 16 --days 1 --minutes 2 --ticks 3 Work moment.adf"))
    image = Image(tried.content("moment.adf"))
    for long in (105, 118, 121):
        tried.report.same(f"the moment at long {long}", [image.long(8, long + it) for it in range(3)], [1, 2, 3])


# Dates as people write them, with their days since 1 January 1978, minutes and ticks by the host's calendar.
WRITTEN_DATES = [
    *("1978-01-01", "1990-01-01", "2000-02-29", "1985-07-23 00:00", "1985-07-23 23:59", "1992-12-31 12:30:15"),
    *("1992-12-31 23:59:59.98", "1990-01-01 12:00:00.02", "9999-12-31 00:00:00.00"),
]
# Texts that are no dates, and days that are none or come before the first.
NO_DATES = [
    *("", "Now", "NOW", "now ", "today", "1990", "1990-01", "90-01-01", "1990-1-1", "01.01.1990", "1990-13-01", "1990-02-29"),
    *("1977-12-31", "1990-01-01T12:00", "1990-01-01 12", "1990-01-01 24:00", "1990-01-01 12:60", "1990-01-01 12:00:60", " 1990-01-01"),
    *("1990-01-01 12:00:00.01", "1990-01-01 12:00:00.5", "1990-01-01 12:00:00.000", "1990-01-01  12:00", "1990-01-01 ", "raw 1 2", "12:00"),
]


def longs_of(when: str) -> List[int]:
    """The three longs of a date that is written out."""
    day, _, time = when.partition(" ")
    parts = [int(it) for it in re.split("[:.]", time)] if time else []
    hour, minute, second, hundredth = [*parts, 0, 0, 0, 0][:4]
    days = (datetime.date(*map(int, day.split("-"))) - datetime.date(1978, 1, 1)).days
    return [days, 60 * hour + minute, 50 * second + hundredth // 2]


def written_moments(tried: Commands) -> None:
    """The option --date, by the longs of the root, which is block 8 of 16; and `now` by the host's clock."""
    for when in WRITTEN_DATES:
        tried.rows(row(f"blank --date '{when}'", ["blank", "--blocks", "16", "--date", when, "Work", "moment.adf"]))
        image = Image(tried.content("moment.adf"))
        for long in (105, 118, 121):
            tried.report.same(f"'{when}' at long {long}", [image.long(8, long + it) for it in range(3)], longs_of(when))
        tried.rows(row(f"mkdir --date '{when}'", ["mkdir", "--date", when, "moment.adf", "d"]))
        image = Image(tried.content("moment.adf"))
        tried.report.same(f"'{when}' of a directory", date_of(image, directory_of(image)), longs_of(when))
    tried.rows(row("blank --date raw", ["blank", "--blocks", "16", "--date", "raw 7 1440 3000", "Work", "moment.adf"]))
    tried.report.same("a date outside the calendar", date_of(Image(tried.content("moment.adf")), 8), [7, 1440, 3000])
    now_is_the_clock(tried, ["blank", "--blocks", "16", "--date", "now", "Work", "moment.adf"], lambda image: 8)
    tried.write("makes-d", b'mkdir 0 "d"\n')
    serve = ["serve", "--date", "now", "--out", "moment.adf", "moment.adf", "makes-d"]
    now_is_the_clock(tried, serve, directory_of)
    tried.rows(row("delete of the directory", "delete moment.adf d"))
    for words in (["mkdir", "--date", "now", "moment.adf", "d"], ["date", "moment.adf", "d", "now"]):
        now_is_the_clock(tried, words, directory_of)


def now_is_the_clock(tried: Commands, words: List[str], block_of: Callable[[Image], int]) -> None:
    """A command with the date `now` writes the host's time stamp to this block."""
    before = clock()
    ran = tried.run(*words)
    tried.report.expect(f"{words[0]} with the date now is done", ran.status == 0, ran)
    image = Image(tried.content("moment.adf"))
    days, minutes, ticks = date_of(image, block_of(image))
    now = 3000 * (1440 * days + minutes) + ticks
    tried.report.expect(f"{words[0]}: now is the clock's", before <= now <= clock(), (days, minutes, ticks))


def date_of(image: Image, block: int) -> List[int]:
    return [image.long(block, 105 + it) for it in range(3)]


def directory_of(image: Image) -> int:
    """The block of the only directory in a volume of 16 blocks."""
    return next(it for it in range(2, 16) if image.long(it, 127) == 2)


def clock() -> int:
    """The host's clock in ticks of 1/50 second since 1 January 1978."""
    return (time.time_ns() // 1_000_000 - 252_460_800_000) // 20


def wrong_dates(tried: Commands) -> None:
    """A wrong date is refused before any work: the image is none, or not there."""
    for when in NO_DATES:
        tried.rows(
            wrong(f"date '{when}'", ["date", "none.adf", "b", when], f"'{when}' for '<WHEN>'", "now", "YYYY-MM-DD"),
            wrong(f"mkdir --date '{when}'", ["mkdir", f"--date={when}", "none.adf", "b"], f"'{when}' for '--date <WHEN>'", "now"),
            wrong(f"blank --date '{when}'", ["blank", f"--date={when}", "Work", "a"], f"'{when}' for '--date <WHEN>'", "YYYY-MM-DD"),
        )
    for option in ("days", "minutes", "ticks"):
        for command in ("blank {} Work a", "serve {} a b", "mkdir {} none.adf b", "date {} none.adf b now", "boot {} none.adf"):
            words = command.format(f"--date 1990-01-01 --{option} 1")
            tried.rows(wrong(f"both: {words}", words, "--date", f"--{option}", "Usage"))
    tried.rows(
        wrong("boot with a date that is none", "boot --date x none.adf", "'x' for '--date"),
        wrong("date twice", "mkdir --date 1990-01-01 --date 1990-01-02 none.adf b", "--date", "Usage"),
    )
    tried.absent("wrong dates write nothing", "a")


# ---- Wrong arguments: the message says which one is wrong, and what is expected ----


def wrong_words(tried: Commands) -> None:
    tried.rows(
        wrong("a wrong command", "bank", "no command 'bank'", "--help"),
        wrong("an option in front of a command", "--json show a", "no command '--json'", "--help"),
        wrong("an argument that is not UTF-8", ["check", "a\udcffb.adf"], "argument 2, 'a", "is not UTF-8"),
        wrong("help of no command", "help", "Usage", "COMMAND"),
        wrong("help of serve by words", "help serve", "SCRIPT"),
        wrong("help", "--help", "Usage", *COMMANDS),
        *(wrong(f"help of {it}", [it, "--help"], f"Usage: adf_serve {it}", f"  adf_serve {it} ") for it in COMMANDS),
        wrong("blank without a file", "blank Work", "FILE", "Usage: adf_serve blank"),
        wrong("a wrong word goes before a refused name", "blank --blocks 15 a/b none/x.adf", "'15'", "16"),
        wrong("a number without its prefix", "serve --turns 0x10 a b", "'0x10' for '--turns <N>'"),
        wrong("an option of another command", "serve a b --hd", "'--hd'"),
        wrong("blank with a wrong option", "blank --loud Work a", "'--loud'", "Usage"),
        wrong("blank --hd --blocks", "blank --hd --blocks 1760 Work a", "'--hd'", "'--blocks"),
        wrong("serve without an image", "serve", "IMAGE", "SCRIPT", "Usage"),
        wrong("serve without a script", "serve ffs.adf", "SCRIPT", "Usage"),
        wrong("serve with a wrong option", "serve --loud ffs.adf a", "'--loud'", "Usage"),
        wrong("serve --out twice", "serve --out a --out b ffs.adf a", "--out", "Usage"),
        wrong("serve --out without a file", "serve ffs.adf a --out", "--out"),
    )
    tried.rows(
        wrong("check --null without a list", "check --null a", "--from <LIST>", "Usage"),
        wrong("check --from without a list", "check a --from", "--from <LIST>"),
        wrong("check --from twice", "check --from a --from b", "--from", "Usage"),
    )
    for command in ("info", "check"):
        tried.rows(
            wrong(f"{command} without a file", [command], "FILE", "Usage"),
            wrong(f"{command} with a wrong option", [command, "--loud", "a"], "'--loud'", "Usage"),
        )


def wrong_numbers(tried: Commands) -> None:
    for number in ("15", "101603", "-5", "+16", "1e3", "4294967312", "18446744073709551632"):
        words = ["blank", f"--blocks={number}", "Work", "a"]
        tried.rows(wrong(f"blank --blocks {number}", words, number, "from 16 to 101,602"))
    for option in ("days", "minutes", "ticks"):
        for number in ("4294967296", "-1", "+1", "1.5", "", "many"):
            parts = f"'{number}' for '--{option}", "from 0 to 4,294,967,295"
            tried.rows(
                wrong(f"blank --{option} '{number}'", ["blank", f"--{option}={number}", "Work", "a"], *parts),
                wrong(f"serve --{option} '{number}'", ["serve", f"--{option}={number}", "a", "b"], *parts),
            )
    for number in ("18446744073709551616", "-1", "+1", "1.5", "", "many"):
        words = ["serve", f"--turns={number}", "a", "b"]
        tried.rows(wrong(f"serve --turns '{number}'", words, f"'{number}' for '--turns", "from 0 to 18,446,744,073,709,551,615"))
    tried.absent("wrong words write nothing", "a")


def wrong_words_for_files(tried: Commands) -> None:
    """Arguments of the commands that move files: missing ones and extra ones."""
    for command in ("list", "extract", "print", "add", "mkdir", "delete", "rename", "protect", "date", "comment", "relabel", "boot"):
        tried.rows(
            wrong(f"{command} without an image", [command], "IMAGE", "Usage"),
            wrong(f"{command} with a wrong option", [command, "--loud", "a", "b", "c"], "'--loud'", "Usage"),
        )
    for words in ("print a", "mkdir a", "delete a"):
        tried.rows(wrong(f"{words} without a path", words, "PATH", "Usage"))
    tried.rows(
        wrong("add without a file", "add a", "<FILE> is missing", "--help"),
        wrong("rename without a new path", "rename a b", "NEW", "Usage"),
        wrong("protect without letters", "protect a b", "LETTERS", "Usage"),
        wrong("date without a date", "date a b", "WHEN", "Usage"),
        wrong("comment without a text", "comment a b", "TEXT", "Usage"),
        wrong("relabel without a name", "relabel a", "NAME", "Usage"),
        wrong("boot with a number that is none", "boot --ticks x none.adf", "'x' for '--ticks"),
    )
    for words in ("--to d none.adf", "--meta none.adf", "--unaccounted none.adf", "--force none.adf", "--bundle d none.adf", "none.adf PATH"):
        tried.rows(wrong(f"extract --damaged --list {words}", f"extract --damaged --list {words}", "--list", words.replace("none.adf", "").split()[0], "Usage"))
    for option in ("--list", "--json", "--unaccounted"):
        tried.rows(wrong(f"extract {option} without --damaged", f"extract {option} none.adf", "--damaged", "Usage"))
        tried.rows(wrong(f"extract --bundle {option}", f"extract --bundle d {option} none.adf", "--bundle", "Usage"))
    for command in ("mkdir", "delete", "rename", "comment"):
        words = f"{command} --days=-1 none.adf b c"
        tried.rows(wrong(f"{command} with a number that is none", words, "'-1' for '--days"))


FULL_OF_WORDS = [
    *("info a", "list a b", "print a b", "rename a b c", "protect a b rwed", "date a b now", "comment a b c", "relabel a b", "boot a b"),
]
PAST_BYTES = [
    *("list none.adf ł", "print none.adf ł", "extract none.adf b ł", "add --to ł none.adf f", "mkdir none.adf b ł"),
    *("delete none.adf b ł", "rename none.adf ł b", "rename none.adf b ł", "protect none.adf ł rwed", "comment none.adf ł b"),
    "date none.adf ł now",
    *("comment none.adf b ł", "relabel none.adf ł", "blank --letters ł none.adf"),
]


def words_too_many_and_wrong_letters(tried: Commands) -> None:
    """An extra argument, letters that are no protection bits, and letters that are no bytes."""
    for words in FULL_OF_WORDS:
        tried.rows(wrong(f"a word too many: {words}", f"{words} much", "'much'", "Usage"))
    places = ("-----rwe-", "----dewr", "dewr---")
    for letters in ("", "rwedx", "rr", "rR", "+", "=", "-", "+x", "-rr", "=rwedd", "+-s", "++s", "r+w", *places):
        tried.rows(wrong(f"protect {letters}", ["protect", "none.adf", "b", letters], f"'{letters}'", "hsparwed"))
    for words in PAST_BYTES:
        tried.rows(wrong(f"a letter past U+00FF: {words}", words, "'ł'", "U+00FF"))


def refused_names(tried: Commands) -> None:
    for name in ("a/b", "Work:", "", "abcdefghijklmnopqrstuvwxyzabcde"):
        tried.rows(row(f"the name '{name}'", ["blank", name, "a"], 3, "", f"'{name}'", "30 bytes"))
    tried.absent("a refused name writes nothing", "a")
    letters = "1äöüäöüäöüäöüäöü"
    tried.rows(
        row("a refused name goes before a file that cannot be made", "blank a/b none/x.adf", 3, "", "'a/b'"),
        row("a name by its bytes: 31 of them", ["blank", letters, "a"], 3, "", "30 bytes"),
        row("the same name by its letters", ["blank", "--letters", letters, "letters.adf"]),
        row("list of it, by bytes", "list letters.adf", 0, f"Volume {letters}\n".encode("latin-1")),
        row("list --letters", "list --letters letters.adf", 0, f"Volume {letters}\n"),
    )


# ---- Clients of one port ----


def clients(tried: Commands) -> None:
    before = tried.content("ffs.adf")
    tried.write("write", b'output 0 "f"\nwrite $1 "x"\nend $1\n')
    tried.write("other", b"other 999\n")
    tried.rows(row("serve with two scripts", "serve ffs.adf write other", 0, WRITTEN + "2.1 0 209\n"))
    tried.stays("serve without --out keeps the image", "ffs.adf", before)
    serve = "serve --out new.adf --days 8035 --minutes 61 --ticks 125 ffs.adf write"
    entry = "Volume Work\n       1 ---rwed {} f\n"
    tried.rows(
        row("serve --out", serve, 0, WRITTEN),
        row("list of what serve wrote", "list new.adf", 0, entry.format("2000-01-01 01:01:02.50")),
        row("check of what serve wrote", "check new.adf", 0, "ok\n"),
        row("serve --out over its image", "serve new.adf write --out new.adf", 0, WRITTEN),
        row("list of the image written over itself", "list new.adf", 0, entry.format("1978-01-01 00:00:00.00")),
        row("empty scripts", "serve ffs.adf /dev/null /dev/null /dev/null"),
    )


def faulty_scripts(tried: Commands) -> None:
    tried.write("faulty", b'mkdir 0 "d"\nother\n')
    ran = tried.run("serve", "--out", "faulty.adf", "ffs.adf", "other", "faulty")
    # (the second client's lines may be there)
    others = re.sub(rb"(?m)^(2\.1 [1-9][0-9]* 0|2 fault line 2)\n", b"", ran.output)
    told = "adf_serve: client 2 ('faulty'), line 2: other ACTION: expected a number, found the end of the line\n"
    tried.report.check("a faulty script beside another", ran._replace(output=others), 3, b"1.1 0 209\n", told)
    entries = "Volume Work\n     dir ---rwed 1978-01-01 00:00:00.00 d\n"
    # The longest script, and one byte more.
    tried.write("longest", b"#" * 1048576)
    tried.write("long", b"#" * 1048577)
    tried.write("die", b"die\ndiskinfo\n")
    tried.rows(
        row("the image is written after a faulty script", "list faulty.adf", 0, entries),
        row("a long script of a client", "serve ffs.adf other long", 3, "1.1 0 209\n2 fault line 0\n", "client 2 ('long'), the script has more than 1,048,576 bytes"),
        row("the longest script of a client", "serve ffs.adf longest other", 0, "2.1 0 209\n"),
        row("a script that ends at the close", "serve ffs.adf die", 0, "1.1 -1 0\n1.2 closed\n"),
    )


# Faulty lines, with the text that explains each. `BYTES` stands for 256 letters, and `MANY` for 70.
FAULTY_LINES = [
    *(("loc", "expected a keyword, such as locate or write, found loc"), (" die", "expected a keyword, such as locate or write, found a space")),
    *(("Die", "expected a keyword, such as locate or write, found Die"), ("die now", "die: expected the end of the line, found now")),
    *(("die ", "die: expected the end of the line, found a space"), ("diskinfo 1", "diskinfo: expected the end of the line, found 1")),
    ('locate 0 "f"', 'locate LOCK MODE "NAME": expected a number, found "f"'),
    ("locate 0 -2", 'locate LOCK MODE "NAME": expected a text in quotes, found the end of the line'),
    ("locate 0 -2 f", 'locate LOCK MODE "NAME": expected a text in quotes, found f'),
    ('locate 0 -2 "f', 'locate LOCK MODE "NAME": expected a text in quotes, found "f'),
    ('locate 0 -2 "f"g', 'locate LOCK MODE "NAME": expected a space or the end of the line, found g'),
    ('locate 0  -2 "f"', 'locate LOCK MODE "NAME": expected a number, found a space'),
    ('locate 0 2147483648 "f"', 'locate LOCK MODE "NAME": expected a number from -2,147,483,648 to 2,147,483,647, found 2147483648'),
    *((f"{it} x", f"{it} LOCK: expected a number, found x") for it in ("free", "copy", "parent", "examine", "info")),
    *(("next 1", "next LOCK KEY: expected a number, found the end of the line"), ("same 1 x", "same LOCK LOCK: expected a number, found x")),
    *((f"{it} 0", f'{it} LOCK "NAME": expected a text in quotes, found the end of the line') for it in ("delete", "mkdir", "update", "input", "output")),
    ('rename 0 "a" "b"', 'rename LOCK "NAME" LOCK "NAME": expected a number, found "b"'),
    ("rename-disk x", 'rename-disk "NAME": expected a text in quotes, found x'),
    ('rename-disk "BYTES"', 'rename-disk "NAME": expected a text of at most 255 bytes, found "x'),
    ('protect 0 "f" -1', 'protect LOCK "NAME" BITS: expected a number from 0 to 4,294,967,295, found -1'),
    ('comment 0 "f"', 'comment LOCK "NAME" "COMMENT": expected a text in quotes, found the end of the line'),
    ('date 0 "f" 1 2', 'date LOCK "NAME" DAYS MINUTES TICKS: expected a number, found the end of the line'),
    ("read 1 1048577", "read HANDLE COUNT: expected a number from 0 to 1,048,576, found 1048577"),
    *(("write 1", 'write HANDLE "TEXT": expected a text in quotes, found the end'), ("end 4294967296", "end HANDLE: expected a number from 0 to")),
    *((f"{it} 1 2", f"{it} HANDLE OFFSET MODE: expected a number, found the end of the line") for it in ("seek", "size")),
    *(("other +5", "other ACTION: expected a number, found +5"), ("other MANY", f"other ACTION: expected a number, found {'y' * 60}\n")),
    *(("free $9", "free LOCK: expected each $k to be a reply with a value, found $9"), ("free $x", "free LOCK: expected a number, found $x")),
    ('rename 0 "a" $9 "b"', 'rename LOCK "NAME" LOCK "NAME": expected each $k to be a reply with a value, found 0 "a" $9 "b"'),
    ('rename $9 "a" x "b"', 'rename LOCK "NAME" LOCK "NAME": expected a number, found x'),
]


def explained_lines(tried: Commands) -> None:
    """What standard error says of a faulty line, for `serve` and for the program without arguments. Standard output is as before."""
    for line, told in FAULTY_LINES:
        script = f"# a script\n\nother 5\n{line}\nother 6\n".replace("BYTES", "x" * 256).replace("MANY", "y" * 70).encode()
        tried.write("faulty", script)
        ran = tried.run("serve", "ffs.adf", "faulty")
        tried.report.check(f"serve: {line}", ran, 3, b"1.1 0 209\n1 fault line 4\n", f"adf_serve: client 1 ('faulty'), line 4: {told}")
        ran = tried.run(input=script)
        tried.report.check(f"a script: {line}", ran, 3, b"1.1 0 209\n1 fault line 4\n", f"adf_serve: line 4: {told}")
    ran = tried.run(input=b"#" * 1048577)
    tried.report.check("a script that is too long", ran, 3, b"1 fault line 0\n", "adf_serve: the script has more than 1,048,576 bytes\n")
    ran = tried.run(input=b'other 5\nlocate 0 -2 "\xff\x1b"x\n')
    told = 'line 2: locate LOCK MODE "NAME": expected a space or the end of the line, found x'
    tried.report.check("a faulty line with bytes that are no text", ran, 3, b"1.1 0 209\n1 fault line 2\n", told)


def at_a_terminal(tried: Commands) -> None:
    """The program without arguments says at a terminal what it waits for, and elsewhere nothing."""
    for name, is_there in (("a terminal", True), ("a pipe", False)):
        reader, writer = pty.openpty() if is_there else os.pipe()
        terminal, keys = (writer, reader) if is_there else (reader, writer)
        os.write(keys, b"other 5\n\x04" if is_there else b"other 5\n")
        if not is_there:
            os.close(keys)
        ran = tried.run(before=redirected(terminal, 0))
        parts = ["waiting for the lines of a script", "Ctrl-D", "adf_serve --help"] if is_there else []
        tried.report.check(f"a script from {name}", ran, 0, b"1.1 0 209\n", *parts)
        for it in (terminal, keys) if is_there else (terminal,):
            os.close(it)


def turns(tried: Commands) -> None:
    """The number of tries for a put."""
    tried.write("wrong", b"what\n")
    told, faulty = "1.1 no room\n", "1 fault line 1\n2.1 no room\n"
    tries = "ran out of tries"
    tried.rows(
        row("serve --turns 0", "serve --turns 0 ffs.adf other", 2, told, tries),
        row("tries that run out go before a faulty script", "serve --turns 0 ffs.adf wrong other", 2, faulty, tries),
    )
    ran = tried.run("serve", "--turns", "1", "ffs.adf", "other")
    answered = fault_of(ran, 0, b"1.1 0 209\n") if ran.status == 0 else fault_of(ran, 2, b"1.1 no reply\n", tries)
    tried.report.hold("serve --turns 1", answered)


def many_clients(tried: Commands) -> None:
    scripts = [f"many{it}" for it in range(1, 9)]
    for it in scripts:
        tried.write(it, b"other 999\n" * 500)
    wanted = "".join(f"{client}.{packet} 0 209\n" for client in range(1, 9) for packet in range(1, 501))
    tried.rows(row("eight clients with 500 packets each", ["serve", "ffs.adf", *scripts], 0, wanted))
    tried.write("hundred", b"other 999\n" * 100)
    wanted = "".join(f"{client}.{packet} 0 209\n" for client in range(1, 201) for packet in range(1, 101))
    tried.rows(row("200 clients with 100 packets each", ["serve", "ffs.adf", *["hundred"] * 200], 0, wanted))
    ran = tried.run(input=b"other 999\n" * 20000)
    wanted = "".join(f"1.{packet} 0 209\n" for packet in range(1, 20001))
    tried.report.check("a script of 20,000 packets", ran, 0, wanted.encode())


# ---- Refused growths of memory ----


class Growths:
    """`serve` with growths of its memory refused, by the shim tests/growths.c."""

    TRIES = 100000

    def __init__(self, tried: Commands) -> None:
        self.tried = tried
        self.shim = tried.top / "growths.so"
        tried.write("forty", b"other 999\n" * 40)
        tried.write("names", b'rename-disk "Play"\n')
        tried.write("asks", b"other 999\n" * 40 + b'locate 0 -2 ""\n')
        tried.done("blank", "--ffs", "Play", "play.adf")
        replies = b"1.1 -1 0\n" + b"".join(b"2.%d 0 209\n" % it for it in range(1, 41))
        no_memory = b"there is not enough memory\n"
        # How a serve of `names` and `asks` may end, as a word. The first two write the image play.adf, the others none.
        self.endings: Dict[Ran, str] = {
            Ran(0, replies + b"2.41 1 0\n", b""): "whole",
            Ran(0, replies + b"2.41 0 103\n", b""): "lock",
            Ran(2, b"", b"adf_serve: " + no_memory): "memory",
            Ran(2, b"", b"adf_serve: a thread cannot be made\n"): "thread",
            Ran(2, replies + b"2.41 1 0\n", b"adf_serve: cannot write 'grown.adf': " + no_memory): "written",
            Ran(2, replies + b"2.41 1 0\n", b"adf_serve: cannot write 'grown.adf': no file can be made beside it: out of memory\n"): "written",
        }

    def built(self) -> bool:
        """Whether the shim can be built."""
        if not shutil.which("cc"):
            return False
        words = ["cc", "-O2", "-shared", "-fPIC", "-o", str(self.shim), str(TOP / "tests" / "growths.c"), "-ldl"]
        return run(words).status == 0

    def serve(self, threads: str, first: int, count: int, *words: str) -> Ran:
        """Serves with this many growths of these threads refused, from this one. Each try of a put yields to other
        processes, so many tries may take minutes on a busy machine."""
        shim = {"LD_PRELOAD": str(self.shim), "COUNTED": "counted", "THREADS": threads, "REFUSED": str(first), "RUN": str(count)}
        return run([str(self.tried.program), "serve", *words], env=shim, longest=LONGEST_OF_GROWTHS)

    def forty(self, first: int, count: int) -> Ran:
        """Serves forty packets, with this many growths of their client's thread refused, from this one."""
        return self.serve("others", first, count, "--turns", str(self.TRIES), "ffs.adf", "forty")

    def try_puts(self) -> None:
        """A put finds no room if memory is refused. With `--turns N` it is tried N times: it succeeds after N - 1
        refusals in a row, and fails after N. First it finds out which growth of the client's thread belongs to a
        put."""
        whole = [b"1.%d 0 209\n" % it for it in range(1, 41)]
        for growth in range(1, 301):
            ran = self.forty(growth, self.TRIES)
            if ran.output.endswith(b" no room\n"):
                break
        answered = max(0, ran.output.count(b"\n") - 1)
        wanted = b"".join(whole[:answered]) + b"1.%d no room\n" % (answered + 1)
        name = f"a put whose {self.TRIES} tries are refused"
        self.tried.report.check(name, ran, 2, wanted, "ran out of tries")
        name = f"a put whose tries are refused but for the last of {self.TRIES}"
        self.tried.report.check(name, self.forty(growth, self.TRIES - 1), 0, b"".join(whole))

    def both(self, threads: str, refused: int) -> Ran:
        """Serves two clients, with this growth of these threads refused."""
        Path("grown.adf").unlink(missing_ok=True)
        return self.serve(threads, refused, 1, "--out", "grown.adf", "ffs.adf", "names", "asks")

    def ending(self, ran: Ran) -> Optional[str]:
        """The ending of a run, if it is one of these."""
        ending = self.endings.get(ran)
        written = self.tried.content("grown.adf") if os.path.exists("grown.adf") else None
        wanted = self.tried.content("play.adf") if ending in ("whole", "lock") else None
        return ending if written == wanted else None

    def try_each(self, threads: str, wanted: Set[str], spared: Set[str]) -> None:
        """Refuses each growth of these threads in turn. Each of the wanted endings occurs, a spared one may, and no
        other does."""
        self.both(threads, 0)
        number = int.from_bytes(self.tried.content("counted"), sys.byteorder)
        endings: Set[str] = set()
        strayed = ""
        for growth in range(1, number + 1):
            ran = self.both(threads, growth)
            ending = self.ending(ran)
            if ending is None:
                strayed += f"growth {growth}: {ran}; "
            else:
                endings.add(ending)
        if not wanted <= endings <= wanted | spared:
            strayed += f"it ends as {sorted(endings)} where {sorted(wanted)} is expected"
        self.tried.report.hold(f"serve with each of {number} growths refused, {threads}", strayed[:500] or None)


def growths(tried: Commands) -> None:
    """Each growth of a `serve` with two clients is refused in turn. On the first thread these are the growths for the
    arguments, the image, the port, both threads, a lock, the gathering and the output; on the other threads those
    for puts and output lines. Each time the run is as with enough memory, or a lock is refused and nothing else, or
    the command ends with a message and writes no image. The order of the threads decides whether a growth on another
    thread is that of a put, which is repeated."""
    refused = Growths(tried)
    if not refused.built():
        tried.report.lacks("growths that are refused", "cc")
        return
    before = tried.content("ffs.adf")
    refused.try_puts()
    refused.try_each("first", set(refused.endings.values()), set())
    refused.try_each("others", {"memory"}, {"whole"})
    tried.stays("and the image stays", "ffs.adf", before)


# ---- Directories, notes and a boot block ----


def directories(tried: Commands) -> None:
    """Directories that are made and listed. The later parts use moved.adf."""
    shutil.copy("ffs.adf", "moved.adf")
    head, last = "Volume Work\n", f"{MADE}d/é/f\n"
    every = f"{head}{MADE}d\n{MADE}d/é\n{last}"
    tried.rows(
        row("mkdir", f"mkdir {AT} moved.adf d d/é :d/é/f"),
        row("list of a directory", "list moved.adf d", 0, f"{head}{MADE}d/é\n{last}".encode("latin-1")),
        row("list --letters of a directory, up and down", "list --letters moved.adf d//d/é", 0, head + last),
        row("list of a directory by a name in other letters", "list --letters moved.adf D/é", 0, head + last),
        row("list of an empty path", "list --letters moved.adf ''", 0, every),
    )


def directories_on_the_way(tried: Commands) -> None:
    """`mkdir --parents`: what is missing is made, and what is there stays."""
    shutil.copy("ffs.adf", "way.adf")
    tried.write("f", b"x")
    head = "Volume Work\n"
    every = f"{head}{MADE}D\n{MADE}D/e\n{MADE}D/e/f\n{MADE}D/e/g\n"
    tried.rows(
        row("mkdir --parents", f"mkdir --parents {AT} way.adf D/e/f"),
        row("mkdir --parents of directories that are there", f"mkdir --parents {AT} way.adf d/E/g D/e D ''"),
        row("list of what mkdir --parents made", "list way.adf", 0, every),
        row("mkdir --parents behind a volume's name, and up", f"mkdir --parents {AT} way.adf x/y:D/h/ D//i"),
        row("list of what it made", "list way.adf", 0, f"{every}{MADE}D/h\n{MADE}i\n"),
        row("mkdir without --parents", "mkdir way.adf n/m", 3, "refused 204 n/m\n", "directory not found"),
        row("a file for mkdir --parents", "add way.adf f"),
    )
    before = tried.content("way.adf")
    kind, there = "object is not of required type", "object already exists"
    long = "n" * 31
    many = f"'{long}' has 31 characters; AmigaDOS allows 30"
    for words, told, text in (
        ("k F/g", "212 F/g", kind),
        ("k F/g/h", "212 F/g/h", kind),
        ("k f", "203 f", there),
        (f"k m/{long}/o", f"210 m/{long}/o", many),
        (f"k m/{long}", f"210 m/{long}", many),
        ("k /up", "205 /up", "object not found"),
        ("k x:f/y:z/o", "212 x:f/y:z/o", kind),
        ("k x:k/y:z/o", "204 x:k/y:z/o", "directory not found"),
    ):
        tried.rows(row(f"mkdir --parents {words}", f"mkdir --parents way.adf {words}", 3, f"refused {told}\n", text))
    tried.stays("a refused mkdir --parents changes nothing", "way.adf", before)
    tried.rows(
        row("a small disk", f"blank --ffs --blocks 16 {AT} Work way.adf"),
        row("mkdir --parents with room for all", f"mkdir --parents {AT} way.adf 1/2/3/4/5/6/7/8/9/10"),
    )
    before = tried.content("way.adf")
    tried.rows(row("mkdir --parents on a full disk", "mkdir --parents way.adf a/b/c", 3, "refused 221 a/b/c\n", "disk is full"))
    tried.stays("a full disk stays as it was", "way.adf", before)


def files_under_names(tried: Commands) -> None:
    """`add --as`: one file, or standard input, under a name."""
    blank = f"blank --ffs --blocks 16 {AT} Work named.adf"
    made = "1978-01-02 00:00:00.00"
    tried.write("f", b"12345")
    tried.write("g", b"123")
    tried.write("g.uaem", b"-s--rwed 1990-01-01 12:00:00.00 noted\n")
    os.utime("f", (3000 * 86400, 3000 * 86400))
    os.mkdir("named")
    tried.write("named/x", b"x")
    os.symlink("named", "to-named")
    host = datetime.datetime.fromtimestamp(3000 * 86400, datetime.timezone.utc).strftime("%Y-%m-%d %H:%M:%S.00")
    tried.rows(
        row("an image for names", blank),
        row("a directory for names", f"mkdir {AT} named.adf d"),
        row("add --as", f"add {AT} --as %41é --to D named.adf f"),
        row("add --as with a note", f"add {AT} --as {'n' * 30} named.adf g"),
    )
    ran = tried.run("add", *AT.split(), "--as", "in", "named.adf", "-", input=b"from standard input")
    tried.report.check("add - under a name", ran, 0, b"")
    tried.rows(
        row("add - of no bytes", f"add {AT} --as none named.adf -"),
        row("print of what add - put", "print named.adf in", 0, b"from standard input"),
        row("print of what add --as put", "print named.adf d/%41é", 0, b"12345"),
        row("print of a note's file", f"print named.adf {'n' * 30}", 0, b"123"),
    )
    listed = tried.run("list", "--letters", "named.adf").output.decode().splitlines()
    wanted = [
        *("Volume Work", f"     dir ---rwed {made} d", f"       5 ---rwed {host} d/%41é", f"      19 ---rwed {made} in"),
        *(f"       3 s--rwed 1990-01-01 12:00:00.00 {'n' * 30}", f"       0 ---rwed {made} none"),
    ]
    tried.report.expect("list of files under names", sorted(listed) == sorted(wanted), listed)
    before = tried.content("named.adf")
    there, kind = "object already exists", "object is not of required type"
    for words, told, text in (
        ("--as IN named.adf f", "203 IN", there),
        ("--as IN named.adf -", "203 IN", there),
        ("--force --as d named.adf f", "212 d", kind),
        (f"--as {'n' * 31} named.adf f", f"210 {'n' * 31}", f"'{'n' * 31}' has 31 characters; AmigaDOS allows 30"),
        ("--as a/b named.adf f", "210 a/b", "'a/b' has a '/'"),
        ("--as a:b named.adf f", "210 a:b", "'a:b' has a ':'"),
        ("--as '' named.adf f", "210 ", "'' has no name"),
        ("--as a --to x/y named.adf f", "204 x/y", "directory not found"),
        ("--as a --to in named.adf f", "212 in", kind),
    ):
        tried.rows(row(f"add {words}", f"add {words}", 3, f"refused {told}\n", text))
    one = "--as takes one regular file"
    tried.rows(
        wrong("add --as of two files", "add --as a named.adf f g", "'--as <NAME>'", "one FILE", "2"),
        wrong("add --as of - and a file", "add --as a named.adf - f", "'--as <NAME>'", "one FILE", "2"),
        wrong("add --as of - twice", "add --as a named.adf - -", "'--as <NAME>'", "one FILE", "2"),
        wrong("add - without a name", "add named.adf -", "'-' is standard input", "--as <NAME>"),
        wrong("add - among files", "add named.adf f - g", "'-' is standard input", "--as <NAME>"),
        wrong("add --as twice", "add --as a --as b named.adf f", "--as", "Usage"),
        wrong("add --as with a letter past U+00FF", "add --as ł named.adf f", "'ł'", "U+00FF"),
        lacking("add --as of a directory", "add --as a named.adf named", "'named'", one),
        lacking("add --as of a link to a directory", "add --as a named.adf to-named", "'to-named'", one),
        lacking("add --as of a device", "add --as a named.adf /dev/zero", "'/dev/zero'", one),
        lacking("add --as of a note", "add --as a named.adf g.uaem", "'g.uaem'", one),
        lacking("add --as of nothing", "add --as a named.adf nothing", "cannot read 'nothing': no such file"),
        lacking("add --as of the file named -", "add --as a named.adf ./-", "cannot read './-': no such file"),
    )
    ran = tried.run("add", "--as", "long", "named.adf", "-", input=bytes(16 * BLOCK + 2))
    tried.report.check("add - of more bytes than the disk has", ran, 3, b"refused 221 long\n", "disk is full", "18 blocks")
    with open("/dev/zero", "rb") as endless:
        ran = tried.run("add", "--as", "long", "named.adf", "-", before=redirected(endless.fileno(), 0))
    tried.report.check("add - of an input that never ends", ran, 3, b"refused 221 long\n", "disk is full")
    folder = os.open(".", os.O_RDONLY)
    ran = tried.run("add", "--as", "folder", "named.adf", "-", before=redirected(folder, 0))
    tried.report.check("add - of a directory", ran, 2, b"", "standard input cannot be read")
    os.close(folder)
    tried.stays("what add --as refuses changes nothing", "named.adf", before)
    ran = tried.run("add", *AT.split(), "--force", "--as", "IN", "named.adf", "-", input=b"again")
    tried.report.check("add - in place of a file", ran, 0, b"")
    tried.rows(row("print of what it put", "print named.adf in", 0, b"again"), row("check of it", "check named.adf", 0, "ok\n"))


def refused_changes(tried: Commands) -> None:
    before = tried.content("moved.adf")
    kind, there, gone = "object is not of required type", "object already exists", "object not found"
    long = "n" * 31
    many = f"'{long}' has 31 characters; AmigaDOS allows 30"
    for name, words, told, text in (
        ("list of a path that is not there", "list moved.adf d/x", "205 d/x", gone),
        ("list of a path through what is not there", "list moved.adf x/y", "204 x/y", "directory not found"),
        ("mkdir of what is there", "mkdir moved.adf new D", "203 D", there),
        ("mkdir where no directory is", "mkdir moved.adf x/y", "204 x/y", "directory not found"),
        ("mkdir with no name", "mkdir moved.adf d/", "210 d/", "'d/' has no name at its end"),
        ("delete of a directory with entries", "delete moved.adf d", "216 d", "directory not empty"),
        ("delete of what is not there", "delete --all moved.adf x", "205 x", gone),
        ("delete of the root", "delete --all moved.adf :", "212 :", kind),
        ("rename to a name of 31 letters", f"rename moved.adf d {long}", f"210 {long}", many),
        ("relabel with a name of 31 letters", f"relabel moved.adf {long}", f"210 {long}", many),
        ("rename under itself", "rename moved.adf d d/e", "202 d", "cannot move 'd' into itself"),
        ("protect of the root", "protect moved.adf : +s", "212 :", kind),
        ("protect of what is not there", "protect moved.adf x -w", "205 x", gone),
        ("date of the root", "date moved.adf : 1990-01-01", "212 :", kind),
        ("date of what is not there", "date moved.adf d/x now", "205 d/x", gone),
        ("a comment of 80 letters", f"comment moved.adf d {'x' * 80}", "220 d", "comment is too long"),
        ("relabel with a separator", "relabel moved.adf a/b", "210 a/b", "'a/b' has a '/'"),
        ("print of a directory", "print moved.adf d", "212 d", "'d' is a directory; print needs a file"),
        ("print of what is not there", "print moved.adf x", "205 x", gone),
        ("extract of what is not there", "extract --to out moved.adf d x", "205 x", gone),
    ):
        tried.rows(row(name, words, 3, f"refused {told}\n", text))
    tried.stays("what is refused changes nothing", "moved.adf", before)
    tried.absent("and writes nothing", "out")


def changes_beside(tried: Commands) -> None:
    """Changes that are written to another file."""
    before = tried.content("moved.adf")
    listed = f"Volume Work\n     dir s-a-wed 1978-01-02 00:00:00.00 d\n{MADE}d/é\n{MADE}d/é/f\n"
    tried.rows(
        row("protect", f"protect {AT} moved.adf d hs-a-wed --out changed.adf"),
        row("list of what protect wrote", "list --letters changed.adf", 0, listed),
    )
    for letters in ("-s-----d", "--------", "rwed", "h"):
        tried.rows(row(f"protect {letters}", ["protect", "moved.adf", "d", letters, "--out", "changed.adf"]))
    dated = f"Volume Work\n     dir ---rwed 1990-01-01 12:30:00.00 d\n{MADE}d/é\n{MADE}d/é/f\n"
    tried.rows(
        row("date", ["date", "moved.adf", "D", "1990-01-01 12:30", "--out", "changed.adf"]),
        row("list of what date wrote", "list --letters changed.adf", 0, dated),
        row("date now is the moment", "date --date 1990-01-01 moved.adf d now --out changed.adf"),
        row("list of the moment", "list --letters changed.adf", 0, dated.replace("12:30", "00:00")),
        row("relabel", f"relabel {AT} moved.adf Ü --out changed.adf"),
        row("list of what relabel wrote", "list --letters changed.adf d/é/f", 0, "Volume Ü\n"),
    )
    tried.stays("with --out the image stays", "moved.adf", before)


# What an entry shows before, a word of `protect`, and what the entry shows afterwards.
PROTECTED = [
    *(("----rwed", "+s", "-s--rwed"), ("-s--rwed", "-s", "----rwed"), ("-s--rwed", "-S", "----rwed")),
    *(("-s--rwed", "-w", "-s--r-ed"), ("hspa----", "+RWED", "hsparwed"), ("hsparwed", "-hspa", "----rwed")),
    *(("hsparwed", "=rwed", "----rwed"), ("hsparwed", "=", ""), ("hsparwed", "rwed", "----rwed")),
    *(("--------", "DEWR", "----rwed"), ("----rwed", "h", "h-------"), ("h---rwed", "-H", "----rwed")),
    *(("h---rwed", "s--rwed", "hs--rwed"), ("----rwed", "s--rwed", "-s--rwed"), ("h---rwed", "sparwed", "hsparwed")),
    *(("h-------", "SPARWED", "hsparwed"), ("h---rwed", "-s--rwed", "-s--rwed"), ("h---rwed", "-sparwed", "-sparwed")),
    *(("----rwed", "HSPARWED", "hsparwed"), ("h---rwed", "-------", "h-------"), ("----rwed", "dewraps", "-sparwed")),
    *(("h---rwed", "--------", "--------"), ("----rwed", "-r", "-----wed"), ("hsparwed", "+hsparwed", "hsparwed")),
]


def protect_words(tried: Commands) -> None:
    """Each form of `protect`, by the long of the entry in the image. Bits 8 to 31 stay."""
    tried.rows(
        row("blank for protect", "blank --ffs --blocks 16 Work bits.adf"),
        row("mkdir for protect", f"mkdir {AT} bits.adf d"),
    )
    entry = directory_of(Image(tried.content("bits.adf")))
    for before, word, after in PROTECTED:
        tried.rows(row(f"protect {before}", ["protect", "bits.adf", "d", before]))
        tried.report.same(f"protect {before}: its bits", Image(tried.content("bits.adf")).long(entry, 80), bits_of(before))
        if after:
            tried.rows(row(f"protect {word} of {before}", ["protect", "bits.adf", "d", word]))
        else:
            tried.rows(wrong(f"protect {word} of {before}", ["protect", "bits.adf", "d", word], f"'{word}'"))
        tried.report.same(f"{before} after {word}", Image(tried.content("bits.adf")).long(entry, 80), bits_of(after or before))
    tried.rows(
        wrong("-h alone asks for help", "protect bits.adf d -h", "Usage: adf_serve protect", "+s"),
        row("protect behind two dashes", "protect bits.adf d -- -h"),
    )


def bits_of(shown: str) -> int:
    """The protection long of an entry that shows these eight places."""
    return sum(128 >> it for it in range(8) if (shown[it] != "-") == (it < 4))


def precious_files(tried: Commands) -> None:
    """`--out` writes over an image, an empty file and a device, and over any other file only with `--over`."""
    notes, image = b"Do not lose this\n", tried.content("moved.adf")
    shutil.copy("moved.adf", "kept.adf")
    changes = [
        *("mkdir --out Notes kept.adf n", "delete --out Notes kept.adf d/\u00e9/f", "boot --clear --out Notes kept.adf"),
        *("add --out Notes kept.adf write", "add --as x --out Notes kept.adf -", "protect --out Notes kept.adf d +s"),
    ]
    for start in (notes, b"D", b"DO", b"dos\0", b"\0DOS\0", b"PK\3\4"):
        tried.write("Notes", start)
        for words in changes:
            tried.rows(lacking(f"{words} over {start!r}", words, "adf_serve: 'Notes' is not an image: --over writes over it\n"))
        tried.stays(f"{start!r} stays", "Notes", start)
    tried.stays("and so does the image", "kept.adf", image)
    tried.rows(
        lacking("an image that is not there goes first", "mkdir --out Notes none.adf n", "cannot read 'none.adf': no such file"),
        lacking("a precious file goes before a refusal", "mkdir --out Notes kept.adf d", "'Notes' is not an image"),
        wrong("a wrong word goes before a precious file", "mkdir --out Notes --over=x kept.adf n", "--over"),
    )
    for start in (notes, b"", b"DOS", b"DOS\0 is no image"):
        tried.write("Notes", start)
        option = "--over " if start == notes else ""
        tried.rows(
            row(f"mkdir {option}--out over {start!r}", f"mkdir {option}--out Notes kept.adf n"),
            row(f"check of what is written over {start!r}", "check Notes", 0, "ok\n"),
        )
    tried.rows(
        row("mkdir --out over its own image", "mkdir --out kept.adf kept.adf own"),
        row("mkdir --over without --out", "mkdir --over kept.adf other"),
        row("list of what --out over the image wrote", "list kept.adf own", 0, "Volume Work\n"),
        row("blank over notes", "blank --ffs Work notes.txt"),
        row("serve --out over notes", "serve --out other ffs.adf write", 0, WRITTEN),
    )
    tried.rows(row("check of what serve wrote over", "check other", 0, "ok\n"))
    tried.write("other", b"other 999\n")


def named_entries(tried: Commands) -> None:
    """`delete --all` names the protected entry, in the letters of the disk, and deletes nothing."""
    tried.rows(
        row("an image for protected entries", "blank --ffs Work kept.adf"),
        row("directories for protected entries", "mkdir kept.adf d d/e d/e/\u00c9 d/g"),
        row("a protected entry", "protect kept.adf d/e/\u00c9 rwe"),
        row("a protected directory", "protect kept.adf d/g rwe"),
    )
    before = tried.content("kept.adf")
    for path, names in (("D", ["d/e/\u00c9", "d/g"]), ("d/E", ["d/e/\u00c9"]), ("D/E/\u00c9", ["D/E/\u00c9"]), ("d/g", ["d/g"])):
        ran = tried.run("delete", "--all", "kept.adf", path)
        lines = [f"refused 222 {it}\n".encode() for it in names]
        name = f"delete --all of {path} names what is protected"
        tried.report.check(name, ran, 3, next((it for it in lines if it == ran.output), lines[0]), "object is protected from deletion")
    tried.rows(row("delete of a protected entry", "delete kept.adf D/G", 3, "refused 222 D/G\n", "'D/G': object is protected"))
    tried.stays("what is refused deletes nothing", "kept.adf", before)
    tried.rows(
        row("delete --all --force", "delete --all --force kept.adf d"),
        row("list after delete --all --force", "list kept.adf", 0, "Volume Work\n"),
    )


def closed_input(tried: Commands) -> None:
    """`add -` with a closed standard input, whose number the image's file would get, is refused; an empty one is a file."""
    tried.rows(row("an image for a closed input", "blank --ffs Work kept.adf"))
    before = tried.content("kept.adf")
    ran = tried.run("add", "--as", "closed", "kept.adf", "-", before=partial(os.close, 0))
    tried.report.check("add - of a closed input", ran, 2, b"", "adf_serve: standard input cannot be read\n")
    tried.stays("a closed input adds nothing", "kept.adf", before)
    tried.rows(row("add - of an empty input", "add --as empty kept.adf -"), row("print of it", "print kept.adf empty"))


def images_from_input(tried: Commands) -> None:
    """`-` is standard input as the image of a command that reads one, from a pipe or from a file; `./-` is a file."""
    tried.rows(row("an image for standard input", "blank --ffs Piped piped.adf"), row("a directory in it", f"mkdir {AT} piped.adf d"))
    image = tried.content("piped.adf")
    for words in ("info IMAGE", "check IMAGE", "list IMAGE", "show IMAGE", "map IMAGE", "where IMAGE 880", "boot --show IMAGE", "extract --damaged --list IMAGE"):
        wanted = tried.run(*words.replace("IMAGE", "piped.adf").split())
        given = words.replace("IMAGE", "-").split()
        piped = tried.run(*given, input=image)
        held = tried.run(*given, before=redirected(os.open("piped.adf", os.O_RDONLY), 0))
        for kind, ran in (("a pipe", piped), ("a file", held)):
            tried.report.same(f"{words} with {kind} as standard input", (ran.status, ran.output), (wanted.status, wanted.output))
    tried.report.check("the first blocks of a pipe", tried.run("check", "--blocks", "1760", "-", input=image + b"more"), 0, b"ok\n")
    tried.report.check("a pipe with half a block more", tried.run("check", "-", input=image + bytes(256)), 3, b"refused NotWholeBlocks 0\n", "its bytes are no whole number of blocks")
    damaged = "'-' is damaged; `adf_serve extract --damaged -` saves its files\n"
    tried.report.check("a refused image from a pipe", tried.run("info", "-", input=poked(image, 880, 100, b"\1")), 3, b"refused BadSum 880\n", damaged)
    tried.report.check("standard input without bytes", tried.run("list", "-"), 3, b"refused TooFewBlocks 0\n")
    tried.report.check("a closed standard input", tried.run("list", "-", before=partial(os.close, 0)), 2, b"", "cannot read '-'")
    tried.write("-", image)
    tried.rows(row("a file of that name", "check ./-", 0, "ok\n"))
    tried.report.check("not the file of that name", tried.run("check", "-", input=bytes(512)), 3, b"refused TooFewBlocks 0\n", "its bytes are too few")
    tried.report.check("both", tried.run("check", "-", "./-", input=image), 0, b"-\tok\n./-\tok\n", "2 images: 2 ok")
    tried.write("names", b"piped.adf\n")
    tried.report.check("an image beside a list", tried.run("check", "--from", "names", "-", input=image), 0, b"-\tok\npiped.adf\tok\n", "2 images: 2 ok")
    for words in ("check - -", "check ./- - piped.adf -", "check --from - -", "check --from - --null piped.adf -", "check - --from -"):
        tried.report.check(f"standard input twice: {words}", tried.run(*words.split(), input=image), 1, b"", "FILE '-' is standard input", "only once")
    os.remove("-")


# Changes of a volume with a directory `d`, with the option for the changed image.
TO_OUTPUT = [
    *("add TO IMAGE f", "add --as g TO IMAGE f", "mkdir TO IMAGE e", "delete TO IMAGE d", "rename TO IMAGE d e", "protect TO IMAGE d rwed"),
    *("date TO IMAGE d 1990-01-01", "comment TO IMAGE d x", "relabel TO IMAGE New", "boot TO --install IMAGE", "boot TO --clear IMAGE", "boot TO IMAGE f"),
]


def images_to_output(tried: Commands) -> None:
    """`-` is standard output as the file for an image, for the commands that print nothing else; `./-` is a file."""
    tried.write("f", b"bytes")
    tried.rows(row("an image", "blank --ffs Work made.adf"), row("with a directory", f"mkdir {AT} made.adf d"))
    blank, image = tried.run("blank", "--ffs", "Work", "-"), tried.content("made.adf")
    tried.rows(row("the same image", "blank --ffs Work same.adf"))
    tried.report.check("blank to standard output", blank, 0, tried.content("same.adf"))
    for words in TO_OUTPUT:
        given = words.replace("IMAGE", "made.adf")
        wanted = tried.run(*given.replace("TO", f"{AT} --out new.adf").split())
        ran = tried.run(*given.replace("TO", f"{AT} --out -").split())
        tried.report.expect(f"a file for {words}", wanted.status == 0, wanted)
        tried.report.check(f"{words} to standard output", ran, 0, tried.content("new.adf"))
    tried.report.same("the image of a pipe", tried.run("list", "-", input=tried.run("mkdir", "--out", "-", *AT.split(), "same.adf", "d").output).output, tried.run("list", "made.adf").output)
    tried.write("long.adf", image + b"more")
    ran = tried.run("mkdir", "--blocks", "1760", "--out", "-", *AT.split(), "long.adf", "e")
    tried.report.expect("what is behind the image goes with it", ran.status == 0 and len(ran.output) == len(image) + 4 and ran.output.endswith(b"more"), ran.texts)
    tried.rows(
        row("a refused change prints no image", "delete --out - made.adf none", 3, "refused 205 none\n", "object not found"),
        row("a refused image prints no image", "mkdir --out - f d", 3, NOT_BLOCKS, "5" + WHY_NOT_BLOCKS),
        wrong("validate --out -", "validate --out - made.adf", "'--out -' is standard output", "'./-'"),
        wrong("serve --out -", "serve --out - made.adf f", "'--out -' is standard output", "'./-'"),
    )
    full = os.open("/dev/full", os.O_WRONLY)
    for words in ("blank Work -", "mkdir --out - made.adf e"):
        tried.report.check(f"{words}: an output that is full", tried.run(*words.split(), before=redirected(full, 1)), 2, b"", UNWRITTEN)
    os.close(full)
    tried.absent("no file of that name", "-")
    tried.stays("the image is as it was", "made.adf", image)
    tried.rows(row("a file of that name", "blank --ffs Work ./-"), row("a change of it", f"mkdir {AT} ./- d"))
    tried.stays("it has the bytes of any other", "-", image)
    for words in [it.replace(" TO", "") for it in TO_OUTPUT] + ["validate IMAGE"]:
        ran = tried.run(*words.replace("IMAGE", "-").split(), input=image)
        tried.report.check(f"{words}: standard input is not changed", ran, 1, b"", "IMAGE '-' is standard input", "'./-'")
    tried.stays("and the file of that name neither", "-", image)
    os.remove("-")


def turned_words(tried: Commands) -> None:
    """`blank` writes what its words say, and says that they may be turned round."""
    for words in ("turned.adf Turned", "turned.HDF Turned", "a.b.adf Turned"):
        tried.rows(row(f"blank {words}", f"blank {words}", 0, "", f"named '{words.split()[0]}'", "the file 'Turned'", "may be turned round"))
        tried.rows(row(f"info of blank {words}", "list Turned", 0, f"Volume {words.split()[0]}\n"))
    for words in ("Turned turned.adf", "a.adf b.adf", "Work Turned", "adf Turned"):
        tried.rows(row(f"blank {words}", f"blank {words}"))


# What stands here for words of AmigaDOS, Unix, xdftool, unadf, mtools and archivers: the command that the text names first.
OTHER_TOOLS = {
    "list": "dir ls mdir vdir l v DIR Ls",
    "print": "cat type mtype more less TYPE",
    "extract": "read unadf export x e cp copy mcopy tar",
    "extract --bundle": "unpack",
    "extract --damaged": "salvage rescue recover repair diskdoctor",
    "show": "df file root minfo",
    "map": "bitmap",
    "check": "fsck scan verify",
    "undelete": "undel unerase",
    "add": "write put import",
    "add --bundle": "pack repack",
    "mkdir": "makedir md mmd",
    "delete": "rm del remove erase mdel rmdir",
    "rename": "mv move mren",
    "protect": "chmod mattrib",
    "date": "setdate touch",
    "comment": "filenote",
    "relabel": "label mlabel",
    "blank": "format create mformat mkfs",
    "boot --install": "install",
    "serve": "execute run",
    "adf_mount": "mount",
}
# The commands that change no image.
HARMLESS = [it.name for it in commands() if it.group in ("Look", "TakeOut", "Serve")]
# The words above with which the other tools change something.
WORDS_OF_CHANGES = " ".join(words for tip, words in OTHER_TOOLS.items() if tip.split()[0] not in (*HARMLESS, "adf_mount")).split()
# Words that are like a command, and the command. Not one is like those that may take something away.
LIKE_COMMANDS = {"lst": "list", "chek": "check", "prin": "print", "extrcat": "extract", "lsit": "list", "renam": "rename", "protct": "protect", "dat": "date", "undelet": "undelete"}
LIKE_NONE = ["deleted", "dlete", "delet", "relete", "blan", "blanks", "black", "boots", "bot", "select", "release", "q", "", "zz"]


def tips(tried: Commands) -> None:
    """A word that is no command: what stands here for that word of another tool, or the command that it is like."""

    def told(word: str) -> str:
        """The command that the text names, if it names one."""
        ran = tried.run(word, "x.adf")
        begins = f"error: no command '{word}'".encode()
        fault = fault_of(ran, 1, b"", "try '--help'") or (None if ran.texts.startswith(begins) else f"the text is {ran.texts!r}")
        tried.report.hold(f"a word for none: {word}", fault)
        named = re.search(r"`([^`]*)`", ran.texts.decode().partition("\n")[0])
        return named[1] if named else ""

    for tip, words in OTHER_TOOLS.items():
        for word in words.split():
            tried.report.same(f"what stands for {word}", told(word), tip)
            if word not in WORDS_OF_CHANGES:
                tried.report.expect(f"{word} leads to no change", tip.split()[0] in (*HARMLESS, "adf_mount"), tip)
    for word, command in LIKE_COMMANDS.items():
        tried.report.same(f"what {word} is like", told(word), command)
    for word in LIKE_NONE:
        tried.report.same(f"{word} is like no command", told(word), "")
    for command in COMMANDS:
        near = {command[:at] + command[at + 1 :] for at in range(len(command))} | {command + command[-1]}
        for word in sorted(near - {*COMMANDS} - {*" ".join(OTHER_TOOLS.values()).split(), "dd"}):
            tip = told(word)
            harmless = tip in ("", *HARMLESS) if command in HARMLESS else tip not in ("blank", "boot", "delete")
            tried.report.expect(f"{word} leads to nothing worse than {command}", harmless, tip)


# ---- Help, usage and the version ----


def help_in_groups(tried: Commands) -> None:
    """The help of the program: each command once, below the heading of its group, in lines as wide as the screen."""
    wide = {it or "none": tried.run("--help", env={"COLUMNS": it}).texts.decode() for it in ("", "60", "132", "0", "-5", "wide", "99999")}
    for name, most in (("none", 80), ("60", 60), ("132", 132), ("0", 80), ("-5", 80), ("wide", 80)):
        tried.report.expect(f"help for COLUMNS {name}", max(map(len, wide[name].splitlines())) <= most, wide[name])
        tried.report.same(f"help for COLUMNS {name} has each word", wide[name].split(), wide["132"].split())
    sections = re.split(r"(?m)^([A-Z][a-z ]+):\n", wide["none"].partition("Usage:")[2])
    shown = {heading: re.findall(r"(?m)^  ([a-z]+) ", text) for heading, text in zip(sections[1::2], sections[2::2])}
    named = headings()
    wanted = {heading: [it.name for it in commands() if named[it.group] == heading] for heading in named.values()}
    tried.report.same("help has the groups", {it: shown.get(it) for it in wanted}, wanted)
    tried.report.same("help has each command once", sorted(sum(wanted.values(), [])), sorted(COMMANDS))
    for words in (["--"], ["-h"], ["help"], ["--", "check", "x.adf"]):
        tried.report.same(f"the help of {words}", tried.run(*words), tried.run("--help"))
    for command in commands():
        ran = tried.run(command.name, "--help")
        tried.report.expect(f"help of {command.name} fits 80 columns", max(map(len, ran.texts.decode().splitlines())) <= 80, ran)
        tried.report.same(f"help {command.name}", tried.run("help", command.name), ran)
    tried.rows(wrong("help of a command that is not there", "help lst", "no command 'lst'", "`list`"))


def versions(tried: Commands) -> None:
    """The version is that of the library, and says whether the program is proved."""
    header = (TOP / "bindings/c/jiponuwha.h").read_text(encoding="utf-8")
    number = ".".join(re.findall(r"(?m)^#define JIP_VERSION_[A-Z]+ ([0-9]+)$", header))
    proof = {"out/adf_serve": "proved", "checked/adf_serve": "not proved"}.get("/".join(tried.program.parts[-2:]))
    for word in ("--version", "-V"):
        ran = tried.run(word)
        wanted = [f"adf_serve {number} ({it})\n".encode() for it in ([proof] if proof else ["proved", "not proved"])]
        tried.report.expect(word, ran.status == 1 and ran.output == b"" and ran.texts in wanted, ran)


def usage_lines(tried: Commands) -> None:
    """A wrong command line is answered with the forms that are allowed."""
    for command in commands():
        ran = tried.run(command.name, "--none")
        shown = ran.texts.decode().partition("Usage: ")[2].partition("\n\n")[0]
        forms = [" ".join(it.split()) for it in re.split(r"\n(?= {7}adf_serve )", shown)]
        tried.report.same(f"the forms of {command.name}", forms, [f"adf_serve {it}" for it in command.forms])
        for one in command.options:
            beside = [it for it in command.excluded_by(one) if it.is_option()]
            together = [form for form in command.forms for it in beside if {f"--{one.name}", f"--{it.name}"} <= {*re.findall(r"--[a-z]+", form)}]
            tried.report.expect(f"{command.name} --{one.name} stands beside nothing that it excludes", all(" | " in it for it in together), together)
            told = any(re.search(rf"--{one.name}\b", it) for it in command.forms) or any("[CHANGE]" in it or "[TIME]" in it for it in command.forms)
            tried.report.expect(f"{command.name} --{one.name} is in a form", told, command.forms)
    for words in ("boot --show --out x none.adf", "extract --damaged none.adf x", "where --path x none.adf 1", "list --long --json none.adf", "blank --hd --blocks 20 x y"):
        ran = tried.run(*words.split())
        given = {it for it in words.split() if it.startswith("--")}
        lines = [it for it in ran.texts.decode().partition("Usage:")[2].splitlines() if given <= {*re.findall(r"--[a-z]+", it)} and " | " not in it]
        tried.report.expect(f"no usage of {words}", ran.status == 1 and not (lines and len(given) > 1), ran)


def boot_blocks(tried: Commands) -> None:
    before = tried.content("moved.adf")
    tried.write("code", b"DOS\0aaaacode")
    told = "-1 0 82 1758 5 512 444f5301\nboot {}\n"
    tried.rows(
        row("boot", "boot moved.adf code"),
        row("info of what boot wrote", "info moved.adf", 0, told.format("yes")),
        row("boot without a file", "boot moved.adf"),
        row("info without a boot block", "info moved.adf", 0, told.format("no")),
    )
    tried.stays("the image is as before", "moved.adf", before)
    tried.write("code", bytes(1025))
    tried.rows(
        row("boot with 1,025 bytes", "boot moved.adf code", 3, "", "'code' has more than 1,024 bytes"),
        lacking("boot with a file that is not there", "boot moved.adf none", "cannot read 'none': no such file"),
    )
    tried.stays("a boot block that is none changes nothing", "moved.adf", before)


# ---- The forms of `boot` ----

# The standard code: what its source says, as instructions of the 68000, and the name of the module that it looks for.
STANDARD = bytes.fromhex("43fa00184eaeffa04a80660453804e7522402069001670004e75") + b"dos.library\0"
ROOT_OF_FLOPPY = (880).to_bytes(4, "big")
BLANK_SHOWN = """boot block: none
0000  44 4f 53 01 00 00 00 00 00 00 00 00 00 00 00 00  |DOS.............|
"""
STANDARD_SHOWN = """boot block: standard
0000  44 4f 53 01 cb 9a 32 a7 00 00 03 70 43 fa 00 18  |DOS...2....pC...|
0010  4e ae ff a0 4a 80 66 04 53 80 4e 75 22 40 20 69  |N...J.f.S.Nu"@ i|
0020  00 16 70 00 4e 75 64 6f 73 2e 6c 69 62 72 61 72  |..p.Nudos.librar|
0030  79 00 00 00 00 00 00 00 00 00 00 00 00 00 00 00  |y...............|
"""


def boot_with(kind: bytes, behind: bytes) -> bytes:
    """Two boot blocks of this kind with the right checksum, and these bytes behind it."""
    blocks = kind + bytes(4) + behind.ljust(2 * BLOCK - 8, b"\0")
    return kind + boot_sum(blocks) + blocks[8:]


def boot_shown(said: str, blocks: bytes) -> str:
    """What `boot --show` prints of boot blocks that are this."""
    lines = [f"boot block: {said}\n"]
    for at in range(0, len(blocks.rstrip(b"\0")), 16):
        part = blocks[at : at + 16]
        letters = "".join(chr(it) if 32 <= it < 127 else "." for it in part)
        lines.append(f"{at:04x}  {' '.join(f'{it:02x}' for it in part)}  |{letters}|\n")
    return "".join(lines)


# Where FindResident finds `dos.library` in the test, and where that module starts.
MODULE, MODULE_START = 0xF80000, 0xF81234


def boot_returns(blocks: bytes, is_there: bool) -> Tuple[int, Optional[int]]:
    """Runs a boot block from byte 12, as a 68000 runs the instructions of the standard one. FindResident finds `dos.library`, or
    nothing, and leaves A0 and A1 without meaning. Returns D0, and A0 if it has a meaning."""
    base, at, d0, is_zero = 0x20000, 12, 0x1234, False
    a0: Optional[int] = None
    a1: Optional[int] = None
    for _ in range(100):
        word = int.from_bytes(blocks[at : at + 2], "big")
        short = int.from_bytes(blocks[at + 1 : at + 2], "big", signed=True)
        offset = int.from_bytes(blocks[at + 2 : at + 4], "big", signed=True)
        at += 2
        if word == 0x43FA:  # lea offset(pc),a1
            a1, at = base + at + offset, at + 2
        elif word == 0x4EAE and offset == -96 and a1 is not None:  # jsr -96(a6)
            name = blocks[a1 - base :].partition(b"\0")[0]
            d0, a1, at = MODULE if is_there and name == b"dos.library" else 0, None, at + 2
        elif word == 0x4A80:  # tst.l d0
            is_zero = d0 == 0
        elif word >> 8 == 0x66:  # bne.s
            at += 0 if is_zero else short
        elif word == 0x5380:  # subq.l #1,d0
            d0 = (d0 - 1) & 0xFFFFFFFF
        elif word == 0x2240:  # movea.l d0,a1
            a1 = d0
        elif word == 0x2069 and offset == 22 and a1 == MODULE:  # movea.l 22(a1),a0
            a0, at = MODULE_START, at + 2
        elif word >> 8 == 0x70:  # moveq #short,d0
            d0 = short & 0xFFFFFFFF
        elif word == 0x4E75:  # rts
            return d0, a0
        else:
            break
    raise ValueError(f"no instruction of the standard boot block before byte {at}")


def standard_boot(tried: Commands) -> None:
    """`boot --install` and `boot --clear`, and what the standard code does."""
    for kind, words, told in ((b"DOS\0", "", "488 444f5300"), (b"DOS\1", "--ffs ", "512 444f5301")):
        tried.rows(row(f"blank {words}for a boot block", f"blank {words}Work boots.adf"))
        before = tried.content("boots.adf")
        wanted = boot_with(kind, ROOT_OF_FLOPPY + STANDARD)
        tried.rows(
            row(f"{words}boot --install", "boot --install boots.adf"),
            row(f"{words}info of boot --install", "info boots.adf", 0, f"-1 0 82 1758 2 {told}\nboot yes\n"),
            row(f"{words}check of boot --install", "check boots.adf", 0, "ok\n"),
        )
        tried.stays(f"{words}boot --install writes the standard block, and no other byte", "boots.adf", wanted + before[2 * BLOCK :])
        tried.rows(
            row(f"{words}boot --install once more", "boot --install boots.adf"),
            row(f"{words}boot --show of the standard block", "boot --show boots.adf", 0, boot_shown("standard", wanted)),
        )
        tried.stays(f"{words}boot --install once more changes nothing", "boots.adf", wanted + before[2 * BLOCK :])
        tried.rows(row(f"{words}boot --clear", "boot --clear boots.adf"))
        tried.stays(f"{words}boot --clear takes the boot block away", "boots.adf", before)
    tried.rows(row("boot --install --out", "boot --install --out other.adf boots.adf"))
    tried.stays("boot --install --out leaves the image", "boots.adf", before)
    tried.stays("boot --install --out writes the other file", "other.adf", wanted + before[2 * BLOCK :])
    tried.rows(
        row("boot --show of the standard block, letter by letter", "boot --show other.adf", 0, STANDARD_SHOWN),
        row("boot --clear over another file", "boot --clear --out other.adf boots.adf"),
    )
    tried.stays("boot --clear --out writes the other file", "other.adf", before)
    tried.report.same("the standard code finds dos.library", boot_returns(wanted, True), (0, MODULE_START))
    tried.report.same("the standard code without dos.library", boot_returns(wanted, False), (0xFFFFFFFF, None))


def shown_boots(tried: Commands) -> None:
    """`boot --show`: what a boot block is, and its bytes."""
    blank = tried.content("boots.adf")
    none = json.dumps({"boot": "none", "bytes": (b"DOS\1" + bytes(1020)).hex()}, separators=(",", ":")) + "\n"
    tried.rows(
        row("boot --show of a blank image", "boot --show boots.adf", 0, BLANK_SHOWN),
        row("boot --show --json of a blank image", "boot --json --show boots.adf", 0, none),
    )
    full = bytes(range(256)) * 4
    own = boot_with(b"DOS\1", ROOT_OF_FLOPPY + b"\x4e\x75 text ~\x7f\x1f\xff")
    wrong_sum = "custom, checksum wrong: not bootable"
    for name, said, blocks in (
        ("a block of its own", "custom, checksum right", own),
        ("a block with a changed byte", wrong_sum, own[:20] + b"!" + own[21:]),
        ("a wrong checksum", wrong_sum, own[:7] + bytes([own[7] ^ 1]) + own[8:]),
        ("the standard block with a wrong checksum", wrong_sum, b"DOS\1" + bytes(4) + ROOT_OF_FLOPPY + STANDARD),
        ("the standard block and one more byte", "custom, checksum right", boot_with(b"DOS\1", ROOT_OF_FLOPPY + STANDARD + b"x")),
        ("the standard block without its last byte", "custom, checksum right", boot_with(b"DOS\1", ROOT_OF_FLOPPY + STANDARD[:-2])),
        ("the standard block with another root", "custom, checksum right", boot_with(b"DOS\1", bytes(4) + STANDARD)),
        ("a checksum alone", "custom, checksum right", boot_with(b"DOS\1", b"")),
        ("a byte behind the kind", wrong_sum, b"DOS\1\0\0\1"),
        ("a full block", "custom, checksum right", boot_with(b"DOS\1", full[8:])),
        ("the last byte alone", wrong_sum, b"DOS\1" + bytes(1019) + b"\1"),
        ("the last byte of a line", wrong_sum, b"DOS\1" + bytes(507) + b"\1"),
        ("the first byte of a line", wrong_sum, b"DOS\1" + bytes(508) + b"\1"),
    ):
        blocks = blocks.ljust(2 * BLOCK, b"\0")
        image = blocks + blank[2 * BLOCK :]
        tried.write("shown.adf", image)
        word = "standard" if said == "standard" else "wrong" if said == wrong_sum else "custom"
        shown = json.dumps({"boot": word, "bytes": blocks.hex()}, separators=(",", ":")) + "\n"
        tried.rows(
            row(f"boot --show of {name}", "boot --show shown.adf", 0, boot_shown(said, blocks)),
            row(f"boot --show --json of {name}", "boot --show --json shown.adf", 0, shown),
        )
        booting = tried.run("info", "shown.adf").output.endswith(b"boot yes\n")
        tried.report.same(f"info of {name}", booting, said != wrong_sum)
        tried.stays(f"boot --show of {name} changes nothing", "shown.adf", image)
    stale = poked(poked(own + blank[2 * BLOCK :], 880, 78, bytes(4)), 880, 5, b"\x90\xa8\x8c\xd2")
    tried.write("shown.adf", stale)
    tried.rows(row("boot --show where the bitmap is rebuilt", "boot --show shown.adf", 0, boot_shown("custom, checksum right", own)))
    tried.stays("boot --show rebuilds no bitmap", "shown.adf", stale)
    other = b"PFS\1" + own[4:]
    for name, image in (("two blocks", own), ("two blocks and a byte", own + b"x"), ("a disk of another kind", other + bytes(1758 * BLOCK))):
        said = "custom, checksum right" if image[:3] == b"DOS" else wrong_sum
        tried.write("shown.adf", image)
        tried.rows(row(f"boot --show of {name}", "boot --show shown.adf", 0, boot_shown(said, image[: 2 * BLOCK])))
        piped = tried.run("boot", "--show", "-", input=image)
        tried.report.check(f"boot --show of {name} from a pipe", piped, 0, boot_shown(said, image[: 2 * BLOCK]).encode())
    tried.write("shown.adf", own[:-1])
    tried.rows(row("boot --show of a byte less than two blocks", "boot --show shown.adf", 3, "refused NotWholeBlocks 0\n", "1,023 bytes"))


def named_boots(tried: Commands) -> None:
    """`extract --damaged` and `extract --bundle` say what the boot block is, if there is one."""
    boot = boot_with(b"DOS\1", b"own")
    for name, front, said in (("none", b"DOS\1", ""), ("custom", boot, "adf_serve: boot block: custom, checksum right\n")):
        tried.write("named.adf", front + tried.content("ffs.adf")[len(front) :])
        for words, more in (("extract --damaged --list named.adf", NO_SUMS), (f"extract --bundle {name}.bundle named.adf", b"")):
            ran = tried.run(*words.split())
            tried.report.same(f"{words}: boot block {name}", (ran.status, ran.texts), (0, said.encode() + more))


def saved_boots(tried: Commands) -> None:
    """`boot --save`, and the way back."""
    tried.rows(
        row("boot --save of a blank image", "boot --save none.boot boots.adf"),
        row("boot --install before --save", "boot --install boots.adf"),
    )
    image = tried.content("boots.adf")
    tried.stays("boot --save of a blank image: the kind and zeros", "none.boot", b"DOS\1" + bytes(1020))
    tried.rows(row("boot --save", "boot --save saved.boot boots.adf"))
    tried.stays("boot --save writes the two blocks", "saved.boot", image[: 2 * BLOCK])
    tried.stays("boot --save leaves the image", "boots.adf", image)
    tried.rows(
        row("boot --clear before the way back", "boot --clear boots.adf"),
        row("boot with what was saved", "boot boots.adf saved.boot"),
    )
    tried.stays("the boot block is back", "boots.adf", image)
    tried.rows(
        row("blank of the other kind", "blank Work other.adf"),
        row("boot with what was saved from the other kind", "boot other.adf saved.boot"),
    )
    wanted = boot_with(b"DOS\0", ROOT_OF_FLOPPY + STANDARD)
    tried.report.expect("the kind stays, and the checksum is right", tried.content("other.adf")[: 2 * BLOCK] == wanted, "other bytes")
    saved = tried.content("saved.boot")
    tried.write("cut.boot", saved[:-1])
    os.symlink("nowhere", "link.boot")
    tried.rows(
        lacking("boot --save over a file", "boot --save saved.boot other.adf", "'saved.boot' already exists"),
        lacking("boot --save over its image", "boot --save boots.adf boots.adf", "'boots.adf' already exists"),
        lacking("boot --save through a link that leads nowhere", "boot --save link.boot boots.adf", "'link.boot' already exists"),
        lacking("boot --save over a directory", ["boot", "--save", str(tried.top), "boots.adf"], f"'{tried.top}' already exists"),
        lacking("boot --save in a folder that is not there", "boot --save none/x boots.adf", "cannot write 'none/x': no such directory"),
        lacking("boot --save under a file", "boot --save saved.boot/x boots.adf", "cannot write 'saved.boot/x': a part of the path is no directory"),
        lacking("boot --save of an image that is not there", "boot --save x.boot none.adf", "cannot read 'none.adf': no such file"),
        row("boot --save of a byte less than two blocks", "boot --save x.boot cut.boot", 3, NOT_BLOCKS, "1,023" + WHY_NOT_BLOCKS),
        row("boot --save of two blocks alone", "boot --save two.boot saved.boot"),
    )
    tried.stays("boot --save of two blocks writes them", "two.boot", saved)
    tried.report.check("boot --save to standard output", tried.run("boot", "--save", "-", "boots.adf"), 0, saved)
    tried.report.check("boot --save of a byte less than two blocks to standard output", tried.run("boot", "--save", "-", "cut.boot"), 3, NOT_BLOCKS.encode(), "1,023" + WHY_NOT_BLOCKS)
    tried.stays("boot --save writes over no file", "saved.boot", saved)
    tried.stays("boot --save writes over no image", "boots.adf", image)
    for name in ("x.boot", "nowhere", "-"):
        tried.absent(f"no file {name}", name)
    few = tried.run("boot", "--save", "few.boot", "boots.adf", before=partial(resource.setrlimit, resource.RLIMIT_FSIZE, (1000, 1000)))
    tried.report.check("boot --save past the limit on files", few, 2, b"", "cannot write 'few.boot': ", "ulimit")
    tried.absent("no file past the limit", "few.boot")


def boot_options(tried: Commands) -> None:
    """Options of `boot` that exclude each other, a file, or `--out`."""
    forms = {"--clear": "--clear", "--install": "--install", "--save": "--save x", "--show": "--show"}
    for one, words in forms.items():
        for other, more in forms.items():
            tried.rows(wrong(f"boot {one} {other}", f"boot {words} {more} none.adf", one, other, "Usage"))
        tried.rows(wrong(f"boot {one} with a file", f"boot {words} none.adf code", one, "FILE", "Usage"))
    for one in ("--save x", "--show"):
        tried.rows(wrong(f"boot {one} --out", f"boot {one} --out x none.adf", one.split()[0], "--out", "Usage"))
    tried.rows(
        wrong("boot --save without a file", "boot none.adf --save", "--save", "FILE"),
        wrong("boot --save without an image", "boot --save x", "IMAGE", "Usage"),
        wrong("boot --show without an image", "boot --show", "IMAGE", "Usage"),
        wrong("boot --json without --show", "boot --json none.adf", "--show", "Usage"),
        wrong("boot --install with a date that is none", "boot --install --date x none.adf", "'x' for '--date"),
        wrong("boot --show with a number that is none", "boot --show --ticks x none.adf", "'x' for '--ticks"),
    )
    tried.absent("options that exclude each other write nothing", "x")


# ---- Files that cannot be used ----


# The commands that only read an image, on a directory `d` and a file `f` in it.
READERS = [
    *("info IMAGE", "show IMAGE", "map IMAGE", "where IMAGE 880", "where --path d IMAGE", "check IMAGE", "list IMAGE", "print IMAGE f"),
    *("extract --to held.out IMAGE", "extract --bundle held.bundle IMAGE", "extract --damaged --list IMAGE", "undelete --list IMAGE", "serve IMAGE write"),
]


def readers_of_held_images(tried: Commands) -> None:
    """Each command that only reads an image says so if another one has it locked, and does its work."""
    tried.rows(row("an image to be held", "blank --ffs Work held.adf"), row("a directory in it", f"mkdir {AT} held.adf d"), row("a file in it", "add --as f held.adf -"))
    with open("held.adf", "rb") as held:
        fcntl.flock(held, fcntl.LOCK_EX)
        for words in READERS:
            ran = tried.run(*words.replace("IMAGE", "held.adf").split())
            told = ran.texts.count(b"'held.adf' is mounted or being changed: the state saved last is read")
            tried.report.expect(f"{words} of an image that is held", ran.status == 0 and told == 1, ran)
        for words in ("mkdir IMAGE x", "validate IMAGE", "boot IMAGE", "add IMAGE write"):
            ran = tried.run(*words.replace("IMAGE", "held.adf").split())
            tried.report.expect(f"{words} of an image that is held", ran.status == 2 and b"state saved last" not in ran.texts and HELD.encode() in ran.texts, ran)
    for name in ("held.out", "held.bundle"):
        shutil.rmtree(name)


def held_images(tried: Commands) -> None:
    """An image that another command has locked."""
    with open("moved.adf", "rb") as held:
        fcntl.flock(held, fcntl.LOCK_EX)
        tried.rows(
            lacking("mkdir in an image that is held", "mkdir moved.adf more", "'moved.adf'", HELD),
            lacking("blank over an image that is held", "blank Work moved.adf", "'moved.adf'", HELD),
            lacking("boot --install in an image that is held", "boot --install moved.adf", "'moved.adf'", HELD),
            lacking("mkdir --out over an image that is held", "mkdir ffs.adf more --out moved.adf", "'moved.adf'", HELD),
            row("check of an image that is held", "check moved.adf", 0, "ok\n", "'moved.adf'", "the state saved last is read"),
            row("boot --save of an image that is held", "boot --save held.boot moved.adf", 0, "", "'moved.adf'", "the state saved last is read"),
            row("boot --show of an image that is held", "boot --show moved.adf", 0, BLANK_SHOWN, "'moved.adf'", "the state saved last is read"),
            row("serve: a refused image goes before a held --out", "serve --out moved.adf write other", 3, NOT_BLOCKS, WHY_NOT_BLOCKS),
            lacking("serve: a missing script goes before a held --out", "serve --out moved.adf ffs.adf none", "cannot read 'none': no such file"),
            row("serve: the work goes before a held --out", "serve --out moved.adf ffs.adf other", 2, "1.1 0 209\n", "'moved.adf'", HELD),
        )


def missing_files(tried: Commands) -> None:
    before = tried.content("ffs.adf")
    for words in (*ON_IMAGES, *ON_BOOT_BLOCKS, *MAPS):
        words = words.replace("IMAGE", "none.adf")
        tried.rows(lacking(f"an image that is not there: {words}", words, "cannot read 'none.adf': no such file"))
    for command in ("info", "list"):
        tried.rows(
            lacking(f"{command} of a file that is not there", [command, "none.adf"], "cannot read 'none.adf': no such file"),
            lacking(f"{command} of a directory", [command, str(tried.top)], f"cannot read '{tried.top}': is a directory"),
        )
    unwritten, told = "cannot write 'none/x.adf': no such directory", "1.1 0 209\n"
    scripts = ["serve", "--out", "none.out", "ffs.adf", str(tried.top), "none"]
    under = "cannot write 'ffs.adf/x': a part of the path is no directory"
    full = "cannot write '/dev/full': the disk is full"
    tried.rows(
        lacking("mkdir --out in a folder that is not there", "mkdir moved.adf more --out none/x.adf", unwritten),
        lacking("serve of an image that is not there", "serve none.adf none", "cannot read 'none.adf': no such file"),
        lacking("serve of a script that is not there", "serve --out none.out ffs.adf other none", "cannot read 'none': no such file"),
        lacking("serve of a directory as a script", scripts, f"cannot read '{tried.top}': is a directory"),
        lacking("blank in a folder that is not there", "blank Work none/x.adf", unwritten),
        lacking("blank onto a full device", "blank Work /dev/full", full),
        row("serve --out in a folder that is not there", "serve --out none/x.adf ffs.adf other", 2, told, unwritten),
        row("serve --out under its image", "serve --out ffs.adf/x ffs.adf other", 2, told, under),
        row("serve --out onto a full device", "serve --out /dev/full ffs.adf other", 2, told, full),
    )
    tried.absent("nothing was written where a file was missing", "none.out")
    tried.stays("the image is as it was", "ffs.adf", before)


def errors_of_the_host(tried: Commands) -> None:
    """An error that this program has no words for is told in those of the host, without its number; a name that is not UTF-8 in its own."""
    os.symlink("loop", "loop")
    for name, number in (("n" * 256, errno.ENAMETOOLONG), ("loop", errno.ELOOP)):
        for words in ("info {}", "list {}", "check {}", "extract --bundle {} ffs.adf", "add ffs.adf {}", "blank Work {}", "mkdir --out {} ffs.adf x"):
            ran = tried.run(*words.format(name).split())
            tried.report.check(f"{words} of {name[:8]}", ran, 2, b"", f"cannot {'write' if 'Work' in words or '--out' in words else 'read'} '{name}': {os.strerror(number)}\n")
    os.remove("loop")
    os.mkdir("strange")
    open(b"strange/\xff", "wb").close()
    ran = tried.run("add", "ffs.adf", "strange")
    tried.report.check("add of a directory with a name that is not UTF-8", ran, 2, b"", "cannot read a file in 'strange': its name is not UTF-8\n")
    shutil.rmtree("strange")


def denied_files(tried: Commands) -> None:
    """Files and directories that this user may not use. Root gives up its right to use them all the same."""
    front = [] if os.geteuid() else ["setpriv", "--bounding-set=-dac_override,-dac_read_search"]
    if front and not shutil.which("setpriv"):
        tried.report.lacks("files that may not be used", "setpriv")
        return
    os.mkdir("locked")
    for name in ("denied.adf", "locked/in.adf"):
        shutil.copy("ffs.adf", name)
    tried.write("secret", b"x")
    before = tried.content("ffs.adf")
    modes = {"denied.adf": 0, "secret": 0, "locked": 0o555}
    for name, mode in modes.items():
        os.chmod(name, mode)
    unread, beside = "cannot read 'denied.adf': permission denied", "no file can be made beside it: permission denied"
    for words, told in (
        *((f"{it} denied.adf", unread) for it in ("info", "show", "check", "list", "extract", "boot --show")),
        *((f"{it} denied.adf x", unread) for it in ("print", "mkdir", "delete")),
        *((f"{it} secret", "cannot read 'secret': permission denied") for it in ("add ffs.adf", "add --as x ffs.adf", "boot ffs.adf", "serve ffs.adf")),
        ("blank Work locked/new.adf", f"cannot write 'locked/new.adf': {beside}"),
        ("mkdir locked/in.adf x", f"cannot write 'locked/in.adf': {beside}"),
        ("mkdir --out locked/new.adf ffs.adf x", f"cannot write 'locked/new.adf': {beside}"),
        ("extract --to locked/out moved.adf", "cannot write 'locked/out': permission denied"),
        ("extract --bundle locked/out moved.adf", "cannot write 'locked/out': permission denied"),
    ):
        tried.report.check(f"denied: {words}", tried.run(*words.split(), front=front), 2, b"", told)
    for name in modes:
        os.chmod(name, 0o755)
    tried.report.same("nothing is written where it is denied", os.listdir("locked"), ["in.adf"])
    tried.stays("and the image stays", "ffs.adf", before)


def first_faults(tried: Commands) -> None:
    """The first fault counts, in the order of the arguments: the arguments, the image and its check, the scripts one by
    one."""
    serve = "serve --out none.out"
    script = "cannot read 'none.b': no such file"
    tried.rows(
        wrong("serve: words before the image", f"{serve} --turns many none.adf none", "'many'", "--turns"),
        row("serve: a script that is taken for an image", f"{serve} write none", 3, NOT_BLOCKS, WHY_NOT_BLOCKS),
        lacking("serve: the first script that is not there", f"{serve} ffs.adf write none.b none.c", script),
    )


# ---- Images that are drawn by hand ----

DISK = "-1 0 82 1758 2 512 444f5301\nboot "
LOST = "-1 0 82 1758 3 512 444f5301\nboot no\n"
# The sum of 444F5301, 4E754E75 and 80000000 is 12C4A177, with the carry added back; two bitmap bits past the volume's
# end are set.
BOOT_CODE = "0.1=0xED3B5E88 0.3=0x4E754E75 1.127=0x80000000 881.0=0x0000C037 881.55=0xFFFFFFFF"
# Accepted images: the output of `check` and `info` for each, its longs, and its checksums.
ACCEPTED = [
    ("info-of-blank", "ok\n", DISK + "no\n", "", ""),
    ("a lost block", "ok\n", LOST, "881.1=0xFFFFFFF7", "881.0"),
    ("validated", "ok validated\n", DISK + "no\n", "880.78=1", "880.5"),
    ("rebuilt-bits", "ok validated\n", DISK + "no\n", "880.78=0 881.28=0xFFFF7FFF 881.1=0xFFFFFFF7", "880.5 881.0"),
    ("a boot sum whose carry comes round", "ok\n", DISK + "yes\n", "0.1=0xBBB0ACFE 0.2=0xFFFFFFFF", ""),
    ("boot-code", "ok\n", DISK + "yes\n", BOOT_CODE, ""),
    ("boot code without its last long", "ok\n", DISK + "no\n", "0.1=0xED3B5E88 0.3=0x4E754E75", ""),
]
# A directory `A` with a file `f` of 600 bytes in it.
LEVELS = """880.12=2 881.1=0xFFFFFFF0 2.0=2 2.1=2 2.17=3 2.108=0x01410000 2.125=880 2.127=2
    3.0=2 3.1=3 3.2=2 3.4=4 3.76=5 3.77=4 3.81=600 3.108=0x01660000 3.125=2 3.127=0xFFFFFFFD"""
# Directories `A` and `DP` in one hash chain, `B`, and one with the name byte E4, with dates at the limits of the
# calendar and all protection bits.
DATES = """880.12=10 880.13=12 880.31=13 881.1=0xFFFFF0FF
    10.0=2 10.1=10 10.80=15 10.105=8035 10.106=61 10.107=125 10.108=0x01410000 10.124=11 10.125=880 10.127=2
    11.0=2 11.1=11 11.80=112 11.105=2929974 11.106=1439 11.107=2999 11.108=0x02445000 11.125=880 11.127=2
    12.0=2 12.1=12 12.105=2929975 12.108=0x01420000 12.125=880 12.127=2
    13.0=2 13.1=13 13.106=1440 13.108=0x01E40000 13.125=880 13.127=2"""
LISTED_LEVELS = """Volume Work
     dir ---rwed 1978-01-01 00:00:00.00 A
     600 ---rwed 1978-01-01 00:00:00.00 A/f
"""
LISTED_DATES = """Volume Work
     dir ------- 2000-01-01 01:01:02.50 A
     dir sparwed 9999-12-31 23:59:59.98 DP
     dir ---rwed raw 2929975 0 0 B
     dir ---rwed raw 0 1440 0 \xe4
"""


def info_object(told: str) -> str:
    """The object for the lines of `info`."""
    state, blocks, used, size, kind = told.split()[2:7]
    numbers = {"state": int(state), "blocks": int(blocks), "used": int(used), "bytes_per_block": int(size), "disk_type": int(kind, 16)}
    return json.dumps({**numbers, "bootable": told.endswith("boot yes\n")}, separators=(",", ":")) + "\n"


def accepted_images(tried: Commands) -> None:
    """The output of `check`, `info` and `list` for each. No command changes its image."""
    blank = tried.content("ffs.adf")
    for name, checked, told, longs, sums in ACCEPTED:
        image = drawn(blank, longs, sums)
        tried.write("drawn.adf", image)
        tried.rows(
            row(f"{name}: check", "check drawn.adf", 0, checked),
            row(f"{name}: info", "info drawn.adf", 0, told),
            row(f"{name}: info --json", "info --json drawn.adf", 0, info_object(told)),
            row(f"{name}: list", "list drawn.adf", 0, "Volume Work\n"),
        )
        tried.stays(f"{name}: unchanged", "drawn.adf", image)
    tried.write("levels.adf", drawn(blank, LEVELS, "880.5 881.0 2.5 3.5"))
    tried.write("dates.adf", drawn(blank, DATES, "880.5 881.0 10.5 11.5 12.5 13.5"))
    tried.rows(
        row("list-two-levels", "list levels.adf", 0, LISTED_LEVELS),
        row("dates", "list dates.adf", 0, LISTED_DATES.encode("latin-1")),
    )


# The lists of the image of `told_entries`, and its objects.
LISTED_BYTES = """Volume Work
     dir spa---- 2000-01-01 01:01:02.50 A
     dir ---rwed raw 2929975 0 0 S
       0 sparwed 1978-01-01 00:00:00.00 S/caf\xe9
     600 s----e- 1978-01-01 23:59:59.98 S/f\x1b
       0 ---rwed 1978-01-01 00:00:00.00 t
"""
LISTED_LONG = """Volume Work
     dir hspa---- 2000-01-01 01:01:02 A "a "b" %1B\xe9%"
     dir ----rwed raw 2929975 0 0 S
       0 hsparwed 1978-01-01 00:00:00 S/caf\xe9
     600 -s----e- 1978-01-01 23:59:59 S/f%1B
       0 ----rwed 1978-01-01 00:00:00 t
"""
LISTED_OBJECTS = r"""{"path":"A","type":"directory","size":0,"blocks":1,"header":2,"bits":4294967295,"date":"2000-01-01 01:01:02.50","comment":"a \"b\" \u001bé%"}
{"path":"S","type":"directory","size":0,"blocks":1,"header":3,"bits":0,"date":"raw 2929975 0 0","comment":""}
{"path":"S/café","type":"file","size":0,"blocks":1,"header":4,"bits":4294967280,"date":"1978-01-01 00:00:00.00","comment":""}
{"path":"S/f\u001b","type":"file","size":600,"blocks":3,"header":5,"bits":77,"date":"1978-01-01 23:59:59.98","comment":""}
{"path":"t","type":"file","size":0,"blocks":1,"header":6,"bits":0,"date":"1978-01-01 00:00:00.00","comment":""}
"""


def told_entries(blank: bytes) -> bytes:
    """An empty directory with a comment and all bits, a directory with two files, whose names have the bytes E9 and 1B, and a
    file of the root. They have the blocks from 2 on, in this order, and the data of the large file those after them."""
    drawing = Drawing(blank)
    empty, full = drawing.entry(drawing.root, b"A"), drawing.entry(drawing.root, b"S")
    small, large = drawing.entry(full, b"caf\xe9", FILE), drawing.entry(full, b"f\x1b", FILE)
    drawing.entry(drawing.root, b"t", FILE)
    first, second = drawing.left.pop(), drawing.left.pop()
    comment = b'a "b" \x1b\xe9%'
    longs = {
        empty: {80: 0xFFFFFFFF, 105: 8035, 106: 61, 107: 125},
        full: {105: 2929975},
        small: {80: 0xFFFFFFF0},
        large: {80: 0x4D, 81: 600, 2: 2, 4: first, 77: first, 76: second, 106: 1439, 107: 2999},
    }
    for block, fields in longs.items():
        for at, value in fields.items():
            drawing.image.put(block, at, value)
    start = empty * BLOCK + 4 * 82
    drawing.image.data[start : start + 1 + len(comment)] = bytes([len(comment)]) + comment
    return drawing.done()


def forms_of_lists(tried: Commands) -> None:
    """Each form of `list`, of the root, of an empty directory, of files, and of paths that lead nowhere."""
    image = told_entries(tried.content("ffs.adf"))
    tried.write("told.adf", image)
    plain, long, objects = (it.splitlines(keepends=True) for it in (LISTED_BYTES, LISTED_LONG, LISTED_OBJECTS))
    letters = [it.replace("\x1b", "%1B") for it in plain]
    as_bytes = partial(str.encode, encoding="latin-1")
    tried.rows(
        row("list of each field", "list told.adf", 0, as_bytes(LISTED_BYTES)),
        row("list --letters of each field", "list --letters told.adf", 0, "".join(letters)),
        row("list --long of each field", "list --long told.adf", 0, LISTED_LONG),
        row("list --json of each field", "list --json told.adf", 0, LISTED_OBJECTS),
        row("list --long of a directory", "list --long told.adf Work:s", 0, "".join([long[0], *long[3:5]])),
        row("list --json of a directory", "list --json told.adf S", 0, "".join(objects[2:4])),
    )
    for name, head in (("list", plain[0]), ("list --letters", plain[0]), ("list --long", plain[0]), ("list --json", "")):
        tried.rows(
            row(f"{name} of an empty directory", f"{name} told.adf a", 0, head),
            row(f"{name} of no object", f"{name} told.adf S/none", 3, dos_refusal(name, 205, "S/none"), "object not found"),
            row(f"{name} below no directory", f"{name} told.adf none/x", 3, dos_refusal(name, 204, "none/x"), "directory not found"),
            row(f"{name} below a file", f"{name} told.adf t/x", 3, dos_refusal(name, 212, "t/x"), "required type"),
        )
    for at, path in ((3, "s/CAF\xe9"), (4, "S/F\x1b"), (5, "t")):
        tried.rows(
            row(f"list of the file {path!r}", ["list", "told.adf", path], 0, as_bytes(plain[0] + plain[at])),
            row(f"list --letters of the file {path!r}", ["list", "--letters", "told.adf", path], 0, letters[0] + letters[at]),
            row(f"list --long of the file {path!r}", ["list", "--long", "told.adf", path], 0, long[0] + long[at]),
            row(f"list --json of the file {path!r}", ["list", "--json", "told.adf", path], 0, objects[at - 1]),
        )
    for both in ("--long --json", "--json --long", "--letters --long", "--letters --json"):
        tried.rows(wrong(f"list {both}", f"list {both} none.adf", *both.split(), "Usage"))
    told = [json.loads(it) for it in tried.run("list", "--json", "told.adf").output.splitlines()]
    tried.report.same("list --json as JSON: a path", told[3]["path"], "S/f\x1b")
    tried.report.same("list --json as JSON: a comment", told[0]["comment"], 'a "b" \x1b\xe9%')
    tried.stays("lists change no image", "told.adf", image)


def refused_images(tried: Commands) -> None:
    """Refused images, with each command that reads one: the line of each, and on standard error why and the next command."""
    blank = tried.content("ffs.adf")
    tools = "has the Old File System in international mode (DOS\\2); `xdftool` of amitools reads it\n"
    mends = "has a wrong bitmap and no other fault; `adf_serve validate {0}` mends it\n"
    nexts = {
        "odd.adf": "is cut short; `adf_serve extract --damaged --blocks 1760 {0}` saves its files\n",
        "kind.adf": tools,
        "sum.adf": "is damaged; `adf_serve extract --damaged {0}` saves its files\n",
        "marked.adf": mends,
        "page.adf": mends,
    }
    few, many = " bytes are too few: a volume has 16 to 101,602 blocks of 512 bytes\n", " bytes are too many: a volume"
    for name, image, told, text in (
        ("empty.adf", b"", "TooFewBlocks 0", f"0{few}"),
        ("short.adf", blank[:7680], "TooFewBlocks 0", f"7,680{few}"),
        ("odd.adf", blank[:901119], "NotWholeBlocks 0", f"901,119{WHY_NOT_BLOCKS}"),
        ("cut.adf", blank[:1234], "NotWholeBlocks 0", f"1,234{WHY_NOT_BLOCKS}"),
        ("huge.adf", blank + bytes(52020736 - len(blank)), "TooManyBlocks 0", f"52,020,736{many}"),
        ("kind.adf", poked(blank, 0, 0, b"DOS\2"), "UnsupportedKind 0", "its file system is DOS\\2; only DOS\\0 (OFS) and DOS\\1 (FFS) are"),
        ("nodos.adf", poked(blank, 0, 0, b"\0"), "NotADosDisk 0", "not an AmigaDOS disk: its boot block begins with 00 4F 53 01"),
        ("sum.adf", poked(blank, 880, 100, b"\1"), "BadSum 880", "block 880, the root: its checksum is wrong (off by 01000000)\n"),
        ("marked.adf", drawn(blank, "881.28=0xFFFF7FFF", "881.0"), "MarkedFree 880", "it is in use but marked free (adf_serve validate mends"),
        ("page.adf", drawn(blank, "880.78=0 881.3=5", "880.5"), "BadSum 881", "its checksum is wrong"),
    ):
        tried.write(name, image)
        refused = f"refused {told}\n"
        texts = [text] if told.endswith(" 0") else [text, f"block {told.split()[1]}"]
        if name in nexts:
            texts.append(f"'{name}' {nexts[name].format(name)}")
        for words in ("check IMAGE", "info IMAGE", "list IMAGE", *ON_IMAGES):
            tried.rows(row(f"{words.split()[0]} of {name}", words.replace("IMAGE", name), 3, refusal(words, told), *texts))
        if name not in ("marked.adf", "page.adf"):
            tried.rows(*(row(f"{it} of {name}", f"{it} {name}", 3, refusal(it, told), *texts) for it in ("validate", "validate --json")))
        if len(image) < 2 * BLOCK:
            for words in (*ON_BOOT_BLOCKS, "boot --show --json IMAGE", "undelete --list --json IMAGE"):
                tried.rows(row(f"{words} of {name}", words.replace("IMAGE", name), 3, refusal(words, told), *texts))
            tried.absent("a file without two blocks saves no boot block", "none.bin")
        else:
            show, save = (it.replace("IMAGE", name) for it in ON_BOOT_BLOCKS)
            tried.rows(row(f"boot --show of {name}", show, 0, boot_shown("none", image[: 2 * BLOCK])), row(f"boot --save of {name}", save))
            tried.stays(f"boot --save of {name} writes the two blocks", "none.bin", image[: 2 * BLOCK])
            os.remove("none.bin")
        tried.stays(f"{name} stays", name, image)
        tried.rows(row(f"serve of {name}", ["serve", "--out", "none.out", name, "none"], 3, refused, *texts))
    tried.absent("a refused image writes nothing", "none.out")
    os.remove("huge.adf")


def stale_image(tried: Commands) -> None:
    """An image whose root says that its bitmap is not valid: long 78 of the root becomes 0, and its checksum grows by
    1."""
    image = poked(poked(tried.content("ffs.adf"), 880, 78, bytes(4)), 880, 5, b"\x90\xa8\x8c\xd2")
    tried.write("stale.adf", image)
    tried.rows(row("check of an image that is not validated", "check stale.adf", 0, "ok validated\n"))
    tried.stays("check changes no file", "stale.adf", image)
    serve = "serve --out valid.adf stale.adf other"
    tried.rows(row("serve of an image that is not validated", serve, 0, "1.1 0 209\n"))
    tried.stays("what serve wrote is validated", "valid.adf", tried.content("ffs.adf"))


# ---- What a person wants to know of a volume ----


# The letters of a terminal that are bold.
BOLD, AS_BEFORE = b"\x1b[1m", b"\x1b[0m"


def shown_text(volume: str, contents: str, created: str, changed: str, boot: str = "none", lost: str = "") -> str:
    """The text of `show`, by its lines. There is one for the lost blocks only if there are some."""
    if lost:
        contents += f"\n{lost}"
    return f"{volume}\n{contents}\ncreated {created}, changed {changed}\nboot block: {boot}\n"


def named(image: bytes, label: bytes) -> bytes:
    """An image of a floppy with another label."""
    changed = Image(image)
    start = 880 * BLOCK + 432
    changed.data[start : start + 31] = bytes([len(label)]) + label.ljust(30, b"\0")
    changed.settle(880)
    return bytes(changed.data)


def shown_volumes(tried: Commands) -> None:
    """`show` of volumes of each kind, as text and as JSON. The numbers of used and free blocks: a blank volume uses its root
    and its bitmap blocks, a file its header and one block for each 512 bytes (488 with OFS), a directory one block; all but the
    two boot blocks are used or free."""
    first, later = "1990-01-01 12:00:00", "1991-03-04 18:22:10"
    for words in (
        f"blank --ffs --date '{first}' Work show.adf",
        f"blank --date '{first}' Work show-ofs.adf",
        f"blank --hd --date '{first}' High show-hd.adf",
        f"blank --ffs --blocks 16 --date '{first}' Small show-16.adf",
        f"blank --ffs --blocks 101602 --date '{first}' Large show-large.adf",
    ):
        tried.rows(row(words, words))
    blank = tried.content("show.adf")
    ffs = "Work   FFS, double density, 1,760 blocks, bitmap valid"
    tried.rows(
        row("show of a blank volume", "show show.adf", 0, shown_text(ffs, "0 files, 0 directories, 1 KB used, 878 KB free", first, first)),
        row("show of OFS", "show show-ofs.adf", 0, shown_text(ffs.replace("FFS", "OFS"), "0 files, 0 directories, 1 KB used, 878 KB free", first, first)),
        row(
            *("show of high density", "show show-hd.adf", 0),
            shown_text("High   OFS, high density, 3,520 blocks, bitmap valid", "0 files, 0 directories, 1 KB used, 1,758 KB free", first, first),
        ),
        row(
            *("show of 16 blocks", "show show-16.adf", 0),
            shown_text("Small   FFS, 16 blocks, bitmap valid", "0 files, 0 directories, 1 KB used, 6 KB free", first, first),
        ),
        row(
            *("show of 101,602 blocks", "show show-large.adf", 0),
            shown_text("Large   FFS, 101,602 blocks, bitmap valid", "0 files, 0 directories, 13 KB used, 50,787 KB free", first, first),
        ),
    )
    os.remove("show-large.adf")
    tried.write("thousand", bytes(1000))
    Path("tree/inner").mkdir(parents=True)
    for at in range(3):
        tried.write(f"tree/inner/{at}", b"x")
    tried.rows(
        row("mkdir for show", ["mkdir", "--date", later, "show.adf", "s"]),
        row("show of one directory", "show show.adf", 0, shown_text(ffs, "0 files, 1 directory, 1 KB used, 877 KB free", first, later)),
        row("add for show", ["add", "--date", later, "show.adf", "thousand"]),
        row("show of one file", "show show.adf", 0, shown_text(ffs, "1 file, 1 directory, 3 KB used, 876 KB free", first, later)),
        row("add of a tree for show", ["add", "--date", later, "show.adf", "tree"]),
        row("show of more", "show show.adf", 0, shown_text(ffs, "4 files, 3 directories, 7 KB used, 872 KB free", first, later)),
    )
    members = {"name": "Work", "kind": "DOS\\1", "blocks": 1760, "validated": False, "files": 4, "directories": 3, "used": 14, "free": 1744}
    members.update({"created": f"{first}.00", "changed": f"{later}.00", "boot": "none"})
    members.update({"lost": 0, "lost_files": 0, "lost_directories": 0})
    shown = tried.content("show.adf")
    told = tried.run("show", "--json", "show.adf")
    tried.report.same("show --json: its members in order", list(json.loads(told.output).items()), list(members.items()))
    tried.report.same("show --json: one line", told.output.count(b"\n"), 1)
    tried.stays("show changes no image", "show.adf", shown)
    # Another label, another bitmap, dates out of the calendar, boot blocks.
    tried.write("label.adf", named(blank, b"a\x1b[1m \xe9%"))
    label = ffs.replace("Work", "a%1B[1m \xe9%")
    none = "0 files, 0 directories, 1 KB used, 878 KB free"
    tried.rows(row("show of a label with a control byte", "show label.adf", 0, shown_text(label, none, first, first)))
    tried.report.same("show --json of that label", json.loads(tried.run("show", "--json", "label.adf").output)["name"], "a\x1b[1m \xe9%")
    tried.write("rebuilt.adf", drawn(blank, "880.78=0", "880.5"))
    rebuilt = ffs.replace("bitmap valid", "bitmap not valid (rebuilt in memory)")
    tried.rows(row("show where the bitmap is rebuilt", "show rebuilt.adf", 0, shown_text(rebuilt, none, first, first)))
    tried.report.same("show --json where it is rebuilt", json.loads(tried.run("show", "--json", "rebuilt.adf").output)["validated"], True)
    tried.stays("show rebuilds no bitmap", "rebuilt.adf", drawn(blank, "880.78=0", "880.5"))
    tried.write("raw.adf", drawn(blank, "880.118=1 880.119=1440 880.120=2 880.121=4294967295", "880.5"))
    tried.rows(row("show of dates outside the calendar", "show raw.adf", 0, shown_text(ffs, none, "raw 4294967295 720 0", "raw 1 1440 2")))
    for said, word, blocks in (
        ("standard", "standard", boot_with(b"DOS\1", ROOT_OF_FLOPPY + STANDARD)),
        ("custom, checksum right", "custom", boot_with(b"DOS\1", ROOT_OF_FLOPPY + b"\x4e\x75")),
        ("custom, checksum wrong: not bootable", "wrong", b"DOS\1" + bytes(4) + ROOT_OF_FLOPPY + STANDARD),
    ):
        tried.write("booted.adf", blocks.ljust(2 * BLOCK, b"\0") + blank[2 * BLOCK :])
        tried.rows(row(f"show of a boot block: {said}", "show booted.adf", 0, shown_text(ffs, none, first, first, said)))
        tried.report.same(f"show --json of a boot block: {said}", json.loads(tried.run("show", "--json", "booted.adf").output)["boot"], word)


FILE_HEADER, DIRECTORY_HEADER = -3, 2


def with_lost(blank: bytes, lost: Iterable[int], headers: Dict[int, int]) -> bytes:
    """A blank floppy with blocks that are marked used and belong to nothing, and with sound headers of these types."""
    image = Image(blank)
    for block in lost:
        image.put(881, 1 + (block - 2) // 32, image.long(881, 1 + (block - 2) // 32) & ~(1 << (block - 2) % 32))
    image.settle(881, 0)
    for block, kind in headers.items():
        for at, value in ((0, 2), (1, block), (108, 0x01610000), (127, kind)):
            image.put(block, at, value)
        image.settle(block)
    return bytes(image.data)


def lost_blocks(tried: Commands) -> None:
    """`show` of volumes with lost blocks, and with sound headers among them, as text and as JSON. A header that is marked free, or
    with a wrong sum, is not counted, nor is a lost block of another kind."""
    first = "1990-01-01 12:00:00"
    tried.rows(row("a volume for lost blocks", ["blank", "--ffs", "--date", first, "Work", "unlost.adf"]))
    blank = tried.content("unlost.adf")
    two, four = {5: FILE_HEADER, 6: FILE_HEADER}, {5: FILE_HEADER, 6: DIRECTORY_HEADER, 7: FILE_HEADER, 8: DIRECTORY_HEADER}
    wrong = drawn(with_lost(blank, [5, 6], two), "5.81=1")
    extension = drawn(with_lost(blank, [5, 6], two), "5.0=16 6.0=8", "5.5 6.5")
    last = {1759: DIRECTORY_HEADER}
    rows: List[Tuple[str, bytes, int, str, int, int]] = [
        ("no block", blank, 0, "", 0, 0),
        ("a block", with_lost(blank, [5], {}), 1, "1 lost block", 0, 0),
        ("a file", with_lost(blank, [5], {5: FILE_HEADER}), 1, "1 lost block, 1 file among them", 1, 0),
        ("a directory", with_lost(blank, [1759], last), 1, "1 lost block, 1 directory among them", 0, 1),
        ("two files", with_lost(blank, range(5, 158), two), 153, "153 lost blocks, 2 files among them", 2, 0),
        ("a file and a directory", with_lost(blank, range(5, 9), {5: FILE_HEADER, 6: DIRECTORY_HEADER}), 4, "4 lost blocks, 1 file and 1 directory among them", 1, 1),
        ("two of both", with_lost(blank, range(2, 880), four), 878, "878 lost blocks, 2 files and 2 directories among them", 2, 2),
        ("two directories", with_lost(blank, [6, 8], four), 2, "2 lost blocks, 2 directories among them", 0, 2),
        ("free headers", with_lost(blank, [9], four), 1, "1 lost block", 0, 0),
        ("a wrong sum", wrong, 2, "2 lost blocks, 1 file among them", 1, 0),
        ("other kinds", extension, 2, "2 lost blocks", 0, 0),
        ("every block", with_lost(blank, [*range(2, 880), *range(882, 1760)], last), 1756, "1,756 lost blocks, 1 directory among them", 0, 1),
    ]
    ffs = "Work   FFS, double density, 1,760 blocks, bitmap valid"
    for name, image, blocks, line, files, directories in rows:
        tried.write("lost.adf", image)
        amounts = f"0 files, 0 directories, {(2 + blocks) // 2:,} KB used, {(1756 - blocks) // 2:,} KB free"
        tried.rows(row(f"show of lost blocks: {name}", "show lost.adf", 0, shown_text(ffs, amounts, first, first, lost=line)))
        told = json.loads(tried.run("show", "--json", "lost.adf").output)
        counted = {"lost": blocks, "lost_files": files, "lost_directories": directories}
        tried.report.same(f"show --json of lost blocks: {name}", list(told.items())[-3:], list(counted.items()))
    # A bitmap that is not valid is made anew, without lost blocks.
    tried.write("lost.adf", drawn(with_lost(blank, [5], {5: FILE_HEADER}), "880.78=0", "880.5"))
    none = "0 files, 0 directories, 1 KB used, 878 KB free"
    tried.rows(row("show without lost blocks where the bitmap is rebuilt", "show lost.adf", 0, shown_text(ffs.replace("valid", "not valid (rebuilt in memory)"), none, first, first)))


def with_runs(image: bytes) -> bytes:
    """A floppy with runs of one block, of four and of two that are marked used and belong to nothing. Each block has its number in each long."""
    runs = [34, 46, 47, 48, 49, 1758, 1759]
    data = bytearray(with_lost(image, runs, {}))
    for block in runs:
        data[BLOCK * block : BLOCK * (block + 1)] = block.to_bytes(4, "big") * 128
    return bytes(data)


def named_unaccounted(image: bytes) -> bytes:
    """The same floppy with a sound header among the lost blocks, of an empty file with the name of the directory for the others."""
    data = Image(poked(with_lost(image, [5], {5: FILE_HEADER}), 5, 108, b"\x0bunaccounted"))
    data.settle(5)
    return bytes(data.data)


def files_below(top: str) -> Dict[str, bytes]:
    """The bytes of each file below a directory, by its path there."""
    paths = [os.path.join(at, name) for at, _, names in os.walk(top) for name in names]
    return {os.path.relpath(it, top): Path(it).read_bytes() for it in paths}


def runs_written(tried: Commands) -> None:
    """`extract --damaged --unaccounted` writes each run of used blocks that belong to nothing to a file, in a directory whose name nothing
    has. Without the option, and where there is no such block, it writes none."""
    tried.rows(row("a volume for runs", f"blank --ffs {AT} Runs unlost.adf"), row("with a directory lost+found", f"mkdir {AT} --out taken.adf unlost.adf lost+found"))
    blank, taken = tried.content("unlost.adf"), tried.content("taken.adf")
    told, found = "unaccounted 7\n", "found whole lost+found/unaccounted\nunaccounted 7\n"
    beside = {"lost+found/unaccounted": b""}
    sizes = {"34-34": 1, "46-49": 4, "1758-1759": 2}
    rows: List[Tuple[str, bytes, str, Dict[str, bytes], str]] = [
        ("runs", with_runs(blank), told, {}, "lost+found/unaccounted"),
        ("runs beside a directory lost+found", with_runs(taken), told, {}, "lost+found-1/unaccounted"),
        ("runs beside a file of that name", named_unaccounted(with_runs(blank)), found, beside, "lost+found/unaccounted-1"),
        ("no runs", blank, "", {}, ""),
    ]
    for name, image, told, others, directory in rows:
        tried.write("runs.adf", image)
        wanted = {f"{directory}/{it}": b"".join(block.to_bytes(4, "big") * 128 for block in range(int(it.split("-")[0]), int(it.split("-")[1]) + 1)) for it in sizes}
        for more in ([], ["--unaccounted"], ["--unaccounted", "--json"]):
            ran = tried.run("extract", "--damaged", *more, "--to", "runs", "runs.adf")
            tried.report.same(f"{name} {' '.join(more)}: the status", ran.status, 0)
            if "--json" not in more:
                tried.report.same(f"{name} {' '.join(more)}: the lines", ran.output, told.encode())
            tried.report.same(f"{name} {' '.join(more)}: the files", files_below("runs"), {**others, **(wanted if more and directory else {})})
            if more and directory:
                times = {os.stat(os.path.join("runs", it)).st_mtime for it in (directory, *wanted)}
                tried.report.same(f"{name}: the dates", times, {252460800.0})
            shutil.rmtree("runs", ignore_errors=True)
    tried.write("runs.adf", with_runs(blank))
    tried.rows(row("runs with --meta", "extract --damaged --unaccounted --meta --to noted runs.adf", 0, "unaccounted 7\n", "46 to 49"))
    tried.report.same("runs have no notes", sorted(files_below("noted")), sorted(f"lost+found/unaccounted/{it}" for it in sizes))
    Path("stands/lost+found/unaccounted").mkdir(parents=True)
    tried.write("stands/lost+found/unaccounted/46-49", b"mine")
    tried.rows(lacking("a file stands in the place of a run", "extract --damaged --unaccounted --to stands runs.adf", "46-49"))
    tried.report.same("and nothing is written", files_below("stands"), {"lost+found/unaccounted/46-49": b"mine"})


def refusal(words: str, told: str) -> str:
    """What a command prints for a refused image."""
    kind, block = told.split()
    return refused_object(kind=kind, block=int(block)) if "--json" in words else f"refused {told}\n"


def dos_refusal(words: str, number: int, path: str) -> str:
    """What a command prints for a refusal by AmigaDOS."""
    return refused_object(number=number, path=path) if "--json" in words else f"refused {number} {path}\n"


def refused_object(**reason: Union[str, int]) -> str:
    """What a command that prints JSON prints where something is refused."""
    return json.dumps({"refused": reason}, separators=(",", ":")) + "\n"


def refused_shows(tried: Commands) -> None:
    """`show` of refused images: the line of each command, and on standard error what can be said."""
    blank = tried.content("ffs.adf")
    size = ", double density, 1,760 blocks"
    rows: List[Tuple[str, bytes, str, List[str]]] = [
        ("short.adf", blank[:7680], "TooFewBlocks 0", ["7,680 bytes are too few: a volume has 16 to 101,602 blocks of 512 bytes\n"]),
        ("odd.adf", blank[:901119], "NotWholeBlocks 0", [f"901,119{WHY_NOT_BLOCKS}", "block 880 fits 1,760 blocks; the file has 1,759 and 511 bytes\n"]),
        ("kind.adf", poked(blank, 0, 0, b"DOS\2"), "UnsupportedKind 0", [f"DOS\\2{size}\n", "block 0"]),
        ("nodos.adf", poked(blank, 0, 0, b"\0"), "NotADosDisk 0", [f"no AmigaDOS format{size}\n", "DOS"]),
        ("sum.adf", poked(blank, 880, 100, b"\1"), "BadSum 880", [f"FFS{size}\n", "block 880"]),
        ("marked.adf", drawn(blank, "881.28=0xFFFF7FFF", "881.0"), "MarkedFree 880", [f"FFS{size}\n", "block 880"]),
    ]
    for name, image, told, said in rows:
        tried.write(name, image)
        tried.rows(*(row(f"{it} of {name}", f"{it} {name}", 3, refusal(it, told), *said) for it in ("show", "show --json", "list --json")))
        tried.stays(f"show leaves {name}", name, image)
    tried.rows(
        row("list --json of no entry", ["list", "--json", "ffs.adf", 'a"b'], 3, refused_object(number=205, path='a"b'), 'a"b'),
        row("a rescue as JSON of no image", "extract --damaged --list --json short.adf", 3, refused_object(kind="TooFewBlocks", block=0), "7,680 bytes are too few"),
    )
    tried.rows(lacking("show of no file", "show none.adf", "none.adf"), wrong("show without an image", "show", "Usage"))


def on_terminal(tried: Commands, words: str, env: Variables = None) -> bytes:
    """What the program writes to a terminal. A terminal ends lines with two bytes."""
    ran, text = tried.on_terminal(1, *words.split(), env=env)
    if ran.status:
        raise Failed(f"{words} ends with {ran}")
    return text.replace(b"\r\n", b"\n")


def bold_letters(tried: Commands) -> None:
    """Bold letters on a terminal, and nowhere else."""
    plain = tried.run("show", "ffs.adf").output
    bold = plain.replace(b"Work", BOLD + b"Work" + AS_BEFORE, 1)
    tried.report.expect("show into a pipe has no bold letters", b"\x1b" not in plain)
    tried.report.same("show on a terminal has its label in bold letters", on_terminal(tried, "show ffs.adf"), bold)
    tried.report.same("show with NO_COLOR", on_terminal(tried, "show ffs.adf", {"NO_COLOR": "1"}), plain)
    tried.report.same("show with an empty NO_COLOR", on_terminal(tried, "show ffs.adf", {"NO_COLOR": ""}), bold)
    for words in ("show --json ffs.adf", "list ffs.adf", "list --letters ffs.adf", "list --json ffs.adf"):
        tried.report.same(f"{words} on a terminal", on_terminal(tried, words), tried.run(*words.split()).output)
    plain = LISTED_LONG.encode()
    bold = plain.replace(b" A ", b" " + BOLD + b"A" + AS_BEFORE + b" ", 1).replace(b" S\n", b" " + BOLD + b"S" + AS_BEFORE + b"\n", 1)
    words = "list --long told.adf"
    tried.report.same(f"{words} into a pipe", tried.run(*words.split()).output, plain)
    tried.report.same(f"{words} on a terminal has names of directories in bold letters", on_terminal(tried, words), bold)
    tried.report.same(f"{words} with NO_COLOR", on_terminal(tried, words, {"NO_COLOR": "1"}), plain)
    tried.report.same(f"{words} with an empty NO_COLOR", on_terminal(tried, words, {"NO_COLOR": ""}), bold)
    file = on_terminal(tried, f"{words} t")
    tried.report.same(f"{words} of a file on a terminal", file, tried.run(*words.split(), "t").output)


def sorted_lists(tried: Commands) -> None:
    """`list` in each order: the paths, by hand. Of a hash chain the order on the disk is that of the entries."""
    tried.rows(row("blank for sorted lists", "blank --ffs Work sorted.adf"), row("mkdir for sorted lists", "mkdir sorted.adf sub"))
    # The size and the date of each entry. Adding an entry sets the date of its directory, so the dates are set at the end.
    files = {"b": (700, "1990-01-01"), "A": (20, "1990-01-02"), "c": (20, "1990-01-02"), "D": (0, "1990-01-04")}
    files.update({"sub/z": (5, "1990-01-05"), "sub/Y": (900, "1990-01-06")})
    for path, (size, _) in files.items():
        tried.write("one", bytes(size))
        where, _, name = path.rpartition("/")
        tried.rows(row(f"add of {path}", ["add", "--as", name, "--to", where, "sorted.adf", "one"]))
    for path, date in [*((path, date) for path, (_, date) in files.items()), ("sub", "1999-01-01")]:
        tried.rows(row(f"date of {path}", ["date", "sorted.adf", path, date]))
    orders = {
        "name": ["A", "b", "c", "D", "sub", "sub/Y", "sub/z"],
        "size": ["b", "A", "c", "D", "sub", "sub/Y", "sub/z"],
        "date": ["sub", "sub/Y", "sub/z", "D", "A", "c", "b"],
    }

    def paths(*words: str) -> List[str]:
        return [json.loads(it)["path"] for it in tried.run("list", "--json", *words, "sorted.adf").output.splitlines()]

    disk = paths()
    tried.report.same("list --sort disk", paths("--sort", "disk"), disk)
    tried.report.same("list has all entries", sorted(disk), sorted(orders["name"]))
    for order, wanted in orders.items():
        tried.report.same(f"list --json --sort {order}", paths("--sort", order), wanted)
        for form in ("", "--letters", "--long"):
            lines = tried.run("list", *form.split(), "--sort", order, "sorted.adf").output.decode().splitlines()
            tried.report.same(f"list {form} --sort {order}", [it.split()[-1] for it in lines[1:]], wanted)
    lines = tried.run("list", "--long", "sorted.adf").output.decode().splitlines()
    tried.report.same("list --long is by name", [it.split()[-1] for it in lines[1:]], orders["name"])
    lines = tried.run("list", "--long", "--sort", "disk", "sorted.adf").output.decode().splitlines()
    tried.report.same("list --long --sort disk", [it.split()[-1] for it in lines[1:]], disk)
    ran = tried.run("list", "--json", "--sort", "size", "sorted.adf", "sub")
    tried.report.same("list --sort of a directory", [json.loads(it)["path"] for it in ran.output.splitlines()], ["sub/Y", "sub/z"])
    tried.rows(
        wrong("list --sort of another word", "list --sort colour none.adf", "'colour' for '--sort <KEY>': name, size, date or disk is expected"),
        wrong("list --sort of a word in upper case", "list --sort Size none.adf", "'Size' for '--sort <KEY>'"),
        wrong("list --sort of no word", "list none.adf --sort", "--sort <KEY>"),
        wrong("list --sort twice", "list --sort size --sort date none.adf", "--sort"),
    )


# ---- The first blocks of a file as its image ----

# What stands behind the image: 44 blocks, as of a floppy of 82 cylinders, and bytes that are no whole block.
BEHIND = bytes(range(256)) * 88 + b"the rest"
# Commands that read an image. `{}` is the image file, with the option before it.
READING = [
    *("info {}", "show {}", "show --json {}", "map {}", "map --json {}", "where {} 0 1 2 880 881 882 1759", "where --json {} 880"),
    *("where --path d/f {}", "check {}", "check --all {}", "check --json {}", "check --filler {}", "list {}", "list --long {} d"),
    *("print {} d/f", "print {} d", "boot --show {}", "undelete --list {}", "extract --damaged --list {}", "where {} 1760", "list {} none"),
]
# Commands that change an image, each the one before.
CHANGING = [
    *("mkdir {} e", "add --to e --date 1990-01-01 {} one", "rename {} e/one two", "protect {} two +s", "comment {} two text", "delete {} d/f"),
    *("relabel {} Other", "date {} two 1990-01-01", "boot --install {}", "boot --clear {}", "validate {}"),
]


def front_files(tried: Commands) -> bytes:
    """The files for these parts: the image alone, and with bytes behind it. Returns the image."""
    tried.write("one", b"1")
    for words in (f"blank --ffs {AT} Front front.adf", f"mkdir {AT} front.adf d", f"add {AT} --as f --to d front.adf one", f"delete {AT} front.adf d/f"):
        tried.rows(row(words, words))
    tried.rows(row("a file in the front", f"add {AT} --as f --to d front.adf one"))
    front = tried.content("front.adf")
    tried.write("dump.adf", front + BEHIND)
    return front


def told_of_front(ran: Ran) -> Ran:
    """A run over dump.adf as one over front.adf would be told of."""
    return Ran(ran.status, *(it.replace(b"--blocks 1760 dump.adf", b"front.adf").replace(b"dump.adf", b"front.adf") for it in (ran.output, ran.texts)))


def first_blocks(tried: Commands) -> None:
    """With `--blocks 1760` each command says of dump.adf what it says of front.adf, which are its first 1,760 blocks."""
    front = front_files(tried)
    for it in READING:
        plain, ran = tried.run(*it.format("front.adf").split()), told_of_front(tried.run(*it.format("--blocks 1760 dump.adf").split()))
        tried.report.same(f"--blocks: {it}", ran, plain)
    image = Image(front)
    image.put(880, 0, 3)
    tried.write("front.adf", bytes(image.data))
    tried.write("dump.adf", bytes(image.data) + BEHIND)
    for it in READING:
        plain, ran = tried.run(*it.format("front.adf").split()), told_of_front(tried.run(*it.format("--blocks 1760 dump.adf").split()))
        tried.report.same(f"--blocks of a refused image: {it}", ran, plain)
    tried.write("front.adf", front)
    tried.write("dump.adf", front + BEHIND)
    for words in ("extract --meta --to {}", "extract --bundle {}", "undelete --to {}", "extract --damaged --to {}"):
        for name in ("front", "dump"):
            shutil.rmtree(f"{name}.out", ignore_errors=True)
            option = ["--blocks", "1760"] if name == "dump" else []
            tried.run(*words.format(f"{name}.out").split(), *option, f"{name}.adf")
        ours, theirs = ({it.relative_to(top): it.read_bytes() for it in Path(top).rglob("*") if it.is_file()} for top in ("dump.out", "front.out"))
        tried.report.expect(f"--blocks: {words}", ours == theirs and bool(ours or "undelete" in words), (list(ours), list(theirs)))
    tried.rows(row("boot --save of the first blocks", "boot --save saved.bin --blocks 1760 dump.adf"))
    tried.report.same("the saved boot block", tried.content("saved.bin"), front[:1024])
    tried.stays("what is read stays", "dump.adf", front + BEHIND)


def first_blocks_of_several(tried: Commands) -> None:
    """`check --blocks` takes the first blocks of each image. One that is shorter is not checked."""
    front = tried.content("front.adf")
    os.mkdir("fronts")
    tried.write("fronts/a.adf", front + BEHIND)
    tried.write("fronts/b.adf", front)
    tried.write("fronts/c.adf", front[:-BLOCK])
    why = ("cannot read 'fronts/c.adf': it has fewer than 1,760 blocks", "3 images: 2 ok, 0 refused, 1 unreadable")
    tried.rows(
        row("check --blocks of a directory", "check --blocks 1760 fronts", 2, "fronts/a.adf\tok\nfronts/b.adf\tok\n", *why),
        row("check --blocks of two files", "check --blocks 1760 fronts/a.adf fronts/b.adf", 0, "fronts/a.adf\tok\nfronts/b.adf\tok\n", "2 images: 2 ok"),
    )


def changed_first_blocks(tried: Commands) -> None:
    """A command that changes the first blocks writes back what is behind them, also to the file of `--out`."""
    front = tried.content("front.adf")
    tried.write("dump.adf", front + BEHIND)
    for it in CHANGING:
        name, _, rest = it.partition(" ")
        at = "" if "--date" in rest else AT
        ran = tried.run(*f"{name} {at} {rest.format('front.adf')}".split())
        tried.report.same(f"--blocks: {it}", told_of_front(tried.run(*f"{name} {at} {rest.format('--blocks 1760 dump.adf')}".split())), ran)
        tried.report.expect(f"the image is changed: {it}", ran.status == 0, ran)
        tried.stays(f"what is behind stays: {it}", "dump.adf", tried.content("front.adf") + BEHIND)
    front = tried.content("front.adf")
    tried.write("makes-d", b'mkdir 0 "new"\n')
    tried.rows(
        row("--out with what is behind", f"mkdir --out out.adf {AT} --blocks 1760 dump.adf new"),
        row("the same image alone", f"mkdir --out alone.adf {AT} front.adf new"),
        row("a refused change", f"mkdir {AT} --blocks 1760 dump.adf d", 3, "refused 203 d\n", "'d'"),
        row("a refused change to a file", f"mkdir --out none.adf {AT} --blocks 1760 dump.adf d", 3, "refused 203 d\n", "'d'"),
    )
    tried.done("serve", "--out", "served.adf", *AT.split(), "--blocks", "1760", "dump.adf", "makes-d")
    tried.stays("the file of --out", "out.adf", tried.content("alone.adf") + BEHIND)
    tried.stays("the file of serve --out", "served.adf", tried.content("alone.adf") + BEHIND)
    tried.stays("the file that is read", "dump.adf", front + BEHIND)
    tried.absent("nothing is written after a refusal", "none.adf")
    tried.rows(
        row("a bundle", "extract --bundle front.bundle front.adf"),
        row("an empty volume", f"blank --ffs {AT} Empty empty.adf"),
    )
    tried.write("empties.adf", tried.content("empty.adf") + BEHIND)
    tried.rows(
        row("add --bundle", "add --bundle front.bundle empty.adf"),
        row("add --bundle with what is behind", "add --bundle front.bundle --blocks 1760 empties.adf"),
    )
    tried.stays("what is behind a bundle's volume stays", "empties.adf", tried.content("empty.adf") + BEHIND)


def wrong_first_blocks(tried: Commands) -> None:
    """`--blocks` that is no number, no size of a volume, or more than the file has: nothing is changed."""
    before = tried.content("dump.adf")
    for command in ("info {} dump.adf", "check {} dump.adf", "list {} dump.adf", "mkdir {} dump.adf x", "extract --damaged --list {} dump.adf"):
        for number in ("", "x", "15", "101603", "+1760", "-1", "0x6e0", "1760.0", "99999999999999999999"):
            words = command.format(f"--blocks={number}")
            tried.rows(wrong(words, words, f"'{number}' for '--blocks <N>'", "16 to 101,602"))
        tried.rows(wrong(f"twice: {command}", command.format("--blocks 1760 --blocks 1760"), "--blocks", "Usage"))
    short = "cannot read 'dump.adf': it has fewer than 1,805 blocks"
    for command in ("info {}", "show {}", "map {}", "where {} 1", "check {}", "list {}", "print {} x", "extract {}", "undelete {}",
                    "extract --bundle x {}", "mkdir {} x", "add {} one", "boot --clear {}", "validate {}", "serve --out none.adf {} one"):
        words = command.format("--blocks 1805 dump.adf")
        tried.rows(lacking(words, words, short))
    # (two blocks are all that it reads)
    tried.rows(row("boot --show of more blocks than there are", "boot --show --blocks 1805 dump.adf", 0, tried.run("boot", "--show", "dump.adf").output))
    tried.stays("a wrong --blocks changes nothing", "dump.adf", before)
    tried.absent("and writes nothing", "none.adf")
    Path("long.adf").write_bytes(tried.content("front.adf"))
    os.truncate("long.adf", 101602 * BLOCK)
    tried.rows(row("a file of 101,602 blocks", "check --blocks 1760 long.adf", 0, "ok\n"))
    os.truncate("long.adf", 101603 * BLOCK)
    tried.rows(row("a file of 101,603 blocks", "check --blocks 1760 long.adf", 3, "refused TooManyBlocks 0\n", "are too many: a volume"))
    os.remove("long.adf")


def missing_blocks(tried: Commands) -> None:
    """`extract --damaged --blocks` takes what is missing of a file as zeros, and says so."""
    front = tried.content("front.adf")
    for count in (0, 1, BLOCK, 880 * BLOCK, 881 * BLOCK + 100, 1000 * BLOCK, 1760 * BLOCK - 1):
        tried.write("short.adf", front[:count])
        tried.write("full.adf", front[:count] + bytes(1760 * BLOCK - count))
        full, ran = (tried.run("extract", "--damaged", "--list", *words) for words in (["full.adf"], ["--blocks", "1760", "short.adf"]))
        said = f"adf_serve: 'short.adf' has {count:,} of the 901,120 bytes of its 1,760 blocks: missing bytes are read as zeros\n".encode()
        tried.report.same(f"--damaged --blocks of {count} bytes", ran, Ran(full.status, full.output, said + full.texts))
        tried.stays("a short file stays", "short.adf", front[:count])
    plain, ran = (tried.run("extract", "--damaged", "--list", *words, "front.adf") for words in (list[str](), ["--blocks", "1760"]))
    tried.report.same("a whole file has no such line", ran, plain)


def bad_blocks(tried: Commands) -> None:
    """`--bad` takes a list of blocks. A line that names no block of the image is told by its number, and nothing is written."""
    tried.write("good.txt", b"\r\n  # none\n\t 3 # c0.h0.s0\nc79.h1.s10")
    tried.rows(row("a list of bad blocks", f"blank {AT} Bad bad.adf"), row("that names free blocks", "extract --damaged --list --bad good.txt bad.adf"))
    for line in (b"x", b"3 4", b"-1", b"1760", b"c0.h0.s11", b"c80.h0.s0", b"c0.h2.s0", b"03", b"3\xff", b"99999999999"):
        tried.write("wrong.txt", b"# one\n\n5\n" + line + b"\n7\nnone\n")
        for words in ("--list", "--to none"):
            tried.rows(lacking(f"--bad: {line!r}", f"extract --damaged {words} --bad wrong.txt bad.adf", "'wrong.txt', line 4: the number of one of the image's 1,760 blocks is expected"))
    tried.absent("and nothing is written", "none")
    tried.rows(lacking("--bad of no file", "extract --damaged --list --bad missing.txt bad.adf", "cannot read 'missing.txt'"))
    for words in ("map --bad {} bad.adf", "map --tracks --bad {} bad.adf", "where --json --bad {} bad.adf 880"):
        tried.rows(lacking(words.format("wrong.txt"), words.format("wrong.txt"), "'wrong.txt', line 4: the number of one of the image's 1,760 blocks is expected"))
        tried.rows(lacking(words.format("missing.txt"), words.format("missing.txt"), "cannot read 'missing.txt'"))
    tried.rows(row("where with a list of bad blocks", "where --bad good.txt bad.adf 3 880", 0, "3  cyl 0 head 0 sector 3  free\n3  unread\n880  cyl 40 head 0 sector 0  root\n"))
    tried.rows(
        lacking("check --bad", "check --bad wrong.txt bad.adf", "'bad.adf' is not checked: line 4 of the list of bad blocks names none of its 1,760 blocks"),
        lacking("check --bad of no file", "check --bad missing.txt bad.adf", "cannot read 'missing.txt'"),
        row("check with a list of free blocks", "check --bad good.txt bad.adf", 0, "ok\n"),
        wrong("check --bad of two images", "check --bad good.txt bad.adf bad.adf", "'--bad <FILE>'", "only one FILE"),
        wrong("check --bad beside a list of names", "check --bad good.txt --from names bad.adf", "'--bad <FILE>'", "only one FILE"),
        wrong("check --bad of a list of names", "check --bad good.txt --from names", "'--bad <FILE>'", "only one FILE"),
        wrong("check --bad of a directory", "check --bad good.txt .", "--bad lists the blocks of one image, and FILE is a directory"),
    )
    tried.rows(wrong("--bad without --damaged", "extract --bad good.txt bad.adf", "--damaged", "Usage"))


# ---- Standard output that cannot be written ----


def refused_output(tried: Commands) -> None:
    full = os.open("/dev/full", os.O_WRONLY)
    reader, unread = os.pipe()
    os.close(reader)
    outputs: Dict[str, Callable[[], None]] = {
        "onto a full device": redirected(full, 1),
        "onto a closed output": partial(os.close, 1),
        "into a pipe that nobody reads": redirected(unread, 1),
    }
    for words in ("info ffs.adf", "check ffs.adf", "list ffs.adf", "boot --show ffs.adf", "check kind.adf", "serve --out full.adf ffs.adf write"):
        for name, before in outputs.items():
            ran = tried.run(*words.split(), before=before)
            # (a reader that has seen enough, as `head`, needs no text)
            wanted = (2, b"", "nobody reads" not in name)
            tried.report.same(f"{words} {name}", (ran.status, ran.output, UNWRITTEN in ran.texts.decode()), wanted)
    for words in ("list ffs.adf", "map ffs.adf"):
        tried.report.check(f"{words}: no text for who reads no more", tried.run(*words.split(), before=outputs["into a pipe that nobody reads"]), 2)
    entry = "Volume Work\n       1 ---rwed 1978-01-01 00:00:00.00 f\n"
    tried.rows(row("the image is written where output is refused", "list full.adf", 0, entry))
    ran = tried.run(input=b"diskinfo\n", before=outputs["onto a full device"])
    tried.report.check("a script onto a full device", ran, 2, b"", UNWRITTEN)
    ran = tried.run(input=b"diskinfo\n", before=outputs["into a pipe that nobody reads"])
    tried.report.check("a script into a pipe that nobody reads", ran, 2)
    ran = tried.run(before=partial(os.close, 0))
    tried.report.check("a script from a closed input", ran, 2, b"", "standard input cannot be read")
    os.close(full)
    os.close(unread)


PARTS: List[Callable[[Commands], None]] = [
    *(blank_images, moments, written_moments, wrong_words, wrong_numbers, wrong_dates),
    *(wrong_words_for_files, words_too_many_and_wrong_letters, refused_names),
    *(tips, help_in_groups, versions, usage_lines, clients, faulty_scripts, explained_lines, at_a_terminal, turns, growths, many_clients),
    *(directories, directories_on_the_way, files_under_names, closed_input, images_from_input, images_to_output, turned_words, refused_changes, changes_beside, precious_files),
    *(named_entries, protect_words, boot_blocks),
    *(standard_boot, shown_boots, saved_boots, named_boots, boot_options),
    *(held_images, readers_of_held_images, missing_files, errors_of_the_host, denied_files, first_faults),
    *(accepted_images, forms_of_lists, refused_images, stale_image, refused_output),
    *(shown_volumes, lost_blocks, runs_written, refused_shows, bold_letters, sorted_lists),
    *(first_blocks, first_blocks_of_several, changed_first_blocks, wrong_first_blocks, missing_blocks, bad_blocks),
]


if __name__ == "__main__":
    sys.exit(try_all(sys.argv[1:], Commands, *PARTS))
