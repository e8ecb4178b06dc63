"""Tests the command line: help with examples, exit statuses, what is printed where, and what is imported."""
from __future__ import annotations

import io
import json
import os
import pty
import subprocess
import sys
import unittest
from unittest import mock

import jiponuwha as jip
from jiponuwha.tool import cli
from jiponuwha.tool.console import Console
from jiponuwha.tool.errors import lacking
from jiponuwha.tool.escape import shown

from .tool_help import ToolCase

ONE_DISK = ("ls", "tree", "cat", "hex", "cp", "mv", "rm", "mkdir", "touch", "protect", "note", "label", "new", "rescue", "open", "close")
# What starts slowly, and is imported by the commands that need it alone.
SLOW = ("rich", "jinja2", "distributed", "sqlite3", "zipfile", "gzip", "subprocess", "concurrent.futures")


class Lines(ToolCase):
    def test_each_command_has_help_with_an_example_that_can_be_read(self) -> None:
        for name in ONE_DISK:
            text = self.done(name, "--help").output
            self.assertIn(f"usage: jip {name}", text)
            examples = [it.strip() for it in text.partition("example")[2].splitlines() if it.strip().startswith("jip ")]
            self.assertTrue(any(it.startswith(f"jip {name} ") for it in examples), name)

    def test_changes_have_a_dry_run_and_quiet(self) -> None:
        for name in ONE_DISK[4:]:
            text = self.done(name, "--help").output
            self.assertIn("-n, --dry-run", text, name)
            self.assertIn("-q, --quiet", text, name)

    def test_the_list_of_modules_has_each_command_once(self) -> None:
        names = [it for commands in cli.MODULES.values() for it in commands]
        self.assertEqual(len(names), len(set(names)))
        for module, commands in cli.MODULES.items():
            made = cli.parser([module])
            choices = next(it.choices for it in made._actions if it.dest == "command")
            self.assertEqual(sorted(choices or ()), sorted(commands), module)

    def test_statuses(self) -> None:
        self.floppy()
        self.assertEqual(self.jip("--help").status, 0)
        self.assertEqual(self.done("--version").lines, [f"jip {jip.version()}"])
        self.refused(1, "usage: jip", "list")
        self.refused(1, "usage: jip")
        self.refused(1, "--nope", "ls", "--nope", "work.adf")
        self.refused(1, "jip ls --help", "ls")
        self.refused(2, "No such file", "ls", "none.adf")
        self.refused(3, "refused", "ls", "work.adf:none")
        with mock.patch("jiponuwha.Volume.entries", side_effect=MemoryError):
            self.refused(2, "out of memory", "ls", "work.adf")

    def test_a_missing_library_says_how_to_install_it(self) -> None:
        text = str(lacking("jinja2", "python3-jinja2", "tool"))
        self.assertIn("pip install 'jiponuwha[tool]'", text)
        self.assertIn("apt install python3-jinja2", text)

    def test_a_closed_pipe_ends_without_a_message(self) -> None:
        self.floppy(**{f"f{it}": b"" for it in range(300)})
        words = [sys.executable, "-m", "jiponuwha.tool", "ls", "-R", *["work.adf"] * 40]
        ran = subprocess.Popen(words, stdout=subprocess.PIPE, stderr=subprocess.PIPE, env=self.environment())
        assert ran.stdout is not None and ran.stderr is not None
        ran.stdout.close()
        self.assertEqual(ran.stderr.read(), b"")
        ran.stderr.close()
        self.assertEqual(ran.wait(), 2)

    def test_a_full_output_is_an_error(self) -> None:
        if not os.path.exists("/dev/full"):
            self.skipTest("there is no /dev/full")
        self.floppy()
        with open("/dev/full", "wb") as full:
            ran = subprocess.run([sys.executable, "-m", "jiponuwha.tool", "ls", "work.adf"], stdout=full, stderr=subprocess.PIPE, env=self.environment())
        self.assertEqual((ran.returncode, ran.stderr), (2, b"jip: No space left on device\n"))

    def environment(self) -> dict[str, str]:
        package = os.path.dirname(os.path.dirname(os.path.abspath(jip.__file__)))
        return {**os.environ, "PYTHONPATH": package, "PYTHONDONTWRITEBYTECODE": "1"}

    def test_ls_imports_nothing_slow(self) -> None:
        self.floppy()
        # (what a start of Python on this machine loads by itself does not count)
        program = (
            "import sys\nbefore = {*sys.modules}\nfrom jiponuwha.tool.cli import main\nmain(['ls', 'work.adf'])\n"
            f"print([it for it in {SLOW!r} if it in sys.modules and it not in before], file=sys.stderr)"
        )
        ran = subprocess.run([sys.executable, "-c", program], capture_output=True, text=True, env=self.environment())
        self.assertEqual(ran.stderr, "[]\n")


class Shown(ToolCase):
    def test_escapes(self) -> None:
        self.assertEqual(shown("a\tb\x7f\x80\x9f\xa0\xad\xff%"), "a%09b%7F%80%9F\xa0\xad\xff%")
        self.assertEqual(shown("\u202egpj.exe\u2028\ufeff\ud800"), "%E2%80%AEgpj.exe%E2%80%A8%EF%BB%BF%ED%A0%80")
        self.assertEqual(shown(os.fsdecode(b"a\xff\x1b")), "a%FF%1B")
        self.assertEqual(shown("\u20ac\u65e5"), "\u20ac\u65e5")

    def test_nothing_that_is_printed_has_controls(self) -> None:
        out, errors = io.StringIO(), io.StringIO()
        console = Console(out, errors)
        hostile = "".join(map(chr, range(256))) + "\u202e\udc80"
        console.line(hostile)
        console.parts((hostile, "bold"), (hostile, None))
        console.note(hostile)
        console.error(hostile)
        console.table(["a", "b"], [[hostile, 1], ["x", hostile]], right=[1])
        console.json({hostile: [hostile]})
        text = out.getvalue() + errors.getvalue()
        self.assertFalse([it for it in text if it < " " and it != "\n" or "\x7f" <= it <= "\x9f" or it in "\u202e\udc80"])
        self.assertEqual(json.loads(out.getvalue().splitlines()[-1]), {hostile: [hostile]})

    def test_a_plain_table(self) -> None:
        out = io.StringIO()
        Console(out).table(["Name", "Size"], [["a", 1], ["long name", 1234]], right=[1])
        self.assertEqual(out.getvalue(), "Name       Size\na             1\nlong name  1234\n")

    def on_terminal(self, *words: str, **variables: str) -> bytes:
        """Runs the tool with a terminal as its standard output, and returns what the terminal got."""
        ours, theirs = pty.openpty()
        package = os.path.dirname(os.path.dirname(os.path.abspath(jip.__file__)))
        environment = {**os.environ, "PYTHONPATH": package, "TERM": "xterm", "COLUMNS": "80", **variables}
        subprocess.run([sys.executable, "-m", "jiponuwha.tool", *words], stdout=theirs, stdin=subprocess.DEVNULL, env=environment, check=True)
        os.close(theirs)
        text = b""
        try:
            while more := os.read(ours, 65536):
                text += more
        except OSError:
            pass
        os.close(ours)
        return text

    def test_colours_on_a_terminal_only(self) -> None:
        self.floppy(hello=b"hi")
        self.assertNotIn("\x1b", self.done("ls", "work.adf").output)
        self.assertIn(b"\x1b[1mDocs/\x1b[0m", self.on_terminal("ls", "work.adf", NO_COLOR=""))
        plain = self.on_terminal("ls", "work.adf", NO_COLOR="1")
        self.assertNotIn(b"\x1b", plain)
        # (names stand in columns)
        self.assertEqual(plain.splitlines()[0].split(), [b"Docs/", b"hello", b"S/"])

    def test_a_table_on_a_terminal_takes_no_markup(self) -> None:
        program = "from jiponuwha.tool.console import Console; Console().table(['Name'], [['[red]x[/red]\\x1b[2J'], ['[/]']])"
        ours, theirs = pty.openpty()
        package = os.path.dirname(os.path.dirname(os.path.abspath(jip.__file__)))
        environment = {**os.environ, "PYTHONPATH": package, "TERM": "xterm", "NO_COLOR": "1"}
        subprocess.run([sys.executable, "-c", program], stdout=theirs, env=environment, check=True)
        os.close(theirs)
        text = os.read(ours, 65536).decode()
        os.close(ours)
        self.assertIn("[red]x[/red]%1B[2J", text)
        self.assertIn("[/]", text)


if __name__ == "__main__":
    unittest.main()
