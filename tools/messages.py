#!/usr/bin/env python3
"""Writes docs/MESSAGES.md: every text that the program adf_serve prints on standard error, from its sources.

    tools/messages.py            writes it
    tools/messages.py --check    prints what of it is stale, and which text has no advice; the status is then 1

A text is found by its place in the code: `#[error(..)]`, `write!` of a `Display`, `format_args!` of a printed line, and in some
crates `format!`, arms of a `match` and constants. The advice for a text is that of the first rule below which it matches.
"""
from __future__ import annotations

import re
import sys
from pathlib import Path
from typing import Dict, Iterator, List, NamedTuple, Tuple

TOP = Path(__file__).resolve().parent.parent
PAGE = TOP / "docs/MESSAGES.md"
STRING = r'"((?:[^"\\]|\\.|\\\n)*)"'
IN_ALL = [rf"#\[error\(\s*{STRING}", rf"\bwrite!\(\s*f,\s*{STRING}", rf"\bformat_args!\(\s*{STRING}"]
ARMS = rf"=>\s*(?:\{{\s*)?{STRING}"
CONSTANTS = rf"(?:const [A-Z]+: &str\s*=|expected:|\blet what =)\s*{STRING}"
FORMAT = rf"\bformat!\(in [a-z.]+;\s*{STRING}"
WHOLE = rf"\bString::from_str\(\s*alloc,\s*{STRING}"


class Part(NamedTuple):
    """A part of the page: its heading, what its texts are, the exit status with them, and its crates with more patterns."""

    heading: str
    said: str
    status: str
    crates: Dict[str, List[str]]


PARTS = [
    Part(
        "Lines of scripts",
        "They begin with `adf_serve:` and name the line.",
        "3",
        {"adf_cli/faulty_line": [ARMS, CONSTANTS]},
    ),
    Part(
        "The command line",
        "They begin with `error:`, and nothing was done. Others that do so name a wrong argument, and show how the command is used.",
        "1",
        {"adf_cli": [FORMAT]},
    ),
    Part(
        "Commands",
        "They begin with `adf_serve:`. `{..}` stands for a text of a part below.",
        "2",
        {"adf_serve": [ARMS, CONSTANTS]},
    ),
    Part("Errors of AmigaDOS", "Standard output has `refused NUMBER PATH`.", "3", {"adf_cli/refused": [ARMS]}),
    Part("Changes and entries", "They may end a text that names the file.", "2", {"adf_import": [], "adf_export": [], "adf_rescue": [], "adf_rescue/doubt": [FORMAT], "adf_rescue/missing_text": [FORMAT], "adf_where": [], "adf_record/*fault*": [], "ados_validate": []}),
    Part("Files of the host", "They end a text that names the file.", "2", {"adf_host": [], "adf_host/trees/*": []}),
    Part("Checked images", "They end a text that names the image.", "2", {"adf_archive": [FORMAT]}),
    Part("Faults of images", "They end a text that names the block and the path.", "3", {"ados_faults": [FORMAT, WHOLE, ARMS, CONSTANTS]}),
]

# A pattern of texts, and what to do.
ADVICE: List[Tuple[str, str]] = [
    (r"in the new image|has its name there|its directory is not there|there is no room", "`extract --damaged --to` writes it to the host"),
    (r"is \{word\}: |^its header |^block \{block\} (has a wrong|could not be read|is in|holds a filler)|comment in its header", "Compare it with another copy; the files that are `whole` are as they were"),
    (r"(is|are) missing \(data|\{missing\}$", "Look for another copy: zeros stand for these bytes"),
    (r"most of a list of names", "Check the files in several lists, or name their directory"),
    (r"^'\{0?\}' names no file", "Look what made the list, as a `find` that found nothing"),
    (r"--null takes a list", "Add `--null`"),
    (r"have no checksums", "Look into the files, or compare them with another copy: a wrong byte in one does not show"),
    (r"read as \{read\}", "Nothing: the files are read as those of the kind that the blocks show"),
    (r"missing bytes are read", "Look for a whole copy: what is missing here cannot be saved"),
    (r"has fewer than", "Give `--blocks` the number of blocks that the volume has; `extract --damaged` takes a shorter file"),
    (r"belong to no reported", "Keep the image: these blocks may hold what is left of a file"),
    (r"lists the blocks of one image", "Give one image"),
    (r"names none of its", "Correct this line of the list"),
    (r"unpacked first", "Unpack it with a program for this format"),
    (r"it looks like an (IPF|extended)|a hard disk with", "Use the program that the text names"),
    (r"`gw convert`", "Convert it as the text says, and check the ADF file"),
    (r"`adf_serve (extract|validate)|`xdftool`", "Run the command that the text names"),
    (r"nothing was written or read", "Read the disk again, or look for another copy of the image"),
    (r"the script has more", "Use a script of at most 1,048,576 bytes"),
    (r"waiting for", "Type lines, or end with Ctrl-D"),
    (r"^'\{0?\}' has a letter that no byte", "Leave out letters past U+00FF"),
    (r"^(is not UTF-8$|does not begin with eight|has no date after)", "Write the note again, as `extract --meta` does"),
    (r"has no locks", "Put the image on a file system with locks"),
    (r"^: process", "Look what this process is, for example with `ps -p NUMBER`; wait until it has ended, or unmount the image"),
    (r"in the description twice", "Correct `volume.json`, or write the bundle again with `extract --bundle`"),
    (r"no file can be made beside|cannot take its place", "Look whether the directory may be written, and has room"),
    (r"its volume is|is not written", "Make an empty image of this kind and size with `blank`"),
    (r"^'\{0?\}' is not empty$", "Name a new or an empty directory"),
    (r"does not mend", "`check --all` names each fault, and `extract --damaged` takes out what is sound"),
    (r"bundle|JSON|volume\.json|the description|a description|101,602 entries|\"path\"|\"\{0\}\"|entry \{", "Correct `volume.json`, or write the bundle again with `extract --bundle`"),
    (r"--force writes|bitmap block|but nothing names it", "Save what can be trusted with `extract --damaged` before `--force`"),
    (r"^(the header of a directory|an extension block|a data block of)", "Save it with `extract --damaged` before `--force`"),
    (r"ok, \{\} refused|of \{\} images$|\{\} left$|^, \{\} refused$|^\{\w*\} (s|min|h)$|^--blocks \{blocks\}$|^(OFS|FFS|DOS|no AmigaDOS|neither OFS)|^\{\} bytes$", "Nothing: it counts and describes"),
    (r"try --blocks", "Give `--blocks` the number of blocks that fits the root"),
    (r"the root at block|^and \{rest\} bytes$", "Look whether the file is cut short"),
    (r"UTF-8", "Rename the file, or give it another name with `add --as`"),
    (r"stands? for no byte|past U\+00FF|not in ISO 8859-1", "Leave out letters past U+00FF"),
    (r"turned round", "If they are, remove the file and write the two words the other way round"),
    (r"no command '", "`adf_serve --help` lists the commands"),
    (r"'\./-'", "Name a file"),
    (r"standard input, which has no name", "Name it with `--as NAME`"),
    (r"--as <NAME>", "Give one FILE"),
    (r"error: .*is missing", "Add the argument: `adf_serve COMMAND --help` shows all"),
    (r"YYYY-MM-DD", "Write the date in one of these forms"),
    (r"hsparwed|protection letters", "Use these letters"),
    (r"expected|error:", "Correct what the text names"),
    (r"--over writes over it", "Choose another file, or add `--over`"),
    (r"locked|mounted or being changed", "Wait until the other command has ended, or unmount the image"),
    (r"can be trusted|cannot be trusted", "`check --all` names each fault, and `validate` mends a bitmap if nothing else is wrong"),
    (r"nothing that was deleted", "`undelete --list` without a path lists what was deleted"),
    (r"bytes are no whole|no image|AmigaDOS disk|of kind", "Check that it is an ADF or HDF file of an Amiga disk"),
    (r"memory", "Close other programs, or check fewer images at a time with `--jobs`"),
    (r"no such file", "Look for the right path with `ls`"),
    (r"is a link or a file", "Put a directory with the bundle's files there"),
    (r"no such directory|no directory", "Make the directory, or correct the path"),
    (r"permission denied|can only be read", "Use a file that this user may read or write"),
    (r"disk is full|no room|blocks are needed", "Delete something, or use a larger disk"),
    (r"standard (in|out)put|the output", "Look where the stream leads"),
    (r"did not end|does not end", "Use a file that ends"),
    (r"already exists|written twice", "Use another name; `--force` replaces files of `add` and `extract`"),
    (r"symbolic link|neither a file|regular file|taken its place|no file can be made|cannot take", "Look what stands at the path"),
    (r"protected from deletion", "`delete --force` deletes it, or `protect` changes its bits"),
    (r"(write|read) protected", "Change its bits with `protect`"),
    (r"not empty", "`delete --all` deletes what is in it too"),
    (r"needs a file|required type|is a directory", "Name a file for a file, and a directory for a directory"),
    (r"not found|no more entries", "Look for the right path with `list`"),
    (r"into itself|object is in use", "Name a directory outside it"),
    (r"one name on an Amiga", "Rename one of them"),
    (r"name|characters; AmigaDOS|allows in no", "Use 1 to 30 characters without `/` and `:`"),
    (r"longer than the 4,095", "Extract to a directory with a shorter path"),
    (r"comment", "Use at most 79 characters"),
    (r"boot block", "Use at most 1,024 bytes"),
    (r"most of a list of bad blocks", "Name each block once, and leave out the comments"),
    (r"has 16 to 101,602 blocks", "Use a number in this range"),
    (r"has no block", "Name a block that the image has"),
    (r"ran out of tries", "Raise `--turns`, or leave the machine less to do"),
    (r"script|line \{number\}", "Correct this line of the script"),
    (r"skipped|note of a file", "Nothing, unless it was to be added"),
    (r"incomplete files may|not whole", "The other files are whole"),
    (r"more files than", "Add fewer files"),
    (r"thread", "Let fewer programs run, or check fewer images at a time with `--jobs`"),
    (r"clock", "Give the date with `--date`"),
    (r"free|validate", "`adf_serve validate` mends the bitmap, if nothing else is wrong"),
    (r"cannot (read|write|be)", "Look whether the file is there and may be used"),
    (r"\bwas written\b|were written", "Remove them before the next try"),
    (r"no byte|without a picture|one line", "Write the note again, as `extract --meta` does"),
    (r"keyword|end of the line|\$k|quotes|255 bytes|^a number\b", "Correct this line of the script"),
    (r"a read failed", "Look whether the disk of the host is sound"),
    (r"packet request|object lock|seek", "This comes from no command"),
    (r"image|volume|disk", "`check --all` names each fault, and `extract --damaged` takes out what is sound"),
]
# Texts of faults that are not printed, because standard output says the same.
NEVER = {"a script is faulty", "an image is refused", "an image is not checked", "not all is whole", "not all is in the new image"}
# How texts begin that are written to standard output, or that were asked for.
OF_OUTPUT = ("refused {", "suspect block {", "bitmap block {i}", "data {k} of", "extension {k} of", "adf_serve {VERSION}")
# A pattern of texts, and the exit status that follows, where it is another than that of the part.
STATUSES: List[Tuple[str, str]] = [
    (r"in the new image|has its name there|its directory is not there|there is no room", "3"),
    (r"have no checksums|read as \{read\}|neither OFS|^(OFS|FFS)$", ""),
    (r"waiting for|turned round|skipped|mounted or being|is \{word\}: |^its header |^block \{block\} (has a wrong|could not be read|is in|holds a filler)|comment in its header|missing \(data|incomplete files may|belong to no reported|it is a (symbolic|note)|it is neither", ""),
    (r"lists the blocks of one image", "1"),
    (r"a volume has 16|past U\+00FF|no byte of an Amiga|is no protection", "1"),
    (r"not a volume name|has no block|1,024 bytes|line \{number\}|the script has more|^expected \{|^(a keyword|each \$k|a text in quotes|a number\b)|^(a|the|each) .*(\$k|text|line|keyword|bytes)$", "3"),
    (r"ok, \{\} refused|of \{\} images$|\{\} left$|^, \{\} refused$|^\{\w*\} (s|min|h)$", ""),
    (r"can be trusted|cannot be trusted|nothing that was deleted", "3"),
    (r"its volume is|is not written|--force writes|bitmap block|nothing names it|faults than can be|does not mend", "3"),
    (r"^(the header of a directory|an extension block|a data block of)", "3"),
    (r"it looks like|`adf_serve|`xdftool`|^\{\} bytes$|nothing was written or read|the root at block|try --blocks|^and \{rest\} bytes$|^(OFS|FFS|no AmigaDOS|neither OFS)", "3"),
    (r"blocks are needed|one name on|needs a file|into itself|characters|allows in no|not in ISO 8859-1", "3"),
]
ADVICE_OF_FAULTS = "`check --all` names each fault, and `extract --damaged` takes out what is sound"


def literal(text: str) -> str:
    """The text of a string literal, on one line, without its line feed and the line about help."""
    joined = re.sub(r"\\\n\s*", "", text)
    plain = re.sub(r"\\(.)", lambda it: {"n": "\n"}.get(it[1], it[1]), joined)
    return plain.partition("\n\nFor more")[0].strip("\n").replace("\n", " ").strip()


def is_text(text: str) -> bool:
    """Whether it says something: it has a word beside its holes and the name of the program."""
    has_words = re.search(r"[A-Za-z]{2}", re.sub(r"\{[^}]*\}|adf_serve:|DOS\\", "", text))
    return bool(has_words) and not text.startswith(OF_OUTPUT)


def sources(place: str) -> List[Path]:
    """The files of a crate, or those of it whose names fit."""
    crate, _, name = place.partition("/")
    return sorted((TOP / "crates" / crate / "src").glob(f"{name or '*'}.rt"))


def texts_of(part: Part) -> Iterator[str]:
    """The texts of a part, in the order of the sources."""
    for place, more in part.crates.items():
        for source in sources(place):
            code = source.read_text(encoding="utf-8")
            found = [(it.start(), literal(it[1])) for pattern in IN_ALL + more for it in re.finditer(pattern, code)]
            yield from (text for _, text in sorted(found) if is_text(text))


def advice(part: Part, text: str) -> str:
    if part.heading == "Faults of images" and "validate" not in text:
        return ADVICE_OF_FAULTS
    return next((said for pattern, said in ADVICE if re.search(pattern, text)), "")


def status(part: Part, text: str) -> str:
    """The exit status that follows a text, if one does."""
    return next((said for pattern, said in STATUSES if re.search(pattern, text)), part.status)


def cell(text: str) -> str:
    shown = re.sub(r"\{[0-9]*\}", "{}", text).replace("|", "\\|")
    return f"`` {shown} ``" if "`" in shown else f"`{shown}`"


def page() -> Iterator[str]:
    yield "# Messages"
    yield ""
    yield "For people who see a message and look for its meaning: every text that `adf_serve` prints on standard error."
    yield ""
    yield "This page is made from the program's sources. A name in `{}` stands for what the program puts there. The status is the exit"
    yield "status that follows; without one the command goes on."
    had: Dict[str, str] = {}
    for part in PARTS:
        rows = []
        for text in texts_of(part):
            if text not in had and text not in NEVER:
                had[text] = part.heading
                rows.append(f"| {cell(text)} | {status(part, text)} | {advice(part, text)} |")
        if rows:
            yield from ("", f"## {part.heading}", "", part.said, "")
            yield from ("| Text | Status | What to do |", "|---|---|---|", *rows)


def main(words: List[str]) -> int:
    made = "\n".join(page()) + "\n"
    lacking = [line for line in made.splitlines() if line.endswith("|  |")]
    if words == ["--check"]:
        there = PAGE.read_text(encoding="utf-8") if PAGE.exists() else ""
        stale = [] if there == made else ["docs/MESSAGES.md is not what the sources make: tools/messages.py writes it"]
        faults = stale + [f"a text has no advice in tools/messages.py: {line}" for line in lacking]
        print("\n".join(faults), end="\n" if faults else "")
        return 1 if faults else 0
    PAGE.write_text(made, encoding="utf-8")
    return 0


if __name__ == "__main__":
    sys.exit(main(sys.argv[1:]))
