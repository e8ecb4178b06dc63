#!/usr/bin/env python3
"""Writes the pages for users as they are packed, and their pictures:

    tools/guides.py TO

TO is a directory. A link to a page that is packed too leads to it there. Any other link becomes its text, with where the page is. A
line `@HEADING@` stands for this section of README.md. What stands between the comments `<!-- checkout -->` and `<!-- end -->` is for
users of the repository alone, and is left out.
"""
from __future__ import annotations

import os
import re
import shutil
import sys
from collections.abc import Iterable
from pathlib import Path

TOP = Path(__file__).resolve().parent.parent
# The pages and pictures, with the README of the packages for that of the repository.
GUIDES = [
    "docs/package/README.md",
    *(f"docs/{it}.md" for it in ("QUICKSTART", "COMMANDS", "MESSAGES", "LIBRARY", "ARCHIVES", "SECURITY", "CHANGELOG")),
    "docs/report.png",
    "docs/report-refused.png",
]
ALIASES = {"README.md": "docs/package/README.md"}
LINK = re.compile(r"(!?)\[([^\]]*)\]\(([^)\s]*)\)")


def section(heading: str) -> str:
    """Returns a section of README.md, with its heading."""
    _, found, rest = (TOP / "README.md").read_text(encoding="utf-8").partition(f"\n## {heading}\n")
    if not found:
        sys.exit(f"guides: README.md has no section '{heading}'")
    return f"## {heading}\n{rest.partition(chr(10) + '## ')[0]}".rstrip("\n")


CHECKOUT = re.compile(r"(?ms)^<!-- checkout -->\n.*?^<!-- end -->\n+")


def packed(page: str, among: Iterable[str]) -> str:
    """Returns the text of a page as it is packed beside others, all by their paths in the repository."""
    folder, beside = os.path.dirname(page), set(among)

    def link(found: re.Match[str]) -> str:
        mark, text, target = found.groups()
        path, _, anchor = target.partition("#")
        of = os.path.normpath(os.path.join(base, path)) if path else page
        of = ALIASES.get(of, of)
        if re.match("[a-z]+:", target):
            return found[0]
        if of in beside:
            return f"{mark}[{text}]({os.path.basename(of) if path else ''}{'#' if anchor else ''}{anchor})"
        if of.endswith(".1"):
            return f"`man {Path(of).stem}`"
        if mark:
            sys.exit(f"guides: {page} shows {of}, which is not packed")
        return f"{text} {'of the package jiponuwha' if of in GUIDES else 'of the repository'}"

    texts, base = [], folder
    for part in re.split(r"(?m)(^@[^@\n]+@\n)", CHECKOUT.sub("", (TOP / page).read_text(encoding="utf-8"))):
        inserted = re.fullmatch(r"@([^@]+)@\n", part)
        # (the links of a section of README.md are from the top of the repository)
        base = "" if inserted else folder
        lines, in_code = [], False
        for line in (section(inserted[1]) if inserted else part.strip("\n")).split("\n"):
            in_code ^= line.startswith("```")
            lines.append(line if in_code else LINK.sub(link, line))
        texts.append("\n".join(lines))
    return "\n\n".join(it for it in texts if it) + "\n"


def main(words: list[str]) -> int:
    if len(words) != 1 or words[0].startswith("-"):
        print(__doc__, end="", file=sys.stderr)
        return 2
    to = Path(words[0])
    to.mkdir(parents=True, exist_ok=True)
    for it in GUIDES:
        if it.endswith(".md"):
            (to / os.path.basename(it)).write_text(packed(it, GUIDES), encoding="utf-8")
        else:
            shutil.copyfile(TOP / it, to / os.path.basename(it))
    return 0


if __name__ == "__main__":
    sys.exit(main(sys.argv[1:]))
