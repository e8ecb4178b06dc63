"""Texts that come from images and from the host, as they are shown: on one line, and with nothing that a terminal acts on."""
from __future__ import annotations

import re
import unicodedata

# Letters above U+00FF that are never shown: controls, formats such as those that turn the direction of a line, and separators of
# lines. A surrogate stands for a byte of a host's name that is not UTF-8.
_HIDDEN = {"Cc", "Cf", "Cs", "Zl", "Zp"}
_CONTROLS = re.compile("[\x00-\x1f\x7f-\x9f]")


def _escaped(letter: str) -> str:
    code = ord(letter)
    if code <= 0xFF:
        return f"%{code:02X}"
    return "".join(f"%{it:02X}" for it in letter.encode("utf-8", "surrogateescape" if 0xDC80 <= code <= 0xDCFF else "surrogatepass"))


def shown(text: object) -> str:
    """Returns a text without control characters: each is written as `%` and two hexadecimal digits."""
    plain = _CONTROLS.sub(lambda found: _escaped(found[0]), str(text))
    if plain.isascii():
        return plain
    return "".join(_escaped(it) if ord(it) > 0xFF and unicodedata.category(it) in _HIDDEN else it for it in plain)
