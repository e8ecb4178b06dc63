"""Texts of images and of the host in documents."""
from __future__ import annotations

import re
from html import escape

from ..escape import shown

# Letters that XML does not have, and that are no control characters.
_NOT_XML = str.maketrans({"\ufffe": "%EF%BF%BE", "\uffff": "%EF%BF%BF"})
# A text of letters of ASCII that mean nothing in such a document.
_PLAIN = re.compile(r"[ !#-%(-;=?-~]*").fullmatch


def clean(text: object) -> str:
    """Returns a text as it is shown, with nothing in it that XML does not have."""
    return shown(text).translate(_NOT_XML)


def safe(text: object) -> str:
    """Returns a text as it is shown, for a document of XML or HTML."""
    return text if isinstance(text, str) and _PLAIN(text) else escape(clean(text))
