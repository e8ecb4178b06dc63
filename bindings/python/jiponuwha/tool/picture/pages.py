"""The pages in HTML: one of a disk, and an index of many. `jinja2` fills the templates, and escapes every text."""
from __future__ import annotations

from collections import Counter
from collections.abc import Sequence
from functools import lru_cache
from itertools import groupby
from pathlib import Path
from typing import TYPE_CHECKING

from ... import BootCode, Fault, FaultKind, version
from ..errors import lacking
from . import svg, views
from .disk import Disk
from .need import Card, Need, kind_name, need_of
from .texts import clean

if TYPE_CHECKING:
    from jinja2 import Environment

_HERE = Path(__file__).parent


_BOOT_WORDS = {BootCode.NONE: "none", BootCode.WRONG: "wrong", BootCode.STANDARD: "standard", BootCode.CUSTOM: "custom"}


@lru_cache(maxsize=1)
def _environment() -> Environment:
    """Returns the environment of the templates. Without `jinja2` it raises the error that says how to install it."""
    try:
        from jinja2 import Environment, FileSystemLoader, StrictUndefined
        from markupsafe import Markup
    except ImportError:
        raise lacking("jinja2", "python3-jinja2", "tool") from None
    made = Environment(
        loader=FileSystemLoader(_HERE), autoescape=True, undefined=StrictUndefined, trim_blocks=True, lstrip_blocks=True
    )
    styles = "".join((_HERE / it).read_text(encoding="utf-8") for it in ("picture.css", "page.css"))
    made.globals.update(style=Markup(styles), version=version(), plural=views.plural, percent=views.percent, kind_name=kind_name)
    made.globals["kind_text"] = lambda kind: Fault(kind, 0).text
    made.globals["boot_words"] = _BOOT_WORDS
    made.filters["drawn"] = Markup
    return made


def prepare() -> None:
    """Raises the error that says how to install `jinja2`, if that is not there."""
    _environment()


def disk_page(disk: Disk, index: str = "") -> str:
    """Returns the page of a disk. `index` is a link to the index that it is in."""
    page: str = _environment().get_template("page.html.j2").render(
        disk=disk,
        need=need_of(disk),
        pictures=svg.pictures(disk) if disk.kinds else [],
        faults=list(views.fault_rows(disk)),
        saved=views.saved_rows(disk),
        scattered=views.scattered(disk),
        blocks=list(views.block_rows(disk)),
        index=index,
    )
    return page


def _kinds(cards: Sequence[Card]) -> list[tuple[FaultKind, int, int]]:
    """Returns each kind of fault, with the number of images that have it and of all such faults."""
    images, faults = Counter[FaultKind](), Counter[FaultKind]()
    for card in cards:
        images.update(card.faults.keys())
        faults.update(card.faults)
    return [(kind, count, faults[kind]) for kind, count in sorted(images.items(), key=lambda it: (-it[1], it[0]))]


def index_page(title: str, cards: Sequence[Card]) -> str:
    """Returns the index of many disks, those first that need a person."""
    placed = sorted(cards, key=lambda it: (it.need, -sum(it.faults.values()), it.name))
    groups = [(need, list(its)) for need, its in groupby(placed, key=lambda it: it.need)]
    page: str = _environment().get_template("index.html.j2").render(
        title=clean(title),
        cards=cards,
        groups=groups,
        counts=Counter(it.need for it in cards),
        kinds=_kinds(cards),
        needs=list(Need),
        files=sum(it.files for it in cards),
        size=sum(it.size for it in cards),
    )
    return page
