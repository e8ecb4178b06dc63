"""What is said of images: the verdict on one in a line, and the counts of many."""
from __future__ import annotations

from collections import Counter

from ..console import Console
from ..errors import DONE, HOST, REFUSED
from ..escape import shown
from .examine import Record, Verdict
from .outcomes import Outcome

STYLES = {
    Verdict.OK: "green",
    Verdict.VALIDATED: "yellow",
    Verdict.REFUSED: "red",
    Verdict.UNREADABLE: "red",
    Verdict.FATAL: "red",
}


def record_of(outcome: Outcome) -> Record:
    """Returns the record of an image. One that could not be examined has a verdict and a reason."""
    if isinstance(outcome.value, Record):
        return outcome.value
    return Record(Verdict.FATAL if outcome.is_fatal else Verdict.UNREADABLE, outcome.failure)


def line_of(name: str, record: Record) -> tuple[tuple[str, str | None], ...]:
    """Returns the parts of the line that says the verdict on an image."""
    reason = "" if record.reason is None else f": {record.reason}"
    return (f"{name}: ", None), (record.verdict, STYLES[record.verdict]), (reason, None)


def plural(count: int, name: str) -> str:
    return f"{count:,} {name}{'' if count == 1 else 's'}"


class Totals:
    """How many images have each verdict, and how many were refused for each reason."""

    def __init__(self) -> None:
        self.verdicts: Counter[Verdict] = Counter()
        self._reasons: Counter[str] = Counter()
        # What could not be searched for images.
        self.unread = 0

    def add(self, record: Record) -> None:
        self.verdicts[record.verdict] += 1
        if record.faults:
            self._reasons[record.faults[0].text] += 1
        elif record.verdict in (Verdict.UNREADABLE, Verdict.FATAL):
            self._reasons[record.reason or record.verdict] += 1

    @property
    def count(self) -> int:
        return sum(self.verdicts.values())

    def text(self) -> str:
        """Returns the counts by verdict, in one line."""
        said = ", ".join(f"{self.verdicts[it]:,} {it}" for it in Verdict if self.verdicts[it] or it in (Verdict.OK, Verdict.REFUSED))
        return f"{plural(self.count, 'image')}: {said}"

    def say(self, console: Console) -> None:
        """Writes the counts by verdict and by reason on standard error."""
        console.out.flush()
        lines = [self.text(), *(f"  {count:,} {reason}" for reason, count in self._reasons.most_common())]
        console.err.write("".join(f"{shown(it)}\n" for it in lines))
        console.err.flush()

    def status(self) -> int:
        """Returns the exit status: 2 if something could not be read or there is no image, 3 if an image is refused."""
        if self.unread or not self.count or self.verdicts[Verdict.UNREADABLE] or self.verdicts[Verdict.FATAL]:
            return HOST
        return REFUSED if self.verdicts[Verdict.REFUSED] else DONE
