"""The table of a run: a row for each instant, with the lines of the trace behind it and what the program did then."""
from collections import deque
from dataclasses import dataclass, field
from typing import Iterator, Optional

# So many rows are kept of the front and of the end.
FIRST_ROWS, LAST_ROWS = 400, 150
# A row has so many deeds and so many lines of the trace; of an instant so many lines are looked at.
MOST_DEEDS, MOST_LINES, LINES_KEPT = 12, 2, 64


@dataclass
class Deed:
    """Something that the program did, or that was done to it: `kind` says how it is shown."""

    kind: str
    text: str
    # Of a transition the clause, as `clause 1`, the values that its condition saw, and the condition.
    clause: str = ""
    saw: str = ""
    test: str = ""

    def is_like(self, other: "Deed") -> bool:
        """Whether another deed is the same but for values that were seen."""
        return (self.kind, self.text, self.clause) == (other.kind, other.text, other.clause)


@dataclass
class Row:
    """An instant, or several that are alike."""

    time: int
    # The lines of the trace behind it, as number and text, and how many came at that time; none for a wake.
    lines: list
    line_count: int
    deeds: list
    deed_count: int
    # Whether there is nothing but transitions from a state to itself.
    is_dull: bool
    # How many instants it stands for, and the time of the last.
    count: int = 1
    last: int = 0

    def is_wake(self) -> bool:
        """Whether no line of the trace has the time."""
        return not self.line_count

    def takes(self, later: "Row") -> bool:
        """Whether a later row is folded into this one."""
        is_foldable = self.is_dull and later.is_dull or self.is_wake() and later.is_wake()
        is_same = self.deed_count == later.deed_count and len(self.deeds) == len(later.deeds)
        return is_foldable and is_same and all(ours.is_like(theirs) for ours, theirs in zip(self.deeds, later.deeds))


@dataclass
class Instant:
    """What has come so far of the instant that is at hand."""

    time: int
    lines: deque = field(default_factory=lambda: deque(maxlen=LINES_KEPT))
    line_count: int = 0
    # The lines of the trace that notes name.
    named: list = field(default_factory=list)
    deeds: list = field(default_factory=list)
    deed_count: int = 0
    is_dull: bool = True

    def line(self, number: int, text: str) -> None:
        """A line of the trace has its time."""
        self.lines.append((number, text))
        self.line_count += 1

    def deed(self, deed: Deed, is_dull: bool = False) -> None:
        """Takes a deed more; faults are kept however many there are."""
        self.deed_count += 1
        self.is_dull &= is_dull
        if len(self.deeds) < MOST_DEEDS or deed.kind == "fault":
            self.deeds.append(deed)

    def name(self, number: Optional[int]) -> None:
        """A note names a line of the trace as the cause."""
        if number is not None and number not in self.named[-MOST_LINES:]:
            self.named.append(number)

    def causes(self) -> list:
        """The lines to show: those that notes name, else the last ones."""
        if not self.named:
            return list(self.lines)[-MOST_LINES:]
        texts = dict(self.lines)
        return [(number, texts.get(number, "")) for number in self.named[-MOST_LINES:]]

    def row(self) -> Row:
        """The row of the instant."""
        count = len(self.named) or self.line_count
        return Row(self.time, self.causes(), count, self.deeds, self.deed_count, self.is_dull, 1, self.time)


class Table:
    """The rows of a run: the first and the last ones, and how many are left out between them."""

    def __init__(self):
        """No row."""
        self.first, self.last, self.left_out = [], deque(), 0
        self.open: Optional[Row] = None

    def add(self, row: Row) -> None:
        """Takes one row more, which is folded into the one before where both are alike and say little."""
        if self.open is not None and self.open.takes(row):
            self.open.count += 1
            self.open.last = row.time
            return
        self.close()
        self.open = row

    def close(self) -> None:
        """Puts the row that is at hand among the others."""
        if self.open is None:
            return
        if len(self.first) < FIRST_ROWS:
            self.first.append(self.open)
        else:
            self.last.append(self.open)
        if len(self.last) > LAST_ROWS:
            self.last.popleft()
            self.left_out += 1
        self.open = None

    def rows(self) -> Iterator[Optional[Row]]:
        """All rows in order; None where some are left out."""
        yield from self.first
        if self.left_out:
            yield None
        yield from self.last
