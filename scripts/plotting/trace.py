"""Reads a trace, line by line, from a file that others read at the same time."""
import datetime
import os
import re
from dataclasses import dataclass
from typing import Iterator, Optional

PIECE = 1 << 16
# How many fields a line has at least and at most, by its word.
FIELDS = {b"up": (3, 3), b"down": (3, 3), b"done": (3, 3), b"tick": (2, 2), b"val": (4, 1 << 16)}
# The bytes of a line at most, as `snlrun` has it.
LONGEST = 32768
# How much of a line is shown.
SHOWN = 100


# A comment at the front that tells the date of 0 ms.
ZERO = re.compile(rb"# zero (\d{4}-\d\d-\d\dT\d\d:\d\d:\d\d(?:\.\d{1,6})?)(Z|[+-]\d\d:\d\d)?\r?")


@dataclass
class Event:
    """A line of a trace that is no comment and not blank."""

    time: int
    # The number of the line, from 1 on.
    line: int
    word: str
    name: str
    values: list
    # The line as it is shown, without its time.
    text: str


def lines_of(file: int, start: int) -> Iterator[bytes]:
    """The lines of an open file from a place on, which does not move the place where others read, up to one that does not end."""
    rest = b""
    while len(rest) <= LONGEST and (piece := os.pread(file, PIECE, start)):
        start += len(piece)
        *whole, rest = (rest + piece).split(b"\n")
        yield from whole
    if rest:
        yield rest


def zero_of(lines: Iterator[bytes]) -> "tuple[datetime.datetime, str] | None":
    """The date of 0 ms, and its zone as it is written, where a comment in front of the first event tells it."""
    for line in lines:
        if line[:1] != b"#" and line.strip():
            return None
        it = ZERO.fullmatch(line)
        try:
            if it:
                return datetime.datetime.fromisoformat(it[1].decode()), (it[2] or b"").decode()
        except ValueError:
            return None
    return None


def events(lines: Iterator[bytes], bad: Optional[int]) -> Iterator[Event]:
    """The events of lines, up to the bad one, whose number is given where it is known, or to one that is no event."""
    for number, line in enumerate(lines, 1):
        if number == bad or len(line) > LONGEST:
            return
        if line[:1] == b"#":
            continue
        fields = line.split()
        if not fields:
            continue
        event = event_of(number, fields)
        if event is None:
            return
        yield event


def event_of(number: int, fields: list) -> Optional[Event]:
    """The event of the fields of a line; None where it is none."""
    if len(fields) < 2 or not fields[0].isdigit():
        return None
    word = fields[1]
    least, most = FIELDS.get(word, (1, 0))
    if not least <= len(fields) <= most:
        return None
    values = fields[3:]
    if values:
        try:
            values = [int(it) for it in values]
        except ValueError:
            return None
    name = fields[2].decode("latin-1") if len(fields) > 2 else ""
    return Event(int(fields[0]), number, word.decode(), name, values, shown(fields))


def shown(fields: list) -> str:
    """A line as it is shown: without its time, and cut where it is long."""
    text = b" ".join(fields[1:12]).decode("latin-1")
    return text if len(text) <= SHOWN and len(fields) <= 12 else text[: SHOWN - 2] + ".."
