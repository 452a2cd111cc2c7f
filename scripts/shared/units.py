"""Reads a file of units: what the whole numbers of a trace stand for. docs/UNITS.md has its lines.

The file is ASCII. All texts of it have a letter for each byte that they stand for.
"""
import re
from dataclasses import dataclass, field
from fractions import Fraction

NAME = re.compile(r"[!-~]+")
WHOLE = re.compile(r"[1-9]\d{0,18}")
NUMBER = re.compile(r"-?\d{1,19}")
QUOTED = re.compile(r"(?:[A-Za-z0-9_.+*?/()\[\]-]|\\x[0-9a-f]{2})*")
BYTE = re.compile(r"\\x([0-9a-f]{2})")
BITS_64 = range(-(2**63), 2**63)
SEVERITIES = {"NO_ALARM": 0, "MINOR": 1, "MAJOR": 2, "INVALID": 3}
# The clock of the machine, as a channel; and the ends of the names of channels that are no records.
CLOCK, STAMP, SEVERITY = "CLOCK", ".TIME", ".SEVR"
# The bytes of a file of units at most.
MOST = 1 << 24


class Wrong(ValueError):
    """A line that is wrong. Its text names the line."""


@dataclass
class Pattern:
    """A text of which a string channel is asked whether it has it; a star stands for any bytes."""

    # The pieces between the stars.
    pieces: list

    def matches(self, text: str) -> bool:
        """Whether a text has this form."""
        return re.fullmatch(".*".join(map(re.escape, self.pieces)), text, re.DOTALL) is not None

    def __str__(self) -> str:
        """As a person reads it."""
        return "*".join(self.pieces)


@dataclass
class Units:
    """What a file of units says, by the names of channels."""

    # What a number of the control system is multiplied by.
    scales: dict = field(default_factory=dict)
    # The number of each text.
    texts: dict = field(default_factory=dict)
    # What a string channel is asked.
    patterns: dict = field(default_factory=dict)
    # Channels that have the severity of a record, and those that have seconds.
    severities: set = field(default_factory=set)
    times: set = field(default_factory=set)

    def names(self) -> set:
        """All channels that are named."""
        return {*self.scales, *self.texts, *self.patterns, *self.severities, *self.times}


def units_of(path: str) -> Units:
    """What a file says. `OSError` where it can't be read, `Wrong` where a line is wrong."""
    with open(path, "rb") as file:
        data = file.read(MOST + 1)
    if len(data) > MOST:
        raise Wrong(f"{path} has more than {MOST} bytes: it is no file of units")
    found = Units()
    for number, line in enumerate(data.decode("latin-1").split("\n"), 1):
        if line and line[0] != "#":
            try:
                add(found, line)
            except Wrong as wrong:
                raise Wrong(f"units:{number}: {wrong}") from None
    return found


def add(found: Units, line: str) -> None:
    """Takes a line. `Wrong` says what is wrong with it."""
    if not line.isascii() or not line.isprintable():
        raise Wrong("not ASCII text")
    word, *fields = line.split(" ")
    adders = {"scale": scale, "enum": texts, "text": pattern, "severity": severity, "time": time}
    if word not in adders:
        raise Wrong("unknown word")
    wanted = 1 if word in ("severity", "time") else 2
    if len(fields) != wanted or not NAME.fullmatch(fields[0]):
        raise Wrong("wrong number of fields")
    adders[word](found, *fields)


def fresh(name: str, known) -> str:
    """A name that is not known yet."""
    if name in known:
        raise Wrong("named twice")
    return name


def scale(found: Units, name: str, text: str) -> None:
    """`scale NAME K`, where K is a whole number or one part of many."""
    front, sign, behind = text.partition("/")
    if sign and front != "1" or not WHOLE.fullmatch(behind if sign else front):
        raise Wrong("bad number")
    found.scales[fresh(name, found.scales)] = Fraction(int(front), int(behind) if sign else 1)


def texts(found: Units, name: str, text: str) -> None:
    """`enum NAME TEXT:N,TEXT:N`."""
    numbers: dict = {}
    for piece in text.split(","):
        shown, sign, number = piece.partition(":")
        if not sign:
            raise Wrong("bad text")
        if not NUMBER.fullmatch(number) or int(number) not in BITS_64:
            raise Wrong("bad number")
        if numbers.setdefault(unquoted(shown), int(number)) != int(number):
            raise Wrong("named twice")
    found.texts[fresh(name, found.texts)] = numbers


def pattern(found: Units, name: str, text: str) -> None:
    """`text NAME PATTERN`."""
    found.patterns[fresh(name, found.patterns)] = Pattern([unquoted(it) for it in text.split("*")])


def severity(found: Units, name: str) -> None:
    """`severity NAME.SEVR`."""
    if not name.endswith(SEVERITY) or name == SEVERITY:
        raise Wrong("bad name")
    found.severities.add(fresh(name, found.severities))


def time(found: Units, name: str) -> None:
    """`time NAME.TIME`, and `time CLOCK`."""
    if name != CLOCK and (not name.endswith(STAMP) or name == STAMP):
        raise Wrong("bad name")
    found.times.add(fresh(name, found.times))


def unquoted(text: str) -> str:
    """What a text with quoted bytes stands for."""
    if not QUOTED.fullmatch(text):
        raise Wrong("bad text")
    return BYTE.sub(lambda it: chr(int(it[1], 16)), text)
