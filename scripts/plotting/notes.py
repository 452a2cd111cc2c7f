"""Reads what `snl run --whole` writes: the lines of a run, and the notes that stand between and behind them."""
import re
from dataclasses import dataclass, field
from typing import Iterable, Iterator, Optional

# Behind a time of the run stands the time of day, where the trace tells the date of 0 ms.
DAY = r"(?:\d{4}-\d\d-\d\dT)?\d\d:\d\d:\d\d\.\d{3}"
# Its condition stands in brackets where it has comments.
CONDITION, SAW = rf"(?: \((?!trace line \d+(?:, {DAY})?\)$|{DAY}\)$).*?\))?", r"(?:: ([^()]*?))?"
MOMENT = rf"(?: \(trace line (\d+)(?:, {DAY})?\)| \({DAY}\))?"
CLAUSE = re.compile(rf"# clause (\d+) of (\S+), line (\d+){CONDITION}{SAW}{MOMENT}")
REFUSED = re.compile(r"# put to (.*) refused \((-\d)\): (.*)")
NOWHERE = re.compile(r"# put refused \((-\d)\): (.*)")
BAD = re.compile(r"^# bad line (\d+)$", re.MULTILINE)
# The last line of the run of a program that faulted.
FAULT = re.compile(r"^\d+ fault \S+ \d+ .*$(?!\n\d)", re.MULTILINE)
WAITS = re.compile(r"# (waits for (.*) \([^()]*\)|never began: .*)")
UNKNOWN = re.compile(r"# (\S+ is no channel of the program \(.*|and \d+ lines? more with names that .*)")
# So many of those are kept.
MOST_UNKNOWN = 5
FOLDED = re.compile(rf"# th(?:is line|ese \d+ lines) \d+ times? more, up to \d+(?:, {DAY})?")
STOPPED = re.compile(r"# the trace could not be read on at .*")


@dataclass
class Clause:
    """The note of a clause that fired."""

    number: int
    state: str
    # The line of the source, the values that the condition saw, and the line of the trace, where one has the time.
    line: int
    saw: str
    trace: Optional[int]


@dataclass
class Refusal:
    """The note of a put that was refused, on a channel or, without a name, where no channel is assigned."""

    name: str
    worth: int
    why: str


@dataclass
class Entry:
    """A line of a run, with the notes that belong to its time."""

    time: int
    kind: str
    # What stands behind the kind.
    rest: str
    clauses: list = field(default_factory=list)
    # Puts that were refused before it was written, and behind it.
    refusals: list = field(default_factory=list)
    later: list = field(default_factory=list)


@dataclass
class Ending:
    """What the notes behind a run say."""

    # What the program waits for, where it never began.
    waits: list = field(default_factory=list)
    # What is said of names in the trace that are no channels of the program.
    unknown: list = field(default_factory=list)
    # Whether the trace could not be read to its end, and whether lines of the run were left out.
    is_cut: bool = False
    is_folded: bool = False


class Notes:
    """The notes in front of a line. Blocks of states do theirs behind the line of the transition, and the note of a clause stands
    before all that its own block does: so a put that was refused in front of all clauses belongs to the line before."""

    def __init__(self):
        """No note."""
        self.clauses, self.refusals, self.earlier = [], [], []

    def refused(self, refusal: Refusal) -> None:
        """Takes the note of a put that was refused."""
        (self.refusals if self.clauses else self.earlier).append(refusal)


def entries(lines: Iterable[bytes], ending: Ending) -> Iterator[Entry]:
    """The lines of a run. What is said at its end is put into `ending`."""
    held, notes = None, Notes()
    for line in lines:
        text = line.decode("latin-1").rstrip("\n")
        if text[:1].isdigit():
            if held:
                held.later = notes.earlier
                yield held
            time, kind, rest = (*text.split(" ", 2), "", "")[:3]
            held = Entry(int(time), kind, rest, notes.clauses, notes.refusals)
            notes = Notes()
        elif text.startswith("#"):
            take(notes, ending, text)
    if held:
        held.later = notes.earlier + notes.refusals
        yield held


def take(notes: Notes, ending: Ending, text: str) -> None:
    """Puts a note where it belongs."""
    if it := CLAUSE.fullmatch(text):
        number, state, line, saw, trace = it.groups("")
        notes.clauses.append(Clause(int(number), state, int(line), saw, int(trace) if trace else None))
    elif it := REFUSED.fullmatch(text):
        notes.refused(Refusal(it[1], int(it[2]), it[3]))
    elif it := NOWHERE.fullmatch(text):
        notes.refused(Refusal("", int(it[1]), it[2]))
    elif it := WAITS.fullmatch(text):
        ending.waits += [it[2]] if it[2] else []
    elif it := UNKNOWN.fullmatch(text):
        ending.unknown += [it[1]] if len(ending.unknown) < MOST_UNKNOWN else []
    elif STOPPED.fullmatch(text):
        ending.is_cut = True
    elif FOLDED.fullmatch(text):
        ending.is_folded = True


def bad_line(end: str) -> Optional[int]:
    """The bad line of the trace that the end of a run names."""
    found = BAD.findall(end)
    return int(found[-1]) if found else None
