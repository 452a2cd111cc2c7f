"""What has to hold of the lanes of every picture, whatever the run: checked over all examples, with few columns and with many.

The lanes are read off `plot --format text`, and what is true off the trace and off the lines of the run. The spans of a lane follow
one another to the end; each change is in exactly one span or in exactly one count; a bucket has exactly the changes of its time; a
span has the value of the last change at or before its begin; and the width is the least power of two for which there is room.
"""
import subprocess
from collections import Counter, defaultdict
from dataclasses import dataclass, field
from pathlib import Path

from case import SECONDS

# A bucket keeps so many changes one by one.
KEPT = 4
COLUMNS = (16, 256, 2_048)


@dataclass
class Truth:
    """The changes of each lane, as times and values, by the kind and the name of the lane."""

    lanes: dict = field(default_factory=lambda: defaultdict(list))
    # Transitions from a state to itself, by state sets; when the program ended; all times.
    own: Counter = field(default_factory=Counter)
    over: "int | None" = None
    times: list = field(default_factory=list)


def truth_of(trace, run, sets):
    """What is true of a trace and of a run; `sets` gives the first state of each state set."""
    found = Truth()
    for time, word, *rest in (it.split() for it in trace.splitlines() if it.split() and not it.startswith("#")):
        found.times.append(int(time))
        changes = found.lanes["told", rest[0]] if word == "val" else []
        if word == "val" and (not changes or changes[-1][1] != rest[1]):
            changes.append((int(time), rest[1]))
    for time, kind, *rest in (it.split(" ") for it in run.splitlines() if it[:1].isdigit()):
        found.times.append(int(time))
        if kind == "start":
            for name, state in sets.items():
                found.lanes["bar", name].append((int(time), state))
        elif kind == "put":
            found.lanes["asked", rest[0]].append((int(time), rest[1]))
        elif kind == "go" and rest[1] == rest[2]:
            found.own[rest[0]] += 1
        elif kind == "go" and rest[2] != "exit":
            found.lanes["bar", rest[0]].append((int(time), rest[2]))
        elif kind in ("exit", "fault"):
            found.over = int(time)
    return found


@dataclass
class Span:
    """A line of the text: a stretch with one value, or with too many changes, as a count of each value or as least and most."""

    begin: int
    end: int
    count: int
    value: "str | None" = None
    counts: "Counter | None" = None
    range: "tuple | None" = None


def spans_of(text):
    """The spans of each lane of a picture, by kind and name; and the counts of transitions from a state to itself."""
    lanes, own = defaultdict(list), Counter()
    for kind, *rest in (it.split(" ") for it in text.splitlines()):
        if kind == "bar":
            name, state, *numbers = rest
            lanes[kind, name].append(Span(*map(int, numbers), value=state))
        elif kind == "many":
            name, begin, end, count, *states = rest
            counts = Counter({state: int(number) for state, number in (it.rsplit("=", 1) for it in states)})
            lanes["bar", name].append(Span(int(begin), int(end), int(count), counts=counts))
        elif kind in ("asked", "told"):
            name, begin, end, value, count = rest
            lanes[kind, name].append(Span(int(begin), int(end), int(count), value=value))
        elif kind == "band" and rest[0] in ("asked", "told"):
            begin, end, low, high, count = map(int, rest[2:])
            lanes[rest[0], rest[1]].append(Span(begin, end, count, range=(low, high)))
        elif kind == "self":
            own[rest[0]] += int(rest[3])
    return lanes, own


def wrong_of_lane(spans, changes, end, width):
    """What is wrong with a lane, or nothing."""
    here = changes[0][0]
    for span in spans:
        if span.begin != here or span.end < span.begin:
            return f"{span} does not begin at {here}"
        here = span.end
    if here != end:
        return f"it ends at {here}, not at {end}"
    if sum(it.count for it in spans) != len(changes):
        return f"it has {sum(it.count for it in spans)} changes of {len(changes)}"
    return next(filter(None, (wrong_of_span(it, changes, width) for it in spans)), "")


def wrong_of_span(span, changes, width):
    """What is wrong with a span, or nothing."""
    if span.value is None:
        inside = [it for it in changes if it[0] // width == span.begin // width]
        values = [value for _, value in inside]
        is_right = len(inside) == span.count > KEPT and (span.begin, span.end) == (inside[0][0], inside[-1][0])
        is_right &= span.counts in (None, Counter(values))
        is_right &= span.range is None or span.range == (min(map(int, values)), max(map(int, values)))
        return "" if is_right else f"{span} has not the changes of its bucket"
    if span.count and (span.begin, span.value) not in changes:
        return f"{span} begins with no change"
    last = [value for time, value in changes if time <= span.begin][-1]
    return f"{span} has not the last value, {last}" if span.end > span.begin and span.value != last else ""


def wrong_of(text, truth, columns):
    """What is wrong with a picture, or nothing."""
    first, last = min(truth.times), max(truth.times)
    width = 1
    while last // width - first // width >= columns:
        width *= 2
    part = next(it for it in text.splitlines() if it.startswith("part "))
    if part != f"part {first} {last} {width}":
        return f"{part}, not part {first} {last} {width}"
    lanes, own = spans_of(text)
    if own != truth.own:
        return f"{own} transitions from a state to itself, not {truth.own}"
    for (kind, name), changes in truth.lanes.items():
        is_drawn = (kind, name) in lanes or " channel of the program" not in text
        end = truth.over if kind == "bar" and truth.over is not None else last
        wrong = wrong_of_lane(lanes[kind, name], changes, end, width) if is_drawn else ""
        if wrong:
            return f"{kind} {name}: {wrong}"
    missing = set(lanes) - {it for it, changes in truth.lanes.items() if changes}
    return f"nothing changes {missing}" if missing else ""


@dataclass
class Laws:
    """The laws over one trace and program, with so many columns."""

    name: str
    source: Path
    trace: Path
    run: Path
    root: Path
    tool: str = "plot"

    def failure(self, programs):
        for columns in COLUMNS:
            words = ["--snc", programs["snc"], "--snl", programs["snl"], "--format", "text", "--columns", str(columns)]
            with open(self.trace, "rb") as trace:
                how = {"stdin": trace, "capture_output": True, "text": True, "timeout": SECONDS}
                ran = subprocess.run([programs["plot"], *words, self.source], **how)
            tables = subprocess.run([programs["snc"], "--tables", self.source], capture_output=True, text=True).stdout
            truth = truth_of(self.trace.read_text(), self.run.read_text(), first_states(tables))
            wrong = wrong_of(ran.stdout, truth, columns) if not ran.returncode else ran.stderr
            if wrong:
                return f"FAILED {self.name}\n  with {columns} columns: {wrong}"
        return None


def first_states(tables):
    """The first state of each state set."""
    lines = [it.split(" ") for it in tables.splitlines()]
    return {line[1]: behind[1] for line, behind in zip(lines, lines[1:]) if line[0] == "ss"}
