"""Takes the lines of a trace and of a run, merged by time, and fills the record of what is drawn."""
from typing import Iterator, Optional

from plotting.instants import Deed
from plotting.named import Variables
from plotting.notes import Clause, Ending, Entry, Refusal, entries
from plotting.program import StateSet
from plotting.record import ChannelLanes, Record, SetLanes
from plotting.spots import DOWN, FAULT, REFUSED, Spot
from plotting.trace import Event

# So many names that are no channels of the program are kept, and so many values of an array are told.
MOST_UNKNOWN, MOST_VALUES = 5, 8


def recorded(record: Record, variables: Variables, events: Iterator[Event], run: Iterator[bytes]) -> None:
    """Fills a record. At one time the lines of the trace come first; lines of the run at other times are those of wakes."""
    ending, recorder = Ending(), Recorder(record, variables)
    lines = entries(run, ending)
    entry = next(lines, None)
    for event in events:
        while entry is not None and entry.time < event.time:
            recorder.entry(entry)
            entry = next(lines, None)
        recorder.event(event)
    while entry is not None:
        recorder.entry(entry)
        entry = next(lines, None)
    record.close(ending)


class Recorder:
    """Puts lines where they belong."""

    def __init__(self, record: Record, variables: Variables):
        """The record that is filled, and how values are told in its table."""
        self.record, self.part, self.variables, self.values = record, record.part, variables, variables.values
        self.kinds = {"go": self.go, "put": self.put, "print": self.say}
        self.kinds |= {"start": self.start, "exit": self.leave, "fault": self.fault}
        # The clause whose transition comes next.
        self.clause: Optional[Clause] = None
        self.words = {"val": self.val, "up": self.up, "down": self.down, "done": self.done}

    # Lines of the trace.

    def event(self, event: Event) -> None:
        """Takes a line of the trace."""
        record = self.record
        record.reach(event.time).line(event.line, self.told(event))
        if self.part.has(event.time):
            record.counts.lines += 1
            record.lines.add(event.time)
        if event.word == "tick":
            return
        lanes = record.by_channel.get(event.name)
        if lanes is None:
            self.unknown(event)
            return
        take = self.words[event.word]
        for it in lanes:
            take(it, event)

    def told(self, event: Event) -> str:
        """A line of the trace, with values as they are shown everywhere."""
        if event.word != "val" or not self.values.is_told(event.name):
            return event.text
        return f"val {event.name} {self.shown(event.name, event.values)}"

    def shown(self, name: str, values: list) -> str:
        """The first values of a channel."""
        return " ".join([self.values.full(name, int(it)) for it in values[:MOST_VALUES]] + [".."] * (len(values) > MOST_VALUES))

    def saw(self, text: str) -> str:
        """What a condition saw, as `x=7 y[2]=3`: each value as those of the channel of its variable are shown."""
        return ", ".join(map(self.value_seen, text.split(" "))) if text else ""

    def value_seen(self, text: str) -> str:
        """One of these values."""
        place, _, value = text.partition("=")
        shown = self.variables.full(place, int(value)) if value.removeprefix("-").isdigit() else None
        return text if shown is None else f"{place}={shown}"

    def unknown(self, event: Event) -> None:
        """A line names a channel that the program does not have."""
        known = self.record.unknown
        if len(known) < MOST_UNKNOWN:
            known.setdefault(event.name, event.line)

    def val(self, lanes: ChannelLanes, event: Event) -> None:
        """Values came. A value that is as it was is no change."""
        if lanes.element >= len(event.values):
            return
        value = event.values[lanes.element]
        if value != lanes.value:
            lanes.value = value
            self.part.keep(lanes.told, event.time, value)

    def up(self, lanes: ChannelLanes, event: Event) -> None:
        """The channel is connected."""
        self.part.keep(lanes.link, event.time, 1)
        self.linked(lanes, event.time, "connected again")

    def down(self, lanes: ChannelLanes, event: Event) -> None:
        """The channel is not connected any more, which ends the waiting for an answer."""
        self.part.keep(lanes.link, event.time, 0)
        self.wait(lanes, event.time, False)
        self.linked(lanes, event.time, "not connected any more")
        if lanes.element == 0 and self.part.has(event.time):
            self.record.spots.add(Spot(event.time, DOWN, f"{lanes.name} goes down"))

    def linked(self, lanes: ChannelLanes, time: int, text: str) -> None:
        """Tells that a channel was lost or found, once the program has begun."""
        if self.record.began is not None and lanes is self.record.by_channel[lanes.name][0]:
            self.record.instant.deed(Deed("link", f"{lanes.name} is {text}"))

    def done(self, lanes: ChannelLanes, event: Event) -> None:
        """The puts to the channel were answered."""
        self.wait(lanes, event.time, False)

    def wait(self, lanes: ChannelLanes, time: int, is_waiting: bool) -> None:
        """From now on a put to the channel waits for its answer, or none does."""
        if lanes.is_waiting != is_waiting:
            lanes.is_waiting = is_waiting
            self.part.keep(lanes.waits, time, int(is_waiting))

    # Lines of the run.

    def entry(self, entry: Entry) -> None:
        """Takes a line of the run, with the notes of its time."""
        instant = self.record.reach(entry.time)
        if not instant.line_count and not instant.deed_count and self.part.has(entry.time):
            self.record.wakes.add(entry.time)
        for clause in entry.clauses:
            instant.name(clause.trace)
            self.clause = clause
        for refusal in entry.refusals:
            self.refuse(entry.time, refusal)
        self.kinds.get(entry.kind, lambda _: None)(entry)
        for refusal in entry.later:
            self.refuse(entry.time, refusal)

    def go(self, entry: Entry) -> None:
        """A transition."""
        name, source, target = entry.rest.split(" ")
        lanes, is_drawn = self.record.by_set[name], self.part.has(entry.time)
        lanes.at_once += 1
        is_own = source == target
        clause, saw = clause_of(self.clause, lanes.of, source, target)
        test = lanes.of.conditions.get((source, self.clause.number), "") if self.clause else ""
        self.clause = None
        deed = Deed("go", f"{name}: {source} -> {target}", clause, self.saw(saw), self.variables.condition(test))
        self.record.instant.deed(deed, is_dull=is_own and lanes.at_once == 1)
        self.record.counts.transitions += is_drawn
        if not is_own and target in lanes.numbers:
            self.enter(lanes, entry.time, lanes.numbers[target])
        elif is_own and is_drawn:
            lanes.own.add(entry.time)

    def enter(self, lanes: SetLanes, time: int, number: int) -> None:
        """A state set is in a state from now on."""
        self.part.keep(lanes.steps, time, number)
        if self.part.high is None or time <= self.part.high:
            lanes.state, lanes.since = number, time

    def put(self, entry: Entry) -> None:
        """A put. Of an array each element that is drawn has a lane of its own."""
        name, *texts = entry.rest.split(" ")
        self.record.counts.puts += self.part.has(entry.time)
        self.record.instant.deed(Deed("put", f"{name} := {self.shown(name, texts)}"))
        for lanes in self.record.by_channel.get(name, ()):
            if lanes.element < len(texts):
                self.part.keep(lanes.asked, entry.time, int(texts[lanes.element]))
            if lanes.of.is_asking:
                self.wait(lanes, entry.time, True)

    def say(self, entry: Entry) -> None:
        """A `printf`."""
        name, _, text = entry.rest.partition(" ")
        self.record.instant.deed(Deed("print", f"{name} says: {text}"))
        if self.part.has(entry.time):
            self.record.counts.prints += 1
            self.record.prints.add(entry.time, text)

    def start(self, entry: Entry) -> None:
        """The program begins, with each state set in its first state."""
        self.record.began = entry.time
        self.record.instant.deed(Deed("start", "the program starts"))
        for lanes in self.record.sets:
            self.enter(lanes, entry.time, 0)

    def leave(self, entry: Entry) -> None:
        """The program ends by itself."""
        self.record.over = entry.time
        self.record.instant.deed(Deed("exit", "the program ends"))

    def fault(self, entry: Entry) -> None:
        """The program did something wrong, and is stopped."""
        name, line, text = entry.rest.split(" ", 2)
        self.record.over, self.record.fault = entry.time, f"{name}, line {line}: {text}"
        self.record.instant.deed(Deed("fault", f"FAULT in {self.record.fault}"))
        if self.part.has(entry.time):
            self.record.spots.add(Spot(entry.time, FAULT, f"fault in {self.record.fault}"))

    def refuse(self, time: int, refusal: Refusal) -> None:
        """A put was refused."""
        text = f"put to {refusal.name} refused: {refusal.why}" if refusal.name else f"put refused: {refusal.why}"
        self.record.instant.deed(Deed("refused", text))
        if not self.part.has(time):
            return
        self.record.counts.refused += 1
        self.record.spots.add(Spot(time, REFUSED, text))
        for lanes in self.record.by_channel.get(refusal.name, ()):
            lanes.refused.add(time)


def clause_of(noted: Optional[Clause], of: StateSet, source: str, target: str) -> tuple[str, str]:
    """The clause of a transition, and the values that it saw: those of the note; without one each clause that leads there."""
    if noted is not None:
        return f"clause {noted.number}, line {noted.line}", noted.saw
    numbers = of.clauses.get((source, target), [])
    return f"clause {' or '.join(map(str, numbers))}" if numbers else "", ""
