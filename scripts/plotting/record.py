"""What is drawn of a run: a lane for each state set and channel, what goes beside them, the table and the boxes."""
from dataclasses import dataclass
from typing import Optional

from plotting import notes
from plotting.buckets import Clock, Steps, Ticks
from plotting.instants import Instant, Table
from plotting.program import Channel, Program, StateSet
from plotting.spots import CHATTER, FAULT, Spot, Spots

# So many transitions of one state set at one time are told as chatter.
MANY_AT_ONCE = 8


@dataclass
class Part:
    """The part of a run that is drawn, in ms; what is None has no border."""

    low: Optional[int] = None
    high: Optional[int] = None

    def has(self, time: int) -> bool:
        """Whether a time is drawn."""
        return (self.low is None or time >= self.low) and (self.high is None or time <= self.high)

    def keep(self, lane: Steps, time: int, value: int) -> None:
        """Puts a value into a lane: as a change, or as what holds at the front where it came before that."""
        if self.has(time):
            lane.add(time, value)
        elif self.low is not None and time < self.low:
            lane.start(value)


def elements(channel: Channel, only: list) -> list:
    """The elements of a channel that have lanes, each with whether it is drawn. The first one always has."""
    if not only:
        return [(0, True)]
    more = [it for it in range(1, channel.count) if f"{channel.name}[{it}]" in only]
    return [(0, channel.name in only or f"{channel.name}[0]" in only)] + [(it, True) for it in more]


class SetLanes:
    """The lanes of a state set."""

    def __init__(self, of: StateSet, clock: Clock, is_drawn: bool):
        """Before the start. States are told by their numbers, from 0 on."""
        self.of, self.name, self.states, self.is_drawn = of, of.name, of.states, is_drawn
        self.numbers = {name: number for number, name in enumerate(of.states)}
        self.steps, self.own = Steps(clock, True), Ticks(clock)
        # The state at the end of what is drawn, and since when; transitions of the instant at hand.
        self.state: Optional[int] = None
        self.since, self.at_once = 0, 0

    def never(self) -> list:
        """The states that were not entered in what is drawn."""
        there = self.steps.all_values()
        return [name for number, name in enumerate(self.states) if number not in there]


class ChannelLanes:
    """The lanes of one element of a channel."""

    def __init__(self, of: Channel, element: int, clock: Clock, is_drawn: bool):
        """Before the first line of the trace: it is not connected."""
        self.of, self.name, self.element, self.is_drawn = of, of.name, element, is_drawn
        self.shown = of.name if not element else f"{of.name}[{element}]"
        self.told, self.asked, self.link = Steps(clock), Steps(clock), Steps(clock)
        self.waits, self.refused = Steps(clock), Ticks(clock)
        self.value: Optional[int] = None
        self.is_waiting = False

    def is_put(self) -> bool:
        """Whether the program put to it, or tried to."""
        return self.asked.has_values() or self.refused.count > 0


@dataclass
class Counts:
    """How much there is in what is drawn."""

    lines: int = 0
    transitions: int = 0
    puts: int = 0
    refused: int = 0
    prints: int = 0


class Record:
    """A run as it is drawn. Lines of the trace and of the run come in order of time, at one time those of the trace first."""

    def __init__(self, program: Program, only: list, part: Part, columns: int):
        """An empty one. `only` names the state sets, channels and elements that are drawn, as NAME or NAME[K]; where it is empty
        all state sets and the first elements of all channels are."""
        self.part, self.clock = part, Clock(columns, part.low)
        self.sets = [SetLanes(it, self.clock, not only or it.name in only) for it in program.sets]
        self.by_set = {it.name: it for it in self.sets}
        self.channels: list = []
        self.by_channel: dict = {}
        for channel in program.channels.values():
            lanes = [ChannelLanes(channel, it, self.clock, is_drawn) for it, is_drawn in elements(channel, only)]
            self.by_channel[channel.name] = lanes
            self.channels += lanes
        self.lines, self.wakes, self.prints = (Ticks(self.clock) for _ in range(3))
        self.table, self.spots, self.counts = Table(), Spots(), Counts()
        self.instant: Optional[Instant] = None
        self.first: Optional[int] = None
        self.last: Optional[int] = None
        # Whether the run goes on behind what is drawn.
        self.goes_on = False
        # When the program began, when it ended, what is said of its fault and of a bad line, what it waits for, and what is said
        # of names that it does not have.
        self.began: Optional[int] = None
        self.over: Optional[int] = None
        self.fault: Optional[str] = None
        self.bad = ""
        self.waits: list = []
        self.hints: list = []
        self.is_cut = self.is_folded = False
        # Names in the trace that are no channels of the program, with the line of each.
        self.unknown: dict = {}

    def reach(self, time: int) -> Instant:
        """The instant of a time."""
        if self.instant is None or self.instant.time != time:
            self.close_instant()
            self.instant = Instant(time)
            self.goes_on |= self.part.high is not None and time > self.part.high
            if self.part.has(time):
                self.first = time if self.first is None else self.first
                self.last = time
        return self.instant

    def close_instant(self) -> None:
        """Makes a row of the instant at hand."""
        it = self.instant
        self.instant = None
        if it is None:
            return
        is_drawn = self.part.has(it.time)
        for lanes in self.sets:
            if lanes.at_once >= MANY_AT_ONCE and is_drawn:
                text = f"{lanes.name} makes {lanes.at_once} transitions at one time"
                self.spots.add(Spot(it.time, CHATTER, text, lanes.at_once))
            lanes.at_once = 0
        if it.deed_count and is_drawn:
            self.table.add(it.row())

    def begin(self) -> int:
        """The first time that is drawn."""
        if self.part.low is not None:
            return self.part.low
        return 0 if self.first is None else self.first

    def stop(self) -> int:
        """The last time of which all is known."""
        if self.goes_on:
            return max(self.part.high, self.begin())
        return self.begin() if self.last is None else self.last

    def end(self) -> int:
        """Where the picture ends: behind the end of the run there is a margin."""
        stop = self.stop()
        margin = 0 if self.goes_on and stop > self.begin() else max(1, (stop - self.begin()) // 50)
        return stop + margin

    def is_whole(self) -> bool:
        """Whether all of the run is drawn."""
        return self.part.low is None and self.part.high is None

    def close(self, ending: notes.Ending) -> None:
        """Takes what the notes behind the run say."""
        self.close_instant()
        self.table.close()
        self.waits, self.hints, self.is_cut = ending.waits, ending.unknown, ending.is_cut
        self.is_folded = ending.is_folded

    def spoil(self, text: str) -> None:
        """The trace has a bad line, of which this is said."""
        self.bad = text
        self.spots.add(Spot(self.stop(), FAULT, f"bad line of the trace: {text}"))
