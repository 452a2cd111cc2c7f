"""Lines of a trace, of what happens on channels; and what there is to tell of the channels in the end."""
from collections import Counter

from values import FRACTIONS, whole
from words import units

# The bytes of a line behind the longest time.
ROOM = 32768 - 17
# The ms after which it is told once which channels are not there.
LATE = 5000


class Refused(Exception):
    """A channel that no trace can hold."""


class Lines:
    """Makes lines of events. A line that begins with `#` is a comment."""

    def __init__(self, wanted, zero):
        """Lines of the channels that a call asked for. At 0 the clock of the machine had `zero` ms since 1970."""
        self.wanted, self.zero = wanted, zero
        # Enumerations of which it was told how they are taken; the second that the channel of the clock has.
        self.told = set()
        self.second = None
        # Channels that are connected, that ever were, that ever gave a number; when one went down; what was left out last.
        self.up, self.seen, self.numbered, self.down, self.lost = set(), set(), set(), {}, {}
        # How often values were left out or cut off, and how many lines of values there are.
        self.left_out, self.cut, self.count = Counter(), set(), 0
        self.is_late, self.last = False, 0

    def timed(self, at, text):
        """A line with its time. Those of two threads may meet the other way round: a time never falls."""
        self.last = max(self.last, at)
        return f"{self.last} {text}"

    def clock(self, at):
        """The lines of the channel of the clock up to a time: one for each second, at which it begins."""
        if not self.wanted.has_clock:
            return
        if self.second is None:
            self.second = self.zero // 1000
            self.up.add(units.CLOCK)
            self.seen.add(units.CLOCK)
            self.numbered.add(units.CLOCK)
            yield self.timed(0, f"up {units.CLOCK}")
            yield self.timed(0, f"val {units.CLOCK} {self.second}")
        for second in range(self.second + 1, (self.zero + at) // 1000 + 1):
            self.second = second
            yield self.timed(1000 * second - self.zero, f"val {units.CLOCK} {second}")

    def lines(self, event):
        """The lines of an event, with their times. A line that begins with `#` is a comment and has none."""
        if event.word != "#":
            yield from self.clock(event.at)
        for text in self.of(event):
            yield text if text[0] == "#" else self.timed(event.at, text)

    def of(self, event):
        """The lines of an event, none or several. `Refused` where it is a channel of texts and nothing gives their numbers."""
        if event.word == "up":
            yield from self.connected(event.name, event.kind)
        elif event.word == "down" and event.name in self.up:
            self.up.discard(event.name)
            self.down[event.name] = event.at
            yield f"down {event.name}"
        elif event.word == "val":
            yield from self.value(event)
        elif event.word == "done":
            yield f"done {event.name}"
        elif event.word == "#":
            yield "# " + " ".join(event.name.encode("ascii", "replace").decode().split())

    def connected(self, name, kind):
        """The lines of a channel that is up; a second `up` says nothing."""
        if kind == "string" and name not in self.wanted.texts and name not in self.wanted.patterns and name not in self.wanted.stamps:
            raise Refused(f"{name} has texts: give their numbers by --enum {name}=TEXT:N,.. or leave it out")
        if name in self.up:
            return
        yield from () if name in self.seen or name in self.wanted.stamps else self.meant(name, kind)
        self.up.add(name)
        self.seen.add(name)
        yield f"up {name}"

    def meant(self, name, kind):
        """What to say of a channel whose values are taken in another way than may be meant."""
        if kind in FRACTIONS and name not in self.wanted.scales:
            yield f"# {name} has a fraction and is rounded to whole numbers: --scale {name}=K keeps K decimals"
        if kind != "string" and name in self.wanted.named:
            yield f"# {name} has numbers and no texts: its --enum is not used"
        elif kind != "string" and name in self.wanted.patterns:
            yield f"# {name} has numbers and no texts: what --units asks of it is not asked"

    def value(self, event):
        """The lines of values that came. Values that have no number are left out, and told when the last ones had."""
        name, values = event.name, event.values[: self.wanted.channels[event.name]]
        if event.kind == "enum" and name in self.wanted.texts and name not in self.told | self.wanted.named:
            self.told.add(name)
            if not self.wanted.has_states(name):
                yield f"# {name} is an enumeration with other texts than those of --units: its index is taken"
        numbers = [self.number(name, it, event.kind) for it in values]
        if None in numbers or not numbers:
            self.left_out[name] += 1
            if name not in self.lost:
                yield f"# {name}: left out, no number of 64 bits: {ascii(values)[:200]}"
            self.lost[name] = values
            return
        self.lost.pop(name, None)
        self.numbered.add(name)
        self.count += 1
        yield self.fitting(f"val {name}", numbers)

    def number(self, name, value, kind):
        """The number of one value, or None."""
        if kind == "string" and name in self.wanted.patterns:
            return int(self.wanted.patterns[name].matches(value))
        if kind == "string":
            return self.wanted.texts[name].get(value)
        if kind == "enum" and self.wanted.has_states(name):
            states = self.wanted.states[name]
            return self.wanted.texts[name].get(states[value]) if value < len(states) else None
        return whole(value, kind, 1 if kind == "enum" else self.wanted.scales.get(name, 1))

    def fitting(self, front, numbers):
        """A line with as many numbers as there is room for."""
        line = f"{front} {' '.join(map(str, numbers))}"
        if len(line) <= ROOM:
            return line
        self.cut.add(front.split()[1])
        return line[: line.rindex(" ", 0, ROOM + 1)]

    def late(self, now, waits=None):
        """What to say once, some seconds after the start, of what is not there; `now` is in ms."""
        if now >= LATE and not self.is_late:
            self.is_late = True
            yield from self.absent(waits)

    def absent(self, waits=None):
        """What to say of a program that has not begun; else of each channel that was never connected, or never gave a value."""
        if waits and not waits.has_begun:
            yield "the program has not begun"
            yield from waits.texts()
            return
        for name in self.wanted.channels:
            if name not in self.seen:
                yield f"{name}: no connection since the start"
            elif name not in self.numbered and name not in self.wanted.unread:
                yield f"{name}: connected, and no value since the start{self.instead(name)}"

    def instead(self, name):
        """What came in the place of a value that has a number; nothing where nothing came."""
        if name not in self.lost:
            return ""
        return f"; what came last is {ascii(self.lost[name])[1:-1][:200] or 'an array without elements'}"

    def report(self, waits=None):
        """What to say in the end."""
        yield from self.absent(waits)
        for name, count in self.left_out.items():
            yield f"{name}: left out, no number of 64 bits: {count}"
        for name in sorted(self.cut):
            yield f"{name}: of its values only those were taken that fit into a line"
        yield f"{len(self.up)} of {len(self.wanted.channels)} channels connected at the end, values that were written: {self.count}"
