#!/usr/bin/python3
"""Records a trace of a control system's channels, by Channel Access, until Ctrl-C.

    record.py [--program FILE [--macros M=TEXT,..]] [--units FILE] [--scale NAME=K].. [--enum NAME=TEXT:N,..].. [NAME..] > TRACE

The channels are the NAMEs, and those of a program:

    scripts/epics/record.py --program light.st --scale LAB:VOLTAGE=3 > light.trace
    bin/snlrun light.st < light.trace

A time is that at which something arrives here, in milliseconds from the start. Values are whole numbers: of a channel with a
fraction, value * 10^K is rounded, halves away from 0, with K = 0 where --scale does not say it. Enumerations give their
index, texts the number that --enum names. --units FILE says all that of a program that was ported. What is left out stands in
the trace as a comment, and on standard error. What has arrived when Ctrl-C comes is written before the end.
"""
import sys

sys.dont_write_bytecode = True
import kept  # noqa: E402
import words  # noqa: E402
from channels import Channels, Missing  # noqa: E402
from lines import Lines, Refused  # noqa: E402
from loop import Loop  # noqa: E402
from shown import Teller, name_of  # noqa: E402

# Seconds after which the library is told once more to send what it has.
PERIOD = 0.2

say = Teller("record.py")


class Record:
    """Channels, and the trace of them on standard output."""

    def __init__(self, loop, wanted):
        """Nothing is asked for yet."""
        self.loop, self.wanted, self.lines = loop, wanted, Lines(wanted, loop.zero)
        self.trace, self.channels = kept.Kept(1, name_of(1, "standard output")), None
        loop.give_up = self.give_up

    def on_events(self, events):
        """Writes the lines of events. Values are asked for when a channel is up for the first time."""
        found = []
        try:
            for event in events:
                found += self.told(event)
                if event.word == "up":
                    self.channels.subscribe(event.name, event.kind)
        finally:
            self.write(found)

    def told(self, event):
        """The lines of an event; comments are told, too."""
        for line in self.lines.lines(event):
            if line[0] == "#":
                say(line[2:])
            yield line

    def on_period(self):
        """Looks after the library, and for channels that are not there. The clock goes on where no event waits."""
        if self.loop.events.empty():
            self.write(list(self.lines.clock(self.loop.now())))
        self.channels.flush()
        for text in self.lines.late(self.loop.now()):
            say(text)

    def write(self, lines):
        """Writes lines; where that fails it is the end."""
        self.trace.write("".join(f"{it}\n" for it in lines).encode())
        if self.trace.fault:
            self.loop.end()

    def follow(self):
        """Writes what happens until the loop ends, and what had happened by then. The last line has the time of the end."""
        self.write([*kept.head("record.py", self.wanted, None, self.loop.zero), *self.lines.clock(0)])
        self.channels = Channels(self.wanted, self.loop.happened)
        self.loop.run(self.on_events, self.on_period)
        self.loop.end()
        for event in self.loop.left():
            if self.loop.waited(event):
                self.write(list(self.told(event)))
        self.write([*self.lines.clock(self.loop.ended), self.lines.timed(self.loop.ended, "tick")])

    def give_up(self):
        """Tells what is lost by a second Ctrl-C."""
        say.at_once(f"{self.loop.events.qsize()} events that waited were not written")

    def finish(self):
        """Says what there is to say in the end. The status."""
        if isinstance(self.trace.fault, BrokenPipeError):
            say("nobody reads the trace any more")
        elif self.trace.fault:
            say(f"{self.trace.name}: {self.trace.fault.strerror}")
        else:
            for text in self.lines.report():
                say(text)
        return 3 if self.trace.fault else 0


def main():
    """Reads the words and records. The status is 1 for a channel that no trace can hold, 2 for wrong words, 3 where
    pyepics is not there, nobody reads the trace, or its file is full."""
    parser = words.parser_of(__doc__)
    parser.add_argument("names", nargs="*", metavar="NAME")
    given = parser.parse_intermixed_args()
    wanted = words.wanted(parser, given, given.names)
    if not wanted.channels:
        parser.error("no channel is named")
    if given.tables:
        say(words.OLD)
    if sys.stdout is None:
        say("standard output is closed")
        say.finish()
        return 3
    loop = Loop(given.seconds, PERIOD)
    loop.heed_signals()
    record = Record(loop, wanted)
    try:
        record.follow()
        status = record.finish()
    except (Refused, Missing) as fault:
        say(fault)
        status = 1 if isinstance(fault, Refused) else 3
    say.finish()
    return status


if __name__ == "__main__":
    sys.exit(main())
