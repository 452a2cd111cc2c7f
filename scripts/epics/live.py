#!/usr/bin/python3
"""Runs a program beside a control system, by Channel Access: what happens on its channels goes as a trace into a running `snlrun`.

    live.py [--put] [--keep TRACE [--force]] [--tick MS] [--late MS] [--late-stop MS] [--units FILE] [--scale NAME=K]..
            [--enum NAME=TEXT:N,..].. [--program FILE [--macros M=TEXT,..]] -- snlrun PROGRAM [MACROS]

The lines of the run come on standard output. Its puts are only shown: with --put each of them is put on its channel. The channels
are those of PROGRAM.

    scripts/epics/live.py --put --keep light.trace -- bin/snlrun light.st
    bin/snlrun light.st < light.trace                  the same lines once more, byte for byte

TRACE is what `snlrun` was given: what happened, and a `tick` each 20 ms (--tick), so that a `delay` is over in time. Signs as %Y
in its name stand for the date. A put with `ASYNC` asks for an answer, which comes as a line `done`; without --put no answer
comes. Values are whole numbers as those of record.py; puts are divided by 10^K again, and of a channel of texts the text is put.
What fails or is refused stands in TRACE as a comment, and on standard error; the program does not hear of it. So does it where
the run is behind by more than --late; with --late-stop it ends then. At Ctrl-C, and when the program ends, no further put is
done; what was put stays.

This is no interlock. Nothing promises how soon anything happens, that a put arrives, or that the values of two servers come in
the order in which they were sent. What is proved is what `snlrun` prints for TRACE, and nothing else here is.
"""
import errno
import os
import sys

sys.dont_write_bytecode = True
import kept  # noqa: E402
import words  # noqa: E402
from channels import Channels, Missing, ca  # noqa: E402
from lag import Lag  # noqa: E402
from lines import Lines, Refused  # noqa: E402
from loop import Loop  # noqa: E402
from puts import Puts  # noqa: E402
from run import Run  # noqa: E402
from shown import Shown, Teller, name_of  # noqa: E402
from waits import Waits  # noqa: E402

say = Teller("live.py")
# Statuses of its own.
REFUSED, NEVER_BEGAN, FAILED, TOO_LATE = 1, 1, 3, 7


class Live:
    """A program that runs beside its channels."""

    def __init__(self, loop, wanted, channels, run, keep):
        """`keep` is the file of the trace, or nothing."""
        self.loop, self.lines, self.channels, self.run, self.keep = loop, Lines(wanted, loop.zero), channels, run, keep
        self.waits, self.shown = Waits(wanted, self.lines), Shown(1, self.missed, self.unshown)
        # What puts, or nothing where puts are only shown; how late all is; why no line can be shown any more; and the times of
        # what waited at the end.
        self.puts, self.lag, self.fault, self.lost = None, None, None, []

    def begin(self, lag, head):
        """Writes the first comments, and begins to listen and to look how late all is."""
        self.lag = lag
        self.write([*head, *self.lines.clock(0)])
        self.run.listen(self.heard, self.loop.end, ca.use_initial_context)  # each thread has to ask for the library's
        lag.watch(self.run.process)

    def on_events(self, events):
        """Writes the lines of events. Values are asked for when a channel is up for the first time."""
        found, self.lag.working = self.notes(), events[0].at
        try:
            for event in events:
                found += self.told(event)
                self.lag.seen(event.at)
                if event.word == "up":
                    self.channels.subscribe(event.name, event.kind)
        finally:
            self.write(found)
            self.lag.working = None

    def on_period(self):
        """Lets time pass: by a line, where no event waits that has a time itself."""
        now, time = self.loop.now(), []
        if self.loop.events.empty():
            time = [*self.lines.clock(now), self.lines.timed(now, "tick")]
        self.write(self.notes() + time)
        self.channels.flush()
        for text in self.lines.late(self.loop.now(), self.waits):
            say(text)

    def notes(self):
        """The comments that others left for the trace."""
        return [self.lag.notes.popleft() for _ in range(len(self.lag.notes))]

    def told(self, event):
        """The lines of an event; comments are told, too."""
        for line in self.lines.lines(event):
            if line[0] == "#":
                say(line[2:])
            yield line

    def write(self, lines):
        """Writes lines to the trace that is kept and to the run: the same bytes, comments too."""
        if not lines:
            return
        data = "".join(f"{line}\n" for line in lines).encode()
        if self.keep:
            data = self.keep.write(data)
        self.lag.feeds(self.lines.last, len(data))
        self.run.feed(data)
        if self.keep and self.keep.fault:
            self.loop.end()

    def heard(self, lines):
        """Does what lines of the run say, and shows them. A thread of its own calls this, at last with no line."""
        for line in lines:
            fields = line.split()
            # A line without its end may lack digits: the run was killed.
            if fields[1:2] == [b"put"] and line.endswith(b"\n"):
                self.lag.seen(int(fields[0]))
                self.put(fields[2].decode(), [int(it) for it in fields[3:]])
            elif fields[1:2] == [b"start"]:
                self.waits.has_begun = True
        if self.puts:
            self.puts.flush()
        self.shown.add(lines)

    def put(self, name, numbers):
        """Puts numbers on a channel, but for the lines that the run still had when it was ended."""
        if self.puts and self.loop.is_ending and not self.is_full():
            self.puts.tell(name, "live.py is ending")
        elif self.puts:
            self.puts.put(name, numbers)

    def is_full(self):
        """Whether it ends since something can't be written: then what the run says to its end is still put."""
        return bool(self.keep and self.keep.fault or self.fault and not isinstance(self.fault, BrokenPipeError))

    def give_up(self):
        """Ends the run by force, at a second Ctrl-C, and tells what is lost."""
        self.run.process.kill()
        say.at_once(f"{self.loop.events.qsize()} events that waited were not written")

    def missed(self, count):
        """Tells that lines could not be shown."""
        say(f"{count} lines were not shown: {name_of(1, 'standard output')} was not read")

    def unshown(self, fault):
        """Nothing can be shown any more: that is the end."""
        self.fault = fault
        self.loop.end()

    def finish(self):
        """Ends the run, and keeps what is told of the last puts. The status of the run."""
        self.loop.end()
        status = self.run.finish()
        if self.puts:
            self.puts.settle()
        last = self.notes()
        for event in self.loop.left():
            if event.word == "#":
                last += self.told(event)
            elif self.loop.waited(event):
                self.lost.append(event.at)
        if self.lost:
            span = f"the first of {min(self.lost)}, the last of {max(self.lost)}"
            last.append(f"# {len(self.lost)} events that waited were not written, {span}")
            say(last[-1][2:])
        if self.keep:
            self.keep.write("".join(f"{line}\n" for line in last).encode())
        return self.reported(status)

    def reported(self, status):
        """Says what there is to say in the end. The status of the run, or what comes in its place."""
        for text in (*self.lines.report(self.waits), *self.lag.finish()):
            say(text)
        hidden = self.shown.finish()
        if isinstance(self.fault, BrokenPipeError):
            say("nobody reads the lines any more")
        elif self.fault:
            say(f"{name_of(1, 'standard output')}: {self.fault.strerror}")
        if hidden and not self.fault:
            self.missed(hidden)
        if self.keep and self.keep.fault:
            say(f"{self.keep.name}: {self.keep.fault.strerror}")
        if self.lag.is_stopped:
            return TOO_LATE
        return status or (FAILED if self.fault or self.keep and self.keep.fault else 0)


def parser():
    """The words that it knows."""
    found = words.parser_of(__doc__)
    found.add_argument("--put", action="store_true", help="puts are put on their channels, and not only shown")
    found.add_argument("--keep", metavar="TRACE", help="keeps the trace of the run in this file; %%Y and such are the date")
    found.add_argument("--force", action="store_true", help="--keep writes over a file that is there")
    found.add_argument("--tick", type=words.milliseconds, default=20, metavar="MS", help="the time between two ticks")
    found.add_argument("--late", type=words.milliseconds, default=500, metavar="MS", help="tells where it is more behind; 500")
    found.add_argument("--late-stop", type=words.milliseconds, metavar="MS", help="ends where it is more behind")
    found.add_argument("call", nargs="+", metavar="WORD", help="the call of snlrun, behind --")
    return found


def read(known):
    """The words of the call, what they ask for, and the file of the program where it is one of them."""
    given = known.parse_args()
    path, own = words.program_in(given.call[1:]) or ("", "")
    if not given.program and not given.tables:
        if not path:
            known.error("no word of the call is the source of a program: name it by --program")
        given.program = path
    wanted = words.wanted(known, given, own=own)
    if given.tables:
        say(words.OLD)
    if given.force and not given.keep:
        known.error("--force says nothing without --keep")
    try:
        given.keep = given.keep and kept.dated(given.keep)
    except ValueError as fault:
        known.error(str(fault))
    source = words.source_of(wanted, [*given.call[1:], *filter(None, [given.program])])
    wanted.unread = words.unread(wanted, source)
    return given, wanted, source


def began(given, wanted, source, loop):
    """The program, running, and its channels. `OSError` where the call or the file can't be had, `Missing` without pyepics."""
    if sys.stdout is None:
        raise OSError(errno.EBADF, os.strerror(errno.EBADF), "standard output")
    keep = kept.opened(given.keep, given.force) if given.keep else None
    try:
        channels = Channels(wanted, loop.happened)
        run = Run(given.call)
    except (OSError, Missing):
        if keep:
            keep.discard()
        raise
    if keep:
        keep.empty()
    live = Live(loop, wanted, channels, run, keep)
    if given.put:
        live.puts = Puts(channels, wanted, words.asking(wanted, source))
    loop.give_up = live.give_up
    live.begin(Lag(loop, say, given.late, given.late_stop), kept.head("live.py", wanted, source, loop.zero))
    say("puts go to their channels" if given.put else "puts are only shown: --put puts them")
    return live


def followed(live):
    """Runs until the program, a signal or the time ends it. The status, that of the run where that is not 0."""
    own = 0
    try:
        live.loop.run(live.on_events, live.on_period)
    except Refused as fault:
        say(fault)
        own = REFUSED
    status = live.finish()
    return status or own or (0 if live.waits.has_begun else NEVER_BEGAN)


def main():
    """Reads the words and runs. The status is that of the run, or 1 for a channel that no trace can hold and a program that never
    began, 2 for wrong words, 3 where a file, the call or pyepics is not there or a file is full, 7 where it was behind by more
    than --late-stop, 130 where it had to be ended by a second Ctrl-C."""
    given, wanted, source = read(parser())
    loop = Loop(given.seconds, given.tick / 1000)
    loop.heed_signals()
    try:
        status = followed(began(given, wanted, source, loop))
    except (Missing, OSError) as fault:
        say(f"{fault.filename}: {fault.strerror}" if isinstance(fault, OSError) else fault)
        status = FAILED
    say.finish()
    return status


if __name__ == "__main__":
    sys.exit(main())
