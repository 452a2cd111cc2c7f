"""The loop of both scripts: it takes what happens off a queue, in its order, keeps a period, and ends well."""
import os
import queue
import signal
import time
from dataclasses import dataclass

# The most events that are taken at once. One write for all of them is what makes a loop that is behind catch up.
MOST = 200
# Seconds. Where events come closer than that they are gathered so long: each time costs as much as the events themselves.
CLOSE = 0.002


@dataclass(slots=True)
class Event:
    """What happened: `up`, `down`, `val` or `done` of a channel, or `#`, a comment that stands in the place of a name."""

    # The milliseconds from the start, where the library told it.
    at: int
    word: str
    name: str
    # The values of a `val`, and the type of the channel behind `up` and `val`, in the words of Channel Access.
    values: list = ()
    kind: str = ""


class Loop:
    """All threads hand on what happens to this loop, with the time at which it happened."""

    def __init__(self, seconds, period):
        """It ends after so many seconds; a period has so many seconds as well."""
        self.events, self.seconds, self.period = queue.SimpleQueue(), seconds, period
        self.start, self.is_ending, self.ended, self.give_up = time.monotonic(), False, None, lambda: None
        # The ms since 1970 at the start, by the clock of the machine.
        self.zero = time.time_ns() // 1_000_000
        # When events were taken last.
        self.taken = 0

    def now(self):
        """The milliseconds from the start, by a clock that never goes back."""
        return int((time.monotonic() - self.start) * 1000)

    def happened(self, word, name, values=(), kind=""):
        """Hands on what happens now, from any thread."""
        self.events.put(Event(self.now(), word, name, values, kind))

    def end(self):
        """Ends the loop, from any thread. What still waits in the queue is not taken."""
        self.ended = self.now() if self.ended is None else self.ended
        self.is_ending = True
        self.events.put(None)

    def interrupted(self, *_):
        """What a signal does: the first ends the loop, a second one the script at once, whatever it waits for."""
        if self.is_ending:
            self.give_up()
            os._exit(130)
        self.end()

    def heed_signals(self):
        """From now on Ctrl-C and `kill` end the loop, also where a shell started it in the background."""
        for it in (signal.SIGINT, signal.SIGTERM):
            signal.signal(it, self.interrupted)

    def run(self, on_events, on_period):
        """Calls the one for events, in their order, and the other once in each period, however many events there are."""
        due = time.monotonic()
        while not self.is_ending and time.monotonic() - self.start < self.seconds:
            wait = due - time.monotonic()
            if wait <= 0:
                on_period()
                due = due + self.period if wait > -self.period else time.monotonic() + self.period
                continue
            try:
                event = self.events.get(timeout=wait)
            except queue.Empty:
                continue
            if event is not None:
                on_events(self.with_others(event))

    def with_others(self, event):
        """An event and those that wait behind it, or come right then."""
        if time.monotonic() - self.taken < CLOSE:
            time.sleep(CLOSE)
        self.taken, found = time.monotonic(), [event]
        while len(found) < MOST and not self.is_ending and not self.events.empty():
            other = self.events.get()
            if other is not None:
                found.append(other)
        return found

    def left(self):
        """The events that still wait behind the end, each of which is given once."""
        while not self.events.empty():
            event = self.events.get()
            if event is not None:
                yield event

    def waited(self, event):
        """Whether an event that is left happened before the loop was ended."""
        return self.ended is None or event.at <= self.ended
