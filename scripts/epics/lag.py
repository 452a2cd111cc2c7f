"""How far a run is behind what happens; told once a second, and ended where it is too far."""
import fcntl
import struct
import termios
import threading
import time
from collections import deque

# Seconds between two looks, and the ms between two texts.
LOOK = 0.1
EACH = 1000


class Lag:
    """What is behind: events that wait, lines that the run has not read, and puts that come late. All in ms."""

    def __init__(self, loop, say, late, stop):
        """It is told from `late` ms on; from `stop` ms on the loop is ended, or never where that is None."""
        self.loop, self.say, self.late, self.stop = loop, say, late, stop
        # The most since the last text, and since the start; the time of what the loop works on; when it was told last.
        self.worst, self.most, self.working, self.told = 0, 0, None, -EACH
        # What the loop has to write as comments. The lines that were fed, by their end in bytes and their time.
        self.notes, self.fed, self.size = deque(), deque(), 0
        self.is_stopped, self.is_over = False, False

    def seen(self, at):
        """Something of this time is done just now."""
        self.worst = max(self.worst, self.loop.now() - at)

    def feeds(self, at, count):
        """So many bytes of this time are given to the run."""
        self.size += count
        self.fed.append((self.size, at))

    def unread(self, pipe):
        """The time of the oldest line that the run has not read, or None."""
        fed = list(self.fed)
        try:
            waits = struct.unpack("i", fcntl.ioctl(pipe.fileno(), termios.FIONREAD, bytes(4)))[0]
        except (OSError, ValueError):
            return None  # it is closed
        for end, at in fed:
            if end > self.size - waits:
                return at
            self.fed.popleft()
        return None

    def watch(self, process):
        """Begins to look, in a thread of its own: the loop may hang on a run that does not read."""
        threading.Thread(target=self.looks, args=(process,), daemon=True).start()

    def looks(self, process):
        """Looks until it is over."""
        while not self.is_over:
            for at in (self.working, self.unread(process.stdin)):
                if at is not None:
                    self.seen(at)
            self.judge(process)
            time.sleep(LOOK)

    def judge(self, process):
        """Tells, and ends."""
        worst, now = self.worst, self.loop.now()
        self.most = max(self.most, worst)
        if self.stop is not None and worst > self.stop and not self.is_stopped:
            self.is_stopped = True
            self.tell(f"behind by {worst} ms at {now}, more than --late-stop {self.stop:g}: this is the end")
            self.loop.end()
            time.sleep(2)
            process.kill()  # one that reads has ended by now
        elif worst > self.late and now - self.told >= EACH:
            self.told, self.worst = now, 0
            self.tell(f"behind by {worst} ms at {now}; {self.loop.events.qsize()} events wait")
        elif worst <= self.late:
            self.worst = 0

    def tell(self, text):
        """Tells it at once, and leaves it for the trace."""
        self.say(text)
        self.notes.append(f"# {text}")

    def finish(self):
        """Ends the looks. What to say in the end."""
        self.is_over = True
        self.most = max(self.most, self.worst)
        if self.most > self.late:
            yield f"at most {self.most} ms behind"
