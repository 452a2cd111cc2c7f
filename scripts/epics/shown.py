"""Text for people, on standard output and standard error: a thread of its own writes it, so that no reader holds up a put."""
import os
import queue
import select
import sys
import threading
from collections import deque

# The most lines that wait; and the seconds that a reader has at the end, for each piece anew.
MOST = 10_000
PATIENCE = 2.0
# So many bytes a pipe takes whole where it takes any.
PIECE = 4096


def name_of(descriptor, plain):
    """How a stream is named in a message: by its file, where it has one."""
    try:
        path = os.readlink(f"/proc/self/fd/{descriptor}")
    except OSError:
        return plain
    return f"{plain} ({path})" if path.startswith("/") else plain


class Shown:
    """Lines for one stream. What finds no room, since nobody reads, is counted."""

    def __init__(self, descriptor, on_missed, on_fault):
        """`on_missed` hears how many lines were not shown, when the reader is there again; `on_fault` that writing failed."""
        self.descriptor, self.on_missed, self.on_fault = descriptor, on_missed, on_fault
        # What wakes the thread where nothing waited: it costs a third of what a condition does.
        self.waiting, self.lock, self.woken = deque(), threading.Lock(), queue.SimpleQueue()
        self.missed, self.shown, self.is_over, self.has_failed = 0, 0, False, False
        self.thread = threading.Thread(target=self.work, daemon=True)
        self.thread.start()

    def add(self, lines):
        """Shows lines, in bytes, as soon as somebody reads. It never waits."""
        with self.lock:
            room, was_empty = 0 if self.has_failed else max(0, MOST - len(self.waiting)), not self.waiting
            self.waiting.extend(lines[:room])
            self.missed += len(lines[room:])
        if was_empty:
            self.woken.put(None)

    def work(self):
        """Writes what waits, piece by piece, until all is written behind the end."""
        try:
            while self.has_more():
                self.write(self.piece())
        except OSError as fault:
            self.has_failed = True
            self.on_fault(fault)

    def has_more(self):
        """Waits for more lines; tells what was missed when no line waits any more. False at the end."""
        with self.lock:
            missed, self.missed = (0, self.missed) if self.waiting else (self.missed, 0)
        if missed:
            self.on_missed(missed)
        while not self.waiting and not self.is_over:
            self.woken.get()
        return bool(self.waiting)

    def piece(self):
        """The lines that are written next: one, or as many as a pipe takes whole. They wait until they are written."""
        size = count = 0
        while count < len(self.waiting) and (not count or size + len(self.waiting[count]) <= PIECE):
            size += len(self.waiting[count])
            count += 1
        return [self.waiting[it] for it in range(count)]

    def write(self, lines):
        """Writes lines, and takes them off."""
        data = memoryview(b"".join(lines))
        while data:
            select.select([], [self.descriptor], [])
            try:
                data = data[os.write(self.descriptor, data[:PIECE]) :]
            except BlockingIOError:
                pass
        with self.lock:
            self.shown += len(lines)
            for _ in lines:
                self.waiting.popleft()

    def finish(self):
        """Waits for the reader, as long as it reads on. How many lines were not shown."""
        self.is_over = True
        self.woken.put(None)
        before = -1
        while self.thread.is_alive() and self.shown != before:
            before = self.shown
            self.thread.join(PATIENCE)
        return len(self.waiting) + self.missed


class Teller:
    """Tells texts on standard error, in the name of a script. Where nobody reads that, nothing happens."""

    def __init__(self, script):
        """A teller of this script."""
        self.script, self.shown, self.lock = script, None, threading.Lock()

    def __call__(self, text):
        """Tells a text."""
        if sys.stderr is None:
            return
        with self.lock:
            self.shown = self.shown or Shown(2, self.missed, lambda fault: None)
        self.shown.add([f"{self.script}: {text}\n".encode(errors="backslashreplace")])

    def missed(self, count):
        """Tells what was not told."""
        self(f"{count} texts were not told: standard error was not read")

    def finish(self):
        """Waits for the reader at the end."""
        if self.shown:
            self.shown.finish()

    def at_once(self, text):
        """Tells a text where no thread works any more, as in a signal."""
        if sys.stderr is not None and select.select([], [2], [], 0)[1]:
            os.write(2, f"{self.script}: {text}\n".encode())
