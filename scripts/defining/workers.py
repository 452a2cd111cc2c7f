"""Asks cases side by side: each of some processes is handed one case after another.

Cases that are long begin first, and what is told of them comes in their own order, so nothing that is told depends on how many processes there
are. A process that dies is told by the case that it had, and another one takes its place. Each has a group of its own, which takes along the
programs that it calls: when the script is to end, all of them end."""
import multiprocessing
import os
import signal
import sys
import tempfile
import time
import traceback
from dataclasses import dataclass, field
from multiprocessing.connection import Connection, wait

from defining.deep import deeply

# How often the line of progress is written anew, in seconds: on a terminal, and elsewhere, where each is a line of its own.
ON_TERMINAL, ELSEWHERE = 0.5, 30
SIGNALS = (signal.SIGINT, signal.SIGTERM, signal.SIGHUP)


class Stopped(Exception):
    """A signal that ends the script."""

    def __init__(self, number):
        """By its number."""
        super().__init__(signal.Signals(number).name)
        self.number = number


@dataclass
class Outcome:
    """What came of a case: what differs, or nothing; what it counts as; and how many seconds of a processor it took."""

    told: str = ""
    counts: dict = field(default_factory=dict)
    seconds: float = 0.0
    # What is said, and the status, where no further case can be asked.
    stop: tuple = ()


@dataclass
class Worker:
    """A process, the end of a pipe to it, and the number of the case that it has, with the time at which it got that."""

    process: object
    pipe: Connection
    number: int = None
    since: float = 0.0


def seconds():
    """How many seconds of a processor this process took, and what it has called."""
    times = os.times()
    return sum(times[:4])


class Team:
    """Some processes that ask the same cases: `ask` gives the outcome of one, `rest` what a process tells when it has asked its last one."""

    def __init__(self, cases, jobs, ask, rest):
        """With so many processes at most; none is there yet."""
        self.cases, self.jobs, self.ask, self.rest = cases, min(jobs, len(cases)), ask, rest
        # The outcomes that came before those of earlier cases.
        self.workers, self.early, self.asked, self.different = [], {}, 0, 0
        self.fork = multiprocessing.get_context("fork")

    def __enter__(self):
        """Signals raise `Stopped` from here on, and files that processes make stand in one folder."""
        self.handlers = {it: signal.signal(it, self.stopped) for it in SIGNALS}
        self.folder = tempfile.TemporaryDirectory(prefix="definitions-")
        self.began = self.shown = time.monotonic()
        return self

    def __exit__(self, *_):
        """No process is left, and no file."""
        for it in SIGNALS:
            signal.signal(it, signal.SIG_IGN)
        for worker in self.workers:
            self.end(worker)
        self.folder.cleanup()
        self.clear()
        for it, handler in self.handlers.items():
            signal.signal(it, handler)

    def stopped(self, number, _):
        """A signal came."""
        raise Stopped(number)

    # ---- one process

    def work(self, pipe, others):
        """What a process does: it asks each case whose number comes, until none comes or nobody is there."""
        os.setpgid(0, 0)
        for it in SIGNALS:
            signal.signal(it, signal.SIG_DFL)
        signal.pthread_sigmask(signal.SIG_UNBLOCK, SIGNALS)
        for other in others:
            other.close()
        tempfile.tempdir = self.folder.name
        try:
            deeply(lambda: self.answer_all(pipe))
        except (EOFError, BrokenPipeError):
            pass

    def answer_all(self, pipe):
        """An outcome for each number, and at the end the rest."""
        for number in iter(pipe.recv, None):
            pipe.send(self.outcome(self.cases[number]))
        pipe.send(self.rest())

    def outcome(self, case):
        """The outcome of a case; what it raises is told with the place."""
        before = seconds()
        try:
            found = self.ask(case)
        except Exception as failed:  # noqa: BLE001
            place = traceback.extract_tb(failed.__traceback__)[-1]
            found = Outcome(f"{type(failed).__name__}: {failed} ({os.path.basename(place.filename)}:{place.lineno})")
        found.seconds = seconds() - before
        return found

    # ---- all processes

    def begin(self):
        """One more process."""
        here, there = self.fork.Pipe()
        others = [it.pipe for it in self.workers] + [here]
        process = self.fork.Process(target=self.work, args=(there, others), daemon=True)
        # No signal comes until it is known who is who.
        signal.pthread_sigmask(signal.SIG_BLOCK, SIGNALS)
        try:
            process.start()
            self.workers.append(Worker(process, here))
        finally:
            signal.pthread_sigmask(signal.SIG_UNBLOCK, SIGNALS)
        there.close()
        return self.workers[-1]

    def end(self, worker):
        """Ends a process and what it called, at once."""
        for kill in (os.killpg, os.kill):
            try:
                kill(worker.process.pid, signal.SIGKILL)
            except ProcessLookupError:
                pass
        worker.process.join()
        worker.pipe.close()

    def hand(self, worker, number):
        """Hands a case to a process; one that has died shows that when its outcome is read."""
        worker.number, worker.since = number, time.monotonic()
        try:
            worker.pipe.send(number)
        except BrokenPipeError:
            pass

    def read(self, worker):
        """What a process sent, or the outcome that it died."""
        try:
            return worker.pipe.recv()
        except (EOFError, OSError):
            worker.process.join(ON_TERMINAL)
            code = worker.process.exitcode
            how = f"by {signal.Signals(-code).name}" if code and code < 0 else f"with status {code}"
            self.workers.remove(worker)
            self.end(worker)
            return Outcome(f"the process that ran it died, {how}", {"died": 1})

    def outcomes(self):
        """The outcome of each case, in their order."""
        waiting, next_one = sorted(range(len(self.cases)), key=lambda it: (self.cases[it].length(), -it)), 0
        while next_one < len(self.cases):
            while waiting and len([it for it in self.workers if it.number is not None]) < self.jobs:
                free = next((it for it in self.workers if it.number is None), None)
                self.hand(free or self.begin(), waiting.pop())
            for worker in self.ready():
                number, worker.number = worker.number, None
                self.early[number] = found = self.read(worker)
                self.asked += 1
                if found.told:
                    self.different += 1
                    self.clear()
                    print(f"definitions: {self.cases[number].name} differs", file=sys.stderr, flush=True)
            self.progress()
            while next_one in self.early:
                yield self.cases[next_one], self.early.pop(next_one)
                next_one += 1

    def left(self):
        """The outcomes that came and were not told yet, in their order."""
        return [(self.cases[it], self.early[it]) for it in sorted(self.early)]

    def ready(self):
        """The processes that have an outcome, or died, after a while at most."""
        busy = {it.pipe: it for it in self.workers if it.number is not None}
        return [busy[it] for it in wait(list(busy), ON_TERMINAL)]

    def rests(self):
        """What each process tells when no case is left."""
        for worker in list(self.workers):
            self.hand(worker, None)
            yield self.read(worker)

    # ---- the line of progress

    def progress(self):
        """Writes a line of progress, if it is time."""
        now, is_terminal = time.monotonic(), sys.stderr.isatty()
        if now - self.shown < (ON_TERMINAL if is_terminal else ELSEWHERE):
            return
        self.shown = now
        in_hand = [it for it in self.workers if it.number is not None]
        oldest = min(in_hand, key=lambda it: it.since, default=None)
        line = f"definitions: {self.asked} of {len(self.cases)} cases, {self.different} different, {now - self.began:.0f} s"
        if oldest:
            line += f"; since {now - oldest.since:.0f} s: {self.cases[oldest.number].name}"
        print(f"\r{line[:100]}\033[K" if is_terminal else line[:150], end="" if is_terminal else "\n", file=sys.stderr, flush=True)

    def clear(self):
        """Takes the line of progress away from a terminal."""
        if sys.stderr.isatty():
            print("\r\033[K", end="", file=sys.stderr, flush=True)
