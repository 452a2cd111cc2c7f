#!/usr/bin/env python3
"""How late the puts of scripts/epics/live.py are: from a value that a server on the loopback sends to the put that comes of it.

    bench/live.py [EVENTS] [EVENTS-A-SECOND]        1,000 at 100 a second where none are given

The program puts each value that comes on another channel. It needs pyepics, and the programs built, or named by `SNLRUN=FILE` and
`SNC=FILE`. With `delay` as a third word the put comes 50 ms behind the value, by a `delay`, and what is told is how late it is
then. The processor time is that of live.py alone, for a value and its put.
"""
import os
import signal
import subprocess
import sys
import tempfile
import time
from pathlib import Path

sys.dont_write_bytecode = True
ROOT = Path(__file__).resolve().parent.parent
sys.path[:0] = [str(ROOT / "cases"), str(ROOT / "cases/epics")]
import beside  # noqa: E402
from server import environment, serving  # noqa: E402
from stage import Stage  # noqa: E402
from wire import Channel  # noqa: E402

PROGRAM = """program echo
option +s;
int x;  assign x to "LAB:IN";  monitor x;
int y;  assign y to "LAB:OUT";
ss s {
  state waits { when (x != y) { y = x; %s } state %s }
  state later { when (delay(0.05)) { pvPut(y); } state waits }
}
"""


def built(name, crate):
    """Where a program stands: where a variable says it, or where a build leaves that of a crate."""
    return Path(os.environ.get(name.upper(), ROOT / "crates" / crate / "out" / crate)).resolve()


def processor(process):
    """The ms that the processors worked for a process so far."""
    fields = Path(f"/proc/{process.pid}/stat").read_text().rpartition(")")[2].split()
    return 1000 * (int(fields[11]) + int(fields[12])) / os.sysconf("SC_CLK_TCK")


def measured(stage, server, events, rate, is_later):
    """The ms of each event, sorted; and the ms of processor time of each."""
    program = stage.folder / "echo.st"
    program.write_text(PROGRAM % (("", "later") if is_later else ("pvPut(y);", "waits")))
    sent, came = {}, {}
    server.on_put = lambda name, values: came.setdefault(values[0], time.perf_counter())
    live = stage.live(program, "--put")
    stage.wait("the program begins", lambda: "start echo" in live.text("out"))

    def send(value):
        """Sends a value, in the thread of the server."""
        sent[value] = time.perf_counter()
        server.set("LAB:IN", [value])

    begin, before = time.perf_counter(), processor(live.process)
    for value in range(1, events + 1):
        time.sleep(max(0, begin + value / rate - time.perf_counter()))
        server.loop.call_soon_threadsafe(send, value)
    stage.wait("the last put comes", lambda: events in came)
    spent = processor(live.process) - before
    live.process.send_signal(signal.SIGINT)
    live.process.wait()
    return sorted(1000 * (came[it] - sent[it]) - 50 * is_later for it in came), spent / events


def main():
    """Measures, and prints a line."""
    words = sys.argv[1:]
    is_later = words[2:] == ["delay"]
    events, rate = (int(it) for it in [*words[:2], *("1000", "100")[len(words[:2]) :]])
    if not beside.python():
        sys.exit("bench/live.py: pyepics is not installed")
    programs = {"snc": built("snc", "snc_main"), "snlrun": built("snlrun", "snlrun")}
    with tempfile.TemporaryDirectory() as folder, serving([Channel(it, "long", [0]) for it in ("LAB:IN", "LAB:OUT")]) as server:
        with Stage(folder, programs, beside.python(), environment(server)) as stage:
            found, spent = measured(stage, server, events, rate, is_later)
    shown = ", ".join(f"{name} {found[min(len(found) - 1, int(len(found) * part))]:.1f}" for name, part in
                      (("half", 0.5), ("90 %", 0.9), ("99 %", 0.99), ("most", 1)))  # fmt: skip
    load = Path("/proc/loadavg").read_text().split()[0]
    print(f"{len(found)} of {events} puts at {rate} a second, in ms: {shown}; processor {spent:.3f} a value; load {load}")


if __name__ == "__main__":
    main()
