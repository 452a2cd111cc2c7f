"""Traces that come bit by bit. What a line makes the program write has to come before more of the trace is given, and a run that
is over ends while the trace is still open. In a trace that is there from the start no delay of either stream would be seen."""
import os
import select
import subprocess
import tempfile
import time
from dataclasses import dataclass
from pathlib import Path

from case import SECONDS, differences

SOURCE = b"""program p
option +s;
int x; assign x to "a"; monitor x;
int y; assign y to "b";
ss s {
  state lo { when (x > 3) { y = x * 2; pvPut(y); } state hi }
  state hi {
    when (delay(1)) { printf("still %d", x); } state hi
    when (x < 0) { y = 1 / (x + 1); } exit
  }
}
"""
# Parts of a trace, each with what comes before the next part is given.
STARTS = ((b"0 up a\n", b""), (b"0 up b\n0 val a", b""), (b" 1\n", b"0 start p\n"))
RISES = (*STARTS, (b"5 val a 7\n6", b"5 put b 14\n5 go s lo hi\n"), (b" tick\n", b""))
WAKES = (*RISES, (b"1900 tick\n", b"1005 print s still 7\n1005 go s hi hi\n"))
TOO_LONG = (b"#" * 32_768, b""), (b"#", b"")


@dataclass
class Live:
    name: str
    parts: tuple
    # Whether the trace is closed behind its last part; else the run has to be over there.
    closes: bool = False
    status: int = 0
    said: bytes = b""
    tool: str = "snlrun"

    def failure(self, programs):
        """Gives the parts one after another; None where each is answered as it has to be."""
        with tempfile.TemporaryDirectory(prefix="snlrun-") as folder:
            Path(folder, "p.st").write_bytes(SOURCE)
            streams = {it: subprocess.PIPE for it in ("stdin", "stdout", "stderr")}
            with subprocess.Popen([programs[self.tool], "p.st"], cwd=folder, bufsize=0, **streams) as run:
                try:
                    wrong = self.given(run) or self.ended(run)
                except (OSError, subprocess.TimeoutExpired) as error:
                    wrong = [str(error)]
                finally:
                    run.kill()
        return "\n  ".join([f"FAILED {self.name}", *wrong]) if wrong else None

    def given(self, run):
        for part, wanted in self.parts:
            run.stdin.write(part)
            wrong = differences(f"stdout behind {part[-30:]!r}", wanted, come(run.stdout.fileno(), len(wanted)))
            if wrong:
                return wrong
        return []

    def ended(self, run):
        if self.closes:
            run.stdin.close()
        status = run.wait(SECONDS)
        wrong = [] if status == self.status else [f"status {status}, not {self.status}"]
        return wrong + differences("stdout at the end", b"", run.stdout.read()) + differences("stderr", self.said, run.stderr.read())


def come(stream, size):
    """What comes in a stream: so many bytes or more, or what came in time."""
    found, end = b"", time.monotonic() + SECONDS
    while len(found) < size and select.select([stream], [], [], max(0, end - time.monotonic()))[0]:
        more = os.read(stream, 65_536)
        if not more:
            break
        found += more
    return found


def cases():
    for name, *made in (
        ("each line is answered before the next one comes", WAKES, True),
        ("a run is over where the program is", (*WAKES, (b"1950 val a -2\n", b"1950 go s hi exit\n1950 exit p\n"))),
        ("a fault of the program", (*RISES, (b"8 val a -1\n", b"8 fault s 9 division by zero\n")), False, 5),
        ("a bad line", (*STARTS, (b"4 val a x\n", b"")), False, 6, b"trace:4: bad value\n"),
        ("a line that is too long before it ends", TOO_LONG, False, 6, b"trace:1: line too long\n"),
    ):
        yield Live(f"live.py: {name}", *made)
