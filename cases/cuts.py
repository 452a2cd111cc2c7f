"""Four whole runs of snlrun with devices that fail at each byte: the trace comes in pieces of one size, of each up to 40; it breaks off
behind each of its bytes; and the output has room for each number of bytes. A piece stands in a packet of its own. A stream breaks off
where its other end goes while something that was sent there is unread: what came before is read, and the next read fails. Room is what
the system lets a file grow to: a write takes what there is room for, and the next one fails."""
import contextlib
import resource
import socket
import subprocess
import tempfile
from dataclasses import dataclass
from pathlib import Path
from typing import NamedTuple

from case import SECONDS

WELL, INPUT_OUTPUT, BAD_LINE = 0, 3, 6
PIECES = range(1, 41)
LINE_LIMIT = 32_768


class Run(NamedTuple):
    """A program, and the lines of its trace, each with what is written at it."""

    name: str
    program: str
    lines: tuple
    # What stands behind them and is never looked at, where the program ends with them.
    unread: str = ""
    # What is said of the program.
    said: str = ""

    @property
    def read(self):
        return "".join(line for line, _ in self.lines)

    def told(self, count=None):
        """What is written at so many lines from the first on, or at all."""
        return "".join(text for _, text in self.lines[:count])


RUNS = (
    Run(
        "a put and a transition",
        """program p
option +s;
int x;
assign x to "a";
monitor x;
int y;
assign y to "b";
ss s {
  state lo {
    when (x > 3) { y = x * 2; pvPut(y); } state hi
  }
  state hi {
  }
}
""",
        (("0 up a\n", ""), ("0 up b\n", ""), ("0 val a 1\n", "0 start p\n"), ("5 val a 7\n", "5 put b 14\n5 go s lo hi\n")),
        said="p.st:12: warning: W7 state 'hi' has no clauses\n",
    ),
    # What it takes from a queue, once a second. The queue is full when 3 comes, which takes the place of 2.
    Run(
        "a queue, and wakes between two lines",
        """program u
option +s;
int x; assign x to "a"; monitor x;
evflag f; syncQ x to f 2;
ss s { state w {
when (delay(1.0) && pvGetQ(x)) { printf("%d %d", x, efTest(f)); } state w
} }
""",
        (
            ("0 up a\n", ""),
            ("10 val a 1\n", "10 start u\n"),
            ("20 val a 2\n", ""),
            ("30 val a 3\n", ""),
            ("3000 tick\n", "1010 print s 1 1\n1010 go s w w\n2010 print s 3 0\n2010 go s w w\n"),
        ),
    ),
    # The program ends in a wake, and so before the bad line.
    Run(
        "an end of the program before the end of the trace",
        """program z
option +s;
int y = 3; assign y to "b";
ss one { state a { when (delay(0.2)) {} exit } }
ss two { state w { when (delay(0.2)) {} state w } }
exit { pvPut(y); }
""",
        (("0 up b\n", "0 start z\n"), ("900 tick\n", "200 go one a exit\n200 put b 3\n200 exit z\n")),
        "bad line\n",
    ),
    # Gets, puts and takes elements; and a line of more than 128 bytes, which is written in two pieces.
    Run(
        "elements, and a long line",
        """program a
option +s;
int b[3]; assign b to {"p", "q"}; monitor b[0];
short v[2]; assign v to "v"; monitor v; evflag f; syncQ v to f 2;
ss s { state w { when (b[0] == 9) {
 printf("%d %d %d", pvGet(b[1]), b[1], pvPut(b[2]));
 while (pvGetQ(v)) printf("%d %d", v[0], v[1]);
 printf("..................20..................40..................60..................80.................100.................120.................140 %d %d",
   efTest(f), pvGetQ(v));
} exit } }
""",
        (
            ("0 up p\n", ""),
            ("0 up q\n", ""),
            ("0 up v\n", ""),
            ("0 val v 1 2 3\n", ""),
            ("1 val v 4\n", ""),
            ("2 val v 5 6\n", ""),
            ("3 val q 8\n", ""),
            (
                "4 val p 9\n",
                "4 start a\n4 print s 0 8 -1\n4 print s 1 2\n4 print s 5 6\n4 print s ..................20..................40..................60"
                "..................80.................100.................120.................140 0 0\n4 go s w exit\n4 exit a\n",
            ),
        ),
        "5 tick",
    ),
)


class Answer(NamedTuple):
    stdout: str
    stderr: str
    status: int


@dataclass
class Cuts:
    """A run with one kind of device."""

    name: str
    run: Run
    check: object
    tool: str = "snlrun"

    def failure(self, programs):
        with tempfile.TemporaryDirectory(prefix="snlrun-") as folder:
            Path(folder, "p.st").write_text(self.run.program)
            wrong = [it for it in self.check(self.run, [programs[self.tool], "p.st"], Path(folder)) if it]
        return "\n  ".join([f"FAILED {self.name}", *wrong[:10]]) if wrong else None


def cases():
    for check, what in ((in_pieces, "in pieces of each size"), (broken, "a trace that breaks off behind each byte"), (full, "room for each number of bytes")):
        for run in RUNS:
            yield Cuts(f"cuts.py: {run.name}, {what}", run, check)
    yield Cuts("cuts.py: a line that a broken trace begins", RUNS[0], begun)
    yield Cuts("cuts.py: a bad line that a broken trace begins", RUNS[0], begun_badly)


def in_pieces(run, call, folder):
    """The run is the same in pieces of each size."""
    wanted = Answer(run.told(), run.said, WELL)
    for size in PIECES:
        yield differs(f"pieces of {size}", by_packets(call, folder, run.read + run.unread, size), wanted)


def broken(run, call, folder):
    """The lines that came whole are done, and the run is broken off behind them. That is not seen where the program ended with them."""
    for count in range(len(run.read) + 1):
        ended = count == len(run.read) and run.unread
        wanted = Answer(run.told(run.read[:count].count("\n")), run.said, WELL if ended else INPUT_OUTPUT)
        yield differs(f"broken behind {count} bytes", by_stream(call, folder, run.read[:count]), wanted)


def full(run, call, folder):
    """What there is room for is written. One byte more than all is room enough, and so is no byte more."""
    for room in range(len(run.told()) + 2):
        wanted = Answer(run.told()[:room], run.said, INPUT_OUTPUT if room < len(run.told()) else WELL)
        yield differs(f"room for {room} bytes", to_file(call, folder, run.read + run.unread, room), wanted)


def begun(run, call, folder):
    """A line of 32,769 bytes is too long before it ends, whatever comes behind it; of a shorter one nothing is known."""
    for size, said, status in ((LINE_LIMIT, "", INPUT_OUTPUT), (LINE_LIMIT + 1, "trace:1: line too long\n", BAD_LINE)):
        yield differs(f"broken behind {size} bytes", by_stream(call, folder, "#" * size), Answer("", run.said + said, status))


def begun_badly(run, call, folder):
    """What a line begins with is not looked at before it came whole."""
    wanted = Answer(run.told(), run.said, INPUT_OUTPUT)
    yield differs("broken in a bad line", by_stream(call, folder, run.read + "6 val a x"), wanted)


def by_packets(call, folder, trace, size):
    """The answer over a trace that comes in pieces of a size: a read gives one packet, and behind the last one the end."""
    ours, theirs = socket.socketpair(socket.AF_UNIX, socket.SOCK_SEQPACKET)
    with ours, theirs, started(call, folder, theirs) as run:
        theirs.close()
        with contextlib.suppress(ConnectionError):  # of a run that is over
            for at in range(0, len(trace), size):
                ours.send(trace[at : at + size].encode())
        ours.close()
        return answer_of(run)


def by_stream(call, folder, trace):
    """The answer over a trace that breaks off: its other end goes, and leaves a byte unread."""
    ours, theirs = socket.socketpair()
    with ours, theirs:
        theirs.send(b"x")
        ours.sendall(trace.encode())
        ours.close()
        with started(call, folder, theirs) as run:
            return answer_of(run)


def to_file(call, folder, trace, room):
    """The answer where the output is a file that has so much room."""
    (folder / "trace").write_text(trace)
    with open(folder / "trace", "rb") as stdin, open(folder / "lines", "wb") as stdout, started(call, folder, stdin, stdout, room) as run:
        _, said, status = answer_of(run)
    return Answer((folder / "lines").read_text(), said, status)


@contextlib.contextmanager
def started(call, folder, stdin, stdout=subprocess.PIPE, room=None):
    """A call that runs, and is gone behind this. The signal that a file is full is left out, as Python has it: the write fails."""
    limits = None if room is None else lambda: resource.setrlimit(resource.RLIMIT_FSIZE, (room, room))
    how = {"stdout": stdout, "stderr": subprocess.PIPE, "preexec_fn": limits, "restore_signals": False}
    with subprocess.Popen(call, cwd=folder, stdin=stdin, **how) as run:
        try:
            yield run
        finally:
            run.kill()


def answer_of(run):
    stdout, stderr = run.communicate(timeout=SECONDS)
    return Answer((stdout or b"").decode(), stderr.decode(), run.returncode)


def differs(what, found, wanted):
    return "" if found == wanted else f"{what}: {tuple(found)}, not {tuple(wanted)}"
