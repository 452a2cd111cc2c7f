"""Each word of snl, and snlrun, with devices that tell, that cut and that fail: the trace comes from a file; byte by byte, each one when
that before it was read; and it breaks off behind its fourth line, or cannot be read at all. The answer is read, has no room, or nobody
reads it. What is told whole is known here; cut it has to be the same; and a failure has the status 3, with what is said of it."""
import contextlib
import fcntl
import os
import re
import socket
import struct
import subprocess
import tempfile
import termios
import time
from dataclasses import dataclass
from pathlib import Path
from typing import NamedTuple

from case import SECONDS

SOURCE = """program p
option +s;
int x; assign x to "X"; monitor x;
ss s { state a { when (x > 1) { printf("%d", x); } state b } state b { when (x < 1) {} state a } }
"""
# A requirement, which hears in which state that is.
RULE = """program w
option +s; option -c;
int s; assign s to "state:s"; monitor s;
ss r { state off { when (s == 1) {} state on } state on { when (s == 0) {} state off } }
"""
LINES = [b"0 up X\n", b"1 val X 0\n", b"2 val X 3\n", b"3 val X 0\n", b"4 val X 5\n"]
# The same as a log.
LOG = [b"X 2026-03-02 09:15:0%d.100000 %d\n" % it for it in enumerate((0, 1, 3, 0, 5))]
FIRST = "1 start p\n2 print s 3\n2 go s a b\n3 go s b a\n"
NOTED = "1 start p\n# clause 1 of a, line 4: x=3 (trace line 3)\n2 print s 3\n2 go s a b\n# clause 1 of b, line 4: x=0 (trace line 4)\n3 go s b a\n"
MORE = "# clause 1 of a, line 4: x=5 (trace line 5)\n4 print s 5\n4 go s a b\n"
WATCHED = "# watch 0 start w\n1 start p\n2 print s 3\n2 go s a b\n# watch 2 go r off on\n3 go s b a\n# watch 3 go r on off\n"
HEARD = "4 print s 5\n4 go s a b\n# watch 4 go r off on\n# end of the trace at 4, line 5\n# requirement r in on since 4 (1 of 1 state set)\n"
UNHEARD = "# the trace could not be read on\n"
END = "# end of the trace at 4, line 5\n# s in b since 4 (1 of 1 state set)\n# 3 transitions, 0 puts, 0 refused, 2 prints\n"
BROKEN = "# the trace could not be read on at 3, line 4\n# s in a since 3 (1 of 1 state set)\n# 2 transitions, 0 puts, 0 refused, 1 print\n"
UNREAD = """# the trace could not be read on at 0, line 0
# never began: no event
# waits for X to be up (x, line 3)
# waits for X to have a value (x, line 3)
# 0 transitions, 0 puts, 0 refused, 0 prints
"""
SAID = "snl: cannot read /dev/stdin\n"
# The log as a trace, and where it breaks off.
DAY = "# zero 2026-03-02T09:15:00.100\n# log -\n0 up X\n0 val X 0\n1000 val X 1\n2000 val X 3\n3000 val X 0\n"
UNREAD_LOG = "snl: cannot read -\n"
# The line that tells which program wrote a trace, and its version.
WRITTEN = re.compile(r"\A# written by snl trace [^\n]*\n")


class Word(NamedTuple):
    """A call, with a pattern of its answer where all is told."""

    tool: str
    words: list
    told: str
    # The answer, what is said and the status where the trace breaks off; None for a word that opens it by its name, which no stream
    # has that can break off. The answer and what is said where it cannot be read at all.
    broken: "tuple | None"
    unread: tuple
    # What is said beside the answer where all is told, and the lines of what it reads.
    said: str = ""
    lines: list = LINES

    @property
    def read(self):
        return b"".join(self.lines)

    @property
    def begun(self):
        return b"".join(self.lines[:4])


WORDS = (
    Word("snlrun", ["p.st"], re.escape(FIRST + "4 print s 5\n4 go s a b\n"), (FIRST, "", 3), ("", "")),
    # It has its answer behind the second line, and reads no further.
    Word("snl", ["waits", "p.st"], r"began at 1 \(line 2\)\n", ("began at 1 (line 2)\n", "", 0), ("", "")),
    Word("snl", ["run", "p.st"], re.escape(NOTED + MORE + END), (NOTED + BROKEN, "", 3), (UNREAD, "")),
    Word("snl", ["run", "--whole", "p.st"], re.escape(NOTED + MORE + END), (NOTED + BROKEN, "", 3), (UNREAD, "")),
    Word(
        "snl",
        ["run", "--watch", "w.st", "p.st"],
        re.escape(WATCHED + HEARD),
        (WATCHED + UNHEARD + "# requirement r in off since 3 (1 of 1 state set)\n", "", 3),
        (UNHEARD + "# requirement never began: no event\n", ""),
    ),
    Word("snl", ["same", "p.st", "p.st"], "the same over 5 lines of the trace: 6 lines, 0 puts\n", ("", "", 3), ("", "")),
    Word("snl", ["cover", "p.st"], "2 of 2 clauses taken, 2 of 2 states entered, 0 of 0 channels put\n", ("", "", 3), ("", "")),
    Word("snl", ["graph", "p.st"], r'digraph "p" .*"s.a" -> "s.b" \[label="1: x > 1\\n2x"\];.*"s.b" -> "s.a" \[label="1: x < 1\\n1x"\];.*\}\n', ("", "", 3), ("", "")),
    Word("snl", ["trace", "-"], re.escape(DAY + "4000 val X 5\n"), (DAY, UNREAD_LOG, 3), ("", UNREAD_LOG), "lines: 5; values: 5, 5 written\n", LOG),
    Word("snl", ["search", "--lines", "1", "--like", "/dev/stdin", "p.st"], r"starts: 1; X 0\n.*none up to 1 line .*\n", None, ("", SAID)),
    Word(
        "snl",
        ["search", "--lines", "1", "--after", "/dev/stdin", "--every", "5", "p.st"],
        r"starts: 1; after every 5 lines of the trace\n.*none up to 1 line .*\n",
        None,
        ("", SAID),
    ),
)


@dataclass
class Devices:
    """A word with each device."""

    word: Word
    name: str
    tool: str

    def failure(self, programs):
        with tempfile.TemporaryDirectory(prefix="snlrun-") as folder:
            Path(folder, "p.st").write_text(SOURCE)
            Path(folder, "w.st").write_text(RULE)
            Path(folder, "trace").write_bytes(self.word.read)
            call = [programs[self.tool], *self.word.words]
            wrong = [f"{check.__name__}: {said}" for check in CHECKS if (said := check(self.word, call, Path(folder)))]
        return "\n  ".join([f"FAILED {self.name}", *wrong]) if wrong else None


def cases():
    """A case a word."""
    for word in WORDS:
        yield Devices(word, f"devices.py: {' '.join([word.tool, *word.words])}", word.tool)


def ran(call, folder, stdin, stdout=subprocess.PIPE):
    """The answer of a call, what it says, and its status."""
    found = subprocess.run(call, cwd=folder, stdin=stdin, stdout=stdout, stderr=subprocess.PIPE, timeout=SECONDS)
    return WRITTEN.sub("", (found.stdout or b"").decode()), found.stderr.decode(), found.returncode


def of_file(call, folder, stdout=subprocess.PIPE):
    """The same over the file of the trace."""
    with open(folder / "trace", "rb") as stdin:
        return ran(call, folder, stdin, stdout)


def differs(found, wanted):
    return "" if found == wanted else f"{found}, not {wanted}"


def told(word, call, folder):
    """The trace is a file, and the answer is read."""
    answer, said, status = of_file(call, folder)
    return differs((said, status), (word.said, 0)) or ("" if re.fullmatch(word.told, answer, re.DOTALL) else repr(answer))


def cut(word, call, folder):
    """Each byte comes when the one before it was read."""
    reads, writes = os.pipe()
    with started(call, folder, reads) as run:
        for byte in word.read:
            with contextlib.suppress(BrokenPipeError):  # of a word that has its answer
                os.write(writes, bytes([byte]))
            taken(run, reads)
        os.close(writes)
        os.close(reads)
        return differs(ended(run), of_file(call, folder))


def broken(word, call, folder):
    """The other end of the stream breaks off, once all that it sent was read."""
    if not word.broken:
        return ""
    with socket.create_server(("127.0.0.1", 0)) as server:
        ours = socket.create_connection(server.getsockname())
        theirs = server.accept()[0]
    with ours, theirs, started(call, folder, theirs) as run:
        ours.sendall(word.begun)
        taken(run, ours, termios.TIOCOUTQ)
        taken(run, theirs)
        ours.setsockopt(socket.SOL_SOCKET, socket.SO_LINGER, struct.pack("ii", 1, 0))
        ours.close()
        return differs(ended(run), word.broken)


def unread(word, call, folder):
    """A folder cannot be read."""
    with open_folder(folder) as stdin:
        return differs(ran(call, folder, stdin), (*word.unread, 3))


def full(word, call, folder):
    """The output has no room."""
    with open("/dev/full", "wb") as stdout:
        return differs(of_file(call, folder, stdout), ("", "", 3))


def given_up(word, call, folder):
    """Nobody reads the output."""
    reads, writes = socket.socketpair()
    reads.close()
    with writes:
        return differs(of_file(call, folder, writes), ("", "", 3))


CHECKS = told, cut, broken, unread, full, given_up


@contextlib.contextmanager
def open_folder(folder):
    """A folder as a stream."""
    stream = os.open(folder, os.O_RDONLY)
    try:
        yield stream
    finally:
        os.close(stream)


@contextlib.contextmanager
def started(call, folder, stdin):
    """A call that runs, and is gone behind this."""
    with subprocess.Popen(call, cwd=folder, stdin=stdin, stdout=subprocess.PIPE, stderr=subprocess.PIPE) as run:
        try:
            yield run
        finally:
            run.kill()


def ended(run):
    """The answer of a call that runs, what it says, and its status."""
    stdout, stderr = run.communicate(timeout=SECONDS)
    return WRITTEN.sub("", stdout.decode()), stderr.decode(), run.returncode


def taken(run, stream, question=termios.FIONREAD):
    """Waits until all that is in a stream is read, or, for the other end of a socket, has arrived; or until the call has ended."""
    end = time.monotonic() + SECONDS
    while struct.unpack("i", fcntl.ioctl(stream, question, bytes(4)))[0] and run.poll() is None and time.monotonic() < end:
        time.sleep(0.001)
