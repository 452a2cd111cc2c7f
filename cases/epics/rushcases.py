"""Cases of scripts/epics by a real client on the small server: many values, a reader that pauses, texts, full files, no value."""
import os
import re
import time

from beside import Beside, finished
from latecases import ECHO, not_shown, same_again, small_pipe
from stage import NotSo, events, untimed
from wire import Channel

COUNT, RATE = 2000, 1000


def cases():
    """The cases."""
    for name, channels, check in (
        ("2,000 values at 1,000 a second, and a reader that pauses", of_echo, rush),
        ("texts that are put", of_texts, texts),
        ("a first value nan, and an array without elements", of_never, never),
        ("a device that is full", of_echo, full),
        ("a server that comes back sends its value once more, to a queue too", of_queue, queue),
    ):
        yield Beside(f"scripts/epics: {name}", channels, check)


def of_echo():
    """The channels of the program that puts what comes."""
    return [Channel("IN", "long", [0]), Channel("OUT", "long", [0])]


def echo(stage):
    """The program that puts what comes."""
    program = stage.folder / "echo.st"
    program.write_text(ECHO)
    return program


def rush(stage, server):
    """No value is lost, none comes twice, and all puts come in their order while nobody reads standard output."""
    program, (reads, writes) = echo(stage), small_pipe()
    live = stage.live(program, "--put", out=writes)
    os.close(writes)
    stage.wait("it runs", lambda: "val IN 0" in untimed(live.text("kept")))
    begin = time.monotonic()
    for value in range(1, COUNT + 1):
        time.sleep(max(0, begin + value / RATE - time.monotonic()))
        server.loop.call_soon_threadsafe(server.set, "IN", [value])
    stage.wait("all puts come", lambda: len(server.puts) == COUNT)
    stage.same("the status", [live.end()], [0])
    stage.same("the puts", [values[0] for _, values, _, _ in server.puts], list(range(1, COUNT + 1)))
    stage.same("the values", events(live.text("kept"))[2:], [f"val IN {it}" for it in range(COUNT + 1)])
    with open(reads, "rb") as stream:
        found = stream.read().count(b"\n")
    again = same_again(stage, live, program)
    if found + not_shown(live) != len(again) or not not_shown(live):
        raise NotSo(f"{found} shown, {not_shown(live)} missed, {len(again)} lines\n{stage.told()}")


MODES = """program modes
option +s;
int mode;  assign mode to "MODE";  monitor mode;
int out;   assign out to "TO";
ss s { state a { when (mode == 2) { out = mode; pvPut(out); } state b } state b { when (mode == 0) { out = 9; pvPut(out); } exit } }
"""


def of_texts():
    """Two channels of texts."""
    return [Channel("MODE", "string", ["shut down"]), Channel("TO", "string", ["nothing"])]


def texts(stage, server):
    """The text of a number arrives at the server, and not the number."""
    program = stage.folder / "modes.st"
    program.write_text(MODES)
    live = stage.live(program, "--put", "--enum", "MODE=shut down:0,run beam:2", "--enum", "TO=go on:2")
    stage.wait("it runs", lambda: "val MODE 0" in untimed(live.text("kept")))
    server.call(server.set, "MODE", ["run beam"])
    stage.wait("the text comes", lambda: server.puts)
    server.call(server.set, "MODE", ["shut down"])
    stage.wait("it ends by itself", lambda: live.process.poll() is not None)
    stage.same("the puts", server.puts, [("TO", ["go on"], False, True)])
    run = ["start modes", "put TO 2", "go s a b", "put TO 9", "go s b exit", "exit modes"]
    finished(stage, live, program, run, ["put not done: TO: no text of --enum has the number 9"])


LACKS = """program lacks
option +s;
int a;     assign a to "A";  monitor a;
int b[3];  assign b to "B";  monitor b;
ss s { state a { when (a) {} exit } }
"""


def of_never():
    """A number that is none, and an array that has none."""
    return [Channel("A", "double", [float("nan")]), Channel("B", "long", [], count=5)]


def never(stage, server):
    """It is told, and the status is 1; with values the program begins."""
    program = stage.folder / "lacks.st"
    program.write_text(LACKS)
    live = stage.live(program)
    stage.wait("it is told", lambda: "the program has not begun" in live.text("said"))
    stage.same("the status", [live.end()], [1])
    for text in ("waits for A to have a value (a); what came last is nan",
                 "waits for B to have a value (b); what came last is an array without elements"):  # fmt: skip
        if len(re.findall(rf"^live.py: {re.escape(text)}$", live.text("said"), re.MULTILINE)) != 2:
            raise NotSo(f"{text}\n{stage.told()}")
    server.call(server.set, "B", [1, 2])
    server.call(server.set, "A", [1.0])
    live = stage.live(program)
    stage.wait("it ends by itself", lambda: live.process.poll() is not None)
    stage.same("the status", [live.process.returncode], [0])


def full(stage, server):
    """Standard output has no room: one sentence, and 3; so has the trace."""
    program = echo(stage)
    for words, name in ((("--put",), "standard output (/dev/full)"), (("--put", "--keep", "/dev/full"), "/dev/full")):
        with open("/dev/full" if len(words) == 1 else os.devnull, "wb") as out:
            live = stage.live(program, *words, out=out)
        stage.wait("it ends", lambda live=live: live.process.poll() is not None)
        stage.same("the status", [live.process.returncode], [3])
        if f"live.py: {name}: No space left on device\n" not in live.text("said") or "Traceback" in live.text("said"):
            raise NotSo(stage.told())


QUEUE = """program queue
option +s;
int x;  assign x to "IN";  monitor x;  evflag came;  syncQ x to came 10;
int n;
ss s { state a { when (pvGetQ(x)) { n = n + 1; printf("%d: %d", n, x); } state a } }
"""


def of_queue():
    """The channel of the queue."""
    return [Channel("IN", "long", [7])]


def queue(stage, server):
    """The value did not change, and the queue has it a second time; so has the replay."""
    program = stage.folder / "queue.st"
    program.write_text(QUEUE)
    live = stage.live(program)
    stage.wait("the first value is taken", lambda: "print s 1: 7" in untimed(live.text("out")))
    server.call(server.drop)
    stage.wait("the channel goes", lambda: "down IN" in untimed(live.text("kept")))
    stage.wait("the value comes once more", lambda: "print s 2: 7" in untimed(live.text("out")))
    stage.same("the status", [live.end()], [0])
    stage.same("the events", events(live.text("kept")), ["up IN", "val IN 7", "down IN", "up IN", "val IN 7"])
    finished(stage, live, program, ["start queue", "print s 1: 7", "go s a a", "print s 2: 7", "go s a a"], [])
