"""Cases of scripts/epics on a small Channel Access server, by a real client: programs of examples/ and permit.st run on it.

The cases drive the server, and wait for what comes of each step; nothing is measured in time. They need pyepics.
"""
import subprocess
import sys
import tempfile
from dataclasses import dataclass
from functools import lru_cache
from typing import Callable

from server import environment, serving
from stage import EXAMPLES, HERE, NotSo, Stage, comments, events, failed, is_rising, untimed
from wire import TYPES, Channel

INSTALL = "apt-get install -y --no-install-recommends python3-pyepics"
# A case that fails is tried again where it did not come to run for so many ms: a delay of the program may have been over by that.
PAUSE = 1000
TRIES = 3


@lru_cache
def python():
    """A Python that has pyepics and its library; None where there is none. Debian's package is for /usr/bin/python3 alone."""
    for it in (sys.executable, "/usr/bin/python3"):
        try:
            subprocess.run([it, "-c", "from epics import ca; ca.initialize_libca()"], check=True, capture_output=True)
            return it
        except (OSError, subprocess.CalledProcessError):
            continue
    return None


@dataclass
class Beside:
    """A case on a server of its own."""

    name: str
    # The channels that the server has, made anew for each try.
    channels: Callable
    # Gets the stage and the server, and raises `NotSo`.
    check: Callable
    tool: str = "snlrun"

    def lacks(self):
        """What is missing here."""
        return "" if python() else f"skipped, pyepics is not installed ({INSTALL})"

    def failure(self, programs):
        """Runs the case; None where all is as it has to be."""
        for left in reversed(range(TRIES)):
            with tempfile.TemporaryDirectory(prefix="snlrun-") as folder, serving(self.channels()) as server:
                with Stage(folder, programs, python(), environment(server)) as stage:
                    try:
                        self.check(stage, server)
                        return None
                    except Exception as wrong:  # a case that stumbles is one that failed
                        if not left or stage.longest_pause() < PAUSE:
                            return failed(self.name, wrong)
        return None


class Pair:
    """record.py and live.py side by side on the channels of a program."""

    def __init__(self, stage, program, only_put, *words, snlrun=()):
        """Starts both with these words; those of `snlrun` come behind the program. Of what is only put live.py takes no value."""
        self.stage, self.program, self.snlrun, self.expected = stage, program, snlrun, []
        self.of_record = tuple(f"val {it} " for it in only_put)
        self.live = stage.live(program, "--put", *words, snlrun=snlrun)
        self.recorder = stage.start("record", "--tables", stage.tables(program), *words)

    def next(self, *lines):
        """Waits until both have these lines as their next ones, in any order. Lines `done` are those of live.py alone."""
        for script, stream, others in ((self.live, "kept", self.of_record), (self.recorder, "out", "done ")):
            wanted = [it for it in lines if not it.startswith(others)]
            before = len([it for it in self.expected if not it.startswith(others)])
            after = before + len(wanted)
            self.stage.wait(f"{script.name} has {wanted}", lambda s=script, n=after, of=stream: len(events(s.text(of))) >= n)
            self.stage.same(script.name, sorted(events(script.text(stream))[before:after]), sorted(wanted))
        self.expected += lines

    def finish(self, run, told):
        """Ends both, and compares the run, the comments, the number of lines and the run of the kept trace once more."""
        for script, stream in ((self.live, "kept"), (self.recorder, "out")):
            self.stage.same(f"the status of {script.name}", [script.end()], [0])
            if not is_rising(script.text(stream)):
                raise NotSo(f"{script.name}: a time goes back\n{self.stage.told()}")
        recorded, lived = events(self.recorder.text("out")), events(self.live.text("kept"))
        both = [it for it in recorded if not it.startswith(self.of_record)]
        self.stage.same("the lines of both", [it for it in lived if not it.startswith("done ")], both)
        wanted = [it for it in self.expected if not it.startswith(self.of_record)]
        self.stage.same("the number of lines", [len(lived)], [len(wanted)])
        finished(self.stage, self.live, self.program, run, told, self.snlrun)


def finished(stage, live, program, run, told, snlrun=()):
    """Compares the run of a live.py that has ended, what it told, and what snlrun makes of the trace that was kept."""
    stage.same("the run", untimed(live.text("out")), run)
    stage.same("the comments", sorted(comments(live.text("kept"))), sorted(told))
    for text in told:
        if f"live.py: {text}\n" not in live.text("said"):
            raise NotSo(f"standard error has not: {text}\n{stage.told()}")
    stage.same("the replay", stage.replayed(program, live.path("kept"), *snlrun).splitlines(), live.text("out").splitlines())


def cases():
    """The cases, the longest first."""
    for name, channels, check in (
        ("interlock: the valve goes and comes back, a put is refused, the gauge falls silent", of_interlock, interlock),
        ("ten channels of all types, answers, a server that dies and comes back", of_permit, permit),
        ("light: the lamp goes and comes back, a put is refused", of_light, light),
        ("a program that ends or faults right behind a put", of_last, last),
        ("time stamps, the clock, and the texts of an enumeration, by a file of units", of_stamps, stamps),
    ):
        yield Beside(f"scripts/epics: {name}", channels, check)


def of_light():
    """The channels of light.st."""
    return [Channel("LAB:VOLTAGE", "double", [2.0]), Channel("LAB:LAMP", "enum", [0])]


ROUNDED = "LAB:VOLTAGE has a fraction and is rounded to whole numbers: --scale LAB:VOLTAGE=K keeps K decimals"
REFUSED = "put not done: {}: Channel write request failed"


def light(stage, server):
    """Both scripts, a lamp that goes and comes back, halves, a refused put; and the recorded trace gives the same run."""
    pair = Pair(stage, EXAMPLES / "light.st", ["LAB:LAMP"])
    pair.next("up LAB:VOLTAGE", "up LAB:LAMP", "val LAB:VOLTAGE 2", "val LAB:LAMP 0")
    server.call(server.set, "LAB:VOLTAGE", [7.2])
    pair.next("val LAB:VOLTAGE 7")
    pair.next("val LAB:LAMP 1")
    server.call(server.down, "LAB:LAMP")
    pair.next("down LAB:LAMP")
    server.call(server.up, "LAB:LAMP")
    pair.next("up LAB:LAMP", "val LAB:LAMP 1")
    server.call(server.set, "LAB:VOLTAGE", [2.5])
    pair.next("val LAB:VOLTAGE 3")
    server.call(server.set, "LAB:VOLTAGE", [-0.5])
    pair.next("val LAB:VOLTAGE -1")
    pair.next("val LAB:LAMP 0")
    server.channels["LAB:LAMP"].refusals = 1
    server.call(server.set, "LAB:VOLTAGE", [6])
    pair.next("val LAB:VOLTAGE 6")
    stage.wait("the refusal is told", lambda: len(comments(pair.live.text("kept"))) == 2)
    lit, dark = ["put LAB:LAMP 1", "go room dark lit"], ["put LAB:LAMP 0", "go room lit dark"]
    pair.finish(["start light", *lit, *dark, *lit], [ROUNDED, REFUSED.format("LAB:LAMP")])
    came = (1, True), (0, True), (1, False)
    stage.same("the puts", server.puts, [("LAB:LAMP", [it], False, is_taken) for it, is_taken in came])
    again = stage.replayed(EXAMPLES / "light.st", pair.recorder.path("out"))
    stage.same("the run of the recorded trace", untimed(again), untimed(pair.live.text("out")))


def of_interlock():
    """The channels of interlock.st."""
    names = ("VAC:PRESSURE", 80), ("VAC:GAUGE:BEAT", 1), ("VAC:RESET", 0), ("VAC:VALVE:OPEN", 0)
    return [Channel(name, "long", [value]) for name, value in names]


SILENT, ALIVE = "go watchdog alive dead", "go watchdog dead alive"
OPENS = ["put VAC:VALVE:OPEN 1", "go guard shut open"]
SHUTS = ["put VAC:VALVE:OPEN 0", "go guard open shut"]


class Guarded:
    """The interlock beside its channels, step by step."""

    def __init__(self, stage, server):
        """Starts it."""
        self.stage, self.server, self.run = stage, server, ["start interlock", "go watchdog alive alive"]
        self.live = stage.live(EXAMPLES / "interlock.st", "--put")

    def set(self, name, value, count=1):
        """Gives a channel a value, and waits until the trace has it so often."""
        self.server.call(self.server.set, name, [value])
        self.seen(f"val {name} {value}", count)

    def seen(self, line, count=1):
        """Waits until the trace has a line so often."""
        self.stage.wait(f"{count} times {line}", lambda: events(self.live.text("kept")).count(line) >= count)

    def goes_on(self, *lines):
        """Waits until the run has these lines as its next ones."""
        self.run.extend(lines)
        self.stage.wait(f"the run has {lines}", lambda: len(untimed(self.live.text("out"))) >= len(self.run))
        self.stage.same("the run", untimed(self.live.text("out")), self.run)


def interlock(stage, server):
    """The valve is gone while the pressure passes its limit, and shuts when it is back. Each step waits for the run."""

    def gone(name, _):
        """The valve is gone as soon as it opened."""
        server.on_put = lambda *_: None
        server.down(name)

    guarded = Guarded(stage, server)
    guarded.goes_on(SILENT)
    guarded.set("VAC:RESET", 1)
    server.on_put = gone
    guarded.set("VAC:GAUGE:BEAT", 2)
    guarded.goes_on(ALIVE, *OPENS)
    guarded.seen("down VAC:VALVE:OPEN")
    guarded.goes_on(SILENT)
    guarded.set("VAC:PRESSURE", 650)
    server.call(server.up, "VAC:VALVE:OPEN")
    guarded.goes_on("print guard pressure 650", *SHUTS)
    guarded.set("VAC:PRESSURE", 80, 2)
    guarded.set("VAC:RESET", 1, 2)
    server.channels["VAC:VALVE:OPEN"].refusals = 1
    guarded.set("VAC:GAUGE:BEAT", 3)
    guarded.goes_on(ALIVE, *OPENS)
    guarded.goes_on(SILENT, "print guard gauge is silent", *SHUTS)
    stage.wait("four puts came", lambda: len(server.puts) == 4)
    stage.same("the status", [guarded.live.end()], [0])
    finished(stage, guarded.live, EXAMPLES / "interlock.st", guarded.run, [REFUSED.format("VAC:VALVE:OPEN")])
    puts = (1, True), (0, True), (1, False), (0, True)
    stage.same("the puts", server.puts, [("VAC:VALVE:OPEN", [it], False, is_taken) for it, is_taken in puts])


def of_permit():
    """The channels of permit.st, of each type one."""
    place = Channel("LAB:PLACE", "double", [0.0])
    place.holds = True
    return [
        Channel("LAB:CURRENT", "double", [0.5]), Channel("LAB:FLOW", "float", [1.25]),
        Channel("LAB:MODE", "string", ["shut down"]), Channel("LAB:DOOR", "enum", [0]),
        Channel("LAB:LEVELS", "short", [10, 20, 30, 40], count=10), Channel("LAB:OFFSET", "char", [-56]),
        Channel("LAB:TURN", "long", [0]), Channel("LAB:PERMIT", "enum", [0]), place, Channel("LAB:REPORT", "short", [0]),
    ]  # fmt: skip


WORDS = ("--macros", "SYS=LAB", "--scale", "LAB:CURRENT=3", "--scale", "LAB:FLOW=1", "--scale", "LAB:PLACE=3",
         "--enum", "LAB:MODE=shut down:0,run beam:2")  # fmt: skip
FIRST = ("LAB:CURRENT 500", "LAB:FLOW 13", "LAB:MODE 0", "LAB:DOOR 0", "LAB:LEVELS 10 20 30", "LAB:OFFSET -56", "LAB:TURN 0",
         "LAB:PERMIT 0", "LAB:PLACE 0", "LAB:REPORT 0")  # fmt: skip
NAMES = [it.split()[0] for it in FIRST]


def permit(stage, server):
    """Each type of channel, puts that wait for their answers, one of them refused, one lost as the server dies."""
    program = HERE / "permit.st"
    pair = Pair(stage, program, ["LAB:PERMIT", "LAB:PLACE", "LAB:REPORT"], *WORDS)
    pair.next(*(f"up {it}" for it in NAMES), *(f"val {it}" for it in FIRST))
    given(pair, server, "LAB:MODE", "run beam", "val LAB:MODE 2")
    given(pair, server, "LAB:DOOR", 1, "val LAB:DOOR 1", "val LAB:PERMIT 1")
    turned(pair, server, 1, 1474, "val LAB:REPORT 1")
    server.channels["LAB:REPORT"].refusals = 1
    turned(pair, server, 2, 2974)
    server.call(server.set, "LAB:MODE", ["standby"])
    given(pair, server, "LAB:CURRENT", 2.4996, "val LAB:CURRENT 2500", "val LAB:PERMIT 0")
    given(pair, server, "LAB:TURN", 3, "val LAB:TURN 3", "val LAB:PLACE 4474")
    stage.wait("the collimator moves", lambda: server.held)
    server.call(server.drop)
    pair.next(*(f"down {it}" for it in NAMES))
    now = "CURRENT 2500", "FLOW 13", "DOOR 1", "LEVELS 10 20 30", "OFFSET -56", "TURN 3", "PERMIT 0", "PLACE 4474", "REPORT 1"
    pair.next(*(f"up {it}" for it in NAMES), *(f"val LAB:{it}" for it in now))
    given(pair, server, "LAB:MODE", "run beam", "val LAB:MODE 2")
    given(pair, server, "LAB:CURRENT", 1, "val LAB:CURRENT 1000", "val LAB:PERMIT 1")
    on, off = ["put LAB:PERMIT 1", "go beam off on"], ["put LAB:PERMIT 0", "go beam on off"]
    lost = "put LAB:PLACE 4474", "go drive rests moves", "print drive lost", "go drive moves rests"
    run = ["start permit", *on, *of_turn(1, 1474), *of_turn(2, 2974), *off, *lost, *on]
    left_out = "LAB:MODE: left out, no number of 64 bits: ['standby']"
    pair.finish(run, [REFUSED.format("LAB:REPORT"), left_out, "put not done: LAB:PLACE: Virtual circuit disconnect"])
    puts = [("LAB:PERMIT", [1], False, True), ("LAB:PLACE", [1.474], True, True), ("LAB:REPORT", [1], True, True)]
    puts += [("LAB:PLACE", [2.974], True, True), ("LAB:REPORT", [2], True, False), ("LAB:PERMIT", [0], False, True)]
    stage.same("the puts", server.puts, [*puts, ("LAB:PLACE", [4.474], True, True), ("LAB:PERMIT", [1], False, True)])


def given(pair, server, name, value, *lines):
    """Gives a channel a value, and waits for the lines that follow, one after another."""
    pair.stage.wait(f"{name} is asked for", lambda: name in server.channels)
    server.call(server.set, name, [value])
    for line in lines:
        pair.next(line)


def turned(pair, server, turn, place, *lines):
    """Asks for a turn. The collimator is there when the case says so, and only then the report is put."""
    given(pair, server, "LAB:TURN", turn, f"val LAB:TURN {turn}", f"val LAB:PLACE {place}")
    pair.stage.wait("the collimator moves", lambda: server.held)
    server.call(server.answer)
    pair.next("done LAB:PLACE", "done LAB:REPORT", *lines)


def of_turn(turn, place):
    """The lines of a run for a turn."""
    moves = [f"put LAB:PLACE {place}", "go drive rests moves", f"put LAB:REPORT {turn}", "go drive moves tells"]
    return [*moves, f"print drive told {turn}", "go drive tells rests"]


STAMP, EPOCH = 1_100_000_000, 631_152_000


def of_stamps():
    """A channel of each type with a stamp, and an enumeration with texts."""
    found = [Channel(f"LAB:{it.upper()}", it, ["7" if it == "string" else 7]) for it in TYPES]
    for it in found:
        it.stamp = STAMP
    found[TYPES.index("enum")].values, found[TYPES.index("enum")].states = [1], ["Shut", "Not Open"]
    return found


def stamps(stage, server):
    """Each value with its stamp in front, whatever its type is; the enumeration by its text."""
    names = [f"LAB:{it.upper()}" for it in TYPES]
    lines = [f"time {it}.TIME" for it in names] + ["time CLOCK", "enum LAB:STRING 7:7", "enum LAB:ENUM Not\\x20Open:5,Shut:6"]
    (stage.folder / "u").write_text("".join(f"{it}\n" for it in lines))
    script = stage.start("record", "--units", "u", "CLOCK", *names, *(f"{it}.TIME" for it in names))

    def values():
        """The lines of values, but for those of the clock."""
        return [it for it in events(script.text("out")) if it.startswith("val ") and "CLOCK" not in it]

    stage.wait("all values", lambda: len(values()) == 2 * len(names))
    server.channels["LAB:ENUM"].stamp = STAMP + 9
    server.call(server.set, "LAB:ENUM", [0])
    stage.wait("two more", lambda: len(values()) == 2 * len(names) + 2)
    stage.same("the status", [script.end()], [0])
    of_names = {it: 5 if it == "LAB:ENUM" else 7 for it in names}
    wanted = [it for name, value in of_names.items() for it in (f"val {name}.TIME {STAMP + EPOCH}", f"val {name} {value}")]
    stage.same("the values", sorted(values()[:-2]), sorted(wanted))
    stage.same("the last ones", values()[-2:], [f"val LAB:ENUM.TIME {STAMP + EPOCH + 9}", "val LAB:ENUM 6"])


LAST = """program last
option +s;
int go;     assign go to "LAB:GO";    monitor go;
int open;   assign open to "LAB:OPEN";
int fixed;  assign fixed to "LAB:FIXED";
ss s { state a { when (go) { open = go; pvPut(open); pvPut(fixed); fixed = 1 / (go - 8); } exit } }
"""


def of_last():
    """The channels of LAST, of which one can only be read."""
    return [Channel("LAB:GO", "long", [7]), Channel("LAB:OPEN", "long", [0]), Channel("LAB:FIXED", "long", [0], is_read_only=True)]


def last(stage, server):
    """What a program puts right before its end arrives, and what is refused of it is told; the status is that of the run."""
    program = stage.folder / "last.st"
    program.write_text(LAST)
    both = ["start last", "put LAB:OPEN {}", "put LAB:FIXED 0"]
    for go, end, status in ((7, ["go s a exit", "exit last"], 0), (8, ["fault s 6 division by zero"], 5)):
        server.call(server.set, "LAB:GO", [go])
        live = stage.live(program, "--put")
        stage.wait("it ends by itself", lambda live=live: live.process.poll() is not None)
        stage.same("the status", [live.process.returncode], [status])
        run = [it.format(go) for it in both] + end
        finished(stage, live, program, run, ["put not done: LAB:FIXED: Write access denied"])
        stage.same("the put", server.puts, [("LAB:OPEN", [go], False, True)])
        server.puts.clear()
