"""Cases of scripts/epics/live.py by a stub: puts, their answers, and how runs end. Each kept trace gives the same run again."""
import signal

from stage import EXAMPLES, SECONDS, NotSo, comments, events, untimed
from stubbed import LIGHT, Stubbed, lived, play, put_lines

RUN = ["start light", "put LAB:LAMP 1", "go room dark lit", "put LAB:LAMP 0", "go room lit dark"]


def cases():
    """The cases."""
    for name, check in (
        ("puts are put", puts),
        ("puts are only shown", shown),
        ("puts that ask for an answer", answers),
        ("without a source each put asks for an answer", asked),
        ("units and limits of what is put", units),
        ("a run that ends, faults, is killed, or meets a value that has no room", endings),
        ("a second Ctrl-C", twice),
        ("time that passes, and the end after so many seconds", timed),
    ):
        yield Stubbed(f"scripts/epics, by a stub: {name}", check)


def puts(stage):
    """Two puts, of which the second is refused."""
    rest = "val LAB:VOLTAGE 7", "put LAB:LAMP", "refuse LAB:LAMP", "val LAB:VOLTAGE 1", "put LAB:LAMP"
    play(stage, *LIGHT, *rest, "val LAB:VOLTAGE 4")
    run, script = lived(stage, EXAMPLES / "light.st", "val LAB:VOLTAGE 4", "--put")
    stage.same("the run", run, RUN)
    stage.same("the puts", put_lines(stage), ["LAB:LAMP plain long 1", "LAB:LAMP plain long 0"])
    told = "put not done: LAB:LAMP: Channel write request failed"
    stage.same("the comments", comments(script.text("kept"))[1:], [told])
    said = script.text("said").splitlines()
    if f"live.py: {told}" not in said or "live.py: puts go to their channels" not in said:
        raise NotSo(stage.told())


def shown(stage):
    """The same run, and no put at all."""
    play(stage, *LIGHT, "val LAB:VOLTAGE 7", "val LAB:VOLTAGE 1", "val LAB:VOLTAGE 4")
    run, script = lived(stage, EXAMPLES / "light.st", "val LAB:VOLTAGE 4")
    stage.same("the run", run, RUN)
    stage.same("the puts", put_lines(stage), [])
    if "live.py: puts are only shown: --put puts them" not in script.text("said").splitlines():
        raise NotSo(stage.told())


MOTOR = """program motor("P=MOT:")
option +s;
/* no put of lamp waits: pvPut(lamp, ASYNC) */
int go;     assign go to "{P}GO";  monitor go;
int place;  assign place to "{P}PLACE";
int lamp;   assign lamp to "LAMP";
ss s {
  state rests { when (go) { place = go; pvPut(place, ASYNC); lamp = 1; pvPut(lamp); go = 0; } state moves }
  state moves { when (pvPutComplete(place)) { lamp = 0; pvPut(lamp); } state rests }
}
"""
MOVES = ["put MOT:PLACE {}", "put LAMP 1", "go s rests moves", "put LAMP 0", "go s moves rests"]
UP = ("up MOT:GO long", "up MOT:PLACE double", "up LAMP enum", "val MOT:GO 0")


def answers(stage):
    """An answer that comes late, one that refuses the put, and one that does not come since the channel goes."""
    program = stage.folder / "motor.st"
    program.write_text(MOTOR)
    play(
        stage, *UP, "hold MOT:PLACE",
        "val MOT:GO 40", "put MOT:PLACE", "put LAMP", "answer", "put LAMP", "refuse MOT:PLACE",
        "val MOT:GO 50", "put MOT:PLACE", "put LAMP", "answer", "put LAMP",
        "val MOT:GO 60", "put MOT:PLACE", "put LAMP", "down MOT:PLACE", "put LAMP", "down LAMP",
    )  # fmt: skip
    run, script = lived(stage, program, "down LAMP", "--put", "--macros", "P=MOT:")
    stage.same("the run", run, ["start motor", *(it.format(place) for place in (40, 50, 60) for it in MOVES)])
    lamps = "LAMP plain long 1", "LAMP plain long 0"
    expected = [it for place in (40, 50, 60) for it in (f"MOT:PLACE asks double {place}.0", *lamps)]
    stage.same("the puts", put_lines(stage), expected)
    after = events(script.text("kept"))[5:]
    lines = ["done MOT:PLACE", "val MOT:GO 50", "done MOT:PLACE", "val MOT:GO 60", "down MOT:PLACE", "down LAMP"]
    stage.same("the trace", after, lines)
    stage.same("the comments", comments(script.text("kept"))[1:], ["put not done: MOT:PLACE: Channel write request failed"])


def asked(stage):
    """The call names a script that knows the source: which puts ask for answers is not to be seen there."""
    program = stage.folder / "motor.st"
    program.write_text(MOTOR)
    tables = stage.tables(program)
    script = stage.folder / "run"
    script.write_text(f"#!/bin/sh\nexec {stage.programs['snlrun']} motor.st\n")
    script.chmod(0o755)
    play(stage, *UP, "val MOT:GO 40", "put LAMP", "put LAMP", "val LAMP 9")
    live = stage.start("live", "--put", "--tables", tables, "--macros", "P=MOT:", "--keep", "live.kept", "--", "./run")
    stage.wait("the last value", lambda: "val LAMP 9" in untimed(live.text("kept")))
    stage.same("the status", [live.end()], [0])
    stage.same("the puts", put_lines(stage), ["MOT:PLACE asks double 40.0", "LAMP asks long 1", "LAMP asks long 0"])
    done = [it for it in events(live.text("kept")) if it.startswith("done ")]
    stage.same("the answers", done, ["done MOT:PLACE", "done LAMP", "done LAMP"])


UNITS = """program units
option +s;
int go;       assign go to "GO";  monitor go;
long x;       assign x to "X";
int y[3];     assign y to "Y";
int elements; assign elements to "Z";
ss s { state a { when (go) { x = -2500; pvPut(x); x = 4000000000; pvPut(x); pvPut(y); elements = 12; pvPut(elements); } exit } }
"""


def units(stage):
    """A unit of thousandths, a number beyond 32 bits, more values than the channel has, a unit without fractions in the channel."""
    program = stage.folder / "units.st"
    program.write_text(UNITS)
    for kind, words, expected, told in (
        ("double", ("--scale", "X=3"), ["X plain double -2.5", "X plain double 4000000.0"], []),
        ("double", (), ["X plain double -2500.0", "X plain double 4000000000.0"], []),
        ("long", (), ["X plain long -2500"], ["put not done: X: [4000000000] is beyond 32 bits"]),
    ):
        play(stage, "up GO long", f"up X {kind}", "up Y short 2", "up Z long", "val GO 1")
        live = stage.live(program, "--put", *words, "--scale", "Z=1")
        stage.wait("it ends by itself", lambda live=live: live.process.poll() is not None)
        stage.same("the puts", put_lines(stage), [*expected, "Y plain long 0 0", "Z plain double 1.2"])
        stage.same("the comments", [it for it in comments(live.text("kept")) if "rounded" not in it], told)
        again = stage.replayed(program, live.path("kept"))
        stage.same("the replay", again.splitlines(), live.text("out").splitlines())


ENDING = """program ending
option +s;
int go;   assign go to "GO";  monitor go;
short x;  assign x to "X";    monitor x;
ss s { state a { when (go == 1) {} exit when (go == 2) { x = 1 / (go - 2); } exit when (go == 3) {} state b } state b {} }
"""


def endings(stage):
    """The status of live.py is that of the run, 128 and more by a signal; and the trace gives the same once more."""
    program = stage.folder / "ending.st"
    program.write_text(ENDING)
    for go, x, status, last in ((1, 0, 0, "exit ending"), (2, 0, 5, "fault s 5 division by zero"), (3, 40000, 6, "go s a b")):
        play(stage, "up GO long", "up X long", "val X 0", f"val GO {go}", f"val X {x}")
        live = stage.live(program, "--put")
        stage.wait("it ends by itself", lambda live=live: live.process.poll() is not None)
        stage.same("the status", [live.process.returncode], [status])
        stage.same("the last line", untimed(live.text("out"))[-1:], [last])
        stage.same("the replay", stage.replayed(program, live.path("kept")).splitlines(), live.text("out").splitlines())
        bad = [it for it in live.text("said").splitlines() if it.startswith("trace:")]
        if [it.split(": ")[1] for it in bad] != ["value out of range"] * (status == 6):
            raise NotSo(stage.told())
    play(stage)
    live = stage.start("live", "--tables", stage.tables(program), "--", "sh", "-c", "kill -9 $$")
    stage.wait("it ends by itself", lambda: live.process.poll() is not None)
    stage.same("the status", [live.process.returncode], [137])


def twice(stage):
    """A run that does not end with its trace is ended by a second Ctrl-C, and the script with it."""
    play(stage)
    live = stage.start("live", "--tables", stage.tables(EXAMPLES / "light.st"), "--", "sleep", str(10 * SECONDS))
    stage.wait("it runs", lambda: "only shown" in live.text("said"))
    # The second one counts when the first was heard: signals of one kind may become one.
    stage.wait("it ends", lambda: live.process.send_signal(signal.SIGINT) or live.process.poll() is not None)
    stage.same("the status", [live.process.returncode], [130])


BLINK = """program blink
option +s;
ss s { state off { when (delay(0.1)) { printf("on"); } state on } state on { when (FALSE) {} state off } }
"""


def timed(stage):
    """A delay is over by the ticks alone, in a program that has no channel. Both scripts end by themselves."""
    program = stage.folder / "blink.st"
    program.write_text(BLINK)
    play(stage)
    live = stage.live(program, "--tick", "10")
    stage.wait("the delay is over", lambda: "go s off on" in untimed(live.text("out")))
    stage.same("the status", [live.end()], [0])
    stage.same("the run", untimed(live.text("out")), ["start blink", "print s on", "go s off on"])
    stage.same("the replay", stage.replayed(program, live.path("kept")).splitlines(), live.text("out").splitlines())
    for script in (stage.start("record", "A", "--seconds", "0.5"), stage.live(program, "--seconds", "0.5")):
        stage.wait(f"{script.name} ends", lambda it=script: it.process.poll() is not None)
        stage.same("the status", [script.process.returncode], [0])
    time, *word = stage.scripts[-2].text("out").splitlines()[-1].split()
    if word != ["tick"] or int(time) < 500:
        raise NotSo(f"{time} {word}\n{stage.told()}")
