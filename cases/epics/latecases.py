"""Cases of scripts/epics by a stub, where something is slow: a run that does not read, a reader that pauses, a full file."""
import fcntl
import os
import re
import signal
import threading
import time

from stage import SECONDS, NotSo, comments, events, is_rising, untimed
from stubbed import Stubbed, play, put_lines

ECHO = """program echo
option +s;
int x;  assign x to "IN";  monitor x;
int y;  assign y to "OUT";
ss s { state waits { when (x != y) { y = x; pvPut(y); } state waits } }
"""
UP = "up IN long", "up OUT long", "val IN 0"
# So many seconds all that came waits for a reader.
PAUSE = 1
LIMITED = "bash", "-c", 'ulimit -f 1; exec "$@"', "bash"
LEFT = re.compile(r"(\d+) events that waited were not written, the first of (\d+), the last of (\d+)")


def cases():
    """The cases."""
    for name, check in (
        ("a reader that pauses holds up no put, and what it missed is counted", paused),
        ("a reader that never comes back", gone),
        ("a run that does not read is told, and what waits at Ctrl-C is counted", left),
        ("a run that is behind is told in time, and ended by --late-stop", behind),
        ("what waits for the reader of record.py is written behind Ctrl-C", recorded),
        ("a file that is full: standard output of live.py", full_output),
        ("a file that is full: the trace that is kept", full_trace),
        ("a file that is full: the trace of record.py", full_record),
        ("a device that is full", full_device),
        ("second Ctrl-C: what waited is counted", twice),
    ):
        yield Stubbed(f"scripts/epics, by a stub: {name}", check)


def echo(stage):
    """The program."""
    program = stage.folder / "echo.st"
    program.write_text(ECHO)
    return program


def values(count):
    """Lines of a play."""
    return [f"val IN {it}" for it in range(1, count + 1)]


def waits_for(stage, program):
    """A script that runs the program as soon as there is a file `go`."""
    script = stage.folder / "run"
    script.write_text(f"#!/bin/sh\nuntil [ -e go ]; do sleep 0.05; done\nexec {stage.programs['snlrun']} {program.name}\n")
    script.chmod(0o755)
    return ("--tables", stage.tables(program), "--keep", "live.kept", "--force"), ("--", "./run", program.name)


def same_again(stage, script, program):
    """The lines that snlrun makes of the kept trace, whose times never fall."""
    if not is_rising(script.text("kept")):
        raise NotSo(f"a time goes back\n{stage.told()}")
    return stage.replayed(program, script.path("kept")).splitlines()


def not_shown(script):
    """How many lines were told as not shown."""
    found = re.findall(r"^live.py: (\d+) lines were not shown: standard output was not read$", script.text("said"), re.MULTILINE)
    return sum(map(int, found))


def small_pipe():
    """A pipe with little room."""
    reads, writes = os.pipe()
    fcntl.fcntl(writes, fcntl.F_SETPIPE_SZ, 4096)
    return reads, writes


def paused(stage):
    """All puts come while nobody reads. Then somebody does: what was shown and what was told as missed are all lines."""
    program, (reads, writes) = echo(stage), small_pipe()
    play(stage, *UP, *values(6000), "note end")
    live = stage.live(program, "--put", out=writes)
    os.close(writes)
    stage.wait("all puts come", lambda: len(put_lines(stage)) == 6001)
    found = []
    with open(reads, "rb") as stream:
        reader = threading.Thread(target=lambda: found.extend(stream.read().decode().splitlines()))
        reader.start()
        stage.wait("what was missed is told", lambda: not_shown(live))
        stage.same("the status", [live.end()], [0])
        reader.join()
    again = same_again(stage, live, program)
    missed = not_shown(live)
    if missed < 1000 or len(found) + missed != len(again) or not set(found) <= set(again):
        raise NotSo(f"{len(found)} shown, {missed} missed, {len(again)} lines\n{stage.told()}")


def gone(stage):
    """It ends in time though nobody reads any more, and tells what was not shown."""
    program, (reads, writes) = echo(stage), small_pipe()
    play(stage, *UP, *values(500))
    live = stage.live(program, "--put", out=writes)
    os.close(writes)
    stage.wait("all puts come", lambda: len(put_lines(stage)) == 500)
    stage.same("the status", [live.end()], [0])
    with open(reads, "rb") as stream:
        found = stream.read().count(b"\n")
    again = same_again(stage, live, program)
    if not 0 < not_shown(live) == len(again) - found:
        raise NotSo(f"{found} shown, {not_shown(live)} missed, {len(again)} lines\n{stage.told()}")


def left(stage):
    """The run does not read at first: so its pipe is full, and the loop hangs. All has the time at which it came."""
    program = echo(stage)
    front, behind_ = waits_for(stage, program)
    play(stage, *UP, *values(15000), "note end")
    begin = time.monotonic()
    live = stage.start("live", "--put", *front, *behind_)
    stage.wait("all values came", lambda: put_lines(stage) == ["end"])
    came = 1000 * (time.monotonic() - begin)
    stage.wait("it is told", lambda: "live.py: behind by " in live.text("said"))
    live.process.send_signal(signal.SIGINT)
    (stage.folder / "go").touch()
    stage.same("the status", [live.process.wait(SECONDS)], [0])
    stage.same("the replay", same_again(stage, live, program), live.text("out").splitlines())
    found = [LEFT.fullmatch(it) for it in comments(live.text("kept")) if LEFT.fullmatch(it)]
    if len(found) != 1 or f"live.py: {found[0][0]}\n" not in live.text("said"):
        raise NotSo(f"what is left\n{stage.told()}")
    count, first, last = map(int, found[0].groups())
    written = [int(it.split()[0]) for it in live.text("kept").splitlines() if " val " in it]
    if len(written) + count != 15001 or not written[-1] <= first <= last <= came or count < 1000:
        raise NotSo(f"{len(written)} written up to {written[-1]}, {count} left, the last came by {came:.0f}\n{stage.told()}")
    if not_put(live) != ["OUT: live.py is ending"] * len([it for it in untimed(live.text("out")) if it.startswith("put ")]):
        raise NotSo(f"puts behind Ctrl-C\n{stage.told()}")


def not_put(script):
    """What the trace tells of puts that were not done."""
    return [it.removeprefix("put not done: ") for it in comments(script.text("kept")) if it.startswith("put not done: ")]


def behind(stage):
    """It is told while the run does not read, stands in the trace, and is told in the end; --late-stop ends it with 7."""
    program = echo(stage)
    front, behind_ = waits_for(stage, program)
    play(stage, *UP, "val IN 1", "put OUT", "val IN 2", "put OUT")
    live = stage.start("live", "--put", "--late", "200", *front, *behind_)
    stage.wait("it is told", lambda: len(re.findall(r"live.py: behind by \d+ ms at \d+; \d+ events wait", live.text("said"))) > 1)
    (stage.folder / "go").touch()
    stage.wait("both puts come", lambda: put_lines(stage) == ["OUT plain long 1", "OUT plain long 2"])
    stage.wait("it stands in the trace", lambda: len(re.findall(r"^# behind by ", live.text("kept"), re.MULTILINE)) > 1)
    stage.same("the status", [live.end()], [0])
    stage.same("the replay", same_again(stage, live, program), live.text("out").splitlines())
    if not re.search(r"^live.py: at most \d+ ms behind$", live.text("said"), re.MULTILINE):
        raise NotSo(stage.told())
    (stage.folder / "go").unlink()
    play(stage, *UP)
    live = stage.start("live", "--late-stop", "400", *front, *behind_)
    stage.wait("it ends", lambda: live.process.poll() is not None)
    stage.same("the status", [live.process.returncode], [7])
    wanted = r"^live.py: behind by \d+ ms at \d+, more than --late-stop 400: this is the end$"
    if not re.search(wanted, live.text("said"), re.MULTILINE):
        raise NotSo(stage.told())


def recorded(stage):
    """Nobody reads until Ctrl-C came; then all is there, each with the time at which it came, and not at which it was written."""
    reads, writes = os.pipe()
    play(stage, *UP[:1], *values(15000), "note end")
    begin = time.monotonic()
    record = stage.start("record", "IN", out=writes)
    os.close(writes)
    stage.wait("all values came", lambda: put_lines(stage) == ["end"])
    came = 1000 * (time.monotonic() - begin)
    time.sleep(PAUSE)
    record.process.send_signal(signal.SIGINT)
    with open(reads, "rb") as stream:
        text = stream.read().decode()
    stage.same("the status", [record.process.wait(SECONDS)], [0])
    times = [int(it.split()[0]) for it in text.splitlines() if it[0] != "#"]
    if not is_rising(text) or times[-2] > came or times[-1] - times[-2] < 1000 * PAUSE:
        raise NotSo(f"times go back, or the last value, at {times[-2]}, came by {came:.0f}, and the end is at {times[-1]}")
    stage.same("the lines", events(text), ["up IN", *values(15000)])


def full_output(stage):
    """The file of standard output has no more room: each put that it has was done, and it ends with 3."""
    program = echo(stage)
    play(stage, *UP, *(line for it in values(60) for line in (it, "put OUT")))
    words = "--put", "--tables", stage.tables(program), "--", stage.programs["snlrun"], program
    live = stage.start("live", *words, front=LIMITED)
    stage.wait("it ends", lambda: live.process.poll() is not None)
    stage.same("the status", [live.process.returncode], [3])
    told(stage, live, f"standard output ({live.path('out').resolve()}): File too large")
    shown = [it.split()[1:] for it in untimed(live.text("out")) if it.startswith("put ")]
    done = [[it.split()[0], it.split()[-1]] for it in put_lines(stage)]
    if len(shown) < 10 or done[: len(shown)] != shown or len(done) > len(shown) + 5:
        raise NotSo(f"{shown} shown, {done} done\n{stage.told()}")


def told(stage, script, text):
    """Fails where standard error has not a line, or has a traceback."""
    if f"{script.name}.py: {text}" not in script.text("said").splitlines() or "Traceback" in script.text("said"):
        raise NotSo(f"not told: {text}\n{stage.told()}")


def full_trace(stage):
    """The trace has no more room: it has whole lines, and those puts that were done come of it once more."""
    program = echo(stage)
    play(stage, *UP, *(line for it in values(100) for line in (it, "put OUT")))
    with open(os.devnull, "wb") as out:
        live = stage.live(program, "--put", out=out, front=LIMITED)
    stage.wait("it ends", lambda: live.process.poll() is not None)
    stage.same("the status", [live.process.returncode], [3])
    told(stage, live, "live.kept: File too large")
    if not live.path("kept").read_bytes().endswith(b"\n"):
        raise NotSo(f"the last line is cut\n{stage.told()}")
    again = [it.split()[2:] for it in same_again(stage, live, program) if it.split()[1] == "put"]
    stage.same("the puts", [[it.split()[0], it.split()[-1]] for it in put_lines(stage)], again)


def full_record(stage):
    """The same of record.py."""
    play(stage, *UP[:1], *values(500))
    record = stage.start("record", "IN", front=LIMITED)
    stage.wait("it ends", lambda: record.process.poll() is not None)
    stage.same("the status", [record.process.returncode], [3])
    told(stage, record, f"standard output ({record.path('out').resolve()}): File too large")
    found = events(record.text("out"))
    if not record.path("out").read_bytes().endswith(b"\n") or found[1:] != values(len(found) - 1):
        raise NotSo(f"the lines\n{stage.told()}")


def full_device(stage):
    """Nothing at all can be written."""
    program = echo(stage)
    tables = stage.tables(program)
    run = "--", stage.programs["snlrun"], program
    for words, name in (
        (("record", "IN"), "standard output (/dev/full)"),
        (("live", "--tables", tables, *run), "standard output (/dev/full)"),
        (("live", "--tables", tables, "--keep", "/dev/full", *run), "/dev/full"),
    ):
        play(stage, *(UP if words[0] == "live" else UP[:1]))
        with open("/dev/full", "wb") as full, open(os.devnull, "wb") as null:
            script = stage.start(*words, out=full if "output" in name else null)
        stage.wait("it ends", lambda script=script: script.process.poll() is not None)
        stage.same("the status", [script.process.returncode], [3])
        told(stage, script, f"{name}: No space left on device")


def twice(stage):
    """A reader that never reads: the second Ctrl-C ends record.py, which tells how much is lost."""
    reads, writes = os.pipe()
    play(stage, *UP[:1], *values(15000), "note end")
    record = stage.start("record", "IN", out=writes)
    os.close(writes)
    stage.wait("all values came", lambda: put_lines(stage) == ["end"])
    # The second one counts when the first was heard: signals of one kind may become one.
    stage.wait("it ends", lambda: record.process.send_signal(signal.SIGINT) or record.process.poll() is not None)
    os.close(reads)
    stage.same("the status", [record.process.returncode], [130])
    if not re.search(r"^record.py: \d+ events that waited were not written$", record.text("said"), re.MULTILINE):
        raise NotSo(stage.told())
