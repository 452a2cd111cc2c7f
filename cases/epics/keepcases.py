"""Cases of scripts/epics by a stub: texts that are put, programs that never begin, and files that a trace is kept in."""
import hashlib
import re
import shlex
import time

from stage import EXAMPLES, NotSo, comments, events, untimed
from stubbed import LIGHT, Stubbed, called, play, put_lines, recorded


def cases():
    """The cases."""
    for name, check in (
        ("texts by --enum, both ways", texts),
        ("a program that never begins: nan, no element, no connection, down again", never),
        ("a file that is there already", there),
        ("two calls on one file", both),
        ("a date in the name, and the first comment", dated),
        ("what is only put gives no value", unread),
        ("words of live.py that make no sense", wrong),
    ):
        yield Stubbed(f"scripts/epics, by a stub: {name}", check)


TEXTS = """program texts
option +s;
int mode;  assign mode to "MODE";  monitor mode;
int out;   assign out to "TO";
ss s {
  state a { when (mode == 2) { out = mode; pvPut(out); out = 5; pvPut(out); } state b }
  state b { when (mode == -1) { out = 0; pvPut(out, ASYNC); } state c }
  state c { when (pvPutComplete(out)) { out = 7; pvPut(out, ASYNC); } state d }
  state d { when (pvPutComplete(out)) { printf("answered"); } state e }
  state e { when (FALSE) {} state e }
}
"""


def texts(stage):
    """The text of a number is put. A number without one is told, and nobody waits for its answer."""
    program = stage.folder / "texts.st"
    enums = "--enum", "MODE=run beam:2,off:-1", "--enum", "TO=stop it:0,go on:2,go:2"
    told = [f"put not done: TO: no text of --enum has the number {it}" for it in (5, 7)]
    plain = TEXTS.replace(", ASYNC", "").replace("pvPutComplete(out)", "TRUE")
    for source, how in ((plain, "plain"), (TEXTS, "asks")):
        program.write_text(source)
        play(stage, "up MODE string", "up TO string", 'val MODE "run beam"', "put TO", 'val MODE "off"')
        live = stage.live(program, "--put", *enums)
        stage.wait("it is told", lambda live=live: f"live.py: {told[1]}\n" in live.text("said"))
        stage.wait("nobody waits", lambda live=live: "go s d e" in untimed(live.text("out")))
        stage.same("the status", [live.end()], [0])
        stage.same("the puts", put_lines(stage), [f"TO {how} string go on", f"TO {how} string stop it"])
        stage.same("the comments", comments(live.text("kept")), told)
        stage.same("the replay", stage.replayed(program, live.path("kept")).splitlines(), live.text("out").splitlines())


LACKS = """program lacks
option +s;
int a;      assign a to "A";  monitor a;
int b[3];   assign b to "B";  monitor b;
int c[2];   assign c to {"C", "D"};
int e;      assign e to "E";  monitor e;
ss s { state a { when (a) {} exit } }
"""


def never(stage):
    """It is told after five seconds and at the end, and the status is 1. Without these it is 0."""
    program = stage.folder / "lacks.st"
    program.write_text(LACKS)
    play(stage, "up A double", "val A NaN", "up B long 5", "val B []", "up C long", "up D long", "down D", "up E long")
    live = stage.live(program, "--put")
    stage.wait("it is told", lambda: "the program has not begun" in live.text("said"))
    stage.same("the status", [live.end()], [1])
    said = [re.sub(r"since \d+", "since T", it) for it in live.text("said").splitlines()]
    lines = [
        "the program has not begun", "waits for A to have a value (a); what came last is nan",
        "waits for B to have a value (b); what came last is an array without elements",
        "waits for D, which is down again since T (c[1])", "waits for E to have a value (e)",
    ]  # fmt: skip
    found = [it.removeprefix("live.py: ") for it in said if "not begun" in it or "waits for" in it]
    stage.same("what is told", found, lines * 2)
    play(stage, "up A double", "val A NaN")
    _, said = recorded(stage, "up A", "A", "B")
    told = ["A: connected, and no value since the start; what came last is nan", "B: no connection since the start"]
    stage.same("what record.py tells", said[-4:-2], [f"record.py: {it}" for it in told])
    play(stage, "up A long")
    live = stage.live(program, "--seconds", "0.5")
    stage.wait("it ends", lambda: live.process.poll() is not None)
    stage.same("the status", [live.process.returncode], [1])
    if "live.py: waits for B to be up (b)" not in live.text("said").splitlines():
        raise NotSo(stage.told())


def live_words(stage, *words):
    """A call of live.py over light.st."""
    return "live", "--tables", stage.tables(EXAMPLES / "light.st"), *words, "--", stage.programs["snlrun"], EXAMPLES / "light.st"


def there(stage):
    """It is refused and stays; --force writes over it. A call that does not begin leaves what was there, and no new file."""
    file = stage.folder / "night.trace"
    file.write_text("0 up LAB:LAMP\n" * 1000)
    seconds = "--seconds", "0.5"
    called(stage, live_words(stage, "--keep", file), 3, f"live.py: {file}: the file is there already: --force writes over it")
    called(stage, ("live", "--tables", stage.tables(EXAMPLES / "light.st"), "--force", "--keep", file, "--", "./none"), 3, "./none")
    stage.same("the file", file.read_text().splitlines(), ["0 up LAB:LAMP"] * 1000)
    called(stage, live_words(stage, "--keep", file, "--force", *seconds), 1, "live.py: the program has not begun")
    if not comments(file.read_text()) == events(file.read_text()) == []:
        raise NotSo(file.read_text())
    called(stage, ("live", "--tables", stage.tables(EXAMPLES / "light.st"), "--keep", "new", "--", "./none"), 3, "./none")
    stage.same("the new file", [(stage.folder / "new").exists()], [False])
    called(stage, live_words(stage, "--keep", "/dev/null", *seconds), 1, "")


def both(stage):
    """The second call is refused, with --force too, and the first one's trace is whole."""
    play(stage, *LIGHT)
    live = stage.live(EXAMPLES / "light.st")
    stage.wait("it runs", lambda: "start light" in live.text("out"))
    for force in ((), ("--force",)):
        called(stage, live_words(stage, "--keep", "live.kept", *force), 3, "live.py: live.kept: another call keeps its trace there")
    stage.same("the status", [live.end()], [0])
    again = stage.replayed(EXAMPLES / "light.st", live.path("kept")).splitlines()
    stage.same("the replay", again, live.text("out").splitlines())


def dated(stage):
    """The name has the date. The first comment has version, program, date with zone, the sum of the source and the words."""
    days = [time.strftime("%Y-%m-%d")]
    call = live_words(stage, "--keep", "night 100%%-%Y-%m-%d.trace", "--seconds", "0.5")
    called(stage, call, 1, "")
    days.append(time.strftime("%Y-%m-%d"))
    found = [it for it in (stage.folder / f"night 100%-{day}.trace" for day in days) if it.exists()]
    head = found[0].read_text().splitlines()[0]
    version = (EXAMPLES.parent / "VERSION").read_text().strip()
    source = EXAMPLES / "light.st"
    parts = [f"# live.py {version}, program light, ", f", SHA-256 of {source} {hashlib.sha256(source.read_bytes()).hexdigest()}, "]
    words = "called with " + shlex.join(map(str, call[1:]))
    if not head.startswith(parts[0]) or parts[1] not in head or not head.endswith(words):
        raise NotSo(f"{head}\n{parts} {words}")
    if not re.search(rf", ({'|'.join(days)})T\d\d:\d\d:\d\d[+-]\d{{4}}, ", head):
        raise NotSo(head)


READS = """program reads
option +s;
int go;    assign go to "GO";      monitor go;
int got;   assign got to "GOT";    // pvGet(only)
int ask;   assign ask to "ASK";    evflag asked;  sync ask to asked;
int only;  assign only to "ONLY";
ss s { state a { when (go) { pvGet(got); only = got; pvPut(only); } exit } }
"""


def unread(stage):
    """Values are asked for by `monitor`, by `sync` and by `pvGet`. Of a channel that is only put none is asked for, nor missed."""
    program = stage.folder / "reads.st"
    program.write_text(READS)
    rest = (f"up {it} long" for it in ("GO", "GOT", "ASK", "ONLY"))
    play(stage, *rest, "val GOT 5", "val ASK 6", "val GO 1")
    live = stage.live(program, "--put")
    stage.wait("it ends by itself", lambda: live.process.poll() is not None)
    stage.same("the puts", put_lines(stage), ["ONLY plain long 5"])
    stage.same("the status", [live.process.returncode], [0])
    if "no value since the start" in live.text("said"):
        raise NotSo(stage.told())


def wrong(stage):
    """Calls with the status 2 and what is said."""
    for words, said in (
        (("--late", "0"), "argument --late: 0 is no number above 0 and up to 86,400,000"),
        (("--late", "nan"), "argument --late: nan is no number above 0"),
        (("--late-stop", "soon"), "argument --late-stop: soon is no number above 0"),
        (("--tick", "inf"), "argument --tick: inf is no number above 0 and up to 86,400,000"),
        (("--seconds", "-1"), "argument --seconds: -1 is no number above 0"),
        (("--force",), "--force says nothing without --keep"),
        (("--enum", "LAB:LAMP=on:1,on:2"), "--enum LAB:LAMP=on:1,on:2: on has two numbers"),
        (("--enum", f"LAB:LAMP={'x' * 40}:1"), "has more than 39 bytes, and no channel has such a text"),
    ):
        called(stage, live_words(stage, *words), 2, said)
