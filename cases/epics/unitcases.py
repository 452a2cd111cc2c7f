"""Cases of files of units in scripts/epics by a stub: scales, texts, patterns, times; wrong lines; and the source of a program in the
place of its tables."""
import re
import time
from datetime import datetime

from stage import NotSo, events
from stubbed import Stubbed, called, lived, play, put_lines, recorded

UNITS = r"""# by hand

scale T 1000
scale BIG 1/10
scale THIRD 3
enum STATE :0,Not\x20Open:1,a\x2cb\x3a*:2
enum CMD MOUNT:7
enum V Shut:7,Not\x20Open:0
text REPLY ERR*\x2a
severity T.SEVR
time T.TIME
time CLOCK
"""
# What the first comments say of that: the star of a text is quoted.
TOLD = [
    "# scale T 1000", "# scale BIG 1/10", "# scale THIRD 3", r"# enum STATE :0,Not\x20Open:1,a\x2cb\x3a\x2a:2", "# enum CMD MOUNT:7",
    r"# enum V Shut:7,Not\x20Open:0", r"# text REPLY ERR*\x2a",
]  # fmt: skip
FAULTS = (
    ("scal T 3", "unknown word"), ("scale T", "wrong number of fields"), ("scale  T 3", "wrong number of fields"),
    ("time A B", "wrong number of fields"), ("scale T 0", "bad number"), ("scale T 1.5", "bad number"), ("scale T 2/3", "bad number"),
    ("enum T a", "bad text"), ("enum T a:1,", "bad text"), ("enum T a:x", "bad number"), ("enum T a:9223372036854775808", "bad number"),
    ("enum T a\\x2:1", "bad text"), ('enum T "a":1', "bad text"), ("text T \\xZZ", "bad text"), ("severity T", "bad name"),
    ("time T", "bad name"), ("scale T 3\nscale T 3", "named twice"), ("enum T a:1,a:2", "named twice"), ("scale T 3\r", "not ASCII text"),
)  # fmt: skip
# Behind the begin of 1990, where the stamps of the control system begin.
STAMP, EPOCH = 1_000_000, 631_152_000


def cases():
    """The cases."""
    for name, check in (
        ("what a file of units says of each value", values),
        ("lines of a file of units that are wrong", faults),
        ("time stamps of a channel that is not recorded, or only put to", stamped),
        ("the clock, second by second", clock),
        ("the source of a program in the place of its tables, units of what is put", program),
        ("words about programs and units that make no sense", wrong),
    ):
        yield Stubbed(f"scripts/epics, by a stub: {name}", check)


def values(stage):
    """Scales, texts with quoted bytes, patterns, severities, and a comment where the numbers of texts are not used."""
    (stage.folder / "u").write_text(UNITS)
    play(
        stage, "up T double", "stamp T 1000000", "val T 1.2345", "up BIG double", "val BIG 1234.9", "val BIG -1235", "up THIRD long",
        "val THIRD 5", "up STATE string", 'val STATE ""', 'val STATE "Not Open"', 'val STATE "a,b:*"', 'val STATE "else"', "up CMD enum",
        "val CMD 1", 'states V ["Not Open", "Shut"]', "up V enum", "val V 0", "val V 1", "val V 2",
        "up REPLY string", 'val REPLY "ERR 5*"', 'val REPLY "ERR 5"', "up T.SEVR enum", "val T.SEVR 2", "up S long", "val S 1",
    )  # fmt: skip
    names = "T", "BIG", "THIRD", "STATE", "CMD", "V", "REPLY", "T.SEVR", "T.TIME", "S"
    found, said = recorded(stage, "val S 1", "--units", "u", *names)
    expected = [
        "up T", "up T.TIME", f"val T.TIME {STAMP + EPOCH}", "val T 1235", "up BIG", "val BIG 123", "val BIG -124", "up THIRD", "val THIRD 15",
        "up STATE", "val STATE 0", "val STATE 1", "val STATE 2", "up CMD", "val CMD 1", "up V", "val V 0", "val V 7",
        "up REPLY", "val REPLY 1", "val REPLY 0", "up T.SEVR",
        "val T.SEVR 2", "up S", "val S 1",
    ]  # fmt: skip
    stage.same("the lines", found, expected)
    told = [it for it in stage.scripts[-1].text("out").splitlines() if re.match("# (scale|enum|text) ", it)]
    stage.same("the units in the comments", told, TOLD)
    for text in (
        "CMD is an enumeration with other texts than those of --units: its index is taken",
        "V: left out, no number of 64 bits: 1",
        "STATE: left out, no number of 64 bits: 1",
        "10 of 10 channels connected at the end, values that were written: 15",
    ):
        if f"record.py: {text}" not in said:
            raise NotSo(f"not said: {text}\n{stage.told()}")
    if "fraction" in "\n".join(said):
        raise NotSo(stage.told())


def faults(stage):
    """Each is told with its line, and nothing else is."""
    for text, fault in FAULTS:
        (stage.folder / "u").write_bytes(f"# a\n{text}\n".encode())
        line = 2 + text.count("\n")
        called(stage, ("record", "--units", "u", "T"), 2, f"units:{line}: {fault}\n")
    called(stage, ("record", "--units", "gone", "T"), 2, "No such file")
    called(stage, ("record", "--units", ".", "T"), 2, "Is a directory")


def stamped(stage):
    """Its values are not written. A stamp comes in front of each value, also where only that has changed."""
    (stage.folder / "u").write_text("time A.TIME\n")
    play(stage, "up A double", "stamp A 5", "val A 1.5", "stamp A 6", "val A 1.5", "down A", "up A double", "val A 2", "down A")
    found, _ = recorded(stage, "down A.TIME", "--units", "u", "A.TIME")
    five, six = (f"val A.TIME {EPOCH + it}" for it in (5, 6))
    stage.same("the lines", found, ["up A.TIME", five, six, "down A.TIME", "up A.TIME", six, "down A.TIME"])


def clock(stage):
    """Seconds since 1970, each at the time at which it begins. The second comment has the date of 0 ms."""
    (stage.folder / "u").write_text("time CLOCK\n")
    play(stage, "up A long", "val A 1")
    before = time.time()
    script = stage.start("record", "--units", "u", "CLOCK", "A", "--seconds", "3.2")
    stage.wait("its end", lambda: script.process.poll() is not None)
    lines = script.text("out").splitlines()
    zero = datetime.fromisoformat(lines[1].removeprefix("# zero ")).timestamp()
    told = [(int(it[1]), int(it[2])) for it in map(re.compile(r"(\d+) val CLOCK (\d+)").fullmatch, lines) if it]
    if lines[2] != "0 up CLOCK" or told[0] != (0, int(zero)) or not before - 1 < zero < time.time():
        raise NotSo(stage.told())
    if not 3 < len(told) < 40 or any(round(1000 * (second - zero)) != at or second != told[0][1] + k for k, (at, second) in enumerate(told[1:], 1)):
        raise NotSo(f"{zero} {told}")
    stage.same("the other lines", [it for it in events(script.text("out")) if "CLOCK" not in it], ["up A", "val A 1"])


PROGRAM = """program p ("P=LAB:, Q=X")
option +s;
long temp; assign temp to "{P}TEMP"; monitor temp;
long power; assign power to "{P}POWER";
int word; assign word to "{P}{Q}";
int valve; assign valve to "{P}V"; monitor valve;
int clock; assign clock to "CLOCK"; monitor clock;
ss s {
  state a { when (temp > 2500 && clock > 1000000000) { power = temp; pvPut(power); word = 3; pvPut(word); valve = 7; pvPut(valve); } state b }
  state b { when (temp < 0) {} state a }
}
"""
OF_PROGRAM = r"""scale HALL:TEMP 100
scale HALL:POWER 1000
enum HALL:X Not\x20Open:3,Shut:4
enum HALL:V Open:7
time CLOCK
"""


def program(stage):
    """The channels are those of the source in the call, with the macros of both. Numbers are divided, and texts are put."""
    source = stage.folder / "p.st"
    source.write_text(PROGRAM)
    (stage.folder / "u").write_text(OF_PROGRAM)
    up = "up HALL:TEMP double", "up HALL:POWER double", "up HALL:X string", 'states HALL:V ["Shut", "Open"]', "up HALL:V enum", "val HALL:V 1"
    play(stage, *up, "val HALL:TEMP 25.006", "put HALL:POWER", "put HALL:X", "put HALL:V", "val HALL:TEMP 0")
    words = "--put", "--units", "u", "--snc", str(stage.programs["snc"])
    run, script = lived(stage, source, "val HALL:TEMP 0", *words, snlrun=("P=HALL:",), has_tables=False)
    stage.same("the run", run, ["start p", "put HALL:POWER 2501", "put HALL:X 3", "put HALL:V 7", "go s a b"])
    stage.same("the puts", put_lines(stage), ["HALL:POWER plain double 2.501", "HALL:X plain string Not Open", "HALL:V plain string Open"])
    if "tables" in script.text("said"):
        raise NotSo(stage.told())
    play(stage, *up, "val HALL:TEMP 25.006", "val HALL:POWER 1")
    words = "--program", str(source), "--macros", "P=HALL:", *words[1:]
    found, _ = recorded(stage, "val HALL:POWER 1000", *words)
    lines = ["up HALL:TEMP", "up HALL:POWER", "up HALL:X", "up HALL:V", "val HALL:V 7", "val HALL:TEMP 2501", "val HALL:POWER 1000"]
    stage.same("the lines", [it for it in found if "CLOCK" not in it], lines)


def wrong(stage):
    """Calls with the status and a part of what is said."""
    (stage.folder / "p.st").write_text(PROGRAM)
    (stage.folder / "bad.st").write_text("program p\nx\n")
    (stage.folder / "none.tables").write_text("program p\n")
    (stage.folder / "u").write_text(OF_PROGRAM)
    snc = "--snc", str(stage.programs["snc"])
    for words, status, said in (
        (("record", "--program", "p.st", "--units", "u", *snc), 2, "--units u: p has no channel HALL:POWER, nor 3 others that are named there"),
        (("record", "--program", "gone.st", *snc), 2, "No such file"),
        (("record", "--program", "bad.st", *snc), 2, "--program: snc refuses bad.st\nbad.st:"),
        (("record", "--program", "p.st", "--tables", "none.tables", *snc), 2, "--tables: --program has the channels already"),
        (("record", "--tables", "none.tables"), 2, "no channel is named"),
        (("live", "--", "true", "gone.st"), 2, "no word of the call is the source of a program: name it by --program"),
        (("live", "--tables", "none.tables", "--", "./gone"), 3, "live.py: note: --tables goes on; --program FILE takes the source itself"),
    ):
        called(stage, words, status, said)
