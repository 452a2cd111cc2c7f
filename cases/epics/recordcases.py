"""Cases of scripts/epics/record.py by a stub: values, names and the order of lines; and the words of both scripts."""
import os
import subprocess
import sys

from stage import EXAMPLES, SCRIPTS, SECONDS, NotSo, comments
from stubbed import LIGHT, Stubbed, called, play, recorded

TABLES = """program mac
channel a 0 1 "{P}A" monitor - 0
channel b 0 5 "{P}B" - - 0
channel c 0 1 "" monitor - 0
channel d 0 1 "{P}A" - f 5
channel e 0 3 "{P}B" - - 0
ss s
"""
# Type, --scale, value, what comes of it; nothing where it is left out.
VALUES = (
    ("double", "", "0.5", "1"), ("double", "", "-0.5", "-1"), ("double", "", "2.5", "3"), ("double", "", "1.4999", "1"),
    ("double", "", "0.49999999999999994", "0"), ("double", "", "-1e-300", "0"), ("double", "3", "7.2", "7200"),
    ("double", "3", "1.0005", "1001"), ("double", "3", "2.4996", "2500"), ("double", "-2", "250", "3"),
    ("double", "18", "9.2", "9200000000000000000"), ("double", "18", "9.3", ""),
    ("double", "18", "-9.223372036854775", "-9223372036854775000"),
    ("double", "", "9.3e18", ""), ("double", "99", "1", ""), ("double", "-99", "1e99", "1"), ("double", "", "NaN", ""),
    ("double", "", "-Infinity", ""), ("float", "9", "0.10000000149011612", "100000000"), ("float", "1", "0.25", "3"),
    ("float", "", "16777216.0", "16777216"), ("float", "2", "3.4028234663852886e+38", ""), ("short", "", "-32768", "-32768"),
    ("long", "", "2147483647", "2147483647"), ("long", "3", "5", "5000"), ("long", "-2", "250", "3"), ("char", "", "-56", "-56"),
    ("enum", "", "3", "3"), ("enum", "3", "2", "2"), ("short", "", "[1, -2, 3]", "1 -2 3"), ("double", "1", "[0.1, 0.25]", "1 3"),
    ("double", "", "[1.0, NaN]", ""), ("long", "", "[]", ""), ("string", "", '"run beam"', "2"), ("string", "", '"else"', ""),
)  # fmt: skip


def cases():
    """The cases."""
    for name, check in (
        ("values of all types", values),
        ("the order of lines, and what is told of channels", order),
        ("the channels that tables and words name", names),
        ("an array of more values than a line can have", wide),
        ("words that make no sense, and what is not there", wrong),
        ("a channel of texts without their numbers", refused),
        ("nobody reads what they write", unread),
    ):
        yield Stubbed(f"scripts/epics, by a stub: {name}", check)


def values(stage):
    """Each row of the table, on a channel of its own."""
    lines, words, expected = [], [], []
    for at, (kind, scale, value, number) in enumerate(VALUES):
        name = f"C{at}"
        lines += [f"up {name} {kind} 9", f"val {name} {value}"]
        words += [name, *([f"--scale={name}={scale}"] if scale else [])]
        words += [f"--enum={name}=off:0,run beam:2"] if kind == "string" else []
        expected += [f"up {name}", *([f"val {name} {number}"] if number else [])]
    play(stage, *lines, "up END long", "val END 1")
    found, said = recorded(stage, "val END 1", *words, "END")
    stage.same("the lines", found, [*expected, "up END", "val END 1"])
    missing = [at for at, (_, _, _, number) in enumerate(VALUES) if not number]
    left_out = [f"record.py: C{it}: left out, no number of 64 bits: 1" for it in missing]
    stage.same("what was left out", said[-1 - len(left_out) : -1], left_out)


def order(stage):
    """Second lines `up` and `down`, values behind a reconnection, a value that is left out twice; and what is said in the end."""
    play(
        stage, "down A", "up A double", "val A 1", "up A double", "val A NaN", "val A NaN", "val A 2", "down A", "down A",
        "up B enum", "up A double", "val A 2", "val A NaN", "down B", "up D long", "val D 0",
    )  # fmt: skip
    found, said = recorded(stage, "val D 0", "A", "B", "C", "D")
    expected = ["up A", "val A 1", "val A 2", "down A", "up B", "up A", "val A 2", "down B", "up D", "val D 0"]
    stage.same("the lines", found, expected)
    hint = "A has a fraction and is rounded to whole numbers: --scale A=K keeps K decimals"
    missing = "A: left out, no number of 64 bits: [nan]"
    stage.same("the comments", comments(stage.scripts[-1].text("out")), [hint, missing, missing])
    end = ["B: connected, and no value since the start", "C: no connection since the start", "A: left out, no number of 64 bits: 3"]
    end += ["2 of 4 channels connected at the end, values that were written: 4"]
    # On a busy machine what is absent was told after some seconds, too.
    comment = [f"record.py: {it}" for it in (hint, missing, missing)]
    stage.same("what is said", [it for it in said if it in comment], comment)
    stage.same("what is said in the end", said[-len(end) :], [f"record.py: {it}" for it in end])


def names(stage):
    """Macros, a link without a channel, one channel of several links, a name in the call, and how many values each has."""
    (stage.folder / "mac.tables").write_text(TABLES)
    seven = "[1, 2, 3, 4, 5, 6, 7]"
    channels = "LAB:A", "LAB:B", "X.Y"
    play(stage, *(f"up {it} short 9" for it in channels), *(f"val {it} {seven}" for it in channels), "down X.Y")
    found, said = recorded(stage, "down X.Y", "--tables", "mac.tables", "--macros", " P = LAB:, Q=", "X.Y", "X.Y")
    expected = ["up LAB:A", "up LAB:B", "up X.Y", "val LAB:A 1", "val LAB:B 1 2 3 4 5", "val X.Y 1 2 3 4 5 6 7", "down X.Y"]
    stage.same("the lines", found, expected)
    stage.same("what is said", said[-1:], ["record.py: 2 of 3 channels connected at the end, values that were written: 3"])


def wide(stage):
    """A line has at most 32,768 bytes: what has no room is cut off, number by number, and told."""
    play(stage, "up A long 20000", f"val A {[1234567] * 20000}", "down A")
    found, said = recorded(stage, "down A", "A")
    numbers = found[1].split()[2:]
    length = max(map(len, stage.scripts[-1].text("out").splitlines()))
    if set(numbers) != {"1234567"} or not 32700 < length <= 32768 or len(numbers) != (32768 - 17 - len("val A")) // 8:
        raise NotSo(f"{len(numbers)} numbers, {length} bytes")
    stage.same("what is said", said[-2:-1], ["record.py: A: of its values only those were taken that fit into a line"])


def wrong(stage):
    """Calls with the status and a part of what is said."""
    (stage.folder / "mac.tables").write_text(TABLES)
    (stage.folder / "none.tables").write_text("p.st:1: error\n")
    missing = {"PYTHONPATH": str(stage.folder / "without")}
    (stage.folder / "without").mkdir()
    (stage.folder / "without/epics.py").write_text("raise ImportError\n")
    live = "live", "--tables", "mac.tables", "--macros", "P="
    for words, status, said in (
        (("record",), 2, "no channel is named"),
        (("record", "A", "--scale", "B=3"), 2, "--scale B=3: there is no channel B"),
        (("record", "A", "--scale", "A=x"), 2, "--scale A=x: x is no whole number of at most two digits"),
        (("record", "A", "--scale", "3"), 2, "there is no channel"),
        (("record", "A", "--enum", "A=on"), 2, "--enum A=on: on is not TEXT:N"),
        (("record", "--tables", "mac.tables"), 2, "what stands for {P} in {P}A? Give it by --macros P=.."),
        (("record", "--tables", "mac.tables", "--macros", "P"), 2, "--macros: P is not M=TEXT"),
        (("record", "--tables", "none.tables"), 2, "--tables: none.tables has not what `snc --tables` writes"),
        (("record", "--tables", "no.tables"), 2, "No such file"),
        (("record", "A B"), 2, "a trace cannot name the channel 'A B'"),
        (("record", "A", "--seconds", "0"), 2, "argument --seconds"),
        (("record", "A", "--put"), 2, "unrecognized arguments: --put"),
        (("live", "--", "snlrun"), 2, "no word of the call is the source of a program: name it by --program"),
        ((*live,), 2, "the following arguments are required: WORD"),
        ((*live, "--", "./no-such-program"), 3, "live.py: ./no-such-program: No such file or directory"),
        ((*live, "--keep", "no/folder", "--", "true"), 3, "live.py: no/folder: No such file or directory"),
    ):
        called(stage, words, status, said)
    command = "pyepics is not installed: apt-get install -y --no-install-recommends python3-pyepics"
    called(stage, ("record", "A"), 3, f"record.py: {command}", missing)
    called(stage, (*live, "--", "true"), 3, f"live.py: {command}", missing)
    called(stage, ("record", "--help"), 0, "", missing)


def refused(stage):
    """It is named, and both end: record.py with 1, live.py with 1 when the run has ended well."""
    play(stage, "up LAB:VOLTAGE double", "up LAB:LAMP string")
    said = "LAB:LAMP has texts: give their numbers by --enum LAB:LAMP=TEXT:N,.. or leave it out"
    for script in (stage.start("record", "LAB:VOLTAGE", "LAB:LAMP"), stage.live(EXAMPLES / "light.st", "--put")):
        stage.wait(f"{script.name} ends", lambda of=script: of.process.poll() is not None)
        stage.same("the status", [script.process.returncode], [1])
        if f"{script.name}.py: {said}" not in script.text("said").splitlines():
            raise NotSo(stage.told())


def unread(stage):
    """Standard output is gone, or closed from the beginning."""
    light = EXAMPLES / "light.st"
    live = "live", "--tables", stage.tables(light), "--", stage.programs["snlrun"], light
    record = "record", "LAB:VOLTAGE", "LAB:LAMP"
    for words, said in ((record, "nobody reads the trace any more"), (live, "nobody reads the lines any more")):
        play(stage, *LIGHT)
        call = [sys.executable, SCRIPTS / f"{words[0]}.py", *words[1:]]
        reads, writes = os.pipe()
        os.close(reads)
        how = {"cwd": stage.folder, "env": stage.environment, "timeout": SECONDS, "stderr": subprocess.PIPE}
        ran = subprocess.run(call, stdout=writes, **how)
        os.close(writes)
        if ran.returncode != 3 or f"{words[0]}.py: {said}" not in ran.stderr.decode().splitlines():
            raise NotSo(f"{words}: {ran}")
        play(stage, *LIGHT)
        ran = subprocess.run(["bash", "-c", 'exec "$@" >&-', "bash", *call], **how)
        if ran.returncode != 3 or b"standard output" not in ran.stderr or b"Traceback" in ran.stderr:
            raise NotSo(f"{words}: {ran}")
