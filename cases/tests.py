"""`snl test`: suites in folders, what is told of each kind of test, statuses, reports of JUnit, and what --bless writes."""
import os
import subprocess
import tempfile
import xml.etree.ElementTree as ElementTree
from dataclasses import dataclass
from pathlib import Path
from typing import Callable

from case import SECONDS
from diskcases import ALONE
from files import program_of

# A light that goes on above 5.
LIGHT = """program light option +s;
int v; assign v to "{A}V"; monitor v;
int l; assign l to "{A}L";
ss room {
  state dark { when (v > 5) { l = 1; pvPut(l); } state lit }
  state lit { when (v < 3) { l = 0; pvPut(l); } state dark }
}
"""
UP = "0 up {0}V\n0 val {0}V 2\n0 up {0}L\n0 val {0}L 0\n"
TRACE = UP.format("") + "10 val V 7\n20 val V 1\n"
OUT = "0 start light\n10 put L 1\n10 go room dark lit\n20 put L 0\n20 go room lit dark\n"
SHORT = UP.format("") + "10 val V 7\n"
SHORT_OUT = "0 start light\n10 put L 1\n10 go room dark lit\n"
ALL = "light: 2 of 2 clauses taken, 2 of 2 states entered, 1 of 1 channels put\n"
HALF = "light: 1 of 2 clauses taken, 2 of 2 states entered, 1 of 1 channels put\n"
# It divides by what comes.
FAULTY = """program faulty option +s;
int x; assign x to "X"; monitor x;
ss s { state a { when (10 / x > 20) {} state a } }
"""
FAULTY_TRACE = "0 up X\n0 val X 1\n5 val X 0\n"
FAULTY_OUT = "0 start faulty\n5 fault s 3 division by zero\n"
# The light goes on only at LIMIT or more.
WATCH = """program bright option +s; option -c;
int v; assign v to "V"; monitor v;
int l; assign l to "put:L"; monitor l;
ss rule {
  state off { when (l == 1 && v < LIMIT) {} state broken when (l == 1) {} state on }
  state on { when (l == 0) {} state off }
  state broken { when (FALSE) {} state off }
}
"""
FOUND = """
  never: put L 1 (l, line 3)
  starts: 6; V 0 1 2 3 5 6
  channels: V 0 1 2 3 5 6; gaps: 0, wake
  found: 0 put L 1, at the start with V 6
  6 worlds, 0 whole levels (1 of 2 clauses)
"""
FOUND_STATE = """
  never: room.lit (line 6)
  starts: 6; V 0 1 2 3 5 6
  channels: V 0 1 2 3 5 6; gaps: 0, wake
  found: 0 go room dark lit, at the start with V 6
  6 worlds, 0 whole levels (1 of 2 clauses)
"""
TOO_EARLY = """
  starts: 6; V 0 1 2 3 5 6
  channels: V 0 1 2 3 5 6; gaps: 0, wake
  never taken: room lit 1 to dark (line 6)
  not all was seen: none up to 0 lines (6 worlds; 1 of 2 clauses)
"""
MISTAKE = """
  mistake of the requirement: its line 5 faults: division by zero (line 5 of the trace)
  requirement rule in off since 0 (1 of 1 state set)
"""
# Its counter goes on for ever, and nothing hangs on it.
TALLY = """program tally option +s;
int v; assign v to "V"; monitor v;
int count; assign count to "COUNT";
ss s { state a { when (v) { v = 0; count++; } state a } }
"""
LEFT_OUT = """
  starts: 2; V 0 1
  channels: V 0 1; gaps: 0, wake
  never, but an overflow of v (line 4), count (line 4) (2 worlds; 1 of 1 clause)
"""
WRONG = "program wrong option +s;\nss s { state a { when (y) {} state a } }\n"


@dataclass
class Suite:
    """A folder with files, a call in it, and what it answers: standard output, standard error, the status, files that are there then."""

    name: str
    files: dict
    words: tuple
    out: str
    err: str = ""
    status: int = 0
    left: "dict | None" = None
    tool: str = "snl"

    def failure(self, programs):
        with tempfile.TemporaryDirectory(prefix="snlrun-") as folder:
            fill(Path(folder), self.files)
            ran = called(programs["snl"], folder, *self.words)
            wrong = differs(ran, (self.status, self.out, self.err))
            for name, text in (self.left or {}).items():
                path = Path(folder, name)
                found = path.read_text() if path.exists() else None
                if found != text:
                    wrong = wrong or f"{name} has {found!r}, not {text!r}"
        return f"FAILED {self.name}\n  {wrong}" if wrong else None


@dataclass
class Check:
    """A folder of its own, and what has to hold there."""

    name: str
    # Gets the program and the folder, and gives what is wrong, or nothing.
    check: Callable
    needs: str = ""
    tool: str = "snl"

    def failure(self, programs):
        with tempfile.TemporaryDirectory(prefix="snlrun-") as folder:
            wrong = self.check(programs["snl"], Path(folder))
        return f"FAILED {self.name}\n  {wrong}" if wrong else None


class OnDisk(Check):
    """A check that needs a disk of its own, which nobody else sees."""

    def lacks(self):
        """What is missing here."""
        try:
            tried = subprocess.run([*ALONE, "sh", "-c", "mount -t tmpfs -o size=4k tmpfs /tmp"], stdin=subprocess.DEVNULL, capture_output=True)
            return "" if tried.returncode == 0 else "no tmpfs can be mounted here"
        except OSError:
            return "there is no unshare here, which mounts a tmpfs"


def fill(folder, files):
    for name, text in files.items():
        path = folder / name
        path.parent.mkdir(exist_ok=True)
        path.write_text(text)


def called(program, folder, *words):
    ran = subprocess.run([program, *words], cwd=folder, capture_output=True, text=True, timeout=SECONDS)
    return ran.returncode, ran.stdout, ran.stderr


def differs(found, wanted):
    return "" if found == wanted else f"{found!r}, not {wanted!r}"


def suite(*, source=LIGHT, **files):
    """The files of a program `light`, whose names have a `.` for the first `_`."""
    return {"light.st": source, **{it.replace("_", ".", 1): text for it, text in files.items()}}




def cases(root):
    yield from outcomes()
    yield from calls_of_tests()
    yield from finding()
    yield from nevers()
    yield from watches()
    yield from blessings()
    yield from wrong_words()
    yield Check("snl test: of ten tests one is told, with its reason", one_of_ten)
    yield Check("snl test --junit: python3 reads it", junit)
    yield Check("snl test --junit: texts that are none, and signs of XML", hostile)
    yield Check("snl test: files and folders that can't be read", unreadable)
    yield Check("snl test --bless: a folder without rights", no_rights)
    yield OnDisk("snl test --bless: a disk that is full", full_disk)
    yield Check("snl test: the output is full", full_output)
    yield Check("snl test: examples/ are all right", lambda *it: examples(root, *it))


def outcomes():
    good = suite(light_trace=TRACE, light_out=OUT)
    yield Suite("snl test: a program and its trace", good, ("test", "."), f"ok light\n{ALL}1 passed, 0 failed\n")
    days = {**suite(**{"light-monday.trace": SHORT, "light-monday.out": SHORT_OUT}), "light-sunday.trace": TRACE, "light-sunday.out": OUT}
    yield Suite("snl test: two days, and none beside", days, ("test", "."), f"ok light-monday\nok light-sunday\n{ALL}2 passed, 0 failed\n")
    other = suite(light_trace=TRACE, light_out=OUT.replace("10 put L 1", "10 put L 3"))
    lines = "  line 2 of light.out differs, at line 5 of the trace:\n  wanted: 10 put L 3\n  came: 10 put L 1\n"
    yield Suite("snl test: a line differs", other, ("test", "."), f"FAILED light\n{lines}{ALL}0 passed, 1 failed\n", status=1)
    more = suite(light_trace=SHORT, light_out=OUT)
    lines = "  line 4 of light.out differs, at the end of the trace:\n  wanted: 20 put L 0\n  came: nothing\n"
    yield Suite("snl test: the output ends too early", more, ("test", "."), f"FAILED light\n{lines}{HALF}0 passed, 1 failed\n", status=1)
    fewer = suite(light_trace=TRACE, light_out=SHORT_OUT)
    lines = "  line 4 of light.out differs, at line 6 of the trace:\n  wanted: nothing\n  came: 20 put L 0\n"
    yield Suite("snl test: the output goes on", fewer, ("test", "."), f"FAILED light\n{lines}{ALL}0 passed, 1 failed\n", status=1)
    bare = suite(light_trace=SHORT, light_out=SHORT_OUT[:-1])
    lines = "  line 3 of light.out differs, at line 5 of the trace:\n  wanted: 10 go room dark lit (and no newline)\n  came: 10 go room dark lit\n"
    yield Suite("snl test: no newline at the end", bare, ("test", "."), f"FAILED light\n{lines}{HALF}0 passed, 1 failed\n", status=1)
    dos = suite(light_trace=SHORT, light_out=SHORT_OUT.replace("\n", "\r\n"))
    lines = "  line 1 of light.out differs, at line 3 of the trace:\n  wanted: 0 start light\\x0d\n  came: 0 start light\n"
    yield Suite("snl test: lines that end as on Windows", dos, ("test", "."), f"FAILED light\n{lines}{HALF}0 passed, 1 failed\n", status=1)
    long = suite(source=LIGHT.replace("program light", "program light" + "x" * 400), light_trace="", light_out="0 start light" + "x" * 399 + "\n")
    line = "0 start light" + "x" * 243
    lines = f"  line 1 of light.out differs, at the end of the trace:\n  wanted: {line}..\n  came: nothing\n"
    sums = "light: 0 of 2 clauses taken, 0 of 2 states entered, 0 of 1 channels put\n"
    yield Suite("snl test: a long line", long, ("test", "."), f"FAILED light\n{lines}{sums}0 passed, 1 failed\n", status=1)
    yield Suite("snl test: no trace is an empty one", suite(light_out=""), ("test", "."), f"ok light\n{sums}1 passed, 0 failed\n")


def calls_of_tests():
    macros = {**suite(light_args="A=LAB:\n", light_trace=UP.format("LAB:"), light_out="0 start light\n")}
    sums = "light: 0 of 2 clauses taken, 1 of 2 states entered, 0 of 1 channels put\n"
    yield Suite("snl test: words of the call", macros, ("test", "."), f"ok light\n{sums}1 passed, 0 failed\n")
    for words, said in (
        ("+x\n", "option '+x' is not supported"),
        ("--budget\n", "error: a value is required for '--budget <N>' but none was supplied"),
        ("light.st\n", "'light.st' stands in the place of MACROS, which are NAME=VALUE,.."),
    ):
        files = suite(light_args=words, light_trace=TRACE, light_out=OUT)
        yield Suite(f"snl test: wrong words of the call: {words.strip()}", files, ("test", "."), f"FAILED light: light.args: {said}\n0 passed, 1 failed\n", status=1)
    faulty = {"faulty.st": FAULTY, "faulty.trace": FAULTY_TRACE, "faulty.out": FAULTY_OUT}
    sums = "faulty: 0 of 1 clauses taken, 1 of 1 states entered, 0 of 0 channels put\n"
    said = "  status 5, and 0 is wanted: the program faulted\n"
    yield Suite("snl test: a fault that is not wanted", faulty, ("test", "."), f"FAILED faulty\n{said}{sums}0 passed, 1 failed\n", status=1)
    yield Suite("snl test: a fault that is wanted", {**faulty, "faulty.status": "5\n"}, ("test", "."), f"ok faulty\n{sums}1 passed, 0 failed\n")
    said = ": faulty.status has no number from 0 to 255\n"
    yield Suite("snl test: a status that is no number", {**faulty, "faulty.status": "five\n"}, ("test", "."), f"FAILED faulty{said}{sums.replace('1 of 1', '0 of 1')}0 passed, 1 failed\n", status=1)
    bad = suite(light_trace=SHORT + "nine\n", light_out=SHORT_OUT)
    said = "  status 6, and 0 is wanted: light.trace:6: bad time\n"
    yield Suite("snl test: a bad line", bad, ("test", "."), f"FAILED light\n{said}{HALF}0 passed, 1 failed\n", status=1)
    yield Suite("snl test: a bad line that is wanted", {**bad, "light.status": "6"}, ("test", "."), f"ok light\n{HALF}1 passed, 0 failed\n")
    said = "  status 0, and 5 is wanted\n"
    good = suite(light_trace=TRACE, light_out=OUT, light_status="5\n")
    yield Suite("snl test: a fault that does not come", good, ("test", "."), f"FAILED light\n{said}{ALL}0 passed, 1 failed\n", status=1)
    wrong = {"wrong.st": WRONG, "wrong.trace": "", "wrong.out": ""}
    said = "  status 1, and 0 is wanted: the program has errors\n  wrong.st:2: error: E13 'y' is not declared\n"
    yield Suite("snl test: a program with errors", wrong, ("test", "."), f"FAILED wrong\n{said}0 passed, 1 failed\n", status=1)
    yield Suite("snl test: a program with errors, as it is wanted", {**wrong, "wrong.status": "1\n"}, ("test", "."), "ok wrong\n1 passed, 0 failed\n")


def finding():
    good = suite(light_trace=TRACE, light_out=OUT)
    inner = {f"lab/{name}": text for name, text in good.items()}
    path = ALL.replace("light", "lab/light")
    yield Suite("snl test: a folder by its name", inner, ("test", "lab"), f"ok lab/light\n{path}1 passed, 0 failed\n")
    yield Suite("snl test: a folder by its name and a slash", inner, ("test", "lab/"), f"ok lab/light\n{path}1 passed, 0 failed\n")
    yield Suite("snl test: a program by its path", inner, ("test", "lab/light.st"), f"ok lab/light\n{path}1 passed, 0 failed\n")
    yield Suite("snl test: two paths", {**good, **inner}, ("test", ".", "lab"), f"ok light\n{ALL}ok lab/light\n{path}2 passed, 0 failed\n")
    two = {**good, "light-hall.st": LIGHT, "light-hall.out": "", "light-hall-monday.trace": SHORT, "light-hall-monday.out": SHORT_OUT}
    hall = "ok light-hall\nok light-hall-monday\n" + HALF.replace("light", "light-hall", 1)
    yield Suite("snl test: a trace is that of the longest name", two, ("test", "."), f"ok light\n{ALL}{hall}3 passed, 0 failed\n")
    yield Suite("snl test: of two programs one", two, ("test", "light.st"), f"ok light\n{ALL}1 passed, 0 failed\n")
    yield Suite("snl test: a program without an output", {"light.st": LIGHT}, ("test", "."), "FAILED light: light.out is missing (--bless writes it)\n0 passed, 1 failed\n", status=1)
    day = {**good, "light-monday.trace": TRACE}
    said = "FAILED light-monday: light-monday.out is missing (--bless writes it)\n"
    yield Suite("snl test: a day without an output", day, ("test", "."), f"ok light\n{said}{ALL}1 passed, 1 failed\n", status=1)
    day = {**good, "light-monday.out": OUT}
    said = "FAILED light-monday: light-monday.trace is missing\n"
    yield Suite("snl test: a day without a trace", day, ("test", "."), f"ok light\n{said}{ALL}1 passed, 1 failed\n", status=1)
    lost = {**good, "lamp-monday.trace": TRACE}
    said = "FAILED lamp-monday: there is no program for lamp-monday.trace\n"
    yield Suite("snl test: a trace without a program", lost, ("test", "."), f"ok light\n{ALL}{said}1 passed, 1 failed\n", status=1)
    beside = {**good, "other.out": "", "notes.txt": "", "light.never.txt": ""}
    yield Suite("snl test: files that are no tests", beside, ("test", "."), f"ok light\n{ALL}1 passed, 0 failed\n")
    alone = {"light.watch.st": LIGHT, "light.watch.trace": TRACE, "light.watch.out": OUT}
    yield Suite("snl test: a program called watch", alone, ("test", "."), f"ok light.watch\n{ALL.replace('light', 'light.watch')}1 passed, 0 failed\n")


def nevers():
    """What no search may find."""
    good = suite(light_trace=TRACE, light_out=OUT)
    front = f"ok light\n{ALL}"

    def of(text, said, failed=True, files=good):
        first = f"FAILED light.never{said}" if failed else "ok light.never\n"
        sums = "1 passed, 1 failed\n" if failed else "2 passed, 0 failed\n"
        return {**files, "light.never": text}, ("test", "."), front + first + sums, "", int(failed)

    yield Suite("snl test: nothing is ever found", *of("ever\n", "", False))
    yield Suite("snl test: nothing is found in so many lines", *of("lines 2\nput L 2\n--first V=7\n", "", False))
    yield Suite("snl test: comments of a NAME.never", *of("# of the hall\n\nlines 2\r\n# no 2\nput L 2\n\n", "", False))
    yield Suite("snl test: a line is found", *of("lines 2\nput L 1\n", FOUND))
    yield Suite("snl test: a state is found", *of("ever\nroom.lit\n", FOUND_STATE))
    yield Suite("snl test: a search that ends too early", *of("ever\n--worlds 2\n", TOO_EARLY))
    yield Suite("snl test: values of a recorded trace", *of("ever\n--like light.trace\nput L 2\n", "", False))
    for text, said in (
        ("put L 1\n", "the first line is 'lines K', or 'ever'"),
        ("lines 0\n", "the first line is 'lines K', or 'ever'"),
        ("", "the first line is 'lines K', or 'ever'"),
        ("ever\nput M 1\n", "'put M 1': the program has no channel 'M'"),
        ("ever\n--out found\n", "--out is not taken here: a test writes no file"),
        ("ever\n--cover found\n", "--cover is not taken here: a test writes no file"),
        ("ever\n--watch light.st\n", "--watch is not taken here: a requirement is NAME.watch.st"),
        ("ever\n--after light.trace\n", "--after is not taken here: a test starts with first values"),
        ("ever\n--units light.units\n", "--units is not taken here: values are whole numbers"),
        ("ever\n--frist V=0\n", "unexpected argument '--frist' found"),
    ):
        yield Suite(f"snl test: a wrong NAME.never: {' '.join(text.split())}", *of(text, f": light.never: {said}\n"))
    lost = {**good, "lamp.never": "ever\n", "light.watch.never": "rule.broken\n"}
    said = "FAILED lamp: there is no program for lamp.never\nFAILED light.watch: there is no program for light.watch.never\n"
    yield Suite("snl test: what may not be found without a program", lost, ("test", "."), f"{front}{said}1 passed, 2 failed\n", status=1)
    wrong = {"wrong.st": WRONG, "wrong.out": "", "wrong.status": "1\n", "wrong.never": "ever\n"}
    said = "FAILED wrong.never: the program has errors\n  wrong.st:2: error: E13 'y' is not declared\n"
    tally = {"tally.st": TALLY, "tally.out": "", "tally.never": "ever\n--worlds 40\n"}
    tallied = "ok tally\ntally: 0 of 1 clauses taken, 0 of 1 states entered, 0 of 0 channels put\n"
    yield Suite("snl test: a search that leaves an overflow out", tally, ("test", "."), f"{tallied}FAILED tally.never{LEFT_OUT}1 passed, 1 failed\n", status=1)
    yield Suite("snl test: what may not be found in a program with errors", wrong, ("test", "."), f"ok wrong\n{said}1 passed, 1 failed\n", status=1)


def watches():
    """A requirement over each day."""
    good = suite(light_trace=TRACE, light_out=OUT)
    front = f"ok light\n{ALL}"

    def of(limit, never, said, source=WATCH):
        files = {**good, "light.watch.st": source.replace("LIMIT", limit)}
        files |= {"light.watch.never": never} if never else {}
        first = f"FAILED light.watch{said}" if said else "ok light.watch\n"
        sums = "1 passed, 1 failed\n" if said else "2 passed, 0 failed\n"
        return files, ("test", "."), front + first + sums, "", int(bool(said))

    lines = (
        "\n  never: rule is in broken at 10, line 5 of the trace: 10 val V 7\n  the last lines of the program:\n    0 start light\n    10 put L 1\n"
        "  requirement rule in broken since 10 (1 of 1 state set)\n"
    )
    yield Suite("snl test: a requirement is kept", *of("6", "rule.broken\n", ""))
    yield Suite("snl test: a requirement is broken", *of("8", "# on no day\n\nrule.broken\n", lines))
    yield Suite("snl test: a requirement of which no state is named", *of("8", "", ""))
    yield Suite("snl test: a requirement makes a mistake", *of("10 / (l - 1)", "", MISTAKE))
    yield Suite("snl test: a state that a requirement does not have", *of("6", "rule.lit\n", ": light.watch.never: 'rule.lit' is no state of the requirement: it is SS.STATE\n"))
    yield Suite("snl test: a word that names no state", *of("6", "broken\n", ": light.watch.never: 'broken' is no state of the requirement: it is SS.STATE\n"))
    waits = WATCH.replace(" option -c;", "")
    yield Suite("snl test: a requirement that waits", *of("6", "", ": the requirement waits for its channels: it does not, and says so by 'option -c;'\n", waits))
    yield Suite("snl test: a requirement with errors", *of("y", "", ": the requirement has errors\n  light.watch.st:5: error: E13 'y' is not declared\n"))
    days = {**good, "light-monday.trace": SHORT, "light-monday.out": SHORT_OUT, "light-sunday.out": SHORT_OUT}
    days |= {"light.watch.st": WATCH.replace("LIMIT", "8"), "light.watch.never": "rule.broken\n"}
    said = f"ok light\nok light-monday\nFAILED light-sunday: light-sunday.trace is missing\n{ALL}FAILED light.watch{lines}FAILED light-monday.watch{lines}"
    yield Suite("snl test: a requirement over two days", days, ("test", "."), f"{said}2 passed, 3 failed\n", status=1)
    named = LIGHT.replace("{A}L", "put:L")
    files = {"light.st": named, "light.out": "", "light.watch.st": WATCH.replace("LIMIT", "6")}
    sums = "light: 0 of 2 clauses taken, 0 of 2 states entered, 0 of 1 channels put\n"
    said = "FAILED light.watch: a channel of the program is called 'put:L': names with put: or state: in front are those that a requirement hears\n"
    yield Suite("snl test: a channel with a name of those that a requirement hears", files, ("test", "."), f"ok light\n{sums}{said}1 passed, 1 failed\n", status=1)
    wrong = {"wrong.st": WRONG, "wrong.out": "", "wrong.status": "1\n", "wrong.watch.st": WATCH.replace("LIMIT", "6")}
    said = "FAILED wrong.watch: the program has errors\n  wrong.st:2: error: E13 'y' is not declared\n"
    yield Suite("snl test: a requirement of a program with errors", wrong, ("test", "."), f"ok wrong\n{said}1 passed, 1 failed\n", status=1)


def blessings():
    new = suite(light_trace=TRACE)
    yield Suite("snl test --bless: a new output", new, ("test", "--bless", "."), "wrote light.out, which was missing\n0 passed, 1 written, 0 failed\n", left={"light.out": OUT, "light.out.new": None})
    other = suite(light_trace=TRACE, light_out=OUT.replace("10 put L 1", "10 put L 3"))
    lines = "  line 2 of light.out differs, at line 5 of the trace:\n  wanted: 10 put L 3\n  came: 10 put L 1\n"
    yield Suite("snl test --bless: what changed", other, ("test", "--bless", "."), f"wrote light.out\n{lines}{ALL}0 passed, 1 written, 0 failed\n", left={"light.out": OUT, "light.out.new": None})
    good = suite(light_trace=TRACE, light_out=OUT)
    yield Suite("snl test --bless: nothing to write", good, ("test", "--bless", "."), f"ok light\n{ALL}1 passed, 0 failed\n", left={"light.out": OUT})
    faulty = {"faulty.st": FAULTY, "faulty.trace": FAULTY_TRACE, "faulty.out": "0 start faulty\n"}
    sums = "faulty: 0 of 1 clauses taken, 1 of 1 states entered, 0 of 0 channels put\n"
    said = "FAILED faulty: the run faults (--bless --force writes that)\n"
    yield Suite("snl test --bless: a fault", faulty, ("test", "--bless", "."), f"{said}{sums}0 passed, 1 failed\n", status=1, left={"faulty.out": "0 start faulty\n", "faulty.out.new": None, "faulty.status": None})
    lines = "  line 2 of faulty.out differs, at line 3 of the trace:\n  wanted: nothing\n  came: 5 fault s 3 division by zero\n  status 5, and 0 is wanted: the program faulted\n"
    yield Suite("snl test --bless --force: a fault", faulty, ("test", "--bless", "--force", "."), f"wrote faulty.out\n{lines}{sums}0 passed, 1 written, 0 failed\n", left={"faulty.out": FAULTY_OUT, "faulty.status": "5\n"})
    bad = suite(light_trace=SHORT + "nine\n")
    said = "FAILED light: light.trace:6: bad time (--bless --force writes that)\n"
    yield Suite("snl test --bless: a bad line", bad, ("test", "--bless", "."), f"{said}0 passed, 1 failed\n", status=1, left={"light.out": None, "light.out.new": None})
    wrong = {"wrong.st": WRONG, "wrong.trace": ""}
    said = "FAILED wrong: the program has errors (--bless --force writes that)\n"
    yield Suite("snl test --bless: a program with errors", wrong, ("test", "--bless", "."), f"{said}0 passed, 1 failed\n", status=1, left={"wrong.out": None})
    yield Suite("snl test --bless --force: a program with errors", wrong, ("test", "--bless", "--force", "."), "wrote wrong.out, which was missing\n0 passed, 1 written, 0 failed\n", left={"wrong.out": "", "wrong.status": "1\n"})
    way = {**new, "light.out.new": "mine\n"}
    said = "FAILED light: cannot write light.out: light.out.new is in the way\n"
    yield Suite("snl test --bless: a file in the way", way, ("test", "--bless", "."), f"{said}0 passed, 1 failed\n", status=3, left={"light.out.new": "mine\n", "light.out": None})


def wrong_words():
    yield Suite("snl test: no test in a folder", {"notes.txt": ""}, ("test", "."), "", "error: no test in .\n", 2)
    yield Suite("snl test: no test in a file", {"notes.txt": ""}, ("test", "notes.txt"), "", "error: no test in notes.txt\n", 2)
    good = suite(light_trace=TRACE, light_out=OUT)
    yield Suite("snl test: one path without a test", {**good, "lab/notes.txt": ""}, ("test", ".", "lab"), "", "error: no test in lab\n", 2)
    said = "snl: cannot read lamp.st: No such file or directory (os error 2)\n"
    yield Suite("snl test: a path that is not there", good, ("test", "lamp.st"), "", said, 3)
    yield Suite("snl test: --force alone", good, ("test", "--force", "."), "", "error: '--force' goes with '--bless'\n", 2)
    said = "error: '--junit light.st' is no XML, and is not written over\n"
    yield Suite("snl test --junit: no file of another kind", good, ("test", "--junit", "light.st", "."), "", said, 2, {"light.st": LIGHT})


def one_of_ten(program, folder):
    """Ten days of one program are right; after a change of its limit one of them is not."""
    files = {"light.st": LIGHT}
    for day in range(10):
        # On one day alone the voltage is between both limits.
        high = 6 if day == 4 else 9
        files[f"light-{day}.trace"] = UP.format("") + f"10 val V {high}\n"
        files[f"light-{day}.out"] = SHORT_OUT
    fill(folder, files)
    names = [f"ok light-{day}\n" for day in range(10)]
    wrong = differs(called(program, folder, "test", "."), (0, "".join(names) + HALF + "10 passed, 0 failed\n", ""))
    if wrong:
        return wrong
    (folder / "light.st").write_text(LIGHT.replace("v > 5", "v > 6"))
    names[4] = "FAILED light-4\n  line 2 of light-4.out differs, at the end of the trace:\n  wanted: 10 put L 1\n  came: nothing\n"
    return differs(called(program, folder, "test", "."), (1, "".join(names) + HALF + "9 passed, 1 failed\n", ""))


def junit(program, folder):
    fill(folder, {**suite(light_trace=TRACE, light_out=OUT), "light-monday.trace": SHORT, "light-monday.out": OUT, "lamp.st": LIGHT})
    status, out, err = called(program, folder, "test", "--junit", "report.xml", ".")
    if (status, err) != (1, ""):
        return f"status {status}, {err!r}"
    top = ElementTree.parse(folder / "report.xml").getroot()
    cases = [(it.get("classname"), it.get("name"), it.find("failure") is None) for it in top.iter("testcase")]
    wrong = differs(cases, [("", "lamp", False), ("", "light", True), ("", "light-monday", False)])
    wrong = wrong or differs([(it.tag, it.get("tests"), it.get("failures"), it.get("errors")) for it in (top, top[0])], [("testsuites", "3", "2", "0"), ("testsuite", "3", "2", "0")])
    failures = [it.get("message") for it in top.iter("failure")]
    wrong = wrong or differs(failures, ["lamp.out is missing (--bless writes it)", "line 4 of light-monday.out differs, at the end of the trace:"])
    last = [*top.iter("failure")][-1].text
    wrong = wrong or ("" if "wanted: 20 put L 0" in last and "came: nothing" in last else f"the failure has {last!r}")
    times = [float(it.get("time")) for it in top.iter() if it.get("time")]
    return wrong or ("" if len(times) == 5 and all(0 <= it < SECONDS for it in times) else f"it has the times {times}")


def hostile(program, folder):
    """Bytes that no XML has, what it uses itself, and bytes that are no text."""
    for text, shown in ((b"0 <go> & \"go\" \x01\n", "0 <go> & \"go\" \\x01"), (b"0 \xff\n", "0 \\xff"), ("0 gr\u00fcn\n".encode(), "0 gr\u00fcn")):
        fill(folder, suite(light_trace=TRACE))
        (folder / "light.out").write_bytes(text)
        status, _, err = called(program, folder, "test", "--junit", "report.xml", ".")
        if (status, err) != (1, ""):
            return f"status {status}, {err!r}"
        found = ElementTree.parse(folder / "report.xml").getroot().find(".//failure").text
        if f"wanted: {shown}\n" not in found:
            return f"{found!r} has no {shown!r}"
    status, _, err = called(program, folder, "test", "--junit", "lab/report.xml", ".")
    return differs((status, err), (3, "snl: cannot write lab/report.xml: No such file or directory (os error 2)\n"))


def unreadable(program, folder):
    """Folders in the place of files: also who may read all files can't read these."""
    fill(folder, suite(light_trace=TRACE, light_out=OUT))
    for name, said in (("light.out", "cannot read light.out"), ("light.trace", "cannot read light.trace")):
        kept = (folder / name).read_text()
        (folder / name).unlink()
        (folder / name).mkdir()
        status, out, err = called(program, folder, "test", ".")
        wrong = differs((status, out.splitlines()[0], err), (3, f"FAILED light: {said}", ""))
        if wrong:
            return wrong
        (folder / name).rmdir()
        (folder / name).write_text(kept)
    (folder / "light.st").unlink()
    (folder / "light.st").mkdir()
    wrong = differs(called(program, folder, "test", "."), (3, "FAILED light: cannot read light.st\n0 passed, 1 failed\n", "snl: cannot read light.st\n"))
    (folder / "light.st").rmdir()
    return wrong


def no_rights(program, folder):
    fill(folder, suite(light_trace=TRACE, light_out=SHORT_OUT))
    os.chmod(folder, 0o555)
    try:
        status, out, err = called(program, folder, "test", "--bless", ".")
    finally:
        os.chmod(folder, 0o755)
    found = status, out.splitlines()[0], err, (folder / "light.out").read_text()
    if os.geteuid() == 0:  # who may do all
        return differs(found, (0, "wrote light.out", "", OUT))
    return differs(found, (3, "FAILED light: cannot write light.out: Permission denied (os error 13)", "", SHORT_OUT))


def full_disk(program, folder):
    """What is wanted is as it was, and nothing else is left."""
    trace = UP.format("") + "".join(f"{10 * it} val V {7 if it % 2 else 1}\n" for it in range(1, 2_001))
    fill(folder, suite(light_trace=trace, light_out=OUT))
    call = 'mkdir disk && mount -t tmpfs -o size=48k tmpfs disk && cp light.* disk && "$0" test --bless disk; status=$?; ls disk >left; cp disk/light.out kept; exit $status'
    status, out, err = called(ALONE[0], folder, *ALONE[1:], "sh", "-c", call, program)
    said = "FAILED disk/light: cannot write light.out: No space left on device (os error 28)"
    left = (folder / "left").read_text().split(), (folder / "kept").read_text()
    return differs((status, out.splitlines()[0], err, *left), (3, said, "", ["light.out", "light.st", "light.trace"], OUT))


def full_output(program, folder):
    fill(folder, suite(light_trace=TRACE, light_out=OUT))
    with open("/dev/full", "wb") as full:
        ran = subprocess.run([program, "test", "."], cwd=folder, stdout=full, stderr=subprocess.PIPE, timeout=SECONDS)
    return differs((ran.returncode, ran.stderr), (3, b""))


def examples(root, program, folder):
    """All runs of examples/, which stand there in the place of a case for each trace."""
    os.symlink(root / "examples", folder / "examples")
    traces = sorted(root.glob("examples/**/*.trace"))
    paths = sorted({str(program_of(it).relative_to(root)) for it in traces})
    status, out, err = called(program, folder, "test", *paths)
    passed = sorted(it for it in out.splitlines() if it.startswith("ok "))
    wanted = sorted(f"ok {it.relative_to(root).with_suffix('')}" for it in traces)
    return differs((status, passed, out.splitlines()[-1:], err), (0, wanted, [f"{len(traces)} passed, 0 failed"], ""))
