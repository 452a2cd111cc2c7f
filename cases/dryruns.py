"""Cases of scripts/dry-run: a program and its logs become a page, by the real `snl trace`; what is told, kept, and refused."""
import re
import subprocess
import tempfile
from dataclasses import dataclass
from pathlib import Path
from typing import Callable

from case import SECONDS
from plotpages import read_page

HERE = Path(__file__).resolve().parent
LOG = """{p}TEMP       2026-03-02 09:15:00.100000 78.2137
{p}TEMP.SEVR  2026-03-02 09:15:00.100000 0
{p}WANT       2026-03-02 09:15:00.100000 80
{p}POWER      2026-03-02 09:15:00.100000 0
{p}TEMP       2026-03-02 09:15:05.100000 79.99
"""


@dataclass
class DryRun:
    """A call, or several."""

    name: str
    # Gets the programs and a folder, and gives what is wrong, or nothing.
    check: Callable
    tool: str = "dry-run"

    def failure(self, programs):
        with tempfile.TemporaryDirectory(prefix="dry-") as folder:
            wrong = self.check(programs, Path(folder))
        return f"FAILED {self.name}\n  {wrong}" if wrong else None


def cases(root):
    """All of them."""
    for name, check in (
        ("a program that is ported, with one place by hand; what is kept gives the same run again", lambda *it: ported(root, *it)),
        ("a program that is taken as it is", lambda *it: plain(root, *it)),
        ("macros of the call, in the units too", lambda *it: with_macros(root, *it)),
        ("a value that no log has", lacking),
        ("values of which nothing is left, texts without numbers, a trace in the place of a log", lambda *it: advising(root, *it)),
        ("a program that faults, and one that has an error of its own", failing),
        ("words that are wrong, files that are there and are not", wrong),
        ("an output that is closed or full", unwritten),
    ):
        yield DryRun(f"dry-run: {name}", check)


def call(programs, folder, *words, **how):
    """The status, the page and the lines of a call."""
    front = [programs["dry-run"], "--snc", programs["snc"], "--snl", programs["snl"]]
    ran = subprocess.run([*front, *words], cwd=folder, capture_output=True, timeout=SECONDS, stdin=subprocess.DEVNULL, **how)
    return ran.returncode, ran.stdout, ran.stderr.decode("latin-1").splitlines()


def differs(found, status, *patterns):
    """What is wrong with a call that has to end so, and to say lines of these forms."""
    is_right = found[0] == status and len(found[2]) == len(patterns) and all(map(re.fullmatch, patterns, found[2]))
    return "" if is_right else f"status {found[0]}: {found[2]}"


LOGS = r"dry-run: logs: .*\d.*"
ROUNDED = r"dry-run: logs: lines: 6; values: 5, 5 written; rounded: 1 of LAB:VOLTAGE; --scale NAME=K keeps K digits"
OVEN = (
    r"dry-run: program: \S*oven\.st was ported, since snc refuses it \(line 3: E03 bad byte\): 9 notes, 2 of them to decide",
    r"""dry-run: by hand: 1 place that does nothing in this run: line 24: function 'system': system\("beep"\);""",
    LOGS,
    r"dry-run: lacks: nothing",
    r"dry-run: run: to the end of the logs; heat in watch since 5000, count in few since 0; 2 transitions, 3 puts, 0 refused, 1 print",
)


def ported(root, programs, folder):
    (folder / "oven.log").write_text(LOG.format(p="LAB:"))
    found = call(programs, folder, "--keep", "day", root / "examples/porting/oven.st", "oven.log")
    wrong = differs(found, 1, *OVEN)
    page = read_page(found[1])
    texts = "".join(page.texts)
    shown = "A sketch: oven.st was ported for this run, and what is left by hand, in line 24, does nothing in it.", "since temp=78.2137, want=80"
    missing = [it for it in (*shown, "LAB:POWER := 0.447", "LAB:MESSAGE := warm (2)") if it not in texts]
    kept = sorted(it.name for it in (folder / "day").iterdir())
    if wrong or missing or page.wrong or kept != [f"oven.{it}" for it in ("html", "notes", "run", "said", "st", "trace", "units")]:
        return f"{wrong} {missing} {page.wrong[:3]} {kept}"
    if (folder / "day/oven.html").read_bytes() != found[1]:
        return "the page that is kept is another one"
    with open(folder / "day/oven.trace", "rb") as trace:
        again = subprocess.run([programs["snl"], "run", "--whole", "day/oven.st"], cwd=folder, stdin=trace, capture_output=True, timeout=SECONDS)
    if again.stdout != (folder / "day/oven.run").read_bytes() or b"0 put LAB:POWER 447\n" not in again.stdout:
        return f"another run: {again.stdout}"
    # A second call writes over nothing, but by a word.
    words = root / "examples/porting/oven.st", "oven.log"
    said = r"dry-run: day/oven\.st is there already: --force writes over it"
    wrong = differs(call(programs, folder, "--keep", "day", *words), 3, said)
    return wrong or differs(call(programs, folder, "--keep", "day", "--force", *words), 1, *OVEN)


def plain(root, programs, folder):
    found = call(programs, folder, "--keep", "day", "--scale", "LAB:VOLTAGE=0", root / "examples/light.st", root / "examples/light.log")
    kept = sorted(it.name for it in (folder / "day").iterdir())
    wrong = differs(
        found, 0, r"dry-run: program: \S*light\.st as it is", "dry-run: by hand: nothing", ROUNDED, "dry-run: lacks: nothing",
        r"dry-run: run: to the end of the logs; room in dark since \d+; 2 transitions, 1 put, 1 refused, 0 prints",
    )  # fmt: skip
    wrong = wrong or ("" if kept == [f"light.{it}" for it in ("html", "run", "said", "trace")] else f"{kept}")
    return wrong or "; ".join(read_page(found[1]).wrong[:3])


def with_macros(root, programs, folder):
    (folder / "oven.log").write_text(LOG.format(p="HALL:"))
    found = call(programs, folder, "--macros", "P=HALL:", "--keep", "day", root / "examples/porting/oven.st", "oven.log")
    units = (folder / "day/oven.units").read_text() if (folder / "day/oven.units").exists() else ""
    is_named = "scale HALL:TEMP 10000\n" in units and "LAB:" not in units
    return differs(found, 1, *OVEN) or ("" if is_named and b"temp=78.2137" in found[1] else f"{units}")


SOURCE = """program p
option +s;
int x; assign x to "X"; monitor x;
int y; assign y to "Y"; monitor y;
int z; assign z to "Z";
ss s { state a { when (x > 0) { z = 6 / y; pvPut(z); } state b } state b { when (x < 0) {} exit } }
"""
DAY = "X 2026-03-02 09:15:00.100000 0\nX 2026-03-02 09:15:01.100000 5\n"


def advising(root, programs, folder):
    (folder / "p.st").write_text(SOURCE)
    (folder / "log").write_text("X 2026-03-02 09:15:00.100000 0.3\nX 2026-03-02 09:15:01.100000 0.4\nY 2026-03-02 09:15:00.100000 Off\n")
    (folder / "day.trace").write_text("# written by hand\n0 up X\n")
    logs = r"dry-run: logs: lines: 3; values: 3, 2 written, 1 without a number; rounded: 2 of X"
    keeps = "--scale NAME=K keeps K digits"
    lacks = rf"dry-run: lacks: Y to have a value, digits: each value of X became 0; {keeps}; texts get numbers by --enum 'Y=Off:N'"
    first = r"dry-run: program: p\.st as it is", "dry-run: by hand: nothing"
    wrong = differs(call(programs, folder, "p.st", "log"), 1, *first, logs, lacks, "dry-run: run: the program never began")
    (folder / "p.st").write_text(SOURCE.replace("x > 0", "xx > 0"))
    mistake = r"dry-run: by hand: 1 place that does nothing in this run: line 6: 'xx' is not declared: .*; is that a mistake\? snl check says more"
    found = call(programs, folder, "p.st", "log")
    wrong = wrong or ("" if re.fullmatch(mistake, found[2][1]) else f"{found[2]}")
    found = call(programs, folder, "--macros", "Q=1", root / "examples/light.st", root / "examples/light.log")
    wrong = wrong or ("" if found[2][2].endswith("; the source uses no macro 'Q'") else f"{found[2]}")
    said = r"dry-run: day\.trace is a trace, and no log: snl run p\.st < day\.trace"
    return wrong or differs(call(programs, folder, "p.st", "day.trace"), 2, said)


def lacking(programs, folder):
    (folder / "p.st").write_text(SOURCE)
    (folder / "log").write_text(DAY)
    first = r"dry-run: program: p\.st as it is", "dry-run: by hand: nothing", LOGS
    said = r"dry-run: lacks: .*Y to have a value; a first value is given by --value Y=N"
    found = call(programs, folder, "p.st", "log")
    wrong = differs(found, 1, *first, said, r"dry-run: run: the program never began")
    if wrong or b"The program never began" not in found[1]:
        return wrong or "the page"
    found = call(programs, folder, "--value", "Y=2", "p.st", "log")
    run = "dry-run: run: to the end of the logs; s in b since 1000; 1 transition, 1 put, 0 refused, 0 prints"
    return differs(found, 0, *first, "dry-run: lacks: nothing", run)


def failing(programs, folder):
    (folder / "p.st").write_text(SOURCE)
    (folder / "log").write_text(DAY)
    (folder / "bad.st").write_text("program p\nss s { state a { when (x) {} state b } }\n")
    found = call(programs, folder, "--value", "Y=0", "p.st", "log")
    said = r"dry-run: run: a fault at 1000 in s, line 6: division by zero; s in a since 0; 0 transitions, .*"
    wrong = differs(found, 5, r"dry-run: program: p\.st as it is", "dry-run: by hand: nothing", LOGS, "dry-run: lacks: nothing", said)
    if wrong or b"by a fault in s, line 6: division by zero" not in found[1]:
        return wrong or "the page"
    status, page, lines = call(programs, folder, "bad.st", "log")
    is_told = any(it.startswith("bad.st:2: error: E") for it in lines) and "dry-run: snc refuses bad.st, and its port too:" in lines
    return "" if (status, page) == (1, b"") and is_told else f"{status} {lines}"


def wrong(programs, folder):
    (folder / "p.st").write_text(SOURCE)
    (folder / "log").write_text(DAY)
    (folder / "u").write_text("scale X\n")
    for words, status, said in (
        (("p.st",), 2, "LOG"), (("--force", "p.st", "log"), 2, "--force says nothing without --keep"), (("-", "log"), 2, "have to be files"),
        (("--colour", "p.st", "log"), 2, "--colour"), (("gone.st", "log"), 3, "gone.st"), (("p.st", "gone"), 3, "gone"),
        (("--snl", "none", "p.st", "log"), 3, "dry-run: cannot run "), (("--keep", ".", "p.st", "log"), 3, "dry-run: p.st is there already"),
        (("--keep", ".", "--force", "p.st", "log"), 3, "dry-run: p.st stands in .: keep what is made in another folder"),
        (("--units", "u", "p.st", "log"), 2, "units:1: wrong number of fields"),
    ):  # fmt: skip
        found = call(programs, folder, *words)
        if found[0] != status or found[1] or said not in "\n".join(found[2]) or "Traceback" in "\n".join(found[2]):
            return f"{words}: {found}"
    if (folder / "p.st").read_text() != SOURCE:
        return "the program is changed"
    status, stdout, _ = call(programs, folder, "--help")
    return "" if status == 0 and b"--keep" in stdout else "--help"


def unwritten(programs, folder):
    (folder / "p.st").write_text(SOURCE)
    (folder / "log").write_text(DAY)
    front = f"'{programs['dry-run']}' --snc '{programs['snc']}' --snl '{programs['snl']}' --value Y=2 p.st log"
    for end, status in ((">&-", 3), (">/dev/full", 3), ("2>&- | grep -c '</html>'", 0)):
        ran = subprocess.run(["bash", "-c", f"{front} {end}"], cwd=folder, capture_output=True, timeout=SECONDS)
        if ran.returncode != status:
            return f"{end}: {ran.returncode}, {ran.stderr!r}"
    return ""
