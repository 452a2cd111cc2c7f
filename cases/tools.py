"""Cases of `snl` that no file of cases can have: a trace that comes slowly, a terminal, much memory, a version, a pipe as FILE, suites."""
import contextlib
import os
import pty
import re
import subprocess
import tempfile
import time
from dataclasses import dataclass
from pathlib import Path
from typing import Callable

from case import SECONDS
from memory import grown, peak

SOURCE = """program p option +s; int x; assign x to "X"; monitor x;
ss s { state a { when (x > 1) {} state a } }
"""
WAITS = "waits for X to be up (x, line 1)\nwaits for X to have a value (x, line 1)\n"
# How many lines the long trace has, and how much more memory in kilobytes a call may take over it than over a short one.
LINES, SLACK = 200_000, 1_000


@dataclass
class Tool:
    name: str
    # Gets the program and a folder with p.st, and gives what is wrong, or nothing.
    check: Callable
    tool: str = "snl"
    # Whether it measures memory, of which a build of bin/try has its own.
    of_memory: bool = False

    def failure(self, programs):
        with tempfile.TemporaryDirectory(prefix="snlrun-") as folder:
            Path(folder, "p.st").write_text(SOURCE)
            wrong = self.check(programs["snl"], Path(folder))
        return f"FAILED {self.name}\n  {wrong}" if wrong else None


def cases(root):
    yield Tool("snl --version: the version of the file VERSION, and the licence", lambda *it: version(root, *it))
    yield Tool("snl waits --progress: once a second", progress)
    yield Tool("snl waits: a trace that comes byte by byte", slowly)
    yield Tool("snl waits: a trace from a terminal", terminal)
    yield Tool("snl waits: FILE is a pipe", piped)
    yield Tool("snl waits: more names than are kept", many_names)
    yield Tool("snl waits: memory over many lines as over a few", memory, of_memory=True)
    for name, lines in ("light", 4), ("motor", 3), ("shutter", 2):
        yield Tool(f"snl search --cover: {name}, as snl cover says of the traces", lambda *it, of=(name, lines): suite(root, *of, *it))
    yield Tool("snl run: MACROS that are the name of a file", file_for_macros)
    yield Tool("snl search --out: which files it writes over", written_over)
    yield Tool("snl search --after: the trace that it writes has the lines of the day in front", day_in_front)
    yield Tool("snl search --cover: which folders it takes", folders_taken)
    yield Tool("snl search --seconds: it stops, and says how much is certain", seconds)
    yield Tool("snl search: on a terminal it tells how far it has come", far)


def called(program, folder, *words, **how):
    ran = subprocess.run([program, *words], cwd=folder, capture_output=True, text=True, timeout=SECONDS, **how)
    return ran.returncode, ran.stdout, ran.stderr


def differs(found, wanted):
    return "" if found == wanted else f"{found!r}, not {wanted!r}"


def version(root, program, folder):
    wanted = f"snl {(root / 'VERSION').read_text().strip()}\nLicence: Apache-2.0\n"
    return differs(called(program, folder, "--version"), (0, wanted, ""))


def progress(program, folder):
    call = f"(printf '0 up Y\\n5 up Y\\n'; sleep 1.3; printf '70 up Y\\n') | '{program}' waits --progress p.st"
    ran = subprocess.run(["bash", "-c", call], cwd=folder, capture_output=True, text=True, timeout=SECONDS)
    answer = f"never began: 3 events, the last at 70 (line 3)\n{WAITS}Y is no channel of the program (3 lines, the first is 1)\n"
    wrong = differs((ran.returncode, ran.stdout), (1, answer))
    # A slow machine may tell more than once.
    told = ran.stderr.splitlines()
    return wrong or ("" if "snl: 3 lines read, the last at 70" in told else f"standard error has {told}")


def slowly(program, folder):
    call = f"(for it in '0 ' 'up ' X '\\n' '1' ' val X' ' 4\\n'; do printf \"$it\"; sleep 0.05; done) | '{program}' waits p.st"
    ran = subprocess.run(["bash", "-c", call], cwd=folder, capture_output=True, text=True, timeout=SECONDS)
    return differs((ran.returncode, ran.stdout, ran.stderr), (0, "began at 1 (line 2)\n", ""))


def terminal(program, folder):
    ours, theirs = pty.openpty()
    with open(theirs, "rb") as stdin:
        ran = subprocess.Popen([program, "waits", "p.st"], cwd=folder, stdin=stdin, stdout=subprocess.PIPE, stderr=subprocess.PIPE)
        os.write(ours, b"0 up X\n\x04")
        stdout, stderr = ran.communicate(timeout=SECONDS)
    os.close(ours)
    wanted = b"never began: 1 event at 0 (line 1)\nwaits for X to have a value (x, line 1)\n"
    said = b"snl: reading the trace from the terminal; end it by Ctrl-D\n"
    return differs((ran.returncode, stdout, stderr), (1, wanted, said))


def piped(program, folder):
    call = f"printf '0 up X\\n3 val X 1\\n' | '{program}' waits <(cat p.st)"
    ran = subprocess.run(["bash", "-c", call], cwd=folder, capture_output=True, text=True, timeout=SECONDS)
    return differs((ran.returncode, ran.stdout, ran.stderr), (0, "began at 3 (line 2)\n", ""))


def many_names(program, folder):
    trace = "".join(f"0 up NAME{n:04}\n" for n in range(1_002)) + f"0 up NAME0003\n0 up {'L' * 257}\n0 up {'M' * 256}\n"
    status, stdout, stderr = called(program, folder, "waits", "p.st", input=trace)
    lines = stdout.splitlines()
    wanted = "never began: 1005 events, the last at 0 (line 1005)", "and 4 lines more with names that are no channels of the program"
    if (status, stderr, lines[0], lines[-1]) != (1, "", *wanted) or len(lines) != 1_004:
        return f"status {status}, {len(lines)} lines, {lines[:1]} to {lines[-1:]}, {stderr!r}"
    named = "NAME0003 is no channel of the program (2 lines, the first is 4)"
    return "" if lines[6] == named else lines[6]


def memory(program, folder):
    """Each call counts the lines of its trace."""
    taken = []
    for count in (10, LINES):
        found = over(program, folder, count)
        wrong = differs((found.status, found.first), (1, f"never began: {count} events, the last at {count - 1} (line {count})"))
        if wrong:
            return wrong
        taken.append(found.kilobytes)
    return grown(*taken, SLACK)


def over(program, folder, count):
    """What a call takes and writes over a trace of so many lines, over which the program does not begin."""
    trace = folder / f"{count}.trace"
    with open(trace, "w") as out:
        out.writelines(f"{n} val OTHER{n % 50} {n}\n" for n in range(count))
    with open(trace) as stdin:
        return peak([program, "waits", "p.st"], folder, stdin)


def suite(root, name, lines, program, folder):
    """The traces that a search leaves take as many clauses as it says, and none is the beginning of another one."""
    source = str(root / f"examples/{name}.st")
    status, answer, said = called(program, folder, "search", "--lines", str(lines), "--cover", "traces", source)
    traces = sorted(Path(folder, "traces").iterdir())
    words = [it for trace in traces for it in ("--trace", str(trace))]
    covered = called(program, folder, "cover", *words, source)[1]
    count = re.search(r"(\d+ of \d+ clauses)\)\n$", answer)
    if (status, said) != (0, "") or not count or f"{count[1]} taken" not in covered:
        return f"status {status}, {answer!r}, {said!r}; {covered!r}"
    texts = [it.read_text() for it in traces]
    begun = [one for one in texts for other in texts if one is not other and other.startswith(one)]
    return f"beginnings of others: {begun}" if begun else ""


# A program whose searches are short, and the first line of each trace that a search writes.
SAFE = """program safe option +s; int x; assign x to "X"; monitor x;
ss s { state a { when (x > 5) {} state b } state b { when (x < 1) {} state a } }
"""
FIRST = "# written by snl search\n"
SEARCH = ("search", "--lines", "1", "--never", "s.b")


def file_for_macros(program, folder):
    """A file whose name has the form of a macro."""
    Path(folder, "A=1").write_text("0 up X\n")
    found = called(program, folder, "run", "p.st", "A=1")
    told = "error: 'A=1' stands in the place of MACROS, which are NAME=VALUE,..\n\n"
    right = "The trace comes on standard input: snl run p.st < A=1\n\nFor more information, try '--help'.\n"
    return differs(found, (2, "", told + right))


def refused(program, folder, words, text):
    """What is wrong with a call of a search that has to be refused with this text, before anything is searched."""
    return differs(called(program, folder, *SEARCH, *words, "safe.st"), (2, "", f"error: '{words[-2]} {words[-1]}' {text}\n"))


def written_over(program, folder):
    """Its own traces and empty files are; what somebody else wrote, the trace of --like and the program are not."""
    Path(folder, "safe.st").write_text(SAFE)
    Path(folder, "notes").write_text("mine\n")
    Path(folder, "found").write_text("")
    ran = [called(program, folder, *SEARCH, "--out", "found", "safe.st")[0] for _ in range(2)]
    text = Path(folder, "found").read_text()
    return (
        differs(ran, [1, 1])
        or differs(text.startswith(f"{FIRST}0 up X\n"), True)
        or refused(program, folder, ("--out", "notes"), "was not written by snl search, and is not written over")
        or refused(program, folder, ("--like", "found", "--out", "./found"), "is the trace of --like, and is not written over")
        or refused(program, folder, ("--after", "found", "--out", "./found"), "is the trace of --after, and is not written over")
        or refused(program, folder, ("--out", "safe.st"), "is the program, and is not written over")
        or differs([Path(folder, it).read_text() for it in ("notes", "found", "safe.st")], ["mine\n", text, SAFE])
    )


def day_in_front(program, folder):
    """A line of a channel that the program does not use is a `tick` there. What `--at` asks for ends with one."""
    Path(folder, "day.trace").write_text("# a day\n0 up X\n\n0 val X 1\n5 val OTHER 2\n9 val X 0\n")
    wrong = ""
    for words, lines in (("--every", "3"), "5 val X 2\n"), (("--at", "7"), "7 tick\n7 val X 2\n"):
        ran = called(program, folder, "search", "--after", "day.trace", *words, "--never", "s.a", "--out", "found", "p.st")
        wrong = wrong or differs((ran[0], Path(folder, "found").read_text()), (1, f"{FIRST}0 up X\n0 val X 1\n5 tick\n{lines}"))
    return wrong


def folders_taken(program, folder):
    """One with its own traces is taken, and they are taken away; one with another file, or with the trace of --like, is not."""
    Path(folder, "safe.st").write_text(SAFE)
    suite = Path(folder, "suite")
    suite.mkdir()
    Path(suite, "77.trace").write_text(f"{FIRST}0 tick\n")
    ran = called(program, folder, *SEARCH, "--cover", "suite", "safe.st")[0]
    names = sorted(it.name for it in suite.iterdir())
    wrong = differs((ran, names[:1], "77.trace" in names), (1, ["1.trace"], False))
    inside = "name a new or an empty folder"
    wrong = wrong or refused(
        program, folder, ("--like", "suite/1.trace", "--cover", "suite"), f"has '1.trace' in it, which is the trace of --like: {inside}"
    )
    for other in ("2.trace.old", "88.trace"):
        Path(suite, other).write_text("0 tick\n")
        wrong = wrong or refused(program, folder, ("--cover", "suite"), f"has '{other}' in it, which was not written by snl search: {inside}")
        Path(suite, other).unlink()
    return wrong


# A program with ever more worlds, each of which takes some time; how many seconds a search of it has, and how much later it may end.
ENDLESS = """program endless option +s; int x; assign x to "X"; monitor x; int i; int sum;
ss s { state a { when (x && sum >= 0) { for (i = 0; i < 200; i++) {} sum = (sum * 7 + x) % 1000003; x = 0; } state a } }
"""
LONG, GIVEN, LATE = ("search", "--values", "X=0,1,2,3,4,5", "--lines", "30", "--seconds", "4", "endless.st"), 4, 20


def seconds(program, folder):
    (folder / "endless.st").write_text(ENDLESS)
    begun = time.monotonic()
    status, answer, said = called(program, folder, *LONG)
    took = time.monotonic() - begun
    ends = re.fullmatch(r"not all was seen: none up to \d+ lines? \(\d+ worlds; 1 of 1 clause\)", answer.splitlines()[-1])
    if (status, said) != (7, "") or not ends or took > GIVEN + LATE:
        return f"status {status}, {answer!r}, {said!r}, {took:.1f} s"
    return ""


def far(program, folder):
    (folder / "endless.st").write_text(ENDLESS)
    ours, theirs = pty.openpty()
    os.set_blocking(ours, False)
    told = b""
    with open(theirs, "wb") as stderr:
        how = {"cwd": folder, "stdin": subprocess.DEVNULL, "stdout": subprocess.PIPE, "stderr": stderr}
        subprocess.Popen([program, *LONG], **how).communicate(timeout=SECONDS)
        with contextlib.suppress(BlockingIOError):
            told = os.read(ours, 4096)
    os.close(ours)
    lines = told.decode().splitlines()
    wrong = [it for it in lines if not re.fullmatch(r"snl: \d+ worlds, \d+ whole levels?", it)]
    return f"{told!r}" if wrong or not lines else ""
