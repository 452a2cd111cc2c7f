"""Cases of scripts/plot beside those of `plots.cases`: laws of the lanes, pages, hostile texts, streams, memory."""
import subprocess
import sys
import tempfile
from dataclasses import dataclass
from pathlib import Path
from typing import Callable

import plotlaws
from case import SECONDS
from files import program_of
from plotpages import Drawn, read_page


def call(programs, folder, *words, **how):
    """The status and both streams of a call."""
    front = [programs["plot"], "--snc", programs["snc"], "--snl", programs["snl"]]
    ran = subprocess.run([*front, *words], cwd=folder, capture_output=True, timeout=SECONDS, **how)
    return ran.returncode, ran.stdout, ran.stderr


@dataclass
class Plot:
    """A call, or several."""

    name: str
    # Gets the programs and a folder, and gives what is wrong, or nothing.
    check: Callable
    tool: str = "plot"

    def failure(self, programs):
        with tempfile.TemporaryDirectory(prefix="plot-") as folder:
            wrong = self.check(programs, Path(folder))
        return f"FAILED {self.name}\n  {wrong}" if wrong else None


def cases(root):
    """All cases but those of `plots.cases`."""
    for trace in sorted(root.glob("examples/**/*.trace")):
        name, source = trace.relative_to(root), program_of(trace)
        yield plotlaws.Laws(f"{name}: the laws of its lanes", source, trace, trace.with_suffix(".out"), root)
        yield Drawn(f"{name}: its page", source, trace)
    for name, check in (
        ("names and prints that would be markup stay text", hostile),
        ("a run that was stored, with notes and without", stored),
        ("FILE is a pipe, and the trace is one", piped),
        ("words that are wrong", refused),
        ("nobody reads the page", unread),
        ("programs that are not there", unbuilt),
        ("files, devices and lines without an end", endless),
        ("a program that chatters, in few columns and many", chatter),
        ("what a page says of flicker, scales, and what did not work", told),
        ("rows that are left out", rows),
        ("memory over many lines", memory),
        ("the pictures of the pages are small", lambda *_: pictures(root)),
    ):
        yield Plot(f"plot: {name}", check)


HOSTILE = r"""program hostile
option +s;
int a; assign a to "<script>document.title='X'</script>"; monitor a;
int b; assign b to "\"><img/src=x/onerror=document.title='Y'>";
int c; assign c to "]]>--></svg></title></style><h1>";
int d; assign d to "javascript:alert(1)&#60;b&gt;'onclick='x";
ss s {
  state one {
    when (a > 0) {
      b = 1; pvPut(b); c = 1; pvPut(c); d = 2; pvPut(d);
      printf("</text></svg><script>document.title='Z'</script> & \"quoted\" ' %d", a);
    } state two
  }
  state two { when (a == 0) { printf("\t\\x3cscript\\x3e]]><!--"); } state one }
}
"""
HOSTILE_TRACE = r"""0 up <script>document.title='X'</script>
0 up \"><img/src=x/onerror=document.title='Y'>
0 up ]]>--></svg></title></style><h1>
0 up javascript:alert(1)&#60;b&gt;'onclick='x
0 val <script>document.title='X'</script> 0
5 val <script>document.title='X'</script> 1
9 down \"><img/src=x/onerror=document.title='Y'>
9 val <b>unknown</b> 3
12 val <script>document.title='X'</script> 0
14 val <script>document.title='X'</script> 1
"""
HOSTILE_TEXTS = (
    "]]>--></svg></title></style><h1> := <i>\\x2603 (1)",
    "javascript:alert(1)&#60;b&gt;'onclick='x := 2",
    "</text></svg><script>document.title='Z'</script> & \"quoted\" ' 1",
    "\\t\\\\x3cscript\\\\x3e]]><!--",
    "<b>unknown</b>",
    "onerror=document.title='Y'> goes down",
)


def hostile(programs, folder):
    (folder / "p.st").write_text(HOSTILE)
    words = "--enum", "]]>--></svg></title></style><h1>=<i>\N{SNOWMAN}:1", "p.st"
    status, stdout, stderr = call(programs, folder, *words, input=HOSTILE_TRACE.encode())
    if status:
        return stderr.decode()
    page = read_page(stdout)
    texts = "".join(page.texts)
    wrong = page.wrong + [f"the text {it} is not there" for it in HOSTILE_TEXTS if it not in texts]
    return "; ".join(wrong[:3])


SOURCE = """program p
option +s;
int x; assign x to "X"; monitor x;
ss s {
  state lo { when (x > 3) {} state hi }
  state hi { when (x < 2) {} state lo when (x == 2) {} state lo }
}
"""
TRACE = b"0 up X\n0 val X 1\n10 val X 5\n30 val X 0\n"
RUN = "0 start p\n10 go s lo hi\n{}30 go s hi lo\n"
NOTES = "# clause 1 of hi, line 6: x=0 (trace line 4)\n"


def stored(programs, folder):
    (folder / "p.st").write_text(SOURCE)
    found = {}
    for name, note in (("noted", NOTES), ("bare", "")):
        (folder / name).write_text(RUN.format(note))
        status, stdout, _ = call(programs, folder, "--format", "text", "--run", name, "p.st", input=TRACE)
        found[name] = stdout.decode().splitlines()[-1] if not status else status
    fault = RUN.format("") + "30 fault s 6 overflow\n"
    (folder / "faulted").write_text(fault)
    found["faulted"] = call(programs, folder, "--run", "faulted", "p.st", input=TRACE)[0]
    (folder / "bad").write_text(RUN.format("") + "# bad line 5\n# 2 transitions, 0 puts, 0 refused, 0 prints\n")
    found["bad"] = call(programs, folder, "--run", "bad", "p.st", input=TRACE + b"x\n")[0]
    (folder / "other").write_text("0 start q\n10 go t lo hi\n")
    found["other"] = call(programs, folder, "--run", "other", "p.st", input=TRACE)[2]
    (folder / "folded").write_text(RUN.format("") + "# these 2 lines 4 times more, up to 300\n")
    found["folded"] = call(programs, folder, "--run", "folded", "p.st", input=TRACE)[2]
    wanted = {
        "noted": "did 30 s: hi -> lo (clause 1, line 6) since x=0",
        "bare": "did 30 s: hi -> lo (clause 1 or 2)",
        "faulted": 5,
        "bad": 6,
        "other": b"plot: other has no run of this program\n",
        "folded": b"plot: lines are left out in folded: write it by snl run --whole\n",
    }
    return "" if found == wanted else repr(found)


def piped(programs, folder):
    (folder / "p.st").write_text(SOURCE)
    (folder / "trace").write_bytes(TRACE)
    with open(folder / "trace", "rb") as trace:
        wanted = call(programs, folder, "--format", "text", "p.st", stdin=trace)
    front = f"'{programs['plot']}' --snc '{programs['snc']}' --snl '{programs['snl']}' --format text"
    piece = f"(head -c 9 trace; sleep 0.2; tail -c +10 trace) | {front} <(cat p.st)"
    ran = subprocess.run(["bash", "-c", piece], cwd=folder, capture_output=True, timeout=SECONDS)
    found = ran.returncode, ran.stdout, ran.stderr
    return "" if found == wanted and not wanted[0] and wanted[1] else repr((found, wanted))


def refused(programs, folder):
    (folder / "p.st").write_text(SOURCE)
    for words in (
        ["--from", "x"], ["--from", "7", "--to", "6"], ["--columns", "0"], ["--columns", "8193"], ["--zero", "noon"],
        ["--enum", "X=on"], ["--enum", "Y=on:1"], ["--scale", "X"], ["--scale", "Y=2"], ["--scale", "X=19"], ["--log", "Y"],
        ["--linear", "s"], ["--only", "X[1]"], ["--format", "png"], ["--colour"],
    ):  # fmt: skip
        status, stdout, stderr = call(programs, folder, *words, "p.st", input=TRACE)
        if status != 2 or stdout or not stderr:
            return f"{words}: status {status}, {stdout[:50]!r}, {stderr[:200]!r}"
    status, stdout, _ = call(programs, folder, "--help", input=b"")
    return "" if status == 0 and b"--columns" in stdout else f"--help: {status}"


def unread(programs, folder):
    (folder / "p.st").write_text(SOURCE)
    front = f"'{programs['plot']}' --snc '{programs['snc']}' --snl '{programs['snl']}' p.st <trace"
    (folder / "trace").write_bytes(TRACE)
    for end, status in ((">&-", 3), (">/dev/full", 3), ("2>&- | tail -n 1 | grep -c '</html>'", 0)):
        ran = subprocess.run(["bash", "-c", f"{front} {end}"], cwd=folder, capture_output=True, timeout=SECONDS)
        if ran.returncode != status:
            return f"{end}: {ran.returncode}, {ran.stderr!r}"
    return ""


def unbuilt(programs, folder):
    (folder / "p.st").write_text(SOURCE)
    said = []
    for front in (["--snc", "gone"], ["--snc", programs["snc"], "--snl", "gone"]):
        ran = subprocess.run([programs["plot"], *front, "p.st"], cwd=folder, input=TRACE, capture_output=True, timeout=SECONDS)
        said.append((ran.returncode, ran.stdout, ran.stderr))
    wanted = [(3, b"", f"plot: cannot run {folder.resolve()}/gone\n".encode())] * 2
    return "" if said == wanted else repr(said)


def endless(programs, folder):
    """Each is told in a sentence, and takes no more memory than other calls do."""
    (folder / "p.st").write_text(SOURCE)
    (folder / "trace").write_bytes(TRACE)
    with open(folder / "one", "wb") as file:
        file.truncate(200_000_000)
    front = f"'{sys.executable}' -c '{STARTER}' '{programs['plot']}' --snc '{programs['snc']}' --snl '{programs['snl']}' --format text"
    run, source = "{} has a line of more than 8388608 bytes, and is no run", "{}:1: error: E03 source longer than 1048576 bytes"
    for words, status, text in (
        ("--run /dev/zero p.st <trace", 3, "plot: " + run.format("/dev/zero")),
        ("--run one p.st <trace", 3, "plot: " + run.format("one")),
        ("--run . p.st <trace", 3, "plot: cannot read ."),
        ("/dev/zero <trace", 1, source.format("/dev/zero")),
        ("one <trace", 1, source.format("one")),
        ("<(cat /dev/zero) <trace", 1, source.format("/dev/fd/63")),
        ("p.st </dev/zero", 6, "trace:1: line too long"),
        ("p.st <one", 6, "trace:1: line too long"),
        ("p.st < <(cat /dev/zero)", 6, "trace:1: line too long"),
    ):
        ran = subprocess.run(["bash", "-c", f"{front} {words}"], cwd=folder, capture_output=True, timeout=SECONDS)
        *said, last = ran.stderr.decode().splitlines()
        ended, used = map(int, last.split())
        if (ended, said) != (status, [text]) or used > MOST_MEMORY:
            return f"{words}: status {ended}, {said}, {used} kB of memory"
    return ""


def noisy(count):
    """A trace of so many lines over which SOURCE chatters, with a burst and a pause, and lines at equal times."""
    lines, time = ["0 up X", "0 val X 0"], 0
    for number in range(count):
        time += (0, 3, 1, 40)[number % 4] if number % 1_000 else 5_000
        lines.append(f"{time} val X {number * 7919 % 8}")
    return "\n".join(lines) + "\n"


def chatter(programs, folder):
    trace = noisy(3_000)
    (folder / "p.st").write_text(SOURCE)
    call_of_run = [programs["snl"], "run", "--whole", "p.st"]
    run = subprocess.run(call_of_run, cwd=folder, input=trace, capture_output=True, text=True).stdout
    for columns in (1, 2, 3, 16, 333, 8_192):
        words = "--format", "text", "--columns", str(columns), "p.st"
        status, stdout, stderr = call(programs, folder, *words, input=trace.encode())
        truth = plotlaws.truth_of(trace, run, {"s": "lo"})
        wrong = plotlaws.wrong_of(stdout.decode(), truth, columns) if not status else stderr.decode()
        if wrong:
            return f"with {columns} columns: {wrong}"
    return "" if len(truth.lanes["bar", "s"]) > 500 else "it hardly chatters"


RICH = """program rich
option +s;
int x; assign x to "X"; monitor x;
int y; assign y to "Y";
int z; assign z to "Z"; monitor z;
ss s {
  state a { when (x > 50) { y = x; pvPut(y, ASYNC); } state b }
  state b { when (x < 50) {} state a when (x == 77) {} state c }
  state c { when (x < 0) { x = 1 / (z - z); } state a }
}
"""


def rich():
    """A trace over which RICH does all that a page has words for."""
    lines = ["0 up X", "0 up Y", "0 up Z", "0 val Z 1", "100 val Z 1000", "200 val Z 10", "1000 val X 1"]
    lines += [f"{2_000 + 10 * it} val X {100 if it % 2 else 1}" for it in range(60)]
    lines += ["40000 val X 1", "50000 down Y", "60000 val X 60", "70000 up Y", "80000 val X 1", "90000 val X 61", "100000 tick"]
    return "\n".join(lines) + "\n"


TOLD = (
    "At the end: s in b since 1 min 30 s.",
    "0 to 1 min 40 s. 74 lines of the trace, 63 transitions, 2 puts, 30 refused, 0 prints, 0 wakes. Never entered: s c.",
    "2.01 s: s changes its state 58 times from 2.01 s to 2.59 s, about every 10 ms",
    "2.03 s: put to Y refused: an earlier put is not answered yet, 29 times",
    "50 s: Y goes down",
    "1 min: put to Y refused: it is down",
    "A column is 64 ms.",
    "c  (never)",
    "58 changes",
    "not connected",
    "told, 3 changes, log scale",
    "waits for done",
    "a put waits for its answer",
    "not begun",
)


def told(programs, folder):
    (folder / "p.st").write_text(RICH)
    pages = [call(programs, folder, *words, "p.st", input=rich().encode())[1] for words in ((), ("--linear", "Z"))]
    texts, linear = ("".join(read_page(it).texts) for it in pages)
    missing = [it for it in TOLD if it not in texts]
    missing += [] if "told, 3 changes" in linear and "log scale" not in linear else ["a linear scale"]
    return f"{missing} is not there" if missing else ""


def rows(programs, folder):
    (folder / "p.st").write_text(SOURCE)
    goes = [f"{it} go s {'hi lo' if it % 2 else 'lo hi'}\n" for it in range(1_000)]
    (folder / "run").write_text("0 start p\n" + "".join(goes))
    trace = b"0 up X\n" + b"".join(b"%d tick\n" % it for it in range(1_000))
    lines = call(programs, folder, "--format", "text", "--run", "run", "p.st", input=trace)[1].decode().splitlines()
    page = call(programs, folder, "--run", "run", "p.st", input=trace)[1]
    found = [it for it in lines if it.startswith(("did", "left"))]
    left = found.index("left 450 instants out") if "left 450 instants out" in found else 0
    border = found[left - 1].split()[:2], found[left + 1].split()[:2]
    is_right = (len(found), border) == (552, (["did", "399"], ["did", "850"]))
    return "" if is_right and b">450 instants left out here;" in page else f"{len(found)} rows, {border}"


# So many bytes a picture in a page has at most.
MOST_BYTES = 150_000


def pictures(root):
    found = sorted(root.glob("docs/*.png"))
    large = [it.name for it in found if it.stat().st_size >= MOST_BYTES]
    return f"{large} are too large" if large else "" if len(found) == 4 else f"there are {len(found)}"


# So many lines, over which so many kilobytes of memory may be taken; and what the page says of them. Linux counts for a process what the one had that started
# it: so a small one starts the script.
LINES, MOST_MEMORY = 200_000, 60_000
OVER = f"{LINES + 2:_} lines of the trace, {LINES // 10 - 1:_} transitions, ".replace("_", " ")
STARTER = """import resource, subprocess, sys
status = subprocess.run(sys.argv[1:], close_fds=False).returncode
print(status, resource.getrusage(resource.RUSAGE_CHILDREN).ru_maxrss, file=sys.stderr)
"""


def memory(programs, folder):
    (folder / "p.st").write_text(SOURCE)
    (folder / "trace").write_text("0 up X\n0 val X 1\n" + "".join(f"{it * 90} val X {it % 100}\n" for it in range(LINES)))
    goes = (f"{it * 90} go s {'lo hi' if it % 20 else 'hi lo'}\n" for it in range(10, LINES, 10))
    (folder / "run").write_text("0 start p\n" + "".join(goes))
    front = [sys.executable, "-c", STARTER, programs["plot"], "--snc", programs["snc"], "--run", "run", "p.st"]
    with open(folder / "trace", "rb") as trace:
        ran = subprocess.run(front, cwd=folder, stdin=trace, capture_output=True, timeout=SECONDS)
    status, used = map(int, ran.stderr.split())
    texts = "".join(read_page(ran.stdout).texts)
    if status or used > MOST_MEMORY or len(ran.stdout) > 1_000_000 or OVER not in texts:
        return f"status {status}, {used} kB of memory, a page of {len(ran.stdout)} bytes: {texts[:500]}"
    return ""
