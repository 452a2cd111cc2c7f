"""Cases of what a page of scripts/plot shows: which boxes are alarms, labels that do not overlap, and what an address moves."""
import re
import subprocess
from dataclasses import dataclass
from pathlib import Path

from case import SECONDS
from plots import Plot, call

HERE = Path(__file__).resolve().parent
LOOP = """program p
option +s;
int x; assign x to "X"; monitor x;
ss s { state a { when (x) {} state b } state b { when (!x) {} state a } }
"""


def cases():
    """All of them."""
    yield Plot("plot: a loop at a steady rate is no alarm, and one that comes and goes is", steady)
    yield Plot("plot: labels of printf do not overlap, whatever their letters are", labels)
    yield Plot("plot: a condition stands in its row, with the names that the port left as comments", named)
    yield Addressed("plot: an address moves the picture and the table", addressed)


def page_of(programs, folder, trace):
    """The page of the loop over the times at which `X` changes."""
    (folder / "p.st").write_text(LOOP)
    lines = ["0 up X", "0 val X 0", *(f"{time} val X {at % 2}" for at, time in enumerate(trace, 1))]
    status, stdout, stderr = call(programs, folder, "p.st", input="".join(f"{it}\n" for it in lines).encode())
    return stdout.decode() if not status else stderr.decode()


def boxes_of(page):
    """The boxes of changes to and fro, each with whether it is mild."""
    found = re.findall(r'<li><a href="#pic" data-t="\d+"( class="mild")?>[^<]*changes its state', page)
    return [bool(it) for it in found]


def steady(programs, folder):
    even = boxes_of(page_of(programs, folder, range(1000, 400_000, 1000)))
    within = boxes_of(page_of(programs, folder, range(5, 40_000, 5)))
    uneven = boxes_of(page_of(programs, folder, [at * 1000 + (400 if at % 3 == 0 else 0) for at in range(1, 800)]))
    bursts = boxes_of(page_of(programs, folder, [burst * 40_000 + at * 10 for burst in range(1, 9) for at in range(1 + 400 * (burst % 2))]))
    wrong = [] if even == [True] and within == [True] else [f"a steady loop has {even}, {within}"]
    wrong += [] if uneven == [False] and bursts and not any(bursts) else [f"an uneven one has {uneven}, {bursts}"]
    return "; ".join(wrong)


PRINTS = """program p
option +s;
int x; assign x to "X"; monitor x;
ss s { state a { when (x > 0) { printf("%s"); x = 0; } state a } }
"""
LABEL = re.compile(r'<g class="m pr" data-x="([\d.]+)" data-y="([\d.]+)"[^>]*><use href="#say"/><text class="say" x="(-?7)"[^>]*?( display="none")?>([^<]*)<')
# How wide letters are in the font of the page, of 10.5 points: those that are wider or narrower than 6.7.
WIDE_LETTERS = {"W": 10.4, "M": 9.1, "m": 10.3, "w": 8.6, "%": 10, "@": 10.5, " ": 3.4, "i": 3, "l": 3}


def labels(programs, folder):
    text = "WWW MMMM mmmm %% illi"
    (folder / "p.st").write_text(PRINTS % text)
    lines = ["0 up X", "0 val X 0", *(f"{time} val X 1" for time in range(1000, 60_000, 1700)), "60000 tick"]
    status, stdout, stderr = call(programs, folder, "p.st", input="".join(f"{it}\n" for it in lines).encode())
    found = [(float(x), y, side, text) for x, y, side, hidden, text in LABEL.findall(stdout.decode()) if not hidden]
    if status or len(found) < 5:
        return f"{len(found)} labels: {stderr.decode()}"
    lines = {y for _, y, _, _ in found}
    bare = {y for _, y, _, hidden, _ in LABEL.findall(stdout.decode()) if hidden}
    if not bare or bare & lines:
        return f"marks without texts stand in {bare}, and texts in {lines}"
    ends: dict = {}
    for x, y, side, shown in found:
        wide = 14 + sum(WIDE_LETTERS.get(it, 6.7) for it in shown)
        begin, end = (x, x + wide) if side == "7" else (x - wide, x)
        if begin < ends.get(y, -1):
            return f"the label at {x} begins at {begin:.0f}, where the one before ends at {ends[y]:.0f}"
        ends[y] = end
    return ""


NAMED = """program p
option +s;
int c; assign c to "C"; monitor c; int m; assign m to "M"; int n;
ss s {
  /* when (never) */
  state a { when (c == -2 /*UP*/ && m != 1 /*"is (high)"*/ // and more
    && (n < 3 /* no name */)) { m = 1 /*"is (high)"*/; pvPut(m); } state b when (delay(1)) { printf("when (x)"); } state b }
  state b { when () {} exit }
}
"""
TOLD = (
    '<span class="why">when c == UP &amp;&amp; m != &quot;is (high)&quot; &amp;&amp; (n &lt; 3 )</span>',
    '<span class="why">since c=UP (-2), m=0, n=0</span>',
)


def named(programs, folder):
    (folder / "p.st").write_text(NAMED)
    trace = b"0 up C\n0 up M\n0 val C 0\n5 val C -2\n"
    status, stdout, stderr = call(programs, folder, "--enum", "C=UP:-2,DOWN:0", "p.st", input=trace)
    missing = [it for it in TOLD if it not in stdout.decode()]
    return f"{missing} is not there: {stderr.decode()}" if status or missing else ""


@dataclass
class Addressed(Plot):
    """What needs a program that runs scripts."""

    needs: str = "node"


def addressed(programs, folder):
    (folder / "page.html").write_text(page_of(programs, folder, [1000, 2500, 4000, 9000, 9500]))
    words = ["node", HERE / "plotscript.js", folder / "page.html", "#900-1900", "#3000-9200", "#5000-6000"]
    ran = subprocess.run(words, capture_output=True, timeout=SECONDS, text=True)
    wanted = "#900-1900: rows 1000, marked 1000, 900 to 1900\n#3000-9200: rows 4000, marked 4000, 3000 to 9200\n"
    # Where nothing happened the table stays, and the row that was marked.
    wanted += "#5000-6000: rows , marked 4000, 5000 to 6000\n"
    return "" if (ran.stdout, ran.stderr) == (wanted, "") else ran.stdout + ran.stderr
