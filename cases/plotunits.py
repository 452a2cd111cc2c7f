"""Cases of scripts/plot: what numbers stand for, by a file of units and by the comments of a port; and the time of day."""
import sys
from fractions import Fraction
from pathlib import Path

from plots import Plot, call, read_page


def cases():
    """All of them."""
    yield Plot("plot: a file of units shows in lanes, in the table and in conditions", units)
    yield Plot("plot: numbers in conditions", conditions)
    yield Plot("plot: a file of units that is wrong, or of another program", wrong)
    yield Plot("plot: names and units that the comments of a port tell", ported)
    yield Plot("plot: the date of 0 ms stands in the trace, and ms beside the clock", dated)
    yield Plot("plot: a sentence for the top of the page", noted)


PROGRAM = """program p
option +s;
long t; assign t to "T"; monitor t;
int c; assign c to "C"; monitor c;
int r; assign r to "R"; monitor r;
int sevr; assign sevr to "T.SEVR"; monitor sevr;
long big; assign big to "B";
ss s {
  state a { when (t >= 25000 && c == 1 && c + t > 1 && sevr < 3) { big = 12; pvPut(big); } state b }
  state b { when (r == 1 || 9 < c || (t < -8)) {} state a }
}
"""
# What conditions become, of variables and elements in ten-thousandths, and of such that are numbers or names.
CONDITIONS = (
    ("t >= 25000 && c == 1", "t >= 2.5 && c == GO"), ("(t - 15 < absolute(u - t) + 20)", "(t - 0.0015 < absolute(u - t) + 0.002)"),
    ("t<u-12||!(c == -2)", "t<u-0.0012||!(c == -2)"), ("c == -2 ", "c == STOP "), ("t * 2 < 30", "t * 2 < 30"), ("t > c - 1", "t > c - 1"),
    ("e[1] > 5 && e[0] > 5", "e[1] > 0.0005 && e[0] > 5"), ("c > 1", "c > GO"), ("c != 7", "c != 7"), ("c + 1 == 1", "c + 1 == 1"),
    ('c == "t > 5"', 'c == "t > 5"'), ("", ""), ("t > 5 ? 1 : 0", "t > 5 ? 1 : 0"), ("t > n", "t > n"), ("delay(5)", "delay(5)"),
    ("((t > 5)) || (t) < 5", "((t > 0.0005)) || (t) < 0.0005"), ("t > 5 ) (", "t > 0.0005 ) ("),
)  # fmt: skip
UNITS = r"""scale T 10000
scale B 1/100
enum C :0,MOUNT:1,un\x2cmount:2
text R ERR*
severity T.SEVR
"""
TRACE = b"""0 up T
0 up C
0 up R
0 up T.SEVR
0 up B
0 val T 0
0 val C 0
0 val R 0
0 val T.SEVR 2
5000 val C 1
6000 val T 25001
7000 val C 2
8000 val R 1
"""
SHOWN = (
    "when t &gt;= 2.5 &amp;&amp; c == MOUNT &amp;&amp; c + t &gt; 1 &amp;&amp; sevr &lt; INVALID",
    "since t=2.5001, c=MOUNT (1), sevr=MAJOR (2)",
    "when r == ERR* || 9 &lt; c || (t &lt; -0.0008)",
    "since r=ERR* (1), c=un,mount (2), t=2.5001",
    "val R ERR* (1)",
    "B := 1200",
    "told MAJOR",
)


def units(programs, folder):
    (folder / "p.st").write_text(PROGRAM)
    (folder / "u").write_text(UNITS)
    status, stdout, stderr = call(programs, folder, "--units", "u", "p.st", input=TRACE)
    page = stdout.decode().replace("<wbr>", "")
    missing = [it for it in SHOWN if it not in page]
    if status or stderr or missing or read_page(stdout).wrong:
        return f"{missing} is not there: {stderr.decode()} {read_page(stdout).wrong[:3]}"
    # Words of the call come first.
    page = call(programs, folder, "--units", "u", "--scale", "T=3", "--enum", "C=GO:1", "p.st", input=TRACE)[1].decode()
    missing = [it for it in ("t=25.001, c=GO (1)", "c=2, t=25.001") if it not in page]
    return f"{missing} is not there" if missing else ""


def conditions(programs, folder):
    sys.path.insert(0, str(Path(programs["plot"]).parent))
    from plotting.named import Variables
    from plotting.program import Channel
    from plotting.values import Values

    values = Values({"T": Fraction(10_000), "E": Fraction(10_000)}, {"C": {1: "GO", -2: "STOP"}})
    channels = {"T": Channel("T", ["t"]), "U": Channel("T", ["u"]), "C": Channel("C", ["c"]), "E": Channel("E", ["e[1]"])}
    variables = Variables(channels, values, Values({"u": Fraction(10_000)}, {}))
    found = [(it, variables.condition(it)) for it, _ in CONDITIONS]
    return "" if found == [*CONDITIONS] else repr([it for it in found if it not in CONDITIONS])


def wrong(programs, folder):
    (folder / "p.st").write_text(PROGRAM)
    (folder / "u").write_text("# one\nscale T\n")
    (folder / "other").write_text("scale T 10\nscale OTHER:T 10\ntime CLOCK\n")
    found = [call(programs, folder, "--units", it, "p.st", input=TRACE) for it in ("u", "gone", "other")]
    said = b"plot: other names 2 channels that the program does not have: CLOCK, OTHER:T\n"
    is_right = found[:2] == [(2, b"", b"units:2: wrong number of fields\n"), (3, b"", b"plot: cannot read gone\n")]
    return "" if is_right and (found[2][0], found[2][2]) == (0, said) and b"t=2500.1" in found[2][1] else repr([it[::2] for it in found])


PORT = """program p option +s;
/* By port:
   unit 10^-3: temp, own
   unit 10^-1: both
   texts: 0 "", 1 "go", 2 "no way" */
long temp; assign temp to "T"; monitor temp;
long both; assign both to "T";
int cmd; assign cmd to "C"; monitor cmd;
int msg; assign msg to "M";
int own;
ss s {
  state a { when (cmd == 3 /*MOUNT*/ && own < 1500) { msg = 1 /*"go"*/; pvPut(msg); own = 7; } state b }
  state b { when (cmd == 4 && msg == 1 && own > 5 /*5e-3*/) { msg = 2; pvPut(msg); cmd = 4 /*PARK*/; } state a }
}
"""
PORT_TRACE = b"0 up T\n0 up C\n0 up M\n0 val T 0\n0 val C 0\n5 val C 3\n6 val T 1500\n7 val C 4\n"
PORT_SHOWN = (
    "when cmd == MOUNT &amp;&amp; own &lt; 1.5", "since cmd=MOUNT (3), own=0",
    "when cmd == PARK &amp;&amp; msg == go &amp;&amp; own &gt; 5e-3", "since cmd=PARK (4), msg=go (1), own=0.007",
    "M := go (1)", "M := no way (2)", "val C MOUNT (3)",
    '<title>told: T</title>', "1500",
)  # fmt: skip


SETTLE = """program q option +s; int t; assign t to "T"; monitor t;
ss s { state a { when (delay(2.5 /*SETTLE*/)) {} state b } state b { when (t > 9) {} state a } }
"""


def ported(programs, folder):
    """Of a channel whose variables have different units the numbers stay. A decimal has its name, too."""
    (folder / "p.st").write_text(PORT)
    (folder / "q.st").write_text(SETTLE)
    status, stdout, stderr = call(programs, folder, "p.st", input=PORT_TRACE)
    page = stdout.decode()
    missing = [it for it in PORT_SHOWN if it not in page]
    waits = call(programs, folder, "q.st", input=b"0 up T\n0 val T 0\n3000 tick\n")[1]
    missing += [] if b"when delay(SETTLE)" in waits else ["delay(SETTLE)"]
    return f"{missing} is not there: {stderr.decode()}" if status or missing else ""


CLOCK = b"# from a log\n# zero 2026-03-02T23:59:57.250%s\n0 up T\n0 up C\n0 up M\n0 val T 0\n0 val C 0\n5000 val C 3\n"


def dated(programs, folder):
    (folder / "p.st").write_text(PORT)
    for zone, words, wanted, unwanted in (
        (b"", (), ('<td>00:00:02.250<br><span class="why">5000 ms</span></td>', ">5000 ms<", ">00:00:00<", ">2750 ms<"), ("<td>5 s",)),
        (b"", (), (" on 2026-03-02.",), ()),
        (b"Z", (), (" on 2026-03-02 (Z).",), ()),
        (b"+01:00", ("--zero", "2026-03-02T21:00:00"), ("<td>21:00:05<br>",), ("+01:00",)),
        (b"", ("--zero", "none"), ("<td>5 s</td>",), ("ms</span>", "23:59")),
        (b"+1", (), ("<td>5 s</td>",), ("23:59",)),
    ):
        status, stdout, stderr = call(programs, folder, *words, "p.st", input=CLOCK % zone)
        page = stdout.decode()
        if status or any(it not in page for it in wanted) or any(it in page for it in unwanted):
            return f"{zone} {words}: {stderr.decode()} {[it for it in wanted if it not in page]} {[it for it in unwanted if it in page]}"
        if read_page(stdout).wrong:
            return f"{read_page(stdout).wrong[:3]}"
    late = b"0 up T\n# zero 2026-03-02T23:59:57\n" + PORT_TRACE[7:]
    return "23:59" if b"23:59" in call(programs, folder, "p.st", input=late)[1] else ""


def noted(programs, folder):
    (folder / "p.st").write_text(PORT)
    page = call(programs, folder, "--note", "a <sketch>", "p.st", input=PORT_TRACE)[1]
    lines = call(programs, folder, "--format", "text", "--note", "a <sketch>", "p.st", input=PORT_TRACE)[1]
    return "" if b'<p class="sum note">a &lt;sketch&gt;</p>' in page and b"\nnote a <sketch>\n" in lines else repr(lines[:200])
