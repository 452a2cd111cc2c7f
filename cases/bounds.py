"""Cases of the bounds of `snl search` that no file of cases can have: how long a call takes, and how much memory."""
import re
import subprocess
import tempfile
import time
from dataclasses import dataclass
from pathlib import Path
from typing import Callable

from case import SECONDS
from memory import peak

# How many seconds a call may take beyond its bound: the cases run beside others.
SLACK = 2
# How many kilobytes a program takes that searches nothing.
ITSELF = 4_000

# Two state sets count what comes, so there is always a world that was not reached before.
COUNTERS = """program counters option +s;
int x; assign x to "X"; monitor x;
int y; assign y to "Y"; monitor y;
int n, m;
ss one { state s { when (x > n) { n++; } state t when (delay(1)) { n += 2; } state t } state t { when (delay(2)) {} state s } }
ss two { state s { when (y > 3) { m++; } state t } state t { when (delay(3)) { m += n; } state s } }
"""
# It wakes each millisecond, and so a line that comes after 10^12 of them runs past as many wakes.
WAKING = """program waking option +s;
int x; assign x to "X"; monitor x;
ss a { state one { when (delay(0.001)) {} state two } state two { when (delay(0.001)) {} state one } }
"""


def ring(count):
    """A program of so many states, one after another, in each of which a value is kept that nothing reads."""
    states = [f"state s{k} {{ when (x > {k % 3} && delay(1)) {{ kept = x; }} state s{(k + 1) % count} }}" for k in range(count)]
    return "\n".join(["program ring option +s;", 'int x; assign x to "X"; monitor x;', "int kept;", "ss a {", *states, "}", ""])


@dataclass
class Bound:
    name: str
    # Gets the programs and a folder, and gives what is wrong, or nothing.
    check: Callable
    tool: str = "snl"
    # Whether it measures memory, of which a build of bin/try has its own.
    of_memory: bool = False

    def failure(self, programs):
        with tempfile.TemporaryDirectory(prefix="snlrun-") as folder:
            wrong = self.check(programs, Path(folder))
        return f"FAILED {self.name}\n  {wrong}" if wrong else None


def cases():
    yield Bound("snl search: --seconds holds while worlds are reached and checked", lambda *it: ends(*it, COUNTERS, 4, "--lines", "99999"))
    yield Bound("snl search: --seconds cuts a line that runs past too many wakes", lambda *it: ends(*it, WAKING, 1, "--gaps", "1000000000000"))
    yield Bound("snl search: --seconds holds while a recorded trace is read", endless)
    yield Bound("snl search: --seconds holds while a day is read in which it starts", endless_day)
    yield Bound("snl search: --seconds holds while it goes to the starts of a long day", long_day)
    yield Bound("snl search: --memory holds", memory, of_memory=True)
    yield Bound("snl search: --memory holds for the lines of a day", day_memory, of_memory=True)
    yield Bound("snl search: what decides nothing is found in a program of many states, in little memory", many_states, of_memory=True)


def searched(programs, folder, source, words, stdin=subprocess.DEVNULL):
    """The answer of a search, what it said on standard error, its status and the seconds that it took."""
    (folder / "p.st").write_text(source)
    begun = time.monotonic()
    ran = subprocess.run([programs["snl"], "search", *words, "p.st"], cwd=folder, stdin=stdin, capture_output=True, text=True, timeout=SECONDS)
    return ran.stdout, ran.stderr, ran.returncode, time.monotonic() - begun


def ends(programs, folder, source, seconds, *words):
    """A search that is not whole ends in time, and says so; what it says is certain was checked."""
    out, _, status, took = searched(programs, folder, source, ["--seconds", str(seconds), *words])
    last = out.splitlines()[-1] if out else ""
    if status != 7 or not re.match(r"not all was seen: (none up to \d+ lines?(, but an overflow of .*)? \(|nothing found in \d+ worlds?, 0 whole levels \(not certified)", last):
        return f"status {status}, {last!r}"
    return "" if took < seconds + SLACK else f"{took:.1f} seconds, and {seconds} were said"


def endless(programs, folder):
    """A recorded trace that has no end is not read for ever."""
    with subprocess.Popen(["yes", "0 tick"], stdout=subprocess.PIPE) as lines:
        out, said, status, took = searched(programs, folder, WAKING, ["--seconds", "1", "--like", "/dev/stdin"], lines.stdout)
        lines.kill()
    wanted = "snl: not all was seen: time was over before the channels and their values were gathered\n"
    if (out, said, status) != ("", wanted, 7):
        return f"status {status}, {out!r}, {said!r}"
    return "" if took < 1 + SLACK else f"{took:.1f} seconds, and 1 was said"


def endless_day(programs, folder):
    """Nor is a day; its bytes may take a quarter of the memory."""
    with subprocess.Popen(["yes", "0 tick"], stdout=subprocess.PIPE) as lines:
        out, said, status, took = searched(programs, folder, WAKING, ["--seconds", "1", "--memory", "8", "--after", "/dev/stdin"], lines.stdout)
        lines.kill()
    if (out, said, status) != ("", "snl: not all was seen: the lines of the trace take more memory than there may be\n", 7):
        return f"status {status}, {out!r}, {said!r}"
    return "" if took < 1 + SLACK else f"{took:.1f} seconds, and 1 was said"


def day_of(folder, lines):
    """A day of so many lines."""
    (folder / "day.trace").write_text("0 up X\n0 up Y\n0 val X 0\n" + "".join(f"{it} val Y {it % 9}\n" for it in range(lines - 3)))


def long_day(programs, folder):
    """Of ten thousand lines not all starts are reached in a second, and their lines do not fit into the memory: both are said."""
    day_of(folder, 10_000)
    out, said, status, took = searched(programs, folder, COUNTERS, ["--seconds", "1", "--after", "day.trace"])
    note = "\nnote: nothing can be certified: the lines of the starts take more than the memory\n"
    if (said, status) != ("", 7) or note not in out or "\nnot all was seen: nothing found in " not in out:
        return f"status {status}, {out!r}, {said!r}"
    return "" if took < 1 + SLACK else f"{took:.1f} seconds, and 1 was said"


def day_memory(programs, folder):
    """A day, its starts and what is certified of them take no more than a tenth more than was said."""
    (folder / "p.st").write_text(COUNTERS)
    for lines, megabytes, wanted in (80, 40, "none up to 1 line ("), (400, 40, "nothing found in "):
        day_of(folder, lines)
        words = ["search", "--memory", str(megabytes), "--lines", "1", "--after", "day.trace", "p.st"]
        ran = peak([programs["snl"], *words], folder, subprocess.DEVNULL)
        if not ran.last.startswith(wanted):
            return f"status {ran.status}, {ran.last!r}"
        if ran.kilobytes > megabytes * 1_100 + ITSELF:
            return f"{ran.kilobytes} kilobytes, and {megabytes} megabytes were said"
    return ""


def memory(programs, folder):
    """A search takes no more than a tenth more than was said."""
    (folder / "p.st").write_text(COUNTERS)
    for megabytes in (20, 60):
        words = ["search", "--memory", str(megabytes), "--lines", "99999", "--seconds", "50", "p.st"]
        ran = peak([programs["snl"], *words], folder, subprocess.DEVNULL)
        if ran.status != 7 or not ran.last.startswith("not all was seen: none up to "):
            return f"status {ran.status}, {ran.last!r}"
        if not megabytes * 500 < ran.kilobytes < megabytes * 1_100 + ITSELF:
            return f"{ran.kilobytes} kilobytes, and {megabytes} megabytes were said"
    return ""


def many_states(programs, folder):
    """What is kept and not read makes no worlds, and to find that out takes no table for each of many states."""
    for count, kilobytes in (30, 20_000), (600, 40_000):
        (folder / "p.st").write_text(ring(count))
        ran = peak([programs["snl"], "search", "--lines", "100000", "--seconds", "50", "p.st"], folder, subprocess.DEVNULL)
        if (ran.status, ran.last) != (0, f"never ({6 * count} worlds; {count} of {count} clauses)"):
            return f"{count} states: status {ran.status}, {ran.last!r}"
        if ran.kilobytes > kilobytes:
            return f"{count} states: {ran.kilobytes} kilobytes"
    return ""
