"""Cases of `snl run` that no file of cases can have: what holds of every run, long runs, memory, a trace that comes slowly."""
import re
import subprocess
import tempfile
from dataclasses import dataclass
from pathlib import Path
from typing import Callable

from case import SECONDS
from memory import grown, peak

AGAIN = re.compile(r"# (?:this line|these (\d+) lines) (\d+) times? more, up to \d+")
# How many lines the long trace has, and how much more memory in kilobytes a call may take over it than over a short one.
LINES, SLACK = 200_000, 1_000

VALVE = """program valve option +s;
int pressure; assign pressure to "V:P"; monitor pressure;
int opened; assign opened to "V:OPEN";
ss gate {
  state shut { when (pressure < 1000) { opened = 1; pvPut(opened); } state wide }
  state wide { when (opened == 1) { opened = 0; pvPut(opened); } state shut }
}
"""
MANUAL = """program hand option +s;
int manual; assign manual to "MANUAL"; monitor manual;
ss mode {
  state auto { when (manual) { printf("by hand"); } state hand }
  state hand { when (delay(0.5)) { printf("by itself"); } state auto }
}
"""
DOME = """program dome option +s;
int azimuth; assign azimuth to "DOME:AZ"; monitor azimuth;
int go; assign go to "DOME:GO";
ss hunt {
  state left { when (delay(3) && azimuth != 180) { go = 170; pvPut(go); } state right }
  state right { when (delay(3) && azimuth != 180) { go = 190; pvPut(go); } state left }
}
"""
# Two lines a transition, which repeat after 30 transitions; EXTRA of these have a line more.
CYCLE = """program cycle option +s;
int a; assign a to "A"; monitor a;
int n;
ss s { state one { when (a > n) { n = n + 1; printf("%d", n % 30); if (n % 30 < EXTRA) printf("more"); } state one } }
"""
# Steps of a long trace that are not ten milliseconds, by their lines, and what is told of a jump.
JUMPS = [
    ("a jump", {7_002: 90_000_000}, ["# the clock jumps by 1 day at line 7002"]),
    ("a jump at its begin", {3: 90_000_000, 9_000: 3_599_999}, ["# the clock jumps by 1 day at line 3"]),
    ("a jump and a long step", {7_002: 90_000_000, 9_000: 3_600_000}, []),
]


@dataclass
class Fold:
    name: str
    # Gets the programs and a folder, and gives what is wrong, or nothing.
    check: Callable
    tool: str = "snl"
    # Whether it measures memory, of which a build of bin/try has its own.
    of_memory: bool = False

    def failure(self, programs):
        with tempfile.TemporaryDirectory(prefix="snlrun-") as folder:
            wrong = self.check(programs, Path(folder))
        return f"FAILED {self.name}\n  {wrong}" if wrong else None


def cases(root):
    for source in sorted((root / "examples").glob("*.st")):
        for trace in sorted((root / "examples").glob(f"{source.stem}*.trace")):
            yield Fold(f"snl run: {trace.name} with notes and folded", lambda *it, s=source, t=trace: stands_for(*it, s.read_text(), t.read_text()))
    chatter = {
        "a valve that opens and shuts in one instant": (VALVE, "0 up V:P\n0 up V:OPEN\n0 val V:P 5\n"),
        "a switch that stays 1": (MANUAL, "0 up MANUAL\n0 val MANUAL 1\n5000000 tick\n"),
        "a dome that hunts": (DOME, "0 up DOME:AZ\n0 up DOME:GO\n0 val DOME:AZ 171\n30000000 tick\n"),
    }
    for name, (source, trace) in chatter.items():
        yield Fold(f"snl run: {name}, in under a hundred lines", lambda *it, s=source, t=trace: stands_for(*it, s, t, most=100))
    for size, extra, most in ((60, 0, 130), (61, 1, None)):
        yield Fold(f"snl run: a block of {size} lines", lambda *it, e=extra, m=most: block(*it, e, m))
    for name, steps, told in JUMPS:
        yield Fold(f"snl run: a long trace with {name}", lambda *it, s=steps, t=told: jumps(*it, s, t))
    yield Fold("snl run --whole: a trace that comes slowly", slowly)
    yield Fold("snl run: memory over many lines as over a few", memory, of_memory=True)


def called(programs, tool, folder, words, trace):
    return subprocess.run([programs[tool], *words], cwd=folder, input=trace, capture_output=True, text=True, timeout=SECONDS)


def runs(programs, folder, source, trace):
    """The lines of `snlrun`, of `snl run --whole` and of `snl run`, and the three statuses."""
    (folder / "p.st").write_text(source)
    ran = [called(programs, *call, trace) for call in (("snlrun", folder, ["p.st"]), ("snl", folder, ["run", "--whole", "p.st"]), ("snl", folder, ["run", "p.st"]))]
    return [it.stdout.splitlines() for it in ran], [it.returncode for it in ran]


def without_time(line):
    return line.lstrip("0123456789")


def unfolded(lines):
    """The lines that a folded run stands for, without their times."""
    done = []
    for line in lines:
        again = AGAIN.fullmatch(line)
        if again:
            done += done[-int(again[1] or 1):] * int(again[2])
        elif not line.startswith("#"):
            done.append(without_time(line))
    return done


def stands_for(programs, folder, source, trace, most=None):
    (plain, whole, folded), statuses = runs(programs, folder, source, trace)
    if len(set(statuses)) > 1:
        return f"statuses {statuses}"
    if [it for it in whole if not it.startswith("#")] != plain:
        return "the run with notes has other lines"
    if unfolded(folded) != [without_time(it) for it in plain]:
        return "the folded run stands for other lines"
    if most and len(folded) >= most:
        return f"{len(folded)} lines"
    return "" if whole[-1] == folded[-1] else f"{folded[-1]}, not {whole[-1]}"


def block(programs, folder, extra, most):
    """A block of 60 lines is folded, and one with a line more is not."""
    source, trace = CYCLE.replace("EXTRA", str(extra)), "0 up A\n0 val A 0\n1 val A 300\n"
    wrong = stands_for(programs, folder, source, trace)
    folded = called(programs, "snl", folder, ["run", "p.st"], trace).stdout.splitlines()
    lines = [it for it in folded if not it.startswith("#")]
    is_folded = any(AGAIN.fullmatch(it) for it in folded)
    return wrong or ("" if is_folded == (most is not None) and (most is None or len(lines) < most) else f"{len(lines)} lines, folded: {is_folded}")


def jumps(programs, folder, steps, told):
    """A trace of which several pieces come: the jump is told wherever it is, and none where another step is long too."""
    (folder / "p.st").write_text(MANUAL)
    now, lines = 0, ["0 up MANUAL\n"]
    for number in range(2, 12_001):
        now += steps.get(number, 10)
        lines.append(f"{now} val MANUAL 0\n")
    ran = called(programs, "snl", folder, ["run", "p.st"], "".join(lines))
    written = ran.stdout.splitlines()
    found = [it for it in written if "clock jumps" in it]
    return "" if found == told and "10 start hand" in written else f"{found}, not {told}, in {len(written)} lines"


def slowly(programs, folder):
    """The lines of an instant are there before more of the trace is given."""
    (folder / "p.st").write_text(VALVE.replace("opened == 1", "pressure > 2000"))
    run = subprocess.Popen([programs["snl"], "run", "--whole", "p.st"], cwd=folder, stdin=subprocess.PIPE, stdout=subprocess.PIPE)
    run.stdin.write(b"0 up V:P\n0 up V:OPEN\n3 val V:P 7\n")
    run.stdin.flush()
    found = [run.stdout.readline().decode() for _ in range(4)]
    run.stdin.close()
    rest = run.stdout.read().decode()
    run.wait(timeout=SECONDS)
    wanted = ["3 start valve\n", "# clause 1 of shut, line 5: pressure=7 (trace line 3)\n", "3 put V:OPEN 1\n", "3 go gate shut wide\n"]
    end = "# end of the trace at 3, line 3\n# gate in wide since 3 (1 of 1 state set)\n# 1 transition, 1 put, 0 refused, 0 prints\n"
    return "" if (found, rest) == (wanted, end) else f"{found} and {rest!r}"


def pressure(number):
    """The value of a line of the trace over which memory is measured."""
    return number * 7919 % 4000


def summary(count):
    """The last line of a run over so many lines: the valve moves each time that the pressure passes the other limit."""
    moves, is_wide = 0, False
    for number in range(count):
        if pressure(number) > 2000 if is_wide else pressure(number) < 1000:
            moves, is_wide = moves + 1, not is_wide
    return f"# {moves} transitions, {moves} puts, 0 refused, 0 prints"


def memory(programs, folder):
    """What each call writes at last is what its trace has."""
    (folder / "p.st").write_text(VALVE.replace("opened == 1", "pressure > 2000"))
    for words in (["run", "p.st"], ["run", "--whole", "p.st"]):
        taken = []
        for count in (10, LINES):
            found = over(programs["snl"], folder, words, count)
            if (found.status, found.first, found.last) != (0, "0 start valve", summary(count)):
                return f"over {count} lines: {found}, not {summary(count)}"
            taken.append(found.kilobytes)
        wrong = grown(*taken, SLACK)
        if wrong:
            return wrong
    return ""


def over(program, folder, words, count):
    """What a call takes and writes over a trace of so many values."""
    trace = folder / f"{count}.trace"
    with open(trace, "w") as out:
        out.writelines(["0 up V:P\n", "0 up V:OPEN\n"] + [f"{n} val V:P {pressure(n)}\n" for n in range(count)])
    with open(trace) as stdin:
        return peak([program, *words], folder, stdin)
