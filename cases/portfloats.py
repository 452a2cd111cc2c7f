"""Ports that count in small steps, beside the same arithmetic with the floating-point numbers of Python, over 2,000 lines each.

The first is an orbit feedback whose errors are 8 to 15 micrometres, the second a controller whose errors are 0.08 to 0.15 degrees.
Each put of the port has to be within one per cent of what the original computes.
"""
import random
import re
from dataclasses import dataclass
from pathlib import Path

from case import Case

LINES = 2000
MOST_OFF = 0.01
# The first puts are a few steps, in which the rounding of what comes in shows.
SKIPPED = 5


@dataclass
class Floats:
    """A whole program of cases/port beside floats."""

    name: str
    file: Path
    # Gives the trace in the units of the port, and the values that the puts to a channel have to have.
    made: object
    channel: str
    digits: int
    tool: str = "snlrun"

    def failure(self, programs):
        trace, wanted = self.made()
        case = Case("", self.file.with_suffix(".new").read_bytes(), "".join(f"{it}\n" for it in trace).encode())
        status, stdout, stderr = case.run(programs["snlrun"])
        puts = [int(it[1]) for it in re.finditer(rf"^\d+ put {self.channel} (-?\d+)$".encode(), stdout, re.MULTILINE)]
        found = [it / 10**self.digits for it in puts]
        wrong = [] if status == 0 and not stderr else [f"status {status}: {stderr.decode()}"]
        wrong += [] if len(found) == len(wanted) else [f"{len(found)} puts, {len(wanted)} are wanted"]
        off = max((abs(one - other) / abs(other) for one, other in list(zip(found, wanted))[SKIPPED:]), default=1)
        wrong += [f"off by {off:.2%} at most"] if off > MOST_OFF else []
        return "\n  ".join([f"FAILED {self.name}", *wrong]) if wrong else None


def feedback():
    """The feedback: 500 times four positions, a step each second."""
    golden = [0.0, 0.125, -0.050, 0.010]
    inverse = [0.0812, -0.0347, 0.0123, -0.0051]
    source, kick, gain = random.Random(7), 0.0, 0.2
    trace = [f"0 up SR01:BPM{it}:X" for it in (1, 2, 3, 4)] + [f"0 up SR01:COR{it}:SET" for it in (1, 2, 3)]
    trace += ["0 up SOFB:GAIN", "0 up SOFB:ON", "0 up SOFB:RMS", "0 up SR01:DCCT"]
    trace += ["0 val SOFB:GAIN 200", "0 val SR01:DCCT 300000"] + [f"0 val SR01:BPM{it}:X 0" for it in (1, 2, 3, 4)] + ["0 val SOFB:ON 1"]
    wanted = []
    for second in range(LINES // 4):
        errors = [source.uniform(0.008, 0.015) for _ in golden]
        for at, (middle, error) in enumerate(zip(golden, errors), 1):
            trace.append(f"{second * 1000 + 500} val SR01:BPM{at}:X {round((middle + error) * 10**4)}")
        for factor, error in zip(inverse, errors):
            kick -= gain * factor * error
        wanted.append(kick)
    return [*trace, f"{LINES // 4 * 1000} tick"], wanted


def controller():
    """The controller: 2,000 temperatures, a step each second."""
    source, integral = random.Random(11), 0.0
    names = ["T", "TARGET", "RAMP", "KP", "KI", "MAXPOWER", "POWER", "SP", "RUN", "STATE"]
    first = {"T": 5000000, "TARGET": 5000000, "RAMP": 2000, "KP": 1500, "KI": 400, "MAXPOWER": 100 * 10**8, "RUN": 1}
    trace = [f"0 up LAB:FURN1:{it}" for it in names] + [f"0 val LAB:FURN1:{name} {value}" for name, value in first.items()]
    wanted = [0.0]
    for second in range(LINES):
        error = source.uniform(0.08, 0.15)
        trace.append(f"{second * 1000 + 500} val LAB:FURN1:T {round((500 - error) * 10**4)}")
        integral = max(0.0, min(integral + 0.004 * error, 100.0))
        wanted.append(max(0.0, min(1.5 * error + integral, 100.0)))
    return [*trace, f"{LINES * 1000} tick"], wanted


def cases(root):
    """Both."""
    folder = root / "cases/port"
    yield Floats("cases/port/orbitfb.st: beside floats", folder / "orbitfb.st", feedback, "SR01:COR1:SET", 9)
    yield Floats("cases/port/furnace.st: beside floats", folder / "furnace.st", controller, "LAB:FURN1:POWER", 8)
