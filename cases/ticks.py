"""Cases of lines that tell that time has passed: in front of the millisecond of a line they change nothing of what a run writes, where no condition
changes anything. So a search of `--gaps all`, whose traces have such lines, says something of all times."""
import subprocess
import tempfile
from dataclasses import dataclass
from pathlib import Path

from case import SECONDS, Case


# Runs whose conditions change variables, print or put: each line has them done once more.
CHANGING = (
    "forms.cases: operators that assign, `+`, `|`, `&`, a step in front",
    "functionruns.cases: in `delay`: it is called in each instant",
    "functionruns.cases: a condition hands a `delay` to a function",
    "functionsets.cases: a value that comes is in the copy of the state set that calls",
    "puts.cases: a put of a condition that fails is taken in at the next instant",
)


@dataclass
class Ticks:
    name: str
    source: Path
    trace: Path
    tool: str = "snlrun"

    def failure(self, programs):
        plain, more = self.trace.read_bytes(), b"".join(ticked(self.trace.read_bytes()))
        wanted, came = (ran(programs, self.source, it) for it in (plain, more))
        said = []
        if more.count(b" tick\n") <= plain.count(b" tick\n"):
            said.append("no line was put between the others")
        if not wanted[1]:
            said.append("the run writes nothing")
        if came != wanted:
            said.append(f"with ticks it is {came}, and without them {wanted}")
        return "\n  ".join([f"FAILED {self.name}", *said]) if said else None


@dataclass
class Every:
    """All runs of the cases that end well or with a fault of the program, each over its trace with ticks: it is the same but for those whose
    conditions change something, which is seen."""
    runs: list
    name: str = "ticks between the lines of every trace of the cases"
    tool: str = "snlrun"

    def failure(self, programs):
        said, count = [], 0
        with tempfile.TemporaryDirectory(prefix="snlrun-") as folder:
            source = Path(folder, "p.st")
            for run in self.runs:
                more = b"".join(ticked(run.trace))
                if more == run.trace:
                    continue
                source.write_bytes(run.source)
                wanted, came = (ran(programs, source, it) for it in (run.trace, more))
                count += 1
                if (came[:2] == wanted[:2]) == run.name.startswith(CHANGING):
                    said.append(f"{run.name}: with ticks it is {came}, and without them {wanted}")
        if count < 100:
            said.append(f"there are {count} runs only")
        return "\n  ".join([f"FAILED {self.name}", *said]) if said else None


def every(cases):
    """The case of all runs among some cases."""
    runs = [it for it in cases if isinstance(it, Case) and it.tool == "snlrun" and isinstance(it.trace, bytes) and it.words == [b"p.st"]]
    return Every([it for it in runs if it.statuses in ((0,), (5,)) and it.trace])


def ran(programs, source, trace):
    """The status of a run over a trace, and what it wrote."""
    done = subprocess.run([programs["snlrun"], source], input=trace, capture_output=True, timeout=SECONDS)
    return done.returncode, done.stdout, done.stderr


def ticked(trace):
    """The lines of a trace, and between two of them ticks at the time of the first, a millisecond behind it, half way, and a millisecond in front of
    the second."""
    last = None
    for line in trace.splitlines(keepends=True):
        word = line.split()[:1]
        if word and word[0].isdigit():
            now = int(word[0])
            if last is not None:
                for at in sorted({last, last + 1, (last + now) // 2, now - 1}):
                    if last <= at < now:
                        yield b"%d tick\n" % at
            last = now
        yield line


def cases(root):
    programs = sorted((it.stem for it in (root / "examples").glob("*.st")), key=len, reverse=True)
    for trace in sorted((root / "examples").glob("*.trace")):
        name = next(it for it in programs if trace.stem == it or trace.stem.startswith(f"{it}-"))
        # A bad line ends the run of one, which is told by its number.
        if trace.stem != "light-typo":
            yield Ticks(f"ticks between the lines of {trace.stem}.trace", root / "examples" / f"{name}.st", trace)
