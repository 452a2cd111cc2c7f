"""Cases on builds with no proof, which check at run time what the proofs would show: where these stand, which cases are left to the gate."""
import subprocess
from concurrent.futures import ThreadPoolExecutor

from case import Case

CRATES = {"snlrun": "snlrun", "snc": "snc_main", "snl": "snl"}
# Parts of the names of cases that are slow without a proof: runs of ten thousands of lines, or of as many steps at one instant.
SLOW = (
    "snl run: a valve that opens and shuts in one instant",
    "snl run: a switch that stays 1",
    "snl run: a dome that hunts",
    "traces.cases: a trace of many pieces",
    "faults.cases: a step more than the budget of an instant",
    "search.cases: a gate valve that goes to and fro",
    "search.cases: a dwell of 0",
    "search.cases: the trace that is written",
    "search.cases: a trace that cannot be written",
    "bin/snl search --lines 100 --never watch.bad examples/interlock-watched.st",
    "definitions: all cases by the definitions",
)


def is_one(program):
    """Whether a program is such a build: where bin/try leaves it."""
    return program.parts[-3:-1] == ("out", "try")


def programs(root):
    """Where bin/try leaves the programs."""
    return {name: root / "crates" / crate / "out/try" / name for name, crate in CRATES.items()}


def needed(case):
    """The programs that a case may call: one that is more than a call of its tool may call each."""
    return {case.tool} if type(case) is Case and case.tool in CRATES else {*CRATES}


def of_one(cases):
    """Those of the cases that call one program alone, the one that most of them call."""
    alone = {name: [it for it in cases if needed(it) == {name}] for name in CRATES}
    return max(alone.values(), key=len)


def left_to_the_gate(cases):
    """The cases whose names stand in the list."""
    return [it for it in cases if any(part in it.name for part in SLOW)]


def build(root, cases):
    """Builds what the cases call, where it is new. The names of programs for which that failed."""
    names = sorted(set().union(*map(needed, cases)))
    with ThreadPoolExecutor(len(CRATES)) as pool:
        return [name for name, well in zip(names, pool.map(lambda it: is_built(root, it), names)) if not well]


def is_built(root, name):
    """Whether bin/try has the program, or could build it; it says itself what it does."""
    return subprocess.run([root / "bin/try", name, "--help"], stdin=subprocess.DEVNULL, stdout=subprocess.DEVNULL).returncode == 0
