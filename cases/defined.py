"""All cases and examples by the definitions themselves: `scripts/definitions` reads these and executes them.

Each run has to give the lines of snlrun, its status, and its words about a bad line of the trace; each source the messages and the tables of
snc. The clauses that no case reaches have to be those that docs/DEFINITIONS.md lists, with their counts, and 3 of 100 at most. And each edit
of `slips` has to be seen by the case that it names."""
import re
import subprocess
import sys
import tempfile
from dataclasses import dataclass
from pathlib import Path

from case import differences

SCRIPT = "scripts/definitions"
SECONDS = 1200
# So many processes beside other cases.
JOBS = "2"
# How many runs and how many sources there are at least; and of a hundred clauses so many at most may be reached by no case.
RUNS, SOURCES, UNREACHED = 700, 4_000, 3
# The definitions of the words of a call, which the script asks beside a run.
OF_CALLS = "crates/snc_args/specs/Options.antt"
# Files of definitions without an edit: what it says is seen at sources alone that take too long, of more than 65,536 tokens.
WITHOUT_EDIT = {"crates/snl_messages/specs/Given.antt"}
# Programs whose words are counted.
QUEUED = """program u option +s; int x; assign x to "a"; monitor x; evflag f; syncQ x to f 2;
ss s { state w { when (delay(1.0) && pvGetQ(x)) { printf("%d %d", x, efTest(f)); } state w } }
"""
TWO_SETS = """program g option +s; int x; assign x; monitor x;
ss one { state a { when (delay(1)) { x = 5; } state b } state b { when (delay(1)) { pvPut(x); } state c } state c { when (FALSE) {} state c } }
ss two { state w { when (x == 5) { printf("saw %d\\n", x); } state z } state z { when (FALSE) {} state z } }
"""
CALLS = """program f option +s; int x; assign x to "a"; monitor x;
int twice(int n) { return n * 2; }
int add(int n, int m) { int i; for (i = 0; i < m; i++) n = n + 1; return n; }
ss s { state w { when (twice(x) > 5) { printf("%d", add(x, 2)); } exit } }
"""
# A program that the rules refuse.
REFUSED = """program r option +s;
ss s { state a { when () { printf("%d", unknown()); } exit } }
"""
SUMS = re.compile(r"(\d+) runs and the messages about (\d+) sources by the definitions, (\d+) different, (\d+) skipped")
CLAUSES = re.compile(r"^((\d+) of (\d+) clauses (?:under a run|in all)) are reached by no case$", re.MULTILINE)
COUNTS = re.compile(r"^\d+ definitions of \d+ files (?:under a run|in all), \d+ clauses$", re.MULTILINE)
ROW = re.compile(r"^\| `(crates/\S+)` \| `(.*?)` \| .+ \|$", re.MULTILINE)


@dataclass
class Defined:
    """A call of the script, and what its output has to be: a text, or what a function says of it."""

    name: str
    root: Path
    words: list
    stdout: object
    stderr: str = ""
    status: int = 0
    trace: bytes = b""
    source: str = ""
    tool: str = "snl"

    def lacks(self):
        """Python 3.11, where there is none."""
        return "" if sys.version_info >= (3, 11) else "there is no Python 3.11 here"

    def failure(self, programs):
        """What is wrong, or nothing."""
        named = [f"--{name}={programs[name]}" for name in ("snl", "snlrun", "snc")]
        with tempfile.TemporaryDirectory(prefix="snlrun-") as folder:
            Path(folder, "p.st").write_text(self.source)
            call = [self.root / SCRIPT, *named, *self.words]
            ran = subprocess.run(call, input=self.trace, capture_output=True, timeout=SECONDS, cwd=folder)
        told, said = ran.stdout.decode(), ran.stderr.decode()
        wrong = [f"status {ran.returncode}, not {self.status}: {said}"] if ran.returncode != self.status else []
        wrong += self.stdout(self.root, told) if callable(self.stdout) else differences("stdout", self.stdout.encode(), ran.stdout)
        if not callable(self.stdout):
            wrong += differences("stderr", self.stderr.encode(), ran.stderr)
        return "\n  ".join([f"FAILED {self.name}", *wrong]) if wrong else None


def cases(root):
    """One for all runs, one for all edits, and small calls."""
    yield Defined("definitions: all cases by the definitions", root, ["--coverage", "--jobs", JOBS], wrong_with_runs)
    yield Defined("definitions: edits of definitions", root, ["--slips"], wrong_with_slips)
    yield from of_page(root)
    light, trace = root / "examples/light.st", (root / "examples/light.trace").read_bytes()
    yield Defined("definitions: a bad line", root, [light], "", "ended by TraceFault 1 BadTime\n", 6, b"x\n")
    yield Defined("definitions: the first calls of one", root, ["--why", "Turn.fired", "--first", "1", light], wrong_with_call, trace=trace)
    station = root / "examples/station/station.st"
    yield Defined("definitions: tables", root, ["--tables", station], station.with_suffix(".tables").read_text())
    yield Defined("definitions: how many words a program needs, as docs/CALL.md has it", root, ["--footprint", light], "21\n")
    yield from footprints(root)
    yield from of_source(root)
    yield from wrong_words(root, light)


def footprints(root):
    """How many words programs need, added up by hand. Each has five single words; `printf`, `==`, `>` and a call hold two operands at once."""
    for what, words, source in (
        # A copy of one variable, a buffer, a queue of two items, a mark, whether the link waits, a state and its entry, a flag, a channel.
        ("a queue and a flag", 1 + 1 + 2 + 1 + 1 + 2 + 1 + 2 + 5 + 2, QUEUED),
        # Two copies of one variable, a buffer, two marks, whether the link waits, two states and their entries.
        ("two state sets and no channel", 2 + 1 + 2 + 1 + 4 + 5 + 2, TWO_SETS),
        # A copy of one variable, a parameter of the one function, two and a variable of the other, a place to return to for each, a
        # buffer, a mark, whether the link waits, a state and its entry, a channel.
        ("two functions", 1 + 4 + 2 + 1 + 1 + 1 + 2 + 2 + 5 + 2, CALLS),
    ):
        yield Defined(f"definitions: how many words a program with {what} needs", root, ["--footprint", "p.st"], f"{words}\n", source=source)


def of_source(root):
    """What is said of a source, and a run of a program that the rules refuse."""
    ran, said = "0 start r\n0 print s 0\n0 go s a exit\n0 exit r\n", "p.st:2: error: E16 unknown function 'unknown'\n"
    yield Defined("definitions: no program: messages about a source", root, ["--messages", "p.st"], said, "", 1, source=REFUSED)
    name, ended = "definitions: no program: one that the rules refuse", "ended by ProgramEnded\n"
    yield Defined(name, root, ["--refused", "p.st"], ran, ended, trace=b"0 tick\n", source=REFUSED)
    no_tree = "definitions: the source has no tree: token 1 cannot stand there\n"
    yield Defined("definitions: no program: a source without a tree", root, ["--refused", "p.st"], "", no_tree, 1, source="program 1")
    no_program = "definitions: the tokens spell no program; where they begin to spell none is not computed\n"
    name = "definitions: no program: messages about a source without a tree"
    yield Defined(name, root, ["--messages", "p.st"], "", no_program, 2, source="program 1")


def of_page(root):
    """What docs/DEFINITIONS.md shows: a program, its run, and the calls of a definition."""
    page = (root / "docs/DEFINITIONS.md").read_text().split("\n## A definition that runs\n")[1].split("\n## ")[0]
    source = re.search(r"^```\n(program .*?)^```$", page, re.DOTALL | re.MULTILINE)[1]
    trace = "".join(f"{it}\n" for it in re.findall(r"`(\d+ (?:up|val) A.*?)`", page)).encode()
    shown = re.search(r"^```\n(\$ .*?)^```$", page, re.DOTALL | re.MULTILINE)[1]
    for call, answer in re.findall(r"^\$ scripts/definitions (.*?) < .*\n((?:(?!\$ ).*\n)*)", shown, re.MULTILINE):
        words = ["p.st" if it == "halves.st" else it for it in call.split()]
        *lines, end = answer.splitlines(keepends=True)
        yield Defined(f"definitions: docs/DEFINITIONS.md, {call}", root, words, "".join(lines), end, trace=trace, source=source)


def wrong_words(root, light):
    """Calls with words that are wrong."""
    arithmetic = "crates/snl_arithmetic/specs/Arithmetic.antt"
    edit, placed = ["--edit", arithmetic, "= divided int_div x y"], f"definitions: {arithmetic}:58: computed"
    unknown = "is no definition, no constructor and no name of the library that is known here\n"
    for words, said in (
        (["--why", "anything", light], "definitions: no definition under a run is called anything\n"),
        (["--why"], "definitions: --why takes 1 words\n"),
        (["--why", "computed", "--first", "x", light], "definitions: x behind --first is no number from 1 to 1,000,000,000\n"),
        (["--jobs", "0", "--cases"], "definitions: 0 behind --jobs is no number from 1 to 1,000,000,000\n"),
        (["--jobs", "2", light], "definitions: --jobs goes with --cases, --all and --coverage\n"),
        (["--budget", "0", light], "definitions: 0 behind --budget is no number from 1 to 1,000,000,000\n"),
        ([], "definitions: the words are FILE and MACROS\n"),
        (["--whole", light], "definitions: --whole is no word of this call\n"),
        (["--edit", arithmetic, "no such text", "x"], f"definitions: {arithmetic} has 0 times: no such text\n"),
        ([*edit, "= quotient x y"], f"{placed}: quotient {unknown}"),
        ([*edit, "= divided (int_div x y"], f"{placed}: ) has to stand where None stands, near divided ( int_div x y\n"),
    ):
        name = " ".join(str(it).removeprefix(f"{root}/") for it in words) or "no words"
        # A name is looked for, and a number is wrong, once the program has a tree.
        front = "" if words[-1:] == [light] and words[0] == "--why" else "wrong words: "
        yield Defined(f"definitions: {front}{name}", root, words, "", said, 2)
    yield Defined("definitions: a file that is not there", root, ["q.st"], "", "snl: cannot read q.st\n", 3)
    edit = ["--edit", arithmetic, "computed Percent x y = divided int_rem x y", "computed Percent x y = divided int_div x y", "LANGUAGE.md: -7"]
    seen = "seen by docs/LANGUAGE.md: -7 % 2: line 2: 0 print s -3 by the definitions, and not 0 print s -1\n"
    yield Defined("definitions: an edit that is seen", root, edit, seen)
    edit = ["--edit", arithmetic, "computed_prefix _ x = Ok x", "computed_prefix _ x = Ok y", "LANGUAGE.md: -7"]
    said = f"definitions: {arithmetic}:67: computed_prefix: y {unknown}"
    yield Defined("definitions: wrong words: an edit that names nothing", root, edit, "", said, 2)


def wrong_with_call(root, told):
    """What is wrong with a call of a definition that does not fit on a line: its name, an argument a line, and what it gives."""
    lines = told.splitlines()
    forms = ["fired", "  {set = 0; ", "  0", "  None", "  {time = 0; ", "  = Gives Stayed {time = 0; "]
    return [] if len(lines) == len(forms) and all(map(str.startswith, lines, forms)) else [f"no call in {told[:400]!r}"]


def wrong_with_runs(root, told):
    """What is wrong with the output about all cases."""
    sums, clauses = SUMS.search(told), CLAUSES.findall(told)
    if not sums or len(clauses) != 2:
        return [f"no sums in {told[-400:]!r}"]
    wrong = [it for it in told.splitlines() if it.startswith("DIFFERENT")]
    wrong += [f"only {sums[at]} {what}" for at, what, least in ((1, "runs", RUNS), (2, "sources", SOURCES)) if int(sums[at]) < least]
    wrong += [f"more than {UNREACHED} of 100: {all_of_it}" for all_of_it, few, many in clauses if int(few) * 100 > int(many) * UNREACHED]
    page = (root / "docs/DEFINITIONS.md").read_text()
    wrong += [f"docs/DEFINITIONS.md does not tell: {it[0]}" for it in clauses if it[0] not in " ".join(page.split())]
    listed = set(ROW.findall(page))
    found = {tuple(it.split(":", 1)[0:1]) + (it.split(" ", 1)[1],) for it in told.splitlines() if re.match(r"crates/\S+:\d+ ", it)}
    wrong += [f"docs/DEFINITIONS.md does not list a clause that no case reaches: {it}" for it in sorted(found - listed)]
    return wrong + [f"docs/DEFINITIONS.md lists a clause that is none, or that a case reaches: {it}" for it in sorted(listed - found)]


def wrong_with_slips(root, told):
    """What is wrong with the output about edits: each file of definitions that are run has one, but those that have no clauses. The counts of
    definitions stand on the page, and that of the clauses under a run in the README."""
    edited = set(re.findall(r"^file: (\S+)$", (root / "cases/slips").read_text(), re.MULTILINE))
    needed = subprocess.run([root / SCRIPT, "--list"], capture_output=True, text=True, check=True).stdout
    files = set(re.findall(r"^(crates/\S+\.antt):", needed, re.MULTILINE))
    wrong = [it for it in told.splitlines() if it.startswith("NOT SEEN")]
    wrong += [f"cases/slips has no edit of {it}" for it in sorted(files - edited - WITHOUT_EDIT)]
    wrong += [f"cases/slips has edits of {it}, of which no definition is run" for it in sorted(edited - files - {OF_CALLS})]
    counts, page = COUNTS.findall(needed), (root / "docs/DEFINITIONS.md").read_text()
    wrong += [f"docs/DEFINITIONS.md does not tell: {it}" for it in counts if it not in " ".join(page.split())]
    clauses = f"its {counts[0].split(', ')[1]} can be run"
    return wrong + [f"the README does not tell that {clauses}"] * (clauses not in (root / "README.md").read_text())
