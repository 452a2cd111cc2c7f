"""Cases of scripts/port, beside those of `ports.cases`: whole programs, files that are included, and what has to hold of each port.

A port that has nothing left by hand is accepted by `snc`, one with BY_HAND in it is refused for that word alone, a sketch is always
accepted, and each program that `snc` accepts without W1 comes out as it was, but for newlines at the end of formats.
"""
import os
import re
import subprocess
import sys
import tempfile
from concurrent.futures import ThreadPoolExecutor
from dataclasses import dataclass
from pathlib import Path

import files
import portcuts
import portfloats
from case import SECONDS, Case, differences

HERE = Path(__file__).resolve().parent
WHOLE = HERE / "port"
REFUSED = re.compile(rb"[^:\n]+:\d+: error: E13 'BY_HAND_?' is not declared\n?")
WARNING = re.compile(rb"[^:\n]+:\d+: warning: W[2-9] [^\n]+\n?")
# A program that snc accepts has tables. What says nothing may be one that does nothing.
TABLES = [b"--tables", b"p.st"]
NEWLINES_AT_END = re.compile(rb'(?:\\n)+"')
# Fewer than these would be cases that pass with nothing measured.
LEAST_PAIRS, LEAST_WHOLE, LEAST_COMPLETE, LEAST_RUNS, LEAST_SAME = 97, 44, 39, 13, 150
# A row of the table of docs/PORTING.md: the program, and how many places of it are left by hand.
ROW = re.compile(r"^\| `(\w+)` \| [^|]+ \| \d+ \| (\d+) \|$", re.MULTILINE)
OF_TABLE = 20
# A longer source takes the port too long for a case.
LONGEST = 20_000


def cases(root):
    """All cases but those of `ports.cases`."""
    for file in sorted(WHOLE.glob("*.st")):
        yield whole(file)
        if file.with_suffix(".trace").exists():
            yield Run(f"{file.relative_to(root)}: its run", file)
    yield from portfloats.cases(root)
    yield portcuts.Cuts("ports: quotients that are cut, beside exact fractions", root)
    yield portcuts.Chains("ports: quotients that are stored, beside exact fractions", root)
    yield Included("ports: a file that stands beside the program is read, with its macros")
    yield Table("ports: a table has units and texts as words of a shell")
    yield Units("ports: a file of units has what was chosen for each channel")
    yield Asked("ports: what snc says stands behind the notes")


def whole(file):
    """The case of a whole program: what is made of it, and the notes."""
    notes = file.with_suffix(".notes").read_bytes()
    statuses = (int(b": by hand: " in notes),)
    made = file.with_suffix(".new").read_bytes()
    name = f"{file.relative_to(HERE.parent)}: what is made of it"
    return Case(name, file.read_bytes(), b"", [b"--snc=", b"p.st"], made, notes, statuses, "port")


def wrong_of(made, is_complete, snc):
    """What snc says wrongly of a port: nothing where it is complete, and else that BY_HAND is not declared."""
    _, tables, said = Case("", made, words=TABLES, tool="snc").run(snc)
    lines = [it for it in said.splitlines() if not WARNING.fullmatch(it)]
    if is_complete:
        return [f"snc says {lines[0].decode()}"] if lines else [] if tables else ["snc writes no tables of it"]
    if not lines:
        return ["snc accepts what has something left by hand"]
    return [f"snc says {it.decode()}" for it in lines if not REFUSED.fullmatch(it)][:1]


def call(port, folder, *words, stdin=b""):
    """The status, output and messages of a port in a folder."""
    how = {"input": stdin, "capture_output": True, "cwd": folder, "timeout": SECONDS}
    ran = subprocess.run([port, *words], **how)
    return ran.returncode, ran.stdout, ran.stderr


@dataclass
class Run:
    """The run of a whole program over its trace. Where something is left by hand its sketch runs."""

    name: str
    file: Path
    tool: str = "snlrun"

    def failure(self, programs):
        made = self.file.with_suffix(".new").read_bytes()
        if b"BY_HAND" in made:
            made = call(programs["port"], WHOLE, "--snc=", "--sketch", self.file.name)[1]
        trace, out = (self.file.with_suffix(it).read_bytes() for it in (".trace", ".out"))
        status, stdout, stderr = Case("", made, trace).run(programs["snlrun"])
        said = [f"status {status}"] if status else []
        said += differences("stdout", out, stdout) + differences("stderr", b"", stderr)
        said += ["nothing comes out"] if out.count(b"\n") < 10 else []
        return "\n  ".join([f"FAILED {self.name}", *said]) if said else None


@dataclass
class Files:
    """Calls of the port in a folder, and what they have to give."""

    name: str
    tool: str = "port"

    def failure(self, programs):
        with tempfile.TemporaryDirectory(prefix="port-") as folder:
            wrong = self.wrong(folder, programs)
        return f"FAILED {self.name}\n  {wrong}" if wrong else None

    def wrong(self, folder, programs):
        """What is wrong, or nothing."""
        raise NotImplementedError


PROGRAM = """program p ("P=LAB:")
option +s;
#define ON 1
enum { OFF, WARM = -2 }; int m; assign m to "M"; monitor m; int k; assign k to "K";
double x; assign x to "{P}X"; string t; assign t to "{P}T"; int n; assign n to "{P}N"; double z; assign z to "Z";
ss s { state w { when (x > 1.5 && z > 1e-8) {
  if (m == ON || WARM != m) k = ON; switch (m) { case OFF: k = 2; }
  strcpy(t, "is high"); strcpy(t, "a,b: c"); strcpy(t, "no:1,yes"); } exit } }
"""
WORDS = """--enum M=WARM:-2,OFF:0,ON:1
--scale LAB:X=3
--enum 'LAB:T=is high:1,a,b: c:2'
--scale Z=10
"""


class Table(Files):
    """The words of a table."""

    def wrong(self, folder, programs):
        Path(folder, "p.st").write_text(PROGRAM)
        found = call(programs["port"], folder, "--snc=", "--table", "words", "p.st")
        words = Path(folder, "words").read_text()
        is_told = b'p.st:1: know: text "no:1,yes" has a number between a colon and a comma: it is left out of the table\n' in found[2]
        is_told = is_told and found[2].startswith(OF_BEFORE)
        return "" if found[0] == 0 and words == WORDS and is_told else repr((found, words))


OF_UNITS = """program p ("P=LAB:, Q=B:")
option +s;
#define ON 1
enum { OFF, WARM = -2 }; int m; assign m to "M"; monitor m; int k; assign k to "K"; double one; assign one to "ONE"; monitor one;
double x; assign x to "{P}X"; monitor x; string t; assign t to "{P}T"; double z[2]; assign z to {"Z1", "Z2"}; string r; assign r to "{Q}R.AINP"; monitor r;
string q; assign q to "Q"; monitor q; string w; assign w to "W"; monitor w; string e; assign e to "E"; monitor e; time_t now; double v; double u;
ss s { state w { when (x > 1.5 && z[0] > 1e-8 && !strncmp(r, "OK\\r", 2) && strstr(q, "a*b") && strcmp(e, "\\x41 \\"b\\"\\101") == 0) {
  if (m == ON || WARM != m) k = pvSeverity(x) + pvSeverity(z[1]) + pvStatus(x); switch (m) { case OFF: k = 2; }
  now = time(0) - pvTimeStamp(x); sscanf(w, "%lf %lf", &v, &u); if (v > 0.00001) one = u;
  strcpy(t, "is high"); strcpy(t, "a,b: c"); strcpy(t, "no:1,yes"); strcpy(t, "50% of 'it'"); pvPut(one);
} exit } }
"""
LINES_OF_UNITS = """enum M WARM:-2,OFF:0,ON:1
scale ONE 1
scale HALL:X 1000
enum HALL:T :0,is\\x20high:1,a\\x2cb\\x3a\\x20c:2,no\\x3a1\\x2cyes:3,50\\x25\\x20of\\x20\\x27it\\x27:4
scale Z1 10000000000
scale Z2 10000000000
text B:R.AINP OK*
text Q *a\\x2ab*
text W *
text E A\\x20\\x22b\\x22A
severity HALL:X.SEVR
severity Z1.SEVR
severity Z2.SEVR
time HALL:X.TIME
scale W.NUMBER 10000000
scale W.NUMBER2 1
time CLOCK
"""
OF_BEFORE = b"port: --table is the word of before: --units UNITS writes one file for all tools\n"


class Units(Files):
    """The file of units, with macros of the call in the names of channels."""

    def wrong(self, folder, programs):
        Path(folder, "p.st").write_text(OF_UNITS)
        words = ("--snc=", "--units", "units", "--unit", "one=0", "--unit", "w_number2=0", "--macros", " P=HALL: ", "p.st")
        status, made, said = call(programs["port"], folder, *words)
        lines = Path(folder, "units").read_text()
        if status or lines != LINES_OF_UNITS or not made or b": by hand: " in said:
            return repr((status, said, lines))
        wrong = call(programs["port"], folder, "--snc=", "--macros", "P", "p.st")
        if wrong[0] != 2 or not wrong[2].endswith(b"port: error: argument --macros: 'P' is not M=TEXT\n"):
            return repr(wrong)
        nowhere = call(programs["port"], folder, "--snc=", "--units", "gone/units", "p.st")
        return "" if nowhere[0] == 3 and nowhere[2] == b"port: cannot write to gone/units\n" else repr(nowhere)


INCLUDED = {
    "p.st": 'program p\noption +s;\n#include "limits.h"  /* all of them */\nint x; assign x to "a";\n'
    "ss s { state w { when (x > HIGH) { x = low; } exit } }\n",
    "limits.h": '/* limits */\n#include "more.h"\n\nint low = 2;\nint gone = LOW;\n',
    "more.h": "#define HIGH 7\n#define LOW 1\n",
}
OF_INCLUDED = b"""program p
option +s;
/* #include "limits.h"  / * all of them * / */ int low = 2; int gone = 1 /*LOW*/;
int x; assign x to "a";
ss s { state w { when (x > 7 /*HIGH*/) { x = low; } exit } }
"""


class Included(Files):
    """Files that are included."""

    def wrong(self, folder, programs):
        for name, text in INCLUDED.items():
            Path(folder, name).write_text(text)
        found = call(programs["port"], folder, "--snc=", "p.st")
        notes = b"p.st:3: know: file limits.h is read here\np.st:3: know: file more.h is read here\n"
        return "" if found == (0, OF_INCLUDED, notes) else repr(found)


class Asked(Files):
    """What `snc` is asked."""

    def wrong(self, folder, programs):
        Path(folder, "p.st").write_text("program p\noption +s;\nint x;\nss s { state w { when (time(x)) {} exit } }\n")
        asked = call(programs["port"], folder, "--snc", programs["snc"], "p.st")
        notes = b"p.st:4: by hand: function 'time': time(x)\nNEW:4: error: E13 'BY_HAND' is not declared\n"
        if asked[0] != 1 or asked[2] != notes:
            return repr(asked)
        sketch = call(programs["port"], folder, "--sketch", "--snc", programs["snc"], "p.st")
        if sketch[0] != 1 or sketch[2] != notes[: notes.index(b"NEW")]:
            return repr(sketch)
        nowhere = call(programs["port"], folder, "--snc", "gone/snc", "p.st")
        return "" if nowhere[0] == 3 and nowhere[2].endswith(b"port: cannot run gone/snc\n") else repr(nowhere)


def missing(root, programs):
    """Ports of `ports.cases` and of whole programs of which snc says something else than it has to; too few of them."""
    pairs = [it for it in files.cases(HERE / "ports.cases") if it.stdout]
    with ThreadPoolExecutor(os.cpu_count()) as pool:
        wrong = [it for some in pool.map(lambda it: wrong_of_pair(it, programs), pairs) for it in some]
    whole_ones = [it for it in cases(root) if isinstance(it, Case)]
    for it in whole_ones:
        wrong += [f"{it.name}: {said}" for said in wrong_of_pair(it, programs)]
    complete = sum(b": by hand: " not in it.stderr for it in whole_ones)
    counts = (
        (len(pairs), LEAST_PAIRS, "ports in ports.cases"),
        (len(whole_ones), LEAST_WHOLE, "whole programs"),
        (complete, LEAST_COMPLETE, "whole programs with nothing left by hand"),
        (sum(isinstance(it, Run) for it in cases(root)), LEAST_RUNS, "runs of whole programs"),
    )
    wrong += wrong_of_table(root)
    wrong += [f"only {found} {what}" for found, least, what in counts if found < least]
    return [f"FAILED ports: {it}" for it in wrong]


def wrong_of_table(root):
    """Rows of the table of docs/PORTING.md that are other than what is left by hand in the whole programs."""
    rows = [(name, int(here)) for name, here in ROW.findall((root / "docs/PORTING.md").read_text())]
    notes = {name: (WHOLE / f"{name}.notes").read_text() for name, _ in rows if (WHOLE / f"{name}.notes").exists()}
    wrong = [] if len(rows) == OF_TABLE else [f"docs/PORTING.md: {len(rows)} programs in the table, {OF_TABLE} are wanted"]
    for name, here in rows:
        found = notes[name].count(": by hand: ") if name in notes else None
        wrong += [f"docs/PORTING.md: {name} has {found} places by hand, not {here}"] if found != here else []
    complete = sum(here == 0 for _, here in rows)
    if f"| nothing by hand | of twenty | 5 | {complete} |" not in (root / "docs/PORTING.md").read_text():
        wrong.append(f"docs/PORTING.md: {complete} of the table have nothing by hand")
    return wrong


def wrong_of_pair(case, programs):
    """What snc says wrongly of a port, and of its sketch."""
    is_sketch = b"--sketch" in case.words
    is_byte = b": by hand: byte 0x" in case.stderr
    is_complete = b": by hand: " not in case.stderr or is_sketch
    wrong = [] if is_byte else wrong_of(case.stdout, is_complete, programs["snc"])
    if not is_complete and not is_byte:
        with tempfile.TemporaryDirectory(prefix="port-") as folder:
            Path(folder, "p.st").write_bytes(case.source)
            sketch = call(programs["port"], folder, "--sketch", *case.words)[1]
        wrong += [f"of the sketch {it}" for it in wrong_of(sketch, True, programs["snc"])]
    return [f"{case.name}: {it}" for it in wrong]


@dataclass
class Same:
    """Each source of a case that `snc` accepts without W1 comes out as it was, but for newlines at the end of formats."""

    sources: list
    root: Path
    name: str = "ports: what snc accepts comes out as it was"
    tool: str = "snc"

    def failure(self, programs):
        sys.path.insert(0, str(self.root / "scripts"))
        from porting.port import ported
        from porting.work import Settings

        limit = sys.getrecursionlimit()
        sys.setrecursionlimit(400_000)
        accepted = self.accepted(programs["snc"])
        wrong = []
        for source in accepted:
            made = ported(source.decode("latin-1"), "p.st", Settings()).text.encode("latin-1")
            if made != source and NEWLINES_AT_END.sub(b'"', made) != NEWLINES_AT_END.sub(b'"', source):
                wrong.append(source.decode("latin-1")[:200])
        sys.setrecursionlimit(limit)
        if len(accepted) < LEAST_SAME:
            wrong.append(f"only {len(accepted)} sources are accepted")
        return "\n  ".join([f"FAILED {self.name}", *wrong[:5]]) if wrong else None

    def accepted(self, snc):
        """The sources that snc accepts without W1."""
        sources = sorted({it for it in self.sources if len(it) < LONGEST})
        with ThreadPoolExecutor(os.cpu_count()) as pool:
            found = list(pool.map(lambda it: is_accepted(it, snc), sources))
        return [it for it, is_one in zip(sources, found) if is_one]


def is_accepted(source, snc):
    """Whether snc accepts a source without W1."""
    status, tables, said = Case("", source, words=TABLES, tool="snc").run(snc)
    return status == 0 and tables != b"" and all(WARNING.fullmatch(it) for it in said.splitlines())
