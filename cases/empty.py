"""The cases themselves: each has to fail where its programs do nothing, and where they only copy what they are given.

A case that passes then would pass whatever the programs did. Those that call no program of this repository are named here, each with
its reason. A case of one call is asked by functions in the place of the program, so thousands of them take a second; each other one
is run with `true` for every program. That a call has nothing to say shows nothing: case.py has a second call for that.
"""
import os
import shutil
from concurrent.futures import ThreadPoolExecutor
from dataclasses import replace
from pathlib import Path

from case import SILENT, Case

RECORD = "it tries scripts/epics/record.py alone, which calls no program"
MADE = "it tries a script of bin/ or scripts/ over programs that an `rt` of its own makes"
# Parts of the names of cases, and why these need no program.
WITHOUT = {
    "by a stub: values of all types": RECORD,
    "by a stub: the order of lines": RECORD,
    "by a stub: the channels that tables and words name": RECORD,
    "by a stub: an array of more values than a line can have": RECORD,
    "by a stub: what waits for the reader of record.py": RECORD,
    "by a stub: a file that is full: the trace of record.py": RECORD,
    "by a stub: second Ctrl-C": RECORD,
    "by a stub: a disk that is full: the trace of record.py": RECORD,
    "by a stub: what a file of units says of each value": RECORD,
    "by a stub: time stamps of a channel that is not recorded": RECORD,
    "by a stub: the clock, second by second": RECORD,
    "by a stub: lines of a file of units that are wrong": "it tries the words of record.py, which are wrong before a program runs",
    "by a stub: words that make no sense, and what is not there": "it tries the words of scripts/epics, which are wrong before a program runs",
    "bin/: ": MADE,
    "scripts/more-edits: ": MADE,
    "plot: the pictures of the pages are small": "it reads files of docs/",
    "plot: numbers in conditions": "it asks the modules of scripts/plotting alone",
    ": cpp makes it of the program": "it tries cpp, and what examples/ has of it",
    "definitions: wrong words: ": "it tries words of scripts/definitions that are wrong before a program is called",
    "definitions: no program: ": "it asks scripts/definitions of a source, which then calls no program",
    "definitions: processes: a signal ends all of them": "it interrupts scripts/definitions, whatever the programs say until then",
    "| awk -f with-clock.awk": "it tries an awk script of the page alone",
    "docs/PORTING.md: cat oven.units": "it shows a file that scripts/port wrote",
    "ports: quotients that are stored, beside exact fractions": "it asks the modules of scripts/porting, and computes with what these write",
    "ports: quotients that are cut, beside exact fractions": "it asks the modules of scripts/porting, and computes with what these write",
    "scripts/pages: the kept texts": "it tries scripts/pages alone",
    "scripts/editors: the kept files": "it tries scripts/editors alone",
    "editors/: both syntax files": "it reads files of editors/ and docs/",
    "scripts/port --snc= ": "it tries scripts/port, which is told to ask no snc",
}
# Of a case over many sources so many are taken.
SOURCES = 400
# Cases of this type start a server and two scripts each, and take half a second: the first of them stands for all.
DEAR = "Beside"


def failures(cases, programs):
    """A line for each case that passes over nothing, and for each name above that no case has."""
    named = {part: [it for it in cases if part in it.name] for part in WITHOUT}
    found = [f"FAILED empty.py: no case has {part!r} in its name" for part, those in named.items() if not those]
    without = {it.name for those in named.values() for it in those}
    dear = [it.name for it in cases if type(it).__name__ == DEAR][1:]
    asked = [it for it in cases if it.name not in {*without, *dear}]
    with ThreadPoolExecutor(os.cpu_count()) as pool:
        passed = [it for it in pool.map(lambda case: passes_by(case, programs), asked) if it]
    return found + [f"FAILED {it}" for it in passed]


def passes_by(case, programs):
    """What a case passes with, in words; nothing where it fails as it has to."""
    if type(case) is Case:
        named = [what for what, run in RUNS.items() if not case.wrong_by(lambda it, run=run: heard(it, *run(it)))]
    else:
        named = ["does nothing"] if passes(case, dict.fromkeys(programs, Path(shutil.which("true")))) else []
    return f"{case.name}: it passes where each program is one that {' and one that '.join(named)}" if named else ""


def passes(case, programs):
    """Whether a case passes with these programs. One that is not for this machine, or that stumbles, does not."""
    if hasattr(case, "lacks") and case.lacks():
        return False
    try:
        fewer = {"sources": case.sources[:SOURCES]} if hasattr(case, "sources") else {}
        return not replace(case, **fewer).failure(programs)
    except Exception:
        return False


def heard(case, status, stdout, stderr):
    """What comes of an answer: nothing of its standard output where that is a device."""
    return status, b"" if isinstance(case.stdout, Path) else stdout, stderr


def copied(case):
    """The answer of a program that copies its standard input."""
    return 0, given(case), b""


def shown(case):
    """The answer of `cat`: the files of the call, of which there are the sources alone; standard input where none is named."""
    if any(it.startswith(b"-") and it != b"-" for it in case.words):
        return 1, b"", b"cat: an option\n"
    texts = {b"p.st": case.source, b"-": given(case)}
    if case.other is not None:
        texts[b"q.st"] = case.other
    missing = [it for it in case.words if it not in texts]
    said = b"".join(b"cat: %s: No such file or directory\n" % it for it in missing)
    return int(bool(missing)), b"".join(texts.get(it, b"") for it in case.words or [b"-"]), said


def given(case):
    """What stands on the standard input of a case; nothing where that is a device."""
    return case.trace if isinstance(case.trace, bytes) else b""


RUNS = {"does nothing": lambda _: SILENT, "copies its input": copied, "shows its files": shown}
