"""Asks all cases of the definitions: the run of each program beside that of `snlrun`, the messages and tables of each source beside
those of `snc`.

A run over more than 2,000 lines or over a line of more than 1,000 bytes, or of more than 200 ticks at an instant, takes long by the
definitions, and so do the messages about a source of more than 4,500 bytes: such ones are skipped and counted, unless all are asked for."""
import importlib.machinery
import importlib.util
import os
import subprocess
import sys
import tempfile
from collections import Counter
from dataclasses import dataclass
from pathlib import Path

from defining import calls
from defining.checks import Checker
from defining.definitions import NoClause
from defining.sources import NotUnderstood
from defining.trees import BadTree
from defining.values import some
from defining.workers import Outcome

# So many lines of a trace, bytes of a line, ticks of an instant, and bytes of a source at most.
LINES, BYTES, TICKS, SOURCE = 2_000, 1_000, 200, 4_500
# Each event of a trace of so few lines is asked whether it fits the machine.
SHORT = 40
# How the line of a fault ends where more ticks are wanted.
SPENT = b" budget spent\n"
# What snlrun says of a bad line of a trace (docs/TRACE.md, "Bad lines"), by the fault that the definitions give.
FAULTS = {
    "LineTooLong": "line too long",
    "NotAscii": "not ASCII text",
    "BadTime": "bad time",
    "BackInTime": "time goes back",
    "UnknownWord": "unknown word",
    "FieldCount": "wrong number of fields",
    "BadValue": "bad value",
    "OutOfRange": "value out of range",
}
# The statuses of a call whose program was run, and that of a fault.
RAN, FAULT = (0, 5, 6), 5
# The statuses of a call of snc that judged a source, and that of one that is accepted.
JUDGED, ACCEPTED = (0, 1), 0
# What snc says where tokens spell no program.
NO_PROGRAM = (b": error: E01 ", b": error: E02 ")
TOOLS = ("snlrun", "snc", "snl")
# What a case counts as: what was compared, and for what it was skipped.
RUNS, SOURCES = "runs", "sources"
LONG_SOURCE, LONG_LINE = f"sources of more than {SOURCE:,} bytes", f"runs over a line of more than {BYTES:,} bytes"
LONG_TRACE, MANY_TICKS = f"runs over more than {LINES:,} lines", f"runs of more than {TICKS} ticks at an instant"
SKIPPED = (LONG_TRACE, LONG_LINE, MANY_TICKS, LONG_SOURCE)
# Programs that the rules refuse, with what the definitions say that they do.
REFUSED = "cases/refused.runs"


@dataclass
class Case:
    """A run of a case: its name, its source, the words of its call and its trace; and its answer, where the rules refuse the program."""

    name: str
    source: bytes
    words: list
    trace: bytes
    answer: object = None

    def length(self):
        """How long it is, and so what it takes, roughly."""
        return len(self.source) + len(self.trace)


@dataclass
class Source:
    """A source of a case with the options of its call: its messages are compared."""

    name: str
    source: bytes
    words: list

    def length(self):
        """How long it is."""
        return len(self.source)


@dataclass
class Answer:
    """What a run gave: its lines, its status, and what was said of a bad line of the trace."""

    lines: bytes
    status: int
    said: bytes

    def difference(self, other):
        """Where two answers differ, in words; nothing where they are the same."""
        left, right = self.lines.split(b"\n"), other.lines.split(b"\n")
        for number, (one, two) in enumerate(zip(left + [b"(no line)"], right + [b"(no line)"]), 1):
            if one != two:
                return f"line {number}: {one.decode('latin-1')} by the definitions, and not {two.decode('latin-1')}"
        one, two = (f"status {it.status} {it.said.decode('latin-1').strip()}".strip() for it in (self, other))
        return None if one == two else f"{one} by the definitions, and not {two}"


def stored_cases(root):
    """The cases of `cases/` and of the examples that call a program with a source of their own."""
    sys.path[:0] = [str(root / "cases"), str(root / "cases/epics")]
    loader = importlib.machinery.SourceFileLoader("cases_run", str(root / "cases/run"))
    module = importlib.util.module_from_spec(importlib.util.spec_from_loader("cases_run", loader))
    loader.exec_module(module)
    import files
    from case import Case as Stored

    return [it for it in [*files.examples(root), *module.cases_of(root)] if type(it) is Stored and it.tool in TOOLS]


def all_cases(root):
    """The runs of all cases, those of programs that the rules refuse, and each source once with each choice of options."""
    stored, seen = stored_cases(root), set()
    for it in stored:
        if it.tool == "snlrun" and b"--help" not in it.words and b"--version" not in it.words:
            trace = it.trace.read_bytes() if isinstance(it.trace, Path) and it.trace.is_file() else it.trace
            if isinstance(trace, bytes):
                yield Case(it.name, it.source, it.words, trace)
    refused = [*refused_runs(root)]
    yield from refused
    for it in [*stored, *refused]:
        words = [word for word in it.words if word[:1] in (b"+", b"-") and word[1:2] not in (b"", b"-")]
        if it.source and (it.source, *words) not in seen:
            seen.add((it.source, *words))
            yield Source(f"messages: {it.name}", it.source, words)


def refused_runs(root):
    """Runs of programs that the rules refuse: each definition has an answer for every tree, and these are the answers."""
    import files

    for it in files.cases(root / REFUSED):
        yield Case(it.name, it.source, it.words, it.trace, Answer(it.stdout, it.statuses[0], it.stderr))


class Comparer:
    """Asks cases of the definitions, and compares."""

    def __init__(self, runner, trees, programs, limited=True):
        """With the built programs by their names; a case that takes too long is skipped where cases are limited."""
        self.runner, self.trees, self.programs, self.limited = runner, trees, programs, limited
        self.checker, self.counts = Checker(runner), Counter()

    def outcome(self, case):
        """What comes of a case. A definition that is not understood ends all."""
        self.counts, told, stop = Counter(), None, ()
        try:
            told = self.difference(case)
        except (NoClause, BadTree) as failed:
            told = str(failed)
        except subprocess.TimeoutExpired as failed:
            told = f"{os.path.basename(os.fsdecode(failed.cmd[0]))} had not ended after {failed.timeout} s"
        except calls.Failed as failed:
            told = failed.said or f"a program ended with status {failed.status}"
        except NotUnderstood as failed:
            stop = f"definitions: {failed}", 2
        return Outcome(told or "", dict(self.counts), stop=stop)

    def difference(self, case):
        """Where a case has another answer by the definitions, in words; nothing where it has the same, or asks for none."""
        return self.of_source(case) if isinstance(case, Source) else self.of_run(case)

    # ---- messages

    def of_source(self, case):
        """The same of the messages about a source."""
        if self.limited and len(case.source) > SOURCE:
            self.counts[LONG_SOURCE] += 1
            return None
        try:
            call = calls.call_of(self.runner, [*case.words, b"p.st"])
        except calls.Failed:
            return None
        with tempfile.TemporaryDirectory(prefix="definitions-") as folder:
            Path(folder, "p.st").write_bytes(case.source)
            words = [os.fsencode(self.programs["snc"]), *call.options, b"--tables", b"p.st"]
            snc = subprocess.run(words, stdin=subprocess.DEVNULL, capture_output=True, timeout=calls.SECONDS, cwd=folder)
            if snc.returncode not in JUDGED:
                return None
            self.counts[SOURCES] += 1
            report = self.checker.report(case.source, call.given, b"p.st")
            if report is None:
                return None if any(it in snc.stderr for it in NO_PROGRAM) else f"no program by the definitions, and not {snc.stderr!r}"
            for one, two in ((report.text, snc.stderr), (report.tables, snc.stdout)):
                if one != two:
                    return f"{one!r} by the definitions, and not {two!r}"
            if snc.returncode == ACCEPTED and some(self.tree(call, folder)) != report.tree:
                return "another tree by the definitions than by snl"
        return None

    # ---- runs

    def of_run(self, case):
        """The same of a run."""
        try:
            call = calls.call_of(self.runner, case.words)
        except calls.Failed:
            return None
        lines = case.trace.split(b"\n")
        if self.limited and (long := LONG_LINE if max(map(len, lines)) > BYTES else LONG_TRACE if len(lines) > LINES else None):
            self.counts[long] += 1
            return None
        with tempfile.TemporaryDirectory(prefix="definitions-") as folder:
            Path(folder, "p.st").write_bytes(case.source)
            wanted = case.answer or self.wanted(call, case, folder)
            if wanted is None:
                return None
            self.counts[RUNS] += 1
            tree = self.checker.tree(self.checker.reading(case.source)) if case.answer else self.tree(call, folder)
            loaded = self.runner.load(tree, call.given, call.macros)
            said = self.by_definitions(loaded, call, case).difference(wanted)
        if not said and len(lines) < SHORT and not self.runner.all_fit(loaded, case.trace, call.budget):
            return "an event of the trace does not fit the machine"
        return said

    def tree(self, call, folder):
        """The tree of a program, as `snl tree` writes it."""
        return self.trees.program(calls.tree_text(self.programs["snl"], call, cwd=folder, stderr=subprocess.DEVNULL))

    def wanted(self, call, case, folder):
        """What snlrun answers; None where it runs nothing, or where an instant has too many ticks: with fewer the run ends by a fault."""
        if self.limited and call.budget > TICKS:
            words = [*call.options, b"--budget", b"%d" % TICKS, b"--", call.file, *[call.macros] * bool(call.macros)]
            first = self.answer(words, case.trace, folder)
            if first.status == FAULT and first.lines.endswith(SPENT):
                self.counts[MANY_TICKS] += 1
                return None
            if first.status not in RAN:
                return None
        answer = self.answer(case.words, case.trace, folder)
        return answer if answer.status in RAN else None

    def answer(self, words, trace, folder):
        """What snlrun answers. The trace comes from a file: snlrun may end before it has read all, and a pipe would break then."""
        with tempfile.TemporaryFile() as stdin, tempfile.TemporaryFile() as said:
            stdin.write(trace)
            stdin.seek(0)
            status, lines = calls.ran([os.fsencode(self.programs["snlrun"]), *words], stdin=stdin, cwd=folder, stderr=said)
            said.seek(0)
            bad = [it for it in said.read().splitlines(keepends=True) if it.startswith(b"trace:")]
        return Answer(lines, status, b"".join(bad[-1:]))

    def by_definitions(self, loaded, call, case):
        """What the definitions give."""
        lines, end = self.runner.run(loaded, case.trace, call.budget)
        said = f"trace:{end[1]}: {FAULTS[end[2][0]]}\n".encode() if end[0] == "TraceFault" else b""
        return Answer(lines, self.runner.status(end), said)
