"""Cases of the helps of `snl check`: of each source in cases/wrong the words of the remedy have to stand in a line of help about it.

The tables were written before the helps. Of each table some sources may have no such help, so that a help that is wrong is no cheaper
than none; how many is told below.
"""
import json
import re
import subprocess
import tempfile
import time
from dataclasses import dataclass
from pathlib import Path

import tried
from case import SECONDS

HERE = Path(__file__).resolve().parent
TABLES = HERE / "wrong"
HELP = b"  = help: "
CURE = "is a '}' missing in front of it?"
LONGEST = "cures are tried, and further faults told, for sources of at most 200000 bytes"
# What is told of a source that is longer, in each format.
UNTRIED = {"text": f"  = note: {LONGEST}\n", "gcc": f"p.st:10:3: note: {LONGEST}\n", "json": f',"{LONGEST}"]}}\n'}
BYTE = re.compile(rb"\\x([0-9A-F]{2})")
# Fewer sources that have the words would be a loss, and fewer that there are a table that is not read.
LEAST = {"sources": (40, 40), "ports": (18, 20), "cures": (24, 28)}


def cases(_root):
    """A case for each table."""
    for name in LEAST:
        yield Helps(f"snl check: the words of the remedy, of cases/wrong/{name}.table", name)
    yield Folder("snl check: the programs of a folder, in the order of their names")
    yield Long("snl check: a thousand remarks on a line of a megabyte, and fifteen thousand messages on another")
    yield Edited("snl check --format json: with the changes that it tells, the first fault is gone, or stands farther on")
    yield Large("snl check: cures of a source of 100 kB within two seconds, and none of one that is longer than 200,000 bytes")


def entries(table):
    """Of each entry of a table its name, the words, and the source."""
    for part in re.split(rb"^== ", table, flags=re.MULTILINE)[1:]:
        name, words, source = re.fullmatch(rb"([^\n]+)\n-- ([^\n]+)\n(.*)", part, re.DOTALL).groups()
        source = BYTE.sub(lambda it: bytes([int(it[1], 16)]), source)
        yield name.decode(), words.split(b" | "), source or (HERE / "port" / f"{name.decode()}.st").read_bytes()


def helps_on(snl, source):
    """The lines of help that are told of a source."""
    with tempfile.TemporaryDirectory(prefix="snl-") as folder:
        Path(folder, "p.st").write_bytes(source)
        ran = subprocess.run([snl, "check", "p.st"], capture_output=True, cwd=folder, timeout=SECONDS)
    return b"\n".join(it for it in ran.stdout.split(b"\n") if it.startswith(HELP))


@dataclass
class Helps:
    """The sources of a table, each by itself."""

    name: str
    table: str
    tool: str = "snl"

    def failure(self, programs):
        every = list(entries((TABLES / f"{self.table}.table").read_bytes()))
        lacks = []
        for name, words, source in every:
            told = helps_on(programs["snl"], source)
            if missing := [it.decode() for it in words if it not in told]:
                lacks.append(f"{name}: no help has {', '.join(missing)}: {told.decode(errors='replace')}")
        right, all_of = LEAST[self.table]
        if len(every) >= all_of and len(every) - len(lacks) >= right:
            return None
        return "\n  ".join([f"FAILED {self.name}: {len(every) - len(lacks)} of {len(every)}", *lacks])


def checked(snl, folder, *words):
    """The status and the streams of a check in a folder, and how long it took."""
    begun = time.monotonic()
    ran = subprocess.run([snl, "check", *words], capture_output=True, cwd=folder, timeout=SECONDS)
    return ran.returncode, ran.stdout.decode(), ran.stderr.decode(), time.monotonic() - begun


@dataclass
class Folder:
    """A folder with programs and other files, one without, and one that is not there."""

    name: str
    tool: str = "snl"

    def failure(self, programs):
        with tempfile.TemporaryDirectory(prefix="snl-") as folder:
            for name in ("f/b.st", "f/a.st", "f/notes", "f/deep/c.st", "empty/x.sta"):
                Path(folder, name).parent.mkdir(parents=True, exist_ok=True)
                Path(folder, name).write_text("program p option +s;\nss s { state a { when (y) { } exit } }\n")
            answers = [checked(programs["snl"], folder, "--format=gcc", name)[:3] for name in ("f", "empty", "none")]
        lines = "".join(f"f/{name}.st:2:24: error: 'y' is not declared [E13]\n" for name in "ab")
        wanted = [(1, lines, ""), (3, "", "snl: no program, FILE.st, can be read in empty\n"), (3, "", "snl: cannot read none\n")]
        wrong = [f"{found}, not {right}" for found, right in zip(answers, wanted) if found != right]
        return "\n  ".join([f"FAILED {self.name}", *wrong]) if wrong else None


@dataclass
class Long:
    """Sources at the limits: they take no longer than the length of the source and of the answer lets them."""

    name: str
    tool: str = "snl"

    def failure(self, programs):
        monitors = "".join(f'int x{at}; assign x{at} to "X{at}"; monitor x{at};' + " " * 880 for at in range(1000))
        names = "".join(f"n{at}x = 1;" for at in range(15_000))
        spread = "".join(f"n{at}x = 1;" + " " * 52 for at in range(15_000))
        sources = {
            "remarks": f"program p option +s; {monitors} ss s {{ state a {{ when () {{ }} exit }} }}",
            "messages": f"program p option +s; int x; ss s {{ state a {{ when () {{ {names} }} exit }} }}",
            "columns": f"program p option +s; int x; ss s {{ state a {{ when () {{ {spread} }} exit }} }}",
        }
        slow = 20 if tried.is_one(programs["snl"]) else 1
        wrong = []
        for name, source in sources.items():
            with tempfile.TemporaryDirectory(prefix="snl-") as folder:
                Path(folder, "p.st").write_text(source)
                _, lines, _, seconds = checked(programs["snl"], folder, "--format=gcc", "p.st")
            places = [int(it.split(":")[2]) for it in lines.splitlines()]
            text = "is monitored and never read [unread]" if name == "remarks" else "is not declared [E13]"
            if len(places) < 1000 or places != sorted(places) or lines.count(text) < 1000 or seconds > 4 * slow:
                wrong.append(f"{name}: {len(places)} lines after {seconds:.1f} s")
        return "\n  ".join([f"FAILED {self.name}", *wrong]) if wrong else None


def objects_on(snl, source):
    """The objects that are told of a source."""
    with tempfile.TemporaryDirectory(prefix="snl-") as folder:
        Path(folder, "p.st").write_bytes(source)
        return [json.loads(it) for it in checked(snl, folder, "--format=json", "p.st")[1].splitlines()]


def with_edit(source, edit):
    """A source with a change."""
    lines = source.split(b"\n")
    line = lines[edit["line"] - 1]
    lines[edit["line"] - 1] = line[: edit["column"] - 1] + edit["text"].encode() + line[edit["end"] - 1 :]
    return b"\n".join(lines)


@dataclass
class Edited:
    """The sources of all tables, each with the changes that are told of it."""

    name: str
    tool: str = "snl"

    def failure(self, programs):
        tried_now, wrong = 0, []
        for name, _, source in (it for table in LEAST for it in entries((TABLES / f"{table}.table").read_bytes())):
            told = objects_on(programs["snl"], source)
            for edit in (told[0].get("edits", []) if told else []):
                tried_now += 1
                left = [it for it in objects_on(programs["snl"], with_edit(source, edit)) if it["name"] == "E01"]
                if left and (left[0]["line"], left[0]["column"]) <= (told[0]["line"], told[0]["column"]):
                    wrong.append(f"{name}: {edit} leaves {left[0]}")
        if tried_now < 20:
            wrong.append(f"only {tried_now} changes")
        return "\n  ".join([f"FAILED {self.name}", *wrong]) if wrong else None


def state_of(at):
    """A state of a large program, on three lines."""
    return f"  state s{at} {{\n    when (x > {at}) {{ x = x + {at}; pvPut(x); }} state s{at + 1}\n  }}\n"


def large(states, lacks):
    """A program with so many states, of which one lacks its last brace."""
    parts = [state_of(at) if at != lacks else state_of(at).replace("\n  }", "\n") for at in range(states)]
    return f'program p option +s;\nint x; assign x to "X";\nss s {{\n{"".join(parts)}  state s{states} {{ when () {{ }} exit }}\n}}\n'


@dataclass
class Large:
    """Large programs that lack a brace: at their begin, in their midst and at their end."""

    name: str
    tool: str = "snl"

    def failure(self, programs):
        slow = 20 if tried.is_one(programs["snl"]) else 1
        wrong = []
        for lacks in (1, 700, 1399):
            with tempfile.TemporaryDirectory(prefix="snl-") as folder:
                Path(folder, "p.st").write_text(source := large(1400, lacks))
                _, lines, _, seconds = checked(programs["snl"], folder, "p.st")
            here = f"p.st:{3 + 3 * (lacks + 1) + 1}:3: E01 syntax error at 'state'\n"
            if len(source) < 100_000 or here not in lines or "  = help: is a '}' missing in front of it?\n" not in lines or seconds > 2 * slow:
                wrong.append(f"{len(source)} bytes: {lines[:300]!r} after {seconds:.1f} s")
        for length, is_tried in ((200_000, True), (200_001, False), (1_048_576, False)):
            source = large(3, 1)
            with tempfile.TemporaryDirectory(prefix="snl-") as folder:
                Path(folder, "p.st").write_text(source + " " * (length - len(source)))
                lines = {it: checked(programs["snl"], folder, f"--format={it}", "p.st")[1] for it in ("text", "gcc", "json")}
            for kind, line in UNTRIED.items():
                if (line in lines[kind]) == is_tried or (CURE in lines[kind]) != is_tried:
                    wrong.append(f"{length} bytes, {kind}: {lines[kind]!r}")
        return "\n  ".join([f"FAILED {self.name}", *wrong]) if wrong else None
