"""Cases of the files below editors/: they name each reserved word, and what reads the lines of `snl check` leads to their places."""
import json
import re
import shutil
import subprocess
import tempfile
from dataclasses import dataclass
from pathlib import Path

import explained
import helps
from case import SECONDS

# A program with an error, one with a warning of snc, and one with a lint; each with the places that are told.
PROGRAMS = {
    "error": (b"program p option +s;\nint x;\nss s { state a { when (y) { } exit } }\n", [("p.st", 3, 0, "error", "E13 'y' is not declared")]),
    "warning": (b"program p\nss s { state a { when () { } exit } }\n", [("p.st", 1, 0, "warning", "W1 not in safe mode, safe mode is used")]),
    "lint": (
        b'program p option +s;\nint x; assign x to "X";\nss s { state a { when (x) { } exit } }\n',
        [("p.st", 2, 5, "warning", "'x' is read, and no monitor, pvGet or assignment gives it a value [stale]")],
    ),
}
# What an object of JSON has; one with a change of the source has `edits` behind it.
KEYS = "file line column end severity name text helps".split()
# What vim writes of each place that it found.
VIM = r"""for it in getqflist() | if it.valid | call writefile([join([bufname(it.bufnr), it.lnum, it.col, it.type, it.text], "\t")], "found", "a") | endif | endfor"""


def cases(root):
    yield explained.Made("scripts/editors: the kept files are those that are made", root, "scripts/editors")
    yield Words("editors/: both syntax files name each reserved word", root)
    yield Matched("editors/vscode: the problem matchers find the places that snl check tells", root)
    yield Objects("snl check --format json: python3 reads each line, and finds what the other formats tell", root)
    yield Vim("editors/vim: the errorformat finds the places that snl check tells", root)


def told(snl, folder, source, *words):
    """The lines that `snl check` writes of a program in a folder."""
    Path(folder, "p.st").write_bytes(source)
    return subprocess.run([snl, "check", *words, "p.st"], capture_output=True, cwd=folder, timeout=SECONDS).stdout.decode()


@dataclass
class Words:
    name: str
    root: Path
    tool: str = "snl"

    def failure(self, _programs):
        page = (self.root / "docs/GRAMMAR.md").read_text()
        words = re.search(r"reserved, and are no names:\n\n```\n(.*?)```", page, re.DOTALL)[1].split()
        vim = (self.root / "editors/vim/syntax/snl.vim").read_text()
        named = {it for line in re.findall(r"^syntax keyword \w+ (.*)$", vim, re.MULTILINE) for it in line.split()}
        grammar = json.loads((self.root / "editors/vscode/snl.tmLanguage.json").read_text())
        rules = [re.compile(it["match"]) for it in grammar["patterns"] if "match" in it]
        lacks = [it for it in words if it not in named] + [it for it in words if not any(rule.fullmatch(it) for rule in rules)]
        if len(words) < 40:
            lacks.append("docs/GRAMMAR.md, whose words were not found")
        return f"FAILED {self.name}\n  they lack {', '.join(lacks)}" if lacks else None


@dataclass
class Matched:
    name: str
    root: Path
    tool: str = "snl"

    def failure(self, programs):
        matchers = json.loads((self.root / "editors/vscode/package.json").read_text())["contributes"]["problemMatchers"]
        wrong = []
        with tempfile.TemporaryDirectory(prefix="snl-") as folder:
            for name, (source, places) in PROGRAMS.items():
                lines = told(programs["snl"], folder, source).splitlines()
                found = [it for line in lines for it in found_in(line, matchers)]
                if found != places:
                    wrong.append(f"{name}: found is {found}")
        return "\n  ".join([f"FAILED {self.name}", *wrong]) if wrong else None


def found_in(line, matchers):
    """The places that matchers find in a line, each by itself."""
    for pattern in (it["pattern"] for it in matchers):
        if found := re.fullmatch(pattern["regexp"], line):
            column = int(found[pattern["column"]]) if "column" in pattern else 0
            yield found[1], int(found[2]), column, found[pattern["severity"]], found[pattern["message"]]


@dataclass
class Objects:
    """The lines of JSON, beside those of a compiler."""

    name: str
    root: Path
    tool: str = "snl"

    def failure(self, programs):
        sources = [source for _, _, source in helps.entries((self.root / "cases/wrong/sources.table").read_bytes())]
        wrong = []
        for source in [*sources, *(it for it, _ in PROGRAMS.values())]:
            with tempfile.TemporaryDirectory(prefix="snl-") as folder:
                objects = [json.loads(it) for it in told(programs["snl"], folder, source, "--format=json").splitlines()]
                lines = told(programs["snl"], folder, source, "--format=gcc").splitlines()
            if not objects or [line for it in objects for line in lines_of(it)] != lines or any(list(it) not in (KEYS, [*KEYS, "edits"]) for it in objects):
                wrong.append(f"{source!r}: {objects}")
        return "\n  ".join([f"FAILED {self.name}", *wrong[:5]]) if wrong else None


def lines_of(it):
    """The lines of a compiler for an object."""
    place = f"{it['file']}:{it['line']}:{it['column']}"
    front = "once that is mended, " if it["severity"] == "note" else ""
    yield f"{place}: {it['severity']}: {front}{it['text']} [{it['name']}]"
    yield from (f"{place}: note: {help}" for help in it["helps"])


@dataclass
class Vim:
    name: str
    root: Path
    tool: str = "snl"

    def lacks(self):
        return "" if shutil.which("vim") else "there is no vim here"

    def failure(self, programs):
        wrong = []
        for name, (source, places) in PROGRAMS.items():
            with tempfile.TemporaryDirectory(prefix="snl-") as folder:
                Path(folder, "told").write_text(told(programs["snl"], folder, source))
                calls = ("-c", f"set rtp^={self.root}/editors/vim", "-c", "compiler snl", "-c", "cgetfile told", "-c", VIM, "-c", "qa!")
                subprocess.run(["vim", "-N", "-u", "NONE", "-es", *calls], cwd=folder, timeout=SECONDS, stdin=subprocess.DEVNULL)
                file = Path(folder, "found")
                found = [tuple(it.split("\t")) for it in file.read_text().splitlines()] if file.exists() else []
            wanted = [(file, str(line), str(column), severity[0], text) for file, line, column, severity, text in places]
            if found != wanted:
                wrong.append(f"{name}: found is {found}")
        return "\n  ".join([f"FAILED {self.name}", *wrong]) if wrong else None
