"""Reads what programs and scripts tell of themselves, for the manual pages and the completion: the text of `--help`, and the doc
comment of a script."""
import ast
import os
import re
import subprocess
from dataclasses import dataclass, field

# The titles of lists of words in the texts of clap and of argparse, and of the four groups of the words of snl.
LISTS = {"Arguments": "arguments", "positional arguments": "arguments", "Options": "options", "options": "options"}
LISTS |= dict.fromkeys(("Look", "Record", "Run", "Search"), "words")
# An item begins at one of these columns; what stands further to the right goes on with the one before.
COLUMNS = (2, 6)
LEADS = {"Usage": "usage", "usage": "usage", "Example": "example", "Status": "status", "Licence": "licence"}
ROW = re.compile(r"(\S.*?)(?:  +(.*))?")
WORD = re.compile(r"([a-z]+) +([A-Z].*)")
STATUS = re.compile(r"(?:^|, )(\d) ")
# The last line of a help: the name and the version, which stand in the foot of a manual page.
VERSION = re.compile(r"[a-z]+ \d+\.\d+\.\d+")
# So begins what a doc comment tells of statuses.
STATUSES = "The status is "


@dataclass
class Help:
    """A text of `--help`, cut into its parts."""

    # The paragraphs in front of the lists, and those behind them.
    about: list = field(default_factory=list)
    more: list = field(default_factory=list)
    # What stands behind `Usage:` and so on.
    said: dict = field(default_factory=dict)
    # Of each list its items: what is written, and what it means.
    lists: dict = field(default_factory=dict)

    def statuses(self):
        """Each exit status, with what it means."""
        _, *parts = STATUS.split(self.said.get("status", "").removesuffix("."))
        return list(zip(parts[::2], parts[1::2]))


def help_of(*call):
    """The text that a call with `--help` writes."""
    told = {**os.environ, "COLUMNS": "200", "LC_ALL": "C.UTF-8", "PYTHONDONTWRITEBYTECODE": "1"}
    return subprocess.run([*call, "--help"], stdout=subprocess.PIPE, check=True, env=told, encoding="utf-8").stdout


def read(text):
    """The parts of a text of `--help`."""
    found = Help()
    for block in re.split(r"\n{2,}", text.strip("\n")):
        first, _, rest = block.partition("\n")
        lead, colon, front = first.partition(":")
        if colon and not front and lead in LISTS:
            found.lists.setdefault(LISTS[lead], []).extend(items(rest, LISTS[lead]))
        elif colon and lead in LEADS:
            found.said[LEADS[lead]] = " ".join(f"{front}\n{rest}".split())
        elif VERSION.fullmatch(block):
            continue
        elif found.said.get("usage"):
            found.more.append(block)
        else:
            found.about.append(" ".join(block.split()))
    return found


def items(block, kind):
    """The items of a list."""
    found = []
    for line in block.split("\n"):
        indent = len(line) - len(line.lstrip())
        if indent in COLUMNS:
            written, meant = (WORD if kind == "words" else ROW).fullmatch(line.strip()).groups("")
            found.append([written, meant])
        else:
            found[-1][1] = f"{found[-1][1]} {line.strip()}".strip()
    return found


@dataclass
class Script:
    """What the doc comments of a script tell."""

    purpose: str
    call: str
    paragraphs: list
    status: str


def script(path):
    """Reads the doc comment of a script: its first sentence, the call behind it, and the paragraphs that follow."""
    tree = ast.parse(path.read_text())
    first, call, *rest = ast.get_docstring(tree).split("\n\n")
    told = [ast.get_docstring(it) or "" for it in ast.walk(tree) if isinstance(it, ast.FunctionDef) and it.name == "main"]
    status = next(it[it.index(STATUSES) :] for it in [*rest, *told] if STATUSES in it)
    return Script(first, call, [it for it in rest if STATUSES not in it], " ".join(status.split()))
