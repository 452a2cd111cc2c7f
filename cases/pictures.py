"""Cases of `snl cover` and `snl graph` that need several files or a reader: traces that add up, pictures of all examples."""
import re
import tempfile
from dataclasses import dataclass
from pathlib import Path

from tools import Tool, called, differs

SOURCE = """program days option +s; int x; assign x to "X"; monitor x;
ss s { state a { when (x == 1) {} state b when (x == 2) {} state c } state b { when (x == 0) {} state a } state c { when (x == 0) {} state a } }
"""
BEGIN = "0 up X\n0 val X 0\n"
# A token of DOT: a text between quotes, a name, or a sign.
TOKEN = re.compile(r'"((?:[^"\\]|\\.)*)"|([A-Za-z_0-9.]+)|(->|[{}\[\];=,])|\s+')


def cases(root):
    yield Tool("snl cover: three traces add up", three_days)
    yield Tool("snl cover: a trace that never began beside one that did", one_day)
    for source in sorted([*(root / "examples").glob("*.st"), *(root / "examples").glob("station/*.st")]):
        yield Drawn(f"snl graph: {source.name} by a reader of DOT", source)


def days(folder, *texts):
    """Writes the program and its traces, and gives the words of the traces."""
    (folder / "days.st").write_text(SOURCE)
    words = []
    for number, text in enumerate(texts):
        (folder / f"{number}.trace").write_text(text)
        words += ["--trace", f"{number}.trace"]
    return words


def three_days(program, folder):
    words = days(folder, f"{BEGIN}1 val X 1\n", f"{BEGIN}1 val X 2\n2 val X 0\n", f"{BEGIN}1 val X 1\n7 nonsense\n")
    answer = "never taken: s b 1 to a (line 2)\n3 of 4 clauses taken, 3 of 3 states entered, 0 of 0 channels put\n"
    return differs(called(program, folder, "cover", *words, "days.st"), (6, answer, "2.trace:4: unknown word\n"))


def one_day(program, folder):
    words = days(folder, "", f"{BEGIN}1 val X 1\n2 val X 0\n3 val X 2\n4 val X 0\n")
    answer = "4 of 4 clauses taken, 3 of 3 states entered, 0 of 0 channels put\n"
    return differs(called(program, folder, "cover", "--fail-under", "100", *words, "days.st"), (0, answer, ""))


@dataclass
class Drawn:
    name: str
    source: Path
    tool: str = "snl"

    def failure(self, programs):
        with tempfile.TemporaryDirectory(prefix="snlrun-") as folder:
            wrong = drawn(self.source, programs, folder)
        return f"FAILED {self.name}\n  {wrong}" if wrong else None


@dataclass
class Edge:
    ends: tuple
    label: str
    is_missed: bool


def tokens(text):
    """The tokens of a picture, each with whether it stood between quotes."""
    at, found = 0, []
    while at < len(text):
        token = TOKEN.match(text, at)
        assert token, text[at : at + 40]
        if token[1] is not None:
            found.append((re.sub(r"\\(.)", lambda it: "\n" if it[1] == "n" else it[1], token[1]), True))
        elif token[2] or token[3]:
            found.append((token[2] or token[3], False))
        at = token.end()
    return found


def read(text):
    """The nodes and the edges of a picture, in order."""
    nodes, edges = [], []
    words = iter(statements(tokens(text)))
    for ends, attributes in words:
        if len(ends) == 2:
            edges.append(Edge(tuple(ends), attributes["label"], attributes.get("style") == "dashed"))
        elif attributes.get("shape") != "point":
            nodes.append((ends[0], attributes.get("penwidth")))
    return nodes, edges


def statements(found):
    """The nodes and edges that stand in a list of tokens: their ends, which stand between quotes, and their attributes."""
    at = 0
    while at < len(found):
        word, is_text = found[at]
        if not is_text or found[at + 1] == ("{", False) or found[at - 1] == ("=", False):
            at += 1
            continue
        ends = [word]
        at += 1
        while found[at] == ("->", False):
            ends.append(found[at + 1][0])
            at += 2
        assert found[at] == ("[", False), found[at]
        close = found.index(("]", False), at)
        inner = found[at + 1 : close]
        yield ends, {inner[k][0]: inner[k + 2][0] for k in range(0, len(inner), 4)}
        at = close + 1


def clauses(tables):
    """The states and the clauses that `snc --tables` tells, in order."""
    states, arrows, of_set, place = [], [], "", ""
    for line in tables.splitlines():
        word, *rest = line.split()
        if word == "ss":
            of_set, is_first = rest[0], True
        elif word == "state":
            place = f"{of_set}.{rest[0]}"
            states.append((place, "2" if is_first else None))
            is_first = False
        elif word == "when":
            arrows.append((place, f"{of_set}.{rest[-1]}", rest[0]))
    return states, arrows


def drawn(source, programs, folder):
    """The picture of an example has the states and the clauses that `snc` tells, and the counts of its run."""
    status, picture, said = called(programs["snl"], folder, "graph", str(source), input=source.with_suffix(".trace").read_text())
    if status or said:
        return f"status {status}, {said!r}"
    nodes, edges = read(picture)
    _, tables, _ = called(programs["snc"], folder, "--tables", str(source))
    states, arrows = clauses(tables)
    if not states or not arrows:
        return f"{len(states)} states and {len(arrows)} clauses stand in the tables"
    wrong = differs(nodes, states) or differs([edge.ends for edge in edges], [arrow[:2] for arrow in arrows])
    numbers = [edge.label.split(":")[0] for edge in edges]
    return wrong or differs(numbers, [arrow[2] for arrow in arrows]) or counted(source, edges)


def counted(source, edges):
    """The counts of arrows that no other clause has are those of the lines in the example's output."""
    out = source.with_suffix(".out").read_text()
    compared = 0
    for edge in edges:
        if [other.ends for other in edges].count(edge.ends) > 1:
            continue
        (of_set, left), (_, to) = (end.split(".") for end in edge.ends)
        lines = len(re.findall(rf"^\d+ go {of_set} {left} {to}$", out, re.MULTILINE))
        wrong = differs((edge.label.split("\n")[1], edge.is_missed), (f"{lines}x", lines == 0))
        if wrong:
            return f"{edge.ends}: {wrong}"
        compared += 1
    return "" if compared else "no arrow has a count that no other clause has"
