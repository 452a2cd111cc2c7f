"""Cases from docs/TRACE.md: its two runs, and each line of its table of examples with what is said of it."""
import re

from case import Case

SOURCE = b"""program t
option +s;
int a; assign a to "a";
ss s { state w { when (a > 1000000) {} state w } }
"""
BLOCK = re.compile(r"^```\n(.*?)^```\n", re.MULTILINE | re.DOTALL)
ROW = re.compile(r"^\| `([^`]+)` \| (.*) \|$", re.MULTILINE)
FAULT = re.compile(r"`([^`]+)`")


def examples(root):
    """The trace at the front stands before its program, and its lines behind that; a whole run has its program first."""
    page = (root / "docs/TRACE.md").read_text()
    trace, program, lines = blocks(page)[:3]
    yield Case("docs/TRACE.md: the first trace", program, trace, stdout=lines)
    program, trace, lines, said = blocks(section(page, "A whole run"))
    yield Case("docs/TRACE.md: a whole run", program, trace, stdout=lines, stderr=said, statuses=(6,))
    for line, answer in ROW.findall(section(page, "Examples of single lines")):
        yield of_line(line, answer)


def section(page, title):
    return page.split(f"\n## {title}\n")[1].split("\n## ")[0]


def blocks(text):
    return [it.encode() for it in BLOCK.findall(text)]


def of_line(line, answer):
    """The case of a line that comes behind `5 up a`. Its answer begins with the text of a fault or with `an event`."""
    trace = b"5 up a\n%s\n" % line.encode()
    made = {"stdout": b"5 start t\n"}
    if not answer.startswith("an event"):
        made.update(stderr=b"trace:2: %s\n" % FAULT.match(answer)[1].encode(), statuses=(6,))
    return Case(f"docs/TRACE.md: {line}", SOURCE, trace, **made)
