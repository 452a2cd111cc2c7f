"""Cases from docs/PORTING.md and docs/BY_HAND.md: their programs over their traces, and each form of a table with the message named.

A block `snl` is the program of the blocks behind it: `said` has the messages of `snc`, and `out` the run over the last `trace`.
`shell.py` runs the calls.
"""
import re

from case import Case

PAGES = ("docs/PORTING.md", "docs/BY_HAND.md")
BLOCK = re.compile(r"^```(\w*)\n(.*?)^```\n", re.MULTILINE | re.DOTALL)
ROW = re.compile(r"^\| `([^`]+)` \| `(E\d+)` \|", re.MULTILINE)
# The first with a form among the definitions, the second with one in a block.
PLACES = (
    """program p
option +s;
int x; assign x to "a";
%s
ss s { state w { when (x) {} exit } }
""",
    """program p
option +s;
int x; assign x to "a"; int y;
ss s { state w { when (x) { %s } exit } }
""",
)


def examples(root):
    for page in PAGES:
        program = trace = ""
        for kind, text in BLOCK.findall((root / page).read_text()):
            if kind == "snl":
                program = text
            elif kind == "trace":
                trace = text
            elif kind == "said":
                yield said(named(page, program), program, text)
            elif kind == "out":
                yield Case(named(page, program), program.encode(), trace.encode(), words=[b"-w", b"p.st"], stdout=text.encode())


def said(name, program, text):
    status = int(" error: " in text)
    return Case(f"{name}, checked", program.encode(), b"", stderr=text.encode(), statuses=(status,), tool="snc")


def named(page, program):
    return f"{page}: " + re.search(r"program (\w+)", program)[0]


def missing(root, programs):
    """Forms of a table without their message, and programs of which nothing is said."""
    page = "".join((root / it).read_text() for it in PAGES)
    rows = ROW.findall(page)
    found = [f"{form} has not {message}" for form, message in rows if not has_message(programs, form, message)]
    if len(rows) < 15:
        found.append("the table of forms is not found")
    kinds = [kind for kind, _ in BLOCK.findall(page)]
    programs_there = [text for kind, text in BLOCK.findall(page) if kind == "snl"]
    for name in ("oven", "pump"):
        if (root / f"examples/porting/{name}.st").read_text() not in programs_there:
            found.append(f"no program is that of examples/porting/{name}.st")
    for kind, behind in zip(kinds, [*kinds[1:], None]):
        if kind == "snl" and behind not in ("said", "out", "trace", "sh"):
            found.append("a program has nothing behind it")
    return [f"FAILED {' and '.join(PAGES)}: {it}" for it in found]


def has_message(programs, form, message):
    """Whether a form has that message, among the definitions or in a block."""
    for place in PLACES:
        source = (place % form).encode()
        _, _, stderr = Case("", source, tool="snc").run(programs["snc"])
        if f" {message} ".encode() in stderr:
            return True
    return False

