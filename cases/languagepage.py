"""Cases from docs/LANGUAGE.md, QUEUES.md and FUNCTIONS.md: each program, run over the trace in the table behind it; each expression and each call of a table."""
import re

from case import Case

# A program, with the rows of the table right behind it.
PROGRAM = re.compile(
    r"^```\n((?: *1  )?program .*?)^```\n(?:\n\| Line of the trace \|[^\n]*\n\|[-|]+\n((?:\|[^\n]*\n)+))?",
    re.MULTILINE | re.DOTALL,
)
EXPRESSIONS = re.compile(r"^\| Expression \|[^\n]*\n\|[-|]+\n((?:\|[^\n]*\n)+)", re.MULTILINE)
# Functions, with the rows of the table right behind them, which calls them.
CALLS = re.compile(r"^```\n((?:(?!```|program )[^\n]*\n)+)```\n\n\| Call \|[^\n]*\n\|[-|]+\n((?:\|[^\n]*\n)+)", re.MULTILINE)
NUMBER = re.compile(r"^ *\d+  ", re.MULTILINE)
VALUED = b"""program t
option +s;
int x = 5;
int a[3] = {1, 2};
%sss s { state w { when () { printf("%%ld", %s); } exit } }
"""
SPENT = re.compile(rb"0 start t\n|0 fault s \d+ step budget spent\n")


def examples(root):
    page = text_of(root)
    for program, table in PROGRAM.findall(page):
        yield of_program(program, rows(table))
    for table in EXPRESSIONS.findall(page):
        for expression, value, *_ in rows(table):
            yield of_expression(expression, value)
    for functions, table in CALLS.findall(page):
        for call, value, ticks, *_ in rows(table):
            yield from of_call(functions, call, value, int(ticks))


def of_program(program, table):
    """The case of a program: a row of its table has a line of the trace, a line that is written, or both."""
    # Where lines are numbered on the page, the numbers are no part of the source.
    source = NUMBER.sub("", program) if NUMBER.match(program) else program
    trace, lines = ("".join(f"{row[at]}\n" for row in table if row[at]) for at in (0, 1))
    status = 5 if " fault " in lines else 0
    return case(named(program), source.encode(), trace, lines, status)


def of_expression(expression, value):
    """The case of an expression, with `int x = 5` and `int a[3] = {1, 2}`: its value is written, or its fault."""
    source = VALUED % (b"", expression.encode())
    if re.fullmatch(r"-?\d+", value):
        return case(expression, source, "0 tick", valued(value), 0)
    return case(expression, source, "0 tick", f"0 start t\n0 fault s 5 {value}\n", 5)


def of_call(functions, call, value, ticks):
    """The cases of a call: with one tick more, for the transition, its value is written, and with none more it has the fault."""
    source = VALUED % (functions.encode(), call.encode())
    name = f"docs/LANGUAGE.md: {call}"
    enough, spent = ([b"--budget", b"%d" % budget, b"p.st"] for budget in (ticks + 1, ticks))
    yield Case(name, source, b"0 tick", enough, valued(value).encode())
    if ticks > 0:
        yield Case(f"{name}, with {ticks} ticks", source, b"0 tick", spent, SPENT, statuses=(5,))


def valued(value):
    """What a run writes that prints a value and ends."""
    return f"0 start t\n0 print s {value}\n0 go s w exit\n0 exit t\n"


def case(name, source, trace, lines, status):
    return Case(f"docs/LANGUAGE.md: {name}", source, trace.encode(), stdout=lines.encode(), statuses=(status,))


def rows(table):
    """The cells of each row of a table, without the backquotes round them. A `\\|` is a part of its cell."""
    parted = (re.split(r"(?<!\\)\|", it)[1:-1] for it in table.splitlines())
    return [[cell.strip().strip("`").replace("\\|", "|") for cell in it] for it in parted]


def named(program):
    return re.search(r"program (\w+)", program)[0]


def missing(root):
    """Programs of the page that have no run behind them, and tables of calls that have no functions in front."""
    page = text_of(root)
    silent = [named(program) for program, table in PROGRAM.findall(page) if not table]
    found = [f"FAILED docs/LANGUAGE.md: {it} has no table of a trace behind it" for it in silent]
    if len(CALLS.findall(page)) != page.count("\n| Call |"):
        found.append("FAILED docs/LANGUAGE.md: a table of calls has no functions right in front of it")
    return found


def text_of(root):
    return "\n".join((root / "docs" / it).read_text() for it in ("LANGUAGE.md", "QUEUES.md", "FUNCTIONS.md"))
