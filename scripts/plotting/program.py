"""What a program is made of: its channels, state sets, states and clauses, as `snc --tables` tells them."""
import re
from dataclasses import dataclass, field
from typing import Iterator

from plotting.named import values_of_variables
from plotting.values import Values
from shared.macros import COMMENT, filled, macros_of, own_macros, without_comments

LINK = re.compile(r'channel (\S+) (\d+) (\d+) "(.*)" (\S+) (\S+) (\d+)')
CLAUSE = re.compile(r"when (\d+) (?:state (\S+)|(exit))")
PUT = re.compile(r"\bpvPut\s*\(\s*(\w+)\b(?=[^;]*?,\s*ASYNC\s*\))")
# A number with the name of its constant, its text, or what it was before a port, as a comment behind it; the pieces of a source.
NAMED = re.compile(r'-?\b\d[\w.]* /\*("(?:[^"\\\n]|\\.)*"|[A-Za-z_]\w*|-?\d+\.?\d*(?:[eE][+-]?\d+)?)\*/')
PIECE = re.compile(r'"(?:[^"\\\n]|\\.)*"|/\*.*?\*/|//[^\n]*|\w+|\s+|.', re.DOTALL)
EXIT = "exit"


@dataclass
class Channel:
    """A channel that a program names."""

    name: str
    # The variables that are linked to it, and the most values that one of them takes.
    variables: list = field(default_factory=list)
    count: int = 1
    is_monitored: bool = False
    # Whether a put may wait for an answer: the source has `pvPut` of a variable of it with ASYNC.
    is_asking: bool = False

    def places(self) -> Iterator[str]:
        """The variables and elements that have its values, as `x` or `y[2]`."""
        for variable in self.variables:
            name, sign, first = variable.rstrip("]").partition("[")
            yield from (f"{name}[{int(first) + it}]" for it in range(self.count)) if sign else (name,)


@dataclass
class StateSet:
    """A state set with its states in their order."""

    name: str
    states: list = field(default_factory=list)
    # From a state and its target the numbers of the clauses that lead there; from a state and a number the condition.
    clauses: dict = field(default_factory=dict)
    conditions: dict = field(default_factory=dict)


@dataclass
class Program:
    """What is drawn of a program. All texts have a letter for each byte."""

    name: str = ""
    channels: dict = field(default_factory=dict)
    sets: list = field(default_factory=list)
    # How values of variables are shown, as far as comments tell it.
    values: Values = field(default_factory=Values)


def program_of(tables: str, source: str, macros: str) -> Program:
    """The program of what `snc --tables` wrote, of its source and of the macros of the call."""
    made = Program(values=values_of_variables(source))
    texts = macros_of(own_macros(source) + "," + macros)
    asking = set(PUT.findall(without_comments(source)))
    tests = conditions_of(source)
    # The tables have the clauses in the order of the source.
    waiting = iter(tests if len(tests) == len(re.findall(r"^when ", tables, re.MULTILINE)) else ())
    for line in tables.splitlines():
        kind, _, rest = line.partition(" ")
        if kind == "program":
            made.name = rest
        elif kind == "channel":
            add_link(made, line, texts, asking)
        elif kind == "ss":
            made.sets.append(StateSet(rest))
        elif kind == "state":
            made.sets[-1].states.append(rest.split(" ")[0])
        elif kind == "when":
            add_clause(made.sets[-1], line, next(waiting, ""))
    return made


def add_link(made: Program, line: str, texts: dict, asking: set) -> None:
    """Adds the channel of a link, where it has one."""
    variable, first, count, spelled, monitor, _, _ = LINK.fullmatch(line).groups()
    name = filled(spelled, texts)
    if not name:
        return
    channel = made.channels.setdefault(name, Channel(name))
    channel.variables.append(variable if (first, count) == ("0", "1") else f"{variable}[{first}]")
    channel.count = max(channel.count, int(count))
    channel.is_monitored |= monitor == "monitor"
    channel.is_asking |= variable in asking


def add_clause(of: StateSet, line: str, condition: str) -> None:
    """Adds the number of a clause of the last state, and its condition."""
    number, target, _ = CLAUSE.fullmatch(line).groups()
    of.conditions[of.states[-1], int(number)] = condition
    of.clauses.setdefault((of.states[-1], target or EXIT), []).append(int(number))


def conditions_of(source: str) -> list:
    """The conditions of all clauses, with the names that stand as comments behind numbers in their places."""
    found: list = []
    depth, begins = 0, False
    for piece in PIECE.findall(NAMED.sub(r"\1", source)):
        if COMMENT.fullmatch(piece) and not piece.startswith('"'):
            piece = " "
        if depth:
            depth += (piece == "(") - (piece == ")")
            found[-1] += piece if depth else ""
        elif begins and piece == "(":
            depth = 1
            found.append("")
        begins = piece == "when" or (begins and piece.isspace())
    return [" ".join(it.split()) for it in found]
