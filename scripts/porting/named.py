"""Names of constants that the values of a channel have: what a variable is compared with, or stored to it, by a name."""
import re
from typing import Iterator, Optional

from porting.binding import variable_of
from porting.constants import literal
from porting.tree import Assignment, Binary, Expression, Name, Node, Number, Parentheses, Prefix, Program, Switch, every
from porting.variables import Kind, Variable

# What stands behind a number that came from a constant.
BEHIND = re.compile(r" /\*(\w+)\*/")
# With fewer names it may be a size, or a limit.
LEAST = 2


def names_of_values(program: Program, tokens: list) -> dict[Variable, dict[int, str]]:
    """For each whole number that has a channel the names of its values."""
    found: dict[Variable, dict[int, str]] = {}
    for node in every(program):
        for place, constant in meetings_in(node):
            variable = variable_of(place)
            named = value_and_name(constant, tokens)
            if named and variable and variable.kind is Kind.WHOLE and variable.channels:
                found.setdefault(variable, {}).setdefault(*named)
    return {variable: dict(sorted(names.items())) for variable, names in found.items() if len(names) >= LEAST}


def meetings_in(node: Node) -> Iterator[tuple[Expression, Expression]]:
    """A place with each expression that it is compared with, or that is stored there, in a node itself."""
    if isinstance(node, Binary) and node.sign in ("==", "!="):
        yield node.left, node.right
        yield node.right, node.left
    if isinstance(node, Assignment) and node.sign == "=":
        yield node.left, node.right
    if isinstance(node, Switch):
        yield from ((node.value, it) for case in node.sections for it in case.labels if it is not None)


def value_and_name(node: Expression, tokens: list) -> Optional[tuple[int, str]]:
    """The value of a constant that has a name, and that."""
    if isinstance(node, Parentheses):
        return value_and_name(node.inner, tokens)
    if isinstance(node, Prefix) and node.sign == "-" and isinstance(node.operand, Number):
        found = value_and_name(node.operand, tokens)
        return found and (-found[0], found[1])
    if isinstance(node, Name) and node.variable and node.variable.kind is Kind.CONSTANT:
        return node.variable.value, node.name
    behind = BEHIND.fullmatch(tokens[node.end - 1].behind) if isinstance(node, Number) else None
    if not behind:
        return None
    value, is_real = literal(node.spelled)
    return None if is_real else (int(value), behind[1])
