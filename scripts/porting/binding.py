"""Ties each name of a program to its variable, and finds the arrays of `char` that hold texts."""
import re
from typing import Iterator, Optional

from porting.moved import Order
from porting.tree import (
    Assign,
    Assignment,
    Block,
    Call,
    Conditional,
    Declaration,
    Declarator,
    Element,
    Enumeration,
    EventFlags,
    Expression,
    Function,
    Member,
    Monitor,
    Name,
    Node,
    Parentheses,
    Postfix,
    Prefix,
    Program,
    State,
    StateSet,
    Text,
    Values,
    every,
)
from porting.variables import Channels, Kind, Owner, Variable
from porting.words import CLOCKS, EMPTIERS, PARSERS, PRINTERS, SECONDS, TEXT_COMPARISONS, TEXT_COPIES, TEXT_FORMATS

CONVERSION = re.compile(r"%[-+ #0]*(?:\d+|\*)?(?:\.(?:\d+|\*)?)?(?:hh|h|ll|l|L|z)?[diouxXeEfFgGcsp%]")
TEXT_FUNCTIONS = TEXT_COPIES | TEXT_COMPARISONS | set(TEXT_FORMATS) | {"strlen", "strcat", "strncat", "strstr"}
TEXT_READERS = PARSERS | {"sscanf"}
# Functions that store to an argument.
STORING = TEXT_COPIES | set(TEXT_FORMATS) | EMPTIERS | CLOCKS | {"pvGet", "pvGetQ", "sscanf"}
Scope = dict[str, Variable]


def variable_of(place: Expression) -> Optional[Variable]:
    """The variable that a place is of, or None."""
    if isinstance(place, Parentheses):
        return variable_of(place.inner)
    if isinstance(place, Name):
        return place.variable
    if isinstance(place, Element):
        return variable_of(place.array)
    if isinstance(place, Member) and place.sign == ".":
        whole = variable_of(place.whole)
        if whole and whole.kind is Kind.WHOLE and place.member == SECONDS:
            return whole
        return whole.members.get(place.member) if whole and whole.members else None
    return None


def behind_and(node: Expression) -> Expression:
    """What stands behind `&`, where it does."""
    return node.operand if isinstance(node, Prefix) and node.sign == "&" else node


def stored_by(call: Call) -> Optional[Expression]:
    """The place that a function of C stores to, or None."""
    at = 2 if call.function == "sscanf" else 0
    is_one = call.function in STORING and len(call.arguments) > at
    return behind_and(call.arguments[at]) if is_one else None


def all_stored_by(call: Call) -> list[Expression]:
    """All places that a function of C stores to."""
    first = stored_by(call)
    more = call.arguments[3:] if call.function == "sscanf" else []
    return [*([first] if first is not None else []), *(behind_and(it) for it in more)]


def stores_in(node: Node) -> Iterator[Variable]:
    """The variables that an expression stores to."""
    for it in every(node):
        places: list[Expression] = []
        if isinstance(it, Assignment):
            places = [it.left]
        elif isinstance(it, (Prefix, Postfix)) and it.sign in ("++", "--"):
            places = [it.operand]
        elif isinstance(it, Call):
            places = all_stored_by(it)
        yield from (found for found in map(variable_of, places) if found)


def subscripts_of(place: Expression) -> list[Expression]:
    """The subscripts of a place, from the first one on."""
    if isinstance(place, Element):
        return [*subscripts_of(place.array), place.subscript]
    if isinstance(place, Member):
        return subscripts_of(place.whole)
    return subscripts_of(place.inner) if isinstance(place, Parentheses) else []


class Binding:
    """The variables, functions and event flags of a program."""

    def __init__(self, program: Program, structures: dict[str, list[Variable]], line_of):
        self.program, self.structures, self.line_of = program, structures, line_of
        functions = [it for it in program.definitions if isinstance(it, Function)]
        self.functions = {it.name: it for it in functions}
        self.order = Order(program)
        self.flags = {name for it in every(program) if isinstance(it, EventFlags) for name in it.names}
        self.bind(program, [])
        self.find_texts()

    def bind(self, node: Node, scopes: list[Scope]) -> None:
        """Ties the names in a node."""
        if isinstance(node, (Program, StateSet, State, Block, Function)):
            scopes = [*scopes, self.scope_of(node)]
        if isinstance(node, (Name, Assign, Monitor)):
            found = (scope[node.name] for scope in reversed(scopes) if node.name in scope)
            node.variable = next(found, None)
        if isinstance(node, Declarator):
            for size in node.variable.dimensions:
                if isinstance(size, Node):
                    self.bind(size, scopes)
        for child in node.children():
            self.bind(child, scopes)
        if isinstance(node, Assign) and node.variable:
            self.assign(node)
        if isinstance(node, Monitor) and node.variable and node.word == "monitor":
            node.variable.is_monitored = True

    def scope_of(self, node: Node) -> Scope:
        """The variables that a node declares."""
        if isinstance(node, Function):
            return {it.variable.name: it.variable for it in node.parameters}
        scope: Scope = {}
        for it in node.items if isinstance(node, Block) else node.definitions:
            if isinstance(it, Declaration):
                for declarator in it.declarators:
                    self.split(declarator.variable)
                    scope[declarator.variable.name] = declarator.variable
            if isinstance(it, Enumeration):
                for name, value in it.items:
                    line = self.line_of(it)
                    scope[name] = Variable(name, Kind.CONSTANT, "int", [], line, Owner.BLOCK, value=value)
        return scope

    def split(self, whole: Variable) -> None:
        """Gives a variable of a structure its members."""
        if whole.kind is not Kind.STRUCTURE:
            return
        members = self.structures.get(whole.spelled_type)
        if members is None:
            whole.kind = Kind.UNKNOWN
            return
        whole.members = {}
        for it in members:
            sizes = [*whole.dimensions, *it.dimensions]
            made = Variable(it.name, it.kind, it.spelled_type, sizes, whole.line, whole.owner)
            made.new_name = f"{whole.name}_{it.name}"
            whole.members[it.name] = made

    def assign(self, node: Assign) -> None:
        """Keeps the channels of a variable."""
        channels = node.variable.channels = node.variable.channels or Channels()
        if node.subscript is None:
            channels.names = [it.text for it in node.channels]
            channels.is_list = node.is_list
        else:
            name = node.channels[0].text if node.channels else ""
            channels.elements.append((node.subscript, name))

    def variables(self) -> Iterator[Variable]:
        """All variables, the members of structures, parameters and results of functions."""
        for node in every(self.program):
            if isinstance(node, Function):
                yield node.result
            if isinstance(node, Declarator):
                yield node.variable
                yield from node.variable.numbers
                yield from (node.variable.members or {}).values()

    def find_texts(self) -> None:
        """Arrays of `char` that stand where only a text can become texts."""
        for node in every(self.program):
            for place in self.texts_in(node):
                found = variable_of(place) if isinstance(place, Expression) else place
                if found:
                    found.is_text = True
        for it in self.variables():
            if it.is_text and it.kind is Kind.WHOLE and it.spelled_type == "char" and it.dimensions:
                it.kind, it.dimensions = Kind.TEXT, it.dimensions[:-1]

    def texts_in(self, node: Node) -> Iterator:
        """Expressions of a node that have to be texts."""
        if isinstance(node, Declarator) and has_text(node.first_value):
            yield node.variable
        if not isinstance(node, Call):
            return
        if node.function in TEXT_FUNCTIONS:
            behind = TEXT_FORMATS.get(node.function)
            yield from (node.arguments[:1] if behind is not None else node.arguments[:2])
            yield from printed_texts(node, behind) if behind is not None else ()
        if node.function in TEXT_READERS:
            yield from node.arguments[:1]
        if node.function in PRINTERS:
            yield from printed_texts(node, PRINTERS[node.function])
        if node.function in self.functions:
            for parameter, argument in zip(self.functions[node.function].parameters, node.arguments):
                if parameter.variable.kind is Kind.TEXT:
                    yield argument


def has_text(value: Optional[Expression]) -> bool:
    """Whether a first value has a text in it."""
    if isinstance(value, Values):
        return any(has_text(it) for it in value.items)
    return isinstance(value, Text) or (isinstance(value, Conditional) and has_text(value.yes))


def printed_texts(call: Call, format_at: int) -> list[Expression]:
    """The arguments of a call for the conversions `%s` of its format."""
    if len(call.arguments) <= format_at or not isinstance(call.arguments[format_at], Text):
        return []
    words = [it for it in CONVERSION.findall(call.arguments[format_at].text) if not it.endswith("%")]
    return [it for word, it in zip(words, call.arguments[format_at + 1 :]) if word.endswith("s")]
