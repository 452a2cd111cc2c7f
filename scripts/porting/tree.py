"""The tree of a program: what the parser finds, each node with its tokens from `first` up to `end`."""
from dataclasses import dataclass, field, fields
from enum import Enum, auto
from typing import Iterator, Optional

from porting.variables import Type, Variable


@dataclass(eq=False)
class Node:
    """A part of the program."""

    first: int
    end: int

    def children(self) -> "Iterator[Node]":
        """The nodes in this one, in the order of the source."""
        for it in fields(self):
            value = getattr(self, it.name)
            if isinstance(value, Node):
                yield value
            elif isinstance(value, list):
                yield from (part for part in value if isinstance(part, Node))


class Expression(Node):
    """A node that has a value."""


@dataclass(eq=False)
class Number(Expression):
    spelled: str


@dataclass(eq=False)
class Character(Expression):
    spelled: str


@dataclass(eq=False)
class Text(Expression):
    """A string, or several that C joins."""

    text: str


@dataclass(eq=False)
class Parentheses(Expression):
    inner: Expression


@dataclass(eq=False)
class Name(Expression):
    name: str
    variable: Optional[Variable] = None


@dataclass(eq=False)
class Element(Expression):
    array: Expression
    subscript: Expression


@dataclass(eq=False)
class Member(Expression):
    whole: Expression
    sign: str
    member: str


@dataclass(eq=False)
class Prefix(Expression):
    sign: str
    operand: Expression


@dataclass(eq=False)
class Postfix(Expression):
    sign: str
    operand: Expression
    # Whether nobody looks at its value.
    alone: bool = False


@dataclass(eq=False)
class Cast(Expression):
    type: Type
    operand: Expression


@dataclass(eq=False)
class SizeOf(Expression):
    type: Optional[Type]
    operand: Optional[Expression]


@dataclass(eq=False)
class Binary(Expression):
    sign: str
    left: Expression
    right: Expression


@dataclass(eq=False)
class Assignment(Expression):
    sign: str
    left: Expression
    right: Expression


@dataclass(eq=False)
class Conditional(Expression):
    condition: Expression
    yes: Expression
    no: Expression


@dataclass(eq=False)
class Comma(Expression):
    items: list[Expression]


@dataclass(eq=False)
class Values(Expression):
    """First values in braces."""

    items: list[Expression]


@dataclass(eq=False)
class Call(Expression):
    function: str
    arguments: list[Expression]
    # Whether it is a whole statement.
    alone: bool = False
    # Whether it is a put with SYNC for which a state waits.
    waits: bool = False


@dataclass(eq=False)
class Block(Node):
    items: list[Node]


@dataclass(eq=False)
class Plain(Node):
    """What stays as it is: `;`, `break;`, `continue;`, `state NAME;`, or event flags."""

    # `break`, `continue` or `state`, where it begins so.
    word: str


@dataclass(eq=False)
class EventFlags(Plain):
    names: list[str]


@dataclass(eq=False)
class Return(Node):
    value: Optional[Expression]


@dataclass(eq=False)
class If(Node):
    condition: Expression
    yes: Node
    no: Optional[Node]


@dataclass(eq=False)
class While(Node):
    condition: Expression
    body: Node


@dataclass(eq=False)
class For(Node):
    # What stands in its head: each of the three may be missing.
    head: list[Optional[Expression]]
    body: Node


@dataclass(eq=False)
class Do(Node):
    body: Node
    condition: Expression


@dataclass(eq=False)
class Case(Node):
    """A part of a `switch`."""

    # None stands for `default`.
    labels: list[Optional[Expression]]
    # Where its last label ends, with the colon.
    label_end: int
    items: list[Node]


@dataclass(eq=False)
class Switch(Node):
    value: Expression
    sections: list[Case]


@dataclass(eq=False)
class Action(Node):
    """An expression as a statement."""

    expression: Expression


class Place(Enum):
    """Where something stands."""

    STATEMENT = auto()
    DECLARATION = auto()
    DEFINITION = auto()


@dataclass(eq=False)
class Unknown(Node):
    """A statement or definition that is none of SNL here, with the cause."""

    place: Place
    why: str


@dataclass(eq=False)
class Declarator(Node):
    variable: Variable
    first_value: Optional[Expression]


@dataclass(eq=False)
class Declaration(Node):
    # Where its type ends.
    type_end: int
    declarators: list[Declarator]


@dataclass(eq=False)
class Option(Node):
    sign: str
    letters: str


@dataclass(eq=False)
class Assign(Node):
    name: str
    subscript: Optional[Expression]
    channels: list[Text]
    is_list: bool
    variable: Optional[Variable] = None


@dataclass(eq=False)
class Monitor(Node):
    """`monitor`, `sync` or `syncQ`."""

    word: str
    name: str
    subscript: Optional[Expression]
    variable: Optional[Variable] = None


@dataclass(eq=False)
class LeftOut(Node):
    """What becomes a comment: names and types of C, prototypes, structures."""

    note: str


@dataclass(eq=False)
class Enumeration(LeftOut):
    items: list[tuple[str, int]] = field(default_factory=list)


@dataclass(eq=False)
class Stray(Node):
    """A semicolon that nothing needs."""


@dataclass(eq=False)
class Function(Node):
    name: str
    # Where its type ends.
    type_end: int
    result: Variable
    parameters: list[Declarator]
    body: Block
    is_behind_sets: bool = False


@dataclass(eq=False)
class Clause(Node):
    condition: Optional[Expression]
    block: Block


@dataclass(eq=False)
class State(Node):
    definitions: list[Node]
    entries: list[Block]
    clauses: list[Clause]
    exits: list[Block]


@dataclass(eq=False)
class StateSet(Node):
    name: str
    definitions: list[Node]
    states: list[State]


@dataclass(eq=False)
class Program(Node):
    definitions: list[Node]
    sets: list[StateSet]
    blocks: list[Block]
    # The token `program`, the last one of the head, and a semicolon behind it.
    word: int
    head_end: int
    semicolon: Optional[int]
    macros: Optional[Text]


def every(node: Node) -> Iterator[Node]:
    """A node and all that stand in it, in the order of the source."""
    waiting = [node]
    while waiting:
        found = waiting.pop()
        yield found
        waiting += reversed(list(found.children()))


def flat(value: Optional[Expression]) -> list[Expression]:
    """The values of a first value, without its braces."""
    if isinstance(value, Values):
        return [one for it in value.items for one in flat(it)]
    return [value] if value is not None else []
