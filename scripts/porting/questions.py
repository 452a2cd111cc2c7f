"""A text from a channel of which the program asks one thing alone, as whether it begins with "ERR": a channel of 0 and 1 in the port.

So the trace needs no number for each text that a device may send: the file of units says what is asked, as `text NAME ERR*`.
"""
from dataclasses import dataclass
from typing import Optional

from porting.binding import stores_in, subscripts_of, variable_of
from porting.notes import KNOW, OTHERWISE, ByHand
from porting.parse_expressions import WHOLE
from porting.texts import BYTE, Texts
from porting.tokens import harmless
from porting.tree import Binary, Call, Character, Element, Expression, Name, Node, Parentheses, Prefix, every
from porting.values import EQUALITY, Value
from porting.variables import Kind, Variable
from porting.words import PARSERS, PRINTERS

COMPARERS = ("strcmp", "strncmp", "strstr")
# Functions that ask for something else of a text, or print it: what a text is does not matter to them.
NEUTRAL = PARSERS | {"sscanf", "pvGet", "pvGetQ", "pvFlushQ", "pvFreeQ", "pvConnected", "pvAssigned", "pvCount", "pvName"}
NEUTRAL |= {"pvStatus", "pvSeverity", "pvTimeStamp"}
# Those that ask for a number in it: each text has one.
READERS = PARSERS | {"sscanf"}
EQUALS = ("==", "!=")


@dataclass(frozen=True)
class Pattern:
    """What is asked of a text: whether it is one, has it at its front, or has it somewhere. The text is as C spells it."""

    text: str
    is_front: bool = False
    is_part: bool = False

    def is_whole(self) -> bool:
        """Whether it is asked whether the text is the same as a whole."""
        return not self.is_front and not self.is_part

    def shown(self) -> str:
        """The pattern for a person, with a star for any bytes."""
        return ("*" if self.is_part else "") + self.text + ("*" if self.is_front or self.is_part else "")

    def told(self) -> str:
        """The pattern in words."""
        if not self.text:
            return "with each text"
        what = "has" if self.is_part else "begins with" if self.is_front else "is"
        return f'where its text {what} "{self.text}", and else 0'


ANY = Pattern("", is_front=True)


@dataclass(frozen=True)
class Question:
    """A question of a text, the place of that, and whether what asks is other than 0 where the answer is yes."""

    place: Expression
    pattern: Pattern
    is_yes: bool


class Questions(Texts):
    """Finds texts of which one thing is asked, and writes what asks."""

    def find_questions(self) -> None:
        """Gives each of these variables its pattern."""
        stored = {it for node in every(self.program) for it in stores_of_texts(node)}
        asked: dict[Variable, list[Pattern]] = {}
        uses: dict[Variable, int] = {}
        for node in every(self.program):
            if isinstance(node, Name) and node.variable:
                uses[node.variable] = uses.get(node.variable, 0) + 1
            for variable, pattern in self.uses_of_texts(node):
                asked.setdefault(variable, []).append(pattern)
        for variable, patterns in asked.items():
            told = {it for it in patterns if it is not None and it != ANY} or set(patterns) & {ANY}
            is_channel = variable.kind is Kind.TEXT and variable.channels is not None and variable not in stored
            if is_channel and len(told) == 1 and len(patterns) == uses[variable]:
                variable.pattern = told.pop()
        for variable in self.same_for_each_channel(list(asked)):
            text = f"'{variable.name}' is 1 {variable.pattern.told()}: the trace has to bring that"
            self.notes.add(variable.line, KNOW, text, OTHERWISE)

    def same_for_each_channel(self, variables: list[Variable]) -> list[Variable]:
        """The variables that keep their pattern: of a channel that another one reads in another way there is none."""
        patterns: dict[str, set] = {}
        for it in self.binding.variables():
            for name in it.channels.all_names() if it.channels else []:
                patterns.setdefault(self.filled(name), set()).add(it.pattern)
        for it in variables:
            names = it.channels.all_names() if it.channels else []
            if any(len(patterns[self.filled(name)]) > 1 for name in names):
                it.pattern = None
        return [it for it in variables if it.pattern]

    def uses_of_texts(self, node: Node) -> list[tuple[Variable, Optional[Pattern]]]:
        """The variables that a node itself asks something of, with what; None for what does not matter."""
        found = self.question(node) if isinstance(node, Expression) else None
        if found:
            return [(variable_of(found.place), found.pattern)]
        if isinstance(node, Call) and (node.function in NEUTRAL or node.function in PRINTERS):
            places = node.arguments if node.function in PRINTERS else node.arguments[:1]
            asked = ANY if node.function in READERS else None
            return [(variable_of(it), asked) for it in places if variable_of(it)]
        return []

    def question(self, node: Expression) -> Optional[Question]:
        """What an expression asks of a text from a channel, or None."""
        if isinstance(node, Call) and node.function in COMPARERS and len(node.arguments) > 1:
            return self.question_of_call(node)
        if isinstance(node, Binary) and node.sign in EQUALS:
            for place, byte in ((node.left, node.right), (node.right, node.left)):
                if is_first_byte(place) and isinstance(byte, Character) and byte.spelled != "'\\0'":
                    return Question(place, Pattern(byte.spelled[1:-1], is_front=True), node.sign == "==")
        return None

    def question_of_call(self, node: Call) -> Optional[Question]:
        """What a call of `strcmp` and its like asks."""
        for place, other in ((node.arguments[0], node.arguments[1]), (node.arguments[1], node.arguments[0])):
            known = self.known_text(other) if variable_of(place) else None
            if not known:
                continue
            if node.function == "strstr":
                return Question(place, Pattern(known, is_part=True), True) if place is node.arguments[0] else None
            if node.function == "strcmp":
                return Question(place, Pattern(known), False)
            count = self.count_of(node)
            letters = BYTE.findall(known)
            if count is not None and count > 0:
                return Question(place, Pattern("".join(letters[:count]), count <= len(letters)), False)
        return None

    def count_of(self, node: Call) -> Optional[int]:
        """The number of bytes that `strncmp` looks at, where it is a constant."""
        try:
            found = self.value(node.arguments[2]).constant if len(node.arguments) > 2 else None
        except ByHand:
            return None
        return None if found is None else int(found)

    def answered(self, node: Expression, is_yes: bool) -> Optional[Value]:
        """What asks of a text with a pattern, or asks for the contrary: a comparison with 1. None where it asks no such thing."""
        found = self.question(node)
        variable = variable_of(found.place) if found else None
        if variable is None or variable.pattern is None:
            return None
        subscripts = subscripts_of(found.place)[: len(variable.dimensions)]
        text = self.place_text(found.place, subscripts, variable, Kind.BYTE)
        sign = "==" if found.is_yes == is_yes else "!="
        return Value(f'{text} {sign} 1 /*"{harmless(variable.pattern.shown())}"*/', EQUALITY)

    def compared(self, node: Call, sign: str) -> Value:
        """A comparison with 0 of what `strcmp` and its like give."""
        return self.answered(node, sign == "!=") or super().compared(node, sign)

    def found_in(self, node: Call) -> Value:
        """`strstr` as a condition."""
        found = self.answered(node, True)
        if found is None:
            raise ByHand("function 'strstr'")
        return Value(f"({found.text})", WHOLE)


def is_first_byte(node: Expression) -> bool:
    """Whether an expression is the first byte of a text from a channel."""
    if isinstance(node, Parentheses):
        return is_first_byte(node.inner)
    variable = variable_of(node)
    is_byte = variable is not None and variable.kind is Kind.TEXT and len(subscripts_of(node)) == len(variable.dimensions) + 1
    return is_byte and isinstance(node, Element) and getattr(node.subscript, "spelled", "") == "0"


def stores_of_texts(node: Node) -> list[Variable]:
    """The variables that a node itself stores to, but by a `pvGet`."""
    if isinstance(node, Call) and node.function in ("pvGet", "pvGetQ"):
        return []
    is_pointer = isinstance(node, Prefix) and node.sign == "&" and variable_of(node.operand)
    return [variable_of(node.operand)] if is_pointer else list(stores_in(node)) if isinstance(node, Expression) else []
