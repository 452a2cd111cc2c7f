"""Texts: each is a number of one list for the whole program, and the empty one is 0."""
import re
from fractions import Fraction
from typing import Optional

from porting.binding import subscripts_of, variable_of
from porting.notes import DECIDE, KNOW, ByHand
from porting.parse_expressions import TIGHTNESS
from porting.places import Places
from porting.tokens import harmless
from porting.tree import (
    Assignment,
    Call,
    Conditional,
    Declarator,
    Element,
    Expression,
    Member,
    Name,
    Node,
    Parentheses,
    Text,
    every,
    flat,
)
from porting.values import EQUALITY, STORES, Value
from porting.variables import Kind
from porting.words import MACRO_VALUES, TEXT_COMPARISONS, TEXT_COPIES, TEXT_FORMATS

# A byte of a text, as C spells it.
BYTE = re.compile(r"\\(?:[0-7]{1,3}|x[0-9a-fA-F]+|.)|.", re.DOTALL)
# A text has fewer letters than this.
LONGEST_TEXT = 39


class Texts(Places):
    """The list of texts, and what is done with them."""

    def __init__(self, *given):
        super().__init__(*given)
        self.legend: dict[str, int] = {"": 0}
        macros = self.program.macros.text if self.program.macros else ""
        pairs = [it.split("=", 1) for it in macros.split(",") if "=" in it]
        self.macro_values = {name.strip(): value.strip() for name, value in pairs}
        self.macro_values.update(self.settings.macros)

    def number_of(self, text: str) -> int:
        """The number of a text, which is put on the list where it has none."""
        return self.legend.setdefault(text, len(self.legend))

    def listed_text(self, text: str) -> str:
        """The number of a text, with the text beside it."""
        return f"{self.number_of(text)}" + (f' /*"{harmless(text)}"*/' if text else "")

    def is_text(self, node: Expression) -> bool:
        """Whether an expression is a text."""
        if isinstance(node, Parentheses):
            return self.is_text(node.inner)
        if isinstance(node, Conditional):
            return self.is_text(node.yes)
        if isinstance(node, Call):
            return node.function in MACRO_VALUES or node.function == "pvName"
        if isinstance(node, Text):
            return True
        found = variable_of(node)
        return found is not None and found.kind is Kind.TEXT and len(subscripts_of(node)) == len(found.dimensions)

    def known_text(self, node: Expression) -> Optional[str]:
        """The text that an expression is known to be, or None."""
        if isinstance(node, Text):
            return node.text
        if isinstance(node, Parentheses):
            return self.known_text(node.inner)
        if isinstance(node, Call) and node.function in MACRO_VALUES and node.arguments:
            return self.macro_value(node)
        if isinstance(node, Call) and node.function == "pvName" and node.arguments:
            return self.channel_name(node)
        return None

    def macro_value(self, node: Call) -> Optional[str]:
        """The value of a macro of the program."""
        name = node.arguments[-1]
        if not isinstance(name, Text):
            return None
        value = self.macro_values.get(name.text, "")
        where = "--macros says" if name.text in self.settings.macros else "behind the program's name"
        self.say(node, DECIDE, f"macro '{name.text}' is taken as '{value}', as {where}")
        return value

    def channel_name(self, node: Call) -> Optional[str]:
        """The name of the channel of a place, where it is known."""
        variable = variable_of(node.arguments[0])
        subscripts = subscripts_of(node.arguments[0])
        if variable is None or variable.channels is None:
            return None
        names = variable.channels.names
        if names and not variable.channels.is_list:
            return self.filled(names[0], node)
        at = self.value(subscripts[0]).constant if subscripts else None
        return self.filled(names[int(at)], node) if at is not None and 0 <= at < len(names) else None

    def filled(self, channel: str, node: Optional[Expression] = None) -> str:
        """The name of a channel with the macros of the program in it."""
        if "{" in channel and node:
            self.say(node, KNOW, "channel name with the macros as behind the program's name")
        return re.sub(r"\{(\w*)\}", lambda it: self.macro_values.get(it[1], ""), channel)

    def text(self, node: Expression) -> Value:
        """The number of a text."""
        known = self.known_text(node)
        if known is not None:
            empty = Fraction(0) if known == "" else None
            return Value(self.listed_text(known), kind=Kind.TEXT, constant=empty)
        if isinstance(node, Parentheses):
            return self.text(node.inner)
        if isinstance(node, Conditional):
            return self.value(node)
        if isinstance(node, (Name, Element, Member)):
            found = self.place(node)
            if found.kind is Kind.TEXT:
                return found
        raise ByHand(f"text {self.named(node)}")

    def is_comparison(self, node: Expression) -> bool:
        """Whether an expression is a comparison of texts."""
        return isinstance(node, Call) and (node.function in TEXT_COMPARISONS or node.function == "strstr")

    def compared(self, node: Call, sign: str) -> Value:
        """A comparison of two texts."""
        if len(node.arguments) < 2:
            raise ByHand(f"arguments of '{node.function}'")
        if node.function == "strncmp" and len(node.arguments) > 2:
            front = self.front_of(node)
            if front is not None:
                return self.begins_with(node, *front, sign)
        left, right = self.text(node.arguments[0]), self.text(node.arguments[1])
        if node.function not in ("strcmp", "strncmp"):
            self.say(node, DECIDE, f"{node.function}: the whole texts are compared, letter by letter")
        return Value(f"{left.text} {sign} {right.text}", EQUALITY)

    def front_of(self, node: Call) -> Optional[tuple[Expression, str]]:
        """The text that `strncmp` looks at, and how it has to begin; None where both are compared as a whole."""
        count = self.value(node.arguments[2]).constant
        for one, other in ((node.arguments[0], node.arguments[1]), (node.arguments[1], node.arguments[0])):
            known = self.known_text(other)
            if known is not None and count is not None:
                letters = BYTE.findall(known)
                return (one, "".join(letters[: int(count)])) if count <= len(letters) else None
        if count is None or count < LONGEST_TEXT:
            raise ByHand("strncmp of a part of a text")
        return None

    def begins_with(self, node: Call, place: Expression, front: str, sign: str) -> Value:
        """Whether a text begins with another one: it is one of those of the program that do."""
        found = [it for it in self.texts_of_program() if it.startswith(front)]
        if not found:
            raise ByHand(f'strncmp: no text of the program begins with "{front}"')
        text = self.text(place).text
        if STORES.search(text) and len(found) > 1:
            raise ByHand("strncmp of what stores")
        self.say(node, DECIDE, f'strncmp: of the texts of the program those that begin with "{front}": {len(found)}')
        tests = [f"{text} {sign} {self.listed_text(it)}" for it in found]
        if len(tests) == 1:
            return Value(tests[0], EQUALITY)
        return Value((" || " if sign == "==" else " && ").join(tests), TIGHTNESS["||" if sign == "==" else "&&"])

    def texts_of_program(self) -> list[str]:
        """The texts that the program stores, or compares as a whole."""
        found: dict[str, None] = {}
        for node in every(self.program):
            for it in stored_texts(node):
                if isinstance(it, Text):
                    found[it.text] = None
        return list(found)

    def copied(self, node: Call) -> Value:
        """`strcpy` and its like: an assignment."""
        self.has_arguments(node, 2)
        if not self.is_text(node.arguments[0]):
            raise ByHand(f"{node.function} to what is no text")
        return Value(f"{self.text(node.arguments[0]).text} = {self.text(node.arguments[1]).text}", 2, Kind.TEXT)

    def length(self, node: Call) -> Value:
        """`strlen`: whether a text is empty."""
        self.has_arguments(node, 1)
        known = self.known_text(node.arguments[0])
        if known is not None:
            found = len(BYTE.findall(known))
            return Value(f"{found} /*{self.named(node)}*/", constant=Fraction(found))
        if not self.is_text(node.arguments[0]):
            raise ByHand("function 'strlen'")
        self.say(node, DECIDE, "strlen is 1 where the text is not empty")
        return Value(f"({self.text(node.arguments[0]).text} != 0)")

    def has_arguments(self, node: Call, least: int) -> None:
        """Refuses a call with too few arguments."""
        if len(node.arguments) < least:
            raise ByHand(f"arguments of '{node.function}'")


def stored_texts(node: Node) -> list[Expression]:
    """What is stored as a text, or compared as one, in a node itself."""
    if isinstance(node, Declarator):
        return flat(node.first_value) if node.variable.kind is Kind.TEXT else []
    if isinstance(node, Conditional):
        return [node.yes, node.no]
    if isinstance(node, Assignment):
        return [node.right]
    if not isinstance(node, Call):
        return []
    if node.function in TEXT_FORMATS:
        at = TEXT_FORMATS[node.function]
        return node.arguments[at : at + 1]
    if node.function in TEXT_COPIES:
        return node.arguments[1:2]
    return node.arguments[:2] if node.function in TEXT_COMPARISONS and node.function != "strncmp" else []
