"""Variables, elements and members as places: how they are called in the port, and how many elements they have."""
import re
from fractions import Fraction
from typing import Optional, Union

from porting.binding import Binding, subscripts_of, variable_of
from porting.notes import KNOW, ByHand
from porting.tree import Element, Expression, Name
from porting.values import PRODUCT, Arithmetic, Value, held
from porting.variables import Kind


class Places(Arithmetic):
    """How places are written."""

    def __init__(self, tokens, program, notes, settings, binding: Binding):
        super().__init__(tokens, program, notes, settings)
        self.binding = binding

    def value(self, node: Expression, wanted: Optional[int] = None) -> Value:
        """The value of an expression; `wanted` are the digits that it is asked for in, where that is known."""
        raise NotImplementedError

    def count(self, size: Union[Expression, int, None]) -> int:
        """The number of elements that a dimension says."""
        if isinstance(size, int):
            return size
        if size is None:
            raise ByHand("an array without a size")
        found = self.value(size)
        if found.constant is None:
            raise ByHand("a size that is no constant")
        return int(found.constant)

    def size(self, size: Union[Expression, int, None]) -> str:
        """A dimension as it is written."""
        return str(self.count(size)) if size is None or isinstance(size, int) else self.whole(self.value(size)).text

    def place(self, node: Expression) -> Value:
        """A variable or an element of it."""
        variable = variable_of(node)
        if variable is None:
            raise ByHand(f"'{self.named(node)}' is not declared")
        if variable.kind in (Kind.UNKNOWN, Kind.STRUCTURE, Kind.NOTHING):
            raise ByHand(f"'{variable.name}' has no type of numbers")
        if variable.kind is Kind.CONSTANT:
            return Value(f"{variable.value} /*{variable.name}*/", constant=Fraction(variable.value))
        subscripts, kind = subscripts_of(node), variable.kind
        if kind is Kind.TEXT and len(subscripts) == len(variable.dimensions) + 1:
            self.first_byte(subscripts.pop(), node)
            kind = Kind.BYTE
        if subscripts and len(subscripts) != len(variable.dimensions):
            raise ByHand("a part of an array")
        text = self.place_text(node, subscripts, variable, kind)
        return Value(text, kind=kind, digits=variable.digits())

    def first_byte(self, subscript: Expression, node: Expression) -> None:
        """Allows the subscript 0 of a text."""
        if self.value(subscript).constant != 0:
            raise ByHand("a byte of a text")
        self.say(node, KNOW, "first byte of a text: it is 0 where the text is empty")

    def place_text(self, node: Expression, subscripts: list[Expression], variable, kind: Kind) -> str:
        """A place as it is written."""
        if not subscripts:
            return variable.new_name
        texts = [self.whole(self.value(it)) for it in subscripts]
        is_plain = isinstance(node, Element) and isinstance(node.array, Name) and kind is not Kind.BYTE
        if len(texts) == 1 and is_plain and variable.new_name == variable.name:
            return self.woven(node, [(node.subscript, texts[0].text)])
        text = texts[0].text
        for size, it in zip(variable.dimensions[1:], texts[1:]):
            outer = text if re.fullmatch(r"\w+", text) else f"({text})"
            text = f"{outer} * {self.count(size)} + {held(it, PRODUCT)}"
        if len(texts) > 1:
            name = variable.new_name
            self.say(node, KNOW, f"'{name}' has one dimension here: an inner subscript that is too large goes to the next row")
        return f"{variable.new_name}[{text}]"


