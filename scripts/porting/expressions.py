"""What each expression becomes."""
import re
from dataclasses import replace
from fractions import Fraction
from typing import Callable, Optional

from porting.binding import subscripts_of, variable_of
from porting.constants import decimals, literal
from porting.functions import Functions
from porting.notes import ByHand
from porting.parse_expressions import ASSIGNMENT, COMMA, CONDITIONAL, PREFIX, WHOLE
from porting.ratios import has_quotient
from porting.tree import (
    Assignment,
    Binary,
    Call,
    Cast,
    Character,
    Comma,
    Conditional,
    Element,
    Expression,
    Member,
    Name,
    Number,
    Parentheses,
    Postfix,
    Prefix,
    SizeOf,
    Text,
)
from porting.values import STORES, SUM, Value, common_digits, held
from porting.variables import Kind
from porting.words import BYTES, CONSTANTS, HUGE, PREDEFINED, SECONDS

WHOLE_NUMBER = re.compile(r"(0[xX][0-9a-fA-F]+|\d+)([uUlL]*)")
ARITHMETIC = ("+", "-", "*", "/")


class Expressions(Functions):
    """How expressions are written, by their sort."""

    def value(self, node: Expression, wanted: Optional[int] = None) -> Value:
        """The value of an expression; `wanted` are the digits that it is asked for in, where that is known."""
        if isinstance(node, Member) and isinstance(node.whole, Call) and node.member == SECONDS:
            return self.value(node.whole)
        if isinstance(node, (Element, Member)):
            return self.place(node)
        plain = {Number: self.of_number, Character: self.of_character, Name: self.of_name, Postfix: self.of_postfix}
        plain.update({SizeOf: self.of_sizeof, Assignment: self.of_assignment, Comma: self.of_comma, Text: self.text})
        if type(node) in plain:
            return plain[type(node)](node)
        asked: dict[type, Callable] = {Parentheses: self.of_parentheses, Prefix: self.of_prefix, Cast: self.of_cast}
        asked.update({Binary: self.of_binary, Conditional: self.of_conditional, Call: self.called})
        if type(node) in asked:
            return asked[type(node)](node, wanted)
        raise ByHand("values in braces")

    def of_number(self, node: Number) -> Value:
        """A number: one with decimals waits for its unit."""
        value, is_real = literal(node.spelled)
        behind = self.tokens[node.first].behind
        if is_real:
            return Value(None, kind=Kind.QUANTITY, constant=value, behind=behind, spelled=node.spelled)
        found = WHOLE_NUMBER.fullmatch(node.spelled)
        suffix = "L" if found and "l" in found[2].lower() else ""
        suffix = found[2] if found and found[2] in ("l", "L") else suffix
        return Value((found[1] + suffix if found else node.spelled) + behind, constant=value, behind=behind, spelled=node.spelled)

    def of_character(self, node: Character) -> Value:
        """A character is the number of its byte."""
        return Value(self.spelled(node.first, node.end), constant=Fraction(0) if node.spelled == "'\\0'" else None)

    def of_parentheses(self, node: Parentheses, wanted: Optional[int]) -> Value:
        """What stands in parentheses."""
        found = self.value(node.inner, wanted)
        if found.kind is Kind.NOTHING or (found.constant is not None and found.kind is Kind.QUANTITY):
            return found
        return replace(found, text=self.woven(node, [(node.inner, found.text)]), tightness=WHOLE)

    def of_name(self, node: Name) -> Value:
        """A variable, a constant or an event flag."""
        if node.variable is not None:
            return self.place(node)
        spelled = self.spelled(node.first, node.end)
        if node.name in PREDEFINED:
            return Value(spelled, constant=Fraction(PREDEFINED[node.name]))
        if node.name in CONSTANTS:
            found = CONSTANTS[node.name]
            return Value(f"{found} /*{node.name}*/", WHOLE if found >= 0 else PREFIX, constant=Fraction(found))
        if node.name in HUGE:
            return Value(None, kind=Kind.QUANTITY, constant=Fraction(10**300), behind=f" /*{node.name}*/")
        if node.name in self.binding.flags:
            return Value(spelled, kind=Kind.FLAG)
        raise ByHand(f"'{node.name}' is not declared")

    def of_prefix(self, node: Prefix, wanted: Optional[int]) -> Value:
        """A sign in front."""
        if node.sign in ("*", "&"):
            raise ByHand("pointer")
        if node.sign in ("++", "--"):
            return self.stepped(node, PREFIX)
        found = self.value(node.operand, wanted)
        if node.sign == "!":
            return Value(self.woven(node, [(node.operand, held(self.truth(found), PREFIX))]), PREFIX)
        if found.kind not in (Kind.WHOLE, Kind.QUANTITY, Kind.FLAG) or (node.sign == "~" and found.kind is Kind.QUANTITY):
            raise ByHand(f"'{node.sign}' of what is no whole number")
        constant = None
        if found.constant is not None and node.sign in ("+", "-"):
            constant = -found.constant if node.sign == "-" else found.constant
        spelled, behind = found.spelled, found.behind
        if node.sign == "-":
            spelled, behind = spelled and f"-{spelled}", behind.replace("/*", "/*-", 1)
        if found.kind is Kind.QUANTITY and constant is not None:
            return Value(None, kind=Kind.QUANTITY, constant=constant, behind=behind, spelled=spelled)
        text = self.woven(node, [(node.operand, held(found, PREFIX))])
        return Value(text, PREFIX, found.kind, found.digits, constant, behind if constant is not None else "", spelled)

    def of_postfix(self, node: Postfix) -> Value:
        """`x++` and `x--`."""
        return self.stepped(node, WHOLE)

    def stepped(self, node, tightness: int) -> Value:
        """A step by 1: of a quantity it is a step by as many units."""
        found = self.value(node.operand)
        if found.kind is Kind.WHOLE:
            return Value(self.woven(node, [(node.operand, found.text)]), tightness)
        if found.kind is not Kind.QUANTITY or variable_of(node.operand) is None:
            raise ByHand(f"'{node.sign}' of what is no number")
        unit = 10**found.digits
        text = f"{found.text} {node.sign[0]}= {unit}"
        if tightness == PREFIX or node.alone:
            return Value(text, ASSIGNMENT, Kind.QUANTITY, found.digits)
        back = "-" if node.sign == "++" else "+"
        return Value(f"({text}) {back} {unit}", SUM, Kind.QUANTITY, found.digits)

    def in_parentheses(self, value: Value) -> Value:
        """A value that is held together as a whole."""
        return replace(value, text=held(value, WHOLE), tightness=WHOLE)

    def of_cast(self, node: Cast, wanted: Optional[int]) -> Value:
        """A cast: to a whole number it cuts."""
        if node.type.kind not in (Kind.WHOLE, Kind.QUANTITY, Kind.NOTHING):
            raise ByHand("a cast to a pointer or a structure")
        if node.type.kind is Kind.WHOLE and self.ratio(node.operand) is not None:
            return self.in_parentheses(self.cut(node.operand))
        found = self.value(node.operand, wanted)
        if node.type.kind is Kind.WHOLE and found.kind is Kind.QUANTITY:
            return self.in_parentheses(self.whole(found))
        if node.type.kind is Kind.QUANTITY and found.kind is Kind.WHOLE:
            return replace(found, kind=Kind.QUANTITY)
        return found

    def of_sizeof(self, node: SizeOf) -> Value:
        """`sizeof`: the bytes that C would have."""
        bytes_ = BYTES.get(node.type.spelled.split()[-1]) if node.type else None
        variable = variable_of(node.operand) if node.operand else None
        if variable and variable.kind is Kind.TEXT:
            bytes_ = BYTES["string"]
        elif variable:
            bytes_ = BYTES.get(variable.spelled_type.split()[-1])
            for size in variable.dimensions[len(subscripts_of(node.operand)) :]:
                bytes_ = bytes_ and bytes_ * self.count(size)
        if not bytes_:
            raise ByHand("sizeof")
        return Value(f"{bytes_} /*{self.named(node)}*/", constant=Fraction(bytes_))

    def of_binary(self, node: Binary, wanted: Optional[int]) -> Value:
        """Two values with a sign between them."""
        if node.sign in ("==", "!="):
            for call, other in ((node.left, node.right), (node.right, node.left)):
                if self.is_comparison(call) and self.value(other).constant == 0:
                    return self.compared(call, node.sign)
            answer = self.answered(node, True)
            if answer:
                return answer
        if node.sign in ("*", "/") and (has_quotient(node.left) or has_quotient(node.right)):
            found = self.in_one_quotient(node, wanted)
            if found:
                return found
        if node.sign in ARITHMETIC:
            inner = None if wanted is None else wanted + (2 if node.sign in "*/" else 0)
        else:
            inner = max((it for it in map(self.digits_of, (node.left, node.right)) if it is not None), default=None)
        left, right = self.value(node.left, inner), self.value(node.right, inner)

        def joined(one: str, other: str) -> str:
            """The source with other text for both."""
            return self.woven(node, [(node.left, one), (node.right, other)])

        return self.combined(node.sign, left, right, wanted, joined, node)

    def digits_of(self, node: Expression) -> Optional[int]:
        """The digits of a quantity that stands alone on a side of a comparison, or None."""
        found = variable_of(node)
        return found.digits() if found and found.kind is Kind.QUANTITY else None

    def of_conditional(self, node: Conditional, wanted: Optional[int]) -> Value:
        """`c ? x : y`: both in one unit."""
        condition = self.truth(self.value(node.condition))
        yes, no = self.value(node.yes, wanted), self.value(node.no, wanted)
        kinds = {yes.kind, no.kind}
        if Kind.NOTHING in kinds or (Kind.TEXT in kinds and kinds != {Kind.TEXT}):
            raise ByHand("a text or nothing stands where a number has to")
        kind, digits = yes.kind, 0
        if Kind.QUANTITY in kinds:
            kind, digits = Kind.QUANTITY, common_digits(yes, no, wanted)
            yes, no = self.at(yes, digits, node), self.at(no, digits, node)
        parts = [(node.condition, held(condition, 4)), (node.yes, yes.text), (node.no, held(no, CONDITIONAL))]
        return Value(self.woven(node, parts), CONDITIONAL, kind, digits)

    def of_comma(self, node: Comma) -> Value:
        """Expressions one after another."""
        found = [self.value(it) for it in node.items]
        found = [it if it.text is not None else self.at(it, decimals(it.constant) or 0, node) for it in found]
        text = self.woven(node, [(it, held(value, ASSIGNMENT)) for it, value in zip(node.items, found)])
        return Value(text, COMMA, found[-1].kind, found[-1].digits)

    def of_assignment(self, node: Assignment) -> Value:
        """A store: a quantity to the unit of the place, a whole number cut."""
        left = self.value(node.left)
        if variable_of(node.left) is None or left.kind in (Kind.FLAG, Kind.NOTHING):
            raise ByHand(f"a store to '{self.named(node.left)}'")
        if left.kind in (Kind.TEXT, Kind.BYTE):
            return self.text_stored(node, left)
        if node.sign == "=":
            right = self.value(node.right, left.digits) if left.kind is Kind.QUANTITY else self.cut(node.right)
            return self.stored(node, left, right)
        return self.changed(node, left)

    def text_stored(self, node: Assignment, left: Value) -> Value:
        """A store of a text, or of 0 to its first byte, which empties it."""
        right = self.value(node.right) if left.kind is Kind.BYTE else self.text(node.right)
        if node.sign != "=" or (left.kind is Kind.BYTE and right.constant != 0):
            raise ByHand("a byte of a text" if left.kind is Kind.BYTE else f"'{node.sign}' of a text")
        text = "0" if left.kind is Kind.BYTE else right.text
        return Value(self.woven(node, [(node.left, left.text), (node.right, text)]), ASSIGNMENT, Kind.TEXT)

    def stored(self, node: Assignment, left: Value, right: Value) -> Value:
        """A store by `=`, or by a sign that needs no more than the unit."""
        right = self.at(right, left.digits, node) if left.kind is Kind.QUANTITY else self.whole(right)
        text = self.woven(node, [(node.left, left.text), (node.right, held(right, ASSIGNMENT))])
        return Value(text, ASSIGNMENT, left.kind, left.digits)

    def changed(self, node: Assignment, left: Value) -> Value:
        """A store by `+=` and its like."""
        sign = node.sign[:-1]
        right = self.value(node.right, left.digits if left.kind is Kind.QUANTITY else None)
        is_whole = left.kind is Kind.WHOLE and right.kind in (Kind.WHOLE, Kind.FLAG)
        if is_whole or (left.kind is Kind.QUANTITY and sign in ("+", "-")):
            return self.stored(node, left, right)
        if left.kind is Kind.QUANTITY and sign == "*" and right.kind is Kind.WHOLE:
            text = self.woven(node, [(node.left, left.text), (node.right, held(right, ASSIGNMENT))])
            return Value(text, ASSIGNMENT, Kind.QUANTITY, left.digits)
        if STORES.search(left.text):
            raise ByHand("a store in the place that is stored to")
        wanted = left.digits if left.kind is Kind.QUANTITY else None
        made = self.combined(sign, left, right, wanted, lambda one, other: f"{one} {sign} {other}", node)
        made = self.at(made, left.digits, node) if wanted is not None else self.whole(made)
        return Value(f"{left.text} = {made.text}", ASSIGNMENT, left.kind, left.digits)
