"""Quotients that are cut to a whole number: they are kept exact up to the cut, as `(6 * x + 5) / 10`."""
import re
from dataclasses import dataclass, replace
from fractions import Fraction
from math import lcm
from typing import Optional

from porting.binding import variable_of
from porting.calls import Calls
from porting.notes import DECIDE
from porting.tree import Binary, Call, Cast, Expression, Number, Parentheses, Prefix
from porting.values import HALF_LIMIT, PRODUCT, STORES, SUM, Value, held, number
from porting.variables import Kind
from porting.words import TRANSCENDENTAL
from porting.work import MOST_OF_UNIT

SIGNS = ("+", "-", "*", "/")
# The factor at most of what stands above in a quotient, and below.
MOST_OF_FACTOR = 10**12
# The tokens at most of a quotient that is rounded once.
LONGEST = 60
# Functions whose result has decimals.
OF_DECIMALS = TRANSCENDENTAL | {"fabs", "fmod", "fmin", "fmax", "floor", "ceil", "pow", "atof", "trunc", "rint"}
QUOTIENT = re.compile(r"/(?!\*)(?<!\*/)|%")


@dataclass(frozen=True)
class Ratio:
    """`scale * top / bottom`; None stands for 1. The two are numbers as they are written, without a unit."""

    scale: Fraction
    top: Optional[Value] = None
    bottom: Optional[Value] = None
    # Whether it is one of decimals: a quotient of two others is cut by C itself.
    is_real: bool = True
    # The digits of all units in it.
    digits: int = 0


class Ratios(Calls):
    """How exact quotients are found and written."""

    def cut(self, node: Expression) -> Value:
        """An expression as a whole number, cut towards 0 once and as C does it."""
        found = self.ratio(node)
        if found is None:
            return self.whole(self.value(node))
        top, bottom = self.written_ratio(found)
        text = top.text if bottom == "1" else f"{held(top, PRODUCT)} / {bottom}"
        return Value(text, top.tightness if bottom == "1" else PRODUCT)

    def ratio(self, node: Expression) -> Optional[Ratio]:
        """The exact quotient that an expression is, or None where it is none, or has no room."""
        found = self.ratio_of(node) if has_quotient(node) else None
        is_one = found is not None and found.is_real and found.top is not None
        return found if is_one and found.digits <= MOST_OF_UNIT else None

    def in_one_quotient(self, node: Expression, wanted: Optional[int]) -> Optional[Value]:
        """A quotient that is multiplied or divided again, rounded once; None where it has no room so."""
        is_short = node.end - node.first <= LONGEST
        found = self.ratio_of(node) if is_short and self.is_of_decimals(node) else None
        if found is None or not found.is_real or found.top is found.bottom or found.digits > MOST_OF_UNIT:
            return None
        digits = self.least_digits if wanted is None else min(wanted, self.most_digits)
        scale = found.scale * 10**digits
        if not 0 < abs(scale.numerator) <= MOST_OF_FACTOR or scale.denominator > MOST_OF_FACTOR:
            return None
        top, bottom = self.written_ratio(replace(found, scale=scale))
        if bottom == "1":
            return Value(top.text, top.tightness, Kind.QUANTITY, digits)
        if abs(scale.numerator) > 10**HALF_LIMIT:
            self.say(node, DECIDE, f"a quotient: what stands above, times {abs(scale.numerator)}, has to stay below 9.2e18")
        return Value(self.rounded(top.text, bottom, node), kind=Kind.QUANTITY, digits=digits)

    def is_of_decimals(self, node: Expression) -> bool:
        """Whether an expression has a number with decimals in it, and not in a subscript or an argument."""
        if isinstance(node, (Parentheses, Prefix, Binary)):
            return any(self.is_of_decimals(it) for it in node.children())
        if isinstance(node, Cast):
            return node.type.kind is Kind.QUANTITY
        if isinstance(node, Number):
            return bool(re.search(r"[.eE]", node.spelled)) and not node.spelled.lower().startswith("0x")
        if isinstance(node, Call):
            function = self.binding.functions.get(node.function)
            return function.result.kind is Kind.QUANTITY if function else node.function in OF_DECIMALS
        variable = variable_of(node)
        return variable is not None and variable.kind is Kind.QUANTITY

    def ratio_of(self, node: Expression) -> Optional[Ratio]:
        """A part of a quotient."""
        if isinstance(node, Parentheses) and has_quotient(node):
            return self.ratio_of(node.inner)
        if isinstance(node, Cast) and node.type.kind is Kind.QUANTITY:
            found = self.ratio_of(node.operand)
            return found and replace(found, is_real=True)
        if isinstance(node, Prefix) and node.sign == "-" and has_quotient(node):
            found = self.ratio_of(node.operand)
            return found and replace(found, scale=-found.scale)
        if isinstance(node, Binary) and node.sign == "*" and not has_quotient(node):
            return self.product_of_ratio(node)
        if isinstance(node, Binary) and node.sign in SIGNS and has_quotient(node):
            left, right = self.ratio_of(node.left), self.ratio_of(node.right)
            if left is None or right is None:
                return None
            if left.is_real or right.is_real:
                return joined(node.sign, left, right)
            return self.part_of_ratio(node)
        return self.part_of_ratio(node)

    def product_of_ratio(self, node: Binary) -> Optional[Ratio]:
        """A product in a quotient: a constant with decimals goes into the scale, so that it needs no digits of its own."""
        sides = [self.value(it) for it in (node.left, node.right)]
        if sum(it.constant is not None and it.kind is Kind.QUANTITY for it in sides) != 1:
            return self.part_of_ratio(node)
        left, right = self.ratio_of(node.left), self.ratio_of(node.right)
        return None if left is None or right is None else joined("*", left, right)

    def part_of_ratio(self, node: Expression) -> Optional[Ratio]:
        """An expression without a quotient of decimals in it."""
        found = self.value(node)
        if found.kind not in (Kind.WHOLE, Kind.QUANTITY):
            return None
        is_real = found.kind is Kind.QUANTITY
        if found.constant is not None:
            return Ratio(found.constant, is_real=is_real)
        return Ratio(Fraction(1, 10**found.digits), found, None, is_real, found.digits)

    def written_ratio(self, found: Ratio) -> tuple[Value, str]:
        """What stands above and below of a quotient."""
        top = multiple_of(found.scale.numerator, found.top)
        if found.bottom is None:
            return top, str(found.scale.denominator)
        bottom = multiple_of(found.scale.denominator, found.bottom)
        return top, held(bottom, PRODUCT + 1)


def has_quotient(node: Expression) -> bool:
    """Whether a quotient stands in an expression, and not in a call or a subscript of it."""
    if isinstance(node, (Parentheses, Cast, Prefix, Binary)):
        is_one = isinstance(node, Binary) and node.sign == "/"
        return is_one or any(has_quotient(it) for it in node.children())
    return False


def multiple_of(factor: int, value: Optional[Value]) -> Value:
    """A value times a whole number."""
    if value is None or factor == 0:
        return number(factor)
    if factor == 1:
        return value
    # A quotient or a remainder of whole numbers is one before it is multiplied.
    is_product = not QUOTIENT.search(value.text) and not value.text.startswith("-")
    return Value(f"{factor} * {held(value, PRODUCT if is_product else PRODUCT + 1)}", PRODUCT)


def times(left: Optional[Value], right: Optional[Value]) -> Optional[Value]:
    """A product of two values, where there are two."""
    if left is None or right is None:
        return left or right
    return Value(f"{held(left, PRODUCT)} * {held(right, PRODUCT + 1)}", PRODUCT)


def joined(sign: str, left: Ratio, right: Ratio) -> Optional[Ratio]:
    """Two quotients with a sign between them, or None where that becomes none."""
    digits = left.digits + right.digits
    if sign == "*":
        return Ratio(left.scale * right.scale, times(left.top, right.top), times(left.bottom, right.bottom), True, digits)
    if sign == "/":
        if right.scale == 0:
            return None
        top, bottom = times(left.top, right.bottom), times(left.bottom, right.top)
        return Ratio(left.scale / right.scale, top, bottom, True, digits)
    right = replace(right, scale=-right.scale) if sign == "-" else right
    if right.top is None and right.bottom is None and left.top is not None:
        return with_constant(left, right.scale)
    if left.top is None and left.bottom is None and right.top is not None:
        return with_constant(right, left.scale)
    if left.bottom is None and right.bottom is None and left.top is not None and right.top is not None:
        return sum_of(left, right)
    return None


def with_constant(ratio: Ratio, constant: Fraction) -> Optional[Ratio]:
    """A quotient and a constant: `a / b + c` is `(a + c * b) / b`."""
    if ratio.bottom is not None and STORES.search(ratio.bottom.text):
        return None
    common = lcm(ratio.scale.denominator, constant.denominator)
    first = multiple_of(int(ratio.scale * common), ratio.top)
    second = multiple_of(abs(int(constant * common)), ratio.bottom)
    sign = "-" if constant < 0 else "+"
    text = f"{held(first, SUM)} {sign} {held(second, SUM + 1)}" if constant else first.text
    return Ratio(Fraction(1, common), Value(text, SUM), ratio.bottom, True, ratio.digits)


def sum_of(left: Ratio, right: Ratio) -> Ratio:
    """A sum of two that have nothing below but numbers."""
    common = lcm(left.scale.denominator, right.scale.denominator)
    first, second = (multiple_of(int(it.scale * common), it.top) for it in (left, right))
    text = f"{held(first, SUM)} + {held(second, SUM + 1)}"
    return Ratio(Fraction(1, common), Value(text, SUM), None, True, max(left.digits, right.digits))
