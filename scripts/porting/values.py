"""Values as they are written in the port: in which unit, and how they are brought to another one."""
import re
from dataclasses import dataclass, replace
from fractions import Fraction
from typing import Callable, Optional

from porting.constants import LIMIT, decimals, nearest, quotient, shown
from porting.notes import DECIDE, KNOW, UNITS, ByHand
from porting.parse_expressions import PREFIX, TIGHTNESS, WHOLE
from porting.tree import Expression
from porting.variables import Kind
from porting.work import MOST_OF_UNIT, Work, unit_of

PRODUCT, SUM = TIGHTNESS["*"], TIGHTNESS["+"]
COMPARISON, EQUALITY = TIGHTNESS["<"], TIGHTNESS["=="]
HALF_LIMIT = 9
# What stands for a constant that has no room: nine of them still have.
HUGE_NUMBER = 10**18
# What is different when it is done twice.
STORES = re.compile(r"\+\+|--|[^=!<>]=[^=]|\w\(")


@dataclass(frozen=True)
class Value:
    """What an expression becomes."""

    # None for a constant with decimals: it is written when its unit is known.
    text: Optional[str]
    # How tightly it is held together, as in `parse_expressions`.
    tightness: int = WHOLE
    kind: Kind = Kind.WHOLE
    # K where its unit is 10^-K.
    digits: int = 0
    constant: Optional[Fraction] = None
    # The comment that names the constant, and how the source spells one with decimals.
    behind: str = ""
    spelled: str = ""


def held(value: Value, tightness: int) -> str:
    """The text of a value, in parentheses where it is not held together so tightly."""
    return value.text if value.tightness >= tightness else f"({value.text})"


def number(found: int, behind: str = "", kind: Kind = Kind.WHOLE, digits: int = 0) -> Value:
    """A whole number as it is written."""
    if not -LIMIT < found < LIMIT:
        raise ByHand(f"number {found} has no room in 64 bits")
    constant = Fraction(found, 10**digits)
    return Value(f"{found}{behind}", WHOLE if found >= 0 else PREFIX, kind, digits, constant, behind)


class Arithmetic(Work):
    """How values are brought to units, and what signs between them become."""

    def __init__(self, *given):
        super().__init__(*given)
        self.helpers: set[str] = set()
        # Whether a first value is written: numbers stay bare there.
        self.is_first_value = False

    def helper(self, name: str) -> str:
        """The name of a function of the port, which is written in front."""
        self.helpers.add(name)
        return self.free(name)

    def rounded(self, text: str, divisor: str, node: Expression) -> str:
        """A quotient to the nearest whole number."""
        self.say(node, KNOW, "rounded to the nearest, halves away from 0")
        return f"{self.helper('rounded')}({bare(text)}, {bare(divisor)})"

    def whole(self, value: Value) -> Value:
        """A value as a whole number, cut towards 0 as C does it."""
        if value.kind in (Kind.WHOLE, Kind.FLAG):
            return value
        if value.kind is not Kind.QUANTITY:
            raise ByHand("a text stands where a number has to")
        if value.constant is not None:
            return number(int(value.constant), value.behind)
        if value.digits == 0:
            return replace(value, kind=Kind.WHOLE)
        return Value(f"{held(value, PRODUCT)} / {10**value.digits}", PRODUCT)

    def at(self, value: Value, digits: int, node: Expression) -> Value:
        """A value in the unit 10^-digits."""
        if value.kind not in (Kind.WHOLE, Kind.QUANTITY):
            raise ByHand("a text stands where a number has to")
        if value.constant is not None and (value.kind is Kind.QUANTITY or digits > 0):
            return self.constant_at(value, digits, node)
        if value.digits == digits:
            return value
        if value.digits < digits:
            text = f"{held(value, PRODUCT)} * {10 ** (digits - value.digits)}"
            return Value(text, PRODUCT, Kind.QUANTITY, digits)
        text = self.rounded(value.text, str(10 ** (value.digits - digits)), node)
        return Value(text, WHOLE, Kind.QUANTITY, digits)

    def constant_at(self, value: Value, digits: int, node: Expression) -> Value:
        """A constant in the unit 10^-digits."""
        exact = value.constant * 10**digits
        if abs(exact) >= LIMIT and abs(value.constant) >= HUGE_NUMBER:
            return self.huge(value, digits, node)
        whole = nearest(exact)
        if exact.denominator > 1:
            text = f"constant {shown(value.constant)} is rounded to {whole} in the unit {unit_of(digits)}"
            self.say(node, DECIDE, text, UNITS)
        is_other = bool(value.spelled) and bool(digits) and whole != 0 and not self.is_first_value
        behind = value.behind or (f" /*{value.spelled}*/" if is_other else "")
        return replace(number(whole, behind, Kind.QUANTITY, digits), constant=value.constant)

    def huge(self, value: Value, digits: int, node: Expression) -> Value:
        """A constant that has no room, as 1.0e30 for no value: a number that is more than any value."""
        found = HUGE_NUMBER if value.constant > 0 else -HUGE_NUMBER
        self.say(node, DECIDE, f"constant {shown(value.constant)} has no room in the unit {unit_of(digits)}: {found} stands for it")
        return replace(number(found, value.behind, Kind.QUANTITY, digits), constant=value.constant)

    def truth(self, value: Value) -> Value:
        """A value as a condition."""
        if value.kind is Kind.NOTHING:
            raise ByHand("nothing stands where a number has to")
        if value.kind is Kind.QUANTITY and value.constant is not None:
            return number(int(value.constant != 0))
        return replace(value, kind=Kind.WHOLE) if value.kind is Kind.BYTE else value

    def combined(self, sign: str, left: Value, right: Value, wanted: Optional[int], joined: Callable, node: Expression) -> Value:
        """Two values with a sign between them. `joined` makes the text of both; `wanted` are the digits that are asked for."""
        kinds = {left.kind, right.kind}
        if kinds & {Kind.TEXT, Kind.BYTE} and sign not in ("&&", "||"):
            return with_text(sign, left, right, joined)
        if sign in ("&&", "||"):
            left, right = self.truth(left), self.truth(right)
            kinds = {Kind.WHOLE}
        if Kind.NOTHING in kinds:
            raise ByHand("nothing stands where a number has to")
        if Kind.QUANTITY not in kinds:
            return of_wholes(sign, left, right, joined)
        if sign in ("%", "&", "|", "^", "<<", ">>"):
            raise ByHand(f"'{sign}' of a number with decimals")
        if left.constant is not None and right.constant is not None:
            found = self.of_constants(sign, left.constant, right.constant, node)
            if found:
                return found
        if sign == "*":
            return self.product(left, right, joined, node)
        if sign == "/":
            return self.quotient(left, right, wanted, node)
        return self.in_one_unit(sign, left, right, wanted, joined, node)

    def of_constants(self, sign: str, left: Fraction, right: Fraction, node: Expression) -> Optional[Value]:
        """Two constants with a sign between them, of which one has decimals; None for a comparison."""
        if sign == "/" and right == 0:
            raise ByHand("division by 0")
        made = {"+": lambda: left + right, "-": lambda: left - right, "*": lambda: left * right, "/": lambda: left / right}
        if sign not in made:
            return None
        return Value(None, WHOLE, Kind.QUANTITY, 0, made[sign](), f" /*{self.named(node)}*/")

    def in_one_unit(self, sign: str, left: Value, right: Value, wanted: Optional[int], joined: Callable, node: Expression) -> Value:
        """A sum or a comparison: the coarser side is brought to the finer unit, which is exact."""
        digits = max([it.digits for it in (left, right) if it.constant is None], default=0)
        for it in (left, right):
            if it.constant is not None:
                places = decimals(it.constant)
                digits = max(digits, (wanted or 0) + 2 if places is None else min(places, self.most_digits + 3))
        left, right = self.at(left, digits, node), self.at(right, digits, node)
        if sign in ("==", "!="):
            self.say(node, DECIDE, f"'{sign}' of quantities: equal is what is equal in the unit {unit_of(digits)}")
        tightness = TIGHTNESS[sign]
        text = joined(held(left, tightness), held(right, tightness + 1))
        if sign in ("+", "-"):
            return Value(text, tightness, Kind.QUANTITY, digits)
        return Value(text, tightness)

    def product(self, left: Value, right: Value, joined: Callable, node: Expression) -> Value:
        """A product: units add, and a constant is its digits."""
        for factor, other in ((left, right), (right, left)):
            if factor.constant is not None:
                return self.multiple(factor, other, factor is left, joined, node)
        digits = left.digits + right.digits
        if digits > MOST_OF_UNIT:
            raise ByHand(f"a product in the unit {unit_of(digits)}")
        if digits > self.most_digits:
            most = f"{LIMIT / 10**digits:.3g}"
            self.say(node, DECIDE, f"product in the unit {unit_of(digits)}: above {most} it is a fault (overflow)")
        return Value(joined(held(left, PRODUCT), held(right, PRODUCT + 1)), PRODUCT, Kind.QUANTITY, digits)

    def multiple(self, factor: Value, other: Value, is_left: bool, joined: Callable, node: Expression) -> Value:
        """A value times a constant."""
        places = decimals(factor.constant)
        if places is None or places > self.most_digits:
            text = f"{held(other, PRODUCT)} * {factor.constant.numerator}"
            return Value(self.rounded(text, str(factor.constant.denominator), node), WHOLE, Kind.QUANTITY, other.digits)
        found = int(factor.constant * 10**places)
        digits = other.digits + places
        if found == 1:
            return Value(other.text, other.tightness, Kind.QUANTITY, digits)
        written = factor if factor.text is not None and places == 0 else number(found, factor.behind)
        left, right = (written, other) if is_left else (other, written)
        return Value(joined(held(left, PRODUCT), held(right, PRODUCT + 1)), PRODUCT, Kind.QUANTITY, digits)

    def quotient(self, left: Value, right: Value, wanted: Optional[int], node: Expression) -> Value:
        """A quotient, to the nearest."""
        if right.constant is not None:
            return self.part(left, right, wanted, node)
        digits = wanted if wanted is not None else max(self.least_digits, left.digits)
        if left.constant is not None:
            top = number(nearest(left.constant * 10 ** (digits + right.digits)), left.behind).text
            return Value(self.rounded(top, right.text, node), WHOLE, Kind.QUANTITY, digits)
        digits = max(digits, left.digits - right.digits)
        up = digits + right.digits - left.digits
        top = left.text if up == 0 else f"{held(left, PRODUCT)} * {10**up}"
        if up > HALF_LIMIT:
            self.say(node, DECIDE, f"a quotient: its left side times 10^{up} has to stay below 9.2e18")
        return Value(self.rounded(top, right.text, node), WHOLE, Kind.QUANTITY, digits)

    def part(self, left: Value, right: Value, wanted: Optional[int], node: Expression) -> Value:
        """A quotient by a constant."""
        if right.constant == 0:
            raise ByHand("division by 0")
        least = self.least_digits if wanted is None else min(wanted, self.most_digits)
        digits = max(left.digits, least)
        factor = 10 ** (digits - left.digits) / right.constant
        if factor.denominator == 1:
            if factor == 1:
                return replace(left, kind=Kind.QUANTITY, digits=digits, constant=None)
            text = f"{held(left, PRODUCT)} * {held(number(int(factor)), PRODUCT + 1)}"
            return Value(text, PRODUCT, Kind.QUANTITY, digits)
        top = left.text if factor.numerator == 1 else f"{held(left, PRODUCT)} * {held(number(factor.numerator), PRODUCT + 1)}"
        divisor = str(factor.denominator) + (right.behind if right.constant.denominator == 1 else "")
        return Value(self.rounded(top, divisor, node), WHOLE, Kind.QUANTITY, digits)


def bare(text: str) -> str:
    """A text without parentheses around all of it."""
    is_whole = text.startswith("(") and text.endswith(")") and not {"(", ")"} & set(text[1:-1])
    return text[1:-1] if is_whole else text


def with_text(sign: str, left: Value, right: Value, joined: Callable) -> Value:
    """A text compared with 0, which is the empty one. Else a text is no number."""
    if sign in ("==", "!=") and 0 in (left.constant, right.constant):
        left, right = (it if it.text is not None else replace(it, text="0") for it in (left, right))
        return Value(joined(held(left, EQUALITY), held(right, EQUALITY + 1)), EQUALITY)
    raise ByHand("a text in an expression")


def of_wholes(sign: str, left: Value, right: Value, joined: Callable) -> Value:
    """Two whole numbers with a sign between them."""
    tightness = TIGHTNESS[sign]
    text = joined(held(left, tightness), held(right, tightness + 1))
    found = None
    if left.constant is not None and right.constant is not None:
        found = computed(sign, int(left.constant), int(right.constant))
    return Value(text, tightness, constant=None if found is None else Fraction(found))


def computed(sign: str, left: int, right: int) -> Optional[int]:
    """The value of two constants with a sign between them, where the port needs to know it."""
    if sign in ("+", "-", "*", "|"):
        return {"+": left + right, "-": left - right, "*": left * right, "|": left | right}[sign]
    if sign == "<<" and 0 <= right < 63:
        return left << right
    return quotient(left, right) if sign == "/" and right else None


def common_digits(yes: Value, no: Value, wanted: Optional[int]) -> int:
    """The digits of two values of which one is taken."""
    variable = [it.digits for it in (yes, no) if it.constant is None]
    constant = [max(decimals(it.constant) or 0, wanted or 0) for it in (yes, no) if it.constant is not None]
    if variable and wanted is not None:
        return max(*variable, wanted)
    return max(variable + constant)
