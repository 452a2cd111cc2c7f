"""Functions of C for numbers: absolute values, remainders, roots, powers, the lesser of two, whole parts, and what never is."""
from fractions import Fraction
from typing import Optional

from porting.constants import decimals
from porting.delays import Delays
from porting.notes import DECIDE, KNOW, ByHand
from porting.parse_expressions import ASSIGNMENT
from porting.ratios import Ratio
from porting.tree import Call
from porting.values import PRODUCT, STORES, Value, common_digits, held, number
from porting.variables import Kind
from porting.words import ABSOLUTES, NEVER, ROUNDERS
from porting.work import MOST_OF_UNIT, unit_of

# The largest power that is written out.
MOST_POWER = 6


class Numbers(Delays):
    """How functions of numbers are written."""

    def of_numbers(self, node: Call, wanted: Optional[int]) -> Optional[Value]:
        """A function of numbers, or None where it is none that is known."""
        readers = {"fmod": self.remainder, "sqrt": self.root, "pow": self.power, "trunc": self.to_whole}
        readers.update({it: self.absolute for it in ABSOLUTES})
        readers.update({it: self.to_whole for it in (*ROUNDERS, "floor", "ceil")})
        readers.update({"fmin": self.chosen, "fmax": self.chosen})
        if node.function in NEVER:
            return self.never(node)
        reader = readers.get(node.function)
        return reader(node, wanted) if reader else None

    def numeric(self, node: Call, at: int, wanted: Optional[int]) -> Value:
        """An argument that has to be a number."""
        found = self.value(node.arguments[at], wanted)
        if found.kind not in (Kind.WHOLE, Kind.QUANTITY):
            raise ByHand(f"{node.function} of what is no number")
        return found

    def never(self, node: Call) -> Value:
        """`isnan` and its like: each value is a number here."""
        self.has_arguments(node, 1)
        self.numeric(node, 0, None)
        name = NEVER[node.function]
        self.say(node, KNOW, f"{node.function} is always {name}: each value is a number here")
        return Value(f"{name} /*{self.named(node)}*/", constant=Fraction(name == "TRUE"))

    def absolute(self, node: Call, wanted: Optional[int]) -> Value:
        """`fabs` and its like."""
        self.has_arguments(node, 1)
        found = self.numeric(node, 0, wanted)
        if found.constant is not None:
            if found.kind is Kind.WHOLE:
                return number(abs(int(found.constant)))
            return Value(None, kind=Kind.QUANTITY, constant=abs(found.constant), behind=found.behind)
        if found.kind is Kind.QUANTITY and not node.function.startswith("f"):
            self.say(node, DECIDE, f"{node.function} of a quantity: C cuts it to a whole number first, here it is not cut")
        kind = Kind.QUANTITY if node.function.startswith("f") else found.kind
        return Value(f"{self.helper('absolute')}({held(found, ASSIGNMENT)})", kind=kind, digits=found.digits)

    def remainder(self, node: Call, wanted: Optional[int]) -> Value:
        """`fmod`: exact in the finer unit of both."""
        self.has_arguments(node, 2)
        both = [self.value(it, wanted) for it in node.arguments[:2]]
        places = [it.digits if it.constant is None else decimals(it.constant) or 0 for it in both]
        left, right = (self.at(it, max(places), node) for it in both)
        text = f"{held(left, PRODUCT)} % {held(right, PRODUCT + 1)}"
        return Value(text, PRODUCT, Kind.QUANTITY, max(places))

    def chosen(self, node: Call, wanted: Optional[int]) -> Value:
        """`fmin` and `fmax`: both in one unit."""
        self.has_arguments(node, 2)
        both = [self.numeric(node, at, wanted) for at in (0, 1)]
        if all(it.constant is not None for it in both):
            found = (min if node.function == "fmin" else max)(it.constant for it in both)
            return Value(None, kind=Kind.QUANTITY, constant=found, behind=f" /*{self.named(node)}*/")
        digits = common_digits(*both, wanted)
        left, right = (held(self.at(it, digits, node), ASSIGNMENT) for it in both)
        name = self.helper("lesser" if node.function == "fmin" else "greater")
        return Value(f"{name}({left}, {right})", kind=Kind.QUANTITY, digits=digits)

    def to_whole(self, node: Call, wanted: Optional[int]) -> Value:
        """`floor`, `ceil`, `trunc`, `rint` and their like. A quotient in it is not rounded before."""
        self.has_arguments(node, 1)
        quotient = self.ratio(node.arguments[0])
        if quotient is None:
            found = self.numeric(node, 0, wanted)
            if found.kind is not Kind.QUANTITY:
                return found
            if found.constant is not None:
                raise ByHand(f"{node.function} of a constant")
            if found.digits == 0:
                return found
            quotient = Ratio(Fraction(1, 10**found.digits), found)
        top, bottom = self.written_ratio(quotient)
        if bottom == "1":
            return Value(top.text, top.tightness, Kind.QUANTITY)
        if node.function == "trunc":
            return Value(f"{held(top, PRODUCT)} / {bottom}", PRODUCT, Kind.QUANTITY)
        if node.function in ROUNDERS:
            return Value(self.rounded(top.text, bottom, node), kind=Kind.QUANTITY)
        name = self.helper("rounded_down" if node.function == "floor" else "rounded_up")
        return Value(f"{name}({top.text}, {bottom})", kind=Kind.QUANTITY)

    def root(self, node: Call, wanted: Optional[int]) -> Value:
        """`sqrt`, rounded down."""
        self.has_arguments(node, 1)
        # A root has half of the digits of what it is of.
        inner = None if wanted is None else min(2 * wanted, self.most_digits)
        found = self.value(node.arguments[0], inner)
        if found.constant is not None or found.kind not in (Kind.WHOLE, Kind.QUANTITY):
            raise ByHand("sqrt of a constant")
        digits = max(found.digits, self.least_digits) if wanted is None else wanted
        digits = max(digits, (found.digits + 1) // 2)
        up = 2 * digits - found.digits
        self.say(node, KNOW, f"sqrt is rounded down in the unit {unit_of(digits)}")
        if up > self.most_digits:
            self.say(node, DECIDE, f"sqrt: what is in it, times 10^{up}, has to stay below 9.2e18")
        text = held(found, ASSIGNMENT) if up == 0 else f"{held(found, PRODUCT)} * {10**up}"
        return Value(f"{self.helper('root')}({text})", kind=Kind.QUANTITY, digits=digits)

    def power(self, node: Call, wanted: Optional[int]) -> Value:
        """`pow` with a constant above: a product, or a constant."""
        self.has_arguments(node, 2)
        above = self.value(node.arguments[1]).constant
        if above is None or above.denominator > 1 or abs(above) > 300:
            raise ByHand("function 'pow'")
        found = self.numeric(node, 0, None)
        if found.constant is not None and (found.constant or above > 0):
            return Value(None, kind=Kind.QUANTITY, constant=found.constant ** int(above), behind=f" /*{self.named(node)}*/")
        times = int(above)
        if not 1 <= times <= MOST_POWER or STORES.search(found.text):
            raise ByHand("function 'pow'")
        if found.digits * times > MOST_OF_UNIT:
            raise ByHand(f"a product in the unit {unit_of(found.digits * times)}")
        text = " * ".join([held(found, PRODUCT + 1)] * times)
        return Value(text, PRODUCT if times > 1 else found.tightness, Kind.QUANTITY, found.digits * times)


# The functions that a port may need, in the text of the program.
HELPERS = {
    "absolute": ["long {absolute}(long x) {{ return x < 0 ? -x : x; }}"],
    "lesser": ["long {lesser}(long a, long b) {{ return a < b ? a : b; }}"],
    "greater": ["long {greater}(long a, long b) {{ return a > b ? a : b; }}"],
    "rounded": [
        "/* a / b, to the nearest whole number, halves away from 0 */",
        "long {rounded}(long a, long b) {{ return (a + ((a < 0) == (b < 0) ? b / 2 : -(b / 2))) / b; }}",
    ],
    "rounded_down": [
        "/* a / b, to the whole number below */",
        "long {rounded_down}(long a, long b) {{ return a / b - (a % b != 0 && (a < 0) != (b < 0)); }}",
    ],
    "rounded_up": [
        "/* a / b, to the whole number above */",
        "long {rounded_up}(long a, long b) {{ return a / b + (a % b != 0 && (a < 0) == (b < 0)); }}",
    ],
    "root": [
        "/* the square root, rounded down */",
        "long {root}(long x) {{ long r = x, s = x / 2 + x % 2; while (s < r) {{ r = s; s = (r + x / r) / 2; }} return r; }}",
    ],
}
