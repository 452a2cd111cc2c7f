"""Quotients that the port cuts to a whole number, or stores in a unit, beside exact fractions: many random expressions, each with many
values.

What is compared is the port's text, computed as `snlrun` does it, with what C computes from the source in exact numbers.
"""
import random
import re
import sys
from dataclasses import dataclass
from fractions import Fraction
from pathlib import Path

SOURCE = """program p
option +s;
double x = 1.5, y = 2.5; int n, m, k; assign n to "n"; monitor n;
ss s {{ state w {{ when (n) {{ k = {}; }} exit }} }}
"""
STORED = re.compile(r"\{ k = (.*?); \} exit")
ATOM = re.compile(r"\d+\.\d+|\d+|\b[xynm]\b")
ATOMS = ["x", "y", "n", "m", "2.5", "0.5", "3", "10.0", "4", "1.25"]
# So many expressions are compared, each with so many values.
EXPRESSIONS, VALUES = 250, 6
# A quotient that is stored in the unit of `z`.
OF_STORE = SOURCE.replace("double x", "double z; double x").replace("k = ", "z = ")
STORED_IN_UNIT = re.compile(r"\{ z = (.*?); \} exit")
CHAINS = 120


class Number:
    """A number of C, exact: a whole one, or one with decimals."""

    def __init__(self, value, is_real):
        self.value, self.is_real = Fraction(value), is_real

    def made(self, other, value):
        return Number(value, self.is_real or other.is_real)

    def __add__(self, other):
        return self.made(other, self.value + other.value)

    def __sub__(self, other):
        return self.made(other, self.value - other.value)

    def __mul__(self, other):
        return self.made(other, self.value * other.value)

    def __truediv__(self, other):
        found = self.made(other, self.value / other.value)
        return found if found.is_real else Number(int(found.value), False)

    def __neg__(self):
        return Number(-self.value, self.is_real)


def expression(source, depth):
    """A random expression."""
    if depth == 0 or source.random() < 0.2:
        return source.choice(ATOMS)
    sign, left, right = source.choice("+-*///"), expression(source, depth - 1), expression(source, depth - 1)
    return f"({left} {sign} {right})" if source.random() < 0.6 else f"{left} {sign} ({right})"


def chain(source):
    """A random product or quotient of some factors, of which two stand below at least."""
    signs = [*source.sample(["/", "/", source.choice("*/")], 3)]
    text = source.choice(["x", "y"])
    for sign in signs:
        other = source.choice(ATOMS)
        text = f"({text}) {sign} {other}" if source.random() < 0.7 else f"{other} {sign} ({text})"
    return text


def nearest(above, below):
    """What the function `rounded` of a port gives."""
    above, below = int(above.value), int(below.value)
    size = (2 * abs(above) + abs(below)) // (2 * abs(below))
    return Number(size if (above < 0) == (below < 0) else -size, False)


def computed(text, values, is_real):
    """The value of an expression, cut to a whole number. Its variables have those values; `is_real` tells which are no whole ones."""
    return int(value_of(text, values, is_real))


def value_of(text, values, is_real):
    """The value of an expression as it is."""
    names = {name: Number(value, is_real(name)) for name, value in values.items()}
    plain = re.sub(r"/\*.*?\*/", "", text)
    wrapped = ATOM.sub(lambda it: f"names['{it[0]}']" if it[0] in names else f"Number('{it[0]}', {'.' in it[0]})", plain)
    return eval(wrapped, {"Number": Number, "names": names, "rounded": nearest}).value


@dataclass
class Cuts:
    """Random expressions."""

    name: str
    root: Path
    tool: str = "port"

    def failure(self, programs):
        sys.path.insert(0, str(self.root / "scripts"))
        from porting.port import ported
        from porting.work import Settings

        source, compared = random.Random(5), 0
        while compared < EXPRESSIONS:
            text = expression(source, 3)
            made = STORED.search(ported(SOURCE.format(text), "p.st", Settings(units={"x": 3, "y": 3})).text)
            # What is rounded first has rules of its own.
            if "/" not in text or not made or "rounded" in made[1] or "BY_HAND" in made[1]:
                continue
            wrong = [it for it in (self.wrong(source, text, made[1]) for _ in range(VALUES)) if it]
            if wrong:
                return f"FAILED {self.name}\n  {wrong[0]}"
            compared += 1
        return None

    def wrong(self, source, text, made):
        """What is wrong for random values, or nothing."""
        values = {"x": source.randint(-9000, 9000), "y": source.randint(1, 5000), "n": source.randint(-50, 50), "m": source.randint(1, 9)}
        exact = {name: Fraction(value, 1000) if name in "xy" else value for name, value in values.items()}
        try:
            wanted = computed(text, exact, lambda name: name in "xy")
        except ZeroDivisionError:
            return ""
        found = computed(made, values, lambda _: False)
        return "" if found == wanted else f"{text} is {made}, which is {found} and not {wanted} for {values}"


@dataclass
class Chains(Cuts):
    """Random products and quotients, stored in a unit: each is rounded once."""

    def failure(self, programs):
        sys.path.insert(0, str(self.root / "scripts"))
        from porting.port import ported
        from porting.work import Settings

        source, compared = random.Random(9), 0
        while compared < CHAINS:
            text = chain(source)
            port = ported(OF_STORE.format(text), "p.st", Settings(units={"x": 3, "y": 3}))
            made = STORED_IN_UNIT.search(port.text)
            if not made or "BY_HAND" in made[1]:
                continue
            unit = next(10 ** it.digits() for it in port.port.binding.variables() if it.name == "z")
            wrong = [it for it in (self.wrong_in(source, text, made[1], unit) for _ in range(VALUES)) if it]
            if wrong:
                return f"FAILED {self.name}\n  {wrong[0]}"
            compared += 1
        return None

    def wrong_in(self, source, text, made, unit):
        """What is wrong for random values, or nothing: the port is off by half a unit at most."""
        values = {"x": source.randint(-9000, 9000), "y": source.randint(1, 5000), "n": source.randint(-50, 50), "m": source.randint(1, 9)}
        exact = {name: Fraction(value, 1000) if name in "xy" else value for name, value in values.items()}
        try:
            wanted = value_of(text, exact, lambda name: name in "xy") * unit
            found = value_of(made, values, lambda _: False)
        except ZeroDivisionError:
            return ""
        return "" if abs(found - wanted) <= Fraction(1, 2) else f"{text} is {made}, which is {found} and not {float(wanted)} for {values}"
