"""Whole numbers of what channels hold, and back again. Of a channel with a fraction come thousandths, say, for the scale 1000."""
import struct
from decimal import Decimal
from fractions import Fraction

# The types of Channel Access that have a fraction.
FRACTIONS = ("float", "double")
BITS_64 = range(-(2**63), 2**63)


def shortest(value, kind):
    """The shortest decimal number that is this double, or this float of 32 bits: 0.1 and not 0.10000000149011612."""
    if kind == "float":
        for digits in range(6, 10):
            text = f"{value:.{digits}g}"
            if struct.pack("f", float(text)) == struct.pack("f", value):
                return Decimal(text)
    return Decimal(repr(float(value)))


def whole(value, kind, scale):
    """The whole number next to a value times a scale, halves away from 0. None where there is none, or none of 64 bits."""
    if scale == 1 and kind not in FRACTIONS:
        return int(value)  # of 32 bits at most
    number = shortest(value, kind) if kind in FRACTIONS else Decimal(int(value))
    if not number.is_finite():
        return None
    exact = Fraction(number) * scale
    found = (2 * abs(exact.numerator) + exact.denominator) // (2 * exact.denominator)
    found = -found if exact < 0 else found
    return found if found in BITS_64 else None


def unscaled(number, scale):
    """The double next to a number that counts in units of one part of a scale."""
    return float(number / Fraction(scale))
