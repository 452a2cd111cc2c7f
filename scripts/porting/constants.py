"""Exact numbers: constants of C, how many decimals they have, and how they are rounded."""
import re
from fractions import Fraction
from typing import Optional

from porting.notes import ByHand

HEXADECIMAL = re.compile(r"0[xX][0-9a-fA-F]+")
OCTAL = re.compile(r"0[0-7]+")
DECIMAL = re.compile(r"(\d+\.?\d*|\.\d+)([eE][-+]?\d{1,3})?")
# Whole numbers of 64 bits, as `snc` has them.
LIMIT = 2**63
# The digits of the longest number that is looked at.
LONGEST = 1000


def literal(spelled: str) -> tuple[Fraction, bool]:
    """The value of a number of C, and whether it is one with decimals."""
    digits = spelled.rstrip("uUlL") if spelled.lower().startswith("0x") else spelled.rstrip("uUlLfF")
    if len(digits) > LONGEST:
        raise ByHand("a number of very many digits")
    if HEXADECIMAL.fullmatch(digits):
        return Fraction(int(digits, 16)), False
    if OCTAL.fullmatch(digits):
        return Fraction(int(digits, 8)), False
    if digits.isdigit():
        return Fraction(int(digits)), spelled[-1] in "fF"
    if DECIMAL.fullmatch(digits):
        return Fraction(digits), True
    raise ByHand(f"number {spelled}")


def decimals(number: Fraction) -> Optional[int]:
    """How many decimals a number has, or None where they never end."""
    rest, twos, fives = number.denominator, 0, 0
    while rest % 2 == 0:
        rest, twos = rest // 2, twos + 1
    while rest % 5 == 0:
        rest, fives = rest // 5, fives + 1
    return max(twos, fives) if rest == 1 else None


def nearest(number: Fraction) -> int:
    """The nearest whole number, halves away from 0."""
    size = abs(number)
    rounded = (2 * size.numerator + size.denominator) // (2 * size.denominator)
    return rounded if number >= 0 else -rounded


def decimal_text(number: Fraction) -> str:
    """A number whose decimals end, as it is written."""
    places = decimals(number) or 0
    digits = str(abs(int(number * 10**places))).rjust(places + 1, "0")
    point = f"{digits[:-places]}.{digits[-places:]}" if places else digits
    return ("-" if number < 0 else "") + point


def shown(number: Fraction) -> str:
    """A number for a person to read."""
    try:
        return str(float(number))
    except OverflowError:
        return "of many digits"


def quotient(left: int, right: int) -> int:
    """A quotient of C, rounded towards 0."""
    found = abs(left) // abs(right)
    return found if (left < 0) == (right < 0) else -found
