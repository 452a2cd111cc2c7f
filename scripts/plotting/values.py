"""Values of channels as they are shown: with the decimals and the texts that a call, a file of units or the program's comments give."""
from dataclasses import dataclass, field
from fractions import Fraction

from plotting.times import number
from shared.units import SEVERITIES, Units

# A number of which this many are less than 1 has an exponent.
LEAST_PLAIN = 10_000


@dataclass
class Values:
    """How values are shown, by the names of their channels."""

    # What a value was multiplied by, and the text of a value.
    scales: dict = field(default_factory=dict)
    texts: dict = field(default_factory=dict)

    def add(self, units: Units) -> None:
        """Takes what a file of units says; what is known already stays."""
        for name, scale in units.scales.items():
            self.scales.setdefault(name, scale)
        for name, numbers in units.texts.items():
            self.texts.setdefault(name, by_number(numbers))
        for name in units.severities:
            self.texts.setdefault(name, by_number(SEVERITIES))
        for name, pattern in units.patterns.items():
            self.texts.setdefault(name, {1: f"{pattern}", 0: f"not {pattern}"})

    def short(self, name: str, value: int) -> str:
        """A value in few letters."""
        text = self.text(name, value)
        if text is not None:
            return text
        scale = self.scales.get(name, 1)
        return number(value) if scale == 1 else divided(value, scale)

    def text(self, name: str, value: int) -> "str | None":
        """The text that a value stands for; an empty one has quotes."""
        found = self.texts.get(name, {}).get(value)
        return '""' if found == "" else found

    def is_told(self, name: str) -> bool:
        """Whether the values of a channel are shown in another way than as whole numbers."""
        return self.scales.get(name, 1) != 1 or bool(self.texts.get(name))

    def full(self, name: str, value: int) -> str:
        """A value with all its digits; behind a text in brackets."""
        text = self.text(name, value)
        digits = divided(value, self.scales.get(name, Fraction(1)))
        return digits if text is None else f"{text} ({digits})"


def by_number(numbers: dict) -> dict:
    """The text of each number: of several texts with one number the first."""
    return {number: text for text, number in reversed(numbers.items())}


def divided(value: int, scale: Fraction) -> str:
    """A whole number as what it stands for: exactly where the scale is a power of ten, or one part of many."""
    if scale.numerator == 1:
        return str(value * scale.denominator)
    digits = len(str(scale.numerator)) - 1
    if scale != 10**digits:
        # So many decimals that no two neighbours are alike.
        digits += 1
        value = rounded(value * 10**digits / scale)
    return scaled(value, digits)


def rounded(value: Fraction) -> int:
    """The nearest whole number, halves away from 0."""
    found = (2 * abs(value.numerator) + value.denominator) // (2 * value.denominator)
    return -found if value < 0 else found


def scaled(value: int, digits: int) -> str:
    """A whole number with so many decimals, exactly: as 0.025, and as 8e-7 where four and more zeros would stand in front."""
    if not digits:
        return str(value)
    if value and abs(value) * LEAST_PLAIN < 10**digits:
        front = str(abs(value)).rstrip("0")
        point = f"{front[0]}.{front[1:]}" if len(front) > 1 else front
        return f"{'-' if value < 0 else ''}{point}e{len(str(abs(value))) - 1 - digits}"
    whole, part = divmod(abs(value), 10**digits)
    text = f"{whole}.{part:0{digits}}".rstrip("0").rstrip(".")
    return f"-{text}" if value < 0 else text
