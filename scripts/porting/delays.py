"""`delay`: SNL has decimals in constants alone here. A delay of a quantity is exact where its value is known, and else rounded up."""
import re
from fractions import Fraction
from typing import Iterator, Optional

from porting.binding import stores_in, variable_of
from porting.constants import decimal_text, literal, nearest
from porting.notes import DECIDE, KNOW, ByHand
from porting.parse_expressions import CONDITIONAL, WHOLE
from porting.ratios import Ratio, Ratios
from porting.tree import Assignment, Binary, Call, Declarator, Element, Expression, Member, Name, Number, Parentheses, every, flat
from porting.values import EQUALITY, STORES, SUM, Value, held
from porting.variables import Kind, Owner, Variable

# A number of seconds that `delay` takes as it is, perhaps with the name of the constant.
SECONDS = re.compile(r"(\d+\.?\d*|\.\d+)( /\*\w+\*/)?")
# The delays at most that are told apart in one condition.
MOST = 12


class Delays(Ratios):
    """How delays are written."""

    def delay(self, node: Call) -> Value:
        """`delay`: constants to the millisecond, all else as far as its values are known."""
        self.has_arguments(node, 1)
        argument = node.arguments[0]
        found = self.ratio(argument)
        if found is None or found.bottom is not None:
            value = self.value(argument)
            if value.constant is not None and value.kind is Kind.QUANTITY:
                return self.constant_delay(node, value)
            if value.kind is Kind.WHOLE:
                return Value(self.woven(node, [(argument, value.text)]))
            if value.kind is not Kind.QUANTITY:
                raise ByHand("a delay of what is no number")
            found = Ratio(Fraction(1, 10**value.digits), value)
        return self.delay_of_quantity(node, found)

    def constant_delay(self, node: Call, found: Value) -> Value:
        """A `delay` of a number with decimals."""
        milliseconds = found.constant * 1000
        spelled = self.spelled(node.arguments[0].first, node.arguments[0].end)
        if SECONDS.fullmatch(spelled) and milliseconds.denominator == 1:
            return self.as_it_is(node)
        if milliseconds.denominator > 1:
            self.say(node, KNOW, "delay to the millisecond")
        return Value(f"delay({decimal_text(Fraction(nearest(milliseconds), 1000))}{found.behind})")

    def delay_of_quantity(self, node: Call, found: Ratio) -> Value:
        """A `delay` of what may have decimals: those that are known are told apart, all else is in whole seconds."""
        top, bottom = self.written_ratio(found)
        if bottom == "1":
            return Value(f"delay({top.text})")
        seconds = f"delay(({held(top, SUM)} + {int(bottom) - 1}) / {bottom})"
        known = [] if STORES.search(top.text) else self.known_delays(node.arguments[0])
        if self.has_known_values(node.arguments[0]):
            pass
        elif not known:
            text = "delay of a quantity: only whole seconds are possible, and it is rounded up (--delay SECONDS for others)"
            self.say(node, DECIDE, text)
        else:
            told = ", ".join(decimal_text(it) for it in known)
            text = f"delay of a quantity: {told} s as it is, all else rounded up to whole seconds (--delay SECONDS for others)"
            self.say(node, DECIDE, text)
        text = seconds
        for it in reversed(known):
            text = f"{held(top, EQUALITY + 1)} == {int(it * int(bottom))} ? delay({decimal_text(it)}) : {text}"
        return Value(text, CONDITIONAL if known else WHOLE)

    def known_delays(self, node: Expression) -> list[Fraction]:
        """The delays that are no whole seconds and are known: those of the words of the call, and those that constants give."""
        variables = {variable_of(it) for it in places_in(node)}
        known = set(self.settings.delays)
        if len(variables) == 1 and None not in variables:
            variable = variables.pop()
            known |= {with_value(node, it) for it in self.constants_of(variable)}
        fitting = (it for it in known if it is not None and it > 0 and it.denominator > 1 and 1000 % it.denominator == 0)
        return sorted(fitting)[:MOST]

    def has_known_values(self, node: Expression) -> bool:
        """Whether a delay is that of a variable that has constants alone, none of them with more than milliseconds."""
        variable = variable_of(node)
        if variable is None or variable.channels is not None or variable.owner in (Owner.PARAMETER, Owner.STRUCTURE):
            return False
        stores = sum(it is variable for it in stores_in(self.program))
        told = [it for it in every(self.program) if isinstance(it, Assignment) and it.sign == "=" and variable_of(it.left) is variable]
        is_told = len(told) == stores and all(with_value(it.right, None) is not None for it in told)
        return is_told and all(1000 % it.denominator == 0 for it in self.constants_of(variable))

    def constants_of(self, variable: Variable) -> Iterator[Fraction]:
        """The constants that a variable has at first, or gets."""
        for node in every(self.program):
            given: list[Expression] = []
            if isinstance(node, Declarator) and node.variable is variable:
                given = flat(node.first_value)
            if isinstance(node, Assignment) and node.sign == "=" and variable_of(node.left) is variable:
                given = [node.right]
            for it in given:
                found = with_value(it, None)
                if found is not None:
                    yield found


def places_in(node: Expression) -> Iterator[Expression]:
    """The variables and elements in an expression, but those in subscripts."""
    if isinstance(node, (Name, Element, Member)):
        yield node
        return
    for it in node.children():
        yield from places_in(it)


def with_value(node: Expression, value: Optional[Fraction]) -> Optional[Fraction]:
    """The value of an expression where its one variable has a value; None where that is not told so simply."""
    if isinstance(node, Parentheses):
        return with_value(node.inner, value)
    if isinstance(node, (Name, Element, Member)):
        return value
    if isinstance(node, Number):
        try:
            return literal(node.spelled)[0]
        except ByHand:
            return None
    if not isinstance(node, Binary) or node.sign not in ("+", "-", "*", "/"):
        return None
    left, right = with_value(node.left, value), with_value(node.right, value)
    if left is None or right is None or (node.sign == "/" and right == 0):
        return None
    made = {"+": lambda: left + right, "-": lambda: left - right, "*": lambda: left * right, "/": lambda: left / right}
    return made[node.sign]()
