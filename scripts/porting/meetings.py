"""Finds which quantities meet: what is added, compared or assigned to one another has one unit, and what is a product of which."""
from dataclasses import dataclass
from fractions import Fraction
from typing import Optional, Union

from porting.binding import Binding, behind_and, variable_of
from porting.constants import literal, quotient
from porting.notes import ByHand
from porting.tree import (
    Action,
    Assignment,
    Binary,
    Call,
    Cast,
    Clause,
    Comma,
    Conditional,
    Declarator,
    Do,
    Element,
    Expression,
    For,
    Function,
    If,
    Member,
    Name,
    Node,
    Number,
    Parentheses,
    Postfix,
    Prefix,
    Return,
    Switch,
    Values,
    While,
    every,
    flat,
)
from porting.variables import Group, Kind, Owner, Variable
from porting.words import ABSOLUTES, PARSERS, TRANSCENDENTAL
from porting.work import MOST_DIGITS

COMPARISONS = ("<", "<=", ">", ">=", "==", "!=")
READERS = PARSERS | {"sscanf"}
MOST_POWER = 300


@dataclass(frozen=True)
class Constant:
    """A constant, and whether it is one with decimals."""

    value: Fraction
    is_real: bool


@dataclass(frozen=True)
class Scaled:
    """A quantity times a small constant: it has so many digits more."""

    group: Group
    digits: int


@dataclass(frozen=True)
class Product:
    """A product of quantities, perhaps times a small constant: it has so many digits more."""

    factors: tuple[Group, ...]
    digits: int = 0

    def is_plain(self) -> bool:
        """Whether it tells the unit of what it is stored to: a product of two, and of nothing else."""
        return len(self.factors) == 2 and not self.digits


@dataclass(frozen=True)
class Quotient:
    """A quotient by a quantity, of the quantities in it."""

    groups: tuple[Group, ...]


@dataclass(frozen=True)
class Root:
    """A square root of a quantity."""

    group: Group


@dataclass(frozen=True)
class Plain:
    """What tells no unit: a whole number, or something else."""

    is_whole: bool


WHOLE, OTHER = Plain(True), Plain(False)
Told = Union[Group, Constant, Scaled, Product, Quotient, Root, Plain]


def is_small(told: Told) -> bool:
    """Whether a factor tells nothing of the unit: a whole number up to 10."""
    if isinstance(told, Constant):
        return told.value.denominator == 1 and abs(told.value) <= 10
    return told == WHOLE


def is_factor(told: Told) -> bool:
    """Whether something is a constant that tells of a unit."""
    return isinstance(told, Constant) and told.value != 0 and not is_small(told)


def meet(left: Told, right: Told) -> Told:
    """What is told where two are added, compared or assigned: they have one unit."""
    for one, other in ((left, right), (right, left)):
        if isinstance(one, Group):
            join_to(one, other)
            return one
    for one, other in ((left, right), (right, left)):
        if isinstance(one, Scaled):
            return other if isinstance(other, Scaled) and other.digits > one.digits else one
    quotients = [it for it in (left, right) if isinstance(it, Quotient)]
    return quotients[0] if quotients else OTHER if OTHER in (left, right) else WHOLE


def join_to(group: Group, other: Told) -> None:
    """Keeps what meets a group."""
    if isinstance(other, Group):
        group.join(other)
    elif isinstance(other, Constant):
        group.top().constants.append(other.value)
    elif isinstance(other, Product):
        if other.is_plain():
            group.top().products.append(other.factors)
    elif isinstance(other, Quotient):
        group.top().quotients.append(other.groups)
    elif isinstance(other, Root):
        group.top().roots.append(other.group)
    elif isinstance(other, Scaled):
        group.top().finer_than.append((other.group, other.digits))


def times(left: Told, right: Told, is_product: bool) -> Told:
    """What a product or a quotient tells."""
    if isinstance(left, Constant) and isinstance(right, Constant) and (is_product or right.value != 0):
        return folded(left, right, is_product)
    above, below = groups_in(left), groups_in(right)
    if isinstance(left, Quotient) or isinstance(right, Quotient) or (below and not is_product):
        if not is_product and isinstance(left, Group) and isinstance(right, Group):
            left.top().over.append(right)
        return Quotient(above + below)
    for one, other in ((left, right), (right, left)):
        is_in_reach = is_product or one is left
        if isinstance(one, (Group, Scaled, Product)) and is_factor(other) and is_in_reach:
            return scaled(one, other.value if is_product else 1 / other.value)
    for one, other in ((left, right), (right, left)):
        if isinstance(one, (Group, Scaled, Product)) and is_small(other) and (is_product or one is left):
            return one
    for one, other in ((left, right), (right, left)):
        if one == WHOLE and is_factor_of_whole(other) and (is_product or one is left):
            return Constant(other.value if is_product else 1 / other.value, True)
    if is_product and all(isinstance(it, (Group, Scaled, Product)) for it in (left, right)):
        one, other = as_product(left), as_product(right)
        return Product(one.factors + other.factors, one.digits + other.digits)
    return WHOLE if left == right == WHOLE else OTHER


def groups_in(told: Told) -> tuple[Group, ...]:
    """The quantities in what is told."""
    if isinstance(told, (Group, Scaled, Product)):
        return as_product(told).factors
    return told.groups if isinstance(told, Quotient) else ()


def is_factor_of_whole(told: Told) -> bool:
    """Whether a whole number times this is a multiple of a number with decimals."""
    return isinstance(told, Constant) and told.is_real and told.value != 0


def folded(left: Constant, right: Constant, is_product: bool) -> Constant:
    """A product or a quotient of two constants."""
    is_real = left.is_real or right.is_real
    if is_product:
        return Constant(left.value * right.value, is_real)
    if not is_real:
        return Constant(Fraction(quotient(int(left.value), int(right.value))), False)
    return Constant(left.value / right.value, True)


def as_product(told: Union[Group, Scaled, Product]) -> Product:
    """A quantity as a product of one."""
    if isinstance(told, Product):
        return told
    return Product((told.group,), told.digits) if isinstance(told, Scaled) else Product((told,))


def scaled(told: Union[Group, Scaled, Product], factor: Fraction) -> Union[Scaled, Product]:
    """A quantity or a product times a constant."""
    found = as_product(told)
    size, digits = abs(factor), found.digits
    while size <= Fraction(1, 10) and digits < MOST_DIGITS:
        size, digits = size * 10, digits + 1
    return Product(found.factors, digits) if len(found.factors) > 1 else Scaled(found.factors[0], digits)


def terms_of(node: Expression) -> list[Expression]:
    """What is added or taken away in an expression, one by one."""
    if isinstance(node, Parentheses):
        return terms_of(node.inner)
    if isinstance(node, Binary) and node.sign in ("+", "-"):
        return [*terms_of(node.left), *terms_of(node.right)]
    return [node]


class Meetings:
    """Goes through a program, and joins what meets."""

    def __init__(self, binding: Binding):
        self.binding = binding
        self.go(binding.program, None)

    def go(self, node: Node, function: Optional[Function]) -> None:
        """Looks at all expressions in a node."""
        function = node if isinstance(node, Function) else function
        for it in self.expressions_of(node):
            told = self.told(it)
            if isinstance(node, Return) and function and function.result.group:
                meet(function.result.group, told)
            if isinstance(node, Declarator) and node.variable.group:
                meet(node.variable.group, told)
        for child in node.children():
            if not isinstance(child, Expression):
                self.go(child, function)

    def expressions_of(self, node: Node) -> list[Expression]:
        """The expressions that stand in a node itself."""
        if isinstance(node, Declarator):
            return flat(node.first_value)
        if isinstance(node, (Clause, If, While, For, Do, Switch, Action, Return)):
            return [it for it in node.children() if isinstance(it, Expression)]
        return []

    def told(self, node: Expression) -> Told:
        """What an expression tells of its unit."""
        if isinstance(node, Number):
            return constant_of(node)
        if isinstance(node, (Name, Element, Member)):
            for it in every(node):
                if isinstance(it, Element):
                    self.told(it.subscript)
            found = variable_of(node)
            return found.group if found and found.group else WHOLE
        readers = {Prefix: self.of_prefix, Cast: self.of_cast, Binary: self.of_binary, Call: self.of_call}
        readers.update({Assignment: self.of_assignment, Conditional: self.of_conditional})
        reader = readers.get(type(node))
        if reader:
            return reader(node)
        if isinstance(node, (Comma, Values)):
            return [WHOLE, *(self.told(it) for it in node.items)][-1]
        if isinstance(node, Parentheses):
            return self.told(node.inner)
        return self.told(node.operand) if isinstance(node, Postfix) else WHOLE

    def of_prefix(self, node: Prefix) -> Told:
        """A sign in front changes no unit."""
        told = self.told(node.operand)
        if isinstance(told, Constant) and node.sign == "-":
            return Constant(-told.value, told.is_real)
        return told if node.sign in ("-", "+", "++", "--") else WHOLE

    def of_cast(self, node: Cast) -> Told:
        """A cast to a whole number has no unit."""
        told = self.told(node.operand)
        return told if node.type.kind is Kind.QUANTITY else WHOLE

    def of_binary(self, node: Binary) -> Told:
        """A sum meets, and so does a comparison."""
        left, right = self.told(node.left), self.told(node.right)
        if node.sign in ("+", "-"):
            return meet(left, right)
        if node.sign in COMPARISONS:
            meet(left, right)
            return WHOLE
        return times(left, right, node.sign == "*") if node.sign in ("*", "/") else WHOLE

    def of_assignment(self, node: Assignment) -> Told:
        """What is stored meets where it is stored to."""
        left, right = self.told(node.left), self.told(node.right)
        if node.sign in ("=", "+=", "-="):
            meet(left, right)
            if isinstance(left, Group):
                self.keep_steps(node, left)
            if isinstance(left, Group) and isinstance(right, Product) and node.sign == "=":
                left.top().stored.append((right.factors, right.digits, False))
        return left

    def keep_steps(self, node: Assignment, group: Group) -> None:
        """Keeps what is added up in a quantity, by `x += step` or `x = x + step`, where it is a product or a small part."""
        variable, terms = variable_of(node.left), terms_of(node.right)
        is_sum = node.sign != "=" or (len(terms) > 1 and any(variable in names_in(it) for it in terms))
        for term in terms if is_sum else ():
            told = self.told(term)
            if isinstance(told, (Scaled, Product)):
                found = as_product(told)
                group.top().steps.append((found.factors, found.digits, variable in names_in(term)))
            elif isinstance(told, Group) and variable not in names_in(term):
                group.top().is_sum = True

    def of_conditional(self, node: Conditional) -> Told:
        """Both of its values meet."""
        self.told(node.condition)
        return meet(self.told(node.yes), self.told(node.no))

    def of_call(self, node: Call) -> Told:
        """An argument meets its parameter."""
        arguments = [self.told(it) for it in node.arguments]
        function = self.binding.functions.get(node.function)
        if function:
            for parameter, told in zip(function.parameters, arguments):
                if parameter.variable.group:
                    meet(parameter.variable.group, told)
            return function.result.group or WHOLE
        if node.function in ABSOLUTES and arguments:
            return arguments[0]
        if node.function in ("fmod", "fmin", "fmax") and len(arguments) == 2:
            return meet(*arguments)
        if node.function == "sqrt" and arguments and isinstance(arguments[0], (Group, Scaled)):
            return Root(as_product(arguments[0]).factors[0])
        if node.function == "pow" and len(arguments) == 2:
            return power(*arguments)
        if node.function in READERS and arguments:
            return self.number_read(node)
        return OTHER if node.function in TRANSCENDENTAL else WHOLE

    def number_read(self, node: Call) -> Told:
        """A number that is read from a text of a channel meets where it is stored to."""
        text = variable_of(node.arguments[0])
        if text is None or text.kind is not Kind.TEXT or text.channels is None:
            return WHOLE
        places = node.arguments[2:] if node.function == "sscanf" else []
        for at in range(len(text.numbers), max(len(places), 1)):
            name = f"{text.name}_number{at + 1 if at else ''}"
            text.numbers.append(Variable(name, Kind.QUANTITY, "double", [], text.line, Owner.PROGRAM))
        for number, place in zip(text.numbers, places):
            meet(number.group, self.told(behind_and(place)))
        return WHOLE if places else text.numbers[0].group


def power(below: Told, above: Told) -> Told:
    """What `pow` tells: a constant, or a product of a quantity with itself."""
    if not isinstance(above, Constant) or above.value.denominator > 1 or not 0 < abs(above.value) <= MOST_POWER:
        return OTHER
    times = int(above.value)
    if isinstance(below, Constant) and (below.value or times > 0):
        return Constant(below.value**times, True)
    return Product((below,) * times) if isinstance(below, Group) and times > 1 else OTHER


def names_in(node: Expression) -> list[Variable]:
    """The variables that an expression reads, but in subscripts."""
    if isinstance(node, (Name, Element, Member)):
        return [variable_of(node)]
    return [one for it in node.children() for one in names_in(it)]


def constant_of(node: Number) -> Told:
    """What a number tells."""
    try:
        return Constant(*literal(node.spelled))
    except ByHand:
        return OTHER
