"""Finds the unit of each quantity: 10^-K, by the constants and quantities that it meets.

Quantities that are added, compared or assigned to one another have one K. It is at least 3, so large that each constant that
meets them is whole, and at least 100 units (1000 where its decimals never end), and at most 12. Where small steps are added up,
it is so large that a step of the usual size has 1000 units. What no constant tells has the unit of the product or the quotient that
is stored in it, or of what it is divided by.
"""
from fractions import Fraction

from porting.binding import Binding
from porting.constants import decimals
from porting.meetings import Meetings
from porting.notes import DECIDE, KNOW, OTHERWISE, UNITS
from porting.variables import Group, Kind, Owner, Variable
from porting.work import LEAST_DIGITS, MOST_DIGITS, unit_of

# The digits of the least constant that a quantity meets at least, and those of a step that is added up.
OF_FACTOR, OF_STEP = 2, 3
# The digits at most that a step asks for, so that products with what is added up have room.
MOST_OF_STEP = 10
# The digits at most that a quotient gets from what is in it.
MOST_OF_QUOTIENT = 6
# What a channel is that has values of a kind.
KINDS = {Kind.WHOLE: "a whole number", Kind.QUANTITY: "a quantity", Kind.TEXT: "a text"}


def needed(constant: Fraction) -> int:
    """The digits that a constant needs."""
    places = decimals(constant)
    least = 1000 if places is None else 100
    digits = places if places is not None and places <= MOST_DIGITS else 0
    while abs(constant) * 10**digits < least and digits < MOST_DIGITS:
        digits += 1
    return min(digits, MOST_DIGITS)


def names_of(group: Group) -> list[str]:
    """The names of the quantities of a group."""
    return sorted({it.new_name for it in group.members if it.owner is not Owner.RESULT})


def join_channels(variables: list[Variable], filled, note) -> None:
    """Quantities of one channel have one unit. A channel of which numbers of two kinds are read, or texts too, is told."""
    readers: dict[str, list[Variable]] = {}
    for it in variables:
        for name in it.channels.all_names() if it.channels else []:
            readers.setdefault(filled(name).removesuffix(".VAL"), []).append(it)
    for channel, them in readers.items():
        quantities = [it for it in them if it.kind is Kind.QUANTITY]
        for it in quantities[1:]:
            quantities[0].group.join(it.group)
        first = {it.kind: it for it in reversed(them) if it.kind in KINDS}
        if len(first) > 1:
            told = ", ".join(f"{KINDS[kind]} for '{it.name}'" for kind, it in first.items())
            text = f"channel {channel} is {told}: a trace has one number for all of them"
            note(max(it.line for it in first.values()), DECIDE, text, OTHERWISE)


def find_units(binding: Binding, units: dict[str, int], finer: int, note) -> None:
    """Gives each group of quantities its digits, and notes where nothing tells them. `note` gets a line, a kind and a text."""
    Meetings(binding)
    quantities = [it for it in binding.variables() if it.group]
    for it in quantities:
        if it.new_name in units:
            it.group.top().digits, it.group.top().is_given = units[it.new_name], True
    groups = list({id(it.group.top()): it.group.top() for it in quantities}.values())
    for group in groups:
        by_constants(group)
    by_factors(groups)
    for group in sorted(groups, key=lambda it: not it.products):
        by_products(group, note)
    for group in groups:
        by_quotients(group)
    by_steps(groups, note)
    tell_unknown(groups, note)
    for group in groups:
        group.digits += finer


def by_constants(group: Group) -> None:
    """The digits that the constants of a group need."""
    constants = [it for it in group.constants if it != 0]
    group.is_told = group.is_given or any(it.denominator > 1 or abs(it) >= 1 for it in constants)
    if not group.is_given:
        group.digits = max([LEAST_DIGITS, *(needed(it) for it in constants)])


def by_factors(groups: list[Group]) -> None:
    """A quantity that is a small part of another one has more digits than that."""
    for _ in range(len(groups)):
        for group in groups:
            for other, digits in group.finer_than:
                wanted = min(other.top().digits + digits, MOST_DIGITS)
                if digits and not group.is_given and other.top() is not group and group.digits < wanted:
                    group.digits, group.is_told = wanted, True


def by_products(group: Group, note) -> None:
    """A product that no constant tells has the digits of both factors, and a root of a sum of squares half of those of the sum."""
    if group.is_told:
        return
    sums = [sum(it.top().digits for it in factors) for factors in group.products]
    halves = [(it.top().digits + 1) // 2 + 1 for it in group.roots if it.top().products]
    if sums or halves:
        group.digits, group.is_told = min(MOST_DIGITS, max([LEAST_DIGITS, *sums, *halves])), True
        what = "product" if sums else "root"
        text = f"{', '.join(names_of(group))}: the unit of a {what} is taken, {unit_of(group.digits)}"
        note(group.members[0].line, DECIDE, text, UNITS)


def by_quotients(group: Group) -> None:
    """A quotient that no constant tells has the digits of what is in it, but not very many, and what stands above those of below."""
    if group.is_told:
        return
    parts = [it.top().digits for them in group.quotients for it in them]
    below = [it.top().digits for it in group.over]
    group.digits = max(group.digits, min(max(parts, default=0), MOST_OF_QUOTIENT), *below)


def by_steps(groups: list[Group], note) -> None:
    """A quantity in which small steps are added up has so many digits that a step has 1000 units."""
    least = {id(group): group.digits for group in groups}
    for group in groups:
        told = group.steps + (group.stored if group.is_sum else [])
        steps = [(factors, digits) for factors, digits, is_own in told if is_own or all(it.top() is not group for it in factors)]
        wanted = max((digits_of_step(*it, least) for it in steps), default=0)
        if wanted <= group.digits or not names_of(group):
            continue
        names, line = ", ".join(names_of(group)), group.members[0].line
        if group.is_given:
            error = f"5e-{group.digits + 1}"
            text = f"{names}: steps that are added up are rounded to {unit_of(group.digits)}, each by {error} at most"
            note(line, DECIDE, f"{text}; 10^-{wanted} has 1000 units a step", UNITS)
            continue
        group.digits = wanted
        note(line, KNOW, f"{names}: small steps are added up, so the unit is {unit_of(wanted)}", UNITS)


def digits_of_step(factors: tuple[Group, ...], digits: int, least: dict[int, int]) -> int:
    """The digits that a product needs which is added up: each of its factors has 100 units of its own, the product 1000."""
    found = sum(least[id(it.top())] for it in factors) + digits
    return min(found - OF_FACTOR * len(factors) + OF_STEP, MOST_OF_STEP)


def tell_unknown(groups: list[Group], note) -> None:
    """Notes the quantities whose unit nothing tells, in one line for each unit."""
    unknown: dict[int, list[Group]] = {}
    for group in groups:
        if names_of(group) and not group.is_told:
            unknown.setdefault(group.digits, []).append(group)
    for digits, them in sorted(unknown.items()):
        names = "; ".join(", ".join(names_of(it)) for it in them)
        word = names_of(them[0])[0] if len(them) == 1 else "NAME"
        text = f"no constant tells the unit of {names}: {unit_of(digits)} is taken (--unit {word}=K)"
        note(min(it.members[0].line for it in them), DECIDE, text, UNITS)


def quantities_by_digits(variables: list[Variable]) -> dict[int, list[str]]:
    """The names of quantities for each number of digits, the least first."""
    found: dict[int, list[str]] = {}
    for it in variables:
        if it.kind is Kind.QUANTITY and it.owner is not Owner.RESULT:
            names = found.setdefault(it.digits(), [])
            if it.new_name not in names:
                names.append(it.new_name)
    return dict(sorted(found.items()))
