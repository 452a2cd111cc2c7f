"""The names of the standard library that definitions use, each with how many arguments it takes and what it gives.

They stand in the kit, in `std` and `core`, as definitions of their own; here is what these say. A name that is not in this table is
refused where a definition takes it."""
from defining.values import NIL, NONE, Function, Joined, applied_once, applied_twice, appended, items_of, listed, ready, some


def item_at(values, index, otherwise):
    """The item at an index, where there is one."""
    while values and index > 0:
        values, index = values[1], index - 1
    return values[0] if values else otherwise


def option_at(values, index):
    """The same as an option."""
    while values and index > 0:
        values, index = values[1], index - 1
    return some(values[0]) if values else NONE


def with_item(values, index, item):
    """The list with another item at an index; the same list where it has none there."""
    front, rest = [], values
    while rest and len(front) < index:
        front.append(rest[0])
        rest = rest[1]
    if not rest:
        return values
    made = (item, rest[1])
    for other in reversed(front):
        made = (other, made)
    return made


def without(values, count):
    """The list without so many items at its front."""
    while values and count > 0:
        values, count = values[1], count - 1
    return values


def take(count, values):
    """So many items at the front of a list."""
    items = []
    while values and len(items) < count:
        items.append(values[0])
        values = values[1]
    return listed(items)


def compared(left, right):
    """How two numbers stand to each other."""
    return ("Less",) if left < right else ("Greater",) if right < left else ("Equal",)


def lists_compared(compare, left, right):
    """The same of two lists: by the first items that differ, or else the shorter one is less."""
    for both in zip(items_of(left), items_of(right)):
        found = applied_twice(compare, *both)
        if found != ("Equal",):
            return found
    return compared(len(items_of(left)), len(items_of(right)))


def split_at(test, values):
    """The parts of a list between the items that pass a test."""
    parts, test = [[]], ready(test)
    for item in items_of(values):
        if test(item):
            parts.append([])
        else:
            parts[-1].append(item)
    return listed([listed(part) for part in parts])


def prefix_length(test, values):
    """How many items at the front pass a test."""
    count, test = 0, ready(test)
    while values and test(values[0]):
        values, count = values[1], count + 1
    return count


def position(test, values):
    """The index of the first item that passes a test."""
    index, test = 0, ready(test)
    while values:
        if test(values[0]):
            return some(index)
        values, index = values[1], index + 1
    return NONE


def position_or_length(test, values):
    """The same; their count, where none passes."""
    found = position(test, values)
    return len(items_of(values)) if found == NONE else found[1]


def any_passes(test, values):
    """Whether some item passes a test."""
    return position(test, values) != NONE


def all_pass(test, values):
    """Whether each item passes a test."""
    test = ready(test)
    while values:
        if not test(values[0]):
            return False
        values = values[1]
    return True


def folded(step, start, values):
    """What a step makes of a start and each item, the first one first."""
    for item in items_of(values):
        start = applied_twice(step, start, item)
    return start


def pointwise(test, left, right):
    """Whether two lists are as long, and a test holds of the items at each index."""
    if type(test) is Function and test.call is equal_numbers and not test.given:
        return left == right
    left, right = items_of(left), items_of(right)
    return len(left) == len(right) and all(applied_twice(test, *both) for both in zip(left, right))


def equal_numbers(left, right):
    """Whether two numbers are one."""
    return left == right


def summed(function, values):
    """The sum of what a function makes of each item. That of two joined lists is the sum of their sums, and each is kept there."""
    key, grown, count = (function.call, *map(id, function.given)), [], ready(function)
    while type(values) is Joined and values.made is None and key not in values.sums:
        grown.append(values)
        values = values.front
    if type(values) is Joined and key in values.sums:
        total = values.sums[key][0]
    else:
        total = sum([count(item) for item in items_of(values)])
    for joined_lists in reversed(grown):
        total += sum([count(item) for item in items_of(joined_lists.back)])
        # The function is kept with its sum, so that no other one comes to have its key.
        joined_lists.sums[key] = total, function
    return total


def quotient(left, right):
    """A division that rounds towards 0."""
    whole = abs(left) // abs(right)
    return whole if (left < 0) == (right < 0) else -whole


def remainder(left, right):
    """What such a division leaves: it has the sign of what is divided."""
    return left - right * quotient(left, right)


def signed_word(value):
    """A number of 64 bits as a signed one."""
    return (value + 2**63) % 2**64 - 2**63


def mapped(function, values):
    """What a function makes of each item."""
    function = ready(function)
    return listed([function(item) for item in items_of(values)])


def joined(lists):
    """The items of all lists, one list after another."""
    return listed([item for values in items_of(lists) for item in items_of(values)])


def kept(test, values):
    """The items that pass a test."""
    test = ready(test)
    return listed([item for item in items_of(values) if test(item)])


def written(number):
    """The bytes of a number in decimal."""
    return listed(list(b"%d" % number))


def digits_value(base, digits):
    """What decimal digits are worth in a base."""
    value = 0
    for digit in items_of(digits):
        value = value * base + digit - 48
    return value


def option_map(function, value):
    """What a function makes of what is there."""
    return NONE if value == NONE else some(applied_once(function, value[1]))


LISTS = {
    "append": (2, appended),
    "concat": (1, joined),
    "count_by": (2, lambda test, values: len(items_of(kept(test, values)))),
    "drop": (2, lambda count, values: without(values, count)),
    "filter": (2, kept),
    "filter_map": (2, lambda function, values: listed([it[1] for it in items_of(mapped(function, values)) if it != NONE])),
    "flat_map": (2, lambda function, values: joined(mapped(function, values))),
    "fold": (3, folded),
    "length": (1, lambda values: len(items_of(values))),
    "list_all": (2, all_pass),
    "list_any": (2, any_passes),
    "map": (2, mapped),
    "pointwise": (3, pointwise),
    "position": (2, position),
    "position_or_len": (2, position_or_length),
    "prefix_len": (2, prefix_length),
    "replicate": (2, lambda count, item: listed([item] * count)),
    "reverse": (1, lambda values: listed(items_of(values)[::-1])),
    "slice_get": (2, option_at),
    "slice_cmp": (3, lists_compared),
    "slice_index": (2, lambda values, index: item_at(values, index, 0)),
    "slice_index_or": (3, item_at),
    "slice_range": (3, lambda values, start, end: take(max(end - start, 0), without(values, start))),
    "slice_set": (3, with_item),
    "slice_split": (2, split_at),
    "starts_with": (3, lambda test, values, front: pointwise(test, take(len(items_of(front)), values), front)),
    "sum_by": (2, summed),
    "take": (2, take),
}
TEXTS = {
    "bytes_eq": (2, lambda left, right: left == right),
    "codes": (1, lambda text: text),
    "digits_value": (2, digits_value),
    "is_ascii_digit": (1, lambda byte: 48 <= byte <= 57),
    "decimal": (1, written),
    "signed_decimal": (1, written),
    "string_bytes": (1, lambda text: text),
}
NUMBERS = {
    "bit_and": (2, lambda left, right: left & right),
    "bit_or": (2, lambda left, right: left | right),
    "bit_xor": (2, lambda left, right: left ^ right),
    "cast_signed": (2, lambda width, value: signed_word(value)),
    "cast_unsigned": (2, lambda width, value: value % 2**64),
    "int_div": (2, quotient),
    "int_eq": (2, lambda left, right: left == right),
    "int_le": (2, lambda left, right: left <= right),
    "int_lt": (2, lambda left, right: left < right),
    "int_rem": (2, remainder),
    "int_shr": (2, lambda value, count: value >> count),
    "max": (2, max),
    "min": (2, min),
    "nat_eq": (2, equal_numbers),
    "nat_le": (2, lambda left, right: left <= right),
    "nat_lt": (2, lambda left, right: left < right),
    "nat_cmp": (2, compared),
    "neg_ℤ": (1, lambda value: -value),
    "negsuc": (1, lambda number: -number - 1),
    "pos": (1, lambda number: number),
    "suc": (1, lambda number: number + 1),
    "w64": (0, lambda: 64),
    "zero": (0, lambda: 0),
}
CHOICES = {
    "IsTrue": (1, lambda value: value),
    "Unit": (0, lambda: True),
    "beq": (2, lambda left, right: left == right),
    "false": (0, lambda: False),
    "is_none": (1, lambda value: value == NONE),
    "is_some": (1, lambda value: value != NONE),
    "not": (1, lambda value: not value),
    "option_and_then": (2, lambda function, value: NONE if value == NONE else applied_once(function, value[1])),
    "option_map": (2, option_map),
    "ordering_then": (2, lambda first, second: second if first == ("Equal",) else first),
    "option_or": (2, lambda first, second: second if first == NONE else first),
    "sameb": (3, lambda decides, left, right: left[0] == right[0]),
    "the_type": (0, lambda: NIL),
    "true": (0, lambda: True),
    "⊥": (0, lambda: False),
    "unwrap_or": (2, lambda value, otherwise: otherwise if value == NONE else value[1]),
}
NAMES = {**LISTS, **TEXTS, **NUMBERS, **CHOICES}
# Constructors of the library that stay constructors, with how many arguments they have.
CONSTRUCTORS = {"Some": 1, "None": 0, "Ok": 1, "Err": 1, "inl": 1, "inr": 1, "Less": 0, "Equal": 0, "Greater": 0}
# Constructors of what is no tuple here: numbers and truth values.
PATTERNS = {"true": 0, "false": 0, "zero": 0, "suc": 1, "pos": 1, "negsuc": 1}
# Signs between two operands: how tightly each holds, on which side operands group, and what stands for it.
# Of a relation that can be decided, what it says is True or False.
SIGNS = {
    "⊎": (15, "right", "({0} or {1})"),
    "×": (20, "right", "({0} and {1})"),
    "≡": (40, "none", "({0} == {1})"),
    "≤": (40, "none", "({0} <= {1})"),
    "<": (40, "none", "({0} < {1})"),
    ">>=": (10, "left", "{0} >>= {1}"),
    "+ℤ": (6, "left", "({0} + {1})"),
    "-ℤ": (6, "left", "({0} - {1})"),
    "*ℤ": (7, "left", "({0} * {1})"),
    "||": (30, "left", "({0} or {1})"),
    "&&": (35, "left", "({0} and {1})"),
    "==": (40, "none", "({0} == {1})"),
    "++": (65, "left", "appended({0}, {1})"),
    "+": (65, "left", "({0} + {1})"),
    "-": (65, "left", "max({0} - {1}, 0)"),
    "∷": (67, "right", "({0}, {1})"),
    "*": (70, "left", "({0} * {1})"),
    "^": (75, "right", "({0} ** {1})"),
}
