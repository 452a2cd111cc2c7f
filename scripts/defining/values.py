"""The values that definitions work on, as Python has them.

A number, of ℕ or of ℤ, is an int, and `true` and `false` are bools. A list is () or a pair (first, rest), or two lists that are Joined. What
a constructor makes is a tuple (name, argument ..), and a pair of `×` the tuple of its parts. A record is a Record, a function that waits for
arguments a Function."""

NIL = ()
NONE = ("None",)
# A list of so many items is put in front of another one at once.
FEW = 8


class Record:
    """A record: its fields are attributes."""

    def __init__(self, **fields):
        """A record with these fields."""
        self.__dict__.update(fields)

    def __eq__(self, other):
        """Whether all fields are equal."""
        return self is other or type(other) is Record and self.__dict__ == other.__dict__

    __hash__ = object.__hash__

    def but(self, **fields):
        """The same record with other values in some fields."""
        made = Record.__new__(Record)
        made.__dict__.update(self.__dict__)
        made.__dict__.update(fields)
        return made


class Function:
    """A function that waits for so many more arguments, with those that it has."""

    __slots__ = ("call", "waits", "given")

    def __init__(self, call, waits, given=()):
        """A Python function, how many arguments it still waits for, and those in front of them."""
        self.call, self.waits, self.given = call, waits, given


def applied(function, *arguments):
    """What a function gives for arguments, one after another; what it gives may be a function too."""
    for argument in arguments:
        function = applied_once(function, argument)
    return function


def applied_once(function, argument):
    """The same for one argument. A call with stars goes deeper into the stack than one without, so there is one for each usual count."""
    if type(function) is not Function:
        raise TypeError(f"this is no function: {function!r:.80}")
    given = function.given
    if function.waits > 1:
        return Function(function.call, function.waits - 1, given + (argument,))
    if not given:
        return function.call(argument)
    if len(given) == 1:
        return function.call(given[0], argument)
    if len(given) == 2:
        return function.call(given[0], given[1], argument)
    return function.call(*given, argument)


def applied_twice(function, first, second):
    """The same for two arguments."""
    if type(function) is Function and function.waits == 2 and not function.given:
        return function.call(first, second)
    return applied_once(applied_once(function, first), second)


def ready(function):
    """A function of one argument, as Python calls it again and again."""
    if type(function) is Function and function.waits == 1:
        call, given = function.call, function.given
        if not given:
            return call
        if len(given) == 1:
            first = given[0]
            return lambda argument: call(first, argument)
    return lambda argument: applied_once(function, argument)


class Joined:
    """Two lists, neither of them empty, one behind the other. It becomes pairs when its first item or its rest is asked for: where a list
    grows item by item at its end, only the last one does."""

    __slots__ = ("front", "back", "made", "sums")

    def __init__(self, front, back):
        """Of these two."""
        self.front, self.back, self.made, self.sums = front, back, None, {}

    def pairs(self):
        """The list as pairs, made once: from its end on, so that a deep front takes no deep call."""
        if self.made is None:
            made, waiting = NIL, [self]
            while waiting:
                part = waiting.pop()
                if type(part) is Joined and part.made is None:
                    waiting += part.front, part.back
                elif made:
                    for item in reversed(items_of(part)):
                        made = (item, made)
                else:
                    made = part.made if type(part) is Joined else part
            self.made, self.front, self.back = made, None, None
        return self.made

    def __getitem__(self, part):
        """The first item by 0, the rest by 1."""
        return self.pairs()[part]

    def __eq__(self, other):
        """Whether both have the same items."""
        return self is other or self.pairs() == (other.pairs() if type(other) is Joined else other)

    __hash__ = None


def appended(front, back):
    """Two lists, one behind the other."""
    if not back:
        return front
    items, rest = [], front
    while rest and len(items) < FEW and type(rest) is tuple:
        items.append(rest[0])
        rest = rest[1]
    if rest:
        return Joined(front, back)
    for item in reversed(items):
        back = (item, back)
    return back


def listed(items):
    """The list of some items."""
    made = NIL
    for item in reversed(items):
        made = (item, made)
    return made


def items_of(values):
    """The items of a list."""
    items = []
    while values:
        items.append(values[0])
        values = values[1]
    return items


def bytes_of(values):
    """The bytes of a list of numbers."""
    return bytes(items_of(values))


def some(value):
    """What is there."""
    return ("Some", value)
