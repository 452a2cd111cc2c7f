"""Shows values as a reader of the definitions would write them, and the calls of one definition."""
from itertools import islice

from defining.sources import NotUnderstood
from defining.values import Function, Record, items_of
from defining.writing import inner_name, python_name

# So long is what is shown of a value at most, and so many levels of brackets.
LONGEST, DEEPEST = 240, 5


def shown(value, depth=0):
    """A value as text. A list of letters is shown as the text that it spells, a token as its text with its line."""
    if depth > DEEPEST:
        return ".."
    if isinstance(value, (bool, int)):
        return str(value).lower()
    if isinstance(value, Function):
        return "λ"
    if isinstance(value, Record):
        return shown_record(value, depth)
    if value == () or len(value) == 2 and isinstance(value[1], tuple) and not isinstance(value[0], str) and is_list(value):
        return shown_list(value, depth)
    if isinstance(value[0], str):
        parts = [shown(it, depth + 1) for it in value[1:]]
        return f"({' '.join([value[0], *parts])})" if parts and depth else " ".join([value[0], *parts])
    return f"({', '.join(shown(it, depth + 1) for it in value)})"


def is_list(value):
    """Whether a pair is a list: its second parts are lists to the end."""
    while value != ():
        if not (isinstance(value, tuple) and len(value) == 2) or isinstance(value[0], str):
            return False
        value = value[1]
    return True


def shown_record(value, depth):
    """A record by its fields; a token by its text and its line."""
    fields = vars(value)
    if fields.keys() == {"kind", "text", "pos"}:
        return f"'{bytes(items_of(value.text.now)).decode('latin-1')}' of line {value.pos.line}"
    if fields.keys() == {"now"}:
        return shown(value.now, depth)
    return "{" + "; ".join(f"{name} = {shown(it, depth + 1)}" for name, it in fields.items()) + "}"


def shown_list(value, depth):
    """A list by its items, or as a text."""
    items = items_of(value)
    if all(type(it) is int and (32 <= it < 127 or it == 10) for it in items) and any(chr(it).isalpha() for it in items):
        return '"' + bytes(items).decode().replace("\n", "\\n") + '"'
    return "[" + ", ".join(shown(it, depth + 1) for it in islice(items, 20)) + (", .." if len(items) > 20 else "") + "]"


def short(text):
    """A text, cut where it is too long."""
    return text if len(text) <= LONGEST else text[: LONGEST - 3] + " .."


def named(definitions, name):
    """The definition of a name, which may have its crate and module in front."""
    *front, last = name.replace(".", " ").split()
    found = [key for key in definitions.takes if key.name == last and f"{key.crate} {key.module}".replace(".", " ").endswith(" ".join(front))]
    if not found:
        raise NotUnderstood(f"no definition under a run is called {name}")
    if len(found) > 1:
        raise NotUnderstood(f"{name} may be one of {', '.join(f'{key.module}.{key.name}' for key in found)}")
    return found[0]


class Calls:
    """The first calls of a definition, as lines."""

    def __init__(self, definitions, name, most):
        """Puts a listener in the place of the definition, which hears so many calls."""
        self.key, self.most, self.heard, self.count = named(definitions, name), most, [], 0
        self.function = definitions.space[python_name(self.key)]
        for place in (python_name(self.key), inner_name(self.key)):
            definitions.space[place] = self.call
        self.name = self.key.name

    def call(self, *arguments):
        """A call of the definition, which is heard when it gives something."""
        given = self.function(*arguments)
        self.count += 1
        if len(self.heard) < self.most:
            self.heard.append(self.lines(arguments, given))
        return given

    def lines(self, arguments, given):
        """A call as text: each argument on a line of its own, where all do not fit on one."""
        parts = [short(shown(it, 1)) for it in arguments]
        front, back = " ".join([self.name, *parts]), f"= {short(shown(given))}"
        if len(front) + len(back) < 150:
            return f"{front} {back}\n"
        return "".join(f"{line}\n" for line in [self.name, *(f"  {it}" for it in parts), f"  {back}"])
