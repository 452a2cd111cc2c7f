"""Names and units that stand in the comments of a program, as `cmd == 1 /*MOUNT*/` and those that a port writes at its top."""
import re
from fractions import Fraction

from plotting.values import Values, divided

# A variable that is compared with a number, or gets it, with the name of the number as a comment: the name of a constant, or a text.
NAMED_VALUE = re.compile(r'\b([A-Za-z_]\w*)(?:\[[^\]\n]*\])? ?(?:==|!=|=) ?(-?\d+) /\*("(?:[^"\\\n]|\\.)*"|[A-Za-z_]\w*)\*/')
PORT = re.compile(r"/\* By port:\n(.*?)\*/", re.DOTALL)
UNIT = re.compile(r"^ *unit 10\^(-?\d{1,2}): (.*?) *$", re.MULTILINE)
TEXTS = re.compile(r"^ *texts: (.*?) *$", re.MULTILINE)
TEXT = re.compile(r'(\d+) "((?:[^"\\\n]|\\.)*)"')
# The pieces of a condition; those that compare and those that join; functions of a port whose results have the unit of what they take.
PIECE = re.compile(r'"(?:[^"\\\n]|\\.)*"|[A-Za-z_]\w*(?:\[\d+\])?|\d\w*|&&|\|\||[=!<>]=|\s+|.', re.DOTALL)
COMPARING, JOINING = ("==", "!=", "<=", ">=", "<", ">"), ("&&", "||")
KEEPING = ("absolute", "lesser", "greater")


def values_of_variables(source: str) -> Values:
    """How values are shown, by the names of variables, as far as comments tell it. Two names for one number of a variable are none."""
    found = Values()
    comment = PORT.search(source)
    legend = {}
    for text in [comment[1]] if comment else ():
        legend = {int(number): shown for line in TEXTS.findall(text) for number, shown in TEXT.findall(line)}
        for power, names in UNIT.findall(text):
            found.scales |= {it: Fraction(10) ** -int(power) for it in names.split(", ")}
    for variable, number, name in NAMED_VALUE.findall(source):
        if variable in found.scales:
            continue
        texts = found.texts.setdefault(variable, {})
        if name[0] == '"':
            texts |= legend
        shown = name.strip('"')
        texts[int(number)] = shown if texts.get(int(number), shown) == shown else None
    for variable, texts in found.texts.items():
        found.texts[variable] = {number: text for number, text in texts.items() if text is not None}
    return found


class Variables:
    """How the values of variables are shown: as those of their channels, else as comments have them."""

    def __init__(self, channels: dict, values: Values, by_variable: Values):
        """The channels of a program by their names. Values that comments tell of are shown so on the channels, too, where nothing
        else is told of these."""
        self.values, self.by_variable = values, by_variable
        self.channel_of: dict = {}
        for name, it in channels.items():
            self.adopt(name, {variable.partition("[")[0] for variable in it.variables})
            if values.is_told(name):
                self.channel_of |= {place: name for place in it.places()}

    def adopt(self, name: str, variables: set) -> None:
        """Shows the values of a channel as comments have those of its variables, where these agree."""
        if self.values.is_told(name):
            return
        for kind in ("scales", "texts"):
            told = [getattr(self.by_variable, kind).get(it) for it in variables]
            if told and told[0] and told.count(told[0]) == len(told):
                getattr(self.values, kind)[name] = told[0]

    def of(self, place: str) -> tuple:
        """Where it is told how the values of a variable or an element are shown, and under which name."""
        if place in self.channel_of:
            return self.values, self.channel_of[place]
        return self.by_variable, place.partition("[")[0]

    def full(self, place: str, value: int) -> "str | None":
        """A value of a variable or an element; None where it is shown as the number that it is."""
        values, name = self.of(place)
        return values.full(name, value) if values.is_told(name) else None

    def condition(self, text: str) -> str:
        """A condition, in which numbers that are compared with variables stand as what they are: in the unit of these, by a name."""
        return "".join(self.parts(PIECE.findall(text)))

    def parts(self, pieces: list) -> list:
        """The pieces of a condition, comparison by comparison."""
        found: list = []
        begin = depth = 0
        for at, it in enumerate([*pieces, "&&"]):
            depth += (it in "([") - (it in ")]")
            if not depth and it in JOINING:
                found += self.part(pieces[begin:at]) + pieces[at : at + 1]
                begin = at + 1
        return found

    def part(self, pieces: list) -> list:
        """One comparison, or what stands in brackets."""
        tokens = [it for it in pieces if not it.isspace()]
        if tokens[:1] == ["("] and closing(tokens, 0) == len(tokens) - 1:
            begin, end = pieces.index("("), len(pieces) - 1 - pieces[::-1].index(")")
            return [*pieces[: begin + 1], *self.parts(pieces[begin + 1 : end]), *pieces[end:]]
        names = [it for it in tokens if it[0].isalpha() or it[0] == "_"]
        others = {it for it in tokens if it not in names and not it.isdigit()}
        is_plain = others <= {*COMPARING, "+", "-", "(", ")", ","} and sum(it in COMPARING for it in tokens) == 1
        return self.compared(pieces, tokens, [it for it in names if it not in KEEPING]) if is_plain else pieces

    def compared(self, pieces: list, tokens: list, places: list) -> list:
        """A comparison of sums: all numbers in the unit that its variables have, or by the name of the one number."""
        scales = {values.scales.get(name, Fraction(1)) for values, name in map(self.of, places)}
        if len(scales) != 1:
            return pieces
        (scale,) = scales
        if scale != 1:
            return [divided(int(it), scale) if it.isdigit() else it for it in pieces]
        place, sign, *number = tokens
        text = "".join(number)
        if len(places) != 1 or place != places[0] or sign not in COMPARING or not text.removeprefix("-").isdigit():
            return pieces
        values, name = self.of(place)
        shown = values.text(name, int(text))
        if shown is None:
            return pieces
        begin = pieces.index(number[0], pieces.index(sign))
        return [*pieces[:begin], shown, *(it for it in pieces[begin:] if it.isspace())]


def closing(tokens: list, at: int) -> int:
    """Where the bracket closes that opens at a place; behind the end where none does."""
    depth = 0
    for place, it in enumerate(tokens[at:], at):
        depth += (it == "(") - (it == ")")
        if not depth:
            return place
    return len(tokens)
