"""What prints: `printf` and its like, and texts that are made by a format."""
import re
from dataclasses import dataclass, field

from porting.binding import CONVERSION, subscripts_of, variable_of
from porting.constants import decimals
from porting.notes import DECIDE, KNOW, ByHand
from porting.parse_expressions import ASSIGNMENT, COMMA
from porting.questions import Questions
from porting.texts import BYTE
from porting.tree import Call, Expression
from porting.values import Value, held
from porting.variables import Kind
from porting.words import PRINTERS, TEXT_FORMATS, TIME_FORMATS

KEPT_ESCAPES = ("\\n", "\\t", "\\\\", '\\"')
DROPPED_AT_END = ("\\n", "\\r")
# The digits of a constant whose decimals never end, where it is printed.
PRINTED_DIGITS = 6


@dataclass
class Printed:
    """A format as the port has it, with the arguments that it takes."""

    format: str = ""
    # The arguments, each with its text.
    given: list[tuple[Expression, str]] = field(default_factory=list)
    # Whether an argument of the source has no place of its own any more.
    is_other: bool = False


def escapes_kept(text: str) -> str:
    """A text with the escapes that `snc` has."""
    return "".join(it for it in BYTE.findall(text) if not it.startswith("\\") or it in KEPT_ESCAPES)


def without_newline(text: str) -> str:
    """A format without newlines at its end: each `printf` has a line of its own."""
    pieces = BYTE.findall(text)
    while pieces and pieces[-1] in DROPPED_AT_END:
        pieces.pop()
    return "".join(pieces)


class Formats(Questions):
    """How formats are read and written."""

    def printed(self, node: Call, format_at: int) -> str:
        """A call that prints, as `printf`."""
        if len(node.arguments) <= format_at:
            raise ByHand("no format")
        first = node.arguments[format_at]
        known = self.known_text(first)
        if known is None:
            if not self.is_text(first):
                raise ByHand("a format that is no constant")
            self.say(node, KNOW, "a text is printed as its number")
            return f'printf("#%d", {self.text(first).text})'
        given = node.arguments[format_at + 1 :]
        made = self.formatted(known, given, node, node.function in ("puts", "errlogMessage"))
        if node.function == "printf" and not made.is_other and len(made.given) == len(given):
            return self.woven(node, [(first, f'"{made.format}"'), *made.given])
        return f'printf("{made.format}"' + "".join(f", {text}" for _, text in made.given) + ")"

    def formatted(self, text: str, given: list[Expression], node: Call, is_plain: bool = False) -> Printed:
        """A format with what it takes. A plain one has no conversions."""
        made, at, rest = Printed(), 0, list(given)
        text = without_newline(text)
        if is_plain:
            text = text.replace("%", "%%")
        for conversion in CONVERSION.finditer(text):
            made.format += escapes_kept(percents(text[at : conversion.start()]))
            at = conversion.end()
            if conversion[0].endswith("%"):
                made.format += "%%"
            elif "*" in conversion[0]:
                raise ByHand("a width '*'")
            elif not rest:
                raise ByHand("too few arguments for a format")
            else:
                self.convert(conversion[0], rest.pop(0), made, node)
        made.format += escapes_kept(percents(text[at:]))
        made.is_other = made.is_other or bool(rest)
        return made

    def convert(self, conversion: str, argument: Expression, made: Printed, node: Call) -> None:
        """One conversion with its argument."""
        if conversion.endswith("s"):
            self.convert_text(argument, made)
            return
        if self.is_text(argument):
            raise ByHand(f"a text for {conversion}")
        found = self.value(argument)
        if found.kind is Kind.QUANTITY:
            if conversion[-1] in "diouxXc":
                raise ByHand(f"a number with decimals for {conversion}")
            if found.constant is not None:
                places = decimals(found.constant)
                found = self.at(found, PRINTED_DIGITS if places is None else places, argument)
            made.format += "%ld" + (f"e-{found.digits}" if found.digits else "")
        else:
            if conversion[-1] in "xXoc":
                self.say(node, KNOW, f"{conversion} is written as a decimal")
            made.format += "%ld" if "l" in conversion else "%d"
        made.given.append((argument, held(found, ASSIGNMENT)))

    def convert_text(self, argument: Expression, made: Printed) -> None:
        """`%s`: a known text is written out, another one is printed as its number."""
        known = self.known_text(argument)
        if known is not None:
            made.format += escapes_kept(known.replace("%", "%%"))
            made.is_other = True
            return
        if isinstance(argument, Call) and argument.function == "pvMessage":
            self.say(argument, KNOW, "pvMessage: no message is written")
            made.format += "(message)"
            made.is_other = True
            return
        if isinstance(argument, Call) and argument.function == "pvName":
            self.convert_name(argument, made)
            return
        self.say(argument, KNOW, "a text is printed as its number")
        made.format += "#%d"
        made.given.append((argument, self.text(argument).text))

    def convert_name(self, call: Call, made: Printed) -> None:
        """The name of a channel that is not known: that of the variable is written."""
        variable = variable_of(call.arguments[0]) if call.arguments else None
        if variable is None:
            raise ByHand("function 'pvName'")
        subscripts = subscripts_of(call.arguments[0])
        self.say(call, KNOW, "pvName: the name of the variable is written")
        made.format += variable.name + ("[%d]" if subscripts else "")
        made.is_other = True
        if subscripts:
            made.given.append((call, self.whole(self.value(subscripts[0])).text))

    def printer(self, node: Call) -> Value:
        """A function that prints."""
        return Value(self.printed(node, PRINTERS[node.function]))

    def text_made(self, node: Call) -> Value:
        """`sprintf` and its like: the number of the pattern, and the values are printed."""
        at = TEXT_FORMATS[node.function]
        self.has_arguments(node, at + 1)
        if not self.is_text(node.arguments[0]):
            raise ByHand(f"{node.function} to what is no text")
        place, pattern = self.text(node.arguments[0]).text, self.known_text(node.arguments[at])
        if pattern is None:
            raise ByHand("a format that is no constant")
        given = node.arguments[at + 1 :]
        if node.function in TIME_FORMATS:
            self.say(node, DECIDE, "a time as a text: the number is that of its format")
        if not given or node.function in TIME_FORMATS:
            return Value(f"{place} = {self.listed_text(pattern)}", ASSIGNMENT, Kind.TEXT)
        texts = [it for it in given if self.is_text(it) and self.known_text(it) is None]
        if len(texts) == 1 and pattern.startswith("%s"):
            return self.text_of_text(node, place, texts[0], at)
        if texts and not re.sub(r"[ :_\-/.]", "", pattern.replace("%s", "")):
            raise ByHand("a text made of texts")
        if len(given) == 1 and pattern == "%s":
            return Value(f"{place} = {self.text(given[0]).text}", ASSIGNMENT, Kind.TEXT)
        self.say(node, DECIDE, "a text with values in it: the number is that of its pattern, and the values are printed")
        return Value(f"{place} = {self.listed_text(pattern)}, {self.printed(node, at)}", COMMA)

    def text_of_text(self, node: Call, place: str, text: Expression, at: int) -> Value:
        """A text that begins with another one: it has the number of that."""
        if self.known_text(node.arguments[at]) == "%s":
            return Value(f"{place} = {self.text(text).text}", ASSIGNMENT, Kind.TEXT)
        self.say(node, DECIDE, f"a text made of a text: the number is that of '{self.named(text)}' alone")
        return Value(f"{place} = {self.text(text).text}, {self.printed(node, at)}", COMMA)


def percents(text: str) -> str:
    """A text between conversions: a lone per cent sign is doubled."""
    return text.replace("%", "%%")
