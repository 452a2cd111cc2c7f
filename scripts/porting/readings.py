"""What a program asks of a channel beside its value, and the time: each is read from a channel of its own.

These are the severity, the status and the time stamp of a value, the number that is written in a text, and the clock.
"""
import re
from typing import Optional

from porting.binding import CONVERSION, behind_and, subscripts_of, variable_of
from porting.formats import Formats
from porting.notes import DECIDE, KNOW, OTHERWISE, ByHand
from porting.parse_expressions import ASSIGNMENT, COMMA
from porting.tree import Call, Expression, Name, Number
from porting.values import SUM, Value, held
from porting.variables import Kind, Variable

FIELD = re.compile(r"\.[A-Z0-9_]+$")
FIELDS = {"pvSeverity": "SEVR", "pvStatus": "STAT", "pvTimeStamp": "TIME"}
CHANNEL = "read from a channel of its own, which the trace has to bring before the value"
CLOCK = "CLOCK"


class Readings(Formats):
    """How these are written."""

    def __init__(self, *given):
        super().__init__(*given)
        # Variables that need such a channel, with its field and the name of the variable that reads it.
        self.readings: dict[tuple[Variable, str], str] = {}
        self.clock_name = ""

    def reading(self, node: Call, variable: Optional[Variable], field: str) -> str:
        """The variable that reads a field of the channels of another one."""
        if variable is None or variable.channels is None or not variable.channels.all_names():
            raise ByHand(f"function '{node.function}'")
        subscripts = subscripts_of(node.arguments[0])
        is_parted = variable.channels.is_list or variable.channels.elements
        if is_parted and (not subscripts or not variable.dimensions):
            raise ByHand(f"{node.function} of many channels")
        free = self.free(f"{variable.new_name}_{field.lower()}")
        # What can't be written is told here, where it is asked for.
        self.reading_definition(free, variable, field)
        name = self.readings.setdefault((variable, field), free)
        return name + (f"[{self.whole(self.value(subscripts[0])).text}]" if is_parted else "")

    def alarm(self, node: Call) -> Value:
        """`pvStatus`, `pvSeverity` and `pvTimeStamp`."""
        self.has_arguments(node, 1)
        name = self.reading(node, variable_of(node.arguments[0]), FIELDS[node.function])
        seconds = ", in whole seconds" if node.function == "pvTimeStamp" else ""
        self.say(node, KNOW, f"{node.function}{seconds}: {CHANNEL}", OTHERWISE)
        return Value(name)

    def number_in(self, node: Call, at: int = 0) -> Value:
        """A number that is written in a text from a channel, from the first one on."""
        variable = variable_of(node.arguments[0])
        if variable is None or at >= len(variable.numbers):
            raise ByHand(f"function '{node.function}'")
        field = number_field(at)
        name = self.reading(node, variable, field)
        variable.numbers[at].new_name = self.readings[variable, field]
        what = "number in the text is read from a channel" if at == 0 else "numbers in the text are read from channels"
        self.say(node, DECIDE, f"{node.function}: the {what} of {'its' if at == 0 else 'their'} own, which the trace has to bring before the text")
        return Value(name, kind=Kind.QUANTITY, digits=variable.numbers[at].digits())

    def scanned(self, node: Call) -> Value:
        """`sscanf` of numbers: they are taken as found always."""
        self.has_arguments(node, 3)
        words = [it for it in CONVERSION.findall(self.known_text(node.arguments[1]) or "") if not it.endswith("%") and "*" not in it]
        places = [behind_and(it) for it in node.arguments[2:]]
        are_places = all(place is not it for place, it in zip(places, node.arguments[2:]))
        if len(words) != len(places) or any(it[-1] not in "diuefgEG" for it in words) or not are_places:
            raise ByHand("sscanf of other than numbers")
        texts = [self.stored_to(it, self.number_in(node, at), node) for at, it in enumerate(places)]
        if len(texts) == 1 and node.alone:
            return Value(texts[0], ASSIGNMENT)
        return Value(", ".join(texts), COMMA) if node.alone else Value(f"({', '.join(texts)}, {len(texts)})")

    def stored_to(self, place: Expression, found: Value, node: Call) -> str:
        """A store of a number to a place."""
        left = self.value(place)
        if left.kind not in (Kind.WHOLE, Kind.QUANTITY):
            raise ByHand(f"{node.function} to what is no number")
        made = self.at(found, left.digits, node) if left.kind is Kind.QUANTITY else self.whole(found)
        return f"{left.text} = {held(made, ASSIGNMENT)}"

    def clock(self, node: Call) -> Value:
        """`time` and its like: whole seconds."""
        self.has_arguments(node, 1)
        place = behind_and(node.arguments[0])
        is_read = isinstance(place, Number) or (isinstance(place, Name) and place.name == "NULL")
        if not is_read and place is node.arguments[0]:
            raise ByHand(f"function '{node.function}'")
        self.clock_name = self.clock_name or self.free("clock")
        self.say(node, KNOW, f"{node.function}: whole seconds of the channel {CLOCK}, which the trace has to bring", OTHERWISE)
        if is_read:
            return Value(self.clock_name)
        text = self.stored_to(place, Value(self.clock_name), node)
        return Value(text, ASSIGNMENT) if node.alone else Value(f"({text})")

    def passed(self, node: Call) -> Value:
        """The time between two."""
        self.has_arguments(node, 2)
        late, early = (self.whole(self.value(behind_and(it))) for it in node.arguments[:2])
        return Value(f"{held(late, SUM)} - {held(early, SUM + 1)}", SUM, Kind.QUANTITY)

    def reading_definitions(self) -> list[str]:
        """The variables that read such channels."""
        clock = [f'long {self.clock_name}; assign {self.clock_name} to "{CLOCK}"; monitor {self.clock_name};'] if self.clock_name else []
        return [self.reading_definition(name, *key) for key, name in self.readings.items()] + clock

    def reading_definition(self, name: str, variable: Variable, field: str) -> str:
        """One of them, with its channels."""

        def channel(of: str) -> str:
            """The name of the channel of the field, as a text."""
            return f'"{field_of(of, field)}"'

        channels, type_ = variable.channels, "int" if field in ("SEVR", "STAT") else "long"
        if channels.elements:
            places = [(self.whole(self.value(it)).text, channel(of)) for it, of in channels.elements]
            assigns = "".join(f" assign {name}[{at}] to {of};" for at, of in places)
            return f"{type_} {name}[{self.size(variable.dimensions[0])}];{assigns} monitor {name};"
        if channels.is_list:
            names = ", ".join(channel(it) for it in channels.names)
            return f"{type_} {name}[{self.size(variable.dimensions[0])}]; assign {name} to {{{names}}}; monitor {name};"
        return f"{type_} {name}; assign {name} to {channel(channels.names[0])}; monitor {name};"


def number_field(at: int) -> str:
    """The field of a number in a text: NUMBER, and then NUMBER2."""
    return f"NUMBER{at + 1 if at else ''}"


def field_of(channel: str, field: str) -> str:
    """The name of a channel with another field."""
    return f"{FIELD.sub('', channel)}.{field}"
