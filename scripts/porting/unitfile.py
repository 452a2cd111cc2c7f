"""What the port chose for each channel, as lines of a file of units: `scale`, `enum`, `severity`, `text` and `time`.

    scale LAB:TEMP 10000            the number of the trace is that of the control system times 10000
    enum LAB:MESSAGE :0,warm:2      the text "warm" is 2, and the empty one 0
    severity LAB:TEMP.SEVR          this channel gets the severity of the record LAB:TEMP
    text LAB:REPLY ERR*             1 where the text begins with ERR, and else 0
    time CLOCK                      whole seconds

A byte of a text that has a meaning there, or is no letter of ASCII, stands as `\\x2c`.
"""
import re

from porting.named import names_of_values
from porting.port import Port
from porting.readings import CLOCK, field_of, number_field
from porting.variables import Kind, Variable

# A byte of a text that stands for itself.
PLAIN = re.compile(r"[A-Za-z0-9_.+*?/()\[\]-]")
# A byte as C spells it in a text.
ESCAPE = re.compile(r"\\(?:x([0-9a-fA-F]{1,2})|([0-7]{1,3})|(.))", re.DOTALL)
LETTERS = {"n": "\n", "t": "\t", "r": "\r", "a": "\a", "b": "\b", "f": "\f", "v": "\v"}
# The word of the file for what is read from a channel of its own. A status and a number in a text have none.
WORDS = {"SEVR": "severity", "TIME": "time"}


def lines(port: Port) -> list[str]:
    """The lines of the file, one for each channel that has something to be said."""
    found: dict[str, str] = {}
    constants = names_of_values(port.program, port.tokens)
    for it in port.binding.variables():
        for name in it.channels.all_names() if it.channels else []:
            channel = port.filled(name)
            said = of_channel(port, it, constants.get(it, {}))
            if said:
                found.setdefault(channel, f"{said[0]} {channel} {said[1]}")
    for (variable, field), _ in port.readings.items():
        for name in variable.channels.all_names():
            channel = port.filled(field_of(name, field))
            if field in WORDS:
                found.setdefault(channel, f"{WORDS[field]} {channel}")
            for at, number in enumerate(variable.numbers):
                if field == number_field(at):
                    found.setdefault(channel, f"scale {channel} {10 ** number.digits()}")
    if port.clock_name:
        found.setdefault(CLOCK, f"time {CLOCK}")
    return list(found.values())


def of_channel(port: Port, variable: Variable, names: dict[int, str]) -> tuple[str, ...]:
    """The word and what stands behind the channel, for the channels of a variable; nothing where there is none."""
    if variable.kind is Kind.QUANTITY:
        return "scale", str(10 ** variable.digits())
    if variable.pattern:
        front, back = ("*" if it else "" for it in (variable.pattern.is_part, variable.pattern.is_front or variable.pattern.is_part))
        return "text", front + quoted(bytes_of(variable.pattern.text), "*") + back
    if variable.kind is Kind.TEXT:
        return "enum", ",".join(f"{quoted(bytes_of(text))}:{number}" for text, number in port.legend.items())
    if names:
        return "enum", ",".join(f"{quoted(name)}:{value}" for value, name in names.items())
    return ()


def bytes_of(text: str) -> str:
    """A text of C as it is, each byte as a letter."""

    def byte(found: re.Match) -> str:
        """What an escape stands for."""
        if found[1] or found[2]:
            return chr(int(found[1] or found[2], 16 if found[1] else 8) & 255)
        return LETTERS.get(found[3], found[3])

    return ESCAPE.sub(byte, text)


def quoted(text: str, kept: str = "") -> str:
    """A text as the file has it. A letter of `kept` is a byte of the text, and has a meaning in the file."""
    return "".join(it if PLAIN.match(it) and it not in kept else f"\\x{ord(it):02x}" for it in text)
