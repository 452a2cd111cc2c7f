"""Units, texts and names of constants as words for what makes the trace or shows it: `--scale NAME=K`, `--enum NAME=TEXT:N,..`."""
import re
import shlex

from porting.named import names_of_values
from porting.notes import KNOW
from porting.port import Port
from porting.readings import field_of, number_field
from porting.variables import Kind

TWO = re.compile(r":-?\d{1,19},")


def words(port: Port) -> list[str]:
    """The words, one for each channel, as a shell reads them."""
    found: dict[str, str] = {}
    texts = texts_as_words(port, port.legend)
    constants = names_of_values(port.program, port.tokens)
    for it in port.binding.variables():
        for name in it.channels.all_names() if it.channels else []:
            channel = port.filled(name)
            if it.kind is Kind.QUANTITY and it.digits():
                found[channel] = f"--scale {shlex.quote(f'{channel}={it.digits()}')}"
            if it.pattern:
                told = texts_as_words(port, {it.pattern.text: 1}) if it.pattern.is_whole() else ""
                found.update({channel: f"--enum {shlex.quote(f'{channel}={told}')}"} if told else {})
                if not told:
                    port.notes.add(it.line, KNOW, f"'{it.name}' has no word in the table: --units has it")
            elif it.kind is Kind.TEXT and texts:
                found[channel] = f"--enum {shlex.quote(f'{channel}={texts}')}"
            if it in constants:
                names = ",".join(f"{name}:{value}" for value, name in constants[it].items())
                found[channel] = f"--enum {shlex.quote(f'{channel}={names}')}"
    for variable, field in port.readings:
        for at, number in enumerate(variable.numbers):
            for name in variable.channels.all_names() if field == number_field(at) and number.digits() else ():
                channel = port.filled(field_of(name, field))
                found[channel] = f"--scale {shlex.quote(f'{channel}={number.digits()}')}"
    return list(found.values())


def texts_as_words(port: Port, legend: dict[str, int]) -> str:
    """The texts with their numbers, but those that would read as two: a text may have commas and colons, but not `:1,`."""
    kept = []
    for text, number in legend.items():
        if TWO.search(text):
            port.notes.add(1, KNOW, f'text "{text}" has a number between a colon and a comma: it is left out of the table')
        elif text:
            kept.append(f"{text}:{number}")
    return ",".join(kept)
