"""What the words of a call ask for."""
import argparse
import datetime
import re
from dataclasses import dataclass, field
from fractions import Fraction

from plotting.record import Part
from plotting.values import Values

NO_CLOCK = "none"
LEAST_COLUMNS, MOST_COLUMNS, COLUMNS = 1, 8192, 2048
MOST_DECIMALS = 18
# A text with its number, and the comma behind it: the text may have commas and colons, too.
ENTRY = re.compile(r"(.+?):(-?\d{1,19})(?:,(?!$)|$)")
OPTION = re.compile(r"[+-][A-Za-z][A-Za-z+-]*|\+.*")


@dataclass
class Wanted:
    """What a call asks for."""

    # The program, its macros, the words of the language, and the budget of an instant.
    file: str
    macros: str
    options: list
    budget: str
    part: Part
    only: list
    columns: int
    # The clock at 0 ms; None where the trace tells it, and `NO_CLOCK` for none at all.
    zero: "datetime.datetime | str | None"
    values: Values
    # A file of units, which adds to the values.
    units: "str | None" = None
    # The scale of channels: `log` or `linear`.
    scales: dict = field(default_factory=dict)
    form: str = "html"
    # A sentence for the top of the page.
    note: str = ""
    # The text of a run in the place of a call, and the programs in the place of those built here.
    run: "str | None" = None
    snc: "str | None" = None
    snl: "str | None" = None


def wanted(words: list) -> Wanted:
    """What the words of a call ask for; where they are wrong the call ends with status 2."""
    options = [it for it in words if OPTION.fullmatch(it)]
    parser = parser_of()
    given = parser.parse_intermixed_args([it for it in words if not OPTION.fullmatch(it)])
    if given.file == "-":
        parser.error("FILE has to be a file: the trace comes on standard input")
    if None not in (given.low, given.high) and given.low > given.high:
        parser.error("--from is behind --to")
    values = Values({name: Fraction(10**digits) for name, digits in given.scale}, {})
    for name, texts in given.enum:
        values.texts.setdefault(name, {}).update(texts)
    scales = {it: "log" for it in given.log} | {it: "linear" for it in given.linear}
    part = Part(given.low, given.high)
    return Wanted(
        given.file, given.macros, options, given.budget, part, given.only, given.columns, given.zero, values, given.units,
        scales, given.format, given.note, given.run, given.snc, given.snl,
    )  # fmt: skip


def parser_of() -> argparse.ArgumentParser:
    """The words that are known."""
    text = "Draws what a program did over a trace, which comes on standard input, as a page on standard output."
    parser = argparse.ArgumentParser(description=text, add_help=False, allow_abbrev=False)
    many = {"action": "append", "default": []}
    add = parser.add_argument
    add("--help", action="help", help="print this help")
    add("--from", dest="low", type=time, metavar="MS", help="draw from this time on; the run begins at the start all the same")
    add("--to", dest="high", type=time, metavar="MS", help="draw up to this time")
    add("--only", metavar="NAME", help="draw this channel, element NAME[K] or state set; again for more", **many)
    add("--columns", type=columns, default=COLUMNS, metavar="N", help=f"columns of the picture at most [{COLUMNS}]")
    add("--zero", type=date, metavar="DATE", help="the clock at 0 ms, as 2026-03-02T21:00:00, in the place of that which the trace tells; or none")
    add("--enum", type=texts, metavar="NAME=TEXT:N,..", help="of this channel the value N is shown as TEXT", **many)
    add("--scale", type=decimals, metavar="NAME=K", help="values of this channel have K decimals", **many)
    add("--units", metavar="FILE", help="what the values of channels stand for, as the port writes it by --units")
    add("--log", metavar="NAME", help="draw this channel on a logarithmic scale", **many)
    add("--linear", metavar="NAME", help="draw this channel on a linear scale", **many)
    add("--format", choices=("html", "text"), default="html", help="a page, or its lanes as lines of text [html]")
    add("--note", default="", metavar="TEXT", help="a sentence that stands at the top of the page")
    add("--budget", default="", metavar="N", help="the ticks that an instant may take")
    add("--run", metavar="FILE", help="take the run that `snl run --whole` or snlrun wrote, and call neither")
    add("--snc", metavar="PATH", help="the program snc, in place of the one that was built here")
    add("--snl", metavar="PATH", help="the program snl, in place of the one that was built here")
    add("file", metavar="FILE", help="the program")
    add("macros", metavar="MACROS", nargs="?", default="", help="the macros in the names of channels")
    return parser


def time(text: str) -> int:
    """A time in ms."""
    if not re.fullmatch(r"\d{1,16}", text):
        raise argparse.ArgumentTypeError(f"'{text}' is no time in milliseconds")
    return int(text)


def columns(text: str) -> int:
    """A number of columns."""
    if not re.fullmatch(r"\d{1,4}", text) or not LEAST_COLUMNS <= int(text) <= MOST_COLUMNS:
        raise argparse.ArgumentTypeError(f"'{text}' is no number from {LEAST_COLUMNS} to {MOST_COLUMNS}")
    return int(text)


def date(text: str) -> "datetime.datetime | str":
    """A date with a time, of which the zone does not count; or the word for none."""
    if text == NO_CLOCK:
        return text
    try:
        return datetime.datetime.fromisoformat(text).replace(tzinfo=None)
    except ValueError:
        raise argparse.ArgumentTypeError(f"'{text}' is no date such as 2026-03-02T21:00:00") from None


def decimals(text: str) -> tuple[str, int]:
    """The name and the digits of NAME=K."""
    name, _, digits = text.rpartition("=")
    if not name or not re.fullmatch(r"\d{1,2}", digits) or int(digits) > MOST_DECIMALS:
        raise argparse.ArgumentTypeError(f"'{text}' is not NAME=K with K from 0 to {MOST_DECIMALS}")
    return name, int(digits)


def texts(text: str) -> tuple[str, dict]:
    """The name and the texts of NAME=TEXT:N,TEXT:N."""
    name, _, pieces = text.partition("=")
    found = {int(number): shown for shown, number in ENTRY.findall(pieces)}
    if not name or not found or ENTRY.sub("", pieces):
        raise argparse.ArgumentTypeError(f"'{text}' is not NAME=TEXT:N,..")
    return name, found
