"""What the words of a call ask for: the channels, by their names or by what `snc --tables` writes, and how each is read."""
import argparse
import os
import re
import subprocess
import sys
from dataclasses import dataclass, field
from fractions import Fraction
from pathlib import Path

sys.path.insert(0, str(Path(__file__).resolve().parent.parent))
from shared import macros, programs, units  # noqa: E402

LINK = re.compile(r'channel (\S+) (\d+) (\d+) "(.*)" (\S+) (\S+) \d+')
MACRO = re.compile(r"\{([^{}]*)\}")
# Names that a line of a trace can have.
SAYABLE = re.compile(r"[!-~]+")
# The bytes of a text of Channel Access, and the ms of a day.
TEXT, DAY = 39, 86_400_000


# What is said where a call has the old word.
OLD = "note: --tables goes on; --program FILE takes the source itself, with its macros"


@dataclass
class Link:
    """A variable of the program and its channel."""

    variable: str
    first: int
    name: str
    # Whether values come in by themselves, and whether they set an event flag.
    is_monitored: bool
    is_synced: bool
    # The variable as a message shows it: with the number of the element, where its elements have channels of their own.
    shown: str = ""


@dataclass
class Wanted:
    """What a call asks for."""

    # The channels in their order, each with the most values that a program takes of it; None where nothing tells.
    channels: dict = field(default_factory=dict)
    # Of a channel what it is taken times.
    scales: dict = field(default_factory=dict)
    # Of a channel of texts the number of each text, or what it is asked; and the channels that a word gives texts.
    texts: dict = field(default_factory=dict)
    patterns: dict = field(default_factory=dict)
    named: set = field(default_factory=set)
    # The texts of the indices of enumerations, as their servers tell them.
    states: dict = field(default_factory=dict)
    # Channels of whole seconds: the clock, and those of time stamps, each with the channel of the record.
    has_clock: bool = False
    stamps: dict = field(default_factory=dict)
    # The name of the program, and the links of its variables that have a channel.
    program: str = ""
    links: list = field(default_factory=list)
    # The channels whose values nobody reads: they are only put to.
    unread: set = field(default_factory=set)

    def channels_of(self, variables):
        """The channels of some variables."""
        return {it.name for it in self.links if it.variable in variables}

    def has_states(self, name):
        """Whether the texts of an enumeration are those that have numbers: then these count, and else its indices."""
        texts = self.texts.get(name, {}) if name not in self.named else {}
        return any(it in texts for it in self.states.get(name, ()))

    def records(self):
        """The channels of the control system: all but those of times, and those whose time stamps are taken."""
        own = [it for it in self.channels if it not in self.stamps and not (self.has_clock and it == units.CLOCK)]
        return dict.fromkeys([*own, *self.stamps.values()])


def parser_of(text):
    """The words that both scripts know, and the text as their help."""
    parser = argparse.ArgumentParser(description=text, formatter_class=argparse.RawDescriptionHelpFormatter)
    parser.add_argument("--program", metavar="FILE", help="the channels are those of this program, a source")
    parser.add_argument("--macros", default="", metavar="M=TEXT,..", help="what stands for {M} in the names of channels")
    parser.add_argument("--units", metavar="FILE", help="what the numbers of channels stand for, as port --units writes it")
    parser.add_argument("--scale", action="append", default=[], metavar="NAME=K", help="NAME is taken times 10^K")
    parser.add_argument("--enum", action="append", default=[], metavar="NAME=TEXT:N,..", help="NAME has texts; TEXT is N")
    parser.add_argument("--seconds", type=seconds, default=float("inf"), metavar="S", help="ends after so many seconds")
    parser.add_argument("--tables", metavar="FILE", help="what snc --tables wrote, in the place of --program; - is standard input")
    parser.add_argument("--snc", metavar="PATH", help="the program snc that is asked of FILE, in place of the one that belongs to the script")
    return parser


def number(text, most):
    """A number above 0, and not above the most."""
    try:
        found = float(text)
    except ValueError:
        found = 0
    if not 0 < found <= most:
        raise argparse.ArgumentTypeError(f"{text} is no number above 0" + (f" and up to {most:,}" if most < float("inf") else ""))
    return found


def seconds(text):
    """A number of seconds."""
    return number(text, float("inf"))


def milliseconds(text):
    """A number of milliseconds, up to a day."""
    return number(text, DAY)


def wanted(parser, given, names=(), own=""):
    """What the words ask for; `own` are macros of the call of a program. The parser ends the call, with the status 2, where they
    make no sense."""
    found = Wanted()
    try:
        if given.program and given.tables:
            raise ValueError("--tables: --program has the channels already")
        texts = macros_of(given.macros)
        if given.program:
            add_tables(found, tables_of(given.program, given.snc), given.program, {**macros_in(given.program), **macros.macros_of(own), **texts})
        elif given.tables:
            add_tables(found, lines_in(given.tables), given.tables, texts)
        for name in names:
            add_channel(found, name, None)
        if given.units:
            add_units(found, given.units)
        found.scales |= dict(scale_of(found, it) for it in given.scale)
        for it in given.enum:
            name, numbers = texts_of(found, it)
            found.texts[name] = numbers
            found.named.add(name)
    except units.Wrong as wrong:
        parser.exit(2, f"{wrong}\n")
    except (ValueError, OSError, programs.NotBuilt) as fault:
        parser.error(str(fault))
    return found


def macros_of(text):
    """The texts of macros, as `snlrun` reads them: blanks round a name and a text do not count."""
    for piece in filter(None, map(str.strip, text.split(","))):
        if "=" not in piece:
            raise ValueError(f"--macros: {piece} is not M=TEXT")
    return macros.macros_of(text)


def macros_in(path):
    """The macros that the source of a program has behind its name."""
    return macros.macros_of(macros.own_macros(Path(path).read_bytes().decode("latin-1")))


def tables_of(path, snc):
    """What `snc --tables` says of a source."""
    with open(path, "rb"):  # where it can't be read, that is said of it
        ran = subprocess.run([programs.found("snc", snc), "--tables", path], capture_output=True, check=False)
    if ran.returncode:
        raise ValueError(f"--program: snc refuses {path}\n{ran.stderr.decode(errors='replace').rstrip()}")
    return ran.stdout.decode("latin-1").splitlines()


def lines_in(path):
    """The lines of a file, or of standard input."""
    if path == "-":
        return sys.stdin.read().splitlines()
    with open(path) as file:
        return file.read().splitlines()


def add_tables(found, lines, path, macros_there):
    """Adds the channels that tables name, with the macros replaced. A link without a name has no channel."""
    if not lines or not re.fullmatch(r"program \S+", lines[0]):
        raise ValueError(f"--tables: {path} has not what `snc --tables` writes")
    found.program = lines[0].split()[1]
    for link in filter(None, map(LINK.fullmatch, lines)):
        variable, first, count, spelled, monitor, flag = link.groups()
        for macro in MACRO.findall(spelled):
            if macro not in macros_there:
                raise ValueError(f"what stands for {{{macro}}} in {spelled}? Give it by --macros {macro}=..")
        name = macros.filled(spelled, macros_there)
        if name:
            add_channel(found, name, int(count))
            found.links.append(Link(variable, int(first), name, monitor != "-", flag != "-"))
    for link in found.links:
        is_one = sum(it.variable == link.variable for it in found.links) == 1
        link.shown = link.variable if is_one else f"{link.variable}[{link.first}]"


def add_units(found, path):
    """Takes what a file of units says of the channels. Others of a program, as of a call with other macros, would be in vain."""
    there = units.units_of(path)
    strange = sorted(there.names() - set(found.channels))
    if strange and found.program:
        more = f", nor {len(strange) - 1} others that are named there" if len(strange) > 1 else ""
        raise ValueError(f"--units {path}: {found.program} has no channel {strange[0]}{more}")
    found.scales = {name: it for name, it in there.scales.items() if name in found.channels}
    for name, numbers in there.texts.items():
        found.texts |= {name: {as_here(it): number for it, number in numbers.items()}} if name in found.channels else {}
    for name, it in there.patterns.items():
        found.patterns |= {name: units.Pattern([as_here(piece) for piece in it.pieces])} if name in found.channels else {}
    for name in there.times & set(found.channels):
        if name == units.CLOCK:
            found.has_clock = True
        else:
            found.stamps[name] = name.removesuffix(units.STAMP)


def as_here(text):
    """A text with a letter for each byte, as Channel Access hands it on."""
    return os.fsdecode(text.encode("latin-1"))


def add_channel(found, name, count):
    """Adds a channel of which a program takes so many values, or all where that is None."""
    if not SAYABLE.fullmatch(name):
        raise ValueError(f"a trace cannot name the channel {name!r}")
    known = found.channels.get(name, count)
    found.channels[name] = None if None in (known, count) else max(known, count)


def named(found, word, option):
    """The name in front of the `=` of a word, which has to be that of a channel, and what is behind it."""
    name, sign, rest = word.rpartition("=") if option == "--scale" else word.partition("=")
    if not sign or name not in found.channels:
        raise ValueError(f"{option} {word}: there is no channel {name or word}")
    return name, rest


def scale_of(found, word):
    """The channel of NAME=K, and 10^K."""
    name, power = named(found, word, "--scale")
    if not re.fullmatch(r"-?\d{1,2}", power):
        raise ValueError(f"--scale {word}: {power} is no whole number of at most two digits")
    return name, Fraction(10) ** int(power)


def texts_of(found, word):
    """The channel and the texts of NAME=TEXT:N,TEXT:N."""
    name, texts = named(found, word, "--enum")
    numbers = {}
    for piece in texts.split(","):
        text, sign, number = piece.rpartition(":")
        if not sign or not re.fullmatch(r"-?\d{1,18}", number):
            raise ValueError(f"--enum {word}: {piece} is not TEXT:N")
        if len(os.fsencode(text)) > TEXT:
            raise ValueError(f"--enum {word}: {text} has more than {TEXT} bytes, and no channel has such a text")
        if numbers.setdefault(text, int(number)) != int(number):
            raise ValueError(f"--enum {word}: {text} has two numbers")
    return name, numbers


def source_of(found, paths):
    """The name and the bytes of that file which is the program's source; nothing where none is."""
    for path, data in files_of(paths):
        if re.search(rf"\bprogram\s+{re.escape(found.program)}\b", code_of(data)):
            return path, data
    return None


def program_in(call):
    """Which word of a call is the source of a program, and the macros behind it; nothing where none is."""
    for path, data in files_of(call):
        if re.search(r"\bprogram\s+[A-Za-z_]\w*", code_of(data)):
            behind = call[call.index(path) + 1 :]
            return path, behind[0] if behind and "=" in behind[0] else ""
    return None


def files_of(paths):
    """Files that can be read, each with its bytes."""
    for path in paths:
        try:
            if Path(path).is_file():
                yield path, Path(path).read_bytes()
        except OSError:
            continue


def code_of(data):
    """The text of a source without its comments and texts in quotes."""
    return macros.COMMENT.sub(" ", data.decode(errors="replace"))


def asking(found, source):
    """The channels that the program puts with `ASYNC`, which asks for an answer. All where the source is not there.

    A variable counts that stands behind `pvPut(` with `, ASYNC)` later in the same expression: too many here do no harm.
    """
    if not source:
        return set(found.channels)
    return found.channels_of(re.findall(r"\bpvPut\s*\(\s*(\w+)\b(?=[^;]*?,\s*ASYNC\s*\))", code_of(source[1])))


def unread(found, source):
    """The channels of which the program takes no value: not by `monitor`, by `sync` or by `pvGet`. None where the source is not
    there."""
    if not source:
        return set()
    got = re.findall(r"\bpvGetQ?\s*\(\s*(\w+)\b", code_of(source[1]))
    read = {it.name for it in found.links if it.is_monitored or it.is_synced or it.variable in got}
    return set(found.channels) - read
