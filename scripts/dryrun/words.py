"""What the words of a call ask for."""
import argparse
import re
from dataclasses import dataclass, field

OPTION = re.compile(r"[+-][A-Za-z][A-Za-z+-]*|\+.*")
# Words that are handed on, with what stands behind each.
OF_PORT = {"--unit": "NAME=K", "--finer": "D", "--delay": "SECONDS", "--sync": "left|wait"}
OF_TRACE = {
    "--scale": "NAME=K", "--enum": "NAME=TEXT:N,..", "--value": "NAME=N", "--offset": "FILE=+HH:MM", "--lead": "S", "--from": "T", "--to": "T",
}  # fmt: skip
MEANT = {
    "--unit": "what meets the quantity NAME has the unit 10^-K", "--finer": "all units have D digits more",
    "--delay": "a delay that a quantity may have", "--sync": "whether a put with SYNC goes on at once, or waits for the answer",
    "--scale": "the values of NAME are taken times 10^K", "--enum": "the text TEXT of NAME is N", "--value": "NAME has the value N at 0",
    "--offset": "the clock of the log FILE is so far in front of that of the others", "--lead": "so many seconds stand in front of the first change",
    "--from": "the trace begins at this time of the logs", "--to": "the trace ends at this time of the logs",
}  # fmt: skip


@dataclass
class Wanted:
    """What a call asks for."""

    # The program, the logs, the macros of the call, and the words of the language.
    file: str
    logs: list
    macros: str
    options: list
    # The folder that keeps what was made, and whether files in it may be written over.
    keep: "str | None"
    is_forced: bool
    units: "str | None"
    snc: "str | None"
    snl: "str | None"
    # Words for scripts/port and for snl trace.
    of_port: list = field(default_factory=list)
    of_trace: list = field(default_factory=list)


def wanted(words: list) -> Wanted:
    """What the words of a call ask for; where they are wrong the call ends with status 2."""
    options = [it for it in words if OPTION.fullmatch(it)]
    parser = parser_of()
    given = parser.parse_intermixed_args([it for it in words if not OPTION.fullmatch(it)])
    if given.force and not given.keep:
        parser.error("--force says nothing without --keep")
    if "-" in (given.file, *given.logs):
        parser.error("PROG.st and each LOG have to be files")
    handed = vars(given)
    of_port, of_trace = ([f"{name}={it}" for name in names for it in handed[name]] for names in (OF_PORT, OF_TRACE))
    of_trace += ["--severity"] if given.severity else []
    return Wanted(
        given.file, given.logs, given.macros, options, given.keep, given.force, given.units, given.snc, given.snl, of_port, of_trace,
    )  # fmt: skip


def parser_of() -> argparse.ArgumentParser:
    """The words that are known."""
    text = "From a program and the logs of a day to the page of a dry run, on standard output."
    parser = argparse.ArgumentParser(description=text, allow_abbrev=False, add_help=False)
    add = parser.add_argument
    add("--help", action="help", help="print this help")
    add("--macros", default="", metavar="M=TEXT,..", help="the macros in the names of channels")
    add("--keep", metavar="DIR", help="keeps what was made in this folder: the port, its notes and units, the trace, the run, the page")
    add("--force", action="store_true", help="--keep writes over files that are there")
    add("--units", metavar="FILE", help="what the numbers of channels stand for, in the place of what the port chooses")
    for name, behind in (OF_PORT | OF_TRACE).items():
        add(name, dest=name, action="append", default=[], metavar=behind, help=MEANT[name])
    add("--severity", action="store_true", help="severities become channels NAME.SEVR")
    add("--snc", metavar="PATH", help="the program snc, in place of the one that was built here")
    add("--snl", metavar="PATH", help="the program snl, in place of the one that was built here")
    add("file", metavar="PROG.st", help="the program")
    add("logs", metavar="LOG", nargs="+", help="a log of its channels")
    return parser
