"""What the preprocessor of C does, with the text kept: `#define`, `#ifdef`, `#include "x"`, and constants of embedded C.

Lines of the preprocessor and embedded C become comments, and tokens that came from a constant have its name behind them.
"""
import os
import re
from dataclasses import dataclass, field
from typing import Optional

from porting.embedded import Nesting, commented_parts, is_cut, items_of, statements_of
from porting.macros import Macro, macros_of_c, written_out
from porting.notes import BY_HAND, DECIDE, KNOW, NotUnderstood, Notes
from porting.tokens import PIECE, Token, commented, harmless, without_comments

KEPT = re.compile(r"[ \t]*#[ \t]*(?:(?:line )?[ \t]*\d|pragma)")
DIRECTIVE = re.compile(r"\s*#\s*(\w+)\s*(.*)", re.DOTALL)
DEFINED = re.compile(r"(!?)\s*defined\s*(?:\(\s*(\w+)\s*\)|(\w+))$")
DEEPEST = 30
# The bytes of a source at most, as `snc` has it; and of all files together that it includes.
MOST = 1 << 20
# What is open where a sign is read of it.
UNCLOSED = {"/*": "a comment", "%{": "embedded C"}


@dataclass
class Branch:
    """An `#if` that is open: whether its lines count, and whether some branch of it did."""

    is_taken: bool
    was_taken: bool


@dataclass
class Preprocessor:
    """The state of the preprocessor from line to line."""

    notes: Notes
    path: str
    macros: dict[str, Macro] = field(default_factory=dict)
    branches: list[Branch] = field(default_factory=list)
    depth: int = 0
    # How many bytes of included files may still come.
    room: int = MOST
    # Lines of files that are not there.
    lines_by_hand: list[int] = field(default_factory=list)
    # Functions of embedded C that are taken as functions of the program.
    functions: set[str] = field(default_factory=set)

    def tokens(self, source: str) -> list[Token]:
        """The tokens of a program, with macros written out, and a token for the end."""
        reader = Reader(self, source, 1)
        reader.read()
        tokens = written_out(reader.tokens, self.macros)
        for name, macro in self.macros.items():
            if macro.is_of_c and macro.used:
                self.notes.add(macro.line, KNOW, f"constant '{name}' of embedded C is used")
        last = Token("end", "", reader.before, reader.line, embedded=reader.embedded)
        return [*tokens, last]

    def is_skipping(self) -> bool:
        """Whether lines are left out here."""
        return not all(it.is_taken for it in self.branches)

    def directive(self, text: str, reader: "Reader") -> None:
        """Does what a line of the preprocessor says. Its text has no comments any more."""
        found = DIRECTIVE.match(text)
        if not found:
            return
        word, rest = found[1], found[2].strip()
        if word in ("ifdef", "ifndef", "if", "elif", "else", "endif"):
            self.branch(word, rest, reader.line)
        elif self.is_skipping():
            return
        elif word == "define":
            self.define(rest, reader.line)
        elif word == "undef":
            self.macros.pop(rest, None)
        elif word == "include":
            self.include(rest, reader)
        elif word in ("error", "warning"):
            self.notes.add(reader.line, BY_HAND if word == "error" else KNOW, f"#{word} {rest}")

    def branch(self, word: str, rest: str, line: int) -> None:
        """Opens, changes or closes an `#if`."""
        if word in ("ifdef", "ifndef", "if"):
            taken = self.condition(word, rest, line)
            self.branches.append(Branch(taken, taken))
        elif not self.branches:
            self.notes.add(line, BY_HAND, f"#{word} without #if")
        elif word == "endif":
            self.branches.pop()
        else:
            last = self.branches[-1]
            last.is_taken = not last.was_taken and (word == "else" or self.condition("if", rest, line))
            last.was_taken = last.was_taken or last.is_taken

    def condition(self, word: str, rest: str, line: int) -> bool:
        """Whether the condition of an `#if` holds. One that is more than a name or a number is taken as true."""
        if word != "if":
            return (rest.split(None, 1)[:1] == [it for it in rest.split()[:1] if it in self.macros]) == (word == "ifdef")
        defined = DEFINED.match(rest)
        if defined:
            return ((defined[2] or defined[3]) in self.macros) != bool(defined[1])
        if re.fullmatch(r"\d+", rest):
            return int(rest) != 0
        if not self.is_skipping():
            self.notes.add(line, DECIDE, f"#if {rest} is taken as true")
        return True

    def define(self, rest: str, line: int) -> None:
        """Keeps a macro."""
        found = re.match(r"(\w+)(\(([^)]*)\))?\s*(.*)", rest, re.DOTALL)
        if not found:
            self.notes.add(line, BY_HAND, f"#define {rest}")
            return
        parameters = None
        if found[2] is not None:
            parameters = [it.strip() for it in found[3].split(",") if it.strip()]
        self.macros[found[1]] = Macro(parameters, self.cut(found[4], line), line)

    def cut(self, text: str, line: int) -> list[Token]:
        """The tokens of a piece of text that has no lines of the preprocessor."""
        reader = Reader(self, text, line, has_directives=False)
        reader.read()
        return reader.tokens

    def include(self, rest: str, reader: "Reader") -> None:
        """Reads the tokens of a file that stands beside this one. A header of the system is left out."""
        found = re.match(r'"([^"]+)"', rest)
        if not found:
            self.notes.add(reader.line, KNOW, f"include {rest} is left out")
            return
        path = os.path.join(os.path.dirname(self.path), found[1])
        source = self.text_of(path)
        if source is None:
            self.left_out(reader.line, f"include {rest} is left out: there is no such file here")
            return
        if len(source) > self.room:
            self.left_out(reader.line, f"include {rest} is left out: with it the files that are included have more than {MOST} bytes")
            return
        self.room -= len(source)
        if self.depth >= DEEPEST:
            self.left_out(reader.line, f"include {rest} is left out: files include each other without end")
            return
        self.notes.add(reader.line, KNOW, f"file {found[1]} is read here")
        reader.insert(self.tokens_of_file(path, source, reader.line))

    def text_of(self, path: str) -> Optional[str]:
        """The text of a file that is included, no more of it than tells that it is too long; None where it is no file."""
        if not os.path.isfile(path):
            return None
        try:
            with open(path, "rb") as file:
                return file.read(self.room + 1).decode("latin-1")
        except OSError:
            return None

    def left_out(self, line: int, why: str) -> None:
        """Notes a file that a person has to look for."""
        self.notes.add(line, BY_HAND, why)
        self.lines_by_hand.append(line)

    def tokens_of_file(self, path: str, source: str, line: int) -> list[Token]:
        """The tokens of an included file, in one line, without its comments."""
        outer, self.path, self.depth = self.path, path, self.depth + 1
        inner = Reader(self, source, line, stays=True)
        inner.read()
        self.path, self.depth = outer, self.depth - 1
        for token in inner.tokens:
            token.before = " " if token.before else ""
        return inner.tokens


class Reader:
    """Cuts one text into tokens."""

    def __init__(self, work: Preprocessor, text: str, line: int, has_directives: bool = True, stays: bool = False):
        self.work, self.text, self.line = work, text, line
        self.has_directives, self.stays = has_directives, stays
        self.at, self.before, self.comment = 0, "", ""
        self.embedded: tuple[int, ...] = ()
        self.nesting = Nesting()
        self.begins_line = True
        self.tokens: list[Token] = []

    def read(self) -> None:
        """Reads to the end of the text."""
        while self.at < len(self.text):
            if self.begins_line and self.has_directives:
                self.begins_line = False
                if re.compile(r"[ \t]*#").match(self.text, self.at):
                    self.read_directive()
                    continue
                if self.work.is_skipping():
                    self.pass_over("// " + self.rest_of_line())
                    continue
            self.read_piece()

    def rest_of_line(self) -> str:
        """What stands from here to the end of the line."""
        end = self.text.find("\n", self.at)
        return self.text[self.at : end if end >= 0 else len(self.text)]

    def pass_over(self, written: str, read: "str | None" = None) -> None:
        """Goes on behind what was read, with what is written in its place."""
        read = self.rest_of_line() if read is None else read
        self.before += written
        self.at += len(read)
        self.line += 0 if self.stays else read.count("\n")

    def read_directive(self) -> None:
        """A line of the preprocessor, with the lines that it goes on in."""
        end = self.at
        while True:
            newline = self.text.find("\n", end)
            body = self.text[self.at : newline if newline >= 0 else len(self.text)]
            is_open = body.rstrip("\r").endswith("\\") or body.count("/*") > body.count("*/")
            if newline < 0 or not is_open:
                break
            end = newline + 1
        if KEPT.match(body):
            self.pass_over(body, body)
            return
        line, self.comment = self.line, commented(body)
        self.pass_over(self.comment, body)
        joined = re.sub(r"\\\r?\n", " ", body)
        after, self.line = self.line, line
        self.work.directive(without_comments(joined), self)
        self.line = after

    def insert(self, tokens: list[Token]) -> None:
        """Puts the tokens of another file here, in the line that names it."""
        if tokens:
            body = self.comment.removeprefix("// ")
            tokens[0].before = f"{self.before.removesuffix(self.comment)}/* {harmless(body)} */ "
            self.before = ""
            self.tokens += tokens

    def read_piece(self) -> None:
        """One piece: a token, or what stands between tokens."""
        found = PIECE.match(self.text, self.at)
        if not found:
            self.work.notes.add(self.line, BY_HAND, "byte 0x%02x" % ord(self.text[self.at]))
            self.pass_over(self.text[self.at], self.text[self.at])
            return
        kind, spelled = found.lastgroup, found[0]
        for begin, name in UNCLOSED.items():
            if kind == "sign" and self.text.startswith(begin, self.at):
                raise NotUnderstood(self.line, f"{name} has no end")
        if kind in ("blank", "newline", "comment"):
            self.pass_over(spelled, spelled)
            self.begins_line = kind == "newline" or (self.begins_line and kind == "blank")
        elif kind == "embedded":
            self.read_embedded(spelled)
        else:
            self.tokens.append(Token(kind, spelled, self.before, self.line, embedded=self.embedded))
            self.before, self.embedded = "", ()
            self.pass_over("", spelled)

    def read_embedded(self, spelled: str) -> None:
        """Embedded C: what is plain is taken as it is, all else becomes a comment. What it names as a constant is kept."""
        macros_of_c(spelled, self.line, self.work)
        if self.nesting.is_in_block(self.tokens):
            if self.read_statements(spelled):
                return
        elif not spelled.startswith("%%") and not self.stays and self.read_functions(spelled):
            return
        in_front = self.before[self.before.rfind("\n") + 1 :]
        line = self.line
        self.at += len(spelled)
        is_alone = not in_front.strip() and not self.rest_of_line().strip()
        self.at -= len(spelled)
        if spelled.startswith("%%") or is_alone:
            self.pass_over("\n".join("// " + it for it in spelled.split("\n")), spelled)
        else:
            self.pass_over(f"/* {harmless(spelled)} */", spelled)
        self.embedded += (line,)

    def part(self, text: str) -> "Reader":
        """The tokens of a part of embedded C that stands here, with what stands behind them."""
        inner = Reader(self.work, text, self.line, has_directives=False, stays=self.stays)
        inner.read()
        return inner

    def read_statements(self, spelled: str) -> bool:
        """Takes embedded C in a block as statements, if it can be."""
        is_line = spelled.startswith("%%")
        text = spelled[2:] if is_line else spelled[2:-2]
        if not is_cut(text):
            return False
        inner = self.part(text)
        kept = statements_of(inner.tokens, self.work.functions)
        if not kept:
            return False
        kept[0].before, kept[0].embedded = f"{self.before}/* {spelled[:2]} */{kept[0].before or ' '}", self.embedded
        self.tokens += kept
        self.before, self.embedded = inner.before if is_line else f"{inner.before}/* }}% */", ()
        self.pass_over("", spelled)
        return True

    def read_functions(self, spelled: str) -> bool:
        """Takes functions of numbers in embedded C as functions of the program; whether there are any."""
        items = items_of(spelled[2:-2], self.work.macros, self.work.functions)
        at, line = 0, self.line
        for it in items:
            if not it.name:
                continue
            self.work.functions.add(it.name)
            first, end = it.first + 2, it.end + 2
            self.pass_over(commented_parts(spelled[at:first]), spelled[at:first])
            self.work.notes.add(self.line, KNOW, f"C function '{it.name}' is a function of the program here")
            inner = self.part(spelled[first:end])
            inner.tokens[0].before, inner.tokens[0].embedded = self.before + inner.tokens[0].before, self.embedded
            self.tokens += inner.tokens
            self.before, self.embedded = inner.before, ()
            self.pass_over("", spelled[first:end])
            at = end
        if not at:
            return False
        self.pass_over(commented_parts(spelled[at:]), spelled[at:])
        if any(not it.name for it in items):
            self.embedded += (line,)
        return True
