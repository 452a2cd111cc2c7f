"""Embedded C that is plain: functions of numbers, and statements of blocks that SNL has, too. All else of it stays a comment."""
from dataclasses import dataclass
from typing import Iterator

from porting.notes import ByHand, NotUnderstood
from porting.parse_program import ProgramParser
from porting.tokens import PIECE, Token, harmless
from porting.tree import Call, Declarator, Function, Member, Name, Node, Prefix, Unknown, every
from porting.variables import Kind, Owner
from porting.words import ABSOLUTES, CONSTANTS, NEVER, PREDEFINED, PRINTERS, ROUNDERS, TEXT_COMPARISONS, TEXT_COPIES, TEXT_FORMATS

OF_NUMBERS = ABSOLUTES | ROUNDERS | set(NEVER) | {"fmod", "sqrt", "pow", "trunc", "floor", "ceil", "fmin", "fmax"}
OF_TEXTS = TEXT_COPIES | set(TEXT_FORMATS) | TEXT_COMPARISONS | {"strlen", "atoi", "atol"}
# Pieces that mean nothing.
BLANKS = ("blank", "newline", "comment")


@dataclass(frozen=True)
class Item:
    """A part of embedded C that stands in no brackets: its name where it is a function that can be taken, and its place."""

    name: str
    first: int
    end: int


def pieces(text: str) -> Iterator[tuple[Token, int]]:
    """The tokens of a piece of C, each with its place; lines of the preprocessor are none."""
    at, begins_line = 0, True
    while at < len(text):
        found = PIECE.match(text, at)
        kind = found.lastgroup if found else "byte"
        if begins_line and text[at] == "#":
            end = text.find("\n", at)
            at = end if end >= 0 else len(text)
            continue
        if kind not in BLANKS:
            yield Token(kind, found[0] if found else text[at], " ", 1), at
        begins_line = kind == "newline" or (begins_line and kind == "blank")
        at = found.end() if found else at + 1


def is_cut(text: str) -> bool:
    """Whether a piece of C can be cut into tokens: it has no line of the preprocessor, and no comment without an end."""
    at = 0
    while at < len(text):
        found = PIECE.match(text, at)
        if not found or found.lastgroup == "embedded" or text.startswith("/*", at) > (found.lastgroup == "comment"):
            return False
        at = found.end()
    return True


def items_of(text: str, macros: dict, functions: set[str]) -> list[Item]:
    """The parts of a piece of C, in their order; the functions are those that were taken before."""
    items: list[Item] = []
    names = set(functions)
    waiting: list[tuple[Token, int]] = []
    depth = 0
    for token, at in pieces(text):
        waiting.append((token, at))
        depth += (token.spelled in ("{", "(", "[")) - (token.spelled in ("}", ")", "]"))
        is_body_end = token.is_sign("}") and any(it.is_sign("(") for it, _ in waiting)
        if depth <= 0 and (token.is_sign(";") or is_body_end):
            first, end = waiting[0][1], at + len(token.spelled)
            name = function_of([it for it, _ in waiting], names, macros) if is_cut(text[first:end]) else ""
            names.add(name)
            items.append(Item(name, first, end))
            waiting, depth = [], 0
    if waiting:
        items.append(Item("", waiting[0][1], len(text)))
    return items


def function_of(tokens: list[Token], known: set[str], macros: dict) -> str:
    """The name of the function that tokens are, if it is one of numbers that SNL can have; else nothing."""
    parser = ProgramParser([*tokens, Token("end", "", "", 1)])
    try:
        if not parser.is_function() or any(it.spelled == "static" for it in tokens[1:]):
            return ""
        found = parser.function()
    except (ByHand, NotUnderstood, RecursionError):
        return ""
    if not isinstance(found, Function) or parser.token().kind != "end":
        return ""
    is_plain = all(it.variable.kind in (Kind.WHOLE, Kind.QUANTITY) for it in found.parameters)
    own = {it.variable.name for it in every(found) if isinstance(it, Declarator)}
    names = {it.name for it in every(found) if isinstance(it, Name)}
    told = own | set(macros) | set(PREDEFINED) | set(CONSTANTS)
    calls = OF_NUMBERS | set(PRINTERS) | known
    return found.name if is_plain and names <= told and is_readable(found, calls) else ""


def is_readable(node: Node, calls: set[str]) -> bool:
    """Whether a node has nothing that the port leaves by hand, and calls nothing but those."""
    for it in every(node):
        if isinstance(it, (Unknown, Member)) or (isinstance(it, Prefix) and it.sign in ("*", "&")):
            return False
        if isinstance(it, Call) and it.function not in calls:
            return False
    return True


def statements_of(tokens: list[Token], functions: set[str]) -> list[Token]:
    """The tokens of C in a block, if they are statements that SNL has, too; else nothing.

    `pVar->x` is a variable of the program, as the sequencer has it with `+r`. Variables of their own need brackets.
    """
    kept = without_pointer(tokens)
    parser = ProgramParser([*kept, Token("end", "", "", 1)])
    nodes = []
    try:
        while parser.token().kind != "end":
            at = parser.at
            nodes.append(parser.statement(Owner.BLOCK))
            if parser.at == at:
                return []
    except (ByHand, RecursionError):
        return []
    calls = OF_NUMBERS | OF_TEXTS | set(PRINTERS) | functions
    if not nodes or not all(is_readable(it, calls) for it in nodes):
        return []
    if any(isinstance(it, Declarator) for one in nodes for it in one.children()):
        line = kept[0].line
        return [Token("sign", "{", kept[0].before, line), *kept, Token("sign", "}", " ", kept[-1].line)]
    return kept


def without_pointer(tokens: list[Token]) -> list[Token]:
    """Tokens without each `pVar->`."""
    kept: list[Token] = []
    at, before = 0, None
    while at < len(tokens):
        if tokens[at].spelled == "pVar" and at + 1 < len(tokens) and tokens[at + 1].is_sign("->"):
            before = tokens[at].before if before is None else before
            at += 2
            continue
        if before is not None:
            tokens[at].before, before = before, None
        kept.append(tokens[at])
        at += 1
    return kept


def commented_parts(text: str) -> str:
    """Lines of C as comments; the first and the last one may be parts of lines."""
    lines = text.split("\n")
    made = [f"// {it}" if it.strip() else it for it in lines]
    made[-1] = part_of_line(lines[-1])
    if len(lines) == 1:
        return made[0]
    return "\n".join(made)


def part_of_line(text: str) -> str:
    """A part of a line, as a comment that ends in it."""
    kept = text.strip()
    return text.replace(kept, f"/* {harmless(kept)} */") if kept else text


class Nesting:
    """How deep a place is in state sets, states and blocks, by the tokens in front of it."""

    def __init__(self):
        self.read, self.kinds = 0, []

    def is_in_block(self, tokens: list[Token]) -> bool:
        """Whether what stands behind all tokens so far stands in a block."""
        for at in range(self.read, len(tokens)):
            if tokens[at].is_sign("{"):
                word = tokens[at - 2].spelled if at > 1 and tokens[at - 1].kind == "name" else ""
                self.kinds.append(word if word in ("ss", "state") else "block")
            elif tokens[at].is_sign("}") and self.kinds:
                self.kinds.pop()
        self.read = len(tokens)
        return bool(self.kinds) and self.kinds[-1] == "block"
