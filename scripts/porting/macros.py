"""Macros of the preprocessor: constants that embedded C names, and tokens with all macros written out."""
import re
from dataclasses import dataclass
from typing import Iterator, Optional

from porting.constants import literal
from porting.notes import ByHand, NotUnderstood
from porting.tokens import Token

DEFINE = re.compile(r"^[ \t%{]*#[ \t]*define[ \t]+(\w+)[ \t]+(\(?-?[.\d][\w.+-]*\)?)[ \t]*(?:/[/*].*)?$", re.MULTILINE)
ENUMERATION = re.compile(r"\benum\b\s*\w*\s*\{([^}]*)\}")
CONSTANT = re.compile(r"\bconst\s+(?:int|long|short|double|float)\s+(\w+)\s*=\s*(-?[\d.]+(?:[eE]-?\d+)?)\s*;")
COMMENT = re.compile(r"/\*.*?\*/|//[^\n]*", re.DOTALL)
# The tokens at most that a program has with all macros written out: more do not fit into what `snc` reads.
MOST_TOKENS = 1 << 19
SHOWN = frozenset({"(", ")", "-", "+", "*", "/", "<<"})


@dataclass
class Macro:
    """A macro: its parameters, or None where it has no brackets, and the tokens that it stands for."""

    parameters: Optional[list[str]]
    body: list[Token]
    line: int
    # Whether embedded C names it, and whether the program does.
    is_of_c: bool = False
    used: bool = False


def macros_of_c(text: str, line: int, work) -> None:
    """Keeps the constants and enumerations of a piece of embedded C as macros."""

    def keep(name: str, value: str, at: int) -> None:
        """Keeps one constant."""
        line_of_it = line + text.count("\n", 0, at)
        work.macros[name] = Macro(None, work.cut(value, line_of_it), line_of_it, is_of_c=True)

    for found in [*DEFINE.finditer(text), *CONSTANT.finditer(text)]:
        keep(found[1], found[2], found.start())
    for found in ENUMERATION.finditer(text):
        for name, value in enumerated(found[1]):
            keep(name, str(value), found.start())


def enumerated(text: str) -> Iterator[tuple[str, int]]:
    """The names of an enumeration with their values, up to the first that is no plain number."""
    value = -1
    for item in COMMENT.sub(" ", text).split(","):
        found = re.fullmatch(r"([A-Za-z_]\w*)(?:\s*=\s*(-?)(\w+))?", item.strip())
        if not found:
            return
        value += 1
        if found[3]:
            try:
                value = int(literal(found[3])[0]) * (-1 if found[2] else 1)
            except ByHand:
                return
        yield found[1], value


def written_out(tokens: list[Token], macros: dict[str, Macro]) -> list[Token]:
    """The tokens with each macro replaced, as C does it: what a macro became is searched again, but not for itself."""
    done: list[Token] = []
    waiting = list(reversed(tokens))
    while waiting:
        token = waiting.pop()
        macro = macros.get(token.spelled) if token.kind == "name" else None
        if macro is None or token.spelled in token.hidden:
            done.append(token)
        elif macro.parameters is not None and not (waiting and waiting[-1].is_sign("(")):
            done.append(token)
        else:
            macro.used = True
            if len(done) + len(waiting) > MOST_TOKENS:
                raise NotUnderstood(token.line, f"macros make more than {MOST_TOKENS} tokens of it")
            put_back(replaced(token, macro, waiting), token, waiting)
    return done


def replaced(token: Token, macro: Macro, waiting: list[Token]) -> list[Token]:
    """What stands for a macro, with the arguments that are taken from the waiting tokens."""
    if macro.parameters is None:
        made = [it.copy(token.line, it.before) for it in macro.body]
        is_shown = all(it.kind in ("number", "text", "character") or it.spelled in SHOWN for it in made)
        behind = (f" /*{token.spelled}*/" if is_shown else "") + token.behind
    else:
        arguments, behind = arguments_of(waiting)
        names, arguments = with_rest(macro.parameters, arguments, token.line)
        made = []
        for part in macro.body:
            if part.kind == "name" and part.spelled in names[: len(arguments)]:
                made += placed(arguments[names.index(part.spelled)], part, token.line)
            else:
                made.append(part.copy(token.line, part.before))
    if made:
        made[-1].behind += behind
    return made


def with_rest(names: list[str], arguments: list[list[Token]], line: int) -> tuple[list[str], list[list[Token]]]:
    """The parameters of a macro and its arguments; all of them that `...` stands for are one, with commas."""
    if not names or not names[-1].endswith("..."):
        return names, arguments
    count, rest = len(names) - 1, []
    for argument in arguments[count:]:
        rest += ([Token("sign", ",", "", line)] if rest else []) + argument
    return [*names[:count], names[-1][:-3].strip() or "__VA_ARGS__"], [*arguments[:count], rest]


def placed(argument: list[Token], part: Token, line: int) -> list[Token]:
    """The tokens of an argument in the place of a parameter."""
    made = []
    for number, token in enumerate(argument):
        made.append(token.copy(line, in_one_line(token.before) if number else part.before))
        made[-1].behind = token.behind
    return made


def in_one_line(text: str) -> str:
    """What stands between tokens, without line ends and comments that go to one."""
    return re.sub(r"//[^\n]*", "", text).replace("\r", "").replace("\n", " ")


def arguments_of(waiting: list[Token]) -> tuple[list[list[Token]], str]:
    """The arguments of a macro, taken from the waiting tokens, and the comment behind the bracket that ends them.
    Line ends among them go behind the macro, so that all other lines stay."""
    lines = waiting.pop().before.count("\n")
    arguments: list[list[Token]] = [[]]
    depth = 0
    while waiting:
        token = waiting.pop()
        lines += token.before.count("\n")
        is_sign = token.kind == "sign"
        if depth == 0 and is_sign and token.spelled == ")":
            if waiting:
                waiting[-1].before = "\n" * lines + waiting[-1].before
            return arguments, token.behind
        if depth == 0 and is_sign and token.spelled == ",":
            arguments.append([])
            continue
        depth += (is_sign and token.spelled in "([{") - (is_sign and token.spelled in ")]}")
        arguments[-1].append(token)
    return arguments, ""


def put_back(made: list[Token], token: Token, waiting: list[Token]) -> None:
    """Puts what stands for a macro in front of the waiting tokens, in the place of its name."""
    if not made:
        if waiting:
            waiting[-1].before = token.before + waiting[-1].before
            waiting[-1].embedded = token.embedded + waiting[-1].embedded
        return
    made[0].before = token.before
    made[0].embedded = token.embedded
    for it in made:
        it.hidden = it.hidden | token.hidden | {token.spelled}
    waiting.extend(reversed(made))
