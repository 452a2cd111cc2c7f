"""Macros in the names of channels: those of a program, those of a call, and what becomes of a name."""
import re

HEAD = re.compile(r'\bprogram\s+\w+\s*\(\s*((?:"(?:[^"\\\n]|\\.)*"\s*)+)\)')
TEXT = re.compile(r'"((?:[^"\\\n]|\\.)*)"')
COMMENT = re.compile(r'"(?:[^"\\\n]|\\.)*"|/\*.*?\*/|//[^\n]*', re.DOTALL)


def without_comments(source: str) -> str:
    """A source with a blank for each comment, and with its texts."""
    return COMMENT.sub(lambda it: it[0] if it[0].startswith('"') else " ", source)


def own_macros(source: str) -> str:
    """The text of the macros that a program has behind its name."""
    head = HEAD.search(without_comments(source))
    return "".join(TEXT.findall(head[1])) if head else ""


def macros_of(text: str) -> dict:
    """The value of each macro that a text defines; of one name the last counts."""
    found = {}
    for piece in text.split(","):
        name, sign, value = piece.partition("=")
        name = name.strip(" \t\r\n\f\v")
        if sign and re.fullmatch(r"[A-Za-z0-9_]+", name):
            found[name] = value.strip(" \t\r\n\f\v")
    return found


def filled(spelled: str, texts: dict) -> str:
    """A name with the values of its macros. A value is not searched again, and a macro without one stands for nothing."""
    return re.sub(r"\{([^}]*)\}", lambda it: texts.get(it[1], ""), spelled)
