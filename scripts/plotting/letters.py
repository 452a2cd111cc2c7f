"""Texts of a plant and of a program, made safe for a page or a line: printable ASCII, and no markup."""
import re

ODD = re.compile(r"[^ -~]")
MARKUP = {"&": "&amp;", "<": "&lt;", ">": "&gt;", '"': "&quot;", "'": "&#39;"}
SPECIAL = re.compile("[&<>\"']")


def plain(text: str) -> str:
    """A text with \\xNN for each byte that is not printable ASCII."""
    return ODD.sub(lambda it: f"\\x{ord(it[0]):02X}", text)


def escaped(text: str) -> str:
    """A text that may stand in an element of a page, and is no markup there."""
    return SPECIAL.sub(lambda it: MARKUP[it[0]], plain(text))


def word(text: str) -> str:
    """A text as one field of a line."""
    return plain(text).replace(" ", "\\x20")
