"""The tokens of a clause.

A word goes on to the next blank, bracket or semicolon: `n+n` is one word. Commas at its end are tokens of their own. A point right behind a
closing bracket begins a Projection, as in `(f x).0`."""
import re
from dataclasses import dataclass

TOKEN = re.compile(r'"(?:[^"\\]|\\.)*"|\[\]|[()\[\]{};]|[^\s()\[\]{};"]+')
ESCAPES = {"n": 10, "t": 9, "r": 13, "0": 0}


@dataclass
class Projection:
    """Fields that are taken of what stands in front."""

    fields: list


def tokens_of(text):
    """The tokens of a text: brackets, words, texts in quotes, commas and projections."""
    found, end = [], -1
    for match in TOKEN.finditer(text):
        word, behind = match[0], match.start() == end and found[-1:] == [")"]
        end = match.end()
        plain = word if word[0] == '"' else word.rstrip(",")
        if behind and plain.startswith(".") and len(plain) > 1:
            found.append(Projection(plain[1:].split(".")))
        elif plain:
            found.append(plain)
        found += [","] * (len(word) - len(plain))
    return found


def codes_of(text):
    """The numbers of the letters of a text in quotes."""
    codes, at, text = [], 0, text[1:-1]
    while at < len(text):
        if text[at] == "\\":
            at += 1
            codes.append(ESCAPES.get(text[at], ord(text[at])))
        else:
            codes.append(ord(text[at]))
        at += 1
    return codes
