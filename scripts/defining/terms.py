"""The trees of clauses: patterns on the left of `=`, terms on the right."""
from dataclasses import dataclass


# ---- patterns
@dataclass
class Anything:
    """`_`"""


@dataclass
class Bound:
    """A name for what stands there."""

    name: str


@dataclass
class NoItem:
    """`[]`, as a pattern and as a term."""


@dataclass
class FirstAndRest:
    """`first ∷ rest`"""

    first: object
    rest: object


@dataclass
class Parts:
    """`(a, b)`, as a pattern and as a term."""

    parts: list


@dataclass
class Made:
    """A constructor with patterns for its arguments."""

    word: str
    arguments: list


# ---- terms
@dataclass
class Number:
    """A whole number."""

    value: int


@dataclass
class Text:
    """A text in quotes, as the numbers of its letters."""

    codes: list


@dataclass
class Word:
    """A word: a name, one behind another name of a path, or one with fields behind it."""

    word: str


@dataclass
class Fields:
    """Fields that are taken of a term in brackets."""

    term: object
    fields: list


@dataclass
class Applied:
    """A function with arguments."""

    function: object
    arguments: list


@dataclass
class Lambda:
    """`λ a b. body`"""

    names: list
    body: object


@dataclass
class Let:
    """`let name = value in body`"""

    name: str
    value: object
    body: object


@dataclass
class If:
    """`if condition then yes else no`"""

    condition: object
    yes: object
    no: object


@dataclass
class Cases:
    """`elim term [ pattern ↦ body | .. ]`"""

    term: object
    cases: list


@dataclass
class Joined:
    """Two terms with a sign between."""

    sign: str
    left: object
    right: object


@dataclass
class NewRecord:
    """`record { name = term; .. }`, or with a record in front `record r { .. }`, which keeps the other fields of that."""

    base: object
    fields: list
