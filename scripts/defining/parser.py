"""Reads the tokens of a clause: the patterns of its arguments, and the term that it gives."""
import re

from defining.library import SIGNS
from defining.sources import NotUnderstood
from defining.terms import (
    Anything, Applied, Bound, Cases, Fields, FirstAndRest,
    If, Joined, Lambda, Let, Made, NewRecord, NoItem, Number, Parts, Text, Word,
)
from defining.tokens import Projection, codes_of, tokens_of

# Words and signs at which a row of arguments ends.
ENDS = {")", "[", "]", "{", "}", ";", ",", "then", "else", "in", "|", "↦", "=", "of", "←"}
NAME = re.compile(r"[^\W\d][\w'-]*(?:ℤ|β)?$|_$")


class Parser:
    """A parser of the tokens of one clause; it is told which words are constructors."""

    def __init__(self, tokens, is_constructor):
        """At the first of some tokens."""
        self.tokens, self.at, self.is_constructor = tokens, 0, is_constructor

    def next(self):
        """The token that comes, or None at the end."""
        return self.tokens[self.at] if self.at < len(self.tokens) else None

    def take(self, wanted=None):
        """Goes past the token that comes, which has to be this one if one is given."""
        token = self.next()
        if token is None or wanted is not None and token != wanted:
            near = " ".join(map(str, self.tokens[max(0, self.at - 8) : self.at + 4]))
            raise NotUnderstood(f"{wanted or 'more'} has to stand where {token} stands, near {near}")
        self.at += 1
        return token

    def ended(self, tree):
        """A tree that has to be all that there is."""
        if self.next() is not None:
            raise NotUnderstood(f"nothing may follow, and {self.next()} stands there")
        return tree

    # ---- patterns

    def small_pattern(self):
        """A pattern that stands as an argument: a name, a constructor alone, or one in brackets."""
        word = self.take()
        if word == "(":
            parts = [self.pattern()]
            while self.next() == ",":
                self.take()
                parts.append(self.pattern())
            self.take(")")
            return parts[0] if len(parts) == 1 else Parts(parts)
        if word == "[]":
            return NoItem()
        if word == "_":
            return Anything()
        if not isinstance(word, str) or word in ENDS or word.isdigit() or word in SIGNS:
            raise NotUnderstood(f"{word} is no pattern")
        return Made(word, []) if self.is_constructor(word) else Bound(self.name(word))

    def name(self, word):
        """A word that names what stands there."""
        if not isinstance(word, str) or not NAME.match(word):
            raise NotUnderstood(f"{word} is no name, and no constructor that is known here")
        return word

    def pattern(self):
        """A pattern, also of a list with its first item, or of a constructor with arguments."""
        word = self.next()
        if isinstance(word, str) and word not in ("(", "[]", "_") and self.is_constructor(word):
            self.take()
            arguments = []
            while self.next() not in (None, ")", ",", "∷", "↦", "|"):
                arguments.append(self.small_pattern())
            front = Made(word, arguments)
        else:
            front = self.small_pattern()
        if self.next() != "∷":
            return front
        self.take()
        return FirstAndRest(front, self.pattern())

    # ---- terms

    def term(self, least=0):
        """A term of signs that hold at least as tightly as this level."""
        left = self.operand()
        while isinstance(self.next(), str) and self.next() in SIGNS and SIGNS[self.next()][0] >= least:
            sign = self.take()
            level, side, _ = SIGNS[sign]
            right = self.term(level if side == "right" else level + 1)
            if side == "none" and self.next() == sign:
                raise NotUnderstood(f"{sign} does not group")
            left = Joined(sign, left, right)
        return left

    def operand(self):
        """A term without signs between its parts."""
        forms = {"λ": self.function, "let": self.let, "if": self.choice, "elim": self.cases}
        word = self.next()
        if isinstance(word, str) and word in forms:
            return forms[word]()
        head, arguments = self.small_term(), []
        while self.next() is not None and self.begins_an_argument(self.next()):
            arguments.append(self.function() if self.next() == "λ" else self.small_term())
        return Applied(head, arguments) if arguments else head

    def begins_an_argument(self, token):
        """Whether a token begins a further argument."""
        return isinstance(token, str) and (token in ("(", "[]", "record") or token not in SIGNS and token not in ENDS)

    def function(self):
        """`λ a (b : T) _. body`"""
        self.take("λ")
        names = []
        while True:
            word = self.take()
            if word == "(":
                names.append(self.name(self.take()))
                while self.take() != ")":
                    pass
            elif word != ".":
                names.append(self.name(word.removesuffix(".")))
            if isinstance(word, str) and word.endswith("."):
                return Lambda(names, self.term())

    def let(self):
        """`let name = value in body`"""
        self.take("let")
        name = self.name(self.take())
        self.take("=")
        value = self.term()
        self.take("in")
        return Let(name, value, self.term())

    def choice(self):
        """`if condition then yes else no`"""
        self.take("if")
        condition = self.term()
        self.take("then")
        yes = self.term()
        self.take("else")
        return If(condition, yes, self.term())

    def cases(self):
        """`elim term [ pattern ↦ body | .. ]`"""
        self.take("elim")
        term, cases = self.small_term(), []
        self.take("[")
        while not cases or self.next() == "|":
            if cases:
                self.take("|")
            pattern = self.pattern()
            self.take("↦")
            cases.append((pattern, self.term()))
        self.take("]")
        return Cases(term, cases)

    def small_term(self):
        """A term that stands as an argument."""
        word = self.take()
        if word == "(":
            return self.in_brackets()
        if word == "[]":
            return NoItem()
        if word == "record":
            return self.record()
        if not isinstance(word, str) or word in ENDS or word in SIGNS:
            raise NotUnderstood(f"{word} begins no term")
        if word[0] == '"':
            return Text(codes_of(word))
        return Number(int(word)) if word.isdigit() else Word(word)

    def in_brackets(self):
        """A term in brackets, or the parts of a pair; fields of it may be taken."""
        parts = [self.term()]
        while self.next() == ",":
            self.take()
            parts.append(self.term())
        self.take(")")
        return self.with_fields(parts[0] if len(parts) == 1 else Parts(parts))

    def with_fields(self, term):
        """A term, or what fields of it are."""
        return Fields(term, self.take().fields) if isinstance(self.next(), Projection) else term

    def record(self):
        """The fields of a new record, with the record in front that it is made of."""
        base = None if self.next() == "{" else self.small_term()
        self.take("{")
        fields = []
        while self.next() != "}":
            name = self.name(self.take())
            self.take("=")
            fields.append((name, self.term()))
            if self.next() != "}":
                self.take(";")
        self.take("}")
        return NewRecord(base, fields)


def clause_of(definition, clause, is_constructor):
    """The patterns of a clause of a definition, and its term."""
    text, *steps = re.split(r"\bdo *\n", clause.text.replace("Unit {0}", "Unit"))
    if len(steps) > 1:
        raise NotUnderstood("a clause may have one do")
    tokens = tokens_of(text)
    at = equals_in(tokens)
    patterns = patterns_of(definition, Parser(tokens[:at], is_constructor))
    if not steps:
        right = Parser(tokens[at + 1 :], is_constructor)
        return patterns, right.ended(right.term())
    if tokens[at + 1 :]:
        raise NotUnderstood("a do stands alone behind the =")
    return patterns, in_steps([it for it in steps[0].split("\n") if it.strip()], is_constructor)


def equals_in(tokens):
    """Where the = stands that parts a clause."""
    depth = 0
    for at, token in enumerate(tokens):
        if token == "=" and not depth:
            return at
        depth += {"(": 1, "{": 1, ")": -1, "}": -1}.get(token, 0) if isinstance(token, str) else 0
    raise NotUnderstood("a clause has to have a =")


def patterns_of(definition, left):
    """The patterns in front of the =: behind the name of the definition, or on both sides of its sign."""
    patterns = []
    if definition.name.startswith("◌"):
        patterns.append(left.small_pattern())
        left.take(definition.name.strip("◌"))
    else:
        left.take(definition.name)
    while left.next() is not None:
        patterns.append(left.small_pattern())
    return patterns


def in_steps(lines, is_constructor):
    """The term of a `do`: a line `name ← term` hands what the term gives on to the lines below it, by `>>=`."""
    parser = Parser(tokens_of(lines[0]), is_constructor)
    if len(lines) == 1:
        return parser.ended(parser.term())
    name = parser.name(parser.take())
    parser.take("←")
    return Joined(">>=", parser.ended(parser.term()), Lambda([name], in_steps(lines[1:], is_constructor)))
