"""Reads expressions and types of C and SNL from tokens."""
from porting.notes import ByHand
from porting.tokens import Token
from porting.tree import (
    Assignment,
    Binary,
    Call,
    Cast,
    Character,
    Comma,
    Conditional,
    Element,
    Expression,
    Member,
    Name,
    Number,
    Parentheses,
    Postfix,
    Prefix,
    SizeOf,
    Text,
    Values,
)
from porting.variables import Kind, Type
from porting.words import QUANTITY_TYPES, SOFT_TYPES, TIMES, TYPES

LEVELS = (
    ("||",),
    ("&&",),
    ("|",),
    ("^",),
    ("&",),
    ("==", "!="),
    ("<", "<=", ">", ">="),
    ("<<", ">>"),
    ("+", "-"),
    ("*", "/", "%"),
)
# How tightly a value is held together: a comma, an assignment, a conditional, signs between two values, a prefix, all else.
COMMA, ASSIGNMENT, CONDITIONAL, PREFIX, WHOLE = 1, 2, 3, 14, 15
TIGHTNESS = {sign: 4 + level for level, signs in enumerate(LEVELS) for sign in signs}
ASSIGNMENTS = frozenset({"=", "+=", "-=", "*=", "/=", "%=", "&=", "|=", "^=", "<<=", ">>="})
PREFIXES = frozenset({"+", "-", "!", "~", "++", "--", "*", "&"})


class ExpressionParser:
    """A place among tokens, and readers of expressions from there."""

    def __init__(self, tokens: list[Token]):
        self.tokens, self.at = tokens, 0

    def token(self, ahead: int = 0) -> Token:
        """The token here, or some tokens ahead."""
        return self.tokens[min(self.at + ahead, len(self.tokens) - 1)]

    def next_is(self, *signs: str, ahead: int = 0) -> bool:
        """Whether one of those signs stands here."""
        token = self.token(ahead)
        return token.kind == "sign" and token.spelled in signs

    def word_is(self, *words: str, ahead: int = 0) -> bool:
        """Whether one of those words stands here."""
        token = self.token(ahead)
        return token.kind == "name" and token.spelled in words

    def step(self) -> Token:
        """Passes over a token, which is not the end."""
        token = self.token()
        self.at += token.kind != "end"
        return token

    def passes(self, sign: str) -> bool:
        """Passes over a sign, if it stands here."""
        found = self.next_is(sign)
        self.at += found
        return found

    def expect(self, sign: str) -> None:
        """Passes over a sign that has to stand here."""
        if not self.passes(sign):
            raise ByHand(f"'{self.token().spelled}' instead of '{sign}'")

    def name(self) -> str:
        """Passes over a name."""
        if self.token().kind != "name":
            raise ByHand(f"'{self.token().spelled}' instead of a name")
        return self.step().spelled

    def expression(self) -> Expression:
        """An expression, with commas."""
        first, items = self.at, [self.assignment()]
        while self.passes(","):
            items.append(self.assignment())
        return items[0] if len(items) == 1 else Comma(first, self.at, items)

    def assignment(self) -> Expression:
        """An expression without commas of its own."""
        first, left = self.at, self.conditional()
        if self.next_is(*ASSIGNMENTS):
            sign, right = self.step().spelled, self.assignment()
            return Assignment(first, self.at, sign, left, right)
        return left

    def conditional(self) -> Expression:
        """An expression without assignments of its own."""
        first, condition = self.at, self.binary(4)
        if not self.passes("?"):
            return condition
        yes = self.expression()
        self.expect(":")
        no = self.conditional()
        return Conditional(first, self.at, condition, yes, no)

    def binary(self, least: int) -> Expression:
        """An expression whose signs are at least that tight."""
        first, left = self.at, self.prefixed()
        while True:
            tightness = TIGHTNESS.get(self.token().spelled) if self.token().kind == "sign" else None
            if tightness is None or tightness < least:
                return left
            sign = self.step().spelled
            right = self.binary(tightness + 1)
            left = Binary(first, self.at, sign, left, right)

    def prefixed(self) -> Expression:
        """An expression with what stands in front of it."""
        first = self.at
        if self.next_is(*PREFIXES):
            sign, operand = self.step().spelled, self.prefixed()
            return Prefix(first, self.at, sign, operand)
        if self.next_is("(") and self.is_type(1):
            self.step()
            type_ = self.type()
            while self.passes("*"):
                type_ = Type(Kind.UNKNOWN, "pointer")
            self.expect(")")
            operand = self.prefixed()
            return Cast(first, self.at, type_, operand)
        if self.word_is("sizeof"):
            return self.size_of()
        return self.postfixed()

    def size_of(self) -> Expression:
        """`sizeof` of a type or of an expression."""
        first = self.at
        self.step()
        if not self.next_is("("):
            operand = self.prefixed()
            return SizeOf(first, self.at, None, operand)
        self.expect("(")
        if self.is_type():
            type_, operand = self.type(), None
        else:
            type_, operand = None, self.expression()
        self.expect(")")
        return SizeOf(first, self.at, type_, operand)

    def postfixed(self) -> Expression:
        """An expression with what stands behind it."""
        first, found = self.at, self.primary()
        while True:
            if self.passes("["):
                subscript = self.expression()
                self.expect("]")
                found = Element(first, self.at, found, subscript)
            elif self.next_is(".", "->"):
                sign, member = self.step().spelled, self.name()
                found = Member(first, self.at, found, sign, member)
            elif self.next_is("++", "--"):
                sign = self.step().spelled
                found = Postfix(first, self.at, sign, found)
            else:
                return found

    def primary(self) -> Expression:
        """A constant, a name, a call, or an expression in parentheses."""
        first, token = self.at, self.token()
        if token.kind == "number":
            return Number(first, self.at + 1, self.step().spelled)
        if token.kind == "character":
            return Character(first, self.at + 1, self.step().spelled)
        if token.kind == "text":
            return self.text()
        if self.passes("("):
            inner = self.expression()
            self.expect(")")
            return Parentheses(first, self.at, inner)
        name = self.name()
        if self.passes("("):
            arguments = self.listed(")")
            return Call(first, self.at, name, arguments)
        return Name(first, self.at, name)

    def text(self) -> Text:
        """One string or several in a row."""
        first, spelled = self.at, ""
        while self.token().kind == "text":
            spelled += self.step().spelled[1:-1]
        if self.at == first:
            raise ByHand(f"'{self.token().spelled}' instead of a text")
        return Text(first, self.at, spelled)

    def listed(self, end: str) -> list[Expression]:
        """Expressions with commas between them, up to a sign."""
        items: list[Expression] = []
        while not self.passes(end):
            if items:
                self.expect(",")
            items.append(self.assignment())
        return items

    def first_value(self) -> Expression:
        """The first value of a variable: an expression, or a list in braces."""
        first, items = self.at, []
        if not self.passes("{"):
            return self.assignment()
        while not self.passes("}"):
            items.append(self.first_value())
            if not self.next_is("}"):
                self.expect(",")
        return Values(first, self.at, items)

    def is_type(self, ahead: int = 0) -> bool:
        """Whether a word of a type stands here."""
        if self.word_is(*TYPES, ahead=ahead):
            return True
        return self.word_is(*SOFT_TYPES, ahead=ahead) and self.token(ahead + 1).kind == "name"

    def type(self) -> Type:
        """A type, with all its words."""
        words = []
        while self.is_type():
            word = self.step().spelled
            if word == "struct":
                return Type(Kind.STRUCTURE, self.name())
            if word == "enum":
                self.name()
                word = "int"
            if word == "bool":
                word = "int"
            if word in TIMES:
                word = "long"
            if word not in SOFT_TYPES:
                words.append(word)
        spelled = " ".join(words) or "int"
        if words and words[-1] in QUANTITY_TYPES:
            return Type(Kind.QUANTITY, spelled)
        kinds = {"string": Kind.TEXT, "void": Kind.NOTHING}
        return Type(kinds.get(spelled, Kind.WHOLE), spelled)
