"""Reads statements and declarations from tokens. One that is none of SNL here becomes an `Unknown`, and reading goes on."""
from typing import Optional

from porting.constants import literal
from porting.notes import ByHand
from porting.parse_expressions import ExpressionParser
from porting.tree import (
    Action,
    Block,
    Case,
    Declaration,
    Declarator,
    Do,
    Enumeration,
    For,
    If,
    Node,
    Place,
    Plain,
    Return,
    Switch,
    Unknown,
    Values,
    While,
)
from porting.variables import Kind, Owner, Type, Variable


# Words in front of a name that begin no declaration.
STATEMENTS = frozenset({"goto", "case", "else", "state", "when", "return"})


class StatementParser(ExpressionParser):
    """Readers of statements and declarations."""

    def unknown(self, first: int, place: Place, why: str) -> Unknown:
        """What is not understood, up to the semicolon or the block that ends it."""
        self.skip(first)
        if self.tokens[first].spelled == "do" and self.word_is("while"):
            self.skip(self.at)
        if self.at == first:
            self.step()
        return Unknown(first, self.at, place, why)

    def skip(self, first: int) -> None:
        """Goes behind the `;` or the block that ends what begins at a token, but not out of the block that it is in."""
        self.at, depth = first, 0
        goes_on = self.word_is("enum", "struct", "union", "typedef")
        while self.token().kind != "end":
            if self.next_is(")", "]", "}"):
                if depth == 0:
                    return
                depth -= 1
            depth += self.next_is("(", "[", "{")
            is_block_end = depth == 0 and self.next_is("}") and not goes_on and not self.next_is(";", ",", ahead=1)
            is_end = depth == 0 and self.next_is(";")
            self.step()
            if is_end or is_block_end:
                return

    def block(self, owner: Owner = Owner.BLOCK) -> Block:
        """A block in braces."""
        first, items = self.at, []
        self.expect("{")
        while not self.passes("}"):
            if self.token().kind == "end":
                raise ByHand("a block has no end")
            items.append(self.statement(owner))
        return Block(first, self.at, items)

    def statement(self, owner: Owner) -> Node:
        """A statement or a declaration."""
        first = self.at
        try:
            return self.readable_statement(owner)
        except ByHand as cause:
            # A name behind a name: a variable of a type that SNL has not.
            words = self.tokens[first : first + 2]
            is_declared = all(it.kind == "name" for it in words) and words[0].spelled not in STATEMENTS
            return self.unknown(first, Place.DECLARATION if is_declared else Place.STATEMENT, str(cause))

    def readable_statement(self, owner: Owner) -> Node:
        """A statement that is one of SNL."""
        first = self.at
        if self.next_is("{"):
            return self.block(owner)
        if self.passes(";"):
            return Plain(first, self.at, "")
        if self.is_enumeration():
            return self.enumeration()
        if self.is_type():
            return self.declaration(owner)
        readers = {"if": self.branch, "while": self.loop, "for": self.counted_loop, "return": self.return_}
        reader = readers.get(self.token().spelled) if self.token().kind == "name" else None
        if self.word_is("do") and (self.next_is("{", ahead=1) or self.token(1).kind == "name"):
            reader = self.do_loop
        if self.word_is("switch") and self.next_is("(", ahead=1):
            reader = self.switch
        if reader:
            return reader(owner)
        if self.is_jump():
            while not self.passes(";"):
                self.step()
            return Plain(first, self.at, self.tokens[first].spelled)
        self.refuse_c()
        expression = self.expression()
        self.expect(";")
        return Action(first, self.at, expression)

    def is_jump(self) -> bool:
        """Whether `break;`, `continue;` or `state NAME;` stands here."""
        return (self.word_is("break", "continue") and self.next_is(";", ahead=1)) or (
            self.word_is("state") and self.token(1).kind == "name" and self.next_is(";", ahead=2)
        )

    def refuse_c(self) -> None:
        """Refuses statements of C that SNL has not: each of their words may be a name, too."""
        word = self.token().spelled
        is_one = (
            (word in ("goto", "case") and self.token(1).kind in ("name", "number", "character"))
            or (self.token().kind == "name" and self.next_is(":", ahead=1))
        )
        if is_one:
            raise ByHand(f"'{word}'")

    def branch(self, owner: Owner) -> Node:
        """`if`, perhaps with `else`."""
        first, no = self.at, None
        self.step()
        self.expect("(")
        condition = self.expression()
        self.expect(")")
        yes = self.statement(owner)
        if self.word_is("else"):
            self.step()
            no = self.statement(owner)
        return If(first, self.at, condition, yes, no)

    def loop(self, owner: Owner) -> Node:
        """`while`."""
        first = self.at
        self.step()
        self.expect("(")
        condition = self.expression()
        self.expect(")")
        body = self.statement(owner)
        return While(first, self.at, condition, body)

    def do_loop(self, owner: Owner) -> Node:
        """`do`."""
        first = self.at
        self.step()
        body = self.statement(owner)
        if not self.word_is("while"):
            raise ByHand("'do' without 'while'")
        self.step()
        self.expect("(")
        condition = self.expression()
        self.expect(")")
        self.expect(";")
        return Do(first, self.at, body, condition)

    def switch(self, owner: Owner) -> Node:
        """`switch`, with its cases."""
        first, sections = self.at, []
        self.step()
        self.expect("(")
        value = self.expression()
        self.expect(")")
        self.expect("{")
        while not self.passes("}"):
            sections.append(self.case(owner))
        return Switch(first, self.at, value, sections)

    def case(self, owner: Owner) -> Case:
        """The labels of a `switch` that stand together, and the statements behind them."""
        first, labels, items = self.at, [], []
        while self.word_is("case", "default"):
            is_default = self.step().spelled == "default"
            labels.append(None if is_default else self.conditional())
            self.expect(":")
        if not labels:
            raise ByHand("'switch' with a statement in front of its cases")
        label_end = self.at
        while not self.next_is("}") and not self.word_is("case", "default"):
            if self.token().kind == "end":
                raise ByHand("a 'switch' has no end")
            items.append(self.statement(owner))
        return Case(first, self.at, labels, label_end, items)

    def counted_loop(self, owner: Owner) -> Node:
        """`for`."""
        first, head = self.at, []
        self.step()
        self.expect("(")
        for end in (";", ";", ")"):
            head.append(None if self.next_is(end) else self.expression())
            self.expect(end)
        body = self.statement(owner)
        return For(first, self.at, head, body)

    def return_(self, _owner: Owner) -> Node:
        """`return`, perhaps with a value."""
        first = self.at
        self.step()
        value = None if self.next_is(";") else self.expression()
        self.expect(";")
        return Return(first, self.at, value)

    def declaration(self, owner: Owner) -> Declaration:
        """Variables of one type."""
        first = self.at
        self.at += self.word_is("typename")
        type_, type_end = self.type(), self.at
        declarators = [self.declarator(type_, owner)]
        while self.passes(","):
            declarators.append(self.declarator(type_, owner))
        self.expect(";")
        return Declaration(first, self.at, type_end, declarators)

    def declarator(self, type_: Type, owner: Owner) -> Declarator:
        """A variable, with its dimensions and its first value."""
        first, stars = self.at, 0
        while self.next_is("*") or (self.word_is("const") and self.token(1).kind == "name"):
            stars += self.step().spelled == "*"
        line, name, dimensions = self.token().line, self.name(), []
        while self.passes("["):
            dimensions.append(None if self.next_is("]") else self.expression())
            self.expect("]")
        first_value = self.first_value() if self.passes("=") else None
        if dimensions and dimensions[0] is None and isinstance(first_value, Values):
            dimensions[0] = len(first_value.items)
        variable = Variable(name, kind_behind(type_, stars), type_.spelled, dimensions, line, owner)
        return Declarator(first, self.at, variable, first_value)

    def is_enumeration(self) -> bool:
        """Whether an enumeration with its names stands here."""
        return self.word_is("enum") and (self.next_is("{", ahead=1) or self.next_is("{", ahead=2))

    def enumeration(self) -> Enumeration:
        """An enumeration that names constants, and declares nothing."""
        first, items, value = self.at, [], -1
        self.step()
        if not self.next_is("{"):
            self.step()
        self.expect("{")
        while not self.passes("}"):
            name, value = self.name(), value + 1
            value = self.enumerated(value)
            items.append((name, value))
            if not self.next_is("}"):
                self.expect(",")
        if self.token().kind == "name":
            raise ByHand("variable of an enumeration")
        self.expect(";")
        return Enumeration(first, self.at, "names of the enumeration are written out", items)

    def enumerated(self, following: int) -> int:
        """The value behind a name of an enumeration, or the following one."""
        if not self.passes("="):
            return following
        sign: Optional[int] = -1 if self.passes("-") else 1
        number, is_real = literal(self.token().spelled) if self.token().kind == "number" else (None, True)
        if is_real:
            raise ByHand(f"'{self.token().spelled}' in an enumeration")
        self.step()
        return sign * int(number)


def kind_behind(type_: Type, stars: int) -> Kind:
    """The kind of a variable that has stars in front of its name."""
    if not stars:
        return type_.kind
    return Kind.TEXT if type_.spelled == "char" and stars == 1 else Kind.UNKNOWN
