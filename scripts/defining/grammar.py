"""Reads the tree that the tokens of a source spell.

The forms are those in the comments of the definitions of `snl_syntax`, `Expressions` to `Programs`. Nothing is believed of what is read here:
the definitions are asked whether these tokens spell the tree, and whether it is a program (`checks`)."""
from defining.values import NONE, Record, listed, some

NO_TERMS, NO_ARGUMENTS, NO_STATEMENTS, NO_VALUES = ("no_terms",), ("no_arguments",), ("no_statements",), ("no_values",)
# The levels of operators, by how loosely they hold: the binary ones, assignments, the comma.
BINARY, ASSIGNED, COMMA = range(3, 13), 14, 15
UNARY = 2
WORDS_OF_LEAVING = {"Break": "break_loop", "Continue": "continue_loop"}


class NoTree(Exception):
    """Tokens that spell no program: the number of the first one that cannot stand where it does."""

    def __init__(self, at):
        """By that number; it is the count of tokens where they end too early."""
        super().__init__(f"token {at} cannot stand there")
        self.at = at


class Reader:
    """Reads tokens one after another. It asks what the definitions say of kinds of tokens (`Kinds`, `Declarations`, `Definitions`)."""

    def __init__(self, tokens, ask):
        """At the first token; `ask` calls a definition of `snl_syntax` by its module and name."""
        self.tokens, self.at = tokens, 0
        self.ask = lambda module, name, token: ask(module, name)[token.kind]

    def kind(self, ahead=0):
        """The kind of a token that comes; nothing at the end."""
        at = self.at + ahead
        return self.tokens[at].kind[0] if at < len(self.tokens) else None

    def is_kind(self, module, name):
        """Whether a definition says yes of the kind of the token that comes."""
        return self.at < len(self.tokens) and self.ask(module, name, self.tokens[self.at])

    def looseness(self):
        """How loosely the token that comes holds what stands before it."""
        return self.ask("Kinds", "looseness", self.tokens[self.at]) if self.at < len(self.tokens) else 16

    def take(self, *kinds):
        """The token that comes, which has to be of one of these kinds if some are given."""
        if self.kind() is None or kinds and self.kind() not in kinds:
            raise NoTree(self.at)
        self.at += 1
        return self.tokens[self.at - 1]

    def take_if(self, kind):
        """Whether a token of a kind comes, which is taken then."""
        found = self.kind() == kind
        self.at += found
        return found

    def between(self, opening, read, closing):
        """What is read between two signs."""
        self.take(opening)
        found = read()
        self.take(closing)
        return found

    def maybe(self, is_there, read):
        """What is read where it is there, as an option."""
        return some(read()) if is_there else NONE

    def while_kind(self, test, read):
        """The list of what is read as long as a test holds."""
        found = []
        while test():
            found.append(read())
        return listed(found)

    def parted(self, read):
        """The list of what is read between commas."""
        found = [read()]
        while self.take_if("Comma"):
            found.append(read())
        return listed(found)

    # ---- expressions

    def any(self):
        """expr : asg ( ',' asg )*"""
        return self.chain(COMMA, self.assigned)

    def chain(self, level, read):
        """Operands with the operators of one level between them; one operand alone is no chain."""
        first, terms = read(), []
        while self.looseness() == level:
            terms.append((self.take(), read()))
        rest = NO_TERMS
        for operator, operand in reversed(terms):
            rest = ("term", operator, operand, rest)
        return ("chain", first, rest) if terms else first

    def assigned(self):
        """asg : cond | unary asgop asg"""
        left = self.condition()
        if self.looseness() != ASSIGNED:
            return left
        if not self.is_unary(left):
            raise NoTree(self.at)
        return ("assignment", left, self.take(), self.assigned())

    def is_unary(self, tree):
        """Whether a tree may stand on the left of an assignment."""
        return tree[0] not in ("chain", "conditional", "assignment")

    def condition(self):
        """cond : binary [ '?' expr ':' cond ]"""
        test = self.binary(BINARY[-1])
        if not self.take_if("Question"):
            return test
        yes = self.any()
        self.take("Colon")
        return ("conditional", test, yes, self.condition())

    def binary(self, level):
        """Operands of a level of binary operators."""
        return self.chain(level, lambda: self.binary(level - 1) if level > BINARY[0] else self.unary())

    def unary(self):
        """unary : ( '+' | '-' | '!' | '~' | '++' | '--' ) unary | postfix"""
        if self.is_kind("Kinds", "is_prefix"):
            return ("prefix", self.take(), self.unary())
        place = self.primary()
        return ("postfix", place, self.take()) if self.looseness() == 1 else place

    def primary(self):
        """prim : constant | '(' expr ')' | NAME [ '[' expr ']' ] | NAME '(' [ arg ( ',' arg )* ] ')'"""
        if self.is_kind("Kinds", "is_constant"):
            return ("constant", self.take())
        if self.kind() == "OpenParenthesis":
            return ("parenthesized", self.between("OpenParenthesis", self.any, "CloseParenthesis"))
        name = self.take("Name")
        if self.kind() == "OpenBracket":
            bracket = self.tokens[self.at]
            return ("element", name, bracket, self.between("OpenBracket", self.any, "CloseBracket"))
        if self.kind() == "OpenParenthesis":
            return ("call", name, self.between("OpenParenthesis", self.arguments, "CloseParenthesis"))
        return ("named", name)

    def arguments(self):
        """[ arg ( ',' arg )* ], where arg : asg | STRING"""
        found = []
        while not found and self.kind() != "CloseParenthesis" or found and self.take_if("Comma"):
            found.append(("text", self.take()) if self.kind() == "Text" else ("value", self.assigned()))
        made = NO_ARGUMENTS
        for form, argument in reversed(found):
            made = (form, argument, made)
        return made

    def bracketed(self):
        """'[' expr ']'"""
        return self.between("OpenBracket", self.any, "CloseBracket")

    def in_parentheses(self):
        """'(' expr ')'"""
        return self.between("OpenParenthesis", self.any, "CloseParenthesis")

    # ---- declarations

    def type_name(self):
        """type : a word of a type, and a second after 'unsigned'"""
        if not self.is_kind("Declarations", "starts_declaration"):
            raise NoTree(self.at)
        word = self.take()
        is_second = word.kind[0] == "Unsigned" and self.is_kind("Declarations", "may_be_unsigned")
        return Record(word=word, second=self.maybe(is_second, self.take))

    def declaration(self):
        """decl : type dname ( ',' dname )* ';'"""
        type_name = self.type_name()
        names = self.parted(self.declarator)
        self.take("Semicolon")
        return Record(type_name=type_name, names=names)

    def declarator(self):
        """dname : NAME ( '[' expr ']' )* [ '=' init ]"""
        name = self.take("Name")
        sizes = self.while_kind(lambda: self.kind() == "OpenBracket", self.bracketed)
        return Record(name=name, sizes=sizes, initial=self.maybe(self.take_if("Equal"), self.initialiser))

    def initialiser(self):
        """init : asg | '{' [ values ] '}'"""
        if self.kind() == "OpenBrace":
            return ("listed", self.between("OpenBrace", self.values, "CloseBrace"))
        return ("single", self.assigned())

    def values(self):
        """[ asg ( ',' asg )* [ ',' ] ]"""
        if self.kind() == "CloseBrace":
            return NO_VALUES
        value = self.assigned()
        return ("value_before", value, self.values()) if self.take_if("Comma") else ("last_value", value)

    # ---- statements

    def block(self):
        """block : '{' decl* stmt* '}'"""
        self.take("OpenBrace")
        declared = self.while_kind(lambda: self.is_kind("Declarations", "starts_declaration"), self.declaration)
        statements, made = [], NO_STATEMENTS
        while not self.take_if("CloseBrace"):
            statements.append(self.statement())
        for statement in reversed(statements):
            made = ("statement", statement, made)
        return ("block", declared, made)

    def statement(self):
        """One statement, by the word or the sign with which it begins."""
        forms = {"If": self.choice, "While": self.while_loop, "For": self.for_loop, "State": self.change_state, "Return": self.return_with}
        kind = self.kind()
        if kind in forms:
            return forms[kind]()
        if kind == "OpenBrace":
            return ("nested", self.block())
        if self.take_if("Semicolon"):
            return ("empty",)
        made = (WORDS_OF_LEAVING[kind], self.take()) if kind in WORDS_OF_LEAVING else ("expression", self.any())
        self.take("Semicolon")
        return made

    def choice(self):
        """'if' '(' expr ')' stmt [ 'else' stmt ]: an `else` belongs to the nearest `if`"""
        self.take("If")
        test, yes = self.in_parentheses(), self.statement()
        return ("if_else", test, yes, self.statement()) if self.take_if("Else") else ("if_then", test, yes)

    def while_loop(self):
        """'while' '(' expr ')' stmt"""
        return ("while_loop", self.take("While"), self.in_parentheses(), self.statement())

    def for_loop(self):
        """'for' '(' [ expr ] ';' [ expr ] ';' [ expr ] ')' stmt"""
        word = self.take("For")
        self.take("OpenParenthesis")
        header = Record(start=self.ended("Semicolon"), condition=self.ended("Semicolon"), step=self.ended("CloseParenthesis"))
        return ("for_loop", word, header, self.statement())

    def ended(self, kind):
        """An expression that may be missing, and the sign that ends it."""
        found = self.maybe(self.kind() != kind, self.any)
        self.take(kind)
        return found

    def change_state(self):
        """'state' NAME ';'"""
        made = ("change_state", self.take("State"), self.take("Name"))
        self.take("Semicolon")
        return made

    def return_with(self):
        """'return' [ expr ] ';'"""
        return ("return_with", self.take("Return"), self.ended("Semicolon"))
