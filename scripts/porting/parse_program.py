"""Reads a whole program from tokens: definitions, functions, state sets, states, clauses."""
from typing import Optional

from porting.notes import ByHand, NotUnderstood
from porting.parse_statements import StatementParser, kind_behind
from porting.tree import (
    Assign,
    Block,
    Clause,
    Declarator,
    EventFlags,
    Expression,
    Function,
    LeftOut,
    Monitor,
    Node,
    Option,
    Place,
    Program,
    State,
    StateSet,
    Stray,
)
from porting.variables import Kind, Owner, Type, Variable
from porting.words import TIMES

MEMBERS = "members become variables NAME_MEMBER"


class ProgramParser(StatementParser):
    """Readers of definitions and of the program. `structures` has the members of each structure."""

    def __init__(self, tokens):
        super().__init__(tokens)
        self.structures: dict[str, list[Variable]] = {}

    def program(self) -> Program:
        """The whole program. What is so wrong that nothing can be made of it is `NotUnderstood`."""
        try:
            return self.whole_program()
        except ByHand as cause:
            raise NotUnderstood(self.token().line, str(cause)) from None

    def whole_program(self) -> Program:
        """The head of the program, and all that stands behind it."""
        definitions = []
        while not self.word_is("program"):
            if self.token().kind == "end":
                raise ByHand("there is no 'program'")
            definitions.append(self.definition(Owner.PROGRAM))
        word, macros, semicolon = self.at, None, None
        self.step()
        self.name()
        if self.passes("("):
            macros = self.text()
            self.expect(")")
        head_end = self.at - 1
        if self.next_is(";"):
            semicolon = self.at
            self.step()
        sets: list[StateSet] = []
        blocks: list[Block] = []
        while self.token().kind != "end":
            self.part(definitions, sets, blocks)
        if not sets:
            raise ByHand("there is no state set")
        return Program(0, self.at, definitions, sets, blocks, word, head_end, semicolon, macros)

    def part(self, definitions: list[Node], sets: list[StateSet], blocks: list[Block]) -> None:
        """One part of the program, into the list of its kind."""
        if self.word_is("ss") and self.token(1).kind == "name":
            sets.append(self.state_set())
        elif self.word_is("entry", "exit") and self.next_is("{", ahead=1):
            self.step()
            blocks.append(self.block())
        else:
            definition = self.definition(Owner.PROGRAM)
            if isinstance(definition, Function):
                definition.is_behind_sets = bool(sets)
            definitions.append(definition)

    def state_set(self) -> StateSet:
        """A state set with its states."""
        first, definitions, states = self.at, [], []
        self.step()
        name = self.name()
        self.expect("{")
        while not self.passes("}"):
            if self.token().kind == "end":
                raise ByHand(f"the state set '{name}' has no end")
            if self.word_is("state"):
                states.append(self.state())
            else:
                definitions.append(self.definition(Owner.SET))
        return StateSet(first, self.at, name, definitions, states)

    def state(self) -> State:
        """A state with its clauses."""
        first, definitions, entries, clauses, exits = self.at, [], [], [], []
        self.step()
        name = self.name()
        self.expect("{")
        while not self.passes("}"):
            if self.token().kind == "end":
                raise ByHand(f"the state '{name}' has no end")
            if self.word_is("entry", "exit"):
                kept = entries if self.step().spelled == "entry" else exits
                kept.append(self.block())
            elif self.word_is("when"):
                clauses.append(self.clause())
            else:
                definitions.append(self.definition(Owner.SET))
        return State(first, self.at, definitions, entries, clauses, exits)

    def clause(self) -> Clause:
        """`when`, its block, and where it leads to."""
        first = self.at
        self.step()
        self.expect("(")
        condition = None if self.next_is(")") else self.expression()
        self.expect(")")
        block = self.block()
        if self.word_is("state"):
            self.step()
        elif not self.word_is("exit"):
            raise ByHand(f"'{self.token().spelled}' instead of 'state' or 'exit'")
        self.name()
        return Clause(first, self.at, condition, block)

    def definition(self, owner: Owner) -> Node:
        """A definition. One that is none of SNL here becomes an `Unknown`."""
        first = self.at
        try:
            return self.readable_definition(owner)
        except ByHand as cause:
            return self.unknown(first, Place.DEFINITION, str(cause))

    def readable_definition(self, owner: Owner) -> Node:
        """A definition that is one of SNL."""
        first = self.at
        if self.passes(";"):
            return Stray(first, self.at)
        if self.word_is("struct") and self.next_is("{", ahead=2):
            return self.structure()
        if self.is_enumeration():
            return self.enumeration()
        if self.is_function():
            return self.function()
        if self.is_type():
            return self.declaration(owner)
        return self.worded_definition()

    def worded_definition(self) -> Node:
        """A definition that begins with a word of its own."""
        word = self.token().spelled
        if self.word_is("option"):
            return self.option()
        if self.word_is("assign"):
            return self.assign()
        if self.word_is("monitor", "sync", "syncQ", "syncq"):
            return self.monitor()
        if self.word_is("evflag"):
            return self.event_flags()
        if self.word_is("typename") and self.word_is(*TIMES, ahead=1):
            return self.declaration(Owner.PROGRAM)
        if self.word_is("foreign", "typename", "declare", "typedef"):
            return self.left_out()
        raise ByHand(f"'{word}'")

    def option(self) -> Option:
        """`option +s;`."""
        first = self.at
        self.step()
        sign = self.step().spelled
        if sign not in "+-":
            raise ByHand("option without a sign")
        letters = self.name()
        self.expect(";")
        return Option(first, self.at, sign, letters)

    def place(self) -> tuple[str, Optional[Expression]]:
        """The variable or the element that a definition is of."""
        name, subscript = self.name(), None
        if self.passes("["):
            subscript = self.expression()
            self.expect("]")
        return name, subscript

    def assign(self) -> Assign:
        """`assign`, with the names of channels."""
        first, channels, is_list = self.at, [], False
        self.step()
        name, subscript = self.place()
        if self.word_is("to"):
            self.step()
        if self.passes("{"):
            is_list = True
            while not self.passes("}"):
                channels.append(self.text())
                if not self.next_is("}"):
                    self.expect(",")
        elif not self.next_is(";"):
            channels.append(self.text())
        self.expect(";")
        return Assign(first, self.at, name, subscript, channels, is_list)

    def monitor(self) -> Monitor:
        """`monitor`, `sync` or `syncQ`: what stands behind the variable is not looked at."""
        first, word = self.at, self.step().spelled
        name, subscript = self.place()
        while not self.passes(";"):
            if self.token().kind == "end" or self.next_is("{", "}", "("):
                raise ByHand(f"'{word}' without ';'")
            self.step()
        return Monitor(first, self.at, word, name, subscript)

    def event_flags(self) -> EventFlags:
        """`evflag`."""
        first = self.at
        self.step()
        names = [self.name()]
        while self.passes(","):
            names.append(self.name())
        self.expect(";")
        return EventFlags(first, self.at, "evflag", names)

    def left_out(self) -> LeftOut:
        """Names and types of C."""
        first = self.at
        self.skip(first)
        return LeftOut(first, self.at, "names and types of C are left out")

    def structure(self) -> LeftOut:
        """A structure, whose members are kept."""
        first = self.at
        self.step()
        name, members = self.name(), []
        self.expect("{")
        while not self.passes("}"):
            members += [it.variable for it in self.declaration(Owner.STRUCTURE).declarators]
        self.expect(";")
        self.structures[name] = members
        return LeftOut(first, self.at, MEMBERS)

    def is_function(self) -> bool:
        """Whether a function or a prototype stands here."""
        first = self.at
        if not self.is_type():
            return False
        try:
            self.type()
        except ByHand:
            return False
        while self.passes("*"):
            pass
        found = self.token().kind == "name" and self.next_is("(", ahead=1)
        self.at = first
        return found

    def function(self) -> Node:
        """A function with its body, or a prototype, which is left out."""
        first, type_ = self.at, self.type()
        type_end, line = self.at, self.token().line
        if self.next_is("*"):
            raise ByHand("function that gives a pointer")
        name = self.name()
        parameters = self.parameters()
        if self.passes(";"):
            return LeftOut(first, self.at, "a function is known where its body stands")
        if type_.kind not in (Kind.WHOLE, Kind.QUANTITY, Kind.NOTHING):
            raise ByHand("function that gives a text" if type_.kind is Kind.TEXT else "function that gives a structure")
        result = Variable(name, type_.kind, type_.spelled, [], line, Owner.RESULT)
        body = self.block()
        return Function(first, self.at, name, type_end, result, parameters, body)

    def parameters(self) -> list[Declarator]:
        """The parameters of a function, in parentheses."""
        found: list[Declarator] = []
        self.expect("(")
        if self.word_is("void") and self.next_is(")", ahead=1):
            self.step()
        while not self.passes(")"):
            if found:
                self.expect(",")
            found.append(self.parameter())
        return found

    def parameter(self) -> Declarator:
        """A parameter: a number or a text."""
        first = self.at
        if not self.is_type():
            raise ByHand(f"'{self.token().spelled}' instead of a type")
        type_, stars = self.type(), 0
        while self.passes("*"):
            stars += 1
        line, name = self.token().line, self.name()
        while self.passes("["):
            stars += 1
            while not self.passes("]"):
                if self.step().kind == "end":
                    raise ByHand("a bracket has no end")
        kind = kind_behind(Type(type_.kind, type_.spelled), stars)
        if kind not in (Kind.WHOLE, Kind.QUANTITY, Kind.TEXT):
            raise ByHand("parameter that is a pointer")
        return Declarator(first, self.at, Variable(name, kind, type_.spelled, [], line, Owner.PARAMETER), None)


