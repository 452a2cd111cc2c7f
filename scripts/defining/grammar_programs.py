"""Reads definitions, functions, states and programs; what stands in them is read by `grammar`."""
from defining.grammar import NoTree, Reader
from defining.values import NIL, Record, listed


class ProgramReader(Reader):
    """Reads a whole program."""

    # ---- definitions and functions

    def definition(self):
        """def : decl | assign | 'monitor' place ';' | sync | syncq | 'evflag' NAME ( ',' NAME )* ';' | option | fdef"""
        forms = {
            "Assign": self.assign, "Monitor": self.monitor, "Sync": self.sync, "SyncQueue": self.sync_queue,
            "EventFlag": self.event_flags, "OptionWord": self.setting,
        }  # fmt: skip
        if self.kind() in forms:
            return forms[self.kind()]()
        return ("function", self.function()) if self.is_function() else ("declaration", self.declaration())

    def is_function(self):
        """Whether a function comes: 'void', or a type and a name with '(' behind them."""
        after = 1 + (self.kind() == "Unsigned" and self.kind(1) != "Name")
        return self.kind() == "Void" or self.kind(after) == "Name" and self.kind(after + 1) == "OpenParenthesis"

    def place(self):
        """place : NAME [ '[' expr ']' ]"""
        return Record(name=self.take("Name"), subscript=self.maybe(self.kind() == "OpenBracket", self.bracketed))

    def assign(self):
        """assign : 'assign' place [ [ 'to' ] names ] ';'"""
        word, place = self.take("Assign"), self.place()
        channels = self.maybe(self.kind() in ("To", "Text", "OpenBrace"), self.channels)
        self.take("Semicolon")
        return ("assign", Record(word=word, place=place, channels=channels))

    def channels(self):
        """[ 'to' ] ( STRING | '{' STRING ( ',' STRING )* '}' )"""
        to = self.take_if("To")
        if self.kind() != "OpenBrace":
            return Record(to=to, names=("one_name", self.take("Text")))
        return Record(to=to, names=("name_list", self.between("OpenBrace", lambda: self.parted(lambda: self.take("Text")), "CloseBrace")))

    def monitor(self):
        """'monitor' place ';'"""
        return ("monitor", self.between("Monitor", self.place, "Semicolon"))

    def flag(self):
        """[ 'to' ] NAME"""
        return Record(to=self.take_if("To"), name=self.take("Name"))

    def sync(self):
        """sync : 'sync' place flag ';'"""
        self.take("Sync")
        made = Record(place=self.place(), flag=self.flag())
        self.take("Semicolon")
        return ("sync", made)

    def sync_queue(self):
        """syncq : ( 'syncq' | 'syncQ' ) place [ flag ] [ WHOLE ] ';'"""
        word, place = self.take("SyncQueue"), self.place()
        flag = self.maybe(self.kind() in ("To", "Name"), self.flag)
        size = self.maybe(self.kind() == "Whole", self.take)
        self.take("Semicolon")
        return ("sync_queue", Record(word=word, place=place, flag=flag, size=size))

    def event_flags(self):
        """'evflag' NAME ( ',' NAME )* ';'"""
        return ("event_flags", self.between("EventFlag", lambda: self.parted(lambda: self.take("Name")), "Semicolon"))

    def setting(self):
        """option : 'option' ( '+' | '-' ) NAME ';'"""
        self.take("OptionWord")
        made = Record(sign=self.take("Plus", "Minus"), name=self.take("Name"))
        self.take("Semicolon")
        return ("setting", made)

    def function(self):
        """fdef : ( type | 'void' ) NAME '(' parameters ')' block"""
        type_name = self.maybe(not self.take_if("Void"), self.type_name)
        name = self.take("Name")
        parameters = self.between("OpenParenthesis", self.parameters, "CloseParenthesis")
        return Record(type_name=type_name, name=name, parameters=parameters, body=self.block())

    def parameters(self):
        """[ 'void' | parameter ( ',' parameter )* ]"""
        void = self.take_if("Void")
        is_there = not void and self.kind() != "CloseParenthesis"
        return Record(void=void, each=self.parted(lambda: Record(type_name=self.type_name(), name=self.take("Name"))) if is_there else NIL)

    # ---- states and programs

    def definitions(self, test):
        """The definitions that begin with a kind of token of which a definition of `Definitions` says yes."""
        return self.while_kind(lambda: self.is_kind("Definitions", test), self.definition)

    def entry(self):
        """[ 'entry' block ]"""
        return self.maybe(self.take_if("Entry"), self.block)

    def exit(self):
        """[ 'exit' block ]"""
        return self.maybe(self.take_if("Exit"), self.block)

    def clause(self):
        """when : 'when' '(' [ expr ] ')' block ( 'state' NAME | 'exit' )"""
        word = self.take("When")
        self.take("OpenParenthesis")
        condition, block = self.ended("CloseParenthesis"), self.block()
        target = ("to_exit",) if self.take_if("Exit") else ("to_state", (self.take("State"), self.take("Name"))[1])
        return Record(word=word, condition=condition, block=block, target=target)

    def state(self):
        """state : 'state' NAME '{' ( def | option )* [ entry ] when* [ exit ] '}'"""
        word, name = self.take("State"), self.take("Name")
        self.take("OpenBrace")
        definitions, entry = self.definitions("starts_part"), self.entry()
        clauses = self.while_kind(lambda: self.kind() == "When", self.clause)
        made = Record(word=word, name=name, definitions=definitions, entry=entry, clauses=clauses, exit=self.exit())
        self.take("CloseBrace")
        return made

    def state_set(self):
        """ss : 'ss' NAME '{' def* state+ '}'"""
        word, name = self.take("StateSet"), self.take("Name")
        self.take("OpenBrace")
        definitions, states = self.definitions("starts_definition"), [self.state()]
        while not self.take_if("CloseBrace"):
            states.append(self.state())
        return Record(word=word, name=name, definitions=definitions, states=listed(states))

    def program(self):
        """program : 'program' NAME [ '(' STRING ')' ] ( def | option | fdef )* [ entry ] ss+ [ exit ]"""
        word, name = self.take("Program"), self.take("Name")
        is_there = self.kind() == "OpenParenthesis"
        macros = self.maybe(is_there, lambda: self.between("OpenParenthesis", lambda: self.take("Text"), "CloseParenthesis"))
        definitions, entry, sets = self.definitions("starts_program_part"), self.entry(), [self.state_set()]
        while self.kind() == "StateSet":
            sets.append(self.state_set())
        made = Record(
            word=word, name=name, macros=macros, definitions=definitions, entry=entry, state_sets=listed(sets), exit=self.exit()
        )  # fmt: skip
        if self.kind() is not None:
            raise NoTree(self.at)
        return made
