"""What definitions become: variables, options, channels, functions."""
import re

from porting.branches import Branches
from porting.notes import KNOW, ByHand
from porting.tree import (
    Assign,
    Declaration,
    Declarator,
    Enumeration,
    Expression,
    Function,
    LeftOut,
    Monitor,
    Node,
    Option,
    Stray,
    Unknown,
    Values,
    flat,
)
from porting.variables import Kind, Variable
from porting.words import LONG_TYPES
from porting.work import unit_of



class Definitions(Branches):
    """How definitions are written."""

    def __init__(self, *given):
        super().__init__(*given)
        # Lines that are added in front, for files that are left out.
        self.refused: list[str] = []

    def definition(self, node: Node) -> None:
        """A definition of the program, of a state set or of a state."""
        if isinstance(node, Declaration):
            self.declaration(node, False)
        elif isinstance(node, LeftOut):
            self.comment_out(node, node.note)
        elif isinstance(node, Stray):
            self.changes[node.first] = (node.end, "")
        elif isinstance(node, Unknown):
            self.leave_definition(node, node.why)
        elif isinstance(node, (Assign, Monitor)):
            self.channel_definition(node)
        elif isinstance(node, Function):
            self.function(node)

    def is_enumeration(self, node: Node) -> bool:
        """Whether a node is an enumeration."""
        return isinstance(node, Enumeration)

    def option(self, node: Option) -> None:
        """An option of the program: letters that `snc` refuses are left out."""
        refused = {"+": "a", "-": "es"}[node.sign]
        kept = "".join(it for it in node.letters if it not in refused)
        if kept == node.letters:
            return
        note = f"option {node.sign}{node.letters} is left out"
        if not kept:
            self.comment_out(node, note)
            return
        self.say(node, KNOW, f"option {node.sign}{''.join(it for it in node.letters if it in refused)} is left out")
        self.changes[node.end - 2] = (node.end - 1, kept)

    def channel_definition(self, node: Node) -> None:
        """`assign`, `monitor`, `sync`."""
        if node.variable is None or node.variable.kind is Kind.UNKNOWN:
            self.leave_definition(node, f"'{node.name}' is not declared")
        elif node.variable.members:
            self.leave_definition(node, f"'{node.name}' is a structure")
        elif isinstance(node, Assign):
            for it in node.channels:
                if it.end - it.first > 1:
                    self.change(it.first, it.end, f'"{it.text}"')

    def function(self, node: Function) -> None:
        """A function."""
        self.change_type(node.first, node.type_end, node.result)
        for it in node.parameters:
            text = f"{self.new_type(it.variable)} {it.variable.name}{self.unit_comment(it.variable)}"
            if self.words(it.first, it.end) != text.split():
                self.change(it.first, it.end, text)
        self.statement(node.body, node)

    def words(self, first: int, end: int) -> list[str]:
        """Tokens as they are spelled."""
        return [it.spelled for it in self.tokens[first:end]]

    def change_type(self, first: int, end: int, variable: Variable) -> None:
        """Writes a type, if it is another one."""
        text = self.new_type(variable) + (self.unit_comment(variable) if variable.kind is Kind.QUANTITY else "")
        if self.words(first, end) != text.split():
            self.change(first, end, text)

    def unit_comment(self, variable: Variable) -> str:
        """The unit of a variable, where it is not that of most."""
        is_other = variable.kind is Kind.QUANTITY and variable.digits() != self.least_digits
        return f" /*{unit_of(variable.digits())}*/" if is_other else ""

    def new_type(self, variable: Variable) -> str:
        """The type of a variable in the port."""
        if variable.kind is Kind.QUANTITY:
            return "long"
        if variable.kind is Kind.TEXT:
            return "int"
        spelled = re.sub(r"\b(short|char) int\b", r"\1", variable.spelled_type)
        if spelled not in LONG_TYPES:
            return spelled
        if "u" in spelled:
            self.notes.add(variable.line, KNOW, f"'{variable.name}' is long: values from 2^63 on are a fault")
        return "long"

    def declaration(self, node: Declaration, is_local: bool) -> None:
        """Variables of one type. Where they get different ones, each has a declaration of its own."""
        leave = self.leave_declaration if is_local else self.leave_definition
        for it in node.declarators:
            if it.variable.kind is Kind.UNKNOWN or (it.variable.kind is Kind.STRUCTURE and not it.variable.members):
                self.forget(node)
                leave(node, f"type of '{it.variable.name}'")
                return
        try:
            made = [one for it in node.declarators for one in self.declared(it)]
        except ByHand as cause:
            self.forget(node)
            leave(node, str(cause))
            return
        types = {type_ for type_, _ in made}
        if len(types) > 1 or len(made) != len(node.declarators):
            self.change(node.first, node.end, " ".join(f"{type_} {text};" for type_, text in made))
            return
        type_ = types.pop()
        if self.words(node.first, node.type_end) != type_.split():
            self.change(node.first, node.type_end, type_)
        for it, (_, text) in zip(node.declarators, made):
            self.change(it.first, it.end, text)

    def forget(self, node: Declaration) -> None:
        """Makes all variables of a declaration unknown."""
        for it in node.declarators:
            it.variable.kind, it.variable.members = Kind.UNKNOWN, None

    def declared(self, node: Declarator) -> list[tuple[str, str]]:
        """The type and the text of a variable, or of each member of a structure."""
        variable = node.variable
        if variable.members:
            if node.first_value is not None:
                raise ByHand("first value of a structure")
            return [(self.new_type(it), self.written(it, "")) for it in variable.members.values()]
        first_value = ""
        if node.first_value is not None:
            self.kept_apart(node.first_value, "a first value: put it in a statement of its own")
            first_value = self.first_value(node.first_value, variable)
        sizes = [it for it in variable.dimensions if isinstance(it, Node)]
        has_all_sizes = len(sizes) == len(variable.dimensions)
        is_like = variable.kind is Kind.WHOLE or (variable.kind is Kind.QUANTITY and not self.unit_comment(variable))
        is_text = variable.kind is Kind.TEXT and variable.spelled_type == "string"
        if (is_like or is_text) and has_all_sizes and len(sizes) < 2:
            parts: list[tuple[Node, str]] = [(it, self.size(it)) for it in sizes]
            parts += [(node.first_value, first_value)] if node.first_value is not None else []
            return [(self.new_type(variable), self.woven(node, parts))]
        return [(self.new_type(variable), self.written(variable, first_value))]

    def written(self, variable: Variable, first_value: str) -> str:
        """A variable with its unit, its size and its first value."""
        if any(it is None for it in variable.dimensions):
            raise ByHand("an array without a size")
        sizes = [self.size(it) for it in variable.dimensions]
        if len(sizes) > 1:
            self.notes.add(variable.line, KNOW, f"'{variable.new_name}' has one dimension here")
        size = f"[{' * '.join(sizes)}]" if sizes else ""
        value = f" = {first_value}" if first_value else ""
        return f"{variable.new_name}{self.unit_comment(variable)}{size}{value}"

    def first_value(self, node: Expression, variable: Variable) -> str:
        """The first value of a variable, in its unit."""
        if isinstance(node, Values):
            if any(isinstance(it, Values) for it in node.items):
                return "{" + ", ".join(self.first_value(it, variable) for it in flat(node)) + "}"
            return self.woven(node, [(it, self.first_value(it, variable)) for it in node.items])
        if variable.kind is Kind.TEXT:
            return self.text(node).text
        if variable.kind is Kind.QUANTITY:
            self.is_first_value = True
            try:
                return self.at(self.value(node, variable.digits()), variable.digits(), node).text
            finally:
                self.is_first_value = False
        return self.cut(node).text

    def embedded_outside(self) -> None:
        """Notes embedded C that stands in no block."""
        for token in self.tokens:
            for line in token.embedded:
                self.notes.add(line, KNOW, "embedded C outside of blocks is left out")


