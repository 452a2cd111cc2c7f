"""What statements become, and what is written where one is left by hand."""
import re
from math import prod
from typing import Optional

from porting.binding import behind_and, stores_in, variable_of
from porting.expressions import Expressions
from porting.notes import BY_HAND, ByHand
from porting.tokens import harmless
from porting.tree import (
    Action,
    Block,
    Call,
    Declaration,
    Do,
    Expression,
    For,
    Function,
    If,
    Node,
    Place,
    Postfix,
    Return,
    SizeOf,
    Switch,
    Unknown,
    While,
)
from porting.variables import Kind
from porting.words import BYTES, EMPTIERS

LONGEST_QUOTE = 90


class Statements(Expressions):
    """How statements are written."""

    def __init__(self, *given):
        super().__init__(*given)
        self.left = 0

    def tell_by_hand(self, node: Node, why: str) -> str:
        """Notes what is left by hand, and gives it as a comment."""
        text = harmless(self.source(node))
        quoted = re.sub(r"\s+", " ", text)
        self.say(node, BY_HAND, f"{why}: {quoted[:LONGEST_QUOTE]}")
        return f"/* by hand: {text} */"

    def leave(self, node: Node, why: str, word: str, sketch: str) -> None:
        """Leaves a node by hand: the word stands in its place, which `snc` refuses, or what a sketch has."""
        comment = self.tell_by_hand(node, why)
        in_place = sketch if self.settings.is_sketch else word
        self.drop_changes(node)
        self.changes[node.first] = (node.end, f"{in_place} {comment}".lstrip())

    def drop_changes(self, node: Node) -> None:
        """Forgets all changes in a node."""
        for at in range(node.first, node.end):
            self.changes.pop(at, None)
            self.in_front.pop(at, None)
            self.behind.pop(at, None)

    def leave_statement(self, node: Node, why: str) -> None:
        """Leaves a statement by hand."""
        self.leave(node, why, f"{self.by_hand_word};", ";")

    def leave_definition(self, node: Node, why: str) -> None:
        """Leaves a definition by hand."""
        self.leave(node, why, f"monitor {self.by_hand_word};", "")

    def leave_declaration(self, node: Node, why: str) -> None:
        """Leaves a declaration of a block by hand."""
        self.left += 1
        self.leave(node, why, f"int {self.free(f'by_hand_{self.left}')} = {self.by_hand_word};", "")

    def expression(self, node: Expression, sketch: str = "FALSE", write=None) -> None:
        """Writes an expression that stands by itself, or leaves it by hand."""
        try:
            found = self.truth(self.value(node)) if write is None else write()
            found = self.whole(found) if found.text is None else found
            self.change(node.first, node.end, found.text)
        except ByHand as cause:
            self.leave(node, str(cause), self.by_hand_word, sketch)

    def kept_apart(self, node: Expression, where: str) -> Expression:
        """An expression that stores to nothing that is shared, since no put can stand behind it."""
        for it in stores_in(node):
            if it.is_shared:
                raise ByHand(f"'{it.name}' is shared and set in {where}")
        return node

    def condition(self, node: Expression) -> None:
        """A condition, in which nothing that is shared may be stored."""
        place = "a condition: put it in a block"
        self.expression(node, write=lambda: self.truth(self.value(self.kept_apart(node, place))))

    def statement(self, node: Optional[Node], function: Optional[Function], is_in_block: bool = True) -> None:
        """A statement, of a function or of none."""
        if isinstance(node, Block):
            self.block(node, function)
        elif isinstance(node, Unknown):
            leave = self.leave_declaration if node.place is Place.DECLARATION else self.leave_statement
            leave(node, node.why)
        elif isinstance(node, Declaration):
            self.declaration(node, True)
        elif isinstance(node, Action):
            self.action(node, is_in_block)
        elif isinstance(node, If):
            self.condition(node.condition)
            self.statement(node.yes, function, False)
            self.statement(node.no, function, False)
        elif isinstance(node, While):
            self.condition(node.condition)
            self.statement(node.body, function, False)
        elif isinstance(node, For):
            self.loop(node, function)
        elif isinstance(node, (Switch, Do)):
            self.of_c(node, function)
        elif isinstance(node, Return):
            self.returned(node, function)
        elif node is not None and self.is_enumeration(node):
            self.definition(node)

    def block(self, node: Block, function: Optional[Function] = None) -> None:
        """A block. Embedded C in it is left by hand."""
        for it in node.items:
            self.statement(it, function)
        for at in range(node.first + 1, node.end):
            for line in self.tokens[at].embedded:
                self.notes.add(line, BY_HAND, "embedded C in a block is left out")
                self.stop_at(at, node)
            self.tokens[at].embedded = ()

    def stop_at(self, at: int, block: Block) -> None:
        """Puts the word that `snc` refuses in front of the next statement of a block, or at its end."""
        if self.settings.is_sketch:
            return
        behind = [it for it in block.items if it.end > at and not isinstance(it, Declaration)]
        place = behind[0].first if behind else block.end - 1
        self.in_front[place] = f"{self.by_hand_word}; " + self.in_front.get(place, "")

    def action(self, node: Action, is_in_block: bool) -> None:
        """An expression as a statement, and puts of what is shared behind it."""
        expression = node.expression
        if isinstance(expression, (Postfix, Call)):
            expression.alone = True
        try:
            if isinstance(expression, Call) and expression.function in EMPTIERS:
                self.change(node.first, node.end, self.emptied(expression))
            else:
                found = self.value(expression)
                self.change(expression.first, expression.end, "0" if found.text is None else found.text)
        except ByHand as cause:
            self.leave_statement(node, str(cause))
            return
        shared = dict.fromkeys(it for it in stores_in(expression) if it.is_shared)
        puts = "".join(f" pvPut({it.new_name});" for it in shared)
        if puts:
            self.behind[node.end - 1] = puts + ("" if is_in_block else " }")
            if not is_in_block:
                self.in_front[node.first] = "{ " + self.in_front.get(node.first, "")

    def emptied(self, node: Call) -> str:
        """`memset` with 0: a loop over the elements."""
        self.has_arguments(node, 2)
        variable = variable_of(behind_and(node.arguments[0]))
        if variable is None or variable.kind not in (Kind.WHOLE, Kind.QUANTITY, Kind.TEXT):
            raise ByHand(f"function '{node.function}'")
        if node.function == "memset" and self.value(node.arguments[1]).constant != 0:
            raise ByHand("memset with another byte than 0")
        if not variable.dimensions:
            return f"{variable.new_name} = 0;"
        count = prod(self.count(it) for it in variable.dimensions)
        size, is_all = self.value(node.arguments[-1]).constant, isinstance(node.arguments[-1], SizeOf)
        bytes_ = BYTES.get(variable.spelled_type)
        if not is_all and (size is None or bytes_ is None or size % bytes_ or size > count * bytes_):
            raise ByHand(f"{node.function} of a part of an array")
        at, count = self.free("at"), count if is_all else int(size) // bytes_
        return f"{{ int {at}; for ({at} = 0; {at} < {count}; {at}++) {variable.new_name}[{at}] = 0; }}"

    def loop(self, node: For, function: Optional[Function]) -> None:
        """A `for`: its head and its body."""
        for at, it in enumerate(node.head):
            if it is None:
                continue
            if isinstance(it, Postfix):
                it.alone = True
            read = self.truth if at == 1 else lambda found: found
            place = "the head of a loop: put it in a block"
            self.expression(it, "FALSE" if at == 1 else "0", lambda it=it, read=read: read(self.value(self.kept_apart(it, place))))
        self.statement(node.body, function, False)

    def returned(self, node: Return, function: Optional[Function]) -> None:
        """`return`, in the unit of the function."""
        if function is None:
            self.leave_statement(node, "'return' outside of a function")
            return
        result = function.result
        if (node.value is None) != (result.kind is Kind.NOTHING):
            self.leave_statement(node, f"'return' with{'out' if node.value is None else ''} a value")
            return
        if node.value is None:
            return

        def write():
            """The value in the unit of the function."""
            self.kept_apart(node.value, "a 'return': put it in a statement of its own")
            if result.kind is Kind.QUANTITY:
                return self.at(self.value(node.value, result.digits()), result.digits(), node.value)
            return self.cut(node.value)

        self.expression(node.value, "0", write)

    def of_c(self, node: Node, function: Optional[Function]) -> None:
        """A `switch` or a `do`."""
        raise NotImplementedError

    def is_enumeration(self, node: Node) -> bool:
        """Whether a node is an enumeration."""
        raise NotImplementedError

    def declaration(self, node: Declaration, is_local: bool) -> None:
        """A declaration."""
        raise NotImplementedError

    def definition(self, node: Node) -> None:
        """A definition."""
        raise NotImplementedError
