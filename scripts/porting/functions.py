"""Calls: functions of the program itself, and those of texts; all else is told by the classes below."""
from typing import Optional

from porting.constants import literal
from porting.notes import ByHand
from porting.numbers import Numbers
from porting.parse_expressions import ASSIGNMENT
from porting.tree import Call
from porting.values import Value, held, number
from porting.variables import Kind
from porting.words import PARSERS, PRINTERS, TEXT_COMPARISONS, TEXT_COPIES, TEXT_FORMATS


class Functions(Numbers):
    """How functions are written."""

    def called(self, node: Call, wanted: Optional[int]) -> Value:
        """A call of any function."""
        if node.function in self.binding.functions:
            return self.own(node)
        found = self.delay(node) if node.function == "delay" else self.builtin(node) or self.of_texts(node)
        if found is None:
            found = self.of_numbers(node, wanted)
        if found is None:
            raise ByHand(f"function '{node.function}'")
        return found

    def own(self, node: Call) -> Value:
        """A function of the program: each argument in the unit of its parameter."""
        function = self.binding.functions[node.function]
        if not self.binding.order.is_in_front(node.function, node.first):
            raise ByHand(f"'{node.function}' calls itself, or one that it calls does: write a loop")
        if function.result.kind is Kind.NOTHING and not node.alone:
            raise ByHand(f"'{node.function}' has no value: call it in a statement of its own")
        if len(function.parameters) != len(node.arguments):
            raise ByHand(f"arguments of '{node.function}'")
        parts = []
        for parameter, argument in zip(function.parameters, node.arguments):
            variable = parameter.variable
            if variable.kind is Kind.TEXT:
                found = self.text(argument)
            elif variable.kind is Kind.QUANTITY:
                found = self.at(self.value(argument, variable.digits()), variable.digits(), argument)
            else:
                found = self.cut(argument)
            parts.append((argument, held(found, ASSIGNMENT)))
        result = function.result
        return Value(self.woven(node, parts), kind=result.kind, digits=result.digits())

    def of_texts(self, node: Call) -> Optional[Value]:
        """A function of texts, or one that prints."""
        if node.function in PRINTERS:
            return self.printer(node)
        if node.function in TEXT_COPIES:
            return self.copied(node)
        if node.function in TEXT_FORMATS:
            return self.text_made(node)
        if node.function in TEXT_COMPARISONS:
            return Value(f"({self.compared(node, '!=').text})")
        if node.function == "strstr":
            return self.found_in(node)
        if node.function == "strlen":
            return self.length(node)
        return self.parsed(node) if node.function in PARSERS else None

    def parsed(self, node: Call) -> Value:
        """`atoi` and its like."""
        self.has_arguments(node, 1)
        known = self.known_text(node.arguments[0])
        if known is None:
            found = self.number_in(node)
            return found if node.function == "atof" else self.whole(found)
        value, is_real = literal(known.strip() or "0")
        name = f" /*{self.named(node)}*/"
        return Value(None, kind=Kind.QUANTITY, constant=value, behind=name) if is_real else number(int(value), name)
