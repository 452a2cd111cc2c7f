"""With `--sync wait`: a put with SYNC becomes one with ASYNC at the end of its block, and a state that waits for the answer."""
import re
from fractions import Fraction
from typing import Optional

from porting.binding import variable_of
from porting.constants import decimal_text, nearest
from porting.notes import KNOW, OTHERWISE
from porting.sharing import Sharing
from porting.tree import Action, Call, Clause, Declaration, Name, Node, State
from porting.words import SLEEPERS

# What the sequencer waits at most for an answer, where nothing is said.
SECONDS = "10"
# A text or a comment with an end, which stay, or what becomes a blank.
IN_ONE_LINE = re.compile(r'("(?:\\.|[^"\\\n])*")|(/\*[^\n]*?\*/)|(?://[^\n]*|\s)+')


class Waiting(Sharing):
    """How clauses are written, with states that wait."""

    def clause(self, clause: Clause, state: State) -> None:
        """A clause with its block."""
        if clause.condition is not None:
            self.condition(clause.condition)
        puts = self.puts_that_wait(clause, state) if self.settings.waits else []
        for it in puts:
            it.expression.waits = True
        self.statement(clause.block, None)
        if puts:
            self.parted(clause, state, puts)

    def puts_that_wait(self, clause: Clause, state: State) -> list[Action]:
        """The puts with SYNC that stand in the block itself, if a state can wait for each of them."""
        items = clause.block.items
        leads_back = self.tokens[clause.end - 1].spelled == self.tokens[state.first + 1].spelled
        if any(isinstance(it, Declaration) for it in items) or (leads_back and (state.entries or state.exits)):
            return []
        return [it for it in items if isinstance(it, Action) and (self.is_put_that_waits(it.expression) or self.slept_seconds(it.expression))]

    def slept_seconds(self, node: Node) -> Optional[Fraction]:
        """The seconds that a function of C waits, where they are a constant, to the millisecond; None where there is none."""
        if not isinstance(node, Call) or node.function not in SLEEPERS or len(node.arguments) != 1:
            return None
        found = self.value(node.arguments[0]).constant
        return None if found is None else Fraction(nearest(found * SLEEPERS[node.function] * 1000), 1000) or None

    def is_put_that_waits(self, node: Node) -> bool:
        """Whether an expression is a `pvPut` with SYNC of a place that other states see, too."""
        if not isinstance(node, Call) or node.function != "pvPut" or len(node.arguments) < 2:
            return False
        variable = variable_of(node.arguments[0])
        is_seen = variable is not None and variable.channels is not None
        return is_seen and isinstance(node.arguments[1], Name) and node.arguments[1].name == "SYNC"

    def parted(self, clause: Clause, state: State, puts: list[Action]) -> None:
        """Cuts the block behind each put, and writes the rest into states of its own behind this one."""
        target, end = self.spelled(clause.block.end, clause.end), clause.block.end - 1
        made, names = "", []
        for _ in puts:
            names.append(self.free(f"{self.tokens[state.first + 1].spelled}_waits"))
            self.names.add(names[-1])
        for put, name in reversed(list(zip(puts, names))):
            rest = IN_ONE_LINE.sub(lambda it: it[1] or it[2] or " ", self.rendered(put.end, end)).strip()
            made = self.waiting_state(name, put.expression, rest, target) + made
            self.drop_between(put.end, end)
            target = f"state {name}"
            end = put.end
        first, last = puts[0].end, clause.block.end - 1
        self.change(first, last, "") if first < last else None
        self.change(clause.block.end, clause.end, target)
        self.behind[state.end - 1] = self.behind.get(state.end - 1, "") + made

    def drop_between(self, first: int, end: int) -> None:
        """Forgets the changes of tokens that stand elsewhere now."""
        for at in range(first, end):
            self.changes.pop(at, None)
            self.in_front.pop(at, None)
            self.behind.pop(at, None)

    def waiting_state(self, name: str, put: Call, rest: str, target: str) -> str:
        """A state that waits for the answer to a put, and goes on after some seconds without one."""
        block = f"{{ {rest} }}" if rest else "{}"
        seconds = self.slept_seconds(put)
        if seconds is not None:
            self.say(put, KNOW, f"{self.named(put)}: a state waits so long", OTHERWISE)
            return f" state {name} {{ when (delay({decimal_text(seconds)})) {block} {target} }}"
        answered, late = self.asked_of(put), self.timeout_of(put)
        self.say(put, KNOW, "SYNC: a state waits for the answer, which the trace brings by a line done", OTHERWISE)
        return f" state {name} {{ when ({answered} || {late}) {block} {target} }}"

    def asked_of(self, put: Call) -> str:
        """Whether all links of a put are answered."""
        links = self.links(put.arguments[0])
        text = " && ".join(f"pvPutComplete({it})" for it in links)
        return text if len(links) == 1 else f"({text})"

    def timeout_of(self, put: Call) -> str:
        """The delay that the put has at most."""
        found = self.value(put.arguments[2]).constant if len(put.arguments) > 2 and self.named(put.arguments[2]) != "DEFAULT" else None
        return f"delay({SECONDS if found is None else decimal_text(Fraction(nearest(found * 1000), 1000))})"
