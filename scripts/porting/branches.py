"""`switch` and `do`, which SNL has not here: a chain of `if`, and a `while` that is left at its end. Lines stay."""
from typing import Iterator, Optional

from porting.notes import ByHand
from porting.parse_expressions import TIGHTNESS
from porting.statements import Statements
from porting.tree import Block, Case, Do, For, Function, Node, Plain, Return, Switch, While
from porting.values import EQUALITY, STORES, held


class Branches(Statements):
    """How branches of C are written."""

    def of_c(self, node: Node, function: Optional[Function]) -> None:
        """A `switch` or a `do`."""
        try:
            if isinstance(node, Switch):
                self.switch(node, function)
            else:
                self.do_loop(node, function)
        except ByHand as cause:
            self.leave_statement(node, str(cause))

    def switch(self, node: Switch, function: Optional[Function]) -> None:
        """`switch`: a chain of `if` in a block. Where a case goes on in the next one, or ends in its midst, a loop that is left."""
        if not all(is_closed(it, it is node.sections[-1]) for it in node.sections):
            self.switch_with_loop(node, function)
            return
        found = self.whole(self.value(self.kept_apart(node.value, "a 'switch': put it in front")))
        tested, front = held(found, EQUALITY), "{"
        if STORES.search(tested):
            tested = self.free("chosen")
            front = f"{{ long {tested} = {found.text};"
        tests = [[f"{tested} == {self.label(it)}" for it in case.labels if it is not None] for case in node.sections]
        self.change(node.first, node.value.end + 2, front)
        for at, case in enumerate(node.sections):
            test = " || ".join(tests[at])
            is_last = at == len(node.sections) - 1
            if None in case.labels:
                others = [one for other, them in enumerate(tests) if other != at for one in them]
                test = "" if is_last else " && ".join(it.replace("==", "!=", 1) for it in others)
            head = ("else " if at else "") + (f"if ({test}) " if test or not at else "") + "{"
            self.change(case.first, case.label_end, head.replace("if () ", "if (TRUE) "))
            for it in case.items:
                self.statement(it, function)
            self.end_case(case)

    def switch_with_loop(self, node: Switch, function: Optional[Function]) -> None:
        """`switch` as a loop that is done once: the first case is chosen, those behind it follow, and `break` leaves the loop."""
        if any(list(jumps_in(it, "continue")) for it in node.sections):
            raise ByHand("'switch' with a case that goes on in the next one, and 'continue'")
        found = self.whole(self.value(self.kept_apart(node.value, "a 'switch': put it in front")))
        tested, front, chosen = held(found, EQUALITY), "{ ", self.free("section")
        if STORES.search(tested):
            tested = self.free("chosen")
            front = f"{{ long {tested} = {found.text}; "
        tests, other = "", len(node.sections) + 1
        for at, case in enumerate(node.sections, 1):
            them = [f"{tested} == {self.label(it)}" for it in case.labels if it is not None]
            tests += f"{' || '.join(them)} ? {at} : " if them else ""
            other = at if None in case.labels else other
            self.change(case.first, case.label_end, f"if ({chosen} <= {at}) {{")
            for it in case.items:
                self.statement(it, function)
            last = case.items[-1].end if case.items else case.label_end
            self.behind[last - 1] = self.behind.get(last - 1, "") + " }"
        self.change(node.first, node.value.end + 2, f"{front}int {chosen} = {tests}{other}; while (TRUE) {{")
        self.change(node.end - 1, node.end, "break; } }")

    def label(self, node) -> str:
        """The constant behind `case`."""
        return held(self.whole(self.value(node)), EQUALITY + 1)

    def end_case(self, case: Case) -> None:
        """The bracket that ends a case, in the place of its `break`."""
        end = end_of(case.items)
        if is_jump(end, "break"):
            is_inner = end is not case.items[-1]
            self.changes[end.first] = (end.end, "" if is_inner else "}")
            if not is_inner:
                return
        last = case.items[-1].end if case.items else case.label_end
        self.behind[last - 1] = self.behind.get(last - 1, "") + " }"

    def do_loop(self, node: Do, function: Optional[Function]) -> None:
        """`do`: a `while` that always goes on, and is left where the condition does not hold."""
        if list(jumps_in(node, "continue")):
            self.do_that_goes_on(node, function)
            return
        is_block = isinstance(node.body, Block)
        is_once = self.spelled(node.condition.first, node.condition.end) == "0" and not list(jumps_in(node, "break"))
        self.statement(node.body, function, is_block)
        head = "" if is_once else "while (TRUE)"
        self.change(node.first, node.first + 1, head if is_block else f"{head} {{".lstrip())
        behind = node.body.end - is_block
        if is_once:
            self.change(behind, node.end, "}")
            return
        self.condition(node.condition)
        self.change(behind, node.condition.first, "if (!(")
        self.change(node.condition.end, node.end, ")) break; }")

    def do_that_goes_on(self, node: Do, function: Optional[Function]) -> None:
        """`do` with `continue`: a `while` that does not ask the first time."""
        place = "the end of a 'do': put it in its block"
        test = held(self.truth(self.value(self.kept_apart(node.condition, place))), TIGHTNESS["||"])
        again = self.free("again")
        self.statement(node.body, function, False)
        self.change(node.first, node.first + 1, f"{{ int {again} = FALSE; while (!{again} || {test}) {{ {again} = TRUE;")
        self.change(node.body.end, node.end, "} }")


def is_closed(case: Case, is_last: bool) -> bool:
    """Whether a case of a `switch` ends with a jump, and has no `break` in its midst."""
    end = end_of(case.items)
    others = [it for it in jumps_in(case, "break") if it is not end]
    return not others and (is_last or is_jump(end, "break", "continue", "state") or isinstance(end, Return))


def end_of(items: list[Node]) -> Optional[Node]:
    """The last statement of some, and of the block that they end with."""
    last = items[-1] if items else None
    return end_of(last.items) if isinstance(last, Block) and last.items else last


def is_jump(node: Optional[Node], *words: str) -> bool:
    """Whether a statement is a jump by one of those words."""
    return isinstance(node, Plain) and node.word in words


def jumps_in(node: Node, word: str) -> Iterator[Node]:
    """The jumps by a word that go out of a node, and not out of a loop in it."""
    for it in node.children():
        if is_jump(it, word):
            yield it
        elif not isinstance(it, (While, For, Do)) and not (isinstance(it, Switch) and word == "break"):
            yield from jumps_in(it, word)
