"""Functions that stand below a call of them: `snc` takes none there, so they are written in front of all else."""
import re

from porting.tree import Call, Function, Program, every

COMMENT_IN_FRONT = re.compile(r"(?:(?://[^\n]*\n|/\*(?:[^*]|\*(?!/))*\*/[ \t]*\n?)[ \t]*)+$")


class Order:
    """The functions of a program: which are moved, and in which order all of them stand then."""

    def __init__(self, program: Program):
        self.word = program.word
        self.functions = {it.name: it for it in program.definitions if isinstance(it, Function)}
        self.calls = {name: self.called_by(it) for name, it in self.functions.items()}
        moved = self.found()
        self.moved = [it for it in self.by_calls() if it in moved]
        self.names = [*self.moved, *(it for it in self.functions if it not in moved)]

    def called_by(self, function: Function) -> list[str]:
        """The functions that a function calls."""
        calls = (it.function for it in every(function.body) if isinstance(it, Call))
        return list(dict.fromkeys(it for it in calls if it in self.functions))

    def is_astray(self, function: Function) -> bool:
        """Whether a function stands where there is no room for one."""
        return function.is_behind_sets or function.first < self.word

    def found(self) -> set[str]:
        """The functions that are moved, with all that they call."""
        moved = {name for name, it in self.functions.items() if self.is_astray(it)}
        for name, it in self.functions.items():
            moved |= {other for other in self.calls[name] if self.functions[other].first > it.first}
        waiting = list(moved)
        while waiting:
            more = [it for it in self.calls[waiting.pop()] if it not in moved]
            moved.update(more)
            waiting += more
        return moved

    def by_calls(self) -> list[str]:
        """All functions, each behind those that it calls, as far as that can be."""
        order: list[str] = []
        seen: set[str] = set()
        for start in self.functions:
            waiting = [(start, False)]
            while waiting:
                name, is_done = waiting.pop()
                if is_done:
                    order.append(name)
                elif name not in seen:
                    seen.add(name)
                    waiting.append((name, True))
                    waiting += [(it, False) for it in reversed(self.calls[name])]
        return order

    def is_in_front(self, name: str, at: int) -> bool:
        """Whether a function stands in front of the place of a token."""
        inside = next((it for it, one in self.functions.items() if one.first <= at < one.end), None)
        return inside is None or self.names.index(name) < self.names.index(inside)


def comment_in_front(before: str) -> str:
    """The comment that stands directly in front of something, if there is one."""
    found = COMMENT_IN_FRONT.search(before)
    return found[0].lstrip() if found else ""
