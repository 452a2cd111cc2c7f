"""Calls of the built-in functions of SNL: puts, gets, connections."""
from typing import Optional

from porting.binding import subscripts_of, variable_of
from porting.notes import DECIDE, KNOW, OTHERWISE, ByHand
from porting.parse_expressions import COMMA, TIGHTNESS, WHOLE
from porting.readings import Readings
from porting.tree import Call, Expression
from porting.values import Value
from porting.words import SLEEPERS


class Calls(Readings):
    """How built-in functions are written."""

    def links(self, node: Expression) -> list[str]:
        """The places of the links that a call is of: one for each channel."""
        variable = variable_of(node)
        if variable is None:
            raise ByHand(f"'{self.named(node)}' is no variable here")
        if variable.channels is None:
            raise ByHand(f"'{variable.name}' has no channel")
        found, subscripts = self.place(node), subscripts_of(node)
        channels = variable.channels
        is_parted = bool(variable.dimensions) and (channels.is_list or bool(channels.elements))
        if is_parted and not subscripts:
            if channels.elements:
                return [f"{variable.new_name}[{self.whole(self.value(it)).text}]" for it, _ in channels.elements]
            count = min(self.count(variable.dimensions[0]), len(channels.names))
            return [f"{variable.new_name}[{at}]" for at in range(count)]
        if subscripts and not is_parted:
            self.say(node, KNOW, f"'{variable.name}' has one channel for all its elements: the subscript is left out")
            return [variable.new_name]
        return [found.text]

    def put(self, node: Call) -> Value:
        """`pvPut` and `pvGet`: SYNC and timeouts are left out, and many channels have a call each."""
        self.has_arguments(node, 1)
        links, mode = self.links(node.arguments[0]), ", ASYNC" if node.waits else ""
        for it in node.arguments[1:] if not node.waits else ():
            word = self.named(it)
            if word == "ASYNC" and node.function == "pvPut":
                mode = ", ASYNC"
            elif word == "ASYNC":
                self.say(node, KNOW, "ASYNC of pvGet is left out: the last value is there at once")
            elif word == "SYNC":
                self.say(node, KNOW, "SYNC is left out: the program goes on at once", OTHERWISE)
            elif word != "DEFAULT":
                self.say(node, KNOW, f"timeout {word} is left out")
        if len(links) == 1 and len(node.arguments) == 1 + bool(mode) and not node.waits:
            return Value(self.woven(node, [(node.arguments[0], links[0])]))
        texts = [f"{node.function}({it}{mode})" for it in links]
        return Value(", ".join(texts), WHOLE if len(links) == 1 else COMMA)

    def asked(self, node: Call) -> Value:
        """`pvPutComplete` and `pvConnected`: of many channels all are asked."""
        self.has_arguments(node, 1)
        links = self.links(node.arguments[0])
        if len(links) == 1 and len(node.arguments) == 1:
            return Value(self.woven(node, [(node.arguments[0], links[0])]))
        if len(node.arguments) > 1:
            self.say(node, DECIDE, f"{node.function} with more arguments: all links are asked")
        text = " && ".join(f"{node.function}({it})" for it in links)
        return Value(text, WHOLE if len(links) == 1 else TIGHTNESS["&&"])

    def queue(self, node: Call) -> Value:
        """`pvGetQ` and `pvFlushQ`."""
        self.has_arguments(node, 1)
        links = self.links(node.arguments[0])
        if len(links) != 1:
            raise ByHand("a queue of many channels")
        if node.function == "pvFreeQ":
            return Value(f"pvFlushQ({links[0]})")
        return Value(self.woven(node, [(node.arguments[0], links[0])]))

    def as_it_is(self, node: Call) -> Value:
        """A call that the language has."""
        return Value(self.spelled(node.first, node.end))

    def got(self, node: Call) -> Value:
        """`pvGetComplete`."""
        self.say(node, KNOW, "pvGetComplete is always true: a get is done at once")
        return Value(f"TRUE /*{self.named(node)}*/")

    def nothing(self, node: Call) -> Value:
        """Calls that have nothing to do here."""
        cancels = node.function == "pvPutCancel"
        why = ": the next ASYNC put waits for the answer to this one" if cancels else ""
        self.say(node, KNOW if node.function == "pvFlush" else DECIDE, f"{node.function} is left out{why}")
        return Value(f"0 /*{self.named(node)}*/")

    def assigned(self, node: Call) -> Value:
        """`pvAssigned` and `pvCount`: what the program itself tells."""
        self.has_arguments(node, 1)
        variable = variable_of(node.arguments[0])
        if variable is None:
            raise ByHand(f"'{self.named(node.arguments[0])}' is no variable here")
        if node.function == "pvAssigned":
            found = int(variable.channels is not None)
        else:
            found = self.count(variable.dimensions[0]) if variable.dimensions else 1
        return Value(f"{found} /*{self.named(node)}*/")

    def slept(self, node: Call) -> Value:
        """A wait in the midst of a block."""
        self.has_arguments(node, 1)
        if not node.alone:
            raise ByHand(f"function '{node.function}'")
        if not node.waits:
            text = f"{self.named(node)} is left out: the program goes on at once (--sync wait makes a state that waits)"
            self.say(node, DECIDE, text)
        return Value(f"0 /*{self.named(node)}*/")

    def channel_count(self, node: Call) -> Value:
        """`pvAssignCount`."""
        self.say(node, KNOW, "pvAssignCount is pvChannelCount here")
        return Value("pvChannelCount()")

    def builtin(self, node: Call) -> Optional[Value]:
        """A call of a built-in function, or None where it is none."""
        readers = {
            self.put: ("pvPut", "pvGet"),
            self.asked: ("pvPutComplete", "pvConnected"),
            self.queue: ("pvGetQ", "pvFlushQ", "pvFreeQ"),
            self.got: ("pvGetComplete",),
            self.nothing: ("pvPutCancel", "pvGetCancel", "pvFlush"),
            self.assigned: ("pvAssigned", "pvCount"),
            self.channel_count: ("pvAssignCount",),
            self.alarm: ("pvStatus", "pvSeverity", "pvTimeStamp"),
            self.clock: ("time", "epicsTimeGetCurrent"),
            self.passed: ("difftime", "epicsTimeDiffInSeconds"),
            self.scanned: ("sscanf",),
            self.slept: tuple(SLEEPERS),
            self.as_it_is: ("pvChannelCount", "pvConnectCount", "efSet", "efClear", "efTest", "efTestAndClear"),
        }
        for reader, names in readers.items():
            if node.function in names:
                return reader(node)
        return None
