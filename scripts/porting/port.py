"""The whole port of a program: its parts in their order, and the text of the new one."""
import re
from dataclasses import dataclass

from porting.binding import Binding
from porting.moved import comment_in_front
from porting.notes import BY_HAND, DECIDE, KNOW, OTHERWISE, NotUnderstood, Notes, place_at, places_of
from porting.numbers import HELPERS
from porting.parse_program import ProgramParser
from porting.preprocessor import Preprocessor
from porting.tokens import harmless
from porting.tree import Option, Program
from porting.units import find_units, join_channels, quantities_by_digits
from porting.variables import Kind
from porting.waiting import Waiting
from porting.work import Settings, unit_of

FROM_CHANNEL = "is a text that comes from a channel: the trace has to bring its number, as the list of texts at the top has it"


@dataclass
class Ported:
    """What was made of a source."""

    text: str
    notes: Notes
    # The program, with its units and texts; None where nothing could be made.
    port: "Port"


class Port(Waiting):
    """A port of a program."""

    # The file and the number of each line of the source, as markers in it say.
    places: list[tuple[str, int]] = []

    def run(self) -> str:
        """Ports all parts of the program, and gives the new text."""
        self.find_questions()
        for it in self.binding.variables():
            if it.kind is Kind.TEXT and it.is_monitored and it.pattern is None:
                self.notes.add(it.line, DECIDE, f"'{it.name}' {FROM_CHANNEL}")
        join_channels(list(self.binding.variables()), self.filled, self.notes.add)
        find_units(self.binding, self.settings.units, self.settings.finer, self.notes.add)
        self.find_shared()
        for it in self.program.definitions:
            if isinstance(it, Option):
                self.option(it)
            else:
                self.definition(it)
        for it in self.program.blocks:
            self.statement(it, None)
        for it in self.program.sets:
            self.state_set(it)
        self.embedded_outside()
        self.frame(self.program)
        text = self.rendered(0, len(self.tokens))
        # Of functions that stood behind all else nothing is left.
        return text.rstrip("\n") + "\n" if self.binding.order.moved else text

    def quantities(self) -> set[str]:
        """The names of all quantities."""
        return {it.new_name for it in self.binding.variables() if it.kind is Kind.QUANTITY}

    def state_set(self, node) -> None:
        """A state set with its states."""
        for it in node.definitions:
            self.definition(it)
        for state in node.states:
            for it in state.definitions:
                self.definition(it)
            for it in [*state.entries, *state.exits]:
                self.statement(it, None)
            for clause in state.clauses:
                self.clause(clause, state)

    def frame(self, program: Program) -> None:
        """What stands behind the head of the program: an option, and lines that are added."""
        if program.macros and program.macros.end - program.macros.first > 1:
            self.change(program.macros.first, program.macros.end, f'"{program.macros.text}"')
        if program.semicolon is not None:
            self.changes[program.semicolon] = (program.semicolon + 1, "")
        option = ""
        if not self.is_safe:
            option = " option +s;"
            text = "option +s is added: each state set has its own copy of the variables"
            self.notes.add(self.tokens[program.word].line, KNOW, text, OTHERWISE)
        lines = [*self.legend_lines(), *self.refused, *self.reading_definitions(), *self.shared_lines(), *self.helper_lines()]
        # Lines end as they do in the source.
        end = "\r\n" if any("\r\n" in it.before for it in self.tokens) else "\n"
        added = [*lines, *self.moved_functions()]
        text = "".join(f"{end}{it}" for it in added)
        self.behind[program.head_end] = option + text + (self.back_to_source(program, end) if added else "")

    def back_to_source(self, program: Program, end: str) -> str:
        """A marker behind what is added, so that the lines that follow have the numbers of the source."""
        at, line = program.head_end + 1, self.tokens[program.head_end].line
        rest = self.tokens[at].before + (self.tokens[at + 1].before if at == program.semicolon else "")
        if re.match(r"[ \t]*\r?\n", rest):
            return end + self.marker(line + 1) if self.marker(line + 1) else ""
        return end + self.marker(line) + end if self.marker(line) else ""

    def marker(self, line: int) -> str:
        """The marker in front of a line of the source; nothing where the name of the file can't stand in one."""
        file, number = place_at(self.places, line)
        return "" if re.search(r'["\\\n]', file) else f'# {number} "{file}"'

    def moved_functions(self) -> list[str]:
        """The functions that are written in front. Where they stood, empty lines stay."""
        texts = []
        for name in self.binding.order.moved:
            node = self.binding.functions[name]
            token = self.tokens[node.first]
            comment = "" if token.embedded else comment_in_front(token.before)
            token.before = token.before.removesuffix(comment) + "\n" * comment.count("\n")
            marker = self.marker(token.line - comment.count("\n"))
            texts.append((f"{marker}\n" if marker else "") + comment + self.rendered(node.first, node.end).removeprefix(token.before))
            lines = self.spelled(node.first, node.end).count("\n")
            self.drop_changes(node)
            self.changes[node.first] = (node.end, "\n" * lines)
            self.say(node, KNOW, f"function '{name}' is moved in front of what calls it")
        return texts

    def legend_lines(self) -> list[str]:
        """The units of quantities and the numbers of texts, as a comment."""
        units = quantities_by_digits(list(self.binding.variables()))
        lines = [f"unit {unit_of(digits)}: {', '.join(names)}" for digits, names in units.items()]
        if len(self.legend) > 1:
            texts = (f'{number} "{harmless(text)}"' for text, number in self.legend.items())
            lines.append("texts: " + ", ".join(texts))
        asked = [f'{it.new_name} "{harmless(it.pattern.shown())}"' for it in self.binding.variables() if it.pattern]
        lines += [f"1 where the text is so: {', '.join(asked)}"] if asked else []
        return ["/* By port:", *(f"   {it}" for it in lines[:-1]), f"   {lines[-1]} */"] if lines else []

    def shared_lines(self) -> list[str]:
        """The links without a channel of what is shared."""
        names = [it.new_name for it in self.binding.variables() if it.is_shared]
        return [f"assign {it}; monitor {it};" for it in names]

    def helper_lines(self) -> list[str]:
        """The functions that the port calls."""
        names = {it: self.free(it) for it in HELPERS}
        return [line.format(**names) for it, lines in HELPERS.items() if it in self.helpers for line in lines]

    def rendered(self, first: int, end: int) -> str:
        """The text of tokens with all changes."""
        parts, at = [], first
        while at < end:
            token = self.tokens[at]
            parts += [token.before, self.in_front.get(at, "")]
            if at in self.changes:
                at, text = self.changes[at]
                parts.append(text)
            else:
                parts += [token.spelled, token.behind]
                at += 1
            parts.append(self.behind.get(at - 1, ""))
        return "".join(parts)


def not_understood(notes: Notes, line: int, text: str) -> Ported:
    """What comes of a source that can't be understood: of other notes the first alone, since all may come of one cause."""
    told = Notes()
    for it in notes.by_hand()[:1]:
        told.add(*it)
    told.add(line, BY_HAND, text)
    return Ported("", told, None)


def ported(source: str, path: str, settings: Settings) -> Ported:
    """Ports a source. One that can't be understood gives no text, and a note that says where."""
    notes = Notes()
    preprocessor = Preprocessor(notes, path)
    try:
        tokens = preprocessor.tokens(source)
        parser = ProgramParser(tokens)
        program = parser.program()
    except NotUnderstood as cause:
        return not_understood(notes, cause.line, f"not understood from here on: {cause}")
    except RecursionError:
        return not_understood(notes, 1, "not understood: nested too deeply")

    def line_of(node) -> int:
        """The line in which a node begins."""
        return tokens[node.first].line

    port = Port(tokens, program, notes, settings, Binding(program, parser.structures, line_of))
    port.places = places_of(source, path)
    for _ in preprocessor.lines_by_hand if not settings.is_sketch else ():
        port.refused.append(f"monitor {port.by_hand_word}; /* by hand: a file is left out */")
    return Ported(port.run(), notes, port)
