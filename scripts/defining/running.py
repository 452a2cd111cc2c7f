"""Runs a program by the definitions, as the headline has it: links, options, what the program means, its first world, the run over the
lines of a trace."""
from contextlib import contextmanager
from dataclasses import dataclass

from defining.definitions import Definitions
from defining.names import Key
from defining.values import NIL, NONE, Record, applied, bytes_of, items_of, listed

LINKS = Key("snl_channels", "Links", "links")
TABLES = Key("snl_channels", "Tables", "tables")
SITES = Key("snl_names", "Programs", "sites")
OPTIONS = Key("snl_messages", "Silence", "options_in_force")
WAITS = Key("snl_check", "Waits", "waits")
TASK = Key("snl_machine", "MachineOf", "task_of")
FIRST = Key("snl_load", "First", "first_world_of")
RULES = Key("snl_trace", "Run", "rules_by")
RUN = Key("snl_trace", "Run", "run_from")
LINES = Key("snl_output", "TraceLines", "lines_from")
FITS = Key("snl_schedule", "Event", "is_event_fit")
FOOTPRINT = Key("snl_machine", "Footprint", "footprint")
STATUS = Key("snc", "Outcomes", "status_of")
CODE = Key("snc", "Outcomes", "code_of")
NEEDED = (LINKS, OPTIONS, WAITS, TASK, FIRST, RULES, RUN, LINES)
# The budget of a call that gives none.
BUDGET = 100_000


@dataclass
class Loaded:
    """A program, ready to run: its tree, its links, what is run, and its first world."""

    tree: Record
    links: tuple
    task: Record
    world: Record


class Runner:
    """The definitions that a run needs."""

    def __init__(self, root):
        """Reads and writes them, once for many programs."""
        self.definitions = Definitions(root)
        self.functions = {key: self.definitions.function(key) for key in NEEDED}

    def call(self, key, *arguments):
        """What a definition gives."""
        if key not in self.functions:
            self.functions[key] = self.definitions.function(key)
        return applied(self.functions[key], *arguments)

    @contextmanager
    def with_edit(self, edit):
        """Has another text in a definition for a while."""
        functions = self.functions
        with self.definitions.with_text(*edit.place(), edit.text(self.definitions.names)):
            self.functions = {}
            try:
                yield
            finally:
                self.functions = functions

    def load(self, tree, given, macros):
        """A program with the options and the macros of a call."""
        self.definitions.forget()
        links = self.call(LINKS, tree, listed(list(macros)))
        waits = self.call(WAITS, self.call(OPTIONS, tree, given))
        return Loaded(tree, links, self.call(TASK, tree, links, waits), self.call(FIRST, tree, links))

    def run(self, loaded, trace, budget):
        """The lines of a run over the bytes of a trace, and how it ended."""
        lines = self.call(LINES, NIL, listed(list(trace)))
        ran = self.call(RUN, self.call(RULES, loaded.task, budget), 1, lines, loaded.world)
        if ran[0] == "Gives":
            return bytes_of(ran[3]), ran[1]
        return bytes_of(ran[4]), ("Fault", ran[1], ran[2])

    def all_fit(self, loaded, trace, budget):
        """Whether each event that the lines of a trace tell fits the machine of a program, as `Machine::event` asks: up to the first bad line."""
        fits = self.call(FITS, len(items_of(loaded.task.channels)), loaded.task.program.links)
        rules, last = self.call(RULES, loaded.task, budget), 0
        for line in items_of(self.call(LINES, NIL, listed(list(trace)))):
            read = applied(rules.read, last, line)
            if read[0] == "Err":
                break
            if read[1] != NONE:
                last, event = read[1][1]
                if not applied(fits, event):
                    return False
        return True

    def status(self, end):
        """The status of a call of snlrun whose run ended so."""
        return self.call(CODE, self.call(STATUS, end))
