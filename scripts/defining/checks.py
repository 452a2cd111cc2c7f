"""What the definitions say of a source: its tokens, the tree that they spell, its messages and its tables.

Most of that are functions, and they are run: which lexeme stands at a place and what it adds, how a tree is spelled, which sites a tree has and
which rules each breaks, and what is said of that. Where a relation says that there is something, it is looked for here, and told by the
definitions: the cut of a source, its tree (`grammar`), the states on a way, the first of the findings at a place."""
from dataclasses import dataclass
from functools import cmp_to_key

from defining.grammar import NoTree
from defining.grammar_programs import ProgramReader
from defining.names import Key
from defining.running import OPTIONS, SITES
from defining.values import NIL, NONE, Record, bytes_of, items_of, listed, some

LEXEME = Key("snl_text", "Lexemes", "lexeme_at")
AFTER = Key("snl_text", "Cut", "after")
NOTHING_READ = Key("snl_text", "Cut", "nothing_read")
FLAW = Key("snl_text", "Lexemes", "flaw_at")
FAULT = Key("snl_text", "Faults", "fault_of")
FAULT_TEXT = Key("snl_text", "Faults", "fault_text")
ERROR = Key("snc", "Judging", "error_at")
REFUSAL = Key("snl_messages", "Refusals", "refusal_number")
PROGRAMS = Key("snl_syntax", "Programs", "programs")
SPELLS = Key("snl_syntax", "Begins", "Spells")
IS_PROGRAM = Key("snl_syntax", "Programs", "IsProgram")
BROKEN = Key("snl_rules", "Tests", "all_broken")
OF_BROKEN = Key("snl_messages", "Findings", "of_broken")
TARGETS = Key("snl_reach", "Reach", "targets_in_state")
NAMES = Key("snl_reach", "Reach", "state_names")
NUMBER = Key("snl_names", "Numbered", "number_of")
OF_UNREACHED = Key("snl_messages", "Findings", "of_unreached")
OF_EMBEDDED = Key("snl_messages", "Findings", "of_embedded")
FINDING = Key("snl_messages", "Findings", "finding")
IS_SAFE = Key("snl_messages", "Silence", "is_safe")
LETS_THROUGH = Key("snl_messages", "Silence", "lets_through")
SET_WORDS = Key("snl_rules", "Words", "set_words")
OF_OVERFULL = Key("snl_messages", "Findings", "of_overfull")
IS_OVERFULL = Key("snl_rules", "Words", "IsOverfull")
CHOICE = Key("snl_messages", "Given", "choice_cmp")
ORDER = Key("snl_messages", "Messages", "message_cmp")
TEXT = Key("snc", "Texts", "messages_text")
TABLES = Key("snc", "Outcomes", "tables_text")
# Those that say something of a source that is no run; the definitions of a run are those of `running`.
NEEDED = (
    LEXEME, AFTER, NOTHING_READ, FLAW, FAULT, FAULT_TEXT, ERROR, REFUSAL, PROGRAMS, SPELLS, IS_PROGRAM, BROKEN, OF_BROKEN, TARGETS, NAMES,
    NUMBER, OF_UNREACHED, OF_EMBEDDED, FINDING, IS_SAFE, LETS_THROUGH, SET_WORDS, OF_OVERFULL, IS_OVERFULL, CHOICE, ORDER, TEXT,
    TABLES,
)  # fmt: skip
DEEPEST, MOST_WORDS = 64, 65_536
# The first token behind so many is past the limit: `IsProgramSaid` of `Judging`.
MOST_TOKENS = 65_536
# A source of more bytes is too long, whatever stands in it: `FaultHolds` of `Lexing`.
MOST_BYTES = 1_048_576
SIGNS = {"Less": -1, "Equal": 0, "Greater": 1}


@dataclass
class Report:
    """The text of the messages about a source, the text of its tables, the status, and the tree as an option."""

    text: bytes
    tables: bytes
    status: tuple
    tree: tuple


class NoTokens(Exception):
    """A source that is no row of tokens: the message about it, and the names of files before it."""

    def __init__(self, said, files):
        """With these."""
        super().__init__("no tokens")
        self.said, self.files = said, files


class Checker:
    """Says what the definitions say of sources."""

    def __init__(self, runner):
        """With the definitions of a runner; what they say of kinds of tokens is kept."""
        self.runner, self.kinds = runner, {}

    def reading(self, source):
        """What is read of a source: at each place the lexeme that stands there is taken. There is one at most, so no other cut goes further."""
        call, read = self.runner.call, self.runner.call(NOTHING_READ)
        if len(source) > MOST_BYTES:
            raise self.faulty(read, ("SourceTooLong", read.pos))
        rest = listed(list(source))
        while rest != NIL:
            found = call(LEXEME, read.opens_line, rest)
            if found == NONE:
                raise self.no_tokens(read, rest)
            text, lexeme = [], found[1]
            for _ in range(lexeme.length):
                text.append(rest[0])
                rest = rest[1]
            read = call(AFTER, read, listed(text), lexeme.sort)
        return read

    def no_tokens(self, read, rest):
        """Why nothing stands at the front of a rest."""
        return self.faulty(read, self.runner.call(FAULT, self.runner.call(FLAW, rest), read.pos))

    def faulty(self, read, fault):
        """A source with a fault, behind what was read of it."""
        words = self.runner.call(FAULT_TEXT, fault)[1]
        return NoTokens(self.runner.call(ERROR, read.pos, self.runner.call(REFUSAL, ("NoTokens",)), words), read.files)

    def tree(self, reading):
        """The tree that the tokens of a reading spell. The definitions have to say so; `NoTree` comes where none is found."""
        tokens = [Record(kind=it.kind, text=Record(now=it.text), pos=it.pos) for it in items_of(reading.tokens)]
        tree = ProgramReader(tokens, self.of_kind).program()
        spelled = self.runner.call(SPELLS, self.runner.call(PROGRAMS), tree, listed(tokens))
        if not spelled or not self.runner.call(IS_PROGRAM, DEEPEST, tree):
            raise NoTree(len(tokens))
        return tree

    def of_kind(self, module, name):
        """What a definition of the syntax says of each kind of token: a dictionary, filled when it is asked."""
        return self.kinds.setdefault((module, name), _Answers(lambda kind: self.runner.call(Key("snl_syntax", module, name), kind)))

    def report(self, source, given, word):
        """What is said of a source where these options are given with it and its file is called by a word. None, where it spells no program:
        whether a token can stand at a place is a relation over all programs."""
        try:
            reading = self.reading(source)
        except NoTokens as failed:
            return self.made(word, failed.files, [failed.said], NONE)
        try:
            tree = self.tree(reading)
        except NoTree:
            return None
        self.runner.definitions.forget()
        return self.made(word, reading.files, self.said(tree, reading, self.runner.call(OPTIONS, tree, given)), some(tree))

    def made(self, word, files, said, tree):
        """A report of some messages and a tree, where there is one."""
        status = ("SourceErrors",) if any(it.severity == ("Error",) for it in said) else ("Well",)
        text = self.runner.call(TEXT, listed(list(word)), files, listed(said))
        return Report(bytes_of(text), bytes_of(self.runner.call(TABLES, True, status, tree)), status, tree)

    def said(self, tree, reading, options):
        """The messages about a tree: of what is found and let through the first for each place and number, in order."""
        found = self.found(tree, reading, options)
        if not any(it.said.severity == ("Error",) for it in found):
            found += self.overfull(tree)
        first = {}
        for it in found:
            if self.runner.call(LETS_THROUGH, options, it):
                key = it.said.pos.offset, it.said.severity, it.said.number
                if key not in first or self.compared(CHOICE, it, first[key]) < 0:
                    first[key] = it
        return sorted((it.said for it in first.values()), key=cmp_to_key(lambda one, other: self.compared(ORDER, one, other)))

    def compared(self, key, one, other):
        """How two things stand to each other by a definition: less than 0, 0, or more."""
        return SIGNS[self.runner.call(key, one, other)[0]]

    def found(self, tree, reading, options):
        """What is found of a tree, but for the limits of words."""
        call = self.runner.call
        found = [call(OF_BROKEN, it) for it in items_of(call(BROKEN, call(SITES, tree)))]
        found += [call(OF_UNREACHED, it) for group in items_of(tree.state_sets) for it in self.unreached(group.states)]
        found += [call(OF_EMBEDDED, it) for it in items_of(reading.embedded)]
        found += [call(FINDING, ("TooManyTokens",), it.pos, NIL) for it in items_of(reading.tokens)[MOST_TOKENS:][:1]]
        return found + [call(FINDING, ("NotSafe",), tree.word.pos, NIL)] * (not call(IS_SAFE, options))

    def unreached(self, states):
        """The names of the states of a set to which no way leads from the first one."""
        rows, names = items_of(states), self.runner.call(NAMES, states)
        reached, waiting = {0}, [0]
        while waiting:
            for token in items_of(self.runner.call(TARGETS, rows[waiting.pop()])):
                number = self.runner.call(NUMBER, names, token.text.now)
                if number != NONE and number[1] not in reached:
                    reached.add(number[1])
                    waiting.append(number[1])
        return [it.name for at, it in enumerate(rows) if at not in reached]

    def overfull(self, tree):
        """The limits of words that are passed."""
        call, sets = self.runner.call, items_of(tree.state_sets)
        found = [call(OF_OVERFULL, it.word) for at, it in enumerate(sets) if call(SET_WORDS, tree, at) > MOST_WORDS]
        return found + [call(FINDING, ("TooManyWords",), tree.word.pos, NIL)] * call(IS_OVERFULL, tree)


class _Answers(dict):
    """What a function gives for each thing that it is asked of."""

    def __init__(self, function):
        """By that function."""
        super().__init__()
        self.function = function

    def __missing__(self, key):
        """Asks once."""
        self[key] = self.function(key)
        return self[key]
