"""The words of a call, and the calls of the built programs: `snl tree` gives the tree of a program, `snlrun` a run to compare with."""
import os
import subprocess
from dataclasses import dataclass, field

from defining.names import Key
from defining.running import BUDGET
from defining.values import bytes_of, items_of, listed

# Where a program stands below the repository, once it is built: by proofs, or else by `bin/try`.
BUILT = {
    "snc": ("crates/snc_main/out/snc", "crates/snc_main/out/snc_main", "crates/snc_main/out/try/snc"),
    "snl": ("crates/snl/out/snl", "crates/snl/out/try/snl"),
    "snlrun": ("crates/snlrun/out/snlrun", "crates/snlrun/out/try/snlrun"),
}
SETTINGS = Key("snc_args", "Options", "options_among")
REST = Key("snc_args", "Options", "rest_words")
GIVEN = Key("snc_args", "Options", "options_in_force")
# A program has ended by then, also beside much else.
SECONDS = 600


class Failed(Exception):
    """A call that can't go on: what is said, and the status."""

    def __init__(self, said, status):
        """A line for standard error."""
        super().__init__(said)
        self.said, self.status = said, status


@dataclass
class Call:
    """What a call of snlrun asks for."""

    file: bytes
    macros: bytes
    budget: int
    # The words that are options of the language, and what is in force by them.
    options: list = field(default_factory=list)
    given: object = None


def program(root, name, path=None):
    """Where a program stands: the path that is given, or where it is built."""
    if path:
        return os.path.abspath(path)
    for it in BUILT[name]:
        if os.access(root / it, os.X_OK):
            return str(root / it)
    raise Failed(f"definitions: {name} is not built here: call bin/{name} or bin/try {name} once, or name one by --{name} PATH", 3)


def options_in(runner, words):
    """The words that are options of the language, those that are none, and what is in force by the options."""
    texts = listed([listed(list(it)) for it in words])
    settings, rest = runner.call(SETTINGS, texts), [bytes_of(it) for it in items_of(runner.call(REST, texts))]
    left = list(rest)
    options = [it for it in words if not (left and left[0] == it and left.pop(0))]
    return options, rest, runner.call(GIVEN, settings)


def call_of(runner, words):
    """The call that words make: options of the language, `--budget N`, FILE and MACROS."""
    options, rest, given = options_in(runner, words)
    budget, plain = BUDGET, []
    while rest:
        word = rest.pop(0)
        if word == b"--":
            plain, rest = plain + rest, []
        elif word == b"--budget" and rest:
            budget = number_of("--budget", rest.pop(0))
        elif word.startswith(b"--budget="):
            budget = number_of("--budget", word.partition(b"=")[2])
        elif word.startswith(b"--"):
            raise Failed(f"definitions: {os.fsdecode(word)} is no word of this call", 2)
        else:
            plain.append(word)
    if len(plain) not in (1, 2):
        raise Failed("definitions: the words are FILE and MACROS", 2)
    return Call(plain[0], plain[1] if plain[1:] else b"", budget, options, given)


def number_of(option, word):
    """The number that the word behind an option is."""
    try:
        number = int(word)
    except ValueError:
        number = 0
    if not 1 <= number <= 1_000_000_000:
        raise Failed(f"definitions: {os.fsdecode(word)} behind {option} is no number from 1 to 1,000,000,000", 2)
    return number


def ran(words, **how):
    """The status of a call, and what it wrote."""
    ended = subprocess.run(words, stdout=subprocess.PIPE, timeout=SECONDS, **how)
    return ended.returncode, ended.stdout


def tree_text(snl, call, **how):
    """The text of the tree of the program of a call. Where it is refused the call ends, and `snl` has told why."""
    status, text = ran([os.fsencode(snl), *call.options, b"tree", b"--", call.file], stdin=subprocess.DEVNULL, **how)
    if status:
        raise Failed(None, status)
    return text
