"""Sources and traces that are cut short, spoilt or random: whatever the bytes, each answer has one of the forms."""
import random
import re

from case import Case

MESSAGE = re.compile(rb"p\.st:\d+: (error: E\d\d|warning: W\d) [^\n]+\n|trace:\d+: [a-zA-Z ]+\n", re.DOTALL)
LINE = re.compile(rb"\d+ (start|put|go|fault) [ -~]+\n")


def cases(root):
    """All made of the stored run of snlrun."""
    crate = root / "crates/snlrun"
    source, trace = (crate / "data/p.st").read_bytes(), (crate / "stdin").read_bytes()
    for count in range(len(source.rstrip())):
        yield of_source(f"the first {count} bytes of a source", source[:count])
        for byte in (0x00, 0x80, ord("(")):
            spoilt = source[:count] + bytes([byte]) + source[count + 1 :]
            if spoilt != source:
                # The name of a channel may have any bytes, but for a byte 0, which no string has.
                in_name = source[:count].count(b'"') % 2 == 1 and source[count] != ord('"') and byte != 0
                yield of_source(f"a source whose byte {count} is {byte}", spoilt, in_name)
    for count in range(len(trace)):
        yield of_trace(f"the first {count} bytes of a trace", source, trace[:count])
    for seed in range(100):
        numbers = random.Random(seed)
        yield of_source(f"random source {seed}", some_bytes(numbers, source))
        yield of_trace(f"random trace {seed}", source, some_bytes(numbers, trace))


def some_bytes(numbers, text):
    """Up to 255 bytes: any, or those of some text."""
    pool = numbers.choice([range(256), text])
    return bytes(numbers.choices(pool, k=numbers.randrange(256)))


def of_source(name, source, is_program=False):
    """Most of these are no programs: where the last brace is missing, where a parenthesis is one too many, and so on."""
    return Case(f"broken: {name}", source, stderr=MESSAGE, statuses=(0,) if is_program else (1,))


def of_trace(name, source, trace):
    return Case(f"broken: {name}", source, trace, stdout=LINE, stderr=MESSAGE, statuses=(0, 5, 6))
