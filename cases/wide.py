"""Programs with many channels, over random traces. What they have to write is worked out here, from the rules of docs/LANGUAGE.md.

A clause for each channel tells its value when that is another one than before. Channels come in any order, some of them twice, and
some values come before the start or for a channel that the program does not use. The last variable has the channel of the first.
"""
import random

from case import Case

# One word of marks holds 64 links, so these stand on both sides of its ends.
COUNTS = (1, 2, 63, 64, 65, 130, 200)


def cases():
    for count in COUNTS:
        for seed in range(3):
            numbers = random.Random(f"{count} {seed}")
            lines = some_lines(count, numbers)
            yield Case(f"wide: {count} channels, trace {seed}", program(count), text(lines), stdout=text(told(count, lines)))


def text(lines):
    return "".join(f"{it}\n" for it in lines).encode()


def program(count):
    """Variable k has the channel `c:k`; the last one has that of the first."""
    channels = [*range(count), 0]
    head = [f'int v{k}; assign v{k} to "c:{channel}"; monitor v{k}; int w{k};' for k, channel in enumerate(channels)]
    clauses = [f'when (v{k} != w{k}) {{ w{k} = v{k}; printf("{k} %d", v{k}); }} state s' for k in range(count + 1)]
    return text(["program wide", "option +s;", *head, "ss all { state s {", *clauses, "} }"])


def some_lines(count, numbers):
    """Each channel is up and has a value, in any order; then come values, ticks, and values of no channel."""
    opening = [(k, word) for k in range(count) for word in ("up", "val", "val")[: numbers.choice((2, 3))]]
    numbers.shuffle(opening)
    lines = [f"{time} {word} c:{k}" + f" {numbers.randrange(-3, 4)}" * (word == "val") for time, (k, word) in enumerate(opening)]
    for time in range(len(lines), len(lines) + 100):
        what = [f"val c:{numbers.randrange(count)} {numbers.randrange(-3, 4)}", "tick", f"val c:{count} 1", "up c:0"]
        lines.append(f"{time} {numbers.choices(what, (6, 1, 1, 1))[0]}")
    return lines


def told(count, lines):
    """The lines of the run. Each round has one transition, that of the first clause whose value differs."""
    up, valued, now, before, started = set(), set(), [0] * (count + 1), [0] * (count + 1), False
    for line in lines:
        time, word, *rest = line.split()
        if word != "tick" and rest[0] != f"c:{count}":
            channel = int(rest[0][2:])
            (up if word == "up" else valued).add(channel)
            if word == "val":
                for k in (channel, count) if channel == 0 else (channel,):
                    now[k] = int(rest[1])
        if not started and len(up) == len(valued) == count:
            started = True
            yield f"{time} start wide"
        for k in range(count + 1 if started else 0):
            if now[k] != before[k]:
                before[k] = now[k]
                yield f"{time} print all {k} {now[k]}"
                yield f"{time} go all s s"
