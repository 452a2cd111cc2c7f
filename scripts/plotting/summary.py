"""The sentences at the top of a picture: how the run ended, and how much there was."""
from plotting.record import Record
from plotting.times import Times, many

# So many things are named; of more the rest is counted.
MOST_NAMED = 8


def ending(record: Record, times: Times) -> tuple[str, bool]:
    """How it ended, and whether something is wrong with that."""
    there = f"{standing(record, times)}."
    if record.fault is not None:
        return f"Stopped at {times.at(record.over)} by a fault in {record.fault}. Then {there}", True
    if record.bad:
        begun = f"Then {there}" if record.began is not None else "The program had not begun."
        return f"Stopped by a bad line of the trace, {record.bad}. {begun}", True
    if record.began is None:
        waits = f": it waits for {listed(record.waits)}" if record.waits else ""
        return f"The program never began{waits}.", True
    if record.is_cut:
        return f"The trace could not be read to its end. Then {there}", True
    if record.over is not None:
        return f"The program ended by itself at {times.at(record.over)}.", False
    return f"{f'At {times.at(record.stop())}' if record.goes_on else 'At the end'}: {there}", False


def standing(record: Record, times: Times) -> str:
    """Where each state set stands at the end of what is drawn."""
    there = [it for it in record.sets if it.state is not None]
    texts = [f"{it.name} in {it.states[it.state]} since {times.at(it.since)}" for it in there]
    return listed(texts) if texts else "no state set has begun"


def summary(record: Record, times: Times) -> list:
    """How much there was, and what never was, in sentences."""
    counts = record.counts
    begin, stop = record.begin(), record.stop()
    things = [
        many(counts.lines, "line of the trace", "lines of the trace"),
        many(counts.transitions, "transition"),
        many(counts.puts, "put"),
        *([f"{counts.refused} refused"] if counts.refused else []),
        many(counts.prints, "print"),
        many(record.wakes.count, "wake"),
    ]
    told = [f"{times.at(begin)} to {times.at(stop)}{times.dates(begin)}.", ", ".join(things) + "."]
    never = [f"{it.name} {state}" for it in record.sets if it.is_drawn for state in it.never()]
    if never and record.began is not None:
        told.append(f"{'Never entered' if record.is_whole() else 'Not entered in this part'}: {listed(never)}.")
    if record.hints:
        told += [f"{it.rstrip('?.')}{'?' if it.endswith('?') else '.'}" for it in record.hints]
    elif record.unknown:
        names = [f"{name} (line {line})" for name, line in record.unknown.items()]
        told.append(f"No {'channel' if len(names) == 1 else 'channels'} of the program: {listed(names)}.")
    return told


def listed(texts: list) -> str:
    """Texts in a sentence."""
    more = len(texts) - MOST_NAMED
    return ", ".join(texts[:MOST_NAMED]) + (f" and {more} more" if more > 0 else "")
