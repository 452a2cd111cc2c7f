"""What a call of `scripts/definitions` asks for, and its answer."""
import os
import sys
import time
from collections import Counter
from pathlib import Path

from defining import calls, cases, checks, edits, running, showing
from defining.checks import Checker
from defining.deep import deeply
from defining.definitions import NoClause
from defining.running import Runner
from defining.sources import NotUnderstood, path_of
from defining.trees import BadTree, Trees
from defining.values import bytes_of, items_of, listed as list_of
from defining.workers import Outcome, Stopped, Team

# The options of this script, with how many words each takes.
OPTIONS = {
    "--all": 0, "--cases": 0, "--coverage": 0, "--edit": 3, "--first": 1, "--footprint": 0, "--jobs": 1, "--links": 0, "--list": 0,
    "--sites": 0, "--messages": 0, "--refused": 0, "--slips": 0, "--snc": 1, "--snl": 1, "--snlrun": 1, "--tables": 0, "--why": 1,
}  # fmt: skip
# What is read off a tree without a run: of the tree alone, or of the tree and its links.
OF_TREE = {"--tables": running.TABLES, "--sites": running.SITES}
OF_LINKS = {"--footprint": running.FOOTPRINT}
FIRST = 20
# So many cases are told that took longest, of those that took so many seconds of a processor.
DEAREST, DEAR = 10, 1


def say(line):
    """A line to standard error."""
    print(line, file=sys.stderr, flush=True)


def parted(words):
    """The options of this script among some words, and the words that are left."""
    found, left, words = {}, [], list(words)
    while words:
        word = words.pop(0)
        if word.partition("=")[0] in OPTIONS and "=" in word:
            word, _, first = word.partition("=")
            words.insert(0, first)
        if word not in OPTIONS:
            left.append(word)
            continue
        if len(words) < OPTIONS[word]:
            raise calls.Failed(f"definitions: {word} takes {OPTIONS[word]} words", 2)
        found[word], words = words[: OPTIONS[word]], words[OPTIONS[word] :]
    return found, left


def answered(root, words, usage):
    """Does what words ask for; the status."""
    if not words or words[0] in ("--help", "-h"):
        print(usage)
        return 0 if words else 2
    try:
        options, left = parted(words)
        return answer(root, options, left)
    except calls.Failed as failed:
        if failed.said:
            say(failed.said)
        return failed.status
    except (NotUnderstood, NoClause, BadTree) as failed:
        say(f"definitions: {failed}")
        return 2
    except OSError as failed:
        say(f"definitions: {os.fsdecode(failed.filename or 'a stream')}: {failed.strerror}")
        return 3


def answer(root, options, words):
    """The status of what is asked for."""
    of_cases = "--cases" in options or "--all" in options or "--coverage" in options
    if of_cases and not {"--list", "--slips", "--edit"} & options.keys():
        return compared(root, options, words)
    if "--jobs" in options:
        raise calls.Failed("definitions: --jobs goes with --cases, --all and --coverage", 2)
    return deeply(lambda: answer_alone(root, options, words))


def answer_alone(root, options, words):
    """The same of what takes one process."""
    if "--list" in options:
        return listed(Runner(root))
    if "--slips" in options:
        return slips(root, options)
    if "--edit" in options:
        return edited(root, options, words)
    return messages(root, words) if "--messages" in options else one_run(root, options, words)


def messages(root, words):
    """Writes the messages about a source, as snc does; the status is that of snc, or 2 where it can't be told what is said."""
    runner = Runner(root)
    call = calls.call_of(runner, [os.fsencode(it) for it in words])
    report = Checker(runner).report(Path(os.fsdecode(call.file)).read_bytes(), call.given, call.file)
    if report is None:
        say("definitions: the tokens spell no program; where they begin to spell none is not computed")
        return 2
    sys.stdout.buffer.write(report.text)
    return runner.call(running.CODE, report.status)


def one_run(root, options, words):
    """Runs one program, and writes its lines, or the calls of a definition."""
    runner = Runner(root)
    call = calls.call_of(runner, [os.fsencode(it) for it in words])
    tree = tree_of(root, options, runner, call)
    for option in ("--tables", "--sites", "--links", "--footprint"):
        if option in options:
            return write_of(runner, option, tree, call)
    heard = None
    if "--why" in options:
        most = calls.number_of("--first", os.fsencode(options["--first"][0])) if "--first" in options else FIRST
        heard = showing.Calls(runner.definitions, options["--why"][0], most)
    lines, end = runner.run(runner.load(tree, call.given, call.macros), sys.stdin.buffer.read(), call.budget)
    sys.stdout.buffer.write("".join(heard.heard).encode() if heard else lines)
    sys.stdout.flush()
    if heard and heard.count > len(heard.heard):
        say(f"and {heard.count - len(heard.heard)} calls more")
    say(f"ended by {showing.shown(end)}")
    return runner.status(end)


def tree_of(root, options, runner, call):
    """The tree of a program: that of `snl tree`; with --refused that which its tokens spell, so also of one that the rules refuse."""
    if "--refused" not in options:
        return Trees(runner.definitions.names).program(calls.tree_text(program(root, options, "snl"), call))
    checker = Checker(runner)
    try:
        return checker.tree(checker.reading(Path(os.fsdecode(call.file)).read_bytes()))
    except (checks.NoTokens, checks.NoTree) as failed:
        raise calls.Failed(f"definitions: the source has no tree: {failed}", 1) from None


def write_of(runner, option, tree, call):
    """Writes what is read off a tree: its tables, its sites, its links, or how many words it needs."""
    if option in OF_TREE:
        found = runner.call(OF_TREE[option], tree)
    else:
        links = runner.call(running.LINKS, tree, list_of(list(call.macros)))
        found = runner.call(OF_LINKS[option], tree, links) if option in OF_LINKS else links
    if option == "--tables":
        sys.stdout.buffer.write(bytes_of(found))
    else:
        print("\n".join(map(showing.shown, [found] if type(found) is int else items_of(found))))
    return 0


def program(root, options, name):
    """Where a program stands."""
    return calls.program(root, name, *options.get(f"--{name}", ()))


def listed(runner):
    """Writes the definitions that are run: those of a run, and behind them those that say more of a source."""
    definitions, shown = runner.definitions, set()
    for what, needed in needed_by(runner):
        for key in sorted(needed - shown, key=str):
            print(f"{path_of(key.crate, key.module)}:{definitions.names.definition(key).line} {key.name}")
        shown |= needed
        files, clauses = {(key.crate, key.module) for key in needed}, sum(key in needed for key, _ in definitions.clauses)
        print(f"{len(needed)} definitions of {len(files)} files {what}, {clauses} clauses")
    return 0


def needed_by(runner):
    """The definitions that are needed: for runs, and for all that is computed of a source."""
    of_runs = set(runner.definitions.takes)
    for key in checks.NEEDED:
        runner.definitions.function(key)
    return ("under a run", of_runs), ("in all", set(runner.definitions.takes))


def comparer(root, options, runner):
    """What compares cases."""
    programs = {name: program(root, options, name) for name in ("snl", "snlrun", "snc")}
    return cases.Comparer(runner, Trees(runner.definitions.names), programs, "--all" not in options)


def chosen(root, words):
    """The cases whose name has one of some words; all, where there is none."""
    return (it for it in cases.all_cases(Path(root)) if not words or any(word in it.name for word in words))


def jobs_of(options):
    """How many processes ask cases: those that are asked for, or one for each processor that there is."""
    if "--jobs" in options:
        return calls.number_of("--jobs", os.fsencode(options["--jobs"][0]))
    return len(os.sched_getaffinity(0)) if hasattr(os, "sched_getaffinity") else os.cpu_count() or 1


def compared(root, options, words):
    """Runs cases, and tells those that differ; with --coverage the clauses that none reaches."""
    jobs, every, began = jobs_of(options), [*chosen(root, words)], time.monotonic()
    runner = deeply(lambda: Runner(root))
    needed = deeply(lambda: needed_by(runner))
    compare, counts, different, times = comparer(root, options, runner), Counter(), 0, []
    reached = runner.definitions.reached
    with Team(every, jobs, compare.outcome, lambda: bytes(reached)) as team:
        try:
            for it, outcome in team.outcomes():
                if outcome.stop:
                    raise calls.Failed(*outcome.stop)
                counts.update(outcome.counts)
                times.append((outcome.seconds, it.name))
                different += told(team, f"DIFFERENT {it.name}", outcome)
            for rest in team.rests():
                different += told(team, "DIFFERENT at its end", rest) if isinstance(rest, Outcome) else merged(reached, rest)
        except Stopped:
            for it, outcome in team.left():
                told(team, f"DIFFERENT {it.name}", outcome)
            team.clear()
            say(f"definitions: stopped when {team.asked} of {len(every)} cases had been asked, {team.different} different")
            raise
    write_sums(counts, different)
    if "--coverage" in options:
        write_unreached(runner.definitions, needed)
    say_times(times, time.monotonic() - began)
    return 1 if different or not counts[cases.RUNS] + counts[cases.SOURCES] else 0


def told(team, name, outcome):
    """Writes what differs, and says whether something does."""
    if outcome.told:
        team.clear()
        print(f"{name}: {outcome.told}", flush=True)
    return bool(outcome.told)


def merged(reached, more):
    """Notes the clauses that another process reached. Those that were written after it began have other numbers there, and count for nothing."""
    for at, it in enumerate(more[: len(reached)]):
        reached[at] |= it
    return False


def write_sums(counts, different):
    """Writes how many cases were asked, and how many were skipped for what."""
    skipped = [f"{counts[it]} {it}" for it in cases.SKIPPED if counts[it]]
    sums = f"{counts[cases.RUNS]} runs and the messages about {counts[cases.SOURCES]} sources by the definitions"
    print(f"{sums}, {different} different, {sum(counts[it] for it in cases.SKIPPED)} skipped")
    if skipped:
        print(f"skipped: {', '.join(skipped)}", flush=True)


def say_times(times, wall):
    """Says what the cases took, and which took longest."""
    say(f"definitions: {wall:.0f} s, and {sum(it[0] for it in times):.0f} s of a processor for {len(times)} cases")
    for took, name in sorted(times, reverse=True)[:DEAREST]:
        if took >= DEAR:
            say(f"definitions: {took:.1f} s: {name}")


def write_unreached(definitions, needed):
    """Writes the clauses that nothing reached, and how many they are of those under a run, and of all."""
    rows = [(key, clause) for at, (key, clause) in enumerate(definitions.clauses) if key in needed[-1][1] and not definitions.reached[at]]
    for key, clause in rows:
        print(f"{path_of(key.crate, key.module)}:{clause.line} {' '.join(clause.text.split())}")
    for what, keys in needed:
        total, unreached = sum(key in keys for key, _ in definitions.clauses), sum(key in keys for key, _ in rows)
        print(f"{unreached} of {total} clauses {what} are reached by no case")


def edited(root, options, words):
    """Tells by which case another text in a definition is seen."""
    runner = Runner(root)
    needed_by(runner)
    seen = seen_by(root, options, runner, edits.Edit(*options["--edit"]), chosen(root, words))
    print(f"seen by {seen}" if seen else "seen by no case")
    return 0 if seen else 1


def seen_by(root, options, runner, edit, chosen_cases):
    """The first case that sees an edit, with what differs."""
    with runner.with_edit(edit):
        compare = comparer(root, options, runner)
        for it in chosen_cases:
            try:
                told = compare.difference(it)
            except (NoClause, TypeError, AttributeError, RecursionError, ZeroDivisionError, IndexError) as failed:
                told = f"the run stops: {failed}"
            if told:
                return f"{it.name}: {told}"
    return None


def slips(root, options):
    """Tries each edit of the table on the case that it names."""
    runner, every = Runner(root), {it.name: it for it in cases.all_cases(Path(root))}
    needed_by(runner)
    rows, unseen = edits.table(Path(root, "cases/slips")), 0
    for edit in rows:
        if edit.case not in every:
            raise calls.Failed(f"definitions: cases/slips: there is no case {edit.case}", 2)
        if not seen_by(root, options, runner, edit, [every[edit.case]]):
            unseen += 1
            print(f"NOT SEEN {edit.file}: {edit.old} -> {edit.new}: by {edit.case}", flush=True)
    print(f"{len(rows)} edits of definitions, {unseen} not seen")
    return 1 if unseen or not rows else 0
