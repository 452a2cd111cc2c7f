"""The tables that bin/check, .ci/run and bin/start read, beside the crates and the cases that there are; and how many tasks memory allows."""
import re
import sys

ROOM = ((7.9, 4, 1), (1000.0, 4, 4), (1000.0, 1, 1))


def missing(root, cases):
    """What is wrong with the tables, and with what is reckoned by them."""
    sys.path.insert(0, str(root / "scripts"))
    from proving import costs

    crates = {*costs.crates_of(root)}
    found = [f"bin/parts/costs.txt: there is no crate {it}" for it in costs.costs() if re.sub(r"[.]tests$", "", it) not in {*crates, costs.OTHER}]
    lines = lines_of(root / "bin/parts/costs.txt")
    found += [f"bin/parts/costs.txt: {it}: GB have one digit behind the point" for it in lines if not re.search(r" \d+\.\d$", it)]
    rows = [it.partition(":")[::2] for it in lines_of(root / "cases/reach.txt")]
    names = [it for front, _ in rows for it in front.split()]
    found += [f"cases/reach.txt: there is no crate and no path {it}" for it in names if it not in crates and not begins_a_path(root, it)]
    words = {it for _, words in rows for it in words.split()} - {"all", "none"}
    found += [f"cases/reach.txt: no case has the word {it}" for it in sorted(words) if not any(it in case.name for case in cases)]
    for room, processors, tasks in ROOM:
        if costs.tasks_at_a_time(room, processors) != tasks:
            found.append(f"{room} GB and {processors} processors do not give {tasks} tasks")
    return [f"FAILED {it}" for it in found]


def lines_of(file):
    return [it for it in file.read_text().splitlines() if it.strip() and it[0] != "#"]


def begins_a_path(root, front):
    folder, _, name = front.rpartition("/")
    return any((root / folder).glob(f"{name}*"))
