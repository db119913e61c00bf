"""A log that is watched as it comes, as docs/FORMATS.md says it: an independent reading, and what `fsr watch` answers.

    watches.py [FILE]     prints it of the file or the standard input, with its status

At most 7 operations are judged by all orders, more of them by a search that remembers where it was (exchanges.py).
"""

import collections
import sys

import documents
import exchanges
from exchanges import must
from small_lines import Fault, is_whole, value_of

SPACE = b" \t\n\f\r"
MOST_BYTES = 1048576

# What was seen: the opening, the operations and the line of each, their one key, the highest floor of each task that is named and its line,
# that of all, and how many floors there are. A line is none where there is no floor.
Floor = collections.namedtuple("Floor", "at line")
Seen = collections.namedtuple("Seen", "opening ops lines keys tasks all floors ended")


def lines_of(data):
    lines = data.split(b"\n")
    return lines if lines[-1] else lines[:-1]


def header_in(line):
    found = value_of(line, 1)
    must(isinstance(found, dict) and found.get("kind") == "lines", 1, "kind")
    opening, limit = exchanges.head_of(found)
    must(limit is None, 1, "law of limit")
    tasks = found.get("who") or []
    must(isinstance(found.get("who"), (list, type(None))) and all(map(is_whole, tasks)), 1, "shape of who")
    return Seen(opening, [], [], [], {who: Floor(0, None) for who in tasks}, Floor(0, None), 0, None)


def known(ops, moment):
    """The operations as they are known at a moment: what ends later has no end."""
    return [op if op.ends is None or op.ends <= moment else op._replace(ends=None) for op in ops]


def lost_before(seen, moment):
    """The first moment before this one at which no order of what is known is lawful, or nothing. What began later than it counts as well: it
    has no end."""
    ends = sorted({op.ends for op in seen.ops if op.ends is not None and op.ends < moment})
    return next((end for end in ends if not exchanges.is_lawful(seen.opening, known(seen.ops, end))), None)


def lost(seen, moment):
    """What is told where the log is lost by a moment: any line whose operation ended then may be named."""
    at = lost_before(seen, moment)
    if at is None:
        return None
    return at, {line for op, line in zip(seen.ops, seen.lines) if op.ends == at}


def higher(floor, at, number):
    return Floor(at, number) if floor.line is None or at > floor.at else floor


def raise_task(seen, who, at, number):
    """What is seen with a floor of one task: where each has one, the least of them is one of all."""
    tasks = {**seen.tasks, who: higher(seen.tasks[who], at, number)}
    least = min(it.at for it in tasks.values())
    return seen._replace(tasks=tasks, all=higher(seen.all, least, number) if least > seen.all.at else seen.all)


def take_floor(seen, number, found):
    must("begin" in found, number, "missing begin")
    must(is_whole(found["begin"]), number, "shape of begin")
    who, at = found.get("who"), found["begin"]
    must(who is None or is_whole(who), number, "shape of who")
    seen = seen._replace(floors=seen.floors + 1)
    if who is None or not seen.tasks:
        return seen._replace(all=higher(seen.all, at, number))
    must(who in seen.tasks, number, "law of who")
    return raise_task(seen, who, at, number)


def take_end(seen, number, found):
    must("ops" in found, number, "missing ops")
    must(is_whole(found["ops"]), number, "shape of ops")
    must(found["ops"] == len(seen.ops), number, "law of ops")
    return seen._replace(ended=number)


def take_operation(seen, number, found):
    exchanges.refuse_shapes(number, found)
    exchanges.refuse_laws(number, found)
    key = exchanges.record_of(found.get("key"))
    must(not seen.ops or key == seen.keys[0], number, "law of key")
    must(found["kind"] != "refused", number, "missing limit")
    must(not seen.tasks or found["who"] in seen.tasks, number, "law of who")
    for floor in (seen.tasks.get(found["who"], seen.all), seen.all):
        must(found["begin"] >= floor.at, number, f"begins below the floor of line {floor.line}")
    op, _ = exchanges.meaning(seen.opening, found)
    seen = seen._replace(ops=[*seen.ops, op], lines=[*seen.lines, number], keys=[*seen.keys, key])
    if not seen.tasks or found["end"] is None:
        return seen
    return raise_task(seen, found["who"], found["end"], number)


def take(seen, number, line):
    if len(line) <= MOST_BYTES and not line.strip(SPACE):
        return seen
    must(seen.ended is None, seen.ended, "shape of kind")
    found = value_of(line, number)
    found = found if isinstance(found, dict) else {}
    by_kind = {"floor": take_floor, "done": take_end}
    kind = found.get("kind")
    return by_kind.get(kind if isinstance(kind, str) else None, take_operation)(seen, number, found)


def watch(data):
    """What is told: the counts of a lawful log, or the moment at which it is lost with the lines that may be named. A fault is raised."""
    lines = lines_of(data)
    must(lines, 1, "not JSON")
    seen = header_in(lines[0])
    for number, line in enumerate(lines[1:], 2):
        before, seen = seen.all.at, take(seen, number, line)
        if seen.all.at > before:
            told = lost(seen, seen.all.at)
            if told:
                return told
    return lost(seen, float("inf")) or seen


def counts(seen):
    unfinished = sum(op.ends is None for op in seen.ops)
    uncertain = sum(op.maybe and op.ends is not None for op in seen.ops)
    cut = "" if seen.ended else "; no last line `done`"
    return f"{len(seen.ops)} operations, {unfinished} unfinished, {uncertain} uncertain, {seen.floors} floors{cut}\n"


def lost_text(at, line):
    return f"unlawful lost {line}\nThe log is lost at {at}, when line {line} ended: no order of what is known by then is lawful, whatever comes.\n"


def answers(data):
    """Each text that may be told, the line on standard error, and the status."""
    try:
        told = watch(data)
    except Fault as fault:
        return [""], f"fsr: {fault}\n", 3
    if isinstance(told, Seen):
        return ["lawful\n" + counts(told)], "", 0
    return [lost_text(told[0], line) for line in sorted(told[1])], "", 1


def main(words):
    data = documents.bytes_asked_for(words)
    texts, line, status = answers(data)
    sys.stdout.write(texts[0])
    sys.stderr.write(line)
    return status


if __name__ == "__main__":
    sys.exit(main(sys.argv[1:]))
