"""Logs in lines whose records repeat, as docs/FORMATS.md says them: an independent reading, and what `fsr order` answers.

    exchanges.py [FILE]     prints it of the file or the standard input, with its status

At most 7 operations are judged by all orders, more of them by J. Wing's and C. Gong's search (1993), which remembers where it was.
"""

import collections
import sys

import documents
import sweeps
from small_lines import Fault, is_whole, record_of, value_of

NEEDED = ("who", "kind", "begin", "end", "record")
KINDS = ("write", "maybe", "read", "cas", "refused")
MOST_BY_ALL_ORDERS = 7

# A line: its text, its key, what it does, and the records that it names.
Line = collections.namedtuple("Line", "text key op records")
# A log: the opening, the limit or None, its lines, and whether the end is there.
Log = collections.namedtuple("Log", "opening limit lines ended")


def must(holds, number, why):
    if not holds:
        raise Fault(f"line {number}: {why}")


def lines_of(data):
    """The lines without the white space behind the last one."""
    return data.rstrip(b" \t\n\f\r").split(b"\n")


def has_repeats(data):
    """Whether the first line of a text says that this is such a log."""
    try:
        header = documents.read_json(lines_of(data)[0])
    except documents.Refused:
        return False
    return isinstance(header, dict) and header.get("kind") == "lines" and header.get("repeats") is True


def head_of(header):
    must("opening" in header, 1, "missing opening")
    opening, limit = record_of(header["opening"]), header.get("limit")
    must(opening is not None, 1, "shape of opening")
    must(limit is None or is_whole(limit), 1, "shape of limit")
    must(limit is None or 1 <= limit <= documents.MAX_LIMIT, 1, "range of limit")
    return opening, limit


def is_maybe_record(value):
    return value is None or record_of(value) is not None


def refuse_shapes(number, found):
    for key in NEEDED:
        must(key in found, number, f"missing {key}")
    kind = found["kind"]
    must(is_whole(found["who"]), number, "shape of who")
    must(isinstance(kind, str) and kind in KINDS, number, "shape of kind")
    must(is_whole(found["begin"]), number, "shape of begin")
    must(found["end"] is None or is_whole(found["end"]), number, "shape of end")
    must(is_maybe_record(found["record"]), number, "shape of record")
    must(is_maybe_record(found.get("key")), number, "shape of key")
    if kind == "cas":
        must("from" in found, number, "missing from")
        must("swapped" in found, number, "missing swapped")
        must(record_of(found["from"]) is not None, number, "shape of from")
        must(found["swapped"] in (True, False, None) and not is_whole(found["swapped"]), number, "shape of swapped")
        must(is_maybe_record(found.get("found")), number, "shape of found")


def refuse_laws(number, found):
    end, is_cas = found["end"], found["kind"] == "cas"
    must(end is None or end >= found["begin"], number, "end before begin")
    must(found["record"] is not None or (found["kind"] == "read" and end is None), number, "law of record")
    must(not is_cas or found["swapped"] is None or end is not None, number, "law of swapped")
    saw = found.get("found") if is_cas else None
    may_see = saw is None or (found["swapped"] is False and record_of(saw) != record_of(found["from"]))
    must(may_see, number, "law of found")


def meaning(opening, found):
    """What an operation does, and the records that it names."""
    begin, end, record = found["begin"], found["end"], record_of(found["record"])
    if found["kind"] in ("write", "maybe"):
        return sweeps.Operation(begin, end, found["kind"] == "maybe", "sets", record, None), {record}
    if found["kind"] == "refused":
        return sweeps.Operation(begin, end, False, "refuses", record, None), {record}
    if found["kind"] == "read":
        return sweeps.Operation(begin, end, False, "gets", opening if record is None else record, None), {record} - {None}
    expected, saw = record_of(found["from"]), record_of(found.get("found"))
    named = {expected, record, saw} - {None}
    if found["swapped"] is None:
        return sweeps.Operation(begin, end, True, "tries", expected, record), named
    if found["swapped"]:
        return sweeps.Operation(begin, end, False, "swaps", expected, record), named
    if saw is None:
        return sweeps.Operation(begin, end, False, "misses", expected, None), named
    return sweeps.Operation(begin, end, False, "finds", expected, saw), named


def is_end(number, found, count, last):
    if found.get("kind") != "done":
        return False
    must("ops" in found, number, "missing ops")
    must(is_whole(found["ops"]), number, "shape of ops")
    must(last, number, "shape of kind")
    must(found["ops"] == count, number, "law of ops")
    return True


def read(data):
    texts, whole = lines_of(data), data.split(b"\n")
    (opening, limit), lines = head_of(documents.read_json(texts[0])), []
    for number, text in enumerate(texts[1:], 2):
        found = value_of(text, number)
        found = found if isinstance(found, dict) else {}
        if is_end(number, found, len(lines), number == len(texts)):
            return Log(opening, limit, lines, True)
        refuse_shapes(number, found)
        refuse_laws(number, found)
        key = record_of(found.get("key"))
        must(not lines or key == lines[0].key, number, "law of key")
        must(found["kind"] != "refused" or limit is not None, number, "missing limit")
        lines.append(Line(whole[number - 1].decode(), key, *meaning(opening, found)))
    return Log(opening, limit, lines, False)


def is_found(machine, ops):
    """Whether a search finds a lawful order. Only what some operation that is due has to come before can't be placed next, and what
    precedes an operation that is placed."""
    due = {p for p, op in enumerate(ops) if sweeps.is_due(op)}
    waiting = [(frozenset(), machine.opening)]
    seen = set(waiting)
    while waiting:
        placed, state = waiting.pop()
        if due <= placed:
            return True
        latest, first = max((ops[p].starts for p in placed), default=0), min(ops[p].ends for p in due - placed)
        for p, op in enumerate(ops):
            if p in placed or op.starts > first or (op.ends is not None and op.ends < latest):
                continue
            more = placed | {p}, machine.step(state, op)
            if more[1] is not None and more not in seen:
                seen.add(more)
                waiting.append(more)
    return False


def is_lawful(opening, ops, limit=None):
    """Whether there is a lawful order. Without a limit a refused write is as a read of the record that it saw."""
    machine = sweeps.Exchanging(opening) if limit is None else sweeps.LimitedExchanging(opening, limit)
    return sweeps.has_order(machine, ops) if len(ops) <= MOST_BY_ALL_ORDERS else is_found(machine, ops)


def known_by(ops, end, place):
    """What the log is at an end, of several at that moment those at earlier places before it: what has begun, where all else is unfinished."""
    began = [(op, op.ends is not None and (op.ends, p) <= (end, place)) for p, op in enumerate(ops) if op.starts <= end]
    return [op if has_ended else op._replace(ends=None) for op, has_ended in began]


def lost_at(opening, ops, judge=is_lawful):
    """The place of the first end at which no order of what is known is lawful, or nothing."""
    if judge(opening, ops):
        return None
    ends = sorted((op.ends, place) for place, op in enumerate(ops) if op.ends is not None)
    return next(place for end, place in ends if not judge(opening, known_by(ops, end, place)))


def may_find(op):
    """Whether an operation is sure to have found a record, and says which."""
    return sweeps.is_due(op) and op.kind in ("gets", "swaps", "finds", "refuses")


def leaves(op):
    """The record that an operation can leave where another one was."""
    made = {"sets": op.first, "swaps": op.second, "tries": op.second}.get(op.kind)
    return None if op.kind in ("swaps", "tries") and op.first == op.second else made


def alone(opening, op, others):
    """Whether an operation has a lawful order beside others of which each may have written what it can leave."""
    writes = [it._replace(kind="sets", first=leaves(it), second=None, maybe=True) for it in others if leaves(it) is not None]
    return is_lawful(opening, [op, *writes])


def unsourced(opening, ops, place):
    """Why an operation can't have found its record: `unwritten`, if no other one left it whenever that began; else `early`, and the first place
    of those that have to begin sooner. Nothing if it may have found it."""
    op, others = ops[place], [*ops[:place], *ops[place + 1:]]
    if not may_find(op) or alone(opening, op, others):
        return None
    if not alone(opening, op, [it._replace(starts=0) for it in others]):
        return ("unwritten",)
    sooner = [q for q in range(len(ops)) if q != place and alone(opening, op, [ops[q]._replace(starts=0)])]
    return "early", min(sooner, key=lambda q: (ops[q].starts, q))


def unsourced_text(log, place, why):
    line, op = place + 2, log.lines[place].op
    if why == ("unwritten",):
        sentence = f"Line {line} found a record that is neither the opening nor written by another line."
        return f"unlawful unwritten {line}\nline {line}: {log.lines[place].text}\n{sentence}\n"
    other, source = why[1] + 2, log.lines[why[1]]
    shown = "".join(f"line {n}: {log.lines[n - 2].text}\n" for n in sorted((line, other)))
    times = f"line {line} ended at {op.ends}, line {other}, the first that can, began at {source.op.starts}"
    return f"unlawful early {line} {other}\n{shown}Line {line} found a record that no other line can have written by then: {times}.\n"


def counts(log):
    ops = [it.op for it in log.lines]
    unfinished, uncertain = sum(op.ends is None for op in ops), sum(op.maybe and op.ends is not None for op in ops)
    records = {log.opening}.union(*(it.records for it in log.lines))
    cut = "" if log.ended else "; no last line `done`"
    return f"{len(ops)} operations, {unfinished} unfinished, {uncertain} uncertain, {len(records)} records{cut}\n"


def limit_text(log):
    """What is told of a log that has a lawful order without its limit, and none with it; nothing of any other."""
    ops = [it.op for it in log.lines]
    if log.limit is None or not is_lawful(log.opening, ops):
        return None
    place = lost_at(log.opening, ops, lambda opening, known: is_lawful(opening, known, log.limit))
    if place is None:
        return None
    line, lost = place + 2, log.lines[place]
    told = f"no order of the operations is lawful with the limit {log.limit}; without it the log is lawful"
    return f"unlawful limit {line}\nline {line}: {lost.text}\nUp to the end of line {line}, at {lost.op.ends}, {told}.\n"


def answer(data):
    """The text, the line on standard error, and the status."""
    try:
        log = read(data)
    except Fault as fault:
        return "", f"fsr: {fault}\n", 3
    ops, by_limit = [it.op for it in log.lines], limit_text(log)
    if by_limit:
        return by_limit + counts(log), "", 1
    place = lost_at(log.opening, ops)
    if place is None:
        return "lawful\n" + counts(log), "", 0
    why = unsourced(log.opening, ops, place)
    if why:
        return unsourced_text(log, place, why) + counts(log), "", 1
    line, lost = place + 2, log.lines[place]
    told = f"Up to the end of line {line}, at {lost.op.ends}, no order of the operations is lawful."
    return f"unlawful lost {line}\nline {line}: {lost.text}\n{told}\n" + counts(log), "", 1


def main(words):
    data = documents.bytes_asked_for(words)
    if not has_repeats(data):
        print("exchanges: this is no log whose records repeat", file=sys.stderr)
        return 3
    text, line, status = answer(data)
    sys.stdout.buffer.write(text.encode())
    print(line, end="", file=sys.stderr)
    return status


if __name__ == "__main__":
    sys.exit(main(sys.argv[1:]))
