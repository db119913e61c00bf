"""A plain judge of logs in JSON Lines, in O(n log n), from the format and the rules alone.

    lines.py [FILE]        prints what it finds, with status 0 (lawful), 1 (unlawful) or 3 (no such log)

The log is the file or the standard input. Operations are named by their lines, of which the header is line 1.
"""

import json
import sys
from bisect import bisect_left
from collections import namedtuple

from small_lines import HINTS

KINDS = ("write", "read", "refused")
GREATEST = 2**64 - 1
NEVER = float("inf")

Operation = namedtuple("Operation", "line who kind begin end record key")


class Refused(Exception):
    """The text isn't a log; what is said is the line on standard error, without the program's name."""


class Log:
    def __init__(self, opening, limit):
        self.opening, self.limit, self.ops, self.ended = opening, limit, [], False


def is_whole(it):
    return isinstance(it, int) and not isinstance(it, bool) and 0 <= it <= GREATEST


def record_of(it):
    """A record as a value that can be compared, or nothing where it is none. One number is the array of it."""
    if is_whole(it):
        return (it,)
    if isinstance(it, str):
        return it
    if isinstance(it, list) and 1 <= len(it) <= 64 and all(map(is_whole, it)):
        return tuple(it)
    return None


def value_of(number, line):
    """The JSON value of a line; a number with a sign isn't whole."""

    def finite(text):
        if float(text) in (NEVER, -NEVER):
            raise ValueError
        return float(text)

    def refuse(_):
        raise ValueError

    try:
        return json.loads(line, parse_int=lambda it: -1 if it.startswith("-") else int(it), parse_float=finite, parse_constant=refuse)
    except (ValueError, RecursionError):
        raise Refused(f"line {number}: not JSON") from None


def must(holds, number, why):
    if not holds:
        raise Refused(f"line {number}: {why}{HINTS.get(why, '')}")


def header_of(line):
    found = value_of(1, line)
    must(isinstance(found, dict) and found.get("kind") == "lines", 1, "kind")
    must("opening" in found, 1, "missing opening")
    opening, limit = record_of(found["opening"]), found.get("limit")
    must(opening is not None, 1, "shape of opening")
    must(limit is None or is_whole(limit), 1, "shape of limit")
    must(limit is None or 1 <= limit < GREATEST, 1, "range of limit")
    return Log(opening, limit)


def operation_of(number, found):
    """The operation of a line. All of its keys have to be there; then the first that has a wrong value is told."""
    found = found if isinstance(found, dict) else {}
    for key in ("who", "kind", "begin", "end", "record"):
        must(key in found, number, f"missing {key}")
    who, kind, begin, end = (found[key] for key in ("who", "kind", "begin", "end"))
    must(is_whole(who), number, "shape of who")
    must(kind in KINDS, number, "shape of kind")
    must(is_whole(begin), number, "shape of begin")
    must(end is None or is_whole(end), number, "shape of end")
    record = record_of(found["record"])
    must(record is not None or found["record"] is None, number, "shape of record")
    key = record_of(found.get("key"))
    must(key is not None or found.get("key") is None, number, "shape of key")
    must(end is None or end >= begin, number, "end before begin")
    must(record is not None or (end is None and kind != "write"), number, "law of record")
    return Operation(number, who, kind, begin, end, record, key)


def is_end(number, found, count, last):
    """Whether a line is the one behind the operations, which says how many there are."""
    if not isinstance(found, dict) or found.get("kind") != "done":
        return False
    must("ops" in found, number, "missing ops")
    must(is_whole(found["ops"]), number, "shape of ops")
    must(last, number, "shape of kind")
    must(found["ops"] == count, number, "law of ops")
    return True


def without_blank_end(lines):
    """The lines up to the last one that isn't blank."""
    blank = []
    for line in lines:
        if line.strip(" \t\n\f\r"):
            yield from blank
            yield line
            blank = []
        else:
            blank.append(line)


def read_log(lines):
    """The log of these lines, each of which is tested in turn."""
    lines = without_blank_end(lines)
    log, latest, written = header_of(next(lines, "")), {}, {}
    number, line = 2, next(lines, None)
    while line is not None:
        following = next(lines, None)
        found = value_of(number, line)
        if is_end(number, found, len(log.ops), following is None):
            log.ended = True
            break
        it = operation_of(number, found)
        must(not log.ops or it.key == log.ops[0].key, number, "law of key")
        must(it.kind != "refused" or log.limit is not None, number, "missing limit")
        before = latest.get(it.who)
        if before and (before.end is None or it.begin <= before.end):
            raise Refused(f"lines {before.line} and {number}: who {it.who} overlaps itself")
        refuse_repeats(log, written, it)
        latest[it.who] = it
        log.ops.append(it)
        number, line = number + 1, following
    return log


def refuse_repeats(log, written, it):
    if it.kind != "write":
        return
    if it.record == log.opening:
        raise Refused(f"line {it.line}: writes the opening")
    if it.record in written:
        raise Refused(f"line {it.line}: writes the record of line {written[it.record]}")
    written[it.record] = it.line


class Group:
    """The operations of one record that count: all of its writes, and its answers that ended."""

    def __init__(self):
        self.write = self.first_end = self.last_begin = self.first_answer = self.refused = None

    def add(self, it):
        if it.kind == "write":
            self.write = it
        elif self.first_answer is None or it.end < self.first_answer.end:
            self.first_answer = it
        if it.kind == "refused":
            self.refused = it
        if it.end is not None and (self.first_end is None or it.end < self.first_end.end):
            self.first_end = it
        if self.last_begin is None or it.begin > self.last_begin.begin:
            self.last_begin = it

    @property
    def ended(self):
        """When an operation of the record had ended for the first time."""
        return NEVER if self.first_end is None else self.first_end.end

    @property
    def begun(self):
        """When an operation of the record began for the last time."""
        return self.last_begin.begin


def groups_of(log):
    """The group of the opening, if an operation answers it, and those of the other records."""
    groups = {}
    for it in log.ops:
        if it.kind == "write" or it.end is not None:
            groups.setdefault(it.record, Group()).add(it)
    return groups.pop(log.opening, None), groups


def find_unwritten(groups):
    return next((("unwritten", [it.first_answer]) for it in groups.values() if it.write is None), None)


def find_early(groups):
    for it in groups.values():
        if it.first_answer and it.first_answer.end < it.write.begin:
            return "early", [it.first_answer, it.write]
    return None


def find_stale(opening, groups):
    """An operation of another record had ended when one answered the opening."""
    first = min(groups.values(), key=lambda it: it.ended, default=None)
    if opening and first and first.ended < opening.begun:
        return "stale", [first.first_end, opening.last_begin]
    return None


def find_crossed(groups):
    """Of two records each has an operation that had ended when one of the other's began.

    Sorted by their first ends, the records that have to stand before a given one are those up to some place; one of them crosses it if
    the latest beginning among them, its own left out, is later than its first end.
    """
    ordered = sorted(groups.values(), key=lambda it: it.ended)
    ends, latest, best, second = [it.ended for it in ordered], [], None, None
    for it in ordered:
        if best is None or it.begun > best.begun:
            best, second = it, best
        elif second is None or it.begun > second.begun:
            second = it
        latest.append((best, second))
    for it in ordered:
        before = bisect_left(ends, it.begun)
        others = [other for other in (latest[before - 1] if before else ()) if other and other is not it]
        if others and others[0].begun > it.ended:
            return "crossed", [it.first_end, others[0].last_begin, others[0].first_end, it.last_begin]
    return None


def find_limit(log, opening, groups):
    """A refused write, where too few writes can stand before the first that is refused: its own record's, and those of the records that
    have no refused write and needn't stand behind one that has, or behind one of those behind it, and so on. It is one that can be the
    first: no other record with a refused write has to stand before its own."""
    refused = [it for it in groups.values() if it.refused]
    if opening and opening.refused:
        return "limit", [opening.refused]
    if not refused:
        return None
    ended, behind = min(it.ended for it in refused), 0
    for it in sorted(groups.values(), key=lambda it: it.begun, reverse=True):
        if it.begun <= ended:
            break
        ended = min(ended, it.ended)
        behind += not it.refused
    most = 1 + len(groups) - len(refused) - behind
    least = sorted(refused, key=lambda it: it.ended)[:2]
    first = next(it for it in refused if all(other is it or other.ended >= it.begun for other in least))
    return ("limit", [first.refused]) if most < log.limit else None


def search(log):
    """Nothing where the log has a lawful order, or the first rule that has a reason, with its operations (and the count of `limit`)."""
    opening, groups = groups_of(log)
    return (find_unwritten(groups) or find_early(groups) or find_stale(opening, groups) or find_crossed(groups)
            or find_limit(log, opening, groups))


def shown(record):
    return json.dumps(record if isinstance(record, str) else list(record), separators=(",", ":"), ensure_ascii=False)


def line_of(it):
    end = "" if it.end is None else it.end
    return f"line {it.line}: who {it.who} {it.kind} {it.begin}..{end} record {shown(it.record)}"


def answer(log):
    """The status and the printed text of a log."""
    found, ops = search(log), log.ops
    said = ["lawful"]
    if found:
        rule, named = found
        shows = {it.line: it for it in named}
        if rule != "limit":
            records = {it.record for it in named}
            shows.update({it.line: it for it in ops if it.kind == "write" and it.record in records})
        said = [f"unlawful {rule} {' '.join(str(it.line) for it in named)}", *[line_of(shows[line]) for line in sorted(shows)]]
    else:
        said += little(log)
    said.append(counts(log))
    return 1 if found else 0, "\n".join(said) + "\n"


def records_of(log):
    """The records, and those that a finished read gave but for the opening."""
    records = {log.opening} | {it.record for it in log.ops if it.record is not None}
    return records, {it.record for it in log.ops if it.kind == "read" and it.end is not None} - {log.opening}


def little(log):
    """What is said of a lawful log that shows little."""
    records, given = records_of(log)
    if not log.ops:
        return ["Nothing was shown: there is no operation."]
    return ["Little was shown: less than 1 % of the records were read."] if 100 * len(given) < len(records) else []


def counts(log):
    """How many operations there are and how many are unfinished, how many records and how many a finished read gave but for the opening."""
    unfinished = sum(it.end is None for it in log.ops)
    records, given = records_of(log)
    cut = "" if log.ended else "; no last line `done`"
    return f"{len(log.ops)} operations, {unfinished} unfinished, {len(records)} records, {len(given)} of them read{cut}"


def main(words):
    try:
        sys.stdin.reconfigure(newline="\n")
        with open(words[0], encoding="utf-8", newline="\n") if words else sys.stdin as file:
            status, text = answer(read_log(file))
    except Refused as why:
        print(f"lines: {why}", file=sys.stderr)
        return 3
    sys.stdout.write(text)
    return status


if __name__ == "__main__":
    sys.exit(main(sys.argv[1:]))
