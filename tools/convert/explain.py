#!/usr/bin/env python3
"""Says of which writes a record is that nobody wrote, as `fsr order` found it in a log in JSON Lines.

    explain.py LOG [LINE..]

Each LINE is an operation's, as the answer of `fsr order` names it; without one, the operations whose records nobody wrote are counted, and
the first is explained. The log is the one that was judged; floors are passed over. The recorder keeps the first words of each record beside
its hash, as `"words"`; where none stand, a record that is an array or a number is taken for its words.

Of the four lines that `unlawful crossed` names, in its order, it says first which two writes have to stand before each other, and by which
lines; of the two lines of `unlawful stale`, which write has to stand before the opening.

What is said of a word: from which write it is, or that it isn't any write's. If several writes have it, the one is told that has most of
these words, and of such ones the latest. A word of no write may be the first bytes of one write's and the last bytes of another's. Then the
writes: the last that had ended before the operation began, and those that ran with it. None of this is proved, and none of it is needed for
the verdict.

Of a long log standard error tells how many lines are read.

Status 3: this is no log, or one whose records repeat or whose operations have keys, or has no such line; 5: it can't be read or written.
"""

import argparse
import json
import sys
from collections import namedtuple

import lines

# So many writes that ran beside an operation are told.
MOST = 4
# Behind so many lines that were read standard error tells it.
PIECE = 100_000
NEVER = float("inf")
NEEDED = {"who", "kind", "begin", "end", "record"}

# What a line says; the opening is a write that had ended before all.
Operation = namedtuple("Operation", "line who kind begin end record words")


def value_of(found):
    """A record as a value that can be compared; one number is the array of it."""
    found = [found] if lines.is_whole(found) else found
    return tuple(found) if isinstance(found, list) and all(map(lines.is_whole, found)) else json.dumps(found)


def operation_of(line, row):
    if not NEEDED <= row.keys() or not lines.is_whole(row["begin"]) or not (row["end"] is None or lines.is_whole(row["end"])):
        raise lines.Refused(line, "this is no operation")
    if "key" in row:
        raise lines.Refused(line, "the operations of this log have keys, and each key is a register of its own")
    record, words = value_of(row["record"]), value_of(row["words"]) if "words" in row else None
    return Operation(line, row["who"], row["kind"], row["begin"], NEVER if row["end"] is None else row["end"], record, words or record)


def opening_of(row):
    if row.get("kind") != "lines" or "opening" not in row:
        raise lines.Refused(1, "this is no header of a log")
    if row.get("repeats") is True:
        raise lines.Refused(1, "the records of this log repeat, so none tells its write")
    record = value_of(row["opening"])
    return Operation(1, None, "write", -1, -1, record, value_of(row["words"]) if "words" in row else record)


def row_of(line, text):
    try:
        row = json.loads(text)
    except (ValueError, RecursionError):
        raise lines.Refused(line, "not JSON") from None
    if not isinstance(row, dict):
        raise lines.Refused(line, "this is no object")
    return row


def rows_of(path):
    for line, text in enumerate(lines.text_of_file(path).split("\n"), 1):
        if text.strip():
            yield line, row_of(line, text)
        if line % PIECE == 0:
            print(f"explain: {line} lines are read", file=sys.stderr, flush=True)


class Log:
    def __init__(self, path):
        rows = rows_of(path)
        opening = opening_of(next(rows, (1, {}))[1])
        self.ops = {line: operation_of(line, row) for line, row in rows if row.get("kind") not in ("done", "floor")}
        self.writes = [opening, *(it for it in self.ops.values() if it.kind == "write")]
        self.written = {it.record: it for it in self.writes}

    def torn(self):
        """The operations that ended with a record that nobody wrote."""
        return [it for it in self.ops.values() if it.kind != "write" and it.end != NEVER and it.record not in self.written]

    def beside(self, it):
        """The last write that had ended before an operation, and those that ran with it, by their beginning."""
        before = max((one for one in self.writes if one.end < it.begin), key=lambda one: one.end)
        with_it = [one for one in self.writes if one.begin <= it.end and one.end >= it.begin and one is not it]
        return before, sorted(with_it, key=lambda one: one.begin)


def words_in(it):
    return it.words if isinstance(it.words, tuple) else ()


def owners_of(words, writes):
    """For each word the write of which it is, or none: of several the one that has most of the words, and of such ones the latest."""
    best = [None] * len(words)
    for it in writes:
        places = [at for at, (word, other) in enumerate(zip(words, words_in(it))) if word == other]
        for at in places:
            if best[at] is None or (len(places), it.begin) > best[at][:2]:
                best[at] = (len(places), it.begin, it)
    return [found and found[2] for found in best]


def bytes_of(word, writes, at):
    """The writes of whose words the first and the last bytes of a word are, and how many bytes are the first's."""
    parts = [(it, words_in(it)[at].to_bytes(8, "little")) for it in writes if at < len(words_in(it))]
    whole = word.to_bytes(8, "little")
    for count in (4, 6, 2, 7, 5, 3, 1):
        first = next((it for it, part in parts if part[:count] == whole[:count]), None)
        last = next((it for it, part in parts if part[count:] == whole[count:]), None)
        if first and last:
            return first, last, count
    return None


def name_of(it):
    return "the opening" if it.line == 1 else f"line {it.line}"


def of_words(log, it):
    """What is said of an operation's words, a text each, and the writes that are named there."""
    before, with_it = log.beside(it)
    said, named = {}, []
    for at, (word, owner) in enumerate(zip(words_in(it), owners_of(words_in(it), log.writes))):
        parts = bytes_of(word, [*with_it, before], at) if owner is None else None
        if parts:
            told = f" {word}: its first {parts[2]} bytes of {name_of(parts[0])}, the others of {name_of(parts[1])}"
        else:
            told = f" of {name_of(owner)}" if owner else f" {word}: of no write"
        said.setdefault(told, []).append(str(at))
        named += [found for found in ([owner] if owner else parts[:2] if parts else []) if found not in named]
    texts = [f"word{'s' * (len(places) > 1)} {', '.join(places)}{told}" for told, places in said.items()]
    return texts or ["the log has no words of it"], named


def shown(it):
    return json.dumps(it.words, separators=(",", ":")) if isinstance(it.words, tuple) else it.words


def times_of(it):
    return f"from {it.begin} to {'no end' if it.end == NEVER else it.end}"


def of_write(it, other, before):
    """What is said of a write beside an operation."""
    if it.line == 1:
        return f"the opening: {shown(it)}"
    relation = "ran with it" if it.end >= other.begin else "the last that had ended before it" if it is before else "had ended before it"
    relation = "began behind its end" if it.begin > other.end else relation
    return f"line {it.line}: who {it.who} wrote {shown(it)} {times_of(it)}: {relation}"


def explained(log, line):
    """The text of one operation."""
    it = log.ops.get(line)
    if it is None:
        raise lines.Refused(line, "this is no operation of the log")
    (before, with_it), whole = log.beside(it), log.written.get(it.record)
    told, named = ([], []) if whole is it else ([f"its record is that of {name_of(whole)}"], [whole]) if whole else of_words(log, it)
    left = [one for one in with_it if one not in named]
    named += [one for one in [before, *left[:MOST]] if one not in named]
    told += [of_write(one, it, before) for one in sorted(named, key=lambda one: one.begin)]
    if left[MOST:]:
        told.append(f"and {len(left) - MOST} more writes ran with it")
    return [f"line {line}: who {it.who}, a {it.kind} {times_of(it)}: {shown(it)}", *(f"  {text}" for text in told)]


def with_its_write(log, it):
    write = log.written[it.record]
    return f"line {it.line}" if write is it else f"line {it.line}, which has the record of {name_of(write)},"


def stands_first(log, before, behind):
    """What follows from an operation that had ended when another one began."""
    return (f"  {with_its_write(log, before)} ended at {before.end}, and {with_its_write(log, behind)} began at {behind.begin}: "
            f"so the record of {name_of(log.written[before.record])} stands first")


def is_pair(log, before, behind):
    """Whether an operation had ended when one of another record began, both of records that were written."""
    return before.end < behind.begin and before.record != behind.record and {before.record, behind.record} <= log.written.keys()


def crossing(log, asked):
    """What lines show together, if they are those of records that cross, or of an opening that is given too late."""
    ops = [log.ops[line] for line in asked if line in log.ops]
    pairs = list(zip(ops[::2], ops[1::2]))
    if len(ops) != len(asked) or not all(is_pair(log, *pair) for pair in pairs):
        return []
    told = [stands_first(log, *pair) for pair in pairs]
    if len(ops) == 4 and (ops[0].record, ops[1].record) == (ops[3].record, ops[2].record):
        first, second = (name_of(log.written[it.record]) for it in ops[:2])
        return [f"The record of {first} has to stand before that of {second}, and behind it:", *told]
    if len(ops) == 2 and log.written[ops[1].record].line == 1:
        return ["The opening has to stand behind another record:", *told]
    return []


def answer(log, asked):
    if asked:
        return [*crossing(log, asked), *(text for line in asked for text in explained(log, line))]
    torn = log.torn()
    if not torn:
        return ["Each operation that ended has a record that was written, or the opening."]
    count = f"{len(torn)} of {len(log.ops)} operations have a record that is neither the opening nor written. The first:"
    return [count, *explained(log, torn[0].line)]


def main():
    parser = argparse.ArgumentParser(description=__doc__, formatter_class=argparse.RawDescriptionHelpFormatter)
    parser.add_argument("log", metavar="LOG")
    parser.add_argument("lines", nargs="*", type=int, metavar="LINE")
    words = parser.parse_args()
    try:
        for text in answer(Log(words.log), words.lines):
            sys.stdout.write(text + "\n")
        sys.stdout.flush()
    except lines.Refused as why:
        print(f"explain: line {why.line}: {why}", file=sys.stderr)
        return 3
    except OSError as why:
        print(f"explain: {why.filename or 'a stream'}: {why.strerror}", file=sys.stderr)
        sys.stdout = None
        return 5
    return 0


if __name__ == "__main__":
    sys.exit(main())
