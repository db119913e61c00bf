#!/usr/bin/env python3
"""Logs in JSON Lines of several processes or machines to one for `fsr order`, on standard output.

    join.py [--opening RECORD] [--limit NUMBER] [--skew NS] FILE..

Each file has the operations of tasks of its own, by one clock, as JSON Lines; a header and a last line may be there. Or it is what a thread
left in a file of `nidzaru_log_open_file`. The header that is written has the opening and the limit of a file's header, or those of the
words, where the record is JSON, and says that records repeat, if it does. Operations stand by beginning.

--skew NS: the clocks of two files differ by at most NS. The times of the first file stay, and intervals of all others are NS longer at both
ends. An operation that then overlaps the one before it of its task gets a task of its own, since no interval can say both that it comes
later and that another clock isn't that exact. So a task's own order is kept in the first file alone: join once for each file, that one
first. A register is wrong if any of these logs is unlawful.

Status 3: the files can't be joined; 5: one can't be read or written. Each is read once, so it may be a pipe.
"""

import argparse
import json
import struct
import sys

import lines

# A state of nidzaru_log.h: the magic, who, room, count, lost, unpaired, refused, turn, how many words of a record have room, and the place
# of the write under way; behind it stands this write, and then the operations: kind, times, number and hash, and, if words have room, how
# many are kept, and these.
MAGIC, STATE = b"nidzaru\2", struct.Struct("=8s9Q48x")
KINDS = (None, "write", "read", "refused")


class Operations:
    """What a file has: its header, if there is one, and its operations."""

    def __init__(self, path):
        self.path, self.header, self.rows = path, None, []
        with open(path, "rb") as file:
            # (a pipe gives its bytes once)
            block = file.read()
        if block.startswith(MAGIC):
            self.take_left(block)
        else:
            self.take_lines(block)

    def take_lines(self, block):
        try:
            texts = lines.text_of_bytes(block).split("\n")
        except lines.Refused as why:
            raise lines.Refused(f"{self.path}:{why.line}", str(why)) from None
        for number, text in enumerate(texts, 1):
            if text.strip():
                self.add(number, self.row_of(number, text))

    def take_left(self, block):
        """The operations that ended, and a write that was under way."""
        if len(block) < STATE.size:
            raise lines.Refused(self.path, "a log that was cut off")
        _, who, room, count, lost, unpaired, _, _, words, place = STATE.unpack_from(block)
        size = 8 * (6 + words if words else 5)
        if len(block) != STATE.size + (1 + room) * size or count > room:
            raise lines.Refused(self.path, "a log that was cut off")
        if lost or unpaired:
            raise lines.Refused(self.path, f"{lost} operations had no room, and {unpaired} began or ended out of turn")
        operation = struct.Struct(f"={size // 8}Q")
        kind, begin, _, *record = operation.unpack_from(block, STATE.size)
        for at in range(1, count + 1):
            self.take(who, *operation.unpack_from(block, STATE.size + at * size))
        if (place, kind) == (count, KINDS.index("write")):
            self.take(who, kind, begin, None, *record)

    def take(self, who, kind, begin, end, number, code, kept=0, *words):
        if not 1 <= kind < len(KINDS) or (end is not None and end < begin) or kept > len(words):
            raise lines.Refused(self.path, "this is no log")
        row = {"who": who, "kind": KINDS[kind], "begin": begin, "end": end, "record": [number, code]}
        self.rows.append({**row, "words": list(words[:kept])} if kept else row)

    def row_of(self, number, text):
        try:
            row = json.loads(text)
        except (ValueError, RecursionError):
            raise lines.Refused(f"{self.path}:{number}", "not JSON") from None
        if not isinstance(row, dict):
            raise lines.Refused(f"{self.path}:{number}", "this is no object")
        return row

    def add(self, number, row):
        where = f"{self.path}:{number}"
        if row.get("kind") == "lines":
            if number > 1:
                raise lines.Refused(where, "a header behind the first line")
            if not (row.get("limit") is None or lines.is_whole(row["limit"])):
                raise lines.Refused(where, "a limit is a number from 0 on, of at most 64 bits")
            self.header = row
        elif row.get("kind") == "done":
            if row.get("ops") != len(self.rows):
                raise lines.Refused(where, f"there are {len(self.rows)} operations")
        elif row.get("kind") == "floor":
            # (a joined log is judged at its end, and needs none)
            return
        elif is_operation(row):
            self.rows.append(row)
        else:
            raise lines.Refused(where, "this is no operation")


def is_operation(row):
    """Whether a row has a task, a begin and an end, which may be `null`."""
    if "end" not in row:
        return False
    return all(map(lines.is_whole, (row.get("who"), row.get("begin"), 0 if row["end"] is None else row["end"])))


def widen(files, skew):
    """Makes the intervals of these files longer; `numbers` are those of tasks that nobody has."""
    numbers = lines.numbers_beside({row["who"] for it in files for row in it.rows})
    for row, is_exact in [(row, at == 0) for at, it in enumerate(files) for row in it.rows]:
        if not is_exact:
            row["begin"] = max(0, row["begin"] - skew)
            row["end"] = None if row["end"] is None else min(lines.GREATEST, row["end"] + skew)
    for it in files[1:]:
        last = {}
        for row in it.rows:
            who, before = row["who"], last.get(row["who"])
            if before and (before["end"] is None or row["begin"] <= before["end"]):
                row["who"] = next(numbers)
            else:
                last[who] = row


def header_of(files, words):
    headers = [it.header for it in files if it.header]
    openings = {json.dumps(it.get("opening")) for it in headers}
    limits, repeats = {it.get("limit") for it in headers}, {it.get("repeats") is True for it in headers}
    if words.opening is not None:
        openings = {json.dumps(words.opening)}
    if words.limit is not None:
        limits = {words.limit}
    if len(openings) != 1 or len(limits) > 1 or len(repeats) > 1:
        raise lines.Refused(files[0].path, "the headers differ" if openings else "no file has a header: --opening says what the register held")
    header = {"kind": "lines", "opening": json.loads(*openings)}
    kept = next((it["words"] for it in headers if "words" in it and it.get("opening") == header["opening"]), None)
    more = {"words": kept, "limit": next(iter(limits), None), "repeats": True if True in repeats else None}
    return header | {key: it for key, it in more.items() if it is not None}


def test_tasks(files):
    owners = {}
    for it in files:
        for who in {row["who"] for row in it.rows}:
            if owners.setdefault(who, it.path) != it.path:
                raise lines.Refused(it.path, f"its task {who} is in {owners[who]} too")


def joined(words):
    files = [Operations(path) for path in words.files]
    test_tasks(files)
    header = header_of(files, words)
    if words.skew is not None:
        widen(files, words.skew)
    rows = sorted((row for it in files for row in it.rows), key=lambda row: row["begin"])
    return [header, *rows, {"kind": "done", "ops": len(rows)}]


def number_from_0(word):
    if int(word) < 0:
        raise argparse.ArgumentTypeError(f"{word} is below 0")
    return int(word)


def main():
    parser = argparse.ArgumentParser(description=__doc__, formatter_class=argparse.RawDescriptionHelpFormatter)
    parser.add_argument("--opening", type=json.loads, metavar="RECORD")
    parser.add_argument("--limit", type=number_from_0, metavar="NUMBER")
    parser.add_argument("--skew", type=number_from_0, metavar="NS")
    parser.add_argument("files", nargs="+", metavar="FILE")
    words = parser.parse_args()
    try:
        for row in joined(words):
            sys.stdout.write(json.dumps(row, separators=(",", ":")) + "\n")
        sys.stdout.flush()
    except lines.Refused as why:
        print(f"join: {why.line}: {why}", file=sys.stderr)
        return 3
    except OSError as why:
        print(f"join: {why.filename or 'a stream'}: {why.strerror}", file=sys.stderr)
        sys.stdout = None
        return 5
    return 0


if __name__ == "__main__":
    sys.exit(main())
