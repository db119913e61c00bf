"""What tools/convert/explain.py says of logs, beside what has to come, both by hand; and of a log that was recorded.

    explained.py [--tool FILE] [LOG]

Of LOG, which is torn, the first operation that it explains has to be one whose words are of two writes at least, neither of which is the whole
record. The last line says what was compared.
"""

import argparse
import json
import os
import re
import subprocess
import sys
import tempfile

TOP = os.path.dirname(os.path.dirname(os.path.dirname(os.path.realpath(__file__))))


def line(**row):
    return json.dumps(row, separators=(",", ":")) + "\n"


def op(who, kind, begin, end, record, **more):
    return line(who=who, kind=kind, begin=begin, end=end, record=record, **more)


def head(opening, **more):
    return line(kind="lines", opening=opening, **more)


# Three writes of one task, as the recorder has them, and reads beside the third.
WRITES = head([0, 70], words=[0, 0, 0]) + op(0, "write", 10, 20, [1, 71], words=[1, 11, 21]) + op(0, "write", 30, 40, [2, 72], words=[2, 12, 22])
WRITES += op(0, "write", 50, 60, [3, 73], words=[3, 13, 23])
TORN = WRITES + op(1, "read", 45, 70, [3, 79], words=[3, 12, 22]) + line(kind="done", ops=4)
THIRD = "  line 4: who 0 wrote [3,13,23] from 50 to 60: "
SECOND = "  line 3: who 0 wrote [2,12,22] from 30 to 40: "
HALVES = [1, 0x1111111122222222]
# The log, the words, and what is said behind the count of what nobody wrote, or on standard error.
BY_HAND = [
    (TORN, [], ["line 5: who 1, a read from 45 to 70: [3,12,22]", "  word 0 of line 4", "  words 1, 2 of line 3",
                SECOND + "the last that had ended before it", THIRD + "ran with it"]),
    # floors say nothing of an operation
    (TORN.replace('{"kind":"done"', line(kind="floor", begin=71) + '{"kind":"done"'), [],
     ["line 5: who 1, a read from 45 to 70: [3,12,22]", "  word 0 of line 4", "  words 1, 2 of line 3",
      SECOND + "the last that had ended before it", THIRD + "ran with it"]),
    # at both of its ends an operation runs with what touches it
    (WRITES + op(1, "read", 40, 50, [9, 9], words=[8, 12, 23]), ["5"],
     ["line 5: who 1, a read from 40 to 50: [8,12,23]", "  word 0 8: of no write", "  word 1 of line 3", "  word 2 of line 4",
      "  line 2: who 0 wrote [1,11,21] from 10 to 20: the last that had ended before it", SECOND + "ran with it", THIRD + "ran with it"]),
    (WRITES + op(1, "read", 40, 50, [9, 9], words=[8, 8]), [],
     ["line 5: who 1, a read from 40 to 50: [8,8]", "  words 0, 1 8: of no write",
      "  line 2: who 0 wrote [1,11,21] from 10 to 20: the last that had ended before it", SECOND + "ran with it", THIRD + "ran with it"]),
    # an old write and one that began behind the read; the last before it is told as well
    (WRITES + op(1, "read", 41, 45, [1, 9], words=[1, 13, 0]), [],
     ["line 5: who 1, a read from 41 to 45: [1,13,0]", "  word 0 of line 2", "  word 1 of line 4", "  word 2 of the opening",
      "  the opening: [0,0,0]", "  line 2: who 0 wrote [1,11,21] from 10 to 20: had ended before it", SECOND + "the last that had ended before it",
      THIRD + "began behind its end"]),
    # a record that was written, and the opening; a write by itself
    (TORN, ["3", "5"], ["line 3: who 0, a write from 30 to 40: [2,12,22]", "  line 2: who 0 wrote [1,11,21] from 10 to 20: the last that had ended before it",
                        "line 5: who 1, a read from 45 to 70: [3,12,22]", "  word 0 of line 4", "  words 1, 2 of line 3",
                        SECOND + "the last that had ended before it", THIRD + "ran with it"]),
    (WRITES + op(1, "read", 45, 46, [2, 72], words=[2, 12, 22]), ["5"],
     ["line 5: who 1, a read from 45 to 46: [2,12,22]", "  its record is that of line 3", SECOND + "the last that had ended before it"]),
    (head(7) + op(1, "read", 1, 2, [7]), ["2"], ["line 2: who 1, a read from 1 to 2: [7]", "  its record is that of the opening", "  the opening: [7]"]),
    # records that are words themselves: word 1 is the same in all, and is told of that which has most; then of the latest
    (head([0, 5, 0]) + op(0, "write", 1, 2, [1, 5, 1]) + op(0, "write", 3, 4, [2, 5, 2]) + op(1, "read", 1, 5, [1, 5, 1, 9]), [],
     ["line 4: who 1, a read from 1 to 5: [1,5,1,9]", "  words 0, 1, 2 of line 2", "  word 3 9: of no write", "  the opening: [0,5,0]",
      "  line 2: who 0 wrote [1,5,1] from 1 to 2: ran with it", "  line 3: who 0 wrote [2,5,2] from 3 to 4: ran with it"]),
    (head([0, 5]) + op(0, "write", 1, 2, [1, 5]) + op(0, "write", 3, 4, [2, 5]) + op(1, "read", 5, 6, [8, 5]), [],
     ["line 4: who 1, a read from 5 to 6: [8,5]", "  word 0 8: of no write", "  word 1 of line 3",
      "  line 3: who 0 wrote [2,5] from 3 to 4: the last that had ended before it"]),
    # half of a word
    (head([0, 0]) + op(0, "write", 1, None, HALVES) + op(1, "read", 3, 4, [1, 0x22222222]), [],
     ["line 3: who 1, a read from 3 to 4: [1,572662306]", "  word 0 of line 2", "  word 1 572662306: its first 4 bytes of line 2, the others of the opening",
      "  the opening: [0,0]", f"  line 2: who 0 wrote {json.dumps(HALVES, separators=(',', ':'))} from 1 to no end: ran with it"]),
    (head([0, 0]) + op(0, "write", 1, 9, HALVES) + op(1, "read", 3, 4, [1, 0x9999999922222222]), [],
     ["line 3: who 1, a read from 3 to 4: [1,11068046442221412898]", "  word 0 of line 2", "  word 1 11068046442221412898: of no write",
      "  the opening: [0,0]", f"  line 2: who 0 wrote {json.dumps(HALVES, separators=(',', ':'))} from 1 to 9: ran with it"]),
    # texts have no words, an operation without an end isn't torn; more than four writes run with it
    (head("a") + "".join(op(at, "write", at, 99, f"b{at}") for at in range(6)) + op(8, "read", 7, None, None) + op(9, "read", 8, 9, "c"), [],
     ['line 9: who 9, a read from 8 to 9: "c"', "  the log has no words of it", '  the opening: "a"',
      *[f'  line {at + 2}: who {at} wrote "b{at}" from {at} to 99: ran with it' for at in range(4)], "  and 2 more writes ran with it"]),
    (WRITES, [], None),
    (WRITES, ["1"], "explain: line 1: this is no operation of the log\n"),
    (WRITES, ["9"], "explain: line 9: this is no operation of the log\n"),
    ("", [], "explain: line 1: this is no header of a log\n"),
    (WRITES[len(head([0, 70], words=[0, 0, 0])):], [], "explain: line 1: this is no header of a log\n"),
    (head(0, repeats=True) + op(1, "read", 1, 2, 7), [], "explain: line 1: the records of this log repeat, so none tells its write\n"),
    (head(0, repeats=False) + op(1, "read", 1, 2, 0), [], None),
    (head(0) + op(1, "read", 1, 2, 0)[:-2] + ',"key":"a"}\n', [],
     "explain: line 2: the operations of this log have keys, and each key is a register of its own\n"),
    (WRITES + "{\n", [], "explain: line 5: not JSON\n"),
    (WRITES + "7\n", [], "explain: line 5: this is no object\n"),
    (WRITES + op(1, "read", None, 2, 7), [], "explain: line 5: this is no operation\n"),
    (WRITES + line(who=1), [], "explain: line 5: this is no operation\n"),
]
# Two writes that run together, and reads that find them one way and the other; a read of the second once it had ended.
CROSSED = head(0) + op(0, "write", 10, 40, 1) + op(1, "write", 12, 38, 2) + op(2, "read", 15, 20, 1) + op(3, "read", 16, 19, 2)
CROSSED += op(2, "read", 22, 27, 2) + op(3, "read", 23, 28, 1)
BEHIND = head(0) + op(0, "write", 1, 2, 1) + op(0, "write", 3, 4, 2) + op(1, "read", 5, 6, 1) + op(1, "read", 7, 8, 0)
# What is said first of several lines together, in the log with these words; nothing of others than the answer names.
TOGETHER = [
    (CROSSED, "5746", ["The record of line 3 has to stand before that of line 2, and behind it:",
                       "  line 5, which has the record of line 3, ended at 19, and line 7, which has the record of line 2, began at 23: "
                       "so the record of line 3 stands first",
                       "  line 4, which has the record of line 2, ended at 20, and line 6, which has the record of line 3, began at 22: "
                       "so the record of line 2 stands first"]),
    (BEHIND, "2334", ["The record of line 2 has to stand before that of line 3, and behind it:",
                      "  line 2 ended at 2, and line 3 began at 3: so the record of line 2 stands first",
                      "  line 3 ended at 4, and line 4, which has the record of line 2, began at 5: so the record of line 3 stands first"]),
    (BEHIND, "25", ["The opening has to stand behind another record:",
                    "  line 2 ended at 2, and line 5, which has the record of the opening, began at 7: so the record of line 2 stands first"]),
    *((CROSSED, asked, []) for asked in ("5764", "574", "5676", "57", "46")),
    (CROSSED.replace('"begin":23', '"begin":19'), "5746", []),
    (BEHIND, "24", []),
    (BEHIND, "23", []),
    (BEHIND, "2325", []),
    (BEHIND + op(2, "read", 9, 10, 5), "36", []),
    (head(0) + op(1, "read", 1, 2, 0) + op(1, "read", 3, 4, 0), "23", []),
]
NONE = "Each operation that ended has a record that was written, or the opening.\n"


def explain(tool, path, *words):
    run = subprocess.run([sys.executable, tool, path, *words], capture_output=True, text=True, check=False)
    return run.returncode, run.stdout, run.stderr


def wanted_of(text, words, said):
    """The status and the streams that have to come."""
    if isinstance(said, str):
        return 3, "", said
    if said is None:
        return 0, NONE, ""
    ops = len([it for it in text.split("\n")[1:] if it and '"done"' not in it and '"floor"' not in it])
    count = [] if words else [f"1 of {ops} operations have a record that is neither the opening nor written. The first:"]
    return 0, "".join(f"{it}\n" for it in [*count, *said]), ""


def faults_by_hand(tool, folder):
    faults = []
    for text, words, said in BY_HAND:
        with open(f"{folder}/log", "w", encoding="utf-8") as file:
            file.write(text)
        found, wanted = explain(tool, f"{folder}/log", *words), wanted_of(text, words, said)
        if found != wanted:
            faults.append(f"{text}{words}: {found} in place of {wanted}")
    return faults + faults_together(tool, f"{folder}/log") + faults_of_none(tool, f"{folder}/none") + faults_of_long(tool, f"{folder}/log")


def faults_together(tool, path):
    """Behind what is said of the lines together stands what is said of each."""
    faults = []
    for text, asked, said in TOGETHER:
        with open(path, "w", encoding="utf-8") as file:
            file.write(text)
        each = "".join(explain(tool, path, line)[1] for line in asked)
        found, wanted = explain(tool, path, *asked), (0, "".join(f"{it}\n" for it in said) + each, "")
        if found != wanted:
            faults.append(f"{text}{asked}: {found} in place of {wanted}")
    return faults


def faults_of_none(tool, path):
    status, out, err = explain(tool, path)
    if (status, out) != (5, "") or not err.endswith("none: No such file or directory\n"):
        return [f"no file: status {status}: {out}{err}"]
    return []


def faults_of_long(tool, path):
    """How far a long log is read is told on standard error."""
    with open(path, "w", encoding="utf-8") as file:
        file.write(WRITES + op(1, "read", 61, 62, [3, 73]) * 100_000)
    found, wanted = explain(tool, path), (0, NONE, "explain: 100000 lines are read\n")
    return [] if found == wanted else [f"a long log: {found} in place of {wanted}"]


def faults_of_recorded(tool, path):
    """The log's first torn record is of two writes at least, and the tool says so."""
    status, out, err = explain(tool, path)
    torn = re.search(r"\. The first:\nline \d+: who \d+, a read from \d+ to \d+: \[[\d,]+\]\n((?:  words? .*\n)+)", out)
    told = torn[1].splitlines() if torn else []
    if status or len(told) < 2 or any("of no write" in it for it in told):
        return [f"a recorded log: status {status}: {out[:600]}{err}"]
    return []


def main():
    parser = argparse.ArgumentParser()
    parser.add_argument("--tool", default=f"{TOP}/tools/convert/explain.py")
    parser.add_argument("log", nargs="?")
    words = parser.parse_args()
    with tempfile.TemporaryDirectory() as folder:
        faults = faults_by_hand(words.tool, folder)
    if words.log and not faults:
        faults = faults_of_recorded(words.tool, words.log)
    print("\n".join(faults or [f"{len(BY_HAND) + len(TOGETHER)} answers as by hand{', and one of a recorded log' if words.log else ''}"]))
    return 1 if faults else 0


if __name__ == "__main__":
    sys.exit(main())
