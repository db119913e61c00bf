"""Compares `fsr order --coherent` with the plain reference (coherences.py), which tries every order, on random small logs.

    compare_coherences.py [--logs N] [--seed S] PROGRAM [WORD ..]

The log is on standard input of the program with these words. Which reason of an incoherent log is told is free: it has to be one by the
reference. The last line is how many logs were told right, by kind of ending; all three reasons have to be among them. The first difference
ends the run with status 1, with the log kept in the file that is named.
"""

import argparse
import collections
import json
import random
import re
import subprocess
import sys

import coherences
import compare
import compare_small_lines


def make_own(source):
    """A log of few records and tasks, whose reads are of any of them, so that circles are common."""
    tasks, now, rows = source.randint(1, 4), 0, []
    count, records = source.randint(0, 8), source.sample(range(1, 9), source.randint(1, 4))
    left, last = list(records), {}
    for _ in range(count):
        who = source.randrange(tasks)
        if last.get(who, 0) is None:
            continue
        begin = max(now, last.get(who, 0) + 1)
        end = None if source.random() < 0.08 else begin + source.choice((0, 1, 3))
        now, last[who] = begin + source.choice((0, 0, 1)), end
        if left and source.random() < 0.4:
            kind, record = "write", left.pop(0)
        else:
            kind, record = source.choice(("read", "read", "read", "refused")), source.choice([0, *records[: len(records) - len(left) + 1]])
        rows.append({"who": who, "kind": kind, "begin": begin, "end": end, "record": None if end is None and kind != "write" else record})
    return [{"kind": "lines", "opening": 0, "limit": 2}, *rows, {"kind": "done", "ops": len(rows)}]


def make_log(source):
    if source.random() < 0.65:
        log = make_own(source)
    else:
        log = compare_small_lines.make_log(source)
        if source.random() < 0.15:
            compare_small_lines.spoil(source, log)
    if source.random() < 0.03:
        log[0]["repeats"] = source.choice((True, True, False, 1, None))
    return compare_small_lines.text_of(source, log)


def ending_of(found):
    if found[2] == 3:
        return re.sub(r"\d+", "N", found[1].strip())
    return " ".join(found[0].split("\n")[0].split(" ")[:2])


def main():
    parser = argparse.ArgumentParser()
    parser.add_argument("--logs", type=int, default=2000)
    parser.add_argument("--seed", type=int, default=1)
    parser.add_argument("command", nargs=argparse.REMAINDER)
    given = parser.parse_args()
    source, endings = random.Random(given.seed), collections.Counter()
    for number in range(given.logs):
        data = make_log(source)
        done = subprocess.run(given.command, input=data, capture_output=True, check=False)
        found = done.stdout.decode(), done.stderr.decode(), done.returncode
        if not coherences.is_right(data, found):
            print(f"log {number} of seed {given.seed} < {compare.keep(data)}", "the program:", *found, "the reference:",
                  *map(str, coherences.answer(data)), sep="\n")
            return 1
        endings[ending_of(found)] += 1
    compare.tell_endings(endings, f"{given.logs} logs of seed {given.seed}, 0 differences")
    return 0 if endings.keys() >= {"coherent", *map("incoherent {}".format, coherences.RULES)} else 1


if __name__ == "__main__":
    sys.exit(main())
