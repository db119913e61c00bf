"""Random small logs in JSON Lines: the plain judge of `lines.py`, or a program, against all orders (`searches.py`).

    compare_lines.py [PROGRAM WORD ..] --logs N [--seed S]

A program is given each log on standard input. Prints the first log that is judged otherwise, or how many of each verdict there were.
"""

import argparse
import json
import random
import subprocess
import sys
from collections import Counter

import lines
import searches


def random_times(chance, tasks, span):
    """Intervals of each task, none of which touches the task's next; the last may be unfinished."""
    for who in range(tasks):
        at = chance.randrange(span)
        while at < span:
            begin, end = at, at + chance.choice((0, 1, 1, 2, 3, 5, 8))
            unfinished = chance.random() < 0.07
            yield who, begin, None if unfinished else end
            if unfinished:
                break
            at = end + chance.choice((1, 1, 2, 4))


def random_log(chance):
    """A header and operations. Answers are mostly of records that are written, and half of the logs come from points in time."""
    times = sorted(random_times(chance, chance.randrange(1, 5), chance.choice((6, 10, 16))), key=lambda it: it[1])[:7]
    opening, limit = "opening", chance.choice((1, 1, 2, 3))
    kinds = chance.choices(("write", "read", "refused"), (4, 6, chance.choice((0, 1, 2))), k=len(times))
    spans = [(begin, begin + 9 if end is None else end) for _, begin, end in times]
    points = [(begin + chance.random() * (end - begin), place) for place, (begin, end) in enumerate(spans)]
    now, records = opening, {}
    for _, place in sorted(points):
        if kinds[place] == "write":
            now = f"of {place}"
        records[place] = now
    written = [records[place] for place in records if kinds[place] == "write"]
    faulty = chance.random() < 0.5
    ops = []
    for place, (who, begin, end) in enumerate(times):
        record = records[place]
        if faulty and kinds[place] != "write" and chance.random() < 0.4:
            record = chance.choice([opening, "nobody's", *written * 8])
        ops.append({"who": who, "kind": kinds[place], "begin": begin, "end": end, "record": record})
    return opening, limit, ops


def text_of(opening, limit, ops):
    rows = [{"kind": "lines", "opening": opening, "limit": limit}, *ops, {"kind": "done", "ops": len(ops)}]
    return "".join(json.dumps(row) + "\n" for row in rows)


def told_by(command, text):
    """The status and the text that a judge tells of a log."""
    if not command:
        return lines.answer(lines.read_log(text.splitlines()))
    done = subprocess.run(command, input=text, capture_output=True, text=True, check=False)
    return done.returncode, done.stdout


def is_right(rule, reasons, opening, ops, status, text):
    """Whether this was told: the rule, one of its reasons, by lines, how little a lawful log shows, and the four counts."""
    unfinished, records = sum(it["end"] is None for it in ops), {opening} | {it["record"] for it in ops}
    given = {it["record"] for it in ops if it["kind"] == "read" and it["end"] is not None} - {opening}
    rows = text.splitlines()
    if not rows or rows[-1] != f"{len(ops)} operations, {unfinished} unfinished, {len(records)} records, {len(given)} of them read":
        return False
    if rule == "lawful":
        little = [] if given else ["Little was shown: less than 1 % of the records were read."]
        return status == 0 and rows[:-1] == ["lawful", *little]
    words = rows[0].split(" ")
    return status == 1 and words[:2] == ["unlawful", rule] and tuple(int(it) - 2 for it in words[2:]) in reasons


def main():
    words = argparse.ArgumentParser()
    words.add_argument("command", nargs="*")
    words.add_argument("--logs", type=int, required=True)
    words.add_argument("--seed", type=int, default=1)
    words = words.parse_args()
    chance, counts = random.Random(words.seed), Counter()
    for _ in range(words.logs):
        opening, limit, ops = random_log(chance)
        rule, reasons = searches.search(opening, limit, ops)
        text = text_of(opening, limit, ops)
        told = told_by(words.command, text)
        if not is_right(rule, reasons, opening, ops, *told):
            print(f"{text}has {rule} {sorted(reasons)}, and not\n{told[1]}")
            return 1
        counts[rule] += 1
    print(f"{words.logs} random logs, 0 differences: " + ", ".join(f"{counts[it]} {it}" for it in sorted(counts)))
    return 0 if len(counts) == 6 else 1


if __name__ == "__main__":
    sys.exit(main())
