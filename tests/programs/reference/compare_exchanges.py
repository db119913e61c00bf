"""Compares `fsr order` with the plain reference on random logs in lines whose records repeat.

    compare_exchanges.py PROGRAM [--logs N] [--seed S]

Two thirds of them are judged with words that change nothing. A few have a header that makes them logs whose records are written
once, or none. The last lines are how many logs gave the same bytes and status, by kind of ending, and how many there were, by their verdict.
The first difference ends the run with status 1, with the log kept in the file that is named. None at all is status 1.
"""

import argparse
import collections
import random
import re
import subprocess
import sys

import answers
import compare
import compare_small_lines
import documents
import exchanges
import make_exchanges
import small_lines
import windows

WORDS = ([], [], ["--order"], ["--small"], ["--strict"], ["--budget", "20000"])


def kind_of(data):
    """Which log it is, if it is one."""
    if exchanges.has_repeats(data):
        return "repeats"
    try:
        header = documents.read_json(exchanges.lines_of(data)[0])
    except documents.Refused:
        return "none"
    return "once" if isinstance(header, dict) and header.get("kind") == "lines" else "none"


def answer_of(kind, data):
    if kind == "none":
        return answers.answer("order", data)
    return exchanges.answer(data) if kind == "repeats" else small_lines.answer(data)


def agree(kind, data, words, found, wanted):
    if kind == "once":
        return compare_small_lines.agree(data, found, wanted, words)
    if kind == "repeats" and wanted[2] == 1:
        return found[1:] == wanted[1:] and windows.is_right(data, found[0])
    return found == wanted


def ended(command, data):
    done = subprocess.run(command, input=data, capture_output=True, check=False)
    return done.stdout.decode(), done.stderr.decode(), done.returncode


def ending_of(answer):
    if answer[2] == 3:
        return re.sub(r"\d+", "N", answer[1].strip().removeprefix("fsr: "))
    told = answer[0] if isinstance(answer[0], str) else f"unlawful {answer[0][0]}"
    return re.sub(r"( \d+)+$", "", told.split("\n")[0])


def main():
    parser = argparse.ArgumentParser()
    parser.add_argument("program")
    parser.add_argument("--logs", type=int, default=2000)
    parser.add_argument("--seed", type=int, default=1)
    given = parser.parse_args()
    source, endings, kinds = random.Random(given.seed), collections.Counter(), collections.Counter()
    for number in range(given.logs):
        data, words = make_exchanges.make_log(source), source.choice(WORDS)
        kind = kind_of(data)
        wanted, found = answer_of(kind, data), ended([given.program, "order", *words], data)
        if not agree(kind, data, words, found, wanted):
            print(f"document {number} of seed {given.seed}, {' '.join(['order', *words])} < {compare.keep(data)}", "the program:", *found, sep="\n")
            print("the reference:", *wanted, sep="\n")
            return 1
        endings[ending_of(found if kind == "repeats" else wanted)] += 1
        kinds[("lawful", "lost", "", "refused")[wanted[2]] if kind == "repeats" else "others"] += 1
    by_kind = "".join(f", {count} {kind}" for kind, count in sorted(kinds.items()))
    compare.tell_endings(endings, f"{kinds.total()} documents of seed {given.seed}{by_kind}")
    return 0 if kinds else 1


if __name__ == "__main__":
    sys.exit(main())
