"""Compares `fsr` with the plain reference on random documents.

    compare.py PROGRAM [--documents N] [--seed S] [--kinds KIND,..]

The kinds are check, log, cell, matrix and board, and race if it is named.
The last lines are how many documents gave the same bytes and status, by kind of ending, and how many there were, by their kind. None at all
is status 1. The first difference ends the run with
status 1, with the document kept in the file that is named. Where it depends on the run which writes of a race are refused, the
writes of each task and its refused ones are compared together. Which order of a log is told is free, and which reason of a rule: the
places have to be such an order or reason, and `check` has to call the order lawful.
"""

import argparse
import collections
import json
import random
import re
import subprocess
import sys
import tempfile

import answers
import documents
import make_documents
import searches


def tell_endings(counts, what):
    """Prints how many there were of each kind of ending, and last that there was no difference."""
    for ending, count in sorted(counts.items()):
        print(f"{count} {ending}")
    print(f"{what}: the same bytes and status")


def words():
    parser = argparse.ArgumentParser()
    parser.add_argument("program")
    parser.add_argument("--documents", type=int, default=2000)
    parser.add_argument("--seed", type=int, default=1)
    parser.add_argument("--kinds", default="check,log,cell,matrix,board")
    return parser.parse_args()


def ended(program, command, text):
    done = subprocess.run([program, command], input=text, capture_output=True, check=False)
    return done.stdout.decode(), done.stderr.decode(), done.returncode


def agree(program, command, text, found, wanted):
    """Whether the program ended as the reference says, which may leave open which writes of a race are refused, and of a log the places."""
    if command == "order" and wanted[2] < 2:
        return found[1:] == wanted[1:] and tells_of_log(program, documents.read(command, text)[1], found[0])
    return found == wanted or (together(found[0]), *found[1:]) == wanted


def tells_of_log(program, log, told):
    """Whether a text tells an order of the log that `check` calls lawful, or a reason, as the reference has them."""
    order = searches.places_told("lawful\norder:", told)
    if order is not None:
        claim = json.dumps({"kind": "check", **log, "order": order}).encode()
        if ended(program, "check", claim) != ("lawful\n", "", 0):
            return False
    return searches.may_tell(log, told)


def together(text):
    def writes(line):
        return f"{int(line[1]) + int(line[3])} writes or refused, {line[2]} reads"
    return re.sub(r"(\d+) writes, (\d+) reads, (\d+) refused", writes, text)


def ending_of(command, wanted):
    """How a document ended, without numbers."""
    text, told, status = wanted
    if status == 3:
        return re.sub(r"\d+", "N", told.rstrip("\n").removeprefix("fsr: "))
    return text if command == "order" else ("printed", "unlawful")[status]


def keep(text):
    with tempfile.NamedTemporaryFile(prefix="document", suffix=".json", delete=False) as file:
        file.write(text)
    return file.name


def main():
    given = words()
    source, counts, kinds = random.Random(given.seed), collections.Counter(), collections.Counter()
    for number in range(given.documents):
        kind, command, text = make_documents.make_document(source, given.kinds.split(","))
        wanted = answers.answer(command, text)
        found = ended(given.program, command, text)
        if not agree(given.program, command, text, found, wanted):
            print(f"document {number} of seed {given.seed}, {command} < {keep(text)}")
            print("the program:", *found, sep="\n")
            print("the reference:", *wanted, sep="\n")
            return 1
        counts[ending_of(command, wanted)] += 1
        kinds[kind] += 1
    by_kind = "".join(f", {count} {kind}" for kind, count in sorted(kinds.items()))
    tell_endings(counts, f"{kinds.total()} documents of seed {given.seed}{by_kind}")
    return 0 if kinds else 1


if __name__ == "__main__":
    sys.exit(main())
