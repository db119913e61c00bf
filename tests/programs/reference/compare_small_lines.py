"""Compares a program that takes a log in lines with the plain reference, on random small logs.

    compare_small_lines.py PROGRAM [--logs N] [--seed S] [WORD ..]

The program is run with these words. With `--order` among them the order of the writes has to be one of a lawful order, and with `--small`
the small log has to be that of a reason, which breaks the same rule. With `--strict` the status has to be 8 exactly where the reference
says of a lawful log how little it shows. The last line is how many logs had the same bytes and status, by kind of ending; the first
difference ends the run with status 1, with the log kept in the file that is named. Which reason of a rule is told is free: it has to be one
by the reference, which tries every order.
"""

import argparse
import collections
import json
import random
import re
import subprocess
import sys
import tempfile

import make_documents
import searches
import small_lines
from compare import tell_endings

NAMES = (lambda k: k, lambda k: [k], lambda k: [0, k], lambda k: f"record \u00e9 {k}", lambda k: [k] * 64)
KEYS = ("who", "kind", "begin", "end", "record", "key")
WRONG = (None, -1, 1.5, "x", [], {}, [None], [[1]], [1] * 65, True, 18446744073709551616, "done", 0)


def name_of(source, style, value):
    """The record of this number; one number may stand alone or as the array of it."""
    if style < 2:
        return NAMES[source.randrange(2)](value)
    return NAMES[style](value)


def make_log(source):
    """A header, the operations of one key, or of several one among the other, and maybe the end."""
    if source.random() < 0.75:
        return make_one(source)
    several, style = source.sample((None, 7, "a", [1, 2], "\u00e9"), source.choice((2, 2, 3))), source.randrange(len(NAMES))
    logs = [make_one(source, {"key": key} if key or source.random() < 0.5 else {}, style) for key in several]
    ops = sorted((each for log in logs for each in log[1:] if each["kind"] != "done"), key=lambda each: each["begin"])
    last = [{"kind": "done", "ops": len(ops)}] if source.random() < 0.5 else []
    return [source.choice(logs)[0], *ops, *last]


def words_for(source, value):
    """What a line says of the words of the record of this number; now and then it is none that they can be."""
    if source.random() < 0.1:
        return source.choice(([], [value], value, [value, "x", 7], ["x", value], "x", None, [1.5, 7], {"0": 7}))
    return [value, source.randrange(3), *[7] * source.randrange(3)]


def make_one(source, key=None, style=None):
    made, style = make_documents.log(source), source.randrange(len(NAMES)) if style is None else style
    has_words = source.random() < 0.4
    ops, ends = sorted(made["ops"], key=lambda each: each["begin"]), {}
    step = source.choice((1, 1, 1, 7))
    told, key = [], source.choice(({}, {}, {"key": None}, {"key": 7}, {"key": "a"}, {"key": [1, 2]})) if key is None else key
    for each in ops:
        who = next((who for who in range(9) if ends.get(who, -1) is not None and ends.get(who, -1) < each["begin"]), 9)
        who = each["who"] if source.random() < 0.02 else who
        ends[who] = each.get("end")
        record = each.get("record")
        told.append({"who": step * who, "kind": each["kind"], "begin": each["begin"], "end": each.get("end"),
                     "record": None if record is None else name_of(source, style, record[0]), **key})
        if has_words and record is not None:
            told[-1]["words"] = words_for(source, record[0])
    header = {"kind": "lines", "opening": name_of(source, style, 0)}
    if has_words and source.random() < 0.8:
        header["words"] = words_for(source, 0)
    if source.random() < 0.5 or any(each["kind"] == "refused" for each in told) and source.random() < 0.95:
        header["limit"] = made["limit"]
    last = []
    if source.random() < 0.5:
        last = [{"kind": "done", "ops": len(told) + (source.random() < 0.05)}]
    return [header, *told, *last]


def spoil(source, log):
    """Changes one thing of a log."""
    each = source.choice(log)
    how, key = source.randrange(6), source.choice(KEYS)
    if how == 0 and key in each and each is not log[0]:
        each[key + "s"] = each.pop(key)
    elif how == 1 and each is not log[0]:
        each[key] = source.choice(WRONG)
    elif how == 2 and each.get("end") is not None:
        each["begin"], each["end"] = each["end"], each["begin"]
    elif how == 3:
        log.insert(source.randrange(1, len(log) + 1), dict(source.choice(log)))
    elif how == 4:
        log[0][source.choice(("opening", "limit"))] = source.choice(WRONG)
    else:
        each["x"] = source.choice(WRONG)


def text_of(source, log):
    text = "\n".join(json.dumps(each, separators=source.choice([(",", ":"), (", ", ": ")]), ensure_ascii=False) for each in log)
    data = (text + source.choice(["", "\n"])).encode()
    if source.random() < 0.03 and b"\n" in data:
        at = source.randrange(len(data.split(b"\n")[0]), len(data))
        data = data[:at] + source.choice([b"", b"\n", b"}", b"\xff", b" "]) + data[at + source.randint(0, 1):]
    return data


def is_small(data, text, rule, reasons):
    """Whether the text is the small log of one of these reasons of the rule, and its own first rule is the same."""
    made = json.loads(text)
    ops = [{**each, "record": tuple(each["record"])} for each in made["ops"]]
    return text in {small_lines.small(data, rule, lines) for lines in reasons} and searches.search((0, 0, 0), made["limit"], ops)[0] == rule


def says_little(wanted):
    return wanted[2] == 0 and wanted[0].split("\n")[1].endswith((" there is no operation.", " of the records were read."))


def agree(data, found, wanted, words):
    if "--strict" in words and says_little(wanted):
        if found[2] != 8:
            return False
        found = (*found[:2], 0)
    if "--small" in words and wanted[2] == 0:
        return found == ("", "", 0)
    if "--small" in words and wanted[2] == 1:
        return found[1:] == wanted[1:] and is_small(data, found[0], *wanted[0])
    if "--order" in words and wanted[2] == 0:
        return found[1:] == wanted[1:] and small_lines.is_order_of_writes(data, found[0])
    if wanted[2] != 1:
        return found == wanted
    words = found[0].split("\n")[0].split()
    if found[1:] != wanted[1:] or words[:2] != ["unlawful", wanted[0][0]]:
        return False
    return tuple(map(int, words[2:])) in wanted[0][1] and found[0] == small_lines.told(data, words[1:])


def ending_of(wanted):
    if wanted[2] == 3:
        return re.sub(r"\d+", "N", wanted[1].strip())
    return "lawful" if wanted[2] == 0 else f"unlawful {wanted[0][0]}"


def main():
    parser = argparse.ArgumentParser()
    parser.add_argument("program")
    parser.add_argument("words", nargs="*", help="behind --, if one begins with a dash")
    parser.add_argument("--logs", type=int, default=2000)
    parser.add_argument("--seed", type=int, default=1)
    given = parser.parse_args()
    source, endings = random.Random(given.seed), collections.Counter()
    for number in range(given.logs):
        log = make_log(source)
        if source.random() < 0.2:
            spoil(source, log)
        data = text_of(source, log)
        wanted = small_lines.answer(data)
        done = subprocess.run([given.program, *given.words], input=data, capture_output=True, check=False)
        found = done.stdout.decode(), done.stderr.decode(), done.returncode
        if not agree(data, found, wanted, given.words):
            with tempfile.NamedTemporaryFile(prefix="log", suffix=".jsonl", delete=False) as file:
                file.write(data)
            print(f"log {number} of seed {given.seed}: {file.name}", "the program:", *found, "the reference:", *wanted, sep="\n")
            return 1
        endings[ending_of(wanted)] += 1
    tell_endings(endings, f"{given.logs} logs of seed {given.seed}")
    return 0


if __name__ == "__main__":
    sys.exit(main())
