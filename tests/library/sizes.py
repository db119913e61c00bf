"""Documents as large as they may be, and what `fsr` prints of them.

    sizes.py FOLDER              writes NAME.json and NAME.txt into the folder, for a register's schedule of 5,000 writes and 5,000 reads,
                                 for a board's of one term with 10,000 operations, and for two logs of 10,000
    sizes.py --drawn PICTURE TEXT says whether a picture has a bar for each operation and each slot access that the text tells, and a point
                                 for each entry of its order; or of a log without an order its marks and arrows

Both schedules have as many steps as finish every operation, the sides' and the processes' by turns of several lengths; their texts are
those of the plain reference. Of the first log one order alone is lawful, so its text follows from what an order is; of the second each line
of NAME.txt is a reason that may be told.
"""

import json
import os
import random
import re
import sys
import xml.etree.ElementTree as tree

TOP = os.path.dirname(os.path.dirname(os.path.dirname(os.path.realpath(__file__))))
sys.path.insert(0, f"{TOP}/tests/programs/reference")

import answers

OPERATIONS = 10_000
NOISE = [9, 8, 7]
SVG = "{http://www.w3.org/2000/svg}"


def record(number):
    return [number, number, number + 1]


def turns(left, lengths):
    """Whose turn each step is, where each side in turn has the next of these lengths, as far as it has steps left."""
    steps, turn = [], 0
    while any(left):
        side, length = turn % len(left), lengths[turn % len(lengths)]
        taken = min(length, left[side])
        steps += [side] * taken
        left[side] -= taken
        turn += 1
    return steps


def cell():
    half = OPERATIONS // 2
    steps = turns([5 * half, 5 * half], [3, 7, 5, 1, 4])
    return {
        "kind": "cell",
        "opening": record(0),
        "noise": NOISE,
        "writes": [record(number) for number in range(1, half + 1)],
        "reads": half,
        "steps": "".join("wr"[side] for side in steps),
    }


def board():
    """Two processes, of which each writes and reads by turns. An operation is two accesses of five steps each."""
    half = OPERATIONS // 2
    plans = [["read" if place % 2 else record(2 * place + who) for place in range(half)] for who in (0, 1)]
    return {
        "kind": "board",
        "opening": record(0),
        "noise": NOISE,
        "limit": OPERATIONS,
        "plans": plans,
        "steps": turns([10 * half, 10 * half], [3, 7, 13, 1, 20]),
    }


def operations():
    """Writes, one after the other, and of each its read, which begins when the next write has begun: each order but write, read, write,
    read .. is unlawful, that by beginning too."""
    ops = []
    for k in range(OPERATIONS // 2):
        ops.append({"who": k % 16, "kind": "write", "begin": 10 * k, "end": 10 * k + 4, "record": record(k + 1)})
        ops.append({"who": (k + 5) % 16, "kind": "read", "begin": 10 * k + 12, "end": 10 * k + 13, "record": record(k + 1)})
    return ops


def logs():
    """A log whose operations are shuffled, and the same where the last read gives the record before: that record and the last have to
    stand before each other, and no two others have."""
    places = list(range(OPERATIONS))
    random.Random(1997).shuffle(places)
    for name in "log", "crossed":
        ops = operations()
        if name == "crossed":
            ops[-1]["record"] = record(OPERATIONS // 2 - 1)
        shuffled = [None] * OPERATIONS
        for place, op in zip(places, ops):
            shuffled[place] = op
        first, last, read = places[-4], places[-2], places[-1]
        lines = {
            "log": ["lawful", "order: " + " ".join(map(str, places))],
            "crossed": [f"unlawful crossed {first} {last} {last} {read}", f"unlawful crossed {last} {read} {first} {last}"],
        }
        document = {"kind": "log", "opening": record(0), "limit": 1, "ops": shuffled}
        yield name, document, "".join(line + "\n" for line in lines[name])


def write(folder):
    for name, document in ("cell", cell()), ("board", board()):
        data = json.dumps(document, separators=(",", ":")).encode()
        text, line, status = answers.answer("play", data)
        if status or line or text.count("op ") != OPERATIONS:
            sys.exit(f"{name}: the reference doesn't play it: {line}")
        keep(folder, name, data, text)
    for name, document, text in logs():
        keep(folder, name, json.dumps(document, separators=(",", ":")).encode(), text)


def keep(folder, name, data, text):
    with open(f"{folder}/{name}.json", "wb") as file:
        file.write(data)
    with open(f"{folder}/{name}.txt", "w", encoding="utf-8") as file:
        file.write(text)


def wanted_of(told):
    """How many bars, points, marks and arrows a text stands for."""
    with open(told, encoding="utf-8") as file:
        *lines, order = file.read().splitlines()
    if order.startswith("unlawful crossed"):
        return OPERATIONS, 0, 4, 2
    entries = len(order.split()) - 1
    if lines == ["lawful"]:
        return OPERATIONS, entries, 0, 0
    slots = sum(len(re.findall(r"\d+", found)) for line in lines for found in re.findall(r"slots? ([\d -]+)", line))
    return len(lines) + slots, entries, 0, 0


def judge(drawn, told):
    picture = tree.parse(drawn).getroot()
    classes = [path.get("class") for path in picture.iter(SVG + "path")]
    bars, marks, arrows = (sum(map(classes.count, named)) for named in ("wrf", "x", "p"))
    points = sum(1 for _ in picture.iter(SVG + "circle"))
    found, wanted = (bars, points, marks, arrows), wanted_of(told)
    if found != wanted:
        sys.exit(f"bars, points, marks and arrows are {found}, and not {wanted}")


if sys.argv[1] == "--drawn":
    judge(*sys.argv[2:])
else:
    write(sys.argv[1])
