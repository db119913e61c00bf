"""Draws the documents that are named, and some hundreds that are made here, and parses each picture as XML.

Besides that a picture is well formed it is asked of a history that it has a bar for each operation and a point for each entry of the
order that is a place, and of a board that it has a lane for each cell. Of a log it is asked that it says what the plain reference does, and has
a point for each operation that ended and no more than one for each operation, or the marks and arrows of the reason why there is no order.
The documents are the same in each run.
"""

import json
import os
import random
import subprocess
import sys
import xml.etree.ElementTree as tree

TOP = os.path.dirname(os.path.dirname(os.path.dirname(os.path.realpath(__file__))))
sys.path.insert(0, f"{TOP}/tests/programs/reference")

import answers

MADE = 400

# Of each reason why a log has no order how many operations are marked, one that is named twice twice, and how many arrows there are.
REASONS = {"unwritten": (1, 0), "early": (2, 1), "stale": (2, 1), "crossed": (4, 2), "limit": (1, 0)}
SVG = "{http://www.w3.org/2000/svg}"


def draw(program, text):
    return subprocess.run([program], input=text, capture_output=True, timeout=20)


def record(dice):
    return sorted(dice.choice([0, 1, 9, 2**64 - 1, dice.randrange(2**64)]) for _ in range(3))


def check(dice):
    ops = []
    for _ in range(dice.randrange(9)):
        begin = dice.choice([dice.randrange(20), dice.randrange(2**64)])
        op = {"who": dice.randrange(16), "kind": dice.choice(["write", "read", "refused"]), "begin": begin, "record": record(dice)}
        if dice.randrange(4):
            op["end"] = dice.choice([begin, begin + dice.randrange(min(20, 2**64 - begin)), dice.randrange(begin, 2**64)])
        ops.append(op)
    order = [dice.randrange(len(ops) + 1) for _ in ops] if dice.randrange(2) else dice.sample(range(len(ops)), len(ops))
    return {"kind": "check", "opening": record(dice), "limit": dice.randrange(1, 5), "ops": ops, "order": order}


def log(dice):
    """A log of a few records, each written once or, now and then, not at all, and of reads and refused writes that mostly give one of them."""
    records = [[number, number, number] for number in range(1, dice.randrange(2, 5))]
    given = [("write", it) for it in records if dice.randrange(20)]
    given += [(dice.choice(["read", "read", "refused"]), dice.choice([[0, 0, 0], *records, *records])) for _ in range(dice.randrange(5))]
    dice.shuffle(given)
    ops = []
    for kind, it in given:
        begin = dice.randrange(12) if dice.randrange(20) else dice.randrange(2**64)
        op = {"who": dice.randrange(16), "kind": kind, "begin": begin, "record": it}
        if dice.randrange(6):
            op["end"] = begin + dice.randrange(min(6, 2**64 - begin))
        ops.append(op)
    return {"kind": "log", "opening": [0, 0, 0], "limit": dice.randrange(1, 3), "ops": ops}


def cell(dice):
    writes, reads = dice.randrange(5), dice.randrange(5)
    steps = ["w"] * (5 * writes) + ["r"] * (5 * reads)
    dice.shuffle(steps)
    steps = steps[: dice.randrange(len(steps) + 1)]
    return {
        "kind": "cell",
        "opening": record(dice),
        "noise": record(dice),
        "writes": [record(dice) for _ in range(writes)],
        "reads": reads,
        "steps": "".join(steps),
    }


def term(dice, processes, width):
    plans = [[dice.choice(["read", record(dice)]) for _ in range(dice.randrange(3))] for _ in range(processes)]
    steps = [who for who, plan in enumerate(plans) for _ in range(2 * width * (processes - 1) * len(plan))]
    dice.shuffle(steps)
    return {"limit": dice.randrange(1, 4), "plans": plans, "steps": steps[: dice.randrange(len(steps) + 1)]}


def terms(dice, width):
    """One term as a document's own members, or some as a list, whose accesses are of so many steps."""
    if dice.randrange(2):
        return term(dice, dice.randrange(2, 6), width)
    return {"terms": [term(dice, dice.randrange(2, 6), width) for _ in range(dice.randrange(1, 4))]}


def matrix(dice):
    return {"kind": "matrix", "opening": record(dice), **terms(dice, 1)}


def board(dice):
    return {"kind": "board", "opening": record(dice), "noise": record(dice), **terms(dice, 5)}


def classes(picture, tag, named):
    return sum(1 for shape in picture.iter(SVG + tag) if shape.get("class") in named)


def cells_drawn(document):
    """How many cells of a board have a lane: all of its largest term, where no term has more than four processes."""
    processes = max(len(term["plans"]) for term in document.get("terms", [document]))
    return processes * (processes - 1) if processes <= 4 else 0


def fault_of_log(document, status, picture):
    ops = document["ops"]
    points = sum(1 for _ in picture.iter(SVG + "circle"))
    bars, marks, arrows = (classes(picture, "path", tuple(named)) for named in ("wrf", "x", "p"))
    lines = [text.text for text in picture.iter(SVG + "text") if (text.text or "").split(" ")[0] in ("lawful", "unlawful")]
    told, _, wanted = answers.answer("order", json.dumps(document).encode())
    if len(lines) != 1 or bars != len(ops):
        return "not a bar for each operation and one line"
    if status != wanted or lines[0].split(":")[0] != told.split("\n")[0]:
        return f"it says {lines[0]}, and the reference {told}"
    if lines == ["lawful"]:
        if status or marks or arrows or not sum("end" in op for op in ops) <= points <= len(ops):
            return "not the points of an order"
    elif status != 1 or points or (marks, arrows) != REASONS[lines[0].split(" ")[1].rstrip(":")]:
        return "not the marks and arrows of its reason"
    return None


def fault_of(document, answer):
    if answer.returncode not in (0, 1):
        return f"status {answer.returncode}: {answer.stderr.decode(errors='replace').strip()}"
    picture = tree.fromstring(answer.stdout)
    circles = sum(1 for _ in picture.iter(SVG + "circle"))
    if document.get("kind") == "log":
        return fault_of_log(document, answer.returncode, picture)
    if document.get("kind") == "check":
        ops = document["ops"]
        if classes(picture, "path", ("w", "r", "f")) != len(ops):
            return "not a bar for each operation"
        if circles != sum(1 for place in document["order"] if place < len(ops)):
            return "not a point for each entry"
        if (answer.returncode == 1) != any("unlawful" in (text.text or "") for text in picture.iter(SVG + "text")):
            return "the status isn't what the picture says"
    if document.get("kind") == "board":
        lanes = sum(1 for text in picture.iter(SVG + "text") if (text.text or "").startswith("cell ("))
        if lanes != cells_drawn(document):
            return "not a lane for each cell"
    return None


def main():
    program, paths = sys.argv[1], sys.argv[2:]
    dice = random.Random(1990)
    documents = []
    for path in paths:
        with open(path, encoding="utf-8") as file:
            documents.append((path, file.read()))
    for number in range(MADE):
        document = dice.choice([check, log, cell, matrix, board])(dice)
        documents.append((f"document {number}", json.dumps(document)))
    drawn = 0
    for name, text in documents:
        answer = draw(program, text.encode())
        if answer.returncode not in (0, 1) and name in paths:
            continue
        fault = fault_of(json.loads(text), answer)
        if fault:
            print(f"{name}: {fault}: {text[:300]}")
            return 1
        drawn += 1
    print(f"{drawn} pictures")
    return 0


sys.exit(main())
