"""Random documents of every kind: good ones, and hostile ones that are a good one with something changed."""

import copy
import json

ORDINARY = [0, 1, 2, 3, 5, 7, 9]
EDGES = [15, 16, 17, 9999, 10000, 10001, 2**63, 2**64 - 2, 2**64 - 1]
WRONG = [-1, 1.5, 2**64, 10**30, None, True, "read", "w", "x", "", [], {}, [[]], [0, 0], [0, 0, 0, 0], [0, "0", 0], {"who": 0}]
PIECES = ["-0", "1.0", "1e2", "1e999", "01", "1.", "NaN", "Infinity", '"\\ud800"', '"\\ud83d\\ude00"', '"\t"', "[" * 126 + "]" * 126,
          "[" * 127 + "]" * 127, "tru", "null", "18446744073709551615", "18446744073709551616", '"\\u0000"', "1E+2", "- 1", "+1"]
BYTES = [b"\xff", b"\xef\xbb\xbf", b"\x00", b"\x0b", b",", b"]", b"}", b'"', b"\\", b"\xc3\xa9", b" ", b"\n"]


def number(random):
    return random.choice(ORDINARY if random.random() < 0.97 else EDGES)


def record(random):
    numbers = sorted(number(random) for _ in range(3))
    if random.random() < 0.02:
        random.shuffle(numbers)
    return numbers


def plans(random, processes):
    return [[record(random) if random.random() < 0.55 else "read" for _ in range(random.randint(0, 4))] for _ in range(processes)]


def steps_of(random, given, width):
    length = 2 * (len(given) - 1) * width
    left = [who for who, plan in enumerate(given) for _ in range(len(plan) * length)]
    random.shuffle(left)
    runs, steps = random.choice([1, 1, 3, length]), []
    for who in left[: random.randint(0, len(left))] if left else []:
        steps += [who] * runs
    counts, kept = [0] * len(given), []
    for who in steps:
        if counts[who] < len(given[who]) * length or random.random() < 0.0005:
            counts[who] += 1
            kept.append(who)
    return kept


def processes_of(random):
    return random.choice([2, 2, 2, 3, 3, 4, 5, 16])


def term(random, width):
    given = plans(random, processes_of(random))
    return {"limit": random.choice([1, 1, 2, 3, 9, number(random)]), "plans": given, "steps": steps_of(random, given, width)}


def matrix(random):
    return {"kind": "matrix", "opening": record(random), **rest(random, 1)}


def board(random):
    return {"kind": "board", "opening": record(random), "noise": [number(random) for _ in range(3)], **rest(random, 5)}


def rest(random, width):
    if random.random() < 0.3:
        return {"terms": [term(random, width) for _ in range(random.choice([1, 2, 2, 3]))]}
    return term(random, width)


def cell(random):
    writes, reads = [record(random) for _ in range(random.randint(0, 6))], random.randint(0, 6)
    left = list("w" * (5 * len(writes)) + "r" * (5 * reads))
    random.shuffle(left)
    if random.random() < 0.3:
        left.sort(key=lambda side: (side, random.random()), reverse=True)
    steps = "".join(left[: random.randint(0, len(left))])
    if random.random() < 0.05:
        steps += random.choice("wr") * 6
    return {"kind": "cell", "opening": record(random), "noise": [9, 8, 7], "writes": writes, "reads": reads, "steps": steps}


def operation(random, item):
    begin = random.randint(0, 12)
    made = {"who": random.randint(0, 3), "kind": random.choice(["write", "write", "read", "read", "refused"]), "begin": begin}
    if random.random() < 0.85:
        made["end"] = begin + random.randint(0, 6)
    if made["kind"] == "write" or "end" in made or random.random() < 0.5:
        made["record"] = item
    return made


def check(random):
    items = [[0, 0, 0], [1, 1, 1], [2, 2, 2]]
    ops = [operation(random, random.choice(items)) for _ in range(random.randint(0, 5))]
    order = list(range(len(ops)))
    if random.random() < 0.8:
        order.sort(key=lambda place: ops[place]["begin"])
        order = [place for place in order if "end" in ops[place] or ops[place]["kind"] == "write" and random.random() < 0.5]
        claim(random, ops, order)
    else:
        order = [random.randint(0, 5) for _ in order]
    return {"kind": "check", "opening": [0, 0, 0], "limit": random.choice([1, 1, 2, 3]), "ops": ops, "order": order}


def claim(random, ops, order):
    """Gives the reads the records that make the order lawful, mostly."""
    latest = [0, 0, 0]
    for place in order:
        if ops[place]["kind"] == "write":
            latest = ops[place]["record"]
        elif random.random() < 0.95:
            ops[place]["record"] = latest
    if len(order) > 1 and random.random() < 0.2:
        at = random.randrange(len(order) - 1)
        order[at], order[at + 1] = order[at + 1], order[at]


def log(random):
    """A log that a register made, or a slack one, with one record changed at times. Each write has a record of its own, but for a few."""
    dense = random.random() < 0.5
    ops = [operation(random, None) for _ in range(random.randint(5, 7) if dense else random.randint(0, 7))]
    number, longest = 0, random.choice([1, 6])
    for each in ops:
        if dense and each["kind"] == "refused":
            each["kind"] = "read"
        if "end" in each:
            each["end"] = min(each["end"], each["begin"] + longest)
        if each["kind"] == "write":
            number += random.random() < 0.99
            each["record"] = [number] * 3 if random.random() < 0.995 else [0, 0, 0]
    slack = random.choice([0, 0, 5])
    moments = [(random.uniform(each["begin"] - slack, each.get("end", 18) + slack), place) for place, each in enumerate(ops)]
    latest = [0, 0, 0]
    for _, place in sorted(moments):
        if ops[place]["kind"] == "write":
            latest = ops[place]["record"] if "end" in ops[place] or random.random() < 0.6 else latest
        elif "record" in ops[place]:
            ops[place]["record"] = latest
    answers = [each for each in ops if each["kind"] != "write" and "record" in each]
    if answers and random.random() < 0.3:
        random.choice(answers)["record"] = [random.choice([*range(number + 1), 9])] * 3
    return {"kind": "log", "opening": [0, 0, 0], "limit": random.choice([1, 1, 2, 3]), "ops": ops}


def race(random):
    scripts = plans(random, processes_of(random))
    return {"kind": "race", "opening": record(random), "limit": random.choice([1, 2, 3, 9, 99, number(random)]), "scripts": scripts}


KINDS = {"check": check, "log": log, "cell": cell, "matrix": matrix, "board": board, "race": race}

COMMANDS = {"check": "check", "log": "order", "cell": "play", "matrix": "play", "board": "play", "race": "race"}


def places(value, path=()):
    """Every place in a value, the top left out."""
    found = [path] if path else []
    members = value.items() if isinstance(value, dict) else enumerate(value) if isinstance(value, list) else []
    for key, member in members:
        found += places(member, path + (key,))
    return found


def change(random, made):
    path = random.choice(places(made))
    inside = made
    for key in path[:-1]:
        inside = inside[key]
    last, how = path[-1], random.random()
    if how < 0.3 and (isinstance(inside, dict) or isinstance(inside, list)):
        del inside[last]
    elif how < 0.6:
        inside[last] = copy.deepcopy(random.choice(WRONG))
    elif how < 0.8:
        inside[last] = random.choice(EDGES)
    elif isinstance(inside, list):
        inside.insert(last, copy.deepcopy(random.choice(inside)))
    else:
        inside[random.choice(["terms", "noise", "limit", "end", "x", "kind"])] = copy.deepcopy(random.choice(WRONG))


def hostile_text(random, text):
    how = random.random()
    if how < 0.3:
        return text[: random.randint(0, len(text))]
    if how < 0.6:
        at = random.randint(0, len(text))
        return text[:at] + random.choice(BYTES) + text[at + random.randint(0, 1):]
    if how < 0.8:
        return text[:-1] + b',"x":' + random.choice(PIECES).encode() + b"}"
    digits = [at for at, byte in enumerate(text) if 48 <= byte <= 57]
    at = random.choice(digits) if digits else 0
    return text[:at] + random.choice(PIECES).encode() + text[at + 1:]


def make_document(random, kinds):
    """The kind of a document, a command and its bytes."""
    kind = random.choice(kinds)
    made = KINDS[kind](random)
    command = COMMANDS[kind]
    if random.random() < 0.02:
        command = random.choice([COMMANDS[each] for each in kinds])
    hostile = random.random()
    if hostile < 0.25:
        for _ in range(random.choice([1, 1, 2])):
            if places(made):
                change(random, made)
    text = json.dumps(made, separators=random.choice([(",", ":"), (", ", ": ")]), ensure_ascii=False).encode()
    if 0.25 <= hostile < 0.35:
        text = hostile_text(random, text)
    return kind, command, text
