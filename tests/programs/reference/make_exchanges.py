"""Random logs in lines whose records repeat: good ones, and hostile ones for each refusal. A few headers say otherwise, and then the log is
one whose records may be written once."""

import copy
import json

NAMES = (lambda k: k, lambda k: [k], lambda k: [0, k], lambda k: f"record \u00e9 {k}", lambda k: [k] * 64)
OTHERWISE = (False, None, 1, "true", [True], {})
NEEDED = ("who", "kind", "begin", "end", "record")
WRONG = (None, -1, 1.5, "x", [], {}, [None], [[1]], [1] * 65, True, False, 18446744073709551616, "done", "refused", 0, 7)
SPOILT = (b"", b"\n", b"}", b"\xff", b" ", b"\r", b'"')
MOST_UNDER_WAY, MOST_WRITTEN_ONCE = 8, 5


def name_of(random, style, value):
    """The record of this number; one number may stand alone or as the array of it."""
    return NAMES[random.randrange(2) if style < 2 else style](value)


def intervals(random):
    """Begins and ends, of which some are none, so that few operations are under way at once."""
    count = random.randint(0, 7) if random.random() < 0.8 else random.randint(8, 14)
    span, longest, open_ones = max(1, count * random.choice((1, 1, 2, 3))), random.choice((0, 2, 5, 9)), 0
    found = []
    for _ in range(count):
        begin = random.randrange(span)
        is_open = open_ones < 2 and random.random() < 0.12
        open_ones += is_open
        found.append((begin, None if is_open else begin + random.randint(0, longest)))
    most = max((sum(b <= at and (e is None or e >= at) for b, e in found) for at, _ in found), default=0)
    return found if most <= MOST_UNDER_WAY else intervals(random)


def do(random, values, held, end, refuses=False):
    """What an operation does of a register that holds a value, without its names, and what it holds then."""
    if refuses and random.random() < 0.4:
        return {"kind": "refused", "record": held}, held
    value, happens = random.choice(values), random.random() < 0.5
    kind = random.choice(("write", "write", "read", "read", "read", "cas", "cas", "cas", "maybe"))
    if kind == "read":
        return {"kind": kind, "record": None if end is None and happens else held}, held
    if kind in ("write", "maybe"):
        takes_effect = happens or (kind == "write" and end is not None)
        return {"kind": kind, "record": value}, value if takes_effect else held
    expected = held if random.random() < 0.6 else random.choice(values)
    made = {"kind": kind, "from": expected, "record": value, "swapped": expected == held}
    if end is None or random.random() < 0.2:
        made["swapped"] = None
        return made, value if happens and expected == held else held
    if not made["swapped"] and random.random() < 0.6:
        made["found"] = held if random.random() < 0.9 else None
    return made, value if made["swapped"] else held


def change_answer(random, values, made):
    """Another answer in place of this one, if it has one."""
    if made["kind"] in ("read", "refused") and made["record"] is not None:
        made["record"] = random.choice(values)
    elif made["kind"] == "cas" and made["swapped"] is not None:
        made["swapped"] = not made["swapped"]
        made.pop("found", None)
        seen = random.choice(values)
        if not made["swapped"] and seen != made["from"] and random.random() < 0.5:
            made["found"] = seen


def good_log(random, limits=(None,)):
    """The rows of a log of a register, or with some answers changed. With a limit it refuses writes once it changed so often, and few before;
    the header may say another one."""
    values, style = range(random.randint(2, 4)), random.randrange(len(NAMES))
    times = intervals(random)
    points = sorted((random.uniform(begin, begin + 9 if end is None else end), place) for place, (begin, end) in enumerate(times))
    held, made, limit, done = 0, {}, random.choice(limits), 0
    for _, place in points:
        was, refuses = held, limit is not None and (done >= limit or random.random() < 0.05)
        made[place], held = do(random, values, held, times[place][1], refuses)
        done += held != was
    changes = random.choice((0, 1, 1, 2))
    for place in random.sample(sorted(made), min(changes, len(made))):
        change_answer(random, values, made[place])
    key = random.choice(({}, {}, {"key": None}, {"key": 7}, {"key": "a"}, {"key": [1, 2]}))
    rows = []
    for place in sorted(made, key=(lambda p: times[p][0]) if random.random() < 0.5 else None):
        it = {name: name_of(random, style, it) if name in ("record", "from", "found") and it is not None else it for name, it in made[place].items()}
        rows.append({"who": random.randrange(4), "begin": times[place][0], "end": times[place][1], **it, **key})
    last = [{"kind": "done", "ops": len(rows)}] if random.random() < 0.5 else []
    header = {"kind": "lines", "opening": name_of(random, style, 0), "repeats": True}
    if limit is not None:
        header["limit"] = limit + random.choice((0, 0, 0, 1))
    return [header, *rows, *last]


def spoil_laws(random, it):
    """Breaks a law of an operation."""
    how = random.randrange(7)
    if it["kind"] == "cas" and how < 3:
        it["swapped"] = random.choice((True, False, it.get("swapped")))
        it["found"] = random.choice((it.get("from"), it.get("record"), 0, [0], 1, None))
    elif how < 2:
        it["record"] = None
    elif how < 4 and isinstance(it.get("end"), int):
        it["end"] = it["begin"] - random.choice((1, 1, 0))
    elif how == 4:
        it["end"] = None
    else:
        it["kind"] = random.choice(("refused", "refused", "write", "read", "maybe", "cas"))


def spoil_row(random, it):
    how, of_cas = random.random(), ["from", "swapped", "found", "found"] * 2 if it["kind"] == "cas" else []
    if how < 0.25:
        it.pop(random.choice([*NEEDED, *of_cas]), None)
    elif how < 0.6:
        it[random.choice([*NEEDED, "key", *of_cas])] = copy.deepcopy(random.choice(WRONG))
    else:
        spoil_laws(random, it)


def spoil_log(random, rows):
    """Changes the header, the number of lines, or the end."""
    how = random.randrange(5)
    if how == 0:
        rows[0]["limit"] = random.choice((None, 1, 0, 18446744073709551615, "x", False))
    elif how == 1:
        rows[0]["opening"] = copy.deepcopy(random.choice(WRONG))
    elif how == 2:
        rows[0].pop(random.choice(("opening", "repeats", "kind")))
    elif how == 3:
        rows.insert(random.randint(1, len(rows)), {"kind": "done", **random.choice(({}, {"ops": len(rows)}, {"ops": len(rows) - 1}, {"ops": "1"}))})
    else:
        rows.insert(random.randint(1, len(rows)), copy.deepcopy(random.choice(rows)))


def spoil(random, rows):
    """Changes one operation by one or more things, of which the first to be tested has to be told, or the log."""
    if len(rows) == 1 or random.random() < 0.25:
        spoil_log(random, rows)
        return
    it = random.choice(rows[1:])
    for _ in range(random.choice((1, 1, 2, 3))):
        if it.get("kind") == "done":
            it[random.choice(("ops", "kind"))] = random.choice(WRONG)
        elif "kind" in it and isinstance(it.get("begin"), int):
            spoil_row(random, it)


def text_of(random, rows):
    separators = random.choice([(",", ":"), (", ", ": ")])
    data = "\n".join(json.dumps(row, separators=separators, ensure_ascii=False) for row in rows).encode()
    if random.random() < 0.03:
        at = random.randrange(len(data))
        data = data[:at] + random.choice(SPOILT) + data[at + random.randint(0, 1):]
    if random.random() < 0.03:
        data = data.replace(b'true', random.choice((b'false,"repeats":true', b'true,"repeats":false')), 1)
    # (a form feed isn't JSON's white space, so a header alone with one behind it isn't known as such)
    return data + random.choice((b"", b"\n", b"\n", b" \r\n\t", b"\x0c\n" if len(rows) > 1 else b"\n"))


def make_log(random):
    """The bytes of a log."""
    rows = good_log(random, (None, None, 1, 2, 3))
    if random.random() < 0.4:
        spoil(random, rows)
    if len(rows) <= MOST_WRITTEN_ONCE and random.random() < 0.1:
        rows[0]["repeats"] = copy.deepcopy(random.choice(OTHERWISE))
        rows[1:] = [row for row in rows[1:] if row.get("kind") != "cas" or random.random() < 0.1]
    return text_of(random, rows)
