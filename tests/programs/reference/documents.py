"""The way from bytes to a document, as docs/FORMATS.md says it, or the first refusal."""

import json
import sys

GREATEST = 2**64 - 1
MAX_LIMIT = GREATEST - 1
MAX_BYTES = 1048576
MAX_DEPTH = 127
MAX_STEPS = 100000
MAX_OPERATIONS = 10000
BLANKS = " \t\n\r"


def bytes_asked_for(words):
    """The bytes of the file that is named, or else of the standard input."""
    if not words:
        return sys.stdin.buffer.read()
    with open(words[0], "rb") as file:
        return file.read()


class Refused(Exception):
    """A document is refused; the text is the end of the line on standard error."""


class NotWhole:
    """A number with a sign, a point or an exponent, or one that is too great."""


class Parted(dict):
    """An object of the text; of a key that stands twice the last value counts."""


def whole_or_not(text):
    if text.startswith("-") or int(text) > GREATEST:
        in_range(text)
        return NotWhole()
    return int(text)


def in_range(text):
    if float(text) in (float("inf"), float("-inf")):
        raise ValueError("a number out of range")
    return NotWhole()


def refuse_word(word):
    raise ValueError(word)


def depth(text):
    deepest, now, quoted, escaped = 0, 0, False, False
    for letter in text:
        if quoted:
            if escaped:
                escaped = False
            elif letter == "\\":
                escaped = True
            elif letter == '"':
                quoted = False
        elif letter == '"':
            quoted = True
        elif letter in "[{":
            now += 1
            deepest = max(deepest, now)
        elif letter in "]}":
            now -= 1
    return deepest


def has_lone_surrogate(value):
    if isinstance(value, str):
        return any(0xD800 <= ord(letter) <= 0xDFFF for letter in value)
    if isinstance(value, Parted):
        return any(has_lone_surrogate(key) or has_lone_surrogate(value[key]) for key in value)
    if isinstance(value, list):
        return any(has_lone_surrogate(member) for member in value)
    return False


def pairs(members):
    for key, value in members:
        if has_lone_surrogate(key) or has_lone_surrogate(value):
            raise ValueError("a lone surrogate")
    return Parted(members)


def read_json(data):
    try:
        text = data.decode("utf-8")
        if text.startswith("\ufeff") or depth(text) > MAX_DEPTH:
            raise ValueError
        value = json.loads(text, parse_int=whole_or_not, parse_float=in_range, parse_constant=refuse_word,
                           object_pairs_hook=pairs)
        if has_lone_surrogate(value):
            raise ValueError
        return value
    except (ValueError, RecursionError):
        raise Refused("not JSON") from None


# Shapes: each gives the value, or raises WrongShape.


class WrongShape(Exception):
    pass


def shape(holds):
    if not holds:
        raise WrongShape


def whole(value):
    shape(isinstance(value, int) and not isinstance(value, bool))
    return value


def array_of(member):
    def read(value):
        shape(isinstance(value, list))
        return [member(each) for each in value]
    return read


def record(value):
    shape(isinstance(value, list) and len(value) == 3)
    return tuple(whole(each) for each in value)


def letters(value):
    shape(isinstance(value, str) and set(value) <= {"w", "r"})
    return value


def wish(value):
    return "read" if value == "read" and isinstance(value, str) else record(value)


plans_of = array_of(array_of(wish))


def operation(value):
    shape(isinstance(value, Parted))
    shape("who" in value and "kind" in value and "begin" in value)
    kind = value["kind"]
    shape(isinstance(kind, str) and kind in ("write", "read", "refused"))
    end, item = value.get("end"), value.get("record")
    return {
        "who": whole(value["who"]),
        "kind": kind,
        "begin": whole(value["begin"]),
        "end": None if end is None else whole(end),
        "record": None if item is None else record(item),
    }


def term(value):
    shape(isinstance(value, Parted))
    shape(all(key in value for key in ("limit", "plans", "steps")))
    return {"limit": whole(value["limit"]), "plans": plans_of(value["plans"]), "steps": array_of(whole)(value["steps"])}


SHAPES = {
    "opening": record, "noise": record, "limit": whole, "ops": array_of(operation), "order": array_of(whole),
    "writes": array_of(record), "reads": whole, "plans": plans_of, "scripts": plans_of, "terms": array_of(term),
}


def fits(item):
    return item[0] <= item[1] <= item[2]


def in_limit(limit):
    return 1 <= limit <= MAX_LIMIT


def in_plans(plans):
    return 2 <= len(plans) <= 16 and sum(len(plan) for plan in plans) <= MAX_OPERATIONS


def in_steps(steps, plans):
    return len(steps) <= MAX_STEPS and all(step < len(plans) for step in steps)


def plans_fit(plans):
    return all(each == "read" or fits(each) for plan in plans for each in plan)


def terms_in_range(terms):
    return (1 <= len(terms) <= 16
            and all(in_limit(t["limit"]) and in_plans(t["plans"]) and in_steps(t["steps"], t["plans"]) for t in terms)
            and sum(len(t["steps"]) for t in terms) <= MAX_STEPS
            and sum(len(plan) for t in terms for plan in t["plans"]) <= MAX_OPERATIONS)


def in_range_of(key, found):
    value = found[key]
    if key == "limit":
        return in_limit(value)
    if key == "ops":
        return len(value) <= MAX_OPERATIONS and all(each["who"] <= 15 for each in value)
    if key == "order":
        return len(value) <= MAX_OPERATIONS and all(each <= 9999 for each in value)
    if key == "writes":
        return len(value) <= MAX_OPERATIONS
    if key == "reads":
        return value + len(found["writes"]) <= MAX_OPERATIONS
    if key == "steps":
        return len(value) <= MAX_STEPS if isinstance(value, str) else in_steps(value, found["plans"])
    if key in ("plans", "scripts"):
        return in_plans(value)
    if key == "terms":
        return terms_in_range(value)
    return True


def operation_is_lawful(each):
    if each["end"] is not None and each["end"] < each["begin"]:
        return False
    if each["record"] is None:
        return each["kind"] != "write" and each["end"] is None
    return each["kind"] != "write" or fits(each["record"])


def is_lawful(key, value):
    if key == "opening":
        return fits(value)
    if key == "ops":
        return all(operation_is_lawful(each) for each in value)
    if key == "writes":
        return all(fits(each) for each in value)
    if key in ("plans", "scripts"):
        return plans_fit(value)
    if key == "terms":
        return all(plans_fit(each["plans"]) for each in value)
    return True


KINDS = {
    "check": {"check": ["opening", "limit", "ops", "order"]},
    "order": {"log": ["opening", "limit", "ops"]},
    "play": {
        "cell": ["opening", "noise", "writes", "reads", "steps"],
        "matrix": ["opening", "limit", "plans", "steps"],
        "board": ["opening", "noise", "limit", "plans", "steps"],
    },
    "race": {"race": ["opening", "limit", "scripts"]},
}


def read(command, data):
    """The kind and the values of a document by their keys."""
    if len(data) > MAX_BYTES:
        raise Refused("longer than 1048576 bytes")
    top = read_json(data)
    kinds = KINDS[command]
    kind = top.get("kind") if isinstance(top, Parted) else None
    if not isinstance(kind, str) or kind not in kinds:
        raise Refused("kind")
    keys = kinds[kind]
    if kind in ("matrix", "board") and "terms" in top:
        keys = [key for key in keys if key not in ("limit", "plans", "steps")] + ["terms"]
    for key in keys:
        if key not in top:
            raise Refused("missing " + key)
    found = {}
    for key in keys:
        try:
            reader = SHAPES[key] if key != "steps" else (letters if kind == "cell" else array_of(whole))
            found[key] = reader(top[key])
        except WrongShape:
            raise Refused("shape of " + key) from None
    for key in keys:
        if not in_range_of(key, found):
            raise Refused("range of " + key)
    for key in keys:
        if not is_lawful(key, found[key]):
            raise Refused("law of " + key)
    return kind, found
