"""Logs in lines, as docs/FORMATS.md says them: an independent reading, and what `fsr order` answers."""

import itertools
import json

import documents
import searches

MOST_NUMBERS = 64
# So many of the writes are told that an operation could see.
MOST_SEEN = 8


# What is told behind some refusals of a line: what to do.
HINTS = {
    "missing who": "; only `fsr watch` takes a floor",
    "missing end": "; an unfinished operation has null, and only `fsr watch` takes a floor",
    "shape of kind": "; a `cas` needs `repeats` in the header, and `done` is the last line",
    "law of key": "; such a log has one key, that of its first operation",
    "law of repeats": "; `fsr order` without `--coherent` takes it",
}


class Fault(Exception):
    """A log has no answer; the text is the line on standard error behind `fsr: `."""

    def __init__(self, told):
        super().__init__(told + HINTS.get(told.partition(": ")[2], ""))


def answer(data):
    """The text, or of an unlawful log its rule with every reason of it by lines; the line on standard error, and the status."""
    try:
        opening, limit, ops, ended = read(data)
    except Fault as fault:
        return "", f"fsr: {fault}\n", 3
    for key in keys_of(ops):
        own = of_key(ops, key)
        rule, found = searches.search(opening, limit or 1, own)
        if rule != "lawful":
            return (rule, {tuple(own[place]["line"] for place in reason) for reason in found}), "", 1
    return "lawful\n" + foot(opening, ops, ended), "", 0


def keys_of(ops):
    """The keys, by their first lines; of a log without operations the one of none."""
    return list(dict.fromkeys(each["key"] for each in ops)) or [None]


def of_key(ops, key):
    return [each for each in ops if each["key"] == key]


def key_line(key):
    text = "null" if key is None else json.dumps(key if isinstance(key, str) else list(key), separators=(",", ":"), ensure_ascii=False)
    return f"key: {text}\n"


LATER = "No key that comes later was judged.\n"


def take_write(opening, each, written, number):
    if each["kind"] != "write":
        return
    if each["record"] == opening:
        raise Fault(f"line {number}: writes the opening")
    it = each["key"], each["record"]
    if it in written:
        raise Fault(f"line {number}: writes the record of line {written[it]}")
    written[it] = number


def foot(opening, ops, ended):
    """What stands behind the verdict on a lawful log: how little is shown, if so, and the counts."""
    every, given = totals(opening, ops)
    told = "" if given / every >= 0.01 else "Little was shown: less than 1 % of the records were read.\n"
    return (told if ops else "Nothing was shown: there is no operation.\n") + counts(opening, ops, ended)


def totals(opening, ops):
    """How many records there are, and how many of them finished reads gave, of all keys together."""
    every = given = 0
    for key in keys_of(ops):
        own = of_key(ops, key)
        every += len({opening} | {each["record"] for each in own if each["record"] is not None})
        given += len({each["record"] for each in own if each["kind"] == "read" and each["end"] is not None} - {opening})
    return every, given


def counts(opening, ops, ended):
    every, given = totals(opening, ops)
    unfinished, keys = sum(each["end"] is None for each in ops), len(keys_of(ops))
    several = f", {keys} keys" if keys > 1 else ""
    cut = "" if ended else "; no last line `done`"
    return f"{len(ops)} operations, {unfinished} unfinished, {every} records, {given} of them read{several}{cut}\n"


def told(data, reason):
    """What is printed of a reason, whose first word is the rule and whose others are lines."""
    opening, limit, ops, ended = read(data)
    lines = [int(word) for word in reason[1:]]
    texts, key = data.decode().split("\n"), ops[lines[0] - 2]["key"]
    head = [1] if reason[0] in ("unwritten", "stale") else []
    shows = "".join(f"line {line}: {texts[line - 1]}\n" for line in head + shown_of(reason[0], lines, ops))
    which = key_line(key) + LATER if len(keys_of(ops)) > 1 else ""
    says = sentence(reason[0], lines, opening, limit, ops)
    if reason[0] == "unwritten":
        seen = could_see(lines[0], ops)
        says += "" if seen[MOST_SEEN:] else origins(texts, lines[0], [1] * sees_opening(lines[0], ops) + seen)
    return f"unlawful {' '.join(reason)}\n" + shows + says + which + counts(opening, ops, ended)


def words_of(text, key):
    """The words of a line: the whole numbers in front at `words`, else at this key; one number is the array of it. The last line has none
    if it isn't JSON by itself, for a form feed behind it."""
    try:
        row = documents.read_json(text.encode())
    except documents.Refused:
        return []
    for name in ("words", key):
        found = row.get(name)
        numbers = list(itertools.takewhile(is_whole, found if isinstance(found, list) else [found]))
        if numbers:
            return numbers
    return []


def origins(texts, line, seen):
    """Which of these lines have each word of a line, if it has several, at the same place; line 1 is the opening's."""
    words = words_of(texts[line - 1], "record")
    if len(words) < 2:
        return ""
    whole = {other: dict(enumerate(words_of(texts[other - 1], "opening" if other == 1 else "record"))) for other in seen}
    parts = []
    for place, word in enumerate(words):
        found = ["the opening" if other == 1 else f"line {other}" for other in seen if whole[other].get(place) == word]
        parts.append(f"{word} ({', '.join(found) or 'no record that it could see'})")
    return f"Its words: {', '.join(parts)}.\n"


def named_by(lines, ops):
    """The lines of a reason, which are of one key, and those of the writes of their records."""
    shown = {ops[line - 2]["record"] for line in lines} - {None}
    return [each["line"] for each in of_key(ops, ops[lines[0] - 2]["key"])
            if each["line"] in lines or each["kind"] == "write" and each["record"] in shown]


def ended_before(one, other):
    return one["end"] is not None and one["end"] < other["begin"]


def could_see(line, ops):
    """The lines of the writes that the operation on a line could see: which began by its end, and behind which no other one lies that ended
    before it began."""
    it = ops[line - 2]
    writes = [each for each in of_key(ops, it["key"]) if each["kind"] == "write"]
    return [one["line"] for one in writes if one["begin"] <= it["end"]
            and not any(ended_before(one, other) and ended_before(other, it) for other in writes)]


def sees_opening(line, ops):
    """Whether no write of its key had ended when the operation on a line began."""
    it = ops[line - 2]
    return not any(each["kind"] == "write" and ended_before(each, it) for each in of_key(ops, it["key"]))


def shown_of(rule, lines, ops):
    """The lines that are shown of a reason: where nobody wrote a record, also those of the first writes that the operation could see."""
    beside = could_see(lines[0], ops)[:MOST_SEEN] if rule == "unwritten" else []
    return named_by([*lines, *beside], ops)


def most_before(opening, ops):
    """How many writes can stand before the first refused write, in an order that is lawful but for the limit."""
    firsts = []
    for order in searches.atomic_orders(opening, ops):
        kinds = [ops[place]["kind"] for place in order]
        firsts.append(kinds[:kinds.index("refused")].count("write"))
    return max(firsts)


def small(data, rule, lines):
    """What `--small` prints of a log that has this reason: a document of kind `log` of the lines that are shown of it. A record has the number of
    the line that wrote it, 0 if it is the opening, and else that of the operation's own line. Tasks keep theirs up to 15; if one is above, all have
    those of their first operations."""
    opening, limit, ops, _ = read(data)
    named = shown_of(rule, lines, ops)
    shown = [ops[line - 2] for line in named]
    numbers = {each["record"]: each["line"] for each in shown if each["kind"] == "write"} | {opening: 0}
    tasks = [each["who"] for each in shown]
    actors = {who: who if max(tasks) <= 15 else tasks.index(who) for who in tasks}
    texts = [json.dumps({"who": actors[each["who"]], "kind": each["kind"], "begin": each["begin"], "end": each["end"],
                         "record": [numbers.get(each["record"], each["line"])] * 3}, separators=(",", ":")) for each in shown]
    head = f'{{"kind":"log","opening":[0,0,0],"limit":{limit or 1},"lines":[{",".join(map(str, named))}],"ops":[\n '
    return head + ",\n ".join(texts) + "]}\n"


def is_order_of_writes(data, text):
    """Whether a lawful log is told with the lines of its writes, of each key in an order that belongs to a lawful one."""
    opening, limit, ops, ended = read(data)
    keys = keys_of(ops)
    head, end = "lawful\n", foot(opening, ops, ended)
    if not text.startswith(head) or not text.endswith(end):
        return False
    rows = text[len(head):len(text) - len(end)].split("\n")[:-1]
    if len(keys) == 1:
        return len(rows) == 1 and is_order_of(opening, limit, ops, rows[0])
    return rows[::2] == [key_line(key)[:-1] for key in keys] and len(rows) == 2 * len(keys) and all(
        is_order_of(opening, limit, of_key(ops, key), row) for key, row in zip(keys, rows[1::2]))


def is_order_of(opening, limit, own, row):
    if not row.startswith("writes:"):
        return False
    told = [int(word) for word in row[len("writes:"):].split()]
    return any(not searches.early_refusals(limit or 1, own, order)
               and told == [own[place]["line"] for place in order if own[place]["kind"] == "write"]
               for order in searches.atomic_orders(opening, own))


def old_record(lines, ops):
    """Of two crossed records one that had been replaced: an operation that has it, the write behind that, an operation that shows this write,
    and one that gave the old record then. Nothing where neither write began behind the end of the first operation of the other record."""
    a, b, c, d = lines
    for before, of_other, by, late in ((a, b, c, d), (c, d, a, b)):
        other = ops[of_other - 2]
        for each in of_key(ops, other["key"]):
            if each["kind"] == "write" and each["record"] == other["record"] and ended_before(ops[before - 2], each):
                return before, each["line"], by, late
    return None


def sentence(rule, lines, opening, limit, ops):
    """Why the operations on these lines show it, with the times."""

    def apart(one, other):
        return f"line {one} ended at {ops[one - 2]['end']}, line {other} began at {ops[other - 2]['begin']}"

    def beside(line):
        seen = could_see(line, ops)
        rest = " and more" if seen[MOST_SEEN:] else ""
        return f"Lines of the writes that it could see:{''.join(f' {each}' for each in seen[:MOST_SEEN]) or ' none'}{rest}.\n"

    first = lines[0]
    if rule == "unwritten":
        return f"Line {first} gave a record that is neither the opening nor written.\n{beside(first)}"
    if rule == "early":
        return f"Line {first} gave a record before the write of it began: {apart(*lines)}.\n"
    if rule == "stale":
        return f"Line {lines[1]} gave an old record, the opening: {apart(*lines)}.\n{beside(lines[1])}"
    if rule == "crossed":
        old = old_record(lines, ops)
        if old:
            before, write, by, late = old
            shows = "" if write == by else f", as line {by} shows"
            return (f"Line {late} gave an old record, that of line {before}, which line {write} had replaced{shows}: "
                    f"{apart(before, write)}; {apart(by, late)}.\n{beside(late)}")
        one = f"Lines {first} and {lines[3]} are of one record"
        if lines[1] == lines[2]:
            both = f"{one}, and line {lines[1]}, of another, stands between them"
        else:
            both = f"{one}, lines {lines[1]} and {lines[2]} of another, and each record has to stand before the other"
        return f"{both}: {apart(*lines[:2])}; {apart(*lines[2:])}.\n"
    own = of_key(ops, ops[first - 2]["key"])
    return (f"Of the writes at most {most_before(opening, own)} can stand before line {first} or a refused write in front of it, "
            f"and the limit is {limit or 1}.\n")


def read(data):
    """The opening, the limit, the operations, and whether the end is there."""
    lines = data.rstrip(b" \t\n\f\r").split(b"\n")
    header = header_of(lines[0])
    opening = record_of(asked(header, "opening", 1))
    if opening is None:
        raise Fault("line 1: shape of opening")
    limit = header.get("limit")
    if limit is not None and not is_whole(limit):
        raise Fault("line 1: shape of limit")
    if limit is not None and not 1 <= limit <= documents.MAX_LIMIT:
        raise Fault("line 1: range of limit")
    ops, lasts, written, ended = [], {}, {}, False
    for number, text in enumerate(lines[1:], 2):
        value = value_of(text, number)
        if isinstance(value, dict) and value.get("kind") == "done":
            check_end(value, number, len(ops), number == len(lines))
            ended = True
            break
        ops.append(operation_of(value, number, limit))
        take_turn(ops, lasts, number)
        take_write(opening, ops[-1], written, number)
    return opening, limit, ops, ended


def header_of(line):
    """The first line. If it isn't JSON the whole text isn't either, and no log in lines."""
    try:
        return documents.read_json(line)
    except documents.Refused:
        raise Fault("line 1: no header of kind `lines`, and no document: not JSON") from None


def take_turn(ops, lasts, number):
    who = ops[-1]["who"]
    one = ops[-1]["key"], who
    if one in lasts:
        end = ops[lasts[one] - 2]["end"]
        if end is None or end >= ops[-1]["begin"]:
            raise Fault(f"lines {lasts[one]} and {number}: who {who} overlaps itself")
    lasts[one] = number


def check_end(value, number, count, last):
    said = asked(value, "ops", number)
    if not is_whole(said):
        raise Fault(f"line {number}: shape of ops")
    if not last:
        raise Fault(f"line {number}: shape of kind")
    if said != count:
        raise Fault(f"line {number}: law of ops")


def operation_of(value, number, limit):
    """The operation of a line, each of whose keys is a register of its own."""
    who, kind, begin, end, record = (asked(value, key, number) for key in ("who", "kind", "begin", "end", "record"))
    found = None if record is None else record_of(record)
    said = value.get("key")
    own = None if said is None else record_of(said)
    for key, fits in (("who", is_whole(who)), ("kind", kind in ("write", "read", "refused") if isinstance(kind, str) else False),
                      ("begin", is_whole(begin)), ("end", end is None or is_whole(end)),
                      ("record", record is None or found is not None), ("key", said is None or own is not None)):
        if not fits:
            raise Fault(f"line {number}: shape of {key}")
    if end is not None and end < begin:
        raise Fault(f"line {number}: end before begin")
    if found is None and (kind == "write" or end is not None):
        raise Fault(f"line {number}: law of record")
    if kind == "refused" and limit is None:
        raise Fault(f"line {number}: missing limit")
    return {"line": number, "who": who, "kind": kind, "begin": begin, "end": end, "record": found, "key": own}


def asked(value, key, number):
    for each in ("who", "kind", "begin", "end", "record") if key != "opening" and key != "ops" else (key,):
        if not isinstance(value, dict) or each not in value:
            raise Fault(f"line {number}: missing {each}")
    return value[key]


def value_of(text, number):
    try:
        return documents.read_json(text)
    except documents.Refused as refusal:
        raise Fault(f"line {number}: {refusal}") from None


def is_whole(value):
    return isinstance(value, int) and not isinstance(value, bool)


def record_of(value):
    """A record as a value: a text, or its numbers."""
    if isinstance(value, str):
        return value
    if is_whole(value):
        return (value,)
    if isinstance(value, list) and 1 <= len(value) <= MOST_NUMBERS and all(map(is_whole, value)):
        return tuple(value)
    return None
