"""Windows in which a log is lost, as docs/FORMATS.md says them: whether what `fsr order` tells of one is right, by the definition alone."""

import re

import exchanges

# Of so many operations up to the end at which a log is lost `fsr order` looks for a window among all.
MOST = 40
SENTENCE = re.compile(r"From time (\d+) to time (\d+) no order of these is lawful, whatever the register held before\.")
ANY = object()


def asked(op):
    """The record that an operation asks for."""
    return {"sets": None, "finds": op.second}.get(op.kind, op.first)


def looks_at(op, value):
    return op.kind == "misses" or (op.kind != "sets" and asked(op) == value)


def seen(op, first, last):
    """An operation as it is seen from one moment to another: a later end isn't, and what began before may have taken effect before."""
    return op._replace(ends=None if op.ends is None or op.ends > last else op.ends, maybe=op.maybe or op.starts < first)


def need_not_be(op, little, first, last):
    if (op.ends is not None and op.ends < first) or op.starts > last or exchanges.leaves(op) is None:
        return True
    return not any(looks_at(other, exchanges.leaves(op)) for other in little)


def is_lost(ops, places, first, last):
    """Whether the operations at these places are a window in which no order is lawful, whatever the register held before."""
    little = [seen(ops[p], first, last) for p in places]
    if not all(p in places or need_not_be(op, little, first, last) for p, op in enumerate(ops)):
        return False
    held = {asked(op) for op in little if op.kind != "sets"} | {ANY}
    return not any(exchanges.is_lawful(value, little) for value in held)


def within(ops, first, last):
    return [p for p, op in enumerate(ops) if op.starts <= last and (op.ends is None or op.ends >= first)]


def text_of(log, places, first, last):
    numbers = "".join(f" {p + 2}" for p in places)
    lines = "".join(f"line {p + 2}: {log.lines[p].text}\n" for p in places)
    sentence = f"From time {first} to time {last} no order of these is lawful, whatever the register held before.\n"
    others = "Each other operation ended before, began after, or leaves no record that these ask for.\n"
    return f"unlawful together{numbers}\n{lines}{sentence}{others}{exchanges.counts(log)}"


def is_right(data, text):
    """Whether this text tells right of a log that is lost: that it is so by its limit alone; why the operation at whose end it is can't have found its record; else the latest
    window to that end, none of whose operations can be left out; or that end, where none of so many operations is one."""
    log = exchanges.read(data)
    ops = [it.op for it in log.lines]
    place = exchanges.lost_at(log.opening, ops)
    if place is None:
        return text == exchanges.answer(data)[0]
    if exchanges.unsourced(log.opening, ops, place):
        return text == exchanges.answer(data)[0]
    last = ops[place].ends
    told = SENTENCE.search(text)
    if not told:
        began = within(ops, 0, last)
        return text == exchanges.answer(data)[0] and (len(began) > MOST or not is_lost(ops, began, 0, last))
    first, places = int(told[1]), [int(number) - 2 for number in text.split("\n")[0].split(" ")[2:]]
    if not places or not all(0 <= p < len(ops) for p in places) or places != sorted(set(places)):
        return False
    if text != text_of(log, places, first, last) or not is_lost(ops, places, first, last):
        return False
    is_latest = first == last or not is_lost(ops, within(ops, first + 1, last), first + 1, last)
    return is_latest and not any(is_lost(ops, [q for q in places if q != p], first, last) for p in places)
