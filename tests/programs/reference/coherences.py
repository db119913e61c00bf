"""Coherent logs, as docs/CHECKING.md and docs/FORMATS.md say them: what `fsr order --coherent` answers, by trying every order. Small logs
alone.

    coherences.py [FILE]     prints it of the file or the standard input, with its status; of an incoherent log the reasons, by lines
"""

import sys

import documents
import small_lines
from small_lines import Fault

SHOWN = {
    "unwritten": "Line {} gave a record that is neither the opening nor written.\n",
    "ahead": "Line {} gave a record that the same task writes only later, on line {}.\n",
    "circle": "Each two lines are of one task, so the record of the first has to stand before that of the second.\n"
              "That goes in a circle; the opening stands before all others.\n",
}


def writes(each):
    return each["kind"] == "write"


def finished(each):
    return each["end"] is not None


def is_coherent(opening, ops):
    """Whether some order has each finished operation once, and others of the writes, each task's in the order of their lines, and each read,
    a refused write too, has the record of the write before it, or the opening."""
    due = {place for place, each in enumerate(ops) if finished(each)}
    may = due | {place for place, each in enumerate(ops) if writes(each)}

    def ends(order, latest):
        if due <= set(order):
            return True
        return any(ends(order + [place], ops[place]["record"]) for place in may - set(order)
                   if (writes(ops[place]) or ops[place]["record"] == latest)
                   and not any(place < before and ops[place]["who"] == ops[before]["who"] for before in order))

    return ends([], opening)


def is_unwritten(opening, ops, place):
    each = ops[place]
    return finished(each) and each["record"] not in {opening} | {it["record"] for it in ops if writes(it)}


def is_ahead(opening, ops, read, write):
    one, other = ops[read], ops[write]
    return finished(one) and not writes(one) and writes(other) and one["record"] == other["record"] and one["who"] == other["who"] and read < write


def has_to_stand(ops, place):
    each = ops[place]
    return finished(each) or writes(each) and any(finished(it) and it["record"] == each["record"] for it in ops)


def is_link(ops, earlier, later):
    one, other = ops[earlier], ops[later]
    return (earlier < later and one["who"] == other["who"] and one["record"] != other["record"]
            and has_to_stand(ops, earlier) and has_to_stand(ops, later))


def is_circle(opening, ops, *places):
    if not places or len(places) % 2:
        return False
    links = list(zip(places[::2], places[1::2]))
    joined = (ops[one[1]]["record"] in (opening, ops[other[0]]["record"]) for one, other in zip(links, links[1:] + links[:1]))
    return all(is_link(ops, *link) for link in links) and all(joined)


RULES = {"unwritten": (1, is_unwritten), "ahead": (2, is_ahead), "circle": (None, is_circle)}


def is_reason(opening, ops, rule, lines):
    """Whether the operations on these lines are a reason by this rule."""
    if rule not in RULES or not all(2 <= line < len(ops) + 2 for line in lines):
        return False
    count, holds = RULES[rule]
    return count in (None, len(lines)) and holds(opening, ops, *(line - 2 for line in lines))


def read(data):
    """A log whose records are written once and whose operations have one key; the first line at fault is told."""
    first = data.split(b"\n")[0]
    try:
        header = documents.read_json(first)
    except documents.Refused as why:
        raise Fault(f"line 1: {why}") from None
    if isinstance(header, dict) and header.get("repeats") is True:
        raise Fault("line 1: law of repeats")
    if not isinstance(header, dict) or header.get("kind") != "lines":
        raise Fault("line 1: kind")
    lines = data.rstrip(b" \t\n\f\r").split(b"\n")
    key, front = None, lines[:1]
    small_lines.read(front[0])
    for number, line in enumerate(lines[1:], 2):
        if is_end(line):
            break
        # (the key is compared before the line is held against others and the header's limit)
        each = small_lines.operation_of(small_lines.value_of(line, number), number, 1)
        key = each["key"] if number == 2 else key
        if each["key"] != key:
            raise Fault(f"line {number}: law of key")
        front.append(line)
        small_lines.read(b"\n".join(front))
    return small_lines.read(data)


def is_end(line):
    try:
        value = documents.read_json(line)
    except documents.Refused:
        return False
    return isinstance(value, dict) and value.get("kind") == "done"


def answer(data):
    """The text, or nothing of an incoherent log; the line on standard error, and the status."""
    try:
        opening, _, ops, ended = read(data)
    except Fault as fault:
        return "", f"fsr: {fault}\n", 3
    if is_coherent(opening, ops):
        return "coherent\n" + small_lines.foot(opening, ops, ended), "", 0
    return None, "", 1


def told(data, rule, lines):
    """What is printed of an incoherent log for this reason."""
    opening, _, ops, ended = read(data)
    texts = data.decode().split("\n")
    shown = "".join(f"line {line}: {texts[line - 1]}\n" for line in lines)
    head = " ".join(["incoherent", rule, *map(str, lines)])
    return f"{head}\n{shown}{SHOWN[rule].format(*lines)}{small_lines.counts(opening, ops, ended)}"


def is_right(data, found):
    """Whether a program may tell this of a log: the text, the line on standard error and the status."""
    wanted = answer(data)
    if wanted[0] is not None:
        return found == wanted
    opening, _, ops, _ = read(data)
    words = found[0].split("\n")[0].split(" ")
    if found[1:] != wanted[1:] or words[0] != "incoherent" or not all(word.isdecimal() for word in words[2:]):
        return False
    rule, lines = words[1], [int(word) for word in words[2:]]
    return is_reason(opening, ops, rule, lines) and found[0] == told(data, rule, lines)


def main(words):
    data = documents.bytes_asked_for(words)
    text, line, status = answer(data)
    sys.stdout.write("incoherent\n" if text is None else text)
    sys.stderr.write(line)
    return status


if __name__ == "__main__":
    sys.exit(main(sys.argv[1:]))
