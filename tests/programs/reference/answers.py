"""What `fsr` prints for a document, and its status: an independent reading of the documents under docs/."""

import documents
import players
import searches


def answer(command, data):
    """The text, the line on standard error (or nothing) and the status. Of a log the words before the places alone."""
    try:
        kind, found = documents.read(command, data)
    except documents.Refused as refusal:
        return "", f"fsr: {told(command, str(refusal))}\n", 3
    try:
        return printed(kind, found)
    except players.TooManySteps as refusal:
        return "", f"fsr: schedule: no operation left at step {refusal.position}\n", 3
    except searches.NotSearched as refusal:
        return "", f"fsr: history: {refusal}\n", 3


def told(command, refusal):
    """How a refusal is told. If the bytes are no document at all, `order` says that the header of a log in lines is missing as well."""
    if command == "order" and refusal in ("not JSON", "longer than 1048576 bytes"):
        return f"line 1: no header of kind `lines`, and no document: {refusal}"
    return f"document: {refusal}"


def printed(kind, found):
    if kind == "race":
        return race(found["limit"], found["scripts"]), "", 0
    if kind == "check":
        line = players.verdict(found["opening"], found["limit"], found["ops"], found["order"])
        return line + "\n", "", 0 if line == "lawful" else 1
    if kind == "log":
        rule, _ = searches.search(found["opening"], found["limit"], found["ops"])
        return "lawful" if rule == "lawful" else f"unlawful {rule}", "", 0 if rule == "lawful" else 1
    if kind == "cell":
        ops, order = players.play_cell(found["opening"], found["noise"], found["writes"], found["reads"], found["steps"])
        return report(kind, ops, order, []), "", 0
    access = players.AtomicAccess if kind == "matrix" else players.CellAccess
    terms = found.get("terms") or [found]
    ops, order, begins = players.play_terms(access, found["opening"], found.get("noise"), terms)
    return report(kind, ops, order, begins if "terms" in found else []), "", 0


def race(limit, scripts):
    """The lines of a race. Where it depends on the run which writes are refused, they stand together with those made."""
    lines, settled = [], is_settled(limit, scripts)
    for task, script in enumerate(scripts):
        reads, writes = script.count("read"), writes_of(script)
        made = min(writes, limit)
        told = f"{made} writes, {reads} reads, {writes - made} refused" if settled else f"{writes} writes or refused, {reads} reads"
        lines.append(f"task {task}: {told}")
    return "\n".join(lines + ["origin: sound"]) + "\n"


def is_settled(limit, scripts):
    """Whether every run refuses the same writes: none of them, or those of the only task that writes."""
    writes = [writes_of(script) for script in scripts]
    return sum(writes) <= limit or sum(1 for count in writes if count) == 1


def writes_of(script):
    return len(script) - script.count("read")


def report(kind, ops, order, begins):
    lines = []
    for place in range(len(ops) + 1):
        lines += [f"term {term + 1}" for term, begin in enumerate(begins) if begin == place]
        if place < len(ops):
            lines.append(f"op {place}: " + operation(kind, ops[place]))
    lines.append("order:" + "".join(f" {place}" for place in order))
    return "\n".join(lines) + "\n"


def operation(kind, each):
    parts = [f"{each.kind} by {each.who}", f"{each.begin}..{or_dash(each.end)}"]
    if kind == "cell":
        parts.append(f"slot {or_dash(each.slots[0])}")
    else:
        parts.append("stamp " + ("-" if each.stamp is None else f"{each.stamp[0]}.{each.stamp[1]}"))
    if kind == "board":
        parts.append("slots " + " ".join(or_dash(slot) for slot in each.slots))
    parts.append("-" if each.item is None else "[%d,%d,%d]" % each.item)
    return ", ".join(parts)


def or_dash(number):
    return "-" if number is None else str(number)
