"""Whether a log has a lawful order, by trying every order, and its reasons, each by its meaning. Small logs alone."""

import re
from itertools import product

import players


class NotSearched(Exception):
    """The log has one record in two writes, or writes the opening; the text is the end of the line on standard error."""


def refuse_repeats(opening, ops):
    written = {}
    for place, each in enumerate(ops):
        if each["kind"] == "write":
            if each["record"] == opening:
                raise NotSearched(f"operation {place} writes the opening")
            if each["record"] in written:
                raise NotSearched(f"operations {written[each['record']]} and {place} write one record")
            written[each["record"]] = place


def precedes(a, b):
    return a["end"] is not None and a["end"] < b["begin"]


def atomic_orders(opening, ops):
    """Each order that keeps listing, precedence and reading."""
    finished = {place for place, each in enumerate(ops) if each["end"] is not None}
    listable = finished | {place for place, each in enumerate(ops) if each["kind"] == "write"}

    def grow(order, latest):
        if finished <= set(order):
            yield order
        for place in sorted(listable - set(order)):
            each = ops[place]
            if each["kind"] != "write" and each["record"] != latest:
                continue
            if any(precedes(each, ops[before]) for before in order):
                continue
            yield from grow(order + [place], each["record"] if each["kind"] == "write" else latest)

    return grow([], opening)


def early_refusals(limit, ops, order):
    """The entries of an order that are refused writes with fewer writes before them than the limit."""
    writes, found = 0, []
    for entry, place in enumerate(order):
        if ops[place]["kind"] == "refused" and writes < limit:
            found.append(entry)
        writes += ops[place]["kind"] == "write"
    return found


def reasons(opening, limit, ops):
    """The rules, each with the places that are a reason of it."""
    places = range(len(ops))
    record = [each["record"] for each in ops]
    writes = [each["kind"] == "write" for each in ops]
    finished = [each["end"] is not None for each in ops]
    counts = [writes[p] or finished[p] for p in places]
    written = {record[p] for p in places if writes[p]}
    before = [[precedes(a, b) for b in ops] for a in ops]
    yield "unwritten", {(p,) for p in places if finished[p] and record[p] != opening and record[p] not in written}
    yield "early", {(p, w) for p, w in product(places, places) if not writes[p] and writes[w] and record[p] == record[w] and before[p][w]}
    yield "stale", {(q, p) for q, p in product(places, places)
                    if finished[p] and record[p] == opening and record[q] != opening and before[q][p]}
    pairs = [(a, b) for a, b in product(places, places) if before[a][b] and counts[b] and record[a] != record[b]]
    yield "crossed", {(a, b, c, d) for (a, b), (c, d) in product(pairs, pairs)
                      if record[a] == record[d] and record[b] == record[c] and opening not in (record[a], record[b])}
    early = [(order, early_refusals(limit, ops, order)) for order in atomic_orders(opening, ops)]
    yield "limit", {(p,) for p in places if finished[p] and ops[p]["kind"] == "refused"
                    and any(order[entry] == p for order, entries in early for entry in entries)
                    and all(any(entry <= order.index(p) for entry in entries) for order, entries in early)}


def search(opening, limit, ops):
    """`lawful`, or the first rule that has a reason, with every reason of it."""
    refuse_repeats(opening, ops)
    lawful = any(not early_refusals(limit, ops, order) for order in atomic_orders(opening, ops))
    rule, found = next(((rule, found) for rule, found in reasons(opening, limit, ops) if found), ("lawful", set()))
    if lawful != (rule == "lawful"):
        raise AssertionError(f"the orders and the reasons disagree: {lawful}, {rule}")
    return rule, found


def may_tell(found, text):
    """Whether a text tells a lawful order, or a reason of the first rule that has one."""
    opening, limit, ops = found["opening"], found["limit"], found["ops"]
    rule, wanted = search(opening, limit, ops)
    if rule == "lawful":
        order = places_told("lawful\norder:", text)
        return order is not None and players.verdict(opening, limit, ops, order) == "lawful"
    return places_told(f"unlawful {rule}", text) in [list(reason) for reason in wanted]


def places_told(words, text):
    """The places of a text that is these words and a blank before each place, or nothing where it is another."""
    if re.fullmatch(re.escape(words) + r"( \d+)*\n", text):
        return [int(place) for place in text[len(words):].split()]
    return None
