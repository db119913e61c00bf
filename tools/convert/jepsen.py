#!/usr/bin/env python3
"""Jepsen's history of a register, or of independent registers, to JSON Lines for `fsr order`.

    jepsen.py [--to FOLDER] [--opening VALUE] [--repeats] [--failed-cas-missed] [HISTORY.edn]

The history is EDN, an operation a line or one vector of them: `{:type :invoke, :f :write, :value 3, :process 0, ..}`. Where each value is
`[key value]`, each key has a log of its own, FOLDER/KEY.jsonl: a history is linearizable if the history of each key is. A folder with other
logs is refused. Without --to the only log goes to standard output.

- `:invoke` and `:ok` are the begin and the end of an operation. Times are the events' places in the history, so nothing touches.
- The value is that of the `:ok`. What is `nil` in a write's `:invoke` may have become known: `[nil 3]` ends as `[7 3]`, the 7th version. No
  key is `nil`, so that is a value without a key.
- `:info`, or no end at all: nobody knows whether a write or a `:cas` took effect, so it stands there without an end. A read is left out.
- A write of unknown end that has a `nil` wrote the value that a read or a `:cas` shows and nothing else wrote, if they differ in the `nil`
  alone. If nothing shows it, it is left out. A `nil` is a value, and stays, at a place where a finished write of the key kept its own and
  none had one filled. What fills one is taken for new, as a version is: nothing else wrote that value. Of several such writes it is the
  first; where that might be wrong, the history is refused.
- `:fail`: the operation didn't take place, and is left out.
- What isn't done by a client (`:process :nemesis`) is left out.
- At first each register holds `nil`, or the opening, as EDN.
- A log with a `:cas`, `[from to]`, or with a value that is written twice or is the opening, has `"repeats":true`, with --repeats every log:
  `fsr order` then takes it for one of a register with compare-and-set.

A `:cas` that ended with `:fail` is left out, too: that may mean that it found another value than `from`, but also that it was never tried,
as when nobody listened or the node had no leader. Then another value needn't have been there, and a log that says so would condemn a right
register. --failed-cas-missed takes each for one that found another value, but for those with an `:error`. That finds more faults; it is
right only if the test's client gives `:fail` for nothing else.

Transactions and all else that is no `:read`, `:write` or `:cas`, can't be said, nor a `:cas` of versions, `[nil [from to]]`: the first such
line is told, and of the former how many there are of each kind, with status 3.
"""

import sys

import edn
import lines

KINDS = {":read": "read", ":write": "write", ":cas": "cas"}
TYPES = (":invoke", ":ok", ":fail", ":info")


def client_events(text):
    """The events of clients, each with its line and its place."""
    try:
        for place, (line, event) in enumerate(edn.values_of(text)):
            if not isinstance(event, dict) or ":type" not in event or ":process" not in event:
                raise lines.Refused(line, "this is no operation of a history")
            if event[":type"] not in TYPES:
                raise lines.Refused(line, f"{edn.text_of(event[':type'])} is no type")
            if event[":process"] != ":nemesis":
                yield line, place, event
    except edn.NoEdn as why:
        raise lines.Refused(why.line, str(why)) from None


def is_pair(value):
    return isinstance(value, list) and len(value) == 2


def has_key(event):
    """Whether the value of an invocation is `[key value]`; no key is `nil`."""
    value = event.get(":value")
    return is_pair(value) and value[0] is not None and (event[":f"] != ":cas" or is_pair(value[1]))


def is_taken(event):
    return edn.text_of(event.get(":f")) in KINDS


def read_history(text):
    events = list(client_events(text))
    history = lines.History()
    # (an event that tells of a failure may have another value)
    invoked = [(line, has_key(event)) for line, _, event in events if event[":type"] == ":invoke" and is_taken(event)]
    keyed = {it for _, it in invoked}
    if len(keyed) > 1:
        first = next(line for line, it in invoked if not it)
        raise lines.Refused(first, "some values are [key value], and this is none")
    for line, place, event in events:
        if is_taken(event):
            add_event(history, line, place, event, keyed == {True})
        elif event[":type"] == ":invoke":
            name = edn.text_of(event.get(":f"))
            history.leave_out(lines.Untakeable(line, f"{name} is no :read, :write or :cas", name))
    return history


def add_event(history, line, place, event, keyed):
    who, kind, value, key = event[":process"], KINDS[event[":f"]], event.get(":value"), {}
    if keyed and event[":type"] in (":invoke", ":ok"):
        if not is_pair(value):
            raise lines.Refused(line, "this value has no key")
        key, value = {"key": value[0]}, value[1]
    if event[":type"] == ":invoke":
        history.begin(line, who, kind, key.get("key"), place, value, holes=lines.holes_of(value) if kind == "write" else frozenset())
    elif event[":type"] == ":ok":
        history.end(line, who, kind, place, value, **key)
    elif event[":type"] == ":fail":
        history.fail(line, who, kind, place if event.get(":error") is None else None)
    else:
        history.leave(line, who, kind)


if __name__ == "__main__":
    sys.exit(lines.run("jepsen", __doc__, read_history))
