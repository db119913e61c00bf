#!/usr/bin/env python3
"""Histories in the forms of Porcupine (github.com/anishathalye/porcupine) to JSON Lines for `fsr order`.

    porcupine.py [--to FOLDER] [--opening VALUE] [--repeats] [--failed-cas-missed] [HISTORY]

Three forms are known by their first line:

- the logs of keys and values of its test data, `{:process 0, :type :invoke, :f :put, :key "x", :value "1"}`: each key holds "" at first.
- the logs of Jepsen's register in its test data, `INFO  jepsen.util - 0  :invoke  :write  3`: the register holds `nil` at first.
- its operations or events as JSON, a line or an array: `{"ClientId":0,"Input":I,"Call":10,"Output":O,"Return":12}` or
  `{"ClientId":0,"Kind":"call","Value":I,"Id":0}`, the latter also with Go's numbers (0 or false is a call, 1 or true a return). An input I
  is `{"Op":"put","Key":"x","Value":"1"}` or `{"Op":"get","Key":"x"}` (`read` and `write` as well, `Key` may be missing), an output O the
  value or `{"Value":"1"}`. That of `{"Op":"cas","Key":"x","From":"1","To":"2"}` is `true`, or `{"Ok":true}`, if it left `To`, `false` or
  `{"Ok":false,"Value":"3"}` if it found another value, which may be missing, and else nobody knows. Keys hold null at first, unless an
  object `{"Opening":V}` stands first.
- the operations of etcd's robustness tests are such, with its own inputs and outputs: a `range` of one key, or a `txn` of one put without
  conditions. A record is `[revision, value]`. A put that failed is unfinished, and has the revision of the read that shows it.

Each key has a log of its own, FOLDER/KEY.jsonl; a folder with other logs is refused. Without --to the only one goes to standard output.
Times are `Call` and `Return`, or the events' places. A write or a `cas` without a return stands there without an end, a read without one is
left out. A log with a `cas`, or with a value that is written twice or is the opening, has `"repeats":true`, with --repeats every log.
`append` and all else can't be said: the first such line is told, and how many there are of each kind, with status 3. The opening is a word
of EDN.

In a log a `cas` that ended with `:fail` is left out, as it may never have been tried. --failed-cas-missed takes it for one that found another
value, as Porcupine's own test of these logs does; one that timed out is unknown.
"""

import json
import re
import sys

import edn
import lines

KINDS = {"get": "read", "read": "read", "put": "write", "write": "write", "cas": "cas"}
JEPSEN = re.compile(r"INFO\s+jepsen\.util\s+-\s+(\d+)\s+:(\w+)\s+:(\w+)\s+(.*)")
CALL, RETURN = ("call", 0, False), ("return", 1, True)
# The hole of a record of etcd.
REVISION = frozenset([(0,)])


class Untaken(Exception):
    """An input that can't be said; its text is the name under which it is counted."""


def kind_of(name):
    name = str(name).lstrip(":").lower()
    if name not in KINDS:
        raise Untaken(name)
    return KINDS[name]


def untakeable(line, name):
    return lines.Untakeable(line, f"{name} is no read, write or cas", str(name))


def add_event(history, event, kind, value, **key):
    """An event of a log: an invocation, or how it ended. The event is its line, its place, the process and the type."""
    line, place, who, moment = event
    if moment == "invoke":
        history.begin(line, who, kind, key.get("key"), place, value)
    elif moment == "ok":
        history.end(line, who, kind, place, value, **key)
    elif moment == "fail":
        history.fail(line, who, kind, place)
    elif moment == "info":
        history.leave(line, who, kind)
    else:
        raise lines.Refused(line, f":{moment} is no type")


def read_keys(rows):
    """Keys and values: all values are texts, and each key holds "" at first."""
    history = lines.History(edn.Text(""))
    for place, (line, row) in enumerate(rows):
        try:
            event = one_value(line, row, "event")
            who, moment, name, key = event[":process"], str(event[":type"]).lstrip(":"), event[":f"], event[":key"]
        except (KeyError, TypeError):
            raise lines.Refused(line, "this is no event") from None
        try:
            add_event(history, (line, place, who, moment), kind_of(name), event.get(":value"), key=key)
        except Untaken as what:
            leave_out(history, line, moment, what)
    return history


def leave_out(history, line, moment, what):
    if moment == "invoke":
        history.leave_out(untakeable(line, what))


def one_value(line, text, what):
    """The only value of a text; `what` says what it is."""
    try:
        values = [it for _, it in edn.values_of(f"[{text}\n]")]
    except edn.NoEdn:
        values = []
    if len(values) > 1:
        raise lines.Refused(line, f"more than one {what} on a line")
    if not values:
        raise lines.Refused(line, "this is no event")
    return values[0]


def value_of(line, text):
    """A word, or the two values of a compare-and-set."""
    if text.startswith("["):
        return one_value(line, text, "value")
    if len(text.split()) > 1:
        raise lines.Refused(line, "more than one value on a line")
    return edn.word_of(text)


def read_jepsen(rows):
    history = lines.History()
    for place, (line, row) in enumerate(rows):
        found = JEPSEN.match(row)
        if not found:
            if row.startswith("INFO") and ":nemesis" in row:
                continue
            raise lines.Refused(line, "this is no event")
        who, moment, name, value = found.groups()
        value = value.strip()
        # a read that timed out took no effect; nobody knows whether another one did
        if value == ":timed-out" and name != "read":
            moment = "info"
        try:
            add_event(history, (line, place, int(who), moment), kind_of(name), value_of(line, value))
        except Untaken as what:
            leave_out(history, line, moment, what)
        except ValueError:
            raise lines.Refused(line, "a number that is too large") from None
    return history


def names_in_lower(it):
    return {key.lower(): value for key, value in it.items()} if isinstance(it, dict) else {}


def input_of(line, it):
    """The kind, the key and the value of an input."""
    if not isinstance(it, dict):
        raise lines.Refused(line, "an input is an object with an Op")
    it = names_in_lower(it)
    kind = kind_of(it.get("op"))
    if kind == "cas" and not {"from", "to"} <= it.keys():
        raise lines.Refused(line, "a cas has a From and a To")
    return kind, it.get("key"), it.get("value") if kind != "cas" else [it["from"], it["to"]]


def output_of(it):
    return names_in_lower(it).get("value") if isinstance(it, dict) else it


def end_operation(history, line, name, kind, at, it):
    """An operation ended with this output."""
    if kind != "cas":
        history.end(line, name, kind, at, output_of(it) if kind == "read" else None)
        return
    swapped = names_in_lower(it).get("ok") if isinstance(it, dict) else it
    if swapped is True:
        history.end(line, name, kind, at, None)
    elif swapped is False:
        history.miss(line, name, at, names_in_lower(it).get("value"))
    else:
        history.leave(line, name, kind)


def etcd_value(it):
    """A value of etcd's tests; of a long one they keep a hash alone."""
    return it["Value"]["Value"] or it["Value"].get("Hash")


def etcd_input(it):
    """The kind, the key and the value of a request to etcd; the revision of a put isn't known yet."""
    kind = it["Type"]
    if kind == "range":
        options = it["Range"]["RangeOptions"]
        if options.get("End") or it["Range"].get("Revision"):
            raise Untaken("range of several keys or of an old revision")
        return "read", options["Start"], None
    if kind != "txn":
        raise Untaken(kind)
    txn = it["Txn"]
    done = txn.get("OperationsOnSuccess") or []
    kinds = [one.get("Type") for one in done]
    if txn.get("Conditions") or txn.get("OperationsOnFailure") or kinds != ["put-operation"] or done[0]["Put"].get("LeaseID"):
        raise Untaken("txn of other than one put")
    return "write", done[0]["Put"]["Key"], [None, etcd_value(done[0]["Put"])]


def etcd_output(kind, it, value):
    """What a request to etcd gave or wrote, `[revision, value]`, or nothing if nobody knows whether it took effect."""
    if not isinstance(it, dict) or it.get("Error") or not it.get("Revision"):
        return None
    if kind == "write":
        return [[it["Revision"], value[1]]]
    found = it["Range"].get("KVs") or []
    return [[found[0]["ModRevision"], etcd_value(found[0])] if found else None]


def number_of(text):
    if not float("-inf") < float(text) < float("inf"):
        raise ValueError
    return float(text)


def refuse(_):
    raise ValueError


def json_of(line, text):
    try:
        return json.loads(text, parse_float=number_of, parse_constant=refuse)
    except ValueError:
        raise lines.Refused(line, "no JSON, or a number that is too large") from None
    except RecursionError:
        raise lines.Refused(line, "nested too deep") from None


def json_rows(text):
    """The objects of a text: those of an array, all of line 1, or one a line."""
    if text.lstrip().startswith("["):
        return [(1, it) for it in json_of(1, text)]
    return [(line, json_of(line, row)) for line, row in enumerate(text.split("\n"), 1) if row.strip()]


def read_json(text):
    rows, history = json_rows(text), lines.History()
    for place, (line, row) in enumerate(rows):
        if not isinstance(row, dict):
            raise lines.Refused(line, "this is no object")
        try:
            add_row(history, line, place, row)
        except Untaken as what:
            history.leave_out(untakeable(line, what))
        except (KeyError, TypeError, AttributeError):
            raise lines.Refused(line, "a part of this operation is missing") from None
    return history


def add_row(history, line, place, row):
    if place == 0 and set(row) == {"Opening"}:
        history.opening = row["Opening"]
    elif "Call" in row:
        add_operation(history, line, place, row)
    elif "Kind" in row and "Id" in row:
        add_json_event(history, line, place, row)
    else:
        raise lines.Refused(line, "this is neither an operation nor an event")


def add_operation(history, line, place, row):
    asked, gave = row.get("Input"), row.get("Output")
    is_etcd = isinstance(asked, dict) and "Type" in asked
    kind, key, value = etcd_input(asked) if is_etcd else input_of(line, asked)
    holes = REVISION if is_etcd and kind == "write" else frozenset()
    history.begin(line, row.get("ClientId"), kind, key, row["Call"], value, place, holes)
    known = etcd_output(kind, gave, value) if is_etcd else [gave]
    if row.get("Return") is None or known is None:
        history.leave(line, place, kind)
    elif is_etcd:
        history.end(line, place, kind, row["Return"], known[0])
    else:
        end_operation(history, line, place, kind, row["Return"], gave)


def add_json_event(history, line, place, row):
    name = row["Id"]
    if not isinstance(name, (int, str)):
        raise lines.Refused(line, "an Id is a number or a text")
    if row["Kind"] in CALL:
        try:
            kind, key, value = input_of(line, row.get("Value"))
        except Untaken:
            history.unsaid.add(name)
            raise
        history.begin(line, row.get("ClientId"), kind, key, place, value, name)
    elif row["Kind"] not in RETURN:
        raise lines.Refused(line, f"{edn.text_of(row['Kind'])} is neither a call nor a return")
    elif name in history.under_way:
        end_operation(history, line, name, history.under_way[name].kind, place, row.get("Value"))
    elif name not in history.unsaid:
        raise lines.Refused(line, f"{edn.text_of(name)} ends what it hadn't begun")


def read_history(text):
    rows = [(line, row) for line, row in enumerate(text.split("\n"), 1) if row.strip()]
    first = rows[0][1].lstrip() if rows else ""
    if first.startswith("INFO"):
        return read_jepsen(rows)
    if first.startswith("{:"):
        return read_keys(rows)
    return read_json(text)


if __name__ == "__main__":
    sys.exit(lines.run("porcupine", __doc__, read_history))
