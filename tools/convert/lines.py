"""What the converters share: from calls and returns to logs in JSON Lines, one for each key."""

import argparse
import collections
import errno
import itertools
import json
import os
import re
import sys

import edn

GREATEST = 2**64 - 1


class Refused(Exception):
    """The history can't be said in JSON Lines; `line` is the line of the history, or of a file that was read whole its first. `more` says
    how many operations can't be said."""

    def __init__(self, line, why, more=None):
        super().__init__(why)
        self.line, self.more = line, more


class Untakeable(Refused):
    """One operation can't be said; `kind` is the word under which it is counted."""

    def __init__(self, line, why, kind):
        super().__init__(line, why)
        self.kind = kind


def is_whole(it):
    return isinstance(it, int) and not isinstance(it, bool) and 0 <= it <= GREATEST


def record_of(value):
    """The record of a value: a whole number is itself, several of them an array, and anything else a text. Different values have
    different ones."""
    if is_whole(value):
        return value
    if isinstance(value, list) and 2 <= len(value) <= 64 and all(map(is_whole, value)):
        return value
    return edn.text_of(value)


def name_of(value):
    """A record as a word, by which records are compared."""
    return json.dumps(record_of(value))


def is_exchange(value):
    """Whether a value is that of a compare-and-set. `[nil [3 4]]` isn't: of a register with versions the version isn't known yet, and what
    would be compared with what it is."""
    return isinstance(value, list) and len(value) == 2 and not (value[0] is None and isinstance(value[1], list))


def holes_of(value, place=()):
    """The places of the parts of a value that are `nil`; () is that of the whole."""
    if value is None:
        return frozenset([place])
    parts = enumerate(value) if isinstance(value, list) else ()
    return frozenset().union(*(holes_of(it, (*place, at)) for at, it in parts))


def fits(value, known, holes, place=()):
    """Whether a value is the known one but for its holes, the places of which nobody knows what stands there."""
    if place in holes:
        return True
    if isinstance(value, list) and isinstance(known, list):
        return len(value) == len(known) and all(fits(*pair, holes, (*place, at)) for at, pair in enumerate(zip(value, known)))
    return name_of(value) == name_of(known)


# A value that a register had by an operation: surely, unless the operation may have taken no effect.
Seen = collections.namedtuple("Seen", "line kind value is_sure")


class Call:
    """An operation of a register, which its key names. The value of a compare-and-set is what it asked for and what it would leave. The
    holes of a write are the places of its value that weren't known when it began; `is_told` says whether they are by now."""

    def __init__(self, line, who, kind, key, begin, value, holes=frozenset()):
        self.line, self.who, self.kind, self.key, self.begin, self.value = line, who, kind, record_key(key), begin, value
        self.holes, self.is_told = holes, False
        self.end, self.fate = None, "open"
        # of a compare-and-set: whether it is known to have found another value, and maybe which one
        self.missed, self.found = False, None
        # when it failed, if it may have failed because it found another value
        self.failed_at = None

    def is_vague(self):
        """Whether this is a write of whose value a part isn't known."""
        return self.kind == "write" and bool(self.holes) and not self.is_told

    def may_leave(self, value):
        return fits(self.value, value, self.holes) if self.is_vague() else name_of(value) in map(name_of, self.left())

    def left(self):
        """The value that it leaves, if it takes effect and that is known."""
        if self.kind == "cas":
            return [] if self.missed else [self.value[1]]
        return [self.value] if self.kind == "write" and not self.is_vague() else []

    def seen(self):
        """The values that the register had by this operation."""
        values = [self.value] if self.kind == "read" else []
        if self.kind == "cas":
            values = [self.value[0]] if not self.missed else [] if self.found is None else [self.found]
        return [Seen(self.line, self.kind, it, self.fate == "done") for it in values]

    def row(self):
        row = {"who": self.who, "kind": self.kind, "begin": self.begin, "end": self.end}
        if self.kind != "cas":
            return {**row, "record": record_of(self.value)}
        swapped = None if self.fate == "open" else not self.missed
        found = {} if self.found is None else {"found": record_of(self.found)}
        return {**row, "from": record_of(self.value[0]), "record": record_of(self.value[1]), "swapped": swapped, **found}


def record_key(key):
    """The key as a word; a key that is missing is nothing."""
    return None if key is None else edn.text_of(key)


class History:
    """Calls that begin and end. `opening` is what each register held at first; `unsaid` are the names of calls that were left out. With
    `repeats` each log is one whose values repeat, with `failed_missed` a compare-and-set that failed found another value."""

    def __init__(self, opening=None):
        self.opening, self.calls, self.under_way = opening, [], {}
        self.count, self.untakeable, self.unsaid = 0, [], set()
        self.repeats = self.failed_missed = False

    def leave_out(self, why):
        """An operation that can't be said is counted, and its end is too late to matter."""
        self.count += 1
        self.untakeable.append(why)

    def begin(self, line, who, kind, key, at, value, name=None, holes=frozenset()):
        """A call begins; `name` says which one returns, if a process may have several, and `holes` what isn't known of a write's value."""
        name = who if name is None else name
        if not is_whole(who):
            raise Refused(line, f"a process has a number from 0 on, of at most 64 bits, and not {edn.text_of(who)}")
        if not is_whole(at):
            raise Refused(line, f"a time is a number from 0 on, of at most 64 bits, and not {edn.text_of(at)}")
        if name in self.under_way:
            raise Refused(line, f"{name} begins again before line {self.under_way[name].line} has ended")
        if kind == "cas" and not is_exchange(value):
            raise Refused(line, f"a cas has the value that it asks for and the one that it leaves, and not {edn.text_of(value)}")
        self.count += 1
        self.under_way[name] = Call(line, who, kind, key, at, value, holes)
        self.calls.append(self.under_way[name])

    def returned(self, line, name, kind):
        if not isinstance(name, (int, str)) or name not in self.under_way:
            raise Refused(line, f"{edn.text_of(name)} ends what it hadn't begun")
        call = self.under_way.pop(name)
        if call.kind != kind:
            raise Refused(line, f"a {kind} ends the {call.kind} of line {call.line}")
        return call

    def end(self, line, name, kind, at, value, **key):
        """A call took effect; a read gave this value, a write wrote it. A write without one wrote what it began with, if that was known."""
        call = self.returned(line, name, kind)
        if key and record_key(key["key"]) != call.key:
            raise Refused(line, f"this {kind} ends for another key than that of line {call.line}")
        self.set_end(line, call, at)
        if kind != "read" and value is not None and not fits(call.value, value, call.holes):
            raise Refused(line, f"this {kind} ends with another value than that of line {call.line}")
        call.is_told = value is not None or call.value is None
        if kind == "read" or value is not None:
            call.value = value

    def set_end(self, line, call, at):
        if not is_whole(at) or at < call.begin:
            raise Refused(line, "this operation ends before it begins, or at no time")
        call.end, call.fate = at, "done"

    def miss(self, line, name, at, found=None):
        """A compare-and-set found another value than it asked for; if it isn't nothing, this one."""
        call = self.returned(line, name, "cas")
        self.set_end(line, call, at)
        if found is not None and name_of(found) == name_of(call.value[0]):
            raise Refused(line, f"this cas found what it asked for on line {call.line}, and did nothing")
        call.missed, call.found = True, found

    def fail(self, line, name, kind, at=None):
        """A call took no effect, and stands in no log. At the time that is given a compare-and-set may have found another value."""
        call = self.returned(line, name, kind)
        call.fate, call.failed_at = "failed", at

    def leave(self, line, name, kind):
        """Nobody knows whether a call took effect."""
        self.returned(line, name, kind).fate = "open"

    def logs(self):
        """By key the operations by beginning: no call that failed, and no read that never returned."""
        found, self.numbers = {}, numbers_beside({call.who for call in self.calls})
        for call in sorted(self.calls, key=lambda it: it.begin):
            if self.failed_missed and call.kind == "cas" and call.failed_at is not None:
                call.end, call.fate, call.missed = call.failed_at, "done", True
            if call.fate == "done" or (call.fate == "open" and call.kind != "read"):
                found.setdefault(call.key, []).append(call)
        found = {key: self.with_known_values(calls) for key, calls in found.items()}
        for calls in found.values():
            self.set_apart(calls)
        if self.untakeable:
            raise self.refusal()
        return found

    def with_known_values(self, calls):
        """The calls of a key, in which a write that isn't wholly known has the value that was seen of it. One that nobody saw, and that
        needn't have taken effect, isn't there."""
        settled = settled_holes(calls)
        for it in calls:
            it.holes -= settled
        vague, known = [it for it in calls if it.is_vague()], [it for it in calls if not it.is_vague()]
        if not vague:
            return calls
        written = {name_of(it.value) for it in known if it.fate == "done" and it.kind == "write"} | {name_of(self.opening)}
        made = written | {name_of(value) for it in known if it.fate == "done" for value in it.left()}
        shown = {}
        for seen in sorted((seen for it in calls for seen in it.seen()), key=lambda it: not it.is_sure):
            shown.setdefault(name_of(seen.value), seen)
        rivals = [seen for name, seen in shown.items() if name not in written]
        orphans = [seen for seen in rivals if name_of(seen.value) not in made]
        # (what was seen for sure first, and of that what the fewest writes may have left)
        for seen in sorted(orphans, key=lambda it: (not it.is_sure, sum(write.may_leave(it.value) for write in vague))):
            self.find_write(seen, vague, known, rivals)
        names = made | shown.keys() | {name_of(value) for it in known for value in it.left()}
        # (a compare-and-set may have found what nobody else saw)
        is_any_kept = any(it.missed and it.found is None for it in calls)
        kept = [it for it in calls if not it.is_vague() or it.fate == "done" or is_any_kept or name_of(it.value) in names]
        reached = self.reached(kept)
        for seen in (it for name, it in shown.items() if it.is_sure and name in made and name not in reached):
            self.doubt(seen, [it for it in vague if fits(it.value, seen.value, it.holes)], known)
        return kept

    def reached(self, calls):
        """The names of the values that may have been there. (A compare-and-set that leaves what it asks for explains no value.)"""
        names = {name_of(self.opening), *(name_of(it.value) for it in calls if it.kind == "write")}
        steps = [tuple(map(name_of, it.value)) for it in calls if it.kind == "cas" and not it.missed]
        more = names
        while more:
            names = names | more
            more = {left for asked, left in steps if asked in names} - names
        return names

    def doubt(self, seen, fitting, others):
        """A value that was seen can't be said, if one of these writes may be its write, or one of others."""
        if fitting:
            numbers = sorted(it.line for it in [*fitting, *(it for it in others if it.may_leave(seen.value))])
            why = f"nobody knows which of lines {', '.join(map(str, numbers))} wrote what this {seen.kind} {'gave' if seen.kind == 'read' else 'saw'}"
            self.untakeable.append(Untakeable(seen.line, why, "read of an unfinished write"))

    def find_write(self, seen, vague, known, rivals):
        """The write of a value that was seen: if several unfinished ones could be it, the one that began first, as that excludes the least.
        If such a one could be the write of another value as well, or what is known of the others doesn't exclude them, nobody knows."""
        fitting = [it for it in vague if it.is_vague() and it.may_leave(seen.value)]
        others = [it for it in known if it.fate == "open" and it.may_leave(seen.value)]
        has_rivals = any(it is not seen and write.may_leave(it.value) for it in rivals for write in fitting)
        if fitting and (others or len(fitting) > 1 and (has_rivals or any(it.fate == "done" for it in fitting))):
            self.doubt(seen, fitting, others)
        elif fitting:
            write = min(fitting, key=lambda it: it.begin)
            write.value, write.is_told = seen.value, True

    def has_repeats(self, calls):
        """Whether a log has to be one whose values repeat: it has a compare-and-set, or writes a value twice, or what was there at first."""
        written = [name_of(self.opening), *(name_of(it.value) for it in calls if it.kind == "write")]
        return self.repeats or any(it.kind == "cas" for it in calls) or len(set(written)) < len(written)

    def set_apart(self, calls):
        """Of one process operations follow each other. One that never ended, and isn't its last, gets a number of its own."""
        last = {}
        for call in calls:
            before = last.get(call.who)
            if before and before.end is None:
                before.who = next(self.numbers)
            elif before and call.begin <= before.end:
                raise Refused(call.line, f"{call.who} begins before it has ended line {before.line}")
            last[call.who] = call

    def refusal(self):
        """The first operation that can't be said, with how many there are of each kind."""
        first = min(self.untakeable, key=lambda it: it.line)
        kinds = collections.Counter(it.kind for it in self.untakeable)
        counts = ", ".join(f"{count} of kind `{kind}`" for kind, count in kinds.most_common())
        return Refused(first.line, str(first), f"of {self.count} operations {len(self.untakeable)} can't be said: {counts}")


def settled_holes(calls):
    """The places where `nil` is a value: a finished write had it there from begin to end, and none had anything else at the end."""
    told = [it for it in calls if it.kind == "write" and it.is_told]
    stayed = frozenset().union(*(it.holes & holes_of(it.value) for it in told))
    return stayed.difference(*(it.holes - holes_of(it.value) for it in told))


def numbers_beside(taken):
    return (number for number in itertools.count() if number not in taken)


def text_of(history, calls):
    header = {"kind": "lines", "opening": record_of(history.opening), **({"repeats": True} if history.has_repeats(calls) else {})}
    rows = [header, *[call.row() for call in calls], {"kind": "done", "ops": len(calls)}]
    text = "".join(json.dumps(row, separators=(",", ":"), ensure_ascii=False) + "\n" for row in rows)
    try:
        text.encode()
    except UnicodeEncodeError as why:
        line = next((it.line for it in calls if not all(is_unicode(record_of(value)) for value in (it.value, it.found))), 1)
        raise Refused(line, "a text with half a letter") from why
    return text


def is_unicode(record):
    return not re.search("[\ud800-\udfff]", record) if isinstance(record, str) else True


def file_name(key):
    """The file of a key, in which what isn't a letter, a figure, `-`, `.` or `_` is `_`; without keys it is `log.jsonl`. As `*.jsonl` finds
    no hidden file, `_` stands before a point in front, and for nothing."""
    name = "log" if key is None else re.sub(r"[^\w.-]", "_", key.strip('"'))
    return ("_" if name[:1] in ("", ".") else "") + name + ".jsonl"


def write_logs(history, folder):
    """Each key's log into a file of the folder, or the only one to standard output. A folder with other logs is refused: who judges all of
    them would judge these, too."""
    logs = history.logs()
    if not logs:
        raise Refused(1, "there is no operation that ended" if history.calls else "there is no operation of a register")
    if folder is None:
        if len(logs) > 1:
            raise Refused(1, f"there are {len(logs)} keys: --to FOLDER writes a log for each")
        sys.stdout.write(text_of(history, *logs.values()))
        return
    names = {}
    for key, calls in logs.items():
        name = file_name(key)
        if names.setdefault(name, key) != key:
            raise Refused(calls[0].line, f"the keys {names[name]} and {key} would both be {name}")
    texts = {file_name(key): text_of(history, calls) for key, calls in logs.items()}
    os.makedirs(folder, exist_ok=True)
    for name in sorted(os.listdir(folder)):
        if name.endswith(".jsonl") and name not in texts:
            raise FileExistsError(errno.EEXIST, "a log of another history is in the folder", os.path.join(folder, name))
    for name, text in texts.items():
        with open(os.path.join(folder, name), "w", encoding="utf-8") as file:
            file.write(text)


def text_of_file(path):
    """The text of a file, or of standard input."""
    if not path:
        return text_of_bytes(sys.stdin.buffer.read())
    with open(path, "rb") as file:
        return text_of_bytes(file.read())


def text_of_bytes(read):
    try:
        return read.decode()
    except UnicodeDecodeError as why:
        raise Refused(1 + read[: why.start].count(b"\n"), "this isn't UTF-8") from None


def opening_of(word):
    """The opening that was asked for."""
    try:
        (_, value), = edn.values_of(f"[{word}\n]")
    except (edn.NoEdn, ValueError):
        raise argparse.ArgumentTypeError(f"{word} isn't one value") from None
    return value


def run(name, page, read):
    """Runs a converter: reads a history from the file or standard input, and writes its logs. Status 3: it can't be said; 5: a file can't
    be read or written, or the folder has other logs."""
    parser = argparse.ArgumentParser(description=page, formatter_class=argparse.RawDescriptionHelpFormatter)
    parser.add_argument("--to", metavar="FOLDER")
    # (a list, as the value that is asked for may be `None`)
    parser.add_argument("--opening", metavar="VALUE", type=lambda word: [opening_of(word)], default=[])
    parser.add_argument("--repeats", action="store_true")
    parser.add_argument("--failed-cas-missed", action="store_true")
    parser.add_argument("history", nargs="?")
    words = parser.parse_args()
    try:
        history = read(text_of_file(words.history))
        for value in words.opening:
            history.opening = value
        history.repeats, history.failed_missed = words.repeats, words.failed_cas_missed
        sys.stdout.reconfigure(encoding="utf-8")
        write_logs(history, words.to)
        sys.stdout.flush()
    except Refused as why:
        print(f"{name}: line {why.line}: {why}", file=sys.stderr)
        if why.more:
            print(f"{name}: {why.more}", file=sys.stderr)
        return 3
    except OSError as why:
        print(f"{name}: {why.filename or 'a stream'}: {why.strerror}", file=sys.stderr)
        sys.stdout = None
        return 5
    return 0
