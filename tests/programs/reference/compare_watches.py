"""Compares `fsr watch` with the plain reference (watches.py) on random logs with floors.

    compare_watches.py [--logs N] [--seed S] [--many] PROGRAM WORD ..

The log is on standard input of the program with these words. Some of the logs are judged with a budget as well, and then may have no
answer. With --many the logs are longer, and have so many records that most are forgotten at a floor and some of these come again. The last
lines are how many logs gave the same bytes and status, by kind of ending, and how many there were, by their verdict. The first difference
ends the run with status 1, with the log kept in the file that is named. None at all is status 1.
"""

import argparse
import collections
import json
import random
import re
import subprocess
import sys

import compare
import make_exchanges
import watches

FEWEST = (0, 0, 1, 2)


def with_floors(random, rows):
    """The rows with floors among them, which are mostly as high as what comes behind them lets them be."""
    made, begins = [], [row["begin"] for row in rows if isinstance(row.get("begin"), int)]
    for place, row in enumerate(rows):
        if place and random.random() < 0.4:
            ahead = [it["begin"] for it in rows[place:] if isinstance(it.get("begin"), int) and it.get("kind") != "floor"]
            most = min(ahead, default=max(begins, default=0) + random.randrange(9))
            at = most if random.random() < 0.6 else random.randint(0, max(most, 0))
            made.append({"kind": "floor", "begin": at + (random.random() < 0.03)})
        made.append(row)
    return made


def spoil_floor(random, rows):
    floors = [row for row in rows if row.get("kind") == "floor"]
    if floors:
        it, how = random.choice(floors), random.randrange(4)
        if how == 0:
            del it["begin"]
        else:
            it["who" if how == 3 else "begin"] = random.choice(make_exchanges.WRONG)


def by_tasks(random, rows):
    """The rows by tasks whose operations don't overlap, in an order that keeps that of each task, below a header that names the tasks."""
    ends, header, rows = {}, rows[0], [row for row in rows[1:] if row.get("kind") != "done"]
    for row in sorted(rows, key=lambda it: it["begin"]):
        free = [who for who, end in ends.items() if end is not None and end <= row["begin"]]
        row["who"] = random.choice(free) if free and random.random() < 0.9 else len(ends)
        ends[row["who"]] = row["end"]
    begins = [row["begin"] for row in rows]
    rows.sort(key=lambda it: random.choice(begins) + it["begin"] if it["end"] is None else it["end"] * 2)
    names = list(range(len(ends) + (random.random() < 0.1)))
    if random.random() < 0.1:
        names.append(random.choice(names or [0]))
    random.shuffle(names)
    return [{**header, "who": names if random.random() < 0.97 else random.choice([*make_exchanges.WRONG, names[1:]])}, *rows]


def with_floors_of_tasks(random, rows, tasks):
    """The rows with floors of tasks among them, each mostly as high as what its task does behind it lets it be, and those of tasks that are
    over without bound."""
    made = []
    for place, row in enumerate(rows):
        while place and tasks and random.random() < 0.5:
            who = random.choice(tasks)
            ahead = [it["begin"] for it in rows[place:] if it["who"] == who]
            most = min(ahead, default=random.choice((18446744073709551615, row["begin"] + 3)))
            made.append({"kind": "floor", "begin": most + (random.random() < 0.02 and most < 99), "who": who})
        made.append(row)
    return made


def make_log(random):
    rows = make_exchanges.good_log(random)
    spoilt, named = random.random(), random.random() < 0.4
    if named:
        last = [rows[-1]] if rows[-1].get("kind") == "done" else []
        rows = by_tasks(random, rows)
        if random.random() < 0.7:
            rows[1:] = with_floors_of_tasks(random, rows[1:], sorted({row["who"] for row in rows[1:]}))
        rows += last
    if spoilt < 0.15:
        make_exchanges.spoil(random, rows)
    last = [rows.pop()] if rows[-1].get("kind") == "done" else []
    if not named or random.random() < 0.3:
        rows = with_floors(random, rows)
    rows += last
    if spoilt > 0.96:
        spoil_floor(random, rows)
    if random.random() < 0.2:
        rows[0].pop("repeats", None)
    data = make_exchanges.text_of(random, rows)
    if data.endswith(b"\x0c\n") and random.random() < 0.9:
        data = data[:-2]
    if random.random() < 0.1:
        at = random.choice([place for place, byte in enumerate(data) if byte == 10] or [0])
        data = data[:at] + random.choice((b"\n", b"\n \t\r", b"\n\n\x0c")) + data[at:]
    return data


def many_records(random):
    """The rows of a log in which most writes have a new record, and the others one that was there long ago. An answer may be changed to one
    that was right long ago."""
    count, at, times = random.randint(30, 60), 0, []
    for _ in range(count):
        at += random.randint(0, 4)
        times.append((at, None if random.random() < 0.01 else at + random.randint(0, 4)))
    points = sorted((random.uniform(begin, begin + 4 if end is None else end), place) for place, (begin, end) in enumerate(times))
    held, made = 0, {}
    for done, (_, place) in enumerate(points, 1):
        made[place], held = make_exchanges.do(random, (done, done, random.randrange(done)), held, times[place][1])
    for place in random.sample(sorted(made), random.choice((0, 0, 1))):
        make_exchanges.change_answer(random, range(place + 1), made[place])
    rows = [{"who": 0, "begin": times[place][0], "end": times[place][1], **made[place]} for place in made]
    rows.sort(key=lambda it: it["begin"] + 4 if it["end"] is None else it["end"])
    return [{"kind": "lines", "opening": 0, "repeats": True}, *rows]


def make_long_log(random):
    rows = with_floors(random, many_records(random))
    return "".join(json.dumps(row, separators=(",", ":")) + "\n" for row in rows).encode()


def ended(command, data):
    done = subprocess.run(command, input=data, capture_output=True, check=False)
    return done.stdout.decode(), done.stderr.decode(), done.returncode


def agree(found, wanted):
    return found[0] in wanted[0] and found[1:] == wanted[1:]


def gives_up(found):
    return found[0] == "" and found[2] == 7 and re.fullmatch(r"fsr: line \d+: too many configurations\n", found[1]) is not None


def ending_of(found):
    if found[2] == 3:
        return re.sub(r"\d+", "N", found[1].strip().removeprefix("fsr: "))
    return re.sub(r" \d+$", "", found[0].split("\n", maxsplit=1)[0])


def tell(number, seed, data, found, wanted):
    print(f"log {number} of seed {seed} < {compare.keep(data)}", "the program:", *found, "the reference:", *wanted, sep="\n")
    return 1


def main():
    parser = argparse.ArgumentParser()
    parser.add_argument("--logs", type=int, default=2000)
    parser.add_argument("--seed", type=int, default=1)
    parser.add_argument("--many", action="store_true")
    parser.add_argument("command", nargs="+")
    given = parser.parse_args()
    source, endings, kinds = random.Random(given.seed), collections.Counter(), collections.Counter()
    for number in range(given.logs):
        data = make_long_log(source) if given.many else make_log(source)
        wanted, found = watches.answers(data), ended(given.command, data)
        if not agree(found, wanted):
            return tell(number, given.seed, data, found, wanted)
        endings[ending_of(found)] += 1
        kinds[("lawful", "lost", "", "refused")[wanted[2]]] += 1
        if source.random() < 0.1:
            found = ended([*given.command, "--budget", str(source.randint(1, 4))], data)
            if not gives_up(found) and not agree(found, wanted):
                return tell(number, given.seed, data, found, wanted)
            kinds["given up"] += gives_up(found)
    by_kind = "".join(f", {count} {kind}" for kind, count in sorted(kinds.items()) if count)
    compare.tell_endings(endings, f"{given.logs} logs of seed {given.seed}{by_kind}")
    return 0 if given.logs else 1


if __name__ == "__main__":
    sys.exit(main())
