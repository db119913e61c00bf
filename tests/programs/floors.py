"""Lines and floors that a recorder wrote while its program ran, by what docs/FORMATS.md says of a floor.

    floors.py STREAM [--merged LOG] [--floors N] [--told FILE]     whether each line obeys the floors, and the end the number of lines
    floors.py STREAM --raise          prints it with a floor that is one too high
    floors.py STREAM --leave-out      prints it without its last write that was read, and an end that knows of it

With --merged the operations have to be those of that log, whose times count from its first begin. With --floors there are at least so many.
With --told that file says of a write that hangs that it holds the floor: others have to go on, and the floor must not rise, until it is given
up. The last line says what was compared.
"""

import argparse
import collections
import json
import re
import sys


def fail(why):
    print(why)
    sys.exit(1)


def read(path):
    with open(path, encoding="utf-8") as file:
        return [json.loads(line) for line in file]


def put(rows):
    for row in rows:
        print(json.dumps(row, separators=(",", ":")))


def is_operation(row):
    return "record" in row


def compare_floors(rows):
    """Answers how many floors there are."""
    floor, lasts, floors = -1, collections.defaultdict(lambda: -1), 0
    for number, row in enumerate(rows[1:], 2):
        if row["kind"] == "floor":
            if row["begin"] <= floor:
                fail(f"line {number}: a floor that hasn't risen")
            floor, floors = row["begin"], floors + 1
        elif is_operation(row):
            if row["begin"] < floor:
                fail(f"line {number}: it begins at {row['begin']}, below the floor {floor}")
            if row["begin"] <= lasts[row["who"]]:
                fail(f"line {number}: it begins before the end of what its task did before")
            lasts[row["who"]] = row["begin"] if row["end"] is None else row["end"]
        elif number != len(rows) or row != {"kind": "done", "ops": sum(map(is_operation, rows))}:
            fail(f"line {number}: {row}")
    if rows[-1]["kind"] != "done":
        fail("there is no end")
    return floors


def operations(rows, zero):
    """Each operation with times from this one on."""
    found = []
    for row in filter(is_operation, rows):
        end = None if row["end"] is None else row["end"] - zero
        found.append((row["begin"] - zero, end, row["who"], row["kind"], row["record"], row.get("words")))
    return sorted(found, key=lambda it: (it[0], it[2]))


def compare_merged(rows, merged):
    """A thread that was given up may have ended its operation since."""
    found, wanted = operations(rows, min(row["begin"] for row in rows if is_operation(row))), operations(merged, 0)
    for one, other in zip(found, wanted):
        if one != other and (one[1] is not None or (one[0], *one[2:]) != (other[0], *other[2:])):
            fail(f"{one} in place of {other}")
    if len(found) != len(wanted):
        fail(f"{len(found)} operations in place of {len(wanted)}")


def compare_told(rows, path):
    with open(path, encoding="utf-8") as file:
        said = re.fullmatch(r"task (\d+) holds the floor at (\d+)\n", file.read())
    if not said:
        fail("nobody is said to hold the floor")
    who, floor = map(int, said.groups())
    if {"kind": "floor", "begin": floor, "who": who} not in rows:
        fail(f"there is no floor {floor} of task {who}")
    at = rows.index({"kind": "floor", "begin": floor, "who": who})
    after = next(at for at in range(at + 1, len(rows)) if rows[at]["kind"] == "floor")
    between = rows[at + 1:after]
    if not any((it["who"], it["begin"], it["end"]) == (who, floor, None) for it in between) or len(between) < 100:
        fail(f"behind the floor {floor} come {len(between)} lines, and not the write that was given up and 99 of others")


def raised(rows):
    """A floor that is the begin of a later line, one too high."""
    later = set()
    for at in range(len(rows) - 1, -1, -1):
        row = rows[at]
        if row["kind"] == "floor" and row["begin"] in later:
            return [*rows[:at], {**row, "begin": row["begin"] + 1}, *rows[at + 1:]]
        if is_operation(row):
            later.add(row["begin"])
    return fail("no floor is the begin of a later line")


def less(rows):
    given = {json.dumps(row["record"]) for row in rows if row["kind"] == "read"}
    at = max(at for at, row in enumerate(rows) if row["kind"] == "write" and json.dumps(row["record"]) in given)
    return [*rows[:at], *rows[at + 1:-1], {**rows[-1], "ops": rows[-1]["ops"] - 1}]


def main():
    parser = argparse.ArgumentParser()
    parser.add_argument("stream")
    parser.add_argument("--merged")
    parser.add_argument("--floors", type=int, default=0)
    parser.add_argument("--told")
    parser.add_argument("--raise", dest="raised", action="store_true")
    parser.add_argument("--leave-out", action="store_true")
    words = parser.parse_args()
    rows = read(words.stream)
    if words.raised or words.leave_out:
        put(raised(rows) if words.raised else less(rows))
        return
    floors = compare_floors(rows)
    if floors < words.floors:
        fail(f"{floors} floors")
    if words.merged:
        compare_merged(rows, read(words.merged))
    if words.told:
        compare_told(rows, words.told)
    print(f"{sum(map(is_operation, rows))} operations and {floors} floors")


if __name__ == "__main__":
    main()
