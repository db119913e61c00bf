"""What stands twice in the crates: runs of at least ten lines of `.rt` and `.antt` that are alike but for their indentation.

    duplicates.py           sees that no two crates share more such lines than docs/dev/DECISIONS.md says: status 1
    duplicates.py --list    tells the pairs of files, with the lines that they share
    duplicates.py --write   writes into the page how many lines the crates share

Comments, imports and lines without a letter don't count, nor does a run that stands in more than sixteen places. The page lists the pairs of
crates that share some, or a crate beside itself, between two marks, so that no passage is written once more unseen.
"""

import collections
import os
import re
import sys
from itertools import combinations
from pathlib import Path

TOP = os.path.dirname(os.path.dirname(os.path.dirname(os.path.realpath(__file__))))
PAGE = f"{TOP}/docs/dev/DECISIONS.md"
MARKS = "<!-- counted by tests/gate/duplicates.py -->\n", "<!-- to here -->\n"
RUN, MOST_PLACES = 10, 16
PASSED_OVER = re.compile(r"//|--|use |ghost use |pub use |pub mod |mod |[\W_]*$")


def lines_of(path):
    """The lines that count, without their indentation."""
    lines = (" ".join(line.split()) for line in path.read_text(encoding="utf-8").splitlines())
    return [line for line in lines if not PASSED_OVER.match(line)]


def shared():
    """By a pair of files how many lines of the first one stand in runs that the second one has too."""
    places = collections.defaultdict(list)
    for folder in ("src", "specs", "proofs"):
        for path in sorted(it for it in Path(TOP, "crates").glob(f"*/{folder}/**/*") if it.suffix in (".rt", ".antt")):
            lines = lines_of(path)
            for at in range(len(lines) - RUN + 1):
                places[tuple(lines[at : at + RUN])].append((str(path.relative_to(f"{TOP}/crates")), at))
    found = collections.defaultdict(set)
    for those in places.values():
        if len(those) <= MOST_PLACES:
            for (first, at), (second, _) in combinations(those, 2):
                found[first, second].update(range(at, at + RUN))
    return {pair: len(lines) for pair, lines in found.items()}


def by_crates(files):
    """The same by a pair of crates."""
    found = collections.Counter()
    for (first, second), number in files.items():
        found[tuple(sorted((first.split("/")[0], second.split("/")[0])))] += number
    return found


def made(found):
    rows = [f"`{first}` {number}" if first == second else f"`{first}` and `{second}` {number}" for (first, second), number in sorted(found.items())]
    return f"{sum(found.values()):,} lines: of {', '.join(rows)}.\n"


def listed(text):
    """What the page allows."""
    rows = re.findall(r"`(\w+)`(?: and `(\w+)`)? (\d+)", text)
    return {(first, second or first): int(number) for first, second, number in rows}


def main(words):
    with open(PAGE, encoding="utf-8") as file:
        before, _, rest = file.read().partition(MARKS[0])
    text, mark, after = rest.partition(MARKS[1])
    if not mark:
        print("docs/dev/DECISIONS.md has lost its marks")
        return 1
    files = shared()
    found = by_crates(files)
    if words == ["--list"]:
        print("\n".join(f"{number} {first} ~ {second}" for (first, second), number in sorted(files.items(), key=lambda it: -it[1])))
        return 0
    if words == ["--write"]:
        with open(PAGE, "w", encoding="utf-8") as file:
            file.write(before + MARKS[0] + made(found) + MARKS[1] + after)
        return 0
    allowed = listed(text)
    faults = [f"{' and '.join(dict.fromkeys(pair))} share {number} lines, and docs/dev/DECISIONS.md allows {allowed.get(pair, 0)}"
              for pair, number in found.items() if number > allowed.get(pair, 0)]
    print("\n".join(faults or [f"no crates share more lines than docs/dev/DECISIONS.md allows: {sum(found.values()):,}"]))
    return 1 if faults else 0


if __name__ == "__main__":
    sys.exit(main(sys.argv[1:]))
