"""The lines of the crates that are longer than they should be: of src/ and specs/ more than 120 characters, of proofs/ more than 140.

    lines.py           sees that no crate has more of them than docs/dev/DECISIONS.md says: status 1
    lines.py --write   writes there how many each has

The page lists the crates that have such lines, between two marks, so that no new one is added unseen.
"""

import collections
import os
import re
import sys
from pathlib import Path

TOP = os.path.dirname(os.path.dirname(os.path.dirname(os.path.realpath(__file__))))
PAGE = f"{TOP}/docs/dev/DECISIONS.md"
MARKS = "<!-- counted by tests/gate/lines.py -->\n", "<!-- to here -->\n"
# What is counted, where, and beyond how many characters.
KINDS = {
    "`src/` and `specs/`, beyond 120 characters": (("src", "specs"), 120),
    "`proofs/`, beyond 140 characters": (("proofs",), 140),
}


def counted():
    """By what is counted the number of such lines of each crate that has some."""
    found = {}
    for title, (folders, most) in KINDS.items():
        numbers = collections.Counter()
        for path in (it for folder in folders for it in Path(TOP, "crates").glob(f"*/{folder}/**/*") if it.suffix in (".rt", ".antt")):
            with open(path, encoding="utf-8") as file:
                numbers[path.relative_to(f"{TOP}/crates").parts[0]] += sum(len(line.rstrip("\n")) > most for line in file)
        found[title] = {name: number for name, number in sorted(numbers.items()) if number}
    return found


def listed(text):
    """The same as the page has it."""
    rows = dict(re.findall(r"(?m)^- (.*): \d[\d,]* lines(?:, of (.*))?\.$", text))
    return {title: {name: int(number) for name, number in re.findall(r"`(\w+)` (\d+)", rows.get(title, ""))} for title in KINDS}


def made(found):
    lines = []
    for title, numbers in found.items():
        of = f", of {', '.join(f'`{name}` {number}' for name, number in numbers.items())}" if numbers else ""
        lines.append(f"- {title}: {sum(numbers.values()):,} lines{of}.")
    return "\n".join(lines) + "\n"


def main(words):
    with open(PAGE, encoding="utf-8") as file:
        before, _, rest = file.read().partition(MARKS[0])
    text, mark, after = rest.partition(MARKS[1])
    if not mark:
        print("docs/dev/DECISIONS.md has lost its marks")
        return 1
    found = counted()
    if words == ["--write"]:
        with open(PAGE, "w", encoding="utf-8") as file:
            file.write(before + MARKS[0] + made(found) + MARKS[1] + after)
        return 0
    allowed = listed(text)
    faults = [f"{name} has {number} lines of {title}, and docs/dev/DECISIONS.md allows {allowed[title].get(name, 0)}"
              for title, numbers in found.items() for name, number in numbers.items() if number > allowed[title].get(name, 0)]
    print("\n".join(faults or [f"no crate has more long lines than docs/dev/DECISIONS.md allows: {sum(map(sum, (it.values() for it in found.values()))):,}"]))
    return 1 if faults else 0


if __name__ == "__main__":
    sys.exit(main(sys.argv[1:]))
