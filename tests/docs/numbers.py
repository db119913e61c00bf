"""The numbers of docs/dev/TESTING.md, counted: crates, wrong bodies, test functions, examples, documents at bounds.

    numbers.py           compares them with the page, and says what differs: status 1
    numbers.py --write   writes them anew between their two marks
"""

import glob
import os
import re
import sys

TOP = os.path.dirname(os.path.dirname(os.path.dirname(os.path.realpath(__file__))))
PAGE = f"{TOP}/docs/dev/TESTING.md"
MARKS = "<!-- counted by tests/docs/numbers.py -->\n", "<!-- to here -->\n"
FOLDERS = (
    ("tests/programs/schedules/", "schedules, what `fsr play` prints of each, and the status if it isn't 0"),
    ("tests/programs/races/", "races with one outcome, and what `fsr race` prints of each"),
    ("tests/programs/growths/", "what `test_growths` prints of each call, with ample memory and with each request refused"),
    ("docs/pictures/", "what `picture` draws"),
)


def text_of(path):
    with open(path, encoding="utf-8") as file:
        return file.read()


def counted():
    crates = re.findall(r"(?m)^(\w+)[^#\n]*:", text_of(f"{TOP}/crates.txt"))
    bodies = {it: len(glob.glob(f"{TOP}/crates/{it}/must-fail/*.edit")) for it in crates}
    sources = {it: glob.glob(f"{TOP}/crates/{it}/src/**/*.rt", recursive=True) for it in crates}
    tests = {it: sum(len(re.findall(r"(?m)^\s*#\[test\]", text_of(file))) for file in sources[it]) for it in crates}
    refused = "".join(map(text_of, glob.glob(f"{TOP}/tests/programs/refusals/*.txt"))).split("\n")
    taken = re.search(r"(?m)^ +test_documents \d+ (\d+) (\d+) (\d+)$", text_of(f"{TOP}/tests/programs/documents.sh"))
    random, logs, repeats = map(int, taken.groups())
    lines = [
        f"{len(crates)} crates, {sum(bodies.values())} wrong bodies and {sum(tests.values())} test functions in them; "
        f"{len(glob.glob(f'{TOP}/examples/*.json*'))} examples; {len([it for it in refused if it and it[0] != '#'])} documents at the bounds of "
        f"refusals and rules;\n{random:,} random documents, {logs:,} random logs and {repeats:,} whose records repeat, against a plain reference.",
        "",
        "Beside the crates, each file compared with what a built program prints:",
        "",
        "| Folder | Files | Has |",
        "|---|---|---|",
        *[f"| `{folder}` | {len(os.listdir(f'{TOP}/{folder}'))} | {has} |" for folder, has in FOLDERS],
    ]
    return "\n".join(lines) + "\n"


def main(words):
    text = text_of(PAGE)
    before, _, rest = text.partition(MARKS[0])
    found, mark, after = rest.partition(MARKS[1])
    wanted = counted()
    if not mark:
        print("docs/dev/TESTING.md has lost its marks")
        return 1
    if words == ["--write"]:
        with open(PAGE, "w", encoding="utf-8") as file:
            file.write(before + MARKS[0] + wanted + MARKS[1] + after)
        return 0
    print("docs/dev/TESTING.md has the numbers as they are" if found == wanted else
          "docs/dev/TESTING.md has other numbers than there are: run python3 tests/docs/numbers.py --write")
    return 0 if found == wanted else 1


if __name__ == "__main__":
    sys.exit(main(sys.argv[1:]))
