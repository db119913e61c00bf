"""The map of the crates by subject, made from crates.txt, whose headings are the subjects, and from the lines at each crate's head.

    map.py           compares docs/dev/MAP.md with the crates, and says what differs: status 1
    map.py --write   writes it anew between its two marks

The graph has the subjects, and leaves out an arrow if a longer way leads to the same one. Each crate is in one subject; in it the crates come
by their height, the number of crates on the longest way below them. The words are the first sentence at the head of `lib.rt` or `main.rt`,
up to its colon or comma. If a page of docs/ tells its reader to copy crates, all that they stand on have to be among them. The names in
docs/architecture.svg have to be those of crates or files.
"""

import glob
import os
import re
import sys
import textwrap

TOP = os.path.dirname(os.path.dirname(os.path.dirname(os.path.realpath(__file__))))
sys.path.insert(0, f"{TOP}/build")

from listed import crates_below, read_rows, read_subjects  # noqa: E402

MAP = f"{TOP}/docs/dev/MAP.md"
MARKS = "<!-- made by tests/gate/map.py -->\n", "<!-- to here -->\n"


def height(rows, name):
    return max((height(rows, it) + 1 for it in rows[name][1] if it in rows), default=0)


def arrows(below, name):
    """What it stands on by no longer way, where each name has all that is below it."""
    return [it for it in below if it in below[name] and not any(it in below[other] for other in below[name])]


def subjects_below(rows, subjects):
    """By each subject, the other subjects that its crates stand on."""
    subject = {it: title for title, names in subjects.items() for it in names}
    return {title: {subject[it] for name in names for it in crates_below(rows, name)} - {title} for title, names in subjects.items()}


def described(name):
    """The first paragraph at the head of a crate."""
    root = next(it for it in (f"{TOP}/crates/{name}/src/{root}.rt" for root in ("lib", "main")) if os.path.isfile(it))
    words = []
    with open(root, encoding="utf-8") as file:
        for line in file:
            if not line.startswith("//! "):
                break
            words.append(line[4:].strip())
    return " ".join(words)


def short(words):
    """The first sentence, up to a colon or comma behind four words or more; up to a colon alone if it begins with a verb, as of a program.
    A point behind one capital letter ends no sentence, and no comma before an `and` is such."""
    sentence = re.match(r"(.*?[^A-Z])\.(?: |$)", words)
    parts = re.split(r"(: )" if words[0].islower() else r"(: |, (?!and ))", sentence[1] if sentence else words)
    count = next((it for it in range(1, len(parts), 2) if len("".join(parts[:it]).split()) >= 4), len(parts))
    return "".join(parts[:count])


def graph_of(below):
    """The graph of the subjects, an arrow to each that one stands on."""
    numbers = {it: f"s{at}" for at, it in enumerate(below)}
    arrow = lambda it: f" --> {' & '.join(numbers[low] for low in arrows(below, it))}" if below[it] else ""
    return ["```mermaid", "graph TD", *[f"    {numbers[it]}[{it}]{arrow(it)}" for it in below], "```"]


def made(rows, subjects):
    """The map as it should be."""
    lines = graph_of(subjects_below(rows, subjects))
    for title, names in subjects.items():
        lines += ["", f"### {title}", ""]
        for it in sorted(names, key=lambda it: (height(rows, it), it)):
            words = f"- `{it}`: {short(described(it).removeprefix(f'`{it}`: '))}."
            lines += textwrap.wrap(words, 138, subsequent_indent="  ", break_on_hyphens=False)
    return "\n".join(lines) + "\n"


def faults_of(rows, subjects):
    """What stands in the way of a map: crates without words at their head or in no subject, subjects that stand on one another."""
    listed = {it for names in subjects.values() for it in names}
    faults = [f"{it} has no words at its head" for it in rows if not described(it)]
    faults += [f"crates.txt has no heading above {it}" for it in rows if it not in listed]
    if faults:
        return faults
    below = subjects_below(rows, subjects)
    return [f"the crates of `{it}` and of `{low}` stand on one another" for it in below for low in below[it] if it in below[low]]


def wrong_copies():
    """The crates that a page tells its reader to copy and that aren't there, and those that they stand on and that aren't copied."""
    rows = read_rows(TOP)
    for name in sorted(glob.glob("docs/**/*.md", root_dir=TOP, recursive=True)):
        with open(f"{TOP}/{name}", encoding="utf-8") as file:
            text = file.read()
        for copied in re.findall(r"for crate in ([\w\s\\]+); do cp ", text):
            names = re.findall(r"\w+", copied)
            yield from (f"{name} copies {it}, which is no crate" for it in names if it not in rows)
            below = {low for it in names if it in rows for low in crates_below(rows, it)}
            yield from (f"{name} doesn't copy {it}, on which others stand" for it in sorted(below - set(names)))


def wrong_names(rows):
    """What docs/architecture.svg names below a title that is neither a crate nor a file."""
    with open(f"{TOP}/docs/architecture.svg", encoding="utf-8") as file:
        below = re.findall(r'<text class="m"[^>]*>([^<]*)<', file.read())
    names = [it for words in below for it in re.findall(r"[\w./]+", words) if "_" in it or "/" in it]
    yield from (f"docs/architecture.svg names {it}, which is no crate" for it in names
                if it not in rows and not glob.glob(f"{TOP}/{it}") and not glob.glob(f"{TOP}/c/{it}"))
    if len(names) < 10:
        yield f"docs/architecture.svg has {len(names)} names alone"


def main(words):
    with open(MAP, encoding="utf-8") as file:
        text = file.read()
    before, _, rest = text.partition(MARKS[0])
    _, mark, after = rest.partition(MARKS[1])
    if not mark:
        print("docs/dev/MAP.md has lost its marks")
        return 1
    rows, subjects = read_rows(TOP), read_subjects(TOP)
    faults = faults_of(rows, subjects)
    wanted = "" if faults else made(rows, subjects)
    if words == ["--write"] and not faults:
        with open(MAP, "w", encoding="utf-8") as file:
            file.write(before + MARKS[0] + wanted + MARKS[1] + after)
        return 0
    faults += [*wrong_copies(), *wrong_names(rows)]
    if rest != wanted + MARKS[1] + after:
        faults.append("docs/dev/MAP.md isn't the map of the crates as they are: run python3 tests/gate/map.py --write")
    print("\n".join(faults or [f"the map has the {len(rows)} crates as they are"]))
    return 1 if faults else 0


if __name__ == "__main__":
    sys.exit(main(sys.argv[1:]))
