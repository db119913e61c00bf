"""The headlines of docs/THEOREMS.md, whose titles begin with numbers, and its other sections, each with the definitions that one has to
read to know what it says.

    headlines.py               compares the reading sets of the page with the sources, and says what differs: status 1
    headlines.py --write       writes them anew
    headlines.py --names N     prints by file the definitions of the reading set of headline N
    headlines.py --names PAGE  prints those of the quotations of each section of a page

A section has quotations, blocks that begin with ```LANGUAGE PATH, and numbers behind the mark `<!-- reading set -->`. The reading set of the quotations are the definitions of the repository's `specs/` that they name, those that these name, and so on, and the
types of `src/` among them. Their lines, with their comments, and files are counted; what the kit defines isn't. The digest are eight hex
digits of the SHA-256 of these definitions, without comments, each with where its file takes their names from. So a definition that changes
is seen if its lines stay as many.
"""

import functools
import hashlib
import os
import re
import sys
from pathlib import Path

TOP = os.path.dirname(os.path.dirname(os.path.dirname(os.path.realpath(__file__))))
PAGE = f"{TOP}/docs/THEOREMS.md"
MARK = "<!-- reading set -->\n"
QUOTE = re.compile(r"^```\w+ (\S+)\n(.*?)^```", re.S | re.M)
USE = re.compile(r"^\s*(?:pub )?(?:ghost )?use Rattle\.(\w+)\.specs\.([\w.]+?)(?:\.\{(.*?)\}| as (\w+))", re.S | re.M)
HEAD = re.compile(r"^\s*(?:(?:abbrev|unfoldable|opaque|pub|record|data)\s+)+(\S+)")
TYPE = r"^pub (?:struct|enum|trait) %s\b"
# A name, also an operator with its places.
WORD = re.compile(r"[^\s(){}\[\],;.:]+")
COMMENT = re.compile(r"(--|//).*")
# How many lines several headlines have together, at the head of the page.
TOGETHER = re.compile(r"(Headlines 4, 5, 6 and 8 together have \*\*)\d+(\*\* lines to read, all eight \*\*)\d+(\*\*)")
# What a file takes from another, of the kit's too: the path, and the names in braces or another name for it.
TAKEN = re.compile(r"^\s*(?:pub )?(?:ghost )?use ([\w.]+?)(?:\.\{(.*?)\}| as (\w+)|$)", re.S | re.M)


@functools.lru_cache(maxsize=None)
def lines_of(path):
    with open(f"{TOP}/{path}", encoding="utf-8") as file:
        return file.read().split("\n")


@functools.lru_cache(maxsize=None)
def imports(path):
    """The names that a file takes from the repository's `specs/`, each with the crate and the path it comes from."""
    found = {}
    for crate, at, names, alias in USE.findall("\n".join(lines_of(path))):
        if not os.path.isdir(f"{TOP}/crates/{crate}"):
            continue
        parts = at.split(".")
        if parts[-1] in ("TheVariants", "TheImpl"):
            names, parts = alias or names, parts[:-1]
            found.update({it.strip(): (crate, [*parts[:-1], parts[-1]], parts[-1]) for it in names.split(",")})
        else:
            for name in filter(None, (it.strip() for it in names.split(","))):
                name, _, other = name.partition(" as ")
                found[other or name] = crate, parts, name
    return found


def depth_of(line):
    return len(line) - len(line.lstrip())


@functools.lru_cache(maxsize=None)
def definitions(path):
    """By its name the numbers of the lines of each definition of a file of `specs/`, with the comment above; of a file of `src/` those of
    each ghost member of a trait. (A struct's ghost fields stand in its lines, and two structs of a file may have one name for them.)"""
    if path.endswith(".rt"):
        return ghosts(path)
    found, block, lines = {}, [], lines_of(path)
    for number, line in enumerate([*lines, ""]):
        if line.strip():
            block.append(number)
            continue
        heads = [lines[it] for it in block if HEAD.match(lines[it])]
        # (the fields of a record begin with pub too, and stand deeper)
        depth = min(map(depth_of, heads), default=0)
        found.update({HEAD.match(it)[1]: block for it in heads if depth_of(it) == depth})
        block = []
    return found


def ghosts(path):
    found, lines = {}, lines_of(path)
    for number, line in enumerate(lines):
        member = re.match(r"\s*ghost (\w+): ", line)
        if member:
            first, last = number, number
            while lines[first - 1].lstrip().startswith("//"):
                first -= 1
            while not lines[last].rstrip().endswith(("};", "},")):
                last += 1
            if lines[last].rstrip().endswith("};"):
                found[member[1]] = range(first, last + 1)
    return found


def file_of(crate, parts):
    """The file of `specs/` in which the module of an import stands."""
    for count in range(len(parts), 0, -1):
        path = f"crates/{crate}/specs/{'/'.join(parts[:count])}.antt"
        if os.path.isfile(f"{TOP}/{path}"):
            return path
    return None


@functools.lru_cache(maxsize=None)
def type_of(crate, name):
    """Where a type of a crate's `src/` stands, and the numbers of its lines; of a trait those of its ghost members."""
    for at, _, names in sorted(os.walk(f"{TOP}/crates/{crate}/src")):
        for file in sorted(names):
            path = os.path.relpath(f"{at}/{file}", TOP)
            lines = lines_of(path)
            for number, line in enumerate(lines):
                if not re.match(TYPE % re.escape(name), line):
                    continue
                first, last = number, number
                while first and lines[first - 1].startswith(("///", "#[")):
                    first -= 1
                while not lines[last].rstrip().endswith((";", "}")) or lines[last].startswith(" "):
                    last += 1
                if line.startswith("pub trait"):
                    return path, sorted(it for member in ghosts(path).values() for it in member if number <= it <= last)
                return path, range(first, last + 1)
    return None, ()


def found_by(path, word):
    """Where a word that stands in a file is defined: the file, its name there and the numbers of its lines; nothing if in the kit."""
    if word in definitions(path):
        return path, word, definitions(path)[word]
    if word not in imports(path):
        return None
    crate, parts, name = imports(path)[word]
    if parts[0] in ("declared", "contracts"):
        where, numbers = type_of(crate, parts[-1])
        return (where, parts[-1], numbers) if where else None
    # (a module may pass on a name that it takes from another)
    return found_by(file_of(crate, parts), name)


def member_of(path, type_name, member):
    """Where a ghost member of a type parameter of a file of `src/` is defined, by the trait that bounds it there; nothing if in the kit."""
    text = "\n".join(lines_of(path))
    for bound in re.findall(rf"\b{type_name}: ([^,>(){{}}]+)", text):
        for trait in re.findall(r"\w+", bound):
            used = re.search(rf"(?m)^use (\w+)::[^;]*\b{trait}\b", text)
            crate = path.split("/")[1] if not used or used[1] == "crate" else used[1]
            where, _ = type_of(crate, trait)
            if where and member in ghosts(where):
                return where, member, ghosts(where)[member]
    return None


def reading_set(quotes):
    """By file the names to be read there, each with the numbers of its lines."""
    found, waiting = {}, list(quotes)
    while waiting:
        path, lines = waiting.pop()
        lines = [COMMENT.sub("", line) for line in lines]
        places = [found_by(path, word) for word in sorted({word for line in lines for word in WORD.findall(line)})]
        if path.endswith(".rt"):
            members = sorted({pair for line in lines for pair in re.findall(r"\b([A-Z])\.(\w+)", line)})
            places += [member_of(path, *pair) for pair in members]
        for where, name, numbers in filter(None, places):
            if where and name not in found.setdefault(where, {}):
                found[where][name] = numbers
                waiting.append((where, [lines_of(where)[it] for it in numbers]))
    return {path: names for path, names in found.items() if names}


@functools.lru_cache(maxsize=None)
def taken_by(path):
    """By each name that a file takes from another, the place it comes from."""
    found = {}
    for place, names, alias in TAKEN.findall("\n".join(lines_of(path))):
        for name in filter(None, (it.strip() for it in (names or f"* as {alias}").split(","))):
            name, _, other = name.partition(" as ")
            found[other or name] = f"{place}.{name}"
    return found


def normal_text(path, names):
    """The definitions of these names in a file, without comments, and where it takes from what they name."""
    texts = []
    for name, numbers in sorted(names.items()):
        lines = [COMMENT.sub("", lines_of(path)[it]).rstrip() for it in numbers]
        texts.append("\n".join(filter(None, lines)))
    words = {word for text in texts for word in WORD.findall(text)}
    # (of an operator the parts between its places)
    taken = sorted(f"{name} = {place}" for name, place in taken_by(path).items() if words.issuperset(filter(None, name.split("◌"))))
    return "\n".join([path, *taken, *texts])


def digest_of(found):
    """Eight hex digits that change with any definition of a reading set."""
    text = "\n\n".join(normal_text(path, names) for path, names in sorted(found.items()))
    return hashlib.sha256(text.encode()).hexdigest()[:8]


def size_of(quotes):
    """How much one reads for some quotations: the numbers of lines and files, and the digest."""
    found = reading_set(quotes)
    count = sum(len({number for numbers in names.values() for number in numbers}) for names in found.values())
    return f"{MARK}To read: **{count}** lines in {len(found)} files, digest `{digest_of(found)}`.\n"


def tell_names(section):
    """Prints the definitions that one reads for a headline, by file."""
    print(section.split("\n")[0].removeprefix("## "))
    for path, names in sorted(reading_set(quotes_of(section.partition(MARK)[0])).items()):
        print(f"{path}: {', '.join(sorted(names, key=str.lower))}")


def quotes_of(text):
    return [(it[1], it[2].split("\n")) for it in QUOTE.finditer(text)]


def anew(section):
    """A section of a page with the numbers of its quotations as they are, at its mark or at its end."""
    before, _, after = section.partition(MARK)
    quotes = quotes_of(before)
    rest = after.split("\n\n", 1)[1] if "\n\n" in after else ""
    return before.rstrip("\n") + "\n\n" + size_of(quotes) + "\n" + rest if quotes else section


def lines_together(sections, numbers):
    """How many lines one reads for the headlines of these numbers together, as their reading sets share definitions."""
    found = set()
    for section in sections:
        if re.match(rf"## [{numbers}]\. ", section):
            for path, names in reading_set(quotes_of(section.partition(MARK)[0])).items():
                found |= {(path, it) for numbers_of_lines in names.values() for it in numbers_of_lines}
    return len(found)


def together_anew(text, sections):
    """The head of the page with the numbers of lines of several headlines as they are."""
    cells, every = lines_together(sections, "4568"), lines_together(sections, "1-8")
    return TOGETHER.sub(rf"\g<1>{cells}\g<2>{every}\g<3>", text)


def compare(is_written):
    """Compares the numbers of the page, or writes them: what differs, if anything, and how many headlines and other sections have such."""
    text = Path(PAGE).read_text(encoding="utf-8")
    sections = re.split(r"(?m)^(?=## )", text)
    wanted = [together_anew(sections[0], sections), *map(anew, sections[1:])]
    if is_written:
        Path(PAGE).write_text("".join(wanted).rstrip("\n") + "\n", encoding="utf-8")
    others = [old.split("\n")[0].removeprefix("## ") for old, new in zip(sections, wanted) if old.rstrip("\n") != new.rstrip("\n")]
    marked = [bool(re.match(r"## \d", it)) for it in wanted if MARK in it]
    return "; ".join(others), marked.count(True), marked.count(False)


def main(words):
    if words[:1] == ["--names"]:
        which = words[1] if words[1:] else PAGE
        page, number = (PAGE, f"## {which}. ") if which.isdigit() else (which, "## ")
        for section in re.split(r"(?m)^(?=## )", Path(page).read_text(encoding="utf-8"))[1:]:
            if section.startswith(number) and quotes_of(section):
                tell_names(section)
        return 0
    others, headlines, sections = compare(words == ["--write"])
    if words == ["--write"]:
        return 0
    print(f"docs/THEOREMS.md has another reading set of {others}: read it, and run python3 tests/docs/headlines.py --write" if others else
          f"the reading sets of {headlines} headlines and {sections} other sections are as the page has them")
    return 0 if headlines and sections and not others else 1


if __name__ == "__main__":
    sys.exit(main(sys.argv[1:]))
