"""What README and docs/ quote from the code has to stand there.

    quotes.py [--count] FILE ..

A block that begins with ```LANGUAGE PATH has to be a stretch of the file PATH, but for its indentation, or several in turn, with lines `// ..`
between them. A row `| `PATH` | N | ..`
of a table has to give the number of lines of PATH, or of files where PATH is a folder and ends with a slash; with --count these numbers are
counted anew and written. Where a page says `PART` of `NAME`, or `NAME`, clause `PART`, some crate or item of this name has to have the
part: a crate its items with their parts, a function its clauses, a type or trait its fields, variants and members, a definition of
`specs/` its fields and constructors. If crates that the page names have such an item, it is of one of these. Prints each fault, or how many
quotations, counts and parts were compared.
"""

import collections
import functools
import os
import re
import sys
from pathlib import Path

import headlines

ROW = re.compile(r"^\| `([\w/.-]+(?:\.\w+|/))` \| (\d+) \|")
# What a page says of parts: names, and what has them.
NAME = r"`(?:\w+::)*\w+`"
AND = r"(?:,|,? and|,? or)\s+"
PARTS_OF = re.compile(rf"(?P<parts>{NAME}(?:{AND}{NAME})*)(?P<wholes>\s+of\s+{NAME}(?:{AND}(?:of\s+)?{NAME}(?!\s+of\b))*)")
CLAUSES_OF = re.compile(rf"(?P<wholes>{NAME}),\s+clauses?\s+(?P<parts>{NAME}(?:{AND}{NAME})*)")
BLOCK = re.compile(r"^```.*?^```", re.S | re.M)
# Where an item of src/ begins, an impl, a clause; and a part of a type or trait, or of a definition of specs/.
ITEM = re.compile(r"\s*(?:(?:pub(?:\([\w:]+\))?|unsafe|extern|\"C\") )*(?:fn|const fn|struct|enum|trait|type|const|static) (\w+)")
IMPL = re.compile(r"impl(?:<.*?>)? (?:([\w:]+)(?:<.*>)? for )?&?([\w:]+)")
CLAUSE = re.compile(r"\s*(?:requires|ensures) (\w+) \{")
MEMBER = re.compile(r"    (?:(?:pub(?:\([\w:]+\))?|ghost) )*(\w+)(?:[:,;({]| [{:]|$)")
FIELD = re.compile(r"\s+(?:pub )?(\w+) : ")


def text_of(path):
    with open(path, encoding="utf-8") as file:
        return file.read()


def lines_of(path):
    return [line.strip() for line in text_of(path).removesuffix("\n").split("\n")]


def count_of(path):
    """How many lines a file has, or a folder files, and what they are."""
    return (len(os.listdir(path)), "files") if path.endswith("/") else (len(lines_of(path)), "lines")


def stands_in(block, path):
    """Whether the stretches of a block stand in a file, one behind the other."""
    lines, begin = lines_of(path), 0
    for stretch in "\n".join(block).split("\n// ..\n"):
        part = stretch.split("\n")
        begin = next((at + len(part) for at in range(begin, len(lines) - len(part) + 1) if lines[at : at + len(part)] == part), None)
        if begin is None:
            return False
    return True


def count_anew(document):
    """Writes the counts and the sums of a document as they are."""
    text = text_of(document)
    counted = lambda it: f"| `{it[1]}` | {count_of(it[1])[0]} |" if os.path.exists(it[1]) else it[0]
    text = re.sub(ROW.pattern, counted, text, flags=re.M)
    with open(document, "w", encoding="utf-8") as file:
        file.write(text)


def parts_of_code(path):
    """The items of a file of `src/`, each with one of its parts or with none."""
    types, item = [], None
    for line in headlines.lines_of(path):
        found, clause, impl = ITEM.match(line), CLAUSE.match(line), IMPL.match(line)
        part = (found or MEMBER.match(line)) if line.startswith("    ") else None
        if found:
            item = found[1]
            yield item, None
        if clause:
            yield item, clause[1]
        elif part:
            yield from ((it, part[1]) for it in types)
        elif found or impl:
            types = [it.split("::")[-1] for it in impl.groups() if it] if impl else [item]
        elif line.startswith("}"):
            types = []


def parts_of_specs(path):
    """The definitions of a file of `specs/`, each with one of its parts or with none."""
    lines = headlines.lines_of(path)
    for name, numbers in headlines.definitions(path).items():
        yield name, None
        yield from ((name, found[1]) for found in map(FIELD.match, (lines[it] for it in numbers)) if found)


@functools.lru_cache(maxsize=None)
def parts():
    """By the name of each crate and of each of its items the parts of this item."""
    found = collections.defaultdict(lambda: collections.defaultdict(set))
    for path in [*Path("crates").glob("*/src/**/*.rt"), *Path("crates").glob("*/specs/**/*.antt")]:
        for name, part in (parts_of_code if path.suffix == ".rt" else parts_of_specs)(str(path)):
            found[path.parts[1]][name].add(part)
    return found


def has_part(whole, part, named):
    """Whether a crate has this item or part, or an item this part; of those of the crates that a page names, if there are such."""
    if whole in parts():
        return any(part == name or part in some for name, some in parts()[whole].items())
    crates = [it for it, items in parts().items() if whole in items]
    return any(part in parts()[it][whole] for it in named.intersection(crates) or crates)


def faults_of_parts(document):
    """The faults of what a document says of parts, and of how many it speaks."""
    text, faults, count = text_of(document), [], 0
    named = parts().keys() & set(re.findall(r"\w+", text))
    text = BLOCK.sub(lambda it: "\n" * it[0].count("\n"), text)
    for said in [*PARTS_OF.finditer(text), *CLAUSES_OF.finditer(text)]:
        line = text.count("\n", 0, said.start()) + 1
        for whole in re.findall(NAME, said["wholes"]):
            some = re.findall(NAME, said["parts"])
            count += len(some)
            last = lambda name: name.strip("`").split("::")[-1]
            faults += [f"{document}:{line}: no source has {it} of {whole}" for it in some if not has_part(last(whole), last(it), named)]
    return faults, count


def faults_of(document):
    """The faults of a document and the number of its quotations, counts and parts."""
    (faults, quoted), path, block = faults_of_parts(document), None, []
    for number, line in enumerate(text_of(document).split("\n"), 1):
        words = line.strip().split(" ")
        if line.startswith("```"):
            if path and not stands_in(block, path):
                faults.append(f"{document}:{number}: what stands above isn't in {path}")
            quoted += path is not None
            path, block = (words[1] if len(words) > 1 and path is None else None), []
        elif path:
            block.append(line.strip())
        elif ROW.match(line):
            named, count = ROW.match(line).groups()
            quoted += 1
            has, what = count_of(named)
            if has != int(count):
                faults.append(f"{document}:{number}: {named} has {has} {what}")
    return faults, quoted


def main():
    faults, quoted, documents = [], 0, sys.argv[1:]
    if documents[:1] == ["--count"]:
        del documents[0]
        for document in documents:
            count_anew(document)
    for document in documents:
        more, count = faults_of(document)
        faults += more
        quoted += count
    print("\n".join([*faults, f"{quoted} quotations, counts and parts stand in the sources as the pages have them"][: len(faults) or 1]))
    return 1 if faults or not quoted else 0


if __name__ == "__main__":
    sys.exit(main())
