"""Puts an absurd premise before each conjunct of the headlines' definitions, and sees whether a proof breaks. By hand: each of its checks
takes 15 to 30 processor seconds, and there are dozens. `./test` tries the first edit alone.

    absurd.py [--headline N] [--definition NAME] [--max N] [--list] [--planted] [PATH[:NAME,NAME..] ..]

A definition could be hollowed out where nobody looks: `7 < 0 →` before a part of it makes that part say nothing. The definitions are those
of the reading sets of docs/THEOREMS.md that are propositions: records, of which each field's type is taken, and abbreviations, of which
each equation is. A conjunct is what stands between two × behind the last arrow, also in a λ. What is data isn't one, nor is `Unit`. Of a
proposition with constructors each premise of these is one. The edits are made in a copy of theorem_uses and of what it stands on, which
leaves out all functions but its laws, so that a check takes seconds. Each edit has a number of its own in its premise. All are tried at
once, and those are refused whose premise an error names; the others are tried again. Where none is named, those are tried alone whose
definition an error names, and else halves; alone any error refuses. An edit with which its own file isn't well typed says nothing and is
told as such. An edit of a crate on which theorem_uses doesn't stand isn't tried. The edits that get through are printed at the end. Status
1 if there is one, 2 if nothing could be tried.

With words PATH the definitions of these files of `specs/` are tried, or those that are named, whether or not a headline needs them. --planted
tries one more edit, which stands in a comment and so has to get through. --list prints the edits and tries none. RT_JOBS=N tries N batches
side by side, else one.
"""

import argparse
import collections
import concurrent.futures
import os
import queue
import re
import shutil
import subprocess
import sys
import tempfile
from pathlib import Path

TOP = Path(__file__).resolve().parent.parent
sys.path[:0] = [f"{TOP}/build", f"{TOP}/tests/docs"]

import headlines  # noqa: E402
from listed import crates_below, read_rows  # noqa: E402

LESS = "use Rattle.std.specs.Prelude.{◌<◌}"
USES = "theorem_uses"
PROVED = r"(?m)^only=(\d+) proved=\1$"
# Where an item of src/ begins that has code, and the names of a use that are types or constants.
CODE = re.compile(r"(?:pub(?:\([\w:]+\))? )?(?:const )?(?:unsafe )?(?:extern \"C\" )?fn |impl\b")
TYPE_NAME = re.compile(r"\s*(?:\w+::)*[A-Z]")
USED = re.compile(r"(?m)^((?:pub(?:\([\w:]+\))? )?use (?!std\b)[\w:]+::)\{([^}]*)\};")
USED_ALONE = re.compile(r"(?m)^(?:pub(?:\([\w:]+\))? )?use (?!std\b)(?:\w+::)+[a-z]\w*;\n")
FIELD = re.compile(r"\s*pub (\S+) : ")
ABBREVIATION = re.compile(r"\s*(?:(?:abbrev|unfoldable|opaque|pub) )+(\S+) :")
RECORD = re.compile(r"\s*(?:pub )?record ")
CASES = re.compile(r"\s*(?:pub )?data ")
CONSTRUCTOR = re.compile(r"\s*\w+ : ")
EQUATION = re.compile(r".*? =(?: |$)")
BINDER = re.compile(r"\(\s*[\w ]+ : [^()]*\)$|\(\s*[\w ]+ : .*\)$", re.S)
# What a type that is data begins with, if none of these signs stands in it: a name of the kit, or a parameter.
DATA = re.compile(r"(?:ℕ|Bool|List|Option|[A-Z])\b")
RELATION = re.compile(r"[≡≢≤<¬⊎]")
# What is a term by its form: a name or a field, a number.
TERM = re.compile(r"[a-z_]\w*(?:\.\w+)*$|\d+$")
NOTHING = "Unit {0}"
OPENS, CLOSES = "([{", ")]}"


def pieces(text, start, end, sign):
    """The stretches between the signs that stand in no bracket and behind no λ."""
    found, depth, at, begin = [], 0, start, start
    while at < end:
        if text[at] in OPENS:
            depth += 1
        elif text[at] in CLOSES:
            depth -= 1
        elif not depth and text[at] == "λ":
            break
        elif not depth and text[at] == sign:
            found.append((begin, at))
            begin = at + 1
        at += 1
    return [*found, (begin, end)]


def stripped(text, start, end):
    while start < end and text[start].isspace():
        start += 1
    while start < end and text[end - 1].isspace():
        end -= 1
    return start, end


def is_bracketed(text, start, end):
    """Whether the bracket that opens first closes last."""
    depth = 0
    for at in range(start, end):
        depth += (text[at] in OPENS) - (text[at] in CLOSES)
        if not depth:
            return text[start] == "(" and at == end - 1
    return False


def bodies(text, start, end):
    """What stands behind each λ of a stretch, up to the bracket that closes around it."""
    at = start
    while at < end:
        if text[at] == "λ":
            dot = text.find(".", at, end)
            depth, last = 0, dot + 1
            while dot >= 0 and last < end and depth >= 0:
                depth += (text[last] in OPENS) - (text[last] in CLOSES)
                last += 1
            if dot >= 0:
                yield dot + 1, last - 1 if depth < 0 else last
        at += 1


def is_data(path, said):
    """Whether a type is data and no proposition: by its first word a type of the kit or of src/, a parameter, or a record of data."""
    if RELATION.search(said):
        return False
    word = said.strip("( ").split(" ")[0].rstrip(")")
    if DATA.fullmatch(word):
        # (a parameter with arguments is a proposition)
        return len(word) > 1 or word == said
    place = headlines.found_by(path, word)
    if place is None or place[0].endswith(".rt"):
        # (of the kit a type without arguments is data)
        return place is not None or re.fullmatch(r"[A-Z]\w*", said) is not None
    lines = headlines.lines_of(place[0])
    fields = [lines[it] for it in place[2] if FIELD.match(lines[it])]
    return bool(fields) and all(is_data(place[0], it[FIELD.match(it).end():].split("→")[-1].strip()) for it in fields)


def conjuncts(path, text, start, end):
    """The stretches of a proposition before each of which a premise can stand."""
    start, end = stripped(text, *pieces(text, start, end, "→")[-1])
    found = []
    for piece in pieces(text, start, end, "×"):
        first, last = stripped(text, *piece)
        said = text[first:last]
        if not said or said == NOTHING or BINDER.match(said) or TERM.match(said) or is_data(path, said):
            continue
        inner = (first + 1, last - 1)
        if is_bracketed(text, first, last) and (len(pieces(text, *inner, "×")) > 1 or len(pieces(text, *inner, "→")) > 1):
            found += conjuncts(path, text, *inner)
            continue
        found.append((first, last))
        for body in bodies(text, first, last):
            found += [it for it in conjuncts(path, text, *body) if it != (first, last)]
    return found


def depth_of(line):
    return len(line) - len(line.lstrip())


def propositions(lines):
    """The stretches of a definition's text that are propositions: the types of a record's fields, the right sides of an abbreviation's
    equations. Each is a first line, a column and a last line, which is the first that stands no deeper and closes no bracket."""
    def goes_on(line, at):
        return line.strip() and (depth_of(line) > depth_of(lines[at]) or line.strip()[0] in CLOSES)

    def end_of(at):
        return next((it for it in range(at + 1, len(lines)) if not goes_on(lines[it], at)), len(lines))

    if any(map(RECORD.match, lines)):
        yield from ((at, FIELD.match(line).end(), end_of(at)) for at, line in enumerate(lines) if FIELD.match(line))
        return
    heads = [at for at, line in enumerate(lines) if ABBREVIATION.match(line)]
    if not heads:
        return
    declared = " ".join(lines[heads[0] : end_of(heads[0])]).rstrip()
    if not declared.endswith("Type 0"):
        return
    for at in range(end_of(heads[0]), len(lines)):
        equation = EQUATION.match(lines[at])
        if equation and depth_of(lines[at]) == depth_of(lines[heads[0]]) and not ABBREVIATION.match(lines[at]):
            yield at, equation.end(), end_of(at)


def constructors(lines):
    """The stretches of the types of a definition's constructors, as above."""
    heads = [at for at, line in enumerate(lines) if CASES.match(line)]
    for head in heads:
        own = [at for at in range(head + 1, len(lines)) if depth_of(lines[at]) == depth_of(lines[head]) + 2 and CONSTRUCTOR.match(lines[at])]
        yield from ((at, CONSTRUCTOR.match(lines[at]).end(), end) for at, end in zip(own, [*own[1:], len(lines)]))


def premises(text, start, end):
    """The stretches of what a constructor takes, but for data."""
    return [it for it in (stripped(text, *piece) for piece in pieces(text, start, end, "→")[:-1]) if not BINDER.match(text[it[0] : it[1]])]


class Edit:
    """A premise before one conjunct of a definition: its number, its file and definition, and where in the file the conjunct stands."""

    def __init__(self, path, name, text, start, end):
        self.path, self.name, self.crate, self.start, self.end = path, name, path.split("/")[1], start, end
        self.said = " ".join(text[start:end].split())
        self.line = text.count("\n", 0, start) + 1
        self.number = 0

    def __str__(self):
        return f"{self.path}:{self.line}: {self.name}: {self.said[:80]}"


def edits_of(path, name, numbers):
    lines = headlines.lines_of(path)
    first, last = min(numbers), max(numbers) + 1
    # (comments are blanked, so that places stay as they are)
    block = [re.sub(r"--.*", lambda it: " " * len(it[0]), it) for it in lines[first:last]]
    plain = "\n".join([*lines[:first], *block, *lines[last:]])
    starts = [0]
    for line in lines:
        starts.append(starts[-1] + len(line) + 1)
    text, seen = "\n".join(lines), set()

    def place(at, column, end):
        return starts[first + at] + column, starts[first + end] - 1

    found = [it for stretch in propositions(block) for it in conjuncts(path, plain, *place(*stretch))]
    found += [it for stretch in constructors(block) for it in premises(plain, *place(*stretch))]
    for start, stop in found:
        if (start, stop) not in seen:
            seen.add((start, stop))
            yield Edit(path, name, text, start, stop)


def all_edits(headline, definition):
    """The edits of the definitions of a headline, or of all, each definition once."""
    text, seen = Path(headlines.PAGE).read_text(encoding="utf-8"), set()
    for number, section in re.findall(r"(?ms)^## (\d+)\. (.*?)(?=^## |\Z)", text):
        before, mark, _ = section.partition(headlines.MARK)
        if not mark or headline not in (None, int(number)):
            continue
        quotes = [(it[1], it[2].split("\n")) for it in headlines.QUOTE.finditer(before)]
        for path, names in sorted(headlines.reading_set(quotes).items()):
            for name, numbers in sorted(names.items()):
                if path.endswith(".antt") and (path, name) not in seen and definition in (None, name):
                    seen.add((path, name))
                    yield from edits_of(path, name, numbers)


def edits_of_files(words):
    """The edits of the definitions of these files, each word PATH or PATH:NAME,NAME.."""
    for word in words:
        path, _, names = word.partition(":")
        for name, numbers in sorted(headlines.definitions(path).items()):
            if not names or name in names.split(","):
                yield from edits_of(path, name, numbers)


def planted(path):
    """An edit of a file that changes nothing, as it stands in a comment."""
    text = "\n".join(headlines.lines_of(path))
    at = text.index("-- ") + len("-- ")
    return Edit(path, "a comment", text, at, at)


def edited(path, edits):
    """The text of a file with edits that stand in no other's stretch."""
    text = "\n".join(headlines.lines_of(path))
    for it in sorted(edits, key=lambda it: -it.start):
        # (in one line, since a bracket over several has rules of its own)
        said = " ".join(re.sub(r"--.*", "", text[it.start : it.end]).split())
        text = f"{text[: it.start]}({it.number} < 0 → {said}){text[it.end :]}"
    return text if re.search(r"(?m)^use [^\n]*◌<◌", text) else re.sub(r"(?m)^use ", f"{LESS}\nuse ", text, count=1)


def without_functions(text):
    """A file of src/ with its types, its traits and those impls that have ghost members alone."""
    kept, above, lines, at = [], [], text.split("\n"), 0
    while at < len(lines):
        line, first = lines[at], at
        at += 1
        if line.startswith(("///", "#[")):
            above.append(line)
            continue
        if CODE.match(line):
            while lines[at - 1] not in ("}", "{}") and not (at == first + 1 and line.endswith("{}")):
                at += 1
            item = "\n".join(lines[first:at])
            if re.match(r"impl\S* Drop for ", item) or "\n    ghost " in item and not re.search(r"\bfn ", item):
                kept += [*above, item]
            above = []
            continue
        kept += [*above, line]
        above = []
    return USED_ALONE.sub("", USED.sub(used_types, "\n".join(kept)))


def used_types(found):
    names = ", ".join(name.strip() for name in found[2].split(",") if TYPE_NAME.match(name))
    return f"{found[1]}{{{names}}};" if names else ""


def lemmas(crates):
    """The files of lemmas of these crates that the proofs of theorem_uses cite, and those that they cite."""
    found, waiting = set(), sorted((TOP / "crates" / USES / "proofs").rglob("*.antt"))
    while waiting:
        for crate, at in re.findall(r"(?m)^\s*(?:pub )?use Rattle\.(\w+)\.proofs\.([\w.]+)", waiting.pop().read_text(encoding="utf-8")):
            parts = at.split(".")
            paths = (TOP / "crates" / crate / "proofs" / f"{'/'.join(parts[:count])}.antt" for count in range(len(parts), 0, -1))
            path = next(filter(Path.is_file, paths), None)
            if crate in crates and path and path not in found:
                found.add(path)
                waiting.append(path)
    return found


def make_thin(place, crates):
    """A copy of theorem_uses, and of what it stands on without functions: it needs their definitions, types and a few lemmas alone."""
    shutil.copytree(TOP / "crates" / USES, place / "crates" / USES, ignore=shutil.ignore_patterns("out", "must-fail"))
    for path in (place / "crates" / USES / "src").glob("*.rt"):
        # (callers call functions, which the root passes on, and laws have no code)
        if "\n{\n" in (text := path.read_text(encoding="utf-8")) or path.stem == "lib":
            path.write_text(without_functions(text), encoding="utf-8")
            shutil.rmtree(place / "crates" / USES / "proofs" / path.stem, ignore_errors=True)
    needed = lemmas(crates)
    for crate in crates:
        own, to = TOP / "crates" / crate, place / "crates" / crate
        shutil.copytree(own / "specs", to / "specs")
        for path in own.glob("src/**/*.rt"):
            (to / path.relative_to(own)).parent.mkdir(parents=True, exist_ok=True)
            (to / path.relative_to(own)).write_text(without_functions(path.read_text(encoding="utf-8")), encoding="utf-8")
        copy_lemmas(own / "proofs", to / "proofs", [path for path in needed if own in path.parents])


def copy_lemmas(own, to, paths):
    """Copies these files of a crate's proofs, each as a module of the one whose folder it is in."""
    modules = collections.defaultdict(set)
    for path in paths:
        place = path.relative_to(own)
        (to / place).parent.mkdir(parents=True, exist_ok=True)
        shutil.copy2(path, to / place)
        for it in [place, *place.parents][:-1]:
            modules[to / it.parent.with_suffix(".antt") if it.parent.name else to / "Lib.antt"].add(it.stem)
    for file, names in modules.items():
        file.write_text("".join(f"pub mod {name}\n" for name in sorted(names)), encoding="utf-8")


class Bench:
    """Where edits are tried: a copy in which theorem_uses is proved over the definitions that it stands on."""

    def __init__(self, place):
        rows = read_rows(TOP)
        self.place, self.kept = place, place / "kept"
        self.crates = sorted(crates_below(rows, USES))
        make_thin(place, self.crates)
        kit = Path(shutil.which("rattle")).resolve().parents[1]
        lower = {word for crate in [USES, *self.crates] for word in rows[crate][1]} - set(rows)
        self.words = ["rattle", "check", "--crate-name", USES, "src/lib.rt", "-L", f"dependency={kit}/rlibs"]
        self.words += [word for it in self.crates for word in ("--lib", f"{it}={place}/crates/{it}/src/lib.rt")]
        self.words += [word for it in sorted({"std", *lower}) for word in ("--extern", f"{it}={kit}/rlibs/{it}.rlib")]
        self.words += ["--antt-project", f"{kit}/rattle/logic/antt-project.json", "--logic-built", f"{kit}/logic_built", "--jobs", "1"]
        laws = [it.stem for it in sorted((place / "crates" / USES / "src").glob("*.rt")) if "\n{}\n" in it.read_text(encoding="utf-8")]
        self.words += [word for it in laws for word in ("--only", it)]
        said = self.check(self.kept)
        if not re.search(PROVED, said):
            sys.exit(f"absurd: {USES} isn't proved as it stands: {said[-2000:]}")

    def check(self, kept):
        done = subprocess.run([*self.words, "--incremental", kept], cwd=self.place / "crates" / USES, check=False, stdin=subprocess.DEVNULL,
            stdout=subprocess.PIPE, stderr=subprocess.STDOUT, text=True, errors="replace")
        return done.stdout

    def attempt(self, edits):
        """What the prover says of these edits together."""
        paths = {it.path for it in edits}
        for path in paths:
            (self.place / path).write_text(edited(path, [it for it in edits if it.path == path]), encoding="utf-8")
        kept = self.place / "edited"
        shutil.copytree(self.kept, kept)
        try:
            return self.check(kept)
        finally:
            shutil.rmtree(kept)
            for path in paths:
                shutil.copy2(TOP / path, self.place / path)


def judge(edits, said):
    """Of edits tried together how those end of which what was said tells it: `through`, `refused` or `ill-typed`; and those that it may be
    due to, where it tells nothing."""
    if re.search(PROVED, said):
        return {it: "through" for it in edits}, []
    errors = re.findall(r"(?m)^(\S+?\.antt):\d+:\d+: error: (.*(?:\n(?!\S+?:\d+:\d+: |fn |note: |logic ).*)*)", said)
    if not errors:
        sys.exit(f"absurd: no verdict: {said[-2000:]}")
    if len(edits) == 1:
        return {edits[0]: "ill-typed" if any(path.endswith(edits[0].path) for path, _ in errors) else "refused"}, []
    ends, words = {}, set()
    for path, told in errors:
        # (a < b is a + 1 ≤ b, and told so where it is computed)
        named = {int(it) for it in re.findall(r"\b(\d+) < 0\b", told) + re.findall(r"◌<◌ (\d+) 0\b", told)}
        named |= {int(it) - 1 for it in re.findall(r"\b(\d+) ≤ 0\b", told)}
        found = [it for it in edits if it.number in named]
        for it in found:
            if ends.get(it) != "ill-typed":
                ends[it] = "ill-typed" if path.endswith(it.path) else "refused"
        if not found and "was not checked" not in told and "were not checked" not in told:
            words.update(re.findall(r"\w+", told))
    return ends, [it for it in edits if it.name in words]


def batches(edits, size):
    """Batches of so many edits, none of which stands in another."""
    found = []
    for it in edits:
        apart = (batch for batch in found if len(batch) < size and
                 not any(it.path == other.path and it.start < other.end and other.start < it.end for other in batch))
        room = next(apart, None)
        found += [[it]] if room is None else []
        if room is not None:
            room.append(it)
    return found


def settle(bench, edits):
    """How each of these edits ends. Those that an error names are set aside, and the others tried again. Where none is named, those are
    tried alone that the errors may be due to, and where none of these is refused, halves."""
    ends, alone, left = {}, set(), edits
    while left:
        found, due = judge(left, bench.attempt(left))
        for it in [] if found else [it for it in due if it not in alone]:
            alone.add(it)
            found |= {it: end for it, end in judge([it], bench.attempt([it]))[0].items() if end != "through"}
        for it, end in found.items():
            print(f"{end}: {it}", flush=True)
        ends |= found
        if not found:
            middle = len(left) // 2
            return ends | settle(bench, left[:middle]) | settle(bench, left[middle:])
        left = [it for it in left if it not in ends]
    return ends


def try_all(edits, room, jobs):
    """How each edit ends."""
    ends, benches = {}, queue.Queue()
    for number in range(jobs):
        benches.put(Bench(Path(room) / str(number)))

    def settled(batch):
        bench = benches.get()
        try:
            return settle(bench, batch)
        finally:
            benches.put(bench)

    with concurrent.futures.ThreadPoolExecutor(jobs) as workers:
        for found in workers.map(settled, batches(edits, -(-len(edits) // jobs))):
            ends.update(found)
    return ends


def main():
    parser = argparse.ArgumentParser()
    parser.add_argument("--headline", type=int)
    parser.add_argument("--definition")
    parser.add_argument("--max", type=int)
    parser.add_argument("--list", action="store_true")
    parser.add_argument("--planted", action="store_true")
    parser.add_argument("files", nargs="*")
    asked = parser.parse_args()
    edits = list(edits_of_files(asked.files) if asked.files else all_edits(asked.headline, asked.definition))[: asked.max]
    if not edits:
        parser.error("no such headline or definition")
    edits += [planted(edits[0].path)] if asked.planted else []
    for number, it in enumerate(edits, 1):
        it.number = number
    if asked.list:
        print("\n".join(map(str, edits)))
        print(f"{len(edits)} edits")
        return 0
    crates = {USES, *crates_below(read_rows(TOP), USES)}
    tried = [it for it in edits if it.crate in crates]
    with tempfile.TemporaryDirectory(prefix="absurd-") as room:
        ends = try_all(tried, room, int(os.environ.get("RT_JOBS", "1")))
    counts = {end: sum(it == end for it in ends.values()) for end in ("refused", "ill-typed", "through")}
    print(f"{len(edits)} edits: {counts['refused']} refused, {counts['ill-typed']} not well typed, {counts['through']} through, "
          f"{len(edits) - len(tried)} of crates on which {USES} doesn't stand")
    print("\n".join(f"through: {it}" for it in tried if ends[it] == "through"))
    return 1 if counts["through"] else 0 if counts["refused"] else 2


if __name__ == "__main__":
    sys.exit(main())
