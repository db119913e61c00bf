"""Tries the wrong bodies of the crates: the prover has to refuse each of them, at the function that it spoils.

    tests/gate/wrong_bodies.py [--proved] [--beside PROCESS] [--all] [--write FILE] [--edits FOLDER] [CRATE ..]
    tests/gate/wrong_bodies.py --said FILE ..

A wrong body is an edit crates/NAME/must-fail/*.edit, as `rt must-fail` takes it. A line `function: PATH` in it names each function that
it spoils, by its path below the crate. `rt must-fail` makes a check of the whole crate for each edit. Here a check tries edits of
different functions together, and proves these functions alone: a function is proved by the contracts of those that it calls, so what the
prover says of its own goals doesn't depend on what else is spoilt. Edits that spoil several functions, those that change one place, and
those of a definition or a lemma, on which others may stand, are tried one after the other.

First the functions of a crate, as they are, have to be proved in the same way; `--proved` says that the gate has just done so. An edit is
refused where the prover then names a goal of its function that it did not prove, or an error in that function's proof that is more than a
name that is gone. An error that only tells of declarations that depend on another one is followed to that one's own error. That the
function calls one that is refused doesn't count. An edit that a check with others leaves open is tried once more alone.

A goal without an answer is searched for in several ways, and where it fails that can cost more than all else. An edit with the line
`search: none` is refused by an error in an answer, so it is first tried under `#[tactic(none)]`, without these searches: each answer is
held to its own goal, and has the same error with them. There a goal that is open doesn't count. Where no answer is refused the edit is
tried as any other. The checks begin with what `rt check` has kept of the crate.

Without names of crates, --all and --edits not all are tried: those of a crate that stands by its sum in tests/gate/tried.txt (tried.py says
when) come by turns, a tenth in each of ten commits. The turn is the number of commits, or what --turn says. Those that stand by their sums
count as passed, and a line says how many were tried. With --write a file gets the sums of the crates that stand by them and of those all
of whose wrong bodies were tried and refused, over libraries that are built of what lies there. A crate that fails in its turn loses its
line in tests/gate/tried.txt.

With --said the judge is tried on what the prover said of some edits once: a file's first lines are `crate:`, `function:` and `refused:
yes` or `no`, as it has to judge, and behind an empty line stands what was said.

The libraries below a crate have to be built. With --edits the wrong bodies of a crate are those in FOLDER/NAME. RT_JOBS=N allots N
processors in place of all that there are; while the process that --beside names runs, one of them is its own, since more checks than
processors take a fifth more processor time each. The last line is the sums; where there is no wrong body at all, that is a failure.
"""

import argparse
import os
import re
import shutil
import subprocess
import sys
import tempfile
import time
from concurrent.futures import ThreadPoolExecutor
from pathlib import Path

TOP = Path(__file__).resolve().parents[2]
sys.path.insert(0, f"{TOP}/build")

import tried  # noqa: E402
from listed import crates_below, rattle_words, read_rows  # noqa: E402

SOURCES = ("src", "specs", "proofs")
# What the prover says of a function, and of a place in a file.
VERDICT = re.compile(r"(?m)^fn (\S+): (.*)$")
OPEN_GOALS = re.compile(r"`search` did not prove (`[^`]+`(?:, `[^`]+`)*)")
MESSAGE = re.compile(r"(?:\./)?((?:src|specs|proofs)/\S+?)\.(?:antt|rt):\d+:\d+: (\w+): (.*)$")
# What begins a line that goes on with no message.
OTHER = re.compile(r"(?:fn|logic|statements|library|crate|rattle) |(?:note|help|by-macro)\b|only=")
# How an error begins, without what it quotes, that tells of a name that is gone.
GONE = "has no field|has no module|has no `x`|is not in scope|was not admitted|not found|is no module|there is no module"
GONE_NAME = re.compile(rf"^(?:`x`: )?.{{,60}}?(?:{GONE})")
DEPENDS = re.compile(r"declarations? that depends? on `([^`]+)`, which was (?:rejected|not admitted)")
UNCHECKED = re.compile(r" (?:was|were) not checked: (.+)$")
VIA = re.compile(r" \(via [^)]*\)")
QUOTED = re.compile(r"`[^`]*`")
DECLARED = re.compile(r"`([^`]+)`:")
IN_VAIN = re.compile(r"note: src/\S+: it is not proved that ")
ALL_PROVED = re.compile(r"(?m)^only=(\d+) proved=\1$")


class BadEdit(Exception):
    pass


class Edit:
    """An edit of a crate: the functions that it spoils, whether their goals without an answer are searched for, and for each change the
    file, the text that goes and the one that comes."""

    def __init__(self, path):
        self.name, self.functions, self.is_searched, self.changes = path.stem, [], True, []
        file = old = None
        for line in path.read_text(encoding="utf-8").splitlines():
            word, _, rest = line.partition(":")
            rest = rest.removeprefix(" ")
            if word == "function":
                self.functions.append(rest.strip())
            elif word == "search":
                self.is_searched = rest.strip() != "none"
            elif word == "file":
                file = rest.strip()
            elif word == "old":
                old = rest
            elif word == "new":
                self.changes.append((file, old, rest))
        if not self.functions:
            raise BadEdit("no line says which function it spoils")
        if not self.changes:
            raise BadEdit("it changes nothing")

    def goes_with_others(self):
        """Whether it spoils one function and its own proof, and nothing that others stand on."""
        return len(self.functions) == 1 and all(
            file.startswith("src/") or is_proof_of(proof_of(self.functions[0]), file) for file, _, _ in self.changes)

    def made_in(self, folder, texts):
        """These texts of files with the edit made in them; a file that isn't among them is read. None where a text stands there twice or is gone."""
        texts = dict(texts)
        for file, old, new in self.changes:
            text = texts.get(file) or (folder / file).read_text(encoding="utf-8")
            if text.count(old) != 1:
                return None
            texts[file] = text.replace(old, new)
        for function in [] if self.is_searched else self.functions:
            texts = without_search(folder, function, texts)
        return texts


def lines_of_function(folder, function, texts):
    """The file of a function, and the number of its line `fn`: the first file that has just one function of its name, of those that its
    path names and those that an edit changes."""
    *path, name = function.split("::")
    files = [f"src/{'/'.join(path[:count])}.rt" for count in range(len(path), 0, -1)] + ["src/lib.rt", "src/main.rt"]
    for file in (it for it in [*files, *texts] if it.startswith("src/") and (folder / it).is_file()):
        lines = (texts.get(file) or (folder / file).read_text(encoding="utf-8")).splitlines()
        found = [number for number, line in enumerate(lines) if re.match(rf"\s*(?:pub(?:\([^)]*\))? )?fn {name}\b", line)]
        if len(found) == 1:
            return file, lines, found[0]
    return None


def without_search(folder, function, texts):
    """These texts, where the goals of a function that have no answer are left open."""
    found = lines_of_function(folder, function, texts)
    if not found:
        raise BadEdit(f"`search: none` needs a file with one function of the name of {function}")
    file, lines, number = found
    while lines[number - 1].lstrip().startswith("#["):
        number -= 1
    return {**texts, file: "\n".join([*lines[:number], "#[tactic(none)]", *lines[number:], ""])}


class Crate:
    def __init__(self, name, words, below):
        self.name, self.words, self.below, self.folder = name, words, below, TOP / "crates" / name

    def edits(self, place):
        """The files of its wrong bodies, of those in another place where one is named."""
        return sorted((place / self.name if place else self.folder / "must-fail").glob("*.edit"))

    def size(self):
        return sum(it.stat().st_size for part in SOURCES for it in (self.folder / part).rglob("*.*"))

    def command(self, kit):
        root = "src/main.rt" if (self.folder / "src/main.rt").is_file() else "src/lib.rt"
        lower = {it: f"{TOP}/crates/{it}/out/rlib" for it in self.below}
        return [f"{kit}/bin/rattle", "check", *rattle_words(kit, self.name, root, self.words, lower)]


def read_crates():
    """The crates of crates.txt by their names."""
    rows = read_rows(TOP)
    return {name: Crate(name, words, crates_below(rows, name)) for name, (_, words) in rows.items()}


def errors_in(said):
    """The errors that the prover tells: of each the file without its ending, and its text, with the lines on which it goes on."""
    errors, is_open = [], False
    for line in said.splitlines():
        message = MESSAGE.match(line)
        if message:
            is_open = message[2] == "error"
            if is_open:
                errors.append((message[1], message[3]))
        elif not line.strip() or OTHER.match(line):
            is_open = False
        elif is_open:
            where, told = errors[-1]
            errors[-1] = where, f"{told} {line.strip()}"
    return [(where, " ".join(told.split())) for where, told in errors]


def is_gone_name(told):
    return bool(GONE_NAME.match(QUOTED.sub("`x`", told)))


def declared_by(told):
    """The declarations that an error is of, without their modules: its own, or those that weren't checked as they depend on another one."""
    unchecked, declared = DEPENDS.search(told) and UNCHECKED.search(told), DECLARED.match(told)
    names = VIA.sub("", unchecked[1]).split(", ") if unchecked else [declared[1]] if declared else []
    return {it.strip("`").rpartition(".")[2] for it in names}


def roots_of(told, errors, passed=()):
    """The errors that an error leads to: itself, or those of the declaration that it tells to have been rejected or not admitted, also by
    way of others that depend on that one."""
    depends = DEPENDS.search(told)
    if not depends:
        return [told]
    name = depends[1].rpartition(".")[2]
    own = [it for _, it in errors if it not in (told, *passed) and name in declared_by(it)]
    return [root for it in own for root in roots_of(it, errors, (*passed, told))]


def proof_of(function):
    return f"proofs/{function.replace('::', '/')}"


def is_proof_of(folder, where):
    """Whether a file is of the proof of the function of this folder; that of functions that call each other lies in one, +A+B."""
    at, _, name = where.rpartition("/")[0].rpartition("/")
    group, _, own = folder.rpartition("/")
    return at == group and (name == own or name.startswith("+") and own in name.split("+"))


def refusal(crate, said, functions, by_goals=True):
    """Where and why the prover refuses these functions of a crate, by what it says of each itself. None where it says nothing of one. Open
    goals don't count where they weren't searched for."""
    verdicts, told, reasons = dict(VERDICT.findall(said)), errors_in(said), []
    for function in functions:
        verdict = verdicts.get(f"{crate}::{function}", "")
        goals = OPEN_GOALS.search(verdict)
        errors = [root for where, it in told if is_proof_of(proof_of(function), where) for root in roots_of(it, told) if not is_gone_name(root)]
        if by_goals and verdict.startswith("no proof") and goals:
            reasons.append(f"{function} has no proof of {goals[1]}")
        elif verdict.startswith("not proved" if by_goals else ("no proof", "not proved")) and errors:
            reasons.append(f"{function}: {errors[0]}")
        else:
            return None
    return "; ".join(reasons)


def searched_in_vain(crate, said, functions):
    """How many goals without an answer the prover searched for in vain, in those of these functions that an answer's error refuses anyhow."""
    found, count = 0, 0
    for line in said.splitlines():
        verdict = VERDICT.match(line)
        if verdict and verdict[1] in {f"{crate}::{it}" for it in functions} and verdict[2].startswith("not proved"):
            count += found
        found = 0 if verdict else found + bool(IN_VAIN.match(line))
    return count


def link_module(file, to):
    """Links what a check saved, as a check replaces such a file and doesn't write into it, and copies what can't be linked."""
    if file.endswith(".oantt"):
        try:
            os.link(file, to)
            return
        except OSError:
            pass
    shutil.copy2(file, to)


class Room:
    """A copy of a crate in which its wrong bodies are tried, each check over what those before it proved."""

    def __init__(self, crate, kit, place):
        self.crate, self.kit, self.place = crate, kit, Path(place)
        self.seconds, self.checks, self.in_vain = 0.0, 0, []
        try:
            shutil.copytree(crate.folder / "out/incremental", self.place / "kept", symlinks=True, copy_function=link_module)
        except (OSError, shutil.Error):
            # (there is none, or a check is just writing it)
            shutil.rmtree(self.place / "kept", ignore_errors=True)

    def check(self, functions, texts=None):
        """What the prover says of these functions alone, where the crate has these texts."""
        copy = self.place / "copy"
        shutil.rmtree(copy, ignore_errors=True)
        for part in SOURCES:
            if (self.crate.folder / part).is_dir():
                shutil.copytree(self.crate.folder / part, copy / part)
        for file, text in (texts or {}).items():
            (copy / file).write_text(text, encoding="utf-8")
        only = [word for it in functions for word in ("--only", f"{self.crate.name}::{it}")]
        words = [*self.crate.command(self.kit), "--incremental", f"{self.place}/kept", "--jobs", "1", *only]
        how = {"cwd": copy, "stdin": subprocess.DEVNULL, "stdout": subprocess.PIPE, "stderr": subprocess.STDOUT, "errors": "replace"}
        with subprocess.Popen(words, **how) as process:
            said = process.stdout.read()
            _, status, used = os.wait4(process.pid, 0)
            process.returncode = os.waitstatus_to_exitcode(status)
        self.seconds, self.checks = self.seconds + used.ru_utime + used.ru_stime, self.checks + 1
        return said

    def first_together(self, edits):
        """The edits that the next check can try, the first of these among them, with the texts that they make."""
        first, *rest = edits
        chosen, texts = [first], first.made_in(self.crate.folder, {})
        taken = {*first.functions}
        for edit in rest if first.goes_with_others() else []:
            made = edit.made_in(self.crate.folder, texts)
            if made and edit.goes_with_others() and taken.isdisjoint(edit.functions):
                chosen, texts = [*chosen, edit], made
                taken.update(edit.functions)
        return chosen, texts

    def try_all(self, edits):
        """Tries the edits, and returns by its name where and why each is refused."""
        refused, left, alone = {}, list(edits), []
        while left:
            chosen, texts = self.first_together(left)
            left = [it for it in left if it not in chosen]
            said = self.check([it for edit in chosen for it in edit.functions], texts)
            for edit in chosen:
                refused[edit.name] = refusal(self.crate.name, said, edit.functions, edit.is_searched)
                if edit.is_searched and searched_in_vain(self.crate.name, said, edit.functions):
                    self.in_vain.append(edit.name)
            alone += [it for it in chosen if not refused[it.name] and (len(chosen) > 1 or not it.is_searched)]
        for edit in alone:
            edit.is_searched = True
            said = self.check(edit.functions, edit.made_in(self.crate.folder, {}))
            refused[edit.name] = refusal(self.crate.name, said, edit.functions)
        return refused


def judge(crate, paths, kit, is_proved):
    """Tries these wrong bodies of a crate, prints a line for each, and returns how many are refused and how many aren't."""
    edits, refused, lines = [], {}, []
    for path in paths:
        try:
            edit = Edit(path)
            if edit.made_in(crate.folder, {}) is None:
                raise BadEdit("a text that it replaces doesn't stand once in its file")
            edits.append(edit)
        except (BadEdit, OSError) as why:
            lines.append(f"{path.stem}: BAD EDIT: {why}")
    functions = sorted({it for edit in edits for it in edit.functions})
    with tempfile.TemporaryDirectory(prefix="wrong-bodies-") as place:
        room = Room(crate, kit, place)
        said = "" if is_proved or not edits else room.check(functions)
        if is_proved or ALL_PROVED.search(said):
            refused = room.try_all(edits)
        elif edits:
            print(f"must-fail {crate.name}: its functions aren't proved as they are: {said.strip()[-600:]}", flush=True)
    for edit in edits:
        reason = refused.get(edit.name)
        lines.append(f"{edit.name}: {f'refused, as it must be: {reason[:200]}' if reason else 'NOT REFUSED'}")
    passed, tried = sum(map(bool, refused.values())), len(lines)
    print(f"must-fail {crate.name}: {passed} of {tried} refused, {room.seconds:.0f} processor seconds in {room.checks} checks", flush=True)
    print("\n".join(f"must-fail {crate.name}/{it}" for it in sorted(lines)), flush=True)
    if room.in_vain:
        print(f"must-fail {crate.name}: a line `search: none` would save searches in {', '.join(sorted(room.in_vain))}", flush=True)
    return passed, tried - passed


def await_end(process):
    """Waits until a process has ended, whether or not its parent knows."""
    try:
        while Path(f"/proc/{process}/stat").read_text(encoding="utf-8").rpartition(") ")[2][:1] != "Z":
            time.sleep(1)
    except OSError:
        pass


def judge_said(paths):
    """Judges what the prover said once, and counts the files of which it judges as they say, and the others."""
    counts = [0, 0]
    for path in paths:
        head, _, said = Path(path).read_text(encoding="utf-8").partition("\n\n")
        words = dict(line.split(": ", 1) for line in head.splitlines())
        reason = refusal(words["crate"], said, [words["function"]])
        is_right = {"yes": True, "no": False}[words["refused"]] == bool(reason)
        counts[not is_right] += 1
        print(f"{path}: {reason or 'not refused'}{'' if is_right else ': WRONG'}")
    print(f"{counts[0]} passed, {counts[1]} failed")
    return 1 if counts[1] or not counts[0] else 0


def words():
    parser = argparse.ArgumentParser()
    parser.add_argument("--proved", action="store_true")
    parser.add_argument("--beside", type=int, metavar="PROCESS")
    parser.add_argument("--all", action="store_true")
    parser.add_argument("--write", type=Path, metavar="FILE")
    parser.add_argument("--turn", type=int)
    parser.add_argument("--said", action="store_true")
    parser.add_argument("--edits", type=Path)
    parser.add_argument("names", nargs="*", metavar="CRATE")
    asked = parser.parse_args()
    if asked.write and asked.edits:
        parser.error("--write goes with the crates' own wrong bodies")
    rows = read_rows(TOP)
    unknown = [] if asked.said else [it for it in asked.names if it not in rows]
    if unknown:
        parser.error(f"crates.txt has no crate {unknown[0]}")
    return asked


def choose(paths, stands, asked):
    """By its crate the wrong bodies that are to be tried, where crates of these names stand by their sums."""
    turn = tried.turn_of(TOP) if asked.turn is None else asked.turn
    if asked.all or asked.names or asked.edits or turn is None:
        return paths
    return {it: [path for path in own if it.name not in stands or tried.is_due(it.name, path.stem, turn)] for it, own in paths.items()}


def judge_all(paths, kit, asked):
    """By its crate how many of these wrong bodies are refused and how many aren't."""
    chosen = sorted((it for it in paths if paths[it]), key=lambda it: -it.size() * len(paths[it]))
    lanes = int(os.environ.get("RT_JOBS") or len(os.sched_getaffinity(0)))
    with ThreadPoolExecutor(lanes) as pool:
        if asked.beside and lanes > 1:
            pool.submit(await_end, asked.beside)
        return dict(zip(chosen, pool.map(lambda it: judge(it, paths[it], kit, asked.proved), chosen)))


def names_with_sums(counts, paths, stands):
    """The crates that may stand by their sums from now on: that were tried whole and refused all, or stood before and did so in their turn."""
    names = set(stands)
    for crate, (passed, failed) in counts.items():
        names.discard(crate.name)
        if not tried.are_built(TOP, crate.below):
            print(f"must-fail {crate.name}: its libraries are older than their sources, so it gets no sum")
        elif not failed and (crate.name in stands or passed == len(paths[crate])):
            names.add(crate.name)
    return names


def main():
    asked = words()
    if asked.said:
        return judge_said(asked.names)
    crates, rows = read_crates(), read_rows(TOP)
    paths = {it: it.edits(asked.edits) for it in crates.values() if not asked.names or it.name in asked.names}
    kit = Path(subprocess.run(["rt", "doc"], stdout=subprocess.PIPE, check=True, text=True).stdout.strip()).parent
    below = {name: it.below for name, it in crates.items()}
    sums, known = tried.sums_of(TOP, kit, rows, below), tried.read(TOP)
    stands = {name for name, it in sums.items() if known.get(name) == it}
    chosen = choose(paths, stands, asked)
    counts = judge_all(chosen, kit, asked)
    failing = {it.name for it, (_, failed) in counts.items() if failed}
    if not asked.edits and failing & known.keys():
        tried.write(tried.place(TOP), {name: it for name, it in known.items() if name not in failing})
    if asked.write:
        names, after = names_with_sums(counts, paths, stands), tried.sums_of(TOP, kit, rows, below)
        tried.write(asked.write, {name: sums[name] for name in names if after[name] == sums[name]})
    passed, failed = (sum(it[place] for it in counts.values()) for place in (0, 1))
    total, number = (sum(map(len, it.values())) for it in (paths, chosen))
    print(f"test: wrong bodies: {number} of {total} were tried, and {total - number} stand by their sums in tests/gate/tried.txt")
    failed += not total
    print(f"{passed + total - number} passed, {failed} failed")
    return 1 if failed else 0


if __name__ == "__main__":
    sys.exit(main())
