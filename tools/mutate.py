#!/usr/bin/env python3
"""By hand: small wrong edits, made by rule, of files that nothing proves, and which of them no test refuses.

    tools/mutate.py [--library LIBRARY] [--most N] [--seed SEED] [--jobs JOBS] FILE..

An operator is turned into its neighbour, a constant is one more, a condition is turned round, a statement is dropped. Each edit stands
alone in a copy of the file, and the tests of this file run over it, the cheapest first, until one fails. What can't be built counts as
neither.
The files: c/nidzaru.h, c/nidzaru.hpp, c/nidzaru_shared.h and rust/nidzaru/src/*.rs, which need a libnidzaru.a; c/nidzaru_log.h,
rust/nidzaru/src/log.rs and tools/convert/*.py. With --most so many edits of each file are tried, chosen by the seed. A test that takes
30 processor seconds has failed. Each edit that gets through is told by its line; the last lines are the sums.
"""

import argparse
import ast
import concurrent.futures
import os
import queue
import random
import re
import shutil
import sys
import tempfile

TOP = os.path.dirname(os.path.dirname(os.path.realpath(__file__)))
sys.path[:0] = [f"{TOP}/c/tests", f"{TOP}/tests/programs"]
import converters  # noqa: E402
import conversions  # noqa: E402
import edits  # noqa: E402
import planted  # noqa: E402
import planted_converters  # noqa: E402
import planted_log  # noqa: E402

# What becomes of an operator; those of one sign stand between blanks.
OPERATORS = {
    "==": "!=", "!=": "==", "<=": "<", ">=": ">", " < ": " <= ", " > ": " >= ", "&&": "||", "||": "&&", "<<": ">>", ">>": "<<",
    " + ": " - ", " - ": " + ", " * ": " + ", " % ": " / ", " / ": " * ", "++": "--", " += ": " -= ", " -= ": " += ",
    " & ": " | ", " | ": " & ", " ^ ": " & ",
}
PYTHON = {
    ast.Eq: "!=", ast.NotEq: "==", ast.Lt: "<=", ast.LtE: "<", ast.Gt: ">=", ast.GtE: ">", ast.Is: "is not", ast.IsNot: "is",
    ast.In: "not in", ast.NotIn: "in", ast.Add: "-", ast.Sub: "+", ast.Mult: "+", ast.Mod: "+", ast.And: "or", ast.Or: "and",
}


# ---- the edits: each is the place where it begins and ends, and what stands there then


def hidden(text):
    """The text with blanks in place of comments, texts and what a preprocessor asks."""

    def blank(found):
        return re.sub(r"[^\n]", " ", found[0])

    told = r'/\*.*?\*/|//[^\n]*|"(?:\\.|[^"\\\n])*"|\'(?:\\.|[^\'\\\n])\''
    told += r"|^[ \t]*#[ \t]*(?:include|if|ifdef|ifndef|elif|else|endif|error|pragma)\b[^\n]*"
    return re.sub(told, blank, text, flags=re.S | re.M)


def edits_of_signs(text):
    """Of C, C++ or Rust."""
    seen = hidden(text)
    for old, new in OPERATORS.items():
        for found in re.finditer(re.escape(old), seen):
            yield found.start(), found.end(), new
    for found in re.finditer(r"(?<![\w.])(0x[0-9a-fA-F]+|\d[\d_]*)(?=[uUlL]*\b|_?usize|_?u64)", seen):
        is_hex = found[0].startswith("0x")
        yield found.start(), found.end(), hex(int(found[0], 16) + 1) if is_hex else str(int(found[0].replace("_", "")) + 1)
    for found in re.finditer(r"(?<![\w=!)])!(?=[\w(*])", seen):
        yield found.start(), found.end(), ""
    for found in re.finditer(r"(?<=\bif \()(?=[^()\n]*(?:\([^()\n]*\)[^()\n]*)*\)\s)", seen):
        yield found.start(), found.end(), "!!0 && "
    for found in re.finditer(r"(?<=[;{})])([ \t\\\n]+)((?:return|goto|break|continue|\*|[a-zA-Z_(])[^;{}#]*);", seen):
        if not re.match(r"(?:static|const|struct|enum|typedef|extern|use|mod|pub|let|using)\b", found[2]):
            yield found.start(2), found.end(2), ""


class Tree:
    """Python by its tree: the edits of a text."""

    def __init__(self, text):
        self.text, self.lines, self.starts = text, text.encode().split(b"\n"), [0]
        for line in text.split("\n"):
            self.starts.append(self.starts[-1] + len(line) + 1)

    def place(self, line, column):
        return self.starts[line - 1] + len(self.lines[line - 1][:column].decode())

    def ends(self, node):
        return self.place(node.lineno, node.col_offset), self.place(node.end_lineno, node.end_col_offset)

    def between(self, left, right, operator):
        """The operator between two parts as its neighbour."""
        begin, end = self.ends(left)[1], self.ends(right)[0]
        old = self.text[begin:end]
        if type(operator) in PYTHON and re.fullmatch(r"[\s()]*(?:not in|is not|[a-z]+|[=<>!+*%-]+)[\s(]*", old):
            yield begin, end, re.sub(r"not in|is not|[a-z]+|[=<>!+*%-]+", PYTHON[type(operator)], old, count=1)

    def edits_of(self, node):
        if isinstance(node, ast.Compare):
            yield from self.between(node.left, node.comparators[0], node.ops[0])
        elif isinstance(node, ast.BinOp):
            yield from self.between(node.left, node.right, node.op)
        elif isinstance(node, ast.BoolOp):
            for left, right in zip(node.values, node.values[1:]):
                yield from self.between(left, right, node.op)
        elif isinstance(node, ast.UnaryOp) and isinstance(node.op, ast.Not):
            yield self.ends(node)[0], self.ends(node.operand)[0], ""
        elif isinstance(node, ast.Constant) and isinstance(node.value, int):
            yield *self.ends(node), str(not node.value if isinstance(node.value, bool) else node.value + 1)
        elif isinstance(node, (ast.If, ast.While, ast.IfExp)):
            yield *self.ends(node.test), f"not ({self.text[slice(*self.ends(node.test))]})"
        elif isinstance(node, (ast.Assign, ast.AugAssign, ast.Raise, ast.Continue, ast.Break, ast.Return)) or (
            isinstance(node, ast.Expr) and not isinstance(node.value, (ast.Constant, ast.Yield, ast.YieldFrom))
        ):
            yield *self.ends(node), "pass"

    def edits(self):
        for node in ast.walk(ast.parse(self.text)):
            yield from self.edits_of(node)


class Mutant:
    """One edit of a file, and the text that it makes."""

    def __init__(self, path, text, begin, end, new):
        self.path, self.made = path, text[:begin] + new + text[end:]
        line, old, new = text[:begin].count("\n") + 1, " ".join(text[begin:end].split()), " ".join(new.split())
        whole = " ".join(text.split("\n")[line - 1].split())
        self.told = f"{path}:{line}: {old or '(nothing)'} as {new or '(nothing)'}, in: {whole[:100]}"


def mutants(path):
    with open(f"{TOP}/{path}", encoding="utf-8") as file:
        text = file.read()
    found = Tree(text).edits() if path.endswith(".py") else edits_of_signs(text.split("#[cfg(test)]")[0] if path.endswith(".rs") else text)
    return [Mutant(path, text, *edit) for edit in sorted(set(found))]


# ---- the tests: each room tries one edit after the other, and says None if it can't be built, else by which test it is refused, or ""


class HeaderRoom:
    """Headers and crate, over the library, by the tests of planted.py."""

    def __init__(self, folder, library, path):
        self.room = planted.Room(folder, library)
        rows = {"c/nidzaru.h": edits.HEADER, "c/nidzaru.hpp": edits.CLASSES}.get(path)
        named = dict.fromkeys([row[3] for row in rows] if rows else [row[4] for row in edits.CRATE])
        later = ("refused", "led", "watched", "loaned, watched", "pairs", "seen", "doc", "lib --", "races", "release", "crate_release")
        self.tests = sorted(named, key=lambda it: next((place for place, begin in enumerate(later, 1) if it.startswith(begin)), 0))

    def refused_by(self, mutant):
        name = mutant.path.removeprefix("rust/nidzaru/")
        place = f"{self.room.folder}/{name}" if mutant.path.startswith("c/") else f"{self.room.crate}/{name}"
        try:
            for test in self.tests:
                # (a test may make an edit of its own, and what is built is used by others)
                if test in ("release", "crate_release"):
                    self.room.restore()
                if not self.room.is_edited:
                    self.room.is_edited, self.room.built = True, {}
                    with open(place, "w", encoding="utf-8") as file:
                        file.write(mutant.made)
                built, passed, _ = self.room.test(test)
                if not built and not test.startswith(("edges", "board_edges", "objects")):
                    return None
                if not passed:
                    return test
            return ""
        finally:
            self.room.restore()


class LogRoom:
    """The recorder for C or for Rust, by the tests of planted_log.py."""

    def __init__(self, folder, _, path):
        os.makedirs(folder)
        self.room = planted_log.Room(folder)
        in_c = ["stamped", "recorder", "unfenced", "by the clock", "steps", *planted_log.ARM_ORDERS]
        self.tests = [it for it in (["log.rs", "instructions"] if path.endswith(".rs") else in_c) if planted_log.has(it)]

    def refused_by(self, mutant):
        with open(f"{self.room.folder}/{os.path.basename(mutant.path)}", "w", encoding="utf-8") as file:
            file.write(mutant.made)
        try:
            for test in self.tests:
                built, passed, _ = self.room.test(test)
                if not built:
                    return None
                if not passed:
                    return test
            return ""
        finally:
            self.room.restore()


class SharedRoom:
    """The header for processes, over the library, by the tests of tests/library/shared.sh."""

    # What is built, and what its last line says when it gets these words.
    TESTS = [
        ("shared.c", ["-std=c11", "-D_GNU_SOURCE", "-Wl,--wrap=malloc,--wrap=free"], [], "each refusal is by its name"),
        *[("shared_kills.c", ["-std=gnu11", "-DBYTES=24", *kind], ["60", "1"], ".*, nothing found")
          for kind in ([], ["-DBOARD", "-DTRIPLE"])],
        ("shared_steps.c", ["-std=gnu11", "-DBYTES=24"], [], ".*, nothing found"),
    ]

    def __init__(self, folder, library, _):
        os.makedirs(folder)
        self.folder, self.library = folder, library

    def refused_by(self, mutant):
        with open(f"{self.folder}/nidzaru_shared.h", "w", encoding="utf-8") as file:
            file.write(mutant.made)
        for source, words, its_words, wanted in self.TESTS:
            built = ["gcc", "-O2", "-w", "-pthread", *words, "-I", self.folder, "-I", f"{TOP}/c", f"{TOP}/c/tests/{source}", self.library]
            if planted_log.call([*built, "-o", f"{self.folder}/program"])[0]:
                return None
            status, said = planted_log.call([f"{self.folder}/program", *its_words])
            if status or not re.fullmatch(wanted, (said.split("\n")[-2:-1] or [""])[0]):
                return source
        return ""


class ConverterRoom:
    """The converters, by their histories, and what is joined and recorded."""

    def __init__(self, folder, _, path):
        self.folder = f"{folder}/convert"
        shutil.copytree(f"{TOP}/tools/convert", self.folder)
        name = os.path.basename(path)
        every = [] if name in ("recorder.py", "join.py") else [*converters.LOGS, *converters.REFUSED, *conversions.ALL, "streams"]
        self.names = [it for it in every if name in ("lines.py", "edn.py") or it.startswith(name[:-3])]
        self.names += ["joined"] * (name in ("lines.py", "join.py")) + ["recorded"] * (name == "recorder.py")

    def refused_by(self, mutant):
        try:
            compile(mutant.made, mutant.path, "exec")
        except SyntaxError:
            return None
        place = f"{self.folder}/{os.path.basename(mutant.path)}"
        with open(place, "w", encoding="utf-8") as file:
            file.write(mutant.made)
        well, _ = planted_converters.passes(self.folder, self.names)
        shutil.copy(f"{TOP}/{mutant.path}", place)
        return "" if well else "converters"


def room_for(path):
    if path.startswith("tools/convert/"):
        return ConverterRoom
    if path == "c/nidzaru_shared.h":
        return SharedRoom
    return LogRoom if path in (planted_log.H, planted_log.RUST) else HeaderRoom


def try_file(path, words, folder):
    """Tries the edits of a file, tells of those that get through, and says how many they are."""
    tried = mutants(path)
    random.Random(words.seed).shuffle(tried)
    tried = tried[: words.most] if words.most else tried
    rooms = queue.SimpleQueue()
    for k in range(words.jobs):
        rooms.put(room_for(path)(f"{folder}/{path.replace('/', '_')}{k}", words.library, path))

    def work(mutant):
        room = rooms.get()
        try:
            by = room.refused_by(mutant)
        finally:
            rooms.put(room)
        if by == "":
            print(mutant.told, flush=True)
        return by

    with concurrent.futures.ThreadPoolExecutor(words.jobs) as pool:
        found = list(pool.map(work, tried))
    print(f"{path}: {len(tried)} of {len(mutants(path))} edits: {found.count(None)} can't be built, {found.count('')} get through",
          flush=True)
    return found.count("")


def main():
    parser = argparse.ArgumentParser(description=__doc__, formatter_class=argparse.RawDescriptionHelpFormatter)
    parser.add_argument("--library")
    parser.add_argument("--most", type=int, default=0)
    parser.add_argument("--seed", type=int, default=1)
    parser.add_argument("--jobs", type=int, default=int(os.environ.get("RT_JOBS") or os.cpu_count() or 1))
    parser.add_argument("files", nargs="+", metavar="FILE")
    words = parser.parse_args()
    if not words.library and any(room_for(path) in (HeaderRoom, SharedRoom) for path in words.files):
        parser.error("c/nidzaru.h, c/nidzaru.hpp, c/nidzaru_shared.h and the crate need --library")
    # (what takes all memory has failed, too; ThreadSanitizer maps more than there is)
    memory = [] if any(room_for(path) is HeaderRoom for path in words.files) else [f"--as={4 << 30}"]
    planted.BEFORE = planted_log.BEFORE = planted_converters.BEFORE = ["prlimit", "--cpu=30", *memory]
    with tempfile.TemporaryDirectory() as folder:
        return 1 if sum(try_file(path, words, folder) for path in words.files) else 0


if __name__ == "__main__":
    sys.exit(main())
