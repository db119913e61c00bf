"""Prints the clauses of the repository's public functions, one a line, in an order that doesn't depend on where they stand.

    clauses.py [COMMIT] [--definitions] [--names FILE]      of the files as they are, or of a commit

A line is `OWNER::NAME | requires or ensures LABEL | TEXT`, or of a ghost member `OWNER | ghost NAME | TEXT`. Public is a `pub fn`, in a
private module too, a method of a `pub trait` and a method of an `impl` of a trait; crates, files and folders aren't told, so what only moved
gives the same lines. With --definitions there is a line of each definition of `specs/` too, `definition NAME | TEXT`, as a clause says what
these say. FILE has lines `OLD NEW`, each a word that is replaced. So two commits are compared by

    diff <(tools/clauses.py OLD --names FILE) <(tools/clauses.py NEW)

where a line that begins with < is a clause that no longer stands as it stood: it has to be there in stronger words.
"""

import io
import os
import re
import subprocess
import sys
import tarfile

TOP = os.path.dirname(os.path.dirname(os.path.realpath(__file__)))
SOURCE = re.compile(r"crates/\w+/src/.*\.rt$")
SPECS = re.compile(r"crates/\w+/specs/.*\.antt$")
TESTS = re.compile(r"(^|[/_])tests(/|\.rt$|_)|/test_(histories|four_slots|matrices|texts|cells)/")
# Comments, strings and characters, in which no brace counts.
SKIPPED = re.compile(r"""//[^\n]*|"(?:[^"\\]|\\.)*"|'(?:[^'\\\n]|\\.)'""")
TOKEN = re.compile(
    r"(?P<clause>\b(?:requires|ensures)\b\s*\*?\s*\w*\s*)\{"
    r"|(?P<ghost>\bghost \w+\s*[:=]\s*)\{"
    r"|\b(?P<public>pub\s+)?(?:const\s+|unsafe\s+|extern\s+\S+\s+)*fn\s+(?P<fn>\w+)"
    r"|(?P<head>\b(?:pub(?:\([a-z]+\))?\s+)?(?:impl|trait|struct|enum|mod)\b(?:\[[^\]]*\]|[^{;\[])*?)(?=\{|;|\bwhere\b)"
    r"|(?P<open>\{)|(?P<close>\})|(?P<end>;)"
)


def plain(text):
    """The text without comments, and with strings and characters emptied, so that each brace is one."""
    return SKIPPED.sub(lambda it: "" if it[0].startswith("//") else '""', text)


def closing(text, at):
    """Where the brace closes that was opened right before."""
    depth = 1
    while depth:
        depth += {"{": 1, "}": -1}.get(text[at], 0)
        at += 1
    return at


def owner_of(head):
    """The name under which the functions of a block are told, and whether they are public by it."""
    words = re.sub(r"<[^<>]*>", "", re.sub(r"<[^<>]*>", "", re.sub(r"<[^<>]*>", "", head.replace("->", ""))))
    named = re.search(r"\b(impl|trait|struct|enum|mod)\s+(.*)", " ".join(words.split()))
    kind, rest = named.groups() if named else ("impl", words)
    what, _, of_type = rest.partition(" for ")
    last = [re.split(r"(?<!;)[\s:(]+", it.replace("::", " ").strip())[-1 if kind == "impl" else 0] for it in (what, of_type)]
    if kind == "mod":
        return "", False
    if kind == "impl" and of_type:
        return f"{last[1]} as {last[0]}", True
    return last[0], kind == "trait" and head.lstrip().startswith("pub")


def clauses_of(text):
    """The clauses of the public functions and the ghost members in a file's text."""
    text, at, blocks, function, head = plain(text), 0, [], None, None
    while True:
        found = TOKEN.search(text, at)
        if not found:
            return
        at = found.end()
        if found["clause"] or found["ghost"]:
            end = closing(text, at)
            said = " ".join(text[at : end - 1].split())
            owner, at = next((it for it in reversed(blocks) if it[0]), ("", False)), end
            if found["clause"] and function and function[1]:
                yield f"{function[0]} | {' '.join(found['clause'].split())} | {said}"
            elif found["ghost"] and not function and (blocks or head):
                yield f"{(head or owner)[0]} | {' '.join(found['ghost'].rstrip(' :=').split())} | {said}"
        elif found["fn"]:
            owner, is_public = next((it for it in reversed(blocks) if it[0]), ("", False))
            function = f"{owner}::{found['fn']}".removeprefix("::"), is_public or bool(found["public"])
        elif found["head"]:
            head = owner_of(found["head"])
        elif found["open"]:
            if function:
                # the body: its own closures may have clauses, which are no one's promise
                at, function = closing(text, at), None
            else:
                blocks.append(head or ("", False))
                head = None
        elif found["close"]:
            blocks = blocks[:-1]
            function = head = None
        else:
            function = head = None


def definitions_of(text):
    """The definitions in the text of a file of `specs/`: what stands between two empty lines, without comments and imports."""
    for block in re.split(r"\n\s*\n", re.sub(r"(?m)^[ \t]*(--.*|(pub )?(use|mod) .*|module .*)\n", "", text + "\n")):
        words = block.split()
        heads = [it for it in words[:6] if it not in ("abbrev", "pub", "unfoldable", "opaque", "record", "data")]
        if heads:
            yield f"definition {heads[0]} | {' '.join(words)}"


def files_of(commit, kind):
    """The texts of the files of this kind as they are, or of a commit."""
    if not commit:
        for at, _, names in os.walk(f"{TOP}/crates"):
            for name in names:
                path = os.path.relpath(f"{at}/{name}", TOP)
                if kind.match(path) and not TESTS.search(path):
                    with open(f"{TOP}/{path}", encoding="utf-8") as file:
                        yield file.read()
        return
    packed = subprocess.run(["git", "-C", TOP, "archive", commit, "crates"], stdout=subprocess.PIPE, check=True).stdout
    with tarfile.open(fileobj=io.BytesIO(packed)) as archive:
        for it in archive:
            if it.isfile() and kind.match(it.name) and not TESTS.search(it.name):
                yield archive.extractfile(it).read().decode()


def main(words):
    names = {}
    if "--names" in words:
        at = words.index("--names")
        with open(words[at + 1], encoding="utf-8") as file:
            names = dict(line.split() for line in file if line.strip())
        del words[at : at + 2]
    with_definitions = "--definitions" in words
    commit = next((it for it in words if it != "--definitions"), None)
    lines = [line for text in files_of(commit, SOURCE) for line in clauses_of(text)]
    if with_definitions:
        lines += [line for text in files_of(commit, SPECS) for line in definitions_of(text)]
    lines.sort()
    for line in lines:
        print(re.sub(r"[\w]+", lambda it: names.get(it[0], it[0]), line))
    return 0 if lines else 1


if __name__ == "__main__":
    sys.exit(main(sys.argv[1:]))
