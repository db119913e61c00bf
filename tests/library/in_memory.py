"""Compares what the module for Python, or a program over nidzaru_check.h, answers to the documents of examples/ with the texts and statuses
that stand beside them.

    in_memory.py LIBRARY [--planted]     LIBRARY: the shared object; --planted: with the text of another document, which has to be seen
    in_memory.py --program PROGRAM [--planted]     PROGRAM: in_memory.c, built
    in_memory.py --streams MODULE     what the module does as a program whose streams fail, over a stand-in for the library
"""

import ctypes
import functools
import glob
import os
import re
import subprocess
import sys
import types
from typing import NamedTuple

TOP = os.path.dirname(os.path.dirname(os.path.dirname(os.path.realpath(__file__))))
sys.path.insert(0, f"{TOP}/python")


def text_of(path):
    with open(path, encoding="utf-8") as file:
        return file.read()


def cases():
    """The documents of examples/ with their commands, texts and statuses. A race needs threads."""
    rows = re.findall(r"^\| `((\w+)\.jsonl?)` \| (check|order|play) \|", text_of(f"{TOP}/examples/README.md"), re.M)
    for file, name, command in rows:
        stem = f"{TOP}/examples/{name}"
        status = int(text_of(f"{stem}.status")) if os.path.exists(f"{stem}.status") else 0
        yield file, command, status, text_of(f"{stem}.txt")


def faults(module, is_planted):
    texts = [it[3] for it in cases()]
    for number, (file, command, status, text) in enumerate(cases()):
        wanted = (status, texts[number - 1] if is_planted else text)
        if getattr(module, command)(text_of(f"{TOP}/examples/{file}")) != wanted:
            yield f"{command} of {file} is answered otherwise"
    pictures = glob.glob(f"{TOP}/docs/pictures/*.svg")
    for path in pictures:
        name = os.path.basename(path)[: -len(".svg")]
        if module.picture(text_of(f"{TOP}/examples/{name}.json")).text != text_of(path):
            yield f"{name} is drawn otherwise"
    log = text_of(f"{TOP}/examples/lines_stale.jsonl")
    if module.order(log, module.SMALL).status != 1 or '"kind":"log"' not in module.order(log, module.SMALL).text:
        yield "--small gives no small log"
    lawful = text_of(f"{TOP}/examples/lines.jsonl")
    if not re.search(r"^writes: \d+$", module.order(lawful, module.ORDER).text, re.M):
        yield "--order gives no order of the writes"
    if not texts or not pictures:
        yield "there is no example"


def cut(module):
    """What a buffer that is too small gets: the front of the text, and its whole length. The rest of the buffer stays."""
    document = text_of(f"{TOP}/examples/lines_stale.jsonl").encode()
    text, size = text_of(f"{TOP}/examples/lines_stale.txt").encode(), ctypes.c_uint64()
    for room in (0, 1, 20, len(text) - 1, len(text), len(text) + 10):
        buffer = ctypes.create_string_buffer(b"#" * (room + 8), room + 8)
        status = module._library.nidzaru_order(0, document, len(document), buffer, room, ctypes.byref(size))
        if (status, size.value) != (1, len(text)) or buffer.raw != text[:room].ljust(room + 8, b"#"):
            yield f"a buffer of {room} bytes has {buffer.raw!r}, and the length is {size.value}"


# Runs a module as a program, whose library answers a document with its own text, and one that is empty with a refusal.
OVER_STAND_IN = """
import ctypes, runpy, sys
class StandIn:
    def __getattr__(self, name):
        def answer(*words):
            document, count, buffer, room, size = words[-5:]
            text = document or b"refused\\n"
            ctypes.memmove(buffer, text, min(len(text), room))
            size._obj.value = len(text)
            return 0 if document else 3
        self.__dict__[name] = answer
        return answer
ctypes.CDLL = lambda path: StandIn()
del sys.argv[0]
runpy.run_path(sys.argv[0], run_name="__main__")
"""


def streams(path):
    """What a module gives as a program: texts as they are, whatever the environment's letters, and a status for a stream that fails."""
    kind = "nidzaru_check: {} failed\n".format
    for name, ends, document, wanted in (
        ("a text", "", "\u00e4\n", (0, "\u00e4\n", "")),
        ("a refusal", "", "", (3, "", "refused\n")),
        ("a full output", ">/dev/full", "a\n", (5, "", kind("write"))),
        ("a closed output", ">&-", "a\n", (5, "", kind("write"))),
        ("a full stream of errors", "2>/dev/full", "", (5, "", "")),
        ("a closed input", "<&-", "a\n", (5, "", kind("read"))),
    ):
        command = ["sh", "-c", f'"$@" {ends}', "sh", sys.executable, "-B", "-c", OVER_STAND_IN, path, "order"]
        env = {**os.environ, "PYTHONIOENCODING": "ascii"}
        done = subprocess.run(command, input=document.encode(), capture_output=True, env=env, check=False)
        if "/dev/full" not in ends or os.path.exists("/dev/full"):
            found = (done.returncode, done.stdout.decode(), done.stderr.decode())
            yield from [] if found == wanted else [f"{name}: {found}"]
    env = {**os.environ, "NIDZARU_CHECK": "/dev/null/none"}
    done = subprocess.run([sys.executable, "-B", path, "order"], input=b"", capture_output=True, env=env, check=False)
    if done.returncode != 5 or done.stderr.count(b"\n") != 1 or not done.stderr.startswith(b"nidzaru_check: /dev/null/none: "):
        yield f"no library: {done}"


class Told(NamedTuple):
    """What a program printed, as the module for Python has it."""

    status: int
    text: str


def through(program):
    """The module's functions over a program that prints their answers."""

    def ask(command, document, show=0):
        done = subprocess.run([program, command, str(show)], input=document.encode(), capture_output=True, check=False)
        text, other = (done.stdout, done.stderr) if done.returncode <= 1 else (done.stderr, done.stdout)
        return Told(done.returncode, text.decode() + other.decode())

    commands = {it: functools.partial(ask, it) for it in ("check", "order", "play", "picture")}
    return types.SimpleNamespace(**commands, ORDER=1, SMALL=2)


def main(library, *words):
    if library == "--program":
        found = list(faults(through(words[0]), "--planted" in words))
        print("\n".join(found or [f"{len(list(cases()))} documents"]))
        return 1 if found else 0
    if library == "--streams":
        found = list(streams(words[0]))
        print("\n".join(found or ["streams that fail"]))
        return 1 if found else 0
    os.environ["NIDZARU_CHECK"] = library
    import nidzaru_check

    found = [*faults(nidzaru_check, "--planted" in words), *cut(nidzaru_check), *streams(nidzaru_check.__file__)]
    for wanted, document in ((ValueError, "{"), (None, text_of(f"{TOP}/examples/lawful.json"))):
        try:
            nidzaru_check.check(document).is_lawful
            found += ["a refused document has a verdict"] if wanted else []
        except ValueError:
            found += [] if wanted else ["a lawful document has none"]
    print("\n".join(found or [f"{len(list(cases()))} documents, buffers that are too small, and streams that fail"]))
    return 1 if found else 0


if __name__ == "__main__":
    sys.exit(main(*sys.argv[1:]))
