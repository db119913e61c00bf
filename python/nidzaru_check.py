"""The proved checker, search, players and pictures for Python: what the programs fsr and picture answer to a document in memory.

    import nidzaru_check
    answer = nidzaru_check.order(log)       # bytes, or a text; answer.status, answer.text, answer.is_lawful

The functions are check, order, play and picture. The library is the file that NIDZARU_CHECK names in the environment, else
libnidzaru_check.so beside this file; `python/build` makes it. As a program, `nidzaru_check.py order < LOG` prints what `fsr order` prints,
with its status, which is 5 if it can't read or write, or has no library.
"""

import contextlib
import ctypes
import os
import sys
from typing import NamedTuple

# what order is asked to show
VERDICT, ORDER, SMALL = 0, 1, 2
FIRST_ROOM = 1 << 16


class Answer(NamedTuple):
    """The status of the program, and its text: what it prints with status 0 or 1, else its line on standard error."""

    status: int
    text: str

    @property
    def is_lawful(self):
        """Whether the document is lawful. If it was refused, or memory ran out, nothing is known: ValueError or MemoryError."""
        if self.status == 4:
            raise MemoryError(self.text.strip())
        if self.status > 1:
            raise ValueError(self.text.strip())
        return self.status == 0


def _load():
    path = os.environ.get("NIDZARU_CHECK") or os.path.join(os.path.dirname(os.path.abspath(__file__)), "libnidzaru_check.so")
    library = ctypes.CDLL(path)
    document = [ctypes.c_char_p, ctypes.c_size_t, ctypes.c_char_p, ctypes.c_size_t, ctypes.POINTER(ctypes.c_uint64)]
    for name, words in (("check", []), ("order", [ctypes.c_uint32]), ("play", []), ("picture", [])):
        function = getattr(library, f"nidzaru_{name}")
        function.argtypes, function.restype = [*words, *document], ctypes.c_uint32
    return library


def _fail(why):
    """The end of the program where it can't answer."""
    with contextlib.suppress(OSError):
        os.write(2, f"nidzaru_check: {why}\n".encode())
    return 5


try:
    _library = _load()
except OSError as no_library:
    if __name__ != "__main__":
        raise
    sys.exit(_fail(no_library))


def _ask(function, document, *words):
    if isinstance(document, str):
        document = document.encode()
    document = bytes(document)
    room, size = FIRST_ROOM, ctypes.c_uint64()
    while True:
        buffer = ctypes.create_string_buffer(room)
        status = function(*words, document, len(document), buffer, room, ctypes.byref(size))
        if size.value <= room:
            return Answer(status, buffer.raw[: size.value].decode())
        room = size.value


def check(document):
    """The verdict on the order of a history."""
    return _ask(_library.nidzaru_check, document)


def order(document, show=VERDICT):
    """Whether a log has a lawful order; with ORDER also the writes in it, with SMALL in place of all else a small log without one."""
    return _ask(_library.nidzaru_order, document, show)


def play(document):
    """The report of a schedule."""
    return _ask(_library.nidzaru_play, document)


def picture(document):
    """The picture of a document, as SVG."""
    return _ask(_library.nidzaru_picture, document)


def main(words):
    functions = {"check": check, "order": order, "play": play, "picture": picture}
    shows = {(): (), ("--order",): (ORDER,), ("--small",): (SMALL,)}
    name, *rest = words or [""]
    if name not in functions or tuple(rest) not in shows or (rest and name != "order"):
        print("usage: nidzaru_check.py check | order [--order | --small] | play | picture", file=sys.stderr)
        return 2
    try:
        with open(0, "rb", closefd=False) as stream:
            document = stream.read()
    except OSError:
        return _fail("read failed")
    answer = functions[name](document, *shows[tuple(rest)])
    try:
        with open(1 if answer.status <= 1 else 2, "wb", closefd=False) as stream:
            stream.write(answer.text.encode())
    except OSError:
        return _fail("write failed")
    return answer.status


if __name__ == "__main__":
    sys.exit(main(sys.argv[1:]))
