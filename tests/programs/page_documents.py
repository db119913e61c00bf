"""The documents on which the page's answers are compared with the programs', and what the programs answer."""

import concurrent.futures
import glob
import json
import os
import random
import subprocess

TOP = os.path.dirname(os.path.dirname(os.path.dirname(os.path.realpath(__file__))))
FOLDERS = ("examples", "tests/programs/schedules", "tests/programs/races", "tests/programs/histories")
# By their names on the page the words of the program fsr, or none for the program picture.
COMMANDS = {
    "check": ["check"],
    "order": ["order"],
    "order --order": ["order", "--order"],
    "order --small": ["order", "--small"],
    "play": ["play"],
    "picture": None,
}
MUTATED, SEED = 2000, 20261127
# What is put into a document that is mutated.
PIECES = [
    *(b"0", b"1", b"2", b"18446744073709551615", b"18446744073709551616", b"-0", b"1e2", b"1.5", b"null", b"true", b"w", b"r"),
    *(b'"', b"[", b"]", b"{", b"}", b",", b"\xff", b"\xc3\xa9", b"\\u0041", b"\n", b"\r\n", b" " * 70),
    *(b'"write"', b'"read"', b'"refused"', b'"kind"', b'"end":null'),
]
DIGITS = range(48, 58)


def text_of(path):
    with open(path, encoding="utf-8") as file:
        return file.read()


def in_files():
    """The documents that stand in files."""
    found = []
    for folder in FOLDERS:
        paths = sorted(it for it in glob.glob(f"{TOP}/{folder}/*") if it.endswith((".json", ".jsonl")))
        assert paths, f"{folder} has no document"
        for path in paths:
            with open(path, "rb") as file:
                found.append((os.path.relpath(path, TOP), file.read()))
    return found


def in_tables():
    """Those at the bounds of refusals."""
    found = []
    for command in ("check", "order", "play", "race"):
        rows = [it for it in text_of(f"{TOP}/tests/programs/refusals/{command}.txt").splitlines() if " | " in it and not it.startswith("#")]
        assert rows, f"{command}.txt has no document"
        found += [(f"{command}.txt: {row}", row.split(" | ", 1)[1].encode()) for row in rows]
    return found


def operations(number):
    """So many lines of a log, of one write after the other and a read of each."""
    for k in range(number):
        who, kind = k % 2, ("write", "read")[k % 2]
        yield '{"who":%d,"kind":"%s","begin":%d,"end":%d,"record":[%d,%d,%d]}' % (who, kind, 10 * k, 10 * k + 5, *[k // 2 + 1] * 3)


def of_extremes():
    """Empty ones, long ones and ones that are nested deep."""
    lines = b'{"kind":"lines","opening":[0,0,0]}\n'
    return [
        ("nothing", b""),
        ("not UTF-8", b'{"kind":"check\xff"}'),
        ("nested deep", b"[" * 200_000 + b"]" * 200_000),
        ("nested as deep as may be", b'{"kind":"log","x":' + b"[" * 126 + b"]" * 126 + b',"opening":[0,0,0],"limit":1,"ops":[]}'),
        ("a line that is nested deep", lines + b'{"a":' * 100_000 + b"1" + b"}" * 100_000),
        ("long", b" " * 1048577),
        ("a long line", lines + b'{"who":0,"kind":"write","begin":0,"end":1,"record":"' + b"x" * 1048700 + b'"}\n'),
        ("9,999 operations", ('{"kind":"log","opening":[0,0,0],"limit":9,"ops":[' + ",".join(operations(9999)) + "]}").encode()),
    ]


def mutated(chance, texts):
    """A document near one of these, wrong in one place or some."""
    text = bytearray(chance.choice(texts))
    for _ in range(chance.choice([1, 1, 1, 2, 3])):
        at, how = chance.randrange(len(text) + 1), chance.randrange(5)
        if how == 0:
            text[at:at] = chance.choice(PIECES)
        elif how == 1:
            text[at : at + chance.randrange(1, 5)] = chance.choice(PIECES)
        elif how == 2:
            del text[at : at + chance.randrange(1, 9)]
        elif how == 3:
            places = [place for place, it in enumerate(text) if it in DIGITS]
            if places:
                text[chance.choice(places)] = chance.choice(DIGITS)
        else:
            other = chance.choice(texts)
            begin = chance.randrange(len(other))
            text[at:at] = other[begin : begin + chance.randrange(40)]
    return bytes(text)


def all_documents():
    """All of them by their titles."""
    files, chance = in_files(), random.Random(SEED)
    texts = [text for _, text in files if len(text) < 5000]
    return [*files, *in_tables(), *of_extremes(), *((f"mutated {k}", mutated(chance, texts)) for k in range(MUTATED))]


def program_answer(command, document, fsr, picture):
    """The status and the text that a program gives."""
    words = [picture] if COMMANDS[command] is None else [fsr, *COMMANDS[command]]
    done = subprocess.run(words, input=document, capture_output=True, check=False)
    text, other = (done.stdout, done.stderr) if done.returncode <= 1 else (done.stderr, done.stdout)
    assert not other, f"{words} printed on both streams"
    return [done.returncode, text]


def program_answers(asked, fsr, picture):
    """The same of many commands on documents, some at once."""
    with concurrent.futures.ThreadPoolExecutor(int(os.environ.get("RT_JOBS") or os.cpu_count())) as pool:
        return list(pool.map(lambda it: program_answer(*it, fsr, picture), asked))


def write_log(path, number):
    """Writes a log in lines of so many operations."""
    with open(path, "w", encoding="utf-8") as file:
        file.write(json.dumps({"kind": "lines", "opening": [0, 0, 0]}) + "\n")
        file.writelines(f"{it}\n" for it in operations(number))
