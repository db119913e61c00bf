"""What tools/convert/join.py makes of several files: texts, what threads left and refusals by hand, and random logs of right registers by two
clocks.

    joined.py [--logs NUMBER] [--tool FILE]

With --skew the log has to be lawful whatever the clocks' difference is, each file first; without, some log has to be unlawful. A read that
is older than the difference has to be refused all the same. The last line says what was compared.
"""

import argparse
import json
import os
import random
import struct
import subprocess
import sys
import tempfile

TOP = os.path.dirname(os.path.dirname(os.path.dirname(os.path.realpath(__file__))))
sys.path.insert(0, f"{TOP}/tests/programs/reference")
import lines  # noqa: E402

HEAD = '{"kind":"lines","opening":0}\n'
SKEW = 40


def row(who, kind, begin, end, record):
    return json.dumps({"who": who, "kind": kind, "begin": begin, "end": end, "record": record}, separators=(",", ":")) + "\n"


def with_words(text, *words):
    """The line with these words."""
    return text[:-2] + f',"words":{json.dumps(words, separators=(",", ":"))}' + text[-2:]


def done(ops):
    return f'{{"kind":"done","ops":{ops}}}\n'


def packed(words, kind, begin, end, number, code, *kept):
    """An operation of a log whose records keep so many words."""
    rest = [len(kept), *kept, *[0] * (words - len(kept))] if words else []
    return struct.pack(f"={5 + len(rest)}Q", kind, begin, end, number, code, *rest)


NO_OPERATION = (0, 0, 0, 0, 0)


def left(operations, under_way=NO_OPERATION, place=0, room=None, count=None, lost=0, unpaired=0, words=0):
    """What thread 4 left in a file, as nidzaru_log.h has it; an operation is its kind, times, number and hash, and the words that are kept."""
    room, count = room or len(operations), len(operations) if count is None else count
    state = struct.pack("=8s9Q48x", b"nidzaru\2", 4, room, count, lost, unpaired, 0, 0, words, place)
    empty = [NO_OPERATION] * (room - len(operations))
    return state + b"".join(packed(words, *it) for it in (under_way, *operations, *empty))


def spoilt(block, at, byte):
    return block[:at] + bytes([byte]) + block[at + 1:]


WRITES = row(0, "write", 100, 110, 1) + row(0, "write", 200, 210, 2)
READS = row(1, "read", 150, 160, 1) + row(1, "read", 190, 195, 1) + row(1, "read", 600, 610, 2)
LEFT = [(1, 5, 9, 1, 77), (2, 10, 12, 1, 77)]
LEFT_ROWS = row(4, "write", 5, 9, [1, 77]) + row(4, "read", 10, 12, [1, 77])
# The same with the words 1 and 8 of the write, of three that have room, and none of the read.
KEPT = [(*LEFT[0], 1, 8), LEFT[1]]
KEPT_ROWS = with_words(row(4, "write", 5, 9, [1, 77]), 1, 8) + row(4, "read", 10, 12, [1, 77])
# The words, the files' texts or bytes, and what has to come: a text, or what stands behind `join: FILE` on standard error.
BY_HAND = [
    ([], [HEAD + WRITES + done(2), READS], HEAD + row(0, "write", 100, 110, 1) + row(1, "read", 150, 160, 1) + row(1, "read", 190, 195, 1)
     + row(0, "write", 200, 210, 2) + row(1, "read", 600, 610, 2) + done(5)),
    # floors, of all and of a task, as a recorder writes them while the threads run
    ([], [HEAD + '{"kind":"floor","begin":90}\n' + WRITES + '{"kind":"floor","begin":205,"who":0}\n' + done(2)], HEAD + WRITES + done(2)),
    (["--opening", "[0,7]", "--limit", "3"], [WRITES, "\n"], '{"kind":"lines","opening":[0,7],"limit":3}\n' + WRITES + done(2)),
    ([], ['{"kind":"lines","opening":"a","limit":5}\n', WRITES], '{"kind":"lines","opening":"a","limit":5}\n' + WRITES + done(2)),
    # the reads at 150 and 190 overlap by now: the second gets a task of its own; the writes stay
    (["--skew", "40"], [HEAD + WRITES, READS], HEAD + row(0, "write", 100, 110, 1) + row(1, "read", 110, 200, 1) + row(2, "read", 150, 235, 1)
     + row(0, "write", 200, 210, 2) + row(1, "read", 560, 650, 2) + done(5)),
    # the second touches the first by now
    (["--skew", "40"], [HEAD, row(1, "read", 150, 160, 0) + row(1, "read", 240, 250, 0)],
     HEAD + row(1, "read", 110, 200, 0) + row(0, "read", 200, 290, 0) + done(2)),
    # the other file first: its times stay
    (["--skew", "40"], [READS, HEAD + WRITES], HEAD + row(0, "write", 60, 150, 1) + row(1, "read", 150, 160, 1) + row(0, "write", 160, 250, 2)
     + row(1, "read", 190, 195, 1) + row(1, "read", 600, 610, 2) + done(5)),
    (["--skew", "40"], [HEAD, row(0, "write", 20, 2**64 - 30, 1) + row(1, "write", 50, None, 2)],
     HEAD + row(0, "write", 0, 2**64 - 1, 1) + row(1, "write", 10, None, 2) + done(2)),
    ([], [WRITES, READS], ": no file has a header: --opening says what the register held"),
    ([], [HEAD + WRITES, '{"kind":"lines","opening":1}\n' + READS], ": the headers differ"),
    # records that repeat, and all that an operation has
    ([], ['{"kind":"lines","repeats":true,"opening":0}\n' + row(0, "write", 100, 110, 1), row(1, "cas", 90, 105, 1)[:-2] + ',"from":0,"swapped":null}\n'],
     '{"kind":"lines","opening":0,"repeats":true}\n' + row(1, "cas", 90, 105, 1)[:-2] + ',"from":0,"swapped":null}\n' + row(0, "write", 100, 110, 1)
     + done(2)),
    ([], ['{"kind":"lines","opening":0,"repeats":1}\n' + row(0, "write", 100, 110, 1)], HEAD + row(0, "write", 100, 110, 1) + done(1)),
    ([], [HEAD + WRITES, '{"kind":"lines","opening":0,"repeats":true}\n' + READS], ": the headers differ"),
    ([], [HEAD + WRITES, row(0, "read", 600, 610, 2)], ": its task 0 is in "),
    ([], [HEAD + WRITES + done(1)], ":4: there are 2 operations"),
    ([], [HEAD + WRITES + HEAD], ":4: a header behind the first line"),
    ([], [HEAD + HEAD], ":2: a header behind the first line"),
    # a write, and a read of it; then what was under way: a write that hadn't ended, one that had, a read, and nothing that is known
    ([], [HEAD, left(LEFT)], HEAD + LEFT_ROWS + done(2)),
    ([], [HEAD, left(LEFT, (1, 20, 0, 2, 88), 2, room=9)], HEAD + LEFT_ROWS + row(4, "write", 20, None, [2, 88]) + done(3)),
    *[([], [HEAD, left(LEFT, under_way, place)], HEAD + LEFT_ROWS + done(2))
      for under_way, place in (((1, 10, 0, 1, 77), 1), ((2, 20, 0, 2, 88), 2), ((9, 20, 0, 2, 88), 2))],
    *[([], [HEAD, block], ": a log that was cut off")
      for block in (left(LEFT)[:-1], left(LEFT) + b"\0", left(LEFT)[:100], left(LEFT, count=3), left(LEFT, room=3)[:-40],
                    left(KEPT, words=3)[:-8], spoilt(left(KEPT, words=3), 64, 2))],
    # words that were kept, also of a write that hadn't ended; no more than there is room for
    ([], [HEAD, left(KEPT, words=3)], HEAD + KEPT_ROWS + done(2)),
    ([], [HEAD, left(KEPT, (1, 20, 0, 2, 88, 2, 9, 10), 2, words=3)],
     HEAD + KEPT_ROWS + with_words(row(4, "write", 20, None, [2, 88]), 2, 9, 10) + done(3)),
    ([], [HEAD, spoilt(left(KEPT, words=3), 128 + 72 + 40, 4)], ": this is no log"),
    # the opening's words, unless another opening is told
    ([], [with_words(HEAD, 0, 5), with_words(WRITES, 2, 6), READS], with_words(HEAD, 0, 5) + row(0, "write", 100, 110, 1) + row(1, "read", 150, 160, 1)
     + row(1, "read", 190, 195, 1) + with_words(row(0, "write", 200, 210, 2), 2, 6) + row(1, "read", 600, 610, 2) + done(5)),
    (["--opening", "7"], [with_words(HEAD, 0, 5), WRITES], '{"kind":"lines","opening":7}\n' + WRITES + done(2)),
    ([], [HEAD, left(LEFT, lost=1)], ": 1 operations had no room, and 0 began or ended out of turn"),
    ([], [HEAD, left(LEFT, unpaired=1)], ": 0 operations had no room, and 1 began or ended out of turn"),
    *[([], [HEAD, left([operation])], ": this is no log") for operation in ((0, 5, 9, 1, 77), (4, 5, 9, 1, 77), (1, 9, 5, 1, 77))],
    ([], [HEAD + "{\n"], ":2: not JSON"),
    ([], [HEAD + "7\n"], ":2: this is no object"),
    ([], [HEAD + '{"who":0}\n'], ":2: this is no operation"),
    *[(words, [HEAD + WRITES, '{"who":1,"kind":"read","begin":150,"record":1}\n'], "/1:1: this is no operation") for words in ([], ["--skew", "3"])],
    ([], [HEAD, WRITES.encode() + b"\xff\n"], "/1:3: this isn't UTF-8"),
    *[([], [f'{{"kind":"lines","opening":0,"limit":{limit}}}\n'], ":1: a limit is a number") for limit in ("[3]", "-3")],
]


class Room:
    def __init__(self, folder, tool):
        self.folder, self.tool = folder, tool

    def join(self, words, texts):
        paths = [f"{self.folder}/{at}" for at in range(len(texts))]
        for path, text in zip(paths, texts):
            with open(path, "wb") as file:
                file.write(text if isinstance(text, bytes) else text.encode())
        run = subprocess.run([sys.executable, self.tool, *words, *paths], capture_output=True, text=True, check=False)
        return run.returncode, run.stdout, run.stderr

    def verdict(self, words, texts):
        status, out, err = self.join(words, texts)
        if status:
            return err
        try:
            return lines.answer(lines.read_log(out.split("\n")))[1].split("\n")[0]
        except lines.Refused as why:
            return str(why)


def faults_by_hand(room):
    """The first join that isn't as it was written by hand."""
    for words, texts, wanted in BY_HAND:
        status, out, err = room.join(words, texts)
        if wanted.startswith("{"):
            if (status, out, err) != (0, wanted, ""):
                return [f"{words} of {texts}: status {status}: {out}{err}"]
        elif status != 3 or out or wanted not in err or not err.startswith(f"join: {room.folder}/"):
            return [f"{words} of {texts}: status {status}: {out}{err}"]
    return []


def faults_of_streams(room):
    """A file that isn't there, and a stream that takes nothing. (What isn't kept in a buffer fails by itself.)"""
    faults, env = [], {name: it for name, it in os.environ.items() if name != "PYTHONUNBUFFERED"}
    with open(f"{room.folder}/whole", "w", encoding="utf-8") as file:
        file.write(HEAD + WRITES)
    for name, to, why in (("none", os.devnull, "none: No such file or directory"), ("whole", "/dev/full", "a stream: No space left on device")):
        if os.path.exists(to):
            with open(to, "w", encoding="utf-8") as out:
                command = [sys.executable, room.tool, f"{room.folder}/{name}"]
                run = subprocess.run(command, stdout=out, stderr=subprocess.PIPE, text=True, env=env, check=False)
            if run.returncode != 5 or not run.stderr.endswith(f"{why}\n") or run.stderr.count("\n") != 1:
                faults.append(f"{name}: status {run.returncode}: {run.stderr}")
    return faults


def faults_of_words(room):
    """A pipe, of text and of what a thread left, and numbers below 0."""
    faults = []
    with open(f"{room.folder}/head", "w", encoding="utf-8") as file:
        file.write(HEAD)
    for block, wanted in ((WRITES.encode(), HEAD + WRITES + done(2)), (left(LEFT), HEAD + LEFT_ROWS + done(2))):
        run = subprocess.run([sys.executable, room.tool, f"{room.folder}/head", "/dev/stdin"], input=block, capture_output=True, check=False)
        if (run.returncode, run.stdout.decode(), run.stderr) != (0, wanted, b""):
            faults.append(f"a pipe: status {run.returncode}: {run.stdout}{run.stderr}")
    for word in ("--skew", "--limit"):
        status, out, err = room.join([word, "-3"], [HEAD + WRITES])
        if (status, out) != (2, "") or not err.endswith(f"{word}: -3 is below 0\n"):
            faults.append(f"{word} -3: status {status}: {out}{err}")
    return faults


def recorded(random_numbers, count=24):
    """What four tasks of two machines did on a right register: by file, operations in true times."""
    clock, held, files, free = 100, 0, ([], []), [0, 0, 0, 0]
    for number in range(1, count + 1):
        who = random_numbers.randrange(4)
        effect = clock = clock + random_numbers.randint(1, 9)
        begin = max(free[who] + 1, effect - random_numbers.randint(0, 6))
        effect = clock = max(effect, begin)
        end = free[who] = effect + random_numbers.randint(0, 6)
        if random_numbers.random() < 0.5:
            held = number
            files[who % 2].append((who, "write", begin, end, number))
        else:
            files[who % 2].append((who, "read", begin, end, held))
    return files


def texts_of(files, difference):
    """The files by clocks that differ by so much."""
    first = "".join(row(*it) for it in sorted(files[0], key=lambda it: it[2]))
    second = "".join(row(who, kind, begin + difference, end + difference, record) for who, kind, begin, end, record in sorted(files[1], key=lambda it: it[2]))
    return [HEAD + first, second]


def faults_of_random(room, number):
    faults, unlawful = [], 0
    for seed in range(number):
        random_numbers = random.Random(seed)
        texts = texts_of(recorded(random_numbers), random_numbers.choice((-SKEW, SKEW, random_numbers.randint(-SKEW, SKEW))))
        unlawful += room.verdict([], texts).startswith("unlawful")
        for order in (texts, texts[::-1]):
            said = room.verdict(["--skew", str(SKEW)], order)
            if said != "lawful":
                faults.append(f"seed {seed}: {said}")
    if not unlawful:
        faults.append("each log is lawful without --skew as well")
    old = [HEAD + WRITES, row(1, "read", 260, 270, 1)]
    if not room.verdict(["--skew", "49"], old).startswith("unlawful crossed") or room.verdict(["--skew", "50"], old) != "lawful":
        faults.append("a read that is 50 too old")
    own = [row(1, "read", 200, 205, 2) + row(1, "read", 210, 215, 1), HEAD + WRITES]
    if not room.verdict(["--skew", "40"], own).startswith("unlawful") or room.verdict(["--skew", "40"], own[::-1]) != "lawful":
        faults.append("an order of its own that the first file keeps")
    return faults


def main():
    parser = argparse.ArgumentParser()
    parser.add_argument("--logs", type=int, default=15)
    parser.add_argument("--tool", default=f"{TOP}/tools/convert/join.py")
    words = parser.parse_args()
    with tempfile.TemporaryDirectory() as folder:
        room = Room(folder, words.tool)
        faults = faults_by_hand(room) or faults_of_streams(room) or faults_of_words(room) or faults_of_random(room, words.logs)
    print("\n".join(faults or [f"{len(BY_HAND)} joins as by hand, and {words.logs} random logs by two clocks"]))
    return 1 if faults else 0


if __name__ == "__main__":
    sys.exit(main())
