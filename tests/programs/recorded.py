"""tools/convert/recorder.py: the lines by a clock that is given, and the logs of processes that share a file.

    recorded.py [--tool FOLDER]

A file that is replaced whole has to be lawful; two that are written in place one after the other are torn. The last line says what passed.
"""

import argparse
import importlib
import io
import json
import multiprocessing
import os
import sys
import tempfile

TOP = os.path.dirname(os.path.dirname(os.path.dirname(os.path.realpath(__file__))))
sys.path.insert(0, f"{TOP}/tests/programs/reference")
import lines  # noqa: E402

HEAD = '{"kind":"lines","opening":[0,0]}\n'


def row(who, kind, begin, end, record):
    return f'{{"who":{who},"kind":"{kind}","begin":{begin},"end":{end},"record":{record}}}\n'


def fail():
    raise ValueError


class Kept(io.StringIO):
    """A stream, and what would stay of it if its program were killed."""

    kept = ""

    def flush(self):
        self.kept = self.getvalue()


def faults_by_hand(recorder):
    """A clock that stands still for a look, and what has to be written. The call of the read looks at the clock, too."""
    moments, text, faults = iter((10, 20, 20, 30, 35, 40, 50, 60, 70, 80)), Kept(), []
    log = recorder.Log(3, text, lambda: next(moments))
    given = [log.write(7, lambda: "done"), log.read(lambda: next(moments), lambda it: 7), log.write(8, lambda: False, bool)]
    for call in (lambda: log.read(fail), lambda: log.write(9, fail)):
        try:
            call()
            faults.append("an error is lost")
        except ValueError:
            pass
    if given != ["done", 35, False]:
        faults.append(f"the calls gave {given}")
    wanted = row(3, "write", 10, 20, 7) + row(3, "read", 30, 40, 7) + row(3, "write", 80, "null", 9)
    if text.kept != wanted:
        faults.append(f"by hand: {text.kept} of {text.getvalue()}")
    return faults


def faults_of_unfinished(recorder):
    """Writes in which something raises behind the call: they have lines without an end. A record that is no JSON is never written."""
    line, faults = row(3, "write", 10, "null", 7), []
    for name, record, looks, took_effect, wanted in (
        ("an effect that can't be told", 7, [10, 20], lambda given: fail(), [["called"], line, ValueError]),
        ("an interrupt behind the call", 7, [10, KeyboardInterrupt], lambda given: True, [["called"], line, KeyboardInterrupt]),
        ("a record that is no JSON", b"7", [10, 20], lambda given: True, [[], "", TypeError]),
    ):
        text, found = Kept(), [[]]
        try:
            recorder.Log(3, text, lambda it=iter(looks): look(next(it))).write(record, lambda to=found[0]: to.append("called"), took_effect)
        except (ValueError, TypeError, KeyboardInterrupt) as why:
            found += [text.kept, type(why)]
        if found != wanted:
            faults.append(f"{name}: {found} of {text.getvalue()}")
    return faults


def look(moment):
    if moment is KeyboardInterrupt:
        raise moment
    return moment


def publish(folder, number, whole):
    """A record of two numbers: in a file that is replaced whole, or in two files."""
    for name in ("all",) if whole else ("first", "second"):
        with open(f"{folder}/{name}.new", "w", encoding="utf-8") as file:
            file.write(json.dumps([number, number]))
        os.replace(f"{folder}/{name}.new", f"{folder}/{name}")


def fetch(folder, whole):
    found = []
    for at, name in enumerate(("all", "all") if whole else ("first", "second")):
        if at == 0 or not whole:
            with open(f"{folder}/{name}", encoding="utf-8") as file:
                found.append(json.load(file))
    return found[0] if whole else [found[0][0], found[1][1]]


def use(tool, folder, who, whole, operations):
    sys.path.insert(0, tool)
    log = importlib.import_module("recorder").Log(who, open(f"{folder}/{who}.jsonl", "w", encoding="utf-8"))
    for number in range(1, operations + 1):
        if who:
            log.read(lambda: fetch(folder, whole))
        else:
            log.write([number, number], lambda at=number: publish(folder, at, whole))


def verdict(tool, whole, operations=400):
    with tempfile.TemporaryDirectory() as folder:
        publish(folder, 0, whole)
        tasks = [multiprocessing.Process(target=use, args=(tool, folder, who, whole, operations)) for who in range(3)]
        for task in tasks:
            task.start()
        for task in tasks:
            task.join()
        text = HEAD
        for who in range(3):
            with open(f"{folder}/{who}.jsonl", encoding="utf-8") as file:
                text += file.read()
    return lines.answer(lines.read_log(text.split("\n")))[1].split("\n")[0]


def main():
    parser = argparse.ArgumentParser()
    parser.add_argument("--tool", default=f"{TOP}/tools/convert")
    tool = parser.parse_args().tool
    sys.path.insert(0, tool)
    recorder = importlib.import_module("recorder")
    faults = faults_by_hand(recorder) + faults_of_unfinished(recorder)
    if faults:
        print("\n".join(faults))
        return 1
    said = verdict(tool, True)
    if said != "lawful":
        faults.append(f"a file that is replaced: {said}")
    if not any(verdict(tool, False).startswith("unlawful unwritten") for _ in range(20)):
        faults.append("two files: no log of 20 is unlawful")
    print("\n".join(faults or ["the lines by hand, a file that is replaced, and two files"]))
    return 1 if faults else 0


if __name__ == "__main__":
    sys.exit(main())
