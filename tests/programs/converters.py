"""The converters of tools/convert/, on the histories of tests/programs/histories/ and on the short ones of conversions.py: each log that has
to come out, with its verdict, and each line that is refused. The logs were written by hand; of a file they are NAME.KEY.jsonl (`only` where
there is no key). Prints how many there were.

    converters.py [--tools FOLDER] [--here] [--planted log|verdict|refusal|history] [NAME..]

With names those histories alone. With --here the converters run in this process, which is quicker, until the first fault. With a planted
fault one thing that is wanted is changed, and the status has to be 1.
"""

import argparse
import io
import os
import runpy
import subprocess
import sys
import tempfile
import traceback

TOP = os.path.dirname(os.path.dirname(os.path.dirname(os.path.realpath(__file__))))
HERE = f"{TOP}/tests/programs/histories"
sys.path.insert(0, f"{TOP}/tests/programs/reference")
import conversions  # noqa: E402
import exchanges  # noqa: E402
import lines  # noqa: E402

# So many seconds a converter may take.
LONGEST = 120
LOGS = {
    "jepsen_register.edn": {"only": "lawful"},
    "jepsen_keys.edn": {"0": "unlawful stale 2 3", "_b": "lawful"},
    "jepsen_cas.edn": {"only": "lawful"},
    "jepsen_cas_keys.edn": {"0": "unlawful lost 5", "1": "lawful", "2": "lawful"},
    "jepsen_repeated.edn": {"only": "lawful"},
    "jepsen_opening.edn": {"only": "lawful"},
    "porcupine_keys.txt": {"x": "unlawful stale 3 4", "y": "lawful"},
    "porcupine_register.log": {"only": "lawful"},
    "porcupine_operations.json": {"x": "lawful"},
    "porcupine_events.jsonl": {"only": "unlawful stale 3 5"},
    "porcupine_cas.log": {"only": "lawful"},
    "porcupine_cas_operations.json": {"x": "unlawful lost 6", "y": "lawful"},
}
REFUSED = {
    "jepsen_append.edn": "line 3: :append is no :read, :write or :cas",
    "jepsen_broken.edn": "line 2: an end where a value belongs",
    "jepsen_mixed.edn": "line 3: some values are [key value], and this is none",
    "jepsen_twice.edn": "line 2: 0 begins again before line 1 has ended",
    "porcupine_append.txt": "line 2: append is no read, write or cas",
}


def text_of(path):
    with open(path, encoding="utf-8") as file:
        return file.read()


def verdict_of(log):
    """What a plain judge says first of a log."""
    if exchanges.has_repeats(log.encode()):
        text, line, _ = exchanges.answer(log.encode())
    else:
        text, line = lines.answer(lines.read_log(log.split("\n")))[1], ""
    return (text + line).split("\n")[0]


class Called:
    """A converter's main file as a program of this process: its status, and what it wrote."""

    def __init__(self, path, words, text):
        # (the tools and the plain judge have a module of the same name)
        streams, others = (sys.argv, sys.stdin, sys.stdout, sys.stderr), {name: sys.modules.pop(name, None) for name in ("lines", "edn")}
        out, err = (io.TextIOWrapper(io.BytesIO(), encoding="utf-8") for _ in range(2))
        sys.argv, sys.stdin, sys.stdout, sys.stderr = [path, *words], io.TextIOWrapper(io.BytesIO(text)), out, err
        sys.path.insert(0, os.path.dirname(path))
        try:
            runpy.run_path(path, run_name="__main__")
            self.status = 0
        except SystemExit as ended:
            self.status = ended.code or 0
        except Exception:
            self.status = 1
            traceback.print_exc(file=err)
        finally:
            sys.argv, sys.stdin, sys.stdout, sys.stderr = streams
            sys.path.pop(0)
            sys.modules.update({name: it for name, it in others.items() if it})
        self.out, self.err = (it.flush() or it.buffer.getvalue() for it in (out, err))


class Converter:
    """The converters of a folder; `planted` is what is wanted in another way than it comes out."""

    def __init__(self, folder, planted, here=False):
        self.folder, self.planted, self.here = folder, planted, here
        # (a converter may be changed between two calls)
        sys.dont_write_bytecode = here

    def call(self, name, words, text):
        path = f"{self.folder}/{name.split('_')[0]}.py"
        if self.here:
            done = Called(path, words, text)
            return done.status, done.out, done.err
        try:
            done = subprocess.run([sys.executable, "-B", "-S", path, *words], input=text, capture_output=True, timeout=LONGEST, check=False)
        except subprocess.TimeoutExpired:
            return 124, b"", b"it didn't end"
        return done.returncode, done.stdout, done.stderr

    def convert(self, name, *words, text=None):
        status, out, err = self.call(name, words, open(f"{HERE}/{name}", "rb").read() if text is None else text)
        return status, out.decode(errors="replace"), err.decode(errors="replace")

    def planted_in(self, what, text):
        return f"{text} " if self.planted == what else text

    def faults_of_logs(self, name, wanted, text=None, words=()):
        """What is wrong about the logs of a history; `wanted` has by key the log and its verdict."""
        with tempfile.TemporaryDirectory() as room:
            status, out, err = self.convert(name, "--to", f"{room}/logs", *words, text=text)
            if status or out or err:
                return [f"{name}: status {status}: {err}"]
            made = {file: text_of(f"{room}/logs/{file}") for file in os.listdir(f"{room}/logs")}
        faults, status, out, err = [], *self.convert(name, *words, text=text)
        if len(made) == 1 and (status, [out], err) != (0, list(made.values()), ""):
            faults.append(f"{name}: standard output has another log")
        if len(made) > 1 and (status, out, "--to FOLDER" in err) != (3, "", True):
            faults.append(f"{name}: several keys go to standard output")
        if "only" in wanted:
            made = {"only.jsonl": text for text in made.values()}
        if set(made) != {f"{key}.jsonl" for key in wanted}:
            return faults + [f"{name}: its logs are {sorted(made)}"]
        for key, (log, verdict) in wanted.items():
            if made[f"{key}.jsonl"] != self.planted_in("log", log):
                faults.append(f"{name}: {key} is\n{made[f'{key}.jsonl']}")
            told = verdict_of(made[f"{key}.jsonl"])
            if told != self.planted_in("verdict", verdict):
                faults.append(f"{name}: {key} is {told}")
        return faults

    def faults_of_refused(self, name, why, text=None, words=()):
        status, out, err = self.convert(name, *words, text=text)
        wanted = [f"{name.split('_')[0]}: {line}" for line in self.planted_in("refusal", why).split("\n")]
        told = err.split("\n")
        if status == 3 and not out and told[-1] == "" and len(told) in (2, 3) and [it[: len(line)] for it, line in zip(told, wanted)] == wanted:
            return []
        return [f"{name}: status {status}: {err}{out}"]

    def faults_of_file(self, name):
        if name in REFUSED:
            return self.faults_of_refused(name, REFUSED[name])
        stem = name.split(".")[0]
        return self.faults_of_logs(name, {key: (text_of(f"{HERE}/{stem}.{key}.jsonl"), verdict) for key, verdict in LOGS[name].items()})

    def faults_of_short(self, name):
        text, wanted, words = conversions.ALL[name]
        text = text if isinstance(text, bytes) else text.encode()
        if isinstance(wanted, str):
            return self.faults_of_refused(name, wanted, text, words)
        return self.faults_of_logs(name, wanted, text, words)

    def faults_of_folder(self):
        """A folder that is there, which gets a log that it has again, keeps what is no log, and is refused with a log of another key."""
        faults, history = [], f"{HERE}/jepsen_register.edn"
        with tempfile.TemporaryDirectory() as folder:
            open(f"{folder}/notes.txt", "w", encoding="utf-8").close()
            for _ in range(2):
                status, _, err = self.convert("jepsen_streams", "--to", folder, history, text=b"")
                if status or err or set(os.listdir(folder)) != {"log.jsonl", "notes.txt"}:
                    faults.append(f"a folder that is there: status {status}: {err}")
            status, out, err = self.convert("jepsen_streams", "--to", folder, f"{HERE}/jepsen_keys.edn", text=b"")
            wanted = (5, "", f"jepsen: {folder}/log.jsonl: a log of another history is in the folder\n")
            if (status, out, err) != wanted or set(os.listdir(folder)) != {"log.jsonl", "notes.txt"}:
                faults.append(f"a folder with another log: status {status}: {err}")
        return faults

    def faults_of_streams(self):
        """A folder that is there, a file that isn't, a folder that can't be, a stream that takes nothing."""
        faults, history = self.faults_of_folder(), f"{HERE}/jepsen_register.edn"
        for words, why in (([f"{HERE}/none"], "none: No such file"), (["--to", f"{HERE}/jepsen_cas.edn", history], "jepsen_cas.edn: File exists")):
            status, out, err = self.convert("jepsen_streams", *words, text=b"")
            if (status, out, err.count("\n")) != (5, "", 1) or why not in err:
                faults.append(f"{words}: status {status}: {err}")
        if os.path.exists("/dev/full"):
            with open("/dev/full", "w", encoding="utf-8") as full:
                # (what isn't kept in a buffer fails by itself)
                env = {name: it for name, it in os.environ.items() if name != "PYTHONUNBUFFERED"}
                done = subprocess.run([sys.executable, f"{self.folder}/jepsen.py", history], stdout=full, stderr=subprocess.PIPE, env=env, check=False)
            if (done.returncode, done.stderr) != (5, b"jepsen: a stream: No space left on device\n"):
                faults.append(f"/dev/full: status {done.returncode}: {done.stderr.decode()}")
        return faults


def histories(planted):
    """The files that are there, of which each is wanted in one way."""
    found = {it for it in os.listdir(HERE) if it.count(".") == 1}
    return found - {min(found)} if planted == "history" else found


def main():
    parser = argparse.ArgumentParser()
    parser.add_argument("--tools", default=f"{TOP}/tools/convert")
    parser.add_argument("--here", action="store_true")
    parser.add_argument("--planted", choices=("log", "verdict", "refusal", "history"))
    parser.add_argument("names", nargs="*")
    words = parser.parse_args()
    it, faults, compared = Converter(words.tools, words.planted, words.here), [], 0
    for name in words.names or (*LOGS, *REFUSED, *conversions.ALL, "streams"):
        check = it.faults_of_streams if name == "streams" else lambda: it.faults_of_short(name) if name in conversions.ALL else it.faults_of_file(name)
        faults += check()
        compared += 1
        if faults and words.here:
            break
    if histories(words.planted) != {*LOGS, *REFUSED}:
        faults.append(f"not compared: {sorted(histories(words.planted) ^ {*LOGS, *REFUSED})}")
    print("\n".join(faults or [f"{compared} histories give what was written by hand"]))
    return 1 if faults or not compared else 0


if __name__ == "__main__":
    sys.exit(main())
