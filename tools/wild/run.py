#!/usr/bin/env python3
"""Registers of other people, as Debian has them, recorded and judged by `fsr order`: what docs/WILD.md shows.

    run.py [--runs N] [--operations N] [--ahead N] [--wrong] [--unfenced] [--judge COMMAND] [NAME..]
                        runs these, all that have to be refused, or all that can be built here, --unfenced without the recorder's fence
                        too, and tells of how many runs each was refused
    run.py --table      prints the table of what was run, for docs/WILD.md

A thread waits while it is --ahead operations ahead of the slowest. With 1 many records are read, though others want the processors. Two
threads on one processor take turns then, and half of the records are read, and none torn: so each has a processor of its own, another one
every 1,000 operations, and waits a random short time before each. A queue is full only if its writer may be ahead by more.

Each register is a file of registers/, built with the recorder and g++, or one of main.rs, built with the recorder for Rust and cargo. What
was seen of it stands in out/wild/NAME.json. A register whose package isn't there is left out and told. Those that have to be lawful, and
those that have to be refused in every run, are known beforehand, from what they promise; where it comes otherwise, it is told, and the
status is 1.
"""

import argparse
import json
import os
import re
import shlex
import subprocess
import sys
import tempfile
from collections import namedtuple

TOP = os.path.dirname(os.path.dirname(os.path.dirname(os.path.realpath(__file__))))
HERE = f"{TOP}/tools/wild"
OUT = f"{TOP}/out/wild"
# So many seconds a run may take.
LONGEST = 300

# A register: its name, its file (none if it is in Rust), what it is, what it promises, the packages that it needs, the words of the
# compiler, what every run with the recorder's fence has to say (nothing if that isn't known).
Register = namedtuple("Register", "name file what promise packages words wanted")
RELEASE = "-DORDER_WRITE=std::memory_order_release -DORDER_READ=std::memory_order_acquire"
SEQUENTIAL = "-DORDER_WRITE=std::memory_order_seq_cst -DORDER_READ=std::memory_order_seq_cst"
GPP, RUST, LAWFUL, REFUSED = "g++", None, "lawful", "refused"
CROSSBEAM = "librust-crossbeam-channel-dev librust-crossbeam-queue-dev"
REGISTERS = [Register(*it) for it in (
    ("ck_sequence", "ck_sequence", "Concurrency Kit, `ck_sequence`", "a whole record", "libck-dev", "", LAWFUL),
    ("urcu_assign", "urcu", "liburcu, `rcu_assign_pointer`", "release and consume", "liburcu-dev", "-lurcu", LAWFUL),
    ("urcu_xchg", "urcu", "liburcu, `rcu_xchg_pointer`", "a full barrier", "liburcu-dev", "-DXCHG -DWRITERS=2 -lurcu", LAWFUL),
    ("glib_pointer", "glib_pointer", "GLib, `g_atomic_pointer_set`", "sequentially consistent", "libglib2.0-dev", "-DWRITERS=2 `pkg-config --cflags --libs glib-2.0`", LAWFUL),
    ("absl_flag16", "absl_flag", "Abseil, `absl::SetFlag` of 16 bytes", "thread-safe", "libabsl-dev", "-DWORDS=2 `pkg-config --libs absl_flags`", LAWFUL),
    ("absl_flag24", "absl_flag", "the same of 24 bytes", "thread-safe", "libabsl-dev", "`pkg-config --libs absl_flags`", LAWFUL),
    ("tbb_map", "tbb_map", "`tbb::concurrent_hash_map`, one key", "a lock", "libtbb-dev", "-DWRITERS=2 -ltbb", LAWFUL),
    ("tbb_vector", "tbb_vector", "`tbb::concurrent_vector`, `v[v.size() - 1]`", "none: `size()` counts what is under construction", "libtbb-dev", "-DREADERS=1 -ltbb", REFUSED),
    ("tbb_bounded", "tbb_bounded_queue", "`tbb::concurrent_bounded_queue` of 1, the old one popped", "a queue", "libtbb-dev", "-DREADERS=1 -ltbb", REFUSED),
    ("boost_spsc", "boost_spsc", "Boost `spsc_queue` of 1, dropped if full", "a queue: the newest is dropped", "libboost-dev", "-DREADERS=1", REFUSED),
    ("jack", "jack_ringbuffer", "JACK's ring buffer, dropped if full", "a queue: the newest is dropped", "libjack-dev", "-DREADERS=1 -ljack", REFUSED),
    ("gpsd", "gpsd", "libgps, `gps_read` of shared memory, repeated", "a whole record, or 0", "libgps-dev", "-DWORDS=4 -lgps", LAWFUL),
    ("gpsd_keep", "gpsd", "the same, 0 taken for \"nothing new\"", "none: 0 is a collision", "libgps-dev", "-DWORDS=4 -DREADERS=1 -DKEEP -lgps", REFUSED),
    ("ntp_shm1", "ntp_shm", "NTP's shared memory, mode 1", "`count` detects clashes", GPP, "-DMODE=1 -DREADERS=1", REFUSED),
    ("ntp_shm1_two", "ntp_shm", "the same, two readers", "one reader alone", GPP, "-DMODE=1", REFUSED),
    ("ntp_shm0", "ntp_shm", "the same, mode 0", "none", GPP, "-DMODE=0 -DREADERS=1", REFUSED),
    ("seqlock", "seqlock", "a sequence lock as in Linux, barriers of the compiler", "a whole record on x86-64", GPP, "", LAWFUL),
    ("seqlock_no_rmb", "seqlock", "the same without the reader's", "none", GPP, "-DNO_RMB", None),
    ("seqlock_no_wmb", "seqlock", "the same without the writer's", "none", GPP, "-DNO_WMB -DREADERS=1", REFUSED),
    ("seqlock_none", "seqlock", "the same without either", "none", GPP, "-DNO_RMB -DNO_WMB -DREADERS=1", REFUSED),
    ("relaxed_seqlock", "relaxed_seqlock", "the same by relaxed atomics, 8 words", "none by C++", GPP, "-DWORDS=8", None),
    ("volatile", "volatile", "a volatile struct", "none", GPP, "-DREADERS=1", REFUSED),
    ("avx", "avx", "one AVX store and load of 32 bytes", "none by Intel", GPP, "-DWORDS=4 -mavx2", None),
    ("atomic24", "std_atomic", "`std::atomic` of 24 bytes", "linearizable", GPP, f"-DWRITERS=2 {SEQUENTIAL} -latomic", LAWFUL),
    ("atomic24_release", "std_atomic", "the same by release and acquire", "release and acquire", GPP, f"-DWRITERS=2 {RELEASE} -latomic", LAWFUL),
    ("pointer", "std_pointer", "`std::atomic<T *>` by release and acquire", "release and acquire", GPP, "-DWRITERS=2", LAWFUL),
    ("shared_ptr", "std_shared_ptr", "`std::atomic_store` of a `shared_ptr`", "sequentially consistent", GPP, "-DWRITERS=2", LAWFUL),
    ("atomic_shared_ptr", "std_shared_ptr", "`std::atomic<std::shared_ptr>`", "sequentially consistent", GPP, "-DWRITERS=2 -DATOMIC", LAWFUL),
    ("file_tmpfs", "file", "24 bytes of a file on tmpfs, `pwrite` and `pread`", "POSIX: atomic", GPP, "-DREADERS=1 -DAT=0 -DFOLDER='\"/dev/shm\"'", REFUSED),
    ("file_disk", "file", "the same on ext4", "POSIX: atomic", GPP, "-DREADERS=1 -DAT=0 -DFOLDER='\"/var/tmp\"'", REFUSED),
    ("file_disk_pages", "file", "the same over the border of two pages", "POSIX: atomic", GPP, "-DREADERS=1 -DAT=4088 -DFOLDER='\"/var/tmp\"'", REFUSED),
    ("array_queue", RUST, "crossbeam's `ArrayQueue` of 1, `force_push`, two readers", "a queue: each record goes to one", CROSSBEAM, "", REFUSED),
    ("channel", RUST, "crossbeam's `channel::bounded(1)`, `try_send`", "a queue: the newest is dropped", CROSSBEAM, "", REFUSED),
    ("rust_volatile", RUST, "Rust's `write_volatile` of three words", "none", CROSSBEAM, "", REFUSED),
    ("renamed", "renamed_file", "a new file, renamed over the old one, on tmpfs", "POSIX: atomic", GPP, "-DWRITERS=2 -DFOLDER='\"/dev/shm\"'", LAWFUL),
)]
# How many times --operations of them a run makes, and how many a thread may be ahead, if not 1 and 1: fewer where calls are slow or threads
# are many, more where a fault is rarely seen.
PACES = {"gpsd": (0.2, 1), "renamed": (0.2, 1), "array_queue": (0.2, 1), "channel": (0.2, 1), "jack": (1, 8), "tbb_vector": (2, 1),
         "gpsd_keep": (3, 1), "tbb_bounded": (3, 1), "seqlock_no_wmb": (3, 1), "rust_volatile": (6, 1)}
# The crate of the registers in Rust, with the sources that Debian has.
MANIFEST = f"""[package]
name = "wild"
version = "0.0.0"
edition = "2021"

[[bin]]
name = "wild"
path = "{HERE}/main.rs"

[dependencies]
crossbeam-channel = "0.5"
crossbeam-queue = "0.3"

[workspace]
"""
DEBIAN = ["--config", "source.crates-io.replace-with='debian'", "--config", "source.debian.directory='/usr/share/cargo/registry'"]


def said_of(command, **more):
    return subprocess.run(command, capture_output=True, text=True, timeout=LONGEST, check=False, **more)


def version_of(package):
    """The package's version, or nothing if it isn't there."""
    found = said_of(["dpkg-query", "-W", "-f", "${db:Status-Status} ${Version}", package])
    status, _, version = found.stdout.partition(" ")
    return version if found.returncode == 0 and status == "installed" else None


def words_of(text):
    """The compiler's words; what stands between backticks is a command that gives some."""
    return shlex.split(re.sub(r"`([^`]*)`", lambda it: said_of(shlex.split(it[1])).stdout.strip(), text))


def build_rust(register, fenced):
    """The words of the command that runs a register in Rust."""
    os.makedirs(f"{OUT}/rust", exist_ok=True)
    with open(f"{OUT}/rust/Cargo.toml", "w", encoding="utf-8") as file:
        file.write(MANIFEST)
    done = said_of(["cargo", "build", "--release", "--offline", "--quiet", *DEBIAN], cwd=f"{OUT}/rust")
    if done.returncode:
        raise OSError(f"{register.name} isn't built: {done.stderr[:300]}")
    return lambda *words: [f"{OUT}/rust/target/release/wild", register.name, *words, *([] if fenced else ["unfenced"])]


def build(register, fenced):
    """The same of any register: it takes the number of operations, and how many a thread may be ahead."""
    if register.file == RUST:
        return build_rust(register, fenced)
    program = f"{OUT}/{register.name}.{'fenced' if fenced else 'unfenced'}"
    command = ["g++", "-std=c++20", "-O2", "-w", "-pthread", f"-DNIDZARU_LOG_FENCE={int(fenced)}", f"-DREGISTER=\"registers/{register.file}.hpp\"",
               "-I", f"{TOP}/c", f"{HERE}/main.cpp", "-o", program, *words_of(register.words)]
    done = said_of(command)
    if done.returncode:
        raise OSError(f"{register.name} isn't built: {done.stderr[:300]}")
    return lambda *words: [program, *words]


def judge(command, path):
    """What was found: the first line, the sentence behind it, and the share of the records that were read."""
    done = said_of([*command, path] if command[-1] == "order" else command, **({} if command[-1] == "order" else {"stdin": open(path, "rb")}))
    said = done.stdout.splitlines()
    if done.returncode not in (0, 1) or not said:
        raise OSError(f"the judge: status {done.returncode}: {done.stderr[:300]}")
    records, read = map(int, re.search(r"(\d+) records, (\d+) of them read", done.stdout).groups())
    sentence = next((it for it in said if re.match(r"(Lines?|Between) ", it)), "")
    return {"verdict": said[0], "sentence": sentence, "share": read / max(records - 1, 1)}


def run_once(register, command, words, explains):
    """A run, judged; if it has to be explained and is torn, with what its words tell."""
    with tempfile.NamedTemporaryFile(dir="/dev/shm", suffix=".jsonl") as log:
        times, ahead = PACES.get(register.name, (1, 1))
        operations, ahead = int(words.operations * times), words.ahead or ahead
        done = subprocess.run(command(str(operations), str(ahead)), stdout=log, timeout=LONGEST, check=False)
        if done.returncode:
            raise OSError(f"{register.name} ends with {done.returncode}")
        found = judge(words.judge, log.name) | {"operations": operations, "ahead": ahead}
        if explains and found["verdict"].startswith("unlawful unwritten"):
            line = found["verdict"].split()[-1]
            found["explained"] = said_of([sys.executable, f"{TOP}/tools/convert/explain.py", log.name, line]).stdout
        return found


def run(register, words):
    """Runs a register, and puts what was seen into its file. Answers why it isn't as it has to be."""
    os.makedirs(OUT, exist_ok=True)
    seen = {"versions": {it: version_of(it) for it in register.packages.split()}, "fenced": [], "unfenced": []}
    for key in ("fenced", "unfenced")[: 2 if words.unfenced else 1]:
        command = build(register, key == "fenced")
        for _ in range(words.runs):
            seen[key].append(run_once(register, command, words, not any("explained" in it for it in seen[key])))
            if key == "fenced" and register.wanted == LAWFUL and seen[key][-1]["verdict"] != LAWFUL:
                break
    with open(f"{OUT}/{register.name}.json", "w", encoding="utf-8") as file:
        json.dump(seen, file, indent=1)
    lawful = [it["verdict"] == LAWFUL for it in seen["fenced"]]
    print(f"{register.name}: {lawful.count(False)} of {len(lawful)} runs refused: {counted(seen['fenced'])} of the records read", flush=True)
    if register.wanted == LAWFUL and not all(lawful):
        return f"{register.name} has to be lawful: {seen['fenced'][-1]}"
    if register.wanted == REFUSED and any(lawful):
        return f"{register.name} has to be refused in every run"
    return None


def counted(runs):
    """The verdicts of some runs, and the least and the greatest share of records that were read."""
    kinds = [" ".join(it["verdict"].split()[:2]).removeprefix("unlawful ") for it in runs]
    told = ", ".join(f"{kinds.count(kind)} {'lawful' if kind == LAWFUL else f'**{kind}**'}" for kind in sorted(set(kinds), key=lambda it: (it != LAWFUL, it)))
    shares = sorted(100 * it["share"] for it in runs)
    return f"{told}; {shares[0]:.0f} to {shares[-1]:.0f} %" if runs else ""


def table():
    rows = ["| Register, of the package | Promise | Refused | Verdicts; records read |", "|---|---|---|---|"]
    for it in REGISTERS:
        try:
            with open(f"{OUT}/{it.name}.json", encoding="utf-8") as file:
                seen = json.load(file)
        except OSError:
            continue
        runs, packages = seen["fenced"], "".join(f", {name} {version}" for name, version in seen["versions"].items())
        refused = sum(found["verdict"] != LAWFUL for found in runs)
        rows.append(f"| {it.what}{packages} | {it.promise} | {refused} of {len(runs)} | {counted(runs)} |")
    return rows


def main():
    parser = argparse.ArgumentParser(description=__doc__, formatter_class=argparse.RawDescriptionHelpFormatter)
    built = f"{TOP}/crates/fsr_order/out/fsr_order"
    parser.add_argument("--runs", type=int, default=10)
    parser.add_argument("--operations", type=int, default=100000)
    parser.add_argument("--ahead", type=int)
    parser.add_argument("--judge", type=shlex.split, default=[built] if os.access(built, os.X_OK) else [f"{TOP}/fsr", "order"])
    parser.add_argument("--wrong", action="store_true")
    parser.add_argument("--unfenced", action="store_true")
    parser.add_argument("--table", action="store_true")
    parser.add_argument("names", nargs="*", metavar="NAME")
    words = parser.parse_args()
    if words.table:
        print("\n".join(table()))
        return 0
    unknown = set(words.names) - {it.name for it in REGISTERS}
    if unknown:
        parser.error(f"there is no register {' '.join(sorted(unknown))}")
    faults = []
    for register in REGISTERS:
        if (words.names and register.name not in words.names) or (words.wrong and register.wanted != REFUSED):
            continue
        absent = [it for it in register.packages.split() if not version_of(it)]
        if absent:
            print(f"{register.name} is left out: there is no {', '.join(absent)}")
            continue
        try:
            why = run(register, words)
        except (OSError, subprocess.TimeoutExpired) as fault:
            why = str(fault)
        if why:
            faults.append(why)
            print(why, flush=True)
    print(f"{len(faults)} registers aren't as they have to be")
    return 1 if faults else 0


if __name__ == "__main__":
    sys.exit(main())
