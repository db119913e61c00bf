"""How many checks each script of `./test` makes, compared with what docs/dev/TESTING.md says.

    checks.py [--only] COUNTED     compares them, with --only those of the scripts that ran; of the scripts themselves it sees that each is
                                   run, and that no function of the shell has a second definition in another one
    checks.py --write LOG          writes into the table the numbers that the text of a run of `./test` tells
    checks.py --commit HASH LOG    sees that a text is that of a run of all of `./test` on this commit, with no failure

COUNTED has lines `SCRIPT NUMBER`. The gate's number is that of the crates but the library's, which its build proves, and that of
tests/gate/wrong_bodies.py that of the wrong bodies, as tests/docs/numbers.py counts them. The table's numbers stand for a machine with
the tools that are named above it. On one that has others the scripts that use these aren't compared. A script without any check fails,
unless it is one that checks nothing without a tool that isn't there. --top FOLDER takes another tree.
"""

import argparse
import hashlib
import os
import re
import shutil
import subprocess
import sys
from pathlib import Path

MARKS = "<!-- counted by tests/gate/checks.py -->\n", "<!-- to here -->\n"
# What scripts do without where it isn't there.
TOOLS = {
    "tests/gate/layout.sh": ("shellcheck", "clang-format"),
    "tests/programs/soak.sh": ("gcc",),
    "tests/library/c.sh": ("gcc", "g++", "clang", "clang++", "cmake", "valgrind", "cargo"),
    "tests/library/c_controls.sh": ("gcc", "cargo"),
    "tests/programs/recorder.sh": ("gcc", "g++", "clang", "clang++", "rustc", "cargo", "aarch64-linux-gnu-gcc"),
    "tests/library/shared.sh": ("gcc", "g++", "clang", "clang++", "cargo", "jackd"),
    "tests/programs/page.sh": ("gcc", "wasm-opt", "chromium"),
    "tests/library/accesses.sh": ("aarch64-linux-gnu-gcc",),
    "tests/arm.sh": ("aarch64-linux-gnu-gcc", "qemu-aarch64-static"),
    "tests/library/in_memory.sh": ("gcc", "g++"),
    "tests/library/package.sh": ("aarch64-linux-gnu-gcc", "musl-gcc", "cmake", "cargo", "lintian", "unshare", "wasm-opt"),
    "tests/docs/stepper.sh": ("wasm-opt", "chromium"),
    "tests/docs/site.sh": ("chromium",),
}
# What a tool is there with, or a script does without it.
WITH = {"jackd": "/usr/include/jack/jack.h"}
# The scripts that check nothing where one of their tools isn't there.
OPTIONAL = {"tests/arm.sh", "tests/docs/stepper.sh"}
# The scripts that have no checks, and those that are run by hand alone.
HELPERS = {"tests/gate/outcomes.sh", "build/spent.sh", "build/machine.sh", "build/build.sh", "build/library.sh", "tests/programs/refused.sh"}
# Those that another script reads.
PARTS = {"tests/library/rust.sh", "tests/library/packed.sh", "tests/library/installed.sh"}
BY_HAND = {"tests/library/roots.sh"}
TOLD = re.compile(r"(?m)^test: (\S+(?: ci)?): (\d+) checks$")
WHOLE = re.compile(r"(?m)^test: all of \./test ran on commit (\S+); its counts have the sum sha256 ([0-9a-f]{64})$")
TRIED = re.compile(r"(?m)^test: (wrong bodies: \d+ of (\d+) were tried, and \d+ stand by their sums)")
ROW = re.compile(r"(?m)^\| (\d+) \| `([^`]+)` \|$")
SUMS = re.compile(r"(?m)^(\d+) crates, (\d+) wrong bodies ")
HAD = re.compile(r"(?m)^Counted with (.*?), without (.*?):$")
FUNCTION = re.compile(r"(?m)^(\w+)\(\) *\{")
SOURCED = re.compile(r"(?m)^\s*\. \"?(?:\$top/)?((?:tests|build)/[\w/]+\.sh)")
RUN = re.compile(r"(?m)^\s*run(?:_apart)? (\S+\.sh)(?!\S)")


def split(top):
    """The page before, between and after the marks."""
    before, first, rest = (top / "docs/dev/TESTING.md").read_text(encoding="utf-8").partition(MARKS[0])
    table, second, after = rest.partition(MARKS[1])
    if not first or not second:
        sys.exit("docs/dev/TESTING.md has lost its marks")
    return before, table, after


def stated(top):
    """By its script each number that the page states, and the tools that were there and that weren't."""
    before, table, after = split(top)
    sums, had = SUMS.search(before + after), HAD.search(table)
    if not sums or not had:
        sys.exit("docs/dev/TESTING.md doesn't state how many crates and wrong bodies there are, or with which tools was counted")
    numbers = {name: int(count) for count, name in ROW.findall(table)}
    return {"rt ci": int(sums[1]) - 1, "c_exports": 1, "tests/gate/wrong_bodies.py": int(sums[2]), **numbers}, {*had[1].split(", ")}, {*had[2].split(", ")}


def is_here(tool):
    """Whether there is such a program, with what it needs; of `unshare` whether it may make a namespace of mounts, and of qemu one with its
    own formats."""
    if not shutil.which(tool) or not os.path.exists(WITH.get(tool, "/")):
        return False
    as_root = [] if os.getuid() == 0 else ["--map-root-user"]
    emulate = Path(__file__).resolve().parents[1] / "library/emulate.py"
    tried = {"unshare": ["unshare", "--mount", *as_root, "true"], "qemu-aarch64-static": [sys.executable, emulate, "true"]}
    return tool not in tried or subprocess.run(tried[tool], stderr=subprocess.DEVNULL, check=False).returncode == 0


def tools_here():
    every = sorted({it for tools in TOOLS.values() for it in tools})
    here = [it for it in every if is_here(it)]
    return here, [it for it in every if it not in here]


def wrong_numbers(top, counted, only):
    """What is wrong with the numbers of a run."""
    numbers, had, lacked = stated(top)
    here, _ = tools_here()
    for name in counted if only else {**numbers, **counted}:
        tools = TOOLS.get(name, ())
        is_alike = all((it in had) == (it in here) and it in had | lacked for it in tools)
        if name not in counted:
            yield f"{name} wasn't run"
        elif counted[name] == 0 and not (name in OPTIONAL and {*tools} - {*here}):
            yield f"{name} made no check"
        elif name not in numbers:
            yield f"{name} isn't in the table of docs/dev/TESTING.md"
        elif is_alike and counted[name] != numbers[name]:
            yield f"{name} made {counted[name]} checks, and docs/dev/TESTING.md says {numbers[name]}"


def body_of_run_all(top):
    return (top / "test").read_text(encoding="utf-8").split("\nrun_all() {\n", 1)[1].split("\n}\n", 1)[0]


def run_by_test(top):
    """The scripts that `./test` runs in its shell or by themselves."""
    return RUN.findall(body_of_run_all(top))


def unrun(top):
    """The scripts of tests/ that nothing runs."""
    run = run_by_test(top)
    for path in sorted((top / "tests").rglob("*.sh")):
        script = str(path.relative_to(top))
        if script not in HELPERS | BY_HAND | PARTS and script not in run:
            yield f"./test doesn't run {script}"


# How `./test` tries the wrong bodies.
BODIES = 'try_wrong_bodies --proved $every_body --write out/tried.txt --beside "$library"'


def uncalled(top):
    """What `./test` leaves out of what it begins and ends with."""
    calls = [line.strip() for line in body_of_run_all(top).splitlines()]
    if calls[:4] != ["try_gate", "begin_library", BODIES, "await_library"]:
        yield "./test doesn't begin with the gate, the library and the wrong bodies of all crates"
    if calls[-1] != "compare_checks":
        yield "./test doesn't end with the comparison of the numbers"


def defined_twice(top):
    """The shell's functions that two files define which `./test` reads in one shell."""
    waiting, read, places = ["test", *HELPERS], set(), {}
    waiting += [it for it in run_by_test(top) if f"run_apart {it}" not in (top / "test").read_text(encoding="utf-8")]
    while waiting:
        path = waiting.pop()
        if path not in read:
            read.add(path)
            text = (top / path).read_text(encoding="utf-8")
            waiting += SOURCED.findall(text)
            for name in FUNCTION.findall(text):
                places.setdefault(name, []).append(path)
    if len(read) < 15:
        yield f"only {len(read)} scripts were read"
    for name, paths in sorted(places.items()):
        if len(paths) > 1:
            yield f"{name}() is defined in {' and '.join(sorted(paths))}"


def wrong_log(top, text, commit):
    """What speaks against a text being that of all of `./test` on this commit. A run of a part of it has no line of the whole."""
    told = TOLD.findall(text)
    counted = {name: int(count) for name, count in told}
    digest = hashlib.sha256("".join(f"{name} {count}\n" for name, count in told).encode()).hexdigest()
    whole, last = WHOLE.findall(text), text.splitlines()[-1:]
    if [it for it, _ in whole] != [commit]:
        yield f"it is no log of all of `./test` on commit {commit}"
    elif whole[0][1] != digest:
        yield "its counts aren't those with which it ended"
    if [int(total) for _, total in TRIED.findall(text)] != [counted.get("tests/gate/wrong_bodies.py")]:
        yield "it doesn't say how many wrong bodies were tried"
    # (the comparison of the counts is a check too, which no script has made)
    if last != [f"{sum(counted.values()) + 1} passed, 0 failed"]:
        yield f"it doesn't end with a gate that passed: {''.join(last)}"
    yield from wrong_numbers(top, counted, False)


def write(top, counted):
    before, table, after = split(top)
    here, lacked = tools_here()
    numbers = {name: int(count) for count, name in ROW.findall(table)} | counted
    names = [it for it in run_by_test(top) if it in numbers]
    rows = [f"| {numbers[it]} | `{it}` |" for it in names]
    told = f"Counted with {', '.join(here) or 'none'}, without {', '.join(lacked) or 'none'}:"
    lines = [told, "", "| Checks | Script |", "|---|---|", *rows, ""]
    (top / "docs/dev/TESTING.md").write_text(before + MARKS[0] + "\n".join(lines) + MARKS[1] + after, encoding="utf-8")


def main():
    parser = argparse.ArgumentParser()
    parser.add_argument("--top", type=Path, default=Path(__file__).resolve().parents[2])
    parser.add_argument("--only", action="store_true")
    parser.add_argument("--write", action="store_true")
    parser.add_argument("--commit")
    parser.add_argument("counted", type=Path)
    asked = parser.parse_args()
    text = asked.counted.read_text(encoding="utf-8", errors="replace")
    if asked.write:
        write(asked.top, {name: int(count) for name, count in TOLD.findall(text)})
        return 0
    if asked.commit:
        faults = list(wrong_log(asked.top, text, asked.commit))
        print("\n".join(faults) or f"{text.splitlines()[-1]}; {TRIED.search(text)[1]}")
        return 1 if faults else 0
    counted = {name: int(count) for name, _, count in (line.rpartition(" ") for line in text.splitlines())}
    faults = [*wrong_numbers(asked.top, counted, asked.only), *unrun(asked.top), *uncalled(asked.top), *defined_twice(asked.top)]
    print("\n".join(faults) or f"{sum(counted.values())} checks of {len(counted)} scripts, as docs/dev/TESTING.md has them")
    return 1 if faults or not counted else 0


if __name__ == "__main__":
    sys.exit(main())
