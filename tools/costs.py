"""What it costs to prove a crate from nothing, by function: where a search or a long body is dear, it stands at the top.

    tools/costs.py CRATE [ROWS] [--parts] [--test]

The crate's kept work is put aside, `rt check` proves it at one job, and the processor time that passes until the checker saves a module is
counted for that module. Modules of one function or of one file of lemmas are added up, but with --parts: there a function's `Lts` is its
symbolic run and its `Proof` its goals, with the searches for those that have no answer. With --test the tests are proved too. Prints the
dearest ROWS, 20 if none is named, and the sum. The crates below it have to be built. What else runs on the machine makes the figures up
to half as large again: compare two forms of a proof side by side.
"""

import os
import re
import shutil
import subprocess
import sys
import tempfile
import time

TOP = os.path.dirname(os.path.dirname(os.path.realpath(__file__)))
TICKS = os.sysconf("SC_CLK_TCK")
# What the checker's modules of one function, of one type or of one file of the sources end with.
PARTS = re.compile(r"(?:\.(?:decls|[A-Z+]\w*))+$")


def processes():
    """By number, each process's parent and its processor time with that of its children that have ended, in ticks."""
    found = {}
    for name in os.listdir("/proc"):
        if name.isdigit():
            try:
                with open(f"/proc/{name}/stat", encoding="utf-8", errors="replace") as file:
                    words = file.read().rpartition(")")[2].split()
                found[int(name)] = int(words[1]), sum(map(int, words[11:15]))
            except OSError:
                pass
    return found


def spent_by(root):
    """The processor time of a process and all below it, in seconds."""
    found = processes()
    ours, more = set(), {root} & set(found)
    while more:
        ours |= more
        more = {it for it, (parent, _) in found.items() if parent in ours} - ours
    return sum(found[it][1] for it in ours) / TICKS


def saved_in(folder):
    """The modules that the checker has saved in a folder, each with the time at which it did."""
    found = {}
    for at, _, names in os.walk(folder):
        for name in names:
            if name.endswith(".oantt"):
                try:
                    found[name] = os.stat(f"{at}/{name}").st_mtime_ns
                except OSError:
                    pass
    return found


def of_function(module, crate, parts):
    """The function, the source file or the file of lemmas that a saved module belongs to, or the module's own name."""
    name = re.sub(rf"^Rattle-{crate}(?:-proofs|-specs)?\.(?:(?:proofs|specs|contracts|declared)\.)*", "", module.removesuffix(".oantt"))
    return name if parts else PARTS.sub("", name)


def measure(crate, parts, flags):
    """The processor time of each function's modules, and of the whole run, and how it ended."""
    here = f"{TOP}/crates/{crate}"
    kept, aside = f"{here}/out/incremental", f"{here}/out/incremental.aside"
    if os.path.isdir(kept):
        os.rename(kept, aside)
    costs, seen, before = {}, {}, 0.0
    try:
        said = tempfile.TemporaryFile("w+")
        run = subprocess.Popen(["rt", "check", "--jobs", "1", *flags], cwd=here, stdout=said, stderr=said)
        while run.poll() is None:
            time.sleep(0.05)
            now = saved_in(kept)
            new = [it for it in now if it not in seen]
            if new:
                spent = spent_by(run.pid)
                # (those that came since the last look share the time)
                for it in new:
                    name = of_function(it, crate, parts)
                    costs[name] = costs.get(name, 0.0) + (spent - before) / len(new)
                seen, before = now, spent
        said.seek(0)
        words = said.read().split("\n")
    finally:
        if os.path.isdir(aside):
            shutil.rmtree(kept, ignore_errors=True)
            os.rename(aside, kept)
    verdicts = [it for it in words if it.startswith("logic=")]
    return costs, before, verdicts[-1].split(" ")[0] if verdicts else "no verdict"


def main(words):
    if not words or not os.path.isdir(f"{TOP}/crates/{words[0]}"):
        print(__doc__.strip())
        return 2
    costs, whole, end = measure(words[0], "--parts" in words, [it for it in words if it == "--test"])
    rows = next((int(it) for it in words[1:] if it.isdigit()), 20)
    for name, cost in sorted(costs.items(), key=lambda it: -it[1])[:rows]:
        print(f"{cost:7.1f}  {name}")
    print(f"{whole:7.1f}  processor seconds in all, for {len(costs)} functions and files; {end}")
    return 0


if __name__ == "__main__":
    sys.exit(main(sys.argv[1:]))
