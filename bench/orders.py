"""What `fsr order` costs beside `fsr check` on the same operations with their order, in instructions as callgrind counts them.

    orders.py PROGRAM [FOLDER]

PROGRAM is the built `fsr`. The documents are of a register that five actors used at once, with a record of its own for each write: half
the operations are writes, and each twentieth operation is a refused write, under a limit of two. The largest has 10,000 operations
and its `check` document nearly 1 MiB. The documents are kept where a folder is named.
"""

import json
import os
import random
import re
import subprocess
import sys
import tempfile


def operations(count):
    """So many operations that overlap, and an order of them: that of a moment within each."""
    source = random.Random(count)
    ops, moments, at = [], [], 1_700_000_000
    for place in range(count):
        at += source.randint(1, 4)
        end = at + source.randint(0, 12)
        ops.append({"who": place % 5, "kind": "write" if place % 2 == 0 else "read", "begin": at, "end": end, "record": None})
        moments.append((source.uniform(at, end), place))
    order, latest, writes = [place for _, place in sorted(moments)], [0, 0, 0], 0
    for place in order:
        each = ops[place]
        if each["kind"] == "read" and place % 20 == 1 and writes >= 2:
            each["kind"] = "refused"
        if each["kind"] == "write":
            latest, writes = [20, 100_000 + place, 200_000], writes + 1
        each["record"] = latest
    return ops, order


def documents(count):
    ops, order = operations(count)
    log = {"kind": "log", "opening": [0, 0, 0], "limit": 2, "ops": ops}
    return {"order": log, "check": {**log, "kind": "check", "order": order}}


def instructions(program, command, path):
    with open(path, "rb") as document:
        done = subprocess.run(
            ["valgrind", "--tool=callgrind", "--callgrind-out-file=/dev/null", program, command],
            stdin=document, capture_output=True, check=False)
    if done.returncode or not done.stdout.startswith(b"lawful\n"):
        sys.exit(f"{command} < {path} ended with status {done.returncode}: {done.stdout[:80]}")
    return int(re.search(rb"Collected : (\d+)", done.stderr)[1])


def measure(program, folder):
    for count in 100, 1_000, 10_000:
        found = {}
        for command, document in documents(count).items():
            path = os.path.join(folder, f"{command}.{count}.json")
            with open(path, "w", encoding="utf-8") as file:
                json.dump(document, file, separators=(",", ":"))
            found[command] = instructions(program, command, path)
        size = os.path.getsize(os.path.join(folder, f"check.{count}.json"))
        ratio = found["order"] / found["check"]
        print(f"{count} operations, {size} bytes: order {found['order']}, check {found['check']}, ratio {ratio:.2f}", flush=True)


if len(sys.argv) > 2:
    measure(sys.argv[1], sys.argv[2])
else:
    with tempfile.TemporaryDirectory() as room:
        measure(sys.argv[1], room)
