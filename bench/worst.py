"""The most that a call takes over the states that worst.c makes: instructions, loads, stores, lines of the cache, and bytes of the stack.

    worst.py [--left] PREFIX [SIZE ..]     over the library that is installed there; it needs gcc and valgrind, whose lackey tells each access

Instructions are those between two stores around the call, with the header's own. A line is one that is loaded or stored outside of the stack,
with the caller's record and handle. Of the stack what the call touches counts, from where its caller stands. A row has a call's figures for
each size, and one if they are alike; with sizes there is the table of registers alone. Standard error tells how many calls were made, and how
many instructions of the library's functions that they ran in none of them ran; with --left it lists these.
"""

import os
import re
import subprocess
import sys
import tempfile

HERE = os.path.dirname(os.path.realpath(__file__))
KINDS = "`write`", "`read`", "`look`", "`hold`", "`loan` and `publish`", "`read_since`", "`news`", "a refused write"
ACCESS = re.compile(r"^ ?([ILSM]) +([0-9a-f]+),(\d+)")
STACK = 0x1F_F000_0000
# A function's first line and an instruction's, as objdump prints them, and what stands between functions alone.
FUNCTION = re.compile(r"^[0-9a-f]+ <(.+)>:$")
INSTRUCTION = re.compile(r"^ +([0-9a-f]+):\t(.*)")
PADDING = re.compile(r"(data16 |cs )*(nop|xchg +%ax,%ax)")


def measure(program):
    """By its kind the most of each figure, how many calls there were, and where the instructions stand that ran in them."""
    named = subprocess.run(["nm", program], capture_output=True, text=True, check=True).stdout
    begins, ends = (int(re.search(rf"(?m)^([0-9a-f]+) . {it}$", named)[1], 16) for it in ("begins", "ends"))
    read, write = os.pipe()
    run = subprocess.Popen(["valgrind", "--tool=lackey", "--trace-mem=yes", f"--log-fd={write}", program], pass_fds=[write])
    os.close(write)
    most, kind, calls, ran = {}, None, 0, set()
    with os.fdopen(read, encoding="utf-8", errors="replace") as trace:
        for line in trace:
            found = ACCESS.match(line)
            if not found:
                continue
            how, at, size = found[1], int(found[2], 16), int(found[3])
            if how == "S" and begins <= at < begins + 64 * len(KINDS):
                kind, counts, lines, lowest, highest = (at - begins) // 64, [0, 0, 0], set(), None, None
            elif how == "S" and at == ends and kind is not None:
                stack = highest - lowest if highest is not None else 0
                # (the store that ends it is an instruction, too)
                figures = counts[0] - 1, counts[1], counts[2], len(lines), stack
                most[kind] = tuple(map(max, figures, most.get(kind, figures)))
                calls, kind = calls + 1, None
            elif kind is not None:
                counts[0] += how == "I"
                counts[1] += how in "LM"
                counts[2] += how in "SM"
                if how == "I":
                    ran.add(at)
                elif at >= STACK:
                    highest = highest or at + size
                    lowest = min(lowest or at, at)
                else:
                    lines.update(range(at >> 6, (at + size - 1 >> 6) + 1))
    if run.wait():
        sys.exit(f"{program} ended with {run.returncode}")
    return most, calls, ran


def left(program, ran):
    """Of each function of the library's that ran: how many instructions it has, and the lines of those that never ran."""
    text = subprocess.run(["objdump", "-d", "--no-show-raw-insn", program], capture_output=True, text=True, check=True).stdout
    name, functions = None, {}
    for line in text.splitlines():
        if found := FUNCTION.match(line):
            name = found[1]
        elif (found := INSTRUCTION.match(line)) and not PADDING.match(found[2]):
            functions.setdefault(name, []).append((int(found[1], 16), found[2]))
    for name, instructions in functions.items():
        # (the others are worst.c's own, with the inline parts of the header in them)
        if (name.startswith("nidzaru_") or "::" in name) and any(at in ran for at, _ in instructions):
            yield name, len(instructions), [f"{at:x}: {it}" for at, it in instructions if at not in ran]


def depth_of(size):
    """As many calls, one after the other, as each call of a register is tried in. (That of a large record takes millions of accesses.)"""
    return 5 if size <= 4096 else 3


def tell(program, title, calls, ran, lists):
    functions = list(left(program, ran))
    count, never = sum(it[1] for it in functions), sum(len(it[2]) for it in functions)
    print(f"{title}: {calls} calls; of {count} instructions {never} never ran", file=sys.stderr)
    for name, _, lines in functions if lists else ():
        print("\n".join([f"  {name}", *(f"    {it}" for it in lines)]), file=sys.stderr)


def over(prefix, room, flags, lists):
    """The most of each figure by the call's kind, over a library and with these flags."""
    program = f"{room}/worst"
    words = ["gcc", "-std=gnu11", "-O2", "-no-pie", *flags, f"-I{prefix}/include", f"{HERE}/worst.c", f"{prefix}/lib/libnidzaru.a"]
    subprocess.run([*words, "-o", program], check=True)
    most, calls, ran = measure(program)
    tell(program, " ".join(flags), calls, ran, lists)
    return most


def joined(groups, kind, which):
    """A figure in each group of sizes, or the one that it is in all."""
    figures = [[f"{most[kind][which]:,}" for most in group] for group in groups]
    if len({it for group in figures for it in group}) == 1:
        return figures[0][0]
    return " / ".join(("; " if len(groups) > 1 else ", ").join(group) for group in figures)


def table(head, what, groups_of):
    """Prints a table: the groups of what was measured over each mechanism, by whether it is the triple buffer."""
    print(f"| {head} | Instructions | Loads | Stores | Lines | Stack |\n|---|---|---|---|---|---|")
    for triple in (False, True):
        groups = groups_of(triple)
        for kind in sorted(groups[0][0]):
            figures = " | ".join(joined(groups, kind, which) for which in range(5))
            print(f"| {KINDS[kind]}, {what[triple]} | {figures} |", flush=True)


def main(prefix, sizes, lists):
    with tempfile.TemporaryDirectory() as room:
        def of(size, triple, flag):
            return over(prefix, room, [f"-DBYTES={size}", flag, *["-DTRIPLE"] * triple], lists)

        registers = sizes or [24, 256, 4096]
        table(f"Register of {', '.join(f'{it:,}' for it in registers)} bytes", ("four slots", "triple buffer"),
              lambda triple: [[of(size, triple, f"-DDEPTH={depth_of(size)}") for size in registers]])
        if not sizes:
            print()
            table("Board of 24 bytes and 2; 4; 16 places / of 256; 4,096 bytes and 4 places", ("four slots", "triple buffers"), lambda triple: [
                [of(24, triple, f"-DPLACES={places}") for places in (2, 4, 16)], [of(size, triple, "-DPLACES=4") for size in (256, 4096)]])


if __name__ == "__main__":
    given = sys.argv[1:]
    lists = given[:1] == ["--left"]
    given = given[lists:]
    main(given[0], [int(it) for it in given[1:]], lists)
