"""The accesses by which each call of the library takes a slot, copies and gives the slot back, in the order of its code, compared with a
table.

    objdump -dr --no-show-raw-insn ARCHIVE | accesses.py MACHINE [TABLE]

MACHINE is x86_64 or aarch64. Without TABLE it prints what each call has. A call is an export of a register, by its name with N in place of
the size. `copy` is a record's copy from 64 bytes on: a call of memcpy or memmove, or the stretch between two accesses whose plain stores,
of a read its plain loads, are of so many bytes. (Smaller records can't be told from what else a call stores.) Of a board's writes, and of
what its reads call, the accesses are told without order. On 64-bit ARM `ldar` and `stlr` are a control load and store, and `loop` is a
swap, the pair ldaxr and stlxr. On x86-64 `xchg` is a control store or a swap; a control load is a plain one, and isn't told. The status is
0 if each call has what the table says, and no function of the library an access that is weaker or that nobody knows.
"""

import re
import sys

HEAD = re.compile(r"^([0-9a-f]+) <(.+)>:$")
ROW = re.compile(r"^\s*([0-9a-f]+):\s+(?:(lock|rep\w*)\s+)?(\S+)\s*(.*)$")
CALL = re.compile(r"R_(?:AARCH64_(?:CALL|JUMP)26|X86_64_(?:PLT32|PC32|GOTPCRELX?|REX_GOTPCRELX))\s+(memcpy|memmove)\b")
EXPORT = re.compile(r"nidzaru_(triple_)?(\d+)_(write|read|look|publish)$")
BOARD = re.compile(r"nidzaru_(triple_)?board_\d+_(write)$|c_boards::calls::(read)_place\b")
# From how many bytes on a record's copy can be told.
LARGE = 64
# What orders, of each machine: what the library may have, and all that it may not have.
ATOMIC = {
    "aarch64": re.compile(r"(ldar|ldapu?r|stlu?r|ldlar|stllr|ldaxr|stlxr|ldxr|stxr|ldaxp|stlxp|ldxp|stxp|swp|cas|ld(add|clr|set|eor|[su]m)|st(add|clr|set|eor)|dmb|dsb)"),
    "x86_64": re.compile(r"(xchg[bwlq]?|[lsm]fence|xadd[bwlq]?|cmpxchg\w*)$"),
}
KNOWN = {"aarch64": {"ldar", "stlr", "ldaxr", "stlxr"}, "x86_64": {"xchg", "xadd", "cmpxchg"}}


# The bytes of what a plain access moves, by the register.
ARM_PLAIN = re.compile(r"(ld|st)(r|ur|p)(b|h|sb|sh|sw)?$")
ARM_BYTES = {"q": 16, "d": 8, "s": 4, "x": 8, "w": 4}
X86_REGISTER = re.compile(r"%(?:(xmm\d+)|(ymm\d+)|(r(?:[a-ds][xip]|[sbd]p|[sd]i|\d+))|(e[a-ds][xip]|e[sbd]p|e[sd]i|r\d+d))$")


def plain_bytes(machine, word, rest):
    """How many bytes an instruction loads and stores plainly, but on the stack."""
    if machine == "aarch64":
        found = ARM_PLAIN.match(word)
        if not found or "[sp" in rest or "[x29" in rest:
            return 0, 0
        moved = 1 if (found[3] or "").endswith("b") else 2 if found[3] in ("h", "sh") else ARM_BYTES.get(rest[:1], 0)
        moved *= 2 if found[2] == "p" else 1
        return (moved, 0) if found[1] == "ld" else (0, moved)
    if not word.startswith("mov") or "(" not in rest or "(%rsp" in rest or "(%rbp" in rest:
        return 0, 0
    is_store = rest.rstrip().endswith(")")
    register = X86_REGISTER.search(rest.split(",", 1)[0] if is_store else rest)
    moved = next((size for size, name in zip((16, 32, 8, 4), register.groups()) if name), 0) if register else 8 if word.endswith("q") else 4
    return (0, moved) if is_store else (moved, 0)


def functions_of(text):
    """By each function's name its rows: the place, the prefix, the word and the rest, or the name that is called."""
    found, name = {}, None
    for line in text.splitlines():
        head, row, call = HEAD.match(line), ROW.match(line), CALL.search(line)
        if head:
            name, start = head[2], int(head[1], 16)
            found[name] = []
        elif call and name:
            found[name].append((None, None, "copies", call[1]))
        elif row and name:
            found[name].append((int(row[1], 16) - start, row[2], row[3], row[4]))
    return found


def accesses_of(machine, rows, has_copy, stored=None, size=0):
    """What a function has, in the order of its code: a swap's pair as a loop. With a size also where as many bytes are stored, or loaded,
    between two accesses."""
    found, moved = [], 0
    for _, _, word, rest in rows:
        if size and word != "copies" and moved < size:
            moved += plain_bytes(machine, word, rest)[stored]
            if moved >= size:
                found.append("copy")
        if word == "copies":
            if not has_copy:
                continue
            token = "copy"
        elif not ATOMIC[machine].match(word) or (machine == "x86_64" and "(" not in rest):
            continue
        else:
            token = word.rstrip("bwlq") if machine == "x86_64" and word not in KNOWN[machine] else word
            moved = 0
        if token == "stlxr" and found[-1:] == ["ldaxr"]:
            found[-1] = "loop"
        else:
            found.append(token)
    return found


def calls_of(machine, functions):
    """By each call the accesses of its exports of all sizes, each with its sizes."""
    found = {}
    for name, rows in functions.items():
        export = EXPORT.match(name)
        if export:
            size, is_copying = int(export[2]), export[3] in ("write", "read")
            is_large, has_call = size >= LARGE and is_copying, any(word == "copies" for _, _, word, _ in rows)
            call = f"{'large_' if is_large else ''}{export[1] or ''}{export[3]}"
            stretch = size if is_large and not has_call else 0
            told = " ".join(accesses_of(machine, rows, is_large and has_call, export[3] == "write", stretch))
            found.setdefault(call, {}).setdefault(told, []).append(size)
        board = BOARD.match(name)
        if board:
            tokens = sorted({*accesses_of(machine, rows, False)})
            kind = "triple_" if board[1] or (board[3] and "loop" in tokens) else ""
            found.setdefault(f"{kind}board_{board[2] or board[3]}", {}).setdefault(" ".join(tokens), []).append(name)
    return found


def strangers(machine, functions):
    """The accesses that no function of the library may have."""
    for name, rows in functions.items():
        for token in accesses_of(machine, rows, False):
            if token not in KNOWN[machine] | {"loop"}:
                yield f"{name} has {token}"


def wanted_of(machine, path):
    """By each call what the table has for this machine."""
    found = {}
    with open(path, encoding="utf-8") as file:
        for line in file:
            words = line.partition("#")[0].split()
            if words[:1] == [machine]:
                found[words[1].rstrip(":")] = " ".join(words[2:])
    return found


def main(machine, table=None):
    functions = functions_of(sys.stdin.read())
    calls = calls_of(machine, functions)
    if table is None:
        for call, told in sorted(calls.items()):
            for tokens, sizes in told.items():
                print(f"{call}: {tokens} ({', '.join(map(str, sorted(sizes)))})")
        return 0
    wanted = wanted_of(machine, table)
    wrong = list(strangers(machine, functions))
    for call in sorted({*wanted, *calls}):
        for tokens, sizes in calls.get(call, {"no export": []}).items():
            if tokens != wanted.get(call):
                wrong.append(f"{call} of {', '.join(map(str, sizes))}: {tokens}")
    for it in wrong[:9]:
        print(it)
    print(f"{sum(len(sizes) for told in calls.values() for sizes in told.values())} calls, {len(wrong)} of them wrong or unknown")
    return 1 if wrong or not calls else 0


if __name__ == "__main__":
    if len(sys.argv) not in (2, 3) or sys.argv[1] not in KNOWN:
        sys.exit("usage: objdump -dr --no-show-raw-insn ARCHIVE | accesses.py x86_64|aarch64 [TABLE]")
    sys.exit(main(*sys.argv[1:]))
