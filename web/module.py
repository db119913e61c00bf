"""What the page's two modules are made of: the static library check_exports, compiled for WebAssembly instead of x86-64.

The toolchain has no heap for WebAssembly and so refuses a library that needs one. But it hands its own clang an LLVM module of the proved
library. That module is taken at the build, its target is changed, and clang compiles it again. The toolchain's `rattle-link` links it
with heap.c, which stands for the C library's heap. Whatever isn't expected is refused: see `fault_in_text` and `fault_in_module`.
"""

import concurrent.futures
import os
import re
import subprocess
import sys

TOP = os.path.dirname(os.path.dirname(os.path.realpath(__file__)))
sys.path.insert(0, f"{TOP}/build")

from listed import crates_below, rattle_words, read_rows  # noqa: E402

CRATE = "check_exports"
EXPORTS = ("nidzaru_check", "nidzaru_order", "nidzaru_play", "nidzaru_picture")
# The crate that steps a cell. It needs no heap, so the toolchain builds it for WebAssembly itself; its stack may be small.
CELL, CELL_EXPORTS, CELL_STACK = "cell_steps", {"nidzaru_cell_after", "memory", "__heap_base"}, 1 << 16
# what the module exports besides: of the heap, and of the link
OTHER_EXPORTS = ("memory", "__heap_base", "leave", "reach", "room", "set_bound")
TEST_EXPORTS = ("calls_made", "refuse")
STACK = 1 << 20
# The numbers of a module's sections.
NOTES, IMPORTS, TABLES, EXPORTED, START, ELEMENTS = 0, 2, 4, 7, 8, 9
# The data layout of the toolchain's own modules for wasm64. Sizes and alignments of what is used are those of x86-64.
LAYOUT = "e-m:e-p:64:64-p10:8:8-p20:8:8-i64:64-i128:128-n32:64-S128-ni:1:10:20"
# How the toolchain has its clang compile for wasm64.
FOR_WASM = """--target=wasm64-unknown-unknown -mcpu=lime1 -mllvm -expand-div-rem-bits=64 -mllvm -expand-fp-convert-bits=64
    -ffunction-sections -fdata-sections -mllvm -trap-unreachable -mllvm -disable-machine-licm -mllvm -disable-postra-machine-licm
    -mllvm -sink-common-insts=false --no-default-config -no-canonical-prefixes -fno-crash-diagnostics -Werror -c""".split()
LOWERING = """--enable-memory64 --enable-bulk-memory --enable-sign-ext --enable-mutable-globals --enable-nontrapping-float-to-int
    --enable-multivalue --memory64-lowering""".split()
# What the library may call beyond its own functions: the heap, and what clang or the linker knows on every target.
FOREIGN = {"rattle_alloc", "rattle_realloc", "rattle_dealloc", "memcmp", "bcmp", "memcpy", "memmove", "memset", "strlen"}


class Refused(Exception):
    """Something that isn't expected."""


def run(*words, **how):
    done = subprocess.run(words, stdin=subprocess.DEVNULL, stdout=subprocess.PIPE, stderr=subprocess.STDOUT, text=True, check=False, **how)
    if done.returncode:
        raise Refused(f"{os.path.basename(words[0])} ended with status {done.returncode}: {done.stdout[-2000:].strip()}")
    return done.stdout


def kit_folder():
    return os.path.dirname(run("rt", "doc").strip())


def words_for(kit, crate, part):
    """What proves and builds a static library, over what lies in this part of the folders `out/` of those below it."""
    rows = read_rows(TOP)
    lower = {it: f"{TOP}/crates/{it}/out/{part}" for it in crates_below(rows, crate)}
    words = rattle_words(kit, crate, "src/lib.rt", rows[crate][1], lower)
    return [f"{kit}/bin/rattle", "build", *words, "--crate-type", "staticlib", "--links", f"{crate}="]


def verdict_in(told):
    """The prover's last line."""
    found = re.findall(r"^logic=.*$", told, re.M)
    if len(found) != 1 or not found[0].startswith("logic=proved "):
        raise Refused(f"the library isn't proved: {told[-500:]}")
    return found[0]


def capture_module(kit, room, part):
    """Proves and builds the library with a clang that keeps what it is handed, and gives the path of that and the prover's last line. The
    libraries below it are built in this part of their folders `out/`."""
    tools = f"{room}/toolchain"
    os.makedirs(f"{tools}/bin")
    for it in os.listdir(f"{kit}/toolchain"):
        if it != "bin":
            os.symlink(f"{kit}/toolchain/{it}", f"{tools}/{it}")
    for it in os.listdir(f"{kit}/toolchain/bin"):
        if it != "clang":
            os.symlink(f"{kit}/toolchain/bin/{it}", f"{tools}/bin/{it}")
    clang = f"{kit}/toolchain/bin/clang"
    with open(f"{tools}/bin/clang", "w", encoding="utf-8") as file:
        # (it is run without an environment; nobody runs the code for x86-64 that it makes here)
        file.write(f'#!/bin/sh\nfor it; do case $it in *.bc) command -p cp "$it" "{room}/" ;; esac; done\nexec "{clang}" "$@" -O0\n')
    os.chmod(f"{tools}/bin/clang", 0o755)
    # (the first processor of the list has no vectors beyond those that LLVM knows on every target)
    how = ["--toolchain", tools, "--cpu", "x86-64", "-o", f"{room}/library.a"]
    told = run(*words_for(kit, CRATE, part), *how, cwd=f"{TOP}/crates/{CRATE}")
    found = [it for it in os.listdir(room) if it.endswith(".bc")]
    if len(found) != 1:
        raise Refused(f"the toolchain's clang was handed {len(found)} LLVM modules and not one")
    return f"{room}/{found[0]}", verdict_in(told)


def fault_in_text(text):
    """What the printed LLVM module has that can't be compiled for another processor, or that nobody knows."""
    if 'target triple = "x86_64-unknown-linux-gnu"' not in text or not re.search(r'^target datalayout = "e-m:e-', text, re.M):
        return "another target than x86-64"
    if re.search(r"\basm\b", re.sub(r'"[^"]*"', "", text)):
        return "assembly"
    found = re.search(r"@llvm\.(x86|aarch64|arm|ppc|riscv|wasm)\.[\w.]*", text)
    if found:
        return f"an intrinsic of a processor, {found[0]}"
    if re.search(r"^@\S+ = .*\bthread_local\b", text, re.M):
        return "a variable of a thread"
    declared = re.findall(r"^declare .*?@([\w.$]+|\"[^\"]*\")\(", text, re.M)
    for name in declared:
        if not name.startswith("llvm.") and name not in FOREIGN:
            return f"a call of {name}"
    for name in EXPORTS:
        if not re.search(rf"^define [^@]*@{name}\(", text, re.M):
            return f"no function {name}"
    return None


def retarget(text, vectors):
    """The printed module, for wasm64: another target, and names for the exports."""
    features = '"target-features"="+simd128"' if vectors else ""
    text = re.sub(r"^target datalayout.*$", f'target datalayout = "{LAYOUT}"', text, flags=re.M)
    text = re.sub(r"^target triple.*$", 'target triple = "wasm64-unknown-unknown"', text, flags=re.M)
    builtins = '"no-builtin-bcmp" "no-builtin-memcmp" "no-builtin-strlen"'
    text = re.sub(r'(?m)^(attributes .*)"target-cpu"="[^"]*"', rf'\1{builtins} "target-cpu"="lime1" {features}', text)
    text = re.sub(r'(?m)^(attributes .*)"target-features"="[^"]*\+(?!simd128)[^"]*"', r"\1", text)
    for name in EXPORTS:
        text = re.sub(rf"(?m)^(define [^@]*@{name}\([^\n]*?)( #\d+)", rf'\1 "wasm-export-name"="{name}"\2', text)
    return text


def parts_of(wasm):
    """The sections of a module: their numbers and their bytes with the head."""
    if wasm[:8] != b"\0asm\1\0\0\0":
        raise Refused("what was linked isn't a WebAssembly module")
    found, at = [], 8
    while at < len(wasm):
        size, begin = number_at(wasm, at + 1)
        found.append((wasm[at], wasm[at : begin + size], wasm[begin : begin + size]))
        at = begin + size
    return found


def number_at(data, at):
    """An unsigned LEB128 number, and where it ends."""
    number = shift = 0
    while True:
        byte = data[at]
        at += 1
        number |= (byte & 127) << shift
        shift += 7
        if byte < 128:
            return number, at


def exports_of(section):
    count, at = number_at(section, 0)
    names = []
    for _ in range(count):
        size, at = number_at(section, at)
        names.append(section[at : at + size].decode())
        _, at = number_at(section, at + size + 1)
    return names


def fault_in_module(wasm, wanted):
    """What a linked module has that the page doesn't expect, where these are its exports."""
    parts = {number: body for number, _, body in parts_of(wasm)}
    exported = set(exports_of(parts.get(EXPORTED, b"\0")))
    if parts.get(IMPORTS, b"\0") != b"\0":
        return "it imports something of its host"
    if exported != set(wanted):
        return f"its exports are others: {' '.join(sorted(exported ^ set(wanted)))}"
    if START in parts:
        return "it has a function that runs at its start"
    return None


def stripped(wasm):
    """The module without names and notes, and without its table, which no instruction uses: not everything knows tables of 64 bits."""
    parts = parts_of(wasm)
    if any(number == ELEMENTS for number, _, _ in parts):
        raise Refused("the module's table is used")
    return wasm[:8] + b"".join(whole for number, whole, _ in parts if number not in (NOTES, TABLES))


def compile_text(kit, room, text, vectors):
    """The object of the library for wasm64, with or without vectors."""
    name = f"{room}/{'vectors' if vectors else 'plain'}"
    with open(f"{name}.ll", "w", encoding="utf-8") as file:
        file.write(retarget(text, vectors))
    run(f"{kit}/toolchain/bin/clang", *FOR_WASM, "-O3", "-x", "ir", f"{name}.ll", "-o", f"{name}.o")
    return f"{name}.o"


def link(kit, room, library, for_tests=False, stack=STACK):
    """The module of the library's object and the heap; for tests with one that refuses a request which they choose, or with another stack."""
    tools, archive, linked = f"{kit}/toolchain/bin", f"{room}/linked.a", f"{room}/linked.wasm"
    freestanding = ["-O2", "-fwrapv", "-ffreestanding", "-nostdinc", *(["-DREFUSES"] if for_tests else [])]
    run(f"{tools}/clang", *FOR_WASM, *freestanding, f"{TOP}/web/heap.c", "-o", f"{room}/heap.o")
    if os.path.exists(archive):
        os.remove(archive)
    run(f"{tools}/llvm-ar", "rcsD", archive, library, f"{room}/heap.o")
    how = ["--target", "wasm64-unknown-unknown", "--toolchain", f"{kit}/toolchain", "--stack", str(stack)]
    told = run(f"{kit}/bin/rattle-link", *how, "-o", linked, archive)
    if "imports=" in told:
        raise Refused(f"the linker says {told.strip()}")
    return read_module(linked, exports_for(for_tests))


def exports_for(tests):
    return {*EXPORTS, *OTHER_EXPORTS, *(TEST_EXPORTS if tests else ())}


def read_module(path, exports):
    """The module of this file without names and table. It has to have these exports."""
    with open(path, "rb") as file:
        wasm = stripped(file.read())
    fault = fault_in_module(wasm, exports)
    if fault:
        raise Refused(f"the module isn't as expected: {fault}")
    return wasm


def lower(room, wasm, exports):
    """The same module with a memory of 32 bits, for browsers without the other or with a slow one."""
    with open(f"{room}/wide.wasm", "wb") as file:
        file.write(wasm)
    run("wasm-opt", *LOWERING, f"{room}/wide.wasm", "-o", f"{room}/narrow.wasm")
    return read_module(f"{room}/narrow.wasm", exports)


def printed_module(kit, room, module):
    how = ["--target=x86_64-unknown-linux-gnu", "-O0", "-Xclang", "-disable-llvm-passes"]
    run(f"{kit}/toolchain/bin/clang", "-S", "-emit-llvm", "-x", "ir", module, "-o", f"{room}/printed.ll", *how)
    with open(f"{room}/printed.ll", encoding="utf-8") as file:
        text = file.read()
    fault = fault_in_text(text)
    if fault:
        raise Refused(f"the library's LLVM module has {fault}")
    return text


def make_modules(kit, room, part):
    """By their names the module for 64 bits, that for 32 bits, three for tests, and the prover's line."""
    module, verdict = capture_module(kit, room, part)
    text = printed_module(kit, room, module)
    with concurrent.futures.ThreadPoolExecutor(2) as pool:
        # (lowering knows no vectors)
        vectors, plain = pool.map(lambda it: compile_text(kit, room, text, it), (True, False))
    made = {"wide.wasm": link(kit, room, vectors), "refuses.wasm": link(kit, room, vectors, for_tests=True)}
    # (with the least stack that the linker gives, and with twice that)
    made |= {"shallow.wasm": link(kit, room, vectors, stack=1 << 16), "stack_128.wasm": link(kit, room, vectors, stack=1 << 17)}
    made["narrow.wasm"] = lower(room, link(kit, room, plain), exports_for(False))
    return {**made, "verdict": verdict.encode()}


def make_cell(kit, room, part):
    """The module of 32 bits that steps a cell, proved and built by the toolchain for WebAssembly, by its name."""
    archive, linked = f"{room}/cell.a", f"{room}/cell.wasm"
    for_wasm = ["--target", "wasm64-unknown-unknown", "--toolchain", f"{kit}/toolchain"]
    verdict_in(run(*words_for(kit, CELL, part), *for_wasm, "-o", archive, cwd=f"{TOP}/crates/{CELL}"))
    run(f"{kit}/bin/rattle-link", *for_wasm, "--stack", str(CELL_STACK), "-o", linked, archive)
    return {"cell.wasm": lower(room, read_module(linked, CELL_EXPORTS), CELL_EXPORTS)}
