"""Builds the page: one HTML file with the modules, the examples, the page docs/stepper.html and all that it runs.

    make.py [--over PART] [--anew | --kept] [OUT]      OUT: the file, out/nidzaru.html if none is named
    make.py [--over PART] [--anew] --cell [OUT]        the module alone that steps a cell, in docs/stepper.html or the page OUT like it

The modules are those of docs/nidzaru.html, if they were built of the files that lie here, or those that are kept in out/page; else they are
built, and the libraries below are proved and built first, unless PART names a part of their folders `out/` in which they are built. With
--anew all is proved and built; with --kept nothing is.
"""

import argparse
import base64
import gzip
import hashlib
import json
import os
import re
import shutil
import subprocess
import sys
import tempfile

import module
from module import CELL, CRATE, TOP, Refused, crates_below, read_rows

HERE = os.path.dirname(os.path.realpath(__file__))
PARTS = {"STYLE": "page.css", "DRIVER": "driver.js", "WORKER": "worker.js", "SCRIPT": "page.js"}
PAGE, STEPPER = f"{TOP}/docs/nidzaru.html", f"{TOP}/docs/stepper.html"
IN_STEPPER = re.compile(r'(<script type="text/plain" id="module">\n)(.*?)(</script>)', re.S)
# What the page says of its modules: of which files each crate's were built, the modules themselves, and the prover's line.
IN_PAGE = re.compile(r'<meta name="built-of" data-crate="(\w+)" content="(\w+)">')
MODULE = '<script type="text/plain" id="{}" data-sum="(\\w+)">(.*?)</script>'
END = "</html>\n"
VERDICT = re.compile(r"The prover's line: <code>(.*?)</code>")
# What is kept of a build, by the crate.
KEPT = {CRATE: ("wide.wasm", "narrow.wasm", "refuses.wasm", "shallow.wasm", "stack_128.wasm", "verdict"), CELL: ("cell.wasm",)}
# What is said if the modules of a crate aren't of what lies here.
MENDED = {
    CRATE: "docs/nidzaru.html has modules of other files than lie here: run ./page docs/nidzaru.html",
    CELL: "docs/stepper.html or docs/nidzaru.html has a module of other files: run ./page --cell, then ./page docs/nidzaru.html",
}
# the commands that a page can run, as its list has them; a race needs threads
COMMANDS = ("order", "check", "play")


def read(path):
    with open(path, encoding="utf-8") as file:
        return file.read()


def examples():
    """The examples by their names, as the table in examples/README.md has them."""
    rows = re.findall(r"^\| `(\w+\.jsonl?)` \| (\w+) \| (.*?) \|$", read(f"{TOP}/examples/README.md"), re.M)
    found = {}
    for name, command, shows in rows:
        if command in COMMANDS:
            plain, _, status = re.sub(r" ?\(\[.*?\]\(.*?\)\)", "", shows).replace("`", "").partition(": status ")
            found[name] = {"command": command, "shows": plain, "status": int(status or 0), "text": read(f"{TOP}/examples/{name}")}
    if not found:
        raise Refused("examples/README.md names no example")
    return dict(sorted(found.items(), key=lambda it: (COMMANDS.index(it[1]["command"]), it[0][-1] != "l")))


def packed(wasm):
    return base64.b64encode(gzip.compress(wasm, 9, mtime=0)).decode()


def unpacked(text, name):
    """The module of this name in the text of a page."""
    found = re.search(MODULE.format(name), text)
    if found is None or not text.endswith(END):
        raise Refused(f"{PAGE} is damaged: it isn't whole, and ./page --anew makes another one")
    wasm = gzip.decompress(base64.b64decode(found[2]))
    if hashlib.sha256(wasm).hexdigest() != found[1]:
        raise Refused(f"{PAGE} is damaged: its module isn't the one of its sum")
    return wasm


def stepper(cell):
    """The text of docs/stepper.html with this module."""
    text, letters = read(STEPPER), base64.b64encode(cell).decode()
    lines = "".join(f"{letters[at : at + 120]}\n" for at in range(0, len(letters), 120))
    text, count = IN_STEPPER.subn(lambda it: it[1] + lines + it[3], text)
    if count != 1 or not text.endswith(END):
        raise Refused("docs/stepper.html has no place for its module, or no end")
    return text


def page(made):
    """The text of the page."""
    parts = {mark: read(f"{HERE}/{name}") for mark, name in PARTS.items()}
    for mark, name in (("WIDE", "wide.wasm"), ("NARROW", "narrow.wasm")):
        parts |= {mark: packed(made[name]), f"{mark}_SUM": hashlib.sha256(made[name]).hexdigest()}
    parts["VERDICT"] = made["verdict"].decode()
    parts["BUILT_OF"] = "\n".join(f'<meta name="built-of" data-crate="{it}" content="{sum_of_files(it)}">' for it in (CRATE, CELL))
    for mark, what in (("EXAMPLES", examples()), ("STEPPER", stepper(made["cell.wasm"]))):
        parts[mark] = json.dumps(what, ensure_ascii=False).replace("<", "\\u003c")
    for mark in ("STYLE", "DRIVER", "WORKER", "SCRIPT"):
        if re.search(r"</(script|style)", parts[mark], re.I):
            raise Refused(f"{PARTS[mark]} would end its element")
    return re.sub(r"@@(\w+)@@", lambda it: parts[it[1]], read(f"{HERE}/page.html"))


def sum_of_files(crate):
    """Of the files here that this crate's modules are made of."""
    rows = read_rows(TOP)
    crates = [*crates_below(rows, crate), crate]
    found = hashlib.sha256("".join(rows[it][0] for it in crates).encode())
    names = [f"{HERE}/heap.c", f"{HERE}/module.py"]
    for it in crates:
        for part in ("src", "specs", "proofs"):
            for at, _, files in os.walk(f"{TOP}/crates/{it}/{part}"):
                names += [f"{at}/{name}" for name in files if not name.startswith(".")]
    for name in sorted(names):
        with open(name, "rb") as file:
            found.update(repr([os.path.relpath(name, TOP), file.read()]).encode())
    return found.hexdigest()


def sum_of_build(kit, crate):
    """Of all that this crate's modules are made of, the tools among it."""
    return hashlib.sha256("".join([read(f"{kit}/KIT-ID"), module.run("wasm-opt", "--version"), sum_of_files(crate)]).encode()).hexdigest()


def read_page(crate):
    """What docs/nidzaru.html has of this crate, and docs/stepper.html too, if that was built of the files that lie here, or None."""
    text = read(PAGE) if os.path.exists(PAGE) else ""
    if dict(IN_PAGE.findall(text)).get(crate) != sum_of_files(crate):
        return None
    if crate == CELL:
        # (the sum is of the module in the page, which has the stepper's page as JSON: the other file may have an older one)
        letters = IN_STEPPER.search(read(STEPPER))
        return {"cell.wasm": base64.b64decode(letters[2])} if letters and json.dumps(letters[2])[1:-1] in text else None
    return {"wide.wasm": unpacked(text, "wide"), "narrow.wasm": unpacked(text, "narrow"), "verdict": VERDICT.search(text)[1].encode()}


def read_kept(kept, crate, wanted):
    """What was built of this crate by the same tools of the same files, or None."""
    try:
        if read(f"{kept}/{crate}.sum") != wanted:
            return None
        found = {}
        for name in KEPT[crate]:
            with open(f"{kept}/{name}", "rb") as file:
                found[name] = file.read()
        return found
    except OSError:
        return None


def built(kit, crate, part):
    """By their names what is built of this crate, over what lies in this part of the folders `out/` of those below it."""
    with tempfile.TemporaryDirectory() as room:
        print(f"page: compiles {crate} for WebAssembly", flush=True)
        return module.make_cell(kit, room, part) if crate == CELL else module.make_modules(kit, room, part)


def see_tools():
    """Sees that what builds the modules is there."""
    if not shutil.which("rt"):
        raise Refused("the Rattle toolchain's command rt isn't on the PATH")
    if not shutil.which("wasm-opt"):
        raise Refused("there is no wasm-opt, of the package binaryen: apt-get install binaryen")


def build(crate, asked):
    """By their names the modules of this crate and the prover's line, as they were kept or made anew."""
    see_tools()
    kit, kept = module.kit_folder(), f"{TOP}/out/page"
    wanted = sum_of_build(kit, crate)
    found = None if asked.anew else read_kept(kept, crate, wanted)
    if found is None:
        if asked.over is None:
            below = [it for it in read_rows(TOP)[crate][1] if os.path.isdir(f"{TOP}/crates/{it}")]
            if subprocess.run([sys.executable, f"{TOP}/build/build.py", *below], check=False).returncode:
                raise Refused("the libraries below aren't built")
        found = built(kit, crate, asked.over or "stated")
        keep(kept, crate, found, wanted)
    return found


def keep(kept, crate, found, wanted):
    """Keeps what was built of this crate; the sum, by which it is taken, stands there only while the rest does."""
    os.makedirs(kept, exist_ok=True)
    if os.path.exists(f"{kept}/{crate}.sum"):
        os.remove(f"{kept}/{crate}.sum")
    for name, what in {**found, f"{crate}.sum": wanted.encode()}.items():
        with open(f"{kept}/{name}", "wb") as file:
            file.write(what)


def modules(crates, asked):
    """By their names the modules of these crates and the prover's line."""
    made = {}
    for crate in crates:
        found = None if asked.anew else read_page(crate)
        if found is None and asked.kept:
            raise Refused(MENDED[crate])
        made |= found or build(crate, asked)
    return made


def write(path, text):
    """Writes a file whole, or leaves the one that is there; what is no file (a pipe) is written as it is."""
    path = os.path.realpath(path)
    os.makedirs(os.path.dirname(path), exist_ok=True)
    half = f"{path}.new" if os.path.isfile(path) or not os.path.exists(path) else path
    with open(half, "w", encoding="utf-8") as file:
        file.write(text)
    if half != path:
        os.replace(half, path)


def main():
    words = argparse.ArgumentParser(prog="page", description="Builds the page: the proved checker, player and pictures in one HTML file.")
    words.add_argument("--over", metavar="PART", help="take the libraries as they are built in this part of their folders out/")
    kept = words.add_mutually_exclusive_group()
    kept.add_argument("--anew", action="store_true", help="take no module that was built before: prove and build all")
    kept.add_argument("--kept", action="store_true", help="take the modules of docs/nidzaru.html, and build none")
    words.add_argument("--cell", action="store_true", help="build docs/stepper.html alone, with the module that steps a cell")
    words.add_argument("out", nargs="?", help="the file, out/nidzaru.html if none is named")
    asked = words.parse_args()
    try:
        made = modules((CELL,) if asked.cell else (CRATE, CELL), asked)
        out, text = (STEPPER, stepper(made["cell.wasm"])) if asked.cell else (f"{TOP}/out/nidzaru.html", page(made))
    except (Refused, OSError) as fault:
        print(f"page: it isn't built: {fault}", file=sys.stderr)
        return 1
    out = asked.out or out
    write(out, text)
    sizes = " and ".join(str(len(what)) for name, what in made.items() if name in ("wide.wasm", "narrow.wasm", "cell.wasm"))
    print(f"page: {out}, {len(text.encode())} bytes; modules of {sizes} bytes")
    return 0


if __name__ == "__main__":
    sys.exit(main())
