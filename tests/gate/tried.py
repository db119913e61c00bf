"""Which wrong bodies a run of `./test` has to try: all of a crate that has changed since all of its own were tried and refused, and of the
other crates each tenth, by turns.

tests/gate/tried.txt has by a crate's name a sum of all on which the prover's answers depend: the kit by the sums of its archive and its
compiler (WHAT), as machines have one kit under several names, what tries the wrong bodies, and of the crate and each one below it the row
of crates.txt and the files. `./test bodies` writes it, and each run of `./test` out/tried.txt, which may take its place. A sum of anything
else leaves out no try, so where a line is missing or written by hand all of the crate are tried.
"""

import hashlib
import re
import subprocess

SOURCES = ("src", "specs", "proofs")
TURNS = 10
JUDGES = ("tests/gate/wrong_bodies.py", "tests/gate/tried.py", "build/listed.py")
LINE = re.compile(r"(?m)^(\w+) ([0-9a-f]{64})$")


def digest(parts):
    """The sum of these bytes, each with its length."""
    found = hashlib.sha256()
    for part in parts:
        found.update(len(part).to_bytes(8, "big") + part)
    return found.hexdigest()


def files_of(top, name, folders):
    for folder in folders:
        for file in sorted(it for it in (top / "crates" / name / folder).rglob("*") if it.is_file()):
            yield str(file.relative_to(top)).encode()
            yield file.read_bytes()


def sums_of(top, kit, rows, below):
    """By each crate's name its sum. `below` has the names of the crates below each."""
    common = [file.read_bytes() for file in [kit / "WHAT", *(top / it for it in JUDGES)]]
    own = {name: digest([row.encode(), *files_of(top, name, SOURCES)]) for name, (row, _) in rows.items()}
    return {
        name: digest([*common, *(own[it].encode() for it in [*below[name], name]), *files_of(top, name, ("must-fail",))]) for name in rows
    }


def are_built(top, names):
    """Whether what is built of each of these crates is as new as its sources."""
    for name in names:
        built = top / "crates" / name / "out/rlib" / f"{name}.rlib"
        sources = [it for folder in SOURCES for it in (top / "crates" / name / folder).rglob("*")]
        if not built.exists() or any(it.stat().st_mtime > built.stat().st_mtime for it in sources):
            return False
    return True


def place(top):
    return top / "tests/gate/tried.txt"


def read(top):
    file = place(top)
    return dict(LINE.findall(file.read_text(encoding="utf-8"))) if file.is_file() else {}


def write(file, sums):
    file.parent.mkdir(parents=True, exist_ok=True)
    file.write_text("".join(f"{name} {it}\n" for name, it in sorted(sums.items())), encoding="utf-8")


def turn_of(top):
    """The number of the commits up to this one, or none where this is no repository."""
    words = ["git", "-C", str(top), "rev-list", "--count", "HEAD"]
    counted = subprocess.run(words, stdout=subprocess.PIPE, stderr=subprocess.DEVNULL, text=True, check=False)
    return int(counted.stdout) if counted.returncode == 0 else None


def is_due(crate, edit, turn):
    """Whether it is an edit's turn. Each has one of ten, by its name."""
    return int(digest([crate.encode(), edit.encode()]), 16) % TURNS == turn % TURNS
