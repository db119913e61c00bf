"""Wrong headers and crates, which the tests must refuse: each is one edit of nidzaru.h, nidzaru.hpp or the crate for Rust.

    planted.py LIBRARY [WORD..]     over this libnidzaru.a; with words those edits alone whose names have one of them

The edits stand in edits.py. An edit's old text stands once in its file; blanks and the backslashes of macros match any others. The test
that is named has to pass over the files as they are, and to fail over the edited ones: by a check that it tells, a crash, a race, or the
compiler's word where that is named. That a test can't be built for another reason doesn't count. The controls are edits that no test
refuses: each has to be told for its reason. As many rooms as RT_JOBS says, or as there are processors, work at once. The last line is the
sums.
"""

import concurrent.futures
import glob
import os
import queue
import re
import shutil
import signal
import subprocess
import sys
import tempfile
import time

HERE = os.path.dirname(os.path.realpath(__file__))
TOP = os.path.dirname(os.path.dirname(HERE))
sys.path.insert(0, HERE)
import refused  # noqa: E402
from edits import BLOCK, BOARDS, CLASSES, CRATE, FANS, H, HEADER, HPP, LIB, MADE, RAW, SHARED, WATCHED  # noqa: E402

# What stands before a command, and so many seconds it may take.
BEFORE, LONGEST = [], 240
MEMORY = ["malloc", "realloc", "free"]
PAUSED = ["8_write", "8_read", "8_look", "triple_8_write", "triple_8_publish", "triple_8_look", "board_24_write", "board_24_read", "board_24_read_since"]
PAUSED_RUST = [name.replace("8_", "24_") for name in PAUSED]
FANNED = [*MEMORY, "nidzaru_24_write", "nidzaru_triple_24_write"]
PASSED = [f"{cell}{call}" for cell in ("24_", "triple_24_", "board_24_", "triple_board_24_") for call in ("make", "write")]


def wraps(names, prefix=""):
    return [f"-Wl,--wrap={prefix}{name}" for name in names]


C11 = ["gcc", "-std=c11", "-D_GNU_SOURCE", "-O0", "-w", "-pthread"]
OPTIMIZED = ["gcc", "-std=c11", "-O2", "-w", "-pthread"]
CPP17 = ["g++", "-std=c++17", "-O0", "-w", "-pthread"]
CPP20 = ["g++", "-std=c++20", "-O0", "-w", "-pthread"]
RACES = ["gcc", "-std=c11", "-D_GNU_SOURCE", "-g", "-O1", "-w", "-pthread", "-fsanitize=thread"]
RACES_CPP = ["g++", "-std=c++17", "-g", "-O1", "-w", "-pthread", "-fsanitize=thread"]
ADDRESSES = ["gcc", "-std=c11", "-g", "-O1", "-w", "-pthread", "-fsanitize=address"]
UNFILLED = ["clang", "-std=c11", "-O0", "-w", "-fsanitize=memory"]
LED = [f"triple_{size}_{call}" for size in (8, 24, 64, 128, 256, 1024, 4096, 65536, 1048576) for call in ("hold", "loan")]
# Tests that are built and run: the compiler, the sources, its words, and what the linker puts between.
PROGRAMS = {
    "calls": (C11, "calls.c", [], wraps(MEMORY)),
    "edges": (C11, "edges.c", [], wraps(MEMORY)),
    "boards": (C11, "boards.c", ["20"], wraps(MEMORY)),
    "board_edges": (C11, "board_edges.c", [], wraps(MEMORY)),
    "fans": (C11, "fans.c", ["500"], wraps(FANNED)),
    "fans, watched": (ADDRESSES, "fans.c", ["500"], wraps(FANNED)),
    "fans.cpp": (CPP17, "fans.cpp", [], wraps(MEMORY)),
    "held": (C11, "held.c", ["2000"], []),
    "large": (OPTIMIZED, "large.c", [], ["-DWORDS=131072", "-DTRIPLE"]),
    "loaned": (C11, "loaned.c", ["2000"], []),
    "made": (C11, "made.c", [], []),
    "made.cpp": (CPP17, "made.cpp", [], []),
    "loaned, watched": (RACES, "loaned.c", ["2000", "threads"], []),
    "watched": (RACES, "watched.c elsewhere.c", ["clean"], []),
    "led": (ADDRESSES, "loaned.c led.c", ["500"], wraps(LED, "nidzaru_")),
    "test.cpp": (CPP17, "test.cpp", ["300"], wraps(MEMORY)),
    "objects": (CPP17, "boards.cpp", ["20"], wraps(MEMORY)),
    "objects, C++20": (CPP20, "boards.cpp", ["20"], wraps(MEMORY)),
    "passed": (CPP17, "passed.cpp", [], wraps(PASSED, "nidzaru_")),
    "pairs": (RACES, "pairs.c", ["clean"], wraps(PAUSED, "nidzaru_")),
    "filled": (UNFILLED, "filled.c", ["clean"], []),
}
# What has to be seen, and by which words of the sanitizer: the first word of a test, the compiler, the sources, and what it says.
SEEN = {
    "other": (RACES, "watched.c elsewhere.c", "#0 read_elsewhere "),
    "twice": (RACES, "watched.c elsewhere.c", "#0 nidzaru_begin "),
    "record": (RACES, "watched.c elsewhere.c", "#0 change_shared "),
    "class": (RACES_CPP, "watched.cpp", "#0 change_shared "),
    "refused": (UNFILLED, "filled.c", "use-of-uninitialized-value"),
}
# Edits that are to be told: the row, and how the reason begins.
CONTROLS = [
    (("a comment", [H], "/* Whether the first stamp is the smaller one. */", "/* */", "held", None), "it gets through held"),
    (("a text that isn't there", [H], "such a text", "", "held", None), "its old text stands 0 times"),
    (("a text that stands twice", [H], "NIDZARU_NO_MEMORY", "", "held", None), "its old text stands "),
    (("a header that isn't C", [H], "int nidzaru_is_copied(", "int nidzaru_is_coped(", "held", None), "it wasn't built: "),
    (("a header that isn't C, for another reason", [H], "int nidzaru_is_copied(", "int nidzaru_is_coped(", "held", "a held record"),
     "it wasn't built for another reason"),
]


class Room:
    """A folder with the headers and the crate, in which one edit after the other is made."""

    def __init__(self, folder, library):
        self.folder, self.library = folder, os.path.abspath(library)
        self.headers, self.crate = os.path.join(folder, "c"), os.path.join(folder, "rust")
        os.makedirs(os.path.join(folder, "lib"))
        shutil.copy(library, os.path.join(folder, "lib/libnidzaru.a"))
        with open(f"{TOP}/c/nidzaru.h", encoding="utf-8") as file:
            self.version = ".".join(re.findall(r"#define NIDZARU_VERSION_(?:MAJOR|MINOR|PATCH) (\d+)", file.read()))
        with open(f"{folder}/lib/nidzaru.pc", "w", encoding="utf-8") as file:
            file.write(f"libdir={folder}/lib\nName: nidzaru\nDescription: the library\nVersion: {self.version}\nLibs: -L{folder}/lib -lnidzaru\n")
        os.makedirs(self.headers)
        shutil.copytree(f"{TOP}/rust/nidzaru", self.crate)
        shutil.copytree(f"{TOP}/rust/pairs", os.path.join(folder, "pairs"))
        # What is built of the headers as they are now.
        self.built = {}
        self.edit("../pairs/Cargo.toml", '"../nidzaru"', '"../rust"')
        self.restore()

    def restore(self):
        if not self.is_edited:
            return
        self.is_edited, self.built = False, {}
        for name in ("nidzaru.h", "nidzaru.hpp"):
            shutil.copy(f"{TOP}/c/{name}", self.headers)
        for name in ("Cargo.toml", LIB, BOARDS, RAW, WATCHED, BLOCK, SHARED, FANS, MADE):
            shutil.copyfile(f"{TOP}/rust/nidzaru/{name}", f"{self.crate}/{name}")

    def edit(self, path, old, new, all_of_them=False):
        self.is_edited, self.built = True, {}
        path = os.path.join(self.folder, path) if path.startswith("c/") else os.path.join(self.crate, path)
        with open(path, encoding="utf-8") as file:
            text = file.read()
        blank = r"(?:[\s\\])+"
        pattern = blank.join(re.escape(word) for word in old.split())
        found = len(re.findall(pattern, text))
        if found != 1 and not all_of_them or not found:
            raise ValueError(f"its old text stands {found} times in {path}")
        with open(path, "w", encoding="utf-8") as file:
            file.write(re.sub(pattern, lambda _: new, text))

    def call(self, command, text=None, **more):
        """The status and what was said; what doesn't end is killed with all that it began."""
        how = {"stdout": subprocess.PIPE, "stderr": subprocess.PIPE, "text": True, "errors": "replace", "start_new_session": True}
        stdin = subprocess.DEVNULL if text is None else subprocess.PIPE
        with subprocess.Popen([*BEFORE, *command], stdin=stdin, **how, **more) as it:
            try:
                out, err = it.communicate(text, timeout=LONGEST)
            except subprocess.TimeoutExpired:
                os.killpg(it.pid, signal.SIGKILL)
                it.communicate()
                return 124, "it didn't end"
            return it.returncode, out + err

    # Each test gives: whether it was built, whether it passed, and what was said.
    def build(self, compiler, sources, between=()):
        out = os.path.join(self.folder, f"program{len(self.built)}")
        command = [*compiler, "-I", self.headers, *[f"{HERE}/{name}" for name in sources.split()], *between, self.library]
        if str(command) not in self.built:
            status, said = self.call([*command, "-o", out])
            self.built[str(command)] = None if status else out, said
        return self.built[str(command)]

    def program(self, name):
        compiler, sources, words, between = PROGRAMS[name]
        out, said = self.build(compiler, sources, between)
        if not out:
            return False, False, said
        status, said = self.call([out, *words], env={**os.environ, "TSAN_OPTIONS": "exitcode=66"})
        return True, status == 0 and said.split("\n")[-2:-1] == ["passed"], said

    def seen(self, words):
        compiler, sources, wanted = SEEN[words.split()[0]]
        out, said = self.build(compiler, sources)
        if not out:
            return False, False, said
        status, said = self.call([out, *words.split()], env={**os.environ, "TSAN_OPTIONS": "exitcode=66", "MSAN_OPTIONS": "exitcode=66"})
        return True, status == 66 and wanted in said, said

    def held_room(self):
        """What a file takes of the program's memory for a small record that it holds."""
        text = "#include <nidzaru.h>\nNIDZARU_TRIPLE_REGISTER(cells, double);\nNIDZARU_HOLD(cells);\n"
        text += "int f(cells_reader *r, const double **at, uint64_t *n) { return cells_hold(r, at, n); }\n"
        out = os.path.join(self.folder, "held.o")
        status, said = self.call(["gcc", "-O0", "-w", "-c", "-I", self.headers, "-x", "c", "-", "-o", out], text=text)
        if status:
            return False, False, said
        _, said = self.call(["size", out])
        return True, int(said.split("\n")[1].split()[2]) <= 64, "FAILED: " + said

    def refusals(self, words):
        name, language = words.rsplit(" ", 1)
        page = next(it for it in refused.PAGES if it[:2] == (name, language))
        wrong = list(refused.faults(page, self.headers, {refused.C: "gcc", refused.CPP: "g++"}))
        return True, not wrong, " ".join(wrong)

    def narrow(self):
        return True, refused.is_refused_for_narrow_pointers(self.headers, "gcc"), "FAILED: it is taken"

    def release(self):
        """A header of the next release asks for a name that this library doesn't have, for a register as for a board."""
        major, minor, _ = self.version.split(".")
        self.edit(H, f"#define NIDZARU_VERSION_MINOR {minor}", f"#define NIDZARU_VERSION_MINOR {int(minor) + 1}")
        wanted = f"nidzaru_since_{major}_{int(minor) + 1}"
        said = ""
        for call in ("cells_make(&x, (cells_writer *)p, (cells_reader *)p)", "boards_make(&x, (boards_place *)p, 2)"):
            text = "#include <nidzaru.h>\nNIDZARU_REGISTER(cells, double);\nNIDZARU_BOARD(boards, double);\nstatic char p[999];\n"
            text += f"int main(void) {{ double x = 0; return {call}; }}\n"
            status, more = self.call(["gcc", "-O2", "-w", "-I", self.headers, "-x", "c", "-", "-x", "none", self.library, "-o", "/dev/null"], text=text)
            said += more
            if not status or wanted not in more:
                return True, False, "FAILED: " + call + " links with an older library"
        return True, True, said

    def run_cargo(self, *words, crate="rust", packages="lib", target="target", **more):
        env = {**os.environ, "PKG_CONFIG_PATH": f"{self.folder}/{packages}", "CARGO_TARGET_DIR": f"{self.folder}/{target}",
               "CARGO_PROFILE_DEV_DEBUG": "0", "CARGO_PROFILE_TEST_DEBUG": "0", "CARGO_BUILD_JOBS": "1", **more}
        return self.call(["cargo", *words, "--offline", "--quiet", "--manifest-path", f"{self.folder}/{crate}/Cargo.toml"], env=env)

    def cargo(self, words):
        kind, *names = words.split()
        shared = ["--features", "shared"]
        targets = {"doc": ["--doc", *names], "test": ["--test", *names], "lib": ["--lib", *names], "blocks": [*shared, "--test", "shared"],
                   "blocks_doc": [*shared, "--doc", *names]}[kind]
        status, said = self.run_cargo("test", *targets)
        return "could not compile" not in said, status == 0 and "test result: ok" in said, said

    def crate_release(self):
        """The same of the crate."""
        major, minor, _ = self.version.split(".")
        wanted = f"nidzaru_since_{major}_{int(minor) + 1}"
        later = f"{major}.{int(minor) + 1}.0"
        self.edit("Cargo.toml", f'version = "{self.version}" edition', f'version = "{later}"\nedition')
        os.makedirs(f"{self.folder}/later", exist_ok=True)
        with open(f"{self.folder}/lib/nidzaru.pc", encoding="utf-8") as file, open(f"{self.folder}/later/nidzaru.pc", "w", encoding="utf-8") as to:
            to.write(file.read().replace(self.version, later))
        said = ""
        for name, made in (("asks_by_a_register", "register(1)"), ("asks_by_a_board", "board(2, 1)")):
            with open(f"{self.crate}/examples/{name}.rs", "w", encoding="utf-8") as file:
                file.write(f"fn main() {{ std::process::exit(i32::from(nidzaru::{made}.is_err())) }}\n")
            status, more = self.run_cargo("build", "--example", name, packages="later")
            said += more
            if not status or wanted not in more:
                return True, False, f"FAILED: {name} links with an older library, or for another reason: {more[-300:]}"
        return True, True, said

    def races(self, words):
        """Pairs of a store and a load in Rust, whose only order is a call; with a word the pair that has none, a race."""
        flags = ["-Zsanitizer=thread", "-Cunsafe-allow-abi-mismatch=sanitizer", *(f"-Clink-arg={it}" for it in wraps(PAUSED_RUST, "nidzaru_"))]
        target = "x86_64-unknown-linux-gnu"
        status, said = self.run_cargo("build", "--release", "--target", target, crate="pairs", target="races", RUSTC_BOOTSTRAP="1",
                                      RUSTFLAGS=" ".join(flags))
        if status:
            return False, False, said
        status, said = self.call([f"{self.folder}/races/{target}/release/pairs", words or "clean"],
                                 env={**os.environ, "TSAN_OPTIONS": "exitcode=66"})
        return True, status == 66 and "#0 pairs::load " in said if words else status == 0 and said == "passed\n", said

    def test(self, name):
        if name in PROGRAMS:
            return self.program(name)
        if name in ("release", "crate_release", "held_room", "narrow"):
            return getattr(self, name)()
        kind, _, rest = name.partition(" ")
        return {"seen": self.seen, "refused": self.refusals, "races": self.races}.get(kind, lambda _: self.cargo(name))(rest)


def has_races_in_rust():
    """Whether this compiler has ThreadSanitizer's library."""
    root = subprocess.run(["rustc", "--print", "sysroot"], capture_output=True, text=True, check=True).stdout.strip()
    return glob.glob(f"{root}/lib/rustlib/x86_64-unknown-linux-gnu/lib/librustc*_rt.tsan.a") != []


def edits():
    """All edits: name, files, old, new, test, and the compiler's word or None."""
    for path, rows in ((H, HEADER), (HPP, CLASSES)):
        for name, old, new, test, *word in rows:
            yield name, [path], old, new, test, (word or [None])[0]
    if shutil.which("cargo"):
        for name, path, old, new, test in CRATE:
            if test.startswith("races") and not has_races_in_rust():
                continue
            yield f"crate: {name}", path if isinstance(path, list) else [path], old, new, test, None


def verdict(room, row):
    """None where the test refuses the edit, else why it doesn't."""
    name, paths, old, new, test, word = row
    try:
        for path in paths:
            room.edit(path, old, new, len(paths) > 1)
    except ValueError as error:
        return str(error)
    built, passed, said = room.test(test)
    if word is not None and not built:
        return None if word in said else "it wasn't built for another reason: " + said[:200]
    if not built:
        return "it wasn't built: " + said[:300]
    return f"it gets through {test}" if passed else None


def judge(room, row, wanted, what):
    """What is told of a row whose verdict isn't as it is to be: `wanted` is how its reason begins, or None where it is refused."""
    why = verdict(room, row)
    good = why is None if wanted is None else why is not None and why.startswith(wanted)
    return None if good else f"{what}{row[0]}: {why or 'it is refused'}"


def try_test(room, test):
    """What is told of a test that doesn't pass over the files as they are."""
    built, good, said = room.test(test)
    return None if good else f"{test} over the headers as they are{'' if built else ', not built'}: {said[-300:]}"


def over_rooms(rooms, checks):
    """Makes each check in one of the rooms, and tells of those that fail."""
    free = queue.SimpleQueue()
    for room in rooms:
        free.put(room)

    def work(check):
        room = free.get()
        try:
            return check(room)
        finally:
            room.restore()
            free.put(room)

    failed = 0
    with concurrent.futures.ThreadPoolExecutor(len(rooms)) as pool:
        for told in pool.map(work, checks):
            if told is not None:
                failed += 1
                print(f"test: planted: FAILED: {told}", flush=True)
    return len(checks) - failed, failed


def main(library, words):
    began = time.monotonic()
    rows = [row for row in edits() if not words or any(word in row[0] for word in words)]
    with tempfile.TemporaryDirectory() as folder:
        jobs = min(int(os.environ.get("RT_JOBS") or os.cpu_count() or 1), max(len(rows), 1))
        rooms = [Room(f"{folder}/{k}", library) for k in range(jobs)]
        checks = [lambda room, test=test: try_test(room, test) for test in dict.fromkeys(row[4] for row in rows)]
        checks += [lambda room, row=row: judge(room, row, None, "") for row in rows]
        checks += [lambda room, row=row, wanted=wanted: judge(room, row, wanted, "control: ") for row, wanted in CONTROLS]
        passed, failed = over_rooms(rooms, checks)
    spent = os.times()
    print(f"test: planted: {len(rows)} wrong headers and crates, {(spent.children_user + spent.children_system) / 60:.1f} processor minutes, "
          f"{(time.monotonic() - began) / 60:.1f} minutes")
    print(f"{passed} passed, {failed} failed")
    return failed != 0 or not rows


if __name__ == "__main__":
    if len(sys.argv) < 2:
        sys.exit(__doc__)
    sys.exit(main(sys.argv[1], sys.argv[2:]))
