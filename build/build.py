"""Proves and builds crates of the repository and those that they stand on, side by side where they don't stand on each other.

    build.py [--machine MACHINE] CRATE ..
    build.py [--machine MACHINE] --over-gate CRATE
                    proves and builds a library for C alone, over what the gate has built of those below it

MACHINE is x86_64, the default, or aarch64, for which the library for C and the programs fsr and picture are built. Proofs and what is built
of other crates don't depend on it. So these three keep what their proofs took in a folder of out/, from which the build for the other
machine takes it, if no file has changed meanwhile. The line by which the prover tells that all is proved stays in the file `verdict`.

A crate is proved by the toolchain's `rattle build`, over what the libraries below it state and without their proofs: so a verdict of
`rt` proves it too, and it takes a fifth less than `rt lib`, which keeps all for the next check. What is built of a library stands in the
folder STATED of its out/, and is built again where a file of it or below it has changed. What `rt` keeps in out/ stays as it is.

RT_JOBS=N allots N processors in place of all that there are. The status is 0 where all that was named is built.
"""

import fcntl
import hashlib
import heapq
import os
import random
import re
import selectors
import shutil
import signal
import subprocess
import sys
import time

from listed import crates_below, rattle_words, read_rows

TOP = os.path.dirname(os.path.dirname(os.path.realpath(__file__)))
SOURCES = ("src", "specs", "proofs")
# The folder of out/ for what is built of a library, and for the sum of what a crate was built from.
STATED = "stated"
# The machines that are built for. What is built for another one than the first stands in a folder of its name.
MACHINES = "x86_64", "aarch64"
# What is built for all of them.
FOR_ALL = "c_exports", "fsr", "picture"
# A proof in several jobs takes some three fifths more processor time than in one, however many they are, and begins and ends in one. So two
# jobs end no sooner than one, and these do. A program gains nothing.
LEAST_JOBS, MOST_JOBS = 3, 4
# Processor seconds below which a proof gets one job.
SMALL = 30
# Bytes that a proof takes for its first job and for each further one.
FIRST_JOB, NEXT_JOB = 2_000_000_000, 700_000_000
# Processor seconds that code over these libraries of the kit takes beyond what its text says. (A library whose own calls take or give a
# `serde_json::Value` keeps what is stated of all that this type reaches.)
BEYOND = {"clap": 75, "serde_json": 20}
# The programs that answer first. Rattle's own code generator makes them, in half of the time that LLVM takes.
FIRST = ("fsr_check", "fsr_log", "fsr_once", "fsr_order", "fsr_coherent", "fsr_play", "fsr_watch")
# How many orders are tried beside that of the longest chain first, and by how much of itself a chain counts for more there at most.
TRIES, MORE = 300, 0.5
# Seconds after which a folder that another build works in is asked for again.
PAUSE = 1
# The prover's allocator keeps what was freed for what comes next. (To give it back and ask for it again took 2 to 12 % of a few proofs.)
KEPT_MEMORY = {"MIMALLOC_PURGE_DELAY": "-1"}


def say(text):
    print(f"build: {text}", flush=True)


def text_of(path):
    try:
        with open(path, encoding="utf-8") as file:
            return file.read()
    except OSError:
        return None


class Kit:
    """The toolchain that the command rt belongs to."""

    def __init__(self):
        how = {"capture_output": True, "text": True, "check": True}
        page, self.version = (subprocess.run(["rt", it], **how).stdout.strip() for it in ("doc", "version"))
        self.folder = os.path.dirname(page)


class Crate:
    def __init__(self, row, name, words, machine):
        self.row, self.name, self.words, self.machine = row, name, words, machine
        self.folder = f"{TOP}/crates/{name}"
        self.stated = f"{self.folder}/out/{STATED}"
        self.is_program = os.path.isfile(f"{self.folder}/src/main.rt")
        self.is_static = "staticlib" in row.partition(":")[0].split()
        # where it is built, and where it stands then
        self.output = self.made = f"{self.stated}/{name}.rlib"
        self.kept, self.proofs = self.stated, None
        if self.is_program or self.is_static:
            own = "" if machine == MACHINES[0] else f"/{machine}"
            file = name if self.is_program else f"lib{name}.a"
            self.kept = f"{self.stated}{own}"
            self.output, self.made = f"{self.kept}/{file}", f"{self.folder}/out{own}/{file}"
        if name in FOR_ALL:
            self.proofs = f"{self.stated}/proofs"

    def files(self, *parts):
        walked = (it for part in parts for it in os.walk(f"{self.folder}/{part}"))
        # (a name with a dot in front is an editor's)
        return sorted(f"{at}/{it}" for at, _, names in walked for it in names if not it.startswith("."))

    def weight(self):
        """About how many processor seconds its proof takes, by its text: each crate some, a program more, and what its code is. Its proofs
        take little beside that."""
        known = (48 if self.is_program else 8) + sum(BEYOND.get(it, 0) for it in self.words)
        texts = [text_of(it) or "" for it in self.files("src")]
        return known + sum(len(it) / 450 + len(re.findall(r"\bfn \w", it)) / 2 for it in texts)

    def sum(self, kit):
        """Of what it is made: the toolchain, its row, the crates below it as they are built, and its files."""
        found = hashlib.sha256(repr([kit.version, self.row, *(text_of(f"{it.stated}/sum") for it in self.uses)]).encode())
        linked = [f"{TOP}/c/os.c"] if self.proofs and self.is_program else []
        for path in [*self.files(*SOURCES), *linked]:
            with open(path, "rb") as file:
                found.update(repr([os.path.relpath(path, self.folder), file.read()]).encode())
        return found.hexdigest()

    def seal(self):
        """What tells that a program or the library for C is still the one that was built here: `rt` builds it in the same place."""
        if self.made == self.output:
            return "-"
        with open(self.made, "rb") as file:
            return hashlib.sha256(file.read()).hexdigest()

    def is_built(self, kit):
        """Whether it is built of what it is made of now. The crates below it are."""
        kept = text_of(f"{self.kept}/sum")
        below_kept = all(text_of(f"{it.stated}/sum") for it in self.uses)
        return below_kept and os.path.exists(self.made) and kept == f"{self.sum(kit)} {self.seal()}"

    def settle(self, began):
        """Puts a program or the library for C in its place, with the time at which its build began, so that an edit during the build isn't
        missed."""
        if self.made != self.output:
            os.makedirs(os.path.dirname(self.made), exist_ok=True)
            os.utime(self.output, (began, began))
            os.replace(self.output, self.made)

    def begin_proofs(self, of):
        """Empties the folder with what the proofs took, unless it is of these files."""
        if self.proofs and text_of(f"{self.stated}/proofs_of") != of:
            shutil.rmtree(self.proofs, ignore_errors=True)
            with open(f"{self.stated}/proofs_of", "w", encoding="utf-8") as file:
                file.write(of)

    def keep_verdict(self, told):
        """Keeps the line by which the prover tells that all is proved."""
        lines = re.findall(r"(?m)^logic=.*$", told)
        with open(f"{os.path.dirname(self.made)}/verdict", "w", encoding="utf-8") as file:
            file.write(f"{lines[-1]}\n" if lines else "")

    def commands(self, kit, jobs, part, output):
        """What proves and builds it, run in its folder, over what lies in this part of the folders of those below it."""
        root = f"src/{'main' if self.is_program else 'lib'}.rt"
        lower = {it.name: f"{it.folder}/out/{part}" for it in self.below}
        words = rattle_words(kit.folder, self.name, root, self.words, lower)
        build = [f"{kit.folder}/bin/rattle", "build", *words, "--jobs", str(jobs)]
        linked = ["--toolchain", f"{kit.folder}/toolchain", "--backend", "rattle" if self.name in FIRST else "llvm"]
        if self.proofs:
            linked += ["--target", f"{self.machine}-unknown-linux-gnu", "--incremental", self.proofs]
        if self.is_static:
            return [[*build, "--crate-type", "staticlib", "--links", f"{self.name}=", *linked, "-o", output]]
        if not self.is_program:
            return [[*build, "--statements", "-o", output]]
        code = f"{self.kept}/{self.name}.o"
        return [[*build, *linked, "-o", code], self.link(kit, code, output)]

    def link(self, kit, code, output):
        """The command that makes the program of its object: for both machines with what c/os.c has of the system, else with the kit's."""
        if self.proofs:
            return ["sh", f"{TOP}/build/link.sh", self.machine, code, output]
        of_c = [f"{kit.folder}/c/{it}" for it in ("libos_c.a", "liblibc_c.a")]
        target = f"{MACHINES[0]}-unknown-linux-gnu"
        return [f"{kit.folder}/bin/rattle-link", "--target", target, "--toolchain", f"{kit.folder}/toolchain", "-o", output, code, *of_c]


def read_crates(machine=MACHINES[0]):
    """The crates of crates.txt by their names."""
    rows = read_rows(TOP)
    crates = {name: Crate(row, name, words, machine) for name, (row, words) in rows.items()}
    for crate in crates.values():
        crate.uses = [crates[it] for it in crate.words if it in crates]
        crate.below = [crates[it] for it in crates_below(rows, crate.name)]
    return crates


def number_in(path, pattern):
    try:
        return int(re.search(pattern, text_of(path))[1])
    except TypeError:
        return None


def processors():
    asked = os.environ.get("RT_JOBS", "")
    if asked.isdigit() and int(asked):
        return int(asked)
    found = len(os.sched_getaffinity(0))
    old = "/sys/fs/cgroup/cpu/cpu.cfs"
    quota = number_in("/sys/fs/cgroup/cpu.max", r"^(\d+)") or number_in(f"{old}_quota_us", r"^(\d+)")
    period = number_in("/sys/fs/cgroup/cpu.max", r" (\d+)") or number_in(f"{old}_period_us", r"^(\d+)")
    return max(min(found, quota // period), 1) if quota and period else found


def free_memory():
    free = 1024 * (number_in("/proc/meminfo", r"MemAvailable:\s+(\d+)") or 4_000_000)
    old = "/sys/fs/cgroup/memory/memory"
    limit = number_in("/sys/fs/cgroup/memory.max", r"^(\d+)") or number_in(f"{old}.limit_in_bytes", r"^(\d+)")
    held = number_in("/sys/fs/cgroup/memory.stat", r"anon (\d+)") or number_in(f"{old}.stat", r"total_rss (\d+)")
    return free if limit is None or held is None else min(free, limit - held)


def lock(shared, own=None):
    """Keeps other builds from changing these folders, and out of its own if it has one; or takes none where another build is in the way."""
    held = []
    for folder in [own, *shared] if own else shared:
        held.append(os.open(folder, os.O_RDONLY))
        try:
            fcntl.flock(held[-1], fcntl.LOCK_NB | (fcntl.LOCK_EX if folder == own else fcntl.LOCK_SH))
        except BlockingIOError:
            unlock(held)
            return None
        except OSError:
            # (some file systems have no locks)
            pass
    return held


def unlock(held):
    for it in held:
        os.close(it)


class Work:
    """A crate that is being proved and built. The crates below it are built."""

    def __init__(self, crate, kit, jobs, held):
        self.crate, self.kit, self.jobs, self.held = crate, kit, jobs, held
        self.began, self.spent, self.sum = time.time(), 0, crate.sum(kit)
        os.makedirs(crate.kept, exist_ok=True)
        if os.path.exists(f"{crate.kept}/sum"):
            os.remove(f"{crate.kept}/sum")
        crate.begin_proofs(self.sum)
        self.log = open(f"{crate.folder}/out/build.log", "wb")
        self.commands = crate.commands(kit, jobs, STATED, crate.output)
        self.start()

    def start(self):
        how = {"cwd": self.crate.folder, "stdin": subprocess.DEVNULL, "stdout": subprocess.PIPE, "stderr": subprocess.STDOUT}
        # (the command has the locks too, so that they last as long as it does if this script is killed)
        self.process = subprocess.Popen(self.commands.pop(0), env=KEPT_MEMORY | os.environ, pass_fds=self.held, **how)
        os.set_blocking(self.process.stdout.fileno(), False)

    def memory(self):
        return FIRST_JOB + NEXT_JOB * (self.jobs - 1)

    def listen(self):
        """Notes what the command says, and whether it may say more."""
        more = os.read(self.process.stdout.fileno(), 1 << 16)
        self.log.write(more)
        return bool(more)

    def end(self):
        """Waits until the command has ended, and says whether it passed."""
        _, status, used = os.wait4(self.process.pid, 0)
        self.process.returncode = os.waitstatus_to_exitcode(status)
        self.process.stdout.close()
        self.spent += used.ru_utime + used.ru_stime
        if self.process.returncode < 0:
            self.log.write(b"killed by signal %d, most likely for want of memory\n" % -self.process.returncode)
        return status == 0

    def close(self, is_built):
        """Notes what a crate was built from that is built, unless its files have changed meanwhile."""
        self.log.close()
        if is_built:
            self.crate.settle(self.began)
        if is_built and self.crate.proofs:
            self.crate.keep_verdict(text_of(f"{self.crate.folder}/out/build.log"))
        if is_built and self.crate.sum(self.kit) == self.sum:
            with open(f"{self.crate.kept}/sum", "w", encoding="utf-8") as file:
                file.write(f"{self.sum} {self.crate.seal()}")
        unlock(self.held)


def end_of(ranks, weights, uses, processors):
    """When a build ends whose proofs take one job and these times, if of what can begin the highest rank does so first."""
    left, works, built, now = dict.fromkeys(ranks), [], set(), 0
    while left or works:
        ready = sorted((it for it in left if built.issuperset(uses[it])), key=lambda it: -ranks[it])
        for it in ready[: processors - len(works)]:
            heapq.heappush(works, (now + weights[it], it.name, it))
            del left[it]
        now, _, ended = heapq.heappop(works)
        built.add(ended)
    return now


def ranks_of(behind, weights, processors):
    """By each crate a number, the highest of what can begin comes first: the length of the chain behind it, unless the build ends sooner by
    one of some numbers near that. (Of chains that are nearly as long the longest first isn't always best.)"""
    uses = {it: [other for other in it.uses if other in behind] for it in behind}
    chance = random.Random(0)
    others = ({it: length * (1 + MORE * chance.random()) for it, length in behind.items()} for _ in range(TRIES))
    return min([behind, *others], key=lambda it: end_of(it, weights, uses, processors))


class Builder:
    def __init__(self, crates, kit):
        self.left, self.kit = list(crates), kit
        self.built, self.refused, self.works, self.told = set(), set(), {}, set()
        self.processors, self.memory = processors(), 0.85 * free_memory()
        self.selector = selectors.DefaultSelector()
        weights = {it: it.weight() for it in crates}
        self.behind = dict(weights)
        for it in reversed(crates):
            above = [self.behind[other] for other in crates if it in other.uses]
            self.behind[it] += max(above, default=0)
        self.ranks = ranks_of(self.behind, weights, self.processors)

    def jobs_now(self, crate, ready):
        """How many jobs a proof gets that is the first of so many, 0 where it has to wait. A proof gets several only where processors would
        have nothing to do, or where the chain behind it would outlast all that is left."""
        left = self.processors - sum(it.jobs for it in self.works.values())
        free = self.memory - sum(it.memory() for it in self.works.values())
        if left < 1 or crate.is_program or crate.weight() < SMALL:
            wanted = min(left, 1)
        else:
            idle = min(left - ready + 1, MOST_JOBS)
            unbuilt = sum(it.weight() for it in [*self.left, *self.works])
            chain = min(round(self.behind[crate] * self.processors / unbuilt), MOST_JOBS, left)
            wanted = max(idle, chain) if max(idle, chain) >= LEAST_JOBS else 1
        jobs = min(wanted, 1 + int((free - FIRST_JOB) // NEXT_JOB))
        jobs = jobs if jobs >= LEAST_JOBS else min(jobs, 1)
        return jobs if jobs > 0 or self.works else 1

    def start_ready(self):
        """Begins what can begin, the highest rank first, and says whether something waits for another build."""
        waits = False
        ready = [it for it in self.left if self.built.issuperset(it.uses)]
        for place, crate in enumerate(sorted(ready, key=lambda it: -self.ranks[it])):
            jobs = self.jobs_now(crate, len(ready) - place)
            if jobs < 1:
                break
            os.makedirs(crate.stated, exist_ok=True)
            lower = [it.stated for it in crate.below]
            if self.finds_built(crate, lock([crate.stated, *lower])):
                return self.start_ready() or waits
            held = lock(lower, crate.stated)
            if held is None:
                waits = True
                if crate not in self.told:
                    self.told.add(crate)
                    say(f"{crate.name} waits for another build to finish in its folder or below")
                continue
            self.left.remove(crate)
            say(f"{crate.name} begins")
            self.begin(Work(crate, self.kit, jobs, held))
        return waits

    def finds_built(self, crate, held):
        """Whether a crate is built that no other build may change meanwhile; it is then done."""
        if held is None:
            return False
        is_built = crate.is_built(self.kit)
        unlock(held)
        if is_built:
            self.left.remove(crate)
            self.built.add(crate)
        return is_built

    def begin(self, work):
        self.works[work.crate] = work
        self.selector.register(work.process.stdout, selectors.EVENT_READ, work)

    def go_on(self, work):
        """Hears what a command says; where it has ended, begins the next of its crate or notes whether this is built."""
        output = work.process.stdout
        if work.listen():
            return
        self.selector.unregister(output)
        is_good = work.end()
        if is_good and work.commands:
            work.start()
            self.begin(work)
            return
        crate = work.crate
        del self.works[crate]
        work.close(is_good)
        (self.built if is_good else self.refused).add(crate)
        if is_good:
            took = f"{time.time() - work.began:.0f} s, {work.spent:.0f} of a processor"
            say(f"{crate.name} is proved and built, after {took}; {len(self.left) + len(self.works)} to go")
        else:
            say(f"{crate.name} isn't proved and built; crates/{crate.name}/out/build.log says why")

    def run(self):
        """Builds all, and says whether all were built. What doesn't stand on a crate that was refused is built all the same."""
        while self.left or self.works:
            waits = self.start_ready()
            self.left = [it for it in self.left if not self.refused.intersection(it.below)]
            if self.works:
                for key, _ in self.selector.select(PAUSE if waits else None):
                    self.go_on(key.data)
            elif self.left:
                time.sleep(PAUSE)
        return not self.refused

    def stop(self):
        """Ends what is under way."""
        works = [it for it in self.works.values() if it.process.returncode is None]
        for work in works:
            work.process.terminate()
        for work in works:
            work.end()
            work.close(False)


def oldest_below(crate):
    """The time of the oldest of the gate's libraries below it: what was edited since then isn't in them."""
    return min(os.path.getmtime(f"{it.folder}/out/rlib/{it.name}.rlib") for it in crate.below)


def build_over_gate(crate):
    """Proves and builds a library for C; the status is the command's. (`rt lib` would prove those below it anew: the gate keeps their
    statements, without the stamp by which `rt lib` knows what it built itself.) The build for the first machine takes nothing from an
    earlier proof, and the others take all from that one."""
    for folder in (crate.stated, os.path.dirname(crate.made)):
        os.makedirs(folder, exist_ok=True)
    if crate.proofs and crate.machine == MACHINES[0]:
        shutil.rmtree(crate.proofs, ignore_errors=True)
        if os.path.exists(f"{crate.stated}/proofs_of"):
            os.remove(f"{crate.stated}/proofs_of")
    command = crate.commands(Kit(), 1, "rlib", crate.made)[0]
    done = subprocess.run(command, cwd=crate.folder, stdin=subprocess.DEVNULL, stdout=subprocess.PIPE, stderr=subprocess.STDOUT, check=False)
    told = done.stdout.decode("utf-8", "replace")
    sys.stderr.write(told)
    if done.returncode == 0:
        crate.keep_verdict(told)
        if crate.is_static:
            os.utime(crate.made, (oldest_below(crate),) * 2)
    return done.returncode


def main(names):
    machine = MACHINES[0]
    if names[:1] == ["--machine"] and names[1:2]:
        machine, names = names[1], names[2:]
    if machine not in MACHINES:
        say(f"nothing is built for a machine {machine}, but for {' and '.join(MACHINES)}")
        return 2
    crates = read_crates(machine)
    if names[:1] == ["--over-gate"] and len(names) == 2 and names[1] in crates:
        return build_over_gate(crates[names[1]])
    unknown = [it for it in names if it not in crates]
    if unknown or not names:
        say(f"crates.txt has no crate {unknown[0]}" if unknown else "no crate was named")
        return 2
    if not shutil.which("rt"):
        say(f"{names[0]} can't be built: the Rattle toolchain's command rt isn't on the PATH")
        return 1
    tops = [crates[it] for it in names]
    only_first = [it for it in names if machine != MACHINES[0] and not crates[it].proofs]
    if only_first:
        say(f"{only_first[0]} is built for {MACHINES[0]} alone")
        return 2
    wanted = []
    for top in tops:
        wanted += [it for it in [*top.below, top] if it not in wanted]
    say(f"proves and builds {' and '.join(names)} and what stands below: {' '.join(it.name for it in wanted)}")
    for it in (signal.SIGTERM, signal.SIGHUP, signal.SIGINT):
        if signal.getsignal(it) != signal.SIG_IGN:
            signal.signal(it, lambda *_: sys.exit(1))
    began = time.time()
    builder = Builder(wanted, Kit())
    try:
        is_built = builder.run()
    except BaseException:
        builder.stop()
        raise
    for top in tops:
        if top in builder.built and os.path.isfile(top.made):
            # (what was built before is no older than this look at its files)
            os.utime(top.made, (began, began))
        say(f"{top.name} is built" if top in builder.built else f"{top.name} can't be built")
    return 0 if is_built else 1


if __name__ == "__main__":
    sys.exit(main(sys.argv[1:]))
