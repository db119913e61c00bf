# How many jobs build/build.py gives, and in which order; and how it builds, tried on two small crates: what was changed is proved and built again with what
# stands above it and nothing else, what isn't proved isn't built, and of two builds at once one waits. The crates below each are the same
# for the shell and for Python.

# Lays out a repository with these scripts and a program over a library, in a folder with a blank in its name.
lay_out_crates() {
    tree_of_two="$room/two crates"
    rm -rf "$tree_of_two"
    mkdir -p "$tree_of_two/build" "$tree_of_two/crates/low/src" "$tree_of_two/crates/high/src"
    cp build/build.py build/listed.py "$tree_of_two/build/"
    printf 'low:\nhigh: low\n' >"$tree_of_two/crates.txt"
    cat >"$tree_of_two/crates/low/src/lib.rt" <<'LOW'
//! A number.
#![tactic(auto)]

ghost use Rattle.std.specs.Prelude.{◌≡◌};

/// The number.
pub fn seven() -> u8
    ensures { result ≡ 7 }
{
    7
}
LOW
    cat >"$tree_of_two/crates/high/src/main.rt" <<'HIGH'
//! Ends with the number as its status.
#![tactic(auto)]

use low::seven;
use std::process::ExitCode;

fn main() -> ExitCode {
    ExitCode::from(seven())
}
HIGH
}

# Builds what is named, and sees how that ends, which crates it begins, and with what status the program ends, none where it isn't built.
#   builds TITLE STATUS BEGUN ENDS [CRATE]
builds() {
    python3 "$tree_of_two/build/build.py" "${5:-high}" >"$room/out" 2>&1
    status=$?
    begun=$(sed -n 's/^build: \(.*\) begins$/\1/p' "$room/out" | sort | tr '\n' ' ')
    "$tree_of_two/crates/high/out/high" 2>/dev/null
    ends=$?
    if [ "$status $begun $ends" = "$2 $3 $4" ]; then
        pass "$1"
    else
        fail "$1" "status $status, begun: $begun, the program ends with $ends: $(tail -n 3 "$room/out" | tr '\n' ' ')"
    fi
}

# Changes a file of one of the two crates by a command of sed.
change() {
    sed -i "$2" "$tree_of_two/crates/$1"
}

builds_again() {
    change low/src/lib.rt "1s/.*/\/\/! A number, $1./"
    builds "a changed library is built again, with what stands on it" 0 "high low " 7
}

# Of two builds at once each ends well, and each crate is built once.
build_at_once() {
    change low/src/lib.rt '1s/.*/\/\/! Another number./'
    python3 "$tree_of_two/build/build.py" high >"$room/first" 2>&1 &
    first=$!
    python3 "$tree_of_two/build/build.py" high >"$room/second" 2>&1
    second=$?
    wait "$first" && [ "$second" = 0 ] && [ "$(cat "$room/first" "$room/second" | grep -c ' begins$')" = 2 ]
}

# Builds, and changes the library while it is being proved.
change_during_build() {
    change low/src/lib.rt '1s/.*/\/\/! A number, at first./'
    python3 "$tree_of_two/build/build.py" high >"$room/out" 2>&1 &
    for waited in $(seq 100); do
        grep -q '^build: low begins$' "$room/out" && break
        sleep 0.2
    done
    sleep 1
    change low/src/lib.rt '1s/.*/\/\/! A number, in the end./'
    wait $!
}

# Compares the crates below each crate of this folder's crates.txt, by build/build.sh and by build/listed.py.
compare_below() {
    top=. && . build/build.sh
    crates=$(sed -n 's/^\([a-z0-9_]*\)[^#]*:.*/\1/p' crates.txt)
    for crate in $crates; do
        echo "$crate $(crates_below "$crate" | sed '$d' | sort | tr '\n' ' ')"
    done >"$room/by_shell"
    python3 - $crates >"$room/by_python" <<'BELOW'
import sys

sys.path.insert(0, "build")
from listed import crates_below, read_rows

for name in sys.argv[1:]:
    print(name, *sorted(crates_below(read_rows("."), name)), "")
BELOW
    [ -s "$room/by_shell" ] && sed -i 's/ *$//' "$room/by_shell" "$room/by_python" && diff "$room/by_shell" "$room/by_python"
}

# Sees which programs of a small repository the shell takes for stale if one file is newer than what was built.
#   sees_stale FILE NAMES..
sees_stale() {
    newer=$1
    shift
    touch -d '2001-01-03' "$top/$newer"
    stale=$(for name in fsr picture fsr_check; do is_fresh "$name" || echo "$name"; done | tr '\n' ' ')
    touch -d '2001-01-01' "$top/$newer"
    [ "$stale" = "$*${1:+ }" ] || { echo "with $newer newer these are stale: $stale" && return 1; }
}

# Of what each program is made, as the shell sees it by the times of files.
compare_times() {
    top=. && . build/build.sh
    top="$room/by_times"
    rm -rf "$top"
    mkdir -p "$top/c" "$top/crates/low/specs"
    printf 'low:\nfsr: low\npicture: low\nfsr_check:\n' >"$top/crates.txt"
    touch "$top/c/os.c" "$top/crates/low/specs/Low.antt"
    for name in fsr picture fsr_check; do
        mkdir -p "$top/crates/$name/src" "$top/crates/$name/out"
        touch "$top/crates/$name/src/main.rt"
        printf '#!/bin/sh\n' >"$top/crates/$name/out/$name" && chmod +x "$top/crates/$name/out/$name"
    done
    find "$top" -exec touch -d '2001-01-01' {} +
    touch -d '2001-01-02' "$top"/crates/*/out/*
    sees_stale crates/low/must-fail && sees_stale c/os.c fsr picture && sees_stale crates/low/specs/Low.antt fsr picture \
        && sees_stale crates/fsr_check/src/main.rt fsr_check && sees_stale crates.txt fsr picture fsr_check
}

# Sees that a build gives as many jobs as are allotted and no more, by what it chooses for a program where the cheapest proof always ends
# first.
give_jobs() {
    for allotted in 1 2 4; do
        given=$(
            RT_JOBS=$allotted python3 - <<'GIVEN'
import sys

sys.path.insert(0, "build")
import build


class Chosen(build.Work):
    def __init__(self, crate, kit, jobs, held):
        self.crate, self.jobs = crate, jobs


build.Work, build.lock, build.say, build.os.makedirs = Chosen, lambda *_: [], lambda _: None, lambda *_, **__: None
build.free_memory = lambda: 1 << 40
build.Builder.finds_built = lambda *_: False
build.Builder.begin = lambda self, work: self.works.update({work.crate: work})
program = build.read_crates()["fsr_once"]
builder, given = build.Builder([*program.below, program], None), 0
while builder.left:
    builder.start_ready()
    given = max(given, sum(it.jobs for it in builder.works.values()))
    ended = min(builder.works, key=build.Crate.weight)
    del builder.works[ended]
    builder.built.add(ended)
print(given)
GIVEN
        )
        [ "$given" = "$allotted" ] || { echo "of $allotted allotted $given were given" && return 1; }
    done
}

# Sees that five crates of which none stands on another, and which take 5, 5, 4, 4 and 4, are built by two processors in 12: with the longest
# first it would be 13.
order_builds() {
    python3 - <<'ORDERED'
import sys

sys.path.insert(0, "build")
import build

crates = [type("Alone", (), {"name": f"crate_{place}", "uses": ()})() for place in range(5)]
weights = dict(zip(crates, (5, 5, 4, 4, 4)))
ends = build.end_of(build.ranks_of(weights, weights, 2), weights, {it: it.uses for it in crates}, 2)
print(f"they end at {ends}")
sys.exit(ends != 12)
ORDERED
}

if ! command -v python3 >/dev/null 2>&1; then
    fail "build/build.py" "there is no python3"
else
    if (compare_below) >"$room/out" 2>&1; then
        pass "the crates below each of $(wc -l <"$room/by_shell")"
    else
        fail "the crates below each" "$(head -n 4 "$room/out" | tr '\n' ' ')"
    fi
    catches_in_tree "a closure without a crate's last word" "^> history_check history_core" build/build.sh 's/i <= count; i++/i < count; i++/' \
        compare_below
    if (compare_times) >"$room/out" 2>&1; then
        pass "what is newer than a program, by the times of files"
    else
        fail "what is newer than a program, by the times of files" "$(tail -n 2 "$room/out" | tr '\n' ' ')"
    fi
    catches_in_tree "a linked file that isn't looked at" "^with c/os.c newer these are stale: $" build/build.sh 's/linked=c.os.c ;;/linked= ;;/' \
        compare_times
    if give_jobs >"$room/out" 2>&1; then
        pass "no more jobs are given than are allotted"
    else
        fail "no more jobs are given than are allotted" "$(tail -n 2 "$room/out" | tr '\n' ' ')"
    fi
    catches_in_tree "a job more than is allotted" "^of 1 allotted 2 were given" build/build.py \
        's/left = self.processors - /left = 1 + self.processors - /' give_jobs
    if order_builds >"$room/out" 2>&1; then
        pass "the order in which a build ends sooner is taken"
    else
        fail "the order in which a build ends sooner is taken" "$(tail -n 2 "$room/out" | tr '\n' ' ')"
    fi
    catches_in_tree "the longest chain first, whatever ends sooner" "^they end at 13" build/build.py 's/range(TRIES)/range(0)/' order_builds
    lay_out_crates
    builds "a program and its library are proved and built" 0 "high low " 7
    builds "what is built isn't built again" 0 "" 7
    touch "$tree_of_two/crates/low/src/lib.rt"
    builds "nor if a file has a new time alone" 0 "" 7
    builds_again once
    change low/src/lib.rt 's/^    7$/    8/'
    builds "what isn't proved isn't built, nor what stands on it" 1 "low " 7
    if grep -q '^fn low::seven: no proof' "$tree_of_two/crates/low/out/build.log"; then
        pass "its log says which function isn't proved"
    else
        fail "its log says which function isn't proved" "$(tail -n 3 "$tree_of_two/crates/low/out/build.log" | tr '\n' ' ')"
    fi
    builds "a crate that isn't in crates.txt" 2 "" 7 higher
    change low/src/lib.rt 's/^    8$/    7/'
    change_during_build
    builds "what was changed during a build is built again" 0 "high low " 7
    printf '#!/bin/sh\nexit 3\n' >"$tree_of_two/crates/high/out/high"
    builds "a program in whose place another one stands is built again" 0 "high " 7
    if build_at_once; then
        pass "of two builds at once one waits"
    else
        fail "of two builds at once one waits" "$(tail -n 4 "$room/first" "$room/second" | tr '\n' ' ')"
    fi
    # (a build that knows a crate by its row alone)
    sed -i 's/in \[\*self.files(\*SOURCES), \*linked\]:/in ():/' "$tree_of_two/build/build.py"
    python3 "$tree_of_two/build/build.py" high >"$room/out" 2>&1
    catches "a build that doesn't see a change" "begun: , the program" builds_again twice
fi
