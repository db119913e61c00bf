#!/bin/sh
# Registers and boards between processes, over the library that is installed under PREFIX: what is refused, processes that are killed at
# random and after each instruction, the crate for Rust beside C, and the header with faults planted, which these have to refuse. With KILLS
# the random ones alone, so many of each kind from this seed, or of one kind, as -DBYTES=24,-DTRIPLE; with `stand` the victims whose sides are
# recovered beside calls that stand; with `installed` what needs no source tree, over the headers of PREFIX, with this script's own files alone:
# tests/library/shared.sh, tests/gate/outcomes.sh, c/tests/shared* and examples/c/processes.c. The last line is the sums.
# usage: tests/library/shared.sh [PREFIX [KILLS|stand|installed [SEED [KIND]]]]
cd "$(dirname -- "$(readlink -f -- "$0")")/../.." || exit 1
prefix=$1 many=$2 seed=${3:-1} one_kind=$4
most=${many:+36000}
room=$(mktemp -d) || exit 1
trap 'rm -rf "$room"' EXIT
trap 'exit 1' HUP INT TERM
. tests/gate/outcomes.sh
passed=0 failed=0
strict='-Wall -Wextra -Wpedantic -Werror -O2 -pthread'
library=$prefix/lib/libnidzaru.a
headers=c
[ "$many" != installed ] || headers=$prefix/include most=
refusals='-D_GNU_SOURCE -Wl,--wrap=malloc,--wrap=free'
kinds='-DBYTES=24 -DBYTES=24,-DTRIPLE -DBYTES=4096 -DBYTES=4096,-DTRIPLE -DBYTES=24,-DBOARD -DBYTES=24,-DBOARD,-DTRIPLE'

# Builds a program from a source, with the header of this folder.
#   builds FOLDER SOURCE COMMAND..
builds() {
    folder=$1 source=$2
    shift 2
    "$@" -I "$folder" -I "$headers" "$source" -x none "$library" -o "$room/program" >"$room/built" 2>&1
}

# Sees that what was built says this in its last line.
#   says TITLE WANTED WORDS..
says() {
    title=$1 wanted=$2
    shift 2
    if timeout "${most:-240}" "$room/program" "$@" >"$room/said" 2>&1 && tail -n 1 "$room/said" | grep -qx "$wanted"; then
        pass "$title: $(tail -n 1 "$room/said")"
    else
        fail "$title" "$(tail -n 1 "$room/said")"
    fi
}

# Builds a program, and sees that it says this in its last line when it gets $words.
#   program TITLE WANTED SOURCE COMMAND..
program() {
    title=$1 wanted=$2 source=$3
    shift 3
    if builds "$headers" "$source" "$@" $strict; then
        says "$title" "$wanted" $words
    else
        fail "$title" "it wasn't built: $(head -n 3 "$room/built" | tr '\n' ' ')"
    fi
}

# Victims of each kind, so many.
kill_all() {
    words="$1 $seed"
    for kind in ${one_kind:-$kinds}; do
        program "killed at random, $kind" '.*, nothing found' c/tests/shared_kills.c gcc -std=gnu11 $(echo "$kind" | tr ',' ' ')
    done
}

# A header with a fault, which the tests have to refuse: one says what it saw, or ends by a signal.
#   planted SED SAID
planted() {
    mkdir -p "$room/planted" && sed "$1" c/nidzaru_shared.h >"$room/planted/nidzaru_shared.h"
    if cmp -s c/nidzaru_shared.h "$room/planted/nidzaru_shared.h"; then
        fail "planted: $1" "it changes nothing"
    elif ! builds "$room/planted" c/tests/shared.c gcc -std=c11 -w -O2 -pthread $refusals; then
        fail "planted: $1" "it wasn't built: $(head -n 3 "$room/built" | tr '\n' ' ')"
    else
        timeout 60 "$room/program" >"$room/said" 2>&1
        status=$?
        if [ "$status" != 0 ] && { { [ "$2" = signal ] && [ "$status" -gt 128 ]; } || grep -q "^shared: $2:" "$room/said"; }; then
            pass "planted: $1"
        else
            fail "planted: $1" "it isn't seen, or for another reason: $status $(tail -n 1 "$room/said")"
        fi
    fi
}

# A header with a fault in what recovers a side: victims are killed after each instruction, with these words.
#   planted_recovery SED WORDS..
planted_recovery() {
    fault=$1
    shift
    mkdir -p "$room/planted" && sed "$fault" c/nidzaru_shared.h >"$room/planted/nidzaru_shared.h"
    if cmp -s c/nidzaru_shared.h "$room/planted/nidzaru_shared.h"; then
        fail "planted: $fault" "it changes nothing"
    elif builds "$room/planted" c/tests/shared_steps.c gcc -std=gnu11 -w -O2 -pthread -DBYTES=24 \
        && ! timeout 240 "$room/program" "$@" >"$room/said" 2>&1 && grep -q ': killed after' "$room/said"; then
        pass "planted: $fault: $(tail -n 1 "$room/said")"
    else
        fail "planted: $fault" "$(tail -n 1 "$room/said" "$room/built")"
    fi
}

# The classes with a fault, which their test has to refuse by this word.
#   planted_class SED SAID
planted_class() {
    mkdir -p "$room/planted" && cp c/nidzaru_shared.h "$room/planted/" && sed "$1" c/nidzaru_shared.hpp >"$room/planted/nidzaru_shared.hpp"
    if cmp -s c/nidzaru_shared.hpp "$room/planted/nidzaru_shared.hpp"; then
        fail "planted: $1" "it changes nothing"
    elif ! builds "$room/planted" c/tests/shared_objects.cpp g++ -std=c++17 -D_GNU_SOURCE -w -O2 -pthread; then
        if [ "$2" = built ]; then pass "planted: $1"; else fail "planted: $1" "it wasn't built: $(grep -m 1 error "$room/built")"; fi
    elif ! timeout 60 "$room/program" >"$room/said" 2>&1 && grep -q "^shared objects: $2" "$room/said"; then
        pass "planted: $1"
    else
        fail "planted: $1" "it isn't seen, or for another reason: $(tail -n 1 "$room/said")"
    fi
}

plant_class_faults() {
    planted_class 's/~claimed() { yield(); }/~claimed() {}/' 'a claim that goes, and one again'
    planted_class 's/at = std::exchange(from.at, nullptr);/at = from.at;/' 'a claim that is moved'
    planted_class 's/        if (!status) at = nullptr;/        (void)status;/' 'a yield'
    planted_class 's/^        if (status) return status;$/        (void)status;/' '.*'
    planted_class 's/ C == cell::triple ? 0 : record::size;/ record::size;/' 'a recovery over a triple buffer'
    planted_class 's/type(), size, side == 0);/type(), size, side == 1);/' 'a recovery'
    planted_class 's/nidzaru_item_recover(block.at(), &item, &claims\[side\]/nidzaru_item_recover(block.at(), \&item, \&claims[0]/' 'a recovery of what'
    planted_class 's/if (number >= N) return/if (number > N) return/' '.*'
    planted_class 's/return last > before ? item : std::nullopt;/return item;/' 'news of a board'
    planted_class 's/return has_news() ? latest() : std::nullopt;/return latest();/' news
    planted_class 's/return !look(number) \&\& number > last;/return !look(number) \&\& number >= last;/' 'the opening'
    planted_class 's/~shared_block() { detach(); }/~shared_block() {}/' 'a block in the place'
    planted_class 's/Root::shared_name, sizeof(Root)/"", sizeof(Root)/' 'an attach of another type'
    planted_class 's/if (block.head) return NIDZARU_IN_USE;//' 'a block in the place'
    planted_class 's/    char apart\[NIDZARU_APART\];//' built
    planted_class 's/NIDZARU_SHARED_PART \* writer/writer/' 'what makes take'
    planted_class 's/NIDZARU_SHARED_PART \* place/place/' 'what makes take'
    planted_class 's/return NIDZARU_SHARED_HEAD + (sizeof/return (sizeof/' 'what makes take'
    catches "an edit of a comment alone" "it isn't seen" planted_class '1s/ / more /' '.*'
}

# The same library, as another build of the version would be.
other_build() {
    mkdir -p "$room/other" && (
        cd "$room/other" && ar x "$library" nidzaru.o && objcopy --redefine-sym nidzaru_fingerprint=nidzaru_fingerprint_before nidzaru.o \
            && echo 'const unsigned long nidzaru_fingerprint = 1;' | gcc -O1 -c -x c - -o number.o && ar rcsD libnidzaru.a nidzaru.o number.o
    )
}

# A controller and a driver, two programs over one block: what the last line says.
#   drives TITLE WANTED CONTROLLER [DRIVER]
drives() {
    if timeout 60 "$3" 10 $4 >"$room/said" 2>&1; then :; fi
    if grep -q "$2" "$room/said"; then
        pass "$1: $(tail -n 1 "$room/said")"
    else
        fail "$1" "$(tail -n 1 "$room/said")"
    fi
}

# Two programs in C, of one build of the library and of two.
try_pairs() {
    own=$library
    if builds "$headers" examples/c/processes.c gcc -std=gnu11 $strict && cp "$room/program" "$room/in_c" && other_build \
        && library=$room/other/libnidzaru.a \
        && builds "$headers" examples/c/processes.c gcc -std=gnu11 $strict && cp "$room/program" "$room/of_other"; then
        drives "two programs in C" 'none was torn' "$room/in_c" "$room/in_c"
        drives "a driver over another build of the library" 'driver: the block is of another library' "$room/in_c" "$room/of_other"
    else
        fail "two builds of the library" "they weren't built: $(head -n 3 "$room/built" | tr '\n' ' ')"
    fi
    library=$own
}

# The crate for Rust, and C beside Rust.
try_rust() {
    command -v cargo >/dev/null 2>&1 || return 0
    cp -r rust/nidzaru "$room/rust"
    in_rust="env PKG_CONFIG_PATH=$prefix/lib/pkgconfig CARGO_TARGET_DIR=$room/target"
    at="--release --offline --quiet --features shared --manifest-path $room/rust/Cargo.toml"
    if $in_rust cargo test $at --test shared >"$room/said" 2>&1; then
        pass "rust/nidzaru: blocks: $(awk '/^test result: ok/ { sum += $4 } END { print sum }' "$room/said") tests"
    else
        fail "rust/nidzaru: blocks" "$(grep -m 3 'error\|panicked\|FAILED' "$room/said" | tr '\n' ' ')"
    fi
    if ! $in_rust cargo build $at --example processes >"$room/said" 2>&1; then
        fail "rust/nidzaru: two processes" "it wasn't built: $(grep -m 3 '^error' "$room/said" | tr '\n' ' ')"
        return
    fi
    in_rust=$room/target/release/examples/processes
    drives "rust/nidzaru: two processes" 'none was torn' "$in_rust"
    drives "a driver in C, a controller in Rust" 'none was torn' "$in_rust" "$room/in_c"
    drives "a driver in Rust, a controller in C" 'none was torn' "$room/in_c" "$in_rust"
}

# A client of JACK, where its server is, over each register and a mutex. (Of a time nothing is asked here: bench/README.md has what was measured.)
try_jack() {
    command -v jackd >/dev/null 2>&1 && [ -e /usr/include/jack/jack.h ] || return 0
    if ! builds "$headers" examples/c/jack.c gcc -std=gnu11 $strict -Wl,--no-as-needed -ljack; then
        fail "examples/c/jack.c" "it wasn't built: $(head -n 3 "$room/built" | tr '\n' ' ')"
        return
    fi
    JACK_DEFAULT_SERVER=nidzaru-$$ JACK_NO_AUDIO_RESERVATION=1 && export JACK_DEFAULT_SERVER JACK_NO_AUDIO_RESERVATION
    real=-R
    jackd -R -d dummy -p 64 --help >/dev/null 2>&1 || real=-r
    jackd $real -n "$JACK_DEFAULT_SERVER" -d dummy -r 48000 -p 64 >"$room/jackd" 2>&1 &
    server=$!
    sleep 2
    for way in four_slot triple mutex; do
        says "examples/c/jack.c, $way" 'no record was torn' $way 1
    done
    kill $server && wait $server
    catches "examples/c/jack.c without a server" 'there is no server' says "no server" 'no record was torn' four_slot 1
}

# What stands in the register's place and isn't one.
#   control FLAG SAID
control() {
    if builds "$headers" c/tests/shared_kills.c gcc -std=gnu11 -w -O2 -pthread -DBYTES=256 "$1" && ! timeout 120 "$room/program" 2000 1 >"$room/said" 2>&1 \
        && tail -n 1 "$room/said" | grep -qx "$2"; then
        pass "planted: $1"
    else
        fail "planted: $1" "$(tail -n 1 "$room/said" "$room/built")"
    fi
}

try_headers() {
    words=
    for c in gcc clang; do
        ! command -v "$c" >/dev/null 2>&1 || program "c/tests/shared.c ($c)" 'each refusal is by its name' c/tests/shared.c "$c" -std=c11 $refusals
    done
    for cpp in g++ clang++; do
        ! command -v "$cpp" >/dev/null 2>&1 \
            || program "c/tests/shared.c ($cpp)" 'each refusal is by its name' c/tests/shared.c "$cpp" -std=c++17 $refusals -x c++
        ! command -v "$cpp" >/dev/null 2>&1 \
            || program "c/tests/shared_objects.cpp ($cpp)" 'each object has its claim' c/tests/shared_objects.cpp "$cpp" -std=c++17 -D_GNU_SOURCE
    done
    program "examples/c/processes.c" '.* none was torn' examples/c/processes.c gcc -std=gnu11
}

# What needs no source tree, over the headers of the prefix.
try_installed() {
    try_headers
    kill_all 10
    try_pairs
}

# The same by a copy of this script's own files, over the library that is installed in this folder.
#   by_own_files PREFIX
by_own_files() {
    rm -rf "$room/own" && mkdir "$room/own" \
        && tar -c tests/library/shared.sh tests/gate/outcomes.sh c/tests/shared* examples/c/processes.c | tar -x -C "$room/own"
    if "$room/own/tests/library/shared.sh" "$1" installed >"$room/told" 2>&1; then
        pass "over the installed headers alone: $(tail -n 1 "$room/told")"
    else
        fail "over the installed headers alone" "$(grep -m 1 FAILED "$room/told")"
    fi
}

# That, and the same over a prefix that lacks the header.
try_own_files() {
    at=$(readlink -f -- "$prefix")
    by_own_files "$at"
    mkdir -p "$room/lacking/include" && cp -r "$at/lib" "$room/lacking/" && cp "$at/include/nidzaru.h" "$at/include/nidzaru_shared.hpp" "$room/lacking/include/"
    catches "a prefix without nidzaru_shared.h" "it wasn't built" by_own_files "$room/lacking"
}

# One fault after the other.
plant_faults() {
    planted '/^int nidzaru_shared_detach/,/^}/s/if (!block) return NIDZARU_NULL;//' signal
    planted '/^int nidzaru_shared_open/,/^}/s/if (!block) return NIDZARU_NULL;//' signal
    planted 's/setrobust(&kind, PTHREAD_MUTEX_ROBUST)/settype(\&kind, PTHREAD_MUTEX_ERRORCHECK)/' 'a writer that yields'
    planted '/why = pthread_mutex_consistent/d' 'a writer that yields'
    planted '/if (handle->side.live == NIDZARU_BUSY)/d' 'a claim of a side that was cut off'
    planted '/if (!handle->side.live)/d' 'a claim of an ended side'
    planted '/root_bytes != root_bytes) return/d' 'an attach of another type'
    planted 's/seen->type != type || //' 'an attach of another type'
    planted 's/ || seen->root_bytes != root_bytes//; s/return ((sum ^ size) .*/return sum;/' 'an attach of a larger type'
    planted 's/ || seen->build != nidzaru_build()//' 'an attach of another build'
    planted 's/ || (stat->st_mode & 077)//' 'a block that others may open'
    planted 's/O_EXCL | O_CLOEXEC, 0600/O_EXCL | O_CLOEXEC, 0644/' '.*'
    planted 's/ : MAP_FIXED_NOREPLACE);/ : MAP_FIXED);/' 'a block at a taken address'
    planted 's/MAP_SHARED | MAP_POPULATE/MAP_PRIVATE | MAP_POPULATE/' '.*'
    planted '/ITEM_MADE) return NIDZARU_SHARED_NOT_READY/d' '.*'
    planted '/item->type != type/d' 'a claim by another type'
    planted 's/is_own = !fstat.*/is_own = !fstat(file, \&seen) || device + number;/' 'an unlinking of another block'
    planted 's/__atomic_store_n(&block->head->ready, 1/__atomic_store_n(\&block->head->ready, 0/' '.*'
    planted 's/^    why = pthread_mutex_trylock(&head->maker.mutex);/    why = 0;/' '.*'
    planted 's/why == EOWNERDEAD || why == ENOTRECOVERABLE ?/why == EOWNERDEAD ?/' 'a maker that died, once more'
    planted 's/^    nidzaru_making = block->head;/    nidzaru_making = NIDZARU_NOWHERE;/' "all memory was the block's"
    planted 's/^    nidzaru_making = NIDZARU_NOWHERE;//' signal
    planted 's/if (!part->from) free(part);/free(part);/' signal
    planted 's/ || whole > head->bytes - used) return NIDZARU_NOWHERE;/) return NIDZARU_NOWHERE;/' '\(no room\|a record\).*'
    planted 's/__ATOMIC_RELAXED)) return NIDZARU_IN_USE/__ATOMIC_RELAXED) \&\& 0) return NIDZARU_IN_USE/' 'a claim.*'
    planted '/nidzaru_lies_in(block, item)) return/d' 'a register outside'
    planted 's/    else __atomic_fetch_add(&block->held, 1, __ATOMIC_RELAXED);//' '.*'
    planted '/__ATOMIC_RELAXED) != block->process) return/d' 'a yield of what .*'
    planted '/if (claim->process == block->process)/d' 'a detach'
    planted '/if (held == 1 &&/d' 'a detach'
    planted 's/    if (block->process == getpid()) return;/    return;/' 'a detach of a child, which has none'
    planted 's/name##_is_triple ? "triple register" : "register"/"register"/' 'a claim by another mechanism'
    planted 's/if (at % 8 || at < from.*/if (0) return NIDZARU_NOWHERE;/' 'a recovery of what leads elsewhere'
    planted '/if (!size) return NIDZARU_SHARED_LOST;/d' 'a recovery over a triple buffer'
    planted 's/is_writer ? item->writer : item->reader/is_writer ? item->reader : item->writer/' 'its number is back'
    planted 's/  __atomic_store_n(&item->state, status ? NIDZARU_ITEM_EMPTY : NIDZARU_ITEM_MADE/  __atomic_store_n(\&item->state, NIDZARU_ITEM_MADE/' 'no room for the last part'
    planted 's/ + NIDZARU_SHARED_PART \* NIDZARU_MAKE_REQUESTS(name)//' 'what makes take'
    planted 's/ + NIDZARU_SHARED_PART \* NIDZARU_BOARD_MAKE_REQUESTS(name, count)//' 'what makes take'
    planted 's/return NIDZARU_SHARED_HEAD + (sizeof/return (sizeof/' 'what is left'
    catches "an edit of a comment alone" "it isn't seen" planted '1s/ / more /' '.*'
}

# What a recovery must do, left out piece by piece.
plant_recoveries() {
    planted_recovery 's/    if (latest != newest) __atomic_store_n.*//' 0
    planted_recovery 's/box\[NIDZARU_BOX_NUMBER\] = numbers.*//' 0
    planted_recovery 's/box\[NIDZARU_BOX_LATEST\] = newest;//' 0
    planted_recovery 's/numbers\[0\] > numbers\[1\] ? 0/numbers[0] > numbers[1] ? 1/' 0
    planted_recovery 's/box\[NIDZARU_BOX_SAID\] = 2;//' 1 r wrw
    planted_recovery 's/box\[NIDZARU_BOX_BITS\] = bits\[0\];//' 3 w wr
    planted_recovery 's/box\[NIDZARU_BOX_BITS + 1\] = bits\[1\];//' 3 w w
}

if [ -z "$prefix" ]; then
    fail "registers between processes" "no library is installed; tests/library/c.sh does that"
elif [ "$many" = stand ]; then
    words=1
    program "killed, recovered, beside a call that stands" '.*, nothing found' c/tests/shared_steps.c gcc -std=gnu11 -DBYTES=24
elif [ "$many" = installed ]; then
    try_installed
elif [ -n "$many" ]; then
    kill_all "$many"
elif command -v gcc >/dev/null 2>&1; then
    try_headers
    kill_all 60
    words=
    # (it reads the registers of x86-64)
    [ "$(gcc -dumpmachine | cut -d - -f 1)" != x86_64 ] || for kind in -DBYTES=24 -DTRIPLE; do
        program "killed after each instruction, $kind" '.*, nothing found' c/tests/shared_steps.c gcc -std=gnu11 "$kind"
    done
    for words in '3 r wrw' '3 w wr'; do
        program "killed, recovered, beside a call that stands: $words" '.*, nothing found' c/tests/shared_steps.c gcc -std=gnu11 -DBYTES=24
    done
    words=
    try_pairs
    try_rust
    try_own_files
    try_jack
    control -DPLAIN 'a torn record'
    control -DSEQUENCE 'a read that waits for a dead process'
    plant_faults
    plant_class_faults
    plant_recoveries
fi
echo "$passed passed, $failed failed"
[ "$failed" = 0 ] && [ "$passed" -gt 0 ]
