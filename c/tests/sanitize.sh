#!/bin/sh
# Runs the tests of the library for C under what watches a program: valgrind (no error, no block left), the sanitizers of addresses
# and of undefined behaviour, MemorySanitizer, which must be silent over the tests and must see each use of memory that nothing filled, and
# ThreadSanitizer, which must be silent over the tests and must see each race. Each on the C side, with gcc and clang, where it is there.
# The last line is the sums. usage: c/tests/sanitize.sh [WRITES [LIBRARY]]
cd "$(dirname -- "$(readlink -f -- "$0")")/../.." || exit 1
top=.
writes=${1:-2000}
room=$(mktemp -d) || exit 1
trap 'rm -rf "$room"' EXIT
. tests/gate/outcomes.sh
. build/library.sh
passed=0 failed=0
library=${2:-$room/libnidzaru.a}
[ -n "$2" ] || make_library "$library" || exit 1
wrapped='-Wl,--wrap=malloc,--wrap=realloc,--wrap=free'
paused='-Wl,--wrap=nidzaru_8_write,--wrap=nidzaru_8_read,--wrap=nidzaru_8_look,--wrap=nidzaru_triple_8_write,--wrap=nidzaru_triple_8_look'
paused=$paused,--wrap=nidzaru_triple_8_publish,--wrap=nidzaru_board_24_write,--wrap=nidzaru_board_24_read,--wrap=nidzaru_board_24_read_since
led=
for size in 8 24 64 128 256 1024 4096 65536 1048576; do
    led="$led -Wl,--wrap=nidzaru_triple_${size}_hold,--wrap=nidzaru_triple_${size}_loan"
done
calls='write read look hold loan publish end_writer end_reader board_write board_read board_read_since board_end'
fanned=$wrapped,--wrap=nidzaru_24_write,--wrap=nidzaru_triple_24_write
tests='test edges calls triple_calls held loaned boards triple_boards board_edges fans triple_fans test_cpp boards_cpp fans_cpp'

# Runs a program whose last line must be 'passed'.
run() {
    name=$1
    shift
    if "$@" >"$room/said" 2>&1 && grep -qx passed "$room/said"; then
        pass "$name"
    else
        fail "$name" "$(head -n 5 "$room/said" | tr '\n' ' ')"
    fi
}

# Runs a program in which ThreadSanitizer must see just one race, in this function.
sees_race() {
    name=$1 where=$2
    shift 2
    if TSAN_OPTIONS=exitcode=66 "$@" >"$room/said" 2>&1; [ $? = 66 ] && [ "$(grep -c '^WARNING: ThreadSanitizer' "$room/said")" = 1 ] \
        && grep -q "#0 $where " "$room/said"; then
        pass "$name"
    else
        fail "$name" "no race, or another: $(head -n 5 "$room/said" | tr '\n' ' ')"
    fi
}

# Runs a program in which MemorySanitizer must see a use of memory that nothing has filled.
sees_unfilled() {
    name=$1
    shift
    if MSAN_OPTIONS=exitcode=66 "$@" >"$room/said" 2>&1; [ $? = 66 ] && grep -q 'use-of-uninitialized-value' "$room/said"; then
        pass "$name"
    else
        fail "$name" "nothing, or something else: $(head -n 5 "$room/said" | tr '\n' ' ')"
    fi
}

# Compiles a test in C with these flags: NAME SOURCE FLAGS..
in_c() {
    name=$1 source=$2
    shift 2
    "$c" -std=c11 -D_GNU_SOURCE -g -O1 -pthread $flags "$@" -I c "c/tests/$source" "$library" -o "$room/$name"
}

in_cpp() {
    name=$1 source=$2
    shift 2
    "$cpp" -std=c++17 -g -O1 -pthread $flags "$@" -I c "c/tests/$source" "$library" -o "$room/$name"
}

# Compiles the tests in C and C++ with these flags.
compile() {
    flags=$1
    in_c test test.c && in_c edges edges.c $wrapped && in_c calls calls.c $wrapped && in_c triple_calls calls.c -DTRIPLE $wrapped \
        && in_c held held.c && in_c loaned loaned.c && in_c boards boards.c $wrapped && in_c triple_boards boards.c -DTRIPLE $wrapped \
        && in_c board_edges board_edges.c $wrapped && in_c fans fans.c $fanned && in_c triple_fans fans.c -DTRIPLE $fanned \
        && in_cpp test_cpp test.cpp $wrapped && in_cpp boards_cpp boards.cpp $wrapped && in_cpp fans_cpp fans.cpp $wrapped
}

# Whether this compiler has these sanitizers.
has() {
    command -v "$c" >/dev/null 2>&1 && command -v "$cpp" >/dev/null 2>&1 \
        && echo 'int main(void) { return 0; }' | "$c" $1 -x c - -o "$room/tried" >/dev/null 2>&1 && "$room/tried"
}

c=gcc cpp=g++
if command -v valgrind >/dev/null 2>&1 && has ''; then
    compile '' || exit 1
    for test in $tests; do
        run "$test under valgrind" valgrind -q --error-exitcode=9 --leak-check=full --fair-sched=yes "$room/$test" "$writes"
    done
fi
for pair in gcc,g++ clang,clang++; do
    c=${pair%,*} cpp=${pair#*,}
    if has '-fsanitize=address,undefined'; then
        compile '-fsanitize=address,undefined -fno-sanitize-recover=all' || exit 1
        for test in $tests; do
            run "$test with the sanitizers of addresses and undefined behaviour ($c)" "$room/$test" "$writes"
        done
        in_c led loaned.c c/tests/led.c $led || exit 1
        run "what a hold and a loan are passed, with the sanitizer of addresses ($c)" "$room/led" "$writes"
    fi
    # (at -O0: a test over all sizes takes minutes to compile with more)
    if has '-fsanitize=memory'; then
        flags='-O0 -fsanitize=memory'
        in_c calls calls.c $wrapped && in_c boards boards.c $wrapped && in_c filled filled.c || exit 1
        for test in calls boards; do
            run "$test with MemorySanitizer ($c)" "$room/$test" "$writes"
        done
        run "what the library fills, with MemorySanitizer ($c)" "$room/filled" clean
        for what in item number looked board_item stamp; do
            sees_unfilled "MemorySanitizer: what a refused call leaves unfilled: $what ($c)" "$room/filled" refused $what
        done
    fi
    if has '-fsanitize=thread'; then
        compile '-fsanitize=thread' || exit 1
        in_c watched watched.c c/tests/elsewhere.c && in_cpp watched_cpp watched.cpp && in_c pairs pairs.c $paused || exit 1
        for test in $tests; do
            run "$test with ThreadSanitizer ($c)" "$room/$test" "$writes"
        done
        run "what one call orders, with ThreadSanitizer ($c)" "$room/pairs" clean
        sees_race "ThreadSanitizer: a pair without its call is a race ($c)" load "$room/pairs" unread
        run "what records point to, with ThreadSanitizer ($c)" "$room/watched" clean
        sees_race "ThreadSanitizer: what another register tells is a race ($c)" read_elsewhere "$room/watched" other
        for call in $calls; do
            sees_race "ThreadSanitizer: one handle in two threads is a race: $call ($c)" nidzaru_begin "$room/watched" twice $call
        done
        for call in write read board_write board_read; do
            sees_race "ThreadSanitizer: a record that changes meanwhile is a race: $call ($c)" change_shared "$room/watched" record $call
        done
        for call in write read place_write place_read; do
            sees_race "ThreadSanitizer: a class's record that changes meanwhile is a race: $call ($c)" '.*change_shared[()]*' \
                "$room/watched_cpp" class $call
        done
    fi
done
if [ -x "$room/watched" ]; then
    # The controls: no race where one is due, one in another function, and a test that doesn't pass.
    catches "no race" "no race, or another" sees_race a read_elsewhere "$room/watched" clean
    catches "a race in another function" "no race, or another" sees_race a change_shared "$room/watched" other
    catches "a test that doesn't pass" FAILED run a "$room/watched" other
fi
[ "$passed" -gt 0 ] || fail "what watches a program" "nothing is there"
echo "$passed passed, $failed failed"
[ "$failed" = 0 ]
