#!/bin/sh
# The library, the recorder and the programs for 64-bit ARM. On x86-64 all is compiled by Debian's cross compiler and runs by qemu, in a
# namespace where its programs just run, on one processor; on an ARM machine by its own compiler, on all processors. Without words the
# library is that of this tree; with the PREFIX of an installed one no toolchain is needed. Where compiler, qemu or namespace is missing, it
# says so and checks nothing. By hand, the word `programs` has fsr and picture built for ARM, and their examples, refusals, and refused
# memory run. The last line is the sums.
# usage: tests/arm.sh [PREFIX | programs]
cd "$(dirname -- "$(readlink -f -- "$0")")/.." || exit 1
top=$PWD
case $# in
0) prefix= ;;
1) prefix=$(readlink -f -- "$1") ;;
*) echo "usage: tests/arm.sh [PREFIX | programs]" >&2 && exit 2 ;;
esac
# (an emulated program is much slower, and more so where others run beside it)
longest=900
passed=0 failed=0
. tests/gate/outcomes.sh
. build/library.sh

# Names the cross compiler and its tools as those of this machine.
make_tools() {
    mkdir -p "$1" || return 1
    for tool in gcc g++ as ld nm objcopy objdump readelf size; do
        printf '#!/bin/sh\nexec /usr/bin/aarch64-linux-gnu-%s "$@"\n' "$tool" >"$1/$tool" && chmod +x "$1/$tool" || return 1
    done
    ln -sf gcc "$1/cc" && ln -sf g++ "$1/c++"
}

# Runs a script of this one's parts where ARM's programs run.
#   in_arm COMMAND ..
in_arm() {
    if [ "$(uname -m)" = aarch64 ]; then
        "$@"
    else
        PATH=$room/tools:$PATH QEMU_LD_PREFIX=/usr/aarch64-linux-gnu python3 tests/library/emulate.py "$@"
    fi
}

# What is missing for emulation, or nothing.
missing() {
    [ "$(uname -m)" != aarch64 ] || return
    for tool in aarch64-linux-gnu-gcc aarch64-linux-gnu-g++ qemu-aarch64-static python3 pkg-config; do
        command -v "$tool" >/dev/null 2>&1 || { echo "$tool" && return; }
    done
    in_arm true 2>/dev/null || echo "a namespace with its own formats of programs"
}

# The tests of c.sh in C and C++, by ARM's compiler, and the recorder's. On an ARM machine also those in Rust, and with several processors
# what needs as many: whole logs, as of a record that waits behind other stores, and the soak, which looks at the order of memory; and what
# qemu's programs have no robust mutexes for, registers between processes, which are only compiled under emulation.
test_library() {
    functions_alone=yes
    . tests/library/c.sh
    installed=$prefix
    set_flags
    c=gcc cpp=g++
    test_in_c
    test_in_cpp
    test_cet
    if [ "$(uname -m)" = aarch64 ] && command -v cargo >/dev/null 2>&1; then
        . tests/library/rust.sh
    fi
    if [ "$(nproc)" -gt 1 ]; then
        sh tests/programs/recorder.sh "$prefix" >"$room/told" 2>&1
        take_over tests/programs/recorder.sh
        sh tests/library/shared.sh "$prefix" >"$room/told" 2>&1
        take_over tests/library/shared.sh
        test_soak
    else
        test_recorder
        if gcc -std=c11 $strict -O2 -D_GNU_SOURCE c/tests/shared.c $flags -Wl,--wrap=malloc,--wrap=free -o "$room/program" \
            >"$room/built" 2>&1; then
            pass "c/tests/shared.c is compiled"
        else
            fail "c/tests/shared.c" "it wasn't built: $(head -n 3 "$room/built" | tr '\n' ' ')"
        fi
    fi
}

test_soak() {
    if LIBRARY=$prefix/lib/libnidzaru.a sh tools/library_soak.sh 1 >"$room/said" 2>&1; then
        pass "tools/library_soak.sh: $(tail -n 2 "$room/said" | tr '\n' ' ')"
    else
        fail "tools/library_soak.sh" "$(tail -n 2 "$room/said" | tr '\n' ' ')"
    fi
}

# The recorder by ARM's counter on one processor: its own tests, and logs of right and of wrong registers.
test_recorder() {
    recorder='-Wall -Wextra -Wpedantic -Wconversion -Wshadow -Werror -pthread -O2 -I c'
    wants=passed
    for words in '' -DNIDZARU_LOG_FENCE=0 '-D_POSIX_C_SOURCE=199309L -DNIDZARU_LOG_TSC=0'; do
        run_here "c/tests/recorder.c${words:+, $words}" gcc -std=c11 $words $recorder c/tests/recorder.c -o "$room/program"
    done
    run_here "c/tests/recorder.c in C++17" g++ -x c++ -std=c++17 -Wold-style-cast $recorder c/tests/recorder.c -o "$room/program"
    run_here "c/tests/stamped.c, by the clock" gcc -std=c11 -D_POSIX_C_SOURCE=200809L -DNIDZARU_LOG_TSC=0 $recorder c/tests/stamped.c -o "$room/program"
    if ! gcc -std=c11 -D_GNU_SOURCE -DLIBRARY $recorder c/tests/recorded.c $flags -o "$room/recorded" >"$room/built" 2>&1; then
        fail "c/tests/recorded.c" "it wasn't built: $(head -n 3 "$room/built" | tr '\n' ' ')"
        return
    fi
    for register in seqlock atomic cell triple board triple_board; do
        judges_lawful "$register" '^lawful$'
    done
    for register in torn early last; do
        judges_lawful "$register" '^unlawful '
    done
    catches "a wrong log that is judged lawful" 'unlawful' judges_lawful torn '^lawful$'
}

# Records a register, and compares what the plain judge says of the log.
judges_lawful() {
    title="a log of $1"
    timeout "$longest" "$room/recorded" "$1" 300 >"$room/log" 2>"$room/err"
    python3 tests/programs/reference/lines.py <"$room/log" 2>>"$room/err" | head -n 1 >"$room/said"
    if grep -q "$2" "$room/said"; then
        pass "$title"
    else
        fail "$title" "$(cat "$room/said" "$room/err" | head -c 300 | tr '\n' ' ')"
    fi
}

# The programs' answers to the worked examples, what they refuse and draw, and each request for memory refused in turn. (The smaller
# programs aren't built for ARM: in their place stands fsr with their command.)
test_programs() {
    built=$room/programs
    . tests/programs/examples.sh
    . tests/programs/refusals.sh
    . tests/programs/pictures.sh
    wanted_status=0
    : >"$room/wanted_line"
    for name in lawful found_order cell race; do
        cp "examples/$name.txt" "$room/wanted"
        refuse_each fsr "examples/$name.json" "$(command_for "examples/$name.json")"
    done
}

case ${ARM_PART:-} in
library | programs)
    test_$ARM_PART
    echo "$passed passed, $failed failed"
    exit
    ;;
esac
room=$(mktemp -d) || exit 1
trap 'rm -rf "$room"' EXIT
trap 'exit 1' HUP INT TERM
make_tools "$room/tools" || exit 1
missing=$(missing)
if [ -n "$missing" ]; then
    echo "test: nothing is run for ARM: there is no $missing"
    echo "0 passed, 0 failed"
    exit
fi

if [ "${1:-}" = programs ]; then
    set_machine aarch64
    for program in fsr picture; do
        make_fresh "$program" </dev/null >&2 && mkdir -p "$room/programs/$program/out" \
            && cp "$(built_file "$program")" "$room/programs/$program/out/" || fail "$program" "it isn't built"
    done
    for word in check order play; do
        small=$room/programs/fsr_$word/out/fsr_$word
        mkdir -p "${small%/*}" && printf '#!/bin/sh\nexec %s/programs/fsr/out/fsr %s\n' "$room" "$word" >"$small" && chmod +x "$small"
    done
    ARM_PART=programs room=$room in_arm sh tests/arm.sh "$room" >"$room/told" 2>&1
    take_over "tests/arm.sh programs"
    echo "$passed passed, $failed failed"
    [ "$failed" = 0 ]
    exit
fi
if [ -z "$prefix" ]; then
    prefix=$room/prefix
    ./install --machine aarch64 "$prefix" >"$room/said" 2>&1 || fail "./install --machine aarch64" "$(tail -n 1 "$room/said")"
fi
if [ -f "$prefix/lib/libnidzaru.a" ]; then
    # (over what the tests' tar has, and nothing else of the tree)
    mkdir "$room/alone" && tar -c $tests_alone | tar -x -C "$room/alone"
    ARM_PART=library room=$room in_arm sh "$room/alone/tests/arm.sh" "$prefix" >"$room/told" 2>&1
    take_over tests/arm.sh
fi
echo "$passed passed, $failed failed"
[ "$failed" = 0 ] && [ "$passed" -gt 0 ]
