#!/bin/sh
# The recorder for C, C++ and Rust, and what makes JSON Lines of other programs' histories. Registers are recorded and the logs judged:
# right ones have to be lawful, wrong ones have to be refused. The judge is `fsr order`, where it is built and reads lines, and always the
# plain one of tests/programs/reference. With the PREFIX of an installed library its registers and boards are recorded too. The last line is
# the sums. usage: tests/programs/recorder.sh [PREFIX [OPERATIONS]]
cd "$(dirname -- "$(readlink -f -- "$0")")/../.." || exit 1
prefix=$1 operations=${2:-9000}
room=$(mktemp -d) || exit 1
trap 'rm -rf "$room"' EXIT
trap 'exit 1' HUP INT TERM
. tests/gate/outcomes.sh
passed=0 failed=0 judged=0
strict='-Wall -Wextra -Wpedantic -Wconversion -Wshadow -Werror -pthread -I c'

# The built program that reads lines, as words of a command.
built=
for program in crates/fsr_order/out/fsr_order 'crates/fsr/out/fsr order'; do
    if [ -x "${program%% *}" ] && printf '{"kind":"lines","opening":0}\n' | $program >"$room/tried" 2>/dev/null \
        && grep -qx lawful "$room/tried"; then
        built=$program
    fi
done

# The built program that watches, likewise.
watching=
for program in crates/fsr_watch/out/fsr_watch 'crates/fsr/out/fsr watch'; do
    if [ -x "${program%% *}" ] && printf '{"kind":"lines","opening":0}\n{"kind":"floor","begin":7}\n' | $program >"$room/tried" 2>/dev/null \
        && grep -qx lawful "$room/tried"; then
        watching=$program
    fi
done

# Judges a log: the first line says what is wanted, by each judge, and its status fits.
judges() {
    title=$1 wanted=$2 wanted_status=$3
    for judge in 'python3 tests/programs/reference/lines.py' $built_word; do
        [ "$judge" != built ] || judge=$built
        $judge <"$room/log" >"$room/said" 2>"$room/err"
        status=$?
        if [ "$status" != "$wanted_status" ] || ! cat "$room/said" "$room/err" | head -n 1 | grep -qE "$wanted"; then
            fail "$title" "status $status: $(cat "$room/said" "$room/err" | head -c 300 | tr '\n' ' ') ($judge)"
            return
        fi
    done
    judged=$((judged + 1))
    pass "$title"
}
built_word=${built:+built}

# Records a register by a command, and judges the log.
records() {
    name=$1 wants=$2
    shift 2
    if ! "$@" >"$room/log" 2>"$room/err"; then
        fail "$name" "it wasn't recorded: $(head -n 1 "$room/err")"
    elif [ "$wants" = lawful ]; then
        judges "$name is lawful" '^lawful$' 0
    else
        judges "$name is refused" '^unlawful (unwritten|early|stale|crossed) [0-9]' 1
    fi
}

# How many logs of a program are lawful until one isn't, of at most so many.
#   count_lawful MOST PROGRAM WORDS..
count_lawful() {
    most=$1 lawful=0
    shift
    while [ "$lawful" -lt "$most" ]; do
        timeout 120 "$@" >"$room/log" 2>"$room/err" || { echo "it wasn't recorded" && return; }
        python3 tests/programs/reference/lines.py <"$room/log" >"$room/said" 2>"$room/err"
        case $? in
        0) lawful=$((lawful + 1)) ;;
        1) break ;;
        *) lawful="no log: $(head -n 1 "$room/err")" && break ;;
        esac
    done
    echo "$lawful"
}

# A wrong register that keeps pace: one of so many logs is unlawful. (Of eight of 72,000 operations six were, with other work.)
#   is_condemned NAME MOST PROGRAM WORDS..
is_condemned() {
    name=$1
    shift
    count=$(count_lawful "$@")
    case $count in
    "$1" | *[!0-9]*) fail "$name" "of $1 logs none is unlawful: $count" ;;
    *) pass "$name is refused" ;;
    esac
}

# A register that only the recorder's fence orders. Without the fence 0.6 of its logs were lawful, with other work on four processors: of
# twelve none is unlawful with a chance of 0.002, of a hundred never.
#   needs_fence NAME FENCED WORDS UNFENCED WORDS
logs=100
needs_fence() {
    name=$1 fenced=$2 fenced_words=$3 unfenced=$4 unfenced_words=$5
    count=$(count_lawful 12 "$fenced" $fenced_words)
    if [ "$count" != 12 ]; then
        fail "$name" "with the fence: $count, and then $(head -n 1 "$room/said")"
        return
    fi
    count=$(count_lawful "$logs" "$unfenced" $unfenced_words)
    case $count in
    "$logs") fail "$name" "without the fence $logs logs are lawful" ;;
    *[!0-9]*) fail "$name" "without the fence: $count" ;;
    *) pass "$name: lawful with the fence, unlawful without" ;;
    esac
}

# Watches what is in a file: the first line says this, its status fits, and of a lawful log the counts are these.
#   is_watched TITLE WANTED STATUS FILE [COUNTS]
is_watched() {
    $watching <"$4" >"$room/said" 2>"$room/err"
    status=$?
    if [ "$status" = "$3" ] && cat "$room/said" "$room/err" | head -n 1 | grep -qE "$2" && grep -qE "${5-}" "$room/said" "$room/err"; then
        pass "$1"
    else
        fail "$1" "status $status: $(cat "$room/said" "$room/err" | head -c 300 | tr '\n' ' ')"
    fi
}

# A right register whose lines and floors are watched while its threads run; then the stream is looked at, and judged without its floors.
#   is_live NAME OPERATIONS COUNT WORDS OF floors.py.. -- PROGRAM WORDS..
is_live() {
    live=$1 wanted="^$2 operations, $3 unfinished, 0 uncertain, [0-9]+ floors\$"
    shift 3
    compared=
    while [ "$1" != -- ]; do compared="$compared $1" && shift; done
    shift
    rm -f "$room/pipe" && mkfifo "$room/pipe" || return
    tee "$room/stream" <"$room/pipe" | ${watching:-cat} >"$room/watched" 2>&1 &
    watcher=$!
    timeout 120 "$@" "$room/merged" >"$room/pipe" 2>"$room/told"
    status=$?
    wait "$watcher"
    if [ "$status" != 0 ]; then
        fail "$live" "it wasn't recorded: status $status, $(head -c 300 "$room/told" | tr '\n' ' ')"
        return
    fi
    counts "$live, its lines and floors" python3 tests/programs/floors.py "$room/stream" $compared
    grep -v '"kind":"floor"' "$room/stream" >"$room/log"
    judges "$live is lawful" '^lawful$' 0
    [ -z "$watching" ] || if head -n 1 "$room/watched" | grep -qx lawful && grep -qE "$wanted" "$room/watched"; then
        pass "$live, watched"
    else
        fail "$live, watched" "$(head -c 300 "$room/watched" | tr '\n' ' ')"
    fi
}

# A wrong register is told while its threads run: the watch ends, and the program sees its reader leave.
#   is_told_live NAME PROGRAM WORDS..
is_told_live() {
    name="$1 is told while it runs"
    shift
    rm -f "$room/pipe" && mkfifo "$room/pipe" || return
    timeout 120 "$@" "$room/merged" >"$room/pipe" 2>"$room/err" &
    recorder=$!
    $watching <"$room/pipe" >"$room/said" 2>&1
    watched=$?
    wait "$recorder"
    status=$?
    if [ "$watched" != 1 ] || ! head -n 1 "$room/said" | grep -qE '^unlawful lost [0-9]+$'; then
        fail "$name" "status $watched: $(cat "$room/said" "$room/err" | head -c 300 | tr '\n' ' ')"
    elif [ "$status" != 4 ]; then
        fail "$name" "the program ended with status $status, and not as its reader left"
    else
        pass "$name"
    fi
}

# Lines and floors while the threads run, in a program that is compiled as `recorded`.
test_live() {
    is_live "a sequence lock that is watched ($1)" 99999 0 --floors 10 --merged "$room/merged" -- "$room/recorded" seqlock 100000 live
    is_live "an atomic word that is watched ($1)" 9999 0 --floors 100 --merged "$room/merged" -- "$room/recorded" atomic 10000 slow
    is_live "a write that hangs ($1)" 6500 1 --floors 100 --told "$room/told" --merged "$room/merged" -- "$room/recorded" atomic 9000 hang
    [ -z "$watching" ] || for register in torn last; do
        is_told_live "$register ($1)" "$room/recorded" "$register" 300000 slow
    done
}

# The same with ThreadSanitizer, where the compiler has it.
test_live_sanitized() {
    quiet=
    [ "$c" = clang ] || quiet=-Wno-tsan
    echo 'int main(void) { return 0; }' >"$room/empty.c"
    "$c" -fsanitize=thread "$room/empty.c" -o "$room/empty" >/dev/null 2>&1 && "$room/empty" || return
    if ! "$c" -std=c11 -D_GNU_SOURCE -O1 -g -fsanitize=thread $strict $quiet c/tests/recorded.c -o "$room/sanitized" >"$room/said" 2>&1; then
        fail "c/tests/recorded.c with ThreadSanitizer ($c)" "it wasn't built: $(head -n 3 "$room/said" | tr '\n' ' ')"
        return
    fi
    is_live "an atomic word with ThreadSanitizer ($c)" 9999 0 --floors 10 --merged "$room/merged" -- "$room/sanitized" atomic 10000 live
    is_live "a write that hangs with ThreadSanitizer ($c)" 6500 1 --told "$room/told" --merged "$room/merged" -- "$room/sanitized" atomic 9000 hang
}

# Streams of a right register with a fault.
test_planted_live() {
    "$room/recorded" atomic 9000 hang "$room/merged" >"$room/stream" 2>"$room/told"
    python3 tests/programs/floors.py "$room/stream" --raise >"$room/raised"
    python3 tests/programs/floors.py "$room/stream" --leave-out >"$room/less"
    catches "a floor that is one too high" "below the floor" counts a python3 tests/programs/floors.py "$room/raised"
    catches "a line that is left out" "in place of" counts a python3 tests/programs/floors.py "$room/less" --merged "$room/merged"
    catches "a call that nobody says to hang" "nobody is said" counts a python3 tests/programs/floors.py "$room/stream" --told /dev/null
    [ -n "$watching" ] || return
    is_watched "planted: a floor that is one too high is refused as late" 'begins below the floor of line [0-9]+$' 3 "$room/raised"
    is_watched "planted: a write that is left out is told" '^unlawful lost [0-9]+$' 1 "$room/less"
    catches "a right register that is to be told" "status 0: lawful" is_told_live a "$room/recorded" atomic 3000 slow
}

# Compiles and runs tests of the recorder; the name begins with the source.
passes() {
    name=$1 source=${1%%[ ,]*}
    shift
    if ! "$@" -O2 $strict "$source" -o "$room/program" >"$room/said" 2>&1; then
        fail "$name" "it wasn't built: $(head -n 3 "$room/said" | tr '\n' ' ')"
    elif "$room/program" >"$room/said" 2>&1 && [ "$(cat "$room/said")" = passed ]; then
        pass "$name"
    else
        fail "$name" "$(head -n 3 "$room/said" | tr '\n' ' ')"
    fi
}

test_in_c() {
    passes "c/tests/recorder.c ($c)" "$c" -std=c11
    passes "c/tests/recorder.c, without the fence ($c)" "$c" -std=c11 -DNIDZARU_LOG_FENCE=0
    for words in 0 1 64; do
        passes "c/tests/recorder.c, with $words words ($c)" "$c" -std=c11 -D_POSIX_C_SOURCE=200809L -DNIDZARU_LOG_WORDS=$words
    done
    echo 'int main(void) { return 0; }' >"$room/empty.c"
    ! "$c" -fsanitize=address,undefined "$room/empty.c" -o "$room/empty" >/dev/null 2>&1 || passes "c/tests/recorder.c, with sanitizers ($c)" \
        "$c" -std=c11 -fsanitize=address,undefined -fno-sanitize-recover=all
    passes "c/tests/recorder.c, by clock_gettime ($c)" "$c" -std=c11 -D_POSIX_C_SOURCE=199309L -DNIDZARU_LOG_TSC=0
    passes "c/tests/drained.c ($c)" "$c" -std=c11
    for words in '' -DNIDZARU_LOG_FENCE=0 -DNIDZARU_LOG_TSC=0; do
        # (the instructions of ARM's counter are no functions, which a test could replace: c/tests/planted_log.py looks at them)
        [ "$words" = -DNIDZARU_LOG_TSC=0 ] || case $("$c" -dumpmachine) in aarch64*) continue ;; esac
        passes "c/tests/stamped.c${words:+, $words} ($c)" "$c" -std=c11 -D_POSIX_C_SOURCE=200809L $words
    done
    passes "c/tests/recorder.c in C++17 ($cpp)" "$cpp" -x c++ -std=c++17 -Wold-style-cast
    passes "c/tests/recorder.c in C++17, by clock_gettime ($cpp)" "$cpp" -x c++ -std=c++17 -Wold-style-cast -DNIDZARU_LOG_TSC=0
    if ! "$c" -std=c11 -D_GNU_SOURCE -O2 $strict c/tests/recorded.c $library -o "$room/recorded" >"$room/said" 2>&1; then
        fail "c/tests/recorded.c ($c)" "it wasn't built: $(head -n 3 "$room/said" | tr '\n' ' ')"
        return
    fi
    if "$c" -std=c11 -D_POSIX_C_SOURCE=200809L -O2 $strict examples/c/recorder.c -o "$room/example" >"$room/said" 2>&1; then
        records "examples/c/recorder.c, mended ($c)" lawful timeout 120 "$room/example" "$operations" mended
        is_condemned "examples/c/recorder.c ($c)" 20 "$room/example" $((operations * 8))
        is_live "examples/c/recorder.c, mended, while it runs ($c)" 9000 0 --floors 9 -- "$room/example" 9000 mended live
    else
        fail "examples/c/recorder.c ($c)" "it wasn't built: $(head -n 3 "$room/said" | tr '\n' ' ')"
    fi
    for register in seqlock atomic ${library:+cell triple board triple_board}; do
        records "$register ($c)" lawful timeout 120 "$room/recorded" "$register" "$operations"
    done
    # (a thread is stopped in a call by the trap flag of x86-64)
    ways=cancelled
    case $("$c" -dumpmachine) in x86_64*) ways='cancelled read write' ;; esac
    for way in ${library:+$ways}; do
        if ! "$c" -std=c11 -D_GNU_SOURCE -O2 $strict c/tests/lost.c $library -o "$room/lost" >"$room/said" 2>&1; then
            fail "c/tests/lost.c ($c)" "it wasn't built: $(head -n 3 "$room/said" | tr '\n' ' ')"
        else
            records "a board of which a thread is lost, $way ($c)" lawful timeout 120 "$room/lost" "$way" "$operations"
        fi
    done
    for register in torn early last; do
        records "$register ($c)" refused timeout 120 "$room/recorded" "$register" "$operations"
    done
    if "$c" -std=c11 -D_GNU_SOURCE -O2 -DNIDZARU_LOG_FENCE=0 $strict c/tests/recorded.c $library -o "$room/unfenced" >"$room/said" 2>&1; then
        needs_fence "behind ($c)" "$room/recorded" "behind $operations" "$room/unfenced" "behind $operations"
    else
        fail "c/tests/recorded.c, without the fence ($c)" "it wasn't built: $(head -n 3 "$room/said" | tr '\n' ' ')"
    fi
    test_live "$c"
    test_live_sanitized
    test_processes
    test_killed
}

judges_by_stub() {
    built=$room/stub built_word=built
    judges "$@"
}

# Records two processes, and prints the log. The lines of the right ones stay.
both_lines() {
    folder=$room/${2:-own}
    mkdir -p "$folder" && timeout 120 "$room/processes" "$folder" "$@" && cat "$folder/writes.jsonl" "$folder/reads.jsonl"
}

# Two processes, whose lines are joined by `cat` and by the tool.
test_processes() {
    if ! "$c" -std=c11 -O2 $strict c/tests/processes.c -o "$room/processes" >"$room/said" 2>&1; then
        fail "c/tests/processes.c ($c)" "it wasn't built: $(head -n 3 "$room/said" | tr '\n' ' ')"
        return
    fi
    records "two processes ($c)" lawful both_lines "$operations"
    records "two processes, one late ($c)" refused both_lines "$operations" late
    records "two processes, by join.py ($c)" lawful python3 tools/convert/join.py "$room/own/writes.jsonl" "$room/own/reads.jsonl"
}

# Threads that are killed: after each instruction, and at random. What they left is merged in C and by the tool.
test_killed() {
    if ! "$c" -std=c11 -O2 $strict c/tests/killed.c -o "$room/killed" >"$room/said" 2>&1; then
        fail "c/tests/killed.c ($c)" "it wasn't built: $(head -n 3 "$room/said" | tr '\n' ' ')"
        return
    fi
    if (cd "$room" && timeout 120 ./killed steps left.log) >"$room/said" 2>&1 && [ "$(tail -n 1 "$room/said")" = passed ]; then
        pass "c/tests/killed.c ($c): $(head -n 1 "$room/said")"
    else
        fail "c/tests/killed.c ($c)" "$(head -n 3 "$room/said" | tr '\n' ' ')"
    fi
    for seed in 1 2 3; do
        records "killed threads $seed ($c)" lawful timeout 120 "$room/killed" threads "$room" $seed
    done
    records "killed threads, by join.py ($c)" lawful python3 tools/convert/join.py "$room/header" "$room"/[012].log
    rm -f "$room"/[012].log
}

# What has to be seen in a log that was recorded of a right register.
plants() {
    python3 tests/programs/reference/plant_lines.py "$1" <"$room/right" >"$room/log"
    judges "a planted fault: $1" "$2" "$3"
}

test_planted() {
    "$room/recorded" seqlock "$operations" >"$room/log" 2>/dev/null
    catches "a right log that is judged unlawful" "status 0" judges a '^unlawful' 1
    "$room/recorded" torn "$operations" >"$room/log" 2>/dev/null
    catches "a wrong log that is judged lawful" "status 1" judges a '^lawful$' 0
    counts "explain.py of a recorded log" python3 tests/programs/explained.py "$room/log"
    "$room/recorded" seqlock "$operations" >"$room/right" 2>/dev/null
    cp "$room/right" "$room/log"
    catches "a whole log that is explained as a torn one" "a recorded log: status 0: Each operation" \
        counts a python3 tests/programs/explained.py "$room/log"
    for said in 'lawful:1:status 1' 'lawful or so:0:status 0' ':0:status 0'; do
        printf '#!/bin/sh\necho "%s"\nexit %s\n' "${said%%:*}" "$(echo "$said" | cut -d : -f 2)" >"$room/stub" && chmod +x "$room/stub"
        catches "a built judge that says '${said%:*}'" "${said##*:}" judges_by_stub a '^lawful$' 0
    done
    test_planted_live
    plants old '^unlawful (stale|crossed) [0-9]' 1
    plants lost '^unlawful unwritten [0-9]' 1
    plants misspelt 'line [0-9]+: missing end; ' 3
    plants returned 'line 2: not JSON$' 3
    plants short 'line [0-9]+: law of ops$' 3
}

# The module for Rust alone, as a crate of its own; the whole crate is tested where the library is.
test_in_rust() {
    mkdir -p "$room/alone" && cp rust/nidzaru/src/log.rs "$room/alone/" && echo 'pub mod log;' >"$room/alone/lib.rs"
    if ! rustc --edition 2021 -D warnings -O --test --crate-name nidzaru "$room/alone/lib.rs" -o "$room/tests" >"$room/said" 2>&1; then
        fail "rust/nidzaru/src/log.rs" "it wasn't built: $(head -n 3 "$room/said" | tr '\n' ' ')"
        return
    elif "$room/tests" >"$room/said" 2>&1 && grep -q '^test result: ok. [1-9]' "$room/said"; then
        pass "rust/nidzaru/src/log.rs: $(awk '/^test result: ok/ { print $4 }' "$room/said") tests"
    else
        fail "rust/nidzaru/src/log.rs" "$(grep -m 3 'panicked\|FAILED' "$room/said" | tr '\n' ' ')"
    fi
    if ! rustc --edition 2021 -D warnings -O --crate-type rlib --crate-name nidzaru "$room/alone/lib.rs" --out-dir "$room/alone" \
        >"$room/said" 2>&1 || ! rustc --edition 2021 -D warnings -O -L "$room/alone" --extern "nidzaru=$room/alone/libnidzaru.rlib" \
            rust/nidzaru/examples/record_seqlock.rs -o "$room/seqlock" >"$room/said" 2>&1; then
        fail "record_seqlock.rs" "it wasn't built: $(head -n 3 "$room/said" | tr '\n' ' ')"
        return
    fi
    if rustc --edition 2021 -D warnings -O -L "$room/alone" --extern "nidzaru=$room/alone/libnidzaru.rlib" rust/behind.rs \
        -o "$room/behind" >"$room/said" 2>&1; then
        needs_fence "rust/behind.rs" "$room/behind" "$operations" "$room/behind" "$operations unfenced"
    else
        fail "rust/behind.rs" "it wasn't built: $(head -n 3 "$room/said" | tr '\n' ' ')"
    fi
    records "record_seqlock.rs" lawful timeout 120 "$room/seqlock" "$operations"
    records "record_seqlock.rs, torn" refused timeout 120 "$room/seqlock" "$operations" torn
    is_live "record_seqlock.rs while it runs" 99999 0 --floors 10 -- "$room/seqlock" 100000 live
    [ -z "$watching" ] || is_told_live "record_seqlock.rs, torn" "$room/seqlock" 300000 torn live
}

test_crate() {
    cp -r rust/nidzaru "$room/crate"
    if ! PKG_CONFIG_PATH=$prefix/lib/pkgconfig CARGO_TARGET_DIR=$room/target cargo build --release --offline --quiet \
        --example record_board --manifest-path "$room/crate/Cargo.toml" >"$room/said" 2>&1; then
        fail "record_board.rs" "it wasn't built: $(grep -m 3 error "$room/said" | tr '\n' ' ')"
        return
    fi
    records "a board in Rust" lawful timeout 120 "$room/target/release/examples/record_board" "$operations"
    records "a register in Rust" lawful timeout 120 "$room/target/release/examples/record_board" "$operations" register
}

# A script whose last line says what it compared.
counts() {
    name=$1
    shift
    if "$@" >"$room/said" 2>&1; then
        pass "$name: $(tail -n 1 "$room/said")"
    else
        fail "$name" "$(head -c 400 "$room/said" | tr '\n' ' ')"
    fi
}

if ! command -v python3 >/dev/null 2>&1; then
    fail "the recorder" "there is no python3"
else
    counts "the plain judge of lines against all orders" python3 tests/programs/reference/compare_lines.py --logs 2500
    for word in ${built:+'' --order --small --strict}; do
        counts "fsr order${word:+ $word} against all orders" python3 tests/programs/reference/compare_small_lines.py --logs 1000 -- $built $word
    done
    counts "converters" python3 tests/programs/converters.py
    counts "join.py" python3 tests/programs/joined.py
    counts "explain.py" python3 tests/programs/explained.py
    counts "recorder.py" python3 tests/programs/recorded.py
    for planted in log,jepsen_keys.edn verdict,jepsen_keys.edn refusal,jepsen_append.edn history,jepsen_append.edn; do
        catches "a ${planted%,*} that isn't wanted" "${planted#*,}\|not compared" \
            counts converters python3 tests/programs/converters.py --planted "${planted%,*}" "${planted#*,}"
    done
    for script in tests/programs/planted_converters.py c/tests/planted_log.py; do
        # (most of the second's edits are of the counter of x86-64)
        [ $script = tests/programs/planted_converters.py ] || case $(gcc -dumpmachine) in aarch64*) continue ;; esac
        python3 $script >"$room/told" 2>&1
        take_over $script
    done
    library=
    [ -z "$prefix" ] || library="-DLIBRARY $(PKG_CONFIG_PATH=$prefix/lib/pkgconfig pkg-config --libs nidzaru)"
    for pair in gcc,g++ clang,clang++; do
        c=${pair%,*} cpp=${pair#*,}
        ! command -v "$c" >/dev/null 2>&1 || ! command -v "$cpp" >/dev/null 2>&1 || test_in_c
    done
    [ ! -x "$room/recorded" ] || test_planted
    [ ! -x "$room/example" ] || catches "a right register that is to be condemned" "of 2 logs none is unlawful: 2" \
        is_condemned a 2 "$room/example" 300 mended
    [ ! -x "$room/unfenced" ] || catches "a fence that orders nothing" "with the fence: " \
        needs_fence a "$room/recorded" "torn $operations" "$room/unfenced" "behind $operations"
    logs=3
    [ ! -x "$room/recorded" ] || catches "a register that needs no fence" "3 logs are lawful" \
        needs_fence a "$room/recorded" "seqlock 30" "$room/recorded" "seqlock 30"
    logs=100
    ! command -v rustc >/dev/null 2>&1 || test_in_rust
    [ -z "$prefix" ] || ! command -v cargo >/dev/null 2>&1 || test_crate
    [ "$judged" -gt 0 ] || fail "the recorder" "no log was judged"
fi
echo "$passed passed, $failed failed"
[ "$failed" = 0 ] && [ "$passed" -gt 0 ]
