# A minute of `./soak`, and `./soak planted`: each line tells as many writes as reads, and some; nothing is found in the cells and boards,
# and the planted bug is. Words that are none, and numbers that aren't whole, are refused.

# Whether a text has so many lines, each of as many writes as reads, which end so.
is_soak_text() {
    awk -v lines="$2" -v end="$3" '
        match($0, /: [0-9]+ writes, [0-9]+ reads, /) {
            split(substr($0, RSTART + 2, RLENGTH), count, " ")
            if (count[1] != count[3] || count[1] == 0) wrong = 1
            if (substr($0, RSTART + RLENGTH) !~ end) wrong = 1
            next
        }
        { wrong = 1 }
        END { exit wrong || NR != lines }' "$1"
}

# Runs the soak with these words, in front of it those of $before, and looks at what it tells and that it takes so many seconds. All that
# may stand on standard error is the line of $beside.
#   soak_of WORDS STATUS LINES END [SECONDS]
before='' beside='^$'
soak_of() {
    title="the soak: $1${before:+, disturbed}" soak_began=$(date +%s)
    if ! has_program soak; then
        fail "$title" "soak wasn't built"
        return
    fi
    $before "$built/soak/out/soak" $1 >"$room/out" 2>"$room/err" </dev/null
    status=$?
    if [ "$status" != "$2" ] || grep -qv "$beside" "$room/err"; then
        fail "$title" "it ended with status $status: $(head -c 200 "$room/err") $(tail -n 1 "$room/out")"
    elif ! is_soak_text "$room/out" "$3" "$4"; then
        fail "$title" "it printed $(cat "$room/out")"
    elif [ $(($(date +%s) - soak_began)) -lt "${5:-0}" ]; then
        fail "$title" "it took less than $5 seconds"
    else
        pass "$title"
    fi
}

# The planted bug is found, in the first of five soaks that finds it. (Beside much other work the two sides may run in turn.)
find_planted() {
    tries=0
    while has_program soak && [ $((tries += 1)) -lt 5 ] && "$built/soak/out/soak" planted >"$room/out" 2>&1 </dev/null; do :; done
    soak_of planted 1 1 '^and (a torn|an older) record$'
}

# Runs a soak with the request for memory of this number refused: it ends with status 4 and says so, or with 6 where that was a thread's.
# One that then has a thread too few goes on, and is ended here before it tells anything.
#   refused_soak REQUEST
refused_soak() {
    title="the soak with request $1 refused"
    REFUSE=$1 LD_PRELOAD=$room/refuse.so timeout 8 "$built/soak/out/soak" run 1 >"$room/out" 2>"$room/err" </dev/null
    status=$?
    case "$status $(cat "$room/out" "$room/err")" in
    '4 soak: out of memory' | "6 soak: a thread can't start" | '124 ') pass "$title" ;;
    *) fail "$title" "it ended with status $status: $(head -c 200 "$room/out" "$room/err")" ;;
    esac
}

find_planted
starts_no_thread soak 10000 /dev/null run 1
starts_no_thread soak 10000 /dev/null planted

# Where a compiler is, the minute is disturbed: threads are stopped while others go on, and moved between processors (tools/disturb.sh does
# so for as long as one likes).
soak_compiler=${CC:-cc}
if command -v "$soak_compiler" >/dev/null 2>&1; then
    "$soak_compiler" -std=c11 -O2 -Wall -Wextra tools/disturb.c -o "$room/disturb" && before="$room/disturb 7" beside='^[0-9]* stops, .* priorities$'
fi
soak_of 'run 1' 0 24 '^nothing found$' 50
before='' beside='^$'
if [ -x "$room/disturb" ]; then
    "$soak_compiler" -O2 -shared -fPIC tests/programs/refuse.c -ldl -o "$room/refuse.so"
    for request in 10 500 1500 2500; do
        refused_soak $request
    done
    # (a program that ends before it is disturbed in each way, and a soak that says otherwise)
    before="$room/disturb 7" beside='^[0-9]* stops, .* priorities$'
    make_stub soak </dev/null
    catches "a soak that isn't disturbed" "it ended with status 99" over_stubs soak_of planted 1 1 '^and'
    before='' beside='^$'
    make_stub soak <<'STUB'
echo 'soak: out of memory' >&2; exit 1
STUB
    catches "want of memory as a finding" "it ended with status 1" over_stubs refused_soak 1000000
fi

# The controls: another number of writes than of reads, none at all, a line too few, a finding in a cell, a planted bug that isn't found.
told_by_soak() {
    make_stub soak <<STUB
echo '$1: $2 writes, $3 reads, $4'; exit $5
STUB
    over_stubs soak_of planted "$5" "${6:-1}" '^nothing found$' "${7:-0}"
}

told_by_soak planted 5 5 'nothing found' 0
catches "a read too few" "it printed planted: 5 writes, 4 reads" told_by_soak planted 5 4 'nothing found' 0
catches "no read" "it printed planted: 0 writes, 0 reads" told_by_soak planted 0 0 'nothing found' 0
catches "a line too few" "it printed planted" told_by_soak planted 5 5 'nothing found' 0 2
catches "a soak that ends at once" "it took less than 50 seconds" told_by_soak planted 5 5 'nothing found' 0 1 50
catches "a torn record" "it printed planted: 5 writes, 5 reads, and a torn record" told_by_soak planted 5 5 'and a torn record' 0
catches "a planted bug that isn't found" "it ended with status 0" over_stubs find_planted

catches "a soak that is run in turn" "it ended with status 0" over_stubs starts_no_thread soak 10000 /dev/null run 1

# Sees that ./soak refuses these words, with nothing run and nothing built.
refuses_soak() {
    title="./soak $1, refused"
    env -i PATH=/usr/bin:/bin ./soak $1 >"$room/out" 2>"$room/err" </dev/null
    status=$?
    if [ "$status" = 2 ] && [ ! -s "$room/out" ] && grep -q '^usage: ./soak' "$room/err"; then
        pass "$title"
    else
        fail "$title" "it ended with status $status: $(head -c 200 "$room/out" "$room/err")"
    fi
}

for words in plantd run list 0 00 0.5 -1 1e9 '5 5' 'planted 1' 184467440737096; do
    refuses_soak "$words"
done
