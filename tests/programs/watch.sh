# `fsr watch` over real pipes: what is told as soon as its line has come, while the pipe stays open, and of a file that grows; floors and
# late lines; what many records take; faults, a budget, no memory, streams that fail; and random logs against a plain reference that was
# written from the definitions alone (tests/programs/reference/watches.py). The expected texts follow from docs/FORMATS.md.

. tests/programs/refused.sh

header='{"kind":"lines","opening":0,"repeats":true}'
write_5='{"who":0,"kind":"write","begin":1,"end":2,"record":5}'
stale_0='{"who":1,"kind":"read","begin":4,"end":6,"record":0}'
lost_3='unlawful lost 3
The log is lost at 6, when line 3 ended: no order of what is known by then is lawful, whatever comes.'

# Waits until a file has a line that begins so, for five seconds at most.
#   comes FILE BEGINS
comes() {
    tries=0
    until grep -q "^$2" "$1" 2>/dev/null; do
        tries=$((tries + 1))
        [ "$tries" -lt 100 ] || return 1
        sleep 0.05
    done
}

# Sees what is told of a log that comes by a pipe, which stays open. The lines in front are written first, and nothing may be told of them;
# then the last one, and it has to end with this status and tell this, with nothing on the other stream.
#   told_at_once TITLE STATUS TEXT LAST FRONT..
told_at_once() {
    title=$1 wanted_status=$2 wanted_text=$3 last=$4
    shift 4
    if ! has_program fsr; then
        fail "$title" "fsr wasn't built"
        return
    fi
    rm -f "$room/pipe" "$room/out" "$room/err" && mkfifo "$room/pipe" || return
    "$built/fsr/out/fsr" watch <"$room/pipe" >"$room/out" 2>"$room/err" &
    watcher=$!
    exec 9>"$room/pipe"
    [ $# = 0 ] || (printf '%s\n' "$@" >&9) 2>/dev/null
    sleep 0.2
    early=$(cat "$room/out" "$room/err" 2>/dev/null)
    kill -0 "$watcher" 2>/dev/null || early="an end, before the last line"
    (printf '%s\n' "$last" >&9) 2>/dev/null
    if [ "$wanted_status" -ge 2 ]; then comes "$room/err" ''; else comes "$room/out" ''; fi
    came=$?
    # the pipe is still open on this side
    [ "$came" = 0 ] || kill "$watcher" 2>/dev/null
    wait "$watcher"
    status=$?
    exec 9>&-
    told=$(cat "$room/out" "$room/err")
    if [ -n "$early" ]; then
        fail "$title" "before its line came: $early"
    elif [ "$came" != 0 ]; then
        fail "$title" "nothing is told while the pipe is open"
    elif [ "$status" != "$wanted_status" ] || [ "$told" != "$wanted_text" ]; then
        fail "$title" "status $status: $told"
    elif { [ "$status" -ge 2 ] && [ -s "$room/out" ]; } || { [ "$status" -lt 2 ] && [ -s "$room/err" ]; }; then
        fail "$title" "on the other stream"
    else
        pass "$title"
    fi
}

# Sees what is told of a log that is there as a whole, with these words.
#   watches TITLE STATUS TEXT LOG WORDS..
watches() {
    title=$1 wanted_status=$2 wanted_text=$3
    printf '%s' "$4" >"$room/log"
    shift 4
    if ! has_program fsr; then
        fail "$title" "fsr wasn't built"
        return
    fi
    "$built/fsr/out/fsr" watch "$@" <"$room/log" >"$room/out" 2>"$room/err"
    status=$?
    told=out other=err
    [ "$wanted_status" -lt 2 ] || told=err other=out
    if [ "$status" != "$wanted_status" ] || [ "$(cat "$room/$told")" != "$wanted_text" ] || [ -s "$room/$other" ]; then
        fail "$title" "status $status: $(head -c 300 "$room/out" "$room/err" | tr '\n' ' ')"
    else
        pass "$title"
    fi
}

# A log of these lines.
log() {
    printf '%s\n' "$@"
}

told_at_once "a lost log, at its floor" 1 "$lost_3" '{"kind":"floor","begin":7}' "$header" "$write_5" "$stale_0"
told_at_once "nothing at a floor that is too low" 1 "$lost_3" '{"kind":"floor","begin":9}' "$header" "$write_5" "$stale_0" '{"kind":"floor","begin":6}'
told_at_once "a fault, at its line" 3 'fsr: line 3: missing swapped' '{"who":1,"kind":"cas","begin":4,"end":6,"record":0,"from":0}' "$header" "$write_5"
told_at_once "a line below the floor" 3 'fsr: line 4: begins below the floor of line 3' "$stale_0" "$header" "$write_5" '{"kind":"floor","begin":5}'
told_at_once "a line behind the end" 3 'fsr: line 3: shape of kind; a `cas` needs `repeats` in the header, and `done` is the last line' "$stale_0" "$header" "$write_5" '{"kind":"done","ops":1}' '' ' '
told_at_once "a header that is none" 3 'fsr: line 1: kind' '{"kind":"log"}'

# Tasks that the header names: the least of their floors counts, which is at most the end of what each did last.
named='{"kind":"lines","opening":0,"repeats":true,"who":[0,1]}'
floor_0='{"kind":"floor","begin":8,"who":0}'
told_at_once "a lost log, where the last task's floor rises" 1 "$lost_3" '{"kind":"floor","begin":7,"who":1}' "$named" "$write_5" "$stale_0" "$floor_0"
told_at_once "a lost log, where the last task's floor rises by an operation" 1 "$lost_3" \
    '{"who":1,"kind":"read","begin":6,"end":7,"record":5}' "$named" "$write_5" "$stale_0" "$floor_0"
told_at_once "a lost log, at a floor of all" 1 "$lost_3" '{"kind":"floor","begin":7}' "$named" "$write_5" "$stale_0" "$floor_0"
told_at_once "a lost log, as the last task is over" 1 "$lost_3" '{"kind":"floor","begin":18446744073709551615,"who":0}' "$named" "$write_5" "$stale_0" \
    '{"who":1,"kind":"write","begin":7,"end":7,"record":0}'
told_at_once "a floor of a task where none is named" 1 "$lost_3" "$floor_0" "$header" "$write_5" "$stale_0"
told_at_once "an empty array of tasks" 1 "$lost_3" "$floor_0" '{"kind":"lines","opening":0,"who":[]}' "$write_5" "$stale_0"
told_at_once "a line below the floor of its task" 3 'fsr: line 4: begins below the floor of line 3' \
    '{"who":0,"kind":"read","begin":7,"end":9,"record":5}' "$named" "$write_5" "$floor_0"
told_at_once "a line before the end of its task's last" 3 'fsr: line 3: begins below the floor of line 2' \
    '{"who":0,"kind":"read","begin":1,"end":9,"record":5}' "$named" "$write_5"
told_at_once "a task that isn't named" 3 'fsr: line 3: law of who' '{"who":2,"kind":"read","begin":3,"end":9,"record":5}' "$named" "$write_5"
told_at_once "a floor of a task that isn't named" 3 'fsr: line 3: law of who' '{"kind":"floor","begin":9,"who":2}' "$named" "$write_5"
told_at_once "tasks of another shape" 3 'fsr: line 1: shape of who' '{"kind":"lines","opening":0,"who":[0,"1"]}'

watches "a lost log at its end" 1 "$lost_3" "$(log "$header" "$write_5" "$stale_0")"
watches "a header without repeats" 1 "$lost_3" "$(log '{"kind":"lines","opening":0}' "$write_5" "$stale_0")"
watches "a record that is written again" 0 'lawful
3 operations, 0 unfinished, 0 uncertain, 1 floors' "$(log '{"kind":"lines","opening":0}' "$write_5" '{"kind":"floor","begin":3}' \
    '{"who":0,"kind":"write","begin":3,"end":4,"record":0}' '{"who":1,"kind":"read","begin":5,"end":6,"record":0}' '{"kind":"done","ops":3}')"
# Twenty records, one after the other: but for the last all are forgotten at the floor.
twenty() {
    log '{"kind":"lines","opening":0}'
    n=0
    while [ $((n += 1)) -le 20 ]; do
        echo '{"who":0,"kind":"write","begin":'$((2 * n))',"end":'$((2 * n + 1))',"record":'$n'}'
    done
    log '{"kind":"floor","begin":42}' "$@"
}

read_3='{"who":1,"kind":"read","begin":46,"end":47,"record":3}'
write_3='{"who":0,"kind":"write","begin":44,"end":45,"record":3}'
watches "a record that was forgotten" 1 'unlawful lost 23
The log is lost at 47, when line 23 ended: no order of what is known by then is lawful, whatever comes.' "$(twenty "$read_3")"
watches "a record that was forgotten and is written again" 0 'lawful
22 operations, 0 unfinished, 0 uncertain, 2 floors; no last line `done`' "$(twenty "$write_3" '{"kind":"floor","begin":46}' "$read_3")"
watches "the last record, behind a floor" 0 'lawful
21 operations, 0 unfinished, 0 uncertain, 1 floors; no last line `done`' "$(twenty '{"who":1,"kind":"read","begin":46,"end":47,"record":20}')"
watches "a compare-and-set from the last record to one that was forgotten" 0 'lawful
22 operations, 0 unfinished, 0 uncertain, 1 floors; no last line `done`' "$(twenty \
    '{"who":0,"kind":"cas","begin":44,"end":45,"from":20,"record":3,"swapped":true}' "$read_3")"
watches "no operation" 0 'lawful
0 operations, 0 unfinished, 0 uncertain, 0 floors; no last line `done`' "$header"
watches "counts, out of order, with blank lines" 0 'lawful
4 operations, 1 unfinished, 1 uncertain, 2 floors' "$(log "$header" '{"who":1,"kind":"read","begin":4,"end":6,"record":5}' '' "$write_5" \
    '{"kind":"floor","begin":0}' ' ' '{"who":2,"kind":"cas","begin":3,"end":9,"from":5,"record":6,"swapped":null}' '{"kind":"floor","begin":0}' \
    '{"who":2,"kind":"write","begin":3,"end":null,"record":5}' '{"kind":"done","ops":4}' '' '')"
watches "an empty input" 3 'fsr: line 1: not JSON' ''
watches "a floor without its moment" 3 'fsr: line 2: missing begin' "$(log "$header" '{"kind":"floor"}')"
watches "a floor of another shape" 3 'fsr: line 2: shape of begin' "$(log "$header" '{"kind":"floor","begin":-1}')"
watches "a floor whose task has another shape" 3 'fsr: line 2: shape of who' "$(log "$header" '{"kind":"floor","begin":1,"who":"0"}')"
watches "operations of named tasks that touch, and floors of tasks one of which has none" 0 'lawful
3 operations, 1 unfinished, 0 uncertain, 1 floors; no last line `done`' "$(log "$named" "$write_5" '{"who":0,"kind":"read","begin":2,"end":3,"record":5}' \
    "$floor_0" '{"who":1,"kind":"write","begin":0,"end":null,"record":0}')"
watches "too few operations" 3 'fsr: line 3: law of ops' "$(log "$header" "$write_5" '{"kind":"done","ops":2}')"
watches "too many configurations" 7 'fsr: line 4: too many configurations' "$(log "$header" '{"who":0,"kind":"maybe","begin":1,"end":3,"record":5}' \
    '{"who":1,"kind":"maybe","begin":1,"end":3,"record":6}' '{"kind":"floor","begin":4}')" --budget 1

# Sixteen thousand writes, one after the other, each of a record of its own of 64 words, 21 MB together; and behind each tenth a floor,
# if the word is `floors`.
#   many_records WORD
many_records() {
    awk -v floors="$1" 'BEGIN {
        print "{\"kind\":\"lines\",\"opening\":0}"
        for (i = 1; i < 64; i++) behind = behind ",1844674407370955161" i % 6
        for (n = 1; n <= 16000; n++) {
            print "{\"who\":0,\"kind\":\"write\",\"begin\":" 2 * n ",\"end\":" 2 * n + 1 ",\"record\":[" n behind "]}"
            if (floors == "floors" && n % 10 == 0) print "{\"kind\":\"floor\",\"begin\":" 2 * n + 2 "}"
        }
    }'
}

# Sees that a watch of these has taken at most 8 MB of memory when all have come.
#   stays_small WORD
stays_small() {
    title="memory for many records, with $1"
    if ! has_program fsr; then
        fail "$title" "fsr wasn't built"
        return
    fi
    rm -f "$room/pipe" "$room/out" "$room/err" && mkfifo "$room/pipe" || return
    "$built/fsr/out/fsr" watch <"$room/pipe" >"$room/out" 2>"$room/err" &
    watcher=$!
    exec 9>"$room/pipe"
    many_records "$1" 2>/dev/null >&9
    peak=$(sed -n 's/^VmHWM:[^0-9]*\([0-9]*\) kB$/\1/p' "/proc/$watcher/status" 2>/dev/null)
    [ "${peak:-8193}" -le 8192 ] || kill "$watcher" 2>/dev/null
    exec 9>&-
    wait "$watcher" 2>/dev/null
    status=$?
    if [ -z "$peak" ]; then
        fail "$title" "it ended before its input, with status $status: $(head -c 200 "$room/out" "$room/err" | tr '\n' ' ')"
    elif [ "$peak" -gt 8192 ]; then
        fail "$title" "it took $peak KB"
    elif [ "$status" != 0 ] || [ "$(cat "$room/out")" != 'lawful
16000 operations, 0 unfinished, 0 uncertain, 1600 floors; no last line `done`' ]; then
        fail "$title" "status $status: $(head -c 200 "$room/out" "$room/err" | tr '\n' ' ')"
    else
        pass "$title"
    fi
}

stays_small floors
! has_program fsr || catches "no floor, at which a record could be forgotten" "it took " stays_small nothing

# A file that grows, read by `tail -f`.
grows() {
    title="a file that grows, by tail -f"
    if ! has_program fsr; then
        fail "$title" "fsr wasn't built"
        return
    fi
    log "$header" "$write_5" >"$room/grown"
    rm -f "$room/pipe" "$room/out" "$room/err" && mkfifo "$room/pipe" || return
    tail -n +1 -f "$room/grown" >"$room/pipe" 2>/dev/null &
    tail=$!
    "$built/fsr/out/fsr" watch <"$room/pipe" >"$room/out" 2>"$room/err" &
    watcher=$!
    sleep 0.2
    early=$(cat "$room/out" "$room/err" 2>/dev/null)
    log "$stale_0" '{"kind":"floor","begin":7}' >>"$room/grown"
    comes "$room/out" ''
    came=$?
    [ "$came" = 0 ] || kill "$watcher" 2>/dev/null
    wait "$watcher"
    status=$?
    kill "$tail" 2>/dev/null
    wait "$tail" 2>/dev/null
    if [ -n "$early" ] || [ "$status" != 1 ] || [ "$(cat "$room/out")" != "$lost_3" ] || [ -s "$room/err" ]; then
        fail "$title" "status $status: $early$(head -c 300 "$room/out" "$room/err" | tr '\n' ' ')"
    else
        pass "$title"
    fi
}

grows

# Sees the status and the line of a run with a stream that fails.
#   fails_stream TITLE LINE INPUT OUTPUT
fails_stream() {
    if ! has_program fsr; then
        fail "$1" "fsr wasn't built"
        return
    fi
    "$built/fsr/out/fsr" watch <"$3" >"$4" 2>"$room/err"
    status=$?
    if [ "$status" = 5 ] && [ "$(cat "$room/err")" = "$2" ]; then
        pass "$1"
    else
        fail "$1" "status $status: $(head -c 200 "$room/err")"
    fi
}

log "$header" "$write_5" "$stale_0" >"$room/log"
fails_stream "a folder that is watched" "fsr: read failed" examples /dev/null
[ ! -c /dev/full ] || fails_stream "a full output" "fsr: write failed" "$room/log" /dev/full

# A line of a megabyte and more is refused before it ends.
head -c 1048577 /dev/zero | tr '\0' '[' >"$room/long"
watches "a line that is too long" 3 'fsr: line 2: longer than 1048576 bytes' "$header
$(cat "$room/long")"

# Each request for memory refused in turn.
if [ -z "$compiler" ]; then
    fail "a watch without memory" "there is no C compiler"
elif ! make_refusing; then
    fail "a watch without memory" "tests/programs/refuse.c wasn't compiled"
else
    log "$header" "$write_5" "$stale_0" '{"kind":"floor","begin":7}' >"$room/lost.jsonl"
    log "$header" "$write_5" '{"who":1,"kind":"cas","begin":3,"end":5,"from":5,"record":[1,2],"swapped":true,"key":null}' \
        '{"kind":"floor","begin":4}' '{"who":1,"kind":"maybe","begin":4,"end":null,"record":"a"}' >"$room/lawful.jsonl"
    : >"$room/wanted_line"
    wanted_status=1
    echo "$lost_3" >"$room/wanted"
    refuse_each fsr "$room/lost.jsonl" watch
    log "$named" "$write_5" "$stale_0" "$floor_0" '{"kind":"floor","begin":7,"who":1}' >"$room/named.jsonl"
    refuse_each fsr "$room/named.jsonl" watch
    wanted_status=0
    printf 'lawful\n3 operations, 1 unfinished, 0 uncertain, 1 floors; no last line `done`\n' >"$room/wanted"
    refuse_each fsr "$room/lawful.jsonl" watch
    twenty "$write_3" "$read_3" >"$room/many.jsonl"
    printf 'lawful\n22 operations, 0 unfinished, 0 uncertain, 1 floors; no last line `done`\n' >"$room/wanted"
    refuse_each fsr "$room/many.jsonl" watch
    log "$header" "$write_5" '{"kind":"floor","begin":3}' "$write_5" >"$room/late.jsonl"
    wanted_status=3
    : >"$room/wanted"
    echo 'fsr: line 4: begins below the floor of line 3' >"$room/wanted_line"
    refuse_each fsr "$room/late.jsonl" watch
fi

# Random logs against the reference; the last line has to name each verdict.
#   compares_watches TITLE LOGS SEED PROGRAM WORD..
compares_watches() {
    title=$1 logs=$2 seed=$3
    shift 3
    if ! python3 tests/programs/reference/compare_watches.py --logs "$logs" --seed "$seed" "$@" >"$room/out" 2>&1; then
        fail "$title" "$(tail -n 12 "$room/out" | tr '\n' ' ')"
        return
    fi
    for verdict in 'given up' lawful lost refused; do
        grep -q "[1-9][0-9]* $verdict" "$room/out" && continue
        fail "$title" "none is $verdict: $(tail -n 1 "$room/out")"
        return
    done
    pass "$title: $(tail -n 1 "$room/out")"
}

# The same over a program that is the built one but for what this script makes of its answers.
#   compares_wrongly SCRIPT
compares_wrongly() {
    printf '#!/bin/sh\n"%s" "$@" >"%s" 2>"%s"\nstatus=$?\nsed "%s" "%s"\ncat "%s" >&2\nexit $status\n' "$PWD/$built/fsr/out/fsr" \
        "$room/wrong_out" "$room/wrong_err" "$1" "$room/wrong_out" "$room/wrong_err" >"$room/wrong_watch"
    chmod +x "$room/wrong_watch"
    compares_watches a 300 1 "$room/wrong_watch" watch
}

# The same over the built program where the header names no task: each floor is of all then.
compares_floors_of_all() {
    printf '#!/bin/sh\nsed "1s/\"who\":/\"whose\":/" | "%s" "$@"\n' "$PWD/$built/fsr/out/fsr" >"$room/wrong_watch"
    chmod +x "$room/wrong_watch"
    compares_watches a 300 1 "$room/wrong_watch" watch
}

if ! command -v python3 >/dev/null 2>&1; then
    fail "random logs that are watched" "there is no python3"
elif ! has_program fsr; then
    fail "random logs that are watched" "fsr wasn't built"
else
    compares_watches "random logs that are watched" 3000 1 "$built/fsr/out/fsr" watch
    compares_watches "random logs of many records" 200 2 --many "$built/fsr/out/fsr" watch
    catches "a floor of a task that is told as one of all" "the reference:" compares_floors_of_all
    catches "a lost log that is told as lawful" "the reference:" compares_wrongly 's/^unlawful lost.*/lawful/'
    catches "another moment" "the reference:" compares_wrongly 's/is lost at /is lost at 1/'
    catches "another count of floors" "the reference:" compares_wrongly 's/ floors/0 floors/'
fi
