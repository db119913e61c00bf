# `fsr order --coherent`: a limit, keys and documents that it refuses, no memory, and random logs against a plain
# reference that was written from the definitions alone and tries every order (tests/programs/reference/coherences.py). The expected texts
# follow from docs/FORMATS.md.

. tests/programs/refused.sh

header='{"kind":"lines","opening":0}'

# A log of these lines.
these_lines() {
    printf '%s\n' "$@"
}

# Sees what is answered to a log.
#   coheres TITLE STATUS TEXT LOG
coheres() {
    if ! has_program fsr; then
        fail "$1" "fsr wasn't built"
        return
    fi
    printf '%s' "$4" >"$room/log"
    "$built/fsr/out/fsr" order --coherent <"$room/log" >"$room/out" 2>"$room/err"
    status=$?
    told=out other=err
    [ "$2" -lt 2 ] || told=err other=out
    if [ "$status" != "$2" ] || [ "$(cat "$room/$told")" != "$3" ] || [ -s "$room/$other" ]; then
        fail "$1" "status $status: $(head -c 300 "$room/out" "$room/err" | tr '\n' ' ')"
    else
        pass "$1"
    fi
}

coheres "no operation" 0 'coherent
Nothing was shown: there is no operation.
0 operations, 0 unfinished, 1 records, 0 of them read; no last line `done`' "$header"
coheres "refused writes, as reads" 1 'incoherent circle 3 4
line 3: {"who":1,"kind":"refused","begin":3,"end":4,"record":5}
line 4: {"who":1,"kind":"refused","begin":5,"end":6,"record":0}
Each two lines are of one task, so the record of the first has to stand before that of the second.
That goes in a circle; the opening stands before all others.
3 operations, 0 unfinished, 2 records, 0 of them read; no last line `done`' "$(these_lines '{"kind":"lines","opening":0,"limit":9}' \
    '{"who":0,"kind":"write","begin":1,"end":2,"record":5}' '{"who":1,"kind":"refused","begin":3,"end":4,"record":5}' \
    '{"who":1,"kind":"refused","begin":5,"end":6,"record":0}')"
coheres "a record that nobody wrote" 1 'incoherent unwritten 2
line 2: {"who":0,"kind":"read","begin":1,"end":2,"record":7}
Line 2 gave a record that is neither the opening nor written.
1 operations, 0 unfinished, 2 records, 1 of them read; no last line `done`' "$(these_lines "$header" '{"who":0,"kind":"read","begin":1,"end":2,"record":7}')"
coheres "another key" 3 'fsr: line 3: law of key; such a log has one key, that of its first operation' "$(these_lines "$header" '{"who":0,"kind":"write","begin":1,"end":2,"record":7,"key":"a"}' \
    '{"who":0,"kind":"write","begin":3,"end":4,"record":8,"key":"b"}')"
coheres "a record that is written twice" 3 'fsr: line 3: writes the record of line 2' "$(these_lines "$header" \
    '{"who":0,"kind":"write","begin":1,"end":2,"record":7}' '{"who":1,"kind":"write","begin":1,"end":2,"record":[7]}')"
coheres "a document" 3 'fsr: line 1: kind' "$(cat examples/found_order.json | tr -d '\n')"
coheres "an empty input" 3 'fsr: line 1: not JSON' ''

# Random logs against the reference.
#   compares_coherences TITLE LOGS SEED PROGRAM WORD..
compares_coherences() {
    title=$1 logs=$2 seed=$3
    shift 3
    if python3 tests/programs/reference/compare_coherences.py --logs "$logs" --seed "$seed" "$@" >"$room/out" 2>&1; then
        pass "$title: $(tail -n 1 "$room/out")"
    else
        fail "$title" "$(tail -n 12 "$room/out" | tr '\n' ' ')"
    fi
}

# The same over a program that is the built one but for what this script makes of its answers.
#   compares_altered SCRIPT
compares_altered() {
    printf '#!/bin/sh\n"%s" "$@" >"%s" 2>"%s"\nstatus=$?\nsed "%s" "%s"\ncat "%s" >&2\nexit $status\n' "$PWD/$built/fsr/out/fsr" \
        "$room/wrong_out" "$room/wrong_err" "$1" "$room/wrong_out" "$room/wrong_err" >"$room/wrong_coherent"
    chmod +x "$room/wrong_coherent"
    compares_coherences a 300 1 "$room/wrong_coherent" order --coherent
}

if ! command -v python3 >/dev/null 2>&1; then
    fail "random logs that are coherent or not" "there is no python3"
elif ! has_program fsr; then
    fail "random logs that are coherent or not" "fsr wasn't built"
else
    compares_coherences "random logs that are coherent or not" 2000 1 "$built/fsr/out/fsr" order --coherent
    catches "the answer by the clock" "the reference:" compares_coherences a 300 1 "$built/fsr/out/fsr" order
    catches "a circle that is told as coherent" "the reference:" compares_altered 's/^incoherent circle.*/coherent/'
    catches "a circle of other lines" "the reference:" compares_altered '/^incoherent circle/s/\\([0-9]*\\) \\([0-9]*\\)$/\\2 \\1/'
    catches "another reason" "the reference:" compares_altered 's/^incoherent ahead/incoherent circle/'
fi

# Each request for memory refused in turn.
if [ -z "$compiler" ]; then
    fail "coherence without memory" "there is no C compiler"
elif ! make_refusing; then
    fail "coherence without memory" "tests/programs/refuse.c wasn't compiled"
else
    : >"$room/wanted_line"
    for name in lines_coherent lines_coherent_circle lines_coherent_ahead; do
        wanted_status=0
        [ ! -f examples/$name.status ] || wanted_status=$(cat examples/$name.status)
        cp examples/$name.txt "$room/wanted"
        refuse_each fsr examples/$name.jsonl order --coherent
    done
fi
