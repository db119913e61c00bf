# How the tests beside the gate count.

pass() {
    printf 'test: %s: ok\n' "$1"
    passed=$((passed + 1))
}

fail() {
    printf 'test: %s: FAILED: %s\n' "$1" "$2"
    failed=$((failed + 1))
}

# Takes over the counts of a last line `N passed, M failed`.
take_counts() {
    line=$(tail -n 1 "$1")
    more_passed=${line%% passed, *}
    more_failed=${line##* passed, }
    more_failed=${more_failed%% failed}
    case $more_passed$more_failed in
    *[!0-9]* | '')
        echo "test: $2 did not say how it ended"
        more_passed=0 more_failed=1
        ;;
    esac
    passed=$((passed + more_passed)) failed=$((failed + more_failed))
}

# Takes over what a script has said, in $room/told: one line each and the sums last.
#   take_over NAME
take_over() {
    sed '$d' "$room/told"
    take_counts "$room/told" "$1"
}

# The control of a check: with a planted fault in what it looks at, the check has to fail, and say this.
#   catches TITLE SAID CHECK WORDS..
catches() {
    control=$1 control_said=$2
    shift 2
    tally=$(
        passed=0 failed=0
        "$@" >"$room/caught" 2>&1
        echo "$passed passed, $failed failed"
    )
    if [ "$tally" != '0 passed, 1 failed' ]; then
        fail "planted: $control" "it isn't seen: $tally"
    elif ! grep -q -e "$control_said" "$room/caught"; then
        fail "planted: $control" "another reason: $(head -c 300 "$room/caught" | tr '\n' ' ')"
    else
        pass "planted: $control"
    fi
}

# The folder with the crates and what is built of them.
built=crates

# Says whether the gate left a program that was built from the sources as they are.
has_program() {
    [ -x "$built/$1/out/$1" ]
}

# Makes a program of this name that a check takes for the built one: it is the text on standard input, a script of the shell.
make_stub() {
    mkdir -p "$room/stubs/$1/out" && { echo '#!/bin/sh' && cat; } >"$room/stubs/$1/out/$1" && chmod +x "$room/stubs/$1/out/$1"
}

# Runs a check over these programs.
over_stubs() {
    unstubbed=$built
    built=$room/stubs
    "$@"
    stubbed=$?
    built=$unstubbed
    return $stubbed
}

# Sees that a program that may map so many kilobytes, too few for a thread, ends with status 6 and says so, and prints nothing.
#   starts_no_thread PROGRAM KILOBYTES INPUT WORDS..
starts_no_thread() {
    program=$built/$1/out/$1 named=$1 kilobytes=$2 input=$3
    shift 3
    title="$named $(echo "$*" | sed "s|$room/||g") within $kilobytes KB, where a thread can't start"
    if ! has_program "$named"; then
        fail "$title" "$named wasn't built"
        return
    fi
    (ulimit -v "$kilobytes" && exec "$program" "$@") <"$input" >"$room/out" 2>"$room/err"
    status=$?
    if [ "$status" = 6 ] && [ ! -s "$room/out" ] && [ "$(cat "$room/err")" = "$named: a thread can't start" ]; then
        pass "$title"
    else
        fail "$title" "it ended with status $status: $(head -c 200 "$room/out" "$room/err" | tr '\n' ' ')"
    fi
}

# Makes a copy of the repository, without what is built, in which a fault is planted; of several calls the first makes it.
make_tree() {
    tree=$room/tree
    [ -d "$tree" ] || { mkdir "$tree" && tar -c --exclude=./.git --exclude=./out --exclude='./crates/*/out' . | tar -x -C "$tree"; }
}

# Sees that a command fails over the copy where the text of one file was changed by a command of sed, and says this.
#   catches_in_tree TITLE SAID FILE SED COMMAND..
catches_in_tree() {
    title=$1 said=$2 file=$3 change=$4
    shift 4
    make_tree
    cp "$file" "$tree/$file" && sed -i "$change" "$tree/$file"
    if cmp -s "$file" "$tree/$file"; then
        fail "planted: $title" "nothing was changed"
    elif (cd "$tree" && "$@") >"$room/caught" 2>&1; then
        fail "planted: $title" "it isn't seen"
    elif ! grep -q -e "$said" "$room/caught"; then
        fail "planted: $title" "another reason: $(head -c 300 "$room/caught" | tr '\n' ' ')"
    else
        pass "planted: $title"
    fi
    cp "$file" "$tree/$file"
}

# Runs a program with these words on a document, and sees that it ends with the status that stands beside the document in
# NAME.status (none: 0) and prints what stands in the file: the fault's line on standard error with statuses from 2 on, else the
# text on standard output. The other stream stays empty.
#   sees TITLE PROGRAM DOCUMENT FILE WORDS..
sees() {
    title=$1 program=$2 document=$3 wanted=$4
    shift 4
    if ! has_program "$program"; then
        fail "$title" "$program wasn't built"
        return
    fi
    wanted_status=0
    [ -f "${document%.json*}.status" ] && wanted_status=$(cat "${document%.json*}.status")
    "$built/$program/out/$program" "$@" <"$document" >"$room/out" 2>"$room/err"
    status=$?
    told=out other=err
    [ "$wanted_status" -ge 2 ] && told=err other=out
    if [ "$status" != "$wanted_status" ]; then
        fail "$title" "status $status and not $wanted_status"
    elif ! cmp -s "$room/$told" "$wanted"; then
        fail "$title" "it printed something else than $wanted"
    elif [ -s "$room/$other" ]; then
        fail "$title" "it printed more: $(head -c 200 "$room/$other")"
    else
        pass "$title"
    fi
}

# A run with just the numbers that docs/dev/TESTING.md states.
stated_numbers() {
    awk '/^[0-9]+ crates, [0-9]+ wrong bodies / { print "rt ci " $1 - 1 "\nc_exports 1\ntests/gate/wrong_bodies.py " $3 }' docs/dev/TESTING.md
    sed -n 's/^| \([0-9]*\) | `\([^`]*\)` |$/\2 \1/p' docs/dev/TESTING.md
}

# The command that takes a document: of examples/ by the table there. The races of tests/programs/races/ have one outcome, whoever runs
# first.
command_for() {
    case $1 in
    examples/*) awk -F'|' -v name="\`${1#examples/}\`" '{ gsub(/ /, "", $2) } $2 == name { gsub(/^ | $/, "", $3); print $3 }' examples/README.md ;;
    tests/programs/races/*) echo race ;;
    *) echo play ;;
    esac
}
