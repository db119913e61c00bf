#!/bin/sh
# The sweep of an object's log against all orders of the log, by a plain reference that was written from the definitions alone
# (tests/programs/reference/sweeps.py), on random logs of two objects; with small budgets too. As a part of `./test` it takes 20,000 logs and
# 5,000 with budgets; by hand a seed and a number of each. usage: tests/programs/sweeps.sh [SEED [NUMBER]]

# Compares so many logs of a seed, counted as a test with this title. The last line has to name so many logs, and some with each of these
# answers.
#   sweeps TITLE PROGRAM SEED NUMBER ANSWER.. [--budgets]
sweeps() {
    title=$1 program=$2 seed=$3 number=$4 budgets=
    shift 4
    [ "$1" != --budgets ] || { budgets=$1 && shift; }
    if ! python3 tests/programs/reference/sweeps.py "$program" --seed "$seed" --logs "$number" $budgets >"$room/out" 2>&1; then
        fail "$title" "$(tail -n 3 "$room/out")"
        return
    fi
    for answer in "$@"; do
        grep -q "^$number logs of seed $seed: .*[1-9][0-9]* $answer" "$room/out" && continue
        fail "$title" "not $number logs, or none is $answer: $(tail -n 1 "$room/out")"
        return
    done
    pass "$title: $(tail -n 1 "$room/out")"
}

# The same over a program that is the built one but for what this script makes of its answers.
#   sweeps_wrongly SCRIPT WORDS..
sweeps_wrongly() {
    printf '#!/bin/sh\n%s | sed "%s"\n' "$PWD/$built/test_sweeps/out/test_sweeps" "$1" >"$room/wrong_sweeps"
    chmod +x "$room/wrong_sweeps"
    shift
    sweeps a "$room/wrong_sweeps" 1 "$@"
}

# The program and seeds as they are asked for.
compare_sweeps() {
    sweeps "random logs of objects" "$built/test_sweeps/out/test_sweeps" "$1" "$2" lawful unlawful
    sweeps "the same with budgets" "$built/test_sweeps/out/test_sweeps" "$1" "$3" --budgets lawful unlawful 'too many'
}

test_sweeps() {
    catches "a lawful log that is told as another" "but it is lawful" sweeps_wrongly '40,\$s/^lawful/unlawful/' 100 lawful
    catches "an unlawful log that is told as lawful" "but it is unlawful" sweeps_wrongly '40,\$s/^unlawful.*/lawful/' 100 lawful
    catches "a log that is lost elsewhere" "but it is unlawful" sweeps_wrongly '40,\$s/^unlawful.*/unlawful 9/' 100 lawful
    catches "too many where there aren't" "configurations are reached there" sweeps_wrongly 's/.*/too many 0/' 100 --budgets lawful
    catches "an answer less" "100 logs have 99 answers" sweeps_wrongly '40d' 100 lawful
    catches "no log" "0 logs of seed 1" sweeps_wrongly '' 0 lawful
    catches "an answer that no log has" "none is early" sweeps_wrongly '' 100 early
}

case ${0##*/} in
sweeps.sh)
    cd "$(dirname -- "$(readlink -f -- "$0")")/../.." || exit 1
    . tests/gate/outcomes.sh
    passed=0 failed=0
    room=$(mktemp -d) || exit 1
    trap 'rm -rf "$room"' EXIT
    seed=${1:-1} number=${2:-100000}
    case $seed$number in
    *[!0-9]*) seed= ;;
    esac
    if [ $# -gt 2 ] || [ -z "$seed" ] || [ "${number:-0}" = 0 ]; then
        echo "usage: tests/programs/sweeps.sh [SEED [NUMBER]]" >&2
        exit 2
    fi
    has_program test_sweeps || { echo "sweeps: test_sweeps wasn't built" >&2; exit 70; }
    compare_sweeps "$seed" "$number" "$number"
    echo "$passed passed, $failed failed"
    [ "$failed" = 0 ]
    exit
    ;;
esac
if ! command -v python3 >/dev/null 2>&1; then
    fail "the sweep" "there is no python3"
elif ! has_program test_sweeps; then
    fail "the sweep" "test_sweeps wasn't built"
else
    compare_sweeps 1 20000 5000
    test_sweeps
fi
