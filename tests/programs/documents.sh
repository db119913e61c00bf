#!/bin/sh
# `fsr` against a plain reference that was written from docs/ alone (tests/programs/reference), on random and hostile documents. As a part
# of `./test` it takes 2,000 documents of every kind, 8,000 logs, as many as have 5,000 among them that are searched, and 4,000 logs in lines
# whose records repeat; by hand a seed and a number, of documents and of logs each. usage: tests/programs/documents.sh [SEED [NUMBER]]

# Whether the reference finds no difference over so many documents of these kinds, or of logs whose records repeat.
#   compare_documents PROGRAM SEED NUMBER KINDS|repeats
compare_documents() {
    case $4 in
    repeats) python3 tests/programs/reference/compare_exchanges.py "$1" --seed "$2" --logs "$3" ;;
    *) python3 tests/programs/reference/compare.py "$1" --seed "$2" --documents "$3" --kinds "$4" ;;
    esac >"$room/out" 2>&1
}

# Whether the last line says that there were so many documents, and some of each of these kinds.
#   has_compared NUMBER KIND..
has_compared() {
    line=$(tail -n 1 "$room/out") number=$1
    shift
    case $line in
    "$number documents of seed "*": the same bytes and status") ;;
    *) return 1 ;;
    esac
    for kind in "$@"; do
        echo "$line" | grep -q " [1-9][0-9]* ${kind}[,:]" || return 1
    done
}

# The same, counted as a test with this title. Words behind the kinds are the kinds that there have to be.
#   compares TITLE SEED NUMBER KINDS KIND..
compares() {
    title=$1 seed=$2 number=$3 kinds=$4
    shift 4
    if ! compare_documents "$built/fsr/out/fsr" "$seed" "$number" "$kinds"; then
        fail "$title" "$(cat "$room/out")"
    elif ! has_compared "$number" "$@"; then
        fail "$title" "not $number documents of $*: $(tail -n 1 "$room/out")"
    else
        pass "$title: $(tail -n 1 "$room/out")"
    fi
}

# Sees that the last comparison had each kind of answer to a log whose records repeat, and each refusal of one.
has_answers() {
    for told in lawful 'unlawful unwritten' 'unlawful early' 'unlawful together' 'unlawful lost' 'unlawful limit' \
        'line N: no header of kind `lines`, and no document: not JSON' 'line N: not JSON' 'line N: end before begin' \
        'missing opening' 'shape of opening' 'shape of limit' 'range of limit' 'missing who' 'missing kind' 'missing begin' 'missing end' 'missing record' \
        'shape of who' 'shape of kind' 'shape of begin' 'shape of end' 'shape of record' 'shape of key' 'missing from' 'missing swapped' \
        'shape of from' 'shape of swapped' 'shape of found' 'law of record' 'law of swapped' 'law of found' 'law of key' 'missing limit' \
        'missing ops' 'shape of ops' 'law of ops'; do
        grep -q -x -e "[1-9][0-9]* $told" -e "[1-9][0-9]* line N: $told" -e "[1-9][0-9]* line N: $told; .*" "$room/out" && continue
        fail "answers and refusals of random logs whose records repeat" "none is told: $told"
        return
    done
    pass "answers and refusals of random logs whose records repeat"
}

compares_all() {
    compares "random documents" "$1" "$2" check,log,cell,matrix,board,race,race check log cell matrix board race
    compares "random logs" "$1" "$3" log log
    compares "random logs whose records repeat" "$1" "$4" repeats lawful lost refused others
}

# Compares where the comparison says this instead.
#   compares_saying LINE NUMBER KIND..
compares_saying() {
    instead=$1 number=$2
    shift 2
    compare_documents() {
        echo "$instead" >"$room/out"
    }
    compares a 1 "$number" all "$@"
}

# Sees that the reference finds a difference to a program that is the built one but for what this script makes of its first line.
#   differs TITLE KINDS SCRIPT
differs() {
    title="planted: $1"
    cat >"$room/wrong_fsr" <<STUB
#!/bin/sh
"$built/fsr/out/fsr" "\$@" >"$room/right" 2>"$room/right_line"
status=\$?
sed '$3' "$room/right"
cat "$room/right_line" >&2
exit \$status
STUB
    chmod +x "$room/wrong_fsr"
    if compare_documents "$room/wrong_fsr" 1 400 "$2"; then
        fail "$title" "it isn't seen"
    elif grep -q '^the program:' "$room/out"; then
        rm -f "$(sed -n 's/^document .* < \(.*\)$/\1/p' "$room/out")"
        pass "$title"
    else
        fail "$title" "$(tail -n 1 "$room/out")"
    fi
}

test_documents() {
    compares_all "$1" "$2" "$3" "$4"
    has_answers
    differs "another verdict" check 's/^unlawful reading/unlawful precedence/'
    differs "another order of a cell" cell 's/^order: 0 1/order: 1 0/'
    differs "another order of a log" log 's/^order: \([0-9]*\) \([0-9]*\)/order: \2 \1/'
    differs "a line less of a board" board '$d'
    differs "an unsound race" race 's/^origin: sound/origin: task 0, entry 0/'
    differs "another line of what is lost" repeats 's/^unlawful lost /&1/'
    differs "a log that is lost told as lawful" repeats 's/^unlawful lost .*/lawful/'
    differs "an unwritten record told as lost" repeats 's/^unlawful unwritten /unlawful lost /'
    differs "another line that can have written a record" repeats 's/^\(unlawful early [0-9]*\) /\1 1/'
    differs "a log that is lost by its limit told as lost" repeats 's/^unlawful limit /unlawful lost /'
    differs "another beginning of a window" repeats 's/^From time \([0-9]*\)/&1/'
    differs "a window without its first line" repeats 's/^unlawful together [0-9]*/unlawful together/'
    differs "what is uncertain as unfinished" repeats 's/ 0 unfinished, 1 uncertain/ 1 unfinished, 0 uncertain/'
    echo "1 line N: not JSON" >"$room/out"
    catches "an answer that no log has" 'none is told: lawful' has_answers
    catches "no document" "0 documents of seed 1" compares a 1 0 check
    same=': the same bytes and status'
    catches "fewer documents than are asked for" "not 30 documents" compares_saying "20 documents of seed 1, 20 cell$same" 30 cell
    catches "documents of one kind alone" "not 20 documents of check cell" compares_saying "20 documents of seed 1, 20 cell$same" 20 check cell
}

case ${0##*/} in
documents.sh)
    cd "$(dirname -- "$(readlink -f -- "$0")")/../.." || exit 1
    . tests/gate/outcomes.sh
    passed=0 failed=0
    room=$(mktemp -d) || exit 1
    trap 'rm -rf "$room"' EXIT
    seed=${1:-1} number=${2:-10000}
    case $seed$number in
    *[!0-9]*) seed= ;;
    esac
    if [ $# -gt 2 ] || [ -z "$seed" ] || [ "${number:-0}" = 0 ]; then
        echo "usage: tests/programs/documents.sh [SEED [NUMBER]]" >&2
        exit 2
    fi
    has_program fsr || { echo "documents: fsr wasn't built" >&2; exit 70; }
    compares_all "$seed" "$number" "$number" "$number"
    echo "$passed passed, $failed failed"
    [ "$failed" = 0 ]
    exit
    ;;
esac
if ! command -v python3 >/dev/null 2>&1; then
    fail "random documents" "there is no python3"
elif ! has_program fsr; then
    fail "random documents" "fsr wasn't built"
else
    test_documents 1 2000 8000 4000
fi
