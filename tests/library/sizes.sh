# The largest documents: a register's schedule of 5,000 writes and 5,000 reads, a board's of one term with 10,000 operations, and logs of as
# many, played, searched and drawn. They and what is printed of them are made by `tests/library/sizes.py`. No contract says that memory is
# there, so a call that answers want of memory where there is ample is seen here alone.

# Sees that `picture` ends with this status on a document, and draws what the text tells.
#   draws TITLE DOCUMENT TEXT STATUS
draws() {
    title=$1 wanted_status=$4
    if ! has_program picture; then
        fail "$title" "picture wasn't built"
        return
    fi
    crates/picture/out/picture <"$2" >"$room/drawn.svg" 2>"$room/err"
    status=$?
    if [ "$status" != "$wanted_status" ] || [ -s "$room/err" ]; then
        fail "$title" "it ended with status $status: $(head -c 200 "$room/err")"
    elif python3 tests/library/sizes.py --drawn "$room/drawn.svg" "$3" 2>"$room/err"; then
        pass "$title"
    else
        fail "$title" "$(tail -n 1 "$room/err")"
    fi
}

# Sees that `fsr order` tells one of the reasons in this text.
#   tells_reason TITLE DOCUMENT TEXT
tells_reason() {
    title=$1
    if ! has_program fsr; then
        fail "$title" "fsr wasn't built"
        return
    fi
    crates/fsr/out/fsr order <"$2" >"$room/out" 2>"$room/err"
    status=$?
    if [ "$status" = 1 ] && [ ! -s "$room/err" ] && [ "$(wc -l <"$room/out")" = 1 ] && grep -qxFf "$3" "$room/out"; then
        pass "$title"
    else
        fail "$title" "it ended with status $status: $(head -c 200 "$room/out" "$room/err")"
    fi
}

if ! command -v python3 >/dev/null 2>&1; then
    fail "the largest documents" "there is no python3"
elif mkdir "$room/sizes" && python3 tests/library/sizes.py "$room/sizes" 2>"$room/err"; then
    for name in cell board log; do
        document=$room/sizes/$name.json
        command=play
        [ "$name" = log ] && command=order
        sees "fsr $command < the largest $name" fsr "$document" "$room/sizes/$name.txt" $command
        draws "picture < the largest $name" "$document" "$room/sizes/$name.txt" 0
    done
    tells_reason "fsr order < the largest log without an order" "$room/sizes/crossed.json" "$room/sizes/crossed.txt"
    draws "picture < the largest log without an order" "$room/sizes/crossed.json" "$room/sizes/crossed.txt" 1
    # The controls: the text of another document, a text that tells one operation more, and another reason.
    catches "the text of another document" "something else than $room/sizes/board.txt" \
        sees a fsr "$room/sizes/cell.json" "$room/sizes/board.txt" play
    catches "the picture of another document" FAILED draws a "$room/sizes/cell.json" "$room/sizes/board.txt" 0
    echo 'unlawful stale 1: 0' >"$room/other.txt"
    catches "another reason" "it ended with status 1" tells_reason a "$room/sizes/crossed.json" "$room/other.txt"
    catches "a log with an order where none is due" "it ended with status 0" tells_reason a "$room/sizes/log.json" "$room/sizes/crossed.txt"
else
    fail "the largest documents" "$(tail -n 1 "$room/err")"
fi
