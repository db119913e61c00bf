# Words that are no command: those that are not UTF-8 have a line of their own, and a standard error that takes nothing leaves
# the status at 2. What clap tells of a command. Files that are named, and what `order` is told to print. The runs of `picture` outside its
# text, which are told as those of `fsr`.

# Runs `fsr` with these words. Standard error goes to the file named first.
refuses_words() {
    to=$1 title=$2
    shift 2
    if ! has_program fsr; then
        fail "$title" "fsr wasn't built"
        return 1
    fi
    "$built/fsr/out/fsr" "$@" <examples/lawful.json >"$room/out" 2>"$to"
    status=$?
    if [ "$status" != 2 ] || [ -s "$room/out" ]; then
        fail "$title" "it ended with status $status and not 2, or something stands on standard output"
        return 1
    fi
}

title="words that are not UTF-8"
if refuses_words "$room/err" "$title" "$(printf 'check\377')"; then
    if [ "$(cat "$room/err")" = "fsr: words are not UTF-8" ]; then
        pass "$title"
    else
        fail "$title" "$(head -c 200 "$room/err")"
    fi
fi
if [ -c /dev/full ]; then
    title="words that are not UTF-8, with a full standard error"
    refuses_words /dev/full "$title" "$(printf '\377')" && pass "$title"
    title="words that are no command, with a full standard error"
    refuses_words /dev/full "$title" checks && pass "$title"
fi

# Sees that `fsr` refuses these words and reads nothing, and how what it tells begins. Its input is a folder, of which each read fails.
#   refuses_unread BEGINS WORDS..
refuses_unread() {
    begins=$1
    shift
    title="fsr${1+ $*}, with nothing read"
    if ! has_program fsr; then
        fail "$title" "fsr wasn't built"
        return
    fi
    "$built/fsr/out/fsr" "$@" <examples >"$room/out" 2>"$room/err"
    status=$?
    case $status:$(cat "$room/out"):$(cat "$room/err") in
    "2::$begins"*) pass "$title" ;;
    *) fail "$title" "it ended with status $status: $(head -c 200 "$room/out" "$room/err")" ;;
    esac
}

refuses_unread error:
refuses_unread error: ''
refuses_unread error: checks
refuses_unread error: --versio
refuses_unread error: check -x
refuses_unread error: check examples/lawful.json examples/lawful.json
refuses_unread error: check --order
refuses_unread error: order --ordr
refuses_unread error: order --order --order
refuses_unread error: order --strict --strict
refuses_unread error: check --strict
refuses_unread error: check --coherent
refuses_unread error: order --coherent --coherent
for flag in --order --small --strict '--budget 5' '--budget 10000'; do
    refuses_unread "error: --coherent goes with no other flag of fsr order" order --coherent $flag
done
refuses_unread "error: --coherent goes with no other flag of fsr order" order --order --coherent examples/lines.jsonl
for number in '' 0 1000000001 -1 1.5 ten 18446744073709551617; do
    refuses_unread error: order --budget $number
done
refuses_unread error: order --budget=
refuses_unread error: order --budget 5 --budget 6

# What is asked for stands on standard output, with status 0, and nothing is read.
#   gives_unread BEGINS WORDS..
gives_unread() {
    begins=$1
    shift
    title="fsr $*, given with nothing read"
    if ! has_program fsr; then
        fail "$title" "fsr wasn't built"
        return
    fi
    "$built/fsr/out/fsr" "$@" <examples >"$room/out" 2>"$room/err"
    status=$?
    case $status:$(cat "$room/err"):$(cat "$room/out") in
    "0::$begins"*) pass "$title" ;;
    *) fail "$title" "it ended with status $status: $(head -c 200 "$room/out" "$room/err")" ;;
    esac
}

gives_unread 'Reads a document' help
gives_unread 'Reads a document' -h
gives_unread 'Reads a document' --help
gives_unread 'Checks that' check --help
gives_unread "fsr $(awk '/^#define NIDZARU_VERSION_(MAJOR|MINOR|PATCH)/ { printf dot "%s", $3; dot = "." }' c/nidzaru.h)" --version
if [ -c /dev/full ]; then
    title="fsr --help into a full output"
    "$built/fsr/out/fsr" --help </dev/null >/dev/full 2>"$room/err"
    status=$?
    if [ "$status" = 5 ] && [ "$(cat "$room/err")" = "fsr: write failed" ]; then
        pass "$title"
    else
        fail "$title" "it ended with status $status: $(head -c 200 "$room/err")"
    fi
fi

# Sees that `fsr` tells this first line of a command, and how it is used.
#   helps COMMAND LINE WORDS
helps() {
    title="fsr $1 --help"
    if ! has_program fsr; then
        fail "$title" "fsr wasn't built"
        return
    fi
    "$built/fsr/out/fsr" "$1" --help </dev/null >"$room/out" 2>"$room/err"
    status=$?
    if [ "$status" != 0 ] || [ -s "$room/err" ]; then
        fail "$title" "it ended with status $status and not 0, or something stands on standard error"
    elif [ "$(head -n 1 "$room/out")" != "$2" ] || ! grep -qxF "Usage: fsr $1 $3" "$room/out"; then
        fail "$title" "$(head -c 200 "$room/out")"
    else
        pass "$title"
    fi
}

helps check "Checks that an order of a history is atomic" "[FILE]"
helps order "Finds a lawful order of a log, or tells why there is none" "[OPTIONS] [FILE]"
helps play "Plays a schedule and reports its history" "[FILE]"
helps race "Runs tasks over a board and checks their logs" "[FILE]"
helps watch "Watches a log as it comes, and tells at once the line at which it is lost" "[OPTIONS] [FILE]"

title="the formats in fsr --help"
if has_program fsr && "$built/fsr/out/fsr" --help </dev/null | grep -q '^  order .*`lines`.*`log`'; then
    pass "$title"
else
    fail "$title" "it doesn't name what order reads"
fi

# The man pages and the completion say what the programs say, and the completion of bash knows commands, flags and files.
says_the_same() {
    if ! has_program fsr || ! has_program picture; then
        fail docs/man "fsr or picture wasn't built"
    elif python3 tools/manual.py "$built/fsr/out/fsr" "$built/picture/out/picture" >"$room/out" 2>&1; then
        pass "$(cat "$room/out")"
    else
        fail docs/man "$(head -n 3 "$room/out")"
    fi
}

# What bash would complete the last of these words to.
completes() {
    bash -c '. docs/man/fsr.bash; COMP_WORDS=("$@") COMP_CWORD=$(($# - 1)); _fsr; echo "${COMPREPLY[*]}"' bash "$@"
}

# Sees that a word is completed so.
#   completes_to WANTED WORDS..
completes_to() {
    wanted=$1
    shift
    if [ "$(completes "$@" 2>&1)" = "$wanted" ]; then
        pass "bash completes $*"
    else
        fail "bash completes $*" "it gives $(completes "$@" 2>&1)"
    fi
}

says_the_same
catches_in_tree "another word in a man page" "docs/man/fsr.1 says other words" docs/man/fsr.1 's/Finds a lawful/Found a lawful/' \
    python3 tools/manual.py "$(pwd)/$built/fsr/out/fsr" "$(pwd)/$built/picture/out/picture"
completes_to order fsr or
completes_to '--small --strict' fsr order --s
completes_to --budget fsr order --b
completes_to --coherent fsr order --c
completes_to examples/lawful.json fsr check examples/lawful.j

# Sees that `fsr` ends with this status and has what stands in $room/wanted on this stream and nothing on the other. Its input is a folder,
# of which each read fails.
#   ends_fsr STATUS STREAM WORDS..
ends_fsr() {
    wanted_status=$1 stream=$2 other=err
    shift 2
    [ "$stream" = out ] || other=out
    title="fsr $(echo "$*" | sed "s|$room/||g")"
    if ! has_program fsr; then
        fail "$title" "fsr wasn't built"
        return
    fi
    "$built/fsr/out/fsr" "$@" <examples >"$room/out" 2>"$room/err"
    status=$?
    if [ "$status" = "$wanted_status" ] && cmp -s "$room/$stream" "$room/wanted" && [ ! -s "$room/$other" ]; then
        pass "$title"
    else
        fail "$title" "it ended with status $status and not $wanted_status: $(head -c 300 "$room/out" "$room/err")"
    fi
}

# Of a file that is named the answer is what it is of the same bytes on standard input.
#   reads_file COMMAND FILE
reads_file() {
    cp "${2%.json*}.txt" "$room/wanted"
    wanted_status=0
    [ ! -f "${2%.json*}.status" ] || wanted_status=$(cat "${2%.json*}.status")
    if [ "$wanted_status" -ge 2 ]; then ends_fsr "$wanted_status" err $1 "$2"; else ends_fsr "$wanted_status" out $1 "$2"; fi
}

reads_file check examples/lawful.json
reads_file check examples/unlawful.json
reads_file order examples/crossed.json
reads_file order examples/lines.jsonl
reads_file order examples/lines_early.jsonl
reads_file order examples/lines_touching.jsonl
reads_file 'order --coherent' examples/lines_coherent_circle.jsonl
reads_file 'order --coherent' examples/lines_coherent_repeats.jsonl
reads_file play examples/cell.json
reads_file race examples/race.json
echo "fsr: can't open $room/nowhere" >"$room/wanted"
ends_fsr 5 err order "$room/nowhere"
ends_fsr 5 err check "$room/nowhere"
echo "fsr: read failed" >"$room/wanted"
ends_fsr 5 err order examples

# Line 3 ended before line 2 began, so its record stands first.
cat >"$room/turned.jsonl" <<'LOG'
{"kind":"lines","opening":0}
{"who":0,"kind":"write","begin":10,"end":20,"record":2}
{"who":1,"kind":"write","begin":0,"end":5,"record":1}
{"who":2,"kind":"read","begin":6,"end":7,"record":1}
LOG
printf 'lawful\nwrites: 3 2\n3 operations, 0 unfinished, 3 records, 1 of them read; no last line `done`\n' >"$room/wanted"
ends_fsr 0 out order --order "$room/turned.jsonl"
: >"$room/wanted"
ends_fsr 0 out order --small "$room/turned.jsonl"
ends_fsr 0 out order --order --small "$room/turned.jsonl"

# Of 101 records, with the opening, one is read, and of 100 one. The first log shows little.
writes_then_read() {
    echo '{"kind":"lines","opening":0}'
    for number in $(seq "$1"); do
        echo '{"who":0,"kind":"write","begin":'$((2 * number))',"end":'$((2 * number + 1))',"record":'"$number}"
    done
    echo '{"who":1,"kind":"read","begin":'$((2 * $1 + 2))',"end":'$((2 * $1 + 3))',"record":'"$1}"
}
writes_then_read 100 >"$room/little.jsonl"
writes_then_read 99 >"$room/enough.jsonl"
echo '{"kind":"lines","opening":0}' >"$room/empty.jsonl"
ends_fsr 8 out order --small --strict "$room/little.jsonl"
printf 'lawful\nLittle was shown: less than 1 %% of the records were read.\n' >"$room/wanted"
printf '101 operations, 0 unfinished, 101 records, 1 of them read; no last line `done`\n' >>"$room/wanted"
ends_fsr 0 out order "$room/little.jsonl"
ends_fsr 8 out order --strict "$room/little.jsonl"
catches "a lawful log that shows little" "status 8 and not 0" ends_fsr 0 out order --strict "$room/little.jsonl"
printf 'lawful\n100 operations, 0 unfinished, 100 records, 1 of them read; no last line `done`\n' >"$room/wanted"
ends_fsr 0 out order --strict "$room/enough.jsonl"
printf 'lawful\nNothing was shown: there is no operation.\n' >"$room/wanted"
printf '0 operations, 0 unfinished, 1 records, 0 of them read; no last line `done`\n' >>"$room/wanted"
ends_fsr 8 out order --strict "$room/empty.jsonl"
# Logs whose records repeat and documents have no such words.
cp examples/lines_cas.txt "$room/wanted"
ends_fsr 0 out order --strict examples/lines_cas.jsonl
cp examples/found_order.txt "$room/wanted"
ends_fsr 0 out order --strict --budget 1 examples/found_order.json

# Writes that begin one after the other, and then end so. Of n writes under way the last of each set that was placed stands in the register:
# up to the first end n 2^(n-1) + 1 configurations are reached, of 12 writes 24,577, of two 5.
writes_at_once() {
    echo '{"kind":"lines","opening":0,"repeats":true}'
    for number in $(seq "$1"); do
        echo '{"who":'"$number"',"kind":"write","begin":'"$number"',"end":'$((20 + number))',"record":'"$number}"
    done
}
writes_at_once 12 >"$room/twelve.jsonl"
writes_at_once 2 >"$room/two.jsonl"
# (few of them are enough for an order; that there is none for a read of what nobody wrote only all of them show)
{ cat "$room/twelve.jsonl" && echo '{"who":13,"kind":"read","begin":100,"end":101,"record":99}'; } >"$room/none.jsonl"
echo 'fsr: line 2: too many configurations' >"$room/wanted"
ends_fsr 7 err order "$room/none.jsonl"
ends_fsr 7 err order --budget 1 "$room/two.jsonl"
printf 'lawful\n12 operations, 0 unfinished, 0 uncertain, 13 records; no last line `done`\n' >"$room/wanted"
ends_fsr 0 out order "$room/twelve.jsonl"
ends_fsr 0 out order --budget 24577 "$room/twelve.jsonl"
ends_fsr 0 out order --budget=1000000000 "$room/twelve.jsonl"
cat >"$room/wanted" <<'TEXT'
unlawful unwritten 14
line 14: {"who":13,"kind":"read","begin":100,"end":101,"record":99}
Line 14 found a record that is neither the opening nor written by another line.
13 operations, 0 unfinished, 0 uncertain, 14 records; no last line `done`
TEXT
ends_fsr 1 out order --budget 24577 "$room/none.jsonl"
printf 'lawful\n2 operations, 0 unfinished, 0 uncertain, 3 records; no last line `done`\n' >"$room/wanted"
ends_fsr 0 out order --budget 5 "$room/two.jsonl"
ends_fsr 0 out order "$room/two.jsonl"

# Nobody wrote what line 13 reads. Line 3 had ended last when it began, and line 2 before that; nine writes ran beside it, and line 14 began
# behind its end. Eight of those that it could see are shown.
{
    echo '{"kind":"lines","opening":0}'
    echo '{"who":0,"kind":"write","begin":0,"end":1,"record":1}'
    echo '{"who":0,"kind":"write","begin":2,"end":3,"record":2}'
    for who in $(seq 9); do
        echo '{"who":'"$who"',"kind":"write","begin":'"$((3 + who))"',"end":30,"record":'"$((2 + who))}"
    done
    echo '{"who":10,"kind":"read","begin":12,"end":20,"record":99}'
    echo '{"who":11,"kind":"write","begin":21,"end":22,"record":12}'
} >"$room/torn.jsonl"
{
    echo 'unlawful unwritten 13'
    for line in 1 3 4 5 6 7 8 9 10 13; do
        echo "line $line: $(sed -n "${line}p" "$room/torn.jsonl")"
    done
    echo 'Line 13 gave a record that is neither the opening nor written.'
    echo 'Lines of the writes that it could see: 3 4 5 6 7 8 9 10 and more.'
    echo '13 operations, 0 unfinished, 14 records, 1 of them read; no last line `done`'
} >"$room/wanted"
ends_fsr 1 out order "$room/torn.jsonl"

# Nobody wrote the record of line 4. Line 2 has its first word, line 3 its third, and none its second; behind "x" stands none. The opening
# has its first word too, and line 4 began behind the end of a write.
cat >"$room/words.jsonl" <<'LOG'
{"kind":"lines","opening":[0,9],"words":[5,0,0]}
{"who":0,"kind":"write","begin":1,"end":2,"record":[1,1],"words":[5,1,1]}
{"who":0,"kind":"write","begin":4,"end":8,"record":[2,2],"words":[6,2,2]}
{"who":1,"kind":"read","begin":5,"end":7,"record":[1,7],"words":[5,3,2,"x",5]}
LOG
{
    echo 'unlawful unwritten 4'
    awk '{ print "line " NR ": " $0 }' "$room/words.jsonl"
    echo 'Line 4 gave a record that is neither the opening nor written.'
    echo 'Lines of the writes that it could see: 2 3.'
    echo 'Its words: 5 (line 2), 3 (no record that it could see), 2 (line 3).'
    echo '3 operations, 0 unfinished, 4 records, 1 of them read; no last line `done`'
} >"$room/wanted"
ends_fsr 1 out order "$room/words.jsonl"
cat >"$room/wanted" <<'DOCUMENT'
{"kind":"log","opening":[0,0,0],"limit":1,"lines":[2,3,4],"ops":[
 {"who":0,"kind":"write","begin":10,"end":14,"record":[2,2,2]},
 {"who":0,"kind":"write","begin":20,"end":26,"record":[3,3,3]},
 {"who":1,"kind":"read","begin":22,"end":25,"record":[4,4,4]}]}
DOCUMENT
ends_fsr 1 out order --small examples/lines_unwritten.jsonl

# The read of the opening is behind the write of line 2. That of line 4 has no part in it. No document takes the number 40 of a task.
cat >"$room/stale.jsonl" <<'LOG'
{"kind":"lines","opening":0}
{"who":40,"kind":"write","begin":0,"end":4,"record":7}
{"who":7,"kind":"read","begin":6,"end":8,"record":[0]}
{"who":7,"kind":"write","begin":20,"end":21,"record":9}
LOG
cat >"$room/wanted" <<'DOCUMENT'
{"kind":"log","opening":[0,0,0],"limit":1,"lines":[2,3],"ops":[
 {"who":0,"kind":"write","begin":0,"end":4,"record":[2,2,2]},
 {"who":1,"kind":"read","begin":6,"end":8,"record":[0,0,0]}]}
DOCUMENT
ends_fsr 1 out order --small "$room/stale.jsonl"
ends_fsr 1 out order --small --strict "$room/stale.jsonl"
cp "$room/out" "$room/small.json"
echo 'unlawful stale 0 1' >"$room/wanted"
ends_fsr 1 out order "$room/small.json"
title="a picture of a small log"
if ! has_program picture; then
    fail "$title" "picture wasn't built"
else
    "$built/picture/out/picture" <"$room/small.json" >"$room/out" 2>"$room/err"
    status=$?
    if [ "$status" = 1 ] && grep -q 'unlawful stale: line 2' "$room/out" && grep -q '>read 3<' "$room/out"; then
        pass "$title"
    else
        fail "$title" "it ended with status $status: $(head -c 200 "$room/err")"
    fi
fi
# The write of line 4 begins when the refused one has ended, so that of line 2 alone can stand before it.
cat >"$room/limit.jsonl" <<'LOG'
{"kind":"lines","opening":0,"limit":3}
{"who":0,"kind":"write","begin":0,"end":1,"record":1}
{"who":1,"kind":"refused","begin":2,"end":3,"record":1}
{"who":0,"kind":"write","begin":5,"end":6,"record":2}
LOG
cat >"$room/wanted" <<'REASON'
unlawful limit 3
line 2: {"who":0,"kind":"write","begin":0,"end":1,"record":1}
line 3: {"who":1,"kind":"refused","begin":2,"end":3,"record":1}
Of the writes at most 1 can stand before line 3 or a refused write in front of it, and the limit is 3.
3 operations, 0 unfinished, 3 records, 0 of them read; no last line `done`
REASON
ends_fsr 1 out order "$room/limit.jsonl"

# The end is there, and blank lines behind it. Of a log whose header was lost it is told.
sed '1s/.*/{"kind":"lines","opening":0}/' "$room/turned.jsonl" >"$room/blank.jsonl"
printf '{"kind":"done","ops":3}\n\n \n' >>"$room/blank.jsonl"
printf 'lawful\n3 operations, 0 unfinished, 3 records, 1 of them read\n' >"$room/wanted"
ends_fsr 0 out order "$room/blank.jsonl"
sed 1d "$room/turned.jsonl" >"$room/headless.jsonl"
echo 'fsr: line 1: no header of kind `lines`, and no document: not JSON' >"$room/wanted"
ends_fsr 3 err order "$room/headless.jsonl"
head -c 1048577 /dev/zero | tr '\0' ' ' >>"$room/headless.jsonl"
echo 'fsr: line 1: no header of kind `lines`, and no document: longer than 1048576 bytes' >"$room/wanted"
ends_fsr 3 err order "$room/headless.jsonl"

# White space behind the last line up to its bound, and beyond: line feeds, and blanks.
printf '{"kind":"lines","opening":0}' >"$room/spaced.jsonl"
cp "$room/spaced.jsonl" "$room/blanks.jsonl"
head -c 1048576 /dev/zero | tr '\0' '\n' >>"$room/spaced.jsonl"
head -c 1048576 /dev/zero | tr '\0' ' ' >>"$room/blanks.jsonl"
printf 'lawful\nNothing was shown: there is no operation.\n0 operations, 0 unfinished, 1 records, 0 of them read; no last line `done`\n' \
    >"$room/wanted"
ends_fsr 0 out order "$room/spaced.jsonl"
echo 'fsr: line 1: no header of kind `lines`, and no document: longer than 1048576 bytes' >"$room/wanted"
ends_fsr 3 err order "$room/blanks.jsonl"
echo >>"$room/spaced.jsonl"
echo 'fsr: line 2: not JSON' >"$room/wanted"
ends_fsr 3 err order "$room/spaced.jsonl"

# Sees that a log behind which white space never ends is refused with this line by a program that may map 32 MB.
#   refuses_endless PROGRAM BYTE LINE
refuses_endless() {
    title="order of a log behind which white space never ends: $3"
    { printf '{"kind":"lines","opening":0}\n' && tr '\0' "$2" </dev/zero; } 2>/dev/null |
        (ulimit -v 32768 && exec timeout 60 "$1" order) >"$room/out" 2>"$room/err"
    status=$?
    if [ "$status" = 3 ] && [ ! -s "$room/out" ] && [ "$(cat "$room/err")" = "fsr: $3" ]; then
        pass "$title"
    else
        fail "$title" "it ended with status $status: $(head -c 200 "$room/out" "$room/err" | tr '\n' ' ')"
    fi
}

if has_program fsr; then
    refuses_endless "$built/fsr/out/fsr" '\n' 'line 2: not JSON'
    refuses_endless "$built/fsr/out/fsr" ' ' 'line 2: longer than 1048576 bytes'
    printf '#!/bin/sh\nexec tail -n 1\n' >"$room/keeps_all" && chmod +x "$room/keeps_all"
    catches "white space that is kept" "it ended with status" refuses_endless "$room/keeps_all" ' ' 'line 2: longer than 1048576 bytes'
fi

# Sees how `picture` ends with these words: the status, and the line on standard error.
#   ends_picture TITLE INPUT OUTPUT STATUS LINE WORDS..
ends_picture() {
    title=$1 input=$2 output=$3 wanted_status=$4 line=$5
    shift 5
    if ! has_program picture; then
        fail "$title" "picture wasn't built"
        return
    fi
    : >"$room/out"
    "$built/picture/out/picture" "$@" <"$input" >"$output" 2>"$room/err"
    status=$?
    if [ "$status" = "$wanted_status" ] && [ "$(cat "$room/err")" = "$line" ] && [ ! -s "$room/out" ]; then
        pass "$title"
    else
        fail "$title" "it ended with status $status and not $wanted_status: $(head -c 200 "$room/out" "$room/err")"
    fi
}

no_words="picture: takes no words: ./picture < DOCUMENT > FILE.svg"
ends_picture "picture with a word" examples/lawful.json "$room/out" 2 "$no_words" examples/lawful.json
ends_picture "picture with --help" examples/lawful.json "$room/out" 2 "$no_words" --help
ends_picture "picture with a word that isn't UTF-8" examples/lawful.json "$room/out" 2 "$no_words" "$(printf '\377')"
ends_picture "picture < a folder" examples "$room/out" 5 "picture: read failed"
printf '{"kind":"check\377"}' >"$room/not_utf8"
ends_picture "picture < a byte that isn't UTF-8" "$room/not_utf8" "$room/out" 3 "picture: document: not JSON"
if [ -c /dev/full ]; then
    ends_picture "picture into a full output" examples/lawful.json /dev/full 5 "picture: write failed"
fi

# The programs for documents and for logs in lines of one key whose records don't repeat answer the examples of theirs as `fsr order` does;
# the other examples are refused, a document for its kind, a log that repeats for its header, and one of several keys for the first other key.
#   other_key FILE     the first line of a log whose key isn't that of the first operation
other_key() {
    awk 'NR > 1 { found = match($0, /"key":"[^"]*"/) ? substr($0, RSTART, RLENGTH) : "" }
        NR == 2 { first = found }
        NR > 2 && !/"done"/ && found != first { print NR; exit }' "$1"
}

answers_once() {
    title="fsr_log, fsr_once and fsr order on the examples"
    if ! has_program fsr || ! has_program fsr_log || ! has_program fsr_once; then
        fail "$title" "fsr, fsr_log or fsr_once wasn't built"
        return
    fi
    different='' refused=0 keyed=0
    for document in examples/*.json examples/*.jsonl; do
        { "$built/fsr/out/fsr" order <"$document" 2>&1; echo $?; } >"$room/wanted"
        case $document in
        *.json)
            { "$built/fsr_log/out/fsr_log" <"$document" 2>&1; echo $?; } >"$room/out"
            cmp -s "$room/out" "$room/wanted" || different="$different $document"
            printf 'fsr: document: kind\n3\n' >"$room/wanted"
            ;;
        *)
            if head -n 1 "$document" | grep -q '"repeats":true'; then
                refused=$((refused + 1))
                printf 'fsr: line 1: law of repeats; `fsr order` without `--coherent` takes it\n3\n' >"$room/wanted"
            elif grep -q '"key"' "$document"; then
                keyed=$((keyed + 1))
                printf 'fsr: line %s: law of key; such a log has one key, that of its first operation\n3\n' \
                    "$(other_key "$document")" >"$room/wanted"
            fi
            ;;
        esac
        { "$built/fsr_once/out/fsr_once" <"$document" 2>&1; echo $?; } >"$room/out"
        cmp -s "$room/out" "$room/wanted" || different="$different $document"
    done
    if [ -z "$different" ] && [ "$refused" -gt 1 ] && [ "$keyed" -gt 0 ]; then
        pass "$title"
    else
        fail "$title" "$refused repeat, $keyed have several keys, and it differs on:$different"
    fi
}

# Bytes that are no document are refused alike by each program, by whichever of them `./fsr` takes for their first line.
refuses_alike() {
    title="fsr_log, fsr_once and fsr order on what is no document"
    different=''
    for text in '{"kind":"lines","opening":0,}' '{"kind":"lines","opening":0' '{"kind":"lines"x}' ''; do
        printf '%s\n' "$text" >"$room/none"
        { "$built/fsr/out/fsr" order <"$room/none" 2>&1; echo $?; } >"$room/wanted"
        for program in fsr_log fsr_once; do
            { "$built/$program/out/$program" <"$room/none" 2>&1; echo $?; } >"$room/out"
            cmp -s "$room/out" "$room/wanted" || different="$different $program: $text"
        done
    done
    if [ -z "$different" ]; then pass "$title"; else fail "$title" "it differs on$different"; fi
}

answers_once
refuses_alike
make_stub fsr <<'STUB'
exec crates/fsr/out/fsr "$@"
STUB
make_stub fsr_log <<'STUB'
exec crates/fsr/out/fsr order
STUB
make_stub fsr_once <<'STUB'
exec crates/fsr/out/fsr order
STUB
catches "a log that repeats, answered" "examples/lines_cas.jsonl" over_stubs answers_once
catches "a log of several keys, answered" "examples/lines_keys.jsonl" over_stubs answers_once
make_stub fsr_once <<'STUB'
cat >/dev/null && echo 'fsr: line 1: not JSON' >&2 && exit 3
STUB
catches "a header that is no JSON, told as a log's" 'it differs on fsr_once: {"kind":"lines","opening":0,}' over_stubs refuses_alike

# Where a program can't be built the script ends with a status of its own, and says so on standard error alone.
mkdir -p "$room/bare/docs/dev" "$room/bare/docs/man" "$room/bare/crates" && cp -r fsr picture soak crates.txt build "$room/bare/" \
    && cp docs/dev/TESTING.md "$room/bare/docs/dev/" && cp docs/man/fsr.txt "$room/bare/docs/man/"
for program in fsr picture soak; do
    title="./$program where it can't be built"
    PATH=/usr/bin:/bin "$room/bare/$program" 1 >"$room/out" 2>"$room/err" </dev/null
    status=$?
    if [ "$status" = 70 ] && [ ! -s "$room/out" ] && grep -q "can't be built" "$room/err"; then
        pass "$title"
    else
        fail "$title" "it ended with status $status: $(head -c 200 "$room/out" "$room/err")"
    fi
done

# Sees what `./fsr` gives of these words where it isn't built: the status, and how standard output and standard error begin.
#   gives_unbuilt STATUS OUT ERR WORDS..
gives_unbuilt() {
    wanted_status=$1 wanted_out=$2 wanted_err=$3
    shift 3
    title="./fsr${1+ $*} where it isn't built"
    PATH=/usr/bin:/bin "$room/bare/fsr" "$@" >"$room/out" 2>"$room/err" </dev/null
    status=$?
    case $status:$(head -n 1 "$room/out"):$(head -n 1 "$room/err") in
    "$wanted_status:$wanted_out"*:"$wanted_err"*) pass "$title" ;;
    *) fail "$title" "it ended with status $status: $(head -c 200 "$room/out" "$room/err")" ;;
    esac
}

mkdir -p "$room/bare/c" && cp c/nidzaru.h "$room/bare/c/"
gives_unbuilt 0 'Reads a document from a file' '' --help
gives_unbuilt 2 '' 'Reads a document from a file'
gives_unbuilt 0 "fsr $(awk '/^#define NIDZARU_VERSION_(MAJOR|MINOR|PATCH)/ { printf dot "%s", $3; dot = "." }' c/nidzaru.h)" '' --version
title="./fsr with a closed standard error, where it can't be built"
PATH=/usr/bin:/bin "$room/bare/fsr" race >"$room/out" 2>&- </dev/null
status=$?
if [ "$status" = 70 ] && [ ! -s "$room/out" ]; then pass "$title"; else fail "$title" "it ended with status $status"; fi

# As long as the whole program isn't built, that of the command answers, from a file or from standard input.
make_small() {
    mkdir -p "$room/bare/crates/$1/out" && printf '#!/bin/sh\ncat >"$READ"\n%s\n' "$2" >"$room/bare/crates/$1/out/$1" && chmod +x "$room/bare/crates/$1/out/$1"
}
make_small fsr_check 'echo "fsr: document: not JSON" >&2; exit 3'
make_small fsr_log 'echo "log $*"'
make_small fsr_once 'echo "once $*"'
make_small fsr_coherent 'echo "coherent $*"'
make_small fsr_play 'echo "play $*"; exit 1'
make_small fsr_watch 'echo "watch $*"'

# Sees what the smaller programs make of a document: the status, and what is told on either stream.
#   answers_small STATUS TOLD DOCUMENT WORDS..
answers_small() {
    wanted_status=$1 wanted=$2 document=$3
    shift 3
    title="./fsr $(echo "$*" | sed "s|$room/||g") by a smaller program: $wanted"
    READ=$room/read TMPDIR=$room/nowhere PATH=/usr/bin:/bin "$room/bare/fsr" "$@" <"$document" >"$room/out" 2>"$room/err"
    status=$?
    if [ "$status" = "$wanted_status" ] && [ "$(cat "$room/out" "$room/err")" = "$wanted" ] && cmp -s "$room/read" "$document"; then
        pass "$title"
    else
        fail "$title" "it ended with status $status: $(head -c 200 "$room/out" "$room/err")"
    fi
}

# A document and a log in lines whose records don't repeat have programs of their own, but for small logs and several keys. Each is known by
# its first line, unless that doesn't tell, as where a key of another log is written with a backslash; of what isn't read from the beginning
# of a file no line is looked at.
answers_small 0 "once " "$room/stale.jsonl" order "$room/stale.jsonl"
answers_small 0 "once --strict" "$room/stale.jsonl" order --strict
answers_small 0 "log " examples/lawful.json order
answers_small 0 "log " examples/lawful.json order examples/lawful.json --small
printf ' { "opening" : [1, 2], "kind" : "lines" } \r\n' >"$room/spaced.jsonl"
printf '{"kind":"lines","opening":0,}\n' >"$room/broken.jsonl"
printf '{\n"kind":"lines","opening":0}\n' >"$room/parted.jsonl"
answers_small 0 "once " "$room/spaced.jsonl" order
answers_small 0 "once " "$room/broken.jsonl" order
answers_small 0 "log " "$room/parted.jsonl" order
printf '{"kind":"log","lines":[2,3],\n"opening":0}\n' >"$room/told.json"
answers_small 0 "log " "$room/told.json" order
sed 's/"repeats"/"rep\\u0065ats"/' examples/lines_cas.jsonl >"$room/spelt.jsonl"
printf '{"kind":"lines","opening":0,"kind":"log"}\n' >"$room/twice.json"
printf '{"kind":"log","opening":{"kind":"lines"}}\n' >"$room/inner.json"
printf '{"kind":"lines","k\\u0069nd":"log"}\n' >"$room/other.json"
sed 's/"key"/"ke\\u0079"/' examples/lines_keys.jsonl >"$room/spelt_key.jsonl"
gives_unbuilt 70 '' 'build: ' order --small "$room/stale.jsonl"
for document in examples/lines_keys.jsonl "$room/spelt_key.jsonl" examples/lines_cas.jsonl "$room/spelt.jsonl" "$room/twice.json" "$room/inner.json" "$room/other.json"; do
    gives_unbuilt 70 '' 'build: ' order "$document"
done
gives_unbuilt 70 '' 'build: ' order --budget 9 examples/lawful.json
gives_unbuilt 70 '' 'build: ' order
title="./fsr order behind the first line of a file where it isn't built"
{ echo && cat examples/lines_cas.jsonl; } >"$room/behind.jsonl"
{ read -r empty && PATH=/usr/bin:/bin "$room/bare/fsr" order >"$room/out" 2>"$room/err"; } <"$room/behind.jsonl"
status=$?
if [ "$status" = 70 ]; then pass "$title"; else fail "$title" "it ended with status $status"; fi
for program in fsr_once fsr_log; do
    sed -i.kept "s/^program_of_log() {$/&\n    echo $program \&\& return/" "$room/bare/fsr"
    catches "a first line that isn't looked at ($program)" "it ended with status 0" gives_unbuilt 70 '' 'build: ' order examples/lines_cas.jsonl
    mv "$room/bare/fsr.kept" "$room/bare/fsr"
done
sed -i.kept 's/"kind"\.\*"kind"/"kind".*"other"/' "$room/bare/fsr"
catches "a second kind in a header, unseen" "it ended with status 0" gives_unbuilt 70 '' 'build: ' order "$room/twice.json"
mv "$room/bare/fsr.kept" "$room/bare/fsr"
sed -i.kept 's/ && ! may_have_key "$1"//' "$room/bare/fsr"
catches "keys that aren't looked for" "it ended with status 0" gives_unbuilt 70 '' 'build: ' order examples/lines_keys.jsonl
mv "$room/bare/fsr.kept" "$room/bare/fsr"
sed -i.kept 's/ | fsr_once:--small)/)/' "$room/bare/fsr"
catches "a small log of a program that makes none" "it ended with status 0" gives_unbuilt 70 '' 'build: ' order --small "$room/stale.jsonl"
mv "$room/bare/fsr.kept" "$room/bare/fsr"

# A program that answers all logs is taken where it is built.
make_small fsr_order 'echo "order $*"'
answers_small 0 "order --order" "$room/stale.jsonl" order --order "$room/stale.jsonl"
answers_small 0 "order --small" "$room/stale.jsonl" order "$room/stale.jsonl" --small
answers_small 0 "order --strict" "$room/stale.jsonl" order "$room/stale.jsonl" --strict
answers_small 0 "order --budget 20000" "$room/stale.jsonl" order --budget 20000 "$room/stale.jsonl"
answers_small 0 "coherent " "$room/stale.jsonl" order --coherent "$room/stale.jsonl"
answers_small 0 "order " examples/lawful.json order
answers_small 1 "play " examples/cell.json play
answers_small 0 "watch " "$room/stale.jsonl" watch
answers_small 0 "watch --budget 9" "$room/stale.jsonl" watch "$room/stale.jsonl" --budget 9
answers_small 3 "fsr: document: not JSON" examples/lawful.json check

# Where standard error is closed the answer is the same.
answers_closed() {
    title="./fsr play by a smaller program with a closed standard error"
    READ=$room/read PATH=/usr/bin:/bin "$room/bare/fsr" play <examples/cell.json >"$room/out" 2>&-
    status=$?
    if [ "$status" = 1 ] && [ "$(cat "$room/out")" = "play " ]; then
        pass "$title"
    else
        fail "$title" "it ended with status $status: $(head -c 200 "$room/out")"
    fi
}

answers_closed
sed -i.kept '/^(: >&2) || exec/d' "$room/bare/build/build.sh"
catches "a closed standard error that isn't heeded" "it ended with status 70" answers_closed
mv "$room/bare/build/build.sh.kept" "$room/bare/build/build.sh"

# Words that no smaller program knows are for the whole one.
for words in 'order --order --small' 'order --coherent --order' 'order --strict --coherent' 'order --budget' 'order --budget 1x' 'order -x' 'check --order' "check $room/nowhere"; do
    gives_unbuilt 70 '' 'build: ' $words
done

# The controls: words that are a command, another beginning, another first line, a status that isn't that of the program, and output
# beside the line.
catches "words that are a command" "status 0 and not 2" refuses_words "$room/err" a check
catches "another beginning" "it ended with status 0" gives_unread 'Writes a document' help
catches "help that is refused" "it ended with status 0" refuses_unread 'Reads a document' help
printf 'lawful\nwrites: 2 3\n3 operations, 0 unfinished, 3 records, 1 of them read; no last line `done`\n' >"$room/wanted"
catches "another order of the writes" "status 0 and not 0" ends_fsr 0 out order --order "$room/turned.jsonl"
catches "another first line" "Checks that an order" helps check "Checks that no order of a history is atomic" "[FILE]"
catches "a version of another program" "it ended with status 0" gives_unbuilt 0 'picture ' '' --version
catches "a document that no program takes" "status 3" answers_small 0 "fsr: document: not JSON" examples/lawful.json check
catches "a picture that is drawn" "status 0 and not 2" ends_picture a examples/lawful.json "$room/drawn" 2 "$no_words"
make_stub picture <<'STUB'
echo more; echo 'picture: read failed' >&2; exit 5
STUB
catches "output beside the line" "status 5 and not 5" over_stubs ends_picture a examples "$room/out" 5 "picture: read failed"
