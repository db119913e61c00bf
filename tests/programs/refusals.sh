# What `fsr` tells of documents at the bounds of each refusal, of orders and of logs. Each line of tests/programs/refusals/COMMAND.txt is
# what is told, with `\n` for a line's end within it, a bar and the document; in order_lines.txt, of logs in lines, `\n` ends a line of the
# document as well. Documents that are too long for a line are made here. All but races go through the program that has their command alone,
# too.

# Whether the document begins with the header of a log in lines: then all of it is read.
begins_lines() {
    [ "$(head -n 1 "$room/document" | wc -c)" -le 1048577 ] && head -c 15 "$room/document" | grep -q '^{"kind":"lines"'
}

# Runs a program with these words on the document in $room/document. Sees that it ends with the wanted status, tells what stands in
# $room/wanted on the one stream and nothing on the other, and leaves of the document what is beyond the longest and one byte more.
#   ends PROGRAM WORDS..
ends() {
    program=$1
    shift
    {
        "$built/$program/out/$program" "$@" >"$room/out" 2>"$room/err"
        status=$?
        left=$(wc -c)
    } <"$room/document"
    beyond=$(($(wc -c <"$room/document") - 1048577))
    ! begins_lines || beyond=0
    [ "$status" = "$wanted_status" ] && cmp -s "$room/$stream" "$room/wanted" && [ ! -s "$room/$other" ] &&
        [ $((left)) = $((beyond > 0 ? beyond : 0)) ]
}

# Sees that a command tells this of the document in $room/document: a fault on standard error with status 3, or its text with status 0,
# or 1 for an unlawful order or a log without a lawful one.
#   tells COMMAND TOLD
tells() {
    stream=out other=err wanted_status=0 line=$2
    case $2 in
    document:* | history:* | schedule:* | line*) stream=err other=out wanted_status=3 line="fsr: $2" ;;
    unlawful*) wanted_status=1 ;;
    esac
    printf '%b\n' "$line" >"$room/wanted"
    ends fsr "$1" && { [ "$1" = race ] || ends "fsr_$1"; }
}

# The same, counted as a test with this title.
sees_told() {
    title=$1
    if tells "$2" "$3"; then
        pass "$title: $3"
    else
        fail "$title" "not '$3' but status $status and '$(head -c 200 "$room/out" "$room/err")'"
    fi
}

# Each line of a table, tests/programs/refusals/COMMAND.txt if none is named.
#   table_of COMMAND [TABLE]
table_of() {
    table=${2:-tests/programs/refusals/$1.txt}
    rows=0 missed=0
    while IFS= read -r row; do
        case $row in
        '#'*) continue ;;
        esac
        rows=$((rows + 1))
        case $table in
        *_lines.txt) printf '%b' "${row#* | }" ;;
        *) printf '%s' "${row#* | }" ;;
        esac >"$room/document"
        if ! tells "$1" "${row%% | *}"; then
            missed=$((missed + 1))
            fail "fsr $1, ${row#* | }" "not '${row%% | *}' but status $status and '$(head -c 200 "$room/out" "$room/err")'"
        fi
    done <"$table"
    if [ "$rows" = 0 ]; then
        fail "$table" "it has no document"
    elif [ "$rows" != "$(grep -vc '^#' "$table")" ]; then
        fail "$table" "$rows of its documents were tried"
    elif [ "$missed" = 0 ]; then
        pass "$table: $rows documents"
    fi
}

# So many copies of a text, with a separator between each two.
copies() {
    awk -v count="$1" -v text="$2" -v between="$3" 'BEGIN { for (k = 0; k < count; k++) printf "%s%s", k ? between : "", text }'
}

# A `check` document of so many operations that begin then, so many entries in its order, and so many arrays in each other under another
# key, with these keys before its limit.
#   check_with KEYS BEGIN OPERATIONS ENTRIES ARRAYS
check_with() {
    printf '{"kind":"check","opening":[0,0,0],%s"limit":9,"ops":[' "$1"
    copies "$3" "{\"who\":0,\"kind\":\"read\",\"begin\":$2}" ,
    printf '],"order":['
    copies "$4" 0 ,
    printf '],"x":%snull%s}' "$(copies "$5" '[' '')" "$(copies "$5" ']' '')"
}

plain_check() {
    check_with '' 0 "$@"
}

# The same with other keys, of which the last limit counts.
long_check() {
    check_with '"noise":0,"terms":null,"limit":0,' 4 "$@"
}

# A `log` document of so many operations, with an order that isn't read.
long_log() {
    printf '{"kind":"log","opening":[0,0,0],"order":0,"limit":0,"limit":9,"ops":['
    copies "$1" '{"who":0,"kind":"read","begin":4}' ,
    printf ']}'
}

# A log in lines whose header has so many bytes, and no operation.
long_header() {
    printf '{"kind":"lines","opening":0,"x":"'
    copies $(($1 - 35)) x ''
    printf '"}\n'
}

# The same behind a byte order mark.
marked_header() {
    printf '\357\273\277' && long_header "$1"
}

# A log in lines whose records repeat, with an operation whose line has so many bytes.
long_operation() {
    printf '{"kind":"lines","opening":0,"repeats":true}\n{"who":0,"kind":"read","begin":1,"end":2,"record":0,"x":"'
    copies $(($1 - 59)) x ''
    printf '"}\n'
}

# A `cell` document of so many writes, this many reads and so many steps `w`, with a letter after them.
long_cell() {
    printf '{"kind":"cell","opening":[0,0,0],"noise":[9,8,7],"writes":['
    copies "$1" '[1,2,3]' ,
    printf '],"reads":%s,"steps":"' "$2"
    copies "$3" w ''
    printf '%s"}' "${4-}"
}

# A `matrix` document of so many processes without a plan.
wide_matrix() {
    printf '{"kind":"matrix","opening":[0,0,0],"limit":9,"plans":[%s],"steps":[15]}' "$(copies "$1" '[]' ,)"
}

# A `matrix` document of so many terms.
many_terms() {
    printf '{"kind":"matrix","opening":[0,0,0],"terms":[%s]}' "$(copies "$1" '{"limit":1,"plans":[[],[]],"steps":[0,1]}' ,)"
}

# A `matrix` document of so many reads and one more, and of so many steps and one more.
long_matrix() {
    printf '{"kind":"matrix","opening":[0,0,0],"limit":9,"plans":[['
    copies "$1" '"read"' ,
    printf '],["read"]],"steps":['
    copies "$2" 0 ,
    printf ',1]}'
}

# The same over two terms.
long_terms() {
    printf '{"kind":"matrix","opening":[0,0,0],"terms":[{"limit":1,"plans":[['
    copies "$1" '"read"' ,
    printf '],[]],"steps":['
    copies "$2" 0 ,
    printf ']},{"limit":1,"plans":[["read"],[]],"steps":[1]}]}'
}

# Sees what is told of the document that a function makes.
#   sees_long COMMAND TOLD FUNCTION WORDS..
sees_long() {
    command=$1 told_of=$2
    shift 2
    "$@" >"$room/document"
    sees_told "$*" "$command" "$told_of"
}

# Bytes that aren't UTF-8, and an object that UTF-8's byte order mark stands before.
byte_255() {
    printf '\377'
}

byte_order_mark() {
    printf '\357\273\277{}'
}

# The first document with blanks in place of its last line feed, this many bytes in all.
padded() {
    first=$(cat examples/lawful.json)
    printf '%s' "$first"
    copies $(($1 - ${#first})) ' ' ''
}

# Each part of the first document that ends before its last byte; the line feed after that doesn't count.
sees_parts() {
    title="the first document cut before each of its bytes" told=0 bytes=$(($(wc -c <examples/lawful.json) - 1))
    for length in $(seq 0 $((bytes - 1))); do
        head -c "$length" examples/lawful.json >"$room/document"
        tells check 'document: not JSON' && told=$((told + 1))
    done
    if [ "$told" = "$bytes" ] && [ "$told" -gt 100 ]; then
        pass "$title"
    else
        fail "$title" "$told of $bytes parts were told so"
    fi
}

# Sees that another answer of a command's smaller program is noticed.
#   catches_smaller COMMAND TOLD FUNCTION WORDS..
catches_smaller() {
    make_stub "fsr_$1" <<'STUB'
cat >/dev/null; echo otherwise
STUB
    catches "another answer of fsr_$1" '^otherwise' over_stubs sees_long "$@"
}

if ! has_program fsr; then
    fail "refusals" "fsr wasn't built"
else
    table_of check
    table_of order
    table_of order tests/programs/refusals/order_lines.txt
    table_of play
    table_of race
    sees_parts
    sees_long check 'document: not JSON' byte_255
    sees_long check 'document: not JSON' byte_order_mark
    sees_long check lawful cat examples/lawful.json
    sees_long check lawful padded 1048576
    sees_long check 'document: longer than 1048576 bytes' padded 1048577
    sees_long check 'document: longer than 1048576 bytes' padded 1048578
    sees_long check 'document: longer than 1048576 bytes' padded 1200000
    sees_long check lawful plain_check 10000 0 126
    sees_long check 'document: not JSON' plain_check 0 0 127
    sees_long check 'document: range of ops' plain_check 10001 0 0
    sees_long check 'unlawful listing' plain_check 0 10000 0
    sees_long check 'document: range of order' plain_check 0 10001 0
    sees_long check lawful long_check 0 0 126
    sees_long check 'document: not JSON' long_check 0 0 127
    sees_long check 'unlawful listing' long_check 10000 10000 0
    sees_long check 'document: range of ops' long_check 10001 10001 0
    sees_long check 'document: range of order' long_check 10000 10001 0
    sees_long order 'lawful\norder:' long_log 10000
    sees_long order 'document: range of ops' long_log 10001
    sees_long order 'document: kind' cat examples/lawful.json
    counts='0 operations, 0 unfinished, 1 records, 0 of them read; no last line `done`'
    sees_long order "lawful\\nNothing was shown: there is no operation.\\n$counts" long_header 4097
    sees_long order "lawful\\nNothing was shown: there is no operation.\\n$counts" long_header 1048576
    sees_long order 'line 1: no header of kind `lines`, and no document: longer than 1048576 bytes' long_header 1048577
    sees_long order 'line 1: no header of kind `lines`, and no document: not JSON' marked_header 40
    counts='1 operations, 0 unfinished, 0 uncertain, 1 records; no last line `done`'
    sees_long order "lawful\\n$counts" long_operation 1048576
    sees_long order 'line 2: longer than 1048576 bytes' long_operation 1048577
    sees_long play 'schedule: no operation left at step 50000' long_cell 10000 0 100000
    sees_long play 'document: range of reads' long_cell 10000 1 100001
    sees_long play 'document: range of steps' long_cell 10000 0 100001
    sees_long play 'document: range of writes' long_cell 10001 0 100001
    sees_long play 'document: shape of steps' long_cell 10000 0 100000 x
    sees_long play 'document: shape of steps' long_cell 10001 0 100001 x
    sees_long play 'schedule: no operation left at step 0' wide_matrix 16
    sees_long play 'document: range of plans' wide_matrix 17
    sees_long play 'schedule: no operation left at step 0' many_terms 16
    sees_long play 'document: range of terms' many_terms 17
    sees_long play 'schedule: no operation left at step 19998' long_matrix 9999 99999
    sees_long play 'document: range of steps' long_matrix 9999 100000
    sees_long play 'document: range of plans' long_matrix 10000 99999
    sees_long play 'schedule: no operation left at step 19998' long_terms 9999 99999
    sees_long play 'document: range of terms' long_terms 9999 100000
    sees_long play 'document: range of terms' long_terms 10000 99999

    # The controls: another fault, another rule, a lawful order told as unlawful, a table with a wrong row behind a right one, or none, a
    # program that leaves the last byte unread, one that says more on the other stream, one that refuses a part of a document for another
    # reason, and a smaller program of each command that answers otherwise.
    catches "another fault" "not 'document: kind' but status 3" sees_long check 'document: kind' plain_check 10001 0 0
    catches "another rule" "not 'unlawful precedence' but status 1" sees_long check 'unlawful precedence' plain_check 0 10000 0
    catches "a lawful order told as unlawful" "not 'unlawful listing' but status 0" sees_long check 'unlawful listing' cat examples/lawful.json
    printf '# two rows\nlawful | %s\nunlawful listing | %s\n' "$(tr -d '\n' <examples/lawful.json)" "$(tr -d '\n' <examples/lawful.json)" \
        >"$room/table"
    catches "a table with a wrong row" "not 'unlawful listing' but status 0" table_of check "$room/table"
    sed -n 2p "$room/table" | sed 'p; s/^lawful/unlawful listing/' | head -c -1 >"$room/unended"
    catches "a table whose last row isn't read" "1 of its documents were tried" table_of check "$room/unended"
    sed -n 1p "$room/table" >"$room/empty"
    catches "a table without a row" "it has no document" table_of check "$room/empty"
    mkdir -p "$room/stubs/fsr_check/out" && cp "$built/fsr_check/out/fsr_check" "$room/stubs/fsr_check/out/"
    make_stub fsr <<'STUB'
head -c 100 >/dev/null; echo lawful
STUB
    catches "a document that isn't read to its end" "not 'lawful' but status 0" over_stubs sees_long check lawful cat examples/lawful.json
    make_stub fsr <<'STUB'
cat >/dev/null; echo 'fsr: document: kind' >&2; exit 3
STUB
    catches "parts of a document that are told as something else" "^test: .*: 0 of [0-9]* parts" over_stubs sees_parts
    make_stub fsr <<'STUB'
cat >/dev/null; echo lawful; echo more >&2
STUB
    catches "a word on the other stream" "not 'lawful' but status 0" over_stubs sees_long check lawful cat examples/lawful.json
    cp "$built/fsr/out/fsr" "$room/stubs/fsr/out/fsr"
    catches_smaller check lawful cat examples/lawful.json
    catches_smaller order 'document: kind' cat examples/lawful.json
    catches_smaller play 'schedule: no operation left at step 0' long_cell 0 0 1
fi
