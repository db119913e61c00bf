# `fsr race` on documents that are refused, and on some as large as they may be, whose tasks wear out the tags. What the tasks are answered
# differs from run to run, so their counts are compared with their scripts, and the origin has to be sound.

# Prints a document of so many tasks, each of which writes and reads by turns, so many calls in all, under this limit.
race_document() {
    awk -v tasks="$1" -v calls="$2" -v limit="$3" 'BEGIN {
        printf "{\"kind\":\"race\",\"opening\":[0,0,0],\"limit\":%s,\"scripts\":[", limit
        for (task = 0; task < tasks; task++) {
            printf "%s[", task ? "," : ""
            for (call = 0; call < calls; call++)
                printf "%s%s", call ? "," : "", call % 2 ? "\"read\"" : "[" task "," task + call "," 9999 "]"
            printf "]"
        }
        print "]}"
    }'
}

# Whether a text is that of such a race. No task can write more often than there are tags, and the tags were used up by writes.
is_race_text() {
    awk -v tasks="$2" -v calls="$3" -v limit="$4" '
        $1 == "task" && $2 == (seen++) ":" && $4 == "writes," && $6 == "reads," && $8 == "refused" && NF == 8 {
            if ($3 + $7 != int((calls + 1) / 2) || $5 != int(calls / 2) || $3 > limit) wrong = 1
            writes += $3
            next
        }
        $0 == "origin: sound" && seen == tasks { sound = 1; next }
        { wrong = 1 }
        END { exit wrong || !sound || NR != tasks + 1 || writes < limit }' "$1"
}

# Runs a race of so many tasks and looks at what is told of it.
race_of() {
    title="a race of $1 tasks with $2 calls each, limit $3"
    if ! has_program fsr; then
        fail "$title" "fsr wasn't built"
        return
    fi
    race_document "$@" >"$room/race.json"
    "$built/fsr/out/fsr" race <"$room/race.json" >"$room/out" 2>"$room/err"
    status=$?
    if [ "$status" != 0 ] || [ -s "$room/err" ]; then
        fail "$title" "it ended with status $status: $(head -c 200 "$room/err")"
    elif ! is_race_text "$room/out" "$@"; then
        fail "$title" "it printed $(cat "$room/out")"
    else
        pass "$title"
    fi
}

# Sees that a document with this opening, limit and scripts is refused for this, or, with none, that its race is sound.
document_of() {
    title="a race of opening $1, limit $2, scripts $3${4:+: $4}"
    printf '{"kind":"race","opening":%s,"limit":%s,"scripts":%s}' "$1" "$2" "$3" >"$room/race.json"
    whole_document "${4:-}"
}

# The same of the whole document that stands there.
whole_document() {
    if ! has_program fsr; then
        fail "$title" "fsr wasn't built"
        return
    fi
    wanted=${1:+fsr: document: $1}
    "$built/fsr/out/fsr" race <"$room/race.json" >"$room/out" 2>"$room/err"
    status=$?
    if [ "$(cat "$room/err")" != "$wanted" ]; then
        fail "$title" "it said '$(head -c 200 "$room/err")'"
    elif [ -n "$wanted" ] && { [ "$status" != 3 ] || [ -s "$room/out" ]; }; then
        fail "$title" "status $status, and it printed '$(head -c 200 "$room/out")'"
    elif [ -z "$wanted" ] && { [ "$status" != 0 ] || [ "$(tail -n 1 "$room/out")" != "origin: sound" ]; }; then
        fail "$title" "status $status, and it printed '$(head -c 200 "$room/out")'"
    else
        pass "$title"
    fi
}

document_of '[0,0,0]' 9 '[["read"],["read","read"]]'
document_of '[1,1,3]' 1 '[[],[]]'
document_of '[1,1,3]' 18446744073709551614 '[[],[]]'
document_of '[1,1,3]' 18446744073709551615 '[[],[]]' 'range of limit'
document_of '[2,1,3]' 0 '[[],[]]' 'range of limit'
document_of '[2,1,3]' 9 '[[]]' 'range of scripts'
document_of '[2,1,3]' 9 '[]' 'range of scripts'
document_of '[2,1,3]' 9 '[[[3,2,1]],[]]' 'law of opening'
document_of '[0,0]' null 0 'shape of opening'
document_of '[2,1,3]' null 0 'shape of limit'
document_of '[2,1,3]' 1.0 '[]' 'shape of limit'
document_of '[2,1,3]' -1 '[]' 'shape of limit'
document_of '[2,1,3]' 0 '[[],{}]' 'shape of scripts'
document_of '[2,1,3]' 0 '[["write"],[]]' 'shape of scripts'
document_of '[2,1,3]' 0 '[[[1,2]],[]]' 'shape of scripts'
document_of '[2,1,3]' 0 '[[null],[]]' 'shape of scripts'
document_of '[2,1,3]' 0 null 'shape of scripts'
document_of '[0,0,0]' 1 '[[[1,1,1],[2,2,2]],["read"]]'
document_of '[2,1,3]' 9 '[[[3,2,1]]]' 'range of scripts'
document_of '[1,1,3]' 9 '[["read"],[[1,1,1],[3,2,1]]]' 'law of scripts'
document_of '[0,0,0]' 9 '[[],[],[],[],[],[],[],[],[],[],[],[],[],[],[],[]]'
document_of '[0,0,0]' 9 '[[],[],[],[],[],[],[],[],[],[],[],[],[],[],[],[],[]]' 'range of scripts'

# Sees the same of a whole document.
text_of() {
    title="the race $1${2:+: $2}"
    printf '%s' "$1" >"$room/race.json"
    whole_document "${2:-}"
}

text_of '' 'not JSON'
text_of '[]' 'kind'
text_of '{"kind":"Race"}' 'kind'
text_of '{"kind":"check"}' 'kind'
text_of '{"kind":"cell"}' 'kind'
text_of '{"kind":"matrix"}' 'kind'
text_of '{"kind":"board"}' 'kind'
text_of '{"kind":"race"}' 'missing opening'
text_of '{"kind":"race","limit":0,"scripts":0,"terms":[]}' 'missing opening'
text_of '{"kind":"race","opening":0}' 'missing limit'
text_of '{"kind":"race","opening":[0,0],"limit":0,"plans":[[],[]]}' 'missing scripts'
text_of '{"kind":"race","opening":[0,0,0],"limit":9,"scripts":[[],[]],"terms":null,"noise":0,"plans":[[]],"steps":"x","reads":-1}'
text_of '{"kind":"race","opening":[0,0,0],"limit":0,"limit":9,"scripts":[[],[]]}'

# Sees the same of a race of so many reads and one write.
reads_of() {
    title="a race of $1 reads and one write${2:+: $2}"
    awk -v reads="$1" 'BEGIN {
        printf "{\"kind\":\"race\",\"opening\":[0,0,0],\"limit\":9,\"scripts\":[[\"read\""
        for (k = 1; k < reads; k++) printf ",\"read\""
        print "],[[1,2,3]]]}"
    }' >"$room/race.json"
    whole_document "${2:-}"
}

reads_of 9999
reads_of 10000 'range of scripts'

race_of 8 1250 50
race_of 16 625 50
race_of 2 5000 50

# Where threads can't start, all of them or some, no race is run: in turn its tasks would show nothing.
printf '{"kind":"race","opening":[0,0,0],"limit":9,"scripts":[["read"],["read"]]}' >"$room/two.json"
race_document 16 160 50 >"$room/sixteen.json"
starts_no_thread fsr 10000 "$room/two.json" race
starts_no_thread fsr 20000 "$room/sixteen.json" race
starts_no_thread fsr 10000 /dev/null race "$room/two.json"
starts_no_thread fsr 10000 /dev/null race -- "$room/two.json"

# The controls: what a race of two tasks with four calls each may tell, limit 2, and with one word changed; and documents that are told
# otherwise.
race_told() {
    printf 'task 0: %s writes, %s reads, %s refused\ntask 1: 1 writes, 2 reads, 1 refused\norigin: %s\n' "$@" >"$room/told"
    title="a race that tells of $1 writes, $2 reads, $3 refused, $4"
    if is_race_text "$room/told" 2 4 2; then
        pass "$title"
    else
        fail "$title" "it isn't what a race may tell"
    fi
}

race_told 1 2 1 sound
catches "a read too few" "isn't what a race may tell" race_told 1 1 1 sound
catches "a write too many" "isn't what a race may tell" race_told 2 2 1 sound
catches "a tag that nobody used" "isn't what a race may tell" race_told 0 2 2 sound
catches "an unsound origin" "isn't what a race may tell" race_told 1 2 1 'task 0, entry 0'
catches "a race that is refused" "document: range of scripts" document_of '[2,1,3]' 9 '[[]]'
catches "a race that isn't refused" "it said ''" document_of '[0,0,0]' 9 '[["read"],["read"]]' 'range of scripts'
make_stub fsr <<'STUB'
cat >/dev/null; echo 'task 0: 0 writes, 0 reads, 0 refused'; echo 'origin: task 0, entry 0'
STUB
catches "a race whose origin is unsound" "status 0, and it printed" over_stubs document_of '[1,1,3]' 1 '[[],[]]'
catches "a race that is run in turn" "it ended with status 0" over_stubs starts_no_thread fsr 10000 "$room/two.json" race
catches "a race whose threads start" "it ended with status 0" starts_no_thread fsr 4000000 "$room/two.json" race
for ending in "exit 5" "echo more; exit 6" "echo more >&2; exit 6"; do
    printf 'cat >/dev/null; echo "fsr: a thread can'"'"'t start" >&2; %s\n' "$ending" | make_stub fsr
    catches "no thread, and then $ending" "it ended with status ${ending##* }" over_stubs starts_no_thread fsr 10000 "$room/two.json" race
done
