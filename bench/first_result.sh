#!/bin/sh
# Measures what a newcomer waits for: in a fresh clone of what is committed, with nothing built, the time until a command of `fsr` gives its
# first answer. Prints minutes and processor minutes of each command beside those that docs/dev/TESTING.md has. The machine should do
# nothing else meanwhile.
#   bench/first_result.sh [COMMAND ..]      check, order and play where none is named
top=$(cd "$(dirname "$0")/.." && pwd) || exit 1
room=$(mktemp -d) || exit 1
trap 'rm -rf "$room"' EXIT
trap 'exit 1' HUP INT TERM
. "$top/build/spent.sh"
[ $# -gt 0 ] || set -- check order play
echo "on $(nproc) processors, $(git -C "$top" log -1 --format=%h), $(rt version)"
before=0
for command in "$@"; do
    row=fsr_$command
    case $command in
    check) document=lawful.json ;;
    order) document=lines.jsonl row=fsr_once ;;
    play) document=stalled_reader.json ;;
    *)
        echo "first_result: no command $command" >&2
        exit 2
        ;;
    esac
    rm -rf "$room/clone"
    git clone -q "$top" "$room/clone" || exit 1
    began=$(date +%s)
    "$room/clone/fsr" "$command" "$room/clone/examples/$document" >"$room/answer" 2>"$room/built"
    status=$?
    took=$(($(date +%s) - began))
    if [ "$status" -gt 1 ] || ! cmp "$room/answer" "$top/examples/${document%.json*}.txt" >&2; then
        tail -n 5 "$room/built" >&2
        echo "first_result: ./fsr $command ends with status $status, or with another answer" >&2
        exit 1
    fi
    count_spent "$room/times"
    tell_cost "./fsr $command" "$took" "$(echo "$used $before" | awk '{ print $1 - $2 }')" "$row"
    before=$used
done
