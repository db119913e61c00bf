#!/bin/sh
# By hand: the soak for so many minutes while its threads are stopped, moved between processors and given other priorities at random
# (disturb.c), and for so many minutes more soaks in each of which one request for memory, chosen at random, is refused (refuse.c). It
# ends with status 1 at the first torn, older or foreign record, or where a soak ends otherwise than it should.
# usage: tools/disturb.sh [MINUTES [SEED]]
cd "$(dirname -- "$(readlink -f -- "$0")")/.." || exit 70
top=$PWD minutes=${1:-1} seed=${2:-1}
case $minutes:$seed in
*[!0-9:]* | 0* | :* | *:) echo "usage: tools/disturb.sh [MINUTES [SEED]]" >&2 && exit 2 ;;
esac
. build/build.sh
make_fresh soak </dev/null >&2 || exit 70
room=$(mktemp -d) && trap 'rm -rf "$room"' EXIT || exit 70
"${CC:-cc}" -std=c11 -O2 tools/disturb.c -o "$room/disturb" && "${CC:-cc}" -O2 -shared -fPIC tests/programs/refuse.c -ldl -o "$room/refuse.so" || exit 70

"$room/disturb" "$seed" crates/soak/out/soak run "$minutes"
status=$?
[ "$status" = 0 ] || { echo "disturbed, it ended with status $status" >&2 && exit 1; }

# A soak whose refused request was a thread's goes on without that thread, to its end.
began=$(date +%s) refusals=0 others=0
while [ $(($(date +%s) - began)) -lt $((60 * minutes)) ]; do
    seed=$(((seed * 1103515245 + 12345) % 2147483648)) request=$((1 + seed / 16 % 200000))
    REFUSE=$request LD_PRELOAD=$room/refuse.so crates/soak/out/soak run 1 >"$room/out" 2>"$room/err"
    status=$?
    case $status in
    0) others=$((others + 1)) ;;
    4 | 6) refusals=$((refusals + 1)) ;;
    *) echo "with request $request refused it ended with status $status: $(tail -n 1 "$room/out" "$room/err")" >&2 && exit 1 ;;
    esac
    cat "$room/out"
done
echo "$refusals soaks ended for want of memory, $others went on" >&2
