#!/bin/sh
# Runs a control loop beside a task that is stopped in the middle of its access, with each way of sharing the record, prints a table,
# and draws the pictures of docs/WHY.md, which stand in docs/why.
#   bench/why/run.sh PREFIX [SECONDS [PROCESSOR]]     PREFIX: where ./install has put the library; 10 seconds on the last processor
# It needs a C compiler, gnuplot and the right to real-time priorities (root, or an rtprio limit of 80).
[ $# -ge 1 ] || { sed -n '2,6s/^# //p' "$0" >&2; exit 2; }
here=$(cd "$(dirname "$0")" && pwd) && pictures=$here/../../docs/why && room=$(mktemp -d) || exit 1
trap 'rm -rf "$room"' EXIT
seconds=${2:-10}
processor=${3:-$(($(nproc) - 1))}
kinds='none mutex inherit try_lock seqlock four_slot triple'
cc -std=gnu11 -O2 -Wall -Wextra -I"$1/include" -o "$room/loop" "$here/loop.c" -L"$1/lib" -lnidzaru -pthread || exit 1
echo "$(date -u +%F), $(sed -n 's/^model name[^:]*: //p' /proc/cpuinfo | head -n 1), Linux $(uname -r), $(nproc) processors, $seconds s each"

# The share of turns that are at most so late, and the greatest of both columns.
sum() {
    sort -g -k2,2 "$1" | awk '{ late[NR] = $2; if ($3 > age) age = $3; torn += $4 }
        END { printf "%.1f %.1f %.1f %.1f %d\n", late[int((NR + 1) / 2)], late[int(NR * 0.999)], late[NR], age, torn }'
}
for third in reads writes; do
    echo
    echo "the third task $third:"
    echo '| Shared by | half of the turns, µs | 99.9 of 100 | the latest turn | the oldest record | torn |'
    echo '|---|---|---|---|---|---|'
    for kind in $kinds; do
        "$room/loop" "$kind" "$third" "$seconds" "$processor" >"$room/$third.$kind" || exit 1
        sum "$room/$third.$kind" | awk -v kind="$kind" '{ print "| " kind " | " $1 " | " $2 " | " $3 " | " (kind == "none" ? "" : $4) " | " $5 " |" }'
        # over time the latest turn of each 10 ms; of the distribution 200 shares, evenly on a scale of tenths
        awk '{ at = int($1 / 100); if ($2 > late[at]) late[at] = $2; if (at > last) last = at }
            END { for (i = 0; i <= last; i++) print i / 100, late[i] }' "$room/$third.$kind" >"$room/$third.$kind.time"
        sort -gr -k2,2 "$room/$third.$kind" | awk '{ late[NR] = $2 }
            END { for (i = 0; i <= 200; i++) { at = int(exp(log(NR) * i / 200)); print late[at], at / NR } }' >"$room/$third.$kind.share"
    done
    gnuplot -e "room='$room'; third='$third'; out='$pictures/$third'; seconds=$seconds; kinds='$kinds'" "$here/draw.gp" || exit 1
done
