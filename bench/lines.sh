#!/bin/sh
# Measures what lines of the cache cost that the two sides of a register of C share: two threads, busy and paced, in heaps that the program
# has used in different ways (bench/lines.c). Prints lines `register,bytes,mode,layout,write ns,read ns`, medians of the rounds, in which
# the programs take turns.
#   bench/lines.sh PREFIX [ROUNDS]      PREFIX is the folder that `./install` was given; 11 rounds where none are named
# Where the user may, the threads run before all others (`chrt`), so that other work on the machine doesn't put them off.
top=$(cd "$(dirname "$0")/.." && pwd) || exit 1
rounds=${2:-11}
[ -f "$1/lib/libnidzaru.a" ] || { echo "usage: bench/lines.sh PREFIX [ROUNDS], where ./install has put the library" >&2; exit 2; }
room=$(mktemp -d) || exit 1
trap 'rm -rf "$room"' EXIT
first=
! chrt -f 50 true 2>/dev/null || first='chrt -f 50'
for bytes in 24 256 4096; do
    for register in four_slot triple plain; do
        ${CC:-cc} -std=c11 -O2 -DBYTES=$bytes -D"$(echo $register | tr a-z A-Z)" -I"$1/include" "$top/bench/lines.c" \
            "$1/lib/libnidzaru.a" -pthread -o "$room/$register,$bytes" || exit 1
    done
done
for round in $(seq "$rounds"); do
    for program in "$room"/*,*; do
        for mode in busy paced; do
            for layout in 0 1 2 3 4; do
                # (a plain one isn't on the heap)
                case $program,$layout in
                */plain,*,[1-9]) continue ;;
                esac
                printf '%s,%s,%s ' "${program##*/}" $mode $layout
                $first "$program" $mode $layout || exit 1
            done
        done
    done >>"$room/lines"
    echo "# round $round of $rounds" >&2
done
median() {
    sort -g | awk '{ value[NR] = $1 } END { print value[int((NR + 1) / 2)] }'
}
cut -d' ' -f1 "$room/lines" | sort -u | while read -r row; do
    grep "^$row " "$room/lines" >"$room/row"
    echo "$row,$(cut -d' ' -f2 "$room/row" | median),$(cut -d' ' -f3 "$room/row" | median)"
done
