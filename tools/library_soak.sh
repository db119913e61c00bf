#!/bin/sh
# By hand: the library's registers with records of eight sizes, and its boards of 2, 4 and 16 tasks with records of 24, 256 and 4,096 bytes,
# over both mechanisms, for so many seconds each. With a seed threads are stopped, moved between processors and given other priorities at
# random meanwhile (disturb.c). Before that each program has to find a torn and an older record that are planted in it. The last lines are
# the sums of calls and what was found. It ends with status 1 at the first wrong record. With LIBRARY=FILE it is that archive, and no
# toolchain is needed. usage: [LIBRARY=FILE] tools/library_soak.sh SECONDS [SEED]
top=$(dirname -- "$(dirname -- "$(readlink -f -- "$0")")")
case $#:$1:${2:-0} in
[12]:*[!0-9:]* | [12]::* | [12]:0* | [!12]:*)
    echo "usage: [LIBRARY=FILE] tools/library_soak.sh SECONDS [SEED]      of each of 16 registers and 18 boards" >&2
    exit 2
    ;;
esac
room=$(mktemp -d) || exit 1
trap 'rm -rf "$room"' EXIT
. "$top/build/library.sh"
if [ -n "$LIBRARY" ]; then cp "$LIBRARY" "$room/libnidzaru.a"; else make_library "$room/libnidzaru.a"; fi || exit 70
seed=$2
[ -z "$seed" ] || cc -std=c11 -O2 "$top/tools/disturb.c" -o "$room/disturb" || exit 70

# Runs the program with these words, disturbed if there is a seed.
run_program() {
    if [ -n "$seed" ]; then "$room/disturb" "$seed" "$room/program" "$@"; else "$room/program" "$@"; fi
}

make_program() {
    cc -std=c11 -D_GNU_SOURCE -O2 -pthread -I "$top/c" "-DBYTES=$bytes" $family "$@" "$top/c/tests/${kind}_soak.c" \
        "$room/libnidzaru.a" -o "$room/program"
}

# Each planted fault has to be found.
try_planted() {
    for fault in TORN OLDER; do
        make_program "-D$fault" || exit 70
        "$room/program" 2 5 >"$room/planted"
        [ $? = 1 ] && grep -qi ", $fault\$" "$room/planted" || { echo "a planted record isn't found: $fault" >&2; exit 1; }
    done
}

soak() {
    try_planted
    make_program || exit 70
    for tasks in $counts; do
        run_program "$tasks" "$seconds" 2>>"$room/disturbed" && continue
        tail -n 3 "$room/disturbed" >&2
        cat "$room/told" >&2
        exit 1
    done
}

seconds=$1
for family in '' -DTRIPLE; do
    kind=register counts=2
    for bytes in 24 64 128 256 1024 4096 65536 1048576; do soak; done
    kind=board counts='2 4 16'
    for bytes in 24 256 4096; do soak; done
done >"$room/told"
cat "$room/told"
awk -F'[:,] ' '{ kind = / pairs/ ? "registers" : "boards"; lines[kind] += /nothing found$/
        for (i = 1; i <= NF; i++) { if ($i ~ / writes$/) writes[kind] += $i + 0; if ($i ~ / reads$/) reads[kind] += $i + 0 } }
    END { for (kind in lines) printf "%d %s: %.0f writes, %.0f reads\n", lines[kind], kind, writes[kind], reads[kind]
        exit lines["registers"] != 16 || lines["boards"] != 18 }' "$room/told"
