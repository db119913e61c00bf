#!/bin/sh
# Measures the proved cells beside plain registers and the locks of Rust's library, in one run, and prints ratios.
#   bench/run.sh [ROUNDS]      5 rounds where none are named. The programs take turns; each figure is a median of the rounds.
# It needs rustc; with valgrind it counts instructions too. Numbers are noisy on a busy machine: compare ratios of one run.
top=$(cd "$(dirname "$0")/.." && pwd) || exit 1
rounds=${1:-5}
room=$(mktemp -d) || exit 1
trap 'rm -rf "$room"' EXIT
proved=$top/crates/cells_bench/out/cells_bench
if ! command -v rustc >/dev/null 2>&1; then
    echo "bench: there is no rustc, so the plain registers can't be built"
    exit 1
fi
rustc -O -C target-cpu=x86-64-v2 -C panic=abort -o "$room/plain" "$top/bench/plain.rs" || exit 1
. "$top/build/build.sh"
make_fresh cells_bench </dev/null >&2 || exit 1
for round in $(seq "$rounds"); do
    for program in "$proved" "$room/plain"; do
        "$program" run >"$room/run" || { echo "bench: $program run: status $?" >&2; exit 1; }
        # (a figure of torn records is none)
        if ! awk -F, '!/^#/ && $4 == "torn_or_backward" && $5 != 0 { print; bad = 1 } END { exit bad }' "$room/run" >&2; then
            echo "bench: $program gave torn or old records" >&2
            exit 1
        fi
        grep -v '^#' "$room/run" >>"$room/lines"
    done
    echo "# round $round of $rounds" >&2
done

# The instructions of one call: what 2,000 calls more cost.
instructions() {
    few=$(valgrind --tool=callgrind --callgrind-out-file=/dev/null "$1" count "$2" "$3" "$4" 500 2>&1 | sed -n 's/.*Collected : *//p')
    many=$(valgrind --tool=callgrind --callgrind-out-file=/dev/null "$1" count "$2" "$3" "$4" 2500 2>&1 | sed -n 's/.*Collected : *//p')
    [ -n "$few" ] && [ -n "$many" ] && echo "$2,$3,solo,$4_insn,$(((many - few) / 2000))"
}
if command -v valgrind >/dev/null 2>&1; then
    for program in "$proved" "$room/plain"; do
        "$program" list | grep -v '^#' | while IFS=, read -r name bytes; do
            instructions "$program" "$name" "$bytes" write
            instructions "$program" "$name" "$bytes" read
        done
    done >>"$room/lines"
fi

# Medians, each with its ratio to the plain register of its kind; the locks beside the plain four slots. Then the registers of several
# writers and readers.
sort -t, -k1,1 -k2,2n -k3,3 -k4,4 -k5,5g "$room/lines" | awk -F, '
    function close_group() { if (n) { m[key] = v[int((n + 1) / 2)]; if (!(name "," bytes in seen)) { seen[name "," bytes] = 1; order[++count] = name "," bytes } } }
    function cell(x, y) { if (x == "") printf " | %-16s", "-"; else printf " | %8.1f %6.2fx", x, (y > 0 ? x / y : 0) }
    { k = $1 "," $2 "," $3 "," $4; if (k != key) { close_group(); n = 0; key = k; name = $1; bytes = $2 } v[++n] = $5 }
    END {
        close_group()
        split("solo,write_ns solo,read_ns solo,write_insn solo,read_insn paced,write_p50_ns paced,read_p50_ns paced,write_p99_ns paced,read_p99_ns duo,read_p50_ns duo,read_p99.9_ns duo,read_p99.99_ns", what, " ")
        printf "%-18s %5s", "register", "bytes"
        split("write ns|read ns|write insn|read insn|paced w p50|paced r p50|paced w p99|paced r p99|duo r p50|duo r p99.9|duo r p99.99", head, "|")
        for (i = 1; i <= 11; i++) printf " | %-16s", head[i]
        print ""
        for (j = 1; j <= count; j++) {
            split(order[j], part, ",")
            if (m[order[j] ",solo,write_ns"] == "") continue
            base = part[1] ~ /triple/ ? "plain_triple" : "plain_four_slot"
            printf "%-18s %5d", part[1], part[2]
            for (i = 1; i <= 11; i++) {
                cell(m[order[j] "," what[i]], m[base "," part[2] "," what[i]])
            }
            print ""
        }
        printf "\n%-24s %3s", "register of several", "n"
        split("write ns|read ns|round ns|write insn|read insn|t2 Mop/s|t2 r p50|t2 r p99.9|t4 Mop/s|t4 r p50|t4 r p99.9", head, "|")
        for (i = 1; i <= 11; i++) printf " | %-16s", head[i]
        print ""
        split("_solo,write_ns _solo,read_ns _solo,round_ns write_insn read_insn _t2,total_mops _t2,read_p50_ns _t2,read_p99.9_ns _t4,total_mops _t4,read_p50_ns _t4,read_p99.9_ns", what, " ")
        split("2 4 8 16", sizes, " ")
        for (k = 1; k <= 4; k++) for (j = 1; j <= count; j++) {
            split(order[j], part, ",")
            n = sizes[k]
            if (m[order[j] ",n" n "_solo,write_ns"] == "") continue
            base = part[1] ~ /triple/ ? "plain_board_triple" : "plain_board_four_slot"
            printf "%-24s %3d", part[1], n
            for (i = 1; i <= 11; i++) {
                if (what[i] ~ /insn/) cell(m[part[1] ":" n ",24,solo," what[i]], m[base ":" n ",24,solo," what[i]])
                else cell(m[order[j] ",n" n what[i]], m[base ",24,n" n what[i]])
            }
            print ""
        }
        printf "\n%-24s %3s", "eight, paced", ""
        split("read mean|read p50|read p99|read p99.9|write mean|write p50|write p99|write p99.9", head, "|")
        for (i = 1; i <= 8; i++) printf " | %-16s", head[i]
        print ""
        split("read_mean_ns read_p50_ns read_p99_ns read_p99.9_ns write_mean_ns write_p50_ns write_p99_ns write_p99.9_ns", what, " ")
        for (j = 1; j <= count; j++) {
            split(order[j], part, ",")
            if (m[order[j] ",n8_paced,read_mean_ns"] == "") continue
            base = part[1] ~ /triple/ ? "plain_board_triple" : "plain_board_four_slot"
            printf "%-24s %3s", part[1], ""
            for (i = 1; i <= 8; i++) cell(m[order[j] ",n8_paced," what[i]], m[base ",24,n8_paced," what[i]])
            print ""
        }
    }'
