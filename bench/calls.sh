#!/bin/sh
# Counts the instructions of one call of a register or board through the library for C, with the loop around it and a function that passes
# the arguments on: by callgrind, or for another machine than this one by qemu, which notes each instruction. Prints lines
# `name,places,call,instructions`; a register has 0 places. For 64-bit ARM it takes Debian's cross compiler and qemu-user-static.
#   bench/calls.sh PREFIX      the folder that `./install` was given
top=$(cd "$(dirname "$0")/.." && pwd) || exit 1
[ -f "$1/lib/libnidzaru.a" ] || { echo "usage: bench/calls.sh PREFIX, where ./install has put the library" >&2; exit 2; }
room=$(mktemp -d) || exit 1
trap 'rm -rf "$room"' EXIT
case $(uname -m):$(LC_ALL=C readelf -h "$1/lib/libnidzaru.a" | sed -n 's/.*Machine: *//p') in
x86_64:AArch64)
    compiler="${CC:-aarch64-linux-gnu-gcc} -static" qemu=qemu-aarch64-static steps=-singlestep
    ! $qemu -help | grep -q one-insn-per-tb || steps=-one-insn-per-tb
    ;;
*) compiler=${CC:-cc} qemu= ;;
esac
$compiler -std=c11 -O2 -I"$1/include" "$top/bench/calls.c" "$1/lib/libnidzaru.a" -pthread -o "$room/calls" || exit 1

# What N calls cost.
#   collected NAME CALL PLACES N
collected() {
    if [ -n "$qemu" ]; then
        $qemu $steps -d exec,nochain -D /dev/fd/3 "$room/calls" "$@" 3>&1 >/dev/null | grep -c '^Trace'
    else
        valgrind --tool=callgrind --callgrind-out-file=/dev/null "$room/calls" "$@" 2>&1 | sed -n 's/.*Collected : *//p'
    fi
}

# One call: what more calls cost, so many that each place makes as many. (Of large records they are fewer.)
count() {
    few=480 many=2400
    case $1 in
    *65536 | *1048576) few=16 many=48 ;;
    esac
    first=$(collected "$@" $few)
    second=$(collected "$@" $many)
    [ -n "$first" ] && [ -n "$second" ] && echo "$1,$3,$2,$(((second - first + (many - few) / 2) / (many - few)))"
}

$qemu "$room/calls" list | while read -r name; do
    case $name in
    *board*) set -- 2 4 8 16 ;;
    *) set -- 0 ;;
    esac
    for places; do
        count "$name" write "$places"
        count "$name" read "$places"
        case $name in
        *board*) continue ;;
        triple*) count "$name" hold "$places" && count "$name" loan "$places" ;;
        esac
        count "$name" look "$places"
    done
done
