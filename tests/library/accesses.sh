#!/bin/sh
# The accesses that each call of a register has in the built library, for x86-64 and, where there are binutils for it, for 64-bit ARM,
# against a table. The last line is the sums. usage: tests/library/accesses.sh
cd "$(dirname -- "$(readlink -f -- "$0")")/../.." || exit 1
top=$PWD
passed=0 failed=0
room=$(mktemp -d) || exit 1
trap 'rm -rf "$room"' EXIT
trap 'exit 1' HUP INT TERM
. tests/gate/outcomes.sh
. build/library.sh

# Compares each call's accesses in the disassembly of the library for this machine with the table.
has_accesses() {
    title="the accesses of the library for $machine"
    if python3 tests/library/accesses.py "$machine" tests/library/accesses.txt <"$1" >"$room/said" 2>&1; then
        pass "$title: $(tail -n 1 "$room/said")"
    else
        fail "$title" "$(head -n 4 "$room/said" | tr '\n' ';')"
    fi
}

# The same with a fault in the code, which has to be seen: the first function of this name is changed by a command of sed.
#   sees_fault TITLE SAID FUNCTION SED
sees_fault() {
    sed "/^[0-9a-f]* <$3>:\$/,/^\$/{$4}" "$room/code" >"$room/faulty"
    if cmp -s "$room/code" "$room/faulty"; then
        fail "planted: $1" "it changes nothing"
    else
        catches "$1" "$2" has_accesses "$room/faulty"
    fi
}

try_accesses() {
    if ! make_library "$room/$machine.a" >"$room/built" 2>&1; then
        fail "the accesses of the library for $machine" "$(tail -n 1 "$room/built")"
        return
    fi
    "${tools}objdump" -dr --no-show-raw-insn "$room/$machine.a" >"$room/code"
    has_accesses "$room/code"
    case $machine in
    aarch64)
        sees_fault "a read that loads by ldapr" 'nidzaru_24_read has ldapr' nidzaru_24_read 's/\tldar\t/\tldapr\t/'
        sees_fault "a write that stores by str" 'write of .*24' nidzaru_24_write 's/\tstlr\t/\tstr\t/'
        sees_fault "a swap without release" 'nidzaru_triple_24_write has stxr' nidzaru_triple_24_write 's/\tstlxr\t/\tstxr\t/'
        sees_fault "a large read that copies nothing" 'large_read of 4096' nidzaru_4096_read '/R_AARCH64_.*mem/d'
        sees_fault "a read of 64 bytes that copies nothing" 'large_read of 64:' nidzaru_64_read '/\tldu\{0,1\}[rp]\tq/d'
        sees_fault "a write of 64 bytes that copies nothing" 'large_write of 64:' nidzaru_64_write '/\tstu\{0,1\}[rp]\tq/d'
        sees_fault "a board's write that swaps" 'board_write of nidzaru_board_24_write' nidzaru_board_24_write 's/\tstlr\t/\tstlxr\t/'
        ;;
    *)
        sees_fault "a write that stores by mov" 'write of .*24' nidzaru_24_write 's/\txchg /\tmov /'
        sees_fault "a swap that is a mov" 'triple_write of .*24' nidzaru_triple_24_write 's/\txchg /\tmov /'
        sees_fault "a large read that copies nothing" 'large_read of 4096' nidzaru_4096_read '/R_X86_64_.*mem/d'
        sees_fault "a write of 64 bytes that copies nothing" 'large_write of 64:' nidzaru_64_write '/\tmov[au]p/d'
        ;;
    esac
}

for it in $machines; do
    set_machine "$it"
    ! has_tools "$it" || try_accesses
done
echo "$passed passed, $failed failed"
[ "$failed" = 0 ] && [ "$passed" -gt 0 ]
