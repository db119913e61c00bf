# Each file of the crates has to be in the layout that `rt fmt` gives.

# Compares the layout of these files.
are_laid_out() {
    if "$(dirname -- "$(rt doc)")/bin/rattle" fmt --check "$@" >"$room/out" 2>&1 && [ $# -gt 0 ]; then
        pass "the layout of $# files"
    else
        fail "the layout of $# files" "$(head -n 3 "$room/out" | tr '\n' ' ')"
    fi
}

are_laid_out $(find crates -name out -prune -o \( -name '*.rt' -o -name '*.antt' \) -print)
{ cat crates/history_core/src/lib.rt && echo 'use  std::mem;'; } >"$room/planted.rt"
catches "a file in another layout" "planted.rt is not in the layout" are_laid_out crates/history_core/src/lib.rt "$room/planted.rt"
catches "no file" "the layout of 0 files" are_laid_out

# No crate has more long lines than the page of decisions allows.
if ! command -v python3 >/dev/null 2>&1; then
    fail "long lines" "there is no python3"
else
    if python3 tests/gate/lines.py >"$room/out" 2>&1; then
        pass "$(cat "$room/out")"
    else
        fail "long lines" "$(head -n 3 "$room/out" | tr '\n' ' ')"
    fi
    catches_in_tree "a long line of a definition" "matrix_play has .* lines of .src/. and .specs/." crates/matrix_play/specs/MatrixRuns.antt \
        "2s/^/-- $(printf '%0121d' 0)\n/" python3 tests/gate/lines.py
    # Nor do two crates share more lines.
    if python3 tests/gate/duplicates.py >"$room/out" 2>&1; then
        pass "$(cat "$room/out")"
    else
        fail "what stands twice" "$(head -n 3 "$room/out" | tr '\n' ' ')"
    fi
    catches_in_tree "a passage of another crate" "history_core and matrix_core share .* lines" crates/matrix_core/specs/Lib.antt \
        '$r crates/history_core/specs/Orders.antt' python3 tests/gate/duplicates.py
    # The faults that are planted in the tests by hand still fit.
    if python3 tools/sabotages.py --fit >"$room/out" 2>&1; then
        pass "faults for the tests: $(cat "$room/out")"
    else
        fail "faults for the tests" "$(head -n 3 "$room/out" | tr '\n' ' ')"
    fi
    catches_in_tree "a fault for the tests that doesn't fit" "numbers that .*: its old text stands 0 times" tools/sabotages.py \
        's/elif is_alike and counted/elif is_alike or counted/' python3 tools/sabotages.py --fit
fi

# Scripts have no error that shellcheck knows, and the headers whose functions are no macros have the layout of .clang-format, where these
# tools are.
are_sound_scripts() {
    if shellcheck -S error -s sh "$@" >"$room/out" 2>&1 && [ $# -gt 0 ]; then
        pass "shellcheck over $# scripts"
    else
        fail "shellcheck over $# scripts" "$(head -n 3 "$room/out" | tr '\n' ' ')"
    fi
}

are_formatted() {
    if clang-format --dry-run --Werror "$@" >"$room/out" 2>&1 && [ $# -gt 0 ]; then
        pass "clang-format over $# files"
    else
        fail "clang-format over $# files" "$(head -n 3 "$room/out" | tr '\n' ' ')"
    fi
}

if command -v shellcheck >/dev/null 2>&1; then
    are_sound_scripts fsr install package page picture soak test $(find build c packaging tests tools -name '*.sh')
    printf '#!/bin/sh\nif true; then echo\n' >"$room/planted.sh"
    catches "a script that doesn't end" "over 1 scripts" are_sound_scripts "$room/planted.sh"
fi
if command -v clang-format >/dev/null 2>&1; then
    are_formatted c/nidzaru.hpp c/nidzaru_shared.hpp c/nidzaru_check.h c/nidzaru_log.h c/heap.c
    cp .clang-format "$room/" && { cat c/heap.c && echo 'int  more;'; } >"$room/planted.c"
    catches "a C file in another layout" "over 1 files" are_formatted "$room/planted.c"
fi
