# The controls of tests/library/c.sh and tests/library/rust.sh, by their own functions over the library that they installed: a program that
# says something else or isn't built, a right library where a plain buffer is due, edits that no test refuses, and a test in Rust that fails.

functions_alone=yes
. tests/library/c.sh
flags=
[ ! -d "$installed/lib" ] || set_flags

# A control of a function of tests/library/c.sh, which wants this of a program.
#   catches_program TITLE SAID FUNCTION WANTED COMMAND..
catches_program() {
    planted_title=$1 planted_said=$2 function=$3 wants=$4
    shift 4
    catches "$planted_title" "$planted_said" "$function" a "$@" -o "$room/program"
}

if [ -z "$flags" ]; then
    fail "the controls of tests/library/c.sh" "no library is installed; tests/library/c.sh does that"
elif command -v gcc >/dev/null 2>&1; then
    catches_program "another last line" FAILED run_here 'a record was torn' gcc -std=c11 -O2 examples/c/tasks.c $flags -pthread
    catches_program "a program that isn't built" "it wasn't built" run_here 'no record was torn' \
        gcc -std=c11 -DNIDZARU_REGISTER examples/c/tasks.c
    catches_program "a register where a plain buffer is due" "it took a plain buffer" run_control 'a torn record' \
        gcc -std=c11 -D_GNU_SOURCE -O2 c/tests/test.c $flags -pthread
fi

# The control of c/tests/planted.py, which has to fail over a copy in which the text of a file is changed, and say this.
#   catches_planted TITLE SAID FILE SED
catches_planted() {
    catches_in_tree "$1" "$2" "$3" "$4" python3 c/tests/planted.py "$installed/lib/libnidzaru.a" 'pointers of 4 bytes'
}
if [ -n "$flags" ] && command -v gcc >/dev/null 2>&1; then
    catches_planted "a verdict that is always the same" 'FAILED: control: a comment: it is refused' \
        c/tests/planted.py 's/^    name, paths, old, new, test, word = row/    return None/'
    catches_planted "an edit that changes nothing" 'FAILED: pointers of 4 bytes: it gets through narrow' \
        c/tests/edits.py 's|.NIDZARU_ASSERT(sizeof(void \*) == 8, .*, "", "narrow"|"/* What a handle begins as: zeros. */", "", "narrow"|'
fi

if [ -n "$flags" ] && command -v cargo >/dev/null 2>&1; then
    printf '#[test]\nfn planted() {\n    assert_eq!(1, 2);\n}\n' >>"$room/rust/src/lib.rs"
    if in_rust test --release --lib >"$room/said" 2>&1; then
        fail "planted: a test in Rust that fails" "it isn't seen"
    elif grep -q '^test planted .*FAILED\|planted stdout' "$room/said"; then
        pass "planted: a test in Rust that fails"
    else
        fail "planted: a test in Rust that fails" "another reason: $(tail -n 3 "$room/said" | tr '\n' ' ')"
    fi
    cp rust/nidzaru/src/lib.rs "$room/rust/src/lib.rs"
fi
