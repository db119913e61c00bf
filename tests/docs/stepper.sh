# The page on which one steps the four slots: its module is what the toolchain builds of the crate, and in Chromium and Firefox its states are
# those of the proved cell and what it shows is what `fsr play` prints. The first needs binaryen, the others a browser.

title="the module in docs/stepper.html is what is built of its crate"
over=
[ ! -d crates/four_slot_core/out/rlib ] || over="--over rlib"
if ! command -v wasm-opt >/dev/null 2>&1; then
    echo "test: the module of docs/stepper.html isn't built: there is no wasm-opt"
elif ! ./page $over --anew --cell "$room/stepper.html" >"$room/out" 2>&1; then
    fail "$title" "$(tail -n 3 "$room/out")"
elif cmp -s docs/stepper.html "$room/stepper.html"; then
    pass "$title"
else
    fail "$title" "it isn't: run ./page --cell"
fi

# Compares the page in this folder's docs/ with the programs.
compares_page() {
    (cd "$1" && shift && timeout 600 python3 tests/docs/stepper.py "$@") >"$room/out" 2>&1
}

growths=$PWD/crates/test_growths/out/test_growths fsr=$PWD/crates/fsr/out/fsr
if ! command -v python3 >/dev/null 2>&1; then
    fail "docs/stepper.html" "there is no python3"
elif ! command -v chromium >/dev/null 2>&1 && ! command -v firefox-esr >/dev/null 2>&1; then
    echo "test: docs/stepper.html isn't shown: there is no chromium and no firefox-esr"
elif ! has_program test_growths || ! has_program fsr; then
    fail "docs/stepper.html" "test_growths or fsr wasn't built"
else
    if compares_page . "$growths" "$fsr" out/page/shots; then
        pass "docs/stepper.html: $(tail -n 1 "$room/out")"
    else
        fail "docs/stepper.html" "$(tail -n 3 "$room/out" | tr '\n' ' ')"
    fi
    # (planted: the sides' events taken for each other)
    catches_in_tree "the sides' events taken for each other in docs/stepper.html" "and not to" docs/stepper.html \
        's/write, read, writeSlot, readSlot\] = /read, write, writeSlot, readSlot] = /' timeout 600 python3 tests/docs/stepper.py "$growths" "$fsr"
fi
