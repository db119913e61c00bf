# The page: its heap tried by itself, what its build refuses, a build beside docs/nidzaru.html, and in headless browsers its answers beside
# those of the programs, refused memory, little stack, and its use. It has one check less where there is no gcc, and none of the module where
# binaryen or a browser isn't there.

title="the page's heap"
if ! command -v gcc >/dev/null 2>&1; then
    fail "$title" "there is no gcc"
else
    # Tries the heap in this folder's web/heap.c.
    tries_heap() {
        gcc -O1 -Wall -Wno-attributes -o "$room/heap" "$1/tests/programs/heap.c" 2>"$room/out" \
            && timeout 600 "$room/heap" 1 30000 >"$room/out" 2>&1
    }
    if tries_heap .; then
        pass "$title: $(cat "$room/out")"
    else
        fail "$title" "$(head -c 300 "$room/out")"
    fi
    # (planted: a block in front that stays unjoined, a bound that is passed, and a block that moves without its bytes)
    while IFS='|' read -r control said change; do
        mkdir -p "$room/heap_tree/web" "$room/heap_tree/tests/programs" && cp tests/programs/heap.c "$room/heap_tree/tests/programs/"
        sed "$change" web/heap.c >"$room/heap_tree/web/heap.c"
        if cmp -s web/heap.c "$room/heap_tree/web/heap.c"; then
            fail "planted: $control" "nothing was changed"
        elif tries_heap "$room/heap_tree" || ! grep -q -e "$said" "$room/out"; then
            fail "planted: $control" "it isn't seen: $(head -c 200 "$room/out")"
        else
            pass "planted: $control"
        fi
    done <<'PLANTED'
two free blocks that aren't joined|two free blocks touch|s/^    if ((u64)next != top && next->size & FREE) {/    if (0) {/
a bound that is passed|passed its bound|s/ || end + pages \* PAGE > bound//
a block that moves without its bytes|lost its bytes|/__builtin_memcpy(other, at, kept);/d
PLANTED
fi

title="what the page's build refuses"
if ! command -v python3 >/dev/null 2>&1; then
    fail "$title" "there is no python3"
elif python3 tests/programs/page_refusals.py >"$room/out" 2>&1; then
    pass "$title: $(tail -n 1 "$room/out")"
else
    fail "$title" "$(tail -n 3 "$room/out")"
fi

# Proves and builds the page, over what the gate or build.py has built.
make_page() {
    over=
    [ ! -d crates/memory_answers/out/rlib ] || over="--over rlib"
    ./page $over --anew "$1"
}

# Sees that two builds gave the same page, of which one is docs/nidzaru.html.
are_same_pages() {
    if cmp -s "$1" "$2"; then
        pass "docs/nidzaru.html is what is built"
    else
        fail "docs/nidzaru.html is what is built" "they differ from byte $(cmp "$1" "$2" 2>&1 | sed 's/.* byte //') on"
    fi
}

# Runs one of the page's scripts in its browsers.
#   uses_page TITLE SCRIPT WORDS..
uses_page() {
    title=$1 script=$2
    shift 2
    if timeout 1200 python3 "tests/programs/$script.py" "$@" >"$room/out" 2>&1; then
        pass "$title: $(tail -n 1 "$room/out")"
    else
        fail "$title" "$(tail -n 6 "$room/out" | tr '\n' ' ')"
    fi
}

title="the page"
if ! command -v wasm-opt >/dev/null 2>&1; then
    echo "test: the page isn't built: there is no wasm-opt"
elif ! command -v chromium >/dev/null 2>&1 && ! command -v firefox-esr >/dev/null 2>&1; then
    echo "test: the page isn't tried: there is no chromium and no firefox-esr"
elif ! has_program fsr || ! has_program picture; then
    fail "$title" "fsr or picture wasn't built"
elif ! make_page "$room/nidzaru.html" >"$room/out" 2>&1; then
    fail "$title" "$(tail -n 3 "$room/out")"
else
    pass "$(tail -n 1 "$room/out")"
    page=$room/nidzaru.html programs="crates/fsr/out/fsr crates/picture/out/picture" made=out/page
    are_same_pages "$page" docs/nidzaru.html
    sed 's/^main { max-width: 1240px/main { max-width: 1241px/' "$page" >"$room/other.html"
    catches "a page of another build" "they differ from byte" are_same_pages "$page" "$room/other.html"
    uses_page "the page's answers" page answers "$page" $programs
    uses_page "the page with memory refused" page memory "$page" $made/refuses.wasm
    uses_page "the page with little stack" page stacks "$page" $made/shallow.wasm $made/stack_128.wasm
    uses_page "the page in use" page_use "$page" $made/shots $made/shallow.wasm
    uses_page "the page, planted" page planted "$page" $programs $made/shallow.wasm
    uses_page "the page in use, planted" page_use "$page" $made/planted $made/shallow.wasm --planted
fi
