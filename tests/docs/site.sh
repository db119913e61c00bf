# The site's page: its code, its figures and its links are the repository's, and in Chromium and Firefox the mechanism steps by itself and
# each tab shows its code. The second needs a browser. And the page that judges logs has modules that were built of the files that lie here,
# among them the one of the page that steps the mechanism.

# Looks at the page in this folder's docs/.
looks_at_site() {
    (cd "$1" && shift && timeout 600 python3 tests/docs/site.py "$@") >"$room/out" 2>&1
}

if ! command -v python3 >/dev/null 2>&1; then
    fail "docs/index.html" "there is no python3"
else
    if looks_at_site . --text; then
        pass "$(cat "$room/out")"
    else
        fail "docs/index.html" "$(head -n 3 "$room/out" | tr '\n' ' ')"
    fi
    if python3 web/make.py --kept "$room/kept.html" >"$room/out" 2>&1 && cmp -s "$room/kept.html" docs/nidzaru.html; then
        pass "docs/nidzaru.html is the page of what lies here"
    else
        fail "docs/nidzaru.html" "it isn't the page of what lies here; run ./page docs/nidzaru.html: $(tail -n 1 "$room/out")"
    fi
    catches_in_tree "modules of other files in docs/nidzaru.html" "modules of other files" crates/read_line/src/lib.rt '1s/^/\/\/ Other.\n/' \
        python3 web/make.py --kept "$room/kept.html"
    catches_in_tree "another module in docs/stepper.html" "stepper.html or" docs/stepper.html '/id="module">/{n;s/^.../AAA/}' \
        python3 web/make.py --kept "$room/kept.html"
    catches_in_tree "another figure on the site" "its figures are" docs/index.html 's/2014\.5/201.45/' python3 tests/docs/site.py --text
    catches_in_tree "other code on the site" "examples/c/small.c hasn't" docs/index.html 's/NIDZARU_REGISTER/NIDZARU_CELL/' python3 tests/docs/site.py --text
    catches_in_tree "a link of the site to no file" "there is no SPED.md" docs/index.html 's/SPEED\.md/SPED.md/' python3 tests/docs/site.py --text
    if ! command -v chromium >/dev/null 2>&1 && ! command -v firefox-esr >/dev/null 2>&1; then
        echo "test: docs/index.html isn't shown: there is no chromium and no firefox-esr"
    else
        if looks_at_site . out/site; then
            pass "$(tail -n 1 "$room/out")"
        else
            fail "docs/index.html in a browser" "$(tail -n 3 "$room/out" | tr '\n' ' ')"
        fi
        catches_in_tree "a tab of the site that shows another's code" "the tab cpp shows" docs/index.html \
            's/aria-controls="code-cpp"/aria-controls="code-rust"/' timeout 600 python3 tests/docs/site.py
    fi
fi
