# What README and the documents quote from the code has to stand there, so that they can't drift.
if ! command -v python3 >/dev/null 2>&1; then
    fail "quotations" "there is no python3"
elif python3 tests/docs/quotes.py README.md docs/*.md docs/dev/*.md crates/*/README.md >"$room/out" 2>&1; then
    pass "quotations: $(cat "$room/out")"
else
    fail "quotations" "$(cat "$room/out")"
fi
if ! command -v python3 >/dev/null 2>&1; then
    fail "the headlines" "there is no python3"
elif python3 tests/docs/headlines.py >"$room/out" 2>&1; then
    pass "the headlines: $(cat "$room/out")"
else
    fail "the headlines" "$(cat "$room/out")"
fi
if ! command -v python3 >/dev/null 2>&1; then
    fail "links" "there is no python3"
elif python3 tests/docs/links.py README.md CHANGELOG.md CONTRIBUTING.md SECURITY.md docs/*.md docs/dev/*.md examples/README.md bench/README.md crates/*/README.md \
    >"$room/out" 2>&1; then
    pass "links: $(cat "$room/out")"
else
    fail "links" "$(cat "$room/out")"
fi
# The front page stays short: its words beside its tables and its programs, which are quoted from files.
is_short() {
    words=$(awk '/^```/ { quoted = !quoted; next } !quoted && !/^\|/' "$1" | wc -w)
    if [ "$words" -gt 0 ] && [ "$words" -le 900 ]; then
        pass "$1 has $words words"
    else
        fail "$1" "it has $words words, and 1 to 900 are allowed"
    fi
}

is_short README.md
awk 'BEGIN { for (k = 0; k < 901; k++) print "word" }' >"$room/long.md"
catches "a front page of 901 words" "it has 901 words" is_short "$room/long.md"

# The controls: another word in a quotation, another number of files, parts that no source has, a changed definition in the reading set of
# a headline with as many lines, and links that lead nowhere.
if command -v python3 >/dev/null 2>&1; then
    catches_in_tree "another word in a quotation" "docs/THEOREMS.md:.* isn't in crates/board_tasks/src/origin.rt" docs/THEOREMS.md \
        '0,/pub fn check_origin</s//pub fn check_origins</' python3 tests/docs/quotes.py docs/THEOREMS.md
    catches_in_tree "another word behind a cut in a quotation" "README.md:.* isn't in examples/c/small.c" README.md \
        's/^if (samples_read(/if (samples_reads(/' python3 tests/docs/quotes.py README.md
    catches_in_tree "another number of files in a table" "tests/programs/races/ has [0-9]* files" docs/dev/TESTING.md \
        's/^\(| `tests\/programs\/races\/` | \)[0-9]*/\11/' python3 tests/docs/quotes.py docs/dev/TESTING.md
    catches_in_tree "a clause that another crate's function of this name has" "no source has .quiet. of .write." docs/BOARD.md \
        's/(`quiet` of `read`)/(`quiet` of `read` and of `write`)/' python3 tests/docs/quotes.py docs/BOARD.md
    catches_in_tree "a clause that no function has" "no source has .unsaid. of .laws::runs_of_two." docs/BOARD.md \
        's/clause `untold`/clause `unsaid`/' python3 tests/docs/quotes.py docs/BOARD.md
    catches_in_tree "a field that no definition has" "no source has .ended. of .IsReadOf." docs/BOARD.md \
        's/`begun` of `IsReadOf`/`ended` of `IsReadOf`/' python3 tests/docs/quotes.py docs/BOARD.md
    catches_in_tree "an item that no crate has" "no source has .run_task. of .board_tasks." docs/BOARD.md \
        's/`run_tasks` of `board_tasks`/`run_task` of `board_tasks`/' python3 tests/docs/quotes.py docs/BOARD.md
    first="1. The checker: a verdict is right, and no order is missed; 2"
    catches_in_tree "a changed definition with as many lines" "another reading set of $first" \
        crates/history_core/specs/Orders.antt 's/^MayStand None Write times = times ≤ 1/MayStand None Write times = times ≤ 2/' \
        python3 tests/docs/headlines.py
    catches_in_tree "a changed definition of a theorem that no headline is" "another reading set of Running boards" \
        crates/board_live/specs/Receipts.antt 's/^    pub time : family.time_of receipt.told ≤ /&1 + /' python3 tests/docs/headlines.py
    catches_in_tree "a section of theorems without its numbers" "another reading set of Through C" docs/THEOREMS.md \
        '/^## Through C/,$ { /reading set/d }' python3 tests/docs/headlines.py
    catches_in_tree "another number of lines of several headlines" "another reading set of # The theorems" docs/THEOREMS.md \
        's/together have [*][*][0-9]*/together have **7/' python3 tests/docs/headlines.py
    catches_in_tree "a name taken from elsewhere" "another reading set of $first" crates/history_core/specs/Orders.antt \
        's/^use Rattle.std.specs.List.{count_by/use Rattle.std.specs.Lists.{count_by/' python3 tests/docs/headlines.py
    catches_in_tree "a link to no file" "there is no CHANGES.md" README.md '0,/](CHANGELOG.md/s//](CHANGES.md/' \
        python3 tests/docs/links.py README.md
    catches_in_tree "a link to no heading" "has no heading what-it-cost" README.md '0,/](docs\/WHY.md/s//](docs\/dev\/TESTING.md#what-it-cost/' \
        python3 tests/docs/links.py README.md
fi
