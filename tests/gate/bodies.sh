# The controls of the wrong bodies. What the prover said of some edits once, whole or with other breaks of its lines, is judged as each
# file says. Edits that change nothing, spoil another function than they name, or only make a proof name what isn't there (a goal, a
# field, a lemma on which other parts depend) don't count as refused, nor do goals that weren't searched for.
if ! command -v python3 >/dev/null 2>&1; then
    fail "the judge of wrong bodies" "there is no python3"
else
    for file in tests/gate/said/*.txt; do
        if python3 tests/gate/wrong_bodies.py --said "$file" >"$room/out" 2>&1; then
            pass "$file is judged as it says"
        else
            fail "$file is judged as it says" "$(cat "$room/out")"
        fi
    done
    sed 's/^refused: no$/refused: yes/' tests/gate/said/a_gone_field.txt >"$room/said.txt"
    if python3 tests/gate/wrong_bodies.py --said "$room/said.txt" >"$room/out" 2>&1; then
        fail "planted: a file that wants the opposite" "it isn't seen"
    else
        pass "planted: a file that wants the opposite"
    fi
    python3 tests/gate/wrong_bodies.py --proved --edits tests/gate/right_bodies </dev/null >"$room/right" 2>&1
    for name in read_document/a_field_by_another_name read_document/a_goal_by_another_name history_check/a_lemma_by_another_name \
        history_check/a_comment_without_search matrix_core/spoils_another_function \
        matrix_core/the_same_test_turned_round object_core/spoils_what_another_law_is_of object_core/the_same_in_other_words; do
        if grep -qx "must-fail $name: NOT REFUSED" "$room/right"; then
            pass "$name spoils nothing that it names, and isn't taken for refused"
        else
            fail "$name spoils nothing that it names" "$(grep "$name\|isn't proved" "$room/right" || tail -n 3 "$room/right")"
        fi
    done
fi
