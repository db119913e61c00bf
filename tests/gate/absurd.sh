# Absurd premises before conjuncts of definitions. The first is refused, so tools/absurd.py can try those of all headlines; one in a
# comment, which says nothing, isn't taken for refused.
if ! command -v python3 >/dev/null 2>&1; then
    fail "absurd premises" "there is no python3"
else
    RT_JOBS=1 python3 tools/absurd.py --max 1 --planted >"$room/out" 2>&1 </dev/null
    status=$?
    if grep -q '^2 edits: 1 refused, 0 not well typed,' "$room/out" && grep -q '^refused: .*EachStands' "$room/out"; then
        pass "an absurd premise is refused"
    else
        fail "an absurd premise is refused" "$(tail -n 3 "$room/out")"
    fi
    if [ "$status" = 1 ] && grep -q '^through: .*: a comment:' "$room/out"; then
        pass "planted: an absurd premise in a comment"
    else
        fail "planted: an absurd premise in a comment" "it isn't seen: status $status"
    fi
fi
