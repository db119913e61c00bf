# Which wrong bodies are tried, over two small crates with a stub in place of the prover, which refuses a function whose body has the word
# `wrong`: all of a crate that has changed since they were tried, or below which one has, and of the others each tenth, by turns.

# Lays out a repository of a crate `low` and a crate `high` over it, each with 20 wrong bodies, and a kit.
lay_out_tried() {
    tried_tree=$room/tried
    sums_there=$tried_tree/tests/gate/tried.txt
    kit_stub=$tried_tree/kit
    mkdir -p "$tried_tree/build" "$tried_tree/tests/gate" "$kit_stub/bin"
    cp build/listed.py "$tried_tree/build/" && cp tests/gate/wrong_bodies.py tests/gate/tried.py "$tried_tree/tests/gate/"
    printf 'low:\nhigh: low\n' >"$tried_tree/crates.txt"
    echo one >"$kit_stub/KIT-ID" && echo one >"$kit_stub/WHAT"
    printf '#!/bin/sh\necho "%s/page"\n' "$kit_stub" >"$kit_stub/bin/rt"
    cat >"$kit_stub/bin/rattle" <<'STUB'
#!/bin/sh
count=0
[ ! -e "${0%/*}/blind" ] || exit 0
while [ $# -gt 0 ]; do
    if [ "$1" = --only ]; then
        count=$((count + 1))
        ! grep -q "fn ${2##*::}() .*wrong" src/lib.rt || echo "fn $2: no proof: \`search\` did not prove \`ensures\`"
        shift
    fi
    shift
done
echo "only=$count proved=$count"
STUB
    chmod +x "$kit_stub/bin/rt" "$kit_stub/bin/rattle"
    for crate in low high; do
        mkdir -p "$tried_tree/crates/$crate/src" "$tried_tree/crates/$crate/must-fail" "$tried_tree/crates/$crate/out/rlib"
        for number in $(seq 20); do
            echo "fn f$number() { body$number. }" >>"$tried_tree/crates/$crate/src/lib.rt"
            printf 'function: f%s\nfile: src/lib.rt\nold: body%s.\nnew: wrong%s.\n' "$number" "$number" "$number" \
                >"$tried_tree/crates/$crate/must-fail/edit$number.edit"
        done
    done
    build_there
}

build_there() {
    touch "$tried_tree/crates/low/out/rlib/low.rlib" "$tried_tree/crates/high/out/rlib/high.rlib"
}

# Tries wrong bodies there with these words, and puts what is said into $room/said.
try_there() {
    PATH=$kit_stub/bin:$PATH RT_JOBS=1 python3 "$tried_tree/tests/gate/wrong_bodies.py" "$@" >"$room/said" 2>&1 </dev/null
}

# Sees that a run ends with this status, tries so many wrong bodies of each crate, and counts those that stand, too.
#   tries TITLE STATUS LOW HIGH WORDS..
tries() {
    title=$1 wanted="$2 $3 $4" number=$(($3 + $4))
    shift 4
    try_there "$@"
    told="$? $(grep -c '^must-fail low/' "$room/said") $(grep -c '^must-fail high/' "$room/said")"
    if [ "$told" != "$wanted" ]; then
        fail "$title" "status and numbers are $told, not $wanted: $(tail -n 2 "$room/said" | tr '\n' ' ')"
    elif ! grep -q "^test: wrong bodies: $number of [0-9]* were tried" "$room/said"; then
        fail "$title" "it says $(grep '^test:' "$room/said")"
    else
        pass "$title"
    fi
}

# The same where a file has a line more.
#   tries_changed TITLE FILE LOW HIGH
tries_changed() {
    cp "$tried_tree/$2" "$room/kept" && echo '# more' >>"$tried_tree/$2"
    tries "$1" 0 "$3" "$4" --proved --turn 4
    cp "$room/kept" "$tried_tree/$2"
}

# Sees that these crates have a sum.
has_sums() {
    title=$1
    shift
    names=$(cut -d ' ' -f 1 "$sums_there" | tr '\n' ' ')
    if [ "$names" = "$*${*:+ }" ]; then
        pass "$title"
    else
        fail "$title" "sums of: $names"
    fi
}

# Sees that each wrong body is tried in one of ten turns, that each turn counts all, and that none tries all.
try_turns() {
    : >"$room/turns" && whole=0
    for turn in 10 11 12 3 4 5 6 7 8 9; do
        try_there --proved --turn "$turn"
        grep '^must-fail [a-z]*/' "$room/said" >>"$room/turns"
        tail -n 1 "$room/said" | grep -qx '40 passed, 0 failed' && [ "$(grep -c '^must-fail [a-z]*/' "$room/said")" -lt 20 ] && whole=$((whole + 1))
    done
    if [ "$whole $(wc -l <"$room/turns") $(sort -u "$room/turns" | wc -l)" = '10 40 40' ]; then
        pass "each wrong body has one turn of ten"
    else
        fail "each wrong body has one turn of ten" "$(sort "$room/turns" | uniq -c | awk '$1 != 1' | head -n 3)"
    fi
}

# Changes what tries the wrong bodies there by a command of sed.
plant_there() {
    sed -i "$2" "$tried_tree/tests/gate/$1"
    ! cmp -s "$tried_tree/tests/gate/$1" "tests/gate/$1" || fail "planted: $1" "nothing was changed"
}

# What is tried after sums were written, and after a change.
try_after_sums() {
    try_turns
    try_there --proved --turn 4
    due_low=$(grep -c '^must-fail low/' "$room/said") due_high=$(grep -c '^must-fail high/' "$room/said")
    tries_changed "a changed file" crates/high/src/lib.rt "$due_low" 20
    tries_changed "a changed file of a crate below" crates/low/src/lib.rt 20 20
    tries_changed "a changed wrong body" crates/low/must-fail/edit7.edit 20 "$due_high"
    tries_changed "a changed kit" kit/WHAT 20 20
    tries_changed "another name of the kit" kit/KIT-ID "$due_low" "$due_high"
    tries_changed "a changed judge" tests/gate/wrong_bodies.py 20 20
    cp "$tried_tree/crates.txt" "$room/rows" && sed -i 's/^low:/low [more]:/' "$tried_tree/crates.txt"
    tries "a changed row of a crate below" 0 20 20 --proved --turn 4
    cp "$room/rows" "$tried_tree/crates.txt"
    cp "$sums_there" "$room/sums_tried"
    sed -i "s/^high .*/high $(sed -n 's/^low //p' "$room/sums_tried")/" "$sums_there"
    tries "a sum of something else, written by hand" 0 "$due_low" 20 --proved --turn 4
    cp "$room/sums_tried" "$sums_there"
    tries "all of a crate that is named" 0 0 20 --proved high
    tries "all by a word" 0 20 20 --proved --all
}

# A crate that fails in its turn, here since the prover refuses nothing, has no sum any more.
try_failing() {
    : >"$kit_stub/bin/blind"
    tries "wrong bodies that aren't refused in their turn" 1 "$due_low" "$due_high" --proved --turn 4
    rm "$kit_stub/bin/blind"
    has_sums "so no sum stays"
    cp "$room/sums_tried" "$sums_there"
}

# The turn is the number of commits.
try_by_commits() {
    for commit in 1 2 3 4; do
        git -C "$tried_tree" -c init.defaultBranch=main init -q && git -C "$tried_tree" -c user.name=test -c user.email=test@nidzaru.example \
            commit -q --allow-empty -m "$commit"
    done
    tries "the turn by the commits" 0 "$due_low" "$due_high" --proved
    rm -rf "$tried_tree/.git"
    tries "all where there is no repository" 0 20 20 --proved
}

if ! command -v python3 >/dev/null 2>&1; then
    fail "tests/gate/tried.py" "there is no python3"
else
    lay_out_tried
    tries "all where no sum is written" 0 20 20 --proved --turn 4
    tries "all, of functions that are proved first" 0 20 20 --all --write "$sums_there"
    has_sums "sums are written" high low
    try_after_sums
    try_failing
    try_by_commits

    # The controls: sums that aren't compared, and sums that leave out the crates below.
    plant_there wrong_bodies.py 's/known.get(name) == it/name in known/'
    catches "sums that aren't compared" "status and numbers are 0 $due_low $due_high" tries_changed a crates/low/src/lib.rt 20 20
    cp tests/gate/wrong_bodies.py "$tried_tree/tests/gate/"
    plant_there tried.py 's/\[\*below\[name\], name\]/[name]/' && build_there && try_there --all --write "$sums_there"
    catches "sums without the crates below" "status and numbers are 0 20 $due_high" tries_changed a crates/low/src/lib.rt 20 20
    cp tests/gate/tried.py "$tried_tree/tests/gate/"

    # (what isn't refused, is older or isn't there)
    sed -i 's/^new: .*/new: right7./' "$tried_tree/crates/high/must-fail/edit7.edit"
    tries "a wrong body that isn't refused" 1 20 20 --all --write "$sums_there"
    has_sums "no sum of its crate is written" low
    tries "so its crate is tried again" 1 "$due_low" 20 --proved --turn 4
    sed -i 's/^new: .*/new: wrong7./' "$tried_tree/crates/high/must-fail/edit7.edit"
    touch -d '1 hour' "$tried_tree/crates/low/src/lib.rt"
    tries "all over a library that is older than its sources" 0 20 20 --all --write "$sums_there"
    has_sums "no sum is written over such a library" low
    tries "no sum goes if it isn't that crate's turn" 0 "$due_low" 20 --proved --turn 4 --write "$sums_there"
    has_sums "that of a crate that stands" low
    rm "$tried_tree"/crates/*/must-fail/*.edit
    tries "no wrong body at all" 1 0 0 --all
fi
