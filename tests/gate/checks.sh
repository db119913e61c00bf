# The controls of tests/gate/checks.py, which compares how many checks each script makes with docs/dev/TESTING.md and looks at how they are
# run: a script that wasn't run, one without a check or with another number, a line `run NAME` that is gone, a script that nobody runs, and
# two functions of one name. Before them those of how `./test` counts: its own checks, what another script says of its sums, the gate
# and the library.

compares_numbers() {
    python3 tests/gate/checks.py --top "$PWD" "$room/numbers"
}

# Compares a run's numbers with those of another tree.
compares_in() {
    if python3 tests/gate/checks.py --top "$1" "$room/numbers" >"$room/out" 2>&1; then
        pass "the numbers of a tree with other tools"
    else
        fail "the numbers of a tree" "$(cat "$room/out")"
    fi
}

# Sees that a run is refused whose numbers were changed by a command of sed, and why.
#   catches_number TITLE SAID SED
catches_number() {
    stated_numbers | sed "$3" >"$room/numbers"
    if compares_numbers >"$room/out" 2>&1; then
        fail "planted: $1" "it isn't seen"
    elif ! grep -qx "$2" "$room/out"; then
        fail "planted: $1" "another reason: $(cat "$room/out")"
    else
        pass "planted: $1"
    fi
}

# The counts, and the control of a control: one that is seen, one that isn't, one that passes and says the same, one that fails twice and one
# that is refused for another reason. (What doesn't count can't be told by `fail`.)
told=$(
    passed=0 failed=0
    fail_twice() {
        fail a said
        fail a said
    }
    {
        pass a && fail a said && catches a said fail a said && catches a said pass a
        catches a ok pass a
        catches a said fail_twice
        catches a other fail a said
    } >/dev/null
    echo "$passed $failed"
)
if [ "$told" = '2 5' ]; then
    pass "planted: passes, failures and controls are counted"
else
    echo "test: planted: passes, failures and controls are counted: FAILED: $told"
    failed=$((failed + 1))
fi

# A control over a copy of the tree: the command sees the change, and what sees none, changes nothing or says another reason is a failure.
told=$(
    passed=0 failed=0
    {
        catches_in_tree a said HANDLES '$a more' sh -c 'grep -qx more HANDLES && echo said; exit 1'
        catches_in_tree a said HANDLES 's/no such text//' sh -c 'echo said; exit 1'
        catches_in_tree a said HANDLES '$a more' echo said
        catches_in_tree a other HANDLES '$a more' sh -c 'echo said; exit 1'
    } >/dev/null
    echo "$passed $failed"
)
if [ "$told" = '1 3' ] && cmp -s HANDLES "$room/tree/HANDLES"; then
    pass "planted: controls over a copy of the tree are counted"
else
    fail "planted: controls over a copy of the tree are counted" "$told"
fi

# The gate's sums and those of the wrong bodies are theirs, and noted.
told=$(
    mkdir "$room/gate_sums" && room=$room/gate_sums passed=1 failed=1
    counted=$room/counted
    run_gate() {
        echo '5 passed, 3 failed'
    }
    python3() {
        echo "$*" >"$room/words"
        echo '7 passed, 4 failed'
    }
    {
        try_gate
        try_wrong_bodies --a b
    } >/dev/null
    echo "$passed $failed $(tr '\n' ' ' <"$counted")$(cat "$room/words")"
)
if [ "$told" = '13 8 rt ci 10 tests/gate/wrong_bodies.py 11 tests/gate/wrong_bodies.py --a b' ]; then
    pass "planted: the failures of the gate and of the wrong bodies are counted"
else
    fail "planted: the failures of the gate and of the wrong bodies are counted" "$told"
fi

# What the gate built is no newer than the gate's beginning.
told=$(
    room=$room/edited
    mkdir -p "$room/tree/crates/x/src" && cd "$room/tree" && echo 'x:' >crates.txt && echo old >crates/x/src/main.rt || exit
    rt() {
        echo new >"$room/tree/crates/x/src/main.rt"
        mkdir crates/x/out && cp crates/x/src/main.rt crates/x/out/x
    }
    run_gate
    cat crates/x/out/x
    [ crates/x/out/x -nt crates/x/src/main.rt ] || echo stale
)
if [ "$told" = "$(printf 'old\nstale')" ]; then
    pass "planted: an edit during the gate is seen"
else
    fail "planted: an edit during the gate is seen" "$told"
fi

# Another script's sums are taken over, its failures too, and a script without sums is a failure; with each its checks are noted.
told=$(
    room=$room/sums passed=1 failed=1
    counted=$room/counted
    {
        mkdir "$room" && run_apart sh -c 'echo said; echo "5 passed, 3 failed"'
        run_apart sh -c 'echo "5 passed, none failed"'
        run_apart true
    } >/dev/null
    echo "$passed $failed $(tr '\n' ' ' <"$counted")"
)
if [ "$told" = '6 6 sh 8 sh 1 true 1 ' ]; then
    pass "planted: another script's failures are counted"
else
    fail "planted: another script's failures are counted" "$told"
fi

# What a script leaves behind no other one has, and one that ends early is a failure.
told=$(
    mkdir "$room/runs" && room=$room/runs passed=1 failed=1
    counted=$room/counted
    printf 'left=behind\npass() {\n    :\n}\nfail a said\n' >"$room/first"
    printf '[ -n "${left:-}" ] || pass a\n' >"$room/second"
    printf 'pass a\nexit\n' >"$room/third"
    for script in first second third; do
        run "$room/$script"
    done >/dev/null
    echo "$passed $failed $(sed 's|.*/||' "$counted" | tr '\n' ' ')"
)
if [ "$told" = '2 3 first 1 second 1 third 1 ' ]; then
    pass "planted: each script has a shell of its own"
else
    fail "planted: each script has a shell of its own" "$told"
fi

# Of scripts that are named together each is run, those that run apart in their own way.
told=$(
    run() {
        echo "$1"
    }
    run_apart() {
        echo "apart $1"
    }
    run_each tests/library/shared.sh tests/gate/map.sh tests/arm.sh tests/programs/words.sh | tr '\n' ' '
)
if [ "$told" = 'apart tests/library/shared.sh tests/gate/map.sh apart tests/arm.sh tests/programs/words.sh ' ]; then
    pass "planted: each script that is named is run"
else
    fail "planted: each script that is named is run" "$told"
fi

# The library counts as proved if both builds pass, each prover's last line has no other word, and the second machine's verdict is of the
# first one's proofs.
told=$(
    trusted='native=nat,char,string logic-built=trusted libraries-built=trusted statements=trusted incremental=trusted'
    more='' more_again='' functions='' sum='' anew='' unbuilt='' unbuilt_again=''
    build_over_gate() {
        case $1 in
        x86_64)
            echo "crate c_exports: modules loaded=0 checked=9" >&2
            echo "logic=proved functions=7 axioms=3 target=x86_64-unknown-linux-gnu cpu=x86-64-v2 sum=1f $trusted$more" >&2
            ;;
        *)
            echo "crate c_exports: modules loaded=$((9 - ${anew:-0})) checked=${anew:-0}" >&2
            echo "logic=proved functions=${functions:-7} axioms=3 target=aarch64-unknown-linux-gnu sum=${sum:-1f} $trusted$more_again" >&2
            return ${unbuilt_again:-0}
            ;;
        esac
        return ${unbuilt:-0}
    }
    tries() {
        eval "$1"
        if prove_library >/dev/null; then printf 'yes '; else printf 'no '; fi
        eval "$2"
    }
    tries : :
    tries 'more=" may=wait"' more=
    tries 'more_again=" may=wait"' more_again=
    tries unbuilt=1 unbuilt=
    tries unbuilt_again=1 unbuilt_again=
    tries functions=6 functions=
    tries sum=2e sum=
    tries anew=1 anew=
)
if [ "$told" = 'yes no no no no no no no ' ]; then
    pass "planted: a library that isn't proved whole, or for one machine alone"
else
    fail "planted: a library that isn't proved whole, or for one machine alone" "$told"
fi

if ! command -v python3 >/dev/null 2>&1; then
    fail "tests/gate/checks.py" "there is no python3"
else
    # (what ./test tells of a commit is what ./package takes for all of it, and not if the tree has changed meanwhile)
    told=$(
        counted=$room/all_counts
        commit_here() {
            echo abc
        }
        stated_numbers >"$counted"
        for began_with in abc another; do
            {
                sed 's/\(.*\) \([0-9]*\)$/test: \1: \2 checks/' "$counted"
                echo "test: wrong bodies: 7 of $(sed -n 's/.*wrong_bodies.py //p' "$counted") were tried, and 5 stand by their sums in a file"
                tell_whole "$began_with"
                awk '{ sum += $NF } END { print sum + 1 " passed, 0 failed" }' "$counted"
            } >"$room/all_log"
            python3 tests/gate/checks.py --commit abc "$room/all_log" >"$room/out" 2>&1 && printf 'taken ' || printf 'refused '
        done
    )
    if [ "$told" = 'taken refused ' ]; then
        pass "the log of all of ./test is taken for that"
    else
        fail "the log of all of ./test is taken for that" "$told: $(cat "$room/out")"
    fi
    stated_numbers >"$room/numbers"
    if compares_numbers >"$room/out" 2>&1; then
        pass "the numbers as they are stated: $(cat "$room/out")"
    else
        fail "the numbers as they are stated" "$(cat "$room/out")"
    fi
    catches_number "a script that wasn't run" "tests/gate/sources.sh wasn't run" '/^tests\/gate\/sources.sh /d'
    catches_number "a script without a check" "tests/programs/races.sh made no check" 's/^\(tests\/programs\/races.sh\) .*/\1 0/'
    # (on a machine without tools a script may check nothing that needs one for all that it checks, and no other script)
    mkdir "$room/few" && ln -s "$(python3 -c 'import sys; print(sys.executable)')" "$room/few/python3"
    stated_numbers | sed 's/^\(tests\/arm.sh\|tests\/docs\/stepper.sh\) .*/\1 0/' >"$room/numbers"
    if ! (PATH=$room/few compares_numbers) >"$room/out" 2>&1; then
        fail "a script without a check for want of tools" "$(cat "$room/out")"
    elif sed -i 's/^\(tests\/library\/orders.sh\) .*/\1 0/' "$room/numbers" && (PATH=$room/few compares_numbers) >"$room/out" 2>&1; then
        fail "a script without a check for want of tools" "another one isn't seen"
    elif [ "$(cat "$room/out")" = "tests/library/orders.sh made no check" ]; then
        pass "planted: a script without a check for want of tools"
    else
        fail "a script without a check for want of tools" "$(cat "$room/out")"
    fi
    catches_number "a check too few" "tests/docs/release.sh made 3 checks, and docs/dev/TESTING.md says [0-9]*" \
        's/^\(tests\/docs\/release.sh\) .*/\1 3/'
    catches_number "wrong bodies that weren't tried" "tests/gate/wrong_bodies.py made 7 checks, and docs/dev/TESTING.md says [0-9]*" \
        's/^\(tests\/gate\/wrong_bodies.py\) .*/\1 7/'
    catches_number "a library that nothing proved" "c_exports wasn't run" '/^c_exports /d'
    catches_number "a script that isn't in the table" "tests/gate/more.sh isn't in the table of docs/dev/TESTING.md" '$a tests/gate/more.sh 5'
    run_counted=$counted counted=$room/numbers
    stated_numbers | sed '/^tests\/gate\/sources.sh /d' >"$counted"
    catches "a run with other numbers of checks" "tests/gate/sources.sh wasn't run" compare_checks
    counted=$run_counted
    stated_numbers >"$room/numbers"
    # (a table that was counted with the tools that are here, and one that wasn't)
    make_tree
    stated_numbers | sed 's/\(.*\) \([0-9]*\)$/test: \1: \2 checks/' >"$room/told"
    python3 tests/gate/checks.py --top "$tree" --write "$room/told"
    stated_numbers | sed 's/^\(tests\/library\/[a-z]*.sh\) .*/\1 7/' >"$room/numbers"
    for script in c package; do
        catches "another number of a script with tools, $script.sh" "tests/library/$script.sh made 7 checks" compares_in "$tree"
    done
    stated_numbers | sed 's/^\(tests\/library\/c.sh\) .*/\1 7/' >"$room/numbers"
    sed -i 's/^Counted with .*:$/Counted with none, without none:/' "$tree/docs/dev/TESTING.md"
    compares_in "$tree"
    cp docs/dev/TESTING.md "$tree/docs/dev/TESTING.md"
    stated_numbers >"$room/numbers"
    catches_in_tree "numbers that ./test doesn't compare" "./test doesn't end with the comparison" test \
        '/^run_all() {$/,/^}$/{/^    compare_checks$/d}' python3 tests/gate/checks.py --top . "$room/numbers"
    catches_in_tree "a gate that isn't counted" "./test doesn't begin with" test 's/^    try_gate$/    passed=82/' \
        python3 tests/gate/checks.py --top . "$room/numbers"
    catches_in_tree "the wrong bodies of one crate alone" "./test doesn't begin with" test 's/^    try_wrong_bodies --proved .*/& stamps/' \
        python3 tests/gate/checks.py --top . "$room/numbers"
    if (cd "$tree" && ./test tests/docs/release.sh) >"$room/out" 2>&1; then
        pass "./test ends with 0"
    else
        fail "./test ends with 0" "$(tail -n 3 "$room/out" | tr '\n' ' ')"
    fi
    catches_in_tree "./test with a failure" "planted: FAILED: it" tests/docs/release.sh '$a fail planted it' ./test tests/docs/release.sh
    for script in tests/programs/words.sh tests/programs/growth.sh; do
        catches_in_tree "$script isn't run any more" "./test doesn't run $script" test "\\|^    run $script\$|d" \
            python3 tests/gate/checks.py --top . "$room/numbers"
    done
    catches_in_tree "a second function of a name" "sees() is defined in tests/gate/outcomes.sh and tests/library/package.sh" tests/library/package.sh \
        '$a sees() {\n    true\n}' python3 tests/gate/checks.py --top . "$room/numbers"
    catches_in_tree "the same in a file that a script reads" "version_of_header() is defined in build/library.sh and tests/docs/release.sh" \
        tests/docs/release.sh 's/^version_of_tree() {/version_of_header() {/' python3 tests/gate/checks.py --top . "$room/numbers"
fi
