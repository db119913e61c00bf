# The order of a register's accesses: all runs of a few calls in the orders that 64-bit ARM leaves open, none torn or older than the one
# before; and the same with one access made weaker, where it has to be seen.

# Runs the model, and compares what it found. `none` wants no torn and no older read, `torn` and `older` at least one.
#   explores TITLE WANTED WORDS..
explores() {
    title=$1 wanted=$2
    shift 2
    if ! "$room/orders" "$@" >"$room/said" 2>&1; then
        fail "$title" "$(tail -n 1 "$room/said")"
        return
    fi
    case $wanted in
    none) pattern='[1-9][0-9]* states: torn 0, older 0' ;;
    torn) pattern='.*: torn [1-9][0-9]*, older [0-9]*' ;;
    older) pattern='.*: torn 0, older [1-9][0-9]*' ;;
    esac
    if grep -qx "$pattern" "$room/said"; then
        pass "$title: $(cat "$room/said")"
    else
        fail "$title" "$(cat "$room/said")"
    fi
}

if ! c++ -std=c++17 -O2 -Wall -Wextra -Werror tests/library/orders.cpp -o "$room/orders" >"$room/built" 2>&1; then
    fail "tests/library/orders.cpp" "it wasn't built: $(head -n 3 "$room/built" | tr '\n' ' ')"
else
    explores "four slots: ldar, stlr" none four 4 4
    explores "a triple buffer that swaps by ldaxr and stlxr" none triple-pair 4 3
    explores "a triple buffer that swaps by swpal" none triple-swap 4 3
    # W and R are the steps of docs/FOURSLOT.md
    explores "planted: W1 loads by ldapr" torn four 3 3 W1
    explores "planted: W4 stores by str" torn four 3 3 W4
    explores "planted: W5 stores by str" older four 3 3 W5
    explores "planted: R2 stores by str" torn four 3 3 R2
    explores "planted: R3 loads by ldapr" torn four 3 3 R3
    explores "planted: a swap by ldaxr and stxr" torn triple-pair 3 2 release
    explores "planted: a swap by swpa" torn triple-swap 3 2 release
    # (the accesses that follow these need the loaded value, so their strength adds nothing)
    explores "R1 loads by ldr" none four 4 4 R1
    explores "a read's look at the word by ldr" none triple-pair 4 3 look
    explores "a swap by ldxr and stlxr" none triple-pair 4 3 acquire
    catches "a torn read that isn't wanted" 'torn [1-9]' explores a none four 3 3 W4
    catches "no torn read where one is wanted" 'torn 0' explores a torn four 3 3
fi
