# The library that answers documents in memory: its header for C and C++, and the module for Python over it.

header=c/nidzaru_check.h
for compiler in 'gcc -xc -std=c99' 'g++ -xc++ -std=c++11'; do
    title="$header by ${compiler%% *}"
    if ! command -v "${compiler%% *}" >/dev/null 2>&1; then
        fail "$title" "there is no ${compiler%% *}"
    elif $compiler -pedantic -Wall -Wextra -Werror -fsyntax-only "$header" 2>"$room/out"; then
        pass "$title"
    else
        fail "$title" "$(head -c 300 "$room/out")"
    fi
done

# Whether what is tried answers the documents of examples/ with the texts beside them, and not with those of others.
#   answers_in_memory TITLE WORDS..
answers_in_memory() {
    title=$1
    shift
    if python3 tests/library/in_memory.py "$@" >"$room/out" 2>&1; then
        pass "$title: $(tail -n 1 "$room/out")"
    else
        fail "$title" "$(tail -n 3 "$room/out" | tr '\n' ' ')"
    fi
    # (planted: the text of another document)
    if python3 tests/library/in_memory.py "$@" --planted >"$room/out" 2>&1 || ! grep -q "is answered otherwise" "$room/out"; then
        fail "planted: the text of another document, $title" "it isn't seen: $(tail -n 3 "$room/out" | tr '\n' ' ')"
    else
        pass "planted: the text of another document, $title"
    fi
}

over_gate=
[ ! -d crates/memory_answers/out/rlib ] || over_gate=--over-gate
if ! command -v python3 >/dev/null 2>&1; then
    fail "documents in memory" "there is no python3"
elif ! python/build $over_gate "$room/libnidzaru_check.so" >"$room/out" 2>&1; then
    fail "documents in memory" "the library isn't built: $(tail -n 2 "$room/out")"
else
    answers_in_memory "documents in memory, by Python" "$room/libnidzaru_check.so"
    for compiler in 'gcc -xc -std=c99' 'g++ -xc++ -std=c++11'; do
        title="documents in memory, by ${compiler%% *}"
        # (-xnone: what follows isn't in that language)
        if ! $compiler -pedantic -Wall -Wextra -Werror -O1 -o "$room/in_memory" tests/library/in_memory.c -xnone \
            crates/check_exports/out/libcheck_exports.a "$(dirname -- "$(rt doc)")/c/liblibc_c.a" >"$room/out" 2>&1; then
            fail "$title" "it isn't compiled: $(head -c 300 "$room/out")"
        else
            answers_in_memory "$title" --program "$room/in_memory"
        fi
    done
fi
