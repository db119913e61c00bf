# Refused growth: each request for memory of a program is refused in turn by a malloc that is loaded before the C library's
# (refuse.c), until a run meets no refusal. Each run ends as with ample memory, or says that there is no memory and prints
# nothing besides. `test_growths` gives back all memory that it took, however its call ended.

. tests/programs/refused.sh

# Makes a program that takes two blocks, gives back those that it got, and tells `made`, or `out of memory` if one is refused. It ends by
# `_exit`, as the programs of the repository do.
#   make_growths FLAG      with this fault, or GOOD
make_growths() {
    mkdir -p "$room/stubs/test_growths/out" && "$compiler" -D"$1" -x c - -o "$room/stubs/test_growths/out/test_growths" <<'GROWTHS'
#include <stdlib.h>
#include <string.h>
#include <unistd.h>
int main(void) {
    const char *told = "made\n";
#ifndef TAKES_NONE
    char *volatile first = malloc(64);
    char *volatile second = first ? malloc(64) : NULL;
#ifndef TELLS_NOTHING
    if (!second) told = "out of memory\n";
#endif
#ifdef TELLS_OTHERWISE
    if (!second) told = "memory\n";
#endif
#ifdef KEEPS_FIRST
    if (second)
#endif
        free(first);
    free(second);
#endif
    _exit(write(1, told, strlen(told)) < 0);
}
GROWTHS
}

# Refuses each request of the program with this fault.
refuse_growths() {
    make_growths "$1" && over_stubs refuse_each test_growths /dev/null planted
}

# The controls: programs that keep memory when they are refused some, tell nothing of it or something else, or ask for none; another answer.
test_refusing() {
    wanted_status=0
    : >"$room/wanted_line"
    echo made >"$room/wanted"
    refuse_growths GOOD
    catches "a block that isn't given back" "at request 2 it ended and had memory" refuse_growths KEEPS_FIRST
    catches "a refusal that is told otherwise" "at request 1 it ended with status 0" refuse_growths TELLS_OTHERWISE
    catches "a refusal that isn't told" "no request was refused" refuse_growths TELLS_NOTHING
    catches "a program that asks for no memory" "no request was refused" refuse_growths TAKES_NONE
    echo 'made more' >"$room/wanted"
    catches "another answer" "with ample memory it ended with status 0" refuse_growths GOOD
}

if [ -z "$compiler" ]; then
    fail "refused growth" "there is no C compiler"
elif ! make_refusing; then
    fail "refused growth" "tests/programs/refuse.c wasn't compiled"
else
    wanted_status=0
    : >"$room/wanted_line"
    for name in lawful found_order cell matrix refused_write terms board race; do
        document=examples/$name.json
        cp "examples/$name.txt" "$room/wanted"
        refuse_each fsr "$document" "$(command_for "$document")"
    done
    # A log without a lawful order.
    wanted_status=1
    cp examples/crossed.txt "$room/wanted"
    refuse_each fsr examples/crossed.json order
    # Refused documents: the status is that of the line that is told.
    : >"$room/wanted"
    for name in no_limit written_twice too_many_steps; do
        document=examples/$name.json
        wanted_status=$(cat "examples/$name.status")
        cp "examples/$name.txt" "$room/wanted_line"
        refuse_each fsr "$document" "$(command_for "$document")"
    done
    wanted_status=0
    : >"$room/wanted_line"
    for wanted in tests/programs/growths/*.txt; do
        name=${wanted##*/}
        name=${name%.txt}
        cp "$wanted" "$room/wanted"
        refuse_each test_growths /dev/null "${name%.*}" "${name#*.}"
        echo "$((request - 1))" >"$room/requests.$name"
        echo "$refusals" >"$room/refusals.$name"
    done
    for cell in four_slots triple; do
        alone=$(cat "$room/requests.new_board.2_$cell")
        title="write, tell, learn, read and finish on a board over $cell take no memory"
        if [ "$alone" -gt 0 ] && [ "$alone" = "$(cat "$room/requests.tell_and_learn.$cell")" ]; then
            pass "$title"
        else
            fail "$title" "with them there aren't as many requests as for the board alone, $alone"
        fi
        # The first board takes its memory, and then the second one, of which no refusal may be seen.
        title="a board over $cell that wasn't made leaves the others and their records as they were"
        if [ "$(cat "$room/refusals.renew_board.$cell")" -gt "$alone" ] &&
            [ "$(cat "$room/refusals.renew_board_again.$cell")" -le "$alone" ] &&
            [ "$(cat "$room/refusals.new_board_beside.$cell")" -le "$alone" ]; then
            pass "$title"
        else
            fail "$title" "a refusal beyond the $alone requests of the first board is seen"
        fi
    done
    test_refusing
fi
