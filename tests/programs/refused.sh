# What tests of refused memory share: each request of a program is refused in turn by a malloc that is loaded before the C library's
# (refuse.c).

compiler=
for name in "${CC:-cc}" gcc clang; do
    if command -v "$name" >/dev/null 2>&1; then
        compiler=$name
        break
    fi
done

# Whether a run ended as one without memory does: `fsr` by its status and the line on standard error (a thread without memory can't start),
# `test_growths` by its answer.
is_refusal() {
    case $1 in
    fsr) [ ! -s "$room/out" ] && case "$status $words: $(cat "$room/err")" in
        4*": fsr: out of memory") ;;
        "6 race: fsr: a thread can't start") ;;
        *) false ;;
        esac ;;
    picture) [ "$status" = 4 ] && [ ! -s "$room/out" ] && [ "$(cat "$room/err")" = "picture: out of memory" ] ;;
    test_growths) [ "$status" = 0 ] && [ "$(cat "$room/out")" = "out of memory" ] && [ ! -s "$room/err" ] ;;
    esac
}

# Runs a program on an input, with these words, with each of its requests refused in turn. What is wanted with ample memory:
# the file `wanted` on standard output, `wanted_line` on standard error, and the status in $wanted_status.
refuse_each() {
    program=$1 input=$2
    shift 2
    words=$*
    title="$program $* < $input with each request for memory refused"
    if ! has_program "$program"; then
        fail "$title" "$program wasn't built"
        return
    fi
    request=0
    refusals=0
    while :; do
        request=$((request + 1))
        rm -f "$room/met" "$room/left"
        REFUSE=$request REFUSE_MARK=$room/met REFUSE_LEFT=$room/left LD_PRELOAD=$room/refuse.so \
            "$built/$program/out/$program" "$@" <"$input" >"$room/out" 2>"$room/err"
        status=$?
        # What a thread of the C library was given stays with the library.
        if [ "$program" = test_growths ] && [ "$1" != run_tasks ] && [ "$1" != finish_lanes ] && [ -e "$room/left" ]; then
            fail "$title" "at request $request it ended and had memory that it didn't give back"
            return
        fi
        if [ "$status" = "$wanted_status" ] && cmp -s "$room/out" "$room/wanted" && cmp -s "$room/err" "$room/wanted_line"; then
            [ -e "$room/met" ] && continue
            break
        fi
        if [ ! -e "$room/met" ]; then
            fail "$title" "with ample memory it ended with status $status and another answer"
            return
        fi
        if ! is_refusal "$program"; then
            fail "$title" "at request $request it ended with status $status: $(head -c 200 "$room/out" "$room/err")"
            return
        fi
        refusals=$((refusals + 1))
    done
    if [ "$refusals" = 0 ]; then
        fail "$title" "no request was refused"
    else
        pass "$title ($((request - 1)) requests)"
    fi
}

# Compiles what refuses requests, where that isn't done.
make_refusing() {
    [ -e "$room/refuse.so" ] || "$compiler" -O1 -shared -fPIC -o "$room/refuse.so" tests/programs/refuse.c -ldl
}
