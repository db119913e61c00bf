# The map of the crates and the numbers of the page on testing have to be those of the repository, and the names of definitions one thing's.
for script in tests/gate/map.py tests/docs/numbers.py tests/gate/names.py; do
    if ! command -v python3 >/dev/null 2>&1; then
        fail "$script" "there is no python3"
    elif python3 "$script" >"$room/out" 2>&1; then
        pass "$script: $(cat "$room/out")"
    else
        fail "$script" "$(cat "$room/out")"
    fi
done

# The controls: a graph that isn't that of the crates, crates without a heading, another number of wrong bodies, a second definition of a
# name.
if command -v python3 >/dev/null 2>&1; then
    catches_in_tree "another graph of the crates" "isn't the map of the crates" docs/dev/MAP.md 's/^graph TD/graph LR/' python3 tests/gate/map.py
    catches_in_tree "crates without a heading" "crates.txt has no heading above history_core" crates.txt 1d python3 tests/gate/map.py
    catches_in_tree "a crate that the picture of the parts alone has" "names board_life, which is no crate" docs/architecture.svg \
        's/board_live/board_life/' python3 tests/gate/map.py
    catches_in_tree "another number of wrong bodies" "other numbers than there are" docs/dev/TESTING.md \
        's/^\([0-9]* crates, \)[0-9]* wrong bodies/\1400 wrong bodies/' python3 tests/docs/numbers.py
    catches_in_tree "a name of two things" "IsVerdict is defined by" crates/matrix_core/specs/Stamps.antt \
        's/^abbrev pub IsBelow /abbrev pub IsVerdict /' python3 tests/gate/names.py
fi
