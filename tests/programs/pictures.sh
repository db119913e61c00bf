# Pictures: those of docs/pictures against what `picture` draws of the documents of examples/ with their names; that the picture of
# every report is well-formed XML, by python3's parser on some hundreds of documents; and each request for memory refused in turn.

for file in docs/pictures/*.svg; do
    name=${file##*/}
    sees "$file" picture "examples/${name%.svg}.json" "$file"
done

# What has no picture: the status and the line are those of `fsr`, under the name of the program.
for name in no_limit too_many_steps written_twice; do
    sed 's/^fsr: /picture: /' "examples/$name.txt" >"$room/wanted_line"
    sees "picture < examples/$name.json" picture "examples/$name.json" "$room/wanted_line"
done

if ! command -v python3 >/dev/null 2>&1; then
    fail "pictures are well-formed XML" "there is no python3"
elif python3 tests/programs/pictures.py "$built/picture/out/picture" examples/*.json >"$room/out" 2>&1; then
    pass "pictures are well-formed XML ($(tail -n 1 "$room/out"))"
else
    fail "pictures are well-formed XML" "$(tail -n 1 "$room/out")"
fi

# The controls: another document's picture, and pictures that aren't well-formed or lack a bar.
catches "another picture" "something else than docs/pictures/unlawful.svg" sees a picture examples/lawful.json docs/pictures/unlawful.svg
catches_picture() {
    make_stub picture
    if python3 tests/programs/pictures.py "$room/stubs/picture/out/picture" examples/lawful.json >"$room/out" 2>&1 || ! grep -q "$2" "$room/out"; then
        fail "planted: $1" "it isn't seen: $(tail -n 1 "$room/out")"
    else
        pass "planted: $1"
    fi
}
catches_picture "a picture that isn't well-formed" ParseError <<'STUB'
cat >/dev/null; echo '<svg xmlns="http://www.w3.org/2000/svg"><g></svg>'
STUB
catches_picture "a picture without bars" "not a bar for each operation" <<'STUB'
cat >/dev/null; echo '<svg xmlns="http://www.w3.org/2000/svg"></svg>'
STUB

. tests/programs/refused.sh
if [ -z "$compiler" ] || ! make_refusing; then
    fail "pictures with memory refused" "tests/programs/refuse.c wasn't compiled"
else
    : >"$room/wanted_line"
    for name in lawful found_order crossed cell matrix board; do
        "$built/picture/out/picture" <"examples/$name.json" >"$room/wanted" 2>/dev/null
        wanted_status=0
        [ -f "examples/$name.status" ] && wanted_status=$(cat "examples/$name.status")
        refuse_each picture "examples/$name.json"
    done
fi
