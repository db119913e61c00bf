# Each document of examples/ (NAME.json, or NAME.jsonl of a log in lines), tests/programs/schedules/ and tests/programs/races/ against the
# text that it prints, NAME.txt (of a refused one the line on standard error), and the status that is wanted, NAME.status (none: 0). The
# smaller programs print the same.

for document in examples/*.json examples/*.jsonl tests/programs/schedules/*.json tests/programs/races/*.json; do
    command=$(command_for "$document")
    small=fsr_${command#order --}
    sees "$document" fsr "$document" "${document%.json*}.txt" $command
    [ "$command" = race ] || sees "$document, by $small" "$small" "$document" "${document%.json*}.txt"
done

# The controls: the first document beside another's text, with a status that it hasn't, and with more on the other stream.
catches "another document's text" "something else than examples/found_order.txt" \
    sees a fsr examples/lawful.json examples/found_order.txt check
cp examples/lawful.json "$room/other.json" && echo 1 >"$room/other.status"
catches "another status" "status 0 and not 1" sees a fsr "$room/other.json" examples/lawful.txt check
make_stub fsr <<'STUB'
cat >/dev/null; cat examples/lawful.txt; echo more >&2
STUB
catches "a line more on standard error" "it printed more" over_stubs sees a fsr examples/lawful.json examples/lawful.txt check
catches "a program that isn't there" "wasn't built" over_stubs sees a no_program examples/lawful.json examples/lawful.txt
