"""By hand: faults planted in the tests themselves, each of which a test has to notice.

    tools/sabotages.py [--prefix PREFIX] [WORD..]      with words those alone whose names or tests have one of them
    tools/sabotages.py --fit                           only whether each edit's old text stands once in its file

Each row is an edit of one file in a copy of the repository, over what is built here. The script below which it stands has to fail then, and
passes over the copy as it is; recorder.sh makes all its checks only with the PREFIX of an installed library. An edit's old text stands once in
its file; blanks match any others. What can't be run, since a program or a tool isn't there, is told. The last line is the sums.
"""

import argparse
import os
import re
import shutil
import subprocess
import sys
import tempfile

TOP = os.path.dirname(os.path.dirname(os.path.realpath(__file__)))
OUTCOMES, CHECKS, TEST = "tests/gate/outcomes.sh", "tests/gate/checks.py", "test"
REFUSALS, DOCUMENTS, EXAMPLES = "tests/programs/refusals.sh", "tests/programs/documents.sh", "tests/programs/examples.sh"
SWEEPS = "tests/programs/reference/sweeps.py"
CONVERTERS, RECORDER, COMPARE = "tests/programs/converters.py", "tests/programs/recorder.sh", "tests/programs/reference/compare.py"
FAILED = "failed=$((failed + 1))"
# The installed library for recorder.sh, if there is one.
PREFIX = []
DOCUMENT_LIST = "for document in examples/*.json examples/*.jsonl tests/programs/schedules/*.json tests/programs/races/*.json; do"
ONCE_IN_TREE = 'if cmp -s "$file" "$tree/$file"; then'
WORDS_RUN = "run tests/programs/words.sh run tests/programs/refusals.sh"
IS_ALIKE = "is_alike = all((it in had) == (it in here) and it in had | lacked for it in tools)"
BODIES = 'try_wrong_bodies --proved $every_body --write out/tried.txt --beside "$library"'

# By the script that notices: what is planted, in which file, the old text and the new one.
ROWS = {
    "tests/gate/checks.sh": [
        ("fail counts nothing", OUTCOMES, FAILED, ":"),
        ("a failure is a pass", OUTCOMES, FAILED, "passed=$((passed + 1))"),
        ("a control for any reason", OUTCOMES, 'elif ! grep -q -e "$control_said" "$room/caught"; then', "elif false; then"),
        ("a control by any sums", OUTCOMES, """if [ "$tally" != '0 passed, 1 failed' ]; then""", "if false; then"),
        ("a control over the tree that always passes", OUTCOMES, "catches_in_tree() {", 'catches_in_tree() { pass "planted: $1"; return'),
        ("an edit of the tree that changes nothing", OUTCOMES, ONCE_IN_TREE, "if false; then"),
        ("another script's failures are forgotten", OUTCOMES, "passed=$((passed + more_passed)) failed=$((failed + more_failed))",
         "passed=$((passed + more_passed))"),
        ("a library by the status of its build alone", "build/library.sh", '&& is_verdict aarch64 "$told_again"', ""),
        ("numbers that aren't compared", CHECKS, "elif is_alike and counted[name] != numbers[name]:", "elif False:"),
        ("a script that wasn't run", CHECKS, "for name in counted if only else {**numbers, **counted}:", "for name in counted:"),
        ("a script without a check", CHECKS, "elif counted[name] == 0 and not (name in OPTIONAL and {*tools} - {*here}):", "elif False:"),
        ("scripts with tools aren't compared", CHECKS, IS_ALIKE, "is_alike = not tools"),
        ("numbers that are written", TEST, 'checks.py "$@" "$counted" >', 'checks.py --write "$counted" >'),
        ("no comparison at the end", TEST, "run tests/gate/checks.sh compare_checks }", "run tests/gate/checks.sh\n}"),
        ("a test that ends with 0", TEST, '[ "$failed" = 0 ] && [ "$passed" -gt 0 ]', "true"),
        ("other sums for the gate's", TEST, "try_gate begin_library", "passed=82\n    begin_library"),
        ("the wrong bodies of one crate more", TEST, BODIES, f"{BODIES} stamps"),
        ("a script in a comment", TEST, WORDS_RUN, "# run tests/programs/words.sh\n    run tests/programs/refusals.sh"),
        ("a script behind two blanks", TEST, WORDS_RUN, "run  tests/programs/words.sh\n    run tests/programs/refusals.sh"),
        ("scripts in one shell", TEST, '( passed=0 failed=0 . "$1" echo "$passed passed, $failed failed" >"$room/own_sums" )',
         '. "$1"\n    echo "$((passed + failed - checks_before)) passed, 0 failed" >"$room/own_sums"\n    passed=$checks_before failed=0'),
    ],
    "tests/gate/tried.sh": [("wrong bodies of no crate", "tests/gate/wrong_bodies.py", "failed += not total", "")],
    "tests/programs/sweeps.sh": [
        ("a sweep's answers aren't compared", SWEEPS, "if why:", "if False:"),
        ("configurations aren't counted", SWEEPS, "return None if most > budget else", "return None if most + 99 > budget else"),
        ("the same answer for all logs", SWEEPS, "for it, answer in zip(logs, said):", "for it, answer in zip(logs[:1], said):"),
    ],
    "tests/programs/examples.sh": [
        ("texts aren't compared", OUTCOMES, 'elif ! cmp -s "$room/$told" "$wanted"; then', "elif false; then"),
        ("a status isn't looked at", OUTCOMES, 'if [ "$status" != "$wanted_status" ]; then', "if false; then"),
        ("no example", EXAMPLES, DOCUMENT_LIST, "for document in; do"),
        ("races alone", EXAMPLES, DOCUMENT_LIST, "for document in tests/programs/races/*.json; do"),
    ],
    "tests/programs/races.sh": [
        ("any status for a thread that can't start", OUTCOMES, 'if [ "$status" = 6 ] && [ ! -s "$room/out" ] &&', 'if [ "$status" != 0 ] &&'),
    ],
    "tests/programs/refusals.sh": [
        ("refusals that end early", REFUSALS, "order_lines.txt table_of play", "order_lines.txt\n    return 0\n    table_of play"),
        ("one row of each table", REFUSALS, "rows=$((rows + 1))", "rows=$((rows + 1)); [ $rows -lt 2 ] || break"),
        ("no smaller program", REFUSALS, 'ends fsr "$1" && { [ "$1" = race ] || ends "fsr_$1"; }', 'ends fsr "$1"'),
        ("any word on the other stream", REFUSALS, '&& [ ! -s "$room/$other" ] &&', "&&"),
    ],
    "tests/programs/documents.sh": [
        ("20 documents for 2,000", DOCUMENTS, '--documents "$3"', "--documents 20"),
        ("no document", DOCUMENTS, '--documents "$3"', "--documents 0"),
        ("documents of one kind", DOCUMENTS, '--kinds "$4"', "--kinds cell"),
        ("the reference beside itself", COMPARE, "found = ended(given.program, command, text)", "found = wanted"),
        ("the program beside itself", COMPARE, "wanted = answers.answer(command, text)", "wanted = ended(given.program, command, text)"),
    ],
    "tests/programs/recorder.sh": [
        ("converters that end with 0", CONVERTERS, "return 1 if faults or not compared else 0", "return 0"),
        ("a log beside itself", CONVERTERS, """if made[f"{key}.jsonl"] != self.planted_in("log", log):""", "if False:"),
        ("histories that nobody compares", CONVERTERS, "if histories(words.planted) != {*LOGS, *REFUSED}:", "if False:"),
        ("a judge whose status isn't looked at", RECORDER, 'if [ "$status" != "$wanted_status" ] || ! cat', "if ! cat"),
        ("a program that nobody asks", RECORDER, '$judge <"$room/log"', '${judge%%crates*} <"$room/log"'),
        ("no judge", RECORDER, "for judge in 'python3 tests/programs/reference/lines.py' $built_word; do", "for judge in; do"),
        ("three operations", RECORDER, "operations=${2:-9000}", "operations=3"),
        ("no log beside all orders", RECORDER, "--logs 2500", "--logs 0"),
    ],
}


def make_tree(folder):
    """A copy of what git has, with its times, so that what is built here is as fresh there."""
    for path in subprocess.run(["git", "ls-files", "-z"], cwd=TOP, capture_output=True, check=True).stdout.decode().split("\0")[:-1]:
        if not os.path.exists(f"{TOP}/{path}"):
            continue
        os.makedirs(os.path.dirname(f"{folder}/{path}"), exist_ok=True)
        shutil.copy2(f"{TOP}/{path}", f"{folder}/{path}")
    for at, _, _ in os.walk(f"{folder}/crates"):
        shutil.copystat(f"{TOP}/{os.path.relpath(at, folder)}", at)
    for crate in os.listdir(f"{TOP}/crates"):
        if os.path.isdir(f"{TOP}/crates/{crate}/out"):
            os.symlink(f"{TOP}/crates/{crate}/out", f"{folder}/crates/{crate}/out")


def passes(folder, script):
    """Whether ./test passes over the copy, and what it says. (It may itself be what is wrong.)"""
    words = [script, *PREFIX] if script == RECORDER else [script]
    done = subprocess.run(["./test", *words], cwd=folder, capture_output=True, stdin=subprocess.DEVNULL, check=False)
    said = done.stdout.decode(errors="replace").splitlines()
    failed = [line for line in said if "FAILED" in line]
    return done.returncode == 0 and not failed, (failed or said or ["nothing"])[0]


def places_of(path, old):
    """A file's text, a pattern for this text in it, and how often it stands there."""
    with open(f"{TOP}/{path}", encoding="utf-8") as file:
        text = file.read()
    pattern = r"\s+".join(re.escape(word) for word in old.split())
    return text, pattern, len(re.findall(pattern, text))


def unfit():
    """Each edit whose old text doesn't stand once in its file."""
    for name, path, old, _ in (row for rows in ROWS.values() for row in rows):
        found = places_of(path, old)[2]
        if found != 1:
            yield f"{name}: its old text stands {found} times in {path}"


def is_noticed(folder, script, path, old, new):
    """Whether the script fails over the edit, and what it says."""
    text, pattern, found = places_of(path, old)
    if found != 1:
        return False, f"its old text stands {found} times in {path}"
    with open(f"{folder}/{path}", "w", encoding="utf-8") as file:
        file.write(re.sub(pattern, lambda _: new, text))
    well, said = passes(folder, script)
    for it in (path, "docs/dev/TESTING.md"):
        shutil.copy(f"{TOP}/{it}", f"{folder}/{it}")
    return not well, said


def try_script(folder, script, rows):
    """Plants each of these rows, and says which are noticed: nothing where the script fails as it is."""
    well, said = passes(folder, script)
    if not well:
        print(f"{script} can't be tried, it fails as it is: {said}", flush=True)
        return []
    noticed = []
    for name, *edit in rows:
        is_seen, said = is_noticed(folder, script, *edit)
        print(f"{name}: {'noticed: ' if is_seen else 'GETS THROUGH: '}{said[:150]}", flush=True)
        noticed.append(is_seen)
    return noticed


def main():
    parser = argparse.ArgumentParser(description=__doc__, formatter_class=argparse.RawDescriptionHelpFormatter)
    parser.add_argument("--prefix")
    parser.add_argument("--fit", action="store_true")
    parser.add_argument("words", nargs="*", metavar="WORD")
    given = parser.parse_args()
    if given.fit:
        faults = list(unfit())
        print("\n".join(faults) or f"{sum(map(len, ROWS.values()))} edits fit")
        return 1 if faults else 0
    words = given.words
    PREFIX[:] = [os.path.abspath(given.prefix)] if given.prefix else []

    def is_asked(script, row):
        return not words or any(word in row[0] or word in script for word in words)

    asked = {script: [row for row in rows if is_asked(script, row)] for script, rows in ROWS.items()}
    number = sum(map(len, asked.values()))
    with tempfile.TemporaryDirectory() as folder:
        make_tree(folder)
        noticed = [it for script, rows in asked.items() if rows for it in try_script(folder, script, rows)]
    print(f"{sum(noticed)} of {len(noticed)} are noticed, {number - len(noticed)} weren't tried")
    return 1 if not all(noticed) or len(noticed) < number else 0


if __name__ == "__main__":
    sys.exit(main())
