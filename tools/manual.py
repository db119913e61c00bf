"""The man pages of `fsr` and `picture`, the help of `fsr` and the completion of bash, made from what the programs say and from the page of
statuses.

    manual.py FSR PICTURE            compares docs/man/ with what these built programs say: status 1 if it is another
    manual.py --write FSR PICTURE    writes it anew

Of `fsr` the text is clap's, of the program and of each of its commands; of `picture` the line with which it refuses words, and the first
words of its source. The statuses are those of docs/FORMATS.md.
"""

import os
import re
import subprocess
import sys

TOP = os.path.dirname(os.path.dirname(os.path.realpath(__file__)))
FOLDER = f"{TOP}/docs/man"
# Of the statuses those that `picture` can't end with, and what the first three say of it.
NOT_OF_PICTURE = ("6", "7", "8")
OF_PICTURE = {"0": "the order is lawful, or one was found; or the schedule was played.", "1": "the order is unlawful, or none is lawful.",
              "2": "there are words."}
# An entry of a list of clap's: its names, and what it says of them.
ENTRY = re.compile(r"^ {2,6}(\S.*?)(?: {2,}(\S.*))?$")


def text_of(path):
    with open(f"{TOP}/{path}", encoding="utf-8") as file:
        return file.read()


def said_by(program, *words):
    """What a program says of these words, on either stream."""
    ran = subprocess.run([program, *words], stdin=subprocess.DEVNULL, capture_output=True, text=True, check=False, timeout=60)
    return ran.stdout or ran.stderr


def parts_of(help_text):
    """A help text's first words, its usage, its lists by their titles, each entry with its words, and what stands behind them."""
    about, usage, lists, behind, title = [], "", {}, [], None
    for line in help_text.rstrip("\n").split("\n"):
        entry = ENTRY.match(line)
        if line.startswith("Usage: "):
            usage = line.removeprefix("Usage: ")
        elif line in ("Commands:", "Arguments:", "Options:"):
            title = line.rstrip(":").lower()
        elif title and entry:
            lists.setdefault(title, []).append((entry[1], entry[2] or ""))
        elif usage and (line or behind):
            title = None
            behind.append(line)
        elif not usage and line:
            about.append(line)
    return " ".join(about), usage, lists, behind


def roff(text):
    """The text as roff has it: hyphens that are typed, and no line that begins with a point."""
    text = text.replace("\\", "\\e").replace("-", "\\-")
    return re.sub(r"(?m)^([.'])", r"\\&\1", text)


def statuses(name):
    """The statuses of a program by the page, each with its words, without marks."""
    listed = text_of("docs/FORMATS.md").partition("\n## Statuses and faults\n")[2]
    found = re.findall(r"(?m)^- \*\*(\d+)\*\*(?:, of `\./fsr` itself)?: (.*(?:\n  .*)*)", listed)
    plain = ((number, re.sub(r"[`*]", "", " ".join(words.split()))) for number, words in found)
    found = [(number, words) for number, words in plain if number != "70"]
    if name == "picture":
        found = [(number, OF_PICTURE.get(number, words)) for number, words in found if number not in NOT_OF_PICTURE]
    return found


def version():
    words = re.findall(r"(?m)^#define NIDZARU_VERSION_(?:MAJOR|MINOR|PATCH) (\d+)$", text_of("c/nidzaru.h"))
    return ".".join(words)


def tagged(rows):
    return [line for names, words in rows for line in (".TP", f".B {roff(names)}", roff(words))]


def page(name, about, synopsis, middle):
    lines = [
        f".\\\" made by tools/manual.py from what {name} says",
        f".TH {name.upper()} 1 \"\" \"Nidzaru {version()}\" \"\"",
        ".SH NAME", f"{name} \\- {roff(about)}",
        ".SH SYNOPSIS", *(line for it in synopsis for line in (f".B {roff(it)}", ".br")),
        *middle,
        ".SH EXIT STATUS", *tagged(statuses(name)),
        ".SH SEE ALSO", f".BR {'picture' if name == 'fsr' else 'fsr'} (1),", "docs/FORMATS.md and docs/CHECKING.md",
    ]
    return "\n".join(lines) + "\n"


def page_of_fsr(fsr):
    about, _, lists, behind = parts_of(said_by(fsr, "--help"))
    middle, synopsis = [".SH DESCRIPTION", f"{roff(about)}."], []
    middle += [".PP", ".nf", *map(roff, behind), ".fi"] if behind else []
    middle += [".SH COMMANDS"]
    for name, _ in commands_of(fsr):
        says, usage, its, _ = parts_of(said_by(fsr, name, "--help"))
        synopsis.append(usage)
        middle += [f".SS {roff(usage)}", f"{roff(says)}.", *tagged([*its.get("arguments", []), *its.get("options", [])])]
    middle += [".SH OPTIONS", *tagged(lists["options"])]
    return page("fsr", "checks and finds orders of histories, plays schedules, runs races, watches logs", synopsis, middle)


def page_of_picture(picture):
    usage = said_by(picture, "--help").strip().rpartition(": ")[2].removeprefix("./")
    says = re.match(r"//! `picture`: ((?:.*\n//! )*.*)\n", text_of("crates/picture/src/main.rt"))[1].replace("\n//!", "").rstrip(".")
    return page("picture", says, [usage], [".SH DESCRIPTION", f"What fsr check, fsr order and fsr play take, as SVG. {roff('It takes no words.')}"])


def commands_of(fsr):
    return [it for it in parts_of(said_by(fsr, "--help"))[2]["commands"] if it[0] != "help"]


def flags_of(rows):
    return " ".join(word for names, _ in rows for word in re.findall(r"--?\w+", names))


def completion(fsr):
    """The words that may follow, by the command, and else the names of files."""
    commands, options = commands_of(fsr), flags_of(parts_of(said_by(fsr, "--help"))[2]["options"])
    cases = [f"    {name}) words='{flags_of(parts_of(said_by(fsr, name, '--help'))[2]['options'])}' ;;" for name, _ in commands]
    return "\n".join([
        "# The words of fsr, for bash: made by tools/manual.py from what fsr says.",
        "_fsr() {",
        "    local words word=${COMP_WORDS[COMP_CWORD]}",
        "    case $COMP_CWORD:${COMP_WORDS[1]} in",
        f"    1:*) words='{' '.join(name for name, _ in commands)} help {options}' ;;",
        *(it.replace("    ", "    *:", 1) for it in cases),
        "    esac",
        "    COMPREPLY=($(compgen -W \"$words\" -- \"$word\"))",
        "    [ \"$COMP_CWORD\" = 1 ] || [ \"${word#-}\" != \"$word\" ] || COMPREPLY+=($(compgen -f -- \"$word\"))",
        "}",
        "complete -o filenames -F _fsr fsr",
    ]) + "\n"


def main(words):
    is_written = words[:1] == ["--write"]
    fsr, picture = words[is_written:]
    made = {"fsr.1": page_of_fsr(fsr), "picture.1": page_of_picture(picture), "fsr.bash": completion(fsr), "fsr.txt": said_by(fsr, "--help")}
    others = []
    for name, text in made.items():
        path = f"docs/man/{name}"
        if is_written:
            os.makedirs(FOLDER, exist_ok=True)
            with open(f"{TOP}/{path}", "w", encoding="utf-8") as file:
                file.write(text)
        elif not os.path.exists(f"{TOP}/{path}") or text_of(path) != text:
            others.append(path)
    for path in others:
        print(f"{path} says other words than the programs: run python3 tools/manual.py --write {fsr} {picture}")
    if not others and not is_written:
        print(f"{len(made)} files of docs/man say what the programs say")
    return 1 if others else 0


if __name__ == "__main__":
    sys.exit(main(sys.argv[1:]))
