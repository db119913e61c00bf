"""The rows of crates.txt, its headings, what lies below a crate, and the words of `rattle` for one."""


def read_rows(top):
    """By each crate's name its row, and the words behind the colon: the libraries on which it stands."""
    found = {}
    with open(f"{top}/crates.txt", encoding="utf-8") as file:
        for row in file:
            head, colon, words = row.partition("#")[0].partition(":")
            if colon:
                found[head.split()[0]] = row, words.split()
    return found


def read_subjects(top):
    """By each heading of crates.txt the names of the crates below it."""
    found = {}
    with open(f"{top}/crates.txt", encoding="utf-8") as file:
        for row in file:
            head, mark, title = row.partition("#")
            if mark and not head.strip():
                names = found.setdefault(title.strip(), [])
            elif ":" in head and found:
                names.append(head.partition(":")[0].split()[0])
    return found


def crates_below(rows, name):
    """The crates of the repository that a crate stands on, each behind those that it stands on itself."""
    found = {}
    for it in rows[name][1]:
        if it in rows and it not in found:
            found |= dict.fromkeys([*crates_below(rows, it), it])
    return list(found)


def rattle_words(kit, name, root, words, lower):
    """The words of `rattle` for a crate with this root and these words behind its colon, by the kit in this folder. `lower` has by the name
    of each crate below it the folder with what is built of that."""
    found = ["--crate-name", name, root]
    for it in dict.fromkeys(["std", *words]):
        found += ["--extern", f"{it}={lower.get(it, f'{kit}/rlibs')}/{it}.rlib"]
    for it in [f"{kit}/rlibs", *lower.values()]:
        found += ["-L", f"dependency={it}"]
    return found + ["--antt-project", f"{kit}/rattle/logic/antt-project.json", "--logic-built", f"{kit}/logic_built"]
