#!/usr/bin/env python3
"""By hand: faults planted in what makes the packages and installs them, each of which tests/library/package.sh has to refuse.

    tests/library/planted_packages.py [WORD..]      with words those alone whose names have one of them

Each row is an edit of one file in a copy of the repository, over what is built here, and the beginning of the title of the check that has to
fail. An edit's old text stands once in its file; blanks match any others. Edits that don't hide each other are planted together, by the
rounds in which they stand; all rounds run at once. A check that fails over the copy as it is refuses nothing. The last line is the sums.
"""

import concurrent.futures
import os
import re
import subprocess
import sys
import tempfile

TOP = os.path.dirname(os.path.dirname(os.path.dirname(os.path.realpath(__file__))))
sys.path.insert(0, f"{TOP}/tools")

import sabotages  # noqa: E402

SCRIPT = "tests/library/package.sh"
PACKAGE, INSTALL, CONTROL, CONTENTS = "package", "packaging/install", "packaging/control", "packaging/contents.py"
BUILD, CHECKS, PROVED, LIBRARY = "packaging/build.rs", "tests/gate/checks.py", "packaging/PROVED", "build/library.sh"
INFO_IN = '"$packed/BUILD-INFO" "$packed/nidzaru-$version.spdx" "$room/$name/"'
ITSELF = '|| fail "$to is where the library lies:'

# What is planted, in which file, the old text and the new one, and how the title of the check begins that fails.
ROUNDS = [
    [
        ("a gate of 0 passed", CHECKS, 'if last != [f"{sum(counted.values()) + 1} passed, 0 failed"]:',
         'if last != [f"{sum(counted.values()) + 1} passed, 0 failed"] and last != ["0 passed, 0 failed"]:', "./package with the log of a gate of 0 passed"),
        ("a commit by its beginning", CHECKS, "if [it for it, _ in whole] != [commit]:",
         "if [commit.startswith(it) for it, _ in whole] != [True]:", "./package with the log of the beginning of a commit"),
        ("files that git ignores", PACKAGE, 'git -C "$top" archive HEAD:rust/nidzaru Cargo.toml src examples | tar -x -C "$room/$name"',
         'cp -r "$top/rust/nidzaru/Cargo.toml" "$top/rust/nidzaru/src" "$top/rust/nidzaru/examples" "$room/$name/"', "the same bytes from both"),
        ("a commit of meanwhile", PACKAGE, '|| fail "the tree was changed meanwhile"', "|| :", "./package with a commit of meanwhile"),
        ("new files", PACKAGE, 'status --porcelain) || fail', 'status --porcelain -uno) || fail', "./package with a new file"),
        ("any logic", PACKAGE, '*) fail "the library for $machine says that', '*) : "the library for $machine says that',
         "./package over a library of another logic"),
        ("any verdict", PACKAGE, "^logic=proved \\(functions", "^logic=[a-z-]* \\(functions", "./package over a library that isn't proved"),
        ("verdicts of other proofs", PACKAGE, '[ "${proved:-$numbers}" = "$numbers" ]', "true", "./package over proofs of another number"),
        ("a list where every licence is ours", CONTENTS, 'return KIT_LICENCES.get(name, "NOASSERTION") if has_file else "NOASSERTION"',
         "return OWN_LICENCE", "what the library contains, with a licence or none"),
        ("another version in the control file", CONTROL, "Version: @VERSION@", "Version: 2.0.0", "the Debian package's parts, version and size"),
        ("a build script for any system", BUILD, '["linux", "none"].contains(&system.as_str())', "true",
         "the packaged crate links its own libraries"),
        ("a folder as this user's mask has it", INSTALL, "umask 022", ":", "install under umask 077"),
        ("a package for CMake that is read once", INSTALL, "if(NOT TARGET nidzaru::nidzaru)", "if(TRUE)", "CMake: '' takes"),
        ("32 bits", INSTALL, "NOT CMAKE_SIZEOF_VOID_P EQUAL 8", "NOT CMAKE_SIZEOF_VOID_P GREATER 2", "CMake: a program of 32 bits"),
        ("paths out of the prefix", INSTALL, "//* | */../*) fail", "//*) fail", "uninstall by a list with ../kept"),
        ("a check that looks at nothing", INSTALL, '[ -d "$nearest" ] && [ -w "$nearest" ] && [ -x "$nearest" ] || fail', "true || fail", "--check of"),
        ("two words", INSTALL, '[ $# = 1 ] || misused "$usage"', '[ $# -ge 1 ] || misused "$usage"', "./install with two words"),
        ("a library onto itself", INSTALL, f'[ "$from" != "$to" ] {ITSELF} it may', f"true {ITSELF} it may", "install onto itself"),
        ("a library away from itself", INSTALL, f'[ "$from" != "$to" ] {ITSELF} remove', f"true {ITSELF} remove", "uninstall of itself"),
        ("a folder by two names", INSTALL, 'left_behind >"$room/left" || exit 1', 'cp "$room/gone" "$room/left"',
         "LIBDIR by a link to the folder of before"),
        ("a link to what isn't there", INSTALL, '|| real=$(readlink -- "$to/$folder") || real=$to', '|| real=$to',
         "install over a link to what isn't there"),
        ("a half file by a link", INSTALL, 'rm -f "$half" && cp', 'cp', "install beside a link with the name of a half file"),
        ("a half file that stays", INSTALL, '[ -z "$half" ] || rm -f "$half"', ":", "an install that is ended within a file"),
        ("LIBDIR with any letter", INSTALL, "| *[!A-Za-z0-9/._+-]*)", ")", "./install with LIBDIR=lib x"),
    ],
    [
        ("a build that names no kit", PACKAGE, "kit $(rt version)", "kit        one", "BUILD-INFO tells"),
        ("a tar without its build", PACKAGE, f'cp "$tree/install" {INFO_IN}', 'cp "$tree/install" "$packed/nidzaru-$version.spdx" "$room/$name/"',
         "BUILD-INFO in each package"),
        ("a Debian package by xz", PACKAGE, "dpkg-deb --root-owner-group -Zgzip", "dpkg-deb --root-owner-group -Zxz",
         "the Debian package's parts, version and size"),
        ("a build script that looks at no change", BUILD, 'println!("cargo:rerun-if-changed=lib/{machine}/libnidzaru.a");', "",
         "the packaged crate links its own libraries"),
        ("modes as the packer's mask has them", PACKAGE, "--mode='u=rwX,go=rX,g-s'", "", "the same bytes from both"),
        ("files as they came", INSTALL, '&& chmod 644 "$half"', "", "install under umask 077"),
        ("a package for CMake by its link", INSTALL, '"\\${CMAKE_CURRENT_LIST_DIR}" REALPATH)', '"\\${CMAKE_CURRENT_LIST_DIR}" ABSOLUTE)',
         "CMake: the package by a link"),
        ("links out of the prefix", INSTALL, '*) fail "$to/$folder leads out', '*) : "$to/$folder leads out', "uninstall over a link out of the prefix"),
        ("LIBDIR with a dash", INSTALL, "| */-* | *[!A-Za-z0-9/._+-]*)", "| *[!A-Za-z0-9/._+-]*)", "./install with LIBDIR=-x"),
    ],
    [
        ("a build that names nothing trusted", PROVED, "Trusted The kit", "The kit", "BUILD-INFO tells"),
        ("a crate without its build", PACKAGE, '"$top/packaging/build.rs" "$top/LICENSE-MIT" "$top/LICENSE-APACHE" "$packed/BUILD-INFO"',
         '"$top/packaging/build.rs" "$top/LICENSE-MIT" "$top/LICENSE-APACHE"', "the files of each package"),
        ("a size in bytes", PACKAGE, "{ sum += int(($1 + 1023) / 1024) } END", "{ sum += $1 } END", "the Debian package's parts, version and size"),
        ("a crate that is never watched", BUILD, 'println!("cargo:rustc-cfg=nidzaru_watched");', "", "the packaged crate links its own libraries"),
        ("owners as they pack", PACKAGE, "--owner=0 --group=0", "", "the same bytes from both"),
        ("a temporary folder that stays", INSTALL, """trap 'rm -rf "$room"; [ -z""", """trap '[ -z""", "uninstall leaves no empty folder"),
        ("DESTDIR before a path from here on", INSTALL, ":* | *:/*) ;;", "*) ;;", "./install with DESTDIR and a path from here on"),
        ("a prefix before the toolchain", "install", """command -v rt >/dev/null 2>&1 || { echo "install: the Rattle""",
         """mkdir -p "$1"; command -v rt >/dev/null 2>&1 || { echo "install: the Rattle""", "./install without the toolchain"),
        ("a header that looks at no machine", INSTALL, "-D$(define_machine)", "-DNIDZARU_FOR_NONE", "C for x86-64 over the library for ARM"),
        ("a package for CMake of any machine", INSTALL, 'elseif(CMAKE_SYSTEM_PROCESSOR MATCHES "^($others)\\$")', "elseif(FALSE)",
         "CMake: the library for ARM in a program for x86-64"),
    ],
    [
        ("an archive that is a shared object", BUILD, "rustc-link-lib=static=nidzaru", "rustc-link-lib=dylib=nidzaru", "the packaged crate links its own libraries"),
        ("times as they are", PACKAGE, '--mtime="@$SOURCE_DATE_EPOCH"', "", "the same bytes from both"),
        ("names as they come", PACKAGE, "--format=ustar --sort=name", "--format=ustar --sort=none", "the names in the packages"),
        ("a program for another machine in the list", CONTENTS, '"X86-64": "x86_64"', '"X86-64": "riscv64"', "what the library contains, with a licence or none"),
        ("a list without what is given away", INSTALL, '{ cut -f 1 "$room/plan" && echo "$list"; }', '{ cut -f 1 "$room/plan" | sed 1d && echo "$list"; }',
         "uninstall"),
        ("pkg-config from a fixed place", INSTALL, "prefix=\\${pcfiledir}/$(way_up \"$libdir/pkgconfig\")", "prefix=$to", "C over a moved prefix"),
        ("a library that any version suits", INSTALL, "AND NOT PACKAGE_VERSION VERSION_LESS PACKAGE_FIND_VERSION)", ")", "CMake: '2.99' doesn't take"),
        ("a package without the recorder", INSTALL, "for header in nidzaru.h nidzaru.hpp nidzaru_log.h", "for header in nidzaru.h nidzaru.hpp",
         "the files of each package"),
        ("sums of a part", PACKAGE, 'sha256sum -- * >"$room/sums"', 'sha256sum -- *.gz >"$room/sums"', "the sums of the packages"),
    ],
]


def edited(text, old, new):
    """The text with an edit made in it, or why it can't be."""
    pattern = r"\s+".join(re.escape(word) for word in old.split())
    found = len(re.findall(pattern, text))
    return (re.sub(pattern, lambda _: new, text), None) if found == 1 else (text, f"its old text stands {found} times")


def failures(folder):
    """The titles of the checks that fail over the copy, and whether the script came to its end."""
    done = subprocess.run(["./test", SCRIPT], cwd=folder, capture_output=True, stdin=subprocess.DEVNULL, check=False)
    said = done.stdout.decode(errors="replace").splitlines()
    titles = [it[1] for it in (re.match(r"test: (.*?): FAILED: ", line) for line in said) if it]
    return titles, bool(said) and bool(re.fullmatch(r"\d+ passed, \d+ failed", said[-1]))


def run_round(rows):
    """Plants these together: by their names why some can't be, which checks fail then, and whether the script came to its end."""
    faults = {}
    with tempfile.TemporaryDirectory() as folder:
        sabotages.make_tree(folder)
        for name, path, old, new, _ in rows:
            with open(f"{folder}/{path}", encoding="utf-8") as file:
                text, faults[name] = edited(file.read(), old, new)
            with open(f"{folder}/{path}", "w", encoding="utf-8") as file:
                file.write(text)
        return (faults, *failures(folder))


def judge(rows, known, faults, titles, ended):
    """Tells of each of these whether it is refused, by a check that doesn't fail as it is, and how many are."""
    count = 0
    for name, path, _, _, title in rows:
        is_seen = any(it.startswith(title) for it in titles if it not in known)
        why = faults[name] or (None if is_seen else f"no check fails whose title begins with {title}") or (None if ended else "no end")
        count += why is None
        print(f"{name}, in {path}: {f'GETS THROUGH: {why}' if why else 'refused'}", flush=True)
    return count


def main(words):
    rounds = [[row for row in rows if not words or any(word in row[0] for word in words)] for rows in ROUNDS]
    with concurrent.futures.ThreadPoolExecutor(1 + len(rounds)) as pool:
        (_, known, ended), *found = pool.map(run_round, [[], *rounds])
    for it in known:
        print(f"{SCRIPT} fails as it is: {it}")
    if not ended:
        return 1
    refused = sum(judge(rows, known, *it) for rows, it in zip(rounds, found))
    number = sum(map(len, rounds))
    print(f"{refused} passed, {number - refused} failed")
    return 1 if refused < number or not number else 0


if __name__ == "__main__":
    sys.exit(main(sys.argv[1:]))
