"""What a built library or program contains, as a list in SPDX 2.3.

    contents.py library VERSION COMMIT SECONDS ARCHIVE ..     of the library's crates, by crates.txt
    contents.py programs VERSION COMMIT SECONDS PROGRAM ..    of those of fsr and picture
    contents.py page VERSION COMMIT SECONDS PAGE              of those in the page for a browser

Each ARCHIVE or PROGRAM is for another machine.

A built file has code of the repository's crates and of the kit's on which they stand. Which of these left code in it isn't asked: all are
listed. A licence of a crate of the kit is what stands in its folder, and NOASSERTION where nothing stands there. The status is 0, and the
list depends on its arguments, the repository and the kit alone.
"""

import datetime
import hashlib
import os
import re
import subprocess
import sys

TOP = os.path.dirname(os.path.dirname(os.path.realpath(__file__)))
sys.path.insert(0, f"{TOP}/build")

from listed import read_rows  # noqa: E402

OWN_LICENCE = "MIT OR Apache-2.0"
ROOTS = {"library": ("c_exports",), "programs": ("fsr", "picture"), "page": ("check_exports", "cell_steps")}
WHOLE = {"library": "libnidzaru.a", "programs": "nidzaru-programs", "page": "nidzaru-page"}
# The licences that the kit's folders of these ports name in README.md and in their files; a kit's crate that isn't here names none.
KIT_LICENCES = {
    "clap": "MIT OR Apache-2.0",
    "itoa": "MIT OR Apache-2.0",
    "serde": "MIT OR Apache-2.0",
    "serde_json": "MIT OR Apache-2.0",
}
# What is linked beside crates: of the repository, and of others by names, licences and what it is.
OWN_OBJECTS = {
    "library": [("heap.o", "c/heap.c, by the kit's clang")],
    "programs": [("os.o", "c/os.c, by the kit's clang")],
    "page": [("page-heap.o", "web/heap.c, by the kit's clang"), ("page", "web/, without what is compiled")],
}
START = [
    ("crt1, crti, crtn, libc_nonshared", "LGPL-2.1-or-later", "glibc's start files, by their names; glibc lets programs link them freely"),
    ("crtbegin, crtend, libgcc", "GPL-3.0-or-later WITH GCC-exception-3.1", "GCC's start files and its library, by their names"),
]
HELPERS = ("rattle-link", "NOASSERTION", "what the kit's rattle-link adds to a module for WebAssembly, from C code that stands in it")
OBJECTS = {"library": [], "programs": START, "page": [HELPERS]}


def kit_folder():
    page = subprocess.run(["rt", "doc"], check=True, capture_output=True, text=True).stdout.strip()
    return os.path.dirname(page)


def crates_of(roots, kit):
    """The names of the repository's crates and of the kit's that these roots stand on."""
    listed, own, foreign, open_names = read_rows(TOP), set(), {"std", "core"}, list(roots)
    while open_names:
        name = open_names.pop()
        if name not in listed:
            foreign.add(name)
        elif name not in own:
            own.add(name)
            open_names += listed[name][1]
    for name in list(foreign):
        below = f"{kit}/rlibs/{name}.rlib/below"
        foreign |= set(os.listdir(below)) if os.path.isdir(below) else set()
    return sorted(own), sorted(foreign)


def licence_in(kit, name):
    """What a crate of the kit is under: what is known of its folder, if that has a file with a licence still."""
    folder = f"{kit}/rattle/{name}"
    has_file = os.path.isdir(folder) and any(it.startswith("LICENSE") for it in os.listdir(folder))
    return KIT_LICENCES.get(name, "NOASSERTION") if has_file else "NOASSERTION"


def package(name, version, licence, comment, digest=None):
    key = "SPDXRef-" + re.sub(r"[^A-Za-z0-9.-]", "-", name)
    lines = [f"PackageName: {name}", f"SPDXID: {key}", f"PackageVersion: {version}"]
    lines += ["PackageDownloadLocation: NOASSERTION", "FilesAnalyzed: false"]
    if digest:
        lines.append(f"PackageChecksum: SHA256: {digest}")
    lines += [f"PackageLicenseConcluded: {licence}", f"PackageLicenseDeclared: {licence}", "PackageCopyrightText: NOASSERTION"]
    return key, "\n".join(lines + [f"PackageComment: <text>{comment}</text>"])


def digest_of(path):
    with open(path, "rb") as file:
        return hashlib.sha256(file.read()).hexdigest()


def machine_of(path):
    """What a program, or an archive's first object, says that it is for; a page is for WebAssembly."""
    if path.endswith(".html"):
        return "wasm"
    told = subprocess.run(["readelf", "-h", path], check=True, capture_output=True, text=True, env={**os.environ, "LC_ALL": "C"}).stdout
    return {"X86-64": "x86_64", "AArch64": "aarch64"}[re.search(r"Machine:.*?(\S+)$", told, re.M)[1]]


def main(kind, version, commit, seconds, *paths):
    kit = kit_folder()
    with open(f"{kit}/KIT-ID", encoding="utf-8") as file:
        kit_version = file.read().strip()
    own, foreign = crates_of(ROOTS[kind], kit)
    whole = WHOLE[kind]
    kit_parts = [(it, licence_in(kit, it), f"the kit's crate {it}") for it in foreign] + OBJECTS[kind]
    unknown = [name for name, licence, _ in kit_parts if licence == "NOASSERTION"]
    known = f"Its own code is under {OWN_LICENCE}. No licence is known of: {', '.join(unknown)}."
    tops = [package(f"{whole}-{machine_of(it)}", version, "NOASSERTION", known, digest_of(it)) for it in paths]
    own_parts = [(it, f"crates/{it}") for it in own] + OWN_OBJECTS[kind]
    parts = [package(f"nidzaru-{it}", version, OWN_LICENCE, f"{what}, of the repository at commit {commit}") for it, what in own_parts]
    parts += [package(f"kit-{name}", kit_version, licence, what) for name, licence, what in kit_parts]
    created = datetime.datetime.fromtimestamp(int(seconds), datetime.timezone.utc).strftime("%Y-%m-%dT%H:%M:%SZ")
    print(
        "SPDXVersion: SPDX-2.3\nDataLicense: CC0-1.0\nSPDXID: SPDXRef-DOCUMENT\n"
        f"DocumentName: {whole}-{version}\nDocumentNamespace: https://spdx.org/spdxdocs/{whole}-{version}-{commit}\n"
        f"Creator: Tool: packaging/contents.py\nCreated: {created}"
    )
    for key, _ in tops:
        print(f"Relationship: SPDXRef-DOCUMENT DESCRIBES {key}")
    for _, text in tops:
        print(f"\n{text}")
    for key, text in parts:
        print(f"\n{text}")
        for top, _ in tops:
            print(f"Relationship: {top} CONTAINS {key}")


if __name__ == "__main__":
    if len(sys.argv) < 6 or sys.argv[1] not in ROOTS:
        sys.exit("usage: contents.py library|programs|page VERSION COMMIT SECONDS FILE ..")
    main(*sys.argv[1:])
