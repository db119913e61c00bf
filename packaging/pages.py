"""Copies pages of the repository into a package. A link to a page that isn't among them is replaced by its words, and a file that is named
and isn't among them is said to be of the repository.

    pages.py FOLDER PAGE ..        each PAGE a path from the top of the repository
    pages.py --check FOLDER        sees that each file that a copied page names is there, or is said to be of the repository
"""

import os
import re
import sys

TOP = os.path.dirname(os.path.dirname(os.path.realpath(__file__)))
LINK = re.compile(r"(?<!!)\[([^\]]*)\]\(([^)\s]+)\)")
# A file or folder of the repository, with the words after it, and whether it is said to be of the repository.
NAMED = re.compile(r"(?<!`)`((?:\w+/)+[\w.-]*|\./\w+)((?: [^`]*)?)`(?!`)( of the\s+repository)?")


def cut_links(page, text, pages):
    """The page's text without the links that lead out of the package."""

    def keep_or_cut(link):
        path = link[2].partition("#")[0]
        inside = not path or ":" in path or os.path.normpath(os.path.join(os.path.dirname(page), path)) in pages
        return link[0] if inside else link[1]

    return LINK.sub(keep_or_cut, text)


def lacks(path, pages):
    """Whether the repository has this file or folder, and the package has nothing of it. (What is built in out/ is nobody's.)"""
    path = path.removeprefix("./").rstrip("/")
    if path == "install" or path.startswith("out/") or any(it == path or it.startswith(f"{path}/") for it in pages):
        return False
    return os.path.exists(f"{TOP}/{path}")


def tell_files(text, pages):
    """The page's text, in which files that the package lacks are said to be of the repository."""
    fenced = re.split(r"(?ms)(^```.*?^```$|^    .*?$)", text)
    add = lambda it: it[0] + (" of the repository" if not it[3] and lacks(it[1], pages) else "")  # noqa: E731
    return "".join(it if k % 2 else NAMED.sub(add, it) for k, it in enumerate(fenced))


def check(folder):
    pages = [os.path.relpath(f"{at}/{it}", folder) for at, _, names in os.walk(folder) for it in names]
    for page in sorted(it for it in pages if it.endswith(".md")):
        with open(f"{folder}/{page}", encoding="utf-8") as file:
            text = file.read()
        for named in NAMED.finditer(text):
            if not named[3] and lacks(named[1], pages):
                sys.exit(f"{page} names {named[1]}, which isn't there")


def main(folder, pages):
    for page in pages:
        with open(f"{TOP}/{page}", encoding="utf-8") as file:
            text = file.read()
        os.makedirs(os.path.dirname(f"{folder}/{page}") or folder, exist_ok=True)
        with open(f"{folder}/{page}", "w", encoding="utf-8") as file:
            file.write(tell_files(cut_links(page, text, pages), pages) if page.endswith(".md") else text)


if __name__ == "__main__":
    check(sys.argv[2]) if sys.argv[1] == "--check" else main(sys.argv[1], sys.argv[2:])
