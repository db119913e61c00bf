"""Each link of the pages to a file of the repository has to lead to one, and to a heading that the file has.

    links.py FILE ..

Prints each that doesn't, or how many do.
"""

import os
import re
import sys

LINK = re.compile(r"\]\(([^)\s]+)\)")
HEADING = re.compile(r"^#+ +(.*)", re.M)


def headings_of(path):
    """The names by which a page's headings are linked: lower case, without marks, with hyphens for blanks."""
    with open(path, encoding="utf-8") as file:
        titles = HEADING.findall(file.read())
    plain = (re.sub(r"\[([^\]]*)\]\([^)]*\)", r"\1", title).lower() for title in titles)
    return {re.sub(r"[^\w\- ]", "", title.strip()).replace(" ", "-") for title in plain}


def fault_of(page, link):
    """What is wrong with a link of a page, or nothing."""
    path, _, heading = link.partition("#")
    file = os.path.normpath(os.path.join(os.path.dirname(page), path)) if path else page
    if not os.path.exists(file):
        return f"{page}: there is no {link}"
    if heading and file.endswith(".md") and heading not in headings_of(file):
        return f"{page}: {file} has no heading {heading}"
    return None


def main(pages):
    links = []
    for page in pages:
        with open(page, encoding="utf-8") as file:
            links += [(page, it) for it in LINK.findall(file.read()) if ":" not in it]
    faults = [it for it in (fault_of(*link) for link in links) if it]
    print("\n".join(faults or [f"{len(links)} links of the pages lead to files and headings that there are"]))
    return 1 if faults or not links else 0


if __name__ == "__main__":
    sys.exit(main(sys.argv[1:]))
