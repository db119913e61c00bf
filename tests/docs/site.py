"""Looks at docs/index.html: what it quotes stands in the files that it names, its figures in docs/WHY.md, its links lead to files and headings;
and in each browser that is installed the mechanism steps by itself, the tabs show their code, and nothing is wider than the screen.

    site.py [--text] [SHOTS]     with --text without a browser; pictures of the page go to the folder SHOTS
"""

import html
import os
import re
import sys

from browser import browsers
from links import fault_of

TOP = os.path.dirname(os.path.dirname(os.path.dirname(os.path.realpath(__file__))))
PAGE = f"{TOP}/docs/index.html"
TABS = "c", "cpp", "rust", "rattle"
VISIBLE = "[...document.querySelectorAll('[role=tabpanel]')].filter(it => !it.hidden).map(it => it.id)"
# The steps of the part that steps the mechanism, as it tells them to the page around it.
LISTENS = "void addEventListener('message', e => { window.told = e.data.steps })"


def read(path):
    with open(f"{TOP}/{path}", encoding="utf-8") as file:
        return file.read()


def quotes_otherwise(page):
    """Blocks of code that don't stand so in the file that they name. An empty line parts two blocks."""
    found = re.findall(r'<pre data-from="([^"]+)"[^>]*>\n(.*?)</pre>', page, re.S)
    for path, text in found:
        blocks = re.split(r"\n\n+", html.unescape(text).rstrip("\n"))
        yield from (f"{path} hasn't: {it}" for it in blocks if f"\n{it}\n" not in f"\n{read(path)}")
    if len(found) != len(TABS):
        yield f"{len(found)} blocks of code in place of {len(TABS)}"


def counts_otherwise(page):
    """Tables that haven't the rows of WHY's, by name and first figure."""
    stops = read("docs/WHY.md").partition("## The third task reads")[2].partition("## An effect")[0]
    wanted = re.split(r"(?m)^\| Shared by .*$", stops)[1:]
    found = re.findall(r'<table class="bars" data-from="WHY.md".*?</table>', page, re.S)
    if len(found) != len(wanted):
        yield f"{len(found)} tables in place of WHY's {len(wanted)}"
    for mine, theirs in zip(found, wanted):
        rows = re.findall(r'<th scope="row">(\w+)</th><td><span class="bar">([\d.]+)<', mine)
        table = re.findall(r"(?m)^\| (\w+) \| ([\d.]+) \|", theirs.split("\n\n")[0])
        if rows != table:
            yield f"its figures are {rows}, and WHY has {table}"


def leads_nowhere(page):
    links = [it for it in re.findall(r'(?:href|src)="([^"]+)"', page) if ":" not in it]
    yield from filter(None, (fault_of(PAGE, it.replace("?small", "")) for it in links))
    if len(links) < 10:
        yield f"it has {len(links)} links alone"


def steps_itself(page):
    page.js(LISTENS)
    if not page.waits_for("(window.told || '').length > 2"):
        yield f"the mechanism doesn't step: {page.js('window.told')}"


def turns_tabs(page):
    for name in TABS:
        page.click(f"#tab-{name}")
        if page.js(VISIBLE) != [f"code-{name}"]:
            yield f"the tab {name} shows {page.js(VISIBLE)}"
    page.key("ArrowRight")
    if page.js(f"[document.activeElement.id, ...{VISIBLE}]") != ["tab-c", "code-c"]:
        yield "the arrow behind the last tab doesn't lead to the first"


def faults_in(kind, shots):
    page = kind()
    try:
        if page.open_file(PAGE) != "yes":
            return ["the page doesn't begin"]
        faults = [*steps_itself(page), *turns_tabs(page), *page.looks(PAGE, "", shots and f"{shots}/site")]
        return faults + [f"the browser says {it}" for it in page.said()]
    finally:
        page.end()


def main(words):
    text = read("docs/index.html")
    faults = [*quotes_otherwise(text), *counts_otherwise(text), *leads_nowhere(text)]
    told = "docs/index.html quotes the files and WHY as they are, and its links lead somewhere"
    if "--text" not in words:
        shots = next(iter(words), None)
        if shots:
            os.makedirs(shots, exist_ok=True)
        found = browsers()
        faults += [f"in {kind.title}, {it}" for kind in found for it in faults_in(kind, shots)]
        faults += [] if found else ["no browser is installed"]
        told = f"in {' and '.join(it.title for it in found)} docs/index.html steps the mechanism and turns its tabs"
    print("\n".join(faults[:20] or [told]))
    return 1 if faults else 0


if __name__ == "__main__":
    sys.exit(main(sys.argv[1:]))
