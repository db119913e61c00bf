"""Compares the page with the programs in each headless browser that is installed.

    page.py answers PAGE FSR PICTURE         each command on each document beside the programs, by both of the page's modules in Chromium
                                             and in Firefox by the one that it uses
    page.py memory PAGE MODULE               each request for memory refused in turn (MODULE is linked for that), and little memory
    page.py stacks PAGE MODULE WIDER         by modules with the least stack that the linker gives, which some runs pass, and with twice it
    page.py planted PAGE FSR PICTURE OTHER   what has to be seen: answers of another command and of another document, a document that is
                                             cut, and in the page a module with another byte and the module OTHER, of another build

The last line is a count; the status is 1 if anything is wrong, and where there is no browser.
"""

import base64
import gzip
import json
import os
import re
import sys

from page_documents import COMMANDS, TOP, all_documents, in_files, of_extremes, program_answers, text_of, write_log

sys.path.insert(0, f"{TOP}/tests/docs")

from browser import browsers  # noqa: E402

BOUND = 2**30
MODULES = {"Chromium": ("wide", "narrow"), "Firefox": ("narrow",)}
REFUSALS = 300
# Little memory, in bytes, within which some runs end and some don't.
BOUNDS = 1 << 20, 1_300_000, 1_600_000, 3_000_000, 6_000_000
# Behind the code of the page's worker: it answers many commands at once, and refuses requests for memory.
IN_WORKER = """
const bytesOf = letters => Uint8Array.from(atob(letters), it => it.charCodeAt(0));
const lettersOf = bytes => {
    let letters = "";
    for (let at = 0; at < bytes.length; at += 30000) letters += String.fromCharCode(...bytes.subarray(at, at + 30000));
    return btoa(letters);
};
const parts = {
    answers: ({ asked, bound }) => asked.map(([command, document]) => {
        try {
            const { status, text } = run(module, command, bytesOf(document), bound);
            return [status, lettersOf(text)];
        } catch (error) { return [String(error), ""]; }
    }),
    // Runs with the request for memory refused that has this number, and gives how it ended and how many requests it made.
    refused(command, document, at) {
        const { call, words } = COMMANDS[command], exports = new WebAssembly.Instance(module, {}).exports, room = 1n << 20n;
        const input = exports.room(BigInt(document.length)), buffer = exports.room(room), size = exports.room(8n);
        new Uint8Array(exports.memory.buffer, Number(input), document.length).set(document);
        exports.refuse(at);
        const status = exports[call](...words, input, BigInt(document.length), buffer, room, size);
        const length = Number(new DataView(exports.memory.buffer).getBigUint64(Number(size), true));
        const text = new TextDecoder().decode(new Uint8Array(exports.memory.buffer, Number(buffer), length).slice());
        return { status, text, calls: exports.calls_made() };
    },
    refuseEach({ command, letters, most }) {
        const document = bytesOf(letters), whole = parts.refused(command, document, (1n << 64n) - 1n);
        const found = { tried: 0, four: 0, same: 0, silent: 0, wrong: [] };
        const step = whole.calls > BigInt(most) ? whole.calls / BigInt(most) : 1n;
        for (let at = 0n; at < whole.calls; at += step) {
            found.tried++;
            try {
                const it = parts.refused(command, document, at);
                if (it.status === 4 && / out of memory\\n$/.test(it.text)) found.four++;
                else if (it.status === whole.status && it.text === whole.text) found.same++;
                else if (it.status === whole.status && whole.status > 1 && it.text === "") found.silent++;
                else found.wrong.push(`${at}: ${it.status} ${it.text.slice(0, 60)}`);
            } catch (error) { found.wrong.push(`${at}: ${error}`); }
        }
        return found;
    },
};
const ofPage = onmessage;
onmessage = event => event.data.part ? postMessage(parts[event.data.part](event.data)) : ofPage(event);
"""
# A worker of the page over a module, by the name of one that the page has or by its bytes.
WORKER = """(async () => {
    const code = ['"use strict";', $("code").textContent%(change)s, %(more)s];
    const module = %(name)s ? await unpacked(%(name)s) : Uint8Array.from(atob(%(letters)s), it => it.charCodeAt(0));
    const worker = new Worker(URL.createObjectURL(new Blob(code, { type: "text/javascript" })));
    window.tell = what => new Promise((done, failed) => {
        worker.onmessage = ({ data }) => done(data);
        worker.onerror = event => failed(event.message);
        worker.postMessage(what);
    });
    window.tested?.terminate();
    window.tested = worker;
    return (await tell({ module })).ready ? module.length : 0;
})()"""


def letters_of(data):
    return base64.b64encode(data).decode()


def opened(kind, page):
    browser = kind()
    ready = browser.open_file(page)
    if ready != "yes":
        browser.end()
        raise RuntimeError(f"in {kind.title} the page doesn't begin: {ready}")
    return browser


def over_module(js, name="", data=b"", change=""):
    """Has the page's worker run the module of this name, or another one, with a change of its code."""
    words = {"name": json.dumps(name), "letters": json.dumps(letters_of(data)), "more": json.dumps(IN_WORKER), "change": change}
    if not js(WORKER % words):
        raise RuntimeError(f"the page has no module {name}")


def in_batches(items, most=2_000_000):
    batch, size = [], 0
    for it in items:
        batch.append(it)
        size += len(it[1])
        if size > most:
            yield batch
            batch, size = [], 0
    if batch:
        yield batch


def module_answers(js, asked, bound=BOUND):
    """What the worker answers to commands on documents."""
    found = []
    for batch in in_batches(asked):
        what = {"part": "answers", "bound": bound, "asked": [[command, letters_of(document)] for command, document in batch]}
        found += [[status, base64.b64decode(letters)] for status, letters in js(f"tell({json.dumps(what)})")]
    return found


def differences(where, titles, asked, found, wanted):
    """Where what was found isn't what is wanted."""
    assert len(titles) == len(asked) == len(found) == len(wanted) > 0
    faults = []
    for title, (command, _), got, want in zip(titles, asked, found, wanted):
        if got != want:
            faults.append(f"{where}, {command} on {title}: {got[0]} {got[1][:80]!r} and not {want[0]} {want[1][:80]!r}")
    return faults


def asked_of(documents):
    """Each command on each document, and the titles."""
    pairs = [(title, command, document) for title, document in documents for command in COMMANDS]
    return [it[0] for it in pairs], [it[1:] for it in pairs]


def answers(page, fsr, picture):
    documents = all_documents()
    titles, asked = asked_of(documents)
    wanted = program_answers(asked, fsr, picture)
    statuses = [it[0] for it in wanted]
    faults = [f"only {statuses.count(it)} answers have the status {it}" for it in (0, 1, 3) if statuses.count(it) < len(asked) / 200]
    told = []
    for kind in browsers():
        browser = opened(kind, page)
        try:
            if browser.js("document.body.dataset.width") != kind.width:
                faults.append(f"{kind.title} doesn't use the module of {kind.width} bits")
            for name in MODULES[kind.title]:
                over_module(browser.js, name)
                faults += differences(f"{kind.title}, {name}", titles, asked, module_answers(browser.js, asked), wanted)
                told.append(f"{len(asked)} in {kind.title} by the {name} module")
        finally:
            browser.end()
    return faults, f"answers to {len(documents)} documents are those of the programs: {', '.join(told)}"


def memory(page, module):
    """Each request for memory refused in turn, or some of them of the dearer runs; then little memory."""
    with open(module, "rb") as file:
        refusing = file.read()
    cases = [it for it in in_files() if it[0].startswith("examples/")]
    faults, sums, browser = [], {"tried": 0, "four": 0, "same": 0, "silent": 0}, opened(browsers()[0], page)
    try:
        over_module(browser.js, data=refusing)
        for title, document in cases:
            for command in COMMANDS:
                what = {"part": "refuseEach", "command": command, "letters": letters_of(document), "most": REFUSALS}
                found = browser.js(f"tell({json.dumps(what)})")
                faults += [f"{command} on {title}, refused {it}" for it in found["wrong"]]
                for it in sums:
                    sums[it] += found[it]
        for name in ("wide", "narrow"):
            faults += little_memory(browser, name, cases)
    finally:
        browser.end()
    if sums["four"] < 5000:
        faults.append(f"only {sums['four']} of {sums['tried']} refusals ended with status 4")
    told = "{tried} refused requests: {four} out of memory, {same} the same answer, {silent} without their line".format(**sums)
    return faults, told


def little_memory(browser, name, cases):
    """The faults where the memory has a bound: the answer is the same, or that it ran out; each happens."""
    path = f"{browser.room}/log.jsonl"
    write_log(path, 20000)
    over_module(browser.js, name)
    asked = [("order", document) for document in [*(it[1] for it in cases), text_of(path).encode()]]
    whole, faults, ends = module_answers(browser.js, asked), [], set()
    for bound in BOUNDS:
        for it, want in zip(module_answers(browser.js, asked, bound), whole):
            is_four = it == [4, b"fsr: out of memory\n"]
            ends.add(is_four)
            if it != want and not is_four:
                faults.append(f"{name}, within {bound} bytes: {it} and not {want}")
    return faults + ([] if ends == {True, False} else [f"{name}, with little memory all ended alike"])


def stacks(page, module, wider):
    """With little stack a run ends in a trap or with the program's answer; with twice that it never traps."""
    titles, asked = asked_of([*in_files(), *of_extremes()])
    browser, found = opened(browsers()[0], page), {}
    try:
        over_module(browser.js, browsers()[0].width == "64" and "wide" or "narrow")
        wanted = module_answers(browser.js, asked)
        for path in (module, wider):
            with open(path, "rb") as file:
                over_module(browser.js, data=file.read())
            found[path] = module_answers(browser.js, asked)
    finally:
        browser.end()
    trapped = [isinstance(it[0], str) for it in found[module]]
    kept = [(title, it, got, want) for title, it, got, want, trap in zip(titles, asked, found[module], wanted, trapped) if not trap]
    faults = differences("with the least stack", *map(list, zip(*kept)))
    faults += differences("with twice the least stack", titles, asked, found[wider], wanted)
    if not 0 < sum(trapped) < len(asked) / 2:
        faults.append(f"with the least stack {sum(trapped)} runs trap")
    others = {got[0] for got in found[module] if isinstance(got[0], str) and "out of bounds" not in got[0]}
    faults += [f"a run with the least stack ends by {it}" for it in others]
    told = f"with the least stack {sum(trapped)} end in a trap, with twice that none, and all others answer the same"
    return faults, f"{len(asked)} runs each: {told}"


def planted(page, fsr, picture, other):
    """The comparison sees other answers, and the page a module that isn't the one of its build."""
    documents = dict(in_files())
    crossed, stale = documents["examples/crossed.json"], documents["examples/lines_stale.jsonl"]
    asked, faults = [("order", crossed)], []
    wanted = program_answers(asked, fsr, picture)
    short = '.replace("BigInt(document.length), buffer", "BigInt(document.length - 2), buffer")'
    cases = {"the answer of check": ([("check", crossed)], ""), "another document": ([("order", stale)], ""), "a cut document": (asked, short)}
    browser = opened(browsers()[0], page)
    try:
        over_module(browser.js, "narrow")
        if differences("", ["crossed"], asked, module_answers(browser.js, asked), wanted):
            faults.append("the comparison fails without a fault")
        for title, (others, change) in cases.items():
            over_module(browser.js, "narrow", change=change)
            if not differences("", ["crossed"], asked, module_answers(browser.js, others), wanted):
                faults.append(f"{title} isn't seen")
        faults += modules_not_seen(browser, page, other)
    finally:
        browser.end()
    return faults, f"{len(cases) + 2} planted faults are seen"


def modules_not_seen(browser, page, other):
    """The modules in place of the page's own with which it begins all the same."""
    text, name = text_of(page), {"64": "wide", "32": "narrow"}[browser.width]
    letters = re.search(rf'id="{name}" data-sum="\w+">([^<]*)<', text)[1]
    flipped = bytearray(gzip.decompress(base64.b64decode(letters)))
    # (within the code, so that it still compiles)
    flipped[len(flipped) * 2 // 3] ^= 1
    with open(other, "rb") as file:
        modules = {"a module with another byte": bytes(flipped), "a module of another build": file.read()}
    for title, wasm in modules.items():
        with open(f"{browser.room}/planted.html", "w", encoding="utf-8") as file:
            file.write(text.replace(letters, letters_of(gzip.compress(wasm))))
        ready = browser.open_file(f"{browser.room}/planted.html")
        told = browser.js("$('sentence').textContent")
        if ready != "error" or "isn't the one of its build" not in told:
            yield f"{title} isn't seen: {ready}, {told}"


def main(what, *words):
    if not browsers():
        print("no browser is installed")
        return 1
    faults, told = {"answers": answers, "memory": memory, "stacks": stacks, "planted": planted}[what](*words)
    print("\n".join([*faults[:20], f"{len(faults)} faults"] if faults else [told]))
    return 1 if faults else 0


if __name__ == "__main__":
    sys.exit(main(*sys.argv[1:]))
