"""Compares the page docs/stepper.html with the proved four-slot cell and with the player, in each browser that is installed.

    stepper.py GROWTHS FSR [SHOTS]     the states to which the page's module leads with those of the cell that GROWTHS steps, and what the page
                                       shows of schedules with what `FSR play` prints; pictures of the page go to the folder SHOTS

A state is digits: latest, reading, slot[0], slot[1], the writer's last event and slot, the reader's last event and slot.
"""

import glob
import json
import os
import random
import re
import subprocess
import sys
import time

from browser import browsers

TOP = os.path.dirname(os.path.dirname(os.path.dirname(os.path.realpath(__file__))))
PAGE = f"{TOP}/docs/stepper.html"
SHOWN = re.compile(r"([01]) ([01]) ([01]) ([01]) W(\d) (\d) R(\d) (\d) (\S+) (\S+)")
# The states to which the page's module leads.
STATES = """(pause(), %s.map(steps => { const it = after(steps);
    return [it.latest, it.reading, ...it.slots, it.write, it.writeSlot, it.read, it.readSlot].join("") }))"""


def states_after(growths, schedules):
    """The states in which new cells are after these schedules, as digits."""
    words = [growths, "step_cell", "".join(it + "." for it in schedules)]
    lines = subprocess.run(words, stdout=subprocess.PIPE, text=True, check=True).stdout.splitlines()
    assert len(lines) == len(schedules), "growths printed no line for some schedule"
    states = []
    for line in lines:
        *digits, writing, reading = SHOWN.fullmatch(line).groups()
        # a side is in its slot after its second, or its fourth, event
        assert writing == (f"Some({digits[5]})" if digits[4] == "2" else "None"), line
        assert reading == (f"Some({digits[7]})" if digits[6] == "4" else "None"), line
        states.append("".join(digits))
    return states


def reached(growths):
    """By a schedule each state that is found by stepping from those that are: of each state and of each step from it."""
    found, states, newest = {}, {}, [""]
    while newest:
        for steps, state in zip(newest, states_after(growths, newest)):
            found[steps] = state
            states.setdefault(state, steps)
        newest = [steps + side for steps in newest if states[found[steps]] == steps for side in "wr"]
    return found


def schedules():
    """Those of the examples, and random ones."""
    found = []
    for file in sorted(glob.glob(f"{TOP}/examples/*.json") + glob.glob(f"{TOP}/tests/programs/schedules/*.json")):
        with open(file, encoding="utf-8", errors="replace") as text:
            steps = re.search(r'"kind":\s*"cell".*"steps":\s*"([wr]*)"', text.read(), re.S)
        if steps and len(steps[1]) < 1000:
            found.append(steps[1])
    chance = random.Random(20261123)
    return found + ["ww", "www"] + ["".join(chance.choice("wr" * (1 + k % 3) + "w" * (k % 2)) for _ in range(5 + 3 * k)) for k in range(60)]


def held_after(steps, report):
    """The records that lie in the slots, by the slots of the report: a write's is in its slot from its third step on."""
    held, slots = ["[0,0,0]"] * 4, re.findall(r"write by 0, .*, slot (\d), (\S+)", report)
    for write, (slot, record) in enumerate(slots):
        if steps.count("w") >= 5 * write + 3:
            held[int(slot)] = record
    return held


def shows_as_played(page, fsr):
    """The schedules of which the page shows otherwise than the player."""
    for steps in schedules():
        page.js(f"go({json.dumps(steps)}, '')")
        document, report = page.js("[$('document').textContent, $('report').textContent]")
        played = subprocess.run([fsr, "play"], input=document, stdout=subprocess.PIPE, text=True, check=False)
        if played.returncode or played.stdout != report:
            yield f"of {steps} the page shows {report!r} and fsr plays {played.stdout!r}"
        shown = page.js("[...document.querySelectorAll('.slot')].map(it => it.children[1].textContent.split(' ')[0])")
        if shown != held_after(steps, played.stdout):
            yield f"of {steps} the page shows {shown} in the slots"


def steps_by_hand(page):
    """What clicks and keys don't do."""
    page.js("go('', '')")
    for _ in range(3):
        page.click("#w")
    for key in "rrrr":
        page.key(key)
    yield from (f"clicks and keys led to {it}" for it in [page.js("location.hash")] if it != "#wwwrrrr")
    page.key("ArrowLeft")
    page.click("#undo")
    page.key("ArrowRight")
    yield from (f"back and forth led to {it}" for it in [page.js("location.hash")] if it != "#wwwrrr")


def plays_itself(page):
    """How the page doesn't play the stories, the sleeping reader first: those are the steps of examples/."""
    with open(f"{TOP}/examples/stalled_reader.json", encoding="utf-8") as file:
        first = json.load(file)["steps"]
    page.open_file(PAGE)
    if not page.waits_for("steps.length > 1") or page.js("steps + undone") != first:
        yield f"it doesn't begin with the sleeping reader: {page.js('[steps, undone]')}"
    page.key("p")
    before = page.js("[playing, steps]")
    time.sleep(1.2)
    if page.js("[playing, steps]") != before or before[0]:
        yield "it goes on where it is to pause"
    page.js("$('speed').add(new Option('at once', 1)), $('speed').value = 1, $('play').click()")
    if not page.waits_for("story === 1"):
        yield "after the first story comes no other"
    page.key("w")
    if page.js("playing"):
        yield "it plays on after a step by hand"


def page_faults(kind, states, fsr, shots):
    """What a page shows otherwise than the cell and the player, and what it fetches."""
    page = kind()
    try:
        if page.open_file(PAGE) != "yes":
            return ["the page doesn't begin"]
        found = page.js(STATES % json.dumps(list(states)))
        faults = [f"{steps} leads to {got} and not to {state}" for (steps, state), got in zip(states.items(), found) if got != state]
        if faults:
            return faults
        for part in (shows_as_played(page, fsr), steps_by_hand(page), plays_itself(page), page.looks(PAGE, "#wwwwwwwrrrr", shots and f"{shots}/stepper")):
            faults += part
        return faults + [f"the browser says {it}" for it in page.said()]
    finally:
        page.end()


def main(growths, fsr, shots=None):
    if shots:
        os.makedirs(shots, exist_ok=True)
    states, found = reached(growths), browsers()
    # (a schedule leads to each state, and one step more to those that follow)
    count = len(set(states.values()))
    faults = [f"in {kind.title}, {it}" for kind in found for it in page_faults(kind, states, fsr, shots)]
    where = " and ".join(it.title for it in found)
    told = f"in {where} the module gives the {count} states of the proved cell, and {len(schedules())} schedules are shown as fsr plays them"
    print("\n".join(faults[:20] or [told if found else "no browser is installed"]))
    return 1 if faults or not found else 0


if __name__ == "__main__":
    sys.exit(main(*sys.argv[1:]))
