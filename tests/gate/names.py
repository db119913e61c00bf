"""The names of the definitions in specs/: one that begins with a capital names one thing.

    names.py      prints each name that two crates, or two files of a crate, define: status 1 if there is one

Two kinds are left out: twins, which the two mechanisms define each for itself, and names of one idea over two kinds of thing, which are
listed here. No other name comes to this list but by hand.
"""

import collections
import os
import re
import sys

TOP = os.path.dirname(os.path.dirname(os.path.dirname(os.path.realpath(__file__))))
HEAD = re.compile(r"^\s*(?:(?:abbrev|unfoldable|opaque|pub|record|data) )+([A-Z][^\s:({]*)")
# Of each mechanism the files that have a twin of the other's.
TWINS = (
    ({"cell_four_slot", "cell_triple"}, "crates/{}/specs/"),
    ({"family_four_slot", "family_triple"}, "crates/{}/specs/"),
    ({"FourSlotCalls", "TripleCalls"}, "crates/c_registers/specs/{}.antt"),
)

# Names of one idea over two kinds of thing, as a call of a history and one of a running board, an operation of a register and one of any
# object, or a slot that has what it was to get.
OVER_TWO = {
    "Accesses", "AreForwards", "EndsBefore", "IsBelow", "IsBoardRun", "IsCounted", "IsEarly", "IsFresh", "IsListing",
    "IsReady", "IsReceipt", "KeepsPrecedence", "MayStand", "Precedes", "Sees", "ShowsAll", "WritesOnce",
}


def definitions():
    """By each name the files that define it."""
    found = collections.defaultdict(set)
    for at, _, files in os.walk(f"{TOP}/crates"):
        for name in files:
            if name.endswith(".antt") and "/specs" in at and "/out" not in at:
                path = f"{at}/{name}"
                with open(path, encoding="utf-8") as file:
                    for line in file:
                        head = HEAD.match(line)
                        if head:
                            found[head[1]].add(os.path.relpath(path, TOP))
    return found


def side(path):
    """The mechanism that a file is of, where it may have a twin."""
    for pair, place in TWINS:
        for it in pair:
            if path.startswith(place.format(it)):
                return it
    return None


def are_twins(paths):
    sides = [side(it) for it in paths]
    return None not in sides and len(set(sides)) == len(sides)


def main():
    found = definitions()
    shared = {name: sorted(paths) for name, paths in found.items() if len(paths) > 1 and name not in OVER_TWO and not are_twins(paths)}
    for name, paths in sorted(shared.items()):
        print(f"{name} is defined by {' and by '.join(paths)}")
    if shared or not found:
        return 1
    print(f"{len(found)} names of definitions mean one thing each")
    return 0


if __name__ == "__main__":
    sys.exit(main())
