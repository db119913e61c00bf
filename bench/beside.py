"""One writer and one reader over each way to share a record, beside one another in one run: medians and worst cases, with a picture.

    beside.py PREFIX [ROUNDS [CALLS [PICTURE.svg]]]     over the library that is installed there; 5 rounds of 2,000,000 calls

Each round runs the ways of each size in another order, and each figure is the median of the rounds, the most the greatest of all. It needs gcc,
and for read-copy-update Debian's liburcu-dev. Times say something on an idle machine alone; the records that are torn or older are looked at
on any.
"""

import collections
import math
import os
import statistics
import subprocess
import sys
import tempfile

HERE = os.path.dirname(os.path.realpath(__file__))
SIZES = 24, 256, 4096, 65536
NAMES = {"four_slot": "four slots", "triple": "triple buffer", "mutex": "mutex", "rwlock": "read-write lock", "seqlock": "sequence lock",
         "urcu": "liburcu"}
FIGURES = "median", "99.9 %", "99.99 %", "most"


def calls_of(size, calls):
    """So many calls that each size takes about as long."""
    return max(100_000, calls * 24 // max(size, 2400))


def build(prefix, size, room):
    words = ["gcc", "-std=gnu11", "-O2", f"-DBYTES={size}", f"-I{prefix}/include", f"{HERE}/beside.c", f"{prefix}/lib/libnidzaru.a", "-pthread",
             "-o", f"{room}/beside_{size}"]
    if subprocess.run([*words, "-DURCU", "-lurcu-memb"], capture_output=True, check=False).returncode:
        subprocess.run(words, check=True)


def run(room, size, calls, turn):
    """By way, mode and call the figures of one round."""
    said = subprocess.run([f"{room}/beside_{size}", str(calls_of(size, calls)), str(turn)], capture_output=True, text=True, check=False)
    for line in said.stdout.splitlines():
        _, way, mode, call, *figures = line.split(",")
        yield (way, mode, call), [int(it) for it in figures]
    if said.returncode:
        what = "a record that is torn or older" if said.returncode == 1 else f"the program ended with status {said.returncode}"
        sys.exit(f"{size} bytes: {what}\n{said.stdout}{said.stderr}")


def measure(prefix, rounds, calls):
    rows = collections.defaultdict(list)
    with tempfile.TemporaryDirectory() as room:
        for size in SIZES:
            build(prefix, size, room)
        for turn in range(rounds):
            for size in SIZES:
                for key, figures in run(room, size, calls, turn):
                    rows[size, *key].append(figures)
    return {key: [*(statistics.median(it[k] for it in all_of) for k in range(3)), max(it[3] for it in all_of)] for key, all_of in rows.items()}


def table(rows):
    print("| Bytes | Way | alone: write, read | busy: write, read | 99.9 % | 99.99 % | most |\n|---|---|---|---|---|---|---|")
    for size in SIZES:
        for way in NAMES:
            if (size, way, "busy", "read") not in rows:
                continue
            alone = [f"{rows[size, way, 'alone', call][0]:,.0f}" for call in ("write", "read")]
            busy = [[f"{rows[size, way, 'busy', call][k]:,.0f}" for call in ("write", "read")] for k in range(4)]
            print(f"| {size:,} | {NAMES[way]} | {', '.join(alone)} | " + " | ".join("; ".join(pair) for pair in busy) + " |")


def picture(rows, path):
    """A bar from the median to the 99.99th percentile of a read beside a busy writer, by size and way, over a scale of powers of ten."""
    wide, high, left = 46, 280, 110
    bars = [(size, way) for size in SIZES for way in NAMES if (size, way, "busy", "read") in rows]
    place = lambda ns: high + 20 - 32 * math.log10(max(1, ns))
    colors = dict(zip(NAMES, ("#1f6feb", "#3fb950", "#d1242f", "#bf8700", "#8250df", "#57606a")))
    parts = [f'<svg xmlns="http://www.w3.org/2000/svg" viewBox="0 0 {left + wide * len(SIZES) * 4 + 20} {high + 80}" font-family="sans-serif" '
             'font-size="12"><rect width="100%" height="100%" fill="#fff"/>']
    for power in range(9):
        y = place(10 ** power)
        parts.append(f'<line x1="{left}" x2="100%" y1="{y}" y2="{y}" stroke="#d0d7de"/><text x="{left - 6}" y="{y + 4}" text-anchor="end">'
                     f"{10 ** power:,} ns</text>")
    step = wide * 4 / (len(NAMES) + 1)
    for size, way in bars:
        x = left + SIZES.index(size) * wide * 4 + (list(NAMES).index(way) + 1) * step - step / 2
        low, _, top, _ = rows[size, way, "busy", "read"]
        parts.append(f'<rect x="{x:.1f}" y="{place(top):.1f}" width="{step * 0.7:.1f}" height="{max(1, place(low) - place(top)):.1f}" '
                     f'fill="{colors[way]}"><title>{NAMES[way]}, {size:,} bytes: {low:,.0f} to {top:,.0f} ns</title></rect>')
    for k, size in enumerate(SIZES):
        parts.append(f'<text x="{left + (k + 0.5) * wide * 4}" y="{high + 40}" text-anchor="middle">{size:,} bytes</text>')
    for k, (way, name) in enumerate(NAMES.items()):
        parts.append(f'<rect x="{left + k * 130}" y="{high + 54}" width="10" height="10" fill="{colors[way]}"/>'
                     f'<text x="{left + k * 130 + 15}" y="{high + 63}">{name}</text>')
    with open(path, "w", encoding="utf-8") as file:
        file.write("\n".join([*parts, "</svg>\n"]))


def main(prefix, rounds=5, calls=2_000_000, path=None):
    rows = measure(prefix, int(rounds), int(calls))
    table(rows)
    if path:
        picture(rows, path)


if __name__ == "__main__":
    if len(sys.argv) < 2:
        sys.exit(__doc__)
    main(*sys.argv[1:])
