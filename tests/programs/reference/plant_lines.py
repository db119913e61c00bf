"""Plants a fault in a lawful log in JSON Lines, which a judge must see.

    plant_lines.py old|lost|misspelt|short|returned < LOG > LOG

`old`: the last read gives the record of the first write. `lost`: the write of the last read's record isn't there. `misspelt`: a line has
`stop` and no `end`. `short`: a line isn't there, and the last line counts it. `returned`: a carriage return alone ends the second line.
"""

import json
import sys


def main(fault):
    rows = [json.loads(line) for line in sys.stdin]
    writes = [row for row in rows if row["kind"] == "write"]
    read = [row for row in rows if row["kind"] == "read"][-1]
    if fault == "old":
        read["record"] = writes[0]["record"]
    elif fault == "lost":
        rows.remove(next(row for row in writes if row["record"] == read["record"]))
        rows[-1]["ops"] -= 1
    elif fault == "misspelt":
        read["stop"] = read.pop("end")
    elif fault == "short":
        rows.remove(read)
    elif fault != "returned":
        sys.exit(__doc__)
    for at, row in enumerate(rows):
        print(json.dumps(row, separators=(",", ":")), end="\r" if fault == "returned" and at == 1 else "\n")


if __name__ == "__main__":
    main(*sys.argv[1:])
