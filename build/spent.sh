# What a run cost, and what docs/dev/TESTING.md says that it costs. They name the folder at the top in $top.

# Puts into $used the processor seconds of this shell and of all that it waited for, by way of a file that may be overwritten.
# (In a subshell the count would begin anew.)
#   count_spent FILE
count_spent() {
    times >"$1"
    used=$(awk '{ for (i = 1; i <= NF; i++) { split($i, part, "m"); sum += 60 * part[1] + part[2] } } END { printf "%.1f", sum }' "$1")
}

# Prints the wall minutes and the processor minutes of a row of the table "What it costs", nothing where there is no such row.
#   written ROW     as in `./test`
written() {
    awk -F'|' -v row="\`$1\`" '
        /^## / { inside = $0 == "## What it costs" }
        !inside { next }
        { gsub(/^ +| +$/, "", $2); gsub(/ /, "", $3); gsub(/ /, "", $4) }
        $2 == row && $3 ~ /^[0-9.]+$/ && $4 ~ /^[0-9.]+$/ { print $3, $4 }' "$top/docs/dev/TESTING.md"
}

# Prints what a run cost beside what is written down.
#   tell_cost TITLE WALL-SECONDS PROCESSOR-SECONDS ROW
tell_cost() {
    awk -v title="$1" -v wall="$2" -v used="$3" -v written="$(written "$4")" 'BEGIN {
        printf "%s: %.1f minutes, %.1f processor minutes", title, wall / 60, used / 60
        if (split(written, it, " ") == 2)
            printf "; docs/dev/TESTING.md has %s and %s, so %+.0f %% of processor time", it[1], it[2], 100 * (used / 60 / it[2] - 1)
        print ""
    }'
}

# Prints how many processor minutes each part of a run took, the dearest first. The file has a line `PART SECONDS` for each part, in their
# order: what the run had used when the part had ended, as count_spent tells it.
#   tell_parts TITLE FILE
tell_parts() {
    awk '{ printf "%.1f %s\n", ($NF - before) / 60, substr($0, 1, length($0) - length($NF) - 1); before = $NF }' "$2" | sort -rn | awk -v title="$1" '
        { sum += $1; told = told sprintf("%s%.1f %s", told == "" ? "" : ", ", $1, substr($0, length($1) + 2)) }
        END { printf "%s: %.1f, of these %s\n", title, sum, told }'
}
