# What `fsr`, `picture`, `package` and other scripts share: whether what is built of a crate is fresh, and how it is built. They name the
# folder at the top in $top.

. "$top/build/spent.sh"
. "$top/build/machine.sh"
set_machine x86_64

# (what is told of a build goes nowhere if standard error is closed)
(: >&2) || exec 2>/dev/null

# Prints a crate and the crates of the repository that it stands on, lowest first; nothing where crates.txt has no such crate. (As
# `crates_below` of listed.py, without Python.)
crates_below() {
    awk -v crate="$1" '
        function visit(name, names, count, i) {
            if (!(name in stands_on) || name in seen) return
            seen[name] = 1
            count = split(stands_on[name], names, " ")
            for (i = 1; i <= count; i++) visit(names[i])
            print name
        }
        { sub(/#.*/, "") }
        /:/ { split($0, part, ":"); split(part[1], head, " "); stands_on[head[1]] = part[2] }
        END { visit(crate) }' "$top/crates.txt"
}

# Whether a file is there and no source that a crate is made of is newer.
is_newer_than_sources() {
    [ -e "$1" ] || return 1
    newer_than=$1
    # (these two are linked with what the file has of the system)
    case $2 in
    fsr | picture) linked=c/os.c ;;
    *) linked= ;;
    esac
    set -- $linked $(crates_below "$2" | sed 's|.*|crates/&/src crates/&/specs crates/&/proofs|')
    [ -z "$(cd "$top" && find crates.txt "$@" -newer "$newer_than" -print -quit 2>/dev/null)" ]
}

# Where a program, or a library for C, stands that is built for the machine.
built_file() {
    case $machine in
    x86_64) folder=$top/crates/$1/out ;;
    *) folder=$top/crates/$1/out/$machine ;;
    esac
    case $1 in
    *_exports) echo "$folder/lib$1.a" ;;
    *) echo "$folder/$1" ;;
    esac
}

# The proved object of a program: the gate's, or that of a build for this alone.
object_of() {
    folder=$(dirname -- "$(built_file "$1")")
    case $machine in
    x86_64) kept=$top/crates/$1/out/stated/$1.o ;;
    *) kept=$top/crates/$1/out/stated/$machine/$1.o ;;
    esac
    if [ ! -e "$kept" ] || [ "$folder/$1.o" -nt "$kept" ]; then kept=$folder/$1.o; fi
    echo "$kept"
}

# Whether a program, or a library for C, is there and no source that it is made of is newer. (build.py goes by the sums of the sources,
# and gives what it finds built a new time.)
is_fresh() {
    case $1 in
    *_exports) ;;
    *) [ -x "$(built_file "$1")" ] || return 1 ;;
    esac
    is_newer_than_sources "$(built_file "$1")" "$1"
}

# Proves and builds a crate and those below it.
build() {
    cost=$(written "$1")
    if [ -n "$cost" ]; then
        echo "build: from nothing $1 took ${cost% *} minutes on the machine of docs/dev/TESTING.md, ${cost#* } processor minutes;" \
            "the lines below say how far it is"
    fi
    python3 "$top/build/build.py" --machine "$machine" "$1"
}

# Sees that a program or the library for C is fresh. Of two calls at once one builds, and the other waits until it has ended, however it
# ends.
make_fresh() {
    is_fresh "$1" && return
    mkdir -p "$top/crates/$1/out" || return 1
    (
        if command -v flock >/dev/null 2>&1; then
            flock -n 9 || { echo "build: another build is under way; waiting for its end" && flock 9; }
        fi
        is_fresh "$1" || build "$1"
    ) 9>"$top/crates/$1/out/building"
}
