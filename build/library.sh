# What `install` and the tests of the static library share. They name the folder at the top in $top.

. "$top/build/build.sh"

# Builds the library for this machine over the crates below it as the gate has just proved and built them. As with the gate's programs,
# nothing is built unless the crate's own code is proved over these statements.
#   build_over_gate MACHINE
build_over_gate() {
    for crate in $(crates_below c_exports | sed '$d'); do
        made=$top/crates/$crate/out/rlib
        [ ! -e "$made/stamp" ] && is_newer_than_sources "$made/$crate.rlib" "$crate" || return 1
    done
    python3 "$top/build/build.py" --machine "$1" --over-gate c_exports </dev/null >&2
}

# Whether what a prover said is a verdict on the library for a machine: the last line says that all is proved, and has no word that
# something is left out or may wait. The three axioms are the functions that give and take memory. What is taken from an earlier proof
# (`incremental`) is that of the first machine's build, which begins with none.
#   is_verdict MACHINE FILE
is_verdict() {
    goal="axioms=3 target=$1-unknown-linux-gnu"
    [ "$1" != x86_64 ] || goal="$goal cpu=x86-64-v2"
    trusted='native=nat,char,string logic-built=trusted libraries-built=trusted statements=trusted incremental=trusted'
    grep -qx "logic=proved functions=[0-9]* $goal sum=[0-9a-f]* $trusted" "$2"
}

# Whether the second machine's verdict is of the same proofs as the first's: of as many functions and axioms, in the same logic, and over all
# modules that the first has proved, without one of its own.
#   is_same_proof FIRST SECOND      what the prover said of each
is_same_proof() {
    first=$(sed -n 's/^logic=proved \(functions=[0-9]* axioms=[0-9]*\) .* \(sum=[0-9a-f]*\) .*/\1 \2/p' "$1")
    [ -n "$first" ] && [ "$first" = "$(sed -n 's/^logic=proved \(functions=[0-9]* axioms=[0-9]*\) .* \(sum=[0-9a-f]*\) .*/\1 \2/p' "$2")" ] \
        || return 1
    modules=$(awk '/^crate c_exports: modules / { split($4, loaded, "="); split($5, checked, "="); last = loaded[2] + checked[2] } END { print last }' "$1")
    [ -n "$modules" ] && [ "$(grep '^crate c_exports: modules ' "$2")" = "crate c_exports: modules loaded=$modules checked=0" ]
}

# Proves and builds the library for both machines: the proofs once.
prove_library() {
    told=$(mktemp) && told_again=$(mktemp) || return 1
    build_over_gate x86_64 2>"$told" && is_verdict x86_64 "$told" \
        && build_over_gate aarch64 2>"$told_again" && is_verdict aarch64 "$told_again" && is_same_proof "$told" "$told_again"
    are_proved=$?
    cat "$told_again" "$told"
    rm -f "$told" "$told_again"
    return $are_proved
}

# A name for each release whose calls the library has, nidzaru_since_2_1 and on up to $version: a header asks for its own, so that no
# older library links with it.
releases() {
    echo "$version" | awk -F. '{
        for (minor = $1 == 2; minor <= $2; minor++) printf ".globl nidzaru_since_%d_%d\nnidzaru_since_%d_%d:\n", $1, minor, $1, minor
    }'
}

# A number for this build of the library, which processes that share a block compare: the beginning of the sum of its objects' bytes.
fingerprint() {
    sum=$(cat ./*.o | sha256sum | cut -c -16)
    printf '.section .rodata\n.balign 8\n.globl nidzaru_fingerprint\n.hidden nidzaru_fingerprint\nnidzaru_fingerprint:\n.quad 0x%s\n' "$sum"
}

# Makes of the library's objects in this folder one whose only names for others are the library's own calls. They are hidden, so
# that a shared object with the library inside exports none of them, and two such objects in a process don't mix their libraries.
join_objects() {
    # (in this order the bytes are the same everywhere)
    export LC_ALL=C
    releases >releases.s && {
        cat releases.s && sed -n 's/^\.globl /.hidden /p' releases.s
        "${tools}nm" -g --defined-only ./*.o | awk '$3 ~ /^nidzaru_/ { print ".hidden " $3 }'
        fingerprint
        echo '.section .note.GNU-stack,"",@progbits'
    } >hidden.s && "${tools}as" hidden.s -o hidden.o && "${tools}ld" -r -o joined ./*.o \
        && "${tools}objcopy" --wildcard --keep-global-symbol='nidzaru_*' joined nidzaru
}

# Sees that the library asks for nothing but this of the C library, and names what else it asks for.
asks_for_little() {
    more=$("${tools}nm" -u "$1" | awk '$2 !~ /^(malloc|free|memcpy|memmove|memset)$/ { print $2 }' | tr '\n' ' ')
    [ -z "$more" ] || echo "library: it asks for more than memory: $more" >&2
    [ -z "$more" ]
}

# Proves and builds the library for C and this machine, where it isn't built, and puts it into the file that is named, an absolute path,
# with what takes its memory.
make_library() {
    has_tools "$machine" || { echo "library: there is no ${tools}ld, of Debian's package gcc-aarch64-linux-gnu" >&2 && return 1; }
    kit=$(dirname -- "$(rt doc)") || return 1
    make_fresh c_exports </dev/null >&2 || return 1
    exports=$(readlink -f -- "$(built_file c_exports)") || return 1
    unpacked=$(mktemp -d) || return 1
    (
        version=$(version_of_header) && cd "$unpacked" || exit 1
        ar x "$exports" && compile_own heap && join_objects && asks_for_little nidzaru && mv nidzaru nidzaru.o \
            && rm -f "$1" && "${tools}ar" rcsD "$1" nidzaru.o
    )
    made=$?
    rm -rf "$unpacked"
    return $made
}

# The version that stands in the header, which is that of all parts.
version_of_header() {
    awk '/^#define NIDZARU_VERSION_(MAJOR|MINOR|PATCH)/ { printf dot "%s", $3; dot = "." }' "$top/c/nidzaru.h"
}

# The pages that go with the library: what the header cites, what that page's readers need next, the examples and the licences.
library_pages='CHANGELOG.md LICENSE-MIT LICENSE-APACHE docs/C.md docs/INSTALL.md docs/RUST.md docs/ASSUMPTIONS.md
    docs/BOARD.md docs/pictures/handed_on.svg docs/pictures/board_written_cell.svg examples/c/tasks.c examples/c/tasks.cpp examples/c/board.c examples/c/fan.c examples/c/own_memory.c
    examples/c/processes.c examples/c/processes.cpp examples/c/plugins.c examples/c/jack.c'

# What the tests of an installed library need, which have a tar of their own.
tests_alone='build c examples rust tests tools/convert tools/library_soak.sh tools/disturb.c docs/INSTALL.md'

# Lays out the library with its headers and pages, and the script that installs them, in a new folder, an absolute path.
lay_out() {
    mkdir -p "$1/lib" "$1/include" && make_library "$1/lib/libnidzaru.a" && sed "s/@MACHINE@/$machine/" "$top/packaging/install" >"$1/install" \
        && cp "$top/c/nidzaru.h" "$top/c/nidzaru.hpp" "$top/c/nidzaru_log.h" "$top/c/nidzaru_shared.h" "$top/c/nidzaru_shared.hpp" "$1/include/" \
        && python3 "$top/packaging/pages.py" "$1/share/doc/nidzaru" $library_pages
}
