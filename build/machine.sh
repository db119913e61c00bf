# The machines that the library and the programs are built for, and their names. Who reads this names the folder at the top in $top.

machines='x86_64 aarch64'

# Sets the names of a machine: for the toolchain, for GNU's tools, which have a prefix where this machine is another one, for Debian, and for
# readers.
#   set_machine MACHINE
set_machine() {
    machine=$1
    case $1 in
    x86_64) debian=amd64 processor=x86-64 ;;
    aarch64) debian=arm64 processor='64-bit ARM' ;;
    *) echo "library: there is none for the machine $1, but for $machines" >&2 && return 2 ;;
    esac
    target=$1-unknown-linux-gnu gnu=$1-linux-gnu tools=
    [ "$(uname -m)" = "$1" ] || tools=$gnu-
}

# Whether the tools for a machine are there: binutils, or with `programs` the C compiler too, which links them.
#   has_tools MACHINE [programs]
has_tools() {
    (set_machine "$1" && command -v "${tools}ld" "${tools}objcopy" && { [ -z "$2" ] || [ -z "$tools" ] || command -v "${tools}gcc"; }) >/dev/null
}

# Compiles a file of c/ for the machine by the kit's clang, so that the bytes are the same everywhere.
#   compile_own NAME      makes NAME.o here of c/NAME.c
compile_own() {
    "$kit/toolchain/bin/clang" --target="$target" -std=c11 -O2 -fPIC -ffreestanding -Wall -Wextra -Werror -c "$top/c/$1.c" -o "$1.o"
}
