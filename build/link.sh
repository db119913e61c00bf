#!/bin/sh
# Links a program of its proved object and c/os.c. For another machine than the toolchain's own its C compiler links, with its C library.
# usage: build/link.sh MACHINE OBJECT PROGRAM
[ $# = 3 ] || { echo "usage: build/link.sh MACHINE OBJECT PROGRAM" >&2; exit 2; }
top=$(dirname -- "$(dirname -- "$(readlink -f -- "$0")")")
. "$top/build/machine.sh"
set_machine "$1" || exit
kit=$(dirname -- "$(rt doc)") && room=$(mktemp -d) || exit 1
trap 'rm -rf "$room"' EXIT
trap 'exit 1' HUP INT TERM
(cd "$room" && compile_own os) || exit 1
case $machine in
x86_64) "$kit/bin/rattle-link" --target "$target" --toolchain "$kit/toolchain" -o "$3" "$2" "$room/os.o" ;;
*) "${tools}gcc" -Wl,-z,now -o "$3" "$2" "$room/os.o" ;;
esac
