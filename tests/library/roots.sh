#!/bin/sh
# By hand, and no part of `./test`: the packages under out/packages/ in two fresh Debian roots, one of which has gcc alone and the other
# g++, CMake, musl and cargo too, as a new user takes them. It says how many seconds each step takes. It wants root, mmdebstrap and, the
# first time, a network. With `--machine aarch64` the roots are Debian's for 64-bit ARM, which run by qemu-user-static (emulate.py); the
# second has the tests' tar, too, and runs them as on a machine without the toolchain. The last line is the sums.
# usage: tests/library/roots.sh [--machine aarch64] FOLDER      where the roots are kept
top=$(readlink -f -- "$(dirname -- "$(readlink -f -- "$0")")/../..")
passed=0 failed=0
. "$top/tests/gate/outcomes.sh"
. "$top/build/machine.sh"
set_machine "$(uname -m)" && in_machine= || exit
case $1 in
--machine) set_machine "$2" && [ "$machine" = "$(uname -m)" ] || in_machine="python3 $top/tests/library/emulate.py" && shift 2 ;;
esac
[ $# = 1 ] && [ "$(id -u)" = 0 ] || { echo "usage, as root: tests/library/roots.sh [--machine aarch64] FOLDER" >&2; exit 2; }
roots=$1
room=$(mktemp -d) || exit 1
trap 'rm -rf "$room"' EXIT

# Makes a root of this release with these packages, and puts the user's home with nothing but our packages for the machine into it.
make_root() {
    root=$roots/$1
    [ -x "$root/usr/bin/gcc" ] || { mkdir -p "$root" \
        && $in_machine mmdebstrap --mode=root --variant=minbase --architectures="$debian" "--include=$3" "$2" "$root.tar" \
        && tar -C "$root" -xf "$root.tar" --exclude='./dev/*'; } || exit 1
    rm -rf "$root/home/user" "$root/usr/local"
    mkdir -p "$root/home/user" "$root/usr/local" && cp "$top"/out/packages/*"$machine"* "$top"/out/packages/*"$debian".deb \
        "$top"/out/packages/*.crate "$top"/out/packages/nidzaru-tests-* "$top/examples/c/small.c" "$root/home/user/" || exit 1
    [ -e "$root/dev/null" ] || mknod -m 666 "$root/dev/null" c 1 3
    [ -e "$root/dev/urandom" ] || mknod -m 666 "$root/dev/urandom" c 1 9
    mkdir -p "$root/dev/shm" && chmod 1777 "$root/dev/shm"
    echo "$1: $2 for $($in_machine chroot "$root" dpkg --print-architecture), $($in_machine chroot "$root" gcc --version | head -n 1)," \
        "rt: $($in_machine chroot "$root" sh -c 'command -v rt' || echo none)"
}

# One step in the root: the last line of what it says has to be this.
#   step TITLE LAST-LINE COMMANDS
step() {
    began=$(date +%s.%N)
    said=$($in_machine chroot "$root" env -i PATH=/usr/sbin:/usr/bin:/sbin:/bin HOME=/home/user sh -ec "cd; $3" 2>&1 </dev/null | tail -n 1)
    took=$(echo "$(date +%s.%N) $began" | awk '{ printf "%.1f", $1 - $2 }')
    if [ "$said" = "$2" ]; then
        pass "$1, $took s"
    else
        fail "$1, $took s" "$said"
    fi
}

# One step with processes that share a block, one of which is killed. (qemu's programs have no robust mutexes.)
#   between TITLE COMMANDS
between() {
    [ -n "$in_machine" ] || step "$1" 'none was torn' "{ $2; } | grep -o 'none was torn'"
}

whole='no record was torn'
doc=share/doc/nidzaru/examples/c
flags='$(PKG_CONFIG_PATH=$HOME/prefix/lib/pkgconfig pkg-config --cflags --libs nidzaru)'
cmake_lists='cmake_minimum_required(VERSION 3.12)
project(mine CXX)
set(CMAKE_CXX_STANDARD 17)
find_package(Threads REQUIRED)
find_package(nidzaru 2.1 REQUIRED)
add_executable(mine tasks.cpp)
target_link_libraries(mine nidzaru::nidzaru Threads::Threads)'

make_root gcc bookworm gcc,libc6-dev
catches "a step that says something else" "another word" step a "$whole" "echo another word"
catches "a step that fails on the way" "FAILED: \$" step a "$whole" "false; echo '$whole'"
step "no library before" none "tar xf nidzaru-2*-linux.tar.gz; cd nidzaru-2*-linux
    cc -O2 $doc/tasks.c -lnidzaru -pthread -o ../mine || echo none"
step "C from the tar, installed" "$whole" "tar xf nidzaru-2*-linux.tar.gz; cd nidzaru-2*-linux; ./install /usr/local
    cc -O2 $doc/tasks.c -lnidzaru -pthread -o ../mine; ../mine"
step "the README's program in C" "$whole" "cc -O2 small.c -lnidzaru -pthread -o mine; ./mine"
step "C from the tar, a board" "$whole" "cd nidzaru-2*-linux; cc -O2 $doc/board.c -lnidzaru -pthread -o ../mine; ../mine"
step "C from where the tar lies" "$whole" "cd nidzaru-2*-linux; cc -O2 $doc/tasks.c -Iinclude lib/libnidzaru.a -pthread -o ../mine; ../mine"
between "C between processes" "cd nidzaru-2*-linux; cc -std=gnu11 -O2 $doc/processes.c -lnidzaru -pthread -o ../mine; cd; ./mine 20 ./mine"
step "uninstalled" 0 "cd nidzaru-2*-linux; ./install --uninstall /usr/local; find /usr/local -type f | wc -l"
step "C from the Debian package" "$whole" "dpkg -i libnidzaru-dev_*.deb
    cc -O2 /usr/share/doc/libnidzaru-dev/examples/c/tasks.c -lnidzaru -pthread -o mine
    dpkg -r libnidzaru-dev; ./mine"

if ls "$top"/out/packages/nidzaru-programs-* >/dev/null 2>&1; then
    step "the programs" 0 "tar xf nidzaru-programs-*.tar.gz; cd nidzaru-programs-*-linux; bin/fsr check <examples/lawful.json >said
        cmp said examples/lawful.txt; echo \$?"
fi

make_root all trixie "gcc,g++,make,cmake,pkgconf,musl-tools,cargo,rustc${in_machine:+,python3}"
step "C++ by CMake" "$whole" "tar xf nidzaru-2*-linux.tar.gz; cd nidzaru-2*-linux; ./install ~/prefix
    mkdir ~/cpp; cp $doc/tasks.cpp ~/cpp; cd ~/cpp
    echo '$cmake_lists' >CMakeLists.txt; cmake -B built -DCMAKE_PREFIX_PATH=\$HOME/prefix; cmake --build built; built/mine"
step "Rust from the crate" "$whole" "tar xf nidzaru-2*.crate
    cargo init -q --vcs none mine; cd mine; cargo add -q --offline --path ../nidzaru-2*.*[0-9]
    cp ../nidzaru-2*.*[0-9]/examples/control_loop.rs src/main.rs
    { sleep 0.3; echo hold; sleep 0.1; echo run; sleep 0.2; echo stop; } | cargo run -q --offline"
step "the README's program in Rust" "$whole" "cd mine; cp ../nidzaru-2*.*[0-9]/examples/small.rs src/main.rs; cargo run -q --offline"
between "C++ between processes" "cd nidzaru-2*-linux; c++ -std=c++17 -O2 $doc/processes.cpp $flags -pthread -o ../mixed; ../mixed 20"
between "Rust between processes" "cd mine; cargo add -q --offline --features shared --path ../nidzaru-2*.*[0-9]
    cp ../nidzaru-2*.*[0-9]/examples/processes.rs src/main.rs; cargo build -q --offline; target/debug/mine 20 target/debug/mine"
between "C beside Rust" "cd nidzaru-2*-linux; cc -std=gnu11 -O2 $doc/processes.c $flags -pthread -o ../mixed; cd; ./mixed 20 mine/target/debug/mine"
step "C by pkg-config" "$whole" "cd nidzaru-2*-linux; cc -O2 $doc/tasks.c $flags -pthread -o ../c; ../c"
[ -z "$in_machine" ] || step "the tests' package" "passed, 0 failed" "tar xf nidzaru-tests-*.tar.gz; cd nidzaru-tests-*
    tests/arm.sh ~/prefix >../tests.log; tail -n 1 ../tests.log | sed 's/^[1-9][0-9]* //'"
step "C with musl" "$whole" "cd nidzaru-2*-linux
    musl-gcc -static -O2 $doc/tasks.c -I\$HOME/prefix/include ~/prefix/lib/libnidzaru.a -pthread -o ../c; ../c"
step "C over a moved prefix" "$whole" "mv prefix kept; mkdir -p new; mv kept new/prefix; HOME=\$HOME/new; cd nidzaru-2*-linux
    cc -O2 $doc/board.c $flags -pthread -o ../c; ../c"
step "C with LIBDIR=lib64" "$whole" "cd nidzaru-2*-linux; LIBDIR=lib64 ./install ~/wide
    cc -O2 $doc/tasks.c \$(PKG_CONFIG_PATH=\$HOME/wide/lib64/pkgconfig pkg-config --cflags --libs nidzaru) -pthread -o ../c; ../c"
step "C++ by CMake over the Debian package" "$whole" "dpkg -i libnidzaru-dev_*.deb; cd cpp; rm -r built; cmake -B built; cmake --build built
    dpkg -r libnidzaru-dev; built/mine"
echo "$passed passed, $failed failed"
[ "$failed" = 0 ]
