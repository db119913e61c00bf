# What tests/library/package.sh does with the packages as a user does, and how their script installs and takes away.

# A C program over the library that pkg-config finds in this folder, run where nothing of the toolchain is.
in_c() {
    program=$1 folder=$2
    flags=$(in_clean PKG_CONFIG_PATH="$folder/pkgconfig" pkg-config --cflags --libs nidzaru) || return 1
    in_clean cc -std=c11 -O2 -Wall -Werror "$examples/$program" $flags -pthread -o "$room/program" || return 1
    in_clean "$room/program" >"$room/told" && tail -n 1 "$room/told" | grep -qx 'no record was torn'
}

# Programs over memory that processes share.
between_processes() {
    flags=$(in_clean PKG_CONFIG_PATH="$clean/prefix/lib/pkgconfig" pkg-config --cflags --libs nidzaru) || return 1
    in_clean "$@" -O2 -Wall -Werror $flags -pthread -o "$room/program" && in_clean "$room/program" 10 >"$room/told" \
        && tail -n 1 "$room/told" | grep -q 'none was torn$'
}

in_musl() {
    in_clean musl-gcc -static -std=c11 -O2 "$examples/tasks.c" "-I$1/include" "$1/lib/libnidzaru.a" -pthread \
        -o "$room/program" && in_clean "$room/program" | grep -qx 'no record was torn'
}

# A project that asks CMake for this version, twice, with the packages of a prefix and these words. No compiler is looked for.
#   configure VERSION PREFIX WORDS..
configure() {
    rm -rf "$packages/asks" && mkdir "$packages/asks" || return 1
    cat >"$packages/asks/CMakeLists.txt" <<CMAKE
cmake_minimum_required(VERSION 3.19)
project(asks NONE)
find_package(nidzaru $1 REQUIRED)
find_package(nidzaru $1 REQUIRED)
get_target_property(library nidzaru::nidzaru IMPORTED_LOCATION)
if(NOT EXISTS "\${library}")
  message(FATAL_ERROR "there is no \${library}")
endif()
CMAKE
    prefix_path=$2
    shift 2
    in_clean cmake -S "$packages/asks" -B "$packages/asks/built" "-DCMAKE_PREFIX_PATH=$prefix_path" "$@"
}

# Finds the CMake package by a link to its folder.
configure_by_link() {
    ln -s "$1/lib/cmake/nidzaru" "$clean/linked" && configure '' "$clean/nowhere" "-Dnidzaru_DIR=$clean/linked"
}

in_cpp() {
    rm -rf "$packages/cmake" && mkdir "$packages/cmake" && cp "$examples/tasks.cpp" "$packages/cmake/" || return 1
    cat >"$packages/cmake/CMakeLists.txt" <<CMAKE
cmake_minimum_required(VERSION 3.12)
project(tasks CXX)
set(CMAKE_CXX_STANDARD 17)
find_package(Threads REQUIRED)
find_package(nidzaru ${version%.*} REQUIRED)
add_executable(tasks tasks.cpp)
target_link_libraries(tasks nidzaru::nidzaru Threads::Threads)
CMAKE
    in_clean cmake -S "$packages/cmake" -B "$packages/cmake/built" "-DCMAKE_PREFIX_PATH=$1" \
        && in_clean cmake --build "$packages/cmake/built" && in_clean "$packages/cmake/built/tasks" | grep -qx 'no record was torn'
}

# A program in Rust over the packaged crate: no library is installed for it, and nothing to look for one.
in_rust_of_package() {
    mkdir "$packages/rust" && cd "$packages/rust" && in_clean cargo init -q --vcs none --name mine \
        && in_clean cargo add -q --offline --path "../$1" || return 1
    cat >src/main.rs <<'RUST'
fn main() -> Result<(), Box<dyn std::error::Error>> {
    let (mut writer, mut reader) = nidzaru::register([0u64; 5])?;
    let sensor = std::thread::spawn(move || (1..=1000).try_for_each(|n| writer.write(&[n; 5])));
    while reader.number() < 1000 {
        let seen = reader.latest();
        assert_eq!(seen, [reader.number(); 5]);
    }
    sensor.join().unwrap()?;
    let mut places = nidzaru::board(3, 1.5)?;
    places[2].write(&2.5)?;
    println!("{} {} {}", reader.latest()[4], places[0].read(), nidzaru::library_version());
    Ok(())
}
RUST
    [ "$(in_clean PKG_CONFIG=/nowhere CARGO_TARGET_DIR="$packages/target" cargo run -q --offline)" = "1000 2.5 $number" ]
}

# The packaged crate's own example between processes.
in_rust_between_processes() {
    in_clean PKG_CONFIG=/nowhere CARGO_TARGET_DIR="$packages/target" cargo run -q --offline --features shared --example processes \
        --manifest-path "$packages/nidzaru-$version/Cargo.toml" 10 >"$room/told" && grep -q 'none was torn$' "$room/told"
}

# A program over the crate of the repository, which looks for an installed library; it prints the library's version.
write_over() {
    mkdir -p "$packages/over/src" && cp -r rust/nidzaru "$packages/over/nidzaru" || return 1
    printf '[package]\nname = "over"\nversion = "1.0.0"\nedition = "2021"\n[dependencies]\nnidzaru = { path = "nidzaru" }\n' \
        >"$packages/over/Cargo.toml"
    echo 'fn main() { println!("{}", nidzaru::library_version()); }' >"$packages/over/src/main.rs"
}

run_over() {
    in_clean PKG_CONFIG_PATH="$clean/prefix/lib/pkgconfig" CARGO_TARGET_DIR="$packages/target" \
        cargo run -q --offline --manifest-path "$packages/over/Cargo.toml"
}

tells_version() {
    said=$(run_over) && echo "it runs with $said" && [ "$said" = "$1" ]
}

# Puts another library into the prefix: its version is one more.
install_another() {
    cp "$clean/prefix/lib/libnidzaru.a" "$packages/first.a" && cp "$packages/first.a" "$packages/other.a" || return 1
    (
        cd "$packages" && echo "unsigned nidzaru_version(void) { return $((number + 1)); }" | cc -O1 -c -x c - -o other.o \
            && ar x first.a nidzaru.o && objcopy --redefine-sym nidzaru_version=nidzaru_version_before nidzaru.o && rm other.a \
            && ar rcsD other.a nidzaru.o other.o
    ) && cp "$packages/other.a" "$clean/prefix/lib/libnidzaru.a"
}

# Says that the installed library is of another version.
claim_version() {
    sed -i "s/^Version: .*/Version: $1/" "$clean/prefix/lib/pkgconfig/nidzaru.pc"
}

install_to() {
    in_clean "LIBDIR=$2" "$unpacked/install" "$1"
}

# Whether a prefix has this folder for the library, and a user of pkg-config gets along with it.
is_in_libdir() {
    install_to "$clean/wide" "$1" && [ -f "$clean/wide/$1/libnidzaru.a" ] && [ "$(find "$clean/wide" -name '*.a' | wc -l)" = 1 ] || return 1
    for variable in includedir libdir; do
        [ -d "$(in_clean PKG_CONFIG_PATH="$clean/wide/$1/pkgconfig" pkg-config "--variable=$variable" nidzaru)" ] \
            || { echo "no $variable" && return 1; }
    done
    in_c tasks.c "$clean/wide/$1"
}

is_gone() {
    echo "another's" >"$1/include/another.h" && in_clean $3 "$unpacked/install" --uninstall "$2" || return 1
    [ "$(cd "$1" && find . -type f)" = ./include/another.h ] && [ ! -e "$1/share" ] && [ ! -e "$1/lib" ]
}

# Whether everybody can read what is unpacked and installed under a narrow umask, and no temporary folder stays.
is_open() {
    mkdir "$clean/tmp" "$clean/narrow" && cp -R "$unpacked" "$clean/narrow/it" && chmod -R go= "$clean/narrow/it" || return 1
    (umask 077 && in_clean TMPDIR="$clean/tmp" "$clean/narrow/it/install" "$clean/open") && rmdir "$clean/tmp" || return 1
    closed=$(find "$clean/open" -type d ! -perm 755 -o -type f ! -perm 644)
    [ -z "$closed" ] || { echo "closed: $closed" && return 1; }
}

# Whether a prefix goes with its last file, also where a folder in it has gone before, and the folder around it stays.
leaves_no_folder() {
    install_to "$clean/around/prefix" lib && rm -r "$clean/around/prefix/lib/cmake/nidzaru" "$clean/around/prefix/share/doc/nidzaru" \
        && mkdir "$clean/tmp" && in_clean TMPDIR="$clean/tmp" "$unpacked/install" --uninstall "$clean/around/prefix" || return 1
    rmdir "$clean/tmp" && [ -d "$clean/around" ] && [ -z "$(find "$clean/around" -mindepth 1)" ]
}

# Sees that nothing is taken away by a list with this path, and says why.
#   uninstall_by PATH
uninstall_by() {
    install_to "$clean/listed" lib >/dev/null && echo "kept" >"$clean/kept" && echo "$1" >>"$clean/listed/share/nidzaru/files" || return 1
    count=$(find "$clean/listed" "$clean/kept" -type f | wc -l)
    in_clean "$unpacked/install" --uninstall "$clean/listed"
    said=$?
    [ "$(find "$clean/listed" "$clean/kept" -type f | wc -l)" = "$count" ] || echo "something is gone"
    rm -rf "$clean/listed"
    return $said
}

# Installs where the folder of the headers is a link to another one outside of the prefix, or uninstalls there.
#   over_link install|uninstall
over_link() {
    rm -rf "$clean/listed" "$clean/elsewhere" && install_to "$clean/listed" lib >/dev/null && mv "$clean/listed/include" "$clean/elsewhere" \
        && ln -s ../elsewhere "$clean/listed/include" || return 1
    rm "$clean/elsewhere/nidzaru_log.h"
    if [ "$1" = install ]; then install_to "$clean/listed" lib; else in_clean "$unpacked/install" --uninstall "$clean/listed"; fi
    said=$?
    [ "$(ls "$clean/elsewhere" | tr '\n' ' ')" = 'nidzaru.h nidzaru.hpp nidzaru_shared.h nidzaru_shared.hpp ' ] || echo "it has reached outside"
    return $said
}

# Installs, or uninstalls, where the library's folder is a link to another one, outside of the prefix, that isn't there.
#   over_loose_link install|uninstall
over_loose_link() {
    rm -rf "$clean/listed" && install_to "$clean/listed" lib >/dev/null && rm -r "$clean/listed/lib" || return 1
    ln -s "$clean/unmounted" "$clean/listed/lib" && echo "of an older version" >"$clean/listed/include/nidzaru.h" || return 1
    if [ "$1" = install ]; then install_to "$clean/listed" lib; else in_clean "$unpacked/install" --uninstall "$clean/listed"; fi
    said=$?
    grep -qx 'of an older version' "$clean/listed/include/nidzaru.h" || echo "the header is another"
    return $said
}

# Whether an installation into a folder that is a link to the one of the installation before keeps the library, and can be taken away.
keeps_same_folder() {
    rm -rf "$clean/listed" && install_to "$clean/listed" lib && ln -s lib "$clean/listed/lib64" && install_to "$clean/listed" lib64 || return 1
    in_c tasks.c "$clean/listed/lib64" && in_clean "$unpacked/install" --uninstall "$clean/listed" || return 1
    [ -z "$(find "$clean/listed" -type f)" ]
}

# Whether an installation beside a link with the name of a file that is half put leaves alone what that leads to.
writes_no_link() {
    rm -rf "$clean/listed" && mkdir -p "$clean/listed/include" && echo "kept" >"$clean/kept" || return 1
    ln -s "$clean/kept" "$clean/listed/include/nidzaru.h.new" && install_to "$clean/listed" lib || return 1
    grep -qx kept "$clean/kept" && [ -f "$clean/listed/include/nidzaru.h" ] && [ ! -L "$clean/listed/include/nidzaru.h" ]
}

# Whether an installation that is ended within a file leaves nothing that --uninstall doesn't take away.
leaves_no_half() {
    mkdir "$clean/stopping" && printf '#!/bin/sh\ncase $3 in */nidzaru.h) kill -TERM $PPID && exit ;; esac\nexec /bin/mv "$@"\n' \
        >"$clean/stopping/mv" && chmod 755 "$clean/stopping/mv" && rm -rf "$clean/listed" || return 1
    ! in_clean PATH="$clean/stopping:$clean/bin" "$unpacked/install" "$clean/listed" || return 1
    [ -f "$clean/listed/share/nidzaru/files" ] && in_clean "$unpacked/install" --uninstall "$clean/listed" || return 1
    [ -z "$(find "$clean/listed" -type f)" ]
}

# Installs onto the unpacked folder, or takes away what is there, by its path or a link to it.
onto_itself() {
    ln -sfn "$unpacked" "$clean/same"
    in_clean "$unpacked/install" $2 "$1"
    said=$?
    [ -f "$unpacked/lib/libnidzaru.a" ] || echo "the library is gone"
    return $said
}

# Sees that a prefix can be written, as a user who may not write everywhere, and that nothing is made there.
sees_prefix() {
    as_user=
    [ "$(id -u)" != 0 ] || as_user='setpriv --bounding-set=-dac_override,-dac_read_search'
    $as_user sh packaging/install --check "$1"
    said=$?
    [ ! -e "$1" ] || echo "it has made $1"
    return $said
}

# Calls the repository's script where there is no toolchain.
install_without_kit() {
    env PATH="$clean/bin" ./install "$clean/unmade"
    said=$?
    [ ! -e "$clean/unmade" ] || echo "it has made $clean/unmade"
    return $said
}

# Whether an installation in which this file can't be written fails and says so, and what it has put there can be taken away.
fails_at() {
    rm -rf "$clean/stuck" && mkdir -p "$clean/stuck/$1" || return 1
    install_to "$clean/stuck" lib >"$room/stuck" 2>&1
    [ $? = 1 ] && ! grep -q '^installed' "$room/stuck" && grep -q "$1 couldn't be written" "$room/stuck" || return 1
    [ "$1" = share/nidzaru/files ] || in_clean "$unpacked/install" --uninstall "$clean/stuck" || return 1
    [ -z "$(find "$clean/stuck" -type f)" ]
}

# Whether these words are refused with status 2, before anything is built or made.
is_misuse() {
    env "$@" >"$room/misused" 2>&1
    [ $? = 2 ] && grep -q 'usage\|LIBDIR\|DESTDIR' "$room/misused"
}

over_debian() {
    flags=$(in_clean PKG_CONFIG_LIBDIR="$packages/debian/usr/lib/x86_64-linux-gnu/pkgconfig" PKG_CONFIG_SYSROOT_DIR="$packages/debian" \
        PKG_CONFIG_ALLOW_SYSTEM_CFLAGS=1 PKG_CONFIG_ALLOW_SYSTEM_LIBS=1 pkg-config --cflags --libs nidzaru) || return 1
    in_clean cc -std=c11 -O2 "$examples/board.c" $flags -pthread -o "$room/program" \
        && in_clean "$room/program" | grep -qx 'no record was torn'
}

use_programs() {
    cd "$unpacked_programs" && in_clean bin/fsr check <examples/lawful.json | cmp - examples/lawful.txt \
        && in_clean bin/picture <examples/lawful.json | grep -q '</svg>'
}

# The packaged programs take their memory by c/os.c: each request is refused in turn.
refuse_packaged() {
    . tests/programs/refused.sh
    for it in fsr picture; do
        mkdir -p "$packages/linked/$it/out" && cp "$unpacked_programs/bin/$it" "$packages/linked/$it/out/"
    done
    wanted_status=0 unlinked=$built built=$packages/linked
    : >"$room/wanted_line"
    cp examples/lawful.txt "$room/wanted"
    make_refusing && refuse_each fsr examples/lawful.json check
    cp docs/pictures/found_order.svg "$room/wanted"
    refuse_each picture examples/found_order.json
    built=$unlinked
}

check_use() {
    check "the packages' install" install_to "$clean/prefix" lib
    check "C by pkg-config" in_c tasks.c "$clean/prefix/lib"
    check "C by pkg-config, a board" in_c board.c "$clean/prefix/lib"
    check "C by pkg-config, between processes" between_processes cc -std=gnu11 "$examples/processes.c"
    check "C++ by pkg-config, between processes" between_processes c++ -std=c++17 -D_GNU_SOURCE "$examples/processes.cpp"
    check "C from where the tar was unpacked" in_c tasks.c "$unpacked/lib"
    sed -i.kept 's|^prefix=.*|prefix=/nowhere|' "$clean/prefix/lib/pkgconfig/nidzaru.pc"
    is_refused "a package for pkg-config that leads nowhere" 'nidzaru.h' in_c tasks.c "$clean/prefix/lib"
    mv "$clean/prefix/lib/pkgconfig/nidzaru.pc.kept" "$clean/prefix/lib/pkgconfig/nidzaru.pc"
    ! command -v musl-gcc >/dev/null 2>&1 || check "C with musl" in_musl "$clean/prefix"
    if command -v cmake >/dev/null 2>&1; then
        check "C++ by CMake" in_cpp "$clean/prefix"
        for range in '' $major.0 "$major.0...$next.0" "$major.0...$version" "$major.0...<$next" "$version EXACT"; do
            check "CMake: '$range' takes $version" configure "$range" "$clean/prefix"
        done
        for range in $before.0 $next.0 "$major.0...<${version%.*}" "$major.0...<$version" $major.99 "$major.99...$next" \
            "$before.0...$before.9" "$version.1" "$major.0 EXACT"; do
            is_refused "CMake: '$range' doesn't take $version" 'requested \(exact \)*version' configure "$range" "$clean/prefix"
        done
        is_refused "CMake: a program of 32 bits" 'compatible with requested' configure $major.0 "$clean/prefix" -DCMAKE_SIZEOF_VOID_P=4
        check "CMake: the package by a link" configure_by_link "$clean/prefix"
    fi
    check "the prefix, moved" sh -c 'mv "$1" "$2"' - "$clean/prefix" "$clean/moved"
    check "C over a moved prefix" in_c tasks.c "$clean/moved/lib"
    ! command -v cmake >/dev/null 2>&1 || check "C++ over a moved prefix" in_cpp "$clean/moved"
    mv "$clean/moved" "$clean/prefix"
}

check_uninstall() {
    for libdir in lib64 lib/x86_64-linux-gnu lib; do
        check "LIBDIR=$libdir, after another" is_in_libdir "$libdir"
    done
    install_to "$clean/wide" lib/x86_64-linux-gnu >/dev/null
    ! command -v cmake >/dev/null 2>&1 || check "C++ with LIBDIR=lib/x86_64-linux-gnu" in_cpp "$clean/wide"
    check "uninstall" is_gone "$clean/wide" "$clean/wide"
    check "install with DESTDIR" in_clean DESTDIR="$clean/staged" "$unpacked/install" /opt/nidzaru
    check "uninstall with DESTDIR" is_gone "$clean/staged/opt/nidzaru" /opt/nidzaru "DESTDIR=$clean/staged"
    is_refused "uninstall where nothing is" 'there is no' in_clean "$unpacked/install" --uninstall "$clean/wide"
    check "uninstall leaves no empty folder" leaves_no_folder
    for path in ../kept include/../../kept "$clean/kept"; do
        is_only_refused "uninstall by a list with ${path#"$room/"}" 'names a file outside of the prefix' uninstall_by "$path"
    done
    for task in install uninstall; do
        is_only_refused "$task over a link out of the prefix" 'include leads out of the prefix' over_link "$task"
        is_only_refused "$task over a link to what isn't there" 'lib leads out of the prefix or nowhere' over_loose_link "$task"
    done
    check "LIBDIR by a link to the folder of before" keeps_same_folder
    check "install beside a link with the name of a half file" writes_no_link
    check "an install that is ended within a file" leaves_no_half
    for folder in "$unpacked" "$clean/same" "$clean/same/"; do
        is_only_refused "install onto itself, ${folder#"$room/"}" 'is where the library lies' onto_itself "$folder" ''
        is_only_refused "uninstall of itself, ${folder#"$room/"}" 'is where the library lies' onto_itself "$folder" --uninstall
    done
}

check_prefixes() {
    check "install under umask 077" is_open
    check "--check of a new folder" sees_prefix "$clean/new/prefix"
    mkdir "$clean/read_only" && chmod 555 "$clean/read_only"
    for folder in "$packages/log/prefix" "$clean/read_only/prefix"; do
        is_only_refused "--check of ${folder#"$room/"}" "can't be written" sees_prefix "$folder"
    done
    is_only_refused "./install without the toolchain" "isn't on the PATH" install_without_kit
    for file in include/nidzaru.h include/nidzaru.hpp lib/libnidzaru.a lib/pkgconfig/nidzaru.pc lib/cmake/nidzaru/nidzaruConfig.cmake \
        lib/cmake/nidzaru/nidzaruConfigVersion.cmake share/doc/nidzaru/LICENSE-MIT share/nidzaru/files; do
        check "install where $file can't be written" fails_at "$file"
    done
    for words in LIBDIR=/lib64 LIBDIR=../lib LIBDIR=lib// LIBDIR=-x LIBDIR=lib/-x 'LIBDIR=lib x' "LIBDIR=lib${tab}x"; do
        check "./install with $words" is_misuse "$words" ./install "$clean/misused"
    done
    check "./install with DESTDIR and a path from here on" is_misuse DESTDIR="$clean/misused" ./install here
    check "./install without a word" is_misuse ./install
    check "./install with two words" is_misuse ./install "$clean/misused" "$clean/misused"
    check "nothing is made by misuse" [ ! -e "$clean/misused" ]
}

check_rust() {
    in_clean sh -c 'command -v cargo' >/dev/null || return
    check "Rust over the packaged crate, with no library installed" in_rust_of_package "nidzaru-$version"
    check "Rust over the packaged crate, between processes" in_rust_between_processes
    check "the packaged crate links its own libraries on Linux" links_its_library "$packages/nidzaru-$version/build.rs"
    is_refused "the packaged crate for any machine" 'it links on riscv64' links_with 's/!Path::new(&folder).is_dir()/false/'
    is_refused "the packaged crate for any system" 'it links on x86_64-windows' links_with 's/\["linux", "none"\]/["linux", "none", "windows"]/'
    is_refused "the packaged crate never watched" 'not watched' links_with 's/"thread"/"memory"/'
    is_refused "the packaged crate with a shared object" 'on Linux' links_with 's/static=nidzaru/dylib=nidzaru/'
    write_over
    check "Rust over the installed library" tells_version "$number"
    sed -i.kept 's/^machine=.*/machine=riscv64/' "$clean/prefix/lib/pkgconfig/nidzaru.pc"
    is_refused "Rust over a library for another machine" 'the library is for riscv64, and this program for' run_over
    mv "$clean/prefix/lib/pkgconfig/nidzaru.pc.kept" "$clean/prefix/lib/pkgconfig/nidzaru.pc"
    is_refused "a wrong version of it" 'it runs with' tells_version 1
    install_another
    check "Rust over another library in its place" tells_version "$((number + 1))"
    for other in 2.0.9 1.9.0 3.0.0 2.1; do
        claim_version "$other"
        is_refused "Rust over a library of version $other" "is of version $other, and this crate needs" run_over
    done
    claim_version 2.99.0
    check "Rust over a later library" tells_version "$((number + 1))"
}

# A program for ARM over the unpacked tar, by pkg-config with its C compiler, or that of this machine, which has to be told.
#   for_arm COMPILER
for_arm() {
    flags=$(PKG_CONFIG_PATH="$arm/lib/pkgconfig" pkg-config --cflags --libs nidzaru) || return 1
    "$1" -std=c11 -O2 -Wall -Werror "$examples/tasks.c" $flags -pthread -o "$room/program" && readelf -h "$room/program" | grep -q AArch64
}

# The libraries for ARM: what the packages have, and that each of pkg-config, CMake and the crate tells a program for another machine.
check_arm() {
    arm=$packages/nidzaru-$version-aarch64-linux
    check "the packages for ARM" is_arm_packed
    check "Debian's packages side by side" are_alike "$packages/debian" "$packages/debian_arm"
    echo "other" >>"$packages/debian_arm/usr/include/nidzaru.h"
    is_refused "planted: another header beside it" nidzaru.h are_alike "$packages/debian" "$packages/debian_arm"
    check "BUILD-INFO has both verdicts" has_verdicts "$made/BUILD-INFO"
    sed '/^verdict/s/axioms=3 target=aarch64/axioms=2 target=aarch64/' "$made/BUILD-INFO" >"$packages/info"
    is_refused "planted: a verdict of fewer axioms" "aren't of one proof" has_verdicts "$packages/info"
    [ "$(PKG_CONFIG_PATH="$arm/lib/pkgconfig" pkg-config --variable=machine nidzaru)" = aarch64 ]
    check "pkg-config tells the machine" [ $? = 0 ]
    check "C for ARM by pkg-config" for_arm aarch64-linux-gnu-gcc
    [ "$(uname -m)" != x86_64 ] || is_refused "C for x86-64 over the library for ARM" 'the library is for aarch64, and this program isn' for_arm cc
    if command -v cmake >/dev/null 2>&1; then
        check "CMake: the library for ARM" configure "$major.0" "$arm" -DCMAKE_SYSTEM_NAME=Linux -DCMAKE_SYSTEM_PROCESSOR=aarch64
        is_refused "CMake: the library for ARM in a program for x86-64" 'for aarch64, and not x86_64' \
            configure "$major.0" "$arm" -DCMAKE_SYSTEM_NAME=Linux -DCMAKE_SYSTEM_PROCESSOR=x86_64
        is_refused "CMake: the library for x86-64 in a program for ARM" 'for x86_64, and not arm64' \
            configure "$major.0" "$unpacked" -DCMAKE_SYSTEM_NAME=Linux -DCMAKE_SYSTEM_PROCESSOR=arm64
    fi
}
