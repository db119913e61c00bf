# The static library for C and C++: installed into a fresh folder, with each C compiler that is there its tests and its
# examples, a control that isn't a register, what the headers refuse, and wrong headers, which the tests must refuse.

. build/library.sh
installed=$room/installed
wrapped='-Wl,--wrap=malloc,--wrap=realloc,--wrap=free'
between=
for cell in 24 triple_24 board_24 triple_board_24; do
    between="$between -Wl,--wrap=nidzaru_${cell}_make,--wrap=nidzaru_${cell}_write"
done
fanned="$wrapped -Wl,--wrap=nidzaru_24_write,--wrap=nidzaru_triple_24_write"
strict='-Wall -Wextra -Wpedantic -Werror -pthread'

# Runs what a command builds: its last line must be $wants.
run_here() {
    name=$1
    shift
    if ! "$@" >"$room/built" 2>&1; then
        fail "$name" "it wasn't built: $(head -n 3 "$room/built" | tr '\n' ' ')"
    elif timeout "${longest:-120}" "$room/program" >"$room/said" 2>&1 && tail -n 1 "$room/said" | grep -qx "$wants"; then
        pass "$name"
    else
        fail "$name" "$(head -n 3 "$room/said" | tr '\n' ' ')"
    fi
}

# A program that must find the control wanting.
run_control() {
    name=$1
    shift
    if ! "$@" >"$room/built" 2>&1; then
        fail "$name" "it wasn't built: $(head -n 3 "$room/built" | tr '\n' ' ')"
    elif timeout "${longest:-120}" "$room/program" >"$room/said" 2>&1 || ! grep -q "$wants" "$room/said"; then
        fail "$name" "it took a plain buffer for a register"
    else
        pass "$name"
    fi
}

# A header of the next release, which asks for a name that the library doesn't have, doesn't link with it.
test_release() {
    minor=$(awk '/^#define NIDZARU_VERSION_MINOR/ { print $3 }' c/nidzaru.h)
    mkdir -p "$room/next" && sed "s/^#define NIDZARU_VERSION_MINOR .*/#define NIDZARU_VERSION_MINOR $((minor + 1))/" c/nidzaru.h >"$room/next/nidzaru.h"
    if "$c" -std=c11 -O2 -I "$room/next" examples/c/tasks.c -pthread $flags -o "$room/program" >"$room/built" 2>&1; then
        fail "a header of the next release ($c)" "it links with this library"
    elif grep -q "nidzaru_since_[0-9]*_$((minor + 1))" "$room/built"; then
        pass "a header of the next release ($c)"
    else
        fail "a header of the next release ($c)" "$(head -n 3 "$room/built" | tr '\n' ' ')"
    fi
}

# A shared object with the library inside exports its own function alone, and works.
test_shared_object() {
    name="a shared object with the library inside ($c)"
    if ! "$c" -std=c11 -O2 -Wall -Werror -fPIC -shared -Wl,-z,text,-z,defs c/tests/inside.c $flags -o "$room/inside.so" >"$room/built" 2>&1 \
        || ! "$c" -std=c11 -O2 -Wall -Werror c/tests/outside.c -ldl -o "$room/program" >"$room/built" 2>&1; then
        fail "$name" "it wasn't built: $(head -n 3 "$room/built" | tr '\n' ' ')"
    elif [ "$("$room/program" "$room/inside.so")" != passed ]; then
        fail "$name" "it doesn't work"
    elif [ "$(nm -D --defined-only "$room/inside.so" | awk '{ print $3 }')" != inside ]; then
        fail "$name" "it exports $(nm -D --defined-only "$room/inside.so" | awk '{ print $3 }' | head -n 3 | tr '\n' ' ')"
    else
        pass "$name"
    fi
}

# A host with two plugins, each with a library inside, of which it exports none.
test_plugins() {
    name="examples/c/plugins.c ($c)"
    made="$c -std=gnu11 $strict -O2"
    for half in EFFECT EDITOR; do
        $made -fPIC -shared -D$half examples/c/plugins.c $flags -o "$room/$half.so" >"$room/built" 2>&1 || break
    done
    if ! grep -q . "$room/built" && $made examples/c/plugins.c $flags -ldl -o "$room/program" >"$room/built" 2>&1 \
        && timeout 120 "$room/program" "$room/EFFECT.so" "$room/EDITOR.so" >"$room/said" 2>&1 && [ "$(tail -n 1 "$room/said")" = 'no record was torn' ] \
        && [ "$(nm -D --defined-only "$room/EFFECT.so" "$room/EDITOR.so" | awk 'NF == 3 { print $3 }' | tr '\n' ' ')" = 'plugin plugin ' ]; then
        pass "$name: $(head -n 1 "$room/said")"
    else
        fail "$name" "$(cat "$room/built" "$room/said" | tail -n 3 | tr '\n' ' ')"
    fi
}

# Bytes of code in the program that was built.
text_of_program() {
    size "$room/program" | awk 'NR == 2 { print $1 }'
}

# The linker leaves out of a program what it doesn't call of the library, if it is asked to.
test_sections() {
    name="a program of what it calls of the library ($c)"
    whole= part=
    ! "$c" -std=c11 -O2 examples/c/small.c $flags -pthread -o "$room/program" >"$room/built" 2>&1 || whole=$(text_of_program)
    ! "$c" -std=c11 -O2 examples/c/small.c $flags -pthread -Wl,--gc-sections -o "$room/program" >"$room/built" 2>&1 || part=$(text_of_program)
    if [ -n "$part" ] && [ "$part" -lt 10000 ] && [ "$whole" -gt $((5 * part)) ] && "$room/program" >/dev/null; then
        pass "$name: $part of $whole bytes"
    else
        fail "$name" "$part of $whole bytes: $(head -n 3 "$room/built" | tr '\n' ' ')"
    fi
}

# A header says in one error which language it is for.
#   test_language HEADER WORD COMPILER..
test_language() {
    header=$1 wanted=$2
    shift 2
    if ! echo "#include \"$header\"" | "$@" -fsyntax-only - >"$room/said" 2>&1 && [ "$(grep -c ' error: ' "$room/said")" = 1 ] \
        && grep -q "error.*compile this as .*$wanted" "$room/said"; then
        pass "$header by $*"
    else
        fail "$header by $*" "$(grep -c ' error: ' "$room/said") errors: $(grep -m 2 error "$room/said" | tr '\n' ' ')"
    fi
}

# The same of a header that doesn't look.
planted_language() {
    mkdir -p "$room/older" && cp c/nidzaru.h "$room/older/" && sed 's/^#if __cplusplus < 201703L/#if 0/' c/nidzaru.hpp >"$room/older/nidzaru.hpp"
    catches "nidzaru.hpp that doesn't look ($cpp)" ' errors: ' test_language "$room/older/nidzaru.hpp" C++17 "$cpp" -std=c++14 -x c++
}

# Whether an object says that it keeps to Intel's CET, indirect branches that are tracked or a shadow stack, or to BTI and PAC of ARM.
claims_cet() {
    readelf --notes "$1" | grep -q 'IBT\|SHSTK\|BTI\|PAC'
}

# The library, which isn't made for it, says nothing of it, and an object that does is seen.
test_cet() {
    name="the library says nothing of Intel's CET, or of BTI and PAC"
    case $(cc -dumpmachine) in
    aarch64*) protected=-mbranch-protection=standard ;;
    *) protected=-fcf-protection=full ;;
    esac
    if claims_cet "$installed/lib/libnidzaru.a"; then
        fail "$name" "it says that it keeps to it"
    elif ! cc $protected -c c/tests/inside.c $flags -o "$room/inside.o" >"$room/built" 2>&1; then
        fail "$name" "no object that does was built: $(head -n 3 "$room/built" | tr '\n' ' ')"
    elif claims_cet "$room/inside.o"; then
        pass "$name"
    else
        fail "$name" "nor does an object that is made for it"
    fi
}

# What takes the library's memory by itself, and with each of some faults in it.
test_heap() {
    wants='each block is one of its own'
    run_here "c/heap.c ($c)" "$c" -std=c11 $strict -O2 c/heap.c c/tests/heap.c -o "$room/program"
    for fault in 's/kept < bytes ? kept : bytes/bytes/' 's/kept < bytes ? kept : bytes/kept/' '/^        release(block);/d' \
        's/block ? block : &nowhere/block/' 's/block != 0,/1,/' 's/    if (more) {/release(block); &/' \
        '/tried(lines/s/bytes ? bytes : alignment/bytes/' '/more = /s/bytes ? bytes : alignment/bytes/' \
        's/LINE - (size)whole % LINE/16/' 's/ \* LINE + LINE/ * LINE/' 's/(bytes + LINE - 1) \/ LINE \* LINE/bytes/' 's/= whole;/= block;/'; do
        sed "$fault" c/heap.c >"$room/heap.c"
        if cmp -s c/heap.c "$room/heap.c"; then
            fail "c/heap.c, planted: $fault" "it changes nothing"
        else
            wants='heap: '
            run_control "c/heap.c, planted: $fault ($c)" "$c" -std=c11 -w -O2 "$room/heap.c" c/tests/heap.c -o "$room/program"
        fi
    done
}

# What takes the programs' memory and words, and the same with faults in it.
test_os() {
    os_wrapped='-Wl,--wrap=malloc,--wrap=realloc'
    made="$c -std=c11 -O2 -o $room/os"
    if $made $strict c/os.c c/tests/os.c $os_wrapped >"$room/built" 2>&1 && "$room/os" one '' three >"$room/said" 2>&1; then
        pass "c/os.c ($c)"
    else
        fail "c/os.c ($c)" "$(head -n 3 "$room/built" "$room/said" | tr '\n' ' ')"
    fi
    for fault in 's/block != 0,/1,/' 's/block ? block : &nowhere/block/' 's/bytes ? bytes : alignment/bytes/' 's/which >= count || //' \
        's/at < room/at <= room/' 's/word\[at\] ? -2/at == room ? -2/' 's/\*__errno_location() = number/(void)number/' \
        's/return \*__errno_location()/return 0/' 's/words = at;/words = at + 1;/'; do
        sed "$fault" c/os.c >"$room/os.c"
        if cmp -s c/os.c "$room/os.c" || ! $made -w "$room/os.c" c/tests/os.c $os_wrapped >"$room/built" 2>&1; then
            fail "c/os.c, planted: $fault ($c)" "it changes nothing, or isn't built"
        elif ! "$room/os" one '' three >"$room/said" 2>&1 && grep -q '^os: ' "$room/said"; then
            pass "c/os.c, planted: $fault ($c)"
        else
            fail "c/os.c, planted: $fault ($c)" "it isn't seen"
        fi
    done
}

# A program without a C library: it links and runs, and not without one of the functions that the library asks for.
test_freestanding() {
    made="$c -std=c11 -ffreestanding -nostdlib -static -fno-pie -fno-stack-protector -Wall -Wextra -Wpedantic -Werror -O2"
    wants=passed
    run_here "c/tests/freestanding.c ($c)" $made -I "$installed/include" c/tests/freestanding.c "$installed/lib/libnidzaru.a" -o "$room/program"
    for it in malloc free memcpy memmove; do
        if $made "-DWITHOUT_$it" -I "$installed/include" c/tests/freestanding.c "$installed/lib/libnidzaru.a" -o "$room/program" \
            >"$room/built" 2>&1 || ! grep -q "undefined.*\b$it\b" "$room/built"; then
            fail "c/tests/freestanding.c without $it ($c)" "the library doesn't ask for it"
        else
            pass "c/tests/freestanding.c without $it ($c)"
        fi
    done
}

test_in_c() {
    test_heap
    test_os
    test_freestanding
    wants=passed
    run_here "c/tests/test.c ($c)" "$c" -std=c11 -D_GNU_SOURCE $strict -O2 c/tests/test.c $flags -o "$room/program"
    run_here "c/tests/edges.c ($c)" "$c" -std=c11 $strict -O1 c/tests/edges.c $wrapped $flags -o "$room/program"
    for family in '' -DTRIPLE; do
        run_here "c/tests/calls.c $family($c)" "$c" -std=c11 $strict -O2 $family c/tests/calls.c $wrapped $flags -o "$room/program"
    done
    for family in '' -DTRIPLE; do
        run_here "c/tests/fans.c $family($c)" "$c" -std=c11 $strict -O2 $family c/tests/fans.c $fanned $flags -o "$room/program"
    done
    run_here "c/tests/board_edges.c ($c)" "$c" -std=c11 $strict -O1 c/tests/board_edges.c $wrapped $flags -o "$room/program"
    run_here "c/tests/aligned.c ($c)" "$c" -std=c11 $strict -O2 c/tests/aligned.c $flags -o "$room/program"
    for test in held loaned; do
        run_here "c/tests/$test.c ($c)" "$c" -std=c11 $strict -O2 c/tests/$test.c $flags -o "$room/program"
    done
    for words in 8192 131072; do
        for family in '' -DTRIPLE; do
            run_here "c/tests/large.c -DWORDS=$words $family($c)" \
                "$c" -std=c11 $strict -O2 -DWORDS=$words $family c/tests/large.c $flags -o "$room/program"
        done
    done
    for family in '' -DTRIPLE; do
        run_here "c/tests/boards.c $family($c)" \
            "$c" -std=c11 -D_GNU_SOURCE $strict -O2 $family c/tests/boards.c $wrapped $flags -o "$room/program"
    done
    for family in '' -DTRIPLE; do
        wants='.* writes, .* reads, nothing found'
        run_here "c/tests/board_soak.c $family($c)" \
            "$c" -std=c11 -D_GNU_SOURCE $strict -O2 -DBYTES=24 $family c/tests/board_soak.c $flags -o "$room/program"
        for wants in torn older; do
            run_control "c/tests/board_soak.c $family, planted: $wants ($c)" "$c" -std=c11 -D_GNU_SOURCE $strict -O2 -DBYTES=24 $family \
                -D"$(echo $wants | tr a-z A-Z)" c/tests/board_soak.c $flags -o "$room/program"
        done
    done
    for family in '' -DTRIPLE; do
        wants=passed
        run_here "c/tests/told.c $family($c)" "$c" -std=c11 $strict -O2 $family c/tests/told.c $wrapped $flags -o "$room/program"
        wants='hands nothing on'
        run_control "c/tests/told.c $family, planted: a read that writes ($c)" \
            "$c" -std=c11 $strict -O2 $family -DPLANTED c/tests/told.c $wrapped $flags -o "$room/program"
    done
    wants=passed
    run_here "c/tests/apart.c ($c)" "$c" -std=c11 $strict -O2 c/tests/apart.c $wrapped $flags -o "$room/program"
    for wants in 'both sides store' 'in part alone'; do
        run_control "c/tests/apart.c, planted: $wants ($c)" \
            "$c" -std=c11 $strict -O2 -DLINE=1024 c/tests/apart.c $wrapped $flags -o "$room/program"
    done
    for family in '' -DTRIPLE; do
        wants=passed
        run_here "c/tests/lost.c $family($c)" "$c" -std=c11 -D_GNU_SOURCE $strict -O2 -I c $family c/tests/lost.c $flags -o "$room/program"
        # (elsewhere no thread is stopped in a call)
        [ "$("$c" -dumpmachine | cut -d - -f 1)" = x86_64 ] || continue
        wants='the others wait'
        run_control "c/tests/lost.c $family, planted: a lock ($c)" \
            "$c" -std=c11 -D_GNU_SOURCE $strict -O2 -I c $family -DLOCKED c/tests/lost.c $flags -o "$room/program"
    done
    # (it goes one instruction at a time by the trap flag of x86-64)
    if [ "$("$c" -dumpmachine | cut -d - -f 1)" = x86_64 ]; then
        for kind in '' -DTRIPLE -DBOARD '-DBOARD -DTRIPLE' -DFAN '-DFAN -DTRIPLE'; do
            wants='.* calls were cut off, .* and nothing was found'
            run_here "c/tests/cut_off.c $kind($c)" \
                "$c" -std=c11 -D_GNU_SOURCE $strict -O2 $kind c/tests/cut_off.c $flags -o "$room/program"
            for wants in cut; do
                run_control "c/tests/cut_off.c $kind, planted ($c)" \
                    "$c" -std=c11 -D_GNU_SOURCE $strict -O2 $kind -DPLANTED c/tests/cut_off.c $flags -o "$room/program"
            done
        done
    fi
    wants='no record was torn'
    run_here "examples/c/small.c ($c)" "$c" -std=c11 $strict -O2 examples/c/small.c $flags -o "$room/program"
    run_here "examples/c/tasks.c ($c)" "$c" -std=c11 $strict -O2 examples/c/tasks.c $flags -o "$room/program"
    run_here "examples/c/fan.c ($c)" "$c" -std=c11 $strict -O2 examples/c/fan.c $flags -o "$room/program"
    run_here "examples/c/board.c ($c)" "$c" -std=c11 $strict -O2 examples/c/board.c $flags -o "$room/program"
    wants='.* bytes of the block were taken, all by make'
    run_here "examples/c/own_memory.c ($c)" "$c" -std=c11 $strict -O2 examples/c/own_memory.c $flags -o "$room/program"
    wants='all memory was the program.s'
    run_here "c/tests/memory.c ($c)" "$c" -std=c11 $strict -O2 c/tests/memory.c $flags -o "$room/program"
    wants=passed
    run_here "c/tests/made.c ($c)" "$c" -std=c11 $strict -O2 c/tests/made.c $flags -o "$room/program"
    wants='a torn record'
    run_control "c/tests/test.c over a plain buffer ($c)" \
        "$c" -std=c11 -D_GNU_SOURCE $strict -O2 -I c c/tests/test.c c/tests/control.c -o "$room/program"
    test_shared_object
    test_plugins
    test_sections
    test_language c/nidzaru.h C11 "$c" -std=c99 -x c -I .
    test_release
}

test_in_cpp() {
    wants=passed
    for year in 17 20; do
        run_here "c/tests/test.cpp ($cpp, C++$year)" \
            "$cpp" -std=c++$year $strict -O2 c/tests/test.cpp $wrapped $flags -o "$room/program"
    done
    for year in 17 20; do
        run_here "c/tests/boards.cpp ($cpp, C++$year)" \
            "$cpp" -std=c++$year $strict -O2 c/tests/boards.cpp $wrapped $flags -o "$room/program"
        run_here "c/tests/passed.cpp ($cpp, C++$year)" "$cpp" -std=c++$year $strict -O2 c/tests/passed.cpp $between $flags -o "$room/program"
    done
    for year in 17 20; do
        run_here "c/tests/fans.cpp ($cpp, C++$year)" "$cpp" -std=c++$year $strict -O2 c/tests/fans.cpp $wrapped $flags -o "$room/program"
    done
    run_here "c/tests/aligned.cpp ($cpp)" "$cpp" -std=c++17 $strict -O2 c/tests/aligned.cpp $flags -o "$room/program"
    run_here "c/tests/made.cpp ($cpp)" "$cpp" -std=c++17 $strict -O2 c/tests/made.cpp $flags -o "$room/program"
    run_here "c/tests/bare.cpp, without exceptions ($cpp)" \
        "$cpp" -std=c++17 $strict -O2 -fno-exceptions -fno-rtti c/tests/bare.cpp $flags -o "$room/program"
    test_language c/nidzaru.h C++11 "$cpp" -std=c++98 -x c++ -I .
    test_language c/nidzaru.hpp C++17 "$cpp" -std=c++14 -x c++ -I .
    planted_language
    wants='no record was torn'
    run_here "examples/c/tasks.cpp ($cpp)" "$cpp" -std=c++17 $strict -O2 examples/c/tasks.cpp $flags -o "$room/program"
}

# What is installed says where it lies by its own place, and DESTDIR goes before the prefix.
test_packages() {
    version=$(awk '/^#define NIDZARU_VERSION_(MAJOR|MINOR|PATCH)/ { printf dot "%s", $3; dot = "." }' c/nidzaru.h)
    if DESTDIR=$room/staged ./install /opt/nidzaru >"$room/installing" 2>&1 && [ ! -e /opt/nidzaru ] \
        && mv "$room/staged/opt/nidzaru" "$room/moved" && ! grep -rq "$room\|/opt/nidzaru" "$room/moved"/lib/pkgconfig "$room/moved"/lib/cmake; then
        pass "install with DESTDIR"
    else
        fail "install with DESTDIR" "$(tail -n 1 "$room/installing")"
    fi
    c=cc wants='no record was torn'
    run_here "pkg-config from a moved prefix" cc -std=c11 $strict -O2 examples/c/tasks.c \
        $(PKG_CONFIG_PATH=$room/moved/lib/pkgconfig pkg-config --cflags --libs nidzaru) -o "$room/program"
    if [ "$(PKG_CONFIG_PATH=$room/moved/lib/pkgconfig pkg-config --modversion nidzaru)" = "$version" ]; then
        pass "pkg-config has the header's version"
    else
        fail "pkg-config has the header's version" "it has another"
    fi
    command -v cmake >/dev/null 2>&1 || return
    mkdir -p "$room/cmake" && cp examples/c/tasks.c examples/c/tasks.cpp "$room/cmake/" && cat >"$room/cmake/CMakeLists.txt" <<CMAKE
cmake_minimum_required(VERSION 3.12)
project(tasks C CXX)
set(CMAKE_CXX_STANDARD 17)
find_package(Threads REQUIRED)
find_package(nidzaru $version REQUIRED)
add_executable(in_c tasks.c)
add_executable(in_cpp tasks.cpp)
target_link_libraries(in_c nidzaru::nidzaru Threads::Threads)
target_link_libraries(in_cpp nidzaru::nidzaru Threads::Threads)
CMAKE
    if cmake -S "$room/cmake" -B "$room/cmake/built" -DCMAKE_PREFIX_PATH="$room/moved" >"$room/built" 2>&1 \
        && cmake --build "$room/cmake/built" >>"$room/built" 2>&1 && "$room/cmake/built/in_c" | grep -qx "$wants" \
        && "$room/cmake/built/in_cpp" | grep -qx "$wants"; then
        pass "the CMake package from a moved prefix"
    else
        fail "the CMake package from a moved prefix" "$(tail -n 3 "$room/built" | tr '\n' ' ')"
    fi
    sed "s/nidzaru $version/nidzaru 1.0/" "$room/cmake/CMakeLists.txt" >"$room/cmake/now" && mv "$room/cmake/now" "$room/cmake/CMakeLists.txt"
    if cmake -S "$room/cmake" -B "$room/cmake/other" -DCMAKE_PREFIX_PATH="$room/moved" >"$room/built" 2>&1 || ! grep -q nidzaru "$room/built"; then
        fail "a CMake program that wants another version" "it is content with this one"
    else
        pass "a CMake program that wants another version"
    fi
}

# Runs cargo on the crate, without a network and with its work in the room.
in_rust() {
    PKG_CONFIG_PATH=$installed/lib/pkgconfig CARGO_TARGET_DIR=$room/target cargo "$@" --offline --quiet --manifest-path "$room/rust/Cargo.toml"
}

# What a compiler needs for the library that is installed.
set_flags() {
    flags=$(PKG_CONFIG_PATH=$installed/lib/pkgconfig pkg-config --cflags --libs nidzaru)
}

# (tests/arm.sh and tests/library/c_controls.sh take these functions alone)
[ -z "${functions_alone:-}" ] || return 0

if ! command -v python3 >/dev/null 2>&1; then
    fail "exports of the library for C" "there is no python3"
elif python3 c/exports.py check >"$room/out" 2>&1; then
    pass "exports of the library for C: $(cat "$room/out")"
else
    fail "exports of the library for C" "$(head -n 3 "$room/out" | tr '\n' ' ')"
fi

# (where that fails, `install` proves the crates below the library once more)
is_fresh c_exports || build_over_gate x86_64 2>"$room/built"
if ! ./install "$installed" >"$room/installing" 2>&1; then
    fail "install" "$(tail -n 1 "$room/installing")"
else
    pass "install"
    set_flags
    for pair in gcc,g++ clang,clang++; do
        c=${pair%,*} cpp=${pair#*,}
        ! command -v "$c" >/dev/null 2>&1 || test_in_c
        command -v "$cpp" >/dev/null 2>&1 || continue
        test_in_cpp
        python3 c/tests/refused.py c "$c" "$cpp" >"$room/told" 2>&1
        take_over "c/tests/refused.py"
    done
    test_packages
    test_cet
    c/tests/sanitize.sh 500 "$installed/lib/libnidzaru.a" >"$room/watched" 2>&1
    sed '$d' "$room/watched"
    take_counts "$room/watched" "c/tests/sanitize.sh"
    python3 c/tests/planted.py "$installed/lib/libnidzaru.a" >"$room/told" 2>&1
    take_over "c/tests/planted.py"
    . tests/library/rust.sh
fi
