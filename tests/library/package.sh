# The packages: `./package` runs on two copies of this tree that differ in all that the bytes may not depend on, and then what a user does
# with them, with a PATH that has compilers and nothing of the toolchain, an empty home, and, where a namespace of mounts is permitted,
# empty folders in place of the toolchain's and of this tree. (tests/library/roots.sh has fresh Debian roots: here headers and libraries of
# this machine are at hand.) It takes the library and the programs that are built by then, and makes only the programs' objects if they are
# missing.
. build/library.sh
. tests/library/packed.sh
. tests/library/installed.sh
packages=$room/packages
clean=$room/clean
mkdir "$packages" "$clean" "$clean/bin" "$clean/home"

# One check: the command ends with status 0, or the last lines that it said tell why not.
check() {
    title=$1
    shift
    if ("$@") >"$room/said" 2>&1; then
        pass "$title"
    else
        fail "$title" "$(tail -n 3 "$room/said" | tr '\n' ' ')"
    fi
}

# A check's control: with a fault in it the command fails, and says this.
is_refused() {
    title=$1 wanted=$2
    shift 2
    if ("$@") >"$room/said" 2>&1; then
        fail "$title" "it isn't seen"
    elif grep -q -e "$wanted" "$room/said"; then
        pass "$title"
    else
        fail "$title" "another reason: $(tail -n 3 "$room/said" | tr '\n' ' ')"
    fi
}

# The same of a command that is to do nothing: what it says is one line.
is_only_refused() {
    is_refused "$@"
    [ "$(wc -l <"$room/said")" = 1 ] || fail "$1, with nothing done" "$(tail -n 3 "$room/said" | tr '\n' ' ')"
}

# Runs a command as a user does who has no toolchain.
in_clean() {
    $in_root env -i PATH="$clean/bin" HOME="$clean/home" CARGO_HOME="$clean/home/cargo" "$@"
}

# Makes the program that runs a command where the toolchain's folder and this tree are empty; where that isn't permitted there is none.
in_root=
make_clean_root() {
    kit=$(dirname -- "$(dirname -- "$(readlink -f -- "$(command -v rt)")")")
    case "$kit:$PWD" in
    /*/*:/*/*) ;;
    *) return ;;
    esac
    case $room in "$PWD"/* | "$kit"/*) return ;; esac
    as_root=
    [ "$(id -u)" = 0 ] || as_root=--map-root-user
    cat >"$clean/in_root" <<ROOT
#!/bin/sh
exec unshare --mount $as_root sh -c 'mount -t tmpfs none "\$0" && mount -t tmpfs none "\$1" && cd "\$PWD" && shift && exec "\$@"' '$kit' '$PWD' "\$@"
ROOT
    chmod +x "$clean/in_root" && "$clean/in_root" true 2>/dev/null && in_root=$clean/in_root
}

# Whether nothing lies in the toolchain's folder and in this tree.
is_root_clean() {
    for folder in "$kit" "$PWD"; do
        [ -z "$(in_clean find "$folder" -mindepth 1 | head -n 3)" ] || { echo "$folder has files" && return 1; }
    done
}

no_root() {
    in_root=
    is_root_clean
}

fill_clean_path() {
    for tool in sh cc gcc g++ c++ "$(uname -m)-linux-gnu-gcc" musl-gcc as ld ar make cmake pkg-config mkdir cp mv chmod cat rm rmdir \
        dirname readlink sed awk find sort grep cut mktemp tar gzip true uname; do
        ! at=$(command -v "$tool") || ln -s "$at" "$clean/bin/$tool"
    done
    ! sysroot=$(rustc --print sysroot 2>/dev/null) || ln -s "$sysroot/bin/cargo" "$sysroot/bin/rustc" "$clean/bin/" || return 1
    ! in_clean sh -c 'command -v rt || command -v python3 || command -v git'
}

# The objects of the programs, which the gate doesn't leave where it takes over what an earlier run proved.
make_objects() {
    for program in fsr picture; do
        is_newer_than_sources "$(object_of "$program")" "$program" || python3 build/build.py --over-gate "$program" </dev/null || return 1
    done
}

# The tree as it lies here, as the only commit of a repository, with what is built.
copy_tree() {
    make_objects && mkdir "$packages/one" && tar -c --exclude=./.git --exclude=./out --exclude='./crates/*/out' . | tar -x -C "$packages/one" \
        && git -C "$packages/one" init -q && git -C "$packages/one" add -A \
        && git -C "$packages/one" -c user.name=test -c user.email=test@nidzaru.example commit -q -m 'the tree' && put_built "$packages/one" || return 1
    # (files that git ignores go into no package)
    : >"$packages/one/rust/nidzaru/src/.lib.rs.swp" && : >"$packages/one/examples/left.so"
}

# What is built of the tree, for a copy of it: so nothing is built there. A program that isn't built for ARM has a stand-in.
put_built() {
    for machine in $made_for; do
        set_machine "$machine"
        out=$(dirname -- "$(built_file c_exports)")
        put "$1" "$out/libc_exports.a" && put "$1" "$out/verdict" || return 1
        for program in fsr picture; do
            put "$1" "$(object_of "$program")" "$(dirname "$(built_file "$program")")/$program.o" && put "$1" "$(built_file "$program")" \
                || { [ "$machine" = aarch64 ] && stand_in "$1/crates/$program/out/aarch64/$program"; } || return 1
        done
    done 2>"$room/put"
    set_machine x86_64
}

# Copies a built file to its place in a copy of the tree, or to that of another one.
#   put FOLDER FILE [PLACE]
put() {
    place=${3:-$2}
    mkdir -p "$(dirname "$1/${place#"$top"/}")" && cp "$2" "$1/${place#"$top"/}"
}

stand_in() {
    mkdir -p "${1%/*}" && echo 'int main(void) { return 0; }' | "${tools}gcc" -O1 -c -x c - -o "$1.o" && cp "$1.o" "$1" && chmod +x "$1"
}

clone_tree() {
    (umask 077 && git clone -q "$packages/one" "$packages/$1") && put_built "$packages/$1"
}

# A clone's files have other times and modes, and its packages are made with another umask, time zone, language and home, in a folder whose
# files go to another group, if this user may choose it. Nothing is left there.
package_again() {
    clone_tree "$1" && package_clone "$1"
}

package_clone() {
    mkdir -p "$packages/tmp" && { chgrp 1 "$packages/tmp" && chmod g+s "$packages/tmp" || true; } 2>/dev/null
    (umask 077 && TMPDIR=$packages/tmp TZ=Asia/Tokyo LC_ALL=C.UTF-8 HOME=$clean/home GATE_LOG=$packages/log "$packages/$1/package" $made_words) \
        && rmdir "$packages/tmp"
}

compare_packages() {
    diff -r "$made" "$packages/$1/out/packages"
}

# Packs without the folders' times being set, unknown to git.
plant_time() {
    clone_tree planted && git -C "$packages/planted" update-index --assume-unchanged package \
        && sed -i '/^pack() {/,/^}/s/ --mtime="[^"]*"//' "$packages/planted/package" && package_clone planted
}

with_change() {
    echo "more" >>"$packages/one/README.md"
    "$packages/one/package" $made_words
    said=$?
    git -C "$packages/one" checkout -q README.md
    return $said
}

with_new_file() {
    echo "more" >"$packages/one/more.txt"
    "$packages/one/package" $made_words
    said=$?
    rm "$packages/one/more.txt"
    return $said
}

# Packs a clone in which something is committed meanwhile.
with_commit_meanwhile() {
    clone_tree three && mkdir "$packages/meanwhile" || return 1
    printf '#!/bin/sh\ngit -C "%s" -c user.name=test -c user.email=test@nidzaru.example commit -q --allow-empty -m more && exec "%s" "$@"\n' \
        "$packages/three" "$(command -v dpkg-deb)" >"$packages/meanwhile/dpkg-deb" && chmod +x "$packages/meanwhile/dpkg-deb" || return 1
    PATH=$packages/meanwhile:$PATH "$packages/three/package" $made_words
}

with_another_logic() {
    library=$packages/one/crates/c_exports/out/libc_exports.a
    cp "$library" "$packages/kept.a" && objcopy --remove-section=.comment "$library" && "$packages/one/package" $made_words
    said=$?
    cp "$packages/kept.a" "$library"
    return $said
}

# The packages over a verdict that a command of sed changes.
with_verdict() {
    verdict=$packages/one/crates/c_exports/out/verdict
    cp "$verdict" "$packages/kept" && sed "$1" "$packages/kept" >"$verdict" && "$packages/one/package" $made_words
    said=$?
    cp "$packages/kept" "$verdict"
    return $said
}

# What all of `./test` would say on a commit, as far as ./package looks at it, with each script's checks as they are stated, or as a
# command of sed changes them.
#   gate_log COMMIT [SED]
gate_log() {
    stated_numbers | sed "${2:-}" >"$packages/counts"
    awk '$1 ~ /wrong_bodies/ { print "test: wrong bodies: 7 of " $2 " were tried, and " $2 - 7 " stand by their sums in a file" }' "$packages/counts"
    sed 's/\(.*\) \([0-9]*\)$/test: \1: \2 checks/' "$packages/counts"
    echo "test: all of ./test ran on commit $1; its counts have the sum sha256 $(sha256sum <"$packages/counts" | cut -d ' ' -f 1)"
    awk '{ sum += $NF } END { print sum + 1 " passed, 0 failed" }' "$packages/counts"
}

# Sees that ./package refuses a log, and why.
#   refuses_log TITLE SAID
refuses_log() {
    is_refused "./package with the log of $1" "$2" env GATE_LOG="$packages/refused" "$packages/one/package" $made_words
}

refuse_logs() {
    hash=$(git -C "$packages/one" rev-parse HEAD)
    gate_log "$hash" >"$packages/log"
    gate_log "$(printf '%s' "$hash" | tr 0-9a-f 1-9a-f0)" >"$packages/refused"
    refuses_log "another commit" "no log of all of .* on commit $hash"
    gate_log "${hash%?}" >"$packages/refused"
    refuses_log "the beginning of a commit" "no log of all of"
    gate_log "$hash,with-changes" >"$packages/refused"
    refuses_log "a commit with changes" "no log of all of"
    sed 's/ 0 failed/ 1 failed/' "$packages/log" >"$packages/refused"
    refuses_log "a gate that failed" "doesn't end with a gate"
    sed '$s/.*/0 passed, 0 failed/' "$packages/log" >"$packages/refused"
    refuses_log "a gate of 0 passed" "doesn't end with a gate"
    printf 'test: this is commit %s\ntest: tests/docs/release.sh: 4 checks\n5 passed, 0 failed\n' "$hash" >"$packages/refused"
    refuses_log "a script" "no log of all of"
    gate_log "$hash" '/release/!d' >"$packages/refused"
    refuses_log "one script as if it were all" "rt ci wasn't run"
    sed '/^test: tests.docs.release.sh: /d' "$packages/log" >"$packages/refused"
    refuses_log "a gate without a script's line" "its counts aren't those"
    sed 's/bodies: 7 of [0-9]*/bodies: 7 of 82/' "$packages/log" >"$packages/refused"
    refuses_log "a gate with another number of wrong bodies" "how many wrong bodies were tried"
}

check_packages() {
    refuse_logs
    is_refused "./package over a changed tree" "aren't committed: .*README.md" with_change
    is_refused "./package with a new file" "aren't committed: .*more.txt" with_new_file
    is_refused "./package over a library of another logic" "proved by logic ''" with_another_logic
    is_refused "./package over a library that isn't proved" 'no verdict' with_verdict 's/=proved/=not-proved/'
    is_refused "./package with a commit of meanwhile" 'the tree was changed meanwhile' with_commit_meanwhile
    [ -z "$has_arm" ] || is_refused "./package over proofs of another number" 'the verdict for aarch64 is of' with_verdict 's/ axioms=3 / axioms=4 /'
    check "./package" env GATE_LOG="$packages/log" "$packages/one/package" $made_words
    sum=$(sha256sum <"$packages/log")
    stand='wrong bodies: 7 of [0-9]* were tried, and [0-9]* stand by their sums'
    check "BUILD-INFO has the gate's last line" grep -qx "gate       $(tail -n 1 "$packages/log"); $stand; its log has the sum sha256 ${sum%% *}" \
        "$made/BUILD-INFO"
    check "./package in a clone, of another time and with other settings" package_again two
    check "the same bytes from both" compare_packages two
    check "a fault planted in ./package" plant_time
    is_refused "a fault planted in ./package is seen" 'linux.tar.gz differ' compare_packages planted
    check "the sums of the packages" is_summed
    check "the names in the packages" are_in_order
}

# The page in the packages is that of the site, it is listed, and a browser finds all in it.
has_page() {
    cmp docs/nidzaru.html "$made/nidzaru-page-$version.html" || return 1
    grep -q '^PackageName: nidzaru-check_exports' "$made/nidzaru-page-$version.spdx" || return 1
    ! grep -n -E '(src|href)="[^#"]' "$made/nidzaru-page-$version.html"
}

tab=$(printf '\t')
version=$(version_of_header)
major=${version%%.*} before=$((${version%%.*} - 1)) next=$((${version%%.*} + 1))
unpacked=$packages/nidzaru-$version-x86_64-linux
examples=$unpacked/share/doc/nidzaru/examples/c
made=$packages/one/out/packages
made_for='x86_64 aarch64' made_words= has_arm=yes
has_tools aarch64 programs || { made_for=x86_64 made_words='--machine x86_64' has_arm=; }
tar=$made/nidzaru-$version-x86_64-linux.tar.gz
programs=$made/nidzaru-programs-$version-x86_64-linux.tar.gz
deb=$made/libnidzaru-dev_${version}_amd64.deb
unpacked_programs=$packages/nidzaru-programs-$version-x86_64-linux
number=$(echo "$version" | awk -F. '{ print $1 * 10000 + $2 * 100 + $3 }')
if ! is_fresh c_exports || ! has_program fsr || ! has_program picture; then
    fail "packages" "the library or a program wasn't built"
else
    make_clean_root
    check "a PATH with nothing of the toolchain" fill_clean_path
    if [ -n "$in_root" ]; then
        check "a root with nothing of the toolchain and of this tree" is_root_clean
        is_refused "planted: a root with all of it" "has files" no_root
    else
        echo "test: no namespace of mounts is permitted, so files of the toolchain and of this tree can be read"
    fi
    check "a copy of the tree" copy_tree
    check_packages
    check_contents
    check_use
    check_uninstall
    check_prefixes
    check "C over the Debian package" over_debian
    [ -z "$has_arm" ] || check_arm
    ! command -v lintian >/dev/null 2>&1 || check "lintian has nothing to say" is_clean_for_lintian
    check_rust
    check "the packaged programs" use_programs
    refuse_packaged
    check "the packaged page" has_page
fi
