# What tests/library/package.sh sees in the packages that were made: their files, licences, sums, and what they say of themselves.

is_summed() {
    cd "$made" && sha256sum -c --strict SHA256SUMS && [ "$(find . -type f | wc -l)" = $(($(wc -l <SHA256SUMS) + 1)) ]
}

# Whether the names in each tar stand in order: both copies lie in one file system, which may give their folders in one order.
are_in_order() {
    for tar in "$made"/*.tar.gz "$made"/*.crate; do
        # (a folder's files stand before a file whose name goes on where the folder's ends)
        tar -tzf "$tar" | tr / '\001' | LC_ALL=C sort -c || return 1
    done
}

unpack() {
    in_clean tar -C "$packages" -xzf "$tar" && [ -x "$unpacked/install" ] && in_clean tar -C "$packages" -xzf "$programs"
}

are_linked() {
    cd "$unpacked" && python3 "$packages/one/tests/docs/links.py" README.md share/doc/nidzaru/*.md share/doc/nidzaru/docs/*.md
}

# Whether each file that the tar's pages name is in it, or is said to be of the repository.
names_files() {
    python3 "$packages/one/packaging/pages.py" --check "$1"
}

# The pages with one as it stands in the repository.
names_more() {
    rm -rf "$packages/named" && cp -r "$unpacked/share/doc/nidzaru" "$packages/named" && cp docs/C.md "$packages/named/docs/" && names_files "$packages/named"
}

# Whether the three packages have one library, of which the list tells.
is_one_library() {
    dpkg-deb -x "$deb" "$packages/debian" && tar -C "$packages" -xzf "$made/nidzaru-$version.crate" \
        || return 1
    sum=$(sha256sum <"$unpacked/lib/libnidzaru.a")
    [ "$(sha256sum <"$packages/debian/usr/lib/x86_64-linux-gnu/libnidzaru.a")" = "$sum" ] \
        && [ "$(sha256sum <"$packages/nidzaru-$version/lib/x86_64/libnidzaru.a")" = "$sum" ] \
        && grep -q "SHA256: ${sum%% *}$" "$made/nidzaru-$version.spdx"
}

# The licence of a part in a list, and `none` where it isn't listed.
#   licence_of PART LIST
licence_of() {
    awk -v part="PackageName: $1" '/^PackageName: / { inside = $0 == part } inside && sub(/^PackageLicenseConcluded: /, "") { print; found = 1 }
        END { if (!found) print "none" }' "$2"
}

# Whether a list has each of the library's crates under our licence, and of the kit's parts that name no licence that none is known.
is_listed_with_licence() {
    for part in nidzaru-heap.o $(printf 'nidzaru-%s ' $(crates_below c_exports)); do
        [ "$(licence_of "$part" "$1")" = 'MIT OR Apache-2.0' ] || { echo "$part: $(licence_of "$part" "$1")" && return 1; }
    done
    for part in $(printf 'libnidzaru.a-%s ' $made_for) kit-std kit-atomic_table; do
        [ "$(licence_of "$part" "$1")" = NOASSERTION ] || { echo "$part: $(licence_of "$part" "$1")" && return 1; }
    done
}

# The files of a tar by their paths in its one folder, and of the Debian package in the root, without the endings of those that are packed.
list_tar() {
    tar -tzf "$1" | sed -n 's|^[^/]*/||; /[^/]$/p'
}

list_debian() {
    dpkg-deb --fsys-tarfile "$1" | tar -t | sed -n 's|^\./||; s|\.gz$||; /[^/]$/p'
}

# Whether a list of files is this one.
#   lists LISTED PATH..
lists() {
    listed=$1
    shift
    printf '%s\n' "$@" | LC_ALL=C sort >"$room/wanted" && LC_ALL=C sort "$listed" | diff - "$room/wanted"
}

headers='include/nidzaru.h include/nidzaru.hpp include/nidzaru_log.h include/nidzaru_shared.h include/nidzaru_shared.hpp'

# Whether a list of files is that of the library's tar.
lists_tar() {
    lists "$1" $headers lib/libnidzaru.a lib/pkgconfig/nidzaru.pc lib/cmake/nidzaru/nidzaruConfig.cmake \
        lib/cmake/nidzaru/nidzaruConfigVersion.cmake share/nidzaru/files $(printf 'share/doc/nidzaru/%s ' $library_pages) \
        BUILD-INFO README.md install "nidzaru-$version.spdx"
}

lists_debian() {
    libdir=usr/lib/${2:-x86_64-linux-gnu} pages=usr/share/doc/libnidzaru-dev
    lists "$1" $(printf 'usr/%s ' $headers) $libdir/libnidzaru.a $libdir/pkgconfig/nidzaru.pc \
        $libdir/cmake/nidzaru/nidzaruConfig.cmake $libdir/cmake/nidzaru/nidzaruConfigVersion.cmake \
        $(printf "$pages/%s\n" $library_pages | grep -v LICENSE-) $pages/BUILD-INFO "$pages/nidzaru-$version.spdx" \
        $pages/copyright $pages/changelog usr/share/lintian/overrides/libnidzaru-dev
}

lists_crate() {
    lists "$1" $(cd rust/nidzaru && find src examples -type f) Cargo.toml build.rs $(printf 'lib/%s/libnidzaru.a ' $made_for) BUILD-INFO LICENSE-MIT LICENSE-APACHE \
        "nidzaru-$version.spdx"
}

lists_programs() {
    lists "$1" $(find examples -maxdepth 1 -type f) bin/fsr bin/picture docs/FORMATS.md docs/CHECKING.md BUILD-INFO LICENSE-MIT \
        share/man/man1/fsr.1 share/man/man1/picture.1 share/bash-completion/completions/fsr \
        LICENSE-APACHE "nidzaru-programs-$version.spdx"
}

# Whether each package has its files, and no other ones.
have_their_files() {
    list_tar "$tar" >"$packages/listed" && lists_tar "$packages/listed" || return 1
    list_debian "$deb" >"$packages/listed_debian" && lists_debian "$packages/listed_debian" || return 1
    list_tar "$made/nidzaru-$version.crate" >"$packages/listed_crate" && lists_crate "$packages/listed_crate" || return 1
    list_tar "$programs" >"$packages/listed_programs" && lists_programs "$packages/listed_programs"
}

# Whether all can read what a tar has, all can run what are programs, and nobody is named as its owner.
has_plain_modes() {
    ! tar --numeric-owner -tvzf "$1" | grep -v -e '^drwxr-xr-x 0/0 .*/$' -e '^-rwxr-xr-x 0/0 .*/\(install\|bin/[a-z]*\)$' \
        -e '^-rw-r--r-- 0/0 .*[^/]$' && ! tar -tvzf "$1" | grep -e '^-rw-.*/\(install\|bin/[a-z]*\)$'
}

have_plain_modes() {
    for package in "$tar" "$programs" "$made/nidzaru-$version.crate"; do
        has_plain_modes "$package" || return 1
    done
    ! dpkg-deb -c "$deb" | grep -v -e '^drwxr-xr-x root/root ' -e '^-rw-r--r-- root/root '
}

# Whether BUILD-INFO names commit, kit, tools, what is proved and what is trusted.
tells_build() {
    kit_folder=$(dirname -- "$(rt doc)") && hash=$(git -C "$packages/one" rev-parse HEAD) || return 1
    for line in "version    $version, Linux on $(echo "$made_for" | sed 's/ / and /; s/_/-/')" "kit        $(rt version)" 'Proved of the exports' 'Trusted' 'Given on'; do
        grep -qxF -e "$line" "$1" || { echo "no line '$line'" && return 1; }
    done
    for line in "commit     $hash, [0-9-]*T[0-9:]*Z" ' *the library.s .comment: rattle logic=[0-9a-f]\{64\}' \
        'compilers  .*clang version [0-9].*; GNU ld .*' 'gate       [1-9].*'; do
        grep -qx -e "$line" "$1" || { echo "no line '$line'" && return 1; }
    done
    for word in $(awk '{ print $NF }' "$kit_folder/WHAT"); do
        grep -qwF -e "$word" "$1" || { echo "no $word of the kit" && return 1; }
    done
    sed -n '/^Trusted$/,/^$/p' "$1" | tr -s '\n ' ' ' | grep -q 'kit (compiler, prover, LLVM).*heap.c.*C library.*specs/' || { echo "trusted" && return 1; }
}

# Whether each package has it.
has_build_info() {
    for folder in "$unpacked" "$packages/nidzaru-$version" "$packages/debian/usr/share/doc/libnidzaru-dev" "$unpacked_programs"; do
        cmp "$made/BUILD-INFO" "$folder/BUILD-INFO" || return 1
    done
}

tells_less() {
    sed "$1" "$made/BUILD-INFO" >"$packages/info" && tells_build "$packages/info"
}

# Whether the Debian package is packed by gzip, its version and size, in KiB by files, are those of what it has, and it goes beside the other
# machine's if that was made with it.
is_debian() {
    [ "$(ar t "$1" | tr '\n' ' ')" = 'debian-binary control.tar.gz data.tar.gz ' ] || { echo "it has $(ar t "$1" | tr '\n' ' ')" && return 1; }
    [ "$(dpkg-deb -f "$1" Version)" = "$version" ] || { echo "version $(dpkg-deb -f "$1" Version)" && return 1; }
    # (dpkg-deb says `no` if there is no such line)
    beside=no
    [ -z "$has_arm" ] || beside=same
    multi=$(dpkg-deb -f "$1" Multi-Arch)
    [ "${multi:-no}" = "$beside" ] || { echo "Multi-Arch: $multi" && return 1; }
    kilobytes=$(dpkg-deb --fsys-tarfile "$1" | tar -tv | awk '/^-/ { sum += int(($3 + 1023) / 1024) } END { print sum }')
    [ "$(dpkg-deb -f "$1" Installed-Size)" = "$kilobytes" ] || { echo "size $(dpkg-deb -f "$1" Installed-Size), not $kilobytes" && return 1; }
}

# Packs the Debian package anew with another line in its control file, or by another program.
#   is_debian_with SED WORD
is_debian_with() {
    rm -rf "$packages/anew" && dpkg-deb -R "$deb" "$packages/anew" && sed -i "$1" "$packages/anew/DEBIAN/control" \
        && dpkg-deb --root-owner-group "$2" --build "$packages/anew" "$packages/anew.deb" && is_debian "$packages/anew.deb"
}

# What the packaged crate's build script says to cargo on such a system, with such sanitizers.
#   link_on SYSTEM [SANITIZERS]
link_on() {
    env CARGO_MANIFEST_DIR="$packages/nidzaru-$version" CARGO_CFG_TARGET_ARCH="${1%-*}" CARGO_CFG_TARGET_OS="${1#*-}" ${2:+"CARGO_CFG_SANITIZE=$2"} "$packages/build_rs"
}

# Whether that links the crate's own archive of each machine on Linux, and tells the crate of ThreadSanitizer.
links_its_library() {
    in_clean rustc --edition 2021 -o "$packages/build_rs" "$1" || return 1
    for at in $made_for; do
        said="cargo:rerun-if-changed=lib/$at/libnidzaru.a\ncargo:rustc-link-search=native=$packages/nidzaru-$version/lib/$at\n"
        said="${said}cargo:rustc-link-lib=static=nidzaru\n"
        [ "$(link_on "$at-linux")" = "$(printf "$said")" ] || { echo "on Linux $(link_on "$at-linux")" && return 1; }
        [ "$(link_on "$at-linux" address,thread)" = "$(printf "cargo:rustc-cfg=nidzaru_watched\n$said")" ] || { echo "not watched" && return 1; }
    done
    for system in riscv64-linux x86_64-windows; do
        ! link_on "$system" >"$room/linked" 2>&1 && grep -qx "this crate has no library of nidzaru for $system" "$room/linked" \
            || { echo "it links on $system" && return 1; }
    done
}

# The same with a text in place of another one.
links_with() {
    sed "$1" "$packages/nidzaru-$version/build.rs" >"$packages/build.rs" && ! cmp -s "$packages/build.rs" "$packages/nidzaru-$version/build.rs" \
        && links_its_library "$packages/build.rs"
}

is_clean_for_lintian() {
    lintian --allow-root --no-tag-display-limit -I --fail-on info,warning,error "$deb"
}

check_contents() {
    check "the packages' tar" unpack
    check "the links of the tar's pages" are_linked
    check "the files that the tar's pages name" names_files "$unpacked/share/doc/nidzaru"
    is_refused "a page that names what the tar lacks" 'C.md names c/tests' names_more
    check "one library in tar, Debian package and crate" is_one_library
    check "what the library contains, with a licence or none" is_listed_with_licence "$made/nidzaru-$version.spdx"
    sed 's/^\(PackageLicense[A-Za-z]*:\) NOASSERTION/\1 MIT OR Apache-2.0/' "$made/nidzaru-$version.spdx" >"$packages/spdx"
    is_refused "every licence ours" 'libnidzaru.a-x86_64: MIT' is_listed_with_licence "$packages/spdx"
    check "the files of each package" have_their_files
    sed -i '/nidzaru_log.h/d' "$packages/listed" "$packages/listed_debian"
    is_refused "a tar without the recorder" 'nidzaru_log.h' lists_tar "$packages/listed"
    is_refused "a Debian package without the recorder" 'nidzaru_log.h' lists_debian "$packages/listed_debian"
    check "modes and owners in each package" have_plain_modes
    tar -C "$packages" --owner=7 -czf "$packages/owned.tar.gz" log
    is_refused "a tar with its packer's owner" ' 7/' has_plain_modes "$packages/owned.tar.gz"
    check "BUILD-INFO tells commit, kit, tools and what is trusted" tells_build "$made/BUILD-INFO"
    is_refused "BUILD-INFO without the kit" "no line 'kit  " tells_less '/^kit /d'
    is_refused "BUILD-INFO without what is trusted" "no line 'Trusted'" tells_less '/^Trusted/,/^$/d'
    check "BUILD-INFO in each package" has_build_info
    check "the Debian package's parts, version and size" is_debian "$deb"
    is_refused "a Debian package of another version" 'version 2.0.0' is_debian_with 's/^Version: .*/Version: 2.0.0/' -Zgzip
    is_refused "a Debian package with its size in bytes" 'size [0-9]*000, not' is_debian_with 's/^Installed-Size: .*/&000/' -Zgzip
    is_refused "a Debian package by xz" 'it has .*data.tar.xz' is_debian_with '' -Zxz
}

# Whether the packages for ARM have their files, and an archive for it, of which the list tells; and whether Debian's two packages may be
# installed side by side: what both have is the same.
is_arm_packed() {
    arm_deb=$made/libnidzaru-dev_${version}_arm64.deb arm_tar=$made/nidzaru-$version-aarch64-linux.tar.gz
    list_tar "$arm_tar" >"$packages/listed_arm" && lists_tar "$packages/listed_arm" || return 1
    list_debian "$arm_deb" >"$packages/listed_arm" && lists_debian "$packages/listed_arm" aarch64-linux-gnu || return 1
    list_tar "$made/nidzaru-programs-$version-aarch64-linux.tar.gz" >"$packages/listed_arm" && lists_programs "$packages/listed_arm" || return 1
    dpkg-deb -x "$arm_deb" "$packages/debian_arm" && tar -C "$packages" -xzf "$arm_tar" || return 1
    [ "$(dpkg-deb -f "$arm_deb" Architecture)" = arm64 ] || { echo "it is for another machine" && return 1; }
    sum=$(sha256sum <"$packages/nidzaru-$version-aarch64-linux/lib/libnidzaru.a")
    [ "$(sha256sum <"$packages/debian_arm/usr/lib/aarch64-linux-gnu/libnidzaru.a")" = "$sum" ] \
        && [ "$(sha256sum <"$packages/nidzaru-$version/lib/aarch64/libnidzaru.a")" = "$sum" ] \
        && grep -q "SHA256: ${sum%% *}$" "$made/nidzaru-$version.spdx" || { echo "three archives" && return 1; }
    readelf -h "$packages/nidzaru-$version-aarch64-linux/lib/libnidzaru.a" | grep -q 'Machine:.*AArch64' || { echo "no archive for ARM" && return 1; }
}

# Whether what two folders have of the same names is the same.
are_alike() {
    (cd "$1" && find . -type f) | while IFS= read -r path; do
        [ ! -e "$2/$path" ] || cmp "$1/$path" "$2/$path" || return 1
    done
}

# Whether BUILD-INFO has for each machine the line by which the prover told that its library is proved, both of as much.
has_verdicts() {
    [ "$(grep -c '^verdict    ' "$1")" = 2 ] && for at in x86_64 aarch64; do
        grep -q "^verdict    $at: logic=proved functions=[0-9]* axioms=3 target=$at-unknown-linux-gnu " "$1" \
            || { echo "they aren't of one proof" && return 1; }
    done && [ "$(sed -n 's/^verdict .*: \(logic=proved functions=[0-9]* axioms=[0-9]*\) .* \(sum=[0-9a-f]*\) .*/\1 \2/p' "$1" | uniq | wc -l)" = 1 ] \
        || { echo "they aren't of one proof" && return 1; }
}
