# There is one version: that of the header, which the page of changes begins with and the crate for Rust and `fsr` have. (Of the built
# library and the header the tests of C see it.)

# Prints the version of a tree, or which versions it has.
version_of_tree() {
    header=$(awk '/^#define NIDZARU_VERSION_(MAJOR|MINOR|PATCH)/ { printf dot "%s", $3; dot = "." }' "$1/c/nidzaru.h")
    changes=$(sed -n 's/^## \(Towards \)\{0,1\}\([0-9][0-9.]*\).*/\2/p' "$1/CHANGELOG.md" | head -n 1)
    crate=$(sed -n 's/^version = "\(.*\)"/\1/p' "$1/rust/nidzaru/Cargo.toml" | head -n 1)
    words=$(sed -n 's/^const VERSION: &str = "\(.*\)";/\1/p' "$1/crates/fsr_words/src/command.rt")
    if [ -n "$header" ] && [ "$changes" = "$header" ] && [ "$crate" = "$header" ] && [ "$words" = "$header" ]; then
        echo "$header"
    else
        echo "the header has '$header', CHANGELOG.md begins with '$changes', rust/nidzaru/Cargo.toml has '$crate', fsr_words has '$words'"
        return 1
    fi
}

if version=$(version_of_tree .); then
    pass "one version, $version"
else
    fail "one version" "$version"
fi

# (with another version planted in each of the four)
for file in c/nidzaru.h CHANGELOG.md rust/nidzaru/Cargo.toml crates/fsr_words/src/command.rt; do
    rm -rf "$room/release"
    mkdir -p "$room/release/c" "$room/release/rust/nidzaru" "$room/release/crates/fsr_words/src"
    for it in c/nidzaru.h CHANGELOG.md rust/nidzaru/Cargo.toml crates/fsr_words/src/command.rt; do
        cp "$it" "$room/release/$it"
    done
    sed -i -e 's/^\(#define NIDZARU_VERSION_PATCH\).*/\1 77/' -e 's/^## \(Towards \)\{0,1\}[0-9][0-9.]*/## 0.0.77/' \
        -e 's/^version = .*/version = "0.0.77"/' \
        -e 's/^\(const VERSION: &str =\).*/\1 "0.0.77";/' "$room/release/$file"
    if version_of_tree "$room/release" >"$room/said" || ! grep -q "77'" "$room/said"; then
        fail "another version in $file" "it isn't seen"
    else
        pass "another version in $file is seen"
    fi
done
