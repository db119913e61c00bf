# The crate for Rust programs over the installed library, where cargo is: its tests, its documents' examples, and the program that runs
# until it is told to stop. It names the installed prefix in $installed.

# Looks for what is newer in the standard library than Rust $1, as the crate's oldest compiler.
is_as_old() {
    rm -rf "$room/old" && cp -r rust/nidzaru "$room/old" && sed -i "s/^rust-version = .*/rust-version = \"$1\"/" "$room/old/Cargo.toml" \
        && PKG_CONFIG_PATH=$installed/lib/pkgconfig CARGO_TARGET_DIR=$room/oldest cargo clippy --offline --quiet --all-targets --features shared \
            --manifest-path "$room/old/Cargo.toml" -- -A clippy::all -D clippy::incompatible_msrv >"$room/said" 2>&1
}

# The oldest compiler that Cargo.toml names builds and tests the crate, where it is installed, and clippy, where it is there, finds nothing
# newer than it. Clippy has to find something newer than an older one.
test_oldest_rust() {
    oldest=$(awk -F'"' '/^rust-version/ { print $2 }' rust/nidzaru/Cargo.toml)
    name="rust/nidzaru: Rust $oldest"
    if grep -q "Rust, from $oldest on" docs/INSTALL.md; then
        pass "$name is the page's"
    else
        fail "$name is the page's" "it has another"
    fi
    if cargo "+$oldest" --version >/dev/null 2>&1; then
        if PKG_CONFIG_PATH=$installed/lib/pkgconfig CARGO_TARGET_DIR=$room/oldest cargo "+$oldest" test --offline --quiet \
            --manifest-path "$room/rust/Cargo.toml" >"$room/said" 2>&1; then
            pass "$name"
        else
            fail "$name" "$(grep -m 3 '^error' "$room/said" | tr '\n' ' ')"
        fi
    fi
    cargo clippy --version >/dev/null 2>&1 || return 0
    if ! is_as_old "$oldest"; then
        fail "$name, by clippy" "$(grep -m 3 '^error' "$room/said" | tr '\n' ' ')"
    elif is_as_old 1.75 || ! grep -q 'current MSRV' "$room/said"; then
        fail "$name, by clippy" "it finds nothing that is newer than 1.75"
    else
        pass "$name, by clippy"
    fi
}

# Builds the program without a C library, which takes the crate without `std`, after a change by a command of sed.
#   builds_freestanding SED
builds_freestanding() {
    rm -rf "$room/freestanding" && cp -r rust/freestanding "$room/freestanding" \
        && sed -i "s|\"../nidzaru\"|\"../rust\"|; $1" "$room/freestanding/Cargo.toml" || return 1
    host=$(rustc -vV | sed -n 's/^host: //p')
    RUSTFLAGS='-Crelocation-model=static -Clink-arg=-nostdlib -Clink-arg=-static -Clink-arg=-no-pie' \
        PKG_CONFIG_PATH=$installed/lib/pkgconfig CARGO_TARGET_DIR=$room/alone_target \
        cargo build --release --offline --quiet --target "$host" --manifest-path "$room/freestanding/Cargo.toml" >"$room/said" 2>&1
}

test_freestanding_in_rust() {
    if builds_freestanding '' && [ "$("$room/alone_target/$host/release/freestanding")" = passed ]; then
        pass "rust/freestanding: the crate without std, and no C library"
    else
        fail "rust/freestanding" "$(head -n 3 "$room/said" | tr '\n' ' ')"
    fi
    if builds_freestanding 's/, default-features = false//'; then
        fail "planted: rust/freestanding over the crate with std" "it is built all the same"
    elif grep -q 'found duplicate lang item' "$room/said"; then
        pass "planted: rust/freestanding over the crate with std"
    else
        fail "planted: rust/freestanding over the crate with std" "another reason: $(grep -m 2 '^error' "$room/said" | tr '\n' ' ')"
    fi
}

# Sees that the pair of this word is a race.
#   sees_race_in_rust WORD TITLE
sees_race_in_rust() {
    TSAN_OPTIONS=exitcode=66 "$pairs" "$1" >"$room/said" 2>&1
    if [ $? = 66 ] && [ "$(grep -c '^WARNING: ThreadSanitizer' "$room/said")" = 1 ] && grep -q '#0 pairs::load ' "$room/said"; then
        pass "planted: rust/pairs: $2"
    else
        fail "planted: rust/pairs: $2" "no race, or another: $(head -n 5 "$room/said" | tr '\n' ' ')"
    fi
}

# Pairs of a store and a load under ThreadSanitizer, which the stable compiler has too: it is silent over those that a call orders, and sees
# the races of two that none does. (The standard library isn't built for it, so channels and the crate's other tests would show false
# races.)
test_races_in_rust() {
    runtime=$(rustc --print sysroot)/lib/rustlib/x86_64-unknown-linux-gnu/lib
    ls "$runtime"/librustc*_rt.tsan.a >/dev/null 2>&1 || return 0
    wrapped_in_rust=
    for call in 24_write 24_read 24_look triple_24_write triple_24_publish triple_24_look board_24_write board_24_read board_24_read_since; do
        wrapped_in_rust="$wrapped_in_rust -Clink-arg=-Wl,--wrap=nidzaru_$call"
    done
    cp -r rust/pairs "$room/pairs" && sed -i 's|"../nidzaru"|"../rust"|' "$room/pairs/Cargo.toml"
    if ! RUSTC_BOOTSTRAP=1 RUSTFLAGS="-Zsanitizer=thread -Cunsafe-allow-abi-mismatch=sanitizer $wrapped_in_rust" \
        PKG_CONFIG_PATH=$installed/lib/pkgconfig CARGO_TARGET_DIR=$room/races cargo build --release --offline --quiet \
        --target x86_64-unknown-linux-gnu --manifest-path "$room/pairs/Cargo.toml" >"$room/said" 2>&1; then
        fail "rust/pairs" "it wasn't built: $(grep -m 3 '^error' "$room/said" | tr '\n' ' ')"
        return
    fi
    pairs=$room/races/x86_64-unknown-linux-gnu/release/pairs
    if TSAN_OPTIONS=exitcode=66 "$pairs" clean >"$room/said" 2>&1 && [ "$(cat "$room/said")" = passed ]; then
        pass "rust/pairs: what one call orders, with ThreadSanitizer"
    else
        fail "rust/pairs: what one call orders, with ThreadSanitizer" "$(head -n 5 "$room/said" | tr '\n' ' ')"
    fi
    sees_race_in_rust unread "a pair without its call is a race"
    sees_race_in_rust other "what another register tells is a race"
}

if command -v cargo >/dev/null 2>&1; then
    cp -r rust/nidzaru "$room/rust"
    if in_rust test --release >"$room/said" 2>&1; then
        pass "rust/nidzaru: $(awk '/^test result: ok/ { sum += $4 } END { print sum }' "$room/said") tests and examples of documents"
    else
        fail "rust/nidzaru" "$(grep -m 3 'error\|panicked\|FAILED' "$room/said" | tr '\n' ' ')"
    fi
    if { sleep 0.3; echo hold; sleep 0.1; echo run; sleep 0.2; echo stop; } \
        | in_rust run --release --example control_loop >"$room/said" 2>&1 \
        && tail -n 1 "$room/said" | grep -qx 'no record was torn'; then
        pass "rust/nidzaru: a control loop that is told to stop"
    else
        fail "rust/nidzaru: a control loop that is told to stop" "$(tail -n 1 "$room/said")"
    fi
    if in_rust run --release --example small >"$room/said" 2>&1 && [ "$(tail -n 1 "$room/said")" = 'no record was torn' ]; then
        pass "rust/nidzaru: a small program"
    else
        fail "rust/nidzaru: a small program" "$(tail -n 1 "$room/said")"
    fi
    if PKG_CONFIG_PATH=/nowhere CARGO_TARGET_DIR=$room/target cargo build --offline --quiet --manifest-path "$room/rust/Cargo.toml" \
        >"$room/said" 2>&1 || ! grep -q 'install it by' "$room/said"; then
        fail "rust/nidzaru without the library" "it doesn't say how the library is installed"
    else
        pass "rust/nidzaru without the library"
    fi
    if PKG_CONFIG_PATH=/nowhere CARGO_TARGET_DIR=$room/target cargo doc --offline --quiet --no-deps --manifest-path "$room/rust/Cargo.toml" \
        >"$room/said" 2>&1 && [ -s "$room/target/doc/nidzaru/fn.register_over.html" ] && [ ! -s "$room/said" ]; then
        pass "rust/nidzaru: documents without the library"
    else
        fail "rust/nidzaru: documents without the library" "$(head -n 3 "$room/said" | tr '\n' ' ')"
    fi
    # (the library is as it is: what pkg-config says of it is another)
    mkdir -p "$room/older" && sed "s/^Version: .*/Version: 2.0.9/" "$installed/lib/pkgconfig/nidzaru.pc" >"$room/older/nidzaru.pc"
    if PKG_CONFIG_PATH=$room/older CARGO_TARGET_DIR=$room/target cargo build --offline --quiet --manifest-path "$room/rust/Cargo.toml" \
        >"$room/said" 2>&1 || ! grep -q 'is of version 2.0.9, and this crate needs' "$room/said"; then
        fail "rust/nidzaru over an older library" "it isn't told"
    else
        pass "rust/nidzaru over an older library"
    fi
    test_oldest_rust
    test_freestanding_in_rust
    test_races_in_rust
    # (the numbers of the errors of examples that don't compile are looked at by the nightly compiler alone)
    if cargo +nightly --version >/dev/null 2>&1; then
        if in_rust +nightly test --doc >"$room/said" 2>&1; then
            pass "rust/nidzaru: the errors of examples that don't compile"
        else
            fail "rust/nidzaru: the errors of examples that don't compile" "$(grep -m 3 'FAILED\|error codes' "$room/said" | tr '\n' ' ')"
        fi
    fi
fi
