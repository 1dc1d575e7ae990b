# shellcheck shell=bash disable=SC2154
# The Rust crate aura_lexer: its tests, its examples, and the folder of the library.

crate() {
    (cd host && cargo build --release --offline --quiet --examples --target-dir ../target/host)
    (cd host && cargo test --release --offline --quiet --target-dir ../target/host) > "$out/got" 2>&1 \
        || { cat "$out/got"; fail "the tests of the crate aura_lexer"; }
    grep '^test result: ok. [1-9]' "$out/got" || fail "no test of the crate aura_lexer ran"
    (cd tools && cargo test --release --offline --quiet --target-dir ../target/tools) > "$out/got" 2>&1 \
        || { cat "$out/got"; fail "the tests of the tools"; }
    grep '^test result: ok. [1-9]' "$out/got" || fail "no test of the tools ran"
}

# AURA_LIB_DIR names the folder of the library.
library_folder() {
    local elsewhere=$PWD/$out/elsewhere
    rm -rf "$elsewhere"
    mkdir -p "$elsewhere/the library"
    first() {
        (cd host && AURA_LIB_DIR="$elsewhere/the library" cargo run --release --offline --quiet --target-dir "$elsewhere/target" --example first)
    }
    status 101 first
    said 'static library is missing: .*/the library/libaura_host\.a'
    said 'AURA_LIB_DIR'
    cp "$library" "$elsewhere/the library"
    status 0 first
    wrote '^T 6 0 2$'
    rm -rf "$elsewhere"
}

crate
library_folder
