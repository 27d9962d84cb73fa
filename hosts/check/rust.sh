# The cargo packages, and README's program in Rust, in the copy that make.sh made; a part of hosts/check/run.

# cargo_test PACKAGE
cargo_test() {
    SHADER_READER_LIB=$library cargo test --offline --quiet --target-dir "$work/cargo" \
        --manifest-path "$copy/hosts/$1/Cargo.toml"
}

# The same in edition 2024, which needs a newer cargo than the package does; the package is left as it was.
cargo_test_2024() {
    manifest=$copy/hosts/$1/Cargo.toml
    cp "$manifest" "$work/manifest" || return 1
    sed -e 's/^edition = .*/edition = "2024"/' -e '/^rust-version/d' "$work/manifest" >"$manifest"
    grep -q 2024 "$manifest" && cargo_test "$1"
    tested=$?
    cp "$work/manifest" "$manifest"
    return $tested
}

for package in rust shader-tree; do
    needs cargo "hosts/$package" || continue
    try "cargo test in hosts/$package" cargo_test $package
    if rustc --edition 2024 --print sysroot >/dev/null 2>&1; then
        try "cargo test in hosts/$package, edition 2024" cargo_test_2024 $package
    else
        echo "skipped  hosts/$package in edition 2024: this rustc doesn't know it"
    fi
done
if needs cargo "README's program in Rust, make shader-tree"; then
    try "README: its program in Rust" hosts/check/readme.sh "$copy" rust
    try "make shader-tree: files good and bad, installed" hosts/check/shader-tree.sh "$copy"
fi
