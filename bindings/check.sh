#!/usr/bin/env bash
# Links the proved library to C and to Rust, and tests both: the stack that a call needs, the header and the installed library
# (c/check.sh), the Rust crate's tests, and malformed calls of every function. Layout and lints of the Rust are checked where
# rustfmt and clippy are installed.
# REDSTARTGILT_LIB, where set, names the folder of libredstartgilt.a; otherwise `rt` makes it.
set -euo pipefail
top=$(cd "$(dirname "$0")/.." && pwd)
if [ -n "${REDSTARTGILT_LIB:-}" ]; then
    REDSTARTGILT_LIB=$(cd "$REDSTARTGILT_LIB" && pwd)
else
    (cd "$top/crates/redstartgilt" && rt lib)
    REDSTARTGILT_LIB=$top/crates/redstartgilt/out
fi
export REDSTARTGILT_LIB
cd "$top"
work=$(mktemp -d)
trap 'rm -rf "$work"' EXIT
python3 -B bindings/stack.py "$REDSTARTGILT_LIB/libredstartgilt.a"
bash bindings/c/check.sh
for crate in bindings/rust bindings/driver; do
    if cargo fmt --version > "$work/version" 2>&1; then
        cargo fmt --check --manifest-path $crate/Cargo.toml
    else
        echo "$crate: its layout is not checked, as rustfmt is not installed"
    fi
    if cargo clippy --version > "$work/version" 2>&1; then
        cargo clippy --offline --quiet --all-targets --manifest-path $crate/Cargo.toml -- -D warnings
    else
        echo "$crate: it is not linted, as clippy is not installed"
    fi
done
cargo test --offline --quiet --manifest-path bindings/rust/Cargo.toml
cargo run --offline --quiet --manifest-path bindings/driver/Cargo.toml -- malformed 20000
bash bindings/python/check.sh
