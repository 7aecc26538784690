#!/usr/bin/env bash
# Factors with pivots from another library, read from its files: `export.c` makes them by SuiteSparse, the command and the
# driver read them, and the driver compares the entries with a dense inverse. Not part of the gate; Debian's package
# libsuitesparse-dev is needed, and without it nothing is run.
#   run.sh [SIDE..]    the sides of the grids, 16 and 32 where none is given
# REDSTARTGILT_LIB, where set, names the folder of libredstartgilt.a; otherwise `rt` makes it.
set -euo pipefail
bindings=$(cd "$(dirname "$0")/.." && pwd)
work=$(mktemp -d)
trap 'rm -rf "$work"' EXIT
echo '#include <suitesparse/cholmod.h>' > "$work/there.c"
if ! gcc -fsyntax-only "$work/there.c" 2> "$work/missing"; then
    echo "skipped: SuiteSparse is not installed (Debian: apt-get install libsuitesparse-dev)"
    exit 0
fi
gcc -std=c99 -pedantic -Wall -Wextra -Werror -O2 "$bindings/partner/export.c" -lcholmod -lldl -lamd -o "$work/export"
cargo build --offline --quiet --release --bin redstartgilt --manifest-path "$bindings/rust/Cargo.toml"
cargo build --offline --quiet --release --manifest-path "$bindings/driver/Cargo.toml"
[ $# -gt 0 ] || set -- 16 32
for package in cholmod ldl; do
    for side in "$@"; do
        files=$work/$package-$side
        mkdir "$files"
        "$work/export" "$package" "$side" "$files"
        echo "$package, ${side}x$side"
        "$bindings/rust/target/release/redstartgilt" --csv --pivots "$files/D.txt" \
            --cell-to-place "$files/P.txt" --precision "$files/Q.mtx" "$files/L.mtx" > "$files/variances.csv"
        "$bindings/driver/target/release/driver" compare-export "$files" "$files/variances.csv"
    done
done
