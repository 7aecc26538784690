#!/usr/bin/env bash
# build.sh FOLDER: cuts the Rust's functions out of the files in FOLDER that sources.txt names, builds `generate` and
# `oracle` into target/release beside this file, and asks the oracle document 01's worked cases.
set -euo pipefail
if [ $# -gt 1 ]; then
    echo "usage: bash bindings/oracle/build.sh FOLDER" >&2
    exit 2
fi
here=$(cd "$(dirname "$0")" && pwd)
python3 -B "$here/extract.py" "$@"
python3 -B "$here/verify.py" "$@"
programs=$here/target/release
cargo build --release --offline --manifest-path "$here/Cargo.toml" --target-dir "$here/target"
"$programs/generate" worked | "$programs/oracle" > /dev/null
echo "generate and oracle are in $programs"
