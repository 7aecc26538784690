#!/usr/bin/env bash
# Builds the harness with clang's libFuzzer and runs it so many seconds: bash bindings/driver/fuzz/run.sh SECONDS [libFuzzer's options]
# REDSTARTGILT_LIB, where set, names the folder of libredstartgilt.a, as for ../../rust. Files that add coverage go to target/corpus.
set -euo pipefail
seconds=$1
shift
if [ -n "${REDSTARTGILT_LIB:-}" ]; then
    REDSTARTGILT_LIB=$(cd "$REDSTARTGILT_LIB" && pwd)
    export REDSTARTGILT_LIB
fi
cd "$(dirname "$0")"
target=x86_64-unknown-linux-gnu
coverage="-Cpasses=sancov-module -Cllvm-args=-sanitizer-coverage-level=4 -Cllvm-args=-sanitizer-coverage-inline-8bit-counters"
coverage="$coverage -Cllvm-args=-sanitizer-coverage-pc-table -Cllvm-args=-sanitizer-coverage-trace-compares -Ccodegen-units=1"
RUSTFLAGS="$coverage -Clinker=clang++ -Clink-arg=-fsanitize=fuzzer" cargo build --offline --quiet --release --target $target
mkdir -p target/corpus target/found
exec target/$target/release/fuzz -max_total_time="$seconds" -max_len=1024 -use_value_profile=1 -dict=dictionary -artifact_prefix=target/found/ "$@" target/corpus corpus
