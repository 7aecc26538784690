#!/usr/bin/env bash
# The library's call for all diagonals beside SuiteSparse's sparseinv: its source is taken from Debian's source package, or
# from a folder, compiled for any machine and for this one, and a table is printed. Not part of the gate; no file of
# SuiteSparse is kept.
#   run.sh [SIDE..]    the sides of the grids, 16, 32, 45 and 64 where none is given
# SPARSEINV, where set, names a folder with sparseinv.c and sparseinv.h (MATLAB_Tools/sparseinv of SuiteSparse).
# REDSTARTGILT_LIB, where set, names the folder of libredstartgilt.a; otherwise `rt` makes it.
set -euo pipefail
here=$(cd "$(dirname "$0")" && pwd)
top=$(cd "$here/../../.." && pwd)
work=$(mktemp -d)
trap 'rm -rf "$work"' EXIT
[ $# -gt 0 ] || set -- 16 32 45 64

skip() {
    echo "skipped: $*"
    echo "needed: apt-get, xz and Debian's archive, or SPARSEINV=FOLDER with sparseinv.c and sparseinv.h of SuiteSparse"
    exit 0
}

# Puts the two files of the source package into $work/source. apt-get has the machine's sources, as those of source packages,
# with lists and a cache of its own, so that the machine's stay as they are; it downloads 50 MB, and checks what it downloads
# by the archive's keys.
fetch() {
    local apt=$work/apt tool file
    for tool in apt-get xz; do
        command -v $tool > "$work/which" || skip "there is no $tool"
    done
    mkdir -p "$work/source" "$apt/lists/partial" "$apt/cache/archives/partial" "$apt/parts"
    for file in /etc/apt/sources.list /etc/apt/sources.list.d/*.list; do
        [ ! -r "$file" ] || sed -n 's/^deb /deb-src /p' "$file"
    done > "$apt/sources.list"
    for file in /etc/apt/sources.list.d/*.sources; do
        [ ! -r "$file" ] || sed 's/^Types:.*/Types: deb-src/' "$file" > "$apt/parts/$(basename "$file")"
    done
    local get=(timeout 300 apt-get -q -o "Dir::Etc::sourcelist=$apt/sources.list" -o "Dir::Etc::sourceparts=$apt/parts"
        -o "Dir::State::lists=$apt/lists" -o "Dir::Cache=$apt/cache" -o APT::Sandbox::User=
        -o APT::Update::Error-Mode=any -o Acquire::http::Timeout=20)
    "${get[@]}" update > "$apt/log" 2>&1 || skip "apt-get cannot update its lists: $(tail -n 1 "$apt/log")"
    (cd "$apt" && "${get[@]}" source --download-only suitesparse) > "$apt/log" 2>&1 ||
        skip "apt-get has no source package suitesparse: $(tail -n 1 "$apt/log")"
    tar -xf "$apt"/suitesparse_*.orig.tar.xz -C "$work/source" --wildcards --strip-components=3 \
        '*/MATLAB_Tools/sparseinv/sparseinv.[ch]'
    echo "sparseinv: of Debian's $(basename "$apt"/suitesparse_*.orig.tar.xz)"
}

if [ -n "${SPARSEINV:-}" ]; then
    source=$SPARSEINV
    echo "sparseinv: of the folder $SPARSEINV"
else
    fetch
    source=$work/source
fi
if [ -z "${REDSTARTGILT_LIB:-}" ]; then
    (cd "$top/crates/redstartgilt" && rt lib)
    REDSTARTGILT_LIB=$top/crates/redstartgilt/out
fi
gcc -O3 -c "$source/sparseinv.c" -o "$work/sparseinv.o"
gcc -O3 -march=native -Dsparseinv=sparseinv_native -c "$source/sparseinv.c" -o "$work/native.o"
gcc -std=c99 -pedantic -Wall -Wextra -Werror -O2 -D_POSIX_C_SOURCE=200809L -I "$top/include" -I "$source" \
    "$here/benchmark.c" "$here/grid.c" "$work/sparseinv.o" "$work/native.o" "$REDSTARTGILT_LIB/libredstartgilt.a" -lm \
    -o "$work/benchmark"
"$work/benchmark" "$@"
