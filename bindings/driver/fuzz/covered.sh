#!/usr/bin/env bash
# Makes the library with coverage: target/covered/crates/redstartgilt/out/libredstartgilt.a below the repository, to name to run.sh by REDSTARTGILT_LIB.
# The kit's clang compiles the module of the proved crates with one flag more. This is done in a copy of the repository, so that the archive is never taken for the library.
# `rt ci` refuses crates that crates.txt does not list: remove target/covered before it.
set -euo pipefail
here=$(cd "$(dirname "$0")" && pwd)
top=$(cd "$here/../../.." && pwd)
home=$(dirname "$(rt doc)")
copy=$top/target/covered
kit=$top/target/kit
rm -rf "$copy" "$kit"
mkdir -p "$copy" "$kit"
# with what is proved already
cp -r "$top/crates" "$top/crates.txt" "$copy"
rm -f "$copy/crates/redstartgilt/out/libredstartgilt.a"
cp -rs "$home/." "$kit"
# `rt` takes the kit that its own file is in
rm -r "$kit/bin"
cp -r "$home/bin" "$kit"
clang=toolchain/bin/clang
rm "$kit/$clang"
cat >"$kit/$clang" <<END
#!/bin/sh
exec "$home/$clang" -fsanitize-coverage=inline-8bit-counters,pc-table,trace-cmp "\$@"
END
chmod +x "$kit/$clang"
cd "$copy/crates/redstartgilt"
"$kit/bin/rt" lib
