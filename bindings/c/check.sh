#!/usr/bin/env bash
# Tests the header, the archive and the installed library from C and C++. REDSTARTGILT_LIB names the folder of libredstartgilt.a.
set -euo pipefail
cd "$(dirname "$0")/../.."
archive=$(cd "$REDSTARTGILT_LIB" && pwd)/libredstartgilt.a
c="gcc -std=c99 -pedantic -Wall -Wextra -Werror"
work=$(mktemp -d)
trap 'rm -rf "$work"' EXIT

fail() { echo "$*" && exit 1; }
# What the example prints, by a command that runs it.
compare() { "$@" > "$work/stdout" && diff -u bindings/c/example.stdout "$work/stdout"; }

if gcc -m32 -ffreestanding -std=c99 -fsyntax-only -x c include/redstartgilt.h 2> "$work/refused"; then
    fail "include/redstartgilt.h takes a size_t of 32 bits"
fi
grep -q redstartgilt_size_t_has_64_bits "$work/refused" || { cat "$work/refused" && exit 1; }
$c bindings/c/example.c "$archive" -o "$work/static"
compare "$work/static"
echo "C example: as expected"

# The same lengths and words from C++; bindings/rust/tests/header.rs compares those of C with the Rust crate's.
$c -I include bindings/c/inline.c -o "$work/inline"
if command -v g++ > "$work/which"; then
    g++ -std=c++11 -Wall -Wextra -Werror -I include -x c++ bindings/c/inline.c -o "$work/inline++"
    seq 0 9973 9999999 | paste - - > "$work/numbers"
    cmp <("$work/inline" < "$work/numbers") <("$work/inline++" < "$work/numbers")
    cmp <("$work/inline" words) <("$work/inline++" words)
    echo "C++: lengths and words as in C"
else
    echo "the header is not compiled as C++, as g++ is not installed"
fi

bash bindings/c/install.sh "$work/prefix" > "$work/installed"
names() { nm --defined-only --extern-only --format=just-symbols "$@" | grep -v '[:]$' | grep . | sort; }
shared=$work/prefix/lib/libredstartgilt.so
diff <(names "$archive") <(names --dynamic "$shared") || fail "the shared library exports other names than the archive"
if command -v pkg-config > "$work/which"; then
    read -ra flags < <(PKG_CONFIG_PATH=$work/prefix/lib/pkgconfig pkg-config --cflags --libs redstartgilt)
    $c bindings/c/example.c "${flags[@]}" -o "$work/shared"
    readelf --dynamic "$work/shared" | grep -q 'NEEDED.*\[libredstartgilt\.so\.[0-9]*\]' || fail "the example has no shared library"
    compare env LD_LIBRARY_PATH="$work/prefix/lib" "$work/shared"
    # The example has the header of this folder; this program has the installed one.
    $c bindings/c/inline.c "${flags[@]}" -o "$work/installed_inline"
    cmp <("$work/inline" words) <("$work/installed_inline" words)
    echo "C example with the installed shared library: as expected"
else
    echo "the installed library is not linked, as pkg-config is not installed"
fi
DESTDIR=$work/package bash bindings/c/install.sh /usr > "$work/installed"
diff -r "$work/prefix/lib" "$work/package/usr/lib" --exclude redstartgilt.pc
grep -qx 'prefix=/usr' "$work/package/usr/lib/pkgconfig/redstartgilt.pc" || fail "DESTDIR is in redstartgilt.pc"
