#!/usr/bin/env bash
# Installs the library for C and C++ below PREFIX, /usr/local where none is given: bash bindings/c/install.sh [PREFIX]
#   include/redstartgilt.h, lib/libredstartgilt.a, lib/libredstartgilt.so.MAJOR and its link libredstartgilt.so,
#   lib/pkgconfig/redstartgilt.pc
# DESTDIR, where set, is put before PREFIX in every place written to, and in no text.
# REDSTARTGILT_LIB, where set, names the folder of libredstartgilt.a; otherwise `rt` makes it.
set -euo pipefail
prefix=${1:-/usr/local}
[[ $prefix == /* ]] || prefix=$PWD/$prefix
if [ -n "${REDSTARTGILT_LIB:-}" ]; then
    archive=$(cd "$REDSTARTGILT_LIB" && pwd)/libredstartgilt.a
fi
cd "$(dirname "$0")/../.."
if [ -z "${archive:-}" ]; then
    (cd crates/redstartgilt && rt lib)
    archive=$PWD/crates/redstartgilt/out/libredstartgilt.a
fi
header=include/redstartgilt.h
version=$(sed -n 's/^#define REDSTARTGILT_VERSION "\(.*\)"$/\1/p' $header)
soname=libredstartgilt.so.${version%%.*}
work=$(mktemp -d)
trap 'rm -rf "$work"' EXIT

# The archive's code is position independent; `-z text` has the linker refuse any that is not. It needs memset of the C library.
echo '{ global: redstartgilt_*; local: *; };' > "$work/exports"
gcc -shared -Wl,-soname,"$soname" -Wl,--version-script="$work/exports" -Wl,-z,text -Wl,-z,defs \
    -Wl,--whole-archive "$archive" -Wl,--no-whole-archive -o "$work/$soname"
cat > "$work/redstartgilt.pc" <<END
prefix=$prefix
libdir=\${prefix}/lib
includedir=\${prefix}/include

Name: redstartgilt
Description: A proved selected inverse of a sparse Cholesky factor
Version: $version
Cflags: -I\${includedir}
Libs: -L\${libdir} -lredstartgilt
END

below=${DESTDIR:-}$prefix
install -d "$below/include" "$below/lib/pkgconfig"
install -m 644 $header "$below/include"
install -m 644 "$archive" "$below/lib"
install -m 755 "$work/$soname" "$below/lib"
ln -sfn "$soname" "$below/lib/libredstartgilt.so"
install -m 644 "$work/redstartgilt.pc" "$below/lib/pkgconfig"
echo "redstartgilt $version is installed in $below"
