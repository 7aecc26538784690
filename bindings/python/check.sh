#!/usr/bin/env bash
# Tests the Python package: its shared library is linked, its tests are run under each Python that is there, and pip installs it
# without a network. What needs NumPy, SciPy or matplotlib is said to be skipped where they are not installed.
# REDSTARTGILT_LIB, where set, names the folder of libredstartgilt.a or libredstartgilt.so; otherwise `rt` makes the archive.
set -euo pipefail
if [ -n "${REDSTARTGILT_LIB:-}" ]; then
    REDSTARTGILT_LIB=$(cd "$REDSTARTGILT_LIB" && pwd)
    export REDSTARTGILT_LIB
fi
cd "$(dirname "$0")/../.."
work=$(mktemp -d)
trap 'rm -rf "$work"' EXIT
mkdir "$work/shared"
python3 -B bindings/python/build_backend.py "$work/shared" > "$work/built"
tested=
for python in python3 /usr/bin/python3; do
    prefix=$("$python" -c 'import sys; print(sys.prefix); sys.exit(sys.version_info < (3, 9))' 2> "$work/version") || continue
    case "$tested" in *"[$prefix]"*) continue ;; esac
    tested="$tested[$prefix]"
    for needed in numpy scipy matplotlib; do
        "$python" -c "import $needed" 2> "$work/version" ||
            echo "bindings/python: what needs $needed is not tested under $python, as it is not installed"
    done
    (cd bindings/python && REDSTARTGILT_LIB=$work/shared "$python" -B -m unittest)
done
[ -n "$tested" ] || { echo "bindings/python: no Python from 3.9 on is there" && exit 1; }
if python3 -m pip --version > "$work/version" 2>&1; then
    PYTHONDONTWRITEBYTECODE=1 PIP_ROOT_USER_ACTION=ignore PIP_DISABLE_PIP_VERSION_CHECK=1 \
        python3 -m pip install --quiet --no-index --target "$work/installed" ./bindings/python
    (cd "$work" && env -u REDSTARTGILT_LIB PYTHONPATH="$work/installed" python3 -B -c '
import doctest, redstartgilt
done = doctest.testmod(redstartgilt)
assert done.attempted and not done.failed and "installed" in str(redstartgilt.LIBRARY_PATH)')
    echo "bindings/python: pip installs it without a network"
else
    echo "bindings/python: that pip installs it is not tested, as there is no pip"
fi
