#!/bin/sh
# install.sh: puts the headers, the archive and the shared library, what pkg-config, CMake and man need, and the wrappers for Python and
# Rust, below PREFIX, /usr/local if it is not given; DESTDIR goes before it. What is installed may be moved. Run build.sh first,
# with the same NEKCHHAUL_BUILD if any.
set -eu
here=$(cd "$(dirname "$0")" && pwd)
prefix=${PREFIX:-/usr/local}
case $prefix in /*) ;; *) prefix=$PWD/$prefix ;; esac
to=${DESTDIR:-}$prefix
build=${NEKCHHAUL_BUILD:-$here/build}
[ -f "$build/libnekchhaul.so.2" ] || {
    echo "install.sh: run build.sh first" >&2
    exit 1
}
version=$(sed -n 's/^#define NEKCHHAUL_VERSION_M[A-Z]* //p' "$here/include/nekchhaul.h" | tr '\n' .)0
mkdir -p "$to/include" "$to/lib/pkgconfig" "$to/lib/cmake/nekchhaul" "$to/share/man/man3" "$to/share/nekchhaul/python"
cp "$here"/include/*.h "$here"/include/*.hpp "$to/include/"
cp -P "$build"/libnekchhaul.* "$to/lib/"
cp "$here/python/nekchhaul.py" "$to/share/nekchhaul/python/"
rm -rf "$to/share/nekchhaul/rust"
cp -r "$here/rust" "$to/share/nekchhaul/rust"
rm -rf "$to/share/nekchhaul/rust/target" "$to/share/nekchhaul/rust/Cargo.lock"
for name in nekchhaul nekchhaul-static; do
    sed "s/@version@/$version/" "$here/install/$name.pc" >"$to/lib/pkgconfig/$name.pc"
done
for name in nekchhaulConfig nekchhaulConfigVersion; do
    sed "s/@version@/$version/" "$here/install/$name.cmake" >"$to/lib/cmake/nekchhaul/$name.cmake"
done
if command -v python3 >/dev/null; then
    python3 "$here/install/man" "$here/include/nekchhaul.h" >"$to/share/man/man3/nekchhaul.3"
else
    echo "install.sh: no manual page, which python3 would make" >&2
fi
