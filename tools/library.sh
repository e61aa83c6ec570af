#!/bin/sh
# library.sh FOLDER: proves crates/xv6_c, and makes of it libxv6.a and libxv6.so, beside xv6.h and the Python package. It needs a C
# compiler, as Debian's gcc, for libxv6.so alone.
set -e
cd "$(dirname "$0")/.."
kit=$(dirname "$(dirname "$(readlink -f "$(command -v rt)")")")
(cd crates/xv6_c && rt lib)
mkdir -p "$1/cathompi"
# The archive, with the functions of the kit that call malloc, realloc and free.
cp crates/xv6_c/out/libxv6_c.a "$1/libxv6.a"
scratch=$(mktemp -d)
trap 'rm -rf "$scratch"' EXIT
(cd "$scratch" && "$kit/toolchain/bin/llvm-ar" x "$kit/c/liblibc_c.a")
"$kit/toolchain/bin/llvm-ar" rs "$1/libxv6.a" "$scratch"/*.o
# The shared object, which exports xv6_raw_* alone.
echo '{ global: xv6_raw_*; local: *; };' > "$scratch/exports"
command -v cc > /dev/null || { echo 'library: no C compiler (apt install gcc): libxv6.so is not made' >&2; exit 1; }
cc -shared -o "$1/libxv6.so" -Wl,--version-script="$scratch/exports" -Wl,--whole-archive "$1/libxv6.a" -Wl,--no-whole-archive
cp bindings/c/xv6.h "$1/"
cp bindings/python/cathompi/*.py bindings/python/cathompi/py.typed "$1/libxv6.so" "$1/cathompi/"
# pip install ./bindings/python takes it from there.
cp "$1/libxv6.so" bindings/python/cathompi/
ls -l "$1/libxv6.a" "$1/libxv6.so"
