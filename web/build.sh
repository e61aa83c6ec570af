#!/bin/sh
# build.sh OUT: makes the WebAssembly module OUT/machine.wasm of the proved static library crates/xv6_c.
#
# No crate is built for WebAssembly with a heap, so the library is built once more by a clang that keeps what it is given: the proved
# code as an LLVM module.
set -e
out=$(mkdir -p "$1" && cd "$1" && pwd)
here=$(cd "$(dirname "$0")" && pwd)
command -v wasm-opt > /dev/null || { echo 'wasm-opt is missing: apt install binaryen' >&2; exit 1; }
command -v rt > /dev/null || { echo 'rt is missing: install the Rattle kit' >&2; exit 1; }
kit=$(dirname "$(rt doc)")

# A kit of links to the other one's files, except clang. What was proved with the one counts with the other.
own=$out/kit
rm -rf "$own"
mkdir -p "$own/bin" "$own/toolchain/bin"
for file in "$kit"/*; do
    case ${file##*/} in bin | toolchain) ;; *) ln -s "$file" "$own/" ;; esac
done
cp "$kit/bin/rt" "$kit/bin/rtlib.py" "$own/bin/"
ln -s "$kit/bin/rattle" "$kit/bin/rattle-link" "$own/bin/"
ln -s "$kit/toolchain/lib" "$own/toolchain/"
for file in "$kit"/toolchain/bin/*; do ln -s "$file" "$own/toolchain/bin/"; done
rm "$own/toolchain/bin/clang"
cat > "$own/toolchain/bin/clang" << SCRIPT
#!/bin/sh
for word in "\$@"; do case \$word in *.bc) cp "\$word" '$out/module.bc' ;; esac; done
exec '$kit/toolchain/bin/clang' "\$@"
SCRIPT
chmod +x "$own/toolchain/bin/clang"

rm -f "$out/module.bc"
(cd "$here/../crates/xv6_c" && "$own/bin/rt" lib)
"$here/to_wasm.sh" "$kit" "$out/module.bc" "$here/../bindings/c/xv6.h" "$out/machine.wasm"
