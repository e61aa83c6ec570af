#!/bin/sh
# to_wasm.sh KIT BITCODE HEADER OUT: makes the WebAssembly module OUT, with a memory of 32 bits, of the LLVM module BITCODE, which was lowered
# for x86-64. It exports the functions xv6_raw_.. that HEADER declares.
set -e
kit=$1 bitcode=$2 header=$3 out=$4
clang=$kit/toolchain/bin/clang
work=$(mktemp -d)
trap 'rm -rf "$work"' EXIT

# Both targets have pointers of 64 bits. What names the other processor goes.
"$clang" -x ir "$bitcode" -S -emit-llvm -o "$work/x86.ll" 2> "$work/said" || { cat "$work/said" >&2; exit 1; }
layout='e-m:e-p:64:64-p10:8:8-p20:8:8-i64:64-i128:128-n32:64-S128-ni:1:10:20'
sed -e 's/^target triple = .*/target triple = "wasm64-unknown-unknown"/' -e "s/^target datalayout = .*/target datalayout = \"$layout\"/" \
    -e 's/"probe-stack"="inline-asm"//g; s/"stack-probe-size"="[0-9]*"//g; s/"target-cpu"="[^"]*"//g; s/"frame-pointer"="[^"]*"//g' "$work/x86.ll" > "$work/web.ll"
"$clang" --target=wasm64-unknown-unknown -mcpu=lime1 -mbulk-memory -mbulk-memory-opt -O3 -x ir "$work/web.ll" -c -o "$work/web.o"

# The linker of the kit is the one for WebAssembly where it is called by that name.
ln -s "$(realpath "$clang")" "$work/wasm-ld"
exports=$(grep -o 'xv6_raw_[a-z_]*' "$header" | grep -v '_$' | sort -u | sed 's/^/--export=/')
# shellcheck disable=SC2086
"$work/wasm-ld" -m wasm64 --no-entry --gc-sections --allow-undefined --export=__heap_base $exports -z stack-size=1048576 -O2 --strip-all \
    -o "$work/big.wasm" "$work/web.o"

wasm-opt --enable-memory64 --enable-bulk-memory --enable-mutable-globals --enable-sign-ext --enable-nontrapping-float-to-int \
    --memory64-lowering -O3 "$work/big.wasm" -o "$out"
