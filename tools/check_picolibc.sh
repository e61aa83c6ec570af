#!/bin/sh
# check_picolibc.sh PROGRAM: the programs of user-c/picolibc, with Lua and Duktape, print what the same texts print
# that the host's compiler makes.
set -eu
cd "$(dirname "$0")/.."
program=$(realpath "$1")
texts=$(realpath user-c/picolibc)
make -s -C user-c/picolibc all lua duk
compiled=$(realpath out/picolibc)
sources=$(realpath out/sources)
scratch=$(mktemp -d)
trap 'rm -rf "$scratch"' EXIT
mkdir "$scratch/host"

for name in gravity words seek digest calc; do
    cc -O2 -o "$scratch/$name" "$texts/$name.c" -lm
done
cc -O2 -w -I"$sources/duktape/src" -o "$scratch/duk" "$texts/duk.c" "$sources/duktape/src/duktape.c" -lm
# shellcheck disable=SC2046
cc -O2 -w -DLUA_USE_C89 -I"$sources/lua5.4" -o "$scratch/lua" \
    $(find "$sources/lua5.4/src" -name '*.c' ! -name luac.c) -lm 2> "$scratch/told"

{
    echo "file /init $PWD/out/user/init"
    echo "file /sh $PWD/out/user/sh"
    for name in gravity words seek digest calc lua duk; do
        echo "file /$name $compiled/$name"
    done
    for file in script.calc script.lua script.js digest.c; do
        echo "file /$file $texts/$file"
        cp "$texts/$file" "$scratch/host"
    done
} > "$scratch/manifest"
"$program" mkfs "$scratch/manifest" "$scratch/image"

# compare COMMAND: its console on the machine, and standard output on the host.
compare() {
    printf 'until "$ " 1000000\ntype %s\nuntil "$ " 1000000000\n' "$1" > "$scratch/play"
    "$program" play --frames 2048 "$scratch/image" "$scratch/play" 2> /dev/null | sed '1,2d;$d' > "$scratch/got"
    (cd "$scratch/host" && eval "../$1" > "$scratch/wanted") || true
    diff "$scratch/got" "$scratch/wanted" || { echo "$1: it differs from the host's"; exit 1; }
    echo "$1: as on the host, $(wc -l < "$scratch/wanted") lines"
}

compare 'gravity 200'
compare 'words digest.c'
compare 'seek'
compare 'digest digest.c'
compare 'calc < script.calc'
compare 'lua script.lua'
compare 'duk script.js'
