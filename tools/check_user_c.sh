#!/bin/sh
# check_user_c.sh PROGRAM: the programs of user-c by both compilers. selftest passes without a clock and at each pace
# of one, on memories of three sizes; sessions show what they show with the programs in assembly; and the file that the
# gate runs is what the compiler gives.
set -eu
cd "$(dirname "$0")/.."
program=$(realpath "$1")
scratch=$(mktemp -d)
trap 'rm -rf "$scratch"' EXIT

# selftest IMAGE: its last line, where no test fails.
selftest() {
    for frames in 256 1024 4096; do
        for steps in 0 100 1000 10000 100000; do
            printf 'every %s tick\nuntil "$ " 1000000\ntype selftest\nuntil "failed\\n" 20000000\nuntil "$ " 1000000\n' $steps > "$scratch/play"
            "$program" play --frames $frames "$1" "$scratch/play" > "$scratch/shown" 2> "$scratch/told" || {
                cat "$scratch/shown" "$scratch/told"
                exit 1
            }
            if grep -q FAIL "$scratch/shown" || ! grep -q ' 0 failed$' "$scratch/shown"; then
                echo "selftest: $1, $frames frames, a tick each $steps steps:"
                cat "$scratch/shown"
                exit 1
            fi
        done
    done
    echo "$1: selftest passes on 256, 1024 and 4096 frames, with no ticks and with one each 100, 1000, 10000 and 100000 steps"
}

for compiler in clang riscv64-unknown-elf-gcc; do
    folder=../out/user-c
    [ $compiler = clang ] && folder=../out/user-c-clang
    make -s -C user-c CC=$compiler OUT=$folder XV6="$program" all $folder.img
    selftest "${folder#../}.img"
    tools/user_c_sessions.py "$program" "${folder#../}"
done
cmp out/user-c/selftest crates/userland/data/selftest && echo 'the selftest of crates/userland is what the compiler gives'
tools/selftest_table.py --check
