#!/bin/sh
# gdb.sh PROGRAM IMAGE [SYMBOLS [SCRIPT]]: gdb debugs the processes of a run of an image, with the symbols of SYMBOLS/NAME.elf for /NAME.
# Where there is no SCRIPT, a million steps happen.
set -e
program=$(realpath "$1")
image=$2
symbols=$3
script=$4
lines=$(mktemp)
trap 'rm -f "$lines"' EXIT
"$program" gdb --init > "$lines"
gdb-multiarch -q -x "$lines" -ex "target extended-remote | $program gdb ${symbols:+--symbols $symbols} $image $script"
