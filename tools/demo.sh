#!/bin/sh
# demo.sh PROGRAM IMAGE SCRIPT: boots the image, gives the machine the script, and shows its console and a line on how it ended. Where
# PROGRAM is empty the crate userland does the same: it is compiled, without a proof, and a line each ten seconds says how far that is.
set -e
cd "$(dirname "$0")/.."
scratch=$(mktemp -d)
trap 'rm -rf "$scratch"' EXIT
trap 'exit 130' INT TERM

with_program() {
    "$1" run --json "$scratch/end" --save "$scratch/left" "$2" "$3" 2> "$scratch/line" || { cat "$scratch/line" >&2; exit 1; }
    free=$(sed -n 's/.*"free_frames": *\([0-9]*\).*/\1/p' "$scratch/end")
    used=$("$1" check "$scratch/left" | sed 's/^ok \([0-9]* inodes\) \([0-9]* blocks\)$/\1 and \2/')
    printf '\n[%s, %s frames free, %s in use]\n' "$(tail -n 1 "$scratch/line")" "$free" "$used"
}

compile() {
    cd crates/userland
    data=$(for file in data/*; do printf ' --data %s=%s' "${file#data/}" "$file"; done)
    { echo 'demo'; echo 'boot xv6.img 256'; cat "../../$1"; } > "$scratch/session"
    rt try $data < "$scratch/session" > "$scratch/shown" 2> "$scratch/said" &
    job=$!
    trap 'kill $job 2> /dev/null; exit 130' INT TERM
    seconds=0
    while kill -0 $job 2> /dev/null; do
        sleep 1
        seconds=$((seconds + 1))
        [ $((seconds % 10)) -ne 0 ] || echo "demo: compiling, $seconds s" >&2
    done
    wait $job || { cat "$scratch/shown" "$scratch/said" >&2; echo 'demo: rt try failed' >&2; exit 1; }
    # The first line is the session's title.
    sed 1d "$scratch/shown"
}

if [ -n "$1" ]; then
    echo "demo: the proved build, $1" >&2
    with_program "$1" "$2" "$3"
else
    command -v rt > /dev/null || { echo 'demo: no rt in the PATH: the Rattle kit has it, as /opt/rattle/bin/rt' >&2; exit 1; }
    echo 'demo: compiled by rt try, which proves nothing (make build proves and builds the program)' >&2
    compile "$3"
fi
