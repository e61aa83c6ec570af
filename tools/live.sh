#!/bin/sh
# live.sh PROGRAM IMAGE RECORD [START]: a session at the shell of an image. A terminal is set so that each read of it ends after a tenth
# of a second, and is set back exactly, however the session ends; a signal to this script alone ends the session, too.
# With START the session leaves its files on IMAGE; START is the image as it was before, from which RECORD gives the same session again.
# With SYMBOLS in the environment faults have the names of the files in that directory; with EDIT a typed line is edited first.
program=$1 image=$2 record=$3 start=${4:-}
set -- "$image"
if [ -n "$start" ]; then
    cp "$image" "$start" || exit 1
    echo "$image keeps the files of this session: ^A x ends it, ^C ends it and keeps nothing (make fresh: a new disk)" >&2
    set -- --save "$image" "$start"
fi
[ -z "${SYMBOLS:-}" ] || set -- --symbols "$SYMBOLS" "$@"
[ -z "${EDIT:-}" ] || set -- --edit "$@"
[ -t 0 ] || exec "$program" live --frames 4096 --record "$record" "$@"

# Ends the session by a signal, and this script with a status.
end() {
    trap '' INT TERM HUP
    kill "-$1" "$session" 2> /dev/null
    wait "$session"
    exit "$2"
}

saved=$(stty -g)
trap 'stty "$saved"' EXIT
stty -icanon -echo -ixon min 0 time 1
# (a shell waits for what runs beside it so that a signal is heeded at once; what runs beside it has no standard input of its own)
exec 3<&0
"$program" live --terminal --frames 4096 --record "$record" "$@" <&3 3<&- &
session=$!
trap 'end TERM 130' INT
trap 'end TERM 143' TERM HUP
wait "$session"
