#!/bin/sh
# class.sh RUBRIC SUBMISSIONS RESULTS [OPTION..]: grades each folder of SUBMISSIONS, several at a time by GNU parallel.
# Each is a process of its own, and has one result, RESULTS/NAME.json; grades.csv and class.xml have them all.
# The options are parallel's, as -j 4. If it is ended at any moment, the same command goes on where it was.
set -eu

[ $# -ge 3 ] || { sed -n '2,4s/^# //p' "$0" >&2; exit 2; }
rubric=$1 submissions=$2 results=$3
shift 3
here=$(dirname "$(realpath "$0")")
python3 "$here/grade.py" --list "$rubric" "$submissions" > /dev/null
mkdir -p "$results"

# The list only grows: parallel knows what it has done by its number in the list.
touch "$results/list"
for folder in "$submissions"/*/; do basename "$folder"; done | LC_ALL=C sort |
    grep -Fxv -f "$results/list" >> "$results/list" || :

# What graders write meanwhile lies in memory if there is room: some megabytes, which are gone within seconds. What a
# killed one has left goes with the next call.
if [ -z "${TMPDIR:-}" ] && [ "$(df -kP /dev/shm 2> /dev/null | awk 'NR == 2 { print $4 }')0" -gt 20000000 ]; then
    TMPDIR=/dev/shm/class-$(realpath "$results" | cksum | cut -d ' ' -f 1)
    rm -rf "$TMPDIR"
    mkdir -m 700 "$TMPDIR"
    export TMPDIR
    trap 'rm -rf "$TMPDIR"' EXIT
fi

# The grader is compiled once, and Python called by its own name: the one on the path may be a script that finds it.
# It starts without installed packages, which takes a third less time; a check that wants one gets them.
compiling='import py_compile, sys; py_compile.compile(*sys.argv[1:], doraise=True); print(sys.executable)'
python=$(python3 -c "$compiling" "$here/grade.py" "$results/grade.pyc")

# parallel's own status is the number of jobs that failed. The grader's is 0 if a result was written.
parallel -q --will-cite --joblog "$results/joblog" --resume-failed "$@" "$python" -S "$results/grade.pyc" \
    --quiet --gradescope "$results/{}.json" "$rubric" "$submissions/{}" :::: "$results/list" \
    >> "$results/log" || echo "$? submissions have no result: $results/joblog has their statuses" >&2
python3 "$here/merge.py" "$results"
