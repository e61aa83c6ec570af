#!/bin/sh
#SBATCH --job-name=grade --ntasks=1 --mem=500
# sbatch --array=0-9 course/class.sbatch RUBRIC SUBMISSIONS RESULTS, at the top of the repository: what class.sh does,
# by a Slurm array. Each of the tasks grades its part of SUBMISSIONS, except those that have a result in RESULTS.
# When all are done, course/merge.py RESULTS makes grades.csv and class.xml.
set -eu
rubric=$1 submissions=$2 results=$3
mkdir -p "$results"
number=0
for folder in "$submissions"/*/; do
    name=$(basename "$folder")
    if [ $((number % SLURM_ARRAY_TASK_COUNT)) -eq "$SLURM_ARRAY_TASK_ID" ] && [ ! -e "$results/$name.json" ]; then
        python3 course/grade.py --quiet --gradescope "$results/$name.json" "$rubric" "$submissions/$name"
    fi
    number=$((number + 1))
done
