#!/bin/sh
# check_library.sh FOLDER PROGRAM IMAGE: tries the library that library.sh made. C: a session, 40 machines, copies and arguments that are wrong,
# under valgrind, which has to find no leak and no invalid access, in a thread with a stack of 256 kB; Python: the package, and 100 random
# sessions. The console's bytes are those of `xv6 run`, the processes at the end those of its `--json`, and calls, faults and exits those of
# `xv6 trace --jsonl`. It needs Debian's gcc, g++, make, valgrind and python3;
# what pip, python3-matplotlib, jupyter-nbconvert and mypy are for is left out, with a word, where they are missing.
set -e
cd "$(dirname "$0")/.."
for tool in cc c++ valgrind python3; do
    command -v $tool > /dev/null || { echo "check-library: no $tool (apt install gcc g++ valgrind python3)" >&2; exit 1; }
done
scratch=$(mktemp -d)
trap 'rm -rf "$scratch"' EXIT
cc -std=c99 -Wall -Wextra -pedantic -Werror -O1 -g -pthread -I"$1" bindings/c/test.c "$1/libxv6.a" -o "$scratch/test"
c++ -x c++ -std=c++11 -Wall -Wextra -pedantic -Werror -fsyntax-only "$1/xv6.h"
valgrind --quiet --error-exitcode=9 --leak-check=full --show-leak-kinds=all --errors-for-leak-kinds=all \
    "$scratch/test" "$3" "$scratch/script" > "$scratch/console"
"$2" run --frames 256 "$3" "$scratch/script" > "$scratch/program" 2> /dev/null
cmp "$scratch/console" "$scratch/program"
echo "check-library: C: $(wc -c < "$scratch/console") bytes of the console, the same as the program's"
python3 bindings/python/test.py "$1" "$2" "$3"
# What pip installs.
if python3 -m pip --version > /dev/null 2>&1; then
    PIP_ROOT_USER_ACTION=ignore python3 -m pip install --quiet --no-index --target "$scratch/pip" ./bindings/python
    (cd "$scratch" && PYTHONPATH=$scratch/pip python3 -c 'import cathompi; assert cathompi.__file__.startswith("'"$scratch"'")')
    echo "check-library: Python: pip install ./bindings/python"
else
    echo "check-library: no pip: pip install ./bindings/python is not tried (apt install python3-pip)"
fi
# The tour, by a Python that has what draws its picture.
python=
for it in python3 /usr/bin/python3; do
    if [ -z "$python" ] && $it -c 'import matplotlib' 2> /dev/null; then python=$it; fi
done
library=$(realpath "$1")
if [ -n "$python" ]; then
    mkdir -p "$scratch/out" "$scratch/docs"
    cp "$3" "$scratch/out/xv6.img"
    cp -rL user "$scratch/user"
    sed 's/^```.*//' docs/PYTHON.md > "$scratch/tour.txt"
    (cd "$scratch" && PYTHONPATH=$library $python -m doctest tour.txt)
    echo "check-library: Python: the tour of docs/PYTHON.md"
else
    echo "check-library: no matplotlib: the tour of docs/PYTHON.md is not tried (apt install python3-matplotlib)"
fi
# The notebook, and the types of the package and of the examples.
python=
for it in python3 /usr/bin/python3; do
    if [ -z "$python" ] && $it -c 'import nbconvert, ipykernel' 2> /dev/null; then python=$it; fi
done
if [ -n "$python" ]; then
    mkdir -p "$scratch/out"
    cp "$3" "$scratch/out/xv6.img"
    cp examples/notebooks/tour.ipynb "$scratch/"
    (cd "$scratch" && PYTHONPATH=$library PYDEVD_DISABLE_FILE_VALIDATION=1 $python -Xfrozen_modules=off -m nbconvert --log-level WARN --to html --execute tour.ipynb)
    echo "check-library: Python: examples/notebooks/tour.ipynb"
else
    echo "check-library: no nbconvert: the notebook is not tried (apt install jupyter-nbconvert python3-ipykernel)"
fi
if command -v mypy > /dev/null; then
    MYPYPATH=bindings/python mypy --strict bindings/python/cathompi examples/python
else
    echo "check-library: no mypy: the types are not tried (apt install mypy)"
fi
# Another simulator beside the machine.
make -s -C examples/lockstep LIBRARY="$library" XV6="$(realpath "$2")" IMAGE="$(realpath "$3")" run > "$scratch/lockstep"
grep -q '^lockstep: step .*, word 0x40b552bb: x5 differs$' "$scratch/lockstep"
echo "check-library: lockstep: $(grep -c 'the same$' "$scratch/lockstep") runs the same, and the planted error is found"
