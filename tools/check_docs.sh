#!/bin/sh
# check_docs.sh: looks whether each path, each contract and each sentence that the docs name is there. `.ci/run` runs it, in seconds.
# The words that a change adds are printed, and stop nothing yet: older texts have them too.
cd "$(dirname "$0")/.." || exit 1
bad=0
for check in paths contracts explained; do
    "tools/$check.py" || bad=1
done
tools/prose.py || echo 'check-docs: CONTRIBUTING.md ("Words") says what to write instead' >&2
exit $bad
