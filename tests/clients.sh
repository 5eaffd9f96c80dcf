#!/usr/bin/env bash
# clients.sh [PROGRAM]: runs the tests of the Python package and of the application in it with the proved program, or with another one, and
# pastes README's box into a shell. Then, unless another one is given, those of the package that don't concern a program, with the library for C. Says how many tests there
# are, and fails if any does.
set -euo pipefail
top=$(cd "$(dirname "$0")/.." && pwd)
program=$(realpath "${1:-$top/crates/jdoc/out/jdoc}")
said=$(mktemp)
room=$(mktemp -d)
trap 'rm -rf "$said" "$room"' EXIT
passed=0
failed=0

# Builds the program if it isn't built: 'rt ci' has proved it.
if [ ! -x "$program" ]; then
    if [ $# != 0 ]; then
        echo "clients: FAILED: there is no program $program"
        exit 1
    fi
    (cd "$top/crates/jdoc" && rt run -- run < stdin > /dev/null)
fi

# A program that doesn't serve would fail each test.
if [ "$("$program" serve --number 1 < /dev/null 2> "$said")" != '["ready",1,0]' ]; then
    cat "$said"
    echo "clients: FAILED: '$program serve' doesn't start"
    exit 1
fi

# Each write is synced before its reply: on a busy disk that takes minutes, and what a disk keeps isn't tested here.
if [ -d /dev/shm ] && [ -w /dev/shm ]; then
    export TMPDIR=/dev/shm
fi

# tested NAME WORD..: runs tests with these words of unittest.
tested() {
    local name=$1
    shift
    # A file that isn't closed is a fault too, and what Python compiles is kept out of the tree.
    if JDOC=$program PYTHONPATH=$top/clients/python:$top/clients/python/tests PYTHONDONTWRITEBYTECODE=1 \
        timeout 600 python3 -W error -m unittest "$@" > "$said" 2>&1 && grep -q '^OK$' "$said"; then
        passed=$((passed + $(sed -n 's/^Ran \([0-9]*\) tests\{0,1\} .*/\1/p' "$said")))
    else
        cat "$said"
        failed=$((failed + 1))
        echo "clients: FAILED: $name"
    fi
}

for folder in clients/python/tests examples/notes; do
    tested "$folder" discover -s "$top/$folder"
done
if "$top/tests/readme.sh" "$program"; then
    passed=$((passed + 1))
else
    failed=$((failed + 1))
fi
if [ $# = 0 ]; then
    "$top/clients/python/build_library" "$room/libjdoc.so"
    JDOC_LIBRARY=$room/libjdoc.so tested 'the package over the library' \
        test_document test_exchange test_forks.Uses test_refusals test_scripts test_process.Files test_process.Threads \
        test_library test_values
fi
echo "clients: $passed tests passed, $failed runs failed"
[ "$failed" = 0 ]
