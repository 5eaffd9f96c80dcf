#!/usr/bin/env bash
# refused_memory.sh [CRATE..]: runs the tests of each crate's src/tests/refused_memory.rt once for each allocation that they
# make, with that one refused. 'rt ci' or 'rt test' has built them. A refused call is made again, so each run must pass.
set -euo pipefail
top=$(cd "$(dirname "$0")/.." && pwd)
room=$(mktemp -d)
trap 'rm -rf "$room"' EXIT
tools=$(dirname "$(rt doc)")/toolchain/bin
"$tools/clang" --target=x86_64-unknown-linux-gnu -fPIC -O1 -fno-builtin -c "$top/tests/refuse.c" -o "$room/refuse.o"
"$tools/ld.lld" -shared -o "$room/refuse.so" "$room/refuse.o"

# Runs a test in a folder, with the nth allocation refused.
run_refused() {
    rm -f "$4/refused"
    REFUSE=$3 REFUSED=$4/refused LD_PRELOAD=$room/refuse.so "$1" "$2" > "$4/said" 2>&1
}

# Refuses each allocation of a test in turn, until one run makes no more than were tried.
sweep() {
    local crate=$1 program=$2 test=$3 nth=1 folder
    folder=$(mktemp -d -p "$room")
    while :; do
        if ! run_refused "$program" "$test" "$nth" "$folder"; then
            echo "$crate: $test FAILED with allocation $nth refused"
            cat "$folder/said"
            return 1
        fi
        [ -e "$folder/refused" ] || break
        nth=$((nth + 1))
    done
    echo "$crate: $test passed with each of $((nth - 1)) allocations refused"
}

crates_with_such_tests() {
    local file
    for file in "$top"/crates/*/src/tests/refused_memory.rt; do
        basename "${file%/src/tests/refused_memory.rt}"
    done
}

# The sweeps run in parallel.
failed=0
sweeps=()
for crate in ${*:-$(crates_with_such_tests)}; do
    program=$top/crates/$crate/out/${crate}_tests
    if [ ! -x "$program" ]; then
        echo "$crate: no tests were built"
        failed=1
        continue
    fi
    tests=$("$program" --list | sed -n 's/^\(.*refused_memory::.*\): test$/\1/p')
    if [ -z "$tests" ]; then
        echo "$crate: none of its tests is of refused memory"
        failed=1
    fi
    for test in $tests; do
        sweep "$crate" "$program" "$test" &
        sweeps+=($!)
    done
done
for it in "${sweeps[@]}"; do
    wait "$it" || failed=1
done
exit "$failed"
