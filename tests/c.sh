#!/usr/bin/env bash
# c.sh [LIBRARY]: builds the library for C, unless another one is given, and runs the example in examples/c with it: as it is, under
# valgrind, and with the compiler's sanitizers. Each run must print what tests/c/shopping.stdout has, and nothing else. Then it runs
# tests/c/refused.c once for each allocation that it makes, with that one refused, and the tests of documents in files. Leaves out what the
# machine lacks, and says so.
set -euo pipefail
top=$(cd "$(dirname "$0")/.." && pwd)
kit=$(dirname "$(rt doc)")
library=${1:-$top/crates/jdoc_c/out/libjdoc_c.a}
room=$(mktemp -d)
trap 'rm -rf "$room"' EXIT
passed=0
failed=0

if [ $# = 0 ]; then
    "$top/tools/library"
fi

# compiled NAME FILE [FLAG..]: a program of that name.
compiled() {
    local name=$1 file=$2
    shift 2
    cc -std=c11 -Wall -Wextra -Wpedantic -Werror -O1 -g "$@" -I"$top/include" -o "$room/$name" \
        "$top/$file" "$top/include/jdoc_file.c" "$library" "$kit/c/liblibc_c.a" -pthread
}

# played NAME WORD..: runs a program, with these words, in a folder of its own, and compares what it prints.
played() {
    local name=$1
    shift
    mkdir "$room/of_$name"
    if timeout 120 "$@" "$room/of_$name" > "$room/printed" 2> "$room/said" && [ ! -s "$room/said" ] \
        && diff "$top/tests/c/shopping.stdout" "$room/printed"; then
        passed=$((passed + 1))
    else
        cat "$room/said"
        echo "c: FAILED: $name"
        failed=$((failed + 1))
    fi
}

# Runs a program with each of its allocations refused in turn, until one run makes no more than were tried.
refused() {
    local program=$1 nth=1
    while :; do
        rm -f "$room/refused"
        if ! REFUSE=$nth REFUSED=$room/refused LD_PRELOAD=$room/refuse.so "$program" "$room/memory_is_short.jdoc" > "$room/said" 2>&1; then
            cat "$room/said"
            echo "c: FAILED with allocation $nth refused"
            failed=$((failed + 1))
            return
        fi
        [ -e "$room/refused" ] || break
        nth=$((nth + 1))
    done
    passed=$((passed + 1))
    echo "c: passed with each of $((nth - 1)) allocations refused"
}

# kept WHAT WORD..: runs a test of documents in files, with these words, which must say nothing but what passed.
kept() {
    local what=$1
    shift
    if timeout 120 "$@" > "$room/printed" 2> "$room/said" && [ ! -s "$room/said" ]; then
        passed=$((passed + 1))
        sed 's/^/c: passed /' "$room/printed"
    else
        cat "$room/said"
        echo "c: FAILED: $what"
        failed=$((failed + 1))
    fi
}

compiled plain examples/c/shopping.c
played plain "$room/plain"
if command -v valgrind > "$room/said"; then
    played memory valgrind --quiet --leak-check=full --show-leak-kinds=all --error-exitcode=9 "$room/plain"
else
    echo "c: no valgrind here"
fi
# Not with -fsanitize=thread: the library isn't compiled with it, so it would see what the library allocates and copies, but not the
# atomics that order that.
if echo 'int main(void) { return 0; }' > "$room/empty.c" && cc -fsanitize=address -o "$room/empty" "$room/empty.c" 2> "$room/said"; then
    compiled address examples/c/shopping.c -fsanitize=address
    played address "$room/address"
else
    echo "c: no -fsanitize=address here"
fi
compiled first examples/c/first.c
if [ "$("$room/first" "$room/first.jdoc")" = '["made",[1,1],0]' ]; then
    passed=$((passed + 1))
else
    echo "c: FAILED: first"
    failed=$((failed + 1))
fi
compiled memory_is_short tests/c/refused.c
cc -shared -fPIC -O1 -fno-builtin -o "$room/refuse.so" "$top/tests/refuse.c"
refused "$room/memory_is_short"

# What a disk keeps isn't tested here, and each write is synced.
disk=$room
if [ -d /dev/shm ] && [ -w /dev/shm ]; then
    disk=$(mktemp -d /dev/shm/jdoc.XXXXXX)
    trap 'rm -rf "$room" "$disk"' EXIT
fi
cc -shared -fPIC -O1 -Wall -Wextra -Werror -o "$room/fail.so" "$top/tests/fail.c"
for test in kept_file kept_faults; do
    compiled "$test" "tests/c/$test.c"
    kept "$test" "$room/$test" "$disk"
    if [ -x "$room/address" ]; then
        compiled "${test}_address" "tests/c/$test.c" -fsanitize=address,undefined
        kept "$test with sanitizers" "$room/${test}_address" "$disk"
    fi
done
kept 'calls that fail' env LD_PRELOAD="$room/fail.so" "$room/kept_faults" "$disk"
mkdir "$room/small"
# shellcheck disable=SC2016 # $1 and $2 are those of the inner shell.
if unshare --mount sh -c 'mount -t tmpfs -o size=256k tmpfs "$1"' sh "$room/small" 2> "$room/said"; then
    kept 'a full disk' unshare --mount sh -c 'mount -t tmpfs -o size=256k tmpfs "$1" && "$2" "$1" full' sh "$room/small" "$room/kept_file"
else
    echo "c: no small disk can be mounted here, so a full one isn't tested"
fi
echo "c: $passed runs passed, $failed failed"
[ "$failed" = 0 ]
