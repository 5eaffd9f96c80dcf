#!/usr/bin/env bash
# readme.sh PROGRAM: pastes the box of README.md that starts Python into a new shell, twice, in a copy of the tree in which ./jdoc has this
# program as its proved one. What it prints has to be what its comment says, and the second run has to use the numbers of the first.
set -euo pipefail
top=$(cd "$(dirname "$0")/.." && pwd)
program=$(realpath "$1")
room=$(mktemp -d)
trap 'rm -rf "$room"' EXIT

fail() {
    echo "readme: FAILED: $*"
    exit 1
}

# The box, as it stands on the page: the block of lines for a shell that has a line which starts Python.
awk '/^```sh$/ { box = ""; is_in = 1; next } /^```$/ { if (is_in && box ~ /python3 <</) printf "%s", box; is_in = 0 } is_in { box = box $0 "\n" }' \
    "$top/README.md" > "$room/box"
expected=$(sed -n 's/.*print(.*# //p' "$room/box")
[ -n "$expected" ] || fail 'README.md has no box that starts Python and says what it prints'

mkdir "$room/clone"
tar -C "$top" --exclude=.git --exclude=out --exclude=target --exclude='*.so' -cf - . | tar -C "$room/clone" -xf -
mkdir -p "$room/clone/crates/jdoc/out"
cp "$program" "$room/clone/crates/jdoc/out/jdoc"

# Which numbers have written the files.
numbers() {
    sed -nE 's/^\["(own|op)",\[[0-9]+,([0-9]+)\].*/\2/p' "$room"/clone/*.jdoc | sort -u
}

for run in first second; do
    if ! (cd "$room/clone" && env -i HOME="$room" PATH="$PATH" bash < "$room/box") > "$room/out" 2> "$room/err"; then
        cat "$room/err"
        fail "the $run run of the box ends with a fault"
    fi
    [ "$(cat "$room/out")" = "$expected" ] || fail "the $run run printed '$(cat "$room/out")' in place of '$expected'"
    [ ! -s "$room/err" ] || fail "the $run run said '$(cat "$room/err")'"
    numbers > "$room/$run"
done
[ "$(wc -l < "$room/first")" = 2 ] || fail "not two numbers wrote, but $(xargs < "$room/first")"
cmp -s "$room/first" "$room/second" || fail "the numbers were $(xargs < "$room/first"), and then $(xargs < "$room/second")"
echo 'readme: the box runs as pasted, twice, with the same two numbers'
