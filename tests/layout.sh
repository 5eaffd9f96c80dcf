#!/usr/bin/env bash
# Whether each crate's files are laid out as `rt fmt` lays them out. `rt ci` tests that too, but only when it gets to that crate.
set -euo pipefail
cd "$(dirname "$0")/.."
room=$(mktemp -d)
trap 'rm -rf "$room"' EXIT
count=0
others=0
for crate in crates/*; do
    copy=$room/${crate#crates/}
    mkdir "$copy"
    for part in src specs proofs; do
        if [ -d "$crate/$part" ]; then
            cp -r "$crate/$part" "$copy/"
        fi
    done
    count=$((count + 1))
    changed=$(cd "$copy" && rt fmt 2>&1 | sed -n 's/^rt: formatted //p')
    for file in $changed; do
        echo "layout: FAILED: $crate/$file: run rt fmt in $crate"
        others=$((others + 1))
    done
done
echo "layout: $count crates, $others files that rt fmt would change"
[ "$others" = 0 ]
