#!/usr/bin/env bash
# wrong_edits.sh: tests tools/wrong_edits.py, on which the gate rests, with the edits of tests/edits: it has to refuse one, and to fail for
# one that means the same as before, one that can't be compiled, and one that changes no function's body.
set -euo pipefail
top=$(cd "$(dirname "$0")/.." && pwd)
said=$(mktemp)
trap 'rm -f "$said"' EXIT
failed=0

if "$top/tools/wrong_edits.py" --from "$top/tests/edits" > "$said"; then
    echo "wrong_edits: FAILED: it passes edits that aren't refused"
    failed=1
fi
while IFS= read -r wanted; do
    if ! grep -q "^wrong_edits: $wanted" "$said"; then
        echo "wrong_edits: FAILED: it doesn't say '$wanted'"
        failed=1
    fi
done << 'END'
lanes/a_wrong_one: refused: `loop-index-2-init`
FAILED: NOT REFUSED: lanes/means_the_same: 
FAILED: BAD EDIT: lanes/names_nothing: src/compare.rt:[0-9:]* error
FAILED: BAD EDIT: lanes/changes_no_body: no body of a function is changed
1 refused, 3 failed$
END
[ "$failed" = 0 ] || cat "$said"
[ "$failed" = 0 ]
