#!/usr/bin/env bash
# sessions.sh [PROGRAM]: plays the files of tests/scripts, and the scripts of examples, with the proved program, or with another one, and
# compares what it says with what they expect. tests/scripts/play.py says how they are written. Says how many runs differ, and fails if
# any does.
set -euo pipefail
top=$(cd "$(dirname "$0")/.." && pwd)
program=${1:-$top/crates/jdoc/out/jdoc}

# Builds the program if it isn't built: 'rt ci' has proved it.
if [ ! -x "$program" ]; then
    if [ $# != 0 ]; then
        echo "sessions: FAILED: there is no program $program"
        exit 1
    fi
    (cd "$top/crates/jdoc" && rt run -- run < stdin > /dev/null)
fi

exec "$top/tests/scripts/play.py" "$program"
