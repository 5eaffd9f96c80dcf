#!/usr/bin/env bash
# set_up.sh: installs, from Debian's packages, what tests and tools use besides the toolchain if it is there: cargo for the tests of
# clients/rust, valgrind for those of examples/c, lld for bench/layouts, and Yjs, serde_json and SQLite for tools/beside.py. Needs root and
# the network. Without these packages those tests and rows are left out, and say so.
set -euo pipefail
apt-get update
apt-get install -y --no-install-recommends gcc python3 cargo valgrind lld nodejs node-yjs librust-serde-json-dev sqlite3
