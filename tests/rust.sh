#!/usr/bin/env bash
# rust.sh [LIBRARY]: builds the library for C, unless another one is given, and runs the tests and the example of the Rust crate in
# clients/rust with it. The example must print what tests/c/rust.stdout has. Says so if there is no cargo.
set -euo pipefail
top=$(cd "$(dirname "$0")/.." && pwd)
kit=$(dirname "$(rt doc)")
libraries=$(dirname "$(realpath -m "${1:-$top/crates/jdoc_c/out/libjdoc_c.a}")"):$kit/c
room=$(mktemp -d)
trap 'rm -rf "$room"' EXIT
if ! command -v cargo > "$room/said"; then
    echo "rust: no cargo here"
    exit 0
fi
if [ $# = 0 ]; then
    "$top/tools/library"
fi
export JDOC_INCLUDE=$top/include JDOC_LIBRARIES=$libraries CARGO_TARGET_DIR=$room/target RUSTFLAGS="-D warnings"
cp -r "$top/clients/rust" "$room/jdoc"
cd "$room/jdoc"
cargo test --offline --quiet > "$room/said" 2>&1 || {
    cat "$room/said"
    echo "rust: FAILED: its tests"
    exit 1
}
timeout 60 cargo run --offline --quiet --example shopping > "$room/printed"
diff "$top/tests/c/rust.stdout" "$room/printed"
if [ "$(timeout 60 cargo run --offline --quiet --example first)" != '{"title":"Shopping"}' ]; then
    echo "rust: FAILED: first"
    exit 1
fi
count=$(awk '/^test result: ok/ { count += $4 } END { print count }' "$room/said")
echo "rust: $count tests and two examples passed"
