#!/usr/bin/env bash
# The second program by itself: its own tests, then every pair of examples/README.md.
#
#     bash outside/second/run.sh
set -euo pipefail
CDPATH='' cd "$(dirname "$0")/../.."
part=second out=target/second
# shellcheck source=outside/tools.sh
. outside/tools.sh

export CARGO_TARGET_DIR=$PWD/$out/cargo
cargo test --quiet --release --offline --manifest-path outside/second/Cargo.toml >"$out/tests.log" 2>&1 || { cat "$out/tests.log"; die "its tests failed"; }
cargo build --quiet --release --offline --manifest-path outside/second/Cargo.toml

example_pairs >"$out/pairs"
failed=0
while read -r name graph schema owed; do
    # some examples are of a file that is not there
    rm -f "$out/schema.bin"
    [ ! -f "$data/$schema" ] || cp "$data/$schema" "$out/schema.bin"
    input=$data/$graph
    [ -f "$input" ] || input=/dev/null
    told=$(exec <"$input" && cd "$out" && cargo/release/second)
    [ "$told" = "$owed" ] || { say "$name: $owed is owed, and $told was given"; failed=$((failed + 1)); }
done <"$out/pairs"

say "$(grep -c '^test result: ok' "$out/tests.log") groups of tests, $(wc -l <"$out/pairs") pairs, $failed failed"
[ "$failed" -eq 0 ]
