#!/usr/bin/env bash
# The independent model: the rows that its program prints; its tests; the vectors on the archive; then every public function of the archive
# compared with the model.
# usage: tests/run_model.sh [OPTIONS OF compare], as in tests/run_model.sh --calls 2000000 --seconds 3600 --seed 2
# The archive is crates/rdap_c/out/librdap_c.a and is built if it is missing. VECTORS names the folder of vectors, tests/vectors if unset.
# Without options all is over within two minutes. The last line is 'N passed, M failed'.
set -u
cd "$(dirname "$0")/.."
. tests/tally.sh
archive || exit 1
export RDAP_LIB=$archive CARGO_TARGET_DIR=$PWD/target/model
export VECTORS=${VECTORS:-$PWD/tests/vectors}
limit="timeout 110"
[ $# -eq 0 ] || limit=
[ $# -gt 0 ] || set -- --seconds 60
log=$(mktemp)
trap 'rm -f "$log"' EXIT
# rows: the program that prints the model's answers, on every stored file of paths
rows() {
    local paths name good=0 bad=0
    timeout 110 cargo build --release --offline --quiet --manifest-path tests/model/Cargo.toml || return 1
    for paths in "$VECTORS"/*.paths "$VECTORS"/changes/*/*.paths; do
        name=${paths%.paths}
        if "$CARGO_TARGET_DIR/release/answer" "$name.image" <"$paths" | cmp -s - "$name.expected"; then
            good=$((good + 1))
        else
            bad=$((bad + 1))
            echo "FAILED: the model's answers to $paths"
        fi
    done
    echo "files of paths: $good passed, $bad failed"
}
status=0
{
    rows || status=1
    cd tests/compare || exit 1
    timeout 110 cargo test --release --offline --quiet || status=1
    timeout 110 cargo test --release --offline --quiet --features ffi --test vectors || status=1
    $limit cargo run --release --offline --quiet --features ffi --bin compare -- "$@" || status=1
} >"$log" 2>&1
cat "$log"
passed=$(grep -oE '[0-9]+ passed' "$log" | awk '{ n += $1 } END { print n + 0 }')
failed=$(grep -oE '[0-9]+ failed' "$log" | awk '{ n += $1 } END { print n + 0 }')
# what ended without a count, as a build that failed, is a failure too
[ "$status" -eq 0 ] || [ "$failed" -gt 0 ] || failed=1
echo "$passed passed, $failed failed"
[ "$failed" -eq 0 ]
