#!/usr/bin/env bash
# Measures the library beside the fast Rust of bench/fast: nanoseconds a call, the ratio and the growth.
# usage: bench/run.sh [OPTIONS], as in bench/run.sh --shape flat --kind check, or bench/run.sh --table for the table of docs/PERFORMANCE.md,
# or bench/run.sh --over-check for lookups by name and handle beside the check alone, or bench/run.sh --prefixes for lists of prefixes,
# or bench/run.sh --folds for change files, or bench/run.sh --address-text for texts of addresses, also beside std's
# The archive is crates/rdap_c/out/librdap_c.a and is built if it is missing.
set -eu
cd "$(dirname "$0")/.."
. tests/tally.sh
archive
export RDAP_LIB=$archive CARGO_TARGET_DIR=$PWD/target/bench
cd bench
exec cargo run --release --offline --quiet -- "$@"
