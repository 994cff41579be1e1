#!/usr/bin/env bash
# The Python and the Rust functions over the archive, tested. The last line is 'N passed, M failed'.
# The archive is crates/rdap_c/out/librdap_c.a and is built if it is missing.
set -u
cd "$(dirname "$0")/.."
. tests/tally.sh
archive || exit 1
mkdir -p target/c

gcc -shared -o target/c/librdap.so -Wl,--whole-archive "$archive" -Wl,--no-whole-archive -Wl,-z,text
told "the shared library" $?
RDAP_SO=$PWD/target/c/librdap.so PYTHONDONTWRITEBYTECODE=1 python3 -m unittest discover -s bindings/python
told "Python" $?
(cd bindings/rust && RDAP_LIB=$archive CARGO_TARGET_DIR=$OLDPWD/target/rust cargo test --offline --quiet)
told "Rust" $?
tally
