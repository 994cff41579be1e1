# Counts what passed and failed, and finds what is tested; sourced by the scripts beside it.
passed=0
failed=0

# told NAME STATUS: counts a test whose last command ended with the status
told() {
    if [ "$2" -eq 0 ]; then
        passed=$((passed + 1))
    else
        failed=$((failed + 1))
        echo "FAILED: $1"
    fi
}

# tally: the last line, and whether nothing failed
tally() {
    echo "$passed passed, $failed failed"
    [ "$failed" -eq 0 ]
}

# program_of NAME: prints where the program NAME stands, which `rt ci` leaves there. Where it is missing, `rt run` proves and builds it, and runs it
# without an argument.
program_of() {
    local folder
    folder=$(realpath "$(dirname "${BASH_SOURCE[0]}")/../crates/$1")
    [ -x "$folder/out/$1" ] || (cd "$folder" && "${RT:-rt}" run) </dev/null >/dev/null
    echo "$folder/out/$1"
}

# archive: sets archive to the library for C, which is built if it is missing. After a change of the code: python3 tests/archive.py
archive() {
    archive=$(realpath "$(dirname "${BASH_SOURCE[0]}")/../crates/rdap_c")/out/librdap_c.a
    [ -e "$archive" ] || python3 "$(dirname "${BASH_SOURCE[0]}")/archive.py"
}

# under_test NAME [PROGRAM]: sets program to PROGRAM, or else to the crate's; and tests, vectors and work, a folder that is removed at the end, in memory
# where that can be had: a program may wait until a file has reached its device. The test goes on in its folder in.
under_test() {
    program=${2-$(program_of "$1")}
    if [ $# -gt 2 ] || [ ! -x "$program" ]; then
        echo "usage: $0 [PROGRAM]" >&2
        exit 2
    fi
    program=$(realpath "$program")
    tests=$(realpath "$(dirname "${BASH_SOURCE[0]}")")
    vectors=$tests/vectors
    work=$(mktemp -d -p /dev/shm 2>/dev/null) || work=$(mktemp -d)
    trap 'rm -rf "$work"' EXIT
    mkdir "$work/in" && cd "$work/in" || exit 1
}

# bytes HEX FILE: makes a file of these bytes
bytes() {
    printf "$(sed 's/../\\x&/g' <<<"$1")" >"$2"
}
