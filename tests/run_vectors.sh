#!/bin/bash
# Runs the small program on the vectors and on files at its limits.
# usage: tests/run_vectors.sh [PROGRAM], which is crates/rdap_paths/out/rdap_paths if none is named, and is built if it is missing
# Prints a line for each test, and last how many passed and failed.
set -u
. "$(dirname "$0")/tally.sh"
under_test rdap_paths "$@"

# tell NAME STATUS: counts a test whose last command ended with the status, and prints it.
tell() {
    [ "$2" -ne 0 ] || echo "ok $1"
    told "$1" "$2"
}

# expect NAME PATHS IMAGE EXPECTED: the program writes just that, and nothing to standard error.
expect() {
    "$program" "$2" "$3" > "$work/out" 2> "$work/err"
    cmp -s "$work/out" "$4" && [ ! -s "$work/err" ]
    tell "$1" $?
}

# refuse NAME WORD ARGUMENTS..: a message with the word on standard error, nothing on standard output.
refuse() {
    local name=$1 word=$2
    shift 2
    "$program" "$@" > "$work/out" 2> "$work/err"
    [ ! -s "$work/out" ] && grep -qF -- "$word" "$work/err"
    tell "$name" $?
}

# so many times the letter a
letters() {
    head -c "$1" /dev/zero | tr '\0' a
}

for paths in "$vectors"/*.paths "$vectors"/changes/*/*.paths; do
    name=${paths%.paths}
    expect "${name#"$vectors/"}" "$paths" "$name.image" "$name.expected"
done

campus=$vectors/campus.image
help='200 0 6 0'
long='414 1 0 0'
unread='400 3 0 0'
unknown='501 4 0 0'

# lines
: > "$work/none"
expect "empty file" "$work/none" "$campus" "$work/none"

printf '/help' > "$work/paths"
echo "$help" > "$work/expected"
expect "last line without line feed" "$work/paths" "$campus" "$work/expected"

printf '\n\n/help\n\n' > "$work/paths"
printf '%s\n' "$unread" "$unread" "$help" "$unread" > "$work/expected"
expect "empty lines" "$work/paths" "$campus" "$work/expected"

{ echo /help; letters 5000; echo; echo /help; } > "$work/paths"
printf '%s\n' "$help" "$long" "$help" > "$work/expected"
expect "line of 5,000 bytes in the middle" "$work/paths" "$campus" "$work/expected"

{ echo /help; letters 5000; } > "$work/paths"
printf '%s\n' "$help" "$long" > "$work/expected"
expect "last line of 5,000 bytes without line feed" "$work/paths" "$campus" "$work/expected"

{ for n in 1023 1024 1025 1026; do printf /; letters $((n - 1)); echo; done; echo /help; } > "$work/paths"
printf '%s\n' "$unknown" "$unknown" "$long" "$long" "$help" > "$work/expected"
expect "lines around 1,024 bytes" "$work/paths" "$campus" "$work/expected"

# line feeds at every place around the end of a part that is read
status=0
for n in 4089 4090 4091 4092 4093 4094 4095 4096 4097; do
    { letters "$n"; echo; echo /help; printf /help; } > "$work/paths"
    printf '%s\n' "$long" "$help" "$help" > "$work/expected"
    "$program" "$work/paths" "$campus" 2>&1 | cmp -s - "$work/expected" || status=1
done
tell "line feeds around 4,096 bytes" $status

yes /help | head -n 200000 > "$work/paths"
yes "$help" | head -n 200000 > "$work/expected"
expect "1,200,000 bytes of paths" "$work/paths" "$vectors/empty.image" "$work/expected"

"$program" "$work/paths" "$vectors/empty.image" 2> "$work/err" | head -n 1 > "$work/out"
[ "$(< "$work/err")" = 'standard output: Broken pipe' ] && [ "$(< "$work/out")" = "$help" ]
tell "output that is read to its first line" $?

expect "paths from a pipe" <(cat "$vectors/campus.paths") "$campus" "$vectors/campus.expected"
expect "image from a pipe" "$vectors/campus.paths" <(cat "$campus") "$vectors/campus.expected"

# images
echo /help > "$work/paths"
head -c 65536 /dev/zero > "$work/image"
echo '500 2 0 0' > "$work/expected"
expect "image of 65,536 bytes" "$work/paths" "$work/image" "$work/expected"
expect "image of no bytes" "$work/paths" "$work/none" "$work/expected"

head -c 65537 /dev/zero > "$work/long.image"
refuse "image of 65,537 bytes" "$work/long.image" "$work/paths" "$work/long.image"
refuse "image without end" /dev/zero "$work/paths" /dev/zero

# what can't be read
refuse "missing paths" "$work/missing" "$work/missing" "$campus"
refuse "missing image" "$work/missing" "$work/paths" "$work/missing"
refuse "paths are a folder" "$work" "$work" "$campus"
refuse "image is a folder" "$work" "$work/paths" "$work"
refuse "empty name of paths" "No such file" "" "$campus"
refuse "name of paths that is not UTF-8" "invalid filename" $'\xff' "$campus"
refuse "name of image that is not UTF-8" "invalid filename" "$work/paths" $'\xff'
refuse "no argument" usage
refuse "one argument" usage "$work/paths"
refuse "three arguments" usage "$work/paths" "$campus" "$campus"

tally
