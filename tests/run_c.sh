#!/usr/bin/env bash
# Builds the examples in C and tests/calls.c against the archive, with warnings as errors, runs them and compares what they write;
# holds the archive to tests/inlined.txt.
# The archive is crates/rdap_c/out/librdap_c.a and is built if it is missing. The last line is 'N passed, M failed'.
set -u
cd "$(dirname "$0")/.."
. tests/tally.sh
archive || exit 1
out=target/c
mkdir -p "$out"

# writes PROGRAM PATH IMAGE EXPECTED STATUS [ERROR]: what an example writes, its exit status, and what it tells on standard error
writes() {
    local got status error
    got=$("$out/$1" "$2" "$3" 2>"$out/error")
    status=$?
    error=$(cat "$out/error")
    [ "$got" = "$4" ] && [ "$status" -eq "$5" ] && [ "$error" = "${6-}" ]
    told "$1 $2: '$got', exit status $status, '$error'" $?
}

# renames HANDLE NAME IMAGE STATUS [ERROR]: the same of the example that writes an image, which is kept
renames() {
    local status error
    "$out/rename" "$1" "$2" "$3" >"$out/renamed.image" 2>"$out/error"
    status=$?
    error=$(cat "$out/error")
    [ "$status" -eq "$4" ] && [ "$error" = "${5-}" ]
    told "rename $1 '$2': exit status $status, '$error'" $?
}

for source in examples/c/answer.c examples/c/prefixes.c examples/c/rename.c tests/calls.c; do
    gcc -Wall -Wextra -Werror -O2 -Iinclude "$source" "$archive" -o "$out/$(basename "$source" .c)"
    told "build $source" $?
done
printf '#include "rdap.h"\n' | g++ -Wall -Wextra -Werror -Iinclude -x c++ -fsyntax-only - 2>"$out/c++.log"
told "the header in C++" $?

# the image of S13.3: one AS block, 12 to 15, handle A, name B, active
example=$out/example.image
printf '\1\0\1\1\22\0\27\40\0\10\0\0\0\14\0\0\0\17\41\0\1A\42\0\1B\43\0\1\1' >"$example"
writes answer /autnum/12 "$example" $'200 0 2 0 1 0 0\n0 A B' 0
writes answer /autnum/16 "$example" '404 8 2 0 0 0 0' 1
writes answer '/autnums?name=b*' "$example" $'200 0 7 0 1 0 0\n0 A B' 0
writes answer /autnums/rirSearch1/down/0-99 "$example" $'200 0 8 2 1 0 0\n0 A B' 0
writes answer /help "$example" '200 0 6 0 0 0 0' 0
writes answer /ip/1.2.3 "$example" '400 6 0 0 0 0 0' 1
writes answer '' "$example" '400 3 0 0 0 0 0' 1

s=tests/vectors/s.image
campus=tests/vectors/campus.image
writes prefixes /ips/rirSearch1/down/192.0.2.0/24 "$s" $'S1 192.0.2.0/25\nS4 192.0.2.128/25' 0
writes prefixes /ip/192.0.3.0 "$s" '' 1 'status 404, reason 8'
writes prefixes /ip/10.0.1.3 "$campus" "$(printf 'NET-10-0-1 10.0.1.%s\n' 3/32 4/30 8/29 16/28 32/27 64/26 128/26 192/29 200/32)" 0
writes prefixes /ip/2001:db8:0:1::5 "$campus" $'NET6-1-1 2001:db8:0:1::/126\nNET6-1-1 2001:db8:0:1::4/127' 0
writes prefixes '/ips?name=campus*' "$campus" $'NET-10 10.0.0.0/8\nNET6-1 2001:db8::/32' 0
writes prefixes /autnum/12 "$campus" '' 1 'record 17 is no IP network'
writes prefixes /domain/exam.com "$campus" '' 1 'record 23 is no IP network'
writes prefixes /ips/rirSearch1/down/11.0.0.0/8 "$campus" '' 0

writes answer /entity/ENT-1 "$campus" $'200 0 5 0 1 0 0\n32 ENT-1 Ada L' 0
renames ENT-1 'Ada Lovelace' "$campus" 0
writes answer /entity/ENT-1 "$out/renamed.image" $'200 0 5 0 1 0 0\n32 ENT-1 Ada Lovelace' 0
writes answer /entity/ENT-10 "$out/renamed.image" $'200 0 5 0 1 0 0\n33 ENT-10 ada l' 0
renames ENT-3 'Cyd' "$campus" 1 'reason 11, defect 0, place 0, offset 0'
[ ! -s "$out/renamed.image" ]
told "nothing is written on a refusal" $?
renames ENT-1 '' "$campus" 1 'reason 11, defect 0, place 0, offset 9'
renames ENT-1 'Ada Lovelace' tests/vectors/defective.image 1 'reason 2, defect 3, place 37, offset 0'

# what is a part of its caller, and what is not; a name that the sources no longer have is a fault of the list
nm "$archive" | awk '{ print $NF }' >"$out/symbols"
while read -r how name; do
    case $how in part) wanted=1 ;; alone) wanted=0 ;; *) continue ;; esac
    grep -qsE "^ *(pub )?fn ${name##*::}\b" crates/"${name%%::*}"/src/*.rt
    told "tests/inlined.txt: there is no function $name" $?
    grep -qxF -- "$name" "$out/symbols"
    [ $? -eq $wanted ]
    told "the archive does not have $name as '$how'" $?
done <tests/inlined.txt

# what it needs from outside, as include/rdap.h says
[ "$(nm -u "$archive" | awk 'NF == 2 { print $2 }' | sort -u | xargs)" = "memcpy memset" ]
told "the archive needs memcpy and memset alone" $?

"$out/calls" | diff - tests/calls.expected
told "tests/calls.c" $?

# a shared library, by one command
gcc -shared -o "$out/librdap.so" -Wl,--whole-archive "$archive" -Wl,--no-whole-archive -Wl,-z,text
told "the shared library" $?

tally
