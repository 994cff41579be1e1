#!/bin/bash
# Runs rdap_fold on the vectors of folds, on every kind of refusal, on files at its limits and on files that can't be read or written.
# usage: tests/run_fold.sh [PROGRAM], which is crates/rdap_fold/out/rdap_fold if none is named. It and rdap_paths are built if they are missing.
# Prints each test that failed, and last how many passed and failed.
set -u
shopt -s extglob
. "$(dirname "$0")/tally.sh"
asks=$(program_of rdap_paths)
under_test rdap_fold "$@"
umask 022

# run ARGUMENTS..: the program; what it writes, what it tells, and the files in the folder afterwards
run() {
    "$program" "$@" >"$work/out" 2>"$work/err"
    out=$(<"$work/out")
    err=$(<"$work/err")
    files=$(echo *)
}

# writes NAME EXPECTED [ARGUMENTS..]: the last of them, or output, is then the file EXPECTED; its number of bytes is written, and nothing is told
writes() {
    local name=$1 expected=$2
    shift 2
    [ $# -gt 0 ] || set -- image changes output
    run "$@"
    [ "$out" = "$(stat -c %s "$expected")" ] && [ -z "$err" ] && cmp -s "${!#}" "$expected" && [ "$files" = "changes image output" ]
    told "$name: '$out', '$err', $files" $?
}

# refuses NAME PATTERN [ARGUMENTS..]: one line is told, which the pattern fits, nothing is written, output is as it was and no file is new
refuses() {
    local name=$1 pattern=$2
    shift 2
    [ $# -gt 0 ] || set -- image changes output
    echo old >output
    run "$@"
    [ ! -s "$work/out" ] && [ "$(wc -l <"$work/err")" -eq 1 ] && [[ $err == $pattern ]] && [ "$(<output)" = old ] && [ "$files" = "changes image output" ]
    told "$name: '$out', '$err', $files" $?
}

# shows NAME FORMAT EXPECTED: what stat shows of output. It is taken first: a substitution in the name would set the status that is counted.
shows() {
    local got
    got=$(stat -c "$2" output)
    [ "$got" = "$3" ]
    told "$1: $got" $?
}

# The vectors, at the newest rules. Rows with reason 9 are of short buffers, which the program does not have.

# put COLUMN FILE: its bytes, which are written for printf, or @ and the file that has them, or none
put() {
    case $1 in
        -) : >"$2" ;;
        @*) cp "$folder/${1#@}" "$2" ;;
        *) printf "$1" >"$2" ;;
    esac
}

# row IMAGE CHANGES REPLY OUTPUT SHOWS
row() {
    local reason count defect place offset
    read -r reason count defect place offset <<<"$3"
    [ "$1" = "$last" ] || put "$1" image
    last=$1
    put "$2" changes
    case $reason in
        0) put "$4" "$work/expected" && writes "$5" "$work/expected" ;;
        2) refuses "$5" "image: defect $defect?( in record $place): *" ;;
        11) refuses "$5" "changes: change +([0-9]) at byte $offset: *" ;;
        12) refuses "$5" "changes: the result would have defect $defect?( in record $place*): *" ;;
    esac
}

newest=$(basename "$(ls -d "$vectors"/changes/[0-9]* | tail -n 1)")
for folder in "$vectors"/changes/[0-9]*; do
    last=
    while IFS=$'\t' read -r image changes reply output shows; do
        row "$image" "$changes" "$reply" "$output" "$shows"
    done < <(awk -F'\t' -v OFS='\t' -v newest="$newest" '
        function escaped(s) { if (s !~ /^(@|-$)/) gsub(/../, "\\x&", s); return s }
        $1 == "rdap_fold" && newest + 0 <= $8 && $5 !~ /^9 / && $3 !~ /65537/ { print escaped($2), escaped($3), $5, escaped($6), $9 }' "$folder/rows.tsv")
done

# What is told of a change. It is the second of its file.
five=$vectors/changes/05
cp "$five/base.image" image
first=30001a1200172000080000006300000063210001482200014e23000101

# says WORDS HEX
says() {
    bytes "$first$2" changes
    refuses "$1 $2" "changes: change 1 at byte 29: $1"
}

says 'it is cut short' 30
says 'it is cut short' 30000f15000c2100034e45572200034e65
says 'it is cut short' 31000910
says 'its tag is neither 30 nor 31' 2f0000
says 'its tag is neither 30 nor 31' 32000615454e542d31
says 'it holds no record' 300000
says 'its record has defect 3: it is cut short or has an unknown tag' 30000115
says 'its record has defect 3: it is cut short or has an unknown tag' 30000a15000821000141220001
says 'its record has defect 3: it is cut short or has an unknown tag' 30000b160008210001412200014e
inner='an inner field is missing, out of order or of a wrong length'
says "its record has defect 4: $inner" 300003150000
says "its record has defect 4: $inner" 30000b1500082200014e21000141
says "its record has defect 4: $inner" 30001912001620000700000063000000210001482200014223000101
form='what a field holds is not of its form, or first is above last'
says "its record has defect 5: $form" 30000b1500082100012a2200014e
says "its record has defect 5: $form" 30001a1200172000080000000500000004210001482200014e23000101
says 'bytes follow its record' 30000c150008210001412200014e00
says 'bytes follow its record' 300016150008210001412200014e150008210001422200014e
says 'its key has no record tag' 310000
says 'its key has no record tag' 3100010f
says 'its key has no record tag' 31000616454e542d31
key="its key is not of the form of the record's tag"
says "$key" 31000110
says "$key" 31000115
says "$key" 310008100a0000000affff
says "$key" 310009120000000500000004
says "$key" 31000c134558414d504c452e636f6d
says "$key" 31000315612a
says 'it adds a record whose key is already there (ENT-1)' 30001115000e210005454e542d31220003416461
says 'it adds a record whose key is already there (OTHER)' 3000191300162100054f5448455222000b6578616d706c652e636f6d
says 'it adds a record whose key is already there (H)' "$first"
says 'it removes a record that is not there (nosuch)' 310007156e6f73756368
says 'it removes a record that is not there (b.example)' 31000a13622e6578616d706c65
says 'it removes a record that is not there' 310009100a0000000a00ffff

bytes "31000615454e542d3131000615454e542d32$first$first" changes
refuses 'the changes are counted' 'changes: change 3 at byte 47: it adds a record whose key is already there (H)'

# What is told of an image, and of the final image.
overlap='it overlaps an earlier block without lying inside it'

# defect WORDS HEX: of an image that starts right
defect() {
    bytes "01000101$2" image
    refuses "image with $1" "image: defect $1"
}

: >changes
: >image
refuses 'image of no bytes' 'image: defect 2: it does not start with the bytes 01 00 01 01'
defect '3 in record 0: it is cut short or has an unknown tag' 150008210001412200
defect '3 in record 1: it is cut short or has an unknown tag' 150008210001412200014e160000
defect "4 in record 0: $inner" 150000
defect "5 in record 0: $form" 1500082100012a2200014e
defect '6 in record 1: it does not sort after the record before it' 150008210001412200014e150008210001412200014e
defect "7 in record 1: $overlap" 1000172000080a0000000affffff210001482200014e230001011000172000080aff00000b000000210001482200014e23000101
bytes 1500092100027a7a2200014e last
cat "$five/full4096.image" last >image && rm last
refuses 'image of 4,097 records' 'image: defect 3 in record 4096: it comes after 4096 others'

# final NAME IMAGE HEX WORDS: the changes make an image with a defect
final() {
    cp "$five/$2" image
    bytes "$3" changes
    refuses "$1" "changes: the result would have defect $4"
}

final 'overlap' base.image 30001d10001a2000080affffff0b0000002100044f5645522200014e23000101 "7 in record 2 (OVER): $overlap"
final 'a later record overlaps' base.image 30001a100017200008090000000a000000210001482200014e23000101 "7 in record 1 (TEN): $overlap"
final '4,097 records' full4096.image 30000c1500092100027a7a2200014e '3 in record 4096 (zz): it comes after 4096 others'
final 'too long' bytes262144.image 30000b1500082100017e2200016e '1: it is longer than 262144 bytes'

# Files at the limits.
: >changes
cp "$five/bytes262144.image" image
writes 'image of 262,144 bytes' image
echo >>image
refuses 'image of 262,145 bytes' 'image: longer than 262144 bytes'
refuses 'image without end' '/dev/zero: longer than 262144 bytes' /dev/zero changes output
cp "$five/base.image" image
for file in limit65537 bad65537; do
    cp "$five/$file.changes" changes
    refuses 'changes of 65,537 bytes' 'changes: longer than 65536 bytes'
done
refuses 'changes without end' '/dev/zero: longer than 65536 bytes' image /dev/zero output

# What can't be read.
: >changes
refuses 'missing image' 'missing: No such file or directory' missing changes output
refuses 'missing changes' 'missing: No such file or directory' image missing output
refuses 'image is a folder' "$work: Is a directory" "$work" changes output
refuses 'changes are a folder' "$work: Is a directory" image "$work" output
refuses 'empty name of image' ': No such file or directory' '' changes output
refuses 'empty name of changes' ': No such file or directory' image '' output
refuses 'name of image that is not UTF-8' $'\xff: invalid filename' $'\xff' changes output
refuses 'name of changes that is not UTF-8' $'\xff: invalid filename' image $'\xff' output
for n in 0 1 2 4; do
    set -- image changes output more
    set -- "${@:1:n}"
    echo old >output
    run "$@"
    [ ! -s "$work/out" ] && [ "$err" = 'usage: rdap_fold IMAGE CHANGES OUTPUT' ] && [ "$(<output)" = old ] && [ "$files" = "changes image output" ]
    told "$n arguments: '$out', '$err', $files" $?
done
set --

# What can't be written. The limit on the size of a file makes a write fail for every user.
cp "$vectors/campus.image" image
printf '\61\0\6\25ENT-2' >changes
refuses 'output in a missing folder' 'missing/output: No such file or directory' image changes missing/output
refuses 'output in a file' 'image/output: Not a directory' image changes image/output
refuses 'output is a folder' "$work: not a regular file" image changes "$work"
refuses 'output is this folder' '.: not a regular file' image changes .
mkfifo "$work/pipe"
refuses 'output is a pipe' "$work/pipe: not a regular file" image changes "$work/pipe"
[ -p "$work/pipe" ] && [ "$(echo "$work"/pipe*)" = "$work/pipe" ]
told 'the pipe is left' $?
refuses 'empty name of output' ': No such file or directory' image changes ''
refuses 'name of output that is not UTF-8' $'\xff: invalid filename' image changes $'\xff'
letters=$(printf '%0249d' 0)
refuses 'output with a name of 249 bytes' "$letters: File name too long" image changes "$letters"
letters=$(printf '%04096d' 0)
refuses 'output with a path of 4,096 bytes' "$letters: File name too long" image changes "$letters"
refuses 'output with a path of 4,097 bytes' 'OUTPUT: File name too long' image changes "${letters}0"
limited=$program
program=$work/limited
printf '#!/bin/bash\ntrap "" XFSZ\nulimit -f 1\nexec "%s" "$@"\n' "$limited" >"$program"
chmod +x "$program"
refuses 'output larger than a file may be' 'output: File too large'
program=$limited

# Output that is new, old, or the image itself.

"$program" image changes "$work/expected" >"$work/out"
rm output
writes 'output is new' "$work/expected"
shows 'mode of a new output' %a 644
rm output
umask 077
writes 'output is new, for its owner alone' "$work/expected"
shows 'mode of a new output under umask 077' %a 600
umask 022
echo old >output
exec 3<output
writes 'output is old' "$work/expected"
[ "$(cat <&3)" = old ]
told 'who has the old output open reads it whole' $?
exec 3<&-
chmod 640 output
writes 'output is for its group' "$work/expected"
shows 'mode of an old output' %a 640
if [ "$(id -u)" -eq 0 ]; then
    chown 12:34 output
    writes "output is another's" "$work/expected"
    shows "owner, group and mode of another's output" %u:%g:%a 12:34:640
fi
mv output "$work/target" && echo old >"$work/target" && ln -s "$work/target" output
writes 'output is a link' "$work/expected"
[ ! -L output ] && [ "$(<"$work/target")" = old ]
told 'the link is replaced, and not what it leads to' $?
writes 'output by its whole name' "$work/expected" image changes "$PWD/output"
writes 'image from a pipe' "$work/expected" <(cat image) changes output
writes 'changes from a pipe' "$work/expected" image <(cat changes) output
writes 'output is the image' "$work/expected" image changes image
refuses 'a second time' 'changes: change 0 at byte 0: it removes a record that is not there (ENT-2)'

echo old >output
"$program" "$vectors/campus.image" changes output >/dev/full 2>"$work/err"
[ "$(<"$work/err")" = 'standard output: No space left on device' ] && cmp -s output "$work/expected"
told 'standard output is full' $?

# Asked before and after: an entity is removed, and 10.3.0.0/24 is a network of its own.
bytes 31000615454e542d3230002b1000282000080a0300000a0300ff2100084e45542d31302d3322000b4f627365727661746f727923000101 changes
"$program" "$vectors/campus.image" changes output >"$work/out"
printf '/entity/ENT-2\n/entity/ENT-1\n/ip/10.3.0.7\n' >"$work/paths"
before=$("$asks" "$work/paths" "$vectors/campus.image")
after=$("$asks" "$work/paths" output)
[ "$(<"$work/out")" = 1759 ] && [ "$before" = $'200 0 5 1 34\n200 0 5 1 32\n200 0 1 1 1' ] && [ "$after" = $'404 8 5 0\n200 0 5 1 33\n200 0 1 1 7' ]
told "asked before and after: '$before', '$after'" $?

tally
