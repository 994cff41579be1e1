#!/bin/bash
# Runs rdap_prefixes on the vectors in every format, beside filters.py, on lists of one name, on every kind of refusal and on files at its limits.
# usage: tests/run_prefixes.sh [PROGRAM], which is crates/rdap_prefixes/out/rdap_prefixes if none is named, and is built if it is missing
# Prints each test that failed, and last how many passed and failed.
set -u
. "$(dirname "$0")/tally.sh"
under_test rdap_prefixes "$@"
mkdir "$work/expected" || exit 1
formats='plain cisco bird juniper json'

# run ARGUMENTS..: the program; what it writes and what it tells
run() {
    "$program" "$@" >"$work/out" 2>"$work/err"
    err=$(<"$work/err")
}

# writes NAME EXPECTED ARGUMENTS..: just what the file EXPECTED has, and nothing is told
writes() {
    local name=$1 expected=$2
    shift 2
    run "$@"
    cmp -s "$work/out" "$expected" && [ ! -s "$work/err" ]
    told "$name: '$err'" $?
}

# refuses NAME LINE ARGUMENTS..: this line is told, and nothing is written
refuses() {
    local name=$1 line=$2
    shift 2
    run "$@"
    [ ! -s "$work/out" ] && [ "$err" = "$line" ] && [ "$(wc -l <"$work/err")" -eq 1 ]
    told "$name: '$err'" $?
}

# beside NAME EXPECTED ARGUMENTS..: what filters.py has in the file EXPECTED, written or refused
beside() {
    if grep -q ' would both be named ' "$2"; then
        refuses "$1" "$(<"$2")" "${@:3}"
    else
        writes "$@"
    fi
}

# network TAG RANGE HANDLE STATUS: such a record, in hex
network() {
    local handle inner
    handle=$(printf %s "$3" | od -An -v -tx1 | tr -d ' \n')
    printf -v inner '20%04x%s21%04x%s2200014e230001%02x' $((${#2} / 2)) "$2" ${#3} "$handle" "$4"
    printf '%s%04x%s' "$1" $((${#inner} / 2)) "$inner"
}

# The campus image.
for format in $formats; do
    writes "campus $format" "$vectors/filters/campus.$format" "$vectors/campus.image" "$format"
done
cp "$vectors/campus.image" campus
writes 'campus without a format' "$vectors/filters/campus.plain" campus
writes 'campus, all' "$vectors/filters/campus.all" campus --all
writes 'campus, all first' "$vectors/filters/campus.all" --all campus
writes 'campus plain, all' "$vectors/filters/campus.all" campus plain --all
writes 'campus, all, plain' "$vectors/filters/campus.all" campus --all plain
writes 'all, campus plain' "$vectors/filters/campus.all" --all campus plain
writes 'campus from a pipe' "$vectors/filters/campus.json" <(cat campus) json
cp campus plain
writes 'an image of the name plain' "$vectors/filters/campus.bird" plain bird

# Other images, beside filters.py: those of the vectors that are sound, and one with long lists.
images=()
for image in "$vectors"/*.image "$vectors"/changes/*/*.image; do
    case $image in
        */defective.image | */entities-4097.image | */entities-swapped.image | */04/image1.image) ;;
        *) images+=("$image") ;;
    esac
done
python3 - long 4096 <<'END'
import sys

def field(tag, contents):
    return bytes([tag]) + len(contents).to_bytes(2, "big") + contents

def network(tag, first, last, handle):
    width = 4 if tag == 0x10 else 16
    span = first.to_bytes(width, "big") + last.to_bytes(width, "big")
    return field(tag, field(0x20, span) + field(0x21, handle) + field(0x22, b"N") + field(0x23, b"\1"))

start = bytes([1, 0, 1, 1])
long = start + network(0x10, 1, 2**32 - 2, b"v4" + b"-" * 62)
# ::ffff:0:0/96 and around it, then ranges of as many prefixes as there can be
long += network(0x11, 0, 2**128 - 1, b"all") + network(0x11, 1, 2**128 - 2, b"v6" + b"-" * 62)
long += network(0x11, 0xfffe00000001, 0x1000000000000, b"mapped") + network(0x11, 0xffff00000000, 0xffffffffffff, b"m")
long += b"".join(network(0x11, (k << 124) + 1, ((k + 1) << 124) - 2, b"%064d" % k) for k in range(1, 16))
open(sys.argv[1], "wb").write(long)
many = b"".join(network(0x10, (10 << 24) + 256 * k + 1, (10 << 24) + 256 * k + 254, b"N-%d" % k) for k in range(4096))
open(sys.argv[2], "wb").write(start + many)
END
images+=("$PWD/long")
python3 "$tests/filters.py" --into "$work/expected" "${images[@]}"
for i in "${!images[@]}"; do
    for format in $formats; do
        beside "${images[i]} $format" "$work/expected/$i.$format" "${images[i]}" "$format"
        beside "${images[i]} $format --all" "$work/expected/$i.$format--all" "${images[i]}" "$format" --all
    done
done

# Each list of json is one value.
for image in campus long; do
    "$program" "$image" json | python3 -c '
import ipaddress, json, sys
text, decoder, lists, at = sys.stdin.read(), json.JSONDecoder(), [], 0
while at < len(text):
    value, at = decoder.raw_decode(text, at)
    lists += value.items()
    at += 1
plain = [line.split() for line in open(sys.argv[1])]
assert [[name, e["prefix"]] for name, entries in lists for e in entries] == plain
assert all(e["exact"] is True and ipaddress.ip_network(e["prefix"]) for _, entries in lists for e in entries)
' <("$program" "$image" plain) 2>"$work/err"
    told "json of $image: $(tail -n 1 "$work/err")" $?
done

# Names. Both networks are IPv4, or the second is IPv6.
four=0a0000000a0000ff
next=0a0001000a0001ff
six=20010db800000000000000000000000020010db8ffffffffffffffffffffffff

# pair FIRST SECOND [STATUS OF THE FIRST]: image of two IPv4 networks with these handles; pair6: the second is IPv6
pair() {
    bytes "01000101$(network 10 $four "$1" "${3:-1}")$(network 10 $next "$2" 1)" image
}
pair6() {
    bytes "01000101$(network 10 $four "$1" "${3:-1}")$(network 11 $six "$2" 1)" image
}

# allows / clashes NAME FORMATS..: what is written has both networks; or it is refused with this name
allows() {
    local format
    for format in "$@"; do
        run image "$format"
        grep -q '10\.0\.0\.0' "$work/out" && grep -q '10\.0\.1\.0\|2001:db8::' "$work/out" && [ ! -s "$work/err" ]
        told "$first and $second in $format: '$err'" $?
    done
}
clashes() {
    local name=$1 format
    shift
    for format in "$@"; do
        refuses "$first and $second in $format" "image: records 0 ($first) and 1 ($second) would both be named $name" image "$format"
    done
}

first=LAB second=LAB
pair LAB LAB
allows plain
clashes LAB cisco bird juniper json
pair6 LAB LAB
allows plain cisco
clashes LAB bird juniper json
pair LAB LAB 0
for format in $formats; do
    writes "LAB twice in $format, one of them not active" <(python3 "$tests/filters.py" image "$format") image "$format"
done
refuses 'LAB twice, all' 'image: records 0 (LAB) and 1 (LAB) would both be named LAB' --all image bird
first=LAB.1 second=LAB-1
pair LAB.1 LAB-1
allows plain cisco juniper json
clashes LAB_1 bird
first=1A second=2A
pair 1A 2A
allows plain cisco juniper json
clashes _A bird
first=A/B second='A$B'
pair A/B 'A$B'
allows plain json
clashes A_B cisco bird juniper
first='A"B' second='A\B'
pair 'A"B' 'A\B'
allows plain
clashes A_B cisco bird juniper json
first='A|B' second=A_B
pair6 'A|B' A_B
allows plain cisco json
clashes A_B bird juniper
letters=$(printf '%063d' 0)
first=${letters}A second=${letters}B
pair "$first" "$second"
allows $formats
bytes "01000101$(network 10 0000000000000000 A.1 1)$(network 10 0100000001000000 B 1)$(network 10 0200000002000000 B.1 0)$(network 10 0300000003000000 B-1 1)$(network 10 0400000004000000 A-1 1)" image
refuses 'the third of five is not active' 'image: records 0 (A.1) and 4 (A-1) would both be named A_1' image bird
refuses 'the third of five is listed too' 'image: records 2 (B.1) and 3 (B-1) would both be named B_1' image bird --all

# 4,096 networks.
for format in $formats; do
    SECONDS=0
    run 4096 "$format"
    [ "$(grep -c '/32' "$work/out")" -eq 8192 ] && [ ! -s "$work/err" ] && [ "$SECONDS" -le 2 ]
    told "4,096 networks in $format: '$err', $SECONDS s" $?
done
writes '4,096 networks' <(python3 "$tests/filters.py" 4096 cisco) 4096 cisco
"$program" 4096 plain >/dev/full 2>"$work/err"
[ "$(<"$work/err")" = 'standard output: No space left on device' ]
told "standard output is full: '$(<"$work/err")'" $?
"$program" 4096 plain 2>"$work/err" | head -n 1 >"$work/out"
[ "$(<"$work/err")" = 'standard output: Broken pipe' ] && [ "$(wc -l <"$work/out")" -eq 1 ]
told "standard output is read to its first line: '$(<"$work/err")'" $?
"$program" campus bird >&- 2>"$work/err"
[ "$(<"$work/err")" = 'standard output: Bad file descriptor' ]
told "standard output is closed: '$(<"$work/err")'" $?

# Images with no network, and with a defect.
: >none
for format in $formats; do
    writes "empty registry in $format" none "$vectors/empty.image" "$format"
    writes "no network in $format" none "$vectors/changes/05/full4096.image" "$format" --all
done

# defect LINE HEX: of an image that starts right
defect() {
    bytes "01000101$2" image
    refuses "image with $1" "image: defect $1" image cisco
}

refuses 'image of no bytes' 'none: defect 2: it does not start with the bytes 01 00 01 01' none
defect '3 in record 0: it is cut short or has an unknown tag' 150008210001412200
defect '3 in record 1: it is cut short or has an unknown tag' 150008210001412200014e160000
defect '4 in record 0: an inner field is missing, out of order or of a wrong length' 150000
defect '5 in record 0: what a field holds is not of its form, or first is above last' 1500082100012a2200014e
defect '6 in record 1: it does not sort after the record before it' 150008210001412200014e150008210001412200014e
defect '7 in record 1: it overlaps an earlier block without lying inside it' 1000172000080a0000000affffff210001482200014e230001011000172000080aff00000b000000210001482200014e23000101
bytes 1500092100027a7a2200014e last
cat "$vectors/changes/05/full4096.image" last >image
refuses 'image of 4,097 records' 'image: defect 3 in record 4096: it comes after 4096 others' image

# Files at the limit, and what can't be read.
cp "$vectors/changes/05/bytes262144.image" image
writes 'image of 262,144 bytes' none image
echo >>image
refuses 'image of 262,145 bytes' 'image: longer than 262144 bytes' image
refuses 'image without end' '/dev/zero: longer than 262144 bytes' /dev/zero json
refuses 'missing image' 'missing: No such file or directory' missing
refuses 'image is a folder' "$work: Is a directory" "$work"
refuses 'empty name of image' ': No such file or directory' ''
refuses 'name of image that is not UTF-8' $'\xff: invalid filename' $'\xff'
refuses 'name of 4,097 bytes' 'IMAGE: File name too long' "$(printf '%04097d' 0)"

# The arguments.
usage='usage: rdap_prefixes IMAGE [plain|cisco|bird|juniper|json] [--all]'
refuses 'no argument' "$usage"
refuses 'only --all' "$usage" --all
refuses 'two formats' "$usage" campus bird json
refuses 'two formats, all' "$usage" campus bird json --all
refuses 'all three times' "$usage" campus --all --all --all
for format in '' PLAIN plai plainer junipers --al --alls -- image; do
    refuses "format '$format'" "$usage" campus "$format"
done

tally
