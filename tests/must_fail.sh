#!/usr/bin/env bash
# Tries the must-fail edits of one crate by `rt must-fail`, or one of them alone, in a copy of the repository: seconds an edit.
# It begins with what `rt check` kept; what is below the crate is proved first, if it is not, and an edit on which nothing has changed is not tried again.
# usage: tests/must_fail.sh CRATE [EDIT], as in tests/must_fail.sh output nothing_written
# For each edit: whether it is refused, and the first error, which should be at the fact that no longer holds.
# An edit that is accepted, that does not reach the prover, or whose 'old:' does not occur exactly once, fails.
# The last line is 'N passed, M failed'.
set -u
cd "$(dirname "$0")/.."
crate=${1-}
if [ $# -lt 1 ] || [ $# -gt 2 ] || [ ! -d "crates/$crate/must-fail" ]; then
    echo "usage: $0 CRATE [EDIT]; CRATE is one with a folder must-fail" >&2
    exit 2
fi
. tests/tally.sh
edits=("crates/$crate/must-fail"/*.edit)
top=$PWD
log=$(mktemp)
trap 'rm -rf "$log" "${copy-}"' EXIT
if [ $# -eq 2 ]; then
    edits=("crates/$crate/must-fail/$2.edit")
    copy=$(mktemp -d)
    tar -c --exclude='crates/*/out' --exclude='crates/*/must-fail' crates crates.txt $(ls -d HANDLES 2>/dev/null) | tar -x -C "$copy"
    mkdir "$copy/crates/$crate/must-fail"
    cp "${edits[0]}" "$copy/crates/$crate/must-fail" || exit 2
    cd "$copy" || exit 1
fi

"${RT:-rt}" must-fail "$crate" >"$log" 2>&1
grep -v "^rt: must-fail $crate/" "$log"
for edit in "${edits[@]}"; do
    name=$crate/$(basename "$edit")
    said=$(grep -F "rt: must-fail $name: " "$log" | tail -n 1 | sed "s|$PWD/||g" | cut -c 1-400)
    case $said in
        *": refused, as it must be (only "*) told "$name, by its shape or by a limit: look again" 0 && echo "by its shape or by a limit, look again: ${said#rt: must-fail }" ;;
        *': refused, as it must be'*) told "$name" 0 && echo "${said#rt: must-fail }" ;;
        *) told "${said:-$name was not tried}" 1 ;;
    esac
done
cd "$top" || exit 1
tally
