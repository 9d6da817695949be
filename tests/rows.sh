#!/bin/bash
# Runs tests without a proof: in seconds, and a minute more for each of the two programs where sources of the crates have changed.
#
#     tests/rows.sh [FILE ..]     files of crates/rows/data or crates/lists/data, with their folders or without, or all that the gate runs
#
# Prints how many lines each file has, and before that the lines that aren't answered as they are written: after `-` as they are, after `+` with the
# answer. Status 1 if there are any, 2 if there is no such file or no program, 3 if a row can't be read.
cd "$(dirname "$0")/.." || exit 2
files=$(for crate in rows lists; do sed "s|^|crates/$crate/data/|" "crates/$crate/args"; done)
if [ $# != 0 ]; then
    files=$(for file; do grep -E "(^|/)$file\$" <<<"$files" || { echo "the gate runs no file $file" >&2; exit 2; }; done) || exit 2
fi
status=0
for crate in rows lists; do
    names=$(sed -n "s|^crates/$crate/data/||p" <<<"$files")
    [ "$names" ] || continue
    program=$(tests/unproved.sh "$crate") || exit 2
    (cd "crates/$crate/data" && "$program" $names) || status=$?
done
exit "$status"
