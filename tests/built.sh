#!/bin/bash
# Prints the path of the program of a crate, or of the static library ecma_c, which it builds where there is none.
#
#     tests/built.sh CRATE
#     tests/built.sh --library
#
# The proved program is taken where `rt ci` or `rt run` built it, and the proved library where `rt lib` did, and no source file of the crates is newer. Of the two programs
# that `rt ci` builds it is that of Rattle's own compiler, which is the faster one. Elsewhere tests/unproved.sh or tests/unproved_library.sh builds one without a proof, once
# for each state of the sources. A line on standard error says so before. Status 3 where that fails.
top=$(cd "$(dirname "$0")/.." && pwd)

# Whether there is no such file, or a source file of the crates is newer.
is_stale() {
    [ ! -e "$1" ] || [ -n "$(find "$top/crates" "$top/crates.txt" -name out -prune -o -type f \
        \( -name '*.rt' -o -name '*.antt' -o -name crates.txt \) -newer "$1" -print -quit)" ]
}

if [ "$1" = --library ]; then
    crate=ecma_c proved=("$top/crates/ecma_c/out/libecma_c.a") build=("$top/tests/unproved_library.sh")
else
    crate=$1 proved=("$top/crates/$1/out/$1"{.by-rattle,}) build=("$top/tests/unproved.sh")
    args=("$1")
fi
for file in "${proved[@]}"; do
    is_stale "$file" || { echo "$file"; exit; }
done
if ! command -v rt >/dev/null; then
    echo "$crate: not built yet, and there is no rt to build it: is the Rattle kit in PATH?" >&2
    exit 3
fi
if ! file=$("${build[@]}" --kept "${args[@]}"); then
    echo "$crate: building it without a proof, which takes 2 to 5 minutes and 3 GB of memory, once; .ci/run builds it with its proof" >&2
    file=$("${build[@]}" "${args[@]}") || { echo "$crate: the build failed" >&2; exit 3; }
fi
echo "$file"
