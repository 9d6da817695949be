#!/bin/bash
# Makes a repository by ./new, runs its example without a proof, changes it, and brings it up to date.
#
#     tests/new.sh
#
# Status 1 where the example prints something else, or what is one's own is changed.
set -u
cd "$(dirname "$0")/.." || exit 1
room=$(mktemp -d)
trap 'rm -rf "$room"' EXIT
status=0
fail() {
    echo "new: $1"
    status=1
}

./new "$room/mine" my_tool >/dev/null || exit 1
(cd "$room/mine/crates/my_tool" && rt try 2>/dev/null) | grep -v '^interpreter:\|^checked:\|^run=' >"$room/said"
diff crates/examples/stdout "$room/said" || fail 'the example prints something else'
./new "$room/mine" my_tool 2>/dev/null && fail 'a folder that is there is made anew'
echo '// mine' >>"$room/mine/crates/my_tool/src/main.rt"
echo '// other' >>"$room/mine/crates/swc_ast/src/lib.rt"
./new --update "$room/mine" >/dev/null || fail 'an update fails'
grep -q '^// mine' "$room/mine/crates/my_tool/src/main.rt" || fail 'an update changes what is not its own'
diff -r crates/swc_ast/src "$room/mine/crates/swc_ast/src" || fail 'an update leaves a crate as it was'
./new --programs "$room/other" my_tool >/dev/null && grep -q statement_trees "$room/other/crates.txt" || fail 'no repository over programs'
[ "$status" = 0 ] && echo 'new: a repository is made, runs, and is brought up to date'
exit "$status"
