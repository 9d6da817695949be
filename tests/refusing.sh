#!/bin/bash
# Refuses each request for memory of each row in turn, and looks at what is answered then (tests/refusing.py). For at most ten minutes.
#
#     tests/refusing.sh [ROWS SHOW_EXPR]
#
# The two programs are the proved ones, where `rt ci` or `rt run` leaves them, or those that are named. Status 0 if every row holds, 1 if one
# doesn't, 2 if a program isn't there, 124 if the time is over.
set -eu
cd "$(dirname "$0")/.."
rows=${1-crates/rows/out/rows}
show_expr=${2-crates/show_expr/out/show_expr}
ls "$rows" "$show_expr" >/dev/null
room=$(mktemp -d)
trap 'rm -rf "$room"' EXIT
cc -O1 -Wall -Wextra -Werror -shared -fPIC -o "$room/refuse.so" tests/refuse.c
timeout 600 python3 tests/refusing.py "$room/refuse.so" "$rows" "$show_expr"
