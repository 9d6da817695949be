#!/bin/bash
# Tries ecma from C, Node and Python: the first programs of README, the rows of tests/bindings, each request for memory refused, and threads.
#
#     tests/bindings.sh
#
# What gcc or node would be needed for and isn't there is left out, and a line says so. Status 1 where something isn't as it has to be.
set -u
cd "$(dirname "$0")/.."
status=0
# Blocks that are kept are counted by the program itself; where processes may not be traced, LeakSanitizer fails.
export ASAN_OPTIONS=detect_leaks=0
if ! command -v gcc >/dev/null; then
    echo 'bindings: no gcc, so C, Node and Python are not tried'
    exit
fi
room=$(mktemp -d)
trap 'rm -rf "$room"' EXIT
tests=tests/bindings
strict=(-std=c11 -O1 -g -Wall -Wextra -Werror -pedantic -fsanitize=address,undefined -I"$room")
part=$(dirname "$(rt doc)")/c/liblibc_c.a

# Compares what a command prints, whose name is $1, with what it has to print.
prints() {
    local name=$1 wanted=$2
    shift 2
    "$@" >"$room/said" 2>&1
    diff <(echo "$wanted") "$room/said" >"$room/other" || { echo "bindings: $name prints something else:"; cat "$room/other"; status=1; }
}

./install --lib "$room" >/dev/null && ./install --python "$room" >/dev/null || exit 1
for name in first trees; do
    gcc "${strict[@]}" -o "$room/$name" "$tests/$name.c" "$room/libecma.a" || exit 1
done
prints 'the first program in C' "$(cat "$tests/first.c.out")" "$room/first"
prints 'the program in C' "$(cat "$tests/trees.c.out")" "$room/trees" tests/ecma/cart.js tests/ecma/format.in
gcc "${strict[@]}" -pthread -o "$room/memory" "$tests/memory.c" -Wl,--wrap=malloc,--wrap=realloc,--wrap=free "$(tests/built.sh --library)" "$part" || exit 1
"$room/memory" || { echo 'bindings: memory'; status=1; }
prints 'the first program in Python' "$(cat "$tests/first.py.out")" env PYTHONPATH="$room" python3 -B "$tests/first.py"
PYTHONPATH=$room "$tests/rows.py" || status=1
if command -v node >/dev/null && ./install --node "$room/node_modules" >"$room/said" 2>&1; then
    cp "$tests/first.js" "$room"
    prints 'the first program in Node' "$(cat "$tests/first.js.out")" node "$room/first.js"
    ECMA_NODE=$room/node_modules/ecma node "$tests/rows.js" || status=1
else
    echo 'bindings: no node or no headers of it, so Node is not tried'
fi
[ "$status" = 0 ] && echo 'bindings: C, Node and Python answer as they have to'
exit "$status"
