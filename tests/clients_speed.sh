#!/bin/bash
# Measures four commands of `ecma`: prints, for each text, its bytes, the processor seconds of the run and the peak of its memory, as rows of a table.
#
#     tests/clients_speed.sh [PROGRAM]     another build of ecma, to run in its place
#
# Each text is a short piece again and again, of 0.25, 0.5 and 1 MB: statements of all kinds, one below another; `if (a) ` and `{ `, as statements in one
# another; functions; operators; a list of literals, calls and arrow functions; and the pieces of a template. The least of five runs counts. The stack is
# as large as the system lets it grow. After the table come the greatest ratio of seconds between a text and one of half its size, and the longest
# texts on a stack of 1 MB.
cd "$(dirname "$0")/.." || exit 2
program=${1:-crates/ecma/out/ecma}
if [ ! -x "$program" ]; then
    echo "no built program $program: (cd crates/ecma && rt run) builds it" >&2
    exit 2
fi
ulimit -Ss "$(ulimit -Hs)" 2>/dev/null
exec python3 - "$@" <<'END'
import sys

sys.dont_write_bytecode = True
sys.path.insert(0, 'tests')
from measure import ended, faulty, print_row, run, runs

SIZES = 250_000, 500_000, 1_000_000
FUNCTION = b'function f() { '
MIXED = b'''var a = b + c, [d, e = 1] = f
function g(h, ...i) { return h ? i : j.k(l) }
for (const m of n) { if (o) continue; else p(m) }
class Q extends R { s = 1; t(u) { super.t(u) } }
try { v() } catch ({ w }) { throw w } finally { x++ }
switch (y) { case 1: z = () => { a }; break; default: { b } }
'''
LIST = b"f({a: b, c}, d => e, [g, ...h]), i.j[k] = `l${m}`, "


def again(piece, after=b'', close=b''):
    """A text of about this many bytes: a piece again and again, what comes after, and as often what closes a piece."""
    def text_of(size):
        count = size // len(piece + close)
        return piece * count + after + close * count + b'\n'
    return text_of


TEXTS = [
    ('outline', 'statements of all kinds', again(MIXED)),
    ('outline', 'if (a) ..', again(b'if (a) ', b'b')),
    ('outline', '{ .. }', again(b'{ ', b'a', b' }')),
    ('outline', 'a: ..', again(b'a: ', b'b')),
    ('outline', 'function f() { .. }', again(FUNCTION, b'a', b' }')),
    ('format', 'statements of all kinds', again(MIXED)),
    ('format', 'if (a) ..', again(b'if (a) ', b'b')),
    ('format', '{ .. }', again(b'{ ', b'a', b' }')),
    ('format', 'function f() { .. }', again(FUNCTION, b'a', b' }')),
    ('format', 'a + 1 * b - ..', again(b'a + 1 * b - ', b'a')),
    ('format', 'calls, literals, arrow functions', again(LIST, b'n')),
    ('scopes', 'a + 1 * b - ..', again(b'a + 1 * b - ', b'a')),
    ('scopes', 'calls, literals, arrow functions', again(LIST, b'n')),
    ('template', 'text {{ a.b(c) }} ..', again(b'text {{ a.b(c) }} ')),
]


def sizes_of(text_name):
    return (17_000, 34_000, 68_000) if 'function f' in text_name else SIZES


def program(name):
    return [sys.argv[1] if len(sys.argv) > 1 else 'crates/ecma/out/ecma', name]


WIDTHS = 10, 32, -7, -7, -5, 9
print_row(WIDTHS, 'program', 'text', 'bytes', 'seconds', 'MB', 'unless status 0')
ratios = []
for name, text_name, text_of in TEXTS:
    before = None
    for size in sizes_of(text_name):
        text = text_of(size)
        least = runs(program(name), text)
        print_row(WIDTHS, name, text_name, len(text), '%.2f' % least.seconds, '%.0f' % least.megabytes, faulty(least.status))
        if before and sizes_of(text_name) == SIZES:
            ratios.append((least.seconds / max(before, 0.001), name, text_name))
        before = least.seconds
print('greatest ratio of seconds between a text and one of half its size: %.2f (%s, %s)' % max(ratios))
for name, text_name, text_of in TEXTS:
    text = text_of(sizes_of(text_name)[-1])
    print('on a stack of 1 MB, %s, %s, %d bytes: %s' % (name, text_name, len(text), ended(run(program(name), text, 1 << 20).status)), flush=True)
END
