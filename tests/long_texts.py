#!/usr/bin/env python3
"""Measures show_expr on long texts, and prints a table: what each takes, and how many times as much as a text of half its size.

    tests/long_texts.py [PROGRAM]

PROGRAM is the program show_expr, or the one that the gate built by Rattle's own compiler. The texts are short pieces again and again, of 25 and of
50 MB, and patterns that are assigned to within others, 5,000 and 10,000 deep, for which the stack may grow as far as the system lets it. Memory is
the peak, in bytes for a byte of the text. Then texts of 1 MB that are a chain, of operators or of links, are read on a stack of 1 MB. Status 1 where a text isn't read.
"""
import os
import sys
from pathlib import Path

sys.dont_write_bytecode = True
from measure import ended, faulty, grow_stack, print_row, run
from peers import repeated

PROGRAM = Path(__file__).parent.parent / 'crates/show_expr/out/show_expr.by-rattle'
MB = 1_000_000
CHAINS = 'operators', 'links', 'optional links'
WIDTHS = 19, -8, -7, -6, -5, 9


def nested(depth):
    return b'[a,' * depth + b' a ' + b']=b' * depth


def pairs():
    """Of each text its name, its mode, the text of half the size, and itself."""
    for (name, mode, half), (_, _, whole) in zip(repeated(25 * MB), repeated(50 * MB)):
        yield name, mode, half, whole
    yield 'assigned within', 'script', nested(5_000), nested(10_000)


def main():
    program = os.path.abspath(sys.argv[1] if len(sys.argv) > 1 else PROGRAM)
    stack = [run([program, 'expr', mode], text, MB) for name, mode, text in repeated(MB) if name in CHAINS]
    grow_stack()
    unread = [found for found in stack if found.status]
    print_row(WIDTHS, 'text', 'bytes', 'seconds', 'memory', 'twice', 'unless status 0')
    for name, mode, half, whole in pairs():
        once, twice = (run([program, 'expr', mode], text) for text in (half, whole))
        unread += [found for found in (once, twice) if found.status]
        spent = '%.0f' % (twice.megabytes * 1024 * 1024 / len(whole))
        print_row(WIDTHS, name, len(whole), '%.2f' % twice.seconds, spent, '%.2f' % (twice.seconds / once.seconds), faulty(twice.status))
    print('on a stack of 1 MB: %s' % ', '.join('%s %s' % (name, ended(found.status)) for name, found in zip(CHAINS, stack)))
    return 1 if unread else 0


if __name__ == '__main__':
    sys.exit(main())
