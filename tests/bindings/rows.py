#!/usr/bin/env python3
"""Rows of calls of python/ecma.py, and what they answer.

    PYTHONPATH=FOLDER tests/bindings/rows.py

Prints the rows that answer otherwise, and how many rows there are. Status 1 if there are such rows.
"""
import sys

sys.dont_write_bytecode = True
import ecma


def raised(call):
    try:
        return call()
    except ecma.Fault as fault:
        return 'Fault', fault.start, fault.end, fault.lineno, fault.offset
    except ValueError:
        return 'ValueError'


ROWS = [
    ('a tree', lambda: ecma.parse('a')['body'][0]['expression'], {'type': 'Identifier', 'start': 0, 'end': 1, 'name': 'a'}),
    ('places', lambda: ecma.parse('\n a', loc=True, range=True)['body'][0]['range'], [2, 3]),
    ('comments', lambda: [comment['value'] for comment in ecma.parse('a // b', comments=True)['comments']], [' b']),
    ('a module', lambda: ecma.parse('import "a"')['sourceType'], 'module'),
    ('a long answer', lambda: len(ecma.parse('a;' * 20000)['body']), 20000),
    ('UTF-16 units', lambda: raised(lambda: ecma.parse('"\U00010082" b')), ('Fault', 5, 6, 1, 6)),
    ('a half of a pair', lambda: ecma.parse('"\ud83d"')['body'][0]['end'], 3),
    ('a fault', lambda: raised(lambda: ecma.parse('a b')), ('Fault', 2, 3, 1, 3)),
    ('an early error', lambda: raised(lambda: ecma.parse('let a;\nlet a')), ('Fault', 11, 12, 2, 5)),
    ('nested too deeply', lambda: raised(lambda: ecma.parse('[' * 5000))[0], 'Fault'),
    ('more levels', lambda: ecma.parse('[' * 400 + ']' * 400, levels=500)['type'], 'Program'),
    ('nothing is wrong', lambda: ecma.check('a'), []),
    ('what is wrong', lambda: [(found['line'], found['column']) for found in ecma.check('let a;\nlet a')], [(2, 5)]),
    ('a bad goal', lambda: raised(lambda: ecma.check('a', 'other')), 'ValueError'),
    ('a bad width', lambda: raised(lambda: ecma.format('a', width=3)), 'ValueError'),
    ('a layout', lambda: ecma.format('f( a=>b )', indent=4), 'f(a => b);\n'),
    ('names', lambda: [name['binding'] for name in ecma.names('let a; a = b')], [None, [4, 5], None]),
    ('tokens', lambda: [token['type'] for token in ecma.tokens('a + 1n')], ['word', 'sign', 'bigint']),
    ('the version', lambda: ecma.version().split(',')[0], '0.1.0'),
]

wrong = 0
for name, call, expected in ROWS:
    found = call()
    if found != expected:
        wrong += 1
        print('%s: %r, and not %r' % (name, found, expected))
print('%d rows, %d of them otherwise' % (len(ROWS), wrong))
sys.exit(min(1, wrong))
