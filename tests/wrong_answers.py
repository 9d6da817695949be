#!/usr/bin/env python3
"""Tries the wrong answers of tests/wrong_answers: functions with the clauses of public calls of the parser, and other answers.

    tests/wrong_answers.py [--built | --libs FOLDER] [NAME ..]     none: all

They are one crate above swc_ecma_parser, so nothing of the parser is proved again. Its files end in `.in`, as it is none of the crates of the gate.
A function's doc comment ends with what is expected: `Refused by:` and
the clauses, or `Not refused:` and why. An answer that has all that can be shown has a `?` in the place of the rest; then a comment in it names the clause.

Without an option `rt lib` first proves what has changed of swc_ecma_parser and of the crates below it. With --built its libraries are taken as `rt ci` left them, as the
gate does. FOLDER has such libraries, as NAME.rlib.

Prints a line for each function. Status 0 if all is as it is expected.
"""
import argparse
import re
import shutil
import sys
import tempfile
from pathlib import Path

sys.dont_write_bytecode = True
from wrong_bodies import Libraries, check

CRATE = Path(__file__).parent / 'wrong_answers'
ABOVE = 'swc_ecma_parser'
# The doc comment of a function, and its name.
FUNCTION = re.compile(r'^((?:///.*\n)+)(?:#\[.*\n)*pub fn (\w+)', re.M)
EXPECTED = re.compile(r'(Refused by|Not refused): (.*?)\.?$', re.S)
# A goal that isn't proved, with its clause if the function has several.
GOAL = re.compile(r'search` did not prove (.*)')
CLAUSE = re.compile(r'-clause-(\w+)`')
# What can't be read, as a name that is gone, says nothing of a clause.
UNREAD = re.compile(r'^(\S+): error')


def expected():
    """What is expected of each function: the clauses that refuse it, or none."""
    for doc, name in FUNCTION.findall((CRATE / 'src/lib.rt.in').read_text(encoding='utf-8')):
        said = EXPECTED.search(' '.join(line[4:] for line in doc.splitlines()))
        yield name, re.findall(r'`(\w+)`', said[2]) if said[1] == 'Refused by' else []


def refused_by(name, lines):
    """The clauses that refuse a function; None if nothing does."""
    if 'fn %s::%s: proved' % (CRATE.name, name) in lines:
        return None
    own = next((line for line in lines if line.startswith('fn %s::%s: no proof' % (CRATE.name, name))), '')
    clauses = CLAUSE.findall(GOAL.search(own)[1]) if GOAL.search(own) else []
    hole = CRATE / 'proofs' / name / 'Answers.antt.in'
    if not clauses and any(line.startswith('./proofs/%s/Answers.antt' % name) and 'has-holes' in line for line in lines):
        clauses = re.findall(r'^-- Not shown: `(\w+)`', hole.read_text(encoding='utf-8'), re.M)
    return sorted(set(clauses))


def main():
    parser = argparse.ArgumentParser(usage=__doc__)
    parser.add_argument('--built', action='store_true')
    parser.add_argument('--libs', type=Path)
    parser.add_argument('names', nargs='*')
    given = parser.parse_args()
    libraries = Libraries(given.libs and given.libs.resolve())
    if not given.built:
        libraries.build(ABOVE)
    libraries.below[CRATE.name] = [ABOVE, *libraries.below[ABOVE]]
    wanted = {name: clauses for name, clauses in expected() if not given.names or name in given.names}
    with tempfile.TemporaryDirectory(prefix='wrong-') as room:
        copy = Path(room, CRATE.name)
        shutil.copytree(CRATE, copy)
        for file in copy.glob('**/*.in'):
            file.rename(file.with_suffix(''))
        only = [word for name in wanted for word in ('--only', name)]
        _, lines = check(libraries.command(CRATE.name, Path(room, 'kept')) + only, copy)
    unread = [line for line in lines if UNREAD.match(line)]
    if unread or not lines[-1].startswith('only='):
        print('\n'.join(unread or lines[-3:]))
        return 2
    wrong = 0
    for name, clauses in wanted.items():
        found = refused_by(name, lines)
        as_expected = found == (sorted(clauses) or None)
        wrong += not as_expected
        print('%s: %s%s' % (name, 'NOT REFUSED' if found is None else 'refused by ' + ', '.join(found), '' if as_expected else ', which is NEW'))
    return min(1, wrong)


if __name__ == '__main__':
    sys.exit(main())
