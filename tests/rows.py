#!/usr/bin/env python3
"""Reads files of rows (docs/TESTS.md has their form), for scripts.

    tests/rows.py FILE ..     prints all rows of the files as JSON, with line breaks for `\\n`

A file is the name of one in crates/rows/data, or a whole path.
"""
import json
import sys
from collections import namedtuple
from pathlib import Path

DATA = Path(__file__).parent.parent / 'crates/rows/data'

# What is called, the setting, the text, what is answered (an answer, and faults or lines after it), the place of what is left, and by the
# names of other manners of reading what is answered then, all as it is written.
Row = namedtuple('Row', 'calls setting text answers left others')


def unescaped(text):
    return text.replace('\\n', '\n')


def read(name):
    """The rows of the file of this name."""
    heading, found = [], []
    for line in Path(DATA, name).read_text(encoding='utf-8').split('\n'):
        if line.startswith(' ' * 8):
            manner, _, other = line[8:].partition(' | ')
            found[-1].others[manner] = other
        elif line.startswith(' ' * 4):
            found.append(row_of(heading + line[4:].split(' | ')))
        elif line.endswith(':') and line.count(' | ') == 1:
            heading = line[:-1].split(' | ')
        elif line.count(' | ') > 1:
            found.append(row_of(line.split(' | ')))
    return found


def row_of(fields):
    calls, setting, text, *answers = fields
    left = answers.pop().removeprefix('left ') if answers and answers[-1].startswith('left ') else 'end'
    return Row(calls, setting, text, answers, left, {})


def main():
    rows = [row for name in sys.argv[1:] for row in read(name)]
    plain = [row._replace(text=unescaped(row.text), answers=[*map(unescaped, row.answers)]) for row in rows]
    json.dump([row._asdict() for row in plain], sys.stdout)


if __name__ == '__main__':
    main()
