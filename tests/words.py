#!/usr/bin/env python3
"""Counts words that documents, comments and messages here don't use, and prints where they are. Status 1 if there are any.

    tests/words.py
"""
import os
import re
import sys

# What isn't written, and what is written in its place.
WORDS = {
    r'behind': 'after',
    r'stands?(?! (in )?for\b|$)': 'is, comes',
    r'stood(?! (in )?for\b)': 'was',
    r'wants? of( memory)?': 'out of memory',
    r'round (it|them|that|the|this)': 'around',
    r'may are': 'may come',
    r'let(s|ting)? (it |them )?go': 'drop',
    r'arrow heads?|heads? of (an |the )?arrows?': 'parameters',
    r'head of (the |a )?(links?|operators?|list)': 'link, first item',
    r'upon|amid|thus|hence|shall|lest|ere': '',
    r'nought|aught|wholly|yonder|asunder|foregoing|(there|where|here)(in|of|by|upon|fore with)': '',
}
# Names of functions may hold one of these.
NAMES = re.compile(r'`[^`]*`')
# This file, the table that tests/wrong_bodies.py writes of the first lines of edits, and what tests/api.py makes of comments.
OTHERS = ('tests/words.py', 'tests/wrong/RESULTS.md', 'docs/API.md')
READ = ('.rt', '.antt', '.md', '.sh', '.py', '.js', '.c', '.cpp', '.edit', '.txt', '.rows', '.trees', 'run')
COMMENT = re.compile(r'^\s*(//|--|#)')


def files():
    """The files of the repository, but for what checks and builds leave."""
    for folder, folders, names in os.walk('.'):
        folders[:] = sorted(name for name in folders if not name.startswith(('out', '.git')))
        yield from (os.path.join(folder, name)[2:] for name in sorted(names))


def lines(path):
    """The lines of a file that people read as text, by their numbers and without what is in backquotes: of code the comments alone."""
    is_code = path.endswith(('.rt', '.antt', '.edit', '.rows', '.trees'))
    with open(path, errors='replace') as file:
        for number, line in enumerate(file, 1):
            if not is_code or COMMENT.match(line):
                yield number, NAMES.sub('``', line)


def main():
    found = 0
    for path in files():
        if path in OTHERS or not path.endswith(READ):
            continue
        for number, line in lines(path):
            for word, better in WORDS.items():
                if re.search(r'\b(%s)\b' % word, line):
                    found += 1
                    print('%s:%d: %s' % (path, number, line.strip()[:100]) + (' (%s)' % better if better else ''))
    print('%d found' % found)
    sys.exit(found != 0)


if __name__ == '__main__':
    main()
