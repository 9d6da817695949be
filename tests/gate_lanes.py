#!/usr/bin/env python3
"""Says how long a gate takes on so many lanes, each of which proves one crate at a time, from a table as tests/gate_table.py prints it.

    tests/gate_lanes.py TABLE [LANES [FACTOR]]     2 lanes that are as fast as the machine of the table, if they aren't said

A crate is begun when those below it in crates.txt are done; of those that may begin, the one before the longest chain is first. Prints the minutes, and the longest
chain. Crates that the table lacks take no time, and are named.
"""
import heapq
import re
import sys
from functools import cache
from pathlib import Path

LINES = dict(re.match(r'(\w+)(?: \w+)?:(.*)', line).groups() for line in Path(__file__).parent.parent.joinpath('crates.txt').read_text().splitlines() if not line.startswith('#'))
BELOW = {name: [word for word in words.split() if word in LINES] for name, words in LINES.items()}
ABOVE = {name: [other for other in BELOW if name in BELOW[other]] for name in BELOW}


def seconds_of(table):
    """The seconds of each crate, its edits included."""
    rows = re.findall(r'^ +(\w+)( +\d+)?( +\d+)( +\d+)?$', table, re.M)
    return {name: int(whole) + int(edits or 0) for name, _, whole, edits in rows if name in LINES}


def main():
    seconds = seconds_of(Path(sys.argv[1]).read_text())
    lanes = int(sys.argv[2]) if len(sys.argv) > 2 else 2
    factor = float(sys.argv[3]) if len(sys.argv) > 3 else 1

    @cache
    def chain(name):
        """The longest chain of crates that begins with this one: its seconds, and its names."""
        longest = max(map(chain, ABOVE[name]), default=(0, ()))
        return seconds.get(name, 0) + longest[0], (name, *longest[1])

    now, busy, done, begun = 0, [], set(), set()
    while len(done) < len(BELOW):
        ready = [name for name in BELOW if name not in begun and done.issuperset(BELOW[name])]
        for name in sorted(ready, key=chain, reverse=True)[:lanes - len(busy)]:
            begun.add(name)
            heapq.heappush(busy, (now + seconds.get(name, 0), name))
        now, name = heapq.heappop(busy)
        done.add(name)
    print('%d lanes: %.0f minutes' % (lanes, now * factor / 60))
    longest = max(map(chain, BELOW))
    print('the longest chain: %.0f minutes: %s' % (longest[0] * factor / 60, ' '.join(longest[1])))
    lacking = [name for name in BELOW if name not in seconds]
    if lacking:
        print('not in the table: ' + ' '.join(lacking))


if __name__ == '__main__':
    main()
