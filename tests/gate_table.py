#!/usr/bin/env python3
"""Prints the table of docs/GATE.md, as .ci/run does before its last line, from what `rt ci` and tests/gate_seconds.py printed.

    tests/gate_table.py LOG

A line has a crate, how many functions of it were proved, its processor seconds (proof, library, tests, compilers), and those of its must-fail edits. Below the table is
what the check of an empty crate takes on the same machine, right after: seconds of two runs are to be compared by it.
"""
import re
import resource
import subprocess
import sys
import tempfile
from pathlib import Path


def rows_of(log):
    """The functions, the seconds and the seconds of edits of each crate, by its name, in the order in which they were proved."""
    functions, rows = {}, {}
    for part in re.split(r'^== ', log, flags=re.M)[1:]:
        proved = re.search(r'^logic=proved functions=(\d+)', part, re.M)
        name = re.match(r'\w+', part)[0]
        functions[name] = functions.get(name, 0) + int(proved[1] if proved else 0)
    for name, whole, edits in re.findall(r'^seconds (\w+) (\d+) (\d+)$', log, re.M):
        rows[name] = functions.get(name, 0), int(whole), int(edits)
    return {name: rows[name] for name in [*functions, *rows] if name in rows}


def minutes(text):
    """The seconds of times as the shell prints them, `1m2.5s 0m3s`."""
    return sum(60 * int(minute) + float(second) for minute, second in re.findall(r'(\d+)m([\d.]+)s', text))


def yardstick():
    """The processor seconds of the check of an empty crate over std."""
    with tempfile.TemporaryDirectory() as room:
        source = Path(room, 'crates/empty/src')
        source.mkdir(parents=True)
        Path(room, 'crates.txt').write_text('empty:\n')
        (source / 'lib.rt').write_text('//! Nothing.\n#![tactic(auto)]\n')
        before = resource.getrusage(resource.RUSAGE_CHILDREN)
        subprocess.run(['rt', 'check'], cwd=source.parent, capture_output=True)
        after = resource.getrusage(resource.RUSAGE_CHILDREN)
    return after.ru_utime + after.ru_stime - before.ru_utime - before.ru_stime


def main():
    with open(sys.argv[1], encoding='utf-8', errors='replace') as file:
        log = file.read()
    rows = rows_of(log)
    line = '    %-18s%12s%12s%8s'
    if rows:
        rows['all'] = tuple(map(sum, zip(*rows.values())))
        print((line % ('crate', 'functions', 'seconds', 'edits')).rstrip())
    for name, (count, whole, edits) in rows.items():
        print((line % (name, count or '', whole, edits or '')).rstrip())
    print('\nThe check of an empty crate over std: %.1f processor seconds.' % yardstick())
    if not rows:
        print('no crate was proved: what earlier runs on this machine have proved is kept')
    took = re.search(r'^the gate took (\d+) seconds.*: (.*)$', log, re.M)
    if took:
        print('\nThe whole run: %d processor seconds, %d minutes on the clock.' % (minutes(took[2]), int(took[1]) // 60))


if __name__ == '__main__':
    main()
