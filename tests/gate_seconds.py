#!/usr/bin/env python3
"""Counts the processor seconds that each crate takes in a run of the gate: .ci/run runs it beside `rt ci`, and tests/gate_table.py reads what it prints.

    tests/gate_seconds.py

Looks every two seconds at the processes below the one that started it, until it is told to stop (SIGTERM). A check or a build names its crate, and
counts with all that it started. Then prints a line for each crate, `seconds CRATE WHOLE EDITS`: the seconds of its proof, library, tests and
compilers, and those of its must-fail edits. What a process takes after the last look isn't counted.
"""
import os
import signal
import sys
import time
from collections import Counter, defaultdict

TICKS = os.sysconf('SC_CLK_TCK')


def read(path):
    try:
        with open(path, 'rb') as file:
            return file.read().decode(errors='replace')
    except OSError:
        return ''


def processes():
    """Of each process by its number: its parent, when it started, and the ticks of it and of those of its children that have ended."""
    found = {}
    for number in filter(str.isdigit, os.listdir('/proc')):
        fields = read('/proc/%s/stat' % number).rpartition(')')[2].split()
        if fields:
            found[int(number)] = int(fields[1]), fields[19], sum(map(int, fields[11:15]))
    return found


def job_of(number):
    """The crate that a process checks or builds, and whether that is for an edit; or none."""
    words = read('/proc/%d/cmdline' % number).split('\0')
    if '--crate-name' not in words:
        return None
    try:
        folder = os.readlink('/proc/%d/cwd' % number)
    except OSError:
        folder = ''
    return words[words.index('--crate-name') + 1], os.path.basename(folder).startswith('rt-edit-')


def look(top, seconds, jobs):
    """Sets the seconds of each job below the process `top`: of each process that names a crate, where none above it does."""
    found, below = processes(), defaultdict(list)
    for number, (parent, _, _) in found.items():
        below[parent].append(number)
    left, ticks = [(top, None)], Counter()
    while left:
        number, key = left.pop()
        if not key:
            own = number, found[number][1]
            jobs[own] = jobs.get(own) or job_of(number)
            key = own if jobs[own] else None
        if key:
            ticks[key] += found[number][2]
        left += [(child, key) for child in below[number]]
    for key, count in ticks.items():
        seconds[key] = max(seconds.get(key, 0), count / TICKS)


def main():
    signal.signal(signal.SIGTERM, lambda *_: sys.exit())
    top, seconds, jobs = os.getppid(), {}, {}
    try:
        while top == os.getppid():
            look(top, seconds, jobs)
            time.sleep(2)
    finally:
        sums = defaultdict(lambda: [0, 0])
        for key, count in seconds.items():
            crate, is_edit = jobs[key]
            sums[crate][is_edit] += count
        for crate, (whole, edits) in sums.items():
            print('seconds %s %.0f %.0f' % (crate, whole, edits))


if __name__ == '__main__':
    main()
