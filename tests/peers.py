#!/usr/bin/env python3
"""Compares the time and the memory of show_expr with those of other parsers, on texts of 1 MB, and prints a table of ratios.

    tests/peers.py [PROGRAM]

PROGRAM is the program show_expr, or the one that the gate built by Rattle's own compiler. Each text is read in turn by show_expr, which prints the tree, and by acorn, which
doesn't; by V8 and SpiderMonkey, which compile it, functions too; and by esbuild, which prints it anew. Of each the least processor time of six
turns counts. Memory is what show_expr takes at its peak, less what it takes for a short text, in bytes for a byte of the text. Twice is its time
for the text to that for one of half the size. Instructions are those of a text of 100 kB, in millions, as callgrind counts them.

A parser that isn't installed is left out, and so is esbuild where it takes more than a minute. They are Debian's node-acorn, nodejs, esbuild,
libmozjs-102-dev with g++, and valgrind.
"""
import math
import os
import re
import shutil
import subprocess
import sys
import tempfile

sys.dont_write_bytecode = True
import measure
from program_texts import PROGRAMS, text_of

HERE = os.path.dirname(os.path.abspath(__file__))
TURNS = 6
MB = 1_000_000
SHORT = 100_000
PEERS = ['acorn', 'v8', 'sm', 'esbuild']
WIDTHS = 19, -7, -6, -6, -12, -7, -6, -6, -12


def repeated(size):
    """Of each text that is a short piece again and again its name, its mode, and itself."""
    yield 'operators', 'script', b'a + 1 * b - ' * (size // 12) + b'a'
    yield 'links', 'script', b'a' + b'.b(c)' * (size // 5)
    yield 'optional links', 'script', b'a' + b'?.b[c]' * (size // 6)
    items = b'{a: [b, {c = 1, d: [, e]}, f = g], ...h}, ' * (size // 43)
    yield 'patterns written to', 'script', b'[' + items + b'i] = x'
    yield 'parameters', 'script', b'([' + items + b'i]) => x'


def texts(size):
    """Of each text its name, its mode, and itself."""
    for program in PROGRAMS:
        yield program.name.split(':')[0], program.mode, text_of(program, size)
    yield from repeated(size)


def run(command, path):
    """The processor seconds of a command that reads the file, or none where it fails."""
    with open(path, 'rb') as given, open(os.devnull, 'wb') as nothing:
        ran = subprocess.Popen(command, stdin=given, stdout=nothing, stderr=nothing)
        _, status, used = os.wait4(ran.pid, 0)
        ran.returncode = status
    return None if status else used.ru_utime + used.ru_stime


def told(command):
    """The seconds that a command prints, or none where it fails."""
    ran = subprocess.run(command, capture_output=True, text=True)
    try:
        return float(ran.stdout.split()[-1]) / 1000 if ran.returncode == 0 else None
    except (IndexError, ValueError):
        return None


def spider_monkey(room):
    """The program that compiles a text by SpiderMonkey, or none."""
    flags = subprocess.run(['pkg-config', '--cflags', '--libs', 'mozjs-102'], capture_output=True, text=True)
    made = os.path.join(room, 'sm')
    if flags.returncode or not shutil.which('g++'):
        return None
    source = os.path.join(HERE, 'peers.cpp')
    built = subprocess.run(['g++', '-O1', '-std=c++17', '-w', source, '-o', made, *flags.stdout.split()])
    return made if built.returncode == 0 else None


def instructions(program, mode, path, room):
    """Millions of instructions of a run."""
    out = os.path.join(room, 'callgrind.out')
    command = ['valgrind', '--tool=callgrind', '--callgrind-out-file=' + out, program, 'expr', mode]
    with open(path, 'rb') as given:
        ran = subprocess.run(command, stdin=given, capture_output=True, text=True)
    found = re.search(r'Collected : (\d+)', ran.stderr)
    return int(found[1]) / 1e6 if found else None


def least(old, new):
    return new if old is None or new is not None and new < old else old


def fastest(program, sm, mode, path, room):
    """The least seconds of the program and of each peer."""
    node = ['node', '--single-threaded', '--stack-size=60000', '--max-old-space-size=2500', os.path.join(HERE, 'peers.js')]
    wrapped = os.path.join(room, 'wrapped.js')
    subprocess.run([*node[:-1], os.path.join(HERE, 'peers.js'), 'wrap', mode, path, wrapped])
    best = dict.fromkeys(['own', *PEERS])
    for turn in range(TURNS):
        own = run([program, 'expr', mode], path)
        best['own'] = least(best['own'], own)
        for peer in ('acorn', 'v8'):
            best[peer] = least(best[peer], told([*node, peer, mode, path]))
        if sm:
            best['sm'] = least(best['sm'], told([sm, wrapped]))
        if shutil.which('esbuild') and (turn == 0 or best['esbuild']):
            found = run(['timeout', '60', 'esbuild', '--log-level=error', '--loader=js'], wrapped)
            best['esbuild'] = least(best['esbuild'], found)
    return best


def cell(value, form='%.2f'):
    return '-' if value is None else form % value


def main():
    program = os.path.abspath(sys.argv[1] if len(sys.argv) > 1 else os.path.join(HERE, '../crates/show_expr/out/show_expr.by-rattle'))
    os.environ.update(NODE_PATH='/usr/share/nodejs', GOMAXPROCS='1', GOGC='off')
    ratios = {peer: [] for peer in PEERS}
    measure.print_row(WIDTHS, 'text', 'bytes', 'acorn', 'V8', 'SpiderMonkey', 'esbuild', 'twice', 'memory', 'instructions')
    with tempfile.TemporaryDirectory() as room:
        sm, path = spider_monkey(room), os.path.join(room, 'text')
        bare = measure.run([program, 'expr', 'script'], b'a').megabytes
        shorter = dict((name, text) for name, _, text in texts(SHORT))
        halves = dict((name, text) for name, _, text in texts(MB // 2))
        for name, mode, text in texts(MB):
            open(path, 'wb').write(text)
            best = fastest(program, sm, mode, path, room)
            open(path, 'wb').write(halves[name])
            half = min(run([program, 'expr', mode], path) for _ in range(TURNS))
            open(path, 'wb').write(shorter[name])
            count = instructions(program, mode, path, room) if shutil.which('valgrind') else None
            row = [best['own'] / best[peer] if best[peer] and best['own'] else None for peer in PEERS]
            for peer, ratio in zip(PEERS, row):
                ratios[peer] += [ratio] if ratio else []
            spent = (measure.run([program, 'expr', mode], text).megabytes - bare) * (1 << 20) / len(text)
            cells = [cell(ratio) for ratio in row] + [cell(best['own'] and best['own'] / half), cell(spent, '%.0f'), cell(count, '%.1f')]
            measure.print_row(WIDTHS, name, len(text), *cells)
    means = [math.exp(sum(map(math.log, ratios[peer])) / len(ratios[peer])) if ratios[peer] else None for peer in PEERS]
    measure.print_row(WIDTHS, 'geometric mean', '', *map(cell, means))


if __name__ == '__main__':
    main()
