#!/usr/bin/env python3
"""Tries the programs of tests/early_error_rules.txt, which break the rules of ECMA-262 for early errors, or nearly do.

    tests/early_error_rules.py [--v8 | --write] [PROGRAM]

The program is the proved `ecma`, where `rt ci` leaves it, or the one that is named. Each program that breaks a rule must be refused by `ecma check`, and no
other one. --v8 asks node in its place. --write writes the table of TESTS.md anew; without it that table must be as it would be written. Prints each program
that isn't judged as it is written, and each rule without both kinds of programs; status 1 if there are any.
"""
import json
import os
import re
import subprocess
import sys
import tempfile

TOP = os.path.dirname(os.path.dirname(os.path.abspath(__file__)))
RULES = os.path.join(TOP, 'tests', 'early_error_rules.txt')
TABLE = os.path.join(TOP, 'docs', 'TESTS.md')
MARKS = ('<!-- early errors -->\n', '<!-- /early errors -->\n')
# What the V8 of node 20 judges otherwise: a call that is assigned to is an error when the program runs, what a class extends may have old octals, and it
# knows neither groups of one name in different alternatives nor groups that change flags yet.
APART_IN_V8 = ('a()++;', 'a() = b;', 'for (a() of b);', 'class A extends (010) {}', '/(?<a>b)|(?<a>c)/;', '/(?i-m:a)/;')
V8 = """
const vm = require('vm');
const texts = JSON.parse(require('fs').readFileSync(0, 'utf8'));
const refuses = ([goal, text]) => {
    try {
        if (goal === 'module') new vm.SourceTextModule(text);
        else new vm.Script(text);
        return false;
    } catch (error) {
        return true;
    }
};
console.log(JSON.stringify(texts.map(refuses)));
"""


def clauses():
    """The clauses, each with its rules, and of each rule its text and programs: whether one breaks it, its goal and its text."""
    found = []
    for line in open(RULES, encoding='utf-8'):
        line = line.rstrip('\n')
        if re.match(r'[\dB][\d.]*\.\d+ ', line):
            found.append((line, []))
        elif line.startswith('- '):
            found[-1][1].append((line[2:], []))
        elif row := re.fullmatch(r'    ([!=]) (script|module) \| (.*)', line):
            found[-1][1][-1][1].append((row[1] == '!', row[2], row[3].replace('⏎', '\n')))
        elif line.startswith(' '):
            sys.exit(f'{RULES}: what is this line? {line}')
    return found


def refused_by_ecma(program, texts):
    """Whether each text is refused."""
    with tempfile.TemporaryDirectory() as folder:
        refused = [False] * len(texts)
        for goal in ('script', 'module'):
            names = []
            for number, (own, text) in enumerate(texts):
                if own == goal:
                    names.append(f'{number}.js')
                    with open(os.path.join(folder, names[-1]), 'w', encoding='utf-8') as file:
                        file.write(text + '\n')
            run = subprocess.run([program, 'check', '--json', f'--{goal}', *names], cwd=folder, capture_output=True, text=True)
            for line in run.stdout.splitlines():
                told = json.loads(line)
                refused[int(told['file'].split('.')[0])] = True
            if run.returncode not in (0, 1):
                sys.exit(f'{program}: status {run.returncode}: {run.stderr}')
    return refused


def refused_by_v8(texts):
    run = subprocess.run(['node', '--experimental-vm-modules', '--no-warnings', '-e', V8], input=json.dumps(texts), capture_output=True, text=True, check=True)
    return json.loads(run.stdout)


def table(found):
    """The table: of each clause how many rules and programs it has."""
    lines = ['| clause | rules | programs that break one | that nearly do |', '|---|---|---|---|']
    for clause, rules in found:
        programs = [row for _, rows in rules for row in rows]
        breaking = sum(breaks for breaks, _, _ in programs)
        lines.append(f'| {clause} | {len(rules)} | {breaking} | {len(programs) - breaking} |')
    return '\n'.join(lines) + '\n'


def main():
    arguments = sys.argv[1:]
    found = clauses()
    faults = [
        f'{clause}: {rule}: a program that {"breaks it" if kind else "nearly does"} is missing'
        for clause, rules in found
        for rule, rows in rules
        for kind in (True, False)
        if not any(breaks == kind for breaks, _, _ in rows)
    ]
    rows = [(clause, rule, *row) for clause, rules in found for rule, programs in rules for row in programs]
    texts = [(goal, text) for _, _, _, goal, text in rows]
    if '--v8' in arguments:
        refused = refused_by_v8(texts)
    else:
        named = [argument for argument in arguments if not argument.startswith('--')]
        program = os.path.abspath(named[0] if named else os.path.join(TOP, 'crates/ecma/out/ecma'))
        refused = refused_by_ecma(program, texts)
    for (clause, rule, breaks, goal, text), is_refused in zip(rows, refused):
        if breaks != is_refused and not ('--v8' in arguments and text in APART_IN_V8):
            shown = text.replace('\n', '⏎')
            faults.append(f'{clause}: {rule}: {goal} | {shown} | {"refused" if is_refused else "taken"}')
    page = open(TABLE, encoding='utf-8').read()
    before, rest = page.split(MARKS[0])
    after = rest.split(MARKS[1])[1]
    written = before + MARKS[0] + table(found) + MARKS[1] + after
    if '--write' in arguments:
        open(TABLE, 'w', encoding='utf-8').write(written)
    elif written != page:
        faults.append('docs/TESTS.md: the table of early errors is old; tests/early_error_rules.py --write writes it anew')
    print('\n'.join(faults + [f'{sum(len(rules) for _, rules in found)} rules, {len(rows)} programs, {len(faults)} not as they are written']))
    return 1 if faults else 0


sys.exit(main())
