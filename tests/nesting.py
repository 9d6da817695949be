#!/usr/bin/env python3
"""Texts that are nested deeply are refused by `ecma` and by `show_expr`, and crash them in no stack.

    tests/nesting.py [FOLDER]     a folder with other builds of ecma, show_expr and rows, to run in their place

The forms are all ways in which an expression or a pattern can be nested. Each is nested 100,000 deep, closed and cut off in the middle: `ecma format
--expr`, for patterns `ecma outline`, and `show_expr`, whose bound is what the stack has room for, refuse it in 1, 8 and 64 MB of stack. Each is nested as
deeply as that bound allows: then these read it. Then each expression is nested as deeply as `LEVELS` of the crate reporting allows, and `rows` reads it
into boxes, makes a pattern of it where it is one, and drops it, in 8 MB. Prints a line for each run that ended otherwise. Status 1 if there is one.
"""
import os
import re
import resource
import subprocess
import sys
from collections import namedtuple

sys.dont_write_bytecode = True

DEEP = 100_000
STACK = 8 << 20
STACKS = 1 << 20, STACK, 64 << 20
# The statuses of `ecma` and of `show_expr`.
REFUSED, SHOW_REFUSED = 1, 2
TOO_DEEP = b': nested too deeply'

# What is before the form, what opens it, the middle, what closes it, what is after it, and how many levels each takes.
Form = namedtuple('Form', 'before opens middle closes after levels')


def nest(opens, closes='', middle='a', before='', after='', levels=1):
    return Form(before, opens, middle, closes, after, levels)


EXPRS = [
    nest('(', ')'), nest('[', ']'), nest('{a:', '}'), nest('f(', ')'), nest('a[', ']'), nest('`${', '}`'), nest('f`${', '}`'),
    nest('new '), nest('!'), nest('typeof '), nest('++'), nest('await ', before='async () => '), nest('a=>'), nest('a?', ':a'), nest('a?a:'),
    nest('a='), nest('[a]='), nest('[', ']', after=' = 1'), nest('a**(', ')'), nest('({a:', '})', levels=2), nest('([', '])', levels=2),
    nest('[{a:', '}]', levels=2), nest('{[', ']:a}'), nest('{a(b=', '){}}'), nest('(a=', ')=>a', levels=2), nest('[...', ']', '[]'),
    nest('async(', ')'), nest('import(', ')'), nest('a+{a(b=', '){}}'), nest('*a+{a(b=', '){}}'),
]
PATS = [nest('[', ']'), nest('{a:', '}'), nest('[a=', ']', levels=2), nest('{[', ']:a}')]
# These record a fault before they are too deep.
RECORDS = '*a+{a(b='


def text_of(form, depth, is_closed=True):
    middle = form.middle + form.closes * depth + form.after if is_closed else ''
    return form.before + form.opens * depth + middle


def run(command, text, stack=STACK):
    """The status, a negative one after a signal, and what was written."""
    def limit():
        resource.setrlimit(resource.RLIMIT_STACK, (stack, stack))
    ended = subprocess.run(command, input=text.encode(), stdout=subprocess.PIPE, stderr=subprocess.STDOUT, preexec_fn=limit)
    return ended.returncode, ended.stdout.strip()


def program(name):
    path = os.path.join(sys.argv[1], name) if len(sys.argv) > 1 else 'crates/%s/out/%s' % (name, name)
    if not os.access(path, os.X_OK):
        sys.exit('no built program %s: (cd crates/%s && rt run </dev/null) builds it' % (path, name))
    return path


def check_boxes(rows, form, depth):
    """Answers the run, if the form isn't read into boxes so deep."""
    # The hook `hook_records` takes one token for a block.
    closes = form.closes.replace('{}', '{')
    row = '%s~1 %s~%d %s~1 %s~%d %s' % (form.before, form.opens, depth, form.middle, closes, depth, form.after)
    status, written = run([rows], 'long: boxes | script hook_records:\n\n    %s | \n' % row)
    line = written.rpartition(b'\n')[2]
    is_read = status == 0 and line.endswith(b' | whole')
    return [] if is_read else ['%d deep, in boxes: status %d, %s' % (depth, status, line.decode())]


def bound(stack):
    """How many levels the programs allow on a stack."""
    with open('crates/show/src/levels.rt') as source:
        text = source.read()
    at_most = int(re.search(r'const BYTES: usize = ([\d_]+);', text)[1])
    return (stack - (256 << 10)) // at_most


def check(form, ecma, show, wrap):
    """Answers the runs of a form that ended otherwise."""
    wrong = []
    is_told = form.opens != RECORDS
    for stack in STACKS:
        for is_closed in True, False:
            text = text_of(form, DEEP, is_closed)
            status, message = run(ecma, wrap % text, stack)
            if status != REFUSED or is_closed and is_told and TOO_DEEP not in message:
                wrong.append('%d deep, %s, in %d MB: status %d, %s' % (DEEP, ecma[0], stack >> 20, status, message.decode()[:200]))
            status, message = run(show, text, stack)
            if status != SHOW_REFUSED:
                wrong.append('%d deep, %s, in %d MB: status %d, %s' % (DEEP, show[0], stack >> 20, status, message.decode()[:200]))
        depth = bound(stack) // form.levels - 4
        text = text_of(form, depth)
        for command, text in (ecma, wrap % text), (show, text):
            status, message = run(command, text, stack)
            if status not in (0, 1) or TOO_DEEP in message:
                wrong.append('%d deep, %s, in %d MB: status %d, %s' % (depth, command[0], stack >> 20, status, message.decode()[:200]))
    return wrong


def main():
    os.chdir(os.path.join(os.path.dirname(os.path.abspath(__file__)), '..'))
    with open('crates/reporting/src/lib.rt') as source:
        levels = int(re.search(r'const LEVELS: usize = ([\d_]+);', source.read())[1])
    ecma, show, rows = program('ecma'), program('show_expr'), program('rows')
    wrong = []
    for form in EXPRS:
        wrong += check(form, [ecma, 'format', '--expr'], [show, 'expr', 'script'], '%s')
        wrong += check_boxes(rows, form, levels // form.levels - 2)
    for form in PATS:
        wrong += check(form, [ecma, 'outline'], [show, 'pat', 'script'], 'var %s = 0')
    print('\n'.join(wrong + ['%d forms; %d runs ended otherwise' % (len(EXPRS + PATS), len(wrong))]))
    return 1 if wrong else 0


if __name__ == '__main__':
    sys.exit(main())
