#!/usr/bin/env python3
"""Refuses each request for memory of each row in turn, and looks at what is answered then.

    tests/refusing.py LIBRARY ROWS SHOW_EXPR

LIBRARY is tests/refuse.c, compiled. The rows are those of crates/rows/data (docs/TESTS.md): runs of the program SHOW_EXPR (program.rows), and
calls of a parser, which `ROWS calls` makes. A row is run with no request refused, which has to be as the row says where it says so; and then
with its first request refused, with its second, and so on, until a run meets no refusal.

Until one such run has come as far as the calls, `ROWS calls` writes nothing and ends with 3. From then on each call answers what it answers
with no request refused, up to one that is refused as `OutOfMemory`. The faults that are recorded then are a beginning of those of the row, a
second `take_errors` hands out none, each parsing call after it and `at_end` are refused as `ParserFailed`, and each call leaves the context
that it found. What a call hands out may itself need memory to be printed, and a call that answers no fault may need memory too (`set_ctx`,
`try_clone`): then `no memory` is written, and the calls after it answer what they answer with no request refused.

The rows of hostile.rows, and those below, are called once as they are, and once by numbers of nodes, where there is such a call, over a source
that keeps its tokens. A row on which such a source is called itself (`next`) answers, a line for each token, what is kept, and then whether
the source failed: up to there the lines are those of the row.

A row of a hook (hooks.rows) is called in boxes and by numbers, over a source that keeps nothing. Left out are hooks that make their source
fail, for which out of memory is the row's own answer. On a source that gives slashes (calls.rows and kept.rows) an expression is read while
its tokens are kept, and again of these by another parser, and the calls after it are made on both. Where the first parser read all there was,
with no fault recorded, both answer the same; where it was out of memory, the other one reads what was kept until then, and needs none.

A row of lexed.rows that has tokens or comments answers what it says, or is refused as `OutOfMemory` at 0..0.

A row of texts.rows, whose tokens are read as the parser asks for them, is refused as `OutOfMemory` with each request, and the faults that are
recorded then are a beginning of those of the row; or it is read as the row says, and `no memory` is written in place of its tree. It answers
what it answers with no request refused only where a body is in it, whose list of tokens is made no longer than they are, if there is memory.

Runs of SHOW_EXPR end with 3 and the usage, up to one that can't read standard input, which says that and ends with 3 too; then with 2 and
`refused: OutOfMemory`, after which the recorded faults are a beginning of those of the row, or as the row says.

Status 0 if all of that holds.
"""
import os
import re
import subprocess
import sys
from collections import namedtuple
from multiprocessing import Pool

sys.dont_write_bytecode = True
import rows
from rows import unescaped

# Calls, a setting and a text, as in a row.
ROWS = r'''parse_expr | script | -a ** b
verify_expr | script | [{a = 1}]
verify_expr | script | [{a = 1}, () => ({b = 2}), {m(p = {c = 3}) {}}]
parse_ident(true, true) | script | enum
parse_binding_ident; set_ctx | generator | yield
parse_expr; set_ctx | script | new let
next | kept | `${a}`
next | kept | (@0..1 a@1..1 [@1..3
next | kept | a/@0..1 /a/@0..3
next | kept | a b c d e f g
parse_expr; copy_errors | module | let
copy_refusal | script | f(...)
copy_refusal | script | ({m() {}}) => 1
try_clone | script | a if 1 'b' `c` /d/e 2n
try_clone | script | E(Lex)@0..1 a@1..2
parse_expr | script | a/@0..1 /a/@0..3
parse_expr | script | `\u`
parse_expr | script no_early_errors | +@0..1 E(Lex)@2..3
parse_expr | script no_early_errors | (a.b) => c
parse_expr | module no_early_errors | let
parse_expr | module ignore_error | let
parse_expr | script | /a/g.test(b)
parse_formal_params | script | 
parse_unique_formal_params | script | a )
parse_paren_items_as_params | script | (a)
parse_paren_items_as_params | script | (a, ...[b, {c: d = 1}])
reparse_expr_as_pat | script | a
reparse_expr_as_pat | script | [a, {b: [c] = d, ...e}, ...f]
reparse_expr_as_pat_id | script | a
reparse_expr_as_pat_id | script | [a, {b: [c] = d, ...e}, ...f]
make_object | script | a }
make_pattern | script | a }
parse_tpl(false) | script | `x`
parse_tpl(false) | script | `x${a}y${b + c}z`
parse_prop_name | script | [a + b]
parse_lit | script | 'a'
parse_module_export_name | script | 'a'
parse_module_export_name | script | 
parse_maybe_private_name | script | #a
parse_for_head(false) | script | [a, {b}] of c
parse_for_head(false) | script | a + b; c'''

# Texts with faults beside a tree, which are read in the settings that record none, too.
FAULTY = ['{a = 1}', '[a, -b ** c]', 'f(a, ...)', '(a.b, [c]) => d', '({get a(b) {}, a: * })', '`\\u${a}`', 'new a?.b(c)', 'delete let', '() => {} + * a',
          'a + * b - (c, )']
SILENT = ['script ignore_error', 'script no_early_errors']

# Texts that are cut after a token.
CUT = ['', '(', '(a', '(a,', '(a, [', '(a, [b', '(a, [b]', '(a, [b],', '(a, [b], {', '(a, [b], {c', '(a, [b], {c =', '(a, [b], {c = 1',
       '(a, [b], {c = 1}', '(a, [b], {c = 1})', '(a, [b], {c = 1}) =>', 'a', 'a?', 'a?.', 'a?.b', 'a?.b.']

# 200 times round or before one name.
NESTED = ['(' * 200 + 'a' + ')' * 200, '[' * 200 + 'a' + ']' * 200, 'x => ' * 200 + 'a', 'a ? a : ' * 200 + 'a']

BY_NUMBER = {'parse_expr': 'parse_expr_id', 'parse_pat': 'parse_pat_id', 'parse_formal_params': 'parse_formal_params_id',
             'parse_arrow_params': 'parse_arrow_params_id'}
IN_BOXES = {number: call for call, number in BY_NUMBER.items()}

# The calls after those of a row, of which each has one of `take_errors` after it.
AFTERWARDS = ['take_errors', 'parse_expr', 'parse_pat', 'at_end']

# The files of calls with what they answer, and the calls whose answers are written here as there.
ANSWERS = ['calls.rows', 'patterns.rows', 'arrows.rows', 'heads.rows', 'left_hand.rows']
WRITTEN_SO = ['parse_expr', 'parse_assignment_expr', 'parse_bin_expr', 'parse_unary_expr', 'parse_for_head_prefix', 'parse_pat',
              'parse_binding_pat_or_ident', 'parse_binding_element']
# What the hook reads, which is another one there.
HOOKED = re.compile(r'function|class|\) (=> )?{')
# The calls of a row that reads an expression over a source that gives slashes.
SLASHES = re.compile(r'(kept: )?parse_expr(; (take; )?kept)?')

SAID = b'a request was refused\n'
USAGE = 'usage: '
UNREADABLE = 'cannot read standard input\n'
WANTED = re.compile(r'refused: OutOfMemory \d+\.\.\d+')
LEXED_REFUSED = 'refused: OutOfMemory 0..0\n'
FAILED = re.compile(r'refused: ParserFailed \d+\.\.\d+')
WANTS = re.compile(r'OutOfMemory|ParserFailed|no memory')
PLACE = r' \d+\.\.\d+'

Row = namedtuple('Row', 'line command text calls says')
Run = namedtuple('Run', 'status output said was_refused')


def program_rows(show_expr):
    for row in rows.read('program.rows'):
        if row.calls == 'program: runs' and not row.answers[0].startswith('stderr: '):
            said = {'': row.answers, **{' ' + manner: said.split(' | ') for manner, said in row.others.items()}}
            for manner, (*lines, status) in said.items():
                command = [show_expr, *(row.setting + manner).split()]
                yield Row(line_of(row), command, unescaped(row.text), None, (int(status), ''.join(line + '\n' for line in lines)))


def line_of(row):
    return ' | '.join(row[:3])


def answers_of_calls():
    """What the rows say of one call alone: the lines of its answer and of the faults recorded."""
    said = {}
    for row in (row for name in ANSWERS for row in rows.read(name)):
        if row.calls in WRITTEN_SO and not HOOKED.search(row.text):
            said[line_of(row)] = [re.escape(row.answers[0]), faults_line(row)]
    return said


def faults_line(row):
    """The pattern of the line of the row's faults, which commas part there."""
    return ''.join(re.escape(faults.replace(', ', ';')) + ';' for faults in row.answers[1:])


def calls_of(program, line, setting, calls, text, says):
    if calls[0] not in ('next', 'try_clone'):
        calls = [each for call in calls for each in (call, 'take_errors')] + AFTERWARDS
    return Row(line, [program, 'calls'], '%s\n%s\n%s' % (setting, '; '.join(calls), unescaped(text)), calls, says)


def call_rows(program):
    lines = [line_of(row).removeprefix('hostile: ') for row in rows.read('hostile.rows')] + ROWS.split('\n')
    lines += ['parse_expr | script | ' + text for text in CUT + NESTED]
    lines += ['parse_expr | %s | %s' % (setting, text) for setting in SILENT for text in FAULTY]
    said = answers_of_calls()
    for line in dict.fromkeys(lines):
        calls, setting, text = line.split(' | ')
        calls = calls.split('; ')
        yield calls_of(program, line, setting, calls, text, said.get(line))
        if setting != 'kept' and calls != ['try_clone']:
            yield calls_of(program, line, 'kept ' + setting, [BY_NUMBER.get(call, call) for call in calls], text, said.get(line))


def hook_rows(program):
    for row in rows.read('hooks.rows'):
        _, hook, calls = row.calls.split(': ')
        if hook.startswith('FailAt'):
            continue
        calls = calls.split('; ')
        faults = faults_line(row) if len(calls) == 1 else '.*'
        says = [each for tree in row.answers[0].split('; ') for each in (tree_line(tree), faults)]
        for made in (calls, [IN_BOXES[call] for call in calls]):
            yield calls_of(program, line_of(row), '%s with %s' % (row.setting, hook), made, row.text, says)


def tree_line(answer):
    """The pattern of the line of this answer, which a row has without a tree's place."""
    return re.escape(answer) + ('' if answer.startswith('refused') else PLACE)


def slash_rows(program):
    """Expressions over a source that gives slashes, which the program reads before the first call. It looks for a token after each, too."""
    calls = ['take_errors'] + AFTERWARDS
    for row in rows.read('calls.rows') + rows.read('kept.rows'):
        if SLASHES.fullmatch(row.calls) and row.setting.endswith(' slashes'):
            says = [re.escape(row.answers[0].split('; ')[0]), str(row.left == 'end').lower(), faults_line(row)]
            text = '%s\n%s\n%s' % (row.setting, '; '.join(calls), unescaped(row.text))
            yield Row(line_of(row), [program, 'calls'], text, ['parse_expr', 'at_end'] + calls, says)


def lexed_rows(program):
    for row in rows.read('lexed.rows'):
        if row.calls in ('lexed: tokens', 'lexed: comments'):
            text = '%s\n%s\n%s' % (row.setting, row.calls, row.text)
            yield Row(line_of(row), [program, 'calls'], text, [row.calls], [re.escape(' | '.join(row.answers))])


def text_rows(program):
    """Texts whose tokens are read as a parser asks for them."""
    for row in rows.read('texts.rows'):
        text = '%s\n%s\n%s' % (row.setting, row.calls, unescaped(row.text))
        yield Row(line_of(row), [program, 'calls'], text, [row.calls], [re.escape(' | '.join(row.answers))])


def run(row, number):
    """Runs the row with the request of that number refused, or none."""
    env = {'LD_PRELOAD': library, 'REFUSE': str(number)} if number else {}
    ended = subprocess.run(row.command, input=row.text.encode(), capture_output=True, env=env, timeout=60)
    said = ended.stderr.replace(SAID, b'').decode()
    return Run(ended.returncode, ended.stdout.decode(), said, SAID in ended.stderr)


def is_said(row, whole):
    """Whether a run with no request refused is as the row says, where it says so."""
    if not row.calls:
        return (whole.status, whole.output) == row.says and not whole.said
    lines = whole.output.split('\n')
    is_read_so = all(map(re.fullmatch, row.says or [], lines)) and is_read_again(lines, len(row.calls))
    return whole.status == 0 and not whole.said and is_read_so


def is_read_again(lines, count):
    """Whether a second parser answers the same, of which the lines after that number are, where the first one read all, with no fault."""
    first, again = lines[:count], lines[count:-1]
    is_clean = not first[0].startswith('refused') and first[1:3] == ['true', '']
    return not again or not is_clean or first == again


def is_beginning(faults, whole):
    return whole[:len(faults)] == faults


def fault_lines(run):
    """The lines of the faults that were recorded."""
    lines = run.output.splitlines()[1:]
    return lines[1:] if lines[:1] == ['unread'] else lines


def stage_of_program(row, whole, run):
    """How far a run of the program came: 0 to its arguments, 1 to standard input, 2 past it. None if it isn't as it must be."""
    if run.status == 3 and not run.output:
        return 0 if run.said.startswith(USAGE) else 1 if run.said == UNREADABLE else None
    if run.said:
        return None
    lines = run.output.splitlines()
    if run.status == 2 and lines and WANTED.fullmatch(lines[0]):
        return 2 if is_beginning(lines[1:], fault_lines(whole)) else None
    return 2 if run == whole._replace(was_refused=run.was_refused) else None


def is_afterwards(call, found, wanted, has_failed):
    """Whether a call answers as it must after one that was out of memory."""
    if call in ('take_errors', 'copy_errors'):
        return is_beginning(found.split(';')[:-1], wanted.split(';')[:-1])
    if has_failed and call != 'set_ctx':
        return bool(FAILED.fullmatch(found))
    return found == wanted


def stage_of_calls(row, whole, run):
    """How far a run of calls came: 0 before them, 1 to them. None if it isn't as it must be."""
    if run.said or run.status not in (0, 3):
        return None
    if run.status == 3:
        return None if run.output else 0
    if row.calls[0].startswith('lexed: '):
        return 1 if run.output in (whole.output, LEXED_REFUSED) else None
    if row.calls[0].startswith('text: '):
        is_kept_long = run.output == whole.output and '}' in row.text
        return 1 if is_kept_long or is_text_out_of_memory(run.output, whole.output) else None
    if row.calls == ['next'] and run.output.endswith('true\n'):
        return 1 if whole.output.startswith(run.output[:-len('true\n')]) else None
    found, wanted = run.output.split('\n'), whole.output.split('\n')
    if len(found) != len(wanted):
        return None
    count = len(row.calls)
    first, again = found[:count], found[count:]
    if not are_as_wanted(row.calls, first, wanted[:count]):
        return None
    if any(map(WANTED.fullmatch, first)):
        return None if any(map(WANTS.search, again)) else 1
    return 1 if are_as_wanted(row.calls, again, wanted[count:]) else None


def is_text_out_of_memory(found, wanted):
    """Whether a row of a text is refused, after a beginning of its faults, or is what is wanted but for its tree."""
    (tree, *faults), (_, *rest) = (line.rstrip('\n').split(' | ') for line in (found, wanted))
    if not WANTED.fullmatch(tree):
        return tree == 'no memory' and faults == rest
    return not faults or bool(rest) and is_beginning(faults[0].split(', '), rest[0].split(', '))


def are_as_wanted(calls, found, wanted):
    """Whether the lines of a parser are the wanted ones, up to one that is out of memory, and after it as they must be."""
    at = next((at for at, line in enumerate(found) if line != wanted[at]), len(found))
    if at == len(found):
        return True
    has_failed = bool(WANTED.fullmatch(found[at]))
    if not has_failed and not is_part(found[at], wanted[at]):
        return False
    return all(is_afterwards(calls[it], found[it], wanted[it], has_failed) for it in range(at + 1, len(calls)))


def is_part(found, wanted):
    """Whether an answer is the wanted one, but for parts in whose place it has `no memory`."""
    return bool(re.fullmatch('.*'.join(map(re.escape, found.split('no memory'))), wanted))


def refuse_each(row):
    """Runs the row, and answers how many requests were refused, how many of these before the first call, and how many in runs that answer as
    with none refused; and the first run that isn't as it must be, or none."""
    whole = run(row, 0)
    if not is_said(row, whole):
        return 0, 0, 0, (row.line, 0, whole)
    stage_of = stage_of_calls if row.calls else stage_of_program
    number = stage = early = unchanged = 0
    while True:
        found = run(row, number + 1)
        if not found.was_refused:
            return number, early, unchanged, None if found == whole else (row.line, number + 1, found)
        reached = stage_of(row, whole, found)
        number += 1
        if reached is None or reached < stage:
            return number, early, unchanged, (row.line, number, found)
        stage, early, unchanged = reached, early + (found.status == 3), unchanged + (found.output == whole.output)


def begin(path):
    global library
    library = path


def main():
    path, program, show_expr = sys.argv[1:]
    all_rows = [*program_rows(show_expr), *call_rows(program), *hook_rows(program), *slash_rows(program), *lexed_rows(program), *text_rows(program)]
    counts = [0, 0, 0]
    with Pool(os.cpu_count(), begin, [path]) as pool:
        for *some, wrong in pool.imap_unordered(refuse_each, all_rows, 4):
            counts = [one + more for one, more in zip(counts, some)]
            if wrong:
                print('%s\n  with request %d refused (0: none): %s' % wrong)
                return 1
    runs = counts[0] + 2 * len(all_rows)
    print('%d rows, %d runs, %d requests refused: %d before the first call, %d that change no answer' % (len(all_rows), runs, *counts))
    return 0


if __name__ == '__main__':
    sys.exit(main())
