#!/usr/bin/env python3
"""Looks that the lexer returns on any bytes: each text is read, or refused with a fault at a place of it.

    tests/lexed.py ROWS

ROWS is a built program `rows`, proved or not (tests/unproved.sh rows). It is given 100,000 byte strings, the same on each run: random bytes, bytes
that matter to a lexer, and pieces of programs; of these, bytes that are no UTF-8 are refused at the first such byte, as Python says. And it is given
each beginning of 50 texts: those of tests/program_texts.py, and the longest of crates/rows/data. Status 0 if all return, in batches of a second or so.
"""
import os
import random
import re
import subprocess
import sys
from multiprocessing import Pool

sys.dont_write_bytecode = True
import program_texts
import rows

COUNT = 100_000
BATCH = 2_000
TEXTS = 50

BYTES = b'ab09_$ef.nxuOX\'"`\\/*[](){}<>=+-!?:;,#@~%^&| \t\n\r\x0b\xc3\xa9\xe2\x80\xa8\xf0\x9d\x92\x9c\xef\xbb\xbf\x00\xff'
PIECES = (r'a if ( ) { } [ ] ; , . ?. ? : => / /= /a/ /[/]/g // /* */ * ** + ++ -- - ! = == ` ${ ` "s" \'t\' " \' \\ \u0041 \u{41} \u{110000} \x4 \8 \08 #a # '
          r'0x1f 0b 0o7 1_0 1__0 09.5 1e 1e+5 1n .5 ... async await yield function class var let const for of in return typeof import export default '
          r'case switch break #! <!-- --> @ é 𝒜 \u2028 return throw do while try new this').split() + ['\n', '\r', '\r\n', ' ', '\u2028', '\ufeff']
PLACED = re.compile(r'refused: (\w+) (\d+)\.\.(\d+)')


def random_texts():
    chance = random.Random(58)
    for number in range(COUNT):
        if number % 3 == 0:
            yield chance.randbytes(chance.randrange(1, 24))
        elif number % 3 == 1:
            yield bytes(chance.choices(BYTES, k=chance.randrange(1, 48)))
        else:
            yield ''.join(chance.choices(PIECES, k=chance.randrange(1, 24))).encode()


def texts_to_cut():
    found = [program_texts.text_of(program, 1500) for program in program_texts.PROGRAMS]
    kept = {rows.unescaped(row.text).encode() for name in ('program.rows', 'calls.rows', 'long.rows') for row in rows.read(name)}
    kept |= {part.split('----\n')[0].encode() for part in (rows.DATA / 'programs.trees').read_text().split('====\n')[1:]}
    return found + sorted((text for text in kept if len(text) < 1500), key=lambda text: (-len(text), text))[:TEXTS - len(found)]


def beginnings():
    for text in texts_to_cut():
        for end in range(1, len(text) + 1):
            yield text[:end]


def written(text):
    """The text as a row has it: but for letters and digits, each byte by its number."""
    return ''.join(chr(byte) if chr(byte).isalnum() and byte < 128 else '\\%02x' % byte for byte in text)


def is_answer(text, answer):
    """Whether the answer is tokens, or a fault at a place of the text; of bytes that are no UTF-8, at the first of them."""
    try:
        text.decode()
        bad = None
    except UnicodeDecodeError as error:
        bad = error.start
    placed = PLACED.fullmatch(answer)
    if placed is None:
        return bad is None and bool(answer) and not answer.startswith('refused')
    kind, lo, hi = placed[1], int(placed[2]), int(placed[3])
    return lo <= hi <= len(text) and kind != 'OutOfMemory' and (kind == 'InvalidUtf8') == (bad is not None) and bad in (None, lo)


def answers(calls, texts):
    """What the program answers, a line for each text; up to the last that it read, where it ended otherwise than with 0."""
    given = 'lexed: %s | module:\n\n' % calls + ''.join('    %s | \n' % written(text) for text in texts)
    ended = subprocess.run([program], input=given.encode(), capture_output=True, timeout=300)
    lines = [line.split(' | ', 1)[1] for line in ended.stdout.decode().split('\n')[2:] if line]
    return ended.returncode, lines


def first_wrong(batch):
    """The first text of a batch that isn't answered so, or none."""
    calls, texts = batch
    status, found = answers(calls, texts)
    wrong = (text for text, answer in zip(texts, found) if not is_answer(text, answer))
    return next(wrong, None if status == 0 and len(found) == len(texts) else texts[min(len(found), len(texts)) - 1])


def batches(calls, texts, size):
    texts = list(texts)
    return [(calls, texts[at:at + size]) for at in range(0, len(texts), size)]


def begin(path):
    global program
    program = path


def main():
    all_batches = batches('tokens', random_texts(), BATCH) + batches('regexps', beginnings(), BATCH)
    with Pool(os.cpu_count(), begin, sys.argv[1:2]) as pool:
        for wrong in pool.imap_unordered(first_wrong, all_batches):
            if wrong is not None:
                print('not answered as it must be: %r' % wrong)
                return 1
    print('%d texts, each read or refused' % sum(len(texts) for _, texts in all_batches))
    return 0


if __name__ == '__main__':
    sys.exit(main())
