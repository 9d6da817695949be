#!/usr/bin/env python3
"""Sends the messages of tests/lsp.txt to `ecma lsp`, and compares what it answers.

    tests/lsp.py            compares; status 1 if an answer is another one
    tests/lsp.py --write    writes the answers into the file: to be read before they are kept

In the file `>` begins a message, as JSON in a line; `>>` bytes as they are sent, as a JSON text; `>+` a message that is sent together with the next one; `<` is
an answer; `=` the status in the end, before which the input ends. Lines with `#` are notes. `jsonrpc` is left out of all. The program is the one that
`./ecma` runs.
"""
import json
import os
import selectors
import subprocess
import sys
from pathlib import Path

TOP = Path(__file__).parent.parent
FILE = TOP / 'tests/lsp.txt'
# So long an answer is waited for, and so long there has to be silence after the last.
LONGEST, SILENCE = 20, 0.4


class Server:
    """The server, and the bytes that it wrote."""

    def __init__(self, program):
        self.process = subprocess.Popen(program, stdin=subprocess.PIPE, stdout=subprocess.PIPE)
        self.bytes = b''
        self.selector = selectors.DefaultSelector()
        self.selector.register(self.process.stdout, selectors.EVENT_READ)

    def send(self, data):
        self.process.stdin.write(data)
        self.process.stdin.flush()

    def message(self, seconds):
        """The next message; none after so many seconds."""
        while True:
            head, mark, rest = self.bytes.partition(b'\r\n\r\n')
            if mark:
                length = int(head.split(b':')[1])
                if len(rest) >= length:
                    self.bytes = rest[length:]
                    return json.loads(rest[:length])
            if not self.selector.select(seconds):
                return None
            more = os.read(self.process.stdout.fileno(), 1 << 16)
            if not more:
                return None
            self.bytes += more

    def end(self):
        self.process.stdin.close()
        return self.process.wait(LONGEST)


def framed(text):
    data = json.dumps({'jsonrpc': '2.0', **json.loads(text)}, ensure_ascii=False).encode()
    return b'Content-Length: %d\r\n\r\n%s' % (len(data), data)


def shown(message):
    message.pop('jsonrpc', None)
    return '< ' + json.dumps(message, ensure_ascii=False, sort_keys=True)


def answers(server, wanted):
    """The answers that come: as many as are wanted, or, where that isn't known, until there is silence."""
    found = []
    while wanted is None or len(found) < wanted:
        message = server.message(SILENCE if wanted is None else LONGEST)
        if message is None:
            break
        found.append(shown(message))
    return found


def groups(lines):
    """The lines that are sent, each with those that are expected after it."""
    group = None
    for line in lines:
        if line.startswith(('>', '=', '#')) or not line.strip():
            if group:
                yield group
            group = (line, [])
        else:
            group[1].append(line)
    if group:
        yield group


def run(program, lines, writes):
    """The lines with the answers in place of those that are expected."""
    server = Server(program)
    out, kept = [], b''
    for line, expected in groups(lines):
        out.append(line)
        kind, _, rest = line.partition(' ')
        if kind == '=':
            out[-1] = f'= {server.end()}'
            continue
        if not kind.startswith('>'):
            continue
        kept += json.loads(rest).encode() if kind == '>>' else framed(rest)
        if kind == '>+':
            continue
        server.send(kept)
        kept = b''
        out.extend(answers(server, None if writes else len(expected)))
    return out


def main():
    program = [os.environ.get('ECMA', str(TOP / 'ecma')), 'lsp']
    lines = FILE.read_text(encoding='utf-8').splitlines()
    writes = sys.argv[1:] == ['--write']
    found = run(program, lines, writes)
    if writes:
        FILE.write_text('\n'.join(found) + '\n', encoding='utf-8')
        return 0
    wrong = [(line, now) for line, now in zip(lines, found) if line != now]
    for line, now in wrong[:10]:
        print(f'- {line}\n+ {now}')
    sent = sum(line.startswith('>') for line in lines)
    print(f'tests/lsp.txt: {sent} messages, {len(wrong) + abs(len(lines) - len(found))} answers are others')
    return 1 if wrong or len(lines) != len(found) else 0


if __name__ == '__main__':
    sys.exit(main())
