#!/usr/bin/env python3
"""Sends damaged messages to `ecma lsp`, and sees that it still answers. Run by hand.

    tests/lsp_fuzz.py PROGRAM [COUNT [SEED]]

The messages are those of tests/lsp.txt; of each some bytes are others, left out or doubled, in its header or its JSON, but for its length. After each 100 a
request has to be answered. Prints how many were sent, and how much memory the server had after the first tenth and in the end.
"""
import json
import random
import sys
from pathlib import Path

from lsp import FILE, Server, framed


def damaged(text, generator):
    """A message with a few bytes changed."""
    data = bytearray(json.dumps({'jsonrpc': '2.0', **json.loads(text)}, ensure_ascii=False).encode())
    for _ in range(generator.randrange(4)):
        at = generator.randrange(len(data) + 1)
        way = generator.randrange(4)
        if way == 0:
            data[at:at + 1] = bytes([generator.randrange(256)])
        elif way == 1:
            del data[at:at + generator.randrange(9)]
        elif way == 2:
            data[at:at] = data[at:at + generator.randrange(30)]
        else:
            data[at:at] = generator.choice([b'{', b'[', b'"', b'-1', b'1e99', b'null', b'\\ud800', b'9' * 30, b'[' * 200])
    head = b'Content-Length: %d\r\n' % len(data)
    if generator.random() < 0.05:
        head = generator.choice([b'Content-Length: x\r\n', b'Length\r\n', b'\xff\xfe: 1\r\n', b'content-LENGTH:  %d \r\nA: b\r\n' % len(data)])
    return head + b'\r\n' + data


def memory(server):
    status = Path('/proc/%d/status' % server.process.pid).read_text()
    return next(int(line.split()[1]) for line in status.splitlines() if line.startswith('VmRSS'))


def main():
    count = int(sys.argv[2]) if len(sys.argv) > 2 else 10000
    generator = random.Random(int(sys.argv[3]) if len(sys.argv) > 3 else 1)
    texts = [line.partition(' ')[2] for line in FILE.read_text(encoding='utf-8').splitlines() if line.startswith(('> ', '>+ '))]
    texts = [text for text in texts if json.loads(text).get('method') not in ('shutdown', 'exit', 'initialize')]
    server = Server([sys.argv[1], 'lsp'])
    server.send(framed('{"id": 0, "method": "initialize", "params": {}}'))
    first = 0
    for number in range(count):
        server.send(damaged(generator.choice(texts), generator))
        if number % 100 == 99:
            server.send(framed('{"id": "asked %d", "method": "textDocument/hover", "params": {}}' % number))
            while True:
                answer = server.message(30)
                if answer is None:
                    print('no answer after %d messages; status %s' % (number + 1, server.process.poll()))
                    return 1
                if answer.get('id') == 'asked %d' % number:
                    break
        if number == count // 10:
            first = memory(server)
    print('%d messages; memory %d kB after a tenth, %d kB in the end' % (count, first, memory(server)))
    server.send(framed('{"id": 1, "method": "shutdown"}') + framed('{"method": "exit"}'))
    return server.end()


if __name__ == '__main__':
    sys.exit(main())
