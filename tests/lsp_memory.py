#!/usr/bin/env python3
"""Changes a document a thousand times in `ecma lsp`, and says how much memory the server takes. Run by hand.

    tests/lsp_memory.py PROGRAM FILE

Prints how much it takes after ten changes and after a thousand, and how long the answer to a change takes in the middle. Status 1 if it takes more than a tenth more in the end.
"""
import json
import statistics
import sys
import time
from pathlib import Path

sys.dont_write_bytecode = True
from lsp import Server, framed

URI = 'file:///a.js'
COUNT = 1000


def send(server, method, params, **rest):
    server.send(framed(json.dumps({'method': method, 'params': params, **rest})))


def memory(server):
    """The resident memory of the server, in kB."""
    status = Path('/proc/%d/status' % server.process.pid).read_text()
    return int(next(line.split()[1] for line in status.splitlines() if line.startswith('VmRSS')))


def main():
    server = Server([sys.argv[1], 'lsp'])
    text = Path(sys.argv[2]).read_text(encoding='utf-8')
    send(server, 'initialize', {'capabilities': {}}, id=1)
    server.message(20)
    send(server, 'textDocument/didOpen', {'textDocument': {'uri': URI, 'languageId': 'javascript', 'version': 0, 'text': text}})
    server.message(60)
    times, after_ten = [], 0
    for version in range(1, COUNT + 1):
        start = {'line': 0, 'character': 0}
        end = {'line': 0, 'character': 0 if version % 2 else 1}
        change = {'range': {'start': start, 'end': end}, 'text': '(' if version % 2 else ''}
        begun = time.monotonic()
        send(server, 'textDocument/didChange', {'textDocument': {'uri': URI, 'version': version}, 'contentChanges': [change]})
        if not server.message(60):
            return 'no answer'
        times.append(time.monotonic() - begun)
        if version == 10:
            after_ten = memory(server)
    last = memory(server)
    print('%d kB after ten changes, %d after %d; a change takes %.0f ms' % (after_ten, last, COUNT, 1000 * statistics.median(times)))
    return last > 1.1 * after_ten


if __name__ == '__main__':
    sys.exit(main())
