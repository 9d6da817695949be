"""Runs programs, measures them, and prints tables, for the scripts that write docs/SPEED.md. Needs Linux."""
import ctypes
import os
import resource
import subprocess
import tempfile
from collections import namedtuple

PR_SET_CHILD_SUBREAPER = 36
# The shell takes the text, where the output goes and the command. It says the number of what it starts, which waits for a line before it runs.
STARTER = 'text=$1; shown=$2; shift 2; exec 3<&0; { read go <&3; exec "$@" <"$text" >"$shown" 2>/dev/null 3<&-; } & echo $!'

# How a run ended, as wait4 says it, its processor seconds, the peak of its memory in MB, and what it wrote.
Run = namedtuple('Run', 'status seconds megabytes output')


def ended(status):
    return 'status %d' % os.WEXITSTATUS(status) if os.WIFEXITED(status) else 'signal %d' % os.WTERMSIG(status)


def faulty(status):
    """How a run ended, or nothing where it ended well."""
    return '' if status == 0 else ended(status)


def print_row(widths, *cells):
    """Prints a line of a table: text from the left of its column, numbers, whose width is below 0, from the right."""
    columns = [str(cell).ljust(width) if width > 0 else str(cell).rjust(-width) for width, cell in zip(widths, cells)]
    print(('    ' + '  '.join(columns)).rstrip(), flush=True)


def grow_stack():
    """Lets the stack of what is run grow as far as the system lets it."""
    hard = resource.getrlimit(resource.RLIMIT_STACK)[1]
    resource.setrlimit(resource.RLIMIT_STACK, (hard, hard))


def run(command, text, stack=None):
    """Runs the command on the text.

    The system counts among a process's memory what the one had that started it. So a shell, which has little, starts the command, and ends
    before that runs: the command is then handed to this process.
    """
    def limit():
        if stack:
            resource.setrlimit(resource.RLIMIT_STACK, (stack, stack))
    ctypes.CDLL(None).prctl(PR_SET_CHILD_SUBREAPER, 1, 0, 0, 0)
    with tempfile.NamedTemporaryFile() as given, tempfile.NamedTemporaryFile() as shown:
        given.write(text)
        given.flush()
        starter = ['sh', '-c', STARTER, 'sh', given.name, shown.name, *command]
        with subprocess.Popen(starter, stdin=subprocess.PIPE, stdout=subprocess.PIPE, preexec_fn=limit) as shell:
            number = int(shell.stdout.readline())
            shell.wait()
            shell.stdin.write(b'go\n')
        status, usage = os.wait4(number, 0)[1:]
        return Run(status, usage.ru_utime + usage.ru_stime, usage.ru_maxrss / 1024, shown.read())


def runs(command, text, count=5):
    """One of some runs of the command on the text, with the least seconds and the least memory of them all."""
    all_runs = [run(command, text) for _ in range(count)]
    return all_runs[0]._replace(seconds=min(r.seconds for r in all_runs), megabytes=min(r.megabytes for r in all_runs))
