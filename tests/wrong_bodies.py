#!/usr/bin/env python3
"""Tries the wrong bodies of tests/wrong, each of which the prover must refuse, and writes tests/wrong/RESULTS.md.

    tests/wrong_bodies.py [--libs FOLDER] [--jobs N] [CRATE | CRATE/EDIT ..]     none: all

They are tried by hand: the gate tries those of crates/NAME/must-fail alone. Edits that change different functions are made together in a copy of
their crate, since each function is proved by itself. These functions are checked then, over the proved libraries below and what earlier checks of the
crate kept. An edit is refused if the check says so of its function. Otherwise it is made alone, and the whole crate is checked. N checks run at a time,
by default one a processor. An edit of a macro changes each function that calls the macro.

The productions are proved one by one (tests/alone.py), each over the contracts of the others: nothing else of the crate is checked then.

Without --libs, `rt lib` first proves of each crate, and of those below it, what has changed. FOLDER has other libraries of the same sources, as
NAME.rlib, and as kept/NAME what their checks kept; it is only read.

Prints a line an edit. Status 0 if each was refused.
"""
import argparse
import datetime
import os
import re
import shutil
import subprocess
import sys
import tempfile
from concurrent.futures import ThreadPoolExecutor
from contextlib import contextmanager, suppress
from pathlib import Path
from threading import Lock

sys.dont_write_bytecode = True
import alone

TOP = Path(__file__).parent.parent
FOLDER = TOP / 'tests/wrong'
RESULTS = FOLDER / 'RESULTS.md'
HEAD = """# Wrong bodies, and when each was last refused

Written by tests/wrong_bodies.py; README.md says how to read it. An edit without a day wasn't refused yet.
"""
COLUMNS = '| edit | clause | last refused | remark |\n|---|---|---|---|\n'
ROW = re.compile(r'\| `(\w+)` \| .* \| ([-\d]*) \| (.*) \|$')
# How many edits are tried in one check.
TOGETHER = 8
# The first line of a function, after its blanks, and the head of an impl.
FUNCTION = re.compile(r'^ *(?:pub(?:\([\w ]+\))? )?(?:const )?fn (\w+)', re.M)
IMPL = re.compile(r'^impl\b(?:<[^{]*?>(?= ))? *(?:([\w:]+)(?:<[^{]*?>)? for )?([\w:]+)', re.M)
MACRO = re.compile(r'^macro_rules! (\w+) .*\n(?:(?!\}).*\n)*\}', re.M)
# A line of a proof file that names what the edit took away, or that cites such a proof.
NAMES = re.compile(r'(\./)?proofs/.*(has no field|is not in scope|has no `|was not admitted|: record `[^`]*` \(nearest: |: module `[^`]*`$)')
# A line that says that the text of a clause or of the edited file can't be read.
UNREAD = re.compile(r'is not in scope|has no field|is no name|operand is missing|expected the end|cannot continue')

# A line that has a place: its file and its line; and the goal that it names first.
PLACED = re.compile(r'(?:note: )?(?:\./)?(\S+?):(\d+):\d+:')
GOAL = re.compile(r'`([^`]*)`')


class BadEdit(Exception):
    pass


def edited(text, crate):
    """The texts of the files that an edit changes, by their paths, and the functions that it changes, each after its file, or none where it changes
    other things."""
    texts, functions, path, old = {}, [], '', ''
    for line in text.splitlines():
        word, _, rest = line.partition(': ')
        if word == 'file':
            path = alone.place_of(crate, rest.strip())
            texts.setdefault(path, (crate / path).read_text(encoding='utf-8'))
        elif word == 'old':
            old = rest
        elif word in ('new', 'new:'):
            if texts[path].count(old) != 1:
                raise BadEdit('its old text is in %s %d times' % (path, texts[path].count(old)))
            found = functions_at(crate, path, texts[path], texts[path].index(old)) if path.startswith('src/') else []
            functions += found or [(path, None)]
            texts[path] = texts[path].replace(old, rest)
    return texts, [] if any(function is None for _, function in functions) else [*dict.fromkeys(functions)]


def functions_at(crate, path, text, place):
    """The function around a place, or those that call the macro around it, each after its file: all of the crate that call one of its first file."""
    macros = [found for found in MACRO.finditer(text) if found.start() <= place < found.end()]
    if not macros:
        return [(path, function_at(text, place))]
    files = sorted((crate / 'src').rglob('*.rt')) if path in ('src/lib.rt', 'src/main.rt') else [crate / path]
    found = []
    for file in files:
        text = file.read_text(encoding='utf-8')
        calls = [call.start() for call in re.finditer(r'\b%s!' % macros[0][1], text)]
        found += [(str(file.relative_to(crate)), function_at(text, call)) for call in calls]
    return [*dict.fromkeys((path, function) for path, function in found if function)]


def function_at(text, place):
    """The function around a place, with the type of its impl, or none where a macro or nothing is around it."""
    line_end = text.find('\n', place)
    heads = [*FUNCTION.finditer(text, 0, line_end)]
    if not heads or '\n}' in text[heads[-1].end():place] or re.search(r'^macro_rules!(?!.*\n})', text[:place], re.M | re.S):
        return None
    name = heads[-1][1]
    impls = [*IMPL.finditer(text, 0, heads[-1].start())]
    if not heads[-1][0].startswith(' ') or not impls:
        return name
    trait, owner = (part.rpartition('::')[2] if part else '' for part in impls[-1].groups())
    return '%s::%s' % (owner + trait, name)


class Libraries:
    """Where the proved libraries are, and what checks of the crates kept."""

    def __init__(self, folder):
        self.folder = folder
        self.kit = Path(subprocess.run(['rt', 'doc'], capture_output=True, text=True, check=True).stdout).parent
        lines = (line.partition(':')[::2] for line in (TOP / 'crates.txt').read_text().splitlines() if ':' in line)
        self.below = {head.split()[0]: names.split() for head, names in lines}

    def build(self, crate):
        """Proves what has changed of a crate and of those below it."""
        words = [] if self.folder else ['lib'] if self.kept(crate).is_dir() else ['lib', 'check']
        for word in words:
            subprocess.run(['rt', word], cwd=TOP / 'crates' / crate, check=True, stdout=subprocess.DEVNULL)

    def library(self, name):
        return self.folder / (name + '.rlib') if self.folder else TOP / 'crates' / name / 'out/rlib' / (name + '.rlib')

    def kept(self, crate):
        return self.folder / 'kept' / crate if self.folder else TOP / 'crates' / crate / 'out/incremental'

    def command(self, crate, kept):
        words = [self.kit / 'bin/rattle', 'check', '--crate-name', crate, 'src/lib.rt', '--extern', 'std=%s/rlibs/std.rlib' % self.kit]
        folders = {self.library(name).parent for name in self.below} | {self.kit / 'rlibs'}
        words += [word for folder in folders for word in ('-L', 'dependency=%s' % folder)]
        for name in self.below[crate]:
            path = self.library(name) if name in self.below else self.kit / 'rlibs' / (name + '.rlib')
            words += ['--extern', '%s=%s' % (name, path)]
        words += ['--antt-project', self.kit / 'rattle/logic/antt-project.json', '--logic-built', self.kit / 'logic_built']
        return words + ['--jobs', '1', '--incremental', kept]


def try_edits(libraries, crate, names):
    """What is said of each edit, and the first line that a check has on it."""
    with tempfile.TemporaryDirectory(prefix='wrong-') as room:
        whole, kept = Path(room, crate), Path(room, 'kept')
        for part in ('src', 'specs', 'proofs'):
            if (TOP / 'crates' / crate / part).is_dir():
                shutil.copytree(TOP / 'crates' / crate / part, whole / part)
        shutil.copytree(libraries.kept(crate), kept)
        command = libraries.command(crate, kept)
        copy, words = whole, command
        if crate == alone.CRATE.name:
            copy, words = Path(room, 'alone'), command + ['--allow-holes']
            shutil.copytree(whole, copy)
            alone.separate(copy)
            look_alone(words, copy, crate, names)
        said = try_together(words, copy, crate, names) if len(names) > 1 else {}
        for name in names:
            edit = FOLDER / crate / (name + '.edit')
            yield name, *(said.get(name) or try_functions(words, copy, edit) or try_whole(command, whole, edit))


def look_alone(command, copy, crate, names):
    """Stops unless a check of the functions that the edits change says nothing of them as they are."""
    with changed(copy) as texts:
        places = [place for name in names for place in make(copy, texts, FOLDER / crate / (name + '.edit'))]
    lines = check(command + [word for _, function in places for word in ('--only', function)], copy)[1]
    wrong = [line for line in told_of(lines) if any(is_about(line, copy, *at) for at in places)]
    if wrong or not lines[-1].startswith('only='):
        raise SystemExit('a production by itself, as it is: ' + (wrong or lines[-1:])[0])


def try_together(command, copy, crate, names):
    """What a check of all functions that the edits change says of those edits that it refuses."""
    with changed(copy) as texts:
        places = {}
        for name in names:
            with suppress(BadEdit, OSError):
                places[name] = make(copy, texts, FOLDER / crate / (name + '.edit'))
        only = [word for at in places.values() for _, function in at for word in ('--only', function)]
        status, lines = check(command + only, copy)
        told = told_of(lines) if status in (1, 3) and lines[-1].startswith(('only=', 'rattle: no verdict')) else []
        said = {name: verdict([line for line in told if any(is_about(line, copy, *at) for at in ats)]) for name, ats in places.items()}
    return {name: found for name, found in said.items() if found[0] == 'refused'}


def try_functions(command, copy, edit):
    """What a check of the functions that the edit changes says of it, if that is a refusal."""
    with suppress(BadEdit, OSError), changed(copy) as texts:
        only = [word for _, function in make(copy, texts, edit) for word in ('--only', function)]
        said = judge(*check(command + only, copy), texts) if only else ('', '')
        return said if said[0].startswith('refused') else None


def try_whole(command, copy, edit):
    """What a check of the whole crate says of the edit."""
    try:
        with changed(copy) as texts:
            make(copy, texts, edit)
            return judge(*check(command, copy), texts)
    except (BadEdit, OSError) as error:
        return 'BAD EDIT', str(error)


@contextmanager
def changed(copy):
    """The files that are changed, as they were: they are put back in the end."""
    texts = {}
    try:
        yield texts
    finally:
        for path, text in texts.items():
            (copy / path).write_text(text, encoding='utf-8')


def make(copy, texts, edit):
    """Makes the edit, and keeps the files that it changes as they were. The functions that it changes, each with its file, or none."""
    new, functions = edited(edit.read_text(encoding='utf-8'), copy)
    for path, text in new.items():
        texts.setdefault(path, (copy / path).read_text(encoding='utf-8'))
        (copy / path).write_text(text, encoding='utf-8')
    return functions


def check(command, crate):
    """The status of a check of the crate as it is now, and its lines."""
    ran = subprocess.run(command, cwd=crate, stdin=subprocess.DEVNULL, stdout=subprocess.PIPE, stderr=subprocess.STDOUT, errors='replace')
    return ran.returncode, ran.stdout.rstrip('\n').split('\n')


def told_of(lines):
    """The lines that say at some place what isn't proved."""
    return [line for line in lines if PLACED.match(line) and ('error' in line or line.startswith('note: '))]


def is_about(line, crate, path, function):
    """Whether the line is about the function, which is in the file: at a place of its body or of its proof, or of that of its cycle."""
    place, number = PLACED.match(line).groups()
    if place == path:
        text = (crate / path).read_text(encoding='utf-8').splitlines(keepends=True)
        return function_at(''.join(text), len(''.join(text[:int(number) - 1]))) == function
    module = path.removeprefix('src/').removesuffix('.rt')
    folder = 'proofs/' if module == 'lib' else 'proofs/%s/' % module
    if place.startswith(folder + '+'):
        goal = GOAL.search(line)
        return bool(goal) and goal[1].startswith(function.rpartition('::')[2] + '-')
    return place.startswith(folder + function.replace('::', '/') + '/')


def verdict(told):
    """What lines on a function say of its edit."""
    whys = [line for line in told if not NAMES.match(line)]
    return ('refused', whys[0]) if whys else ('refused for a name in a proof file alone', told[0]) if told else ('', '')


def judge(status, lines, texts):
    """What a check says of an edit that was made alone, and its first line that says why."""
    if status == 0:
        return 'NOT REFUSED', ''
    if status == 3:
        return 'refused by a limit of the prover alone', lines[-1]
    if status != 1 or not lines[-1].startswith(('logic=not-proved', 'only=')):
        return 'BAD EDIT', 'it did not reach the prover: ' + lines[0]
    told = told_of(lines)
    unread = [line for line in told if line.startswith(('src/', 'specs/', *texts)) and UNREAD.search(re.sub('`[^`]*`', '', line))]
    if unread:
        return 'BAD EDIT', 'it cannot be read: ' + unread[0]
    return verdict(told) if told else ('refused', lines[0])


def clause_of(crate, name):
    """The clause that the edit names, as a table shows it."""
    lines = (FOLDER / crate / (name + '.edit')).read_text(encoding='utf-8').splitlines()
    named = [line.removeprefix('# clause: ') for line in lines if line.startswith('# clause: ')]
    return named[0].replace('|', '\\|') if named else 'it names none'


def edits():
    """The names of the edits, by their crates."""
    crates = sorted(it for it in FOLDER.iterdir() if it.is_dir())
    return {crate.name: sorted(it.stem for it in crate.glob('*.edit')) for crate in crates}


def results():
    """The day and the remark of each row in the table."""
    rows, crate = {}, ''
    for line in RESULTS.read_text(encoding='utf-8').splitlines() if RESULTS.exists() else []:
        row = ROW.match(line)
        if line.startswith('## '):
            crate = line.removeprefix('## ')
        elif row:
            rows[crate, row[1]] = row[2], row[3].strip()
    return rows


def record(crate, name, said):
    """Writes RESULTS.md with what was said of one more edit."""
    rows, today = results(), datetime.date.today().isoformat()
    is_refused = said.startswith('refused')
    day = today if is_refused else rows.get((crate, name), ('', ''))[0]
    rows[crate, name] = day, said.removeprefix('refused').strip() and said + ('' if is_refused else ' on ' + today)
    write_results(rows)


def write_results(rows):
    parts = [HEAD]
    for crate, names in edits().items():
        lines = ['| `%s` | %s | %s |\n' % (it, clause_of(crate, it), ' | '.join(rows.get((crate, it), ('', '')))) for it in names]
        parts.append('\n## %s\n\n%s' % (crate, COLUMNS) + ''.join(lines))
    RESULTS.write_text(''.join(parts), encoding='utf-8')


def groups_of(wanted):
    """The edits that are named, or all, in groups of those that are tried together: each crate, and its edits."""
    for crate, names in edits().items():
        groups = []
        for name in names:
            if not wanted or crate in wanted or '%s/%s' % (crate, name) in wanted:
                functions = functions_of(crate, name)
                fits = (group for group in groups if functions and group[1] and len(group[0]) < TOGETHER and not functions & group[1])
                group = next(fits, None)
                if group:
                    group[0].append(name)
                    group[1].update(functions)
                else:
                    groups.append(([name], functions))
        yield from ((crate, group) for group, _ in groups)


def functions_of(crate, name):
    """The functions that the edit changes; none where it can't be made, or changes other things."""
    try:
        return set(edited((FOLDER / crate / (name + '.edit')).read_text(encoding='utf-8'), TOP / 'crates' / crate)[1])
    except (BadEdit, OSError):
        return set()


def main():
    parser = argparse.ArgumentParser(usage=__doc__)
    parser.add_argument('--libs', type=Path)
    parser.add_argument('--jobs', type=int, default=os.cpu_count())
    parser.add_argument('wanted', nargs='*')
    given = parser.parse_args()
    libraries, writing = Libraries(given.libs and given.libs.resolve()), Lock()

    def count_wrong(group):
        """Tries some edits of a crate, and counts those that weren't refused."""
        wrong = 0
        for name, said, why in try_edits(libraries, *group):
            with writing:
                print('%s/%s: %s: %s' % (group[0], name, said, why[:160]), flush=True)
                record(group[0], name, said)
            wrong += not said.startswith('refused')
        return wrong

    groups = [*groups_of(given.wanted)]
    for crate in dict.fromkeys(crate for crate, _ in groups):
        libraries.build(crate)
    with ThreadPoolExecutor(given.jobs) as pool:
        return min(1, sum(pool.map(count_wrong, groups)))


if __name__ == '__main__':
    sys.exit(main())
