#!/usr/bin/env python3
"""Holds README.md and docs/*.md to what is there.

    tests/readme.py

- Each command after `$` prints what is shown below it. The examples of README are the first programs of tests/bindings (tests/bindings.sh runs them),
  and those of GUIDE.md the crates `examples`, which prints what is said there, and `lint_example` (`rt ci` runs them).
- Links, paths and names of files are those of the repository; commands of `rt` are those that its help names.
- A name in backquotes is a word of the sources, and one with parentheses a function there. DIFFERENCES.md also has names of the Rust crate.
- The lines of code in CONTRIBUTING.md are lines of the sources. GRAMMAR.md names each production of Grammar.antt and no other.
  INDEX.md names functions of the files that it has beside them.
- The ring has as many functions as the documents say. The README has at most 900 words, and docs/ 26,000 but for API.md,
  which tests/api.py makes.

Prints what isn't so. Status 0 if all of that holds. Run it after `rt ci` or `rt run`, so that ./show_expr has its proved program.
"""
import os
import re
import subprocess
import sys
from glob import glob

from words import files

DOCS = sorted(glob('docs/*.md'))
ENDINGS = 'antt|rt|rows|trees|py|sh|js|c|cpp|txt|md|edit|patch'
# A crate of the reader's own, and parts of paths that stand for others.
OTHERS = re.compile(r'my_tool|FILE|FUNCTION|NAME|LOG')
# Names of the kit and of texts that are shown, and parts of names.
FOREIGN = set('__proto__ _id apt-get node-acorn libecma dgimsuvy is_x my_tool rattle-kit unheard_ version logic Tail'.split())
NAME = r'[A-Za-z_]\w*(?:-[A-Za-z]\w*)*'


def read(path):
    with open(path, encoding='utf-8') as file:
        return file.read()


def indented(text):
    """The text as the README shows it, by four blanks."""
    return ''.join('    %s\n' % line if line else '\n' for line in text.rstrip('\n').split('\n'))


def blocks(text):
    """The lines of code of a document."""
    return [line[4:] for line in text.split('\n') if line.startswith('    ')]


def shown_commands(text):
    """The commands after `$`, with the lines below them."""
    for command, said in re.findall(r'^    \$ (.*)\n((?:    (?!\$).*\n)*)', text, re.M):
        yield command, re.sub(r'^    ', '', said, flags=re.M)


def example_faults(readme):
    for ending in ('c', 'js', 'py'):
        if indented(read('tests/bindings/first.' + ending)) not in readme:
            yield 'README.md has not the text of tests/bindings/first.' + ending
    for path in ('crates/examples/src/main.rt', 'crates/examples/stdout', 'crates/lint_example/src/main.rt'):
        if indented(read(path)) not in read('docs/GUIDE.md'):
            yield 'docs/GUIDE.md has not the text of ' + path


def command_faults(path, text, help_text):
    for command, said in shown_commands(text):
        ran = subprocess.run(command, shell=True, capture_output=True, text=True)
        if ran.returncode > 1 or ran.stdout != said:
            yield '%s: %s prints %s' % (path, command, ran.stdout)
    for word in re.findall(r'(?:`|^    |&& |\| )rt ([a-z-]+)', text, re.M):
        if not re.search(r'\b%s\b' % word, help_text):
            yield '%s: there is no rt %s' % (path, word)


def path_faults(path, text, there):
    for link in re.findall(r'\]\(([^)#]+)', text):
        if '://' not in link and not os.path.exists(os.path.join(os.path.dirname(path), link)):
            yield '%s: the link %s leads nowhere' % (path, link)
    named = re.findall(r'(?<![\w/.-])(?:\./|\.ci/|crates/|tests/|docs/)[\w./+-]*\w', text)
    named += re.findall(r'(?<![\w/.-])[\w/+-]+\.(?:%s)\b' % ENDINGS, text)
    for name in named:
        built = re.match(r'crates/\w+/out(?=/)', name)
        if built and not os.path.exists(built.group()):
            continue
        if not OTHERS.search(name) and not os.path.exists(name) and not any(f.endswith('/' + name) for f in there):
            yield '%s: there is no %s' % (path, name)


def name_faults(path, text, words, functions, crates):
    for span in re.findall(r'`([^`\n]+)`', text):
        if re.search(r'^(rt|git|cd|node) |[/\\"\'#]|\.(?:%s)$' % ENDINGS, span):
            continue
        for name in re.findall(NAME, span):
            if name not in words and name not in FOREIGN and not re.fullmatch(r'[A-Z]+|[0-9a-f]{16}', name):
                yield '%s: no source has the name %s' % (path, name)
        module = re.fullmatch(r'([a-z_]+)::([a-z_]+)', span) if path == 'docs/GUIDE.md' else None
        if module and not os.path.exists('crates/%s/src/%s.rt' % (crates.get(module[1], 'swc_ecma_parser'), module[2])):
            yield '%s: there is no module %s' % (path, span)
        called = re.match(r'(?:[\w:]+::)?([a-z_]{4,})\(', span)
        if path == 'docs/GUIDE.md' and called and called[1] not in functions:
            yield '%s: there is no function %s' % (path, called[1])


def code_faults(path, text, sources):
    """Lines of code that no source has. Those of commands begin with one, and `..` stands for what is left out."""
    for line in blocks(text):
        line = line.strip()
        if line and not re.match(r'rt |tests/|step \(assigns', line) and '..' not in line and line not in sources:
            yield '%s: no source has the line %s' % (path, line)


def index_faults(document):
    """Rows of INDEX.md whose function isn't in their file."""
    for name, file in re.findall(r'^\| .* \| `(\w+)` \| ([\w/.]+) \|$', document, re.M):
        if not os.path.exists('crates/' + file) or not re.search(r'\bfn %s\b' % name, read('crates/' + file)):
            yield 'docs/INDEX.md: there is no %s in %s' % (name, file)


def grammar_faults(grammar, document):
    there = set(re.findall(r'^  (%s) :.*Production ' % NAME, grammar, re.M))
    table = document[document.index('    Primary '):document.index('`Lhs true` is')]
    told = set(re.findall(r'^    (?:\S+(?: [a-z0-9k]+| true| false)*)? {2,}([a-z]+(?:-[a-z]+)*) ', table, re.M))
    told |= set(re.findall(r'^ {8,}([a-z]+(?:-[a-z]+)*) ', table, re.M))
    for name in sorted(there ^ told):
        yield 'docs/GRAMMAR.md and Grammar.antt differ in %s' % name


def main():
    paths = list(files())
    code = [f for f in paths if re.match(r'crates/.*\.(rt|antt)$', f)]
    sources = '\n'.join(read(f) for f in code)
    others = '\n'.join(read(f) for f in paths if re.match(r'(node|python|include|tests/bindings)/|install$', f))
    words = set(re.findall(NAME, sources + others)) | set(re.findall(r'\w+', sources + others)) | {part.split('.')[0] for f in paths for part in f.split('/')}
    functions = set(re.findall(r'\bfn (\w+)', sources))
    crates = {name: crate for crate, name in re.findall(r'^pub use (\w+) as (\w+);', read('crates/swc_ecma_parser/src/lib.rt'), re.M)}
    help_text = subprocess.run(['rt', '--help'], stdout=subprocess.PIPE, stderr=subprocess.STDOUT, text=True).stdout
    texts = {path: read(path) for path in ['README.md', *DOCS]}
    faults = list(example_faults(texts['README.md']))
    for path, text in texts.items():
        faults += command_faults(path, text, help_text)
        faults += path_faults(path, text, paths)
        if path != 'docs/DIFFERENCES.md':
            faults += name_faults(path, text, words, functions, crates)
        for count in re.findall(r'this\s+one\s+has\s+(\d+)', text):
            if int(count) != sources.count('#[cycle(productions)]\n'):
                faults.append('%s: the ring has not %s functions' % (path, count))
    faults += code_faults('docs/CONTRIBUTING.md', texts['docs/CONTRIBUTING.md'], sources)
    faults += index_faults(texts['docs/INDEX.md'])
    faults += grammar_faults(read('crates/swc_grammar/specs/Grammar.antt'), texts['docs/GRAMMAR.md'])
    for path, limit, size in (('README.md', 900, len(texts['README.md'].split())), ('docs', 26000, sum(len(texts[p].split()) for p in DOCS if p != 'docs/API.md'))):
        if size > limit:
            faults.append('%s has %d words, more than %d' % (path, size, limit))
    print('\n'.join(faults) or 'the documents show what is there')
    return 1 if faults else 0


if __name__ == '__main__':
    sys.exit(main())
