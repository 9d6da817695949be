#!/usr/bin/env python3
"""Makes docs/API.md of the doc comments of public functions, methods and traits, or compares it with them.

    tests/api.py            status 1 where docs/API.md isn't what it would be made
    tests/api.py --write    writes it

Of each function it has the signature, the first paragraph of its comment, and the names of its clauses. Only what a crate hands out is in it: functions of
its public modules, and methods of types that these have.
"""
import re
import sys
from pathlib import Path

TOP = Path(__file__).resolve().parent.parent
# The libraries that programs are built over, and what each is for.
CRATES = [
    ('swc_ecma_parser', 'the parser, and what it hands on of the crates below'),
    ('swc_context', 'spans, lines, contexts, faults: `swc_ecma_parser::context`'),
    ('swc_input', 'tokens, sources and the buffer: `swc_ecma_parser::input`'),
    ('swc_ast', 'the tree in boxes: `swc_ecma_parser::ast`'),
    ('swc_bodies', 'hooks: `swc_ecma_parser::bodies`'),
    ('swc_nodes', 'the tree in one vector: `swc_ecma_parser::nodes`'),
    ('swc_trees', 'nodes to boxes and back: `swc_ecma_parser::trees`'),
    ('swc_print', 'trees as text: `swc_ecma_parser::printing`'),
    ('swc_ident', 'names: `swc_ecma_parser::ident`'),
    ('swc_tokens', 'tokens of ASCII texts: `swc_ecma_parser::tokens`'),
    ('swc_lexer', 'tokens of texts in UTF-8: `swc_ecma_parser::lexer`'),
    ('swc_lexical', 'the scanners of the lexical grammar: `swc_ecma_parser::lexical`'),
    ('reporting', 'refusals, and how they are told'),
    ('tree_types', 'the tree of a program'),
    ('statement_trees', 'the reader of programs'),
    ('program_tokens', 'tokens and comments of programs'),
    ('program_walk', 'walks over programs'),
    ('program_names', 'names and scopes'),
    ('literal_values', 'what literals mean'),
    ('text_edits', 'edits of a text'),
    ('template_pieces', 'texts with expressions in them'),
    ('early_errors', 'early errors of programs'),
    ('program_scopes', 'names, labels and private names of programs'),
    ('regex_patterns', 'patterns of regular expressions'),
    ('statement_outline', 'programs as text'),
    ('estree_json', 'programs as ESTree JSON'),
    ('layout_document', 'documents of texts, lines and groups'),
    ('expr_layout', 'layouts of expressions'),
    ('program_layout', 'layouts of programs'),
]
HEAD = """# The calls

Made by `tests/api.py` of the comments in the sources. Where to begin, and which types and calls go together, is in
[GUIDE.md](GUIDE.md); what the named clauses say, in [PROMISES.md](PROMISES.md). `requires` names what a caller has to see
to: `rt check` asks for it, and `rt try` doesn't. All positions are in bytes, and all columns count from 1 in units of UTF-16,
unless a call says otherwise. A call that answers a `Result` over `AllocError`, or refuses as `OutOfMemory`, does so where
memory runs out.
"""


def modules_of(crate):
    """The modules of a crate, each with its path, its file, and whether all around it and itself are public."""
    source = TOP / 'crates' / crate / 'src'
    found = [('', source / 'lib.rt', True)]
    for path, file, is_public in found:
        folder = source if file.name == 'lib.rt' else file.with_suffix('')
        for word, name in re.findall(r'^(pub )?mod (\w+);', file.read_text(), re.M):
            found.append((path + '::' + name, folder / (name + '.rt'), is_public and bool(word)))
    return found


def handed_on(crate):
    """What a crate's root hands on of its private modules: the last words of their paths."""
    text = (TOP / 'crates' / crate / 'src/lib.rt').read_text()
    return {name for _, name in re.findall(r'^pub use (\w+(?:::\w+)*)::(\w+);', text, re.M)}


class Item:
    """A public item: its comment, its signature, and the clauses of it."""

    def __init__(self, owner, comment, lines):
        self.owner, self.comment = owner, comment
        head = []
        for line in lines:
            if re.match(r'\s*(requires|ensures)\b', line) or line.strip() == '{':
                break
            head.append(line.strip())
        text = re.sub(r'\s+', ' ', ' '.join(head)).rstrip('{; ').replace('( ', '(').replace(', )', ')').replace(' )', ')')
        self.signature = re.sub(r'^(pub )?fn ', '', re.sub(r'^pub (trait|struct|enum) ', r'\1 ', text))
        self.clauses = {word: re.findall(r'^\s*%s\*? ?(\w+)? *\{' % word, '\n'.join(lines), re.M) for word in ('requires', 'ensures')}

    def text(self):
        clauses = []
        for word, names in self.clauses.items():
            if names:
                clauses.append(' '.join([word, ', '.join(sorted({'`%s`' % name for name in names if name}) or ['one without a name'])]))
        owner = self.owner + '::' if self.owner else ''
        said = first_paragraph(self.comment)
        return '- `%s%s`%s%s' % (owner, self.signature, ': ' + said if said else '', ' *%s.*' % '; '.join(clauses) if clauses else '')


def first_paragraph(comment):
    return ' '.join(comment).split('  ')[0].strip() if comment else ''


def comment_before(lines, index):
    """The comment before a line: its first paragraph."""
    found = []
    index -= 1
    while index >= 0 and lines[index].strip().startswith(('///', '#[')):
        if lines[index].strip().startswith('///'):
            found.append(lines[index].strip()[3:].strip())
        index -= 1
    found.reverse()
    return found[:found.index('')] if '' in found else found


def items_of(file, only):
    """The public functions, methods and traits of a file; only those with such names, or of types with such, if they are given."""
    lines = file.read_text().split('\n')
    owner, is_trait = '', False
    for index, line in enumerate(lines):
        if re.match(r'(unsafe )?impl\b', line):
            head = re.sub(r'\s+', ' ', ' '.join(lines[index:index + 4]).split('{')[0])
            head = re.sub(r'^impl(<(?:[^<>]|<[^<>]*>)*>)? ', '', head)
            owner, is_trait = re.split(r'[<\s]', head)[0], False
            if ' for ' in head:
                owner = None
        elif re.match(r'pub trait ', line):
            owner, is_trait = re.match(r'pub trait (\w+)', line)[1], True
            if only is None or owner in only:
                yield Item('', comment_before(lines, index), [line])
        elif line.startswith('}'):
            owner, is_trait = '', False
        found = re.match(r'(    )?(pub (?:const )?fn|fn) (\w+)', line)
        if not found or owner is None or found[2] == 'fn' and not (is_trait and found[1]) or bool(found[1]) != bool(owner):
            continue
        if only is None or (owner or found[3]) in only:
            end = index
            while end < len(lines) and lines[end].strip() not in ('{', '}', '{}') and not lines[end].rstrip().endswith(('{', ';')) or '{ ' in lines[end]:
                end += 1
            yield Item(owner, comment_before(lines, index), lines[index:end + 1])


def page():
    parts = [HEAD]
    for crate, what in CRATES:
        parts.append('\n## %s\n\n%s.\n' % (crate, what[0].upper() + what[1:]))
        modules = modules_of(crate)
        types = set(re.findall(r'^pub (?:struct|enum) (\w+)', '\n'.join(file.read_text() for _, file, is_public in modules if is_public), re.M))
        for path, file, is_public in sorted(modules):
            only = None if is_public else types | handed_on(crate)
            items = [item.text() for item in items_of(file, only)]
            if items:
                parts.append('\n### %s%s\n\n%s\n' % (crate, path, '\n'.join(items)))
    return ''.join(parts)


def main(words):
    file = TOP / 'docs/API.md'
    made = page()
    if words == ['--write']:
        file.write_text(made)
        return 0
    if file.read_text() != made:
        print("docs/API.md isn't what `tests/api.py --write` makes")
        return 1
    print('api: %d calls' % made.count('\n- `'))
    return 0


if __name__ == '__main__':
    sys.exit(main(sys.argv[1:]))
