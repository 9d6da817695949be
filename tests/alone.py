#!/usr/bin/env python3
"""Makes a copy of swc_productions in which each production is proved by itself.

    tests/alone.py FOLDER     the copy is FOLDER, which must not be there

In the crate all productions call one another, and the prover checks them as one proof: twenty minutes after any change. In the copy `src/ring.rt` has
their contracts alone, with bodies that stop. The bodies are in `src/alone.rt`, each as a function `NAME_alone` that calls those of `ring`, with its
answers in `proofs/alone`. So `--only NAME_alone --allow-holes` checks one in a minute or two: what it ensures, if all others do what their contracts
say, but not the measure that all have in common.
"""
import re
import shutil
import sys
from itertools import accumulate
from pathlib import Path

CRATE = Path(__file__).parent.parent / 'crates/swc_productions'
RING = 'proofs/ring/+productions'
SUFFIX = '_alone'
# A production: its doc comment and attributes, its first line and contract, and its body.
PRODUCTION = re.compile(r'((?:^///.*\n|^#\[.*\n)*^#\[cycle\(productions\)\]\n(?:^#\[.*\n)*)'
                        r'^(pub )?fn (\w+)(<.*\n(?:(?!\{\n).*\n)*)(\{\n(?:(?!\}\n).*\n)*\}\n)', re.M)
STOP = '{\n    unreachable!()\n}\n'
HOLE = 'use Rattle.swc_productions.proofs.ring.%s.Goals as goal\n\npub unreachable-requires : goal.unreachable-requires\nunreachable-requires g c = ?\n'
# The first line of an answer, an invariant or a measure, with the production that it is about.
ABOUT = re.compile(r'^(?:abbrev )?pub (?:invariant-|decreases-)?(\w+)\S*\s+:\s+goal\.')
CONSTRUCTORS = re.compile(r'^use Rattle\.swc_productions\.proofs\.ring\.\+productions\.Goals\.\{(\w+)-.*\n', re.M)


def separate(crate):
    """Changes the copy of the crate, and answers the names of its productions."""
    ring = (crate / 'src/ring.rt').read_text(encoding='utf-8')
    names = [found[3] for found in PRODUCTION.finditer(ring)]
    bodies = PRODUCTION.sub(lambda it: 'pub fn %s%s%s%s' % (it[3], SUFFIX, it[4], it[5]), ring)
    imports = 'use crate::ring::{%s};\n' % ', '.join(names)
    write(crate / 'src/alone.rt', re.sub(r'^use ', lambda it: imports + it[0], bodies, count=1, flags=re.M))
    write(crate / 'src/ring.rt', PRODUCTION.sub(lambda it: 'pub fn %s%s%s' % (it[3], it[4], STOP), ring))
    root = crate / 'src/lib.rt'
    write(root, root.read_text(encoding='utf-8') + 'pub mod alone;\n')
    for name in names:
        write(crate / 'proofs/ring' / name / 'Answers.antt', HOLE % name)
    asked_by = {found[3]: re.findall(r'^    requires (\w+) ', found[4], re.M) for found in PRODUCTION.finditer(ring)}
    for kind in ('Answers', 'Invariants'):
        part_proofs(crate, kind, (crate / RING / (kind + '.antt')).read_text(encoding='utf-8'), asked_by)
    shutil.rmtree(crate / RING)
    return names


def place_of(crate, path):
    """Where the bodies are that a path has, in a crate whose productions may be separate."""
    return 'src/alone.rt' if path == 'src/ring.rt' and (crate / 'src/alone.rt').exists() else path


def part_proofs(crate, kind, text, asked_by):
    """Writes the answers or the invariants of each production to a file of its own."""
    head, *others = re.split(r'\n\n(?=(?:abbrev )?pub )', text)
    parts = {}
    for part in others:
        parts.setdefault(ABOUT.match(part)[1], []).append(part)
    for name, about in parts.items():
        measure = 'abbrev pub decreases-%s :' % name
        kept = [renamed(part, name, asked_by) for part in about if not part.startswith(measure)]
        if kept:
            own = CONSTRUCTORS.sub(lambda it: it[0].replace(name + '-', '') if it[1] == name else '', head + '\n')
            own = own.replace('proofs.ring.+productions.', 'proofs.alone.%s%s.' % (name, SUFFIX))
            write(crate / 'proofs/alone' / (name + SUFFIX) / (kind + '.antt'), '\n\n'.join([own.rstrip(), *kept]) + '\n')


def without_measure(part, asked_by):
    """The answer for what a call asks, without the measure and the other facts that a call within the ring asks before it."""
    head, found, rest = part.partition('λ κs outlives.')
    if not found:
        return part
    opened = re.match(r'(?:\s*\(\s*search rules,)*', rest)[0]
    asked, *comments = rest[len(opened):].split('\n\n')
    for _ in range(opened.count('(')):
        asked = re.sub(r',?\s*\)\s*$', '', asked)
    facts = facts_of(asked.strip(), asked_by.get(re.match(r'pub \w+?-(\w+)', part)[1], []))
    return '\n\n'.join(['%s(%s)' % (head, facts), *comments])


def facts_of(text, names):
    """The fact, or those of all the names as a record: they are pairs within the ring, as `(a, (b, c))`."""
    facts = []
    for name in names[:-1]:
        depths = accumulate((char in '([{') - (char in ')]}') for char in text)
        comma = next(at for at, (char, depth) in enumerate(zip(text, depths)) if char == ',' and depth == 1)
        facts.append('%s = %s' % (name, text[1:comma].strip()))
        text = re.sub(r',?\s*\)$', '', text[comma + 1:].strip())
    return 'record { %s; }' % '; '.join([*facts, '%s = %s' % (names[-1], text)]) if names else text


def renamed(part, name, asked_by):
    """The text for the production by itself: no name says whose it is, and no proof of the others is passed."""
    part = without_measure(part, asked_by)
    part = re.sub(r'(?<![\w.+-])((?:invariant-|decreases-)?)%s-' % name, r'\1', part)
    part = re.sub(r'\bgoal\.((?:invariant-|decreases-)?)%s-' % name, r'goal.\1', part)
    return re.sub(r'^(\S+) g t c =', r'\1 g c =', part, flags=re.M)


def write(path, text):
    path.parent.mkdir(parents=True, exist_ok=True)
    path.write_text(text, encoding='utf-8')


def main():
    if len(sys.argv) != 2 or Path(sys.argv[1]).exists():
        sys.exit(__doc__)
    copy = Path(sys.argv[1])
    for part in ('src', 'specs', 'proofs'):
        if (CRATE / part).is_dir():
            shutil.copytree(CRATE / part, copy / part)
    print(*separate(copy))


if __name__ == '__main__':
    main()
