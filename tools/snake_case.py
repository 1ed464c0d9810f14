#!/usr/bin/env python3
"""Brings this repository's own antt names to snake case: `line-count` becomes `line_count`, in specs/, proofs/, clauses and edits.

usage: python3 tools/snake_case.py [--list]     at the top, once, right after port.py

A name is ours where a file of specs/ or a lemma file right in proofs/ declares it: a definition, a lemma, a field, a constructor or a
bound variable. Names of the kit and names that Rattle makes (goals, steps) have dashes of their own and stay, as do names that are ours
and the kit's both, where one of our files takes the kit's; those and names that would fall together are said.
"""
import glob
import re
import sys

KIT = '/opt/rattle'
WORD = re.compile(r"[^\s()\[\]{};,.\"\\`]+")
SIGNATURE = re.compile(r'^\s*(?:(?:abbrev|unfoldable|pub|record|data|instance|let)\s+)*((?:[^\s()\[\]{};,."]+\s+)+):(?=\s|$)')
BOUND = re.compile(r'[({]((?:[^\s()\[\]{};,.:"]+ )+):')
LAMBDA = re.compile(r'λ ((?:[^\s()\[\]{};,.:"]+ ?)+)\.')


def text(path):
    with open(path, encoding='utf-8') as f:
        return f.read()


def declared(paths):
    names = set()
    for path in paths:
        for line in text(path).split('\n'):
            code = line.split('-- ')[0]
            found = [m.group(1) for m in [SIGNATURE.match(code)] if m]
            found += BOUND.findall(code) + LAMBDA.findall(code)
            # The variables of an equation's left side.
            left = re.match(r'^\s*(\S[^=]*) = ', code)
            if left:
                found.append(re.sub(r'[()\[\]{},]', ' ', left.group(1)))
            # `let name = ..`, and the names that a match binds.
            found += re.findall(r'\blet ([^\s()\[\]{};,."]+)', code)
            found += [re.sub(r'[()\[\]{},]', ' ', m) for m in re.findall(r'[\[|] ([^|\[\]↦]*) ↦', code)]
            for words in found:
                names.update(w for w in words.split() if re.search(r'\w-\w', w))
    return names


def main():
    own = glob.glob('crates/*/specs/**/*.antt', recursive=True) + glob.glob('crates/*/proofs/*.antt')
    kit = [p for p in glob.glob(KIT + '/rattle/**/*.antt', recursive=True) if '/notes/' not in p]
    ours = declared(own)
    theirs = declared(kit)
    every = set()
    files = sorted(
        glob.glob('crates/*/specs/**/*.antt', recursive=True)
        + glob.glob('crates/*/proofs/**/*.antt', recursive=True)
        + glob.glob('crates/*/src/**/*.rt', recursive=True)
        + glob.glob('crates/*/must-fail/*.edit')
    )
    for path in files:
        every.update(WORD.findall(text(path)))
    taken = set()
    for path in files:
        for module, names in re.findall(r'use (\S+)\.\{([^}]*)\}', text(path)):
            if not re.match(r'Rattle\.(?!std\b)', module):
                taken.update(re.split(r'[ ,]+', names))
    both = sorted(ours & theirs & taken)
    turn = {n: n.replace('-', '_') for n in ours - set(both)}
    # What a rule's arrow or an operator holds is no name.
    turn = {n: s for n, s in turn.items() if re.fullmatch(r"[\w'◌-]+", n)}
    falls = sorted(n for n, s in turn.items() if s in every)
    print(f'{len(turn)} names turn')
    print('ours and the kit\'s, left:', ' '.join(both))
    print('fall together with another word:', ' '.join(falls))
    if '--list' in sys.argv:
        print('\n'.join(sorted(turn)))
        return
    for path in files:
        old = text(path)
        new = WORD.sub(lambda m: turn.get(m.group(0), m.group(0)), old)
        if new != old:
            with open(path, 'w', encoding='utf-8') as f:
                f.write(new)


if __name__ == '__main__':
    main()
