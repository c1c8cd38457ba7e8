#!/usr/bin/env python3
"""Spells the repository's own definitions and lemmas as today's Rattle does, after its own script has run: words in snake case, a dash only
between two names of definitions. Run once, at the top: python3 tools/respell.py. Names of src/ and of the libraries stay."""
import collections
import glob
import re
import sys

DECLARED = re.compile(r"^\s*(?:abbrev |unfoldable )?(?:pub )?(?:(record|data|ruleset) )?([^\s:(){}=;,.\[\]]+) *(?::(?!=)|\()", re.M)
WORD = re.compile(r"[^\s(){}\[\],.;`«»|\\/\"]+")
CAMEL = re.compile(r"^[a-z][A-Za-z0-9_']*[A-Z]")
# What std's definitions are called in the names of lemmas.
STD = set("""zero suc add sub mul div mod pow lt le eq min max length take drop append set map filter reverse replicate get_or cons nil and or not
true false cond eqb ltb leb some none bit_and bit_or shr shl fold any all""".split())
# Names that would fall together with others.
FIXED = {
    'atBase': 'find_at_base',
    'of-base': 'above_base',
    'lowest-place': 'place_is_lowest',
    **{t + '-place': t + '_place_is' for t in 'types properties keys constraints children bindings segments'.split()},
}


def snake(name):
    return re.sub(r"(?<=[a-z0-9'])([A-Z])", lambda m: '_' + m.group(1).lower(), name)


def texts():
    specs = glob.glob('crates/*/specs/**/*.antt', recursive=True)
    proofs = glob.glob('crates/*/proofs/**/*.antt', recursive=True)
    return specs, proofs


def bare(text):
    return re.sub(r'--[^\n]*', '', text)


def names_declared(files):
    out = set()
    for f in files:
        out |= {m.group(2) for m in DECLARED.finditer(bare(open(f).read()))}
    return out


def main():
    specs, proofs = texts()
    laws = [f for f in proofs if f.count('/') == 3]
    theirs = set()
    for f in specs + proofs:
        for path, names in re.findall(r'^\s*use ([^\s{]+)\.\{([^}]*)\}', open(f).read(), re.M):
            if not path.startswith('Rattle.') or path.startswith('Rattle.std'):
                theirs |= {n.strip().split(' ')[0] for n in names.split(',')}
    defined = {n for n in names_declared(specs) if re.match('[a-z]', n)}
    proved = {n for n in names_declared(laws) if re.match('[a-z]', n)}
    used = set()
    for f in specs + laws:
        used |= {w for w in WORD.findall(bare(open(f).read())) if CAMEL.match(w) and '-' not in w}
    ours = (defined | proved | used) - theirs
    known = STD | {snake(n) for n in defined if '-' not in n}
    turned = {}
    for n in sorted(ours):
        if n in FIXED:
            turned[n] = FIXED[n]
            continue
        parts = snake(n).split('-')
        new = parts[0]
        for a, b in zip(parts, parts[1:]):
            new += ('-' if a in known and b in known else '_') + b
        turned[n] = new
    # a lemma that would have the name of a definition
    plain = {turned[n] for n in defined if n in turned}
    for n in sorted(proved - defined):
        if n in turned and turned[n] in plain:
            turned[n] += '_lem'
    by_new = collections.defaultdict(set)
    for n, new in turned.items():
        by_new[new].add(n)
    for new, olds in sorted(by_new.items()):
        if len(olds) > 1:
            print('falls together:', new, sorted(olds), file=sys.stderr)
    turned = {n: new for n, new in turned.items() if n != new}
    docs = glob.glob('docs/**/*.md', recursive=True) + ['README.md', 'outside/rust/README.md', 'cases/README.md'] + glob.glob('crates/*/must-fail/*.edit')
    for f in specs + proofs + glob.glob('crates/*/src/*.rt') + docs:
        old = open(f).read()
        prose = f.endswith('.md')
        before = {w for w in WORD.findall(old)}

        def turn(m):
            w = m.group(0)
            if re.match('[a-z0-9_]+$', w) and (f.endswith('.rt') or '.' in (old[m.start() - 1:m.start()], old[m.end():m.end() + 1])):
                return w
            if prose and w not in defined and '-' in w and not (m.start() and old[m.start() - 1] in '`.{/'):
                return w
            return turned.get(w, w)

        new = WORD.sub(turn, old)
        if f.endswith('.antt'):
            for w in sorted(before):
                if w in turned and turned[w] in before and turned[w] not in turned:
                    print(f'{f}: {w} becomes {turned[w]}, which this file has', file=sys.stderr)
        if new != old:
            open(f, 'w').write(new)
    for n in sorted(turned):
        print(n, turned[n])


main()
