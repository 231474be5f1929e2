#!/usr/bin/env python3
"""respell.py [--names]: brings the repository's own definitions and lemmas to the spelling of today's Rattle, once, after port.py.

Types, facts and modules stay in upper camel case. Every other name goes to snake case: `amountOf` is `amount_of`. In a lemma's name a dash stays where it
joins the names of two definitions (`length-to_le`) or a type and a name (`T-list`); elsewhere it becomes `_` (`add-over` is `add_over`). Run it at the top of the
repository. --names prints old and new names, and which fall together, and changes nothing."""
import glob
import re
import subprocess
import sys

OWN = {
    'atMost256': 'at_most_256', 'over512InTwo': 'over_512_in_two', 'ofKind2': 'of_kind_2', 'pickedAAB': 'picked_aab',
}
# words of the library that lemmas of ours are named after
LIBRARY = {'length', 'take', 'drop', 'append', 'set', 'get_or', 'map', 'replicate', 'reverse', 'min', 'cond', 'sum'}
TOKEN = re.compile(r"(?<![\w'◌-])([A-Za-z][\w'₀₁₂₃-]*)(?![\w'◌])")


def antt():
    return sorted(glob.glob('crates/*/specs/**/*.antt', recursive=True) + glob.glob('crates/*/proofs/**/*.antt', recursive=True))


def declared(text):
    """The names that a file declares, and which of them are fields of records."""
    names, fields, depth = set(), set(), None
    for line in text.split('\n'):
        indent = len(line) - len(line.lstrip())
        if depth is not None and line.strip() and indent <= depth:
            depth = None
        kind = re.match(r'\s*(?:pub |abbrev |unfoldable )*(data|record|ruleset) (\S+)', line)
        if kind:
            names.add(kind.group(2))
            if kind.group(1) in ('data', 'record') and line.rstrip().endswith('where'):
                depth = indent
            continue
        name = re.match(r"\s*(?:pub |abbrev |unfoldable )*([A-Za-z][\w'₀₁₂₃-]*) :(?: |$)", line)
        if name and not re.match(r'\s*(let|in|where|use|open|module)\b', line):
            names.add(name.group(1))
            if depth is not None:
                fields.add(name.group(1))
    return names, fields


def snake(word):
    if word in OWN:
        return OWN[word]
    if word == 'getD':
        return 'get_or'
    return re.sub(r'([a-z0-9])([A-Z])', r'\1_\2', word).lower() if re.match(r'[a-z]', word) else word


def respelled(name, definitions):
    if name in OWN:
        return OWN[name]
    parts = [snake(p) for p in name.split('-')]
    out = parts[0]
    for a, b in zip(parts, parts[1:]):
        typed = a[:1].isupper() and a == parts[0]
        out += ('-' if typed or (a in definitions and b in definitions) else '_') + b
    return out


def main():
    names, fields, specs, definitions, texts = set(), set(), set(), set(LIBRARY), {}
    for path in antt():
        text = texts[path] = open(path).read()
        n, f = declared(text)
        if path.endswith('Proof.antt'):
            n = {x for x in n if x.endswith('-spec')}
        names |= n
        fields |= f
        if '/specs/' in path:
            definitions |= {snake(x) for x in n}
            specs |= n
    new = {n: respelled(n, definitions) for n in names}
    together = {}
    for o in names:
        together.setdefault(new[o], set()).add(o)
    for n, old in together.items():
        if len(old) > 1:
            # the definition has the name; a lemma that would have it gets `_lem`
            keeps = {o for o in old if o in specs} or {n if n in old else min(old)}
            for o in old - keeps:
                new[o] = n + '_lem'
    new = {o: n for o, n in new.items() if o != n}
    if '--names' in sys.argv:
        back = {}
        for o in names:
            back.setdefault(new.get(o, o), set()).add(o)
        for o in sorted(new):
            print(o, new[o])
        for n in sorted(back):
            if len(back[n]) > 1:
                print('TOGETHER', n, sorted(back[n]))
        targets = set(new.values()) - names
        for path in antt() + sorted(glob.glob('crates/*/src/**/*.rt', recursive=True)):
            text = open(path).read()
            cited = {new[t] for t in TOKEN.findall(text) if t in new}
            met = sorted({m.group(1) for m in TOKEN.finditer(text) if m.group(1) in targets and not text[:m.start()].endswith('.')} & cited)
            if met and not path.endswith('Proof.antt'):
                print('MET', path, met)
        return

    def turn(text, foreign, own=()):
        def one(m):
            name = m.group(1)
            if name not in new or name in foreign:
                return name
            before = text[:m.start()]
            if '-' not in name and name == name.lower() and (name not in own or before.endswith('.')):
                return name
            if before.endswith('.') and '-' in name and name not in fields and not re.search(r'[A-Z]\w*\.$', before):
                return name
            return new[name]
        return TOKEN.sub(one, text)

    def imported(text):
        """What a file imports from the library under a name that is also ours."""
        found = set()
        for m in re.finditer(r'use (\S+?)\.\{([^}]*)\}', text):
            if not re.match(r'Rattle\.(?!std\b|core\b|borrow\b)', m.group(1)):
                found |= {x.strip().split(' ')[0] for x in m.group(2).split(',')}
        return found

    changed = 0
    for path, text in texts.items():
        if path.endswith('Proof.antt') and 'tie.spec' in text:
            continue
        own = declared(text)[0] | {x.strip() for m in re.finditer(r'use Rattle\.\w+\.proofs\.\S+?\.\{([^}]*)\}', text) for x in m.group(1).split(',')}
        out = turn(text, imported(text), own)
        if out != text:
            open(path, 'w').write(out)
            changed += 1
    for path in sorted(glob.glob('crates/*/src/**/*.rt', recursive=True)):
        text = open(path).read()
        pieces = re.split(r'(b?"(?:[^"\\]|\\.)*")', text)
        out = ''.join(p if i % 2 else turn(p, imported(text)) for i, p in enumerate(pieces))
        if out != text:
            open(path, 'w').write(out)
            changed += 1
    for path in sorted(glob.glob('crates/*/must-fail/*.edit') + glob.glob('crates/*/wrong_programs.txt')):
        text = open(path).read()
        out = '\n'.join(turn(line, set()) if re.match(r'(old|new): ', line) else line for line in text.split('\n'))
        if out != text:
            open(path, 'w').write(out)
            changed += 1
    for path in ['README.md', 'CHANGELOG.md'] + sorted(glob.glob('docs/*.md') + glob.glob('bench/*.md') + glob.glob('tools/*.md')):
        if path in ('docs/PORT.md', 'docs/RULES.md'):
            continue
        text = open(path).read()
        out = re.sub(r'```.*?```|`[^`\n]+`', lambda m: turn(m.group(0), set()), text, flags=re.S)
        if out != text:
            open(path, 'w').write(out)
            changed += 1
    print('respell: %d files' % changed)


main()
