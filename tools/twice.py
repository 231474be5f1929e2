#!/usr/bin/env python3
"""Laws and definitions that stand in more than one file.

    tools/twice.py [LENGTH]

Two laws of crates/*/proofs/*.antt are the same here if their statements are, with the parameters of the modules around them and up to the names of the variables
that they bind; two definitions or records, there or in crates/*/specs/*.antt, if their clauses or fields are the same too. Statements of fewer than LENGTH characters (20
where none is given) are left out, and so are what stands under a `where` and what APART names. Prints each group with its places, and how many there are. It goes by the
text alone: it does not find two laws whose premises stand in another order, and it takes two things of one name for the same thing.
"""
import glob, os, re, sys

HERE = os.path.dirname(os.path.dirname(os.path.abspath(__file__)))
HEAD = re.compile(r"^ *((?:(?:pub|abbrev|unfoldable) )*)([^\s(){}:]+)(?: \{ℓ\})? : ")
RECORD = re.compile(r"^ *(?:pub )?record ([^\s({]+)(.*)$")
MODULE = re.compile(r"^ *module _ ")
WORD = re.compile(r"[^\s(){},;.]+|[(){},;.]")
BOUND = re.compile(r"[({]((?:[^\s(){}:]+ )+): ")
LAMBDA = re.compile(r"λ ((?:[^\s(){}.]+ )*[^\s(){}.]+)\.")
# alike by the text, and of another meaning: a data entry of `Packed` is an item, one of `Tx` what the item holds
APART = [{'Packed', 'Tx'}]


def indent(line):
    return len(line) - len(line.lstrip(' '))


def renamed(text, more=()):
    """The text with the variables that it binds, and those of `more`, by numbers in their order, and with no arrow between two binders."""
    names = {w for m in BOUND.finditer(text) for w in m.group(1).split()} | {w for m in LAMBDA.finditer(text) for w in m.group(1).split()} | set(more)
    numbers, out = {}, []
    for word in WORD.findall(text):
        out.append('#%d' % numbers.setdefault(word, len(numbers)) if word in names else word)
    return re.sub(r'([)}]) → (?=[({])', r'\1 ', ' '.join(out))


def gathered(lines, i):
    """Line i with those that continue it: deeper ones that begin with an arrow or a parenthesis. And the index of the next."""
    text, i, deep = lines[i].strip(), i + 1, indent(lines[i])
    while i < len(lines) and indent(lines[i]) > deep and lines[i].strip()[:1] in '→({≡×' and lines[i].strip():
        text, i = text + ' ' + lines[i].strip(), i + 1
    return text, i


def clauses(lines, i, deep, name, imported):
    """What follows the statement at line i, up to the next blank line: the clauses with `name` as §, their variables renamed."""
    body = []
    while i < len(lines) and lines[i].strip() and indent(lines[i]) >= deep:
        body, i = body + [lines[i].strip()], i + 1
    out = []
    for line in body:
        left = line.split(' = ')[0] if line.startswith(name + ' ') else ''
        words = [w for w in WORD.findall(left) if w not in imported and re.match(r"[a-z_][\w'₁₂₃₄-]*$", w)]
        out.append(renamed(' '.join('§' if w == name else w for w in WORD.findall(line)), words))
    return ' | '.join(out)


def laws(path):
    """(text, name, line) of each law, definition and record of a file."""
    lines = open(path).read().split('\n')
    imported = {w for l in lines if l.startswith('use ') for w in re.findall(r"[^\s{},]+", l.partition('{')[2] or l.split()[-1])}
    around, inside, i = [], None, 0
    while i < len(lines):
        line, deep = lines[i], indent(lines[i])
        if not line.strip() or line.strip().startswith(('--', 'use ', 'pub mod ')):
            i += 1
            continue
        around = [a for a in around if a[0] < deep]
        if inside is not None and deep <= inside:
            inside = None
        module, record, head = MODULE.match(line), RECORD.match(line), HEAD.match(line)
        if inside is not None:
            i += 1
        elif module:
            text, i = gathered(lines, i)
            around.append((deep, text[len('module _ '):].rsplit(' where', 1)[0]))
        elif record:
            body, j = [], i + 1
            while j < len(lines) and lines[j].strip() and indent(lines[j]) > deep:
                body, j = body + [re.sub(r'^pub ', '', lines[j].strip())], j + 1
            yield renamed('record ' + ' '.join(a for _, a in around) + record.group(2) + ' ' + ' ; '.join(body)), record.group(1), i + 1
            i = j
        elif head:
            first = i
            text, i = gathered(lines, i)
            name, kind = head.group(2), text.split(' : ', 1)[1]
            params = ' '.join(a for _, a in around)
            statement = renamed((params + ' → ' if params else '') + kind)
            if '/specs/' in path or head.group(1) not in ('', 'pub '):
                statement += ' | ' + clauses(lines, i, deep, name, imported)
            yield statement, name, first + 1
        else:
            inside = deep if line.endswith(' where') else None
            i += 1


def main():
    least = int(sys.argv[1]) if len(sys.argv) > 1 else 20
    groups = {}
    for path in sorted(glob.glob(os.path.join(HERE, 'crates/*/proofs/*.antt')) + glob.glob(os.path.join(HERE, 'crates/*/specs/*.antt'))):
        short = os.path.relpath(path, HERE)
        for text, name, line in laws(path):
            if len(text) >= least:
                groups.setdefault(text, []).append((short, line, name))
    twice = [(text, group) for text, group in groups.items() if len({path for path, _, _ in group}) > 1 and {name for _, _, name in group} not in APART]
    for text, group in twice:
        print(text if len(text) < 160 else text[:157] + '...')
        for path, line, name in group:
            print('    %s:%d %s' % (path, line, name))
    print('%d stand in more than one file' % len(twice))


main()
