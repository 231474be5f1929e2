#!/usr/bin/env python3
"""places.py [POINT..]: the places in crates/*/src that docs/DESIGN-PASS.md counts, a line for each, and how many there are of each point.

Run it at the top of the repository. It goes by the text, comments and tests (`#[cfg(test)]`) left out, so it finds forms and not their reasons; which of them stay is for the page to say.
  1  own enums with one way out beside a value (or none), and constants that number kinds
  2  functions of one crate that are the same but for names of types, callees and constants
  3  loops: `while` and `loop`
  4  types without the derives of a value, and functions that a derive or a trait of the library has
  5  three or more parameters of the same names in three or more functions
  6  a slice and a number of its elements side by side, and searches by halves
  7  chains of three or more tests of one name against constants
  8  files of proofs whose answers are `search ways` alone"""
import collections
import os
import re
import sys


def sources():
    for folder, _, names in sorted(os.walk('crates')):
        parts = folder.split(os.sep)
        if len(parts) < 3 or parts[2] != 'src':
            continue
        for name in sorted(names):
            if name.endswith('.rt') and name != 'tests.rt':
                yield os.path.join(folder, name)


def code(path):
    """The lines of a file, empty where they are comments or tests."""
    lines, tests = [], False
    for line in open(path, encoding='utf-8').read().split('\n'):
        if line.startswith('#[cfg(test)]'):
            tests = True
        lines.append('' if tests or line.lstrip().startswith('//') else line)
    return lines


FN = re.compile(r'^(\s*)(pub )?fn (\w+)')


def functions(path):
    """Line, name, signature (with the parameters) and body of each function."""
    lines = code(path)
    at = 0
    while at < len(lines):
        m = FN.match(lines[at])
        if not m:
            at += 1
            continue
        end, body = at, False
        while end < len(lines) and lines[end] != m.group(1) + '}' and (body or not lines[end].rstrip().endswith(';')):
            body = body or lines[end].rstrip().endswith('{')
            end += 1
        text = '\n'.join(lines[at:end + 1])
        head, _, body = text.partition('\n' + m.group(1) + '{')
        clauses = re.split(r'\n\s*(?:requires|ensures|ghost)\b', head)
        yield at + 1, m.group(3), clauses[0], body
        at = end + 1


def parameters(signature):
    inside = signature[signature.index('(') + 1:]
    depth, word, out = 1, '', []
    for c in inside:
        depth += c in '(<[' and 1 or c in ')>]' and -1 or 0
        if depth == 0:
            break
        if c == ',' and depth == 1:
            out.append(word)
            word = ''
        else:
            word += c
    out.append(word)
    pairs = [p.split(':', 1) for p in out if ':' in p]
    return [(a.strip().replace('mut ', ''), b.strip()) for a, b in pairs]


def enums(path):
    lines = code(path)
    for at, line in enumerate(lines):
        m = re.match(r'(?:pub )?enum (\w+)', line)
        if not m:
            continue
        cases, depth = [], 0
        for inner in lines[at + 1:]:
            if depth == 0 and inner == '}':
                break
            if depth == 0 and re.match(r'    [A-Z]', inner):
                cases.append(inner.strip().rstrip(',{').strip())
            depth += inner.count('{') - inner.count('}')
        yield at + 1, m.group(1), cases


def point_1():
    for path in sources():
        for at, name, cases in enums(path):
            whys = [c for c in cases if re.match(r'(Refused|Overflow|Short|Invalid|Nothing|None|Same)\b', c)]
            if whys:
                yield '%s:%d: enum %s: %s' % (path, at, name, ', '.join(cases))
        group = []
        for at, line in enumerate(code(path)):
            m = re.match(r'\s*(?:pub )?const (\w+): (u8|u32|u64|usize) = (\d+);', line)
            if m:
                group.append((at + 1, m.group(1), int(m.group(3))))
        run = [g for g in group]
        values = [g[2] for g in run]
        if len(run) >= 3 and any(values[i:i + 3] == [values[i], values[i] + 1, values[i] + 2] for i in range(len(values) - 2)):
            yield '%s:%d: constants that number kinds: %s' % (path, run[0][0], ', '.join(g[1] for g in run))


def skeleton(body):
    """A body without what may differ between twins: names with a capital or of callees, and numbers."""
    body = re.sub(r'\s+', ' ', body)
    body = re.sub(r'\b[A-Z]\w*', 'T', body)
    body = re.sub(r'\b\d[\d_xa-f]*\b', '0', body)
    body = re.sub(r'\b(?:\w+::)*\w+\(', 'f(', body)
    names = {}
    return re.sub(r'\b[a-z_]\w*\b', lambda m: m.group(0) if m.group(0) in
                  ('if', 'else', 'while', 'for', 'in', 'return', 'let', 'mut', 'match', 'as', 'self', 'true', 'false') else names.setdefault(m.group(0), 'v%d' % len(names)), body)


def point_2():
    groups = collections.defaultdict(list)
    for path in sources():
        for at, name, signature, body in functions(path):
            s = skeleton(body)
            if len(s) > 48:
                groups[(path.split(os.sep)[1], s)].append('%s:%d %s' % (path, at, name))
    for key in sorted(groups, key=lambda k: groups[k][0]):
        if len(groups[key]) > 1:
            yield '; '.join(groups[key])


def point_3():
    for path in sources():
        for at, line in enumerate(code(path)):
            if re.match(r"\s*(?:'\w+: )?(while|loop)\b", line):
                yield '%s:%d: %s' % (path, at + 1, line.strip())


def point_4():
    for path in sources():
        lines = code(path)
        for at, line in enumerate(lines):
            m = re.match(r'(?:pub )?(struct|enum) (\w+)', line)
            if m and not line.endswith(';') and '<' not in line and 'PartialEq' not in ' '.join(lines[max(0, at - 2):at]):
                yield '%s:%d: %s %s without PartialEq, Eq and Debug' % (path, at + 1, m.group(1), m.group(2))
        for at, name, signature, body in functions(path):
            if re.match(r'(same|less|before|is_zero|zero|from_u64|from_u\d+|min|max|saturating_\w+|capped_u64|number|carry|borrow)$', name) or re.match(r'same_(hash|point|owner|taker)', name):
                yield '%s:%d: fn %s' % (path, at, name)
            if re.search(r'std::num::wrapping_\w+\(', body):
                yield '%s:%d: fn %s calls std::num::wrapping_..' % (path, at, name)


def point_5():
    groups = collections.defaultdict(list)
    for path in sources():
        for at, name, signature, body in functions(path):
            names = [p[0] for p in parameters(signature)]
            seen = set()
            for i in range(len(names)):
                for j in range(i + 3, len(names) + 1):
                    seen.add(tuple(names[i:j]))
            for run in seen:
                groups[run].append('%s:%d' % (path, at))
    kept = {r: p for r, p in groups.items() if len(p) > 2}
    for run in sorted(kept, key=lambda r: (-len(kept[r]), r)):
        longer = [o for o in kept if len(o) > len(run) and len(kept[o]) == len(kept[run]) and any(o[i:i + len(run)] == run for i in range(len(o)))]
        if not longer:
            yield '(%s) in %d functions, the first at %s' % (', '.join(run), len(kept[run]), kept[run][0])


def point_6():
    for path in sources():
        for at, name, signature, body in functions(path):
            pairs = parameters(signature)
            for (a, s), (b, t) in zip(pairs, pairs[1:]):
                if s.startswith('&') and '[' in s and t in ('usize', 'u32') and re.match(r'(n|m|count|len|total|taken|used|size)$', b):
                    yield '%s:%d: fn %s(%s: %s, %s: %s)' % (path, at, name, a, s, b, t)
            if re.search(r'while low < high', body):
                yield '%s:%d: fn %s searches by halves' % (path, at, name)


def point_7():
    for path in sources():
        for at, name, signature, body in functions(path):
            tests = collections.Counter(re.findall(r'if (\w+) == [A-Z][A-Z_0-9]+ \{', body))
            for word, n in tests.items():
                if n > 2:
                    yield '%s:%d: fn %s tests %s against %d constants' % (path, at, name, word, n)


def point_8():
    for folder, _, names in sorted(os.walk('crates')):
        if folder.split(os.sep)[2:3] == ['proofs'] and 'Answers.antt' in names:
            text = open(os.path.join(folder, 'Answers.antt'), encoding='utf-8').read()
            if re.search(r'^pub \S+ : goal\.', text, re.M) and not re.search(r'^(?!.*= search ways$)(?!use |pub |--|$).+$', text, re.M):
                yield os.path.join(folder, 'Answers.antt')


def main():
    points = sys.argv[1:] or [str(n) for n in range(1, 9)]
    for p in points:
        found = list(globals()['point_' + p]())
        if sys.argv[1:]:
            print('\n'.join(found))
        print('point %s: %d' % (p, len(found)))


main()
