#!/usr/bin/env python3
"""landing.py OLD NEW [--list FILE] [--logs BEFORE AFTER]: what the note of a landing (docs/landings) needs, from git and from two logs of tools/timed.py.

Run it in the repository's root. It prints what was added, changed and removed between two commits, by name: definitions of `specs/`; contracts of functions
(the signature with `requires` and `ensures`, and what an impl gives for a `ghost` item of a trait); code under a contract that stayed (attributes belong to
it); types, impls and constants of `src/`; files of `proofs/`; wrong programs; and files of `specs/` and `src/` of which the imports changed. Then how many
of each stayed, by group of crates; the lines added, changed and removed, by kind; and with `--logs` the times. `--list` writes to FILE the names of what
stayed, and each crate's times. A comment is no change."""
import collections
import io
import re
import subprocess
import sys
import tarfile

KINDS = 'definition', 'contract', 'code', 'type, impl or constant', 'file of proofs', 'wrong program', 'imports of a file'
WIDTH = 160


def files(commit):
    """The text of each file below crates/, and crates.txt."""
    data = subprocess.run(['git', 'archive', commit, 'crates', 'crates.txt'], check=True, stdout=subprocess.PIPE).stdout
    with tarfile.open(fileobj=io.BytesIO(data)) as tar:
        return {m.name: tar.extractfile(m).read().decode('utf-8', 'replace') for m in tar if m.isfile()}


# ---- definitions

IMPORT = re.compile(r'(pub )?(use|mod) ')
SIGNED = re.compile(r'(?:(?:pub|abbrev|unfoldable|opaque)\s+)*(?:(?:record|data)\s+([^\s(:]+)|([^\s(:]+) :(?:\s|$)|(infix[lr]? .*))')
BLOCK = re.compile(r'(?:(?:pub|abbrev|unfoldable|opaque)\s+)*(module|mutual)\b')


def lines_of(text):
    return [line for line in (re.sub(r'(^|\s)--(\s.*|$)', '', line).rstrip() for line in text.split('\n')) if line]


def definitions(path, lines):
    """Name and text of each definition: from its signature to the next one. A module's head belongs to each definition inside."""
    found, at = [], 0
    while at < len(lines):
        line, end = lines[at], at + 1
        while end < len(lines) and lines[end].startswith(' '):
            end += 1
        block, signed = BLOCK.match(line), SIGNED.match(line)
        if block:
            head = at
            while block.group(1) == 'module' and not lines[head].endswith('where'):
                head += 1
            inside = lines[head + 1:end]
            depth = min(len(l) - len(l.lstrip()) for l in inside)
            found += [(name, '\n'.join(lines[at:head + 1] + [text])) for name, text in definitions(path, [l[depth:] for l in inside])]
        elif signed:
            found.append((next(filter(None, signed.groups())), '\n'.join(lines[at:end])))
        elif found:
            found[-1] = found[-1][0], '\n'.join([found[-1][1]] + lines[at:end])
        else:
            sys.exit(f'{path}: a line that belongs to no definition: {line}')
        at = end
    return found


# ---- code

TOKEN = re.compile(r'//[^\n]*|/\*.*?\*/|r(#*)".*?"\1|b?"(?:\\.|[^"\\])*"|b?\'(?:\\[^\']*|[^\\\'])\'', re.S)
CLAUSE = re.compile(r'\b(requires|ensures|decreases|ghost)\b[^{}]*$')
WORDS = 'fn|struct|enum|union|trait|impl|mod|const|static|type|ghost|use|macro_rules!'
ITEM = re.compile(r'(?:pub(?:\([^)]*\))? )?(?:(?:const|final|unsafe|ghost|default|extern "C") )*(%s)\b\s*(\w*)' % WORDS)
BRACED = re.compile(r'(pub |ghost )?use\b|(pub(\([^)]*\))? )?(const|static)\b(?! fn)')


def uncommented(text):
    """The text without comments, and the same with blanks for what stands in strings."""
    out = TOKEN.sub(lambda m: '' if m.group().startswith('/') else m.group(), text)
    return out, TOKEN.sub(lambda m: re.sub(r'[^\n]', ' ', m.group()), out)


def items(text, mask):
    """The items of a file or of a block: attributes, head with clauses, and body, which is empty where there is none."""
    at = 0
    while True:
        attributes = re.compile(r'\s*(#!?\[)?').match(mask, at)
        start = at = attributes.end() if not attributes.group(1) else at
        marks = []
        while True:
            m = re.compile(r'\s*#!?\[').match(mask, at)
            if not m:
                break
            at = closed(mask, m.end() - 1)
            marks.append(text[m.start():at].strip())
            if marks[-1].startswith('#!'):
                break
        if marks and marks[-1].startswith('#!'):
            yield marks, '', '', ''
            continue
        start = at = re.compile(r'\s*').match(mask, at).end()
        if at >= len(mask):
            return
        ends = False
        while not ends:
            m = re.compile(r'[{(\[;]').search(mask, at)
            if not m:
                sys.exit('an item with no end: ' + text[start:start + 80])
            at = m.start()
            if m.group() == ';':
                yield marks, text[start:at + 1], '', ''
                at, ends = at + 1, True
            elif m.group() == '{' and not CLAUSE.search(mask[start:at]) and not BRACED.match(mask[start:at]):
                end = closed(mask, at)
                yield marks, text[start:at], text[at + 1:end - 1], mask[at + 1:end - 1]
                at, ends = end, True
            else:
                at = closed(mask, at)


def closed(mask, at):
    """Where the bracket that opens at a place is closed, and one further."""
    depth = 0
    for i in range(at, len(mask)):
        depth += mask[i] in '{([' and 1 or mask[i] in '})]' and -1 or 0
        if depth == 0:
            return i + 1
    sys.exit('a bracket that is not closed: ' + mask[at:at + 80])


def code(where, text, mask):
    """Kind, name and text of each contract, of the code under it, and of each type, impl and constant."""
    for marks, head, body, masked in items(text, mask):
        words, marks = ' '.join(head.split()), '\n'.join(marks)
        m = ITEM.match(words)
        if not m:
            yield 'code', f'{where} (attributes)', marks + words
        elif 'cfg(test)' in marks:
            continue
        elif m.group(1) == 'fn':
            yield 'contract', f'{where}::{m.group(2)}', words
            yield 'code', f'{where}::{m.group(2)}', marks + '\n' + '\n'.join(filter(None, map(str.strip, body.split('\n'))))
        elif m.group(1) in ('impl', 'trait', 'mod') and (body or m.group(1) == 'impl'):
            name = words.rstrip(' {') if m.group(1) == 'impl' else m.group(2)
            if m.group(1) != 'mod':
                yield 'type, impl or constant', f'{where}::{name}', marks + words
            yield from code(f'{where}::{re.sub(r"^impl(<[^ ]*>)? ", "", name)}', body, masked)
        elif m.group(1) == 'ghost' and m.group(2) != 'use':
            yield 'contract', f'{where}::{m.group(2)}', words
        elif m.group(1) in ('use', 'ghost', 'mod'):
            yield 'imports of a file', where, marks + words + '\n'
        else:
            yield 'type, impl or constant', f'{where}::{m.group(2)}', marks + words + ' '.join(body.split())


def things(texts):
    """What a commit has: kind, crate and name, to the text."""
    out = collections.defaultdict(str)
    for path, text in texts.items():
        parts = path.split('/')
        if len(parts) < 3 or parts[0] != 'crates':
            continue
        crate, part, rest = parts[1], parts[2], '/'.join(parts[3:])
        if part == 'specs' and rest.endswith('.antt'):
            lines = lines_of(text)
            out['imports of a file', crate, f'{crate}/specs/{rest}'] = '\n'.join(filter(IMPORT.match, lines))
            for name, body in definitions(path, [line for line in lines if not IMPORT.match(line)]):
                out['definition', crate, f'{crate}.{rest[:-5].replace("/", ".")}.{name}'] += body + '\n'
        elif part == 'proofs' and rest.endswith('.antt'):
            out['file of proofs', crate, f'{crate}/{rest}'] = '\n'.join(lines_of(text))
        elif part == 'src' and rest.endswith('.rt'):
            inside = '::'.join([crate] + ([] if rest in ('lib.rt', 'main.rt') else rest[:-3].split('/')))
            for kind, name, body in code(inside, *uncommented(text)):
                out[kind, crate, name] += body + '\n'
        elif part == 'must-fail':
            out['wrong program', crate, f'{crate}/{rest}'] = '\n'.join(line for line in text.split('\n') if not line.startswith('#'))
        elif part == 'wrong_programs.txt':
            for entry in re.split(r'\n\s*\n', text)[1:]:
                lines = entry.strip().split('\n')
                function, now = ''.join(lines[1:2])[4:], ''.join(lines[3:4])[5:]
                out['wrong program', crate, f'{crate}/{function}, {now}'] += '\n'.join(lines[1:])
    return out


def groups(texts):
    """The group of each crate, and the crates that it names."""
    titles, below, title = {}, {}, ''
    for line in texts['crates.txt'].split('\n'):
        if re.match(r'# [a-z].*', line) and ':' not in line:
            title = line[2:]
        m = re.match(r'(\w+)(?: staticlib)?:(.*)', line)
        if m:
            titles[m.group(1)], below[m.group(1)] = title, m.group(2).split()
    return titles, below


def above(changed, below):
    """The crates that changed, and those that stand on them."""
    out = changed & set(below)
    while True:
        more = {crate for crate, names in below.items() if crate not in out and out & set(names)}
        if not more:
            return out
        out |= more


def lines_by_kind(old, new):
    """Lines added, changed and removed in each folder of the crates, and elsewhere."""
    diff = subprocess.run(['git', 'diff', '-U0', '--no-color', old, new], check=True, stdout=subprocess.PIPE).stdout.decode('utf-8', 'replace')
    count, kind = collections.defaultdict(lambda: [0, 0, 0]), None
    for line in diff.split('\n'):
        if line.startswith('diff --git '):
            path = line.split(' b/')[-1].split('/')
            kind = path[2] if path[0] == 'crates' and len(path) > 2 else path[0]
        m = re.match(r'@@ -\d+(?:,(\d+))? \+\d+(?:,(\d+))? @@', line)
        if m:
            gone, came = (int(n) if n is not None else 1 for n in m.groups())
            both = min(gone, came)
            for i, n in enumerate((came - both, both, gone - both)):
                count[kind][i] += n
    return count


# ---- a log

def times(path):
    """Seconds of the whole run and until the last proof, of each crate's check, and of each check of its edits."""
    proved, checks, last = {}, [], None
    for line in open(path):
        m = re.match(r'\s*([\d.]+) (?:\| rt: (\w+) proved$|check (\w+) ([\d.]+)$|ended -?\d+$)', line)
        if m and m.group(2):
            proved[m.group(2)] = float(m.group(1))
        elif m and m.group(3):
            checks.append((m.group(3), float(m.group(1)) - float(m.group(4)), float(m.group(4))))
        elif m:
            last = float(m.group(1))
    if last is None:
        sys.exit(f'{path}: the run has not ended')
    crates, edits = collections.Counter(), collections.defaultdict(list)
    for crate, start, seconds in checks:
        if start < proved.get(crate, 0):
            crates[crate] += seconds
        else:
            edits[crate].append(seconds)
    return last, max(proved.values(), default=0), crates, edits


# ---- what is printed

def wrapped(head, names):
    lines, line = [], head
    for name in (f'`{name}`' if ' ' in name else name for name in names):
        if len(line) + len(name) + 1 > WIDTH:
            lines.append(line)
            line = '   '
        line += ' ' + name
    return '\n'.join(lines + [line])


def moved(was, now):
    for kind in KINDS:
        for word, keys in (
            ('added', [k for k in now if k not in was]),
            ('changed', [k for k in now if k in was and was[k] != now[k]]),
            ('removed', [k for k in was if k not in now]),
        ):
            # (what was added or removed whole is said once)
            names = sorted(k[2] for k in keys if k[0] == kind and not (kind in ('code', 'imports of a file') and word != 'changed'))
            if names:
                print(wrapped(f'{kind}, {word}:', names))


def timed(logs, changed, again):
    (whole0, proofs0, crates0, edits0), (whole1, proofs1, crates1, edits1) = logs
    print(f'gate: {whole0:.0f} s before, {whole1:.0f} s after; until the last proof {proofs0:.0f} and {proofs1:.0f}')
    both = [c for c in crates0 if c in crates1 and c in again]
    print(f'the {len(both)} crates that were proved again, summed: {sum(crates0[c] for c in both):.0f} s before, {sum(crates1[c] for c in both):.0f} s after')
    for word, edits in ('before', edits0), ('after', edits1):
        print(f'must-fail edits {word}: {sum(map(len, edits.values()))} checks, {sum(map(sum, edits.values())):.0f} s')
    for crate in sorted(both, key=lambda c: (c not in changed, -crates1[c])):
        if crate in changed or crates1[crate] > 45 or abs(crates1[crate] - crates0[crate]) > 5:
            print(f'  {crate}: {crates0[crate]:.0f} s before, {crates1[crate]:.0f} after')


def listed(path, given, kinds, kept, titles, logs):
    with open(path, 'w') as out:
        out.write(f'What stayed between {given[0]} and {given[1]}, by name: written by tools/landing.py.\n')
        for kind in kinds:
            out.write(f'\n{kind}: {sum(k[0] == kind for k in kept)}\n')
            for crate in sorted({k[1] for k in kept if k[0] == kind}):
                names = sorted(re.sub(r'^%s(\.|::|/)' % crate, '', k[2]) for k in kept if k[0] == kind and k[1] == crate)
                out.write(wrapped(f'  {crate}:', names) + '\n')
        if logs:
            out.write('\nseconds of each check, before and after, and those of its must-fail edits\n')
            (_, _, crates0, edits0), (_, _, crates1, edits1) = logs
            for crate in titles:
                edits = f', {sum(edits0.get(crate, [])):.0f} {sum(edits1.get(crate, [])):.0f}' if crate in edits0 or crate in edits1 else ''
                out.write(f'  {crate}: {crates0.get(crate, 0):.0f} {crates1.get(crate, 0):.0f}{edits}\n')


def main():
    args, given, path, logs = sys.argv[1:], [], None, []
    while args:
        word = args.pop(0)
        if word == '--list' and args:
            path = args.pop(0)
        elif word == '--logs' and len(args) > 1:
            logs = [times(args.pop(0)), times(args.pop(0))]
        else:
            given.append(word)
    if len(given) != 2 or any(word.startswith('-') for word in given):
        sys.exit(__doc__)
    old, new = map(files, given)
    was, now = things(old), things(new)
    titles, below = groups(new)
    kept = [key for key in now if was.get(key) == now[key]]
    kinds = [kind for kind in KINDS if kind not in ('code', 'imports of a file')]
    moved(was, now)
    print('\nstayed: ' + ', '.join(f'{kind} {sum(k[0] == kind for k in kept)} of {sum(k[0] == kind for k in now)}' for kind in kinds))
    for title in dict.fromkeys(titles.values()):
        print(f'  {title}: ' + ', '.join(f'{kind} {sum(k[0] == kind and titles.get(k[1]) == title for k in kept)}' for kind in kinds))
    print('\n%-18s added changed removed' % 'lines')
    for kind, count in sorted(lines_by_kind(*given).items()):
        print('%-18s %5d %7d %7d' % (kind, *count))
    changed = {k[1] for k in set(was) | set(now) if was.get(k) != now.get(k)}
    again = above(changed, below)
    print(f'\ncrates that changed: {len(changed & set(titles))}, and with those above them: {len(again)} of {len(titles)}')
    if logs:
        timed(logs, changed, again)
    if path:
        listed(path, given, kinds, kept, titles, logs)


main()
