#!/usr/bin/env python3
"""What a reader need not take on trust, checked on the text: see docs/SPECIFICATION.md, "What must be believed".

    tools/assumed.py

- Every folder of crates/ is listed in crates.txt, and no crate lists `libc` or `os`; the file HANDLES, if there is one, allows none: so no function may end the
  process, wait for ever, start threads or open sockets, in place of meeting its contract.
- Every crate's root file has `#![tactic(auto)]`, or that with what its tactics use, by which the check tries them.
- No function that another crate can call has a `requires`, and each of the library's has an `ensures`. (Programs, and `recorded_calls`, which they alone use,
  need none.)
- No source declares a C function, and no proof, definition or clause has a hole (`?`, `?name`, `{! .. !}`) or an axiom.

Prints what it counted, or each place where that is not so, and then ends with 1. It is no verdict: that is `rt ci`.
"""
import glob, os, re, sys

HERE = os.path.dirname(os.path.dirname(os.path.abspath(__file__)))
SHARED = 'recorded_calls'
PAST_THE_HANDLES = {'libc', 'os'}
HOLE = re.compile(r'(?<![\w-])\?|\{!')
AXIOM = re.compile(r'\b(axiom|postulate|sorry|Prim\.Axiom)\b')


def functions(text):
    """(header, name) of each public function: from its line to the `{` that begins its body, which ends a line and stands behind a balanced header."""
    for m in re.finditer(r'^ *pub (?:extern "C" )?fn (\w+)', text, re.M):
        end = m.end()
        while True:
            end = text.index('{\n', end) + 1
            header = text[m.start():end - 1]
            if header.count('{') == header.count('}') and header.count('(') == header.count(')'):
                break
        yield header, m.group(1)


def listed():
    """What each crate of crates.txt uses: a line is NAME, perhaps a word or more, a colon, and what it uses."""
    found = {}
    for line in open(os.path.join(HERE, 'crates.txt')):
        name, colon, uses = line.split('#')[0].partition(':')
        if colon:
            found[name.split()[0]] = set(uses.split())
    return found


def main():
    wrong, count = [], 0
    uses = listed()
    folders = set(os.listdir(os.path.join(HERE, 'crates')))
    wrong += [f'crates/{c}: not in crates.txt' for c in sorted(folders - set(uses))] + [f'crates.txt: no folder {c}' for c in sorted(set(uses) - folders)]
    wrong += [f'crates.txt: {c} lists {name}' for c in sorted(uses) for name in sorted(uses[c] & PAST_THE_HANDLES)]
    handles = os.path.join(HERE, 'HANDLES')
    if os.path.exists(handles) and open(handles).read().strip() != 'Handles allowed: none.':
        wrong.append('HANDLES: it allows more than none')
    programs = {SHARED}
    for crate in sorted(folders):
        source = os.path.join(HERE, 'crates', crate, 'src')
        root = next((name for name in ('main.rt', 'lib.rt') if os.path.exists(os.path.join(source, name))), None)
        if root == 'main.rt':
            programs.add(crate)
        if root is None or not re.search(r'^#!\[tactic\(auto[,)]', open(os.path.join(source, root)).read(), re.M):
            wrong.append(f'crates/{crate}: its root file has no line #![tactic(auto)]')
    wrong += [f'crates.txt: {c}, which is no program, uses {SHARED}' for c in sorted(uses) if SHARED in uses[c] and c not in programs]
    for path in sorted(glob.glob(os.path.join(HERE, 'crates/*/src/**/*.rt'), recursive=True)):
        short, text = os.path.relpath(path, HERE), open(path).read()
        if re.search(r'^ *(?:unsafe )?extern "C" *\{', text, re.M):
            wrong.append(f'{short}: it declares C functions of its own')
        for header, name in functions(text):
            count += 1
            if re.search(r'\brequires\b', header):
                wrong.append(f'{short}: {name} has a `requires`')
            if not re.search(r'\bensures\b', header) and short.split('/')[1] not in programs:
                wrong.append(f'{short}: {name} has no `ensures`')
        for number, line in enumerate(text.split('\n'), 1):
            code = line.split('//')[0]
            if AXIOM.search(code) or re.match(r' *(requires|ensures|ghost)\b', code) and HOLE.search(code):
                wrong.append(f'{short}:{number}: {line.strip()}')
    laws = [path for part in ('proofs', 'specs') for path in glob.glob(os.path.join(HERE, f'crates/*/{part}/**/*.antt'), recursive=True)]
    for path in sorted(laws):
        for number, line in enumerate(open(path), 1):
            code = line.split('--')[0]
            if AXIOM.search(code) or HOLE.search(code):
                wrong.append(f'{os.path.relpath(path, HERE)}:{number}: {line.strip()}')
    print('\n'.join(wrong) or f'{len(uses)} crates, each with its tactics and none past the handles; {count} public functions, none with a `requires`, each of the library with a '
          f'contract; no hole and no axiom in {len(laws)} files of proofs and definitions')
    sys.exit(1 if wrong else 0)


main()
