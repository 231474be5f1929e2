#!/usr/bin/env python3
"""Writes the lines of crates.txt: each crate in its group, with the crates that its own files name.

    tools/crates.py [--check]

A crate's files are those of its src/, specs/ and proofs/. What they name is `Rattle.X` in a definition, a law or a `ghost use`, and in code `X::`, `use X;` and
`use X as Y;`, with comments left out. `X::` is no crate where X is a module of the crate itself, or a name that a `use` of that file brings from elsewhere. The names of
libraries of the toolchain that a line of crates.txt lists (`io`, but for `std`, which is never listed) count too. `rt` finds by itself what stands below those. GROUPS, which docs/CRATES.md has too,
says which crate stands where, from the bottom up, and so do the crates of one group. Those of a group below `outside` may use the ground and their own group: where one uses
another's, that is said, and it is wrong; and so it is where one of APART stands, by whatever way, on a crate of a peer's update. With `--check` nothing is
written: it says what is not up to date in crates.txt or in docs/CRATES.md.
"""
import glob, os, re, sys

HERE = os.path.dirname(os.path.dirname(os.path.abspath(__file__)))
GROUPS = [
    ('ground', '''error arithmetic units molecule lists item_index item_lookup transaction reader list_writer transaction_writer out_points table_bytes rows'''),
    ("a peer's update", '''rules limits comparison records accounts contribution funding_tx words negotiation'''),
    ('holds', '''hold_records pick_kinds unavailable_picks picks watchtower_holds held_cells held_bytes'''),
    ('exclusions', '''exclusion_entries exclusions exclusion_marks'''),
    ('our own side', '''funding_cell udt_cells cell_output cell_deps distinct_deps base_lists base_inputs base_writer funding_builder'''),
    ('outside', '''transaction_lists item_places verdict_line case_file answer_words capi check_update show_transaction'''),
    ('laws and cases', '''transaction_theorems base_theorems base_compared base_steps table_laws table_steps case_parts known_cases known_orders known_outcomes
        known_holds known_exclusions known_bases known_lines recorded_calls recorded_updates recorded_negotiations recorded_holds recorded_exclusions recorded_requests
        vector_parts molecule_vectors'''),
]
# those of the laws and cases that stand on no crate of a peer's update, so that none is proved again when a rule of it changes
APART = '''transaction_theorems base_theorems table_laws table_steps case_parts known_holds known_exclusions known_bases
    recorded_holds recorded_exclusions recorded_requests'''
STATIC = {'capi'}
# libraries of the toolchain that a crate may use, beside `std`
LIBRARIES = {'io'}
HEAD = '''# NAME: the crates that its own files name; `NAME staticlib:` is a static library. By groups, from the bottom up; each crate below those of its group that use it.
# Written by tools/crates.py. The order is free for `rt ci`, which works on as many at once as there are processors and memory for, the longest chain of crates
# first. What each is: docs/CRATES.md.
'''
LAW = re.compile(r'\bRattle\.([a-z]\w*)')
PATH = re.compile(r'(?<![\w:.])([a-z]\w*)::')
ALONE = re.compile(r'^ *(?:pub )?use ([a-z]\w*)(?: as \w+)?;', re.M)
USE = re.compile(r'^ *(?:pub(?:\([a-z]+\))? )?use ([^;]+);', re.M)
OWN = re.compile(r'^ *(?:pub(?:\([a-z]+\))? )?mod ([a-z]\w*)', re.M)
ROW = re.compile(r'^\| (`[^|]*`) \|', re.M)


def texts(crate, pattern):
    return [open(p).read() for part in ('src', 'specs', 'proofs') for p in sorted(glob.glob(os.path.join(HERE, 'crates', crate, part, '**', pattern), recursive=True))]


def brought(code):
    """The names that the `use` lines of a file bring from inside a crate."""
    names = set()
    for path in USE.findall(code):
        for end in re.split(r'[{},]', path):
            parts = end.strip().split(' as ')
            if '::' in parts[0] or len(parts) == 2 or not path.startswith(end):
                names.add(parts[-1].strip().split('::')[-1])
    return names


def named(crate):
    found, code = set(), [re.sub(r'//.*', '', text) for text in texts(crate, '*.rt')]
    own = {name for text in code for name in OWN.findall(text)}
    for text in code:
        found |= set(LAW.findall(text)) | set(ALONE.findall(text)) | (set(PATH.findall(text)) - own - brought(text))
    for text in texts(crate, '*.antt'):
        found |= set(LAW.findall(re.sub(r'-- .*', '', text)))
    return found - {crate}


def ordered(crates, uses):
    """The crates of a group in the order of GROUPS, but each above those that it uses."""
    done = []

    def put(crate, above=()):
        if crate in above:
            sys.exit('crates that use one another: ' + ', '.join(above[above.index(crate):]))
        if crate not in done:
            for other in crates:
                if other in uses[crate]:
                    put(other, above + (crate,))
            done.append(crate)

    for crate in crates:
        put(crate)
    return done


def way_down(crate, ends, uses):
    """The crates on the shortest way from one down to one of `ends`, or none where it stands on none of them."""
    ways, seen = [[crate]], {crate}
    for way in ways:
        if way[-1] in ends:
            return way
        for other in sorted(uses.get(way[-1], set()) - seen):
            seen.add(other)
            ways.append(way + [other])
    return []


def main():
    if sys.argv[1:] not in ([], ['--check']):
        sys.exit(__doc__.strip())
    groups = [(title, names.split()) for title, names in GROUPS]
    known = [name for _, names in groups for name in names]
    folders = set(os.listdir(os.path.join(HERE, 'crates')))
    wrong = [f'crates/{c} stands in no group of tools/crates.py' for c in sorted(folders - set(known))]
    wrong += [f'tools/crates.py: no folder crates/{c}' for c in known + APART.split() if c not in folders]
    wrong += [f'tools/crates.py: {c} stands there twice' for c in sorted({c for c in known if known.count(c) > 1})]
    if wrong:
        sys.exit('\n'.join(wrong))
    uses = {crate: named(crate) & (folders | LIBRARIES) for crate in known}
    for title, names in groups[:[title for title, _ in groups].index('outside')]:
        wrong += [f'{crate}, of {title}, uses {other}' for crate in names for other in sorted(uses[crate] - set(names) - set(groups[0][1]))]
    updates = set(dict(groups)["a peer's update"])
    for way in filter(None, (way_down(crate, updates, uses) for crate in APART.split())):
        wrong.append(f"{way[0]} stands on {way[-1]}, of a peer's update: {', '.join(way)}")
    lines = []
    for title, names in groups:
        lines.append(f'\n# {title}')
        for crate in ordered(names, uses):
            below = [c for c in known if c in uses[crate]] + sorted(uses[crate] & LIBRARIES)
            lines.append(' '.join([f'{crate}{" staticlib" if crate in STATIC else ""}:'] + below))
    text, path = HEAD + '\n'.join(lines) + '\n', os.path.join(HERE, 'crates.txt')
    stands = open(path).read()
    # docs/CRATES.md: under a heading for each group the rows of its crates, each once
    page, heads = open(os.path.join(HERE, 'docs/CRATES.md')).read(), []
    for part in page.split('\n## ')[1:]:
        heads.append((part.split('\n')[0], [name for row in ROW.findall(part) for name in re.findall(r'`(\w+)`', row)]))
    meant = [(title[0].upper() + title[1:], sorted(names)) for title, names in groups]
    if [(title, sorted(names)) for title, names in heads] != meant:
        for title, names in meant:
            there = dict(heads).get(title, [])
            if sorted(there) != names:
                wrong.append(f'docs/CRATES.md, {title}: lacks {sorted(set(names) - set(there))}, and has beyond {sorted(set(there) - set(names))}, or one of them twice')
        wrong = wrong or ['docs/CRATES.md: its headings are not the groups of tools/crates.py, in their order']
    if sys.argv[1:]:
        if stands != text:
            was, now = set(stands.split('\n')), set(text.split('\n'))
            wrong.append('crates.txt is not what tools/crates.py writes:')
            lines = [f'- {line}' for line in stands.split('\n') if line not in now] + [f'+ {line}' for line in text.split('\n') if line not in was]
            wrong += lines or ['the same lines in another order']
    elif stands != text:
        with open(path, 'w') as f:
            f.write(text)
    print('\n'.join(wrong) or f'crates.txt: {len(known)} crates in {len(groups)} groups, up to date')
    sys.exit(1 if wrong else 0)


main()
