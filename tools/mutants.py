#!/usr/bin/env python3
"""Wrong programs, made at random or listed, and whether the proofs refuse them.

    tools/mutants.py CRATE [ROUNDS [SEED]]
    tools/mutants.py CRATE --listed

Copies CRATE and the crates that it uses to a folder of its own, sees that CRATE is proved there as it stands (`rt check` begins with what a check in this
repository kept), makes small changes in the function bodies of CRATE and checks again. A change is a constant one more or less (of a `const` too), another
comparison, a sum for a difference, true for false, another refusal, two arguments of a call swapped. In each round (4) functions that do not call one another
are changed, one change in each, so that one check tells of each by itself whether its proof still holds; each round takes the functions that were changed least
often so far. The contracts are left as they are: only lines of bodies are changed. With --listed the changes are those of crates/CRATE/wrong_programs.txt: a
comment, the function it is in, what stands there once and what stands there instead, and an empty line.

Prints a line for each: refused, with the place; no program, where the front end refuses it; no verdict, where the prover could not tell; or SURVIVED, which is
either a program that computes the same or a contract that says too little. A change that is refused `for its shape` has taken away what a proof file names, as
the goal of a branch that is written otherwise now, and so says little of the contract. Then how many there were of each. Ends with 1 if any survived.
"""
import os, random, re, shutil, subprocess, sys, tempfile
from collections import Counter

HERE = os.path.dirname(os.path.dirname(os.path.abspath(__file__)))

# what the prover says of a function
TOLD = re.compile(r'^fn (.+?): (proved|not proved|no proof|could not tell)\b', re.M)
# and of a name in a proof file that is there no longer
GONE = re.compile(r'has no field|is not in scope|has no `')

OPERATORS = {' < ': [' <= '], ' <= ': [' < '], ' == ': [' != '], ' != ': [' == '], ' + ': [' - '], ' - ': [' + '], ' * ': [' + '], ' += ': [' -= ']}


class Function:
    """A function of a source file: its path, its name as the prover prints it, and the places of the lines of its body."""

    def __init__(self, path, name):
        self.path, self.name, self.lines, self.changes, self.calls = path, name, [], [], set()


def implemented(line):
    """What the prover calls the functions behind this line by: the type, and the trait with what it is of, where it is a trait's (`ListKindTryFromU32`)."""
    trait, of = re.match(r'impl(?:<[^>]*>)? (?:(.+) for )?(.+) \{$', line).groups()
    words = re.findall(r"(?<!')\b\w+", re.sub(r'\w+::', '', trait or ''))
    return re.match(r'\w+', of)[0] + ''.join(w[0].upper() + w[1:] for w in words)


def functions(path, text, module):
    """The functions with a body: from the line that ends in `{`, at the indentation of `fn`, to the `}` there."""
    found, at, now, inside, indent, of = [], 0, None, False, '', ''
    for line in text.splitlines(keepends=True):
        bare = line.rstrip('\n')
        head = re.match(r'(\s*)(?:pub |pub\(crate\) |extern "C" )*fn (\w+)', bare)
        if re.match(r'impl\b.*\{$', bare):
            of = implemented(bare)
        elif bare == '}':
            of = of if inside and indent else ''
        if not inside and head:
            now, indent = Function(path, '::'.join(p for p in (module, of if head[1] else '', head[2]) if p)), head[1]
        if not inside and now and (bare == indent + '{' or re.match(re.escape(indent) + r'\S.* \{$', bare)):
            inside = True
        elif inside and bare == indent + '}':
            found.append(now)
            now, inside = None, False
        elif inside and not bare.lstrip().startswith(('//', 'prove!')):
            now.lines.append((at, at + len(line)))
        at += len(line)
    return found


def refusals():
    text = open(os.path.join(HERE, 'crates/error/src/lib.rt')).read()
    enum = text[text.index('pub enum Refusal'):]
    enum = enum[:enum.index('\n}')]
    return re.findall(r'^    ([A-Z]\w+),', enum, re.M)


def changes(text, lines):
    """Every (start, end, new text) of one small change in these lines."""
    found, plain = [], refusals()
    for start, end in lines:
        line = text[start:end]
        for old, news in OPERATORS.items():
            for m in re.finditer(re.escape(old), line):
                found += [(start + m.start(), start + m.end(), new) for new in news]
        for m in re.finditer(r'(?<![\w.\[])(\d[\d_]*)(?![\w.])', line):
            n = int(m.group(1).replace('_', ''))
            found += [(start + m.start(), start + m.end(), str(k)) for k in (n + 1, n - 1) if k >= 0]
        for m in re.finditer(r'\b(true|false)\b', line):
            found.append((start + m.start(), start + m.end(), 'false' if m.group() == 'true' else 'true'))
        for m in re.finditer(r'Refusal::(\w+)(?!\w|\s*[{(])', line):
            if m.group(1) in plain:
                found.append((start + m.start(1), start + m.end(1), plain[(plain.index(m.group(1)) + 1) % len(plain)]))
        for m in re.finditer(r'\w+\(([^()]*)\)', line):
            parts = [p.strip() for p in m.group(1).split(',')]
            for i in range(len(parts) - 1):
                if parts[i] and parts[i + 1] and parts[i] != parts[i + 1]:
                    swapped = parts[:i] + [parts[i + 1], parts[i]] + parts[i + 2:]
                    found.append((start + m.start(1), start + m.end(1), ', '.join(swapped)))
    return found


def of_constants(text):
    found = []
    for m in re.finditer(r'^(?:pub )?const \w+: \w+ = (.*);', text, re.M):
        for number in re.finditer(r'\b\d[\d_]*\b', m.group(1)):
            n = int(number.group().replace('_', ''))
            found += [(m.start(1) + number.start(), m.start(1) + number.end(), str(k)) for k in (n + 1, n - 1) if k >= 0]
    return found


def listed(crate, texts, all_functions):
    """The changes of crates/CRATE/wrong_programs.txt, each with the function that it stands in."""
    found = []
    for block in open(os.path.join(HERE, 'crates', crate, 'wrong_programs.txt')).read().split('\n\n'):
        words = dict(re.findall(r'^(in|old|new): (.*)$', block, re.M))
        if not words:
            continue
        of = [f for f in all_functions if f.name.endswith('::' + words['in'])]
        if len(of) != 1:
            sys.exit(f"{crate} has {len(of)} functions {words['in']}")
        start, end = of[0].lines[0][0], of[0].lines[-1][1]
        body = texts[of[0].path][start:end]
        if body.count(words['old']) != 1:
            sys.exit(f"{of[0].name} has this {body.count(words['old'])} times: {words['old']}")
        start += body.index(words['old'])
        found.append((of[0], (start, start + len(words['old']), words['new'])))
    return found


def apart(chosen, f):
    """Whether f neither calls a chosen function nor is called by one, through any number of calls."""
    return all(f.name not in g.calls and g.name not in f.calls and f is not g for g in chosen)


def used():
    """What each crate of crates.txt uses of the repository, and its line."""
    found = {}
    for line in open(os.path.join(HERE, 'crates.txt')):
        name, colon, uses = line.split('#')[0].partition(':')
        if colon:
            found[name.split()[0]] = uses.split(), line
    return {name: ([use for use in uses if use in found], line) for name, (uses, line) in found.items()}


class Copy:
    """A copy of the crate, and of those that it uses, in which changes are tried."""

    def __init__(self, crate, texts):
        self.crate, self.texts, self.folder = crate, texts, tempfile.mkdtemp(prefix='mutants-')
        self.tally, crates, wanted = Counter(), used(), []
        left = [crate]
        while left:
            name = left.pop()
            if name not in wanted:
                wanted.append(name)
                left += crates[name][0]
        with open(os.path.join(self.folder, 'crates.txt'), 'w') as f:
            f.writelines(crates[name][1] for name in wanted)
        for name in wanted:
            for part in ('src', 'specs', 'proofs'):
                source = os.path.join(HERE, 'crates', name, part)
                if os.path.isdir(source):
                    shutil.copytree(source, os.path.join(self.folder, 'crates', name, part))

    def say(self, answer, path, change, more=''):
        start, end, new = change
        text = self.texts[path]
        number = text.count('\n', 0, start) + 1
        line = text.splitlines()[number - 1].strip()
        print(f'{answer:10} {path}:{number} `{text[start:end]}` -> `{new}` in `{line}` {more}', flush=True)
        self.tally[answer] += 1

    def run(self, picked):
        """What the prover says of these changes [(path, change)], and of each function."""
        for path, text in self.texts.items():
            for _, (start, end, new) in sorted((p for p in picked if p[0] == path), key=lambda p: -p[1][0]):
                text = text[:start] + new + text[end:]
            with open(os.path.join(self.folder, path), 'w') as f:
                f.write(text)
        how = {'stdin': subprocess.DEVNULL, 'stdout': subprocess.PIPE, 'stderr': subprocess.STDOUT, 'text': True, 'errors': 'replace'}
        run = subprocess.run(['rt', 'check'], cwd=os.path.join(self.folder, 'crates', self.crate), **how)
        told = {name: what for name, what in TOLD.findall(run.stdout) if name.startswith(self.crate + '::')}
        if not told and not re.search(r'^\S+\.rt:\d+:\d+: error', run.stdout, re.M):
            sys.exit(f'`rt check` of {self.crate} judged nothing:\n' + '\n'.join(run.stdout.splitlines()[-10:]))
        return run.stdout, told

    def as_it_stands(self):
        """The functions that the prover tells of, all proved."""
        said, told = self.run([])
        if not re.search(r'^logic=proved ', said, re.M):
            sys.exit(f'{self.crate} is not proved as it stands, so nothing is tried:\n' + '\n'.join(said.splitlines()[-10:]))
        return {name for name, what in told.items() if what == 'proved'}

    def at(self, said, f):
        """Where the proof of f fails: at a fact, or for its shape, where a proof file names what the change took away."""
        errors = re.findall(r'^(?:note: )?(?:\./)?proofs/' + re.escape('/'.join(f.name.split('::')[1:])) + r'/\w+\.antt:\d+:\d+: (?:error: )?(.*)', said, re.M)
        gone = [e for e in errors if GONE.search(e)]
        if gone:
            return 'for its shape: ' + gone[0][:200]
        first, last = (self.texts[f.path].count('\n', 0, place) + 1 for place in (f.lines[0][0], f.lines[-1][0]))
        places = re.findall(r'^note: ' + re.escape(os.path.join('src', os.path.basename(f.path))) + r':(\d+):\d+: it is not proved', said, re.M)
        line = re.search(r'^fn ' + re.escape(f.name) + r': .*', said, re.M)[0]
        if errors or 'did not prove' in line or any(first <= int(n) <= last for n in places):
            return 'at a fact'
        return 'otherwise: ' + line[:200]

    def try_apart(self, picked):
        """Changes [(function, change)] in functions that do not call one another."""
        while picked:
            said, told = self.run([(f.path, c) for f, c in picked])
            if told:
                for f, c in picked:
                    answer = {'proved': 'SURVIVED', 'not proved': 'refused', 'no proof': 'refused'}.get(told.get(f.name), 'no verdict')
                    self.say(answer, f.path, c, self.at(said, f) if answer == 'refused' else f.name)
                return
            wrong = self.refused_by_front_end(said, picked)
            for p in wrong:
                self.say('no program', p[0].path, p[1])
            picked = [p for p in picked if p not in wrong]

    def refused_by_front_end(self, said, picked):
        """Those at a line that the front end complains of; where it names none of them, those that it refuses alone."""
        lines = set(re.findall(r'^(src/[\w/]+\.rt):(\d+)', said, re.M))
        at = [p for p in picked if (os.path.join('src', os.path.basename(p[0].path)), str(self.texts[p[0].path].count('\n', 0, p[1][0]) + 1)) in lines]
        if at or len(picked) == 1:
            return at or picked
        half = len(picked) // 2
        for part in (picked[:half], picked[half:]):
            said, told = self.run([(f.path, c) for f, c in part])
            if not told:
                return self.refused_by_front_end(said, part)
        return picked

    def try_constant(self, path, change):
        said, told = self.run([(path, change)])
        failed = [f for f, t in told.items() if t in ('not proved', 'no proof')]
        unsure = not failed and set(told.values()) != {'proved'}
        self.say('no program' if not told else 'refused' if failed else 'no verdict' if unsure else 'SURVIVED', path, change, ', '.join(failed[:3]))


def main():
    crate = sys.argv[1]
    texts, all_functions = {}, []
    source = os.path.join(HERE, 'crates', crate, 'src')
    for name in sorted(os.listdir(source)):
        path = os.path.join('crates', crate, 'src', name)
        texts[path] = open(os.path.join(HERE, path)).read()
        module = crate if name in ('lib.rt', 'main.rt') else f'{crate}::{name[:-3]}'
        all_functions += functions(path, texts[path], module)
    by_last = {}
    for f in all_functions:
        by_last.setdefault(f.name.split('::')[-1], []).append(f)
        f.changes = changes(texts[f.path], f.lines)
    for f in all_functions:
        body = ''.join(texts[f.path][a:b] for a, b in f.lines)
        f.calls = {g.name for last in re.findall(r'(\w+)\(', body) for g in by_last.get(last, [])}
    by_name = {f.name: f for f in all_functions}
    for _ in all_functions:
        for f in all_functions:
            f.calls |= {n for c in list(f.calls) for n in by_name[c].calls}
    wrong = listed(crate, texts, all_functions) if sys.argv[2:3] == ['--listed'] else []
    copy = Copy(crate, texts)
    try:
        known = copy.as_it_stands()
        strange = [f.name for f in all_functions if f.name not in known]
        if strange:
            sys.exit(f"`rt check` has no line `proved` of {', '.join(strange)}")
        if sys.argv[2:3] == ['--listed']:
            left = wrong
            while left:
                picked = []
                for p in left:
                    if apart([q[0] for q in picked], p[0]):
                        picked.append(p)
                left = [p for p in left if p not in picked]
                copy.try_apart(picked)
        else:
            rounds, seed = int((sys.argv[2:3] or ['4'])[0]), int((sys.argv[3:4] or ['1'])[0])
            pick = random.Random(f'{crate} {seed}')
            constants = [(path, c) for path, text in texts.items() for c in of_constants(text)]
            for path, c in pick.sample(constants, min(1, len(constants))):
                copy.try_constant(path, c)
            made = Counter()
            for f in all_functions:
                pick.shuffle(f.changes)
            for _ in range(rounds):
                picked = []
                for f in sorted(pick.sample(all_functions, len(all_functions)), key=lambda f: made[f.name]):
                    if f.changes and apart([g for g, _ in picked], f):
                        picked.append((f, f.changes.pop()))
                        made[f.name] += 1
                copy.try_apart(picked)
    finally:
        shutil.rmtree(copy.folder)
    print(f'{crate}: ' + ', '.join(f'{n} {answer}' for answer, n in sorted(copy.tally.items())))
    sys.exit(1 if copy.tally['SURVIVED'] else 0)


main()
