#!/usr/bin/env python3
"""Writes whatever goes refusal by refusal, from the table crates/error/refusals.txt.

    tools/refusals.py [--check]

In each file of FILES it writes what stands between two lines that are there once, and nothing else. With --check nothing is written: it names each file in which
something else stands than the table gives, or a check's number that is none of the list, and then ends with 1. `rt check` in crates/error proves what was written. By hand remain what is said of a call and not of the
list: the comments "Refused: .." of the header and of the Rust crate, and in bindings/c/faults.c the numbers that a call may answer.
"""
import os, re, sys

HERE = os.path.dirname(os.path.dirname(os.path.abspath(__file__)))
TABLE = 'crates/error/refusals.txt'
ONCE = ['sentence', 'place', 'readme', 'calls', 'with', 'carries', 'header', 'display']
NEEDED = ['sentence', 'place', 'calls']
OF_VALUES = ['with', 'carries', 'display']
MOST = 4  # words that are lent for values
CARRY = {6: 1, 8: 4}  # said in sentences too
RATTLE, LAWS, RUST = 100, 160, 140  # columns: as `rt fmt` has code, of a definition, and max_width of bindings/rust/rustfmt.toml
FEW = ['none', 'one', 'two', 'three', 'four', 'five', 'six', 'seven', 'eight', 'nine', 'ten']


def stop(why):
    sys.exit('refusals.py: ' + why)


class Value:
    def __init__(self, text):
        got = re.fullmatch(r'(\w+) (usize|u64) (\w+): (.*\.)', text) or stop(f'{TABLE}: not `field type word: Comment.`: {text}')
        self.field, self.type, self.word, self.comment = got.groups()


class Refusal:
    def __init__(self, number, name):
        self.number, self.name, self.values, self.said = int(number), name, [], {}

    def __getattr__(self, key):
        return self.said[key]

    def fields(self, of='%s'):
        return ', '.join(of % v.field for v in self.values)

    def rust(self, whole=False):
        """The case as a pattern of Rust: with its fields, or with `..` for all of them."""
        return f'Refusal::{self.name}' + (f' {{ {self.fields() if whole else ".."} }}' if self.values else '')

    def antt(self):
        """The case as a pattern of a definition."""
        return f'(Refusal.{self.name} {" ".join(v.word for v in self.values)})' if self.values else f'Refusal.{self.name}'


def table():
    found = []
    for at, line in enumerate(open(os.path.join(HERE, TABLE), encoding='utf-8'), 1):
        line = line.rstrip('\n')
        if not line.strip() or line.startswith('#'):
            continue
        begins, says = re.fullmatch(r'([1-9]\d*) ([A-Z][A-Za-z0-9]*)', line), re.fullmatch(r'    (\w+) +(\S.*\S)', line)
        if begins:
            found.append(Refusal(*begins.groups()))
        elif not says or not found:
            stop(f'{TABLE}:{at}: neither a number and a name nor `    key  text`')
        elif says.group(1) == 'value':
            found[-1].values.append(Value(says.group(2)))
        elif says.group(1) not in ONCE or says.group(1) in found[-1].said:
            stop(f'{TABLE}:{at}: `{says.group(1)}` is not asked for, or stands twice')
        else:
            found[-1].said[says.group(1)] = says.group(2)
    for r in found:
        who = f'{TABLE}: {r.number} {r.name}'
        missing = [k for k in NEEDED + (OF_VALUES if r.values else []) if k not in r.said]
        if missing:
            stop(f'{who} has no {", ".join(missing)}')
        if not r.values and any(k in r.said for k in OF_VALUES + ['header']):
            stop(f'{who} carries no value, and its values are told')
        if len(r.values) > MOST:
            stop(f'{who} carries {len(r.values)} values: {MOST} words are lent')
        if re.search(r'["\\|]', r.sentence + r.said.get('readme', '') + r.calls) or r.sentence.endswith('.'):
            stop(f'{who}: a `"`, `\\` or `|`, or a full stop at the end of the sentence')
        r.said.setdefault('readme', r.sentence)
        r.said.setdefault('header', r.said.get('carries'))
    numbers, names = [r.number for r in found], [r.name.lower() for r in found]
    if not found or numbers != sorted(set(numbers)) or numbers[-1] > 255 or len(set(names)) != len(names):
        stop(f'{TABLE}: the numbers do not rise from 1 to 255 at most, or two names are the same')
    return found


# ---- crates/error


def enum(all):
    out = []
    for r in all:
        if r.values:
            out += [f'    /// {r.said["with"]}', f'    {r.name} {{'] + [f'        {v.field}: {v.type},' for v in r.values] + ['    },']
        else:
            out.append(f'    {r.name},')
    return out


def numbers(all):
    return [f'            {r.rust()} => {r.number},' for r in all]


def value_counts(all):
    return [f'            {r.rust()} => {len(r.values)},' for r in all if r.values] + ['            _ => 0,']


def value(all):
    out = []
    for r in all:
        told = [v.field + ('' if v.type == 'u64' else ' as u64') for v in r.values]
        if len(told) == 1:
            out.append(f'            {r.rust(True)} if i == 0 => {told[0]},')
        elif told:
            out += [f'            Refusal::{r.name} {{'] + [f'                {v.field},' for v in r.values] + [f'            }} if i < {len(told)} => [{", ".join(told)}][i],']
    return out + ['            _ => 0,']


def sentences(all):
    out = []
    for r in all:
        line = f'            {r.rust()} => "{r.sentence}",'
        out += [line] if len(line) <= RATTLE else [f'            {r.rust()} => {{', f'                "{r.sentence}"', '            }']
    return out


def spec_numbers(all):
    return [line for r in all for line in (f'-- {r.place}', f'number {r.antt()} = {r.number}')]


def spec_values(all):
    out = []
    for r in all:
        if r.values:
            out += [f'-- {r.number}: {r.carries}', f'values {r.antt()} = {" ∷ ".join(v.word for v in r.values)} ∷ []']
    return out + [f'values {r.antt()} = []' for r in all if not r.values]


def spec_sentences(all):
    out = []
    for r in all:
        line = f'sentence {r.antt()} = codes "{r.sentence}"'
        out += [line] if len(line) <= LAWS else [f'sentence {r.antt()} =', f'    codes "{r.sentence}"']
    return out


# ---- for C


def header(all):
    carry = [r for r in all if r.values]
    told = [f'   {r.number}, values[0]{"" if len(r.values) == 1 else f" to values[{len(r.values) - 1}]"}: {r.header}' for r in carry]
    many = FEW[len(carry)] if len(carry) < len(FEW) else str(len(carry))
    capitals = lambda name: re.sub(r'(?<=.)([A-Z])', r'_\1', name).upper()
    return [
        f'/* Why a call is refused; basinpantry_refusal_sentence says it in words. Only {many} carry values:',
        *(t + ';' for t in told[:-1]), told[-1] + '. */',
        *(f'#define BASINPANTRY_{capitals(r.name)} {r.number}' for r in all), '',
        "/* The sentence of a refusal's number; NULL of any other number. */",
        'static inline const char *basinpantry_refusal_sentence(uint32_t number)', '{', '    switch (number) {',
        *(line for r in all for line in (f'    case {r.number}:', f'        return "{r.sentence}";')), '    default:', '        return NULL;', '    }', '}', '',
    ]


# ---- for Rust


def rust_enum(all):
    out = []
    for r in all:
        out.append(f'    /// {r.number}: {r.sentence}.')
        if r.values:
            out += [f'    {r.name} {{', *(line for v in r.values for line in (f'        /// {v.comment}', f'        {v.field}: u64,')), '    },']
        else:
            out.append(f'    {r.name},')
    return out


def rust_from(all):
    out = []
    for r in all:
        set_to = [f'{v.field}: values[{i}]' for i, v in enumerate(r.values)]
        line = f'            {r.number} => Refusal::{r.name}' + (f' {{ {", ".join(set_to)} }}' if set_to else '') + ','
        stacked = [f'            {r.number} => Refusal::{r.name} {{', *(f'                {s},' for s in set_to), '            },']
        # rustfmt stacks what does not fit a line
        out += stacked if len(line) > RUST else [line]
    return out


def rust_values(all):
    out = []
    for r in all:
        if r.values:
            line, told = f'            {r.rust(True)} => ', f'vec![{r.fields()}]'
            out += [line + told + ','] if len(line + told + ',') <= RUST else [line + '{', f'                {told}', '            }']
    return out


def broken(text, before):
    """A string of Rust behind so many columns: in one line, or broken behind the last comma, else the last space, for which there is room."""
    room, out = RUST - before - 3, []
    while len(text) > room:
        at = text.rfind(', ', 0, room) + 1 or text.rfind(' ', 0, room)
        out, text = out + [text[:at] + ' \\'], text[at + 1:]
    out.append(text)
    return [' ' * before + (' ' if i else '"') + line + ('"' if i == len(out) - 1 else '') for i, line in enumerate(out)]


def rust_sentences(all):
    out = []
    for r in all:
        line = f'            {r.rust()} => "{r.sentence}",'
        out += [line] if len(line) <= RUST else [f'            {r.rust()} => {{', *broken(r.sentence, 16), '            }']
    return out


def rust_display(all):
    out = []
    for r in all:
        if r.values:
            case, write = f'            {r.rust(True)} => ', f'write!(f, ": {r.display}")'
            if len(case + write + ',') <= RUST:
                out.append(case + write + ',')
            elif 16 + len(write) <= RUST:
                out += [case + '{', f'                {write}', '            }']
            else:
                out += [case + 'write!(', '                f,', *broken(': ' + r.display, 16), '            ),']
    return out


# ---- README.md


def readme(all):
    return [f'| {r.number} | {r.readme} | {r.calls} |' for r in all]


# of each file its stretches: the line before which it is looked for, the last line before it, the line after it, and what it is
FILES = {
    'crates/error/src/lib.rt': [
        ('pub enum Refusal {', 'pub enum Refusal {', '}', enum),
        ('    pub fn number(self) -> u8', '        match self {', '        }', numbers),
        ('    pub fn value_count(self) -> usize', '        match self {', '        }', value_counts),
        ('    pub fn value(self, i: usize) -> u64', '        match self {', '        }', value),
        ("    pub fn sentence(self) -> &'static str", '        match self {', '        }', sentences),
    ],
    'crates/error/specs/Refusal.antt': [
        ('unfoldable pub number : Refusal → ℕ', 'unfoldable pub number : Refusal → ℕ', '', spec_numbers),
        ('unfoldable pub values : Refusal → List ℕ', 'unfoldable pub values : Refusal → List ℕ', '', spec_values),
        ('unfoldable pub sentence : Refusal → List ℕ', 'unfoldable pub sentence : Refusal → List ℕ', '', spec_sentences),
    ],
    'bindings/c/basinpantry.h': [('extern "C" {', '#endif', '/* How many words `values` has. */', lambda all: [''] + header(all))],
    'bindings/rust/src/refusal.rs': [
        ('pub enum Refusal {', 'pub enum Refusal {', '}', rust_enum),
        ('    pub fn from_number(number: u32, values: [u64; 4]) -> Option<Refusal> {', '        Some(match number {', '            _ => return None,', rust_from),
        ('    pub fn number(&self) -> u32 {', '        match self {', '        }', numbers),
        ("    pub fn name(&self) -> &'static str {", '        match self {', '        }', lambda all: [f'            {r.rust()} => "{r.name}",' for r in all]),
        ("    pub fn value_names(&self) -> &'static [&'static str] {", '        match self {', '            _ => &[],',
         lambda all: [f'            {r.rust()} => &[{r.fields(chr(34) + "%s" + chr(34))}],' for r in all if r.values]),
        ("    pub fn sentence(&self) -> &'static str {", '        match self {', '        }', rust_sentences),
        ('    pub fn values(&self) -> Vec<u64> {', '        match *self {', '            _ => Vec::new(),', rust_values),
        ("    fn fmt(&self, f: &mut fmt::Formatter<'_>) -> fmt::Result {", '        match self {', '            _ => Ok(()),', rust_display),
    ],
    'README.md': [('| number | why a call is refused | which calls |', '|---|---|---|', '', readme)],
}

# what says the number of a check, which is to be the list's: the rules' table and the models that recorded answers are made with
NUMBERS = [('docs/RULES.md', r'(?m)^\|[^|\n]*\|[^|\n]*\| ([\d, ]+) \|$')] + [
    (f'tools/{name}_model.py', r"\b(?:check|require|Refused)\((\d+)[,)]|^    *\(?\('[^']*', (\d+), '") for name in ('update', 'request', 'table')
]


def within(path, text, stretches, all):
    """The text of a file with its stretches written anew."""
    lines = text.split('\n')
    for near, before, after, part in stretches:
        if lines.count(near) != 1:
            stop(f'{path}: the line `{near.strip()}` stands there {lines.count(near)} times')
        try:
            start = lines.index(before, lines.index(near)) + 1
            lines[start:lines.index(after, start)] = part(all)
        except ValueError:
            stop(f'{path}: no line `{before.strip()}`, or `{after.strip()}` after it, behind `{near.strip()}`')
    return '\n'.join(lines)


def main():
    if sys.argv[1:] not in ([], ['--check']):
        sys.exit(__doc__.strip())
    all, check, differ = table(), len(sys.argv) > 1, 0
    if not any(r.values for r in all):
        stop(f'{TABLE}: none carries values')
    for path, stretches in FILES.items():
        full = os.path.join(HERE, path)
        old = open(full, encoding='utf-8').read()
        new = within(path, old, stretches, all)
        if new == old:
            continue
        differ += 1
        if check:
            have, given = old.split('\n'), new.split('\n')
            at = next(i for i in range(len(given) + 1) if i >= min(len(have), len(given)) or have[i] != given[i])
            print(f'{path}:{at + 1}: not as {TABLE} gives it: {given[at].strip() if at < len(given) else "nothing more"}')
        else:
            with open(full, 'w', encoding='utf-8') as f:
                f.write(new)
            print(f'wrote {path}')
    known = {0} | {r.number for r in all}
    for path, pattern in NUMBERS:
        told = {int(n) for got in re.finditer(pattern, open(os.path.join(HERE, path), encoding='utf-8').read()) for n in re.findall(r'\d+', ' '.join(filter(None, got.groups())))}
        if not told or told - known:
            differ += 1
            print(f'{path}: ' + (f'the numbers {sorted(told - known)}, of no refusal' if told else 'no number of a check'))
    print(f'{len(all)} refusals, {len(FILES)} files, {differ} ' + ('not as the table gives them' if check else 'written'))
    if {r.number: len(r.values) for r in all if r.values} != CARRY:
        print(f'by hand, since others carry values than {list(CARRY)}: the sentences that say so in README.md, the header and the Rust crate, and its test')
    sys.exit(1 if check and differ else 0)


main()
