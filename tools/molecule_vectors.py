#!/usr/bin/env python3
"""Writes the input of two programs and the lines that they have to print: crates/molecule_vectors (the published vectors of RFC 0008,
transactions and lent lists, and damaged copies of each) and crates/vector_parts (the parts of the good ones).

What is right about a damaged copy is decided here, by `reads`, a strict reader of Molecule that shares nothing with the library. Run it in
the repository's root after a change.

The files are themselves written in Molecule, so that the programs need no parser of their own; a group for each type:
  group   table of: the type's number, its name, its vectors
  vector  table of: the bytes, the answers, a list of copies
  answers of each place a byte: 1 if what stands before it is readable, plus 2 if all is with the byte there one up, plus 4 if with it one down
  copy    the answer (1: readable), how many changes, and each: two places of the vector, of 2 bytes, and the bytes, behind their number in
          a byte, that stand between these places instead
and for the parts
  group   table of: the name, its vectors
  vector  table of: the bytes, a list of parts
  part    4 steps of (accessor, index), the accessor of a number or 0, and what has to stand there: 8 bytes of a number, or the bytes"""

# ---- types: array N | fixvec SIZE | dynvec TYPE | table TYPES | option TYPE


def array(n): return ('array', n)
def fixvec(k): return ('fixvec', k)
def dynvec(t): return ('dynvec', t)
def table(*ts): return ('table', ts)
def option(t): return ('option', t)


Bytes = fixvec(1)
BytesVec = dynvec(Bytes)
MixedType = table(Bytes, array(1), array(4), array(3), Bytes)
Script = table(array(32), array(1), Bytes)
CellOutput = table(array(8), Script, option(Script))
Raw = table(array(4), fixvec(37), fixvec(32), fixvec(44), dynvec(CellOutput), BytesVec)
Transaction = table(Raw, BytesVec)
Record = table(CellOutput, Bytes)
TokenCell = table(array(36), Bytes)

# ---- the reference reader


def number(b):
    return int.from_bytes(b, 'little')


def split(s):
    """The items behind the header of a dynvec or table, or None."""
    if len(s) < 4 or number(s[:4]) != len(s):
        return None
    if len(s) == 4:
        return []
    first = number(s[4:8])
    if len(s) < 8 or first < 8 or first % 4 or first > len(s):
        return None
    starts = [number(s[i:i + 4]) for i in range(4, first, 4)] + [len(s)]
    if any(a > b for a, b in zip(starts, starts[1:])):
        return None
    return [s[a:b] for a, b in zip(starts, starts[1:])]


def reads(t, s):
    """Whether the bytes s are of type t."""
    kind, of = t
    if kind == 'array':
        return len(s) == of
    if kind == 'fixvec':
        return len(s) >= 4 and len(s) == 4 + of * number(s[:4])
    if kind == 'option':
        return not s or reads(of, s)
    items = split(s)
    if items is None:
        return False
    if kind == 'dynvec':
        return all(reads(of, x) for x in items)
    return len(items) == len(of) and all(reads(u, x) for u, x in zip(of, items))


# ---- writing: a value is bytes (array), a list of bytes (fixvec; bytes for Bytes), a list of values, or None


def u32(n):
    return n.to_bytes(4, 'little')


def join(xs):
    at, starts = 4 + 4 * len(xs), []
    for x in xs:
        starts.append(at)
        at += len(x)
    return b''.join([u32(at)] + [u32(p) for p in starts] + xs)


def write(t, v, change=None, path=()):
    """The bytes of v; `change` may put other bytes for the part at a path: it is given the path, the type and the items."""
    kind, of = t
    if kind == 'array':
        return v
    if kind == 'option':
        return b'' if v is None else write(of, v, change, path)
    if kind == 'fixvec':
        items = [v[i:i + 1] for i in range(len(v))] if of == 1 else list(v)
        plain = u32(len(items)) + b''.join(items)
    else:
        ts = of if kind == 'table' else [of] * len(v)
        items = [write(u, x, change, path + (i,)) for i, (u, x) in enumerate(zip(ts, v))]
        plain = join(items)
    other = change(path, t, items) if change else None
    return plain if other is None else other


# ---- damage


def header(total, starts):
    return b''.join([u32(n % 2 ** 32) for n in [total] + starts])


def damaged_fixvec(k, xs):
    n, body = len(xs), b''.join(xs)
    yield u32(n) + body + b'\0'  # a byte more
    yield u32(n) + body + bytes(k)  # an item more than counted
    yield u32(n + 1) + body + bytes(k)  # an item more, and counted
    yield u32(2 ** 32 - 1) + body
    if n:
        yield u32(n - 1) + body
        yield u32(n) + body[:-1]
    for p in range(33):  # a count whose product with the size of an item is the same modulo 2^32
        if k * 2 ** p % 2 ** 32 == 0 and n + 2 ** p < 2 ** 32:
            yield u32(n + 2 ** p) + body
            break


def damaged_items(xs):
    n, body = len(xs), b''.join(xs)
    h = 4 + 4 * n
    total = h + len(body)
    starts = [h + len(b''.join(xs[:i])) for i in range(n)]
    for more in b'', bytes(4):  # an extra field
        yield join(xs + [more])
    for gap in 1, 4:  # a gap between header and first item
        yield header(total + gap, [p + gap for p in starts]) + bytes(gap) + body
    yield header(0, starts) + body
    yield header(2 ** 32 - 1, starts) + body
    for i, x in enumerate(xs):  # an item a byte longer and a byte shorter
        yield join(xs[:i] + [x + b'\0'] + xs[i + 1:])
        yield join(xs[:i] + [x[:-1]] + xs[i + 1:])
    if not n:
        yield header(total + 1, starts) + b'\0'
        return
    if len(xs[0]) >= 4:  # the first item begins in the header
        yield header(total - 4, [h - 4] + [p - 4 for p in starts[1:]]) + body[4:]
    yield join(xs[:-1])  # a field less
    yield header(total + 4, [h] + [p + 4 for p in starts[1:]]) + bytes(4) + body
    yield header(total, starts[:-1] + [total + 1]) + body  # past the end
    yield header(total, [0] + starts[1:]) + body
    yield header(total, [2 ** 32 - 4] + starts[1:]) + body
    for i in range(1, n):  # a falling offset
        yield header(total, starts[:i] + [starts[i - 1] - 1] + starts[i + 1:]) + body
        if starts[i] != starts[i - 1]:
            yield header(total, starts[:i - 1] + [starts[i], starts[i - 1]] + starts[i + 1:]) + body


def at_each_place(t, s):
    """The damage that the program does by itself: each truncation, and each byte one up and one down."""
    for i in range(len(s)):
        up, down = (s[:i] + bytes([(s[i] + d) % 256]) + s[i + 1:] for d in (1, 255))
        yield [reads(t, d) for d in (s[:i], up, down)]


def damaged(t, v):
    """A byte more, and damage to the form of each part."""
    s, parts = write(t, v), []
    yield s + b'\0'
    write(t, v, lambda *a: parts.append(a))
    for path, u, items in parts:
        for other in damaged_fixvec(u[1], items) if u[0] == 'fixvec' else damaged_items(items):
            yield write(t, v, lambda p, _, __: other if p == path else None)


def meet(s, i, d, j):
    """The nearest places from i and j on where s and d go on alike for 8 bytes, or end alike."""
    for both in range(len(s) + len(d) + 1):
        for a in range(both + 1):
            if s[i + a:i + a + 8] == d[j + both - a:j + both - a + 8]:
                return min(i + a, len(s)), min(j + both - a, len(d))


def copy(s, d, answer):
    """d as changes of s."""
    i, j, changes, made, at = 0, 0, [], b'', 0
    while i < len(s) or j < len(d):
        if s[i:i + 1] == d[j:j + 1]:
            i, j = i + 1, j + 1
        else:
            a, b = meet(s, i, d, j)
            changes.append((i, a, d[j:b]))
            i, j = a, b
    for a, b, x in changes:
        made, at = made + s[at:a] + x, b
    assert made + s[at:] == d
    return bytes([answer, len(changes)]) + b''.join(a.to_bytes(2, 'little') + b.to_bytes(2, 'little') + bytes([len(x)]) + x for a, b, x in changes)


# ---- parts: how the program reaches them (crates/vector_parts/src/parts.rt)

STEPS = ['', 'content', 'item', 'entry', 'mixed', 'fix4', 'fix36', 'fix37', '', '',
         'cell_dep', 'header_dep', 'input', 'output', 'output_data', 'witness', '', '', '', '',
         'code_hash', 'args', 'lock', 'type_script', 'previous_output', 'tx_hash', 'out_point', 'first', 'data']
NUMBERS = ['', 'u32', 'item_count', 'fix_count', 'hash_type', 'capacity', 'since', 'index', 'dep_type', 'length',
           'version', 'cell_dep_count', 'header_dep_count', 'input_count', 'output_count', 'output_data_count', 'witness_count']


def part(path, want):
    """The path names steps, `output 2.lock.args`; of a number its last word is an accessor of NUMBERS."""
    words, what = path.split('.') if path else [], 0
    if isinstance(want, int):
        what = NUMBERS.index(words.pop())
        want = want.to_bytes(8, 'little')
    steps = []
    for w in words:
        name, _, i = w.partition(' ')
        steps += [STEPS.index(name), int(i or 0)]
    assert len(steps) <= 8
    return bytes(steps + [0] * (8 - len(steps)) + [what]) + want


def under(path, parts):
    return [((path + '.' + p) if p else path, w) for p, w in parts]


def script_parts(v):
    return [('code_hash', v[0]), ('hash_type', v[1][0]), ('args', v[2])]


def output_parts(v):
    out = [('capacity', number(v[0]))] + under('lock', script_parts(v[1]))
    return out + (under('type_script', script_parts(v[2])) if v[2] else [('type_script', b'')])


def out_point_parts(v):
    return [('tx_hash', v[:32]), ('index', number(v[32:]))]


def cell_dep_parts(v):
    return under('out_point', out_point_parts(v[:36])) + [('dep_type', v[36])]


def transaction_parts(v):
    (version, deps, headers, inputs, outputs, data), witnesses = v
    out = [('version', number(version)), ('cell_dep_count', len(deps)), ('header_dep_count', len(headers)), ('input_count', len(inputs)),
           ('output_count', len(outputs)), ('output_data_count', len(data)), ('witness_count', len(witnesses))]
    for i, x in enumerate(deps):
        out += under('cell_dep %d' % i, cell_dep_parts(x))
    out += [('header_dep %d' % i, x) for i, x in enumerate(headers)]
    for i, x in enumerate(inputs):
        out += [('input %d.since' % i, number(x[:8]))] + under('input %d.previous_output' % i, out_point_parts(x[8:]))
    for i, x in enumerate(outputs):
        out += under('output %d' % i, output_parts(x))
    out += [('output_data %d' % i, x) for i, x in enumerate(data)]
    out += [('output_data %d' % len(data), b'')]
    return out + [('witness %d' % i, x) for i, x in enumerate(witnesses)]


def record_parts(v):
    return under('first', output_parts(v[0])) + [('data', v[1])]


def counted(what, step, vs, parts):
    out = [(what, len(vs))]
    for i, v in enumerate(vs):
        out += under('%s %d' % (step, i), parts(v))
    return out


# ---- the vectors: a type's number is its place in GROUPS, as crates/molecule_vectors/src/types.rt has it


def hash32(n):
    return bytes((n + 7 * i) % 256 for i in range(32))


def out_point(n, i):
    return hash32(n) + u32(i)


def cell_input(since, n, i):
    return since.to_bytes(8, 'little') + out_point(n, i)


def shannons(n):
    return n.to_bytes(8, 'little')


zero_lock = (bytes(32), b'\0', b'')
lock = (hash32(40), b'\1', bytes(range(20)))
token = (hash32(80), b'\2', bytes(range(32)))
untyped = (shannons(10_000_000_000), zero_lock, None)
typed = (shannons(14_200_000_000), lock, token)
plain = (shannons(6_100_000_000), lock, None)
empty_tx = ((u32(0), [], [], [], [], []), [])
small_tx = ((u32(0), [], [], [bytes(44)], [untyped], [b'']), [])
rich_tx = ((u32(0), [out_point(1, 0) + b'\0', out_point(2, 3) + b'\1'], [hash32(3)], [cell_input(0, 4, 1), cell_input(2 ** 63 + 5, 5, 258)],
            [untyped, typed, plain], [b'', (70).to_bytes(16, 'little'), b'abc']), [bytes(range(85)), b'', b'\x55'])
amount = (2 ** 127 + 30).to_bytes(16, 'little')

# name, type, values with their parts; and the bytes that a document gives, if it does
GROUPS = [
    ('Uint32', array(4), [(u32(0x01020304), [('u32', 0x01020304)], '04030201')]),
    ('Bytes', Bytes, [(v, [('fix_count', len(v)), ('content', v)], h) for v, h in [
        (b'', '00000000'), (b'\x12', '0100000012'), (bytes.fromhex('1234567890abcdef'), '080000001234567890abcdef')]]),
    ('Uint32Vec', fixvec(4), [([u32(n) for n in v], counted('fix_count', 'fix4', v, lambda n: [('u32', n)]), h) for v, h in [
        ([], '00000000'), ([0x123], '0100000023010000'),
        ([0x123, 0x456, 0x7890, 0xa, 0xbc, 0xdef], '06000000230100005604000090780000' '0a000000bc000000ef0d0000')]]),
    ('BytesVec', BytesVec, [(v, counted('item_count', 'entry', v, lambda x: [('', x)]), h) for v, h in [
        ([], '04000000'), ([b'\x12\x34'], '0e00000008000000020000001234'),
        ([b'\x12\x34', b'', b'\x05\x67', b'\x89', b'\xab\xcd\xef'],
         '34000000180000001e00000022000000280000002d00000002000000123400000000020000000567010000008903000000abcdef')]]),
    ('MixedType', MixedType, [((b'', b'\xab', u32(0x123), bytes.fromhex('456789'), bytes.fromhex('abcdef')),
        [('mixed 0.content', b''), ('mixed 1', b'\xab'), ('mixed 2.u32', 0x123), ('mixed 3', bytes.fromhex('456789')),
         ('mixed 4.content', bytes.fromhex('abcdef'))],
        '2b000000180000001c0000001d000000210000002400000000000000ab2301000045678903000000abcdef')]),
    ('BytesVecOpt', option(BytesVec), [(v, p, h) for v, p, h in [
        (None, [('length', 0)], ''), ([], [('length', 4), ('item_count', 0)], '04000000'),
        ([b''], [('item_count', 1), ('entry 0', b'')], '0c0000000800000000000000')]]),
    ('Transaction', Transaction, [(v, transaction_parts(v), None) for v in [empty_tx, small_tx, rich_tx]]),
    ('Script', Script, [(v, script_parts(v), None) for v in [zero_lock, lock]]),
    ('CellOutput', CellOutput, [(v, output_parts(v), None) for v in [untyped, typed]]),
    ('Records', dynvec(option(Record)), [(v, counted('item_count', 'item', v, lambda x: record_parts(x) if x else [('', b'')]), None) for v in [
        [], [(untyped, b''), None, (typed, amount)]]]),
    ('TokenCells', dynvec(TokenCell), [(v, counted('item_count', 'item', v, lambda x: under('first', out_point_parts(x[0])) + [('data', x[1])]), None)
        for v in [[], [(out_point(6, 0), amount), (out_point(7, 1), amount + b'more')]]]),
    ('OutPoints', fixvec(36), [(v, counted('fix_count', 'fix36', v, out_point_parts), None) for v in [[], [out_point(8, 0), out_point(9, 70000)]]]),
    ('CellDeps', fixvec(37), [(v, counted('fix_count', 'fix37', v, cell_dep_parts), None) for v in [
        [], [out_point(10, 0) + b'\1', out_point(11, 1) + b'\xff']]]),
]

LENGTHS = {'Transaction': [68, 201, None]}  # what the papers say of the vectors of which they do not give the bytes


def main():
    groups, lines, sums = [], [], [0, 0, 0]
    part_groups, part_lines, all_parts = [], [], 0
    for tag, (name, t, values) in enumerate(GROUPS):
        vectors, copies, valid, read, found = [], 0, 0, [], 0
        for i, (v, parts, published) in enumerate(values):
            s = write(t, v)
            assert published is None or s == bytes.fromhex(published), name
            assert LENGTHS.get(name, [None] * 9)[i] in (None, len(s)), name
            assert reads(t, s), name
            answers = list(at_each_place(t, s))
            cases = {d: reads(t, d) for d in damaged(t, v) if d != s}
            copies += 3 * len(s) + len(cases)
            valid += sum(sum(a) for a in answers) + sum(cases.values())
            vectors.append(join([s, bytes(a + 2 * b + 4 * c for a, b, c in answers), join([copy(s, d, a) for d, a in cases.items()])]))
            read.append(join([s, join([part(p, w) for p, w in parts])]))
            found += len(parts)
        groups.append(join([bytes([tag]), name.encode(), join(vectors)]))
        part_groups.append(join([name.encode(), join(read)]))
        part_lines.append('%s: %d parts, 0 wrong' % (name, found))
        all_parts += found
        sums = [a + b for a, b in zip(sums, [len(values), copies, valid])]
        lines.append('%s: %d good, %d damaged, of which %d are readable, 0 wrong' % (name, len(values), copies, valid))
    lines.append('all: %d good, %d damaged, of which %d are readable, 0 wrong' % tuple(sums))
    part_lines.append('all: %d parts, 0 wrong' % all_parts)
    for crate, data, expected in [('molecule_vectors', join(groups), lines), ('vector_parts', join(part_groups), part_lines)]:
        assert len(data) <= 65536  # what the programs read
        open('crates/%s/stdin' % crate, 'wb').write(data)
        open('crates/%s/stdout' % crate, 'w').write('\n'.join(expected) + '\n')
        print('\n'.join([crate] + expected))


if __name__ == '__main__':
    main()
