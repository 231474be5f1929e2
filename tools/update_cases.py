"""The updates that tools/recorded_updates.py records: good ones of several kinds, changes that break one check each and every two of them together,
values at each limit and one beyond, damaged files, random updates, and negotiations. Nothing here knows an answer."""
from molecule_vectors import CellOutput, Script, join, reads, split, u32
from update_model import Case, LIMIT, Tx, added_outputs, amount, amount_of, capacity_of, fee, first_capacity, first_data, item, lock_of, output, \
    read_records, read_tx, record, script, type_of, u64, write_records

TOP = 2 ** 128 - 1
MAX = 2 ** 64 - 1


class Rng:
    """splitmix64, so that a seed gives the same cases everywhere."""

    def __init__(self, seed):
        self.state = seed

    def word(self):
        self.state = (self.state + 0x9e3779b97f4a7c15) % 2 ** 64
        z = self.state
        z = (z ^ z >> 30) * 0xbf58476d1ce4e5b9 % 2 ** 64
        z = (z ^ z >> 27) * 0x94d049bb133111eb % 2 ** 64
        return z ^ z >> 31

    def below(self, n):
        return self.word() * n >> 64

    def pick(self, xs):
        return xs[self.below(len(xs))]

    def once_in(self, n):
        return self.below(n) == 0

    def mixed(self, xs):
        xs, out = list(xs), []
        while xs:
            out.append(xs.pop(self.below(len(xs))))
        return out


# ---- what the cases are made of

LOCK, SOURCE, TYPE, PEER, OTHER = (script(n) for n in range(5))


def dep(n, dep_type=0):
    return bytes([n]) * 32 + u32(n) + bytes([dep_type])


def header(n):
    return bytes([n]) * 32


def cell_input(n, since=0):
    return u64(since) + bytes([n]) * 32 + u32(n)


def near(s):
    """Scripts that differ from s in one thing; of what is no script, itself."""
    if not reads(Script, s):
        return [s]
    code, hash_type, args = split(s)
    args = args[4:]

    def made(code, hash_type, args):
        return join([code, hash_type, u32(len(args)) + args])

    def off(b, i):
        return b[:i] + bytes([b[i] ^ 1]) + b[i + 1:]

    out = [made(off(code, 0), hash_type, args), made(off(code, 31), hash_type, args), made(code, off(hash_type, 0), args),
           made(code, hash_type, args + b'\0')]
    if args:
        out += [made(code, hash_type, args[:-1]), made(code, hash_type, off(args, 0)), made(code, hash_type, off(args, len(args) - 1))]
    return out


def with_output(out, capacity=None, lock=None, type_=None):
    c, old_lock, old_type = split(out)
    return join([c if capacity is None else u64(capacity), old_lock if lock is None else lock, old_type if type_ is None else type_])


def ours_of(c):
    return c.ours or Tx()


def needed(c):
    """Growth plus added outputs, in shannons."""
    ours = ours_of(c)
    return first_capacity(c.peer) - first_capacity(ours) + sum(capacity_of(o) for o, _ in added_outputs(ours, c.peer))


def pay(c, left):
    """The last record's capacity such that so much is left."""
    rest = sum(capacity_of(r[0]) for r in c.records[:-1])
    out, data = c.records[-1]
    c.records[-1] = (with_output(out, needed(c) + left - rest), data)
    return c


def due(c):
    return fee(c.rate, len(c.peer.write()) + 4)


# ---- good updates

KINDS = ['none', 'empty', 'wide', 'one', 'rich', 'inputs only', 'outputs only', 'deps only', 'itself']
CKB = 100_000_000


def base(kind, typed, lock=LOCK, type_=TYPE):
    t = type_ if typed else b''

    def tokens(n):
        return amount(n) if typed else b''

    def fund(capacity):
        return output(capacity, lock, t)

    def case(ours, peer, records, rate=1000):
        return Case(ours, peer, lock, t, SOURCE, rate, records)

    if kind in ('none', 'empty', 'deps only'):
        deps = [dep(1)] if kind == 'deps only' else []
        ours = None if kind == 'none' else Tx(deps=deps)
        peer = Tx(deps=deps, inputs=[cell_input(1)], outputs=[fund(100 * CKB)], data=[tokens(5)])
        return pay(case(ours, peer, [(output(0, PEER, t), tokens(7))]), 777)
    if kind == 'wide':
        peer = Tx(deps=[dep(1), dep(2)], headers=[header(1)], inputs=[cell_input(1), cell_input(2), cell_input(3)],
                  outputs=[fund(200 * CKB), output(142 * CKB, PEER, TYPE), output(61 * CKB, PEER)], data=[tokens(50), amount(8), b''],
                  witnesses=[b'\x55' * 3, b''])
        records = [(output(150 * CKB, PEER, TYPE), amount(60)), (output(1, LOCK, OTHER), b'\7'), (output(0, PEER), b'')]
        return pay(case(None, peer, records), 5000)
    if kind == 'one':
        ours = Tx(inputs=[cell_input(9)], outputs=[fund(100 * CKB)], data=[tokens(30)])
        peer = Tx(inputs=[cell_input(9), cell_input(1)], outputs=[fund(120 * CKB)], data=[tokens(33)])
        return pay(case(ours, peer, [(output(0, PEER, t), tokens(4))]), 3)
    if kind == 'rich':
        ours = Tx(deps=[dep(1), dep(2)], headers=[header(1), header(2)], inputs=[cell_input(8), cell_input(9, 3)],
                  outputs=[fund(100 * CKB), output(70 * CKB, SOURCE, TYPE), output(61 * CKB, SOURCE)], data=[tokens(30), amount(9), b'abc'],
                  witnesses=[b'w'])
        peer = Tx(deps=[dep(2), dep(3), dep(1)], headers=ours.headers + [header(3)], inputs=ours.inputs + [cell_input(1), cell_input(2)],
                  outputs=[fund(200 * CKB)] + ours.outputs[1:] + [output(142 * CKB, PEER, TYPE), output(61 * CKB, PEER)],
                  data=[tokens(50)] + ours.data[1:] + [amount(6), b''], witnesses=[b'', b'v'])
        return pay(case(ours, peer, [(output(150 * CKB, PEER, TYPE), amount(31)), (output(0, PEER, OTHER), b'')]), 12345)
    if kind == 'inputs only':
        ours = Tx(inputs=[cell_input(9)])
        peer = Tx(inputs=[cell_input(9), cell_input(1)], outputs=[fund(100 * CKB), output(61 * CKB, PEER)], data=[tokens(5), b''])
        return pay(case(ours, peer, [(output(0, PEER, t), tokens(5))]), 0)
    if kind == 'outputs only':
        ours = Tx(outputs=[fund(100 * CKB)], data=[tokens(30)])
        peer = Tx(inputs=[cell_input(1)], outputs=[fund(100 * CKB), output(61 * CKB, PEER, t)], data=[tokens(30), tokens(1)])
        return pay(case(ours, peer, [(output(0, PEER, t), tokens(2))]), 1)
    if kind == 'itself':
        ours = Tx(inputs=[cell_input(9)], outputs=[fund(100 * CKB)], data=[tokens(30)])
        return case(ours, ours.copy(), [])
    raise KeyError(kind)


# ---- changes that break one check each, in table order; one that can't be made answers False

CHANGES = []


def change(f):
    CHANGES.append(f)
    return f


def ours_cut(c):
    if not c.ours:
        return False
    c.ours = c.our_bytes()[:-1]


def ours_longer(c):
    c.ours = c.our_bytes() + b'\0'


def peer_cut(c):
    c.peer = c.peer_bytes()[:-1]


def peer_longer(c):
    c.peer = c.peer_bytes() + b'\0'


def peer_empty(c):
    c.peer = b''


def lock_cut(c):
    c.lock = c.lock[:-1]


def type_cut(c):
    c.type = (c.type or TYPE)[:-1]


def type_word(c):
    c.type = u32(4)


def source_longer(c):
    c.source = c.source + b'\0'


def source_empty(c):
    c.source = b''


ENTRY = [ours_cut, ours_longer, peer_cut, peer_longer, peer_empty, lock_cut, type_cut, type_word, source_longer, source_empty]


@change
def inputs_65(c):
    n = len(ours_of(c).inputs) + 65
    c.peer.inputs = (c.peer.inputs + [cell_input(7)] * n)[:n]


@change
def outputs_4(c):
    n = len(ours_of(c).outputs) + 4
    c.peer.outputs = (c.peer.outputs + [output(1, PEER)] * n)[:n]


@change
def deps_9(c):
    n = len(ours_of(c).deps) + 9
    c.peer.deps = (c.peer.deps + [dep(7)] * n)[:n]


@change
def headers_3(c):
    n = len(ours_of(c).headers) + 3
    c.peer.headers = (c.peer.headers + [header(7)] * n)[:n]


LIMITS = [inputs_65, outputs_4, deps_9, headers_3]


@change
def version(c):
    c.peer.version ^= 1


@change
def deps_fewer(c):
    if not ours_of(c).deps:
        return False
    c.peer.deps = ours_of(c).deps[:-1]


@change
def dep_missing(c):
    if not ours_of(c).deps:
        return False
    c.peer.deps = [dep(5, 1) if d == c.ours.deps[-1] else d for d in c.peer.deps]


@change
def headers_fewer(c):
    if not ours_of(c).headers:
        return False
    c.peer.headers = c.ours.headers[:-1]


@change
def header_differs(c):
    if not ours_of(c).headers or not c.peer.headers:
        return False
    c.peer.headers[min(len(c.peer.headers), len(c.ours.headers)) - 1] = header(6)


@change
def inputs_fewer(c):
    if not ours_of(c).inputs:
        return False
    c.peer.inputs = c.ours.inputs[:-1]
    c.records = []


@change
def input_differs(c):
    if not ours_of(c).inputs or not c.peer.inputs:
        return False
    c.peer.inputs[min(len(c.peer.inputs), len(c.ours.inputs)) - 1] = cell_input(6)


@change
def since_differs(c):
    if not ours_of(c).inputs or not c.peer.inputs:
        return False
    old = c.peer.inputs[0]
    c.peer.inputs[0] = bytes([old[0] ^ 1]) + old[1:]


@change
def outputs_fewer(c):
    if not ours_of(c).outputs:
        return False
    c.peer.outputs = c.peer.outputs[:len(c.ours.outputs) - 1]


@change
def first_lock(c):
    if not c.peer.outputs:
        return False
    c.peer.outputs[0] = with_output(c.peer.outputs[0], lock=PEER)


@change
def first_type(c):
    if not c.peer.outputs:
        return False
    c.peer.outputs[0] = with_output(c.peer.outputs[0], type_=OTHER)


@change
def first_type_dropped(c):
    if not c.peer.outputs or not c.type:
        return False
    c.peer.outputs[0] = with_output(c.peer.outputs[0], type_=b'')


@change
def first_data_longer(c):
    if not c.peer.data:
        return False
    c.peer.data[0] += b'\0'


@change
def output_differs(c):
    if len(ours_of(c).outputs) < 2 or len(c.peer.outputs) < 2:
        return False
    i = min(len(c.ours.outputs), len(c.peer.outputs)) - 1
    c.peer.outputs[i] = with_output(c.peer.outputs[i], capacity=capacity_of(c.peer.outputs[i]) + 1)


@change
def output_lock_differs(c):
    if len(ours_of(c).outputs) < 2 or len(c.peer.outputs) < 2:
        return False
    c.peer.outputs[1] = with_output(c.peer.outputs[1], lock=OTHER)


@change
def data_fewer(c):
    if not ours_of(c).data:
        return False
    c.peer.data = c.peer.data[:len(c.ours.data) - 1]


@change
def data_differs(c):
    if len(ours_of(c).data) < 2 or len(c.peer.data) < 2:
        return False
    i = min(len(c.ours.data), len(c.peer.data)) - 1
    c.peer.data[i] = c.peer.data[i] + b'\1'


@change
def record_unreadable(c):
    if not c.records:
        return False
    c.records[-1] = (c.records[-1][0][:-1] if c.records[-1] else b'\0', b'')


@change
def record_missing(c):
    if not c.records:
        return False
    c.records.pop()


@change
def record_more(c):
    c.records.append((output(5, PEER), b''))


@change
def record_more_dead(c):
    c.records.append(None)


@change
def first_dead(c):
    if not c.records:
        return False
    c.records[0] = None


@change
def last_dead(c):
    if len(c.records) < 2:
        return False
    c.records[-1] = None


@change
def first_is_ours(c):
    if not c.records or not c.records[0]:
        return False
    c.records[0] = (with_output(c.records[0][0], lock=SOURCE), c.records[0][1])


@change
def last_is_ours(c):
    if len(c.records) < 2 or not c.records[-1] or not reads(CellOutput, c.records[-1][0]):
        return False
    c.records[-1] = (with_output(c.records[-1][0], lock=SOURCE), c.records[-1][1])


@change
def no_outputs(c):
    if ours_of(c).outputs:
        return False
    c.peer.outputs = []


@change
def no_data(c):
    if ours_of(c).data:
        return False
    c.peer.data = []


@change
def capacity_falls(c):
    if not ours_of(c).outputs or not c.peer.outputs:
        return False
    c.peer.outputs[0] = with_output(c.peer.outputs[0], capacity=first_capacity(c.ours) - 1)


@change
def our_amount_missing(c):
    if not ours_of(c).outputs:
        return False
    c.ours.data = []


@change
def our_amount_short(c):
    if not ours_of(c).outputs or not c.ours.data:
        return False
    c.ours.data[0] = bytes(15)


@change
def peer_amount_short(c):
    if not c.peer.data or not c.type:
        return False
    c.peer.data[0] = b'\xff' * 15


@change
def amount_falls(c):
    if not first_data(ours_of(c)) or not c.peer.data or not c.type or amount_of(first_data(c.ours)) == 0:
        return False
    c.peer.data[0] = amount(amount_of(first_data(c.ours)) - 1)


@change
def capacity_short(c):
    if not c.records or not c.records[-1] or not c.peer.outputs or not reads(CellOutput, c.records[-1][0]):
        return False
    if any(r is None for r in c.records):
        return False
    if 0 <= needed(c) - 1 - sum(capacity_of(r[0]) for r in c.records[:-1]) <= MAX:
        pay(c, -1)
    else:
        c.records[-1] = (with_output(c.records[-1][0], capacity=0), c.records[-1][1])


@change
def fee_short(c):
    if ours_of(c).inputs or ours_of(c).outputs or not c.peer.outputs or not c.records or any(r is None or not reads(CellOutput, r[0]) for r in c.records):
        return False
    if not 0 <= needed(c) + due(c) // 2 - sum(capacity_of(r[0]) for r in c.records[:-1]) <= MAX:
        return False
    pay(c, due(c) // 2)


def token_record(c):
    for i, r in enumerate(c.records):
        if r and reads(CellOutput, r[0]) and type_of(r[0]) == TYPE:
            return i
    return None


@change
def record_amount_short(c):
    i = token_record(c)
    if i is None:
        return False
    c.records[i] = (c.records[i][0], c.records[i][1][:15])


@change
def record_total(c):
    i = token_record(c)
    if i is None:
        return False
    c.records[i] = (c.records[i][0], amount(TOP))
    c.records.insert(i, (output(1, PEER, TYPE), amount(1)))
    c.peer.inputs.append(cell_input(5))


@change
def output_amount_short(c):
    for i in range(max(1, len(ours_of(c).outputs)), min(len(c.peer.outputs), len(c.peer.data))):
        if type_of(c.peer.outputs[i]) == TYPE:
            c.peer.data[i] = c.peer.data[i][:15]
            return None
    return False


@change
def output_amount_missing(c):
    for i in range(max(1, len(ours_of(c).outputs)), len(c.peer.outputs)):
        if type_of(c.peer.outputs[i]) == TYPE:
            c.peer.data = c.peer.data[:i]
            return None
    return False


def two_outputs(c, a, b):
    """Two added outputs of the type with these amounts instead of the added ones."""
    n = max(1, len(ours_of(c).outputs))
    c.peer.outputs = c.peer.outputs[:n] + [output(1, PEER, TYPE)] * 2
    c.peer.data = (c.peer.data + [b''] * n)[:n] + [amount(a), amount(b)]


@change
def output_total(c):
    if not c.peer.outputs:
        return False
    two_outputs(c, TOP, 1)


@change
def growth_total(c):
    if not c.peer.outputs or not c.peer.data or not c.type:
        return False
    two_outputs(c, TOP - 7, 1)
    c.peer.data[0] = amount(amount_of(first_data(ours_of(c))) + 7)


@change
def tokens_short(c):
    i = token_record(c)
    if i is None or not c.type or not first_data(c.peer):
        return False
    outs = sum(amount_of(d) for o, d in added_outputs(ours_of(c), c.peer) if type_of(o) == TYPE)
    least = amount_of(first_data(c.peer)) - amount_of(first_data(ours_of(c))) + outs
    if not 0 < least <= TOP:
        return False
    c.records = [(o, amount(0)) if o != b'' and type_of(o) == TYPE else (o, d) for o, d in (r for r in c.records if r)]
    c.records[i] = (c.records[i][0], amount(least - 1))


def changed(c, *changes):
    """A copy with the changes, or None where one can't be made."""
    c = c.copy()
    try:
        for f in changes:
            if f(c) is False:
                return None
    except (TypeError, IndexError, AttributeError, OverflowError):  # an earlier change took away what this one needs
        return None
    return c


# ---- families: lists of files

def first_case(rate=1000, record_capacity=100 * CKB + 205):
    """the rules' own: 201 bytes from none."""
    peer = Tx(inputs=[bytes(44)], outputs=[output(100 * CKB, LOCK)], data=[b''])
    return Case(None, peer, LOCK, b'', SOURCE, rate, [(output(record_capacity, LOCK), b'')])


def named():
    """Cases whose answer the papers give: what, the file, the line."""
    def accepted(n):
        return '0 %032x' % n

    one, c = base('one', True), first_case()
    words = [f[:4] for f in (item(k, b) for k, b in c.items())]
    assert words == [u32(n) for n in (0x200000C9, 0x30000035, 0x50000035, 0x60000008, 0x7000004D, 0x80000000)]
    yield "the rules' first", c.file(), accepted(205)
    yield 'one less', first_case(1000, 100 * CKB + 204).file(), '8 204 205 1000 205'
    yield 'one less, at 1,005', first_case(1005, 100 * CKB + 204).file(), '8 204 206 1005 205'
    yield 'against itself', Case(c.peer, c.peer, LOCK, b'', SOURCE, 1000, []).file(), accepted(0)
    empty = first_case()
    empty.ours = Tx()
    yield 'against the 68-byte transaction', empty.file(), accepted(205)
    for typed in (True, False):
        for n, line in ((3, accepted(10 ** 6)), (4, '4')):
            yield 'outputs', filled('none', typed, inputs=1, outputs=n).file(), line
            yield 'inputs', filled('none', typed, inputs=61 + n, outputs=1).file(), line
            yield 'deps', filled('none', typed, inputs=1, outputs=1, deps=5 + n).file(), line
            yield 'headers', filled('none', typed, inputs=1, outputs=1, headers=n - 1).file(), line
        two = base('rich', typed)
        two.records = [(output(1, SOURCE), b''), None]
        yield 'our lock, then not live', two.file(), '6 2'
        two.records = [None, (b'\0', b'')]
        yield 'not live, then unreadable', two.file(), '3'
        two.records = [None, (output(1, SOURCE), b'')]
        yield 'not live, then our lock', two.file(), '5'
        two.peer.version, two.records = 1, [(b'', b'')] * 2
        yield 'an unreadable record behind another version', two.file(), '5'
        deps = base('one', typed)
        deps.ours.deps, deps.peer.deps = [dep(1), dep(1)], [dep(1), dep(2)]
        yield 'ours [d, d], the peer\'s [d, e]', deps.file(), accepted(3)
        entry = base('none', typed)
        entry.ours = Tx(data=[amount(9)])
        yield 'ours without outputs, with a data entry', entry.file(), accepted(777)
        fill = base('rich', typed)
        fill.ours.data = fill.ours.data[:1]
        yield 'entries missing in ours, filled', fill.file(), accepted(12345)
        more = base('rich', typed)
        more.ours.data = more.ours.data + [b'x']
        yield 'more entries than outputs in ours', more.file(), '5'
        more.peer.data[3] = b'x' if not typed else amount(6)
        more.ours.data[3] = more.peer.data[3]
        yield 'more entries than outputs in ours, and the peer has them', more.file(), accepted(12345)
        short = base('wide', typed)
        short.peer.data = short.peer.data[:1]
        yield 'an added output of the type without its data entry', pay(short, 5000).file(), '5' if typed else accepted(5000)
        lacking = base('one', typed)
        lacking.ours.data = []
        yield 'our output 0 without data', lacking.file(), '5' if typed else accepted(3)
        bare = base('none', typed)
        bare.peer.outputs, bare.type = [], bare.type[:-1] or b'\0'
        yield 'an unreadable type without output 0', bare.file(), '3'
        few = changed(base('rich', typed), inputs_fewer)
        yield 'fewer inputs', few.file(), '5'
        items = base('none', typed).items()
        for kind, line in ((2, '2'), (3, '3'), (5, '3')):
            yield 'an empty item %d' % kind, b''.join(item(k, b'' if k == kind else b) for k, b in items), line
        yield 'an empty item 1', item(1, b'') + b''.join(item(k, b) for k, b in items), accepted(777)
        lock = [i for i, (k, _) in enumerate(items) if k == 3][0]
        if not typed:
            yield 'an empty item 4', b''.join(item(k, b) for k, b in items[:lock + 1] + [(4, b'')] + items[lock + 1:]), accepted(777)
        odd = base('one', typed)
        odd.records[-1] = (odd.records[-1][0], (odd.records[-1][1] or b'z') + b'z')
        yield 'padding', odd.file(), accepted(3)
        yield 'no padding behind the last item', odd.file().rstrip(b'\0'), '3'
    tokens = account(None, 5, [TOP, 1], [])
    yield 'token records 2^128 - 1 and 1', tokens.file(), '7'
    yield 'token records 2^128 - 2 and 1', account(None, 5, [TOP - 1, 1], []).file(), accepted(10 ** 10)


def wholes():
    """Good files, which most others are near to."""
    for typed in (True, False):
        for kind in KINDS:
            yield base(kind, typed)
    yield from small_files()


def singles():
    for typed in (True, False):
        for kind in KINDS:
            c = base(kind, typed)
            yield c
            for f in CHANGES + ENTRY:
                yield changed(c, f)


def pairs():
    for typed in (True, False):
        for kind in ('rich', 'wide'):
            c = base(kind, typed)
            for i, f in enumerate(CHANGES):
                one = changed(c, f)
                if one is None:
                    continue
                yield one
                later = CHANGES[i + 1:]
                if kind == 'rich' and not typed:
                    later = later[:6] + later[6::7]
                if kind == 'wide' and i < CHANGES.index(record_unreadable):
                    later = later[:3]
                for g in later:
                    yield changed(c, g, f) or changed(c, f, g)
            for i, f in enumerate(ENTRY):
                for g in ENTRY[i + 1:]:
                    yield changed(c, f, g)
                for g in CHANGES:
                    yield changed(c, g, f)


def filled(kind, typed, inputs=0, outputs=0, deps=0, headers=0):
    """So many inputs, outputs, deps and header deps added, each input with its record."""
    c = base(kind, typed)
    ours, t = ours_of(c), c.type
    c.peer.inputs = ours.inputs + [cell_input(i % 250) for i in range(inputs)]
    c.peer.outputs = (c.peer.outputs[:max(1, len(ours.outputs))] + [output(1, PEER)] * 9)[:max(1, len(ours.outputs) + outputs)]
    c.peer.data = (c.peer.data[:max(1, len(ours.outputs))] + [b''] * 9)[:len(c.peer.outputs)]
    c.peer.deps = ours.deps + [dep(i) for i in range(deps)]
    c.peer.headers = ours.headers + [header(i) for i in range(headers)]
    c.peer.witnesses = []
    c.records = [(output(CKB, PEER), b'')] * inputs
    if c.records:
        c.records[0] = (output(CKB, PEER, t), amount(50) if t else b'')
        pay(c, 10 ** 6)
    return c


def limits():
    for typed in (True, False):
        for kind in ('none', 'rich'):
            whole = filled(kind, typed, inputs=64, outputs=3, deps=8, headers=2)
            yield whole
            for f in (last_dead, last_is_ours, record_missing, record_more, inputs_65, outputs_4, deps_9, headers_3, capacity_short, fee_short):
                yield changed(whole, f)
            # each input entry counts by itself, and each dep
            c = whole.copy()
            c.peer.inputs = ours_of(c).inputs + [cell_input(1)] * 64
            c.peer.deps = ours_of(c).deps + [dep(1)] * 8
            c.peer.headers = ours_of(c).headers + [header(1)] * 2
            yield c
            for f in (inputs_65, deps_9, headers_3):
                yield changed(c, f)
            for inputs, outputs, deps, headers in ((65, 4, 9, 3), (64, 4, 9, 2), (64, 3, 9, 3), (64, 3, 8, 3), (65, 3, 8, 2), (64, 4, 8, 2), (63, 2, 7, 1),
                                                   (66, 5, 10, 4), (65, 0, 0, 0), (0, 0, 0, 3)):
                yield filled(kind, typed, inputs, outputs, deps, headers)
            for n in (0, 1, 2, 3, 4, 5):
                yield filled(kind, typed, inputs=1, outputs=n)
            for n in (7, 8, 9, 10):
                yield filled(kind, typed, inputs=1, outputs=1, deps=n)
            for n in (1, 2, 3, 4):
                yield filled(kind, typed, inputs=1, outputs=1, headers=n)
        # so is header deps fewer by several, and one more than ours of many
        for n in (0, 1, 3, 4, 5, 7, 8):
            c = base('rich', typed)
            c.ours.headers = [header(i) for i in range(5)]
            c.peer.headers = [header(i) for i in range(n)]
            yield c
            yield changed(c, deps_9)
        # fewer of one thing is none added, and the others still count
        for f in (deps_fewer, headers_fewer, inputs_fewer, outputs_fewer):
            for g in (inputs_65, outputs_4, deps_9, headers_3):
                yield changed(base('rich', typed), g, f)
                yield changed(base('rich', typed), f, g)


def fees():
    for typed in (True, False):
        for kind in ('none', 'empty', 'wide', 'deps only'):
            c = base(kind, typed)
            size = len(c.peer.write()) + 4
            edge = MAX // size
            for rate in (0, 1, 2, 3, 4, 5, 500, 999, 1000, 1001, 1005, 10 ** 6, 2 ** 32, 2 ** 32 + 1, edge - 1, edge, edge + 1, 2 * edge, 2 ** 63, MAX):
                for off in (-2, -1, 0, 1):
                    d = c.copy()
                    d.rate = rate
                    if due(d) + off >= -1 and needed(d) + due(d) + off < MAX:
                        yield pay(d, due(d) + off)
            # more than 64 bits left over: the fee is paid
            for n in (2, 3):
                d = c.copy()
                d.rate = MAX
                d.peer.inputs = [cell_input(i) for i in range(n)]
                d.records = [(output(MAX, PEER, d.type), amount(40) if d.type else b'')] * n
                yield d
            # size counts witnesses
            for n in range(0, 6):
                d = c.copy()
                d.peer.witnesses = [bytes(n)]
                yield pay(d, due(c))
                yield pay(d.copy(), due(d))
        # no fee is due where ours has inputs or outputs
        for kind in ('one', 'rich', 'inputs only', 'outputs only'):
            for rate in (0, 1000, MAX):
                for left in (0, 1):
                    d = base(kind, typed)
                    d.rate = rate
                    yield pay(d, left)
        d = base('itself', typed)
        d.rate = MAX
        yield d
        # nothing put in: from none and nothing else, and with an output of nothing
        for kind in ('none', 'empty'):
            for rate in (0, 3, 4, 5, 1000):
                d = base(kind, typed)
                d.rate = rate
                d.peer.inputs, d.records, d.peer.data = [], [], [amount(0) if typed else b'']
                d.peer.outputs = [with_output(d.peer.outputs[0], capacity=0)]
                yield d


HALVES = [0, 1, 2 ** 63, MAX, 2 ** 64, 2 ** 64 + 1, 2 ** 127, TOP - MAX, TOP - 1, TOP]


def account(ours, peer, records, outs, kind='one'):
    """A typed update with these amounts; None for ours: from none."""
    c = base('none' if ours is None else kind, True)
    if ours is not None:
        c.ours.data[0] = amount(ours)
    c.peer.inputs = ours_of(c).inputs + [cell_input(i) for i in range(len(records))]
    n = max(1, len(ours_of(c).outputs))
    c.peer.outputs = c.peer.outputs[:n] + [output(1, PEER, TYPE) for _ in outs]
    c.peer.data = [amount(peer)] + c.peer.data[1:n] + [amount(a) for a in outs]
    c.records = [(output(10 ** 10, PEER, TYPE), amount(a)) for a in records]
    return c


def tokens():
    for a in HALVES:
        for b in HALVES:
            yield account(a, b, [TOP], [])  # falls or grows, in either half
            yield account(None, a, [b], [])  # inputs against growth
            if a + b <= TOP:
                yield account(None, 0, [a, b], [a + b])
                if a + b:
                    yield account(None, 0, [a, b], [a + b - 1])
                if a + b < TOP:
                    yield account(None, 0, [a, b], [a + b + 1])
                    yield account(0, a, [b], [a + b + 1])
            else:
                yield account(None, 0, [a, b], [])
                yield account(0, 0, [TOP], [a, b])
                yield account(0, a, [TOP], [b])
    for a, b, c in ((MAX, 1, MAX), (2 ** 64 - 1, 2 ** 64 - 1, 2), (2 ** 127, 2 ** 127 - 1, 0), (2 ** 127, 2 ** 127 - 1, 1), (TOP, 0, 0), (0, TOP, 1),
                    (TOP - 2, 1, 1), (TOP - 1, 1, 1)):
        yield account(0, 0, [a, b, c], [])
        yield account(0, 0, [TOP], [a, b])
        yield account(c, TOP, [a, b], [])
        yield account(c, min(TOP, c + a), [TOP], [b])
        yield account(None, 3, [a, b, c], [1, 2])
    # a short amount before, between and behind what makes a total too wide, in records and in outputs
    for a, b, c in ((TOP, 1, None), (TOP, None, 1), (None, TOP, 1), (1, None, TOP), (TOP, 0, None), (0, 0, None), (None, None, TOP)):
        for outs, ins in (([], [a, b, c]), ([a, b, c], [TOP]), ([a, b, c], [TOP, 1]), ([TOP, 1], [a, b, c]), ([1, None], [a, b, c]), ([a, b, c], [None])):
            for n in (0, 5):
                d = account(0, n, [x or 0 for x in ins], [x or 0 for x in outs])
                d.records = [(o, x[:15] if y is None else x) for (o, x), y in zip(d.records, ins)]
                d.peer.data = d.peer.data[:1] + [x[:15] if y is None else x for x, y in zip(d.peer.data[1:], outs)]
                yield d
    # lengths of data: records, outputs, output 0, ours
    for typed in (True, False):
        for kind in ('rich', 'wide', 'one', 'none'):
            for n in (0, 1, 8, 15, 16, 17, 24, 32):
                c = base(kind, typed)
                i = token_record(c)
                if i is not None:
                    c.records[i] = (c.records[i][0], (amount(255) + b'\xff' * 16)[:n])
                    yield c
                c = base(kind, typed)
                for j in range(max(1, len(ours_of(c).outputs)), len(c.peer.outputs)):
                    d = c.copy()
                    d.peer.data[j] = (amount(3) + b'\xff' * 16)[:n]
                    yield d
                c.peer.data[0] = (amount(40) + b'\xff' * 16)[:n]
                yield c
                if c.ours:
                    c = base(kind, typed)
                    c.ours.data[0] = (amount(3) + b'\xff' * 16)[:n]
                    yield c
                    d = c.copy()
                    d.peer.data = d.ours.data + d.peer.data[len(d.ours.data):]
                    yield d
            # records and outputs of other types hold any data
            for t in (b'', OTHER) + tuple(near(TYPE)):
                for data in (b'', b'\1', amount(TOP)):
                    c = base(kind, typed)
                    c.peer.inputs.append(cell_input(4))
                    c.records.append((output(100 * CKB, PEER, t), data))
                    yield c
                    if len(c.peer.outputs) - len(ours_of(c).outputs) < 3:
                        c = c.copy()
                        c.peer.outputs.append(output(CKB, PEER, t))
                        c.peer.data = (c.peer.data + [b''] * 9)[:len(c.peer.outputs) - 1] + [data]
                        yield c


def shannons():
    """Figures of capacity at the ends of 64 bits and beyond them in sums."""
    for typed in (True, False):
        for a in (0, 1, 2 ** 32, 2 ** 63, MAX - 1, MAX):
            for b in (0, 1, 2 ** 32, 2 ** 63, MAX - 1, MAX):
                c = base('one', typed)
                c.ours.outputs[0] = with_output(c.ours.outputs[0], capacity=a)
                c.peer.outputs[0] = with_output(c.peer.outputs[0], capacity=b)
                for left in (-1, 0):
                    if b >= a and b - a + left >= 0:
                        yield pay(c.copy(), left)
                c.records[0] = (with_output(c.records[0][0], capacity=MAX), c.records[0][1])
                yield c
        for outs in ([MAX], [MAX, MAX], [MAX, 1], [MAX, MAX, MAX]):
            for ins in ([MAX], [MAX, MAX], [MAX, MAX, MAX], [MAX, MAX, MAX, MAX], [MAX] * 5):
                c = base('one', typed)
                c.peer.inputs = c.ours.inputs + [cell_input(i) for i in range(len(ins))]
                c.peer.outputs = c.peer.outputs[:1] + [output(n, PEER) for n in outs]
                c.peer.data = c.peer.data[:1] + [b''] * len(outs)
                c.peer.outputs[0] = with_output(c.peer.outputs[0], capacity=100 * CKB)
                c.records = [(output(n, PEER, c.type), amount(1) if typed else b'') for n in ins]
                if typed:
                    c.peer.data[0] = amount(30)
                yield c
                d = c.copy()
                d.peer.outputs[0] = with_output(d.peer.outputs[0], capacity=100 * CKB + 1)
                yield d


def openings():
    """Cases that the papers leave open or name: what is read, compared and counted where lists have unusual lengths."""
    for typed in (True, False):
        t = TYPE if typed else b''

        def tokens(n):
            return amount(n) if typed else b''

        one, rich, none, wide = (base(k, typed) for k in ('one', 'rich', 'none', 'wide'))
        d, e, f = dep(1), dep(2), dep(3)
        for ours, peer in (([d, d], [d, e]), ([d, e], [e, d]), ([d], [e, d]), ([d, d], [d]), ([d, d], [d, d]), ([d, e], [d, d]), ([d, e], [e, f]),
                           ([d], [dep(1, 1)]), ([d], [dep(1, 1), d]), ([d, e, f], [f, d, e]), ([d, e, f], [f, d, f]), ([], [d, d]), ([d], [])):
            c = one.copy()
            c.ours.deps, c.peer.deps = list(ours), list(peer)
            yield c
        g, h = header(1), header(2)
        for ours, peer in (([g], [g]), ([g, h], [h, g]), ([g], [h, g]), ([g], [g, g, g]), ([g, g], [g]), ([], [g]), ([g], []), ([g, h], [g, g])):
            c = one.copy()
            c.ours.headers, c.peer.headers = list(ours), list(peer)
            yield c
        # inputs: order, since, each byte
        c = rich.copy()
        c.peer.inputs[0], c.peer.inputs[1] = c.peer.inputs[1], c.peer.inputs[0]
        yield c
        c = rich.copy()
        c.peer.inputs = c.peer.inputs[2:] + c.peer.inputs[:2]
        yield c
        for i in (0, 7, 8, 39, 40, 43):
            c = one.copy()
            old = c.peer.inputs[0]
            c.peer.inputs[0] = old[:i] + bytes([old[i] ^ 128]) + old[i + 1:]
            yield c
        # an input that ours has already, added again
        c = one.copy()
        c.peer.inputs[1] = c.peer.inputs[0]
        yield c
        # none and the 68-byte transaction, and others without inputs and outputs
        for ours in (None, Tx(), Tx(data=[tokens(5)]), Tx(data=[b'']), Tx(data=[b'abc']), Tx(headers=[g]), Tx(version=1), Tx(witnesses=[b'x'])):
            for base_case in (none, wide):
                c = base_case.copy()
                c.ours = ours
                yield c
                if ours is not None:
                    c = c.copy()
                    c.peer.headers = (ours.headers + c.peer.headers)[:max(len(ours.headers), len(c.peer.headers))]
                    c.peer.version = ours.version
                    yield pay(c, due(c))
                    yield pay(c.copy(), due(c) - 1)
        # the order of records that can't be read, are not live, or are ours
        good, dead, bad, mine = (output(150 * CKB, PEER, TYPE), amount(31)), None, (b'\0' * 9, b''), (output(5, SOURCE), b'')
        empty = (b'', b'')
        last = rich.records[1]
        for rs in ([dead, bad], [bad, dead], [mine, bad], [bad, mine], [dead, mine], [mine, dead], [mine, mine], [good, mine], [good, dead],
                   [dead, dead], [good], [dead], [mine], [bad], [], [good, last, dead], [good, last, bad], [good, last, mine], [dead, good], [bad, bad],
                   [empty, last], [good, empty], [good, last], [last, good],
                   [good, good], [mine, last, dead], [dead, mine, bad], [(good[0] + b'\0', good[1]), last], [(good[0][:-1], good[1]), last]):
            c = rich.copy()
            c.records = rs
            yield c
            c = c.copy()
            c.source = rich.source[:-1]
            yield c
        # locks of records that are nearly ours
        for s in near(SOURCE):
            c = one.copy()
            c.records[0] = (with_output(c.records[0][0], lock=s), c.records[0][1])
            yield c
        c = one.copy()
        c.source = LOCK
        yield c
        c.records[0] = (with_output(c.records[0][0], lock=LOCK), c.records[0][1])
        yield c
        # output 0 under a lock or type that is nearly as expected, with and without args
        for lock, type_ in ((LOCK, TYPE), (script(0, b'\1' * 20), script(2, b'\2' * 32))):
            for k in ('one', 'none'):
                whole = base(k, typed, lock, type_)
                yield whole
                for s in near(lock):
                    c = whole.copy()
                    c.peer.outputs[0] = with_output(c.peer.outputs[0], lock=s)
                    yield c
                    c = whole.copy()
                    c.lock = s
                    yield c
                for s in near(type_) + [b'', type_]:
                    c = whole.copy()
                    c.peer.outputs[0] = with_output(c.peer.outputs[0], type_=s)
                    yield c
                    c = whole.copy()
                    c.type = s
                    yield c
        # output 0 of ours under another lock or type, or with another data: not compared, its amount read all the same
        for out in (output(100 * CKB, PEER, t), output(100 * CKB, LOCK, OTHER), output(100 * CKB, LOCK), output(100 * CKB, LOCK, TYPE)):
            for data in ([amount(30)], [amount(33)], [amount(34)], [b''], [bytes(15)], [bytes(17)], []):
                c = one.copy()
                c.ours.outputs[0], c.ours.data = out, data
                yield c
                c = c.copy()
                c.records[0] = (c.records[0][0], amount(100) if typed else b'')
                yield c
        # our output 0 without data, with each check behind it failing too
        for f in CHANGES:
            yield changed(one, our_amount_missing, f)
            yield changed(one, our_amount_short, f)
        # data entries fewer and more than outputs
        entries = [tokens(30), amount(9), b'abc']
        for ours_data in (entries[:0], entries[:1], entries[:2], entries, entries + [amount(1)], entries + [b'x', b'y', b'z']):
            for more in (-9, -1, 0, 1):
                for kept in (True, False):
                    c = rich.copy()
                    c.ours.data = list(ours_data)
                    fill = rich.peer.data + [b'p', b'q', b'r']
                    n = max(0, max(len(ours_data), 5) + more) if more > -9 else len(ours_data)
                    c.peer.data = [rich.peer.data[0]] + [ours_data[i] if kept and i < len(ours_data) else fill[i] for i in range(1, n)] if n else []
                    yield c
        # output 0 or its data missing, from several starts
        for k in ('none', 'empty', 'wide', 'inputs only', 'deps only'):
            c = base(k, typed)
            for outs, datas in (([], []), ([], c.peer.data), (c.peer.outputs, [])):
                e2 = c.copy()
                e2.peer.outputs, e2.peer.data = list(outs), list(datas)
                yield e2
                yield changed(e2, type_cut)
                yield changed(e2, first_dead)
                yield changed(e2, first_is_ours)
                e2 = e2.copy()
                e2.peer.inputs, e2.records = ours_of(e2).inputs, []
                yield e2
        # added outputs of the type, the second without its data entry, then with it
        c = base('none', typed)
        c.peer.outputs = [c.peer.outputs[0], output(CKB, PEER, TYPE)]
        for data in ([tokens(5)], [tokens(5), amount(2)], [tokens(5), amount(3)], [tokens(5), b''], [tokens(5), amount(2), amount(9)]):
            e2 = c.copy()
            e2.peer.data = data
            yield pay(e2, 500)
        # index 0 is never an added output; it counts in the limits where ours has no outputs
        for n in (1, 2, 3, 4):
            for k in ('none', 'inputs only'):
                c = base(k, typed)
                c.peer.outputs = [c.peer.outputs[0]] + [output(MAX, PEER, t)] * (n - 1)
                c.peer.data = [c.peer.data[0]] + [tokens(1)] * (n - 1)
                c.peer.inputs = ours_of(c).inputs + [cell_input(i) for i in range(n)]
                c.records = [(output(MAX, PEER, t), tokens(3))] * n
                yield c
        # growth alone, change alone, nothing
        for k in ('one', 'rich'):
            c = base(k, typed)
            c.peer.outputs[0], c.peer.data[0] = c.ours.outputs[0], c.ours.data[0]
            yield c
            c = base(k, typed)
            c.peer.outputs, c.peer.data = c.peer.outputs[:len(c.ours.outputs)], c.peer.data[:len(c.ours.data)]
            yield c
            c = Case(c.ours, c.ours.copy(), c.lock, c.type, c.source, 0, [])
            yield c
            c = c.copy()
            c.peer.outputs[0] = with_output(c.peer.outputs[0], capacity=100 * CKB + 1)
            yield c
        # versions
        for a, b in ((0, 1), (1, 0), (1, 1), (0, 256), (2 ** 32 - 1, 2 ** 32 - 1), (2 ** 31, 0)):
            c = one.copy()
            c.ours.version, c.peer.version = a, b
            yield c
        # witnesses are not compared
        for a, b in (([b'x'], []), ([], [b'x']), ([b'x'], [b'y']), ([b'', b''], [b''])):
            c = one.copy()
            c.ours.witnesses, c.peer.witnesses = a, b
            yield c


# ---- files


def changed_places(f, rng, ways):
    for i in range(len(f)):
        for w in ways:
            b = {'up': f[i] + 1, 'down': f[i] - 1, 'zero': 0, 'full': 255, 'any': rng.below(256), 'bit': f[i] ^ 1 << rng.below(8)}[w] % 256
            yield f[:i] + bytes([b]) + f[i + 1:]


def small_files():
    """A file of each kind that the damage is done to: the rules' own, a typed one from none, and a typed one with ours."""
    first = base('none', False)
    first.peer.inputs, first.records = [bytes(44)], [(output(100 * CKB + 205, LOCK), b'')]
    typed = base('none', True)
    both = base('one', True)
    both.peer.outputs.append(output(1, PEER, TYPE))
    both.peer.data.append(amount(1))
    return [first.file(), typed.file(), pay(both, 9).file()]


def places(rng):
    for f, ways in zip(small_files(), (['up', 'bit'], ['any'], ['bit'])):
        yield f
        yield from changed_places(f, rng, ways)


def cuts():
    for f in small_files():
        yield f
        for n in range(len(f)):
            if n % 4 == 0 or n < 64 or n > len(f) - 96 or n % 4 == 3:
                yield f[:n]
        for n in range(1, 9):
            yield f + bytes(n)
            yield f + b'\1' * n
        yield f + f


def inner_cuts():
    """A transaction, script or record cut or lengthened, with its item's word as it then must be; and with the sizes in its own header so too."""
    for typed in (True, False):
        c = base('one', typed)
        yield c.file()
        items = c.items()
        for i, (kind, body) in enumerate(items):
            for n in sorted(set(list(range(0, min(len(body), 80))) + list(range(max(0, len(body) - 60), len(body))) + list(range(0, len(body), 7)))):
                yield b''.join(item(k, body[:n] if j == i else b) for j, (k, b) in enumerate(items))
            for more in (b'\0', b'\1', bytes(4), bytes(8)):
                yield b''.join(item(k, body + more if j == i else b) for j, (k, b) in enumerate(items))
                if len(body) > 8:
                    grown = u32(len(body) + len(more)) + body[4:] + more
                    yield b''.join(item(k, grown if j == i else b) for j, (k, b) in enumerate(items))


def shapes(rng):
    rich = base('rich', True)
    for c in (base('one', True), base('none', False), base('wide', True)):
        items = c.items()
        words = [item(k, b) for k, b in items]
        yield b''.join(words)
        for i, (kind, body) in enumerate(items):
            rest = words[:i], words[i + 1:]

            def put(*xs):
                return b''.join(rest[0] + list(xs) + rest[1])

            yield put()  # missing
            yield put(words[i], words[i])  # twice
            yield put(item(kind, b''))
            for k in range(16):  # another kind
                if k != kind:
                    yield put(item(k, body))
            for k in (0, 1, 4, 9, 15):  # another item before it
                yield put(item(k, b''), words[i])
                yield put(item(k, rich.peer_bytes()[:12]), words[i])
            if i + 1 < len(items):  # exchanged
                yield b''.join(words[:i] + [words[i + 1], words[i]] + words[i + 2:])
            for n in [len(body) + d for d in (1, 3, 4, 8, -1, -3, -4)] + [2 ** 28 - 1, 2 ** 27, 65536]:
                if n >= 0:  # another length, the body as it was
                    yield put(u32(kind << 28 | n) + words[i][4:])
            for p in range(-len(body) % 4):  # padding
                yield put(words[i][:len(words[i]) - 1 - p] + b'\1' + words[i][len(words[i]) - p:])
            if len(body) % 4:
                yield put(item(kind, body)[:4 + len(body)])
                yield put(words[i] + bytes(4))
            for n in (1, 2, 3):  # bodies of other lengths than a multiple of four
                yield put(item(kind, body + bytes(n)))
                yield put(item(kind, body[:len(body) - n]))
        records = words[-2:]
        head = b''.join(item(k, b) for k, b in items if k < 7)
        tail = b''.join(item(k, b) for k, b in items if k >= 7)
        for more in (item(7, b''), item(8, b''), item(9, b''), item(9, bytes(4)), item(9, b'\1'), records[0], records[1],
                     records[0] + item(9, b''), item(9, b'') + records[1], item(1, b''), item(6, bytes(8)), u32(0), u32(9 << 28) * 2, item(7, b'') + item(8, b'')):
            yield head + tail + more
            yield head + more + tail
            yield head + more
        for rate in (b'', bytes(4), bytes(7), bytes(9), bytes(12), bytes(16)):
            yield b''.join(item(k, rate if k == 6 else b) for k, b in items)
    yield b''
    for n in range(1, 13):
        yield bytes(n)
        yield b'\xff' * n
        yield rng.word().to_bytes(8, 'little') + bytes(n)
    for k in range(16):
        yield item(k, b'')
        yield item(k, base('none', False).peer_bytes())


def long_files():
    """At the bound of the file and beyond it: the last item is a record's data, of which nothing is read."""
    for typed in (True, False):
        c = base('none', typed)
        c.peer.inputs.append(cell_input(2))
        c.records.append((output(5, PEER), b''))
        room = LIMIT - len(c.file())
        for n in (room - 4, room - 1, room, room + 1, room + 4):
            d = c.copy()
            d.records[-1] = (d.records[-1][0], bytes(n))
            yield d.file()
        d.records[-1] = (d.records[-1][0], bytes(room))
        yield d.file() + b'\0'
        yield d.file() + item(9, b'')
        yield d.file()[:-1]
    yield bytes(LIMIT)
    yield bytes(LIMIT + 1)


# ---- random updates


AMOUNTS = [0, 1, 2, 5, 30, MAX, 2 ** 64, 2 ** 127, TOP - 1, TOP]


def any_amount(rng):
    return rng.pick(AMOUNTS) if rng.once_in(6) else rng.below(1000) if rng.once_in(2) else rng.below(2 ** 64) * rng.below(2 ** 40)


def any_capacity(rng):
    return rng.pick([0, 1, MAX]) if rng.once_in(12) else rng.below(200 * CKB)


def split_sum(rng, total, n, most):
    """Numbers up to `most` with this sum, or None."""
    if total > n * most:
        return None
    out = []
    for i in range(n - 1):
        low, high = max(0, total - (n - 1 - i) * most), min(total, most)
        out.append(low + rng.below(high - low + 1))
        total -= out[-1]
    return out + [total] if n else []


def extend(rng, ours, lock, type_, most=3):
    """An update that goes on from ours and may well be accepted: the peer's transaction and its records, and the rate. At most `most` inputs and
    outputs are added."""
    peer = ours.copy()
    typed = bool(type_)
    peer.deps = rng.mixed(ours.deps + [dep(rng.below(20), rng.below(2)) for _ in range(rng.pick([0, 0, 1, 2]))])
    peer.headers += [header(rng.below(20)) for _ in range(rng.pick([0, 0, 0, 0, 1, 2]))]
    k = rng.pick([1, 1, 2, 3, 0])
    k = max(k, 1) if not ours.outputs else k
    k = min(k, most)
    peer.inputs += [cell_input(rng.below(200), rng.pick([0, 0, 5])) for _ in range(k)]
    grown, more = (any_capacity(rng), any_amount(rng)) if k and not rng.once_in(4) else (0, 0)
    grown = min(grown, MAX - first_capacity(ours))
    more = min(more, TOP - amount_of(first_data(ours)))
    out0 = output(first_capacity(ours) + grown, lock, type_)
    data0 = amount(amount_of(first_data(ours)) + more, rng.pick([b'', b'', b'', b'tail'])) if typed else b''
    if peer.outputs:
        peer.outputs[0] = out0
        peer.data = [data0] + peer.data[1:]
    else:
        peer.outputs = [out0]
        peer.data = [data0] + peer.data[1:]
    kept = len(peer.outputs)
    if k and len(peer.data) <= kept:
        for _ in range(min(rng.pick([0, 0, 1, 1, 2]), most - 1 if not ours.outputs else most)):
            t = rng.pick([b'', type_, type_, OTHER])
            peer.data = (peer.data + [b''] * 9)[:len(peer.outputs)]
            peer.outputs.append(output(rng.below(70 * CKB), rng.pick([PEER, LOCK, SOURCE]), t))
            put = amount(any_amount(rng) if rng.once_in(3) else rng.below(100))
            peer.data.append(put if t == type_ and typed else rng.pick([b'', b'', b'd', amount(9)]))
    peer.witnesses = [bytes(rng.below(6)) for _ in range(rng.below(3))]
    rate = rng.pick([0, 1000, 1000, 1005, rng.below(10 ** 7), rng.below(2 ** 40)])
    outs = added_outputs(ours, peer)
    need = grown + sum(capacity_of(o) for o, _ in outs)
    if not ours.inputs and not ours.outputs:
        need += fee(rate, len(peer.write()) + 4)
    need += rng.pick([0, 0, 1, rng.below(1000), rng.below(10 ** 9), rng.below(MAX)]) if k else 0
    need_tokens = more + sum(amount_of(d) for o, d in outs if o and type_of(o) == type_) if typed else 0
    need_tokens += rng.pick([0, 0, 1, rng.below(1000), rng.below(2 ** 70)]) if typed and k else 0
    capacities = split_sum(rng, need, k, MAX) or [any_capacity(rng) for _ in range(k)]
    types = [rng.pick([type_, type_, b'', OTHER]) for _ in range(k)]
    if typed and need_tokens and k and type_ not in types:
        types[rng.below(k)] = type_
    of_type = [i for i in range(k) if typed and types[i] == type_]
    amounts = split_sum(rng, need_tokens, len(of_type), TOP) or [any_amount(rng) for _ in of_type]
    records = []
    for i in range(k):
        data = amount(amounts[of_type.index(i)], rng.pick([b'', b'', b'+'])) if i in of_type else rng.pick([b'', b'', b'xyz', amount(7)])
        records.append((output(capacities[i], rng.pick([PEER, PEER, LOCK]), types[i]), data))
    return peer, records, rate


def any_tx(rng, lock, type_):
    """A start that is funded, or nearly: outputs and data of all sorts."""
    tx = Tx(rng.pick([0, 0, 0, 1]))
    tx.deps = [dep(rng.below(5)) for _ in range(rng.below(3))]
    tx.headers = [header(rng.below(3)) for _ in range(rng.pick([0, 0, 1]))]
    tx.inputs = [cell_input(rng.below(9), rng.below(2)) for _ in range(rng.below(3))]
    for i in range(rng.pick([0, 1, 1, 1, 2, 2, 3])):
        if i == 0:
            tx.outputs.append(output(any_capacity(rng), PEER if rng.once_in(8) else lock, rng.pick([type_] * 4 + [b'', OTHER])))
            tx.data.append(amount(any_amount(rng)) if type_ and not rng.once_in(12) else rng.pick([b'', b'', bytes(15)]))
        else:
            tx.outputs.append(output(any_capacity(rng), SOURCE, rng.pick([b'', type_, OTHER])))
            tx.data.append(rng.pick([b'', amount(rng.below(50)), b'abc']))
    if rng.once_in(12):
        tx.data = tx.data[:rng.below(len(tx.data) + 1)]
    if rng.once_in(12):
        tx.data.append(rng.pick([b'', amount(4)]))
    tx.witnesses = [bytes(rng.below(4)) for _ in range(rng.below(2))]
    return tx


def broken(rng, c):
    """One of the changes, or a script nearly as it was."""
    kind = rng.below(12)
    if kind < 2:
        return changed(c, rng.pick(ENTRY)) or c
    if kind == 2:
        return changed(c, rng.pick(LIMITS)) or c
    if kind == 3:
        d = c.copy()
        i = rng.below(3)
        if i == 0:
            d.lock = rng.pick(near(c.lock))
        elif i == 1:
            d.type = rng.pick(near(c.type or TYPE))
        elif c.records and c.records[0] and reads(CellOutput, c.records[0][0]):
            d.source = rng.pick([lock_of(c.records[0][0])] + near(lock_of(c.records[0][0])))
        return d
    return changed(c, rng.pick(CHANGES[len(LIMITS):])) or c


def misshapen(rng, c):
    """The items of a case with one of them gone, doubled, exchanged, of another kind or of another length."""
    items = c.items()
    i = rng.below(len(items))
    kind, body = items[i]
    way = rng.below(8)
    if way == 0:
        items.pop(i)
    elif way == 1:
        items.insert(i, items[rng.below(len(items))])
    elif way == 2:
        items[i] = (rng.below(16), body)
    elif way == 3:
        j = rng.below(len(items))
        items[i], items[j] = items[j], items[i]
    elif way == 4:
        items[i] = (kind, body[:rng.below(len(body) + 1)])
    elif way == 5:
        items[i] = (kind, body + bytes(1 + rng.below(8)))
    elif way == 6:
        items.append((7 + rng.below(3), rng.pick([b'', body])))
    words = [item(k, b) for k, b in items]
    if way == 7:
        words[i] = u32(kind << 28 | max(0, len(body) + rng.below(9) - 4)) + words[i][4:]
    return b''.join(words)


def any_case(rng):
    """A random case file: mostly an update that goes on from ours, often with something broken."""
    typed = rng.once_in(2)
    lock = rng.pick([LOCK, LOCK, script(0, b'\1' * 4, 1)])
    type_ = rng.pick([TYPE, TYPE, script(2, b'\5' * 3)]) if typed else b''
    ours = rng.pick([None, Tx(), any_tx(rng, lock, type_), any_tx(rng, lock, type_)])
    peer, records, rate = extend(rng, ours or Tx(), lock, type_)
    c = Case(ours, peer, lock, type_, SOURCE, rate, records)
    for _ in range(rng.pick([0, 0, 1, 1, 1, 2, 3])):
        if isinstance(c.peer, Tx) and (c.ours is None or isinstance(c.ours, Tx)):
            c = broken(rng, c)
    if rng.once_in(12):
        return misshapen(rng, c)
    f = c.file()
    if rng.once_in(8):
        for _ in range(rng.pick([1, 1, 2])):
            if f:
                i = rng.below(len(f))
                other = rng.pick([bytes([rng.below(256)]), bytes([f[i] ^ 1 << rng.below(8)]), b'', b'\0' + f[i:i + 1]])
                f = f[:i] if rng.once_in(5) else f[:i] + other + f[i + 1:]
    return f


def random_files(rng, n):
    for _ in range(n):
        yield any_case(rng)


# ---- negotiations


class Call:
    """An update of a negotiation: bytes, the rate, and the records as one lent list."""

    def __init__(self, peer, source, rate, records):
        self.peer, self.source, self.rate, self.records = peer, source, rate, records

    def case(self, lock, type_):
        """The same as a case file for the Rust, which knows records one by one: a list that can't be read has an unreadable record there."""
        records = read_records(self.records)
        return Case(b'', self.peer, lock, type_, self.source, self.rate, [(b'', b'')] if records is None else records)


def bad_list(rng, records):
    """The bytes of a list of records that can't be read."""
    b = write_records(records)
    return rng.pick([b + b'\0', b[:-1], b'', b'\0' * 4, u32(8) + u32(7), u32(len(b) + 4) + b[4:] + bytes(4),
                     write_records(records[:-1]) + b'\0' if records else b'\1',
                     join([b'\0'] + [record(*r) for r in records if r]), join([record(*r) + b'\0' for r in records if r] or [b'\0'])])


def call_of(rng, ours, lock, type_, refuse):
    peer, records, rate = extend(rng, ours, lock, type_, 3 if rng.once_in(4) else 1)
    c = Case(ours, peer, lock, type_, SOURCE, rate, records)
    if refuse:
        for _ in range(9):
            d = changed(c, rng.pick(CHANGES[1:] if rng.once_in(12) else CHANGES[2:]))
            if d is None:
                continue
            c = d
            break
        if rng.once_in(12):
            return Call(c.peer_bytes(), SOURCE, rate, bad_list(rng, c.records))
        if rng.once_in(15):
            c = changed(c, rng.pick([peer_cut, peer_longer, peer_empty, source_longer, source_empty])) or c
    return Call(c.peer_bytes(), c.source, c.rate, write_records(c.records))


def negotiation(rng, n):
    """A start, a lock, a type, and how the next update comes from the bytes then in force."""
    typed = n % 2 == 0
    lock = rng.pick([LOCK, LOCK, LOCK, script(0, b'\7\7')])
    type_ = rng.pick([TYPE, TYPE, TYPE, script(2, b'\5')]) if typed else b''
    kind = n // 2 % 8
    start = b'' if kind in (0, 1) else Tx().write() if kind == 2 else any_tx(rng, lock, type_).write()
    if n % 31 == 30:  # unreadable
        start = start + b'\0'
    count = 2 + rng.below(5)

    def following(i, in_force):
        ours = (read_tx(in_force) if in_force else Tx()) or Tx()
        return call_of(rng, ours, lock, type_, rng.below(5) < 2 if i else rng.once_in(4))

    return start, lock, type_, count, following


def sized(tx, n):
    """The transaction with one witness of zero bytes such that it has n bytes."""
    tx = tx.copy()
    tx.witnesses = [b'']
    tx.witnesses = [bytes(n - len(tx.write()))]
    return tx


def large_negotiation(typed, kind, n):
    """A transaction of n bytes, then a small one: the size limit, which no case file reaches."""
    c = base(kind, typed)
    big = pay(Case(c.ours, sized(c.peer, n), c.lock, c.type, c.source, 1000, c.records), 200_000)
    again = c.peer.copy()
    again.inputs.append(cell_input(6))
    calls = [Call(big.peer_bytes(), c.source, 1000, write_records(big.records))]

    def following(i, in_force):
        if i == 0:
            return calls[0]
        ours = read_tx(in_force) if in_force else Tx()
        later = (ours if ours.inputs == big.peer.inputs else c.peer).copy()
        later.witnesses = []
        if ours.inputs == big.peer.inputs:
            later.inputs = later.inputs + [cell_input(6)]
            return Call(later.write(), c.source, 1000, write_records([(output(44, PEER), b'')]))
        return Call(later.write(), c.source, 1000, write_records(c.records))

    return c.our_bytes(), c.lock, c.type, 2, following
