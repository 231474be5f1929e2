"""A peer's update as docs/RULES.md rules it, written a second time and sharing nothing with the library: transactions as values, the case file, the
checks of the table in its order, each with the name of its place, and the surplus in whole numbers. tools/recorded_updates.py makes its cases with it,
counts by it which places they reach, and stops where it and the Rust say different things; tools/model_calls.py compares the library with it. Without the
requests that changed the rules, of which the Rust knows nothing, it is the rules as the Rust has them."""
from molecule_vectors import CellOutput, Record, Script, Transaction, dynvec, join, number, option, reads, split, u32

LIMIT = 65536  # bytes of a case file


# ---- values


def u64(n):
    return n.to_bytes(8, 'little')


def amount(n, more=b''):
    return n.to_bytes(16, 'little') + more


def script(code, args=b'', hash_type=0):
    return join([bytes([code]) * 32, bytes([hash_type]), u32(len(args)) + args])


def output(capacity, lock, type_=b''):
    return join([u64(capacity), lock, type_])


def fixvec_of(items):
    return u32(len(items)) + b''.join(items)


def bytes_of(b):
    return u32(len(b)) + b


def record(out, data):
    return join([out, bytes_of(data)])


def capacity_of(out):
    return number(split(out)[0])


def lock_of(out):
    return split(out)[1]


def type_of(out):
    return split(out)[2]


class Tx:
    """The lists of a transaction; items are their bytes, data and witnesses without their count."""

    def __init__(self, version=0, deps=(), headers=(), inputs=(), outputs=(), data=(), witnesses=()):
        self.version, self.deps, self.headers, self.inputs = version, list(deps), list(headers), list(inputs)
        self.outputs, self.data, self.witnesses = list(outputs), list(data), list(witnesses)

    def copy(self):
        return Tx(self.version, self.deps, self.headers, self.inputs, self.outputs, self.data, self.witnesses)

    def write(self):
        raw = join([u32(self.version), fixvec_of(self.deps), fixvec_of(self.headers), fixvec_of(self.inputs), join(self.outputs),
                    join([bytes_of(d) for d in self.data])])
        return join([raw, join([bytes_of(w) for w in self.witnesses])])


def items_of(b, size):
    return [b[i:i + size] for i in range(4, len(b), size)]


def read_tx(b):
    """The transaction, or None."""
    if not reads(Transaction, b):
        return None
    raw, witnesses = split(b)
    version, deps, headers, inputs, outputs, data = split(raw)
    return Tx(number(version), items_of(deps, 37), items_of(headers, 32), items_of(inputs, 44), split(outputs), [d[4:] for d in split(data)],
              [w[4:] for w in split(witnesses)])


def read_records(b):
    """Of a lent list of records: None if unreadable, else of each None (not live) or its output and data."""
    if not reads(dynvec(option(Record)), b):
        return None
    return [(split(r)[0], split(r)[1][4:]) if r else None for r in split(b)]


def write_records(records):
    return join([record(*r) if r else b'' for r in records])


# ---- the case file


def item(kind, body):
    return u32(kind << 28 | len(body)) + body + bytes(-len(body) % 4)


class Shape(Exception):
    """Why a file is no case file."""


class Case:
    """What a case file holds. Ours and the peer's are bytes, or a Tx while a case is made; a record is None (not live), or output and data."""

    def __init__(self, ours, peer, lock, type_, source, rate, records):
        self.ours, self.peer, self.lock, self.type, self.source, self.rate, self.records = ours, peer, lock, type_, source, rate, records

    def copy(self):
        c = Case(self.ours, self.peer, self.lock, self.type, self.source, self.rate, list(self.records))
        c.ours = c.ours.copy() if isinstance(c.ours, Tx) else c.ours
        c.peer = c.peer.copy() if isinstance(c.peer, Tx) else c.peer
        return c

    def our_bytes(self):
        return self.ours.write() if isinstance(self.ours, Tx) else self.ours or b''

    def peer_bytes(self):
        return self.peer.write() if isinstance(self.peer, Tx) else self.peer

    def items(self):
        out = [(1, self.our_bytes())] if self.ours else []
        out += [(2, self.peer_bytes()), (3, self.lock)]
        out += [(4, self.type)] if self.type else []
        out += [(5, self.source), (6, u64(self.rate))]
        for r in self.records:
            out += [(7, r[0]), (8, r[1])] if r else [(9, b'')]
        return out

    def file(self):
        return b''.join(item(k, b) for k, b in self.items())


def read_case(f):
    if len(f) > LIMIT:
        raise Shape('over 65,536 bytes')
    items, at = [], 0
    while at < len(f):
        if len(f) - at < 4:
            raise Shape('a word cut short')
        word = number(f[at:at + 4])
        kind, n = word >> 28, word % 2 ** 28
        end = at + 4 + n + -n % 4
        if at + 4 + n > len(f):
            raise Shape('a body beyond the file')
        if end > len(f):
            raise Shape('padding beyond the file')
        if any(f[at + 4 + n:end]):
            raise Shape('padding not zero')
        items.append((kind, f[at + 4:at + 4 + n]))
        at = end
    items.reverse()

    def taken(kind):
        return items.pop()[1] if items and items[-1][0] == kind else None

    def needed(kind, why):
        b = taken(kind)
        if b is None:
            raise Shape(why)
        return b

    ours = taken(1) or b''
    peer = needed(2, 'no peer transaction')
    lock = needed(3, 'no lock')
    type_ = taken(4) or b''
    source = needed(5, 'no source lock')
    rate = needed(6, 'no fee rate')
    if len(rate) != 8:
        raise Shape('fee rate not of 8 bytes')
    records = []
    while items:
        out = taken(7)
        if out is not None:
            records.append((out, needed(8, 'no data behind an output')))
            continue
        if needed(9, 'another item behind the records'):
            raise Shape('not live with a body')
        records.append(None)
    return Case(ours, peer, lock, type_, source, number(rate), records)


# ---- the rules


class Answer(Exception):
    """A number, its values (of 0: the two surpluses), and the place that decides."""

    def __init__(self, number, values, place):
        self.number, self.values, self.place = number, values, place

    def line(self):
        return '0 %032x' % self.values[0] if self.number == 0 else ' '.join(str(x) for x in [self.number] + self.values)


def check(number, holds, place, *values):
    if not holds:
        raise Answer(number, list(values), place)


def agree(xs, ys):
    return all(x == y for x, y in zip(xs, ys))


def fee(rate, size):
    return min(rate * size, 2 ** 64 - 1) // 1000


def added_outputs(ours, peer):
    """Outputs from our count on, never index 0, each with its data or None."""
    return [(o, peer.data[i] if i < len(peer.data) else None) for i, o in enumerate(peer.outputs) if i and i >= len(ours.outputs)]


def has_amount(data):
    return data is not None and len(data) >= 16


def amount_of(data):
    return number(data[:16]) if has_amount(data) else 0


def first_data(tx):
    return tx.data[0] if tx.outputs and tx.data else None


def first_capacity(tx):
    return capacity_of(tx.outputs[0]) if tx.outputs else 0


def tally(type_, cells, what):
    total = 0
    for out, data in cells:
        if type_of(out) == type_:
            check(5, data is not None, 'contribution: the amount of %s missing' % what)
            check(5, has_amount(data), 'contribution: the amount of %s under 16 bytes' % what)
            total += amount_of(data)
            check(7, total < 2 ** 128, 'contribution: total of %ss 2^128 or more' % what)
    return total


HEADER_DEPS = 'W6'  # at most 2 header deps are added
REQUESTS = {HEADER_DEPS: 'three or more added header deps'}  # that changed the rules, with the updates that a run against the Rust leaves out


def judge_readable(ours, peer, size, lock, type_, source, rate, records, without):
    typed = bool(type_)
    check(4, size <= 133120, 'limits: size')
    check(4, len(peer.inputs) - len(ours.inputs) <= 64, 'limits: inputs')
    check(4, len(peer.outputs) - len(ours.outputs) <= 3, 'limits: outputs')
    check(4, len(peer.deps) - len(ours.deps) <= 8, 'limits: cell deps')
    if HEADER_DEPS not in without:
        check(4, len(peer.headers) - len(ours.headers) <= 2, 'limits: header deps')

    check(5, peer.version == ours.version, 'comparison: version')
    check(5, len(peer.deps) >= len(ours.deps), 'comparison: fewer cell deps')
    check(5, all(d in peer.deps for d in ours.deps), 'comparison: a cell dep missing')
    check(5, len(peer.headers) >= len(ours.headers), 'comparison: fewer header deps')
    check(5, agree(peer.headers, ours.headers), 'comparison: a header dep differs')
    check(5, len(peer.inputs) >= len(ours.inputs), 'comparison: fewer inputs')
    check(5, agree(peer.inputs, ours.inputs), 'comparison: an input differs')
    check(5, len(peer.outputs) >= len(ours.outputs), 'comparison: fewer outputs')
    if peer.outputs:
        check(5, lock_of(peer.outputs[0]) == lock, 'comparison: lock of output 0')
        check(5, type_of(peer.outputs[0]) == type_, 'comparison: type of output 0')
        check(5, typed or not first_data(peer), 'comparison: untyped with data')
    check(5, agree(peer.outputs[1:], ours.outputs[1:]), 'comparison: an output after 0 differs')
    check(5, len(peer.data) >= len(ours.data), 'comparison: fewer data entries')
    check(5, agree(peer.data[1:], ours.data[1:]), 'comparison: a data entry after 0 differs')

    check(3, records is not None, 'records: list unreadable')
    check(3, all(r is None or reads(CellOutput, r[0]) for r in records), 'records: a record unreadable')
    added = len(peer.inputs) - len(ours.inputs)
    check(3, len(records) >= added, 'records: fewer than added inputs')
    check(3, len(records) <= added, 'records: more than added inputs')
    for i, r in enumerate(records):
        check(5, r is not None, 'records: not live')
        check(6, lock_of(r[0]) != source, 'records: our source lock', len(ours.inputs) + i)

    check(5, peer.outputs, 'contribution: output 0 missing')
    check(5, peer.data, 'contribution: data of output 0 missing')
    growth = first_capacity(peer) - first_capacity(ours)
    check(5, growth >= 0, 'contribution: capacity falls')
    tokens_grown = 0
    if typed:
        if ours.outputs:
            check(5, ours.data, 'contribution: our amount missing')
            check(5, has_amount(ours.data[0]), 'contribution: our amount under 16 bytes')
        check(5, has_amount(peer.data[0]), "contribution: the peer's amount under 16 bytes")
        tokens_grown = amount_of(first_data(peer)) - amount_of(first_data(ours))
        check(5, tokens_grown >= 0, 'contribution: amount falls')
    outs = added_outputs(ours, peer)
    left = sum(capacity_of(o) for o, _ in records) - growth - sum(capacity_of(o) for o, _ in outs)
    check(5, left >= 0, 'contribution: added inputs below growth plus added outputs')
    if not ours.inputs and not ours.outputs:
        due = fee(rate, size)
        check(8, left >= due, 'contribution: fee too low', min(left, 2 ** 64 - 1), due, rate, size)
    tokens_left = 0
    if typed:
        gained = tally(type_, records, 'record')
        needed = tokens_grown + tally(type_, outs, 'added output')
        check(7, needed < 2 ** 128, 'contribution: growth plus outputs 2^128 or more')
        check(5, gained >= needed, 'contribution: tokens below growth plus outputs')
        tokens_left = gained - needed
    return Answer(0, [left, tokens_left], 'accepted')


def judge(ours, peer, lock, type_, source, rate, records, without=()):
    """The answer to an update; all is bytes but the rate and the records (see Case; None: a list that can't be read). Without these requests."""
    try:
        our_tx, peer_tx = read_tx(ours) if ours else Tx(), read_tx(peer)
        check(1, our_tx is not None, 'entry: our bytes')
        check(2, peer_tx is not None, "entry: the peer's bytes")
        check(3, reads(Script, lock), 'entry: the lock')
        check(3, not type_ or reads(Script, type_), 'entry: the type')
        check(3, reads(Script, source), 'entry: our source lock')
        return judge_readable(our_tx, peer_tx, len(peer) + 4, lock, type_, source, rate, records, without)
    except Answer as a:
        return a


def left_out(ours, peer):
    """Of the bytes of two transactions: the request by which a run against the Rust leaves the update out, or None, also where they can't be read."""
    our_tx, peer_tx = read_tx(ours) if ours else Tx(), read_tx(peer)
    return HEADER_DEPS if our_tx and peer_tx and len(peer_tx.headers) - len(our_tx.headers) > 2 else None


def judge_file(f, without=()):
    """The answer, and whether the update is typed (None: no case file)."""
    try:
        c = read_case(f)
    except Shape as s:
        return Answer(3, [], 'file: ' + str(s)), None
    return judge(c.ours, c.peer, c.lock, c.type, c.source, c.rate, c.records, without), bool(c.type)


def left_out_file(f):
    """The same of a case file."""
    try:
        c = read_case(f)
    except Shape:
        return None
    return left_out(c.ours, c.peer)


def surplus(earlier, later, type_, records):
    """Of a later transaction against an earlier one over records: the rules' definition, capacity and tokens in whole numbers."""
    ours, peer = read_tx(earlier) or Tx(), read_tx(later) or Tx()
    outs = added_outputs(ours, peer)
    capacity = sum(capacity_of(o) for o, _ in records) - (first_capacity(peer) - first_capacity(ours)) - sum(capacity_of(o) for o, _ in outs)
    if not type_:
        return capacity, 0

    def tokens(cells):
        return sum(amount_of(d) for o, d in cells if type_of(o) == type_)

    return capacity, tokens(records) - (amount_of(first_data(peer)) - amount_of(first_data(ours))) - tokens(outs)


# Every place, with the number it gives and where it can come up: t typed, u untyped, - no case file; l not within a case file's bytes.
PLACES = [
    ('file: over 65,536 bytes', 3, '-'), ('file: a word cut short', 3, '-'), ('file: a body beyond the file', 3, '-'),
    ('file: padding beyond the file', 3, '-'), ('file: padding not zero', 3, '-'), ('file: no peer transaction', 3, '-'), ('file: no lock', 3, '-'),
    ('file: no source lock', 3, '-'), ('file: no fee rate', 3, '-'), ('file: fee rate not of 8 bytes', 3, '-'),
    ('file: no data behind an output', 3, '-'), ('file: another item behind the records', 3, '-'), ('file: not live with a body', 3, '-'),
    ('entry: our bytes', 1, 'tu'), ("entry: the peer's bytes", 2, 'tu'), ('entry: the lock', 3, 'tu'), ('entry: the type', 3, 't'),
    ('entry: our source lock', 3, 'tu'),
    ('limits: size', 4, 'l'), ('limits: inputs', 4, 'tu'), ('limits: outputs', 4, 'tu'), ('limits: cell deps', 4, 'tu'),
    ('limits: header deps', 4, 'tu'),
    ('comparison: version', 5, 'tu'), ('comparison: fewer cell deps', 5, 'tu'), ('comparison: a cell dep missing', 5, 'tu'),
    ('comparison: fewer header deps', 5, 'tu'), ('comparison: a header dep differs', 5, 'tu'), ('comparison: fewer inputs', 5, 'tu'),
    ('comparison: an input differs', 5, 'tu'), ('comparison: fewer outputs', 5, 'tu'), ('comparison: lock of output 0', 5, 'tu'),
    ('comparison: type of output 0', 5, 'tu'), ('comparison: untyped with data', 5, 'u'), ('comparison: an output after 0 differs', 5, 'tu'),
    ('comparison: fewer data entries', 5, 'tu'), ('comparison: a data entry after 0 differs', 5, 'tu'),
    ('records: list unreadable', 3, 'l'), ('records: a record unreadable', 3, 'tu'), ('records: fewer than added inputs', 3, 'tu'),
    ('records: more than added inputs', 3, 'tu'), ('records: not live', 5, 'tu'), ('records: our source lock', 6, 'tu'),
    ('contribution: output 0 missing', 5, 'tu'), ('contribution: data of output 0 missing', 5, 'tu'), ('contribution: capacity falls', 5, 'tu'),
    ('contribution: our amount missing', 5, 't'), ('contribution: our amount under 16 bytes', 5, 't'),
    ("contribution: the peer's amount under 16 bytes", 5, 't'), ('contribution: amount falls', 5, 't'),
    ('contribution: added inputs below growth plus added outputs', 5, 'tu'), ('contribution: fee too low', 8, 'tu'),
    ('contribution: the amount of record under 16 bytes', 5, 't'), ('contribution: total of records 2^128 or more', 7, 't'),
    ('contribution: the amount of added output under 16 bytes', 5, 't'), ('contribution: the amount of added output missing', 5, 't'),
    ('contribution: total of added outputs 2^128 or more', 7, 't'), ('contribution: growth plus outputs 2^128 or more', 7, 't'),
    ('contribution: tokens below growth plus outputs', 5, 't'),
    ('accepted', 0, 'tu'),
]
