#!/usr/bin/env python3
"""Writes case files with the lines that the check program has to print: NAME.case and beside it NAME.line.

  tools/cases.py          the known outcomes, into examples/cases
  tools/cases.py DIR      these, and for each line of the rules' table the case in which it alone fails, into DIR

The names are those of crates/case_parts/specs/Parts.antt, crates/known_cases/specs/Cases.antt, crates/known_outcomes/specs/Outcomes.antt and
crates/known_lines/specs/Alone.antt, where the same cases are values of the schema and the answers are proved, but for `record_unreadable`, which stands there in
another form. Nothing here judges."""
import os
import sys

# ---- Molecule


def le(n, w): return n.to_bytes(w, 'little')


def join(items):
    header = 4 * (len(items) + 1)
    out, at = le(header + sum(map(len, items)), 4), header
    for x in items:
        out, at = out + le(at, 4), at + len(x)
    return out + b''.join(items)


def fixvec(items): return le(len(items), 4) + b''.join(items)


# ---- parts of transactions

def script(b): return join([bytes([b] * 32), b'\0', fixvec([])])


LOCK, OURS, TYPE = script(0), script(1), script(2)


def output(lock, udt, shannons): return join([le(shannons, 8), script(lock), udt])
def plain(shannons): return output(0, b'', shannons)
def token(shannons): return output(0, TYPE, shannons)
def point(n): return bytes(32) + le(n, 4)
def input_(n): return le(0, 8) + point(n)
def dep(n): return point(n) + b'\0'
def header(n): return bytes([n] * 32)
def inputs(k): return [input_(n) for n in range(k)]
def deps(k): return [dep(n) for n in range(k)]
def headers(k): return [header(n) for n in range(k)]
def amount(n): return le(n, 16)


def transaction(version, ds, hs, ins, outs, entries, witnesses=()):
    data = join([fixvec([bytes([b]) for b in e]) for e in entries])
    raw = join([le(version, 4), fixvec(ds), fixvec(hs), fixvec(ins), join(outs), data])
    return join([raw, join([fixvec([bytes([b]) for b in w]) for w in witnesses])])


def spending(ins, outs, entries): return transaction(0, [], [], ins, outs, entries)


# ---- case files

def item(kind, body): return le(kind << 28 | len(body), 4) + body + bytes(-len(body) % 4)
def cell(out, data=b''): return item(7, out) + item(8, data)


NOT_LIVE = item(9, b'')


def case(peer, records=(), ours=b'', udt=b'', rate=1000, lock=LOCK, source=OURS):
    parts = [item(1, ours) if ours else b'', item(2, peer), item(3, lock), item(4, udt) if udt else b'', item(5, source), item(6, le(rate, 8))]
    return b''.join(parts) + b''.join(records)


def accepted(surplus): return '0 %032x' % surplus


# ---- the known outcomes

PEER = spending(inputs(1), [plain(10000000000)], [b''])
TOP = 2 ** 128 - 1


def outputs_tx(n): return spending(inputs(1), [plain(100)] * n, [b''] * n)
def inputs_tx(n): return spending(inputs(n), [plain(100)], [b''])
def tokens_tx(): return spending(inputs(2), [token(100)], [amount(5)])


def crowd(ins, outs, ds, hs):
    return case(transaction(0, deps(ds), headers(hs), inputs(ins), [plain(100)] * outs, [b''] * outs, [b'']), [cell(plain(200000))] * ins)


KNOWN = [
    ('first', accepted(205), case(PEER, [cell(plain(10000000205))])),
    ('low_fee', '8 204 205 1000 205', case(PEER, [cell(plain(10000000204))])),
    ('rate_1005', '8 205 206 1005 205', case(PEER, [cell(plain(10000000205))], rate=1005)),
    ('itself', accepted(0), case(PEER, ours=PEER)),
    ('outputs_3', accepted(199700), case(outputs_tx(3), [cell(plain(200000))])),
    ('outputs_4', '4', case(outputs_tx(4), [cell(plain(200000))])),
    ('inputs_64', accepted(12799900), crowd(64, 1, 0, 0)),
    ('inputs_65', '4', crowd(65, 1, 0, 0)),
    ('deps_8', accepted(199900), crowd(1, 1, 8, 0)),
    ('deps_9', '4', crowd(1, 1, 9, 0)),
    ('headers_2', accepted(199900), crowd(1, 1, 0, 2)),
    ('headers_3', '4', crowd(1, 1, 0, 3)),
    ('our_lock', '6 2', case(inputs_tx(4), [cell(output(1, b'', 5)), NOT_LIVE], ours=inputs_tx(2))),
    ('token_total', '7', case(tokens_tx(), [cell(token(1000), amount(TOP)), cell(token(1000), amount(1))], udt=TYPE)),
]

# ---- each line of the rules alone


def version(n): return transaction(n, [], [], inputs(1), [plain(100)], [b''])
def with_deps(ds): return transaction(0, ds, [], inputs(1), [plain(100)], [b''])
def with_headers(hs): return transaction(0, [], hs, inputs(1), [plain(100)], [b''])
def with_inputs(ins): return spending(ins, [plain(100)], [b''])
def with_outputs(outs, entries): return spending(inputs(1), outs, entries)
def holding(n): return with_outputs([token(100)], [amount(n)])


USUAL = with_inputs(inputs(1))


def typed(peer, records=(), ours=b''): return case(peer, records, ours, TYPE)


LINES = [
    ('our_bytes', '1', case(USUAL, ours=USUAL + b'\0')),
    ('peer_bytes', '2', case(USUAL + b'\0', ours=USUAL)),
    ('lock', '3', case(holding(0), ours=holding(0), udt=TYPE, lock=b'')),
    ('type', '3', case(holding(0), ours=holding(0), udt=b'\0')),
    ('source', '3', case(holding(0), ours=holding(0), udt=TYPE, source=b'')),
    ('version', '5', case(version(1), ours=version(0))),
    ('fewer_deps', '5', case(with_deps([dep(0)]), ours=with_deps([dep(0), dep(0)]))),
    ('dep_missing', '5', case(with_deps([dep(1)]), ours=with_deps([dep(0)]))),
    ('fewer_headers', '5', case(with_headers([]), ours=with_headers([header(0)]))),
    ('header_differs', '5', case(with_headers([header(1)]), ours=with_headers([header(0)]))),
    ('fewer_inputs', '5', case(with_inputs(inputs(1)), ours=with_inputs(inputs(2)))),
    ('input_differs', '5', case(with_inputs([input_(1)]), ours=with_inputs([input_(0)]))),
    ('fewer_outputs', '5', case(with_outputs([plain(100)], [b'', b'']), ours=with_outputs([plain(100), plain(7)], [b'', b'']))),
    ('output_0_lock', '5', case(with_outputs([output(3, b'', 100)], [b'']), ours=USUAL)),
    ('output_0_type', '5', case(with_outputs([token(100)], [b'']), ours=USUAL)),
    ('output_0_data', '5', case(with_outputs([plain(100)], [b'\1']), ours=USUAL)),
    ('output_differs', '5', case(with_outputs([plain(100), plain(8)], [b'', b'']), ours=with_outputs([plain(100), plain(7)], [b'', b'']))),
    ('fewer_entries', '5', case(with_outputs([plain(100)], [b'']), ours=with_outputs([plain(100)], [b'', b'']))),
    ('entry_differs', '5', case(with_outputs([plain(100), plain(7)], [b'', b'\2']), ours=with_outputs([plain(100), plain(7)], [b'', b'\1']))),
    ('record_unreadable', '3', case(with_inputs(inputs(2)), [cell(b'\0')], ours=USUAL)),
    ('record_count', '3', case(USUAL, [cell(plain(5))], ours=USUAL)),
    ('not_live', '5', case(with_inputs(inputs(2)), [NOT_LIVE], ours=USUAL)),
    ('under_our_lock', '6 1', case(with_inputs(inputs(2)), [cell(output(1, b'', 5))], ours=USUAL)),
    ('output_0_missing', '5', case(with_outputs([], [b'']), [cell(plain(1000))])),
    ('entry_0_missing', '5', case(with_outputs([plain(100)], []), [cell(plain(1000))])),
    ('capacity_falls', '5', case(with_outputs([plain(99)], [b'']), ours=USUAL)),
    ('our_amount_short', '5', typed(holding(0), ours=with_outputs([token(100)], [b'']))),
    ('peer_amount_short', '5', typed(with_outputs([token(100)], [b'']), [cell(plain(1000))])),
    ('amount_falls', '5', typed(holding(4), ours=holding(5))),
    ('inputs_below', '5', case(with_outputs([plain(101)], [b'']), ours=USUAL)),
    ('fee', '8 204 205 1000 205', case(USUAL, [cell(plain(304))])),
    ('record_amount_short', '5', typed(spending(inputs(2), [token(100)], [amount(5)]), [cell(token(7))], holding(5))),
    ('records_total', '7', typed(spending(inputs(3), [token(100)], [amount(5)]), [cell(token(7), amount(TOP)), cell(token(7), amount(1))], holding(5))),
    ('output_amount_short', '5', typed(spending(inputs(2), [token(100), token(7)], [amount(5), b'']), [cell(plain(7))], holding(5))),
    ('outputs_total', '7', typed(spending(inputs(2), [token(100), token(7), token(7)], [amount(5), amount(TOP), amount(1)]), [cell(plain(14))], holding(5))),
    ('growth_total', '7', typed(spending(inputs(2), [token(100), token(7)], [amount(6), amount(TOP)]), [cell(plain(7))], holding(5))),
    ('tokens_below', '5', typed(holding(6), ours=holding(5))),
]


def write(folder, cases):
    os.makedirs(folder, exist_ok=True)
    for name, line, bytes_ in cases:
        with open(os.path.join(folder, name + '.case'), 'wb') as f:
            f.write(bytes_)
        with open(os.path.join(folder, name + '.line'), 'w') as f:
            f.write(line + '\n')


if __name__ == '__main__':
    if len(sys.argv) == 1:
        write('examples/cases', KNOWN)
    else:
        write(sys.argv[1], KNOWN + LINES)
