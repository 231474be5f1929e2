#!/usr/bin/env python3
"""Records requests of our own side, with what the Rust answers: the input of a program and the lines that it has to print.

    tools/recorded_requests.py ORACLE                       writes crates/recorded_requests, stdin and stdout
    tools/recorded_requests.py ORACLE --fresh N --seed S    N other random requests: the model against ORACLE, nothing is written

ORACLE is a program that runs the original Rust behind stand-ins for its crates; asked with --calls it answers one call by line. It is asked `base` with
its collector giving the token cells one by one, two at a time and all at once, and `cell`. Where it and tools/request_model.py differ, nothing
is written. Whose word an answer is goes by its number:

    0, 7 and 9 to 11  the Rust was asked and answers the same: the number, or the transaction with its cell deps in any order, since it keeps a hash
           set
    12     the Rust was asked and panics over a token cell's short data (ORACLE prints `panic` behind a tab, and stops where the cause is another)
    13     the Rust does not know it: it was asked, and gives the transaction that is too long for the buffer, or over 133,116 bytes
    1, 3   the model's word alone: they are about bytes that the Rust is handed as values. The order of cell deps is the model's word always

The file is stored as those of tools/recorded_tables.py are: the first part is only there to be copied from, each other one is a list, in Molecule, of
requests. A request is a table of 11 fields:

    0  the number of the answer of `build_base`, 0 for done, that of `build_funding_cell`, that of `build_udt_inputs_outputs`, and a byte 0; the local
       and the remote amount (16 bytes each); the local and the remote reserve (8 each); the length of the lent buffer (4); the funding cell's capacity
       (8) and tokens (16); how many cells are taken (4), the change (16), and the capacity of its output (8). Figures of an answer that is refused are 0
    1  to 8  what is lent: our transaction, the funding lock, the type, our source lock, the token cells, the token's deps, the lock's dep, the extra deps
    9  what `build_base` writes, from the start of the buffer; nothing where it refuses. Bytes behind it stay
   10  what `build_udt_inputs_outputs` writes into a buffer of that length: the change output, or nothing"""
import subprocess
import sys

import replayed
import request_cases as cases
import request_model as model
from molecule_vectors import Script, TokenCell, dynvec, fixvec, join, number, option, reads, split, u32
from recorded_tables import LEAST, Places, calls_of, hexed, stored
from request_model import LONGEST
from update_cases import Rng
from update_model import amount, capacity_of, output, read_tx, u64

CRATE = 'recorded_requests'
ROOM = 600_000  # bytes of a part at most with the first one in front, which the program has room for
BATCHES = 1, 2, 10 ** 6  # cells that the Rust's collector gives at once
NUMBERS = range(14)
RUST, PANICS, LONGER, MODEL = range(4)  # whose word an answer is


class Asked:
    """A request with what the model answers."""

    def __init__(self, family, r):
        self.family, self.r = family, r
        self.number, self.written = model.answer(model.build_base, r)
        self.whole = model.answer(model.base_of_any_length, r)[1]
        self.cell_number, self.cell = model.answer(model.funding_cell, r)
        self.pick_number, self.pick = model.answer(model.udt_inputs_outputs, r)
        self.source = MODEL if self.number in (1, 3) else {12: PANICS, 13: LONGER}.get(self.number, RUST)

    def present(self):
        return model.read_present(self.r.ours)


# ---- the Rust


def asks_cell(r):
    lock, source = (s if reads(Script, s) else cases.LOCK for s in (r.lock, r.source))
    return 'cell %s %s %s %s %d %d %d %d' % (hexed(r.ours), hexed(lock), hexed(r.udt), hexed(source), r.local, r.local_reserve, r.remote, r.remote_reserve)


def said_cell(a):
    if a.cell_number:
        return str(a.cell_number)
    lock = a.r.lock if reads(Script, a.r.lock) else cases.LOCK
    return '0 %s %s' % (hexed(output(a.cell[0], lock, a.r.udt)), hexed(amount(a.cell[1]) if a.r.udt else b''))


def asks_base(r, batch):
    given = ','.join(hexed(point + data[4:]) for point, data in map(split, split(r.cells))) or '-'
    deps = hexed(r.udt_deps[4:]) if r.udt_deps else 'no'
    return 'base' + asks_cell(r)[4:] + ' %s %s %s %s %d' % (given, deps, hexed(r.lock_dep), hexed(r.extra[4:]), batch)


def said_base(a):
    """The transaction, whatever its length, with its cell deps sorted."""
    if a.number not in (0, 13):
        return str(a.number) + ('\tpanic' if a.source == PANICS else '')
    tx = read_tx(a.whole)
    tx.deps = sorted(tx.deps)
    return '0 ' + tx.write().hex()


def ask(oracle, asked):
    """Stops where the Rust and the model differ."""
    lines, said = [], []
    for a in asked:
        if a.cell_number not in (1, 3):
            lines.append(asks_cell(a.r))
            said.append(said_cell(a))
        if a.source != MODEL:
            assert a.source != LONGER or len(a.whole) > min(a.r.room, LONGEST)
            lines += [asks_base(a.r, n) for n in BATCHES]
            said += [said_base(a)] * len(BATCHES)
    got = subprocess.run([oracle, '--calls'], input='\n'.join(lines).encode() + b'\n', stdout=subprocess.PIPE, stderr=subprocess.DEVNULL)
    answers = got.stdout.decode().split('\n')[:-1]
    if got.returncode or len(answers) != len(lines):
        sys.exit('%s --calls: exit status %d, %d answers to %d lines' % (oracle, got.returncode, len(answers), len(lines)))
    wrong = sorted((len(line), line, right, answer) for line, right, answer in zip(lines, said, answers) if right != answer)
    for _, line, right, answer in wrong[:5]:
        print('DIFFERS: %s\n  the model %s\n  the Rust  %s' % (line[:2000], right[:1000], answer[:1000]))
    if wrong:
        sys.exit('%d answers of %d differ, the shortest first' % (len(wrong), len(lines)))
    return len(lines)


# ---- the recorded form


def record(a):
    r, (capacity, tokens), (taken, change, change_output) = a.r, a.cell or (0, 0), a.pick or (0, 0, b'')
    assert r.room <= cases.MOST_ROOM
    head = bytes([a.number, a.cell_number, a.pick_number, 0]) + amount(r.local) + amount(r.remote) + u64(r.local_reserve) + u64(r.remote_reserve)
    head += u32(r.room) + u64(capacity) + amount(tokens) + u32(taken) + amount(change) + u64(capacity_of(change_output) if change_output else 0)
    lent = [r.ours, r.lock, r.udt, r.source, r.cells, r.udt_deps, r.lock_dep, r.extra]
    return join([head] + lent + [a.written or b'', change_output])


def shared(asked):
    """What most parts copy from: a typical request, refused and done."""
    return record(next(a for a in asked if a.number == 0 and a.pick and a.pick[1])) + record(asked[0])


def parts_of(records, room):
    part, size = [], 4
    for x in records:
        assert 8 + len(x) <= room
        if size + 4 + len(x) > room:
            yield join(part)
            part, size = [], 4
        part, size = part + [x], size + 4 + len(x)
    yield join(part)


def written_file(asked):
    first = shared(asked)
    parts, found = list(parts_of(map(record, asked), ROOM - len(first))), Places(first, 0, len(first) - LEAST)
    packed = [stored(b'', first)] + [stored(first, p, found) for p in parts]
    print('%d parts, the first of %d bytes, the others of %d' % (len(packed), len(first), sum(map(len, parts))))
    return u32(len(packed)) + b''.join(packed)


def lines_of(asked):
    out = []
    for n in NUMBERS:
        count = sum(a.number == n for a in asked)
        out += ['%d: %d requests, 0 wrong' % (n, count)] if count else []
    return out + ['all: %d requests, 0 wrong' % len(asked)]


# ---- which kinds there are


def taken(a):
    return a.pick[0] if a.pick else 0


def change(a):
    return a.pick[1] if a.pick else 0


def start(a):
    if not a.r.ours or a.number == 1:
        return 'none'
    return 'funded' if a.present().outputs else 'unfunded'


def lent_deps(a):
    own = [a.r.udt_deps[4 + i:41 + i] for i in range(0, len(a.r.udt_deps) - 4, 37)] + [a.r.lock_dep] if taken(a) else []
    return [a.present().deps, own, [a.r.extra[i:i + 37] for i in range(4, len(a.r.extra), 37)]]


def repeats(a):
    return [len(x) > len(set(x)) for x in lent_deps(a)]


def across(a):
    x, y, z = map(set, lent_deps(a))
    return x & y, x & z, y & z


def amounts(a):
    """Of each token cell its amount; None of short data."""
    if not reads(dynvec(TokenCell), a.r.cells):
        return []
    data = [split(c)[1][4:] for c in split(a.r.cells)]
    return [number(d[:16]) if len(d) >= 16 else None for d in data]


def done(test):
    return lambda a: a.number == 0 and test(a)


def refused(n, test=lambda a: True):
    return lambda a: a.number == n and test(a)


def outputs_and_data(a):
    return len(a.present().outputs), len(a.present().data)


def picked_behind(*inputs):
    return done(lambda a: taken(a) and len(a.present().inputs) in inputs)


def kinds_of_starts():
    for s in 'none', 'unfunded', 'funded':
        yield s + ', untyped', done(lambda a, s=s: start(a) == s and not a.r.udt)
        yield s + ', typed, nothing wanted', done(lambda a, s=s: start(a) == s and a.r.udt and not a.r.local)
        yield s + ', typed, no change', done(lambda a, s=s: start(a) == s and taken(a) and not change(a))
        yield s + ', typed, change', done(lambda a, s=s: start(a) == s and change(a))


def known_figures(typed, funded, cell):
    return lambda a: (a.r.local, a.r.local_reserve, a.r.remote, a.r.remote_reserve) == (5, 7, 11, 13) and bool(a.r.udt) == typed \
        and (start(a) == 'funded') == funded and a.cell == cell


def known_pick(wanted, number, pick):
    return lambda a: a.r.udt and amounts(a) == [30, 50, 40] and a.r.local == wanted and a.number == number and (a.pick or (0, 0))[:2] == pick


KINDS = list(kinds_of_starts()) + [
    ('known: 12 unfunded', known_figures(False, False, (12, 0))),
    ('known: 36 funded', known_figures(False, True, (36, 0))),
    ('known: typed 5 and 7', known_figures(True, False, (7, 5))),
    ('known: typed 16 and 20', known_figures(True, True, (20, 16))),
    ('known: of 30, 50, 40 wanted 70', known_pick(70, 0, (2, 10))),
    ('known: of 30, 50, 40 wanted 80', known_pick(80, 0, (2, 0))),
    ('known: of 30, 50, 40 wanted 121', known_pick(121, 9, (0, 0))),
    ('known: change capacity 14,200,000,000', done(lambda a: change(a) and capacity_of(a.pick[2]) == 14_200_000_000)),
    ('no present input, picked', picked_behind(0)),
    ('one present input, picked', picked_behind(1)),
    ('several present inputs, picked', picked_behind(2, 3, 4, 5)),
    ('several present inputs, nothing picked', done(lambda a: not taken(a) and len(a.present().inputs) > 1)),
    ('a present input with since', done(lambda a: any(i[:8] != bytes(8) for i in a.present().inputs))),
    ('several present outputs', done(lambda a: len(a.present().outputs) > 2)),
    ('fewer data entries than outputs', done(lambda a: outputs_and_data(a)[0] > outputs_and_data(a)[1] > 0)),
    ('outputs without any data', done(lambda a: outputs_and_data(a)[0] > 1 and outputs_and_data(a)[1] == 0)),
    ('more data entries than outputs', done(lambda a: outputs_and_data(a)[1] > outputs_and_data(a)[0] > 0)),
    ('data entries and no outputs', done(lambda a: outputs_and_data(a)[1] > outputs_and_data(a)[0] == 0)),
    ('present witnesses', done(lambda a: a.present().witnesses)),
    ('header deps', done(lambda a: len(a.present().headers) > 1)),
    ('a version', done(lambda a: a.present().version)),
    ('a dep twice among the present', done(lambda a: repeats(a)[0])),
    ('a dep twice among the own', done(lambda a: repeats(a)[1])),
    ('a dep twice among the extra', done(lambda a: repeats(a)[2])),
    ('present and own share a dep', done(lambda a: across(a)[0])),
    ('present and extra share a dep', done(lambda a: across(a)[1])),
    ('own and extra share a dep', done(lambda a: across(a)[2])),
    ('token deps supplied and empty', done(lambda a: taken(a) and a.r.udt_deps == u32(0))),
    ('token deps not supplied, nothing picked', done(lambda a: a.r.udt and not taken(a) and not a.r.udt_deps)),
    ('lock dep not supplied, nothing picked', done(lambda a: a.r.udt and not taken(a) and not a.r.lock_dep)),
    ('several cells taken', done(lambda a: taken(a) > 2)),
    ('a cell of amount 0 taken', done(lambda a: 0 in amounts(a)[:taken(a)])),
    ('short data after the goal', done(lambda a: taken(a) and None in amounts(a)[taken(a):])),
    ('a total of 2^128 after the goal', done(lambda a: taken(a) and None not in amounts(a) and sum(amounts(a)) >= 2 ** 128)),
    ('a total of 2^128 - 1', done(lambda a: taken(a) and sum(amounts(a)[:taken(a)]) == 2 ** 128 - 1)),
    ('short data, nothing wanted', done(lambda a: a.r.udt and not a.r.local and None in amounts(a))),
    ('a capacity of 2^64 - 1', done(lambda a: a.cell[0] == 2 ** 64 - 1)),
    ('tokens of 2^128 - 1', done(lambda a: a.cell[1] == 2 ** 128 - 1)),
    ('unfunded, wide remote figures', done(lambda a: start(a) != 'funded' and a.r.remote >= 2 ** 64 and not a.r.udt)),
    ('the buffer exactly full', done(lambda a: len(a.written) == a.r.room)),
    ('133,116 bytes', done(lambda a: len(a.written) == LONGEST)),
    ('133,116 bytes and the buffer full', done(lambda a: len(a.written) == LONGEST == a.r.room)),
    ('1', refused(1)),
    ('3 for the lock', refused(3, lambda a: not reads(Script, a.r.lock))),
    ('3 for the type', refused(3, lambda a: not reads(option(Script), a.r.udt))),
    ('3 for the source lock', refused(3, lambda a: not reads(Script, a.r.source))),
    ('3 for the cells', refused(3, lambda a: not reads(dynvec(TokenCell), a.r.cells))),
    ('3 for the token deps', refused(3, lambda a: a.r.udt_deps and not reads(fixvec(37), a.r.udt_deps))),
    ('3 for the lock dep', refused(3, lambda a: len(a.r.lock_dep) not in (0, 37))),
    ('3 for the extra deps', refused(3, lambda a: not reads(fixvec(37), a.r.extra))),
    ('7 untyped for an amount', refused(7, lambda a: not a.r.udt and a.r.local >= 2 ** 64)),
    ('7 untyped for a remote amount', refused(7, lambda a: not a.r.udt and a.r.local < 2 ** 64 <= a.r.remote)),
    ('7 untyped for a sum', refused(7, lambda a: not a.r.udt and max(a.r.local, a.r.remote) < 2 ** 64)),
    ('7 typed for the tokens', refused(7, lambda a: a.r.udt and a.r.local + a.r.remote >= 2 ** 128)),
    ('7 typed for the reserves', refused(7, lambda a: a.r.udt and a.r.local + a.r.remote < 2 ** 128)),
    ('9 of no cells', refused(9, lambda a: not amounts(a))),
    ('9 of some, one short of it', refused(9, lambda a: amounts(a) and sum(amounts(a)) == a.r.local - 1)),
    ('10', refused(10)),
    ('10 before short data', refused(10, lambda a: None in amounts(a))),
    ('11 for the token deps', refused(11, lambda a: not a.r.udt_deps and a.r.lock_dep)),
    ('11 for the lock dep', refused(11, lambda a: a.r.udt_deps and not a.r.lock_dep)),
    ('12 for no data', refused(12, lambda a: any(len(split(c)[1]) == 4 for c in split(a.r.cells)))),
    ('12 for 15 bytes', refused(12, lambda a: any(len(split(c)[1]) == 19 for c in split(a.r.cells)))),
    ('13, the buffer a byte short', refused(13, lambda a: len(a.whole) == a.r.room + 1)),
    ('13, an empty buffer', refused(13, lambda a: a.r.room == 0)),
    ('13 for 133,117 bytes', refused(13, lambda a: len(a.whole) == LONGEST + 1 <= a.r.room)),
]


def kinds_of(asked):
    """Prints how often each kind occurs; answers how many do not."""
    missing = 0
    for name, test in KINDS:
        n = sum(bool(test(a)) for a in asked)
        missing += not n
        print('    %-46s %5d%s' % (name, n, '' if n else '  NONE'))
    return missing


def numbers_of(asked):
    columns = ('number', 'requests', 'the Rust', 'panics there', 'longer there', 'the model')
    print('%8s %8s %12s %12s %12s %12s' % columns)
    for n in NUMBERS:
        mine = [a for a in asked if a.number == n]
        if mine:
            print('%8d %8d %12d %12d %12d %12d' % (n, len(mine), *(sum(a.source == w for a in mine) for w in (RUST, PANICS, LONGER, MODEL))))


def main():
    a = replayed.arguments()
    if a.fresh is None:
        asked = [Asked(*x) for x in cases.requests()]
    else:
        asked = [Asked('fresh', r) for r in cases.random_requests(Rng(a.seed), a.fresh)]
    count = ask(a.oracle, asked)
    print('%d requests, %d lines for the Rust, all alike' % (len(asked), count))
    numbers_of(asked)
    if a.fresh is not None:
        return
    for f in dict.fromkeys(x.family for x in asked):
        print('    %-20s %5d' % (f, sum(x.family == f for x in asked)))
    if kinds_of(asked):
        sys.exit('some kinds have no case: nothing is written')
    data = written_file(asked)
    assert [join(c) for c in calls_of(data)] == [record(x) for x in asked]
    print('%s: %d bytes' % (CRATE, len(data)))
    replayed.write([(CRATE, data, lines_of(asked))])


if __name__ == '__main__':
    main()
