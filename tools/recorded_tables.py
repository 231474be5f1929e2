#!/usr/bin/env python3
"""Records sequences of calls on the tables of cells, with what the Rust answers: the input of two programs and the lines that they have to print.

    tools/recorded_tables.py ORACLE                       writes crates/recorded_holds and crates/recorded_exclusions, stdin and stdout
    tools/recorded_tables.py ORACLE --fresh N --seed S    N other random sequences of each: the model against ORACLE, nothing is written

ORACLE is a program that runs the original Rust behind stand-ins for its crates; asked with --calls it does one call by line and prints the answer,
and `holds` and `x_dump` print the whole table. Where it and tools/table_model.py differ, nothing is written. Each call is marked:

    1  the Rust was asked: the lists that it gives and the table that it leaves are the recorded ones. `take` gives both lists in order; all else is
       compared without order, since the Rust keeps hash maps: the records of a table, what `lock_held`, `unavailable` and `apply` give (with repeats,
       though, and the out points of one exclusion in order)
    2  the call is refused with 13, 14 or 15, which the Rust does not know: it was asked, and what it gives is longer than the lent buffer, or
       what it leaves is over 256 records, 64 transactions or 512 out points (and is not for an earlier refusal's sake)
    0  the model's word alone: 1 and 3, which are about bytes that the Rust is handed as values; and calls on exclusions after a transaction was
       entered under a hash that is not its own, which the Rust can't do. The order of records is the model's word always.

Both recorded files begin with the number of their parts (4 bytes, little-endian as all numbers here). A part is the number of its pieces (4 bytes)
and the pieces, of which each makes it longer: three numbers, n (1 byte), c (2 bytes) and d (3 bytes), and n bytes. To the part come these n bytes, and
then c bytes, each a copy of the one that stands d bytes before it. The first part is only there to be copied from: it stands in front of each other
part. Each other part is a list, in Molecule, of calls, in order. A call is a table of 8 fields:

    0  the call's number (1 byte), its mark (1 byte), the number of the answer (1 byte, 0: done), a byte 0, two numbers of 8 bytes and two of 4
    1  and 2  what is lent
    3  a lent transaction
    4  and 5  what stands in the lent buffers afterwards, from their start: the lists written; nothing where the call is refused. Bytes behind it stay
    6  and 7  the table after the call

Calls on holds; the numbers are those of field 0, and rooms are the lengths of the lent buffers:
    0  start with an empty table
    1  hold_funding              holder                        field 1 the cells
    2  hold_for_watchtower       0, now                        field 1 the cells
    3  take for a holder         holder, now, rooms of both    field 1 the picks, field 2 the spent cells; 4 taken, 5 refused
    4  take for the watchtower   0, now, rooms of both         the same
    5  release_for_watchtower                                  field 1 the cells
    6  unavailable               0, now, room                  field 1 the picks, field 2 the spent cells; 4 the named cells
    7  lock_held                 0, now, room                  4 the held cells
The table after: field 6 is a list of items of 9 bytes, one for each record in order: 0 and the holder, or 1 and the end; field 7 the list of their
out points.

Calls on exclusions:
    0  start with an empty table
    1  add                                                     field 1 the hash, field 3 the transaction or nothing
    2  commit                    the block                     field 1 the hash
    3  remove                                                  field 1 the hash
    4  migrate_funding_tx                                      field 1 the old hash, field 2 the new one, field 3 the transaction or nothing
    5  truncate                  the tip
    6  apply                     0, 0, room                    4 the out points
The table after: field 6 is a list of items of 41 bytes, in order: for each entry 0, its hash and 8 zeros, or 1, its hash and the block in which it is
committed, and behind it for each of its out points 2, the out point and 4 zeros; field 7 is empty."""
import subprocess
import sys

import replayed
import table_cases as cases
from molecule_vectors import join, number, split, u32
from table_kinds import EXCLUSION_KINDS, HOLD_KINDS
from table_model import WATCHTOWER, read_points
from update_cases import Rng
from update_model import fixvec_of, u64

# ---- the two tables: names, fields of a call, and how the Rust is asked


def hexed(s):
    return s.hex() or '-'


def cells_hex(s):
    return hexed(s[4:])


class Holds:
    crate, dump, reset = 'recorded_holds', 'holds', 'reset'
    names = ['start', 'hold_funding', 'hold_for_watchtower', 'take for a holder', 'take for the watchtower', 'release_for_watchtower', 'unavailable',
             'lock_held']

    def shared():
        return b''.join(cases.POOL)

    def kind(s):
        if s.name == 'take':
            return 3 if s.args[0] is not None else 4
        return Holds.names.index(s.name)

    def lent(s):
        """Numbers of 8 bytes and of 4, and what is lent."""
        a = s.args
        if s.name == 'hold_funding':
            return (a[0], 0, 0, 0), a[1], b'', b''
        if s.name == 'hold_for_watchtower':
            return (0, a[1], 0, 0), a[0], b'', b''
        if s.name == 'take':
            return (a[0] or 0, a[3], a[4], a[5]), a[1], a[2], b''
        if s.name == 'release_for_watchtower':
            return (0, 0, 0, 0), a[0], b'', b''
        if s.name == 'unavailable':
            return (0, a[2], a[3], 0), a[0], a[1], b''
        return (0, a[0], a[1], 0), b'', b'', b''

    def table(t):
        return fixvec_of([bytes([r[0]]) + u64(r[1]) for r in t]), fixvec_of([r[2] for r in t])

    def asks(s):
        a = s.args
        if s.name == 'hold_funding':
            return 'hold_funding %d %s' % (a[0], cells_hex(a[1]))
        if s.name == 'hold_for_watchtower':
            return 'hold_watch %d %s' % (a[1], cells_hex(a[0]))
        if s.name == 'take':
            return 'take %s %d %s %s' % ('w' if a[0] is None else a[0], a[3], cells_hex(a[1]), cells_hex(a[2]))
        if s.name == 'release_for_watchtower':
            return 'release ' + cells_hex(a[0])
        if s.name == 'unavailable':
            return 'unavailable %d %s %s' % (a[2], cells_hex(a[0]), cells_hex(a[1]))
        return 'lock_held %d' % a[0]

    def said(s):
        """What the Rust has to answer to a call that is done."""
        if s.name == 'take':
            return ' '.join(cells_hex(w) for w in s.written)
        if s.written:
            return hexed(b''.join(sorted(read_points(s.written[0]))))
        return 'ok'

    def dumped(t):
        return ' '.join(sorted(('w:%s:%d' % (r[2].hex(), r[1])) if r[0] == WATCHTOWER else '%d:%s' % (r[1], r[2].hex()) for r in t))

    def over(s, given, left):
        """Whether the Rust, which refuses nothing, goes over what the number is about."""
        lists = [4 + len(x.replace('-', '')) // 2 for x in given.split(' ')] if s.rooms() else []
        short = any(n > room for n, room in zip(lists, s.rooms()))
        return short if s.number == 13 else not short and len(left.split(' ')) > 256

    def askable(s, so_far):
        return s.number not in (1, 3)


class Exclusions:
    crate, dump, reset = 'recorded_exclusions', 'x_dump', 'x_reset'
    names = ['start', 'add', 'commit', 'remove', 'migrate_funding_tx', 'truncate', 'apply']

    def shared():
        return b''.join(cases.POOL) + cases.spending(cases.POOL) + b''.join(b'\2' + p + bytes(4) for p in cases.POOL)

    def kind(s):
        return Exclusions.names.index(s.name)

    def lent(s):
        a = s.args
        if s.name == 'add':
            return (0, 0, 0, 0), a[0], b'', a[1]
        if s.name == 'commit':
            return (a[1], 0, 0, 0), a[0], b'', b''
        if s.name == 'remove':
            return (0, 0, 0, 0), a[0], b'', b''
        if s.name == 'migrate_funding_tx':
            return (0, 0, 0, 0), a[0], a[1], a[2]
        if s.name == 'truncate':
            return (a[0], 0, 0, 0), b'', b'', b''
        return (0, 0, a[0], 0), b'', b'', b''

    def table(t):
        rows = []
        for h, c, points in t:
            rows.append(b'\0' + h + bytes(8) if c is None else b'\1' + h + u64(c))
            rows += [b'\2' + p + bytes(4) for p in points]
        return fixvec_of(rows), b''

    def asks(s):
        a = s.args
        if s.name == 'add':
            return 'x_add ' + hexed(a[1])
        if s.name == 'commit':
            return 'x_commit %s %d' % (a[0].hex(), a[1])
        if s.name == 'remove':
            return 'x_remove ' + a[0].hex()
        if s.name == 'migrate_funding_tx':
            return 'x_migrate %s %s' % (a[0].hex(), hexed(a[2]))
        if s.name == 'truncate':
            return 'x_truncate %d' % a[0]
        return 'x_apply'

    def said(s):
        if s.name == 'add':
            return s.args[0].hex() if s.args[1] else '-'
        if s.written:
            return hexed(b''.join(sorted(read_points(s.written[0]))))
        return 'ok'

    def dumped(t):
        return ' '.join(sorted('%s:%s:%s' % (h.hex(), '-' if c is None else c, hexed(b''.join(p))) for h, c, p in t))

    def over(s, given, left):
        if s.number == 13:
            return 4 + len(given.replace('-', '')) // 2 > s.args[0]
        entries = [e.split(':') for e in left.split(' ')]
        return len(entries) > 64 or sum(len(e[2].replace('-', '')) // 72 for e in entries) > 512

    def askable(s, so_far):
        """The Rust hashes a transaction itself."""
        if not so_far or s.number in (1, 3):
            return False
        if s.name in ('add', 'migrate_funding_tx') and s.args[-1]:
            return cases.tx_hash(s.args[-1]) == s.args[-2]
        return True


# ---- the Rust


def marked(oracle, what, runs):
    """Marks each step; stops where the Rust and the model differ."""
    lines, checks = [], []

    def ask(line, check=None):
        lines.append(line)
        checks.append(check)

    for r in runs:
        ask(what.reset)
        done, known = [], True
        for s in r.steps:
            s.mark = 0
            if not what.askable(s, known):
                known = known and s.number in (1, 3)
                continue
            s.mark = 2 if s.number else 1
            ask(what.asks(s), (s, 'gives'))
            ask(what.dump, (s, 'leaves'))
            if s.number == 0:
                done.append(s)
            else:
                ask(what.reset)
                for d in done:
                    ask(what.asks(d))
                ask(what.dump, (s, 'is put back to'))
    got = subprocess.run([oracle, '--calls'], input='\n'.join(lines).encode() + b'\n', stdout=subprocess.PIPE)
    answers = got.stdout.decode().split('\n')[:-1]
    if got.returncode or len(answers) != len(lines):
        sys.exit('%s --calls: exit status %d, %d answers to %d lines' % (oracle, got.returncode, len(answers), len(lines)))
    wrong, given = 0, None
    for line, check, a in zip(lines, checks, answers):
        if check is None:
            continue
        s, of = check
        if of == 'gives':
            given = a
            right = s.number or a == what.said(s)
        elif of == 'leaves':
            right = what.over(s, given, a) if s.number else a == what.dumped(s.after)
        else:
            right = a == what.dumped(s.after)
        if not right:
            wrong += 1
            if wrong < 10:
                print('DIFFERS: %s %s, by the model %d: the Rust %s %s' % (s.name, line[:400], s.number, of, a[:400]))
    if wrong:
        sys.exit('%s: %d answers differ' % (what.crate, wrong))
    return len(lines)


# ---- the recorded form


def record(what, kind, mark, answer, lent, writes, table):
    (a, b, c, d), first, second, tx = lent
    head = bytes([kind, mark, answer, 0]) + u64(a) + u64(b) + u32(c) + u32(d)
    writes = (list(writes) + [b'', b''])[:2]
    assert max(c, d) <= LIST_ROOM
    return join([head, first, second, tx] + writes + list(what.table(table)))


def recorded_run(what, r):
    yield record(what, 0, 0, 0, ((0, 0, 0, 0), b'', b'', b''), [], [])
    for s in r.steps:
        yield record(what, what.kind(s), s.mark, s.number, what.lent(s), s.written, s.after)


LEAST = 8  # no shorter copies


class Places:
    """Where some bytes stand, of each the first place and the last few."""

    def __init__(self, s, a=0, b=0):
        self.bytes, self.found = s, {}
        self.note(a, b)

    def note(self, a, b):
        for i in range(a, b):
            kept = self.found.setdefault(self.bytes[i:i + LEAST], [])
            kept.append(i)
            if len(kept) > 10:
                kept.pop(1)

    def at(self, i):
        return self.found.get(self.bytes[i:i + LEAST], [])


def alike(s, i, j):
    """How many bytes from i on are those from j on."""
    n, step = 0, 16
    while j + n + step <= len(s) and s[i + n:i + n + step] == s[j + n:j + n + step]:
        n, step = n + step, min(2 * step, 8192)
    while step > 1:
        step //= 2
        if j + n + step <= len(s) and s[i + n:i + n + step] == s[j + n:j + n + step]:
            n += step
    return n


def stored(shared, part, in_shared=None):
    """The part in pieces, which copy from the shared bytes in front of it too."""
    s, at = shared + part, len(shared)
    out, places, new = [], Places(s), at

    def piece(end, length, distance):
        nonlocal new
        while end - new > 255:
            out.append(b'\xff' + bytes(5) + s[new:new + 255])
            new += 255
        while True:
            first = min(length, 65535)
            out.append(bytes([end - new]) + first.to_bytes(2, 'little') + distance.to_bytes(3, 'little') + s[new:end])
            new, length = end, length - first
            if not length:
                break

    while at < len(s):
        best, where = 0, 0
        for i in (in_shared.found.get(s[at:at + LEAST], []) if in_shared else []) + places.at(at):
            n = alike(s, i, at)
            if n >= best:
                best, where = n, i
        end = at + max(1, best)
        if best >= LEAST:
            piece(at, best, at - where)
            new = end
        else:
            end = at + 1
        places.note(at, min(end, at + 100))
        places.note(max(at + 100, end - 100), end)
        at = end
    if new < len(s):
        piece(len(s), 0, 0)
    return u32(len(out)) + b''.join(out)


def expanded(shared, data, at):
    """The part that begins there, and where the next one does."""
    out, pieces = bytearray(shared), number(data[at:at + 4])
    at += 4
    for _ in range(pieces):
        n, c, d = data[at], number(data[at + 1:at + 3]), number(data[at + 3:at + 6])
        out += data[at + 6:at + 6 + n]
        at += 6 + n
        while c:
            k = min(c, d)
            out += out[len(out) - d:len(out) - d + k]
            c -= k
    return bytes(out[len(shared):]), at


LIST_ROOM = 20_000  # bytes of a lent buffer at most

ROOM = 600_000  # bytes of a part at most with the first one in front, which the programs have room for


def parts_of(what, runs, room):
    """Whole sequences by part."""
    part, size = [], 0
    for r in runs:
        calls = list(recorded_run(what, r))
        more = sum(len(c) + 4 for c in calls)
        assert 4 + more <= room, (r.family, more)
        if 4 + size + more > room:
            yield join(part)
            part, size = [], 0
        part, size = part + calls, size + more
    yield join(part)


def written_file(what, runs):
    shared = what.shared()
    parts, found = list(parts_of(what, runs, ROOM - len(shared))), Places(shared, 0, len(shared) - LEAST)
    packed = [stored(b'', shared)] + [stored(shared, p, found) for p in parts]
    sizes = [len(p) for p in parts]
    print('%s: %d parts, the first of %d bytes, the others of %d, the longest %d' % (what.crate, len(packed), len(shared), sum(sizes), max(sizes)))
    return u32(len(packed)) + b''.join(packed)


def calls_of(data):
    """What a reader of a recorded file finds: the fields of each call."""
    shared, at = expanded(b'', data, 4)
    for _ in range(number(data[:4]) - 1):
        part, at = expanded(shared, data, at)
        yield from (split(c) for c in split(part))
    assert at == len(data)


# ---- all together


def table_of(what, kinds, runs):
    """Prints how often each kind of call occurs, and how many of these the Rust was asked; answers how many kinds do not occur."""
    steps, missing = [s for r in runs for s in r.steps], 0
    print('%-24s %-46s %6s %7s %7s' % ('call', 'kind', 'calls', 'mark 1', 'mark 2'))
    for i, name in enumerate(what.names[1:]):
        mine = [s for s in steps if what.kind(s) == i + 1]
        for kind, test in kinds[name]:
            found = [s for s in mine if test(s)]
            missing += not found
            marks = [sum(s.mark == m for s in found) for m in (1, 2)]
            print('%-24s %-46s %6d %7d %7d%s' % (name, kind, len(found), *marks, '' if found else '  NONE'))
    print('%-26s %6s %8s %8s %8s' % ('call', 'number', 'mark 0', 'mark 1', 'mark 2'))
    for i, name in enumerate(what.names[1:]):
        mine = [s for s in steps if what.kind(s) == i + 1]
        for n in sorted({s.number for s in mine}):
            print('%-26s %6d %8d %8d %8d' % (name, n, *(sum(s.number == n and s.mark == m for s in mine) for m in range(3))))
    return missing


def lines_of(what, runs):
    steps = [s for r in runs for s in r.steps]
    out = ['%s: %d calls, 0 wrong' % (name, sum(what.kind(s) == i + 1 for s in steps)) for i, name in enumerate(what.names[1:])]
    marks = [sum(s.mark == m for s in steps) for m in range(3)]
    total = 'all: %d sequences, %d calls, of which the Rust answers %d alike and goes over a bound at %d, 0 wrong'
    return out + [total % (len(runs), len(steps), marks[1], marks[2])]


TABLES = [(Holds, HOLD_KINDS, cases.hold_runs, cases.random_holds), (Exclusions, EXCLUSION_KINDS, cases.exclusion_runs, cases.random_exclusions)]


def main():
    a = replayed.arguments()
    made, missing = [], 0
    for what, kinds, all_runs, random_runs in TABLES:
        runs = list(all_runs() if a.fresh is None else random_runs(Rng(a.seed), a.fresh))
        asked = marked(a.oracle, what, runs)
        print('%s: %d sequences, %d calls, %d lines for the Rust, all alike' % (what.crate, len(runs), sum(len(r.steps) for r in runs), asked))
        if a.fresh is None:
            for f in dict.fromkeys(r.family for r in runs):
                print('    %-20s %5d' % (f, sum(r.family == f for r in runs)))
            missing += table_of(what, kinds, runs)
            data = written_file(what, runs)
            found = [join(c) for c in calls_of(data)]
            assert found == [c for r in runs for c in recorded_run(what, r)]
            print('%s: %d bytes' % (what.crate, len(data)))
            made.append((what.crate, data, lines_of(what, runs)))
    print('kinds without a case: %d' % missing)
    if missing:
        sys.exit(1)
    replayed.write(made)


if __name__ == '__main__':
    main()
