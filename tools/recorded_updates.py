#!/usr/bin/env python3
"""Records what the Rust answers to peers' updates: the input of two programs and the lines that they have to print.

    tools/recorded_updates.py ORACLE                   writes crates/recorded_updates and crates/recorded_negotiations, stdin and stdout
    tools/recorded_updates.py ORACLE --fresh N --seed S [--program PROGRAM] [--out FILE]
                                                       N other random cases: PROGRAM, which reads a case file and prints its line, against ORACLE;
                                                       or, with --out, in the recorded form for crates/recorded_updates

ORACLE is a program that runs the original Rust behind stand-ins for its crates. Asked with --stream it reads case files, each behind its length in four
bytes, and prints the line of each, with a tab and `panic` behind it where the Rust panics and docs/RULES.md says 5. Asked with --calls it reads
`n_start TX` and `n_update FILE`, in hex (`-`: none), judges each update against the transaction in force, and prints the line, behind an
acceptance the token surplus as 32 hex digits, ` | ` and the bytes then in force. Where its answer is not that of tools/update_model.py,
nothing is written.

A request that changed the rules since is none of the Rust's: the updates that REQUESTS of the model names are left out of the comparison and counted apart.
Of them the answer that is recorded is the model's; the Rust's has to be that of the model without the requests.

Of the answers only 0 and 4 to 8 are the Rust's. 1, 2 and 3 are the oracle's own, by its strict reader and its count of records, since the Rust is
handed what was read already; and 5 is the rules' where the Rust panics.

Both recorded files begin with the number of their parts (4 bytes, little-endian as all numbers here). A part is stored as three numbers of 4
bytes, n, p and z, and n bytes: it is these with z zero bytes put in at place p. Parts are written in Molecule.

Of crates/recorded_updates a part is a table of: a case file, its line (empty where an earlier part had it), and a list of copies. A copy is a
line behind its length (1 byte, with 128 added where the Rust panics), the number of changes (1 byte), and each change: two places of the file,
of 2 bytes, and the bytes, behind their number in a byte, that stand between these places instead. A line ends in its newline.

Of crates/recorded_negotiations a part is a table of: the transaction at the start (empty: none), the expected lock, the expected type (empty: none), a
list of updates, the two sums of the surpluses (16 bytes each, capacity and tokens), and which bytes are in force at the end (4 bytes: 0 the start,
k the peer's of the kth update). An update is a table of: the peer's transaction, our source lock, the fee rate (8 bytes), the lent list of
records, and the answer: its number in a byte (with 128 added where the Rust panics) and behind it each of its values in 8 bytes, or behind 0
the capacity and the token surplus, of 16 bytes each."""
import argparse
import bisect
import os
import subprocess
import sys

import cases as proved
import replayed
import update_cases as cases
from molecule_vectors import join, u32
from update_model import HEADER_DEPS, PLACES, REQUESTS, Case, amount, judge, judge_file, left_out, left_out_file, read_case, read_records, read_tx, surplus, u64, Shape, Tx

SEED = 20_240_607


# ---- the oracle


def asked(oracle, mode, data):
    done = subprocess.run([oracle, mode], input=data, stdout=subprocess.PIPE)
    if done.returncode:
        sys.exit('%s %s: exit status %d' % (oracle, mode, done.returncode))
    return done.stdout.decode().split('\n')[:-1]


def ask(oracle, files):
    """Of each file the line, and whether the Rust panics."""
    lines = asked(oracle, '--stream', b''.join(u32(len(f)) + f for f in files))
    assert len(lines) == len(files)
    return [(s.split('\t')[0], s.endswith('\tpanic')) for s in lines]


# ---- the recorded form


def stored(part):
    """A part without its longest run of zeros, where that is long."""
    best, at, i = 0, len(part), 0
    if bytes(1024) in part:
        while i < len(part):
            if part[i]:
                i += 1
                continue
            j = i
            while j < len(part) and part[j] == 0:
                j += 1
            if j - i > best:
                best, at = j - i, i
            i = j
    rest = part[:at] + part[at + best:]
    return u32(len(rest)) + u32(at) + u32(best) + rest


def recorded(parts):
    return u32(len(parts)) + b''.join(stored(p) for p in parts)


class Base:
    """A file that others are written as changes of."""

    def __init__(self, f, line, number):
        self.file, self.line, self.number, self.copies, self.size, self.places = f, line, number, [], 0, {}
        if len(f) < 20000:
            for i in range(len(f) - 7):
                self.places.setdefault(f[i:i + 8], []).append(i)

    def changes(self, d):
        """Where d differs: places of the file and what stands there instead; None where that is not found soon."""
        s, i, j, out = self.file, 0, 0, []
        same = 0
        while same < min(len(s), len(d)) and s[len(s) - 1 - same] == d[len(d) - 1 - same]:
            same += 1
        while i < len(s) or j < len(d):
            if i < len(s) and j < len(d) and s[i] == d[j]:
                i, j = i + 1, j + 1
                continue
            # the end alike, unless the two meet before it
            a, b = max(i, len(s) - same), max(j, len(d) - same)
            a, b = max(a, b - len(d) + len(s)), max(b, a - len(s) + len(d))
            for k in range(j, len(d) - 7):
                if k - j >= a - i + b - j:
                    break
                found = self.places.get(d[k:k + 8])
                if found:
                    n = bisect.bisect_left(found, i)
                    if n < len(found) and found[n] - i + k - j < a - i + b - j:
                        a, b = found[n], k
            x = d[j:b]
            while len(x) > 255:
                out.append((i, i, x[:255]))
                x = x[255:]
            out.append((i, a, x))
            i, j = a, b
            if len(out) > 255:
                return None
        return out

    def copy(self, d, line, panic):
        if len(self.file) >= 20000 or len(d) >= 20000:
            return None
        out = self.changes(d)
        if out is None or len(out) > 255:
            return None
        made, at = b'', 0
        for a, b, x in out:
            made, at = made + self.file[at:a] + x, b
        assert made + self.file[at:] == d
        packed = b''.join(a.to_bytes(2, 'little') + b.to_bytes(2, 'little') + bytes([len(x)]) + x for a, b, x in out)
        return bytes([len(line) + 128 * panic]) + line + bytes([len(out)]) + packed


PART = 40_000  # no part with copies is much longer


def grouped(judged, whole=0):
    """The parts of the updates file: the first `whole` as they are, each other case as a copy of a file near it, or as it is."""
    bases, parts = [], []

    def closed(b):
        parts.append(join([b.file, b.line, join(b.copies)]))
        b.line, b.copies, b.size = b'', [], 0

    for f, line, panic in judged:
        line = line.encode() + b'\n'
        marks = [f[i:i + 8] for i in range(0, max(1, len(f) - 7), max(1, len(f) // 40))]
        likely = sorted(bases, key=lambda b: -sum(m in b.places for m in marks))[:4]
        tried = [(len(c), b.number, c) for b, c in ((b, b.copy(f, line, panic)) for b in likely) if c is not None]
        if len(bases) >= whole and tried and (panic or min(tried)[0] < max(64, len(f) // 5)):
            _, n, c = min(tried)
            bases[n].copies.append(c)
            bases[n].size += len(c) + 4
            if bases[n].size > PART:
                closed(bases[n])
        else:
            assert not panic
            bases.append(Base(f, line, len(bases)))
    for b in bases:
        if b.line or b.copies:
            closed(b)
    return parts


def expanded(data):
    """What a reader of a recorded updates file finds: files, lines, and whether the Rust panics."""
    from molecule_vectors import number, split
    n, at = number(data[:4]), 4
    for _ in range(n):
        size, p, z = (number(data[at + i:at + i + 4]) for i in (0, 4, 8))
        part = data[at + 12:at + 12 + p] + bytes(z) + data[at + 12 + p:at + 12 + size]
        at += 12 + size
        base, line, copies = split(part)
        if line:
            yield base, line.decode()[:-1], False
        for c in split(copies):
            length = c[0] % 128
            changes, where, made, done = c[1 + length], 2 + length, b'', 0
            for _ in range(changes):
                a, b, k = number(c[where:where + 2]), number(c[where + 2:where + 4]), c[where + 4]
                made, done = made + base[done:a] + c[where + 5:where + 5 + k], b
                where += 5 + k
            assert where == len(c)
            yield made + base[done:], c[1:length].decode(), c[0] >= 128
    assert at == len(data)


# ---- cases


def named():
    """Cases with their lines: those of docs/RULES.md and its open points, and those whose lines are proved (crates/known_outcomes, known_lines)."""
    return list(cases.named()) + [(name, f, line) for name, line, f in proved.KNOWN + proved.LINES]


def always(family):
    return lambda rng: family()


FAMILIES = [
    ('good', always(cases.wholes)), ('named', lambda rng: (f for _, f, _ in named())), ('one change', always(cases.singles)),
    ('two changes', always(cases.pairs)), ('limits', always(cases.limits)), ('fees', always(cases.fees)), ('tokens', always(cases.tokens)),
    ('shannons', always(cases.shannons)), ('left open', always(cases.openings)), ('a byte changed', cases.places),
    ('cut and lengthened', always(cases.cuts)), ('parts cut and lengthened', always(cases.inner_cuts)), ('shapes', cases.shapes),
    ('long files', always(cases.long_files)), ('random', lambda rng: cases.random_files(rng, 40)),
]


def files_of(family, rng, seen):
    for c in family(rng):
        f = c.file() if isinstance(c, Case) else c
        if f is not None and f not in seen:
            seen.add(f)
            yield f


PANICS = 'contribution: our amount missing'  # where the Rust panics


def explained(a, before, request):
    """Whether an answer is that without the requests, or differs from it by the request that leaves the update out, and none is left out that it can't concern."""
    same = (a.line(), a.place) == (before.line(), before.place)
    if request == HEADER_DEPS:
        return a.place == 'limits: header deps' or same and a.place.startswith(('entry', 'limits'))
    return same


def compared(files, answers):
    """Stops where the Rust and the model without the requests differ, or where what the requests changed is not what is left out for them. Of each file the
    model's answer, whether it is typed, and the request by which it is left out, or None."""
    out, wrong = [], 0
    for f, (line, panic) in zip(files, answers):
        before, _ = judge_file(f, REQUESTS)
        a, typed = judge_file(f)
        request = left_out_file(f)
        out.append((a, typed, request))
        if before.line() != line or panic != (before.place == PANICS) or not explained(a, before, request):
            wrong += 1
            if wrong < 10:
                print('DIFFERS: the Rust says %s%s, the model %s (%s), without the requests %s (%s): %s'
                      % (line, ' (panic)' if panic else '', a.line(), a.place, before.line(), before.place, f.hex()))
    if wrong:
        sys.exit('%d of %d answers differ' % (wrong, len(files)))
    return out


def apart(requests):
    """How many were left out by each request, in words; `requests` has one or None of each update."""
    counts = ['%s, %s: %d' % (r, REQUESTS[r], requests.count(r)) for r in REQUESTS if r in requests]
    return 'left out of the comparison: ' + ('; '.join(counts) or 'none')


def table(found):
    """Prints how often each place was reached, typed and untyped; answers how many places were not."""
    missing = 0
    print('%-66s %3s %7s %7s %7s' % ('place', 'no.', 'typed', 'untyped', 'neither'))
    for place, number, where in PLACES:
        counts = [found.get((place, number, t), 0) for t in (True, False, None)]
        due = [k for k, t in (('t', 0), ('u', 1), ('-', 2)) if k in where and counts[t] == 0]
        missing += len(due)
        print('%-66s %3d %7d %7d %7d%s' % (place, number, *counts, '  NONE' if due else ''))
    known = {(p, n) for p, n, _ in PLACES}
    assert all(k[:2] in known for k in found), [k for k in found if k[:2] not in known]
    return missing


def by_number(numbers):
    return ['%d: %d' % (n, numbers.count(n)) for n in sorted(set(numbers))]


def record_updates(oracle):
    rng, seen, pairs, whole, found, numbers, requests = cases.Rng(SEED), set(), [], 0, {}, [], []
    for (what, f, line), (said, _) in zip(named(), ask(oracle, [f for _, f, _ in named()])):
        said = said if left_out_file(f) is None else judge_file(f)[0].line()
        if said != line:
            sys.exit('%s: the answer is %s, not %s' % (what, said, line))
    for name, family in FAMILIES:
        files = list(files_of(family, rng, seen))
        judged = compared(files, ask(oracle, files))
        for a, typed, request in judged:
            found[a.place, a.number, typed] = found.get((a.place, a.number, typed), 0) + 1
            numbers.append(a.number)
            requests.append(request)
        whole = whole or len(files)
        pairs += [(f, a.line(), a.place == PANICS) for f, (a, _, _) in zip(files, judged)]
        print('%-28s %5d cases' % (name, len(files)))
    panics = sum(p for _, _, p in pairs)
    missing = table(found)
    print('by number: ' + ', '.join(by_number(numbers)))
    print('%d cases, %d of them where the Rust panics and 5 is recorded; places without a case: %d' % (len(numbers), panics, missing))
    print(apart(requests))
    parts = grouped(pairs, whole)
    data = recorded(parts)
    assert sorted(expanded(data)) == sorted(pairs)
    print('%d parts, the longest of %d bytes; %d bytes' % (len(parts), max(len(p) for p in parts), len(data)))
    if missing:
        sys.exit('places without a case')
    lines = ['%d: %d files, 0 wrong' % (n, numbers.count(n)) for n in range(9)]
    lines.append('all: %d files, of which the Rust panics at %d, 0 wrong' % (len(numbers), panics))
    return data, lines


# ---- negotiations


def answer_bytes(number, values, panic):
    return bytes([number + 128 * panic]) + b''.join(amount(v) if number == 0 else u64(v) for v in values)


def run_negotiation(start, lock, type_, count, following):
    """The calls and the model's answers, each against the bytes that the one before left in force."""
    in_force, at, calls, answers, kept = start, 0, [], [], []
    for i in range(count):
        call = following(i, in_force)
        a = judge(in_force, call.peer, lock, type_, call.source, call.rate, read_records(call.records))
        calls.append((in_force, call))
        answers.append(a)
        if a.number == 0:
            records = read_records(call.records)
            assert tuple(a.values) == surplus(in_force, call.peer, type_, records) and min(a.values) >= 0
            kept += records
            in_force, at = call.peer, i + 1
    sums = [sum(a.values[k] for a in answers if a.number == 0) for k in (0, 1)]
    assert tuple(sums) == surplus(start, in_force, type_, kept), 'the law'
    return calls, answers, sums, at


def without_requests(ours, call, lock, type_):
    return judge(ours, call.peer, lock, type_, call.source, call.rate, read_records(call.records), REQUESTS)


def misfits(a):
    """Records that can't be read or are too few or many: the oracle finds that itself, after it ran the Rust without them. So the Rust may have taken
    the update, and the transaction in force is set back."""
    return a.number == 3 and a.place.startswith('records')


def record_negotiations(oracle):
    rng, all_of, found = cases.Rng(SEED + 1), [], {}
    for n in range(240):
        start, lock, type_, count, following = cases.negotiation(rng, n)
        all_of.append((start, lock, type_) + run_negotiation(start, lock, type_, count, following))
    for typed in (True, False):
        for kind in ('none', 'rich'):
            for n in (133_116, 133_117):
                start, lock, type_, count, following = cases.large_negotiation(typed, kind, n)
                all_of.append((start, lock, type_) + run_negotiation(start, lock, type_, count, following))
    # the Rust: one run over each negotiation; and each update once more by itself, where it fits a case file. Behind an answer that is not the model's, and
    # behind records that only the oracle found wanting, the transaction in force is set again
    lines, alone = [], []
    for start, lock, type_, calls, answers, sums, at in all_of:
        readable = not start or read_tx(start) is not None
        if readable:
            lines.append('n_start ' + (start.hex() or '-'))
        for ours, call in calls:
            c = call.case(lock, type_)
            if readable:
                lines.append('n_update ' + c.file().hex())
                if misfits(without_requests(ours, call, lock, type_)) or left_out(ours, call.peer):
                    lines.append('n_start ' + (ours.hex() or '-'))
            c.ours = ours
            if len(c.file()) <= 65536:
                alone.append(c.file())
    said = iter(asked(oracle, '--calls', ('\n'.join(lines) + '\n').encode()))
    by_itself = iter(ask(oracle, alone))
    parts, updates, accepted, numbers, panics, requests = [], 0, 0, [], 0, []
    for start, lock, type_, calls, answers, sums, at in all_of:
        readable = not start or read_tx(start) is not None
        if readable:
            assert next(said) == 'ok'
        in_force, marks = start, []
        for (ours, call), a in zip(calls, answers):
            assert ours == in_force
            if a.number == 0:
                in_force = call.peer
            requests.append(left_out(ours, call.peer))
            before = without_requests(ours, call, lock, type_)
            assert explained(a, before, requests[-1]), (before.line(), before.place, a.line(), a.place, requests[-1])
            want = before.line() + (' %032x' % before.values[1] if before.number == 0 else '')
            then = call.peer if before.number == 0 else ours
            c = call.case(lock, type_)
            if readable:
                got = next(said)
                if misfits(before) or requests[-1]:
                    assert next(said) == 'ok'
                if misfits(before):
                    got = got.split(' | ')[0] + ' | ' + (ours.hex() or '-')
                if got != '%s | %s' % (want, then.hex() or '-'):
                    sys.exit('DIFFERS: the Rust says %s, the model %s (%s), of %s against %s' % (got, want, before.place, c.file().hex(), ours.hex()))
            c.ours = ours
            marks.append(False)  # what is over a case file's length was not asked by itself, so that no panic was seen
            if len(c.file()) <= 65536:
                line, panic = next(by_itself)
                assert line == before.line() and panic == (before.place == PANICS), (line, panic, before.line(), before.place)
                marks[-1] = a.place == PANICS
            found[a.place, a.number, bool(type_)] = found.get((a.place, a.number, bool(type_)), 0) + 1
            numbers.append(a.number)
        assert in_force == (calls[at - 1][1].peer if at else start)
        updates += len(calls)
        accepted += sum(a.number == 0 for a in answers)
        listed = [join([call.peer, call.source, u64(call.rate), call.records, answer_bytes(a.number, a.values, m)])
                  for (_, call), a, m in zip(calls, answers, marks)]
        panics += sum(marks)
        parts.append(join([start, lock, type_, join(listed), amount(sums[0]) + amount(sums[1]), u32(at)]))
    assert next(said, None) is None and next(by_itself, None) is None
    table_of = [(k, v) for k, v in sorted(found.items(), key=lambda x: [p for p, _, _ in PLACES].index(x[0][0]))]
    print('negotiations: place, number, typed, how often')
    for (place, number, typed), v in table_of:
        print('  %-66s %3d %-7s %5d' % (place, number, 'typed' if typed else 'untyped', v))
    starts = [('none' if not s[0] else 'unreadable' if read_tx(s[0]) is None else '68 bytes' if len(s[0]) == 68 else 'other') for s in all_of]
    print('by number: ' + ', '.join(by_number(numbers)) + '; starts: ' + ', '.join('%s %d' % (k, starts.count(k)) for k in sorted(set(starts))))
    lengths = [len(s[3]) for s in all_of]
    print('lengths: ' + ', '.join('%d: %d' % (n, lengths.count(n)) for n in sorted(set(lengths))))
    taken = [[a.number == 0 for a in s[4]] for s in all_of]
    mixed = sum(1 for t in taken if any(not x and any(t[:i]) and any(t[i + 1:]) for i, x in enumerate(t)))
    several = sum(1 for t in taken if sum(t) > 1)
    print('%d with several acceptances, %d with a refusal between acceptances; the Rust panics at %d updates' % (several, mixed, panics))
    print(apart(requests))
    data = recorded(parts)
    longest = max(len(p) for p in parts)
    print('%d negotiations, %d updates, %d accepted; the longest part of %d bytes; %d bytes' % (len(parts), updates, accepted, longest, len(data)))
    if any(not found.get((place, number, typed)) for place, number, where in PLACES if where == 'l' for typed in (True, False)):
        sys.exit('a place without a case')
    return data, ['%d negotiations, %d updates, of which %d are accepted and the Rust panics at %d, 0 wrong' % (len(parts), updates, accepted, panics)]


# ---- fresh cases


def line_of(program, f):
    try:
        done = subprocess.run([program], input=f, stdout=subprocess.PIPE, stderr=subprocess.DEVNULL, timeout=60)
    except subprocess.TimeoutExpired:
        return 'no end within a minute'
    out = done.stdout.decode(errors='replace')
    return out[:-1] if out.endswith('\n') and done.returncode == 0 else '%r, exit status %d' % (out, done.returncode)


def smaller(f):
    """Files a little smaller than f."""
    try:
        c = read_case(f)
    except Shape:
        for n in (len(f) // 2, len(f) // 4, 16, 4, 1):
            for i in range(0, len(f), max(1, n)):
                yield f[:i] + f[i + n:]
        return
    ours, peer = read_tx(c.ours) if c.ours else None, read_tx(c.peer)
    c.ours, c.peer = ours or c.ours, peer or c.peer

    def with_(name, value):
        d = c.copy()
        setattr(d, name, value)
        return d.file()

    if c.ours:
        yield with_('ours', b'')
    if c.type:
        yield with_('type', b'')
    for i in range(len(c.records)):
        yield with_('records', c.records[:i] + c.records[i + 1:])
        d = c.copy()
        if isinstance(d.peer, Tx) and d.peer.inputs:
            d.records.pop(i)
            d.peer.inputs.pop()
            yield d.file()
        if c.records[i] and c.records[i][1]:
            yield with_('records', c.records[:i] + [(c.records[i][0], b'')] + c.records[i + 1:])
    for side in ('ours', 'peer'):
        if isinstance(getattr(c, side), Tx):
            for name in ('deps', 'headers', 'inputs', 'outputs', 'data', 'witnesses'):
                for i in range(len(getattr(getattr(c, side), name))):
                    d = c.copy()
                    getattr(getattr(d, side), name).pop(i)
                    yield d.file()
                    if name in ('deps', 'headers', 'inputs', 'outputs', 'data') and isinstance(d.ours, Tx) and isinstance(d.peer, Tx) and side == 'ours':
                        if i < len(getattr(d.peer, name)):
                            getattr(d.peer, name).pop(i)
                            yield d.file()
            d = c.copy()
            t = getattr(d, side)
            t.outputs, t.data = t.outputs[:-1], t.data[:-1]
            yield d.file()
    if c.rate:
        yield with_('rate', 0)


def shrunk(oracle, program, f):
    """A smaller file on which the two still differ."""
    while True:
        tried = sorted({g for g in smaller(f) if len(g) < len(f) or (len(g) == len(f) and g < f)}, key=lambda g: (len(g), g))
        for g, (a, _, _) in zip(tried, compared(tried, ask(oracle, tried))):
            if line_of(program, g) != a.line():
                f = g
                break
        else:
            return f


def fresh(oracle, n, seed, program, out):
    rng, done, wrong, least, found, requests = cases.Rng(seed), 0, 0, None, {}, []
    everything = []
    while done < n:
        files = [cases.any_case(rng) for _ in range(min(2000, n - done))]
        judged = compared(files, ask(oracle, files))
        for f, (a, typed, request) in zip(files, judged):
            found[a.place, a.number, typed] = found.get((a.place, a.number, typed), 0) + 1
            requests.append(request)
            if program:
                said = line_of(program, f)
                if said != a.line():
                    wrong += 1
                    if wrong <= 5:
                        print('DIFFERS: %s says %s, the program %s: %s' % ('the model' if request else 'the Rust', a.line(), said, f.hex()))
                    if least is None or len(f) < len(least):
                        least = f
        everything += [(f, a.line(), a.place == PANICS) for f, (a, _, _) in zip(files, judged)]
        done += len(files)
    table(found)
    print(apart(requests))
    if out:
        data = recorded(grouped(everything))
        open(out, 'wb').write(data)
        print('%s: %d bytes' % (out, len(data)))
    print('%d fresh cases of seed %d, %d differ' % (n, seed, wrong) if program else '%d fresh cases of seed %d' % (n, seed))
    if least is not None:
        f = shrunk(oracle, program, least)
        print('smallest found: %d bytes, it is %s, the program says %s: %s' % (len(f), judge_file(f)[0].line(), line_of(program, f), f.hex()))
        sys.exit(1)


def main():
    p = argparse.ArgumentParser()
    p.add_argument('oracle')
    p.add_argument('--fresh', type=int)
    p.add_argument('--seed', type=int, default=1)
    p.add_argument('--program')
    p.add_argument('--out')
    a = p.parse_args()
    for path in [a.oracle] + ([a.program] if a.program else []):
        if not (os.path.isfile(path) and os.access(path, os.X_OK)):
            sys.exit('%s is no program: nothing is compared or recorded' % path)
    if a.fresh is not None:
        return fresh(a.oracle, a.fresh, a.seed, a.program, a.out)
    made = [('recorded_updates',) + record_updates(a.oracle), ('recorded_negotiations',) + record_negotiations(a.oracle)]
    replayed.write(made)


if __name__ == '__main__':
    main()
