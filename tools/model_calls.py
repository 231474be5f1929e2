#!/usr/bin/env python3
"""Compares the library, through its C interface, with the rules as they are written a second time, call by call in one process.

    tools/model_calls.py [--calls N] [--seed S]   all small calls of each kind, and N random ones: 100,000, three to four minutes, unless told otherwise
    tools/model_calls.py --faults [--seed S]      sees that the comparison notices wrong models, and a change of anything that the library gives back

It has the static library made where need be (tools/staticlib), or takes the one that BASINPANTRY_LIB names, and has it linked as a shared object (CC, or cc).
Of each call it compares the number and the four words of values, those too that the answer does not set and that have to keep their value, and looks whether
anything that was lent has changed. A call that differs is printed in hex with both answers, and the exit status is then 1.

The table of a kind says how many calls there were and how many got each number, how many were decided at the places of the rules for which its small calls are
made, and how many the model answers otherwise without a request that changed the rules. Another kind is a class like Updates, in KINDS."""
import argparse
import collections
import ctypes
import itertools
import os
import subprocess
import sys
import tempfile
import types

import update_cases as cases
import update_model
from update_model import REQUESTS, Shape, Tx, read_case, read_records, read_tx, write_records

SHOWN = 10  # differing calls of a kind that are printed; the shortest is too


# ---- the library

BEFORE = [0xa5a5a5a500000000 + i for i in range(4)]  # what `values` has before a call: words that no answer has but by chance
BEHIND = b'\xc3' * 16  # behind what is lent, and not lent: it has to stay too


class Library:
    def __init__(self, archive):
        with tempfile.TemporaryDirectory() as folder:
            shared = os.path.join(folder, 'capi.so')
            whole = ['-Wl,--whole-archive', archive, '-Wl,--no-whole-archive']
            if subprocess.run([os.environ.get('CC') or 'cc', '-shared', '-o', shared] + whole).returncode:
                sys.exit("%s can't be linked as a shared object" % archive)
            self.loaded = ctypes.CDLL(shared)
        self.fault = None  # with --faults: is given the number, the values and the buffers after a call, and answers the number

    def answer(self, function, lent):
        """Lends bytes with their length, no bytes as NULL, and numbers as words of 64 bits. The number, the words of values, and the places in `lent` of the
        bytes that are no longer what they were."""
        buffers = [ctypes.create_string_buffer(x + BEHIND, len(x) + len(BEHIND)) if isinstance(x, bytes) and x else None for x in lent]
        values, args = (ctypes.c_uint64 * len(BEFORE))(*BEFORE), []
        for x, buffer in zip(lent, buffers):
            args += [buffer, ctypes.c_size_t(len(x))] if isinstance(x, bytes) else [ctypes.c_uint64(x)]
        call = getattr(self.loaded, function)
        call.restype = ctypes.c_uint32
        number = call(*args, values)
        if self.fault:
            number = self.fault(number, values, buffers)
        return number, list(values), [i for i, buffer in enumerate(buffers) if buffer is not None and buffer.raw != lent[i] + BEHIND]


def expected(number, words):
    """The answer of a call that sets these words."""
    return number, words + BEFORE[len(words):], []


# ---- kinds of calls: `small` and `random` yield calls, `ask` makes one in the library, and `judge` asks the model, with what `ask` should then give


class Updates:
    """Judging a peer's update. The small calls are those that add header deps, with what is looked at before and after these right and wrong."""
    name = 'updates'
    model = update_model
    places, requests = ['limits: header deps'], REQUESTS  # counted in the table: where an answer was decided, and what changed it
    words = {0: 4, 6: 1, 8: 4}  # how many words an answer sets, by its number; others set none
    wrong = [  # models that --faults has to find: a name, what stands in the model once, and what then stands there
        ('one added header dep at most', "<= 2, 'limits: header deps'", "<= 1, 'limits: header deps'"),
        ('three added header deps at most', "<= 2, 'limits: header deps'", "<= 3, 'limits: header deps'"),
        ('no limit on added header deps', 'if HEADER_DEPS not in without:', 'if False:'),
    ]
    Call = collections.namedtuple('Call', 'ours peer lock type source rate records')  # in the order of the function, and of the model's judge

    def of(self, c):
        return self.Call(c.our_bytes(), c.peer_bytes(), c.lock, c.type, c.source, c.rate, write_records(c.records))

    def small(self):
        starts = [('none', 0)] + [(kind, n) for kind in ('empty', 'one') for n in range(5)]
        for (kind, n), typed, k, deps, version, missing in itertools.product(starts, (True, False), range(8), (0, 8, 9), (0, 1), (False, True)):
            for other in [None] + list(range(min(n, k))):
                c = cases.base(kind, typed)
                if c.ours is not None:
                    c.ours.headers = [cases.header(i) for i in range(n)]
                c.peer.headers = [cases.header(20 if i == other else i) for i in range(k)]
                c.peer.deps = [cases.dep(i) for i in range(deps)]
                c.peer.version = version
                cases.pay(c, cases.due(c) + 777)
                if missing:
                    c.records.pop()
                yield self.of(c)

    def random(self, rng):
        """Without end: the updates of random case files, and of each three one with more header deps."""
        for n in itertools.count():
            made = None
            while made is None:
                try:
                    made = read_case(cases.any_case(rng))
                except Shape:  # no case file, and so no call
                    continue
                if n % 3 == 2:
                    made = self.with_headers(rng, made)
            yield self.of(made)

    def with_headers(self, rng, c):
        """Header deps added to ours and to the peer's, which mostly goes on from ours; None where one of the two can't be read."""
        ours, c.peer = read_tx(c.ours) if c.ours else Tx(), read_tx(c.peer)
        if not ours or not c.peer:
            return None

        def some():
            return [cases.header(rng.below(5)) for _ in range(rng.below(7))]

        at, more = len(ours.headers), some() if c.ours or rng.once_in(2) else []
        if more:
            c.ours = ours
            ours.headers += more
        if rng.once_in(6):
            more = rng.mixed(more)[rng.below(2):]
        c.peer.headers[at:at] = more
        c.peer.headers += some()
        return c

    def ask(self, library, call):
        return library.answer('basinpantry_update_for_peer', call)

    def judge(self, model, call, without=()):
        """The model's answer, and the same as Library.answer gives it."""
        a = model.judge(*call[:-1], read_records(call.records), without)
        words = [w for v in a.values for w in ((v % 2 ** 64, v >> 64) if a.number == 0 else (v,))]
        return a, expected(a.number, words)


KINDS = [Updates()]


# ---- comparing


def answer_text(kind, answer):
    number, words, changed = answer
    lent = ''.join(', %s changed' % kind.Call._fields[i] for i in changed)
    return '%d, values %s%s' % (number, ' '.join('kept' if w == b else '%x' % w for w, b in zip(words, BEFORE)), lent)


def difference(kind, call, said, a, right):
    fields = ' '.join('%s=%s' % (f, x.hex() or '-' if isinstance(x, bytes) else x) for f, x in zip(call._fields, call))
    return '%s DIFFER: the library says %s; the model %s (%s): %s' % (kind.name, answer_text(kind, said), answer_text(kind, right), a.place, fields)


def size(call):
    return sum(len(x) for x in call if isinstance(x, bytes))


def compare(library, kind, calls, seed):
    """Makes the calls of a kind and prints its table. How many calls there were, and how many differ."""
    found, wrong, least = collections.Counter(), 0, None
    for column, made in (('small', kind.small()), ('random', itertools.islice(kind.random(cases.Rng(seed)), calls))):
        for call in made:
            said, (a, right) = kind.ask(library, call), kind.judge(kind.model, call)
            rows = ['calls', 'number %d' % a.number, a.place] + [r for r in kind.requests if kind.judge(kind.model, call, [r])[1] != right]
            found.update((row, column) for row in rows)
            if said != right:
                wrong += 1
                text = difference(kind, call, said, a, right)
                if wrong <= SHOWN:
                    print(text)
                if least is None or size(call) < least[0]:
                    least = size(call), text
    if least:
        print('the shortest of %d: %s' % (wrong, least[1]))

    def line(text, row):
        print('%-66s %7d %7d' % (text, found[row, 'small'], found[row, 'random']))

    print('%-66s %7s %7s' % (kind.name, 'small', 'random'))
    line('calls', 'calls')
    for n in sorted({int(row.split()[1]) for row, _ in found if row.startswith('number ')}):
        line('number %d' % n, 'number %d' % n)
    for place in kind.places:
        line('decided at %s' % place, place)
    for r in kind.requests:
        line('changed by %s, %s' % (r, kind.requests[r]), r)
    return found['calls', 'small'] + found['calls', 'random'], wrong


# ---- faults


def wrong_model(model, old, new):
    text = open(model.__file__).read()
    assert text.count(old) == 1, old
    made = types.ModuleType(model.__name__)
    exec(compile(text.replace(old, new), model.__file__, 'exec'), made.__dict__)
    return made


def changes(kind):
    """Of what the library gives back: each a name and what Library.fault is to be."""
    def word(i, numbers):
        def fault(number, values, buffers):
            values[i] ^= number in numbers
            return number
        return fault

    def byte(k, back):
        def fault(number, values, buffers):
            if buffers[k] is not None:
                at = len(buffers[k]) - 1 if back else 0
                buffers[k][at] = buffers[k][at][0] ^ 1
            return number
        return fault

    yield 'another number', lambda number, values, buffers: number ^ 1
    for number, n in sorted(kind.words.items()):
        for i in range(n):
            yield 'value word %d of %d' % (i, number), word(i, [number])
    for i in range(len(BEFORE)):
        yield 'value word %d where it is kept' % i, word(i, [number for number in range(16) if kind.words.get(number, 0) <= i])
    lent = [k for k, x in enumerate(next(kind.small())) if isinstance(x, bytes)]
    for k in lent:
        yield 'a byte of %s' % kind.Call._fields[k], byte(k, False)
    yield 'a byte behind %s' % kind.Call._fields[lent[0]], byte(lent[0], True)


def faults(library, kind, calls, seed):
    """Prints of each fault at how many calls it is noticed. How many faults there are, and how many are not noticed."""
    made = list(kind.small()) + list(itertools.islice(kind.random(cases.Rng(seed)), calls))
    right = [kind.judge(kind.model, call)[1] for call in made]
    said = [kind.ask(library, call) for call in made]
    if said != right:
        sys.exit('%s: the library and the model differ, so that no fault can be seen by itself' % kind.name)
    found = []
    for name, old, new in kind.wrong:
        model = wrong_model(kind.model, old, new)
        found.append(('model: ' + name, sum(kind.judge(model, call)[1] != s for call, s in zip(made, said))))
    for name, fault in changes(kind):
        library.fault = fault
        found.append(('library: ' + name, sum(kind.ask(library, call) != r for call, r in zip(made, right))))
    library.fault = None
    print('%s: faults, each in %d calls' % (kind.name, len(made)))
    for name, n in found:
        print('%-66s %7d%s' % (name, n, '' if n else '  NONE'))
    return len(found), sum(not n for _, n in found)


def archive():
    named = os.environ.get('BASINPANTRY_LIB')
    if not named and subprocess.run(['tools/staticlib']).returncode:
        sys.exit(1)
    return named or 'target/staticlib/libcapi.a'


def main():
    p = argparse.ArgumentParser()
    p.add_argument('--calls', type=int, default=100_000)
    p.add_argument('--seed', type=int, default=1)
    p.add_argument('--faults', action='store_true')
    a = p.parse_args()
    library = Library(archive())
    if a.faults:
        done = [faults(library, kind, min(a.calls, 2000), a.seed) for kind in KINDS]
    else:
        done = [compare(library, kind, a.calls, a.seed) for kind in KINDS]
    n, bad = (sum(x) for x in zip(*done))
    print('%d faults, %d not noticed' % (n, bad) if a.faults else '%d calls, %d differ, seed %d' % (n, bad, a.seed))
    return bad > 0


if __name__ == '__main__':
    sys.exit(main())
