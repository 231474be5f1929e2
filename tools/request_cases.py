"""The requests of our own side that tools/recorded_requests.py records: around every figure, sum, amount, list and room, damaged bytes, every two
refusals together, and random ones. Nothing here knows an answer, but the length that it lends a room for."""
from molecule_vectors import join, u32
from request_model import LONGEST, Refused, Request, base_of_any_length
from update_cases import Rng, cell_input, dep, header
from update_model import Tx, amount, bytes_of, fixvec_of, output, script

SEED = 20_240_923
W64, W128 = 2 ** 64, 2 ** 128
LOCK, SOURCE, TYPE, OTHER = script(0), script(1), script(2), script(3)
LOCK_20, SOURCE_20, TYPE_32 = script(0, bytes(range(20)), 1), script(1, bytes(range(20, 40)), 1), script(2, bytes(range(32)), 2)
CKB = 10 ** 8
MOST_ROOM = 133_200  # bytes of a lent buffer at most


def point(n):
    return bytes([128 + n % 100]) * 32 + u32(n)


def token_cell(p, data):
    return join([p, bytes_of(data)])


def cells(*amounts):
    """Token cells that hold these; bytes are their data."""
    return join([token_cell(point(i), a if isinstance(a, bytes) else amount(a)) for i, a in enumerate(amounts)])


def fitted(r, by=5):
    """With so much more room than is written, or less."""
    try:
        return r.but(room=max(0, min(MOST_ROOM, len(base_of_any_length(r)) + by)))
    except Refused:
        return r.but(room=400)


def present(inputs=0, outputs=0, data=None, typed=False, deps=(), headers=(), version=0, witnesses=()):
    outs = [output(100 * CKB + i, LOCK if i == 0 else OTHER, TYPE if typed and i != 1 else b'') for i in range(outputs)]
    entries = [amount(40 + i) if typed and i != 1 else bytes([i]) * i for i in range(outputs)]
    entries = entries if data is None else (entries + [b'more', b''])[:data]
    return Tx(version, deps, headers, [cell_input(i, i % 2 * 7) for i in range(inputs)], outs, entries, witnesses).write()


def untyped(**more):
    return Request(lock=LOCK, source=SOURCE, room=400).but(**{'local': 5, 'local_reserve': 7, 'remote': 11, 'remote_reserve': 13, **more})


def typed(*amounts, **more):
    usual = {'udt': TYPE, 'cells': cells(*amounts), 'udt_deps': fixvec_of([dep(1)]), 'lock_dep': dep(2)}
    return untyped(**{**usual, **more})


NONE, UNFUNDED, FUNDED = b'', present(1), present(2, 2)
STARTS = [NONE, present(), UNFUNDED, FUNDED]


# ---- the funding cell


def known():
    for ours in STARTS:
        yield untyped(ours=ours)
        yield typed(5, ours=ours)
        yield typed(9, ours=ours)
    for wanted in 0, 1, 29, 30, 31, 70, 79, 80, 81, 119, 120, 121:
        yield typed(30, 50, 40, local=wanted)
    yield typed(30, local=10, source=SOURCE_20, udt=TYPE_32)


AROUND_64 = [(0, 0), (W64 - 1, 0), (W64 - 1, 1), (0, W64 - 1), (1, W64 - 1), (W64 - 2, 1), (2 ** 63, 2 ** 63 - 1), (2 ** 63, 2 ** 63), (W64, 0), (W128 - 1, 0),
             (2 ** 127, 2 ** 63)]


def figures():
    for ours in STARTS:
        for local, reserve in AROUND_64:
            yield untyped(ours=ours, local=local, local_reserve=reserve, remote=0, remote_reserve=0)
            yield untyped(ours=ours, local=0, local_reserve=0, remote=local, remote_reserve=reserve)
            yield untyped(ours=ours, local=local, local_reserve=0, remote=0, remote_reserve=reserve)
            yield untyped(ours=ours, local=0, local_reserve=reserve, remote=local, remote_reserve=0)
        for local, remote in (W64 - 1, 1), (1, W64 - 1), (W64 - 1, W64 - 1), (W64, W64), (1, W64), (W128 - W64, W64), (W128 - 1, W128 - 1):
            yield untyped(ours=ours, local=local, local_reserve=1, remote=remote, remote_reserve=1)
        for a, b, c, d in (W64 - 4, 1, 1, 1), (W64 - 3, 1, 1, 1), (1, W64 - 4, 1, 1), (1, W64 - 3, 1, 1), (1, 1, W64 - 4, 1), (1, 1, W64 - 3, 1), \
                (1, 1, 1, W64 - 4), (1, 1, 1, W64 - 3):
            yield untyped(ours=ours, local=a, local_reserve=b, remote=c, remote_reserve=d)
        for local, remote in (0, 0), (1, 0), (0, 1), (W64 - 1, 1), (W64, W64), (2 ** 127, 2 ** 127 - 1), (2 ** 127, 2 ** 127), (W128 - 1, 0), (W128 - 1, 1), \
                (0, W128 - 1), (1, W128 - 1), (1, W128 - 2), (W128 - W64, W64 - 1), (W128 - W64, W64), (W128 - 1, W128 - 1):
            yield typed(local, ours=ours, local=local, remote=remote)
            yield typed(W128 - 1, ours=ours, local=local, remote=remote)
        for mine, theirs in (0, 0), (W64 - 1, 0), (0, W64 - 1), (W64 - 1, 1), (1, W64 - 1), (2 ** 63, 2 ** 63), (2 ** 63, 2 ** 63 - 1), (W64 - 1, W64 - 1):
            yield typed(5, ours=ours, local_reserve=mine, remote_reserve=theirs)


# ---- the pick

SHORT = [b'', b'\1', bytes(15), b'\xff' * 15]


def picks():
    lists = [[], [0], [1], [0, 0, 0], [5], [6], [0, 5], [5, 0], [0, 0, 7, 0], [1, 1, 1, 1, 1], [1, 2, 3], [3, 2, 1], [4, 0, 1], [W64 - 1, 1], [W64, W64],
             [W128 - 1], [W128 - 1, 1], [W128 - 1, 0, 5], [2 ** 127, 2 ** 127], [2 ** 127, 2 ** 127 - 1], [1, W128 - 1], [0, W128 - 1], [4, W128 - 5],
             [4, W128 - 4], [4, W128 - 3], list(range(1, 12))]
    for amounts in lists:
        total = sum(amounts)
        for local in {0, 1, 4, 5, 6, total - 1, total, total + 1, W64, W128 - 1}:
            if 0 <= local < W128:
                yield typed(*amounts, local=local, remote=0)
    for short in SHORT:
        for amounts in [short], [5, short], [4, short], [4, short, 1], [short, 5], [0, short], [6, short, short], [W128 - 1, short], [2 ** 127, 2 ** 127, short], \
                [2, 2, short], [2, 2, 1, short]:
            for local in 0, 5, W128 - 1:
                yield typed(*amounts, local=local)
    # more than 16 bytes of data: the first 16 are the amount
    for tail in b'\0', b'\1', b'\xff' * 16, bytes(100):
        for amounts in [amount(5, tail)], [amount(3, tail), amount(4, tail)], [amount(W128 - 1, tail), 1]:
            for local in 5, 6, W128 - 1:
                yield typed(*amounts, local=local)
    # a list of cells where nothing is picked, and cells that are listed twice
    for local in 0, 5, W64:
        yield untyped(cells=cells(b'', 1, W128 - 1, W128 - 1), local=local)
    again = token_cell(point(1), amount(3))
    yield typed(local=5, cells=join([again, again]))
    yield typed(local=7, cells=join([again, again]))
    # under our own lock and type with args of several lengths
    for n in 0, 1, 20, 32, 33, 300:
        for m in 0, 32, 36:
            yield typed(30, source=script(1, bytes(n)), udt=script(2, bytes(m)))
            yield typed(5, lock=script(0, bytes(m)), source=script(1, bytes(n)), udt=script(2, bytes(n)))


# ---- the base: what the present transaction has


def starts():
    for inputs in 0, 1, 2, 3, 5:
        for outputs in 0, 1, 2, 3, 4:
            for amounts in [5], [2, 9]:
                yield typed(*amounts, ours=present(inputs, outputs, typed=True))
            yield typed(5, local=0, ours=present(inputs, outputs, typed=True))
            yield untyped(ours=present(inputs, outputs))
    for outputs in 0, 1, 2, 3:
        for data in range(outputs + 3):
            for make in untyped, lambda **more: typed(9, **more), lambda **more: typed(5, **more):
                yield make(ours=present(1, outputs, data))
    for witnesses in [b''], [b'w'], [b'', b'x' * 85, b'y'], [bytes(85)] * 4:
        for inputs in 0, 1, 3:
            yield untyped(ours=present(inputs, 1, witnesses=witnesses))
            yield typed(9, ours=present(inputs, 1, witnesses=witnesses))
    for version in 0, 1, 255, 2 ** 32 - 1:
        for headers in [], [header(1)], [header(2), header(1), header(2)]:
            yield untyped(ours=present(1, 1, version=version, headers=headers))
            yield typed(9, ours=present(1, 2, version=version, headers=headers))
            yield untyped(ours=present(version=version, headers=headers))
    # the present output 0 may be of any lock and type, and a later one too
    for lock in LOCK, OTHER, LOCK_20:
        for udt in b'', TYPE, TYPE_32:
            ours = Tx(outputs=[output(1, lock, udt), output(W64 - 1, lock, udt)], data=[amount(1, b'+'), b'later']).write()
            yield untyped(ours=ours)
            yield typed(7, ours=ours)
            yield typed(7, ours=ours, udt=TYPE_32)


# ---- cell deps


def deps():
    a, b, c, d = dep(1), dep(2), dep(3), dep(1, 1)
    lists = [[], [a], [a, a], [a, b], [b, a], [c, a, b, a, c], [a, d], [dep(1, 255), d]]
    for had in lists:
        for own in lists[:6] + [None]:
            for lock in a, c, None:
                for extra in [], [a], [c, b, c]:
                    supplied = b'' if own is None else fixvec_of(own)
                    yield typed(6, ours=present(1, 1, deps=had), udt_deps=supplied, lock_dep=lock or b'', extra=fixvec_of(extra))
    for had in lists:
        for extra in lists:
            yield untyped(ours=present(1, deps=had), extra=fixvec_of(extra))
            yield typed(6, local=0, ours=present(1, deps=had), extra=fixvec_of(extra))
    for own in b'', u32(0), fixvec_of([a]):
        for lock in b'', b, a:
            for make in untyped, lambda **more: typed(6, **more), lambda **more: typed(6, local=0, **more):
                yield make(udt_deps=own, lock_dep=lock, extra=fixvec_of([c]))


# ---- the room


def kinds_of_base():
    yield untyped()
    yield untyped(ours=FUNDED, extra=fixvec_of([dep(3)]))
    yield untyped(ours=present(), lock=LOCK_20)
    yield typed(5)
    yield typed(9, ours=UNFUNDED)
    yield typed(2, 2, 2, ours=present(3, 3, typed=True, deps=[dep(1), dep(1)], headers=[header(1)]), source=SOURCE_20)
    yield typed(9, local=0, ours=FUNDED)


def rooms():
    for r in kinds_of_base():
        for by in -10 ** 6, -100, -2, -1, 0, 1, 2, 100:
            yield fitted(r, by)
        for room in 1, 3, 4, 12, 68, 100:
            yield r.but(room=room)


# ---- the longest


def grown(make, n):
    """The request that make(k) gives, with k such that the base has n bytes."""
    k = n - len(base_of_any_length(make(0)))
    r = make(k)
    assert len(base_of_any_length(r)) == n
    return r


def with_data(**more):
    return lambda k: typed(9, ours=Tx(outputs=[output(1, LOCK), output(2, OTHER)], data=[b'', bytes(k)]).write(), **more)


def lengths(n):
    """A base of about so many bytes, which is over the limit for another list each time."""
    ways = [
        with_data(),
        lambda k: untyped(ours=Tx(inputs=[cell_input(1)], outputs=[output(1, LOCK), output(2, OTHER)], data=[b'', bytes(k)]).write()),
        lambda k: untyped(lock=script(0, bytes(k))),
        lambda k: typed(9, source=script(1, bytes(k))),
        lambda k: typed(5, udt=script(2, bytes(k))),
        lambda k: typed(5, lock=script(0, bytes(k)), ours=present(1, 1)),
        lambda k: untyped(ours=Tx(outputs=[output(1, LOCK), output(2, script(3, bytes(k)))]).write()),
    ]
    for make in ways:
        for by in 0, 1:
            yield fitted(grown(make, n + by), 50)
    yield grown(ways[0], n).but(room=n)
    yield grown(ways[0], n).but(room=n - 1)
    yield grown(ways[0], n + 1).but(room=n)


def many():
    """Lists of many items; with data that makes the base as long as one may be, and a byte longer."""
    few = dict(outputs=[output(1, LOCK), output(2, OTHER)])
    numbered = lambda n, make, at=0: [make(i) for i in range(at, at + n)]
    a_dep = lambda i: bytes(32) + u32(i) + b'\0'
    ways = [
        lambda k: untyped(ours=Tx(deps=numbered(300, a_dep), data=[b'', bytes(k)], **few).write()),
        lambda k: untyped(ours=Tx(headers=[bytes(32)] * 2000, data=[b'', bytes(k)], **few).write()),
        lambda k: untyped(ours=Tx(inputs=[bytes(44)] * 1500, data=[b'', bytes(k)], **few).write()),
        lambda k: typed(9, ours=Tx(inputs=[bytes(44)] * 1000, data=[b'', bytes(k)], **few).write()),
        lambda k: untyped(ours=Tx(outputs=[output(i, LOCK) for i in range(500)], data=[b'', bytes(k)]).write()),
        lambda k: typed(*[1] * 500, local=500, ours=Tx(data=[b'', bytes(k)], **few).write()),
        lambda k: untyped(ours=Tx(data=[b'', bytes(k)], **few).write(), extra=fixvec_of([dep(1)] * 2000)),
    ]
    for make in ways:
        yield fitted(make(0), 0)
        for by in 0, 1:
            yield fitted(grown(make, LONGEST + by), 9)
    # 3,590 deps are all that fit beside an untyped funding cell
    for n in 3589, 3590, 3591, 3597, 3598, 3700:
        yield untyped(extra=fixvec_of(numbered(n, a_dep)), room=MOST_ROOM)
    for n in 1795, 1796:
        yield untyped(ours=Tx(deps=numbered(n, a_dep)).write(), extra=fixvec_of(numbered(n, a_dep, 1000)), room=MOST_ROOM)
        yield untyped(ours=Tx(deps=numbered(n, a_dep)).write(), extra=fixvec_of(numbered(n, a_dep, n)), room=MOST_ROOM)


# ---- what can't be read


def damaged(s, at_least):
    """Bytes that are nearly s, which is a list or a table."""
    yield s[:-1]
    yield s + b'\0'
    yield s[1:]
    for i in range(0, min(len(s), at_least), 4):
        for by in 1, -1, 4, 2 ** 16, 2 ** 31:
            yield s[:i] + u32((int.from_bytes(s[i:i + 4], 'little') + by) % 2 ** 32) + s[i + 4:]


def unreadable():
    r = typed(2, 9, ours=present(1, 2, typed=True, deps=[dep(1)], headers=[header(1)], witnesses=[b'w']), extra=fixvec_of([dep(3)]))
    for ours in list(damaged(r.ours, 64)) + [b'\0', u32(4), bytes(68)]:
        yield r.but(ours=ours)
        yield untyped(ours=ours)
    for name, s in ('lock', LOCK), ('udt', TYPE), ('source', SOURCE):
        for bad in list(damaged(s, 16)) + [b'\0', u32(4), join([bytes(32), b'\0']), join([bytes(32), b'\0', u32(0), b''])]:
            yield r.but(**{name: bad})
    for name in 'lock', 'source':
        yield r.but(**{name: b''})
    good, short_point = token_cell(point(1), amount(9)), join([point(1)[1:], bytes_of(amount(9))])
    bad_cells = [b'', bytes(4), b'\0', join([b'']), join([b'', good]), join([point(1)]), join([short_point]), join([good, good[:-1]]),
                 join([join([point(1), amount(9)])])]
    for bad in list(damaged(r.cells, 24)) + bad_cells:
        yield r.but(cells=bad)
        yield untyped(cells=bad)
        yield r.but(cells=bad, local=0)
    for name in 'udt_deps', 'extra':
        for bad in list(damaged(fixvec_of([dep(1), dep(2)]), 8)) + [b'\0', bytes(3), u32(1), u32(2 ** 32 - 1), bytes(5), u32(0) + dep(1), u32(2) + dep(1)]:
            yield r.but(**{name: bad})
            yield untyped(**{name: bad})
    yield r.but(extra=b'')
    yield untyped(extra=b'')
    for bad in b'\0', dep(2)[:-1], dep(2) + b'\0', fixvec_of([dep(2)]), dep(2) * 2, u32(0):
        yield r.but(lock_dep=bad)
        yield untyped(lock_dep=bad)
        yield r.but(lock_dep=bad, local=0)


# ---- several refusals at once

SPOIL = [
    ('ours', lambda r: r.but(ours=r.ours[:-1] or b'\0')),
    ('lock', lambda r: r.but(lock=b'')),
    ('type', lambda r: r.but(udt=b'\0')),
    ('source', lambda r: r.but(source=SOURCE + b'\0')),
    ('cells', lambda r: r.but(cells=r.cells[:-1])),
    ('token deps', lambda r: r.but(udt_deps=u32(1))),
    ('lock dep', lambda r: r.but(lock_dep=b'\0')),
    ('extra', lambda r: r.but(extra=b'')),
    ('tokens', lambda r: r.but(remote=W128 - 1)),
    ('reserves', lambda r: r.but(local_reserve=W64 - 1)),
    ('short', lambda r: r.but(cells=cells(b'', 9))),
    ('total', lambda r: r.but(cells=cells(2, W128 - 1))),
    ('ended', lambda r: r.but(cells=cells(2, 2))),
    ('short after total', lambda r: r.but(cells=cells(2, W128 - 1, b''))),
    ('no token deps', lambda r: r.but(udt_deps=b'')),
    ('no lock dep', lambda r: r.but(lock_dep=b'')),
    ('room', lambda r: r.but(room=100)),
]


def pairs():
    for ours in FUNDED, NONE:
        r = fitted(typed(2, 9, ours=ours))
        for i, (_, first) in enumerate(SPOIL):
            yield first(r)
            for _, second in SPOIL[i + 1:]:
                yield second(first(r))


# ---- random requests


def any_figure(rng, width):
    if rng.once_in(12):
        return min(width - 1, rng.pick([W64 - 1, W64, 2 ** 63, width - 1, width - 2, W128 - W64]))
    return rng.below(1000) if rng.once_in(2) else rng.below(2 ** 40)


def any_script(rng, code):
    return script(code, bytes([rng.below(256)]) * rng.pick([0, 0, 1, 20, 20, 32, 33, 53]), rng.pick([0, 1, 1, 2, 4]))


def any_deps(rng, most=4):
    return [dep(1 + rng.below(6), rng.below(2)) for _ in range(rng.below(most))]


def any_present(rng, lock, udt):
    if rng.once_in(5):
        return b''
    n = rng.pick([0, 1, 1, 2, 2, 3, 4])
    tx = Tx(rng.pick([0, 0, 0, 1, 2 ** 32 - 1]), any_deps(rng), [header(rng.below(4)) for _ in range(rng.pick([0, 0, 1, 2]))])
    tx.inputs = [cell_input(rng.below(9), rng.pick([0, 0, 3])) for _ in range(rng.below(5))]
    tx.outputs = [output(rng.below(10 ** 12), rng.pick([lock, OTHER, SOURCE]), rng.pick([udt, b'', TYPE_32])) for _ in range(n)]
    tx.data = [rng.pick([b'', amount(rng.below(100)), b'data', bytes(rng.below(40))]) for _ in range(max(0, n + rng.pick([0, 0, 0, 0, -1, 1, 2])))]
    tx.witnesses = [bytes([rng.below(3)]) * rng.below(90) for _ in range(rng.below(4))]
    return tx.write()


def any_cells(rng, local):
    """Cells that may well hold the local amount."""
    out, total = [], 0
    for _ in range(rng.below(7)):
        n = 0 if rng.once_in(6) else min(W128 - 1, rng.below(2 * local // 3 + 2) if local < 2 ** 60 else any_figure(rng, W128))
        if rng.once_in(25):
            n = rng.pick([W128 - 1, 2 ** 127])
        out.append(rng.pick(SHORT) if rng.once_in(30) else amount(n, b'\7' * rng.pick([0, 0, 0, 1, 20])))
        total += n
        if total >= local and rng.once_in(2):
            break
    if total < local and not rng.once_in(4):
        out.append(amount(min(W128 - 1, local - total + rng.pick([0, 0, 1, rng.below(50)]))))
    return join([token_cell(point(rng.below(40)), data) for data in out])


def spoilt(rng, r):
    return rng.pick(SPOIL)[1](r)


def any_request(rng):
    lock, source, udt = any_script(rng, 0), any_script(rng, 1), b'' if rng.once_in(3) else any_script(rng, 2)
    local = 0 if rng.once_in(10) else any_figure(rng, W128)
    r = Request(any_present(rng, lock, udt), lock, udt, source, local, any_figure(rng, W64), any_figure(rng, W128), any_figure(rng, W64), any_cells(rng, local))
    r.udt_deps = b'' if rng.once_in(10) else fixvec_of(any_deps(rng))
    r.lock_dep = b'' if rng.once_in(10) else dep(1 + rng.below(6))
    r.extra = fixvec_of(any_deps(rng))
    r = fitted(r, rng.pick([0, 0, 5, 5, 20, -1]) if rng.once_in(2) else 3)
    return spoilt(rng, r) if rng.once_in(6) else r


def random_requests(rng, n):
    return [any_request(rng) for _ in range(n)]


FAMILIES = [
    ('known', known), ('figures', figures), ('picks', picks), ('starts', starts), ('deps', deps), ('rooms', rooms), ('lengths', lambda: lengths(LONGEST)),
    ('many', many), ('unreadable', unreadable), ('pairs', pairs), ('random', lambda: random_requests(Rng(SEED), 1500)),
]

OWN_ROOM = ('rooms', 'lengths', 'many', 'pairs', 'random')  # these lend a room of their own


def requests():
    """Each request once, with the family that it is from."""
    seen = set()
    for family, make in FAMILIES:
        for r in make():
            r = r if family in OWN_ROOM else fitted(r)
            key = tuple(vars(r).values())
            if key not in seen:
                seen.add(key)
                yield family, r
