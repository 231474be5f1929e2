"""Sequences of calls on the tables of cells, for tools/recorded_tables.py: around every bound, end, block and room, damaged lists, and random ones.
A call is its name in tools/table_model.py and the arguments there."""
import hashlib

import table_model as model
from molecule_vectors import u32
from table_model import FUNDING, HOLDS, TOP, WATCHTOWER_HOLD_MS, WATCHTOWER_PICK_HOLD_MS, write_points
from update_cases import Rng
from update_model import Tx

SEED = 20_240_611


class Step:
    """A call with what the model says: the number, the table before and after, the lists written."""

    def __init__(self, name, args, before):
        self.name, self.args, self.before = name, args, before
        self.number, self.after, self.written = model.answer(getattr(model, name), before, *args)

    def rooms(self):
        """How long the lent buffers are: the last arguments."""
        n = {'take': 2, 'unavailable': 1, 'lock_held': 1, 'apply': 1}.get(self.name, 0)
        return self.args[len(self.args) - n:]


class Run:
    """A sequence of calls from the empty table."""

    def __init__(self, family):
        self.family, self.table, self.steps = family, [], []

    def do(self, name, *args):
        step = Step(name, args, self.table)
        self.steps.append(step)
        self.table = step.after
        return step

    def needs(self, name, *args):
        """How long the lists are that the call would write, had the table room for everything; nothing of lists that can't be read."""
        kept, model.HOLDS = model.HOLDS, 10 ** 9
        step = Step(name, args, self.table)
        model.HOLDS = kept
        return [len(w) for w in step.written]

    # With buffers longer than what is written by so many bytes, or shorter.

    def take(self, holder, picks, spent, now, by=(0, 0)):
        needs = self.needs('take', holder, picks, spent, now, 10 ** 6, 10 ** 6) or [4, 4]
        return self.do('take', holder, picks, spent, now, *(max(0, n + d) for n, d in zip(needs, by)))

    def unavailable(self, picks, spent, now, by=0):
        needs = self.needs('unavailable', picks, spent, now, 10 ** 6) or [4]
        return self.do('unavailable', picks, spent, now, max(0, needs[0] + by))

    def lock_held(self, now, by=0):
        return self.do('lock_held', now, max(0, self.needs('lock_held', now, 10 ** 6)[0] + by))

    def apply(self, by=0):
        return self.do('apply', max(0, self.needs('apply', 10 ** 6)[0] + by))


def digest(*xs):
    return hashlib.blake2b(repr(xs).encode(), digest_size=32).digest()


def point(i):
    return digest(i // 5) + u32((0, 1, 255, 256, 2 ** 32 - 1)[i % 5])


POOL = [point(i) for i in range(1115)]
A, B, C, D, E, F = POOL[:6]
NONE = write_points([])


def some(*cells):
    return write_points(cells)


def pool(a, b):
    return write_points(POOL[a:b])


def near(s):
    """s with each of its bytes changed in turn."""
    for i in range(len(s)):
        yield s[:i] + bytes([s[i] ^ 1 << i % 8]) + s[i + 1:]


def bad_lists():
    """Bytes that are no list of out points."""
    one, two = some(A), some(A, B)
    yield b''
    yield b'\0'
    yield bytes(3)
    yield bytes(5)
    yield u32(1)
    yield u32(2 ** 30)  # times 36 is 0 in 32 bits
    yield u32(2 ** 32 - 1)
    yield one[:-1]
    yield one + b'\0'
    yield u32(0) + A
    yield u32(2) + A
    yield u32(1) + A + B
    yield u32(3) + A + B
    yield u32(2 ** 30 + 2) + A + B
    yield two[1:]
    yield bytes([0, 0, 0, 1]) + A


# ---- holds

HOLDERS = [0, 1, 2, 2 ** 32, TOP]


def known_holds():
    r = Run('known')
    r.do('hold_for_watchtower', some(A), 1000)
    assert r.unavailable(some(A), NONE, 1_800_999).written == [some(A)]
    assert r.unavailable(some(A), NONE, 1_801_000).written == [NONE]
    assert r.take(7, some(A), NONE, 1_800_999).written == [NONE, some(A)]
    assert r.take(7, some(A), NONE, 1_801_000).written == [some(A), NONE]
    yield r
    for holder in (None, 7):
        r = Run('known')
        assert r.take(holder, some(A, A, B), NONE, 5).written == [some(A, B), some(A)]
        r.lock_held(5)
        yield r
    # one ended watchtower record and 255 funding records: a free pick passes; of two the second is too many, and the ended record stays
    for holder in (None, 3):
        for n in (1, 2):
            r = Run('known')
            r.do('hold_for_watchtower', some(POOL[400]), 0)
            r.do('hold_funding', 1, pool(0, 255))
            s = r.take(holder, pool(300, 300 + n), NONE, WATCHTOWER_HOLD_MS)
            assert (s.number, len(s.after)) == (0 if n == 1 else 14, 256)
            assert (s.after == s.before) == (n == 2)
            r.lock_held(WATCHTOWER_HOLD_MS - 1)
            yield r
    # too short a buffer and 257 records: 13
    r = Run('known')
    r.do('hold_funding', 1, pool(0, 256))
    assert r.take(2, some(POOL[300]), NONE, 0, (-1, 0)).number == 13
    assert r.take(2, some(POOL[300]), NONE, 0).number == 14
    yield r


def hold_times():
    for hold, n in ((WATCHTOWER_HOLD_MS, 0), (WATCHTOWER_PICK_HOLD_MS, 1)):
        for at in (0, 1, 1000, TOP - hold - 1, TOP - hold, TOP - hold + 1, TOP - 1, TOP):
            end = min(at + hold, TOP)
            for now in (end - 2, end - 1, end, end + 1, 0, TOP):
                if not 0 <= now <= TOP:
                    continue
                for ask in range(5):
                    r = Run('ends')
                    if n:
                        r.take(None, some(A, B), NONE, at)
                    else:
                        r.do('hold_for_watchtower', some(A, B), at)
                    if ask == 0:
                        r.take(1, some(B, C, A), NONE, now)
                    elif ask == 1:
                        r.take(None, some(B, C, A), NONE, now)
                    elif ask == 2:
                        r.unavailable(some(B, C, A), NONE, now)
                    elif ask == 3:
                        r.do('hold_for_watchtower', some(B, C), now)
                    r.lock_held(now)
                    yield r


def damaged_holds(rng):
    good = some(C, A)
    for n, bad in enumerate(bad_lists()):
        for full in (False, True):
            calls = [('hold_funding', 1, bad), ('hold_funding', 9, bad), ('hold_for_watchtower', bad, 5), ('release_for_watchtower', bad)]
            room = rng.pick([0, 3, 4, 100, 1000])
            for holder in (None, 1, 9):
                calls += [('take', holder, bad, good, 5, room, 1000), ('take', holder, good, bad, 5, 1000, room)]
                calls += [('take', holder, bad, bad, TOP, room, room)]
            calls += [('unavailable', bad, good, 5, room), ('unavailable', good, bad, TOP, room), ('unavailable', bad, bad, 5, room)]
            for part in (calls[:5], calls[5:9], calls[9:]):
                r = Run('unreadable lists')
                r.do('hold_for_watchtower', some(A, B), 0)
                r.do('hold_funding', 1, pool(2, 2 + HOLDS - 2) if full else some(C, C))
                for c in part:
                    assert r.do(*c).number == 3
                yield r


def hold_rooms():
    bys = (-1000, -5, -1, 0, 1, 36, 40)
    for held in ([], [A], [A, B], [A, B, A]):
        for picks in ([], [A], [C], [A, C], [C, D, A, C, B]):
            for more in (0, 1):
                r = Run('rooms')
                r.do('hold_funding', 1, some(*held))
                r.do('hold_for_watchtower', some(E, F), 0)
                now = WATCHTOWER_HOLD_MS if more else 7
                for by in bys:
                    r.unavailable(some(*picks), some(D), now, by)
                for by in bys[:3]:
                    r.lock_held(now, by)
                    r.take(2, some(*picks), some(D), now, (by, 0))
                    r.take(None, some(*picks), some(D), now, (0, by))
                    r.take(None if more else 3, some(*picks), some(D), now, (by, by))
                r.take(None if more else 3, some(*picks), some(D), now, (more, 36 * more))
                for by in bys[3:]:
                    r.lock_held(now, by)
                yield r
    for n in range(5):  # a buffer under 4 bytes is too short for the empty list too
        r = Run('rooms')
        r.do('lock_held', 0, n)
        r.do('unavailable', some(A), NONE, 0, n)
        r.do('take', 1, NONE, NONE, 0, n, 4)
        r.do('take', None, NONE, NONE, 0, 4, n)
        r.do('take', None, NONE, NONE, 0, n, n)
        yield r


NOW = 5_000_000


def hold_base(r, shape, n):
    """A table of n records; from POOL at most the first n, by one holder or several, by the watchtower, ended at NOW or not."""
    live, over = NOW - 1000, NOW - WATCHTOWER_HOLD_MS
    if shape == 0:
        r.do('hold_funding', 1, pool(0, n))
    elif shape == 1:
        r.do('hold_funding', 1, pool(0, n // 2))
        r.do('hold_funding', TOP, pool(n // 2, n - 1))
        r.do('hold_funding', 0, pool(0, 1))
    elif shape == 2:
        r.do('hold_for_watchtower', pool(0, n), live)
    elif shape == 3:
        r.do('hold_for_watchtower', pool(0, n), over)
    elif shape == 4:
        r.do('hold_for_watchtower', pool(0, 20), over)
        r.do('hold_funding', 1, pool(20, n - 10))
        r.do('hold_for_watchtower', pool(n - 10, n), live)
    else:
        r.do('hold_funding', 1, pool(0, 10))
        r.do('hold_for_watchtower', pool(10, n - 40), live)
        r.do('hold_for_watchtower', pool(n - 40, n - 10), over)
        r.do('hold_funding', 2, pool(n - 10, n))
    assert len(r.table) == n


def hold_bounds(rng):
    fresh = 500  # places of the pool that no base has
    for shape in range(6):
        for base in (250, 254, 255, 256):
            for want in (255, 256, 257, 258):
                for kind in range(7):
                    r = Run('bounds')
                    hold_base(r, shape, base)
                    gone = sum(model.ended(x, NOW) for x in r.table)
                    mine = sum(model.of_holder(x, 1) for x in r.table)
                    watched = [x[2] for x in r.table if x[0] != FUNDING]
                    more = want - base
                    if kind == 0 and 0 <= more:
                        r.do('hold_funding', 5, pool(fresh, fresh + more))
                    elif kind == 1 and mine:
                        r.do('hold_funding', 1, pool(fresh, fresh + mine + more))
                    elif kind == 2 and 0 <= more:
                        named = watched[-3:] + POOL[fresh:fresh + more] + POOL[fresh:fresh + 1] * (more > 0)
                        r.do('hold_for_watchtower', write_points(rng.mixed(named)), NOW)
                    elif kind == 3 and 0 <= more + gone:
                        r.take(5, pool(fresh, fresh + more + gone), NONE, NOW)
                    elif kind == 4 and 0 <= more + gone:
                        r.take(None, pool(fresh, fresh + more + gone), NONE, NOW)
                    elif kind == 5 and 0 <= more + gone < 60:
                        # more picks than there is room for, of which some are held, spent or repeated
                        spent = POOL[700:703]
                        held = [x[2] for x in model.dropped(r.table, NOW)][:4]
                        picks = rng.mixed(POOL[fresh:fresh + more + gone] + held + spent) + POOL[fresh:fresh + more + gone][:2]
                        r.take(rng.pick([None, 1, 5]), write_points(picks), write_points(spent), NOW)
                    elif kind == 6 and 0 <= more + gone < 60:
                        picks = pool(fresh, fresh + more + gone)
                        who = rng.pick([None, 1, 5])
                        r.take(who, picks, NONE, NOW, (-1, 0))
                        r.take(who, picks, NONE, NOW, (0, -1))
                        r.take(who, picks[:-1], NONE, NOW, (0, -1))
                        r.take(who, picks, NONE, NOW, (0, 0))
                    else:
                        continue
                    if rng.once_in(2):
                        r.unavailable(pool(fresh - 2, fresh + 5), NONE, NOW)
                    if rng.once_in(2):
                        r.lock_held(NOW, rng.pick([-36, -1, 0, 1]))
                    yield r


def large_holds():
    """Lists that are longer than the table."""
    for n in (256, 257, 300, 512):
        for m in (0, 255, 256):
            r = Run('long lists')
            r.do('hold_funding', 1, pool(0, m))
            r.take(2, pool(0, n), NONE, 0)
            r.take(None, pool(m, n), NONE, 0)
            r.do('hold_funding', 1, NONE)
            r.do('hold_for_watchtower', write_points(POOL[:m] + POOL[:m]), 1)
            r.do('hold_for_watchtower', pool(0, n), 1)
            r.do('release_for_watchtower', pool(0, n))
            r.take(None, pool(0, n), pool(m // 2, n), 0)
            r.do('hold_funding', 2, pool(0, n))
            r.unavailable(pool(0, n), pool(n // 2, n), 0)
            r.lock_held(0)
            r.do('hold_funding', 1, write_points([A] * n))
            r.do('hold_funding', 1, NONE)
            yield r


def near_holds():
    """Out points that differ in one byte."""
    for n, x in enumerate(near(A)):
        r = Run('near')
        r.do('hold_for_watchtower', some(A), 0)
        r.unavailable(some(x, A), NONE, 1)
        r.unavailable(some(A), some(x), WATCHTOWER_HOLD_MS)
        r.do('release_for_watchtower', some(x))
        r.do('hold_for_watchtower', some(x), 5)
        r.do('release_for_watchtower', some(A))
        r.take(None if n % 2 else 1, some(x, A, x, A), NONE, 7)
        r.do('hold_funding', 1, some(A))
        r.take(1, some(x, B), some(A), TOP - 1)
        r.lock_held(TOP - 1)
        yield r
    for a in HOLDERS:
        for b in HOLDERS + [a ^ 1 << k for k in (8, 31, 33, 63)]:
            r = Run('near')
            r.do('hold_funding', a, some(A, B))
            r.take(b, some(B, C), NONE, 9)
            r.do('hold_funding', b, some(D))
            r.do('hold_funding', a, NONE)
            r.lock_held(9)
            yield r


def random_list(rng, cells, most):
    out = []
    for _ in range(rng.below(most + 1)):
        out.append(rng.pick(cells))
    return out


def random_holds(rng, count):
    for _ in range(count):
        r, cells = Run('random'), [POOL[rng.below(1100)] for _ in range(2 + rng.below(7))]
        now = rng.pick([0, 1000, 2 ** 32 - 5, 2 ** 40, TOP - 2_000_000, TOP - 1_800_000, TOP - 60_000])
        for _ in range(4 + rng.below(10)):
            ends = [x[1] for x in r.table if x[0] != FUNDING]
            if ends and rng.below(3) == 0:
                now = min(TOP, max(0, rng.pick(ends) + rng.below(3) - 1))
            else:
                now = min(TOP, now + rng.pick([0, 0, 1, 59_999, 60_000, 1_740_000]))
            holder = rng.pick([None, None, 1, 1, 2, TOP])
            kind, by = rng.below(14), rng.pick([0] * 8 + [1, -1])
            if kind < 2:
                r.do('hold_funding', holder or 0, write_points(random_list(rng, cells, 4)))
            elif kind < 4:
                r.do('hold_for_watchtower', write_points(random_list(rng, cells, 4)), now)
            elif kind < 9:
                r.take(holder, write_points(random_list(rng, cells, 6)), write_points(random_list(rng, cells, 2)), now, (by, rng.pick([by, 0])))
            elif kind < 10:
                r.do('release_for_watchtower', write_points(random_list(rng, cells, 3)))
            elif kind < 12:
                r.unavailable(write_points(random_list(rng, cells, 6)), write_points(random_list(rng, cells, 2)), now, by)
            else:
                r.lock_held(now, by)
        yield r


def hold_runs():
    rng = Rng(SEED)
    for family in (known_holds(), hold_times(), damaged_holds(rng), hold_rooms(), near_holds(), large_holds(), hold_bounds(rng),
                   random_holds(rng, 900)):
        yield from family


# ---- exclusions


def tx_hash(tx):
    """CKB's hash of a transaction, which leaves its witnesses out. Of bytes that are no transaction: some hash."""
    if model.reads(model.Transaction, tx):
        tx = tx[int.from_bytes(tx[4:8], 'little'):int.from_bytes(tx[8:12], 'little')]
    return hashlib.blake2b(tx, digest_size=32, person=b'ckb-default-hash').digest()


def spending(points, version=0, since=0, witnesses=(), headers=()):
    inputs = [since.to_bytes(8, 'little') + p for p in points]
    return Tx(version=version, inputs=inputs, headers=headers, witnesses=witnesses).write()


EMPTY = Tx().write()
T1, T2, T3 = spending([A]), spending([B, C, B], 1), spending([A, D], 2, since=5)
UNKNOWN = digest('unknown')
assert len(EMPTY) == 68


def adding(r, tx):
    return r.do('add', tx_hash(tx), tx)


def migrating(r, old, tx):
    return r.do('migrate_funding_tx', old, tx_hash(tx), tx)


def bad_txs():
    """Bytes that are no transaction."""
    yield b'\0'
    yield bytes(68)
    yield EMPTY[:-1]
    yield EMPTY + b'\0'
    yield T1[:-1]
    yield T1 + b'\0'
    yield T2[4:]
    yield T1[:20]
    yield u32(4)
    x = bytearray(T2)
    x[0] += 1
    yield bytes(x)
    at = T2.index(u32(3) + bytes(8) + B)
    yield T2[:at] + u32(4) + T2[at + 4:]
    yield T2[:at] + u32(2) + T2[at + 4:]
    yield T2[:at] + u32(3 + 2 ** 30) + T2[at + 4:]


def known_exclusions():
    for tip, kept in ((99, 1), (112, 1), (113, 0)):
        r = Run('known')
        adding(r, T1)
        r.do('commit', tx_hash(T1), 100)
        assert len(r.do('truncate', tip).after) == kept
        r.apply()
        yield r
    r = Run('known')
    adding(r, EMPTY)
    assert len(r.table) == 1
    r.do('add', tx_hash(b''), b'')
    r.do('add', tx_hash(EMPTY), b'')
    assert len(r.table) == 1
    r.apply()
    yield r
    # onto itself it goes last; onto another that one is replaced in its place; to none it is removed
    for n, order in (((0, 0), (1, 2, 0)), ((0, 1), (1, 2)), ((0, 2), (1, 2)), ((2, 0), (0, 1)), ((2, 2), (0, 1, 2)), ((1, 3), (0, 2, 3)),
                     ((1, None), (0, 2))):
        r, all_of = Run('known'), (T1, T2, T3, EMPTY)
        for t in all_of[:3]:
            adding(r, t)
            r.do('commit', tx_hash(t), 7)
        s = migrating(r, tx_hash(all_of[n[0]]), b'' if n[1] is None else all_of[n[1]])
        assert [e[0] for e in s.after] == [tx_hash(all_of[i]) for i in order]
        r.apply()
        r.do('truncate', 20)
        assert len(r.table) == (0 if n[1] is None else 1)
        yield r
    r = Run('known')
    adding(r, T1)
    assert r.do('migrate_funding_tx', UNKNOWN, tx_hash(T2), T2[:-1]).number == 1
    assert r.do('migrate_funding_tx', UNKNOWN, tx_hash(T2), T2).after == r.table
    yield r


def blocks():
    for c in (0, 1, 12, 13, 100, 2 ** 32 - 13, 2 ** 63, TOP - 26, TOP - 14, TOP - 13, TOP - 12, TOP - 1, TOP):
        for tip in sorted({c - 1, c, c + 1, c + 11, c + 12, c + 13, c + 14, 0, TOP - 1, TOP}):
            if not 0 <= tip <= TOP:
                continue
            for shape in range(2):
                r = Run('blocks')
                for t in (T1, T2, T3)[:1 + 2 * shape]:
                    adding(r, t)
                r.do('commit', tx_hash(T1), c)
                if shape:
                    r.do('commit', tx_hash(T3), min(TOP, c + 1))
                r.do('truncate', tip)
                r.apply()
                yield r


def damaged_exclusions():
    hashes = [b'', b'\0', tx_hash(T1)[:31], tx_hash(T1) + b'\0', bytes(64), bytes(36)]

    def begun():
        r = Run('unreadable')
        adding(r, T1)
        adding(r, T2)
        r.do('commit', tx_hash(T2), 50)
        return r

    for bad in bad_txs():
        for h in (tx_hash(T1), UNKNOWN, hashes[2]):
            r = begun()
            assert r.do('add', h, bad).number == 1
            assert r.do('migrate_funding_tx', tx_hash(T1), h, bad).number == 1
            assert r.do('migrate_funding_tx', h, tx_hash(T1), bad).number == 1
            assert r.do('migrate_funding_tx', UNKNOWN, h, bad).number == 1
            r.apply()
            yield r
    for h in hashes:
        for t in (T1, T3, EMPTY, b''):
            r = begun()
            assert r.do('add', h, t).number == 3
            assert r.do('migrate_funding_tx', h, tx_hash(t), t).number == 3
            assert r.do('migrate_funding_tx', tx_hash(T1), h, t).number == 3
            assert r.do('migrate_funding_tx', UNKNOWN, h, t).number == 3
            assert r.do('migrate_funding_tx', h, h, t).number == 3
            assert r.do('commit', h, 9).number == 3
            assert r.do('remove', h).number == 3
            r.apply()
            yield r


def exclusion_rooms():
    for n in range(7):
        r = Run('rooms')
        for t in (EMPTY, T1, T2, T3, spending([E], 5), spending([A, A], 6))[:n]:
            adding(r, t)
        for by in (-1000, -36, -5, -1, 0, 1, 36):
            r.apply(by)
        yield r
        for by in (-36, -1, 0, 1):
            r = Run('rooms')
            adding(r, T2)
            adding(r, spending(POOL[:n]))
            r.apply(by)
            adding(r, T1)
            r.apply(by)
            yield r
    for n in range(5):
        r = Run('rooms')
        r.do('apply', n)
        adding(r, EMPTY)
        r.do('apply', n)
        yield r


def numbered(n):
    """A transaction without out points."""
    return Tx(version=n).write()


def all_calls(r, rng, more, other):
    """Calls at the bounds, from a table that one entry more would bring to them or over; `more` and `other` are transactions not entered."""
    hashes = [e[0] for e in r.table]
    for _ in range(7):
        kind, h = rng.below(9), rng.pick(hashes)
        if kind < 2:
            adding(r, more)
        elif kind == 2:
            migrating(r, h, more)
        elif kind == 3:
            migrating(r, h, other)
        elif kind == 4:
            migrating(r, UNKNOWN, other)
        elif kind == 5:
            r.do('commit', h, 10)
            r.do('add', rng.pick([h, UNKNOWN]), b'')
        elif kind == 6:
            r.do('remove', h)
        elif kind == 7:
            adding(r, other)
        else:
            r.apply(rng.pick([0, -1]))
    r.do('truncate', rng.pick([22, 23]))


def transaction_bounds(rng):
    for n in (62, 63, 64):
        for last in range(10):
            r = Run('64 transactions')
            for i in range(n):
                s = adding(r, numbered(i) if i % 8 else spending([POOL[i]], i))
                assert s.number == 0
            first, middle, end = (r.table[i][0] for i in (0, n // 2, n - 1))
            if last == 0:  # one more, two more, three more
                for i in range(3):
                    s = adding(r, numbered(100 + i))
                    assert s.number == (15 if n + i >= 64 else 0)
            elif last == 1:  # entered again: uncommitted, in its place
                r.do('commit', middle, 9)
                adding(r, numbered(1))
                adding(r, numbered(200))
                adding(r, numbered(n // 2) if n // 2 % 8 else spending([POOL[n // 2]], n // 2))
                adding(r, numbered(201))
            elif last == 2:  # migrations: onto itself, another, a new one
                migrating(r, first, spending([POOL[0]], 0))
                migrating(r, middle, numbered(300))
                migrating(r, tx_hash(numbered(300)), numbered(301))
                migrating(r, end, numbered(1))
                adding(r, numbered(302))
                adding(r, numbered(303))
                adding(r, numbered(304))
            elif last == 3:  # dropped, then room for one more
                r.do('commit', first, 5)
                r.do('truncate', 17)
                adding(r, numbered(400))
                adding(r, numbered(401))
                adding(r, numbered(402))
                r.do('truncate', 18)
                adding(r, numbered(402))
                adding(r, numbered(403))
            elif last == 4:  # no transaction, the empty one
                r.do('add', UNKNOWN, b'')
                adding(r, EMPTY)
                adding(r, spending([POOL[900]], 900))
                adding(r, spending([POOL[901]], 901))
                adding(r, spending([POOL[902]], 902))
                r.do('remove', end)
                adding(r, spending([POOL[902]], 902))
            elif last == 5:  # 1 and 3 before 15
                for i in range(2):
                    adding(r, numbered(500 + i))
                r.do('add', UNKNOWN[:31], numbered(502))
                r.do('add', UNKNOWN, T1[:-1])
                adding(r, numbered(502))
                r.apply()
            else:
                all_calls(r, rng, numbered(600), spending(POOL[800:802], 601))
            yield r


def point_bounds(rng):
    for total in (510, 511, 512):
        for sizes in ([total], [256, total - 256], [64] * 7 + [total - 448], [total - 3, 0, 3]):
            for last in range(9):
                r, at, first = Run('512 out points'), 0, None
                for i, n in enumerate(sizes):
                    t = spending(POOL[at:at + n], i)
                    s = adding(r, t)
                    assert s.number == 0
                    at += n
                    first = first or t
                whole, n = sizes[0], len(sizes)
                if last < 3:
                    s = adding(r, spending(POOL[700:700 + last + 1], 50))
                    assert s.number == (15 if total + last + 1 > 512 else 0)
                    adding(r, spending(POOL[700:701], 51))
                    adding(r, numbered(52))
                    r.apply(-1 if last else 0)
                elif last == 3:  # the first again, and with other witnesses; then one more of the same out points
                    r.do('commit', tx_hash(first), 3)
                    adding(r, first)
                    adding(r, spending(POOL[:whole], 0, witnesses=[b'x']))
                    adding(r, spending(POOL[:1], 53))
                    adding(r, spending(POOL[1:2], 54))
                    adding(r, spending(POOL[2:3], 55))
                elif last == 4:  # migrations with as many, one more, two more, three more
                    for more in (3, 2, 1, 0):
                        migrating(r, r.table[0][0], spending(POOL[600:600 + whole + more], 60 + more))
                elif last == 5:  # onto another entry, whose out points go too
                    if n > 1:
                        migrating(r, r.table[0][0], spending(POOL[at - sizes[-1]:at], n - 1))
                        adding(r, spending(POOL[600:600 + 512 - len(model.points_of(r.table))], 70))
                        adding(r, spending(POOL[:1], 71))
                    else:
                        migrating(r, UNKNOWN, spending(POOL[600:1112], 72))
                        migrating(r, r.table[0][0], spending(POOL[600:1113], 73))
                        migrating(r, r.table[0][0], spending(POOL[600:1112], 72))
                elif last == 6:  # under one hash: more, as many, fewer
                    h = r.table[0][0]
                    for more in (3, 2, 1, 0, -1):
                        if whole + more >= 0:
                            r.do('add', h, spending(POOL[600:600 + whole + more], 80))
                    r.do('migrate_funding_tx', h, r.table[-1][0], spending(POOL[600:603], 81))
                    r.apply()
                elif last == 7:  # one transaction of 511, 512, 513 beside it, and alone
                    t = spending(POOL[:total + 1], 90)
                    adding(r, t)
                    for e in list(r.table):
                        r.do('remove', e[0])
                    adding(r, t)
                    r.apply(0)
                else:
                    all_calls(r, rng, spending(POOL[700:702], 91), spending(POOL[702:703], 92))
                yield r


def both_bounds():
    """64 transactions with 512 out points."""
    for n in (63, 64):
        r = Run('both')
        for i in range(n - 4):
            adding(r, numbered(i))
        for i in range(4):
            adding(r, spending(POOL[128 * i:128 * i + 128], n + i))
        adding(r, numbered(100))
        adding(r, spending(POOL[608:609], 101))
        migrating(r, r.table[-2][0], spending(POOL[600:729], 102))
        migrating(r, r.table[-2][0], spending(POOL[600:728], 103))
        r.do('remove', r.table[0][0])
        adding(r, spending(POOL[700:701], 104))
        adding(r, numbered(105))
        r.apply(-1)
        yield r


def near_exclusions():
    """Hashes that differ in one byte."""
    a, b = tx_hash(T1), tx_hash(T2)
    for n, x in enumerate(near(a)):
        r = Run('near')
        adding(r, T1)
        adding(r, T2)
        r.do('commit', x, 100)
        r.do('remove', x)
        r.do('migrate_funding_tx', x, tx_hash(T3), T3)
        r.do('commit', a, 3)
        r.do('truncate', 15)
        r.do('add', x, T3)
        r.do('commit', x, 4)
        r.do('truncate', 16)
        r.do('migrate_funding_tx', b, x, T1 if n % 2 else b'')
        r.apply()
        yield r


def random_exclusions(rng, count):
    for _ in range(count):
        r, txs = Run('random'), []
        for i in range(2 + rng.below(5)):
            cells = random_list(rng, POOL[:8], 4)
            txs.append(spending(cells, rng.below(3), rng.below(2), [b'w'] * rng.below(2), [digest(rng.below(3))] * rng.below(2)))
        txs += [EMPTY, b'']
        free, block = rng.once_in(4), rng.pick([0, 5, 100, TOP - 40, TOP - 13])
        for _ in range(4 + rng.below(10)):
            block = min(TOP, block + rng.pick([0, 0, 1, 12, 13]))
            t, u = rng.pick(txs), rng.pick(txs)
            h, g = tx_hash(t), tx_hash(u)
            if r.table and rng.once_in(2):
                g = rng.pick(r.table)[0]
            if free and rng.once_in(3):
                h = rng.pick([g, UNKNOWN, h])
            kind = rng.below(16)
            if kind < 5:
                r.do('add', h, t)
            elif kind < 8:
                r.do('commit', g, block)
            elif kind < 9:
                r.do('remove', g)
            elif kind < 12:
                r.do('migrate_funding_tx', g, h, t)
            elif kind < 14:
                known = [e[1] for e in r.table if e[1] is not None]
                r.do('truncate', min(TOP, max(0, rng.pick(known) + rng.pick([-1, 11, 12, 13, 14]))) if known else block)
            else:
                r.apply(rng.pick([0] * 4 + [-1, 1]))
        yield r


def exclusion_runs():
    rng = Rng(SEED + 1)
    for family in (known_exclusions(), blocks(), damaged_exclusions(), exclusion_rooms(), near_exclusions(), point_bounds(rng),
                   transaction_bounds(rng), both_bounds(), random_exclusions(rng, 1000)):
        yield from family
