"""The kinds of calls on the tables of cells that a recorded sequence has to have: of each call a list of names and of tests of a step
(tools/table_cases.py)."""
import table_cases as cases
import table_model as model
from molecule_vectors import u32
from table_model import FUNDING, TOP, WATCHTOWER, WATCHTOWER_HOLD_MS, WATCHTOWER_PICK_HOLD_MS, dropped, held, of_holder, points_of, read_points



def cells_of(s, i):
    try:
        return read_points(s.args[i])
    except model.Refused:
        return []


def readable(s, i):
    return model.reads(model.fixvec(36), s.args[i])


def changed(s):
    return s.after != s.before


def leaves(n):
    return lambda s: s.number == 0 and len(s.after) == n and len(s.before) <= n


def would_leave(n):
    """Refused, and it would have left so many."""
    def found(s):
        if s.number != 14:
            return False
        kept, model.HOLDS = model.HOLDS, 10 ** 9
        left = model.answer(getattr(model, s.name), s.before, *s.args)[1]
        model.HOLDS = kept
        return len(left) == n
    return found


def refused(n, *conditions):
    return lambda s: s.number == n and all(c(s) for c in conditions)


def done(*conditions):
    return lambda s: s.number == 0 and all(c(s) for c in conditions)


def repeats(i):
    return lambda s: len(set(cells_of(s, i))) < len(cells_of(s, i))


def empty(i):
    return lambda s: s.args[i] == u32(0)


def has_ended(now):
    return lambda s: any(model.ended(r, s.args[now]) for r in s.before)


def rooms_are(by):
    """Each lent buffer is longer than its list by so much; or the one at fault is shorter by so much."""
    return lambda s: s.number == 0 and tuple(room - len(w) for room, w in zip(s.rooms(), s.written)) == by


def capped(now, hold, more):
    return lambda s: s.number == 0 and changed(s) and s.args[now] + hold == TOP + more


def unbounded(s, full=10 ** 9):
    """The call with boundless tables and buffers."""
    args = s.args[:len(s.args) - len(s.rooms())] + (10 ** 9,) * len(s.rooms())
    kept, model.HOLDS = model.HOLDS, full
    out = model.answer(getattr(model, s.name), s.before, *args)
    model.HOLDS = kept
    return out


def short(*which):
    return lambda s: s.number == 13 and tuple(room < len(w) for room, w in zip(s.rooms(), unbounded(s)[2])) == which


def short_by_one(s):
    return s.number == 13 and any(room == len(w) - 1 for room, w in zip(s.rooms(), unbounded(s)[2]))


def also_too_many(s):
    return len(unbounded(s)[1]) > model.HOLDS


def record_at(i, test):
    """A cell of a lent list has a record like this."""
    return lambda s: any(r[2] in cells_of(s, i) and test(s, r) for r in s.before)


def watched(s, r):
    return r[0] == WATCHTOWER


def funded(s, r):
    return r[0] == FUNDING


def end_less(now, n):
    return lambda s, r: r[0] == WATCHTOWER and r[1] - s.args[now] == n


def pick_is(test):
    return lambda s: s.number == 0 and any(test(s, c) for c in cells_of(s, 1))


def take_kinds(who):
    mine = (lambda s, c: (WATCHTOWER, c) in [(r[0], r[2]) for r in dropped(s.before, s.args[3])]) if who is None else (
        lambda s, c: (FUNDING, s.args[0], c) in s.before)
    others = (lambda s, c: any(r[0] == FUNDING and r[2] == c for r in s.before)) if who is None else (
        lambda s, c: any(r[0] == FUNDING and r[1] != s.args[0] and r[2] == c for r in s.before))
    kinds = [
        ('done, nothing picked', done(empty(1))),
        ('done, nothing picked, ended records dropped', done(empty(1), changed)),
        ('done, all taken', done(lambda s: s.args[1] == s.written[0] and s.args[1] != u32(0))),
        ('done, all refused', done(lambda s: s.args[1] == s.written[1] and s.args[1] != u32(0))),
        ('a pick held by the taker', pick_is(mine)),
        ('a pick held by another holder', pick_is(others)),
        ('a pick spent', pick_is(lambda s, c: c in cells_of(s, 2) and not held(s.before, c))),
        ('a pick spent and held', pick_is(lambda s, c: c in cells_of(s, 2) and held(dropped(s.before, s.args[3]), c))),
        ('a pick taken earlier in the call', done(lambda s: set(read_points(s.written[0])) & set(read_points(s.written[1])))),
        ('a refused pick twice', done(lambda s: len(set(read_points(s.written[1]))) < len(read_points(s.written[1])))),
        ('a spent cell twice', done(repeats(2))),
    ]
    kinds += [('a pick of the watchtower that ends at now%+d' % n, done(record_at(1, end_less(3, n)))) for n in (-1, 0, 1)]
    kinds += [('leaves %d records' % n, leaves(n)) for n in (255, 256)] + [('14: would leave %d' % n, would_leave(n)) for n in (257, 258)]
    kinds += [
        ('passes only for the ended ones', done(lambda s: len(s.before) + len(read_points(s.written[0])) > 256)),
        ('passes though picks and records are over 256', done(lambda s: len(dropped(s.before, s.args[3])) + len(cells_of(s, 1)) > 256)),
        ('14, ended ones stay', refused(14, has_ended(3))),
        ('rooms exact', rooms_are((0, 0))),
        ('rooms longer', done(lambda s: all(r > len(w) for r, w in zip(s.args[4:], s.written)))),
        ('13: taken', short(True, False)),
        ('13: refused', short(False, True)),
        ('13: both', short(True, True)),
        ('13: one byte short', short_by_one),
        ('13 before 14', refused(13, also_too_many)),
        ('13, ended ones stay', refused(13, has_ended(3))),
        ('3: picks', refused(3, lambda s: not readable(s, 1) and readable(s, 2))),
        ('3: spent', refused(3, lambda s: readable(s, 1) and not readable(s, 2))),
        ('3: both', refused(3, lambda s: not readable(s, 1) and not readable(s, 2))),
        ('3 before 13', refused(3, lambda s: min(s.args[4:]) < 4)),
        ('3 at a full table', refused(3, lambda s: len(s.before) == 256)),
    ]
    if who is None:
        kinds += [('now + 60,000 is 2^64 - 1%+d' % n, capped(3, WATCHTOWER_PICK_HOLD_MS, n)) for n in (-1, 0, 1)] + [('now is 2^64 - 1', done(lambda s: s.args[3] == TOP, changed))]
    return kinds


HOLD_KINDS = {
    'hold_funding': [
        ('done, first of the holder', done(lambda s: changed(s) and not any(of_holder(r, s.args[0]) for r in s.before))),
        ('done, replaced', done(lambda s: s.args[1] != u32(0) and any(of_holder(r, s.args[0]) for r in s.before))),
        ('replaced before the end of the table', done(lambda s: s.args[1] != u32(0) and s.before and not of_holder(s.before[-1], s.args[0]) and any(of_holder(r, s.args[0]) for r in s.before))),
        ('nothing, holder known', done(empty(1), changed)),
        ('nothing, holder unknown', done(empty(1), lambda s: not changed(s))),
        ('a cell twice', done(repeats(1))),
        ('a cell of another holder', done(record_at(1, lambda s, r: r[0] == FUNDING and r[1] != s.args[0]))),
        ("a cell of the watchtower's", done(record_at(1, watched))),
        ('holder 0', done(lambda s: s.args[0] == 0)),
        ('holder 2^64 - 1', done(lambda s: s.args[0] == TOP)),
    ] + [('leaves %d records' % n, done(lambda s, n=n: len(s.after) == n)) for n in (255, 256)] + [('14: would leave %d' % n, would_leave(n)) for n in (257, 258)] + [
        ('14 for a known holder', refused(14, lambda s: any(of_holder(r, s.args[0]) for r in s.before))),
        ('3', refused(3)),
        ('3 at a full table', refused(3, lambda s: len(s.before) == 256))],
    'hold_for_watchtower': [
        ('done, new', done(lambda s: len(s.after) > len(s.before))),
        ('nothing named', done(empty(0))),
        ('a cell twice', done(repeats(0))),
        ('renewed, unended', done(record_at(0, lambda s, r: watched(s, r) and r[1] > s.args[1]))),
        ('renewed, ended', done(record_at(0, lambda s, r: watched(s, r) and r[1] <= s.args[1]))),
        ('ended ones stay', done(lambda s: len(dropped(s.after, s.args[1])) < len(s.after))),
        ("a holder's cell", done(record_at(0, funded))),
        ('earlier end than before', done(record_at(0, lambda s, r: watched(s, r) and r[1] > s.args[1] + WATCHTOWER_HOLD_MS))),
    ] + [('leaves %d records' % n, leaves(n)) for n in (255, 256)] + [('14: would leave %d' % n, would_leave(n)) for n in (257, 258)] + [
        ('renewed at a full table', done(lambda s: len(s.before) == 256 and changed(s))),
        ('14 with ended ones', refused(14, has_ended(1))),
        ('3', refused(3)),
        ('3 at a full table', refused(3, lambda s: len(s.before) == 256))] + [
        ('now + 1,800,000 is 2^64 - 1%+d' % n, capped(1, WATCHTOWER_HOLD_MS, n)) for n in (-1, 0, 1)] + [('now is 2^64 - 1', done(lambda s: s.args[1] == TOP, changed))],
    'take for a holder': take_kinds(1),
    'take for the watchtower': take_kinds(None),
    'release_for_watchtower': [
        ('done', done(changed)),
        ('nothing named', done(empty(0))),
        ('unknown', done(lambda s: s.args[0] != u32(0) and not changed(s))),
        ("a holder's cell stays", done(lambda s: any(r[2] in cells_of(s, 0) for r in s.after))),
        ('a cell twice', done(repeats(0), changed)),
        ('from a full table', done(lambda s: len(s.before) == 256 and changed(s))), ('3', refused(3))],
    'unavailable': [
        ('nothing picked', done(empty(0))),
        ('nothing named', done(lambda s: s.args[0] != u32(0) and s.written[0] == u32(0))),
        ('spent', done(lambda s: set(cells_of(s, 0)) & set(cells_of(s, 1)) - {r[2] for r in s.before})),
        ("a holder's", done(record_at(0, funded))),
        ('a named cell twice', done(lambda s: any(cells_of(s, 0).count(c) > 1 for c in read_points(s.written[0])))),
        ('ended ones stay', done(has_ended(2))),
        ('all named of a full table', done(lambda s: len(s.before) == 256 and len(s.written[0]) > 4)),
    ] + [('a cell that ends at now%+d' % n, done(record_at(0, end_less(2, n)))) for n in (-1, 0, 1)] + [
        ('room exact', rooms_are((0,))),
        ('room longer', done(lambda s: s.args[3] > len(s.written[0]))),
        ('13', short(True)),
        ('13: one byte short', short_by_one),
        ('3: picks', refused(3, lambda s: not readable(s, 0) and readable(s, 1))),
        ('3: spent', refused(3, lambda s: readable(s, 0) and not readable(s, 1))),
        ('3 before 13', refused(3, lambda s: s.args[3] < 4))],
    'lock_held': [
        ('empty table', done(lambda s: not s.before)),
        ('dropped', done(changed)),
        ('all dropped', done(lambda s: changed(s) and not s.after)),
        ('nothing dropped', done(lambda s: s.before and not changed(s))),
        ('a cell twice', done(lambda s: len({r[2] for r in s.after}) < len(s.after))),
        ('256 records', done(lambda s: len(s.after) == 256)),
        ('room exact', rooms_are((0,))),
        ('room longer', done(lambda s: s.args[1] > len(s.written[0]))),
        ('13', short(True)),
        ('13: one byte short', short_by_one),
        ('13, ended ones stay', refused(13, has_ended(0))),
    ] + [('a record that ends at now%+d' % n, done(lambda s, n=n: any(end_less(0, n)(s, r) for r in s.before))) for n in (-1, 0, 1)],
}


def entry(s, i=0):
    return next((e for e in s.before if e[0] == s.args[i]), None)


def points(s, tx=1):
    try:
        return model.read_ours(s.args[tx]) or []
    except model.Refused:
        return []


def counts(t):
    return len(t), len(points_of(t))


def left_by(s):
    """The table had there been no bounds."""
    kept = model.TRANSACTIONS, model.OUT_POINTS
    model.TRANSACTIONS = model.OUT_POINTS = 10 ** 9
    out = model.answer(getattr(model, s.name), s.before, *s.args)[1]
    model.TRANSACTIONS, model.OUT_POINTS = kept
    return counts(out)


def transactions(n):
    return lambda s: (s.number == 0 and changed(s) and len(s.after) == n) if n < 65 else s.number == 15 and left_by(s)[0] == n and left_by(s)[1] <= 512


def out_points(n):
    return lambda s: (s.number == 0 and changed(s) and counts(s.after)[1] == n) if n < 513 else s.number == 15 and left_by(s)[1] == n and left_by(s)[0] <= 64


def bounds():
    return [('leaves %d transactions' % n, transactions(n)) for n in (63, 64)] + [('leaves %d out points' % n, out_points(n)) for n in (511, 512)] + [('15: %d out points' % n, out_points(n)) for n in (513, 514)]


def place(t, h):
    return model.place_of(t, h)


def known(s):
    return entry(s) is not None


def truncated(n):
    return lambda s: any(e[1] is not None and e[1] + n == s.args[0] for e in s.before)


EXCLUSION_KINDS = {
    'add': [
        ('new', done(lambda s: s.args[1] and not entry(s))),
        ('again, uncommitted', done(lambda s: s.args[1] and entry(s) and entry(s)[1] is None)),
        ('again, committed', done(lambda s: s.args[1] and entry(s) and entry(s)[1] is not None)),
        ('again, before the end of the table', done(lambda s: s.args[1] and entry(s) and s.before[-1][0] != s.args[0])),
        ('again, with other out points', done(lambda s: s.args[1] and entry(s) and entry(s)[2] != points(s))),
        ('none, unknown', done(lambda s: not s.args[1] and not entry(s))),
        ('none, known', done(lambda s: not s.args[1] and entry(s))),
        ('none, known and committed', done(lambda s: not s.args[1] and entry(s) and entry(s)[1] is not None)),
        ('the 68-byte one', done(lambda s: s.args[1] == cases.EMPTY)),
        ('an out point twice', done(lambda s: len(set(points(s))) < len(points(s)))),
        ("an out point of another entry's", done(lambda s: any(set(points(s)) & set(e[2]) for e in s.before if e[0] != s.args[0]))),
    ] + bounds() + [
        ('15: 65 transactions', transactions(65)),
        ('15: 513 out points in one', refused(15, lambda s: len(points(s)) == 513)),
        ('15 of an entry', refused(15, lambda s: entry(s))),
        ('again at 64 transactions', done(lambda s: len(s.before) == 64 and s.args[1] and changed(s))),
        ('again at 512 out points', done(lambda s: counts(s.before)[1] == 512 and points(s) and entry(s))),
        ('none at 64 transactions', done(lambda s: len(s.before) == 64 and not s.args[1])),
        ('1', refused(1)),
        ('3', refused(3)),
        ('3, none', refused(3, lambda s: not s.args[1])),
        ('1 before 3', refused(1, lambda s: len(s.args[0]) != 32)),
        ('1 at 64 transactions', refused(1, lambda s: len(s.before) == 64)),
        ('3 at 64 transactions', refused(3, lambda s: len(s.before) == 64))],
    'commit': [
        ('first', done(lambda s: known(s) and entry(s)[1] is None)),
        ('again', done(lambda s: known(s) and entry(s)[1] not in (None, s.args[1]))),
        ('unknown', done(lambda s: not known(s))),
        ('at 0', done(lambda s: known(s) and s.args[1] == 0)),
        ('at 2^64 - 1', done(lambda s: known(s) and s.args[1] == TOP)),
        ('3', refused(3))],
    'remove': [('known', done(known)),
        ('before the end of the table', done(lambda s: known(s) and s.before[-1][0] != s.args[0])),
        ('unknown', done(lambda s: not known(s))),
        ('committed', done(lambda s: known(s) and entry(s)[1] is not None)),
        ('from 64 transactions', done(lambda s: known(s) and len(s.before) == 64)),
        ('3', refused(3))],
    'migrate_funding_tx': [
        ('to a new one', done(lambda s: known(s) and s.args[2] and not entry(s, 1))),
        ('onto itself', done(lambda s: known(s) and s.args[2] and s.args[0] == s.args[1])),
        ('onto itself, not last', done(lambda s: known(s) and s.args[2] and s.args[0] == s.args[1] and s.before[-1][0] != s.args[0])),
        ('onto a later one', done(lambda s: known(s) and s.args[2] and entry(s, 1) and place(s.before, s.args[0]) < place(s.before, s.args[1]))),
        ('onto an earlier one', done(lambda s: known(s) and s.args[2] and entry(s, 1) and place(s.before, s.args[0]) > place(s.before, s.args[1]))),
        ('onto a committed one', done(lambda s: known(s) and s.args[2] and entry(s, 1) and s.args[0] != s.args[1] and entry(s, 1)[1] is not None)),
        ('a committed one', done(lambda s: known(s) and s.args[2] and entry(s)[1] is not None)),
        ('to none', done(lambda s: known(s) and not s.args[2])),
        ('to none, by an entered hash', done(lambda s: known(s) and not s.args[2] and s.args[0] != s.args[1] and entry(s, 1))),
        ('to the 68-byte one', done(lambda s: known(s) and s.args[2] == cases.EMPTY)),
        ('unknown', done(lambda s: not known(s) and s.args[2])),
        ('unknown, onto an entered one', done(lambda s: not known(s) and entry(s, 1))),
        ('unknown, none', done(lambda s: not known(s) and not s.args[2])),
        ('unknown, more than there is room for', done(lambda s: not known(s) and (len(s.before) == 64 or counts(s.before)[1] + len(points(s, 2)) > 512)))] + bounds() + [
        ('at 64 transactions', done(lambda s: len(s.before) == 64 and known(s) and len(s.after) == 64)),
        ('from 64 transactions onto another', done(lambda s: len(s.before) == 64 and known(s) and s.args[2] and len(s.after) == 63)),
        ('at 512 out points', done(lambda s: counts(s.before)[1] == 512 and known(s) and counts(s.after)[1] == 512)),
        ('1', refused(1, known)),
        ('1, unknown', refused(1, lambda s: len(s.args[0]) == 32 and not known(s))),
        ('1 before 3', refused(1, lambda s: len(s.args[0]) != 32 or len(s.args[1]) != 32)),
        ('3: old', refused(3, lambda s: len(s.args[0]) != 32 and len(s.args[1]) == 32)),
        ('3: new', refused(3, lambda s: len(s.args[1]) != 32 and known(s))),
        ('3: new, unknown', refused(3, lambda s: len(s.args[1]) != 32 and len(s.args[0]) == 32 and not known(s))),
        ('3: new, none', refused(3, lambda s: len(s.args[1]) != 32 and not s.args[2]))],
    'truncate': [('empty table', done(lambda s: not s.before)),
        ('dropped', done(changed)),
        ('some dropped, some kept', done(lambda s: changed(s) and s.after)),
        ('uncommitted kept', done(lambda s: any(e[1] is None for e in s.before)))] + [
        ('tip is c%+d' % n, truncated(n)) for n in (-1, 0, 1, 11, 12, 13, 14)] + [('tip 0', done(lambda s: s.args[0] == 0)),
        ('tip 2^64 - 1', done(lambda s: s.args[0] == TOP))] + [
        ('c = 2^64 - %d, tip 2^64 - 1' % n, done(lambda s, n=n: s.args[0] == TOP and any(e[1] == 2 ** 64 - n for e in s.before))) for n in (1, 13, 14)],
    'apply': [('empty table', done(lambda s: not s.before)),
        ('entries without out points', done(lambda s: s.before and not points_of(s.before))),
        ('an out point twice', done(lambda s: len(set(points_of(s.before))) < len(points_of(s.before)))),
        ('512 out points', done(lambda s: counts(s.before)[1] == 512)),
              ('room exact', done(lambda s: s.args[0] == len(s.written[0]))),
              ('room longer', done(lambda s: s.args[0] > len(s.written[0]))),
              ('13', refused(13)),
              ('13: one byte short', refused(13, lambda s: s.args[0] == 3 + 36 * counts(s.before)[1])),
              ('13 with 512 out points', refused(13, lambda s: counts(s.before)[1] == 512))],
}
