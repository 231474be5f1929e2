"""The tables of cells as docs/RULES.md rules them ("Holds and exclusions"), written a second time and sharing nothing with the library. A table is a list
of records in order, each call a function from a table and the lent bytes to the table after it and the lists it writes, and a refusal (by its
number) leaves the table as it was. tools/recorded_tables.py makes its calls with it, and stops where it and the Rust say different things."""
from molecule_vectors import Transaction, fixvec, reads, u32
from update_model import items_of, read_tx

TOP = 2 ** 64 - 1
WATCHTOWER_HOLD_MS = 1_800_000
WATCHTOWER_PICK_HOLD_MS = 60_000
HOLDS = 256
KEEP_BLOCK_PERIOD = 13
TRANSACTIONS = 64
OUT_POINTS = 512


class Refused(Exception):
    """A refusal, by its number."""


def require(n, condition):
    if not condition:
        raise Refused(n)


def answer(call, table, *args):
    """The number, the table after the call, and the lists it writes."""
    try:
        left, *written = call(table, *args)
    except Refused as refused:
        return refused.args[0], table, []
    return 0, left, written


# ---- lists of out points


def read_points(s):
    require(3, reads(fixvec(36), s))
    return items_of(s, 36)


def write_points(points):
    return u32(len(points)) + b''.join(points)


def written(points, room):
    """The list's bytes, which have to fit the lent buffer and 133,116 bytes."""
    s = write_points(points)
    require(13, len(s) <= min(room, 133_116))
    return s


# ---- holds: records (FUNDING, holder, out point) and (WATCHTOWER, end, out point)

FUNDING, WATCHTOWER = 0, 1


def of_holder(record, holder):
    return record[:2] == (FUNDING, holder)


def ended(record, now):
    return record[0] == WATCHTOWER and record[1] <= now


def dropped(table, now):
    """Without the watchtower records whose end is not above now."""
    return [r for r in table if not ended(r, now)]


def held(table, cell):
    return any(r[2] == cell for r in table)


def fits(table):
    require(14, len(table) <= HOLDS)
    return table


def hold_funding(table, holder, cells):
    cells = read_points(cells)
    others = [r for r in table if not of_holder(r, holder)]
    return [fits(others + [(FUNDING, holder, c) for c in cells])]


def hold_for_watchtower(table, cells, now):
    end, left = min(now + WATCHTOWER_HOLD_MS, TOP), list(table)
    for c in read_points(cells):
        places = [i for i, r in enumerate(left) if r[0] == WATCHTOWER and r[2] == c]
        for i in places:
            left[i] = (WATCHTOWER, end, c)
        if not places:
            left.append((WATCHTOWER, end, c))
    return [fits(left)]


def take(table, holder, picks, spent, now, room_taken, room_refused):
    """For a holder, or for the watchtower if that is None."""
    picks, spent, left = read_points(picks), read_points(spent), dropped(table, now)
    busy, taken, refused = list(left), [], []
    for c in picks:
        if held(busy, c) or c in spent or c in taken:
            refused.append(c)
            continue
        taken.append(c)
        left.append((WATCHTOWER, min(now + WATCHTOWER_PICK_HOLD_MS, TOP), c) if holder is None else (FUNDING, holder, c))
    taken, refused = written(taken, room_taken), written(refused, room_refused)
    return [fits(left), taken, refused]


def release_for_watchtower(table, cells):
    cells = read_points(cells)
    return [[r for r in table if not (r[0] == WATCHTOWER and r[2] in cells)]]


def unavailable(table, picks, spent, now, room):
    picks, spent, named = read_points(picks), read_points(spent), []
    for c in picks:
        if c not in named and (c in spent or held(dropped(table, now), c)):
            named.append(c)
    return [table, written(named, room)]


def lock_held(table, now, room):
    left = dropped(table, now)
    return [left, written([r[2] for r in left], room)]


# ---- exclusions: entries (hash, block of its commitment or None, out points)


def is_hash(s):
    require(3, len(s) == 32)


def read_ours(s):
    """The out points that a transaction spends; None of none."""
    if not s:
        return None
    require(1, reads(Transaction, s))
    return [i[8:] for i in read_tx(s).inputs]


def place_of(table, h):
    return next((i for i, e in enumerate(table) if e[0] == h), None)


def without(table, h):
    return [e for e in table if e[0] != h]


def entered(table, h, points):
    """With an entry, in the place of the one it replaces or last."""
    left, i = list(table), place_of(table, h)
    if i is None:
        left.append((h, None, points))
    else:
        left[i] = (h, None, points)
    return left


def points_of(table):
    return [p for e in table for p in e[2]]


def in_bounds(table):
    require(15, len(table) <= TRANSACTIONS and len(points_of(table)) <= OUT_POINTS)
    return table


def add(table, h, tx):
    points = read_ours(tx)
    is_hash(h)
    return [table if points is None else in_bounds(entered(table, h, points))]


def commit(table, h, block):
    is_hash(h)
    return [[(e[0], block, e[2]) if e[0] == h else e for e in table]]


def remove(table, h):
    is_hash(h)
    return [without(table, h)]


def migrate_funding_tx(table, old, new, tx):
    points = read_ours(tx)
    is_hash(old)
    is_hash(new)
    if place_of(table, old) is None:
        return [table]
    left = without(table, old)
    return [left if points is None else in_bounds(entered(left, new, points))]


def truncate(table, tip):
    return [[e for e in table if e[1] is None or tip < e[1] + KEEP_BLOCK_PERIOD]]


def apply(table, room):
    return [table, written(points_of(table), room)]
