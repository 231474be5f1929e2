"""A request of our own side as docs/RULES.md rules it ("Our own side"), written a second time and sharing nothing with the library: the funding cell, the
token pick and the base transaction, each from the lent bytes, or the number of the refusal. tools/recorded_requests.py makes its answers with it, and
stops where it and the Rust say different things."""
from molecule_vectors import Script, TokenCell, Transaction, array, dynvec, fixvec, number, option, reads, split, u32
from update_model import Tx, amount, items_of, output, read_tx, u64

LONGEST = 133_116  # bytes of a transaction that is written
SHANNONS = 100_000_000  # for a byte that a cell occupies
PLACEHOLDER = u32(85) + u32(16) + u32(85) + u32(85) + u32(65) + bytes(65)


class Refused(Exception):
    """A refusal, by its number."""


def require(n, condition):
    if not condition:
        raise Refused(n)


class Request:
    """What is lent, as bytes: ours may be empty (none), so may the type (untyped), the token's deps and the lock's dep (not supplied). `room` is the length
    of the buffer."""

    def __init__(self, ours=b'', lock=b'', udt=b'', source=b'', local=0, local_reserve=0, remote=0, remote_reserve=0, cells=u32(4), udt_deps=b'',
                 lock_dep=b'', extra=u32(0), room=0):
        self.ours, self.lock, self.udt, self.source = ours, lock, udt, source
        self.local, self.local_reserve, self.remote, self.remote_reserve = local, local_reserve, remote, remote_reserve
        self.cells, self.udt_deps, self.lock_dep, self.extra, self.room = cells, udt_deps, lock_dep, extra, room

    def but(self, **changes):
        new = Request(**vars(self))
        for name, value in changes.items():
            assert name in vars(self), name
            setattr(new, name, value)
        return new


def answer(call, *args):
    """The number, 0 for done, and what is answered."""
    try:
        return 0, call(*args)
    except Refused as refused:
        return refused.args[0], None


# ---- the funding cell: "A figure or sum too wide" is 7


def read_present(ours):
    if not ours:
        return Tx()
    require(1, reads(Transaction, ours))
    return read_tx(ours)


def figures(r, present):
    """Its capacity and its tokens."""
    amounts, reserves = [r.local], [r.local_reserve]
    if present.outputs:
        amounts, reserves = amounts + [r.remote], reserves + [r.remote_reserve]
    if r.udt:
        require(7, sum(amounts) < 2 ** 128 and sum(reserves) < 2 ** 64)
        return sum(reserves), sum(amounts)
    require(7, all(a < 2 ** 64 for a in amounts) and sum(amounts + reserves) < 2 ** 64)
    return sum(amounts + reserves), 0


def funding_cell(r):
    present = read_present(r.ours)
    require(3, reads(option(Script), r.udt))
    return figures(r, present)


# ---- the pick


def picked(r):
    """The out points of the cells that are taken, and what is left of them."""
    if not r.udt or r.local == 0:
        return [], 0
    taken, total = [], 0
    for cell in split(r.cells):
        point, data = split(cell)
        require(12, len(data) - 4 >= 16)
        total += number(data[4:20])
        require(10, total < 2 ** 128)
        taken.append(point)
        if total >= r.local:
            return taken, total - r.local
    raise Refused(9)


def args_of(script):
    return split(script)[2][4:]


def change_output(r):
    return output(SHANNONS * (8 + 33 + len(args_of(r.source)) + 33 + len(args_of(r.udt)) + 16), r.source, r.udt)


def udt_inputs_outputs(r):
    """How many cells are taken, what is left, and the change output or nothing."""
    require(3, reads(dynvec(TokenCell), r.cells) and reads(option(Script), r.udt) and reads(Script, r.source))
    taken, change = picked(r)
    written = change_output(r) if change else b''
    require(13, len(written) <= min(r.room, LONGEST))
    return len(taken), change, written


# ---- the base transaction


def once_each(xs):
    return list(dict.fromkeys(xs))


def data_at(tx, i):
    return tx.data[i] if i < len(tx.data) else b''


def readable_rest(r):
    """Whether every lent script and list can be read."""
    lent = [(Script, r.lock), (option(Script), r.udt), (Script, r.source), (dynvec(TokenCell), r.cells), (option(fixvec(37)), r.udt_deps),
            (option(array(37)), r.lock_dep), (fixvec(37), r.extra)]
    return all(reads(t, s) for t, s in lent)


def base_of_any_length(r):
    """Before the room is looked at."""
    present = read_present(r.ours)
    require(3, readable_rest(r))
    capacity, tokens = figures(r, present)
    taken, change = picked(r)
    require(11, not taken or r.udt_deps and r.lock_dep)
    base = Tx(present.version, headers=present.headers)
    own = items_of(r.udt_deps, 37) + [r.lock_dep] if taken else []
    base.deps = once_each(present.deps + own + items_of(r.extra, 37))
    base.inputs = present.inputs + [u64(0) + p for p in taken]
    base.outputs = [output(capacity, r.lock, r.udt)] + present.outputs[1:]
    base.data = [amount(tokens) if r.udt else b''] + [data_at(present, i) for i in range(1, len(present.outputs))]
    if change:
        base.outputs.append(change_output(r))
        base.data.append(amount(change))
    base.witnesses = [PLACEHOLDER]
    if taken and present.inputs:
        base.witnesses += [b''] * (len(present.inputs) - 1) + [PLACEHOLDER]
    return base.write()


def build_base(r):
    written = base_of_any_length(r)
    require(13, len(written) <= min(r.room, LONGEST))
    return written
