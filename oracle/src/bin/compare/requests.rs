//! Requests of our own side: which are made, and the kinds of calls with them.
use crate::kind::{all_of, Digits, Kind};
use crate::parts::{bytes, damaged, dep, input, list, point, script, sized_list, Output, Tx};
use crate::random::Rng;
use crate::report::Outcome;
use crate::request::Input;
use crate::updates::{channel, in_force, read_amount};
use oracle::original::request::Answer;
use oracle::standins::molecule::{readable, TRANSACTION};

/// Of a figure the half that overflows with it, or about that.
fn beside(rng: &mut Rng, n: u64) -> u64 {
    match rng.below(4) {
        0 => u64::MAX - n,
        1 => (u64::MAX - n).saturating_add(1),
        _ => rng.shannons(),
    }
}

fn any_request(rng: &mut Rng) -> Input {
    let mut c = channel(rng);
    if c.udt.is_empty() && rng.once_in(2) {
        c.udt = script(2, 1, &[5; 3]);
    }
    let typed = !c.udt.is_empty();
    let mut ours = in_force(rng, &c);
    if let Some(t) = ours.as_mut() {
        match rng.below(12) {
            0 => t.data.truncate(1),
            1 => t.deps.extend(t.deps.clone()),
            2 => t.data.push(vec![1]),
            3 => {
                t.outputs.pop();
            }
            _ => {}
        }
    }
    // cells, and an amount about as large as their sum or that of some
    let cells: Vec<(u32, Vec<u8>)> = (0..rng.below(5))
        .map(|i| {
            let mut data = rng.tokens().to_le_bytes().to_vec();
            match rng.below(12) {
                0 => data.truncate(rng.pick(&[0, 15])),
                1 => data.extend([1, 2, 3]),
                _ => {}
            }
            (if rng.once_in(10) { 7 } else { i as u32 }, data)
        })
        .collect();
    let upto = rng.between(0, cells.len());
    let sum = cells.iter().take(upto).map(|(_, d)| read_amount(d).unwrap_or(0)).fold(0u128, u128::saturating_add);
    let local = match rng.below(8) {
        0 => rng.tokens(),
        1 => sum.saturating_add(1),
        2 => sum / 2,
        3 => 0,
        4 => rng.shannons() as u128,
        5 => sum,
        _ => sum.saturating_sub(1),
    };
    let local = if typed || rng.once_in(20) { local } else { rng.shannons() as u128 };
    let local_reserved = if typed { rng.shannons() } else { beside(rng, local as u64) };
    let remote = match rng.below(5) {
        0 => u128::MAX - local,
        1 => (u128::MAX - local).saturating_add(1),
        2 => rng.tokens(),
        _ => rng.shannons() as u128,
    };
    let remote_reserved = beside(rng, local_reserved);
    let cells: Vec<_> = cells.iter().map(|(n, d)| list(&[point(*n).to_vec(), bytes(d)])).collect();
    let mut some_deps = |most: usize| sized_list(&(0..rng.below(most + 1)).map(|_| dep(rng.below(6) as u8, 0)).collect::<Vec<_>>());
    let (udt_deps, extra_deps) = (some_deps(3), some_deps(3));
    let lock_dep = dep(rng.below(6) as u8, 0).to_vec();
    let mut r = Input {
        ours: ours.as_ref().map_or(vec![], Tx::write),
        lock: c.lock,
        udt: c.udt,
        source: c.source,
        cells: list(&cells),
        udt_deps: if rng.once_in(10) { vec![] } else { udt_deps },
        lock_dep: if rng.once_in(10) { vec![] } else { lock_dep },
        extra_deps,
        local,
        local_reserved,
        remote,
        remote_reserved,
        room: 200_000,
        at_once: rng.between(1, 3),
        external: rng.once_in(8),
    };
    if rng.once_in(10) {
        let field = match rng.below(8) {
            0 => &mut r.ours,
            1 => &mut r.lock,
            2 => &mut r.udt,
            3 => &mut r.source,
            4 => &mut r.cells,
            5 => &mut r.udt_deps,
            6 => &mut r.lock_dep,
            _ => &mut r.extra_deps,
        };
        *field = damaged(rng, field);
    }
    r
}
/// The room that is needed, or one byte less, or another.
fn room_about(rng: &mut Rng, needed: usize) -> usize {
    rng.pick(&[needed, needed, needed + 5, needed.saturating_sub(1), 0, 1_000, 1_000, 1_000])
}

macro_rules! requests {
    ($name:ident, $text:expr, $share:expr, $function:expr, $make:expr, $call:ident) => {
        pub struct $name;
        impl Kind for $name {
            type Input = Input;
            const NAME: &'static str = $text;
            const FUNCTIONS: &'static [&'static str] = &[$function];
            const SHARE: u64 = $share;
            fn make(rng: &mut Rng, _: u64) -> Input {
                $make(rng)
            }
            fn compare(input: &Input) -> Vec<Outcome> {
                vec![input.$call()]
            }
            fn smaller(input: &Input) -> Vec<Input> {
                input.smaller()
            }
            fn show(input: &Input) -> String {
                input.show()
            }
        }
    };
}
requests!(FundingCell, "funding_cell", 30, "basinpantry_build_funding_cell", any_request, funding_cell);
requests!(
    TokenPick,
    "token_pick",
    30,
    "basinpantry_build_udt_inputs_outputs",
    |rng: &mut Rng| {
        let mut r = any_request(rng);
        // an output has 65 bytes beside its scripts' args
        r.room = room_about(rng, r.source.len() + r.udt.len() + 24);
        r
    },
    pick
);
requests!(
    Base,
    "base",
    50,
    "basinpantry_build_base",
    |rng: &mut Rng| {
        let mut r = any_request(rng);
        if rng.once_in(200) && readable(&TRANSACTION, &r.ours) {
            // about as long as a transaction may be
            let mut t = Tx::read(&r.ours).unwrap();
            t.outputs.resize(t.outputs.len().max(2), Output::new(1, &r.lock, &[]));
            t.data.resize(t.outputs.len(), vec![]);
            if let Answer::Done(base) = (Input { ours: t.write(), ..r.clone() }).request().base() {
                let room = (133_116 + rng.below(2)).saturating_sub(base.as_slice().len());
                t.data[1].extend(vec![0; room]);
                r.ours = t.write();
            }
            return r;
        }
        let needed = match (r.ours_readable() && r.lent_readable()).then(|| r.request().base()) {
            Some(Answer::Done(t)) if rng.once_in(4) => t.as_slice().len(),
            _ => return r,
        };
        r.room = room_about(rng, needed);
        r
    },
    base
);

/// Every base of up to three cells with four kinds of data, four wanted amounts, three present transactions, and deps that are supplied, missing or equal.
pub struct SmallBase;
all_of!(SmallBase, Base, "base_small", 40, 2 * 3 * 4 * 3 * 2 * 3 * (1 + 4 + 16 + 64), |n| {
    let mut of = Digits(n);
    let (lock, source, udt) = (script(1, 0, &[]), script(3, 0, &[]), of.pick(&[vec![], script(2, 0, &[])]));
    let funded = Tx {
        deps: vec![dep(1, 0)],
        inputs: vec![input(9, 0)],
        outputs: vec![Output::new(1, &lock, &udt); 2],
        data: vec![vec![0; 16]],
        ..Tx::default()
    };
    let ours = of.pick(&[vec![], Tx::default().write(), funded.write()]);
    let local = of.pick(&[0, 1, 2, u128::MAX]);
    let one = sized_list(&[dep(2, 0)]);
    let udt_deps = of.pick(&[vec![], sized_list::<[u8; 37]>(&[]), one.clone()]);
    let lock_dep = of.pick(&[vec![], dep(3, 0).to_vec()]);
    let extra_deps = of.pick(&[sized_list::<[u8; 37]>(&[]), one, sized_list(&[dep(3, 0), dep(1, 0)])]);
    // the number that is left, less those of shorter lists
    let (mut rest, mut length) = (of.0, 0);
    while rest >= 1 << (2 * length) {
        rest -= 1 << (2 * length);
        length += 1;
    }
    let mut of = Digits(rest);
    let data = [vec![0; 16], 1u128.to_le_bytes().to_vec(), vec![255; 16], vec![1; 15]];
    let cells: Vec<_> = (0..length).map(|i| list(&[point(i).to_vec(), bytes(&of.pick(&data))])).collect();
    Input { ours, lock, udt, source, cells: list(&cells), udt_deps, lock_dep, extra_deps, local, room: 2_000, at_once: 1, ..Input::default() }
});
