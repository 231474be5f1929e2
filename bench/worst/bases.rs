//! `build_base` and its parts: cell deps in orders that a sorted list does not like, many token cells, many present inputs.
use super::bytes::*;
use super::clock::{Clock, Row, Size};
use crate::library::{self, Base};
use oracle::original::request::{Answer, Request};
use oracle::standins::molecule::write_table;
use oracle::standins::packed::{CellDep, OutPoint, Transaction};
use std::hint::black_box;

const ENTRY: &str = "build_base";
/// As many distinct deps as fit a base, and how many are lent where they repeat.
const DISTINCT: [usize; 3] = [896, 1_792, 3_584];
const LENT: [usize; 3] = [25_000, 50_000, 100_000];
const ITEMS: [usize; 3] = [700, 1_400, 2_800];

type Dep = [u8; 37];

/// What a base is built from: typed where there are token cells, each an amount.
#[derive(Clone, Default)]
struct Asked {
    ours: Vec<u8>,
    cells: Vec<u128>,
    wanted: u64,
    deps: Vec<Dep>,
}

impl Asked {
    fn list(&self) -> Vec<u8> {
        let cell = |(i, amount): (usize, &u128)| write_table(&[&Hashes::Random.point(i)[..], &counted(&amount.to_le_bytes())]);
        write_table(&self.cells.iter().enumerate().map(cell).collect::<Vec<_>>())
    }
    fn bytes(&self) -> usize {
        self.ours.len() + self.list().len() + 37 * self.deps.len()
    }
    fn here(&self) -> Clock {
        let (asked, cells, deps, one_dep) = (self.clone(), self.list(), fixvec(&self.deps), fixvec(&[[3; 37]]));
        let (lock, token, source) = (lock(0), token(0), source(0));
        let mut out = vec![0; MOST];
        let mut call = move || {
            let udt = if asked.cells.is_empty() { &[] } else { token.as_slice() };
            let (ours, cells, extra_deps) = (&asked.ours[..], &cells[..], &deps[..]);
            let (lock, source, lock_dep) = (lock.as_slice(), source.as_slice(), &one_dep[4..]);
            let base = Base { ours, lock, udt, source, cells, udt_deps: &one_dep, lock_dep, extra_deps, local: asked.wanted, reserved: 7 };
            library::build_base(black_box(&base), &mut out)
        };
        let answer = call();
        assert!(matches!(answer, 0 | 9 | 13), "{answer}");
        Clock::steady(move || assert_eq!(call(), answer))
    }
    /// The original from what was read before.
    fn there(&self) -> Clock {
        let cell = |(i, amount): (usize, &u128)| (OutPoint::read(&Hashes::Random.point(i)).expect("36 bytes"), amount.to_le_bytes().to_vec());
        let dep = |dep: &Dep| CellDep::read(dep).expect("37 bytes");
        let request = Request {
            ours: Transaction::read(&self.ours),
            lock: lock(0),
            udt: (!self.cells.is_empty()).then(|| token(0)),
            source: source(0),
            local: self.wanted.into(),
            local_reserved: 7,
            cells: self.cells.iter().enumerate().map(cell).collect(),
            at_once: 64,
            udt_deps: Some(vec![dep(&[3; 37])]),
            lock_dep: Some(dep(&[3; 37])),
            extra_deps: self.deps.iter().map(dep).collect(),
            ..Request::default()
        };
        Clock::steady(move || assert!(matches!(black_box(request.base_in_any_order()), Answer::Done(_) | Answer::Refused(_))))
    }
}

fn size(n: usize, worst: &Asked, honest: &Asked) -> Size {
    Size::new(n, worst.bytes(), honest.here(), worst.here())
}
fn extra(deps: Vec<Dep>) -> Asked {
    Asked { wanted: 5, deps, ..Asked::default() }
}
fn repeated(deps: &[Dep], n: usize) -> Vec<Dep> {
    deps.iter().cycle().take(n).copied().collect()
}

/// By the bytes: `LastTwo` makes them rise with their number.
const ORDERS: &[(&str, fn(usize) -> Vec<Dep>)] = &[
    ("rising", |n| Hashes::LastTwo.deps(0..n)),
    ("falling", |n| reversed(&Hashes::LastTwo.deps(0..n))),
    ("mixed", |n| shuffled(&Hashes::LastTwo.deps(0..n))),
];

fn dep_rows() -> Vec<Row> {
    let honest = |n| Hashes::Random.deps(0..n);
    let mut rows = vec![];
    for (name, order) in ORDERS {
        rows.push(Row::new(ENTRY, format!("distinct deps, {name}, all but bytes 30, 31 alike"), DISTINCT, |n| {
            let worst = extra(order(n));
            size(n, &worst, &extra(honest(n))).beside(worst.there())
        }));
        rows.push(Row::new(ENTRY, format!("{} deps again and again, {name}", DISTINCT[2]), LENT, |n| {
            size(n, &extra(repeated(&order(DISTINCT[2]), n)), &extra(repeated(&honest(DISTINCT[2]), n)))
        }));
    }
    rows.push(Row::new(ENTRY, "more distinct deps than fit (13), mixed", LENT, |n| {
        size(n, &extra(shuffled(&Hashes::LastByte.deps(0..n))), &extra(repeated(&honest(DISTINCT[2]), n)))
    }));
    rows.push(Row::new(ENTRY, "present deps, and the same again in the reverse order", DISTINCT, |n| {
        let deps = Hashes::LastTwo.deps(0..n);
        let present = |deps: Vec<Dep>| Tx { deps, ..Tx::default() }.bytes();
        let worst = Asked { ours: present(deps.clone()), ..extra(reversed(&deps)) };
        size(n, &worst, &Asked { ours: present(honest(n)), ..extra(honest(n)) }).beside(worst.there())
    }));
    rows
}

pub fn rows() -> Vec<Row> {
    let mut rows = dep_rows();
    let cells = |amount: u128, n: usize, wanted: u64| Asked { cells: vec![amount; n], wanted, ..extra(vec![]) };
    rows.push(Row::new(ENTRY, "token cells, all picked", ITEMS, |n| {
        let worst = cells(1, n, n as u64);
        size(n, &worst, &cells(1, n, 1)).beside(worst.there())
    }));
    rows.push(Row::new(ENTRY, "token cells of no amount (9)", LENT, |n| size(n, &cells(0, n, 5), &cells(1, n, 1))));
    rows.push(Row::new(ENTRY, "present inputs", ITEMS, |n| {
        let present = |inputs, headers| Asked { ours: Tx { inputs, headers, ..Tx::default() }.bytes(), ..extra(vec![]) };
        let worst = present(inputs(n), vec![]);
        size(n, &worst, &present(vec![], vec![[5; 32]; n * 44 / 32])).beside(worst.there())
    }));
    rows
}
