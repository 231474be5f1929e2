//! The calls on the table of held cells: out points that look alike, in orders that a search does not like.
use super::bytes::*;
use super::clock::{Clock, Row, Size};
use crate::library::{self, HELD_BYTES};
use oracle::original::{holds, Point};
use oracle::standins::packed::OutPoint;
use std::collections::HashSet;
use std::hint::black_box;
use std::rc::Rc;

/// How many records a table has room for, how many picks, and how many records where these grow.
const RECORDS: usize = 256;
const PICKS: [usize; 3] = [350, 1_400, 3_600];
const GROWING: [usize; 3] = [64, 128, 256];
const TIME: u64 = 5;

/// What is held, and the lists that are lent.
struct Lent {
    /// By the watchtower, until this time; else for a funding.
    until: Option<u64>,
    held: Vec<Point>,
    cells: Vec<Point>,
    spent: Vec<Point>,
}

impl Lent {
    fn funding(held: Vec<Point>, cells: Vec<Point>, spent: Vec<Point>) -> Lent {
        Lent { until: None, held, cells, spent }
    }
    fn watchtower(held: Vec<Point>, cells: Vec<Point>) -> Lent {
        Lent { until: Some(1_000), held, cells, spent: vec![] }
    }
    fn bytes(&self) -> usize {
        HELD_BYTES + 36 * (self.cells.len() + self.spent.len())
    }
    /// A record is an out point, a kind and a number: the holder 1, or the end.
    fn table(&self) -> Vec<u8> {
        let kind = [u32::from(self.until.is_some()).to_le_bytes().to_vec(), self.until.unwrap_or(1).to_le_bytes().to_vec()].concat();
        let records: Vec<u8> = self.held.iter().flat_map(|point| [&point[..], &kind].concat()).collect();
        let mut table = [&(self.held.len() as u32).to_le_bytes()[..], &records].concat();
        table.resize(HELD_BYTES, 0);
        table
    }
    fn load(&self) {
        let mut of = holds::Holds::default();
        match self.until {
            Some(end) => of.watchtower = self.held.iter().map(|point| (*point, end)).collect(),
            None => of.funding = [(1, self.held.clone())].into(),
        }
        holds::load(&of);
    }
}

fn parsed(points: &[Point]) -> Vec<OutPoint> {
    points.iter().map(|point| OutPoint::read(point).expect("36 bytes")).collect()
}

// ---- the calls, here and in the original

/// What a call is lent: the table, the cells, those that are spent, two buffers.
type Call = fn(&mut [u8], &[u8], &[u8], &mut [u8], &mut [u8]) -> u32;
type Original = fn(Vec<OutPoint>, &HashSet<OutPoint>);

/// An entry, its call here, and the original's.
type Entry = (&'static str, Call, Original);

const UNAVAILABLE: Entry = (
    "unavailable",
    |held, cells, spent, out, _| library::unavailable(held, cells, spent, TIME, out),
    |cells, spent| drop(black_box(holds::unavailable_parsed(&cells, spent, TIME))),
);
const TAKE: Entry = (
    "take",
    |held, cells, spent, taken, refused| library::take(held, cells, spent, false, 2, TIME, taken, refused),
    |cells, spent| drop(black_box(holds::take_parsed(cells, spent, Some(2), TIME))),
);
const HOLD_FUNDING: Entry =
    ("hold_funding", |held, cells, _, _, _| library::hold_funding(held, 1, cells), |cells, _| holds::hold_funding_parsed(1, cells));
const HOLD_FOR_WATCHTOWER: Entry = (
    "hold_for_watchtower",
    |held, cells, _, _, _| library::hold_for_watchtower(held, cells, TIME),
    |cells, _| holds::hold_for_watchtower_parsed(cells, TIME),
);
const RELEASE_FOR_WATCHTOWER: Entry = (
    "release_for_watchtower",
    |held, cells, _, _, _| library::release_for_watchtower(held, cells),
    |cells, _| holds::release_for_watchtower_parsed(cells),
);
const LOCK_HELD: Entry = ("lock_held", |held, _, _, out, _| library::lock_held(held, TIME, out), |_, _| drop(black_box(holds::lock_held(TIME))));

fn here(call: Call, lent: &Lent) -> Clock {
    let (table, cells, spent) = (lent.table(), fixvec(&lent.cells), fixvec(&lent.spent));
    let room = 4 + 36 * lent.cells.len().max(RECORDS);
    let (mut out, mut refused) = (vec![0; room], vec![0; room]);
    let answer = call(&mut table.clone(), &cells, &spent, &mut out, &mut refused);
    assert!(answer == 0 || answer == 14, "{answer}");
    Clock::fresh(move || table.clone(), move |held| assert_eq!(call(held, &cells, &spent, &mut out, &mut refused), answer))
}
fn there(original: Original, lent: Lent) -> Clock {
    let (cells, spent) = (parsed(&lent.cells), parsed(&lent.spent).into_iter().collect());
    let load = move || {
        lent.load();
        cells.clone()
    };
    Clock::fresh(load, move |cells| original(std::mem::take(cells), &spent))
}
fn size(entry: Entry, n: usize, worst: Lent, honest: Lent) -> Size {
    let (_, call, original) = entry;
    Size::new(n, worst.bytes(), here(call, &honest), here(call, &worst)).beside(there(original, worst))
}
type Make = Rc<dyn Fn(Hashes, usize) -> Lent>;

/// A row for each kind of hashes.
fn of_kinds(rows: &mut Vec<Row>, entry: Entry, name: &str, kinds: &[Hashes], counts: [usize; 3], honest: &Make, worst: Make) {
    for hashes in kinds {
        let input = format!("{name}, {}", hashes.name());
        rows.push(Row::new(entry.0, input, counts, |n| size(entry, n, worst(*hashes, n), honest(Hashes::Random, n))));
    }
}

const KINDS: &[Hashes] = &[Hashes::Random, Hashes::FirstWord, Hashes::LastByte];

/// Points that are no other list's: held from 0 on, picked from 1,000 on, spent from 10,000 on.
fn held(hashes: Hashes, n: usize) -> Vec<Point> {
    hashes.points(0..n)
}
fn picks(hashes: Hashes, n: usize) -> Vec<Point> {
    hashes.points(1_000..1_000 + n)
}
fn others(hashes: Hashes, n: usize) -> Vec<Point> {
    hashes.points(10_000..10_000 + n)
}
/// The held ones from the last to the first, again and again.
fn held_ones(hashes: Hashes, n: usize) -> Vec<Point> {
    reversed(&held(hashes, RECORDS)).into_iter().cycle().take(n).collect()
}

fn pick_rows(entry: Entry) -> Vec<Row> {
    let full = |hashes| held(hashes, RECORDS);
    let all_spent: Make = Rc::new(move |hashes, n| Lent::funding(full(hashes), picks(hashes, n), picks(hashes, n)));
    let mut rows = vec![];
    let mut add = |name: &str, worst: Make| of_kinds(&mut rows, entry, name, KINDS, PICKS, &all_spent, worst);
    add("all free", Rc::new(move |hashes, n| Lent::funding(full(hashes), picks(hashes, n), others(hashes, n))));
    add("all spent, in this order", all_spent.clone());
    add("all spent, in the reverse order", Rc::new(move |hashes, n| Lent::funding(full(hashes), picks(hashes, n), reversed(&picks(hashes, n)))));
    add("all held", Rc::new(move |hashes, n| Lent::funding(full(hashes), held_ones(hashes, n), others(hashes, n))));
    add("one free cell again and again", Rc::new(|hashes, n| Lent::funding(held(hashes, 255), vec![hashes.point(1_000); n], others(hashes, n))));
    add("one spent cell again and again", Rc::new(move |hashes, n| Lent::funding(full(hashes), vec![hashes.point(9_999 + n); n], others(hashes, n))));
    rows
}

/// Cells that the watchtower holds, or that were made to look like them.
const TOWER_KINDS: &[Hashes] = &[Hashes::Random, Hashes::FirstWord, Hashes::LastByte, Hashes::OneSlot];

/// As many picks as are looked up one by one, against lists of spent cells that grow.
fn few_rows(entry: Entry) -> Vec<Row> {
    const FEW: usize = 64;
    let among = |hashes, n| Lent::funding(held(hashes, 192), picks(hashes, FEW), others(hashes, n));
    let mut rows = vec![];
    of_kinds(&mut rows, entry, "64 free picks, many spent", TOWER_KINDS, PICKS, &(Rc::new(among) as Make), Rc::new(among));
    rows
}

fn watchtower_rows(entry: Entry) -> Vec<Row> {
    let mut rows = vec![];
    let same: Make = Rc::new(|hashes, n| Lent::watchtower(held(hashes, n), held(hashes, n)));
    let mut add = |name: &str, counts, honest: &Make, worst: Make| of_kinds(&mut rows, entry, name, TOWER_KINDS, counts, honest, worst);
    add("all held, in the reverse order", GROWING, &same, Rc::new(|hashes, n| Lent::watchtower(held(hashes, n), reversed(&held(hashes, n)))));
    let again: Make = Rc::new(|hashes, n| Lent::watchtower(held(hashes, RECORDS), held(hashes, RECORDS).into_iter().cycle().take(n).collect()));
    add("held ones again and again", PICKS, &again, Rc::new(|hashes, n| Lent::watchtower(held(hashes, RECORDS), held_ones(hashes, n))));
    add("none held", PICKS, &again, Rc::new(|hashes, n| Lent::watchtower(held(hashes, RECORDS), picks(hashes, n))));
    rows
}

/// A call that replaces or drops what is held.
fn table_rows(entry: Entry, names: [&str; 2]) -> Vec<Row> {
    let honest: Make = Rc::new(|hashes, n| Lent::funding(held(hashes, n), held(hashes, n / 2), vec![]));
    let mut rows = vec![];
    of_kinds(&mut rows, entry, names[0], KINDS, GROWING, &honest, Rc::new(|hashes, n| Lent::funding(held(hashes, n), picks(hashes, n), vec![])));
    let ended: Make = Rc::new(|hashes, n| Lent { until: Some(TIME), ..Lent::watchtower(held(hashes, n), picks(hashes, n)) });
    of_kinds(&mut rows, entry, names[1], &[Hashes::Random], GROWING, &honest, ended);
    rows
}

pub fn rows() -> Vec<Row> {
    let mut rows = pick_rows(UNAVAILABLE);
    rows.extend(few_rows(UNAVAILABLE));
    rows.extend(pick_rows(TAKE));
    rows.extend(few_rows(TAKE));
    rows.extend(watchtower_rows(HOLD_FOR_WATCHTOWER));
    rows.extend(watchtower_rows(RELEASE_FOR_WATCHTOWER));
    rows.extend(table_rows(HOLD_FUNDING, ["as many others in their place", "beside ended records"]));
    rows.extend(table_rows(LOCK_HELD, ["all hold", "all have ended"]));
    rows
}
