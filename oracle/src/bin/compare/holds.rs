//! Sequences of calls on the table of holds, compared with the whole table after each call.
use crate::kind::{all_of, Digits, Kind};
use crate::library;
use crate::parts::{one_less, point, sized_list};
use crate::random::Rng;
use crate::report::{Outcome, Source};
use crate::tables::*;
use oracle::calls::hex;
use oracle::original::holds::{self as original, Holds};

const BYTES: usize = 12_292;
const MOST: usize = 256;
const OVER: &str = "14 where the original has no such bound: a 257th hold record";
const ROOM: &str = "13 where the original has no such bound: a buffer of a call on the holds, or 133,116 bytes; ended records stay";
const TWICE: &str = "a table with a watchtower's cell twice, which the original can't have";

#[derive(Clone, Debug)]
enum Call {
    HoldFunding { holder: u64, cells: Lent },
    HoldForWatchtower { cells: Lent, time: u64 },
    Release { cells: Lent },
    LockHeld { time: u64, room: usize },
    Unavailable { picked: Lent, spent: Lent, time: u64, room: usize },
    Take { picked: Lent, spent: Lent, holder: Option<u64>, time: u64, rooms: [usize; 2] },
}
use Call::*;

#[derive(Clone, Debug)]
pub struct Input {
    start: Vec<u8>,
    calls: Vec<Call>,
}

/// What a table means; none where a watchtower's cell stands in it twice.
fn holds_of(table: &[u8]) -> Option<Holds> {
    let mut holds = Holds::default();
    for p in places(table) {
        match p.kind {
            0 => holds.funding.entry(p.number).or_default().push(p.point),
            _ => {
                if holds.watchtower.insert(p.point, p.number).is_some() {
                    return None;
                }
            }
        }
    }
    Some(holds)
}

/// As the places of a table.
fn shown(holds: &Holds) -> Vec<Place> {
    let funding = holds.funding.iter().flat_map(|(h, v)| v.iter().map(|p| Place { point: *p, kind: 0, number: *h }));
    funding.chain(holds.watchtower.iter().map(|(p, end)| Place { point: *p, kind: 1, number: *end })).collect()
}

/// What a call writes, by the original.
enum Lists {
    None,
    /// In any order, which is then the table's.
    Locked(Vec<[u8; 36]>),
    /// In this order.
    These(Vec<Vec<[u8; 36]>>),
}

impl Call {
    fn rooms(&self) -> Vec<usize> {
        match self {
            LockHeld { room, .. } | Unavailable { room, .. } => vec![*room],
            Take { rooms, .. } => rooms.to_vec(),
            _ => vec![],
        }
    }
    /// By the original, on its table; none where a list can't be read.
    fn original(&self) -> Option<Lists> {
        let lists = match self {
            HoldFunding { holder, cells } => {
                original::hold_funding(*holder, &read_points(cells)?);
                Lists::None
            }
            HoldForWatchtower { cells, time } => {
                original::hold_for_watchtower(&read_points(cells)?, *time);
                Lists::None
            }
            Release { cells } => {
                original::release_for_watchtower(&read_points(cells)?);
                Lists::None
            }
            LockHeld { time, .. } => Lists::Locked(original::lock_held(*time)),
            Unavailable { picked, spent, time, .. } => {
                let (picked, spent) = (read_points(picked)?, read_points(spent)?);
                let named = original::unavailable(&picked, &spent, *time);
                // once each, in pick order
                let mut once = vec![];
                picked.iter().filter(|p| named.contains(*p)).for_each(|p| {
                    if !once.contains(p) {
                        once.push(*p)
                    }
                });
                Lists::These(vec![once])
            }
            Take { picked, spent, holder, time, .. } => {
                let (taken, refused) = original::take(&read_points(picked)?, &read_points(spent)?, *holder, *time);
                Lists::These(vec![taken, refused])
            }
        };
        Some(lists)
    }
    fn library(&self, table: &mut [u8], out: &mut [Buffer]) -> u32 {
        match self {
            HoldFunding { holder, cells } => library::hold_funding(table, *holder, cells),
            HoldForWatchtower { cells, time } => library::hold_for_watchtower(table, cells, *time),
            Release { cells } => library::release_for_watchtower(table, cells),
            LockHeld { time, .. } => library::lock_held(table, *time, &mut out[0].0),
            Unavailable { picked, spent, time, .. } => library::unavailable(table, picked, spent, *time, &mut out[0].0),
            Take { picked, spent, holder, time, .. } => {
                let (taken, refused) = out.split_at_mut(1);
                library::take(table, picked, spent, holder.is_none(), holder.unwrap_or(0), *time, &mut taken[0].0, &mut refused[0].0)
            }
        }
    }
    /// The number that is expected and why, and what is written with 0. The original's table is then as it is to be.
    fn expected(&self, length: usize) -> (u32, Source, Lists) {
        let before = original::dump();
        if length != BYTES {
            return (3, Source::Reader, Lists::None);
        }
        let Some(lists) = self.original() else { return (3, Source::Reader, Lists::None) };
        let fits = match &lists {
            Lists::None => true,
            Lists::Locked(l) => Buffer::fits(self.rooms()[0], l),
            Lists::These(ls) => ls.iter().zip(self.rooms()).all(|(l, room)| Buffer::fits(room, l)),
        };
        if !fits {
            original::load(&before);
            return (13, Source::Intended(ROOM), Lists::None);
        }
        if original::dump().count() > MOST {
            original::load(&before);
            return (14, Source::Intended(OVER), Lists::None);
        }
        (0, Source::Original, lists)
    }
    fn compare(&self, table: &mut Vec<u8>) -> Outcome {
        let before = table.clone();
        let (expected, source, lists) = self.expected(before.len());
        let mut out: Vec<Buffer> = self.rooms().into_iter().map(Buffer::new).collect();
        let number = self.library(table, &mut out);
        let right = if expected != 0 {
            *table == before && out.iter().all(Buffer::untouched)
        } else {
            let lists_right = match &lists {
                Lists::None => true,
                // in the table's order
                Lists::Locked(l) => {
                    let in_table: Vec<_> = places(table).iter().map(|p| p.point).collect();
                    sorted(l) == sorted(&in_table) && out[0].has(&in_table)
                }
                Lists::These(ls) => ls.iter().zip(&out).all(|(l, o)| o.has(l)),
            };
            let table_right = if let Unavailable { .. } = self { *table == before } else { rest_kept(&before, table) };
            lists_right && table_right && holds_of(table) == Some(original::dump())
        };
        let wrong = || {
            let written: Vec<String> = out.iter().map(Buffer::show).collect();
            let there = shown(&original::dump());
            format!(
                "{self:?}:\n  expected {expected} ({source:?}), then {there:?};\n  the library says {number}, then {:?}, {written:?}",
                places(table)
            )
        };
        Outcome { number, source, wrong: (number != expected || !right).then(wrong) }
    }
    /// On a table that the original can't have: only that a refusal changes nothing.
    fn call_alone(&self, table: &mut Vec<u8>) -> Outcome {
        let before = table.clone();
        let mut out: Vec<Buffer> = self.rooms().into_iter().map(Buffer::new).collect();
        let number = self.library(table, &mut out);
        let right = number == 0 || *table == before && out.iter().all(Buffer::untouched);
        Outcome { number, source: Source::Unknown(TWICE), wrong: (!right).then(|| format!("{self:?}: {number}, and something has changed")) }
    }
}

fn any_call(rng: &mut Rng, pool: usize, now: u64) -> Call {
    let holder = rng.pick(&[1, 2, 3, 3, u64::MAX]);
    let most = rng.pick(&[pool, pool, pool, 5]);
    match rng.below(12) {
        0 | 1 => HoldFunding { holder, cells: some_points(rng, pool) },
        2 | 3 => HoldForWatchtower { cells: some_points(rng, pool), time: now },
        4 => Release { cells: some_points(rng, pool) },
        5 => LockHeld { time: now, room: room(rng, pool.min(MOST)) },
        6 | 7 => Unavailable { picked: some_points(rng, pool), spent: some_points(rng, pool), time: now, room: room(rng, most) },
        _ => {
            let rooms = [room(rng, most), room(rng, most)];
            Take { picked: some_points(rng, pool), spent: some_points(rng, pool), holder: (!rng.once_in(2)).then_some(holder), time: now, rooms }
        }
    }
}
fn start(rng: &mut Rng, pool: usize, now: u64) -> Vec<u8> {
    let n = rng.pick(&[0, 1, 5, 30, 250, 254, 255, 256, 256, 256]);
    let mut seen = std::collections::BTreeSet::new();
    let mut list = vec![];
    let odd = rng.once_in(30);
    for _ in 0..n {
        let p = point(rng.below(pool) as u32);
        let watched = rng.once_in(2) && (odd || seen.insert(p));
        let kind = if watched { rng.pick(&[1, 1, 1, 2, u32::MAX]) } else { 0 };
        let end = rng.pick(&[now, now.saturating_add(1), now.saturating_add(60_000), now.saturating_sub(1), 0, u64::MAX]);
        list.push(Place { point: p, kind, number: if watched { end } else { rng.pick(&[1, 2, 3, u64::MAX]) } });
    }
    let mut t = table(rng, &list, BYTES);
    if odd {
        // a count of more places than there are, or of some that mean nothing
        let count = rng.pick(&[255u32, 256, 257, 1 << 31, u32::MAX]);
        t[..4].copy_from_slice(&count.to_le_bytes());
    }
    t
}

pub struct OfHolds;

impl Kind for OfHolds {
    type Input = Input;
    const NAME: &'static str = "holds";
    const FUNCTIONS: &'static [&'static str] = &[
        "basinpantry_hold_funding",
        "basinpantry_hold_for_watchtower",
        "basinpantry_release_for_watchtower",
        "basinpantry_lock_held",
        "basinpantry_unavailable",
        "basinpantry_take",
    ];
    const SHARE: u64 = 80;
    fn make(rng: &mut Rng, _: u64) -> Input {
        let pool = rng.pick(&[3, 6, 12, 40, 300, 300]);
        let mut now = rng.pick(&[0, 1_000, 5_000_000, 5_000_000, u64::MAX - 2_000_000, u64::MAX]);
        let start = start(rng, pool, now);
        let mut calls = vec![];
        for _ in 0..rng.between(1, 25) {
            now = match rng.below(8) {
                0 => now.saturating_sub(rng.pick(&[1, 60_000, 1_800_000])),
                1 => rng.word() >> rng.below(64),
                _ => now.saturating_add(rng.pick(&[0, 0, 1, 59_999, 60_000, 60_001, 1_799_999, 1_800_000])),
            };
            calls.push(any_call(rng, pool, now));
        }
        Input { start, calls }
    }
    fn compare(input: &Input) -> Vec<Outcome> {
        let mut table = input.start.clone();
        let mut out = vec![];
        match holds_of(&table) {
            None => input.calls.iter().take(3).for_each(|c| out.push(c.call_alone(&mut table))),
            Some(holds) => {
                original::load(&holds);
                for (i, c) in input.calls.iter().enumerate() {
                    if i % 17 == 16 {
                        // a table of another length
                        let mut cut = [&table[..], &[0]].concat();
                        cut.truncate(if i % 2 == 0 { BYTES - 1 } else { BYTES + 1 });
                        out.push(c.compare(&mut cut));
                    }
                    out.push(c.compare(&mut table));
                    if out.last().unwrap().wrong.is_some() {
                        break;
                    }
                }
            }
        }
        out
    }
    fn smaller(input: &Input) -> Vec<Input> {
        let mut out: Vec<Input> = one_less(&input.calls).map(|calls| Input { calls, ..input.clone() }).collect();
        // a record less
        let list = places(&input.start);
        let mut rng = Rng::new(0);
        for less in one_less(&list) {
            out.push(Input { start: table(&mut rng, &less, BYTES), ..input.clone() });
        }
        for (k, c) in input.calls.iter().enumerate() {
            for less in smaller_call(c) {
                let mut of = input.clone();
                of.calls[k] = less;
                out.push(of);
            }
        }
        out
    }
    fn show(input: &Input) -> String {
        let call = |c: &Call| format!("  {c:?}\n");
        format!("  table {}\n{}", hex(&input.start[..4 + 48 * places(&input.start).len()]), input.calls.iter().map(call).collect::<String>())
    }
}
fn smaller_call(c: &Call) -> Vec<Call> {
    let less = |list: &[u8]| -> Vec<Lent> {
        let points = read_points(list).unwrap_or_default();
        one_less(&points).map(|p| Lent(sized_list(&p))).collect()
    };
    match c.clone() {
        HoldFunding { holder, cells } => less(&cells).into_iter().map(|cells| HoldFunding { holder, cells }).collect(),
        HoldForWatchtower { cells, time } => less(&cells).into_iter().map(|cells| HoldForWatchtower { cells, time }).collect(),
        Release { cells } => less(&cells).into_iter().map(|cells| Release { cells }).collect(),
        LockHeld { .. } => vec![],
        Unavailable { picked, spent, time, room } => {
            let with = |picked: Lent, spent: Lent| Unavailable { picked, spent, time, room };
            let a = less(&picked).into_iter().map(|p| with(p, spent.clone()));
            a.chain(less(&spent).into_iter().map(|s| with(picked.clone(), s))).collect()
        }
        Take { picked, spent, holder, time, rooms } => {
            let with = |picked: Lent, spent: Lent| Take { picked, spent, holder, time, rooms };
            let a = less(&picked).into_iter().map(|p| with(p, spent.clone()));
            a.chain(less(&spent).into_iter().map(|s| with(picked.clone(), s))).collect()
        }
    }
}

/// Every two calls one after the other on a table that is empty before them, over two cells, lists of up to two, two holders and three times.
pub struct Small;
all_of!(Small, OfHolds, "holds_small", 90, CALLS * CALLS, |n| Input {
    start: vec![0; BYTES],
    calls: vec![small_call(n % CALLS), small_call(n / CALLS)],
});

const LISTS: u64 = 7;
const TIMES: u64 = 3;
const CALLS: u64 = 2 * LISTS + LISTS * TIMES + LISTS + TIMES + 3 * LISTS * TIMES + 3 * 3 * LISTS * TIMES;

fn small_call(n: u64) -> Call {
    let lists: Vec<Lent> = [&[][..], &[1], &[2], &[1, 1], &[1, 2], &[2, 1], &[2, 2]]
        .iter()
        .map(|l| Lent(sized_list(&l.iter().map(|i| point(*i)).collect::<Vec<_>>())))
        .collect();
    // what the first call holds has ended, or is about to, at the second's
    let times = [0, 60_000, 1_800_000];
    let (spent, room) = (&lists[..3], 4 + 36 * 4);
    let ends = [2 * LISTS, LISTS * TIMES, LISTS, TIMES, 3 * LISTS * TIMES];
    let (mut which, mut n) = (0, n);
    while which < ends.len() && n >= ends[which] {
        n -= ends[which];
        which += 1;
    }
    let mut of = Digits(n);
    match which {
        0 => HoldFunding { cells: of.pick(&lists), holder: of.pick(&[1, 2]) },
        1 => HoldForWatchtower { cells: of.pick(&lists), time: of.pick(&times) },
        2 => Release { cells: of.pick(&lists) },
        3 => LockHeld { time: of.pick(&times), room },
        4 => Unavailable { picked: of.pick(&lists), spent: of.pick(spent), time: of.pick(&times), room },
        _ => {
            let (picked, spent, holder, time) = (of.pick(&lists), of.pick(spent), of.pick(&[None, Some(1), Some(2)]), of.pick(&times));
            Take { picked, spent, holder, time, rooms: [room; 2] }
        }
    }
}
