//! Sequences of calls on the exclusion map, compared with the whole table after each call.
use crate::kind::{all_of, Digits, Kind};
use crate::library;
use crate::parts::{damaged, input, one_less, point, smaller_bytes, Tx};
use crate::random::Rng;
use crate::report::{Outcome, Source};
use crate::tables::*;
use oracle::calls::hex;
use oracle::original::exclusions::{Entries, Hash, Map};
use oracle::original::Point;
use oracle::standins::molecule::{readable, TRANSACTION};

const TRANSACTIONS: usize = 64;
const OUT_POINTS: usize = 512;
const BYTES: usize = 4 + 48 * TRANSACTIONS + 36 * OUT_POINTS;
const OVER: &str = "15 where the original has no such bound: a 65th transaction or a 513th out point";
const ROOM: &str = "13 where the original has no such bound: the buffer of apply";
const TWICE: &str = "a table with a transaction's hash twice, which the original can't have";

#[derive(Clone, Debug)]
enum Call {
    Add { hash: Lent, tx: Lent },
    Commit { hash: Lent, block: u64 },
    Remove { hash: Lent },
    Migrate { old: Lent, new: Lent, tx: Lent },
    Truncate { tip: u64 },
    Apply { room: usize },
}
use Call::*;

/// An entry: its hash, its block if it was committed, what it spends.
type Entry = (Hash, Option<u64>, Vec<Point>);

#[derive(Clone, Debug)]
pub struct Input {
    start: Vec<u8>,
    calls: Vec<Call>,
}

/// The entries of a table, in order; none where the bytes are in no form.
fn entries(table: &[u8]) -> Option<Vec<Entry>> {
    let number = |at: usize| u32::from_le_bytes(table[at..at + 4].try_into().unwrap());
    if table.len() != BYTES || number(0) as usize > TRANSACTIONS {
        return None;
    }
    let (mut at, mut left, mut out) = (4, OUT_POINTS, vec![]);
    for _ in 0..number(0) {
        let block = match (number(at + 32), u64::from_le_bytes(table[at + 36..at + 44].try_into().unwrap())) {
            (0, 0) => None,
            (1, block) => Some(block),
            _ => return None,
        };
        let points = number(at + 44) as usize;
        left = left.checked_sub(points)?;
        let cells = table[at + 48..][..36 * points].chunks(36).map(|c| c.try_into().unwrap()).collect();
        out.push((table[at..at + 32].try_into().unwrap(), block, cells));
        at += 48 + 36 * points;
    }
    Some(out)
}
/// None where a hash is entered twice.
fn by_hash(list: &[Entry]) -> Option<Entries> {
    let map: Entries = list.iter().map(|(h, block, points)| (*h, (*block, points.clone()))).collect();
    (map.len() == list.len()).then_some(map)
}
/// What stands in the table of these entries.
fn bytes_of(list: &[Entry]) -> Vec<u8> {
    let mut out = (list.len() as u32).to_le_bytes().to_vec();
    for (hash, block, points) in list {
        out.extend(hash);
        out.extend((block.is_some() as u32).to_le_bytes());
        out.extend(block.unwrap_or(0).to_le_bytes());
        out.extend((points.len() as u32).to_le_bytes());
        out.extend(points.concat());
    }
    out
}
/// A table of these entries, with anything beyond them.
fn table_of(list: &[Entry]) -> Vec<u8> {
    let mut t = bytes_of(list);
    let mut rng = Rng::new(list.len() as u64);
    let rest = BYTES - t.len();
    let anything = if rng.once_in(2) { vec![0; rest] } else { rng.bytes(rest) };
    t.extend(anything);
    t
}
/// Whether a call left this list, and what is beyond it as it was.
fn left(before: &[u8], after: &[u8], list: &[Entry]) -> bool {
    let stands = bytes_of(list);
    after.starts_with(&stands) && before[stands.len()..] == after[stands.len()..]
}
/// The transaction that spends these.
fn spending(points: &[Point]) -> Vec<u8> {
    let input_of = |p: &Point| {
        let mut i = input(0, 0);
        i[8..].copy_from_slice(p);
        i
    };
    Tx { inputs: points.iter().map(input_of).collect(), ..Tx::default() }.write()
}

fn is_tx(tx: &[u8]) -> bool {
    tx.is_empty() || readable(&TRANSACTION, tx)
}
fn as_hash(h: &[u8]) -> Option<Hash> {
    h.try_into().ok()
}

impl Call {
    /// Whether the transaction that it is lent, if any, can be read.
    fn reads(&self) -> bool {
        match self {
            Add { tx, .. } | Migrate { tx, .. } => is_tx(tx),
            Commit { .. } | Remove { .. } | Truncate { .. } | Apply { .. } => true,
        }
    }
    /// 3, where a hash can't be read; else the map after it.
    fn original(&self, map: &Map) -> Result<Map, u32> {
        let mut after = map.clone();
        match self {
            Add { hash, tx } => after.add(&as_hash(hash).ok_or(3u32)?, tx),
            Commit { hash, block } => after.commit(&as_hash(hash).ok_or(3u32)?, *block),
            Remove { hash } => after.remove(&as_hash(hash).ok_or(3u32)?),
            Migrate { old, new, tx } => after.migrate(&as_hash(old).ok_or(3u32)?, &as_hash(new).ok_or(3u32)?, tx),
            Truncate { tip } => after.truncate(*tip),
            Apply { .. } => {}
        }
        Ok(after)
    }
    fn library(&self, table: &mut [u8], out: &mut Buffer) -> u32 {
        match self {
            Add { hash, tx } => library::exclusions_add(table, hash, tx),
            Commit { hash, block } => library::exclusions_commit(table, hash, *block),
            Remove { hash } => library::exclusions_remove(table, hash),
            Migrate { old, new, tx } => library::exclusions_migrate_funding_tx(table, old, new, tx),
            Truncate { tip } => library::exclusions_truncate(table, *tip),
            Apply { .. } => library::exclusions_apply(table, &mut out.0),
        }
    }
    /// Whether it enters a transaction; a table that is lent may be over a bound before.
    fn enters(&self, map: &Map) -> bool {
        match self {
            Add { tx, .. } => !tx.is_empty(),
            Migrate { old, tx, .. } => !tx.is_empty() && as_hash(old).is_some_and(|h| map.entries().contains_key(&h)),
            _ => false,
        }
    }
    fn expected(&self, map: &mut Map, table: &[u8]) -> (u32, Source) {
        if !self.reads() {
            return (1, Source::Reader);
        }
        if entries(table).is_none() {
            return (3, Source::Reader);
        }
        let after = match self.original(map) {
            Ok(after) => after,
            Err(n) => return (n, Source::Reader),
        };
        if let Apply { room } = self {
            if !Buffer::fits(*room, &map.apply()) {
                return (13, Source::Intended(ROOM));
            }
        }
        let entries = after.entries();
        let over = entries.len() > TRANSACTIONS || entries.values().map(|e| e.1.len()).sum::<usize>() > OUT_POINTS;
        if over && self.enters(map) {
            return (15, Source::Intended(OVER));
        }
        *map = after;
        (0, Source::Original)
    }
    fn compare(&self, map: &mut Map, table: &mut Vec<u8>) -> Outcome {
        let before = table.clone();
        let (expected, source) = self.expected(map, &before);
        let mut out = Buffer::new(if let Apply { room } = self { *room } else { 0 });
        let number = self.library(table, &mut out);
        let right = if expected != 0 {
            *table == before && out.untouched()
        } else if let Apply { .. } = self {
            // in the table's order
            let in_table: Vec<Point> = entries(table).unwrap_or_default().into_iter().flat_map(|e| e.2).collect();
            *table == before && out.has(&in_table) && sorted(&in_table) == sorted(&map.apply())
        } else {
            entries(table).is_some_and(|list| left(&before, table, &list) && by_hash(&list) == Some(map.entries()))
        };
        let wrong = || {
            let shown = |e: &Entries| -> Vec<String> { e.iter().map(|(h, (b, p))| format!("{} {b:?} {}", hex(h), hex(&p.concat()))).collect() };
            let there = entries(table).and_then(|list| by_hash(&list));
            format!(
                "{self:?}: expected {expected} ({source:?}), {:?}; the library says {number}, {:?}",
                shown(&map.entries()),
                there.as_ref().map(shown)
            )
        };
        Outcome { number, source, wrong: (number != expected || !right).then(wrong) }
    }
    /// On a table that the original can't have: only that a refusal changes nothing.
    fn call_alone(&self, table: &mut Vec<u8>) -> Outcome {
        let before = table.clone();
        let mut out = Buffer::new(if let Apply { room } = self { *room } else { 0 });
        let number = self.library(table, &mut out);
        let right = number == 0 || *table == before && out.untouched();
        Outcome { number, source: Source::Unknown(TWICE), wrong: (!right).then(|| format!("{self:?}: {number}, and something has changed")) }
    }
}

/// A table whose count, or the kind, the block or the count of out points of an entry, is another one; at times it is a table all the same.
fn odd_table(rng: &mut Rng, start: &[Entry]) -> Vec<u8> {
    let mut t = table_of(start);
    let mut at = 4;
    for _ in 0..start.len() {
        if rng.once_in(start.len()) {
            break;
        }
        at += 48 + 36 * t[at + 44] as usize + 256 * 36 * t[at + 45] as usize;
    }
    let (place, number) = match rng.below(5) {
        0 => (0, rng.pick(&[0, 63, 64, 65, 1 << 31, u32::MAX])),
        1 => (at + 32, rng.pick(&[0, 1, 2, 256, u32::MAX])),
        2 => (at + 36, rng.pick(&[0, 1, u32::MAX])),
        3 => (at + 40, rng.pick(&[0, 1, u32::MAX])),
        _ => (at + 44, rng.pick(&[0, 1, 511, 512, 513, u32::MAX])),
    };
    if place + 4 <= t.len() {
        t[place..place + 4].copy_from_slice(&number.to_le_bytes());
    }
    t
}

/// A hash of a pool; of another length at times.
fn hash(rng: &mut Rng, pool: usize) -> Lent {
    let h = vec![rng.below(pool) as u8; 32];
    Lent(match rng.below(60) {
        0 => damaged(rng, &h),
        1 => vec![],
        _ => h,
    })
}
fn some_of(rng: &mut Rng, n: usize) -> Vec<Point> {
    let from = rng.below(600) as u32;
    (0..n as u32).map(|i| point(from + i)).collect()
}
/// No transaction, the one without inputs, one with a few or with many; damaged at times.
fn tx(rng: &mut Rng) -> Lent {
    let n = rng.pick(&[0, 1, 1, 2, 3, 8, 8, 20, 100, 511, 512, 513]);
    let points = some_of(rng, n);
    let tx = spending(&points);
    Lent(match rng.below(30) {
        0 => vec![],
        1 => damaged(rng, &tx),
        _ => tx,
    })
}
fn any_call(rng: &mut Rng, pool: usize, now: u64) -> Call {
    match rng.below(12) {
        0..=3 => Add { hash: hash(rng, pool), tx: tx(rng) },
        4 | 5 => Commit { hash: hash(rng, pool), block: now },
        6 => Remove { hash: hash(rng, pool) },
        7..=9 => Migrate { old: hash(rng, pool), new: hash(rng, pool), tx: tx(rng) },
        10 => Truncate { tip: now.saturating_add(rng.pick(&[0, 1, 12, 13, 14])) },
        _ => {
            let most = rng.pick(&[0, 3, 20, 512, 512, 512]);
            Apply { room: room(rng, most) }
        }
    }
}

pub struct OfExclusions;

impl Kind for OfExclusions {
    type Input = Input;
    const NAME: &'static str = "exclusions";
    const FUNCTIONS: &'static [&'static str] = &[
        "basinpantry_exclusions_add",
        "basinpantry_exclusions_commit",
        "basinpantry_exclusions_remove",
        "basinpantry_exclusions_migrate_funding_tx",
        "basinpantry_exclusions_truncate",
        "basinpantry_exclusions_apply",
    ];
    const SHARE: u64 = 50;
    fn make(rng: &mut Rng, _: u64) -> Input {
        let pool = rng.pick(&[3, 10, 70, 70]);
        let mut now = rng.pick(&[0, 100, 100, u64::MAX - 20, u64::MAX]);
        let mut start: Vec<Entry> = vec![];
        let mut left = OUT_POINTS;
        let n = rng.pick(&[0, 0, 2, 30, 62, 63, 64]);
        for i in 0..n.min(pool) {
            let most = rng.pick(&[0, 1, 8, 8, left]).min(left);
            let points = if most == left { most } else { rng.between(0, most) };
            left -= points;
            let block = rng.once_in(2).then(|| now.saturating_sub(rng.pick(&[0, 1, 11, 12, 13, 14])));
            start.push(([i as u8; 32], block, some_of(rng, points)));
        }
        let mut calls = vec![];
        for _ in 0..rng.between(1, 20) {
            now = now.saturating_add(rng.pick(&[0, 0, 1, 12, 13]));
            calls.push(any_call(rng, pool, now));
        }
        let start = if rng.once_in(10) { odd_table(rng, &start) } else { table_of(&start) };
        Input { start, calls }
    }
    fn compare(input: &Input) -> Vec<Outcome> {
        let mut table = input.start.clone();
        let mut map = Map::default();
        let Some(start) = entries(&table) else {
            return input.calls.iter().take(3).map(|c| c.compare(&mut map, &mut table)).collect();
        };
        if by_hash(&start).is_none() {
            return input.calls.iter().take(3).map(|c| c.call_alone(&mut table)).collect();
        }
        for (hash, block, points) in &start {
            map.add(hash, &spending(points));
            block.iter().for_each(|b| map.commit(hash, *b));
        }
        let mut out = vec![];
        for (i, c) in input.calls.iter().enumerate() {
            if i % 17 == 16 {
                // a table of another length
                let mut cut = [&table[..], &[0]].concat();
                cut.truncate(if i % 2 == 0 { BYTES - 1 } else { BYTES + 1 });
                out.push(c.compare(&mut map, &mut cut));
            }
            out.push(c.compare(&mut map, &mut table));
            if out.last().unwrap().wrong.is_some() {
                break;
            }
        }
        out
    }
    fn smaller(input: &Input) -> Vec<Input> {
        let mut out: Vec<Input> = one_less(&input.calls).map(|calls| Input { calls, ..input.clone() }).collect();
        let start = entries(&input.start).unwrap_or_default();
        let with = |start: &[Entry]| Input { start: table_of(start), ..input.clone() };
        out.extend(one_less(&start).map(|less| with(&less)));
        for (k, (hash, block, points)) in start.iter().enumerate() {
            for less in one_less(points) {
                let mut of = start.clone();
                of[k] = (*hash, *block, less);
                out.push(with(&of));
            }
        }
        for (k, c) in input.calls.iter().enumerate() {
            let tx_of = |tx: &[u8]| smaller_bytes(tx).into_iter().map(Lent);
            let less: Vec<Call> = match c.clone() {
                Add { hash, tx } => tx_of(&tx).map(|tx| Add { hash: hash.clone(), tx }).collect(),
                Migrate { old, new, tx } => tx_of(&tx).map(|tx| Migrate { old: old.clone(), new: new.clone(), tx }).collect(),
                _ => vec![],
            };
            for c in less {
                let mut of = input.clone();
                of.calls[k] = c;
                out.push(of);
            }
        }
        out
    }
    fn show(input: &Input) -> String {
        let entry = |(h, b, p): &Entry| format!("  entry {} {b:?} {}\n", hex(h), hex(&p.concat()));
        let call = |c: &Call| format!("  {c:?}\n");
        let start = entries(&input.start).unwrap_or_default();
        let head = if table_of(&start) == input.start { String::new() } else { format!("  table {}, which is\n", hex(&input.start)) };
        [head].into_iter().chain(start.iter().map(entry)).chain(input.calls.iter().map(call)).collect()
    }
}

/// Every three calls one after the other on a map that is empty before them, over two hashes, four transactions (one of them none) and two blocks.
pub struct Small;
all_of!(Small, OfExclusions, "exclusions_small", 50, CALLS * CALLS * CALLS, |n| Input {
    start: vec![0; BYTES],
    calls: vec![small_call(n % CALLS), small_call(n / CALLS % CALLS), small_call(n / CALLS / CALLS)],
});

const CALLS: u64 = 8 + 4 + 2 + 16 + 3 + 1;

fn small_call(n: u64) -> Call {
    let hashes = [Lent(vec![1; 32]), Lent(vec![2; 32])];
    let txs = [Lent(vec![]), Lent(spending(&[])), Lent(spending(&[point(1)])), Lent(spending(&[point(2), point(1)]))];
    let mut of = Digits(n);
    match n {
        0..8 => Add { hash: of.pick(&hashes), tx: of.pick(&txs) },
        8..12 => Commit { hash: of.pick(&hashes), block: of.pick(&[100, 101]) },
        12..14 => Remove { hash: of.pick(&hashes) },
        14..30 => Migrate { old: of.pick(&hashes), new: of.pick(&hashes), tx: of.pick(&txs) },
        30..33 => Truncate { tip: 112 + n - 30 },
        _ => Apply { room: 4 + 36 * 4 },
    }
}
