//! The calls on the exclusion map: hashes that look alike, entries at the dear end, a large transaction.
use super::bytes::*;
use super::clock::{Clock, Row, Size};
use crate::library::{self, EXCLUSIONS_BYTES};
use oracle::original::exclusions::{Hash, Map};
use std::hint::black_box;

/// Entries; each has eight out points.
const ENTRIES: [usize; 3] = [16, 32, 64];
const POINTS: usize = 8;
/// The room for all of them.
const APPLIED: usize = 4 + 36 * 512;

fn hash(hashes: Hashes, i: usize) -> Hash {
    let mut hash: Hash = hashes.point(i)[..32].try_into().expect("32 bytes");
    if hashes == Hashes::LastByte {
        hash[31] = i as u8;
    }
    hash
}
fn spending(from: usize, count: usize) -> Vec<u8> {
    Tx { inputs: inputs(from + count).split_off(from), ..Tx::default() }.bytes()
}

/// The block in which entry i was committed: every other one in a block that is long past, so that a truncation moves the most.
fn block(i: usize) -> u64 {
    [1, 1_000][i % 2]
}

/// The map of n committed transactions, here and in the original.
fn full(hashes: Hashes, n: usize) -> (Vec<u8>, Map) {
    let (mut here, mut there) = (vec![0; EXCLUSIONS_BYTES], Map::default());
    for i in 0..n {
        let (hash, tx) = (hash(hashes, i), spending(POINTS * i, POINTS));
        assert_eq!(library::exclusions_add(&mut here, &hash, &tx), 0);
        assert_eq!(library::exclusions_commit(&mut here, &hash, block(i)), 0);
        there.add(&hash, &tx);
        there.commit(&hash, block(i));
    }
    (here, there)
}

/// What a call is lent beside the map: the hash of an entry or of none, a transaction, a buffer.
type Call = fn(&mut [u8], &Hash, &[u8], &mut [u8]) -> u32;
type Original = fn(&mut Map, &Hash, &[u8]);

const NEW: Hash = [9; 32];

const ADD: (&str, Call, Original) = ("exclusions_add", |map, hash, tx, _| library::exclusions_add(map, hash, tx), |map, hash, tx| map.add(hash, tx));
const COMMIT: (&str, Call, Original) =
    ("exclusions_commit", |map, hash, _, _| library::exclusions_commit(map, hash, 7), |map, hash, _| map.commit(hash, 7));
const REMOVE: (&str, Call, Original) =
    ("exclusions_remove", |map, hash, _, _| library::exclusions_remove(map, hash), |map, hash, _| map.remove(hash));
const MIGRATE: (&str, Call, Original) = (
    "exclusions_migrate_funding_tx",
    |map, hash, tx, _| library::exclusions_migrate_funding_tx(map, hash, &NEW, tx),
    |map, hash, tx| map.migrate(hash, &NEW, tx),
);
const TRUNCATE: (&str, Call, Original) =
    ("exclusions_truncate", |map, _, _, _| library::exclusions_truncate(map, 500), |map, _, _| map.truncate(500));
const APPLY: (&str, Call, Original) =
    ("exclusions_apply", |map, _, _, out| library::exclusions_apply(map, out), |map, _, _| drop(black_box(map.apply())));

/// A call with the entry of a place, or with none's.
struct Lent {
    hashes: Hashes,
    entries: usize,
    place: usize,
    tx: Vec<u8>,
}

fn here(call: Call, lent: &Lent) -> Clock {
    let (hash, (map, _), tx) = (hash(lent.hashes, lent.place), full(lent.hashes, lent.entries), lent.tx.clone());
    let mut out = vec![0; APPLIED];
    let answer = call(&mut map.clone(), &hash, &tx, &mut out);
    Clock::fresh(move || map.clone(), move |map| assert_eq!(call(map, &hash, &tx, &mut out), answer))
}
fn there(original: Original, lent: Lent) -> Clock {
    let (hash, (_, map)) = (hash(lent.hashes, lent.place), full(lent.hashes, lent.entries));
    Clock::fresh(move || map.clone(), move |map| original(map, &hash, &lent.tx))
}

fn size(entry: (&str, Call, Original), count: usize, worst: Lent, honest: Lent) -> Size {
    let (_, call, original) = entry;
    Size::new(count, EXCLUSIONS_BYTES + worst.tx.len(), here(call, &honest), here(call, &worst)).beside(there(original, worst))
}

/// The first entry, the last, and none; an honest call names the one in the middle, and hashes are random.
const PLACES: &[(&str, fn(usize) -> usize)] = &[("the first", |_| 0), ("the last", |n| n - 1), ("none", |n| n)];

fn place_rows(entry: (&'static str, Call, Original)) -> Vec<Row> {
    let tx = || spending(0, POINTS);
    let row = |(name, place): &(&str, fn(usize) -> usize)| {
        let worst = |n| Lent { hashes: Hashes::LastByte, entries: n, place: place(n), tx: tx() };
        let honest = |n| Lent { hashes: Hashes::Random, entries: n, place: n / 2, tx: tx() };
        Row::new(entry.0, format!("{name}, all but the last byte alike"), ENTRIES, |n| size(entry, n, worst(n), honest(n)))
    };
    PLACES.iter().map(row).collect()
}

/// A transaction of so many bytes: in witnesses of no bytes, beside one of witnesses of 85 bytes.
fn large_rows(entry: (&'static str, Call, Original)) -> Row {
    let tx = |bytes: usize, each: usize| Tx { witnesses: vec![counted(&vec![0; each]); bytes / (8 + each)], ..Tx::default() }.bytes();
    let lent = |bytes, each| Lent { hashes: Hashes::Random, entries: 32, place: 0, tx: tx(bytes, each) };
    Row::new(entry.0, "a transaction of witnesses of no bytes", [MOST / 4, MOST / 2, MOST], |n| size(entry, n, lent(n, 0), lent(n, 85)))
}

/// A transaction with too many inputs: 15.
fn many_inputs_row() -> Row {
    let lent = |count| Lent { hashes: Hashes::Random, entries: 32, place: 0, tx: spending(0, count) };
    let honest = |_| Lent { hashes: Hashes::Random, entries: 32, place: 0, tx: spending(0, POINTS) };
    Row::new(ADD.0, "a transaction with more inputs than there is room for (15)", [750, 1_500, 3_000], |n| size(ADD, n, lent(n), honest(n)))
}

pub fn rows() -> Vec<Row> {
    let mut rows = place_rows(ADD);
    rows.push(large_rows(ADD));
    rows.push(many_inputs_row());
    rows.extend(place_rows(COMMIT));
    rows.extend(place_rows(REMOVE));
    rows.extend(place_rows(MIGRATE));
    rows.push(large_rows(MIGRATE));
    let all = |n, hashes| Lent { hashes, entries: n, place: 0, tx: vec![] };
    rows.extend([TRUNCATE, APPLY].map(|entry| {
        let size = |n| size(entry, n, all(n, Hashes::LastByte), all(n, Hashes::Random));
        Row::new(entry.0, "all entries, all but the last byte alike", ENTRIES, size)
    }));
    rows
}
