//! The calls that read one transaction or list, over bytes that claim much or break at their end.
use super::bytes::*;
use super::clock::{Clock, Row, Size};
use crate::library;
use oracle::case::Case;
use oracle::standins::molecule::write_table;
use std::cell::RefCell;
use std::hint::black_box;

const SIZES: [usize; 3] = [MOST / 4, MOST / 2, MOST];
/// Less than the 65,536 bytes of a case file by the items that are no records.
const CASE_SIZES: [usize; 3] = [16_000, 32_000, 64_000];

/// A call that is lent bytes, and a buffer.
pub type Call = fn(&[u8], &mut [u8]) -> u32;
/// Bytes of about so many.
type Bytes = fn(usize) -> Vec<u8>;

pub const VERSION: Call = |tx, _| library::version(tx, &mut [0; 4]);
pub const COUNT_WITNESSES: Call = |tx, _| library::item_count(tx, 5, &mut [0; 4]);
pub const CHECK_CASE: Call = |file, line| library::check_case(file, line, &mut [0; 4]);

const READ_TRANSACTIONS: &[(&str, Call)] = &[
    ("is_transaction", |tx, _| library::is_transaction(tx).into()),
    ("version", VERSION),
    ("item_count", COUNT_WITNESSES),
    ("items", places_of_witnesses),
    ("item", |tx, out| library::item(tx, 5, 0, out, &mut [0; 4])),
    ("rewrite", |tx, out| library::rewrite(tx, out, &mut [0; 4])),
    ("write_transaction", write_again),
    ("build_funding_cell", |tx, _| library::build_funding_cell(tx, &[], 5, 0, 7, 5, 0, 7, &mut [0; 4])),
];
const READ_LISTS: &[(&str, Call, &[(&str, Bytes)], Bytes)] = &[
    ("is_script", |s, _| library::is_script(s).into(), SCRIPTS, |n| token(n).as_slice().to_vec()),
    ("is_records", |s, _| library::is_records(s).into(), RECORDS, |n| write_table(&vec![usual_record(); n / 157])),
    ("is_out_points", |s, _| library::is_out_points(s).into(), OUT_POINTS, |n| fixvec(&vec![[1; 36]; n / 36])),
    ("build_udt_inputs_outputs", pick, CELLS, |n| write_table(&vec![cell(5); n / 72])),
];

/// The places of all witnesses, of which each has four bytes at least in the header. The words for them are lent again and again: to zero them takes longer than
/// a call that is refused.
fn places_of_witnesses(tx: &[u8], _: &mut [u8]) -> u32 {
    thread_local!(static WORDS: RefCell<Vec<u64>> = RefCell::new(vec![0; MOST]));
    WORDS.with_borrow_mut(|words| library::items(tx, 5, &mut words[..tx.len() / 2], &mut [0; 4]))
}
/// Behind the bytes of a transaction with an item in no list but its outputs, data and witnesses: writes it again from these lists.
fn write_again(tx: &[u8], out: &mut [u8]) -> u32 {
    let word = |at: usize| u32::from_le_bytes(tx[at..at + 4].try_into().expect("4 bytes")) as usize;
    let (raw, witnesses) = (word(4), word(8));
    let field = |i: usize| raw + word(raw + 4 + 4 * i);
    let (outputs, data) = (&tx[field(4)..field(5)], &tx[field(5)..witnesses]);
    library::write_transaction(0, &[0; 4], &[0; 4], &[0; 4], outputs, data, &tx[witnesses..], out, &mut [0; 4])
}
fn pick(cells: &[u8], out: &mut [u8]) -> u32 {
    library::build_udt_inputs_outputs(cells, token(0).as_slice(), source(0).as_slice(), 5, 0, out, &mut [0; 4])
}

// ---- transactions

/// Outputs, data and witnesses as they usually are.
fn usual(size: usize) -> Vec<u8> {
    let n = size / (101 + 24 + 93);
    let (output, data, witness) = (output(1, &source(20), None), counted(&[1; 16]), counted(&[1; 85]));
    Tx { outputs: vec![output; n], data: vec![data; n], witnesses: vec![witness; n], ..Tx::default() }.bytes()
}
fn empty_witnesses(size: usize) -> Vec<u8> {
    Tx { witnesses: vec![counted(&[]); size / 8 - 10], ..Tx::default() }.bytes()
}
/// The last word, which is the count of the last witness, is no longer right.
fn broken(mut tx: Vec<u8>) -> Vec<u8> {
    let last = tx.len() - 4;
    tx[last..].copy_from_slice(&CLAIM);
    tx
}
/// The place of the list of witnesses, behind its length.
fn offsets(tx: &[u8]) -> usize {
    u32::from_le_bytes(tx[8..12].try_into().expect("4 bytes")) as usize + 4
}
/// The first offset of the witnesses, and so their number, is as great as can be.
fn claimed_items(size: usize) -> Vec<u8> {
    let mut tx = empty_witnesses(size);
    let at = offsets(&tx);
    tx[at..at + 4].copy_from_slice(&(u32::MAX - 3).to_le_bytes());
    tx
}
/// All offsets but the last are right: it is before the one in front of it.
fn falling_offset(size: usize) -> Vec<u8> {
    let mut tx = empty_witnesses(size);
    let first = offsets(&tx);
    let items = u32::from_le_bytes(tx[first..first + 4].try_into().expect("4 bytes")) as usize / 4 - 1;
    tx.copy_within(first..first + 4, first + 4 * (items - 1));
    tx
}

const TRANSACTIONS: &[(&str, Bytes)] = &[
    ("witnesses of no bytes", empty_witnesses),
    ("witnesses of no bytes, the last unreadable", |size| broken(empty_witnesses(size))),
    ("witnesses of no bytes, the last offset falls", falling_offset),
    ("witnesses that claim 2^30 items", claimed_items),
    ("data entries of no bytes", |size| Tx { data: vec![counted(&[]); size / 8 - 10], ..Tx::default() }.bytes()),
    ("outputs of the least size", |size| Tx { outputs: vec![output(1, &peers_lock(), None); size / 81 - 1], ..Tx::default() }.bytes()),
];

// ---- lists

/// Four bytes that claim 2^32 - 1, and as many as are asked for behind them.
fn claiming(size: usize) -> Vec<u8> {
    [CLAIM.to_vec(), vec![0; size - 4]].concat()
}
/// A list of so many items whose first offset claims 2^30 - 1.
fn claiming_items(size: usize) -> Vec<u8> {
    let mut list = vec![0; size];
    list[..4].copy_from_slice(&(size as u32).to_le_bytes());
    list[4..8].copy_from_slice(&(u32::MAX - 3).to_le_bytes());
    list
}
fn usual_record() -> Vec<u8> {
    record(&output(1, &source(20), None), &[1; 16])
}
fn cell(amount: u128) -> Vec<u8> {
    write_table(&[&[1; 36][..], &counted(&amount.to_le_bytes())])
}
fn with_last(item: Vec<u8>, count: usize, last: &[u8]) -> Vec<u8> {
    let mut items = vec![item; count];
    items.push(last.to_vec());
    write_table(&items)
}

const SCRIPTS: &[(&str, Bytes)] =
    &[("a count of 2^32 - 1", claiming), ("args that claim 2^32 - 1 bytes", |n| [&lock(0).as_slice()[..49], &CLAIM, &vec![0; n]].concat())];
const RECORDS: &[(&str, Bytes)] = &[
    ("records that are not live", |n| write_table(&vec![vec![]; n / 4])),
    ("records that are not live, the last unreadable", |n| with_last(vec![], n / 4, &[1])),
    ("records of the least size", |n| write_table(&vec![record(&output(1, &peers_lock(), None), &[]); n / 97])),
    ("2^30 records claimed", claiming_items),
];
const OUT_POINTS: &[(&str, Bytes)] = &[("a count of 2^32 - 1", claiming)];
const CELLS: &[(&str, Bytes)] = &[
    ("cells of no amount (9)", |n| write_table(&vec![cell(0); n / 72])),
    ("cells of no amount, the last of no data (12)", |n| with_last(cell(0), n / 72, &write_table(&[&[1; 36][..], &[0; 4]]))),
    ("cells of no bytes (3)", |n| write_table(&vec![vec![]; n / 4])),
    ("2^30 cells claimed (3)", claiming_items),
];

// ---- case files

/// A small update with records of so many bytes.
fn usual_case(size: usize) -> Case {
    let records = vec![Some((output(200_0000_0000, &peers_lock(), None), vec![])); size / 88];
    Case {
        peer: Tx::small(&lock(0)).bytes(),
        lock: lock(0).as_slice().to_vec(),
        source: source(0).as_slice().to_vec(),
        rate: 1_000,
        records,
        ..Case::default()
    }
}
const CASES: &[(&str, Bytes)] = &[
    ("records that are not live", |n| Case { records: vec![None; n / 4], ..usual_case(0) }.write()),
    ("items that are no record", |n| [usual_case(0).write(), vec![0; n]].concat()),
    ("an item that claims 2^28 - 1 bytes", |n| [usual_case(n).write(), CLAIM.to_vec()].concat()),
];

// ---- rows

fn clock(call: Call, bytes: Vec<u8>) -> Clock {
    let mut out = vec![0; MOST];
    let answer = call(&bytes, &mut out);
    Clock::steady(move || assert_eq!(call(black_box(&bytes), &mut out), answer))
}
fn rows_of(entry: &'static str, call: Call, hostile: &[(&str, Bytes)], honest: Bytes, sizes: [usize; 3]) -> Vec<Row> {
    let size = |n: usize, bytes: Vec<u8>| Size::new(n, bytes.len(), clock(call, honest(n)), clock(call, bytes));
    hostile.iter().map(|(name, bytes)| Row::new(entry, *name, sizes, |n| size(n, bytes(n)))).collect()
}

pub fn rows() -> Vec<Row> {
    let mut rows: Vec<Row> = READ_TRANSACTIONS.iter().flat_map(|(entry, call)| rows_of(entry, *call, TRANSACTIONS, usual, SIZES)).collect();
    rows.extend(READ_LISTS.iter().flat_map(|(entry, call, hostile, honest)| rows_of(entry, *call, hostile, *honest, SIZES)));
    rows.extend(rows_of("check_case", CHECK_CASE, CASES, |n| usual_case(n).write(), CASE_SIZES));
    rows
}
