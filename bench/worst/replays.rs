//! `replay`: many small updates beside a large transaction in force.
use super::bytes::*;
use super::clock::{Clock, Row, Size};
use crate::library;
use oracle::standins::molecule::write_table;

const ENTRY: &str = "replay";
const UPDATES: [usize; 3] = [2_500, 5_000, 10_000];
/// Bytes of the start for each update: 1 MB at the largest size.
const START: usize = 100;

/// What is lent: the start, and the list of updates.
struct Replay {
    start: Vec<u8>,
    updates: Vec<Vec<u8>>,
}

fn update(peer: &[u8], source: &[u8]) -> Vec<u8> {
    write_table(&[counted(peer), counted(&[4, 0, 0, 0]), counted(source), 1_000u64.to_le_bytes().to_vec()])
}
/// No transaction: 2.
fn unreadable() -> Vec<u8> {
    update(&[], &[])
}
/// The transaction of nothing, which takes back all of ours: 5.
fn refused() -> Vec<u8> {
    update(&Tx::default().bytes(), source(0).as_slice())
}
/// Of so many bytes, with the same lists as any that stand in force here.
fn accepted(tx: Vec<u8>) -> Vec<u8> {
    update(&tx, source(0).as_slice())
}

fn small() -> Tx {
    Tx::small(&lock(0))
}
fn in_small_witnesses(bytes: usize) -> Vec<u8> {
    Tx { witnesses: vec![counted(&[]); small().room(bytes, 8)], ..small() }.bytes()
}
fn in_one_witness(bytes: usize) -> Vec<u8> {
    small().filled(bytes)
}

const REPLAYS: &[(&str, fn(usize) -> Replay)] = &[
    ("unreadable updates (2), the start in small witnesses", |n| Replay { start: in_small_witnesses(START * n), updates: vec![unreadable(); n] }),
    ("unreadable updates (2), the start in one witness", |n| Replay { start: in_one_witness(START * n), updates: vec![unreadable(); n] }),
    ("refused updates (5), the start in small witnesses", |n| Replay { start: in_small_witnesses(START * n), updates: vec![refused(); n] }),
    ("refused updates (5), the start in one witness", |n| Replay { start: in_one_witness(START * n), updates: vec![refused(); n] }),
    ("an accepted one in small witnesses, then refused ones (5)", |n| Replay {
        start: vec![],
        updates: [vec![first(n)], vec![refused(); n]].concat(),
    }),
    ("accepted updates of the least size", |n| Replay { start: small().bytes(), updates: vec![accepted(small().bytes()); n] }),
];

/// Accepted from the smallest start, which stands before it: the greatest size that a peer may send, at the largest size of the list.
fn first(n: usize) -> Vec<u8> {
    accepted(in_small_witnesses(MOST / UPDATES[2] * n))
}

impl Replay {
    fn bytes(&self) -> usize {
        self.start.len() + write_table(&self.updates).len()
    }
    fn clock(self) -> Clock {
        let (list, script) = (write_table(&self.updates), lock(0));
        let mut answers = vec![0; 5 * self.updates.len()];
        Clock::steady(move || assert_eq!(library::replay(&self.start, script.as_slice(), &[], &list, &mut answers, &mut [0; 4]), 0))
    }
}

/// So many bytes in accepted updates of 1,000 bytes.
fn honest(bytes: usize) -> Replay {
    let update = accepted(small().filled(1_000));
    Replay { start: small().filled(1_000), updates: vec![update.clone(); bytes / update.len()] }
}

pub fn rows() -> Vec<Row> {
    let size = |n: usize, replay: Replay| {
        let bytes = replay.bytes();
        Size::new(n, bytes, honest(bytes).clock(), replay.clock())
    };
    REPLAYS.iter().map(|(name, replay)| Row::new(ENTRY, *name, UPDATES, |n| size(n, replay(n)))).collect()
}
