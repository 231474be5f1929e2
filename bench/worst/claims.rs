//! Counts that bytes only claim: every entry with every list that it is lent in place of which four bytes claim 2^32 - 1 items, or with this claim before the
//! list's own items. A row has the slowest of them beside the same call with honest lists.
use super::bytes::*;
use super::clock::{Clock, Row, Size};
use super::reading;
use crate::library::{self, EXCLUSIONS_BYTES, HELD_BYTES};
use oracle::standins::molecule::write_table;
use std::hint::black_box;

/// The lists that a call is lent, or a table that it works on; a buffer.
type Call = fn(&mut [Vec<u8>], &mut [u8]) -> u32;
type Entry = (&'static str, fn() -> Vec<Vec<u8>>, Call);

const ENTRIES: &[Entry] = &[
    ("is_transaction", tx, |l, _| library::is_transaction(&l[0]).into()),
    ("is_script", || vec![script()], |l, _| library::is_script(&l[0]).into()),
    ("is_records", || vec![records()], |l, _| library::is_records(&l[0]).into()),
    ("is_out_points", || vec![points()], |l, _| library::is_out_points(&l[0]).into()),
    ("version", tx, |l, out| reading::VERSION(&l[0], out)),
    ("item_count", tx, |l, out| reading::COUNT_WITNESSES(&l[0], out)),
    ("item", tx, |l, out| library::item(&l[0], 3, 0, out, &mut [0; 4])),
    ("write_transaction", lists, |l, out| library::write_transaction(0, &l[0], &l[1], &l[2], &l[3], &l[4], &l[5], out, &mut [0; 4])),
    ("rewrite", tx, |l, out| library::rewrite(&l[0], out, &mut [0; 4])),
    ("update_for_peer", update, |l, _| library::update_for_peer(&l[0], &l[1], &l[2], &l[3], &l[4], 1_000, &l[5], &mut [0; 4])),
    ("replay", replay, |l, _| library::replay(&l[0], &l[1], &l[2], &l[3], &mut [0; 5], &mut [0; 4])),
    ("check_case", case, |l, out| reading::CHECK_CASE(&l[0], out)),
    ("build_funding_cell", || vec![small(), script()], |l, _| library::build_funding_cell(&l[0], &l[1], 5, 0, 7, 5, 0, 7, &mut [0; 4])),
    ("build_udt_inputs_outputs", pick, |l, out| library::build_udt_inputs_outputs(&l[0], &l[1], &l[2], 5, 0, out, &mut [0; 4])),
    ("build_base", base, |l, out| library::build_base_of(&l[0], &l[1], &l[2], &l[3], &l[4], &l[5], &l[6], &l[7], 5, 0, 7, 5, 0, 7, out, &mut [0; 4])),
    ("hold_funding", held_and_points, |l, _| with_table(l, |held, l| library::hold_funding(held, 1, &l[0]))),
    ("hold_for_watchtower", held_and_points, |l, _| with_table(l, |held, l| library::hold_for_watchtower(held, &l[0], 5))),
    ("release_for_watchtower", held_and_points, |l, _| with_table(l, |held, l| library::release_for_watchtower(held, &l[0]))),
    ("lock_held", || vec![held()], |l, out| with_table(l, |held, _| library::lock_held(held, 5, out))),
    ("unavailable", picks, |l, out| library::unavailable(&l[0], &l[1], &l[2], 5, out)),
    ("take", picks, |l, out| {
        let (taken, refused) = out.split_at_mut(20_000);
        with_table(l, |held, l| library::take(held, &l[0], &l[1], false, 2, 5, taken, refused))
    }),
    ("exclusions_add", exclusion, |l, _| with_table(l, |map, l| library::exclusions_add(map, &HASH, &l[0]))),
    ("exclusions_commit", || vec![map()], |l, _| with_table(l, |map, _| library::exclusions_commit(map, &HASH, 5))),
    ("exclusions_remove", || vec![map()], |l, _| with_table(l, |map, _| library::exclusions_remove(map, &HASH))),
    ("exclusions_migrate_funding_tx", exclusion, |l, _| with_table(l, |map, l| library::exclusions_migrate_funding_tx(map, &HASH, &[2; 32], &l[0]))),
    ("exclusions_truncate", || vec![map()], |l, _| with_table(l, |map, _| library::exclusions_truncate(map, 5))),
    ("exclusions_apply", || vec![map()], |l, out| library::exclusions_apply(&l[0], out)),
];

/// The first list is a table that is written to.
fn with_table(lists: &mut [Vec<u8>], call: impl FnOnce(&mut [u8], &[Vec<u8>]) -> u32) -> u32 {
    let (table, rest) = lists.split_first_mut().expect("a table");
    call(table, rest)
}

// ---- honest lists

const HASH: [u8; 32] = [1; 32];

fn script() -> Vec<u8> {
    token(0).as_slice().to_vec()
}
fn small() -> Vec<u8> {
    Tx::small(&lock(0)).bytes()
}
fn tx() -> Vec<Vec<u8>> {
    vec![small()]
}
fn points() -> Vec<u8> {
    fixvec(&Hashes::Random.points(0..8))
}
fn deps() -> Vec<u8> {
    fixvec(&Hashes::Random.deps(0..8))
}
fn records() -> Vec<u8> {
    write_table(&[record(&output(1, &peers_lock(), None), &[])])
}
fn lists() -> Vec<Vec<u8>> {
    let data = || write_table(&[counted(&[])]);
    vec![deps(), fixvec(&[[1; 32]]), fixvec(&inputs(1)), write_table(&[output(1, &lock(0), None)]), data(), data()]
}
fn adding() -> Vec<u8> {
    Tx { inputs: inputs(2), ..Tx::small(&lock(0)) }.bytes()
}
fn update() -> Vec<Vec<u8>> {
    vec![small(), adding(), lock(0).as_slice().to_vec(), vec![], source(0).as_slice().to_vec(), records()]
}
fn replay() -> Vec<Vec<u8>> {
    let source = source(0).as_slice().to_vec();
    let update = write_table(&[counted(&adding()), counted(&records()), counted(&source), 1_000u64.to_le_bytes().to_vec()]);
    vec![small(), lock(0).as_slice().to_vec(), vec![], write_table(&[update])]
}
fn case() -> Vec<Vec<u8>> {
    let (lock, source) = (lock(0).as_slice().to_vec(), source(0).as_slice().to_vec());
    vec![oracle::case::Case { ours: small(), peer: small(), lock, source, ..Default::default() }.write()]
}
fn cells() -> Vec<u8> {
    write_table(&[write_table(&[&[1; 36][..], &counted(&5u128.to_le_bytes())])])
}
fn pick() -> Vec<Vec<u8>> {
    vec![cells(), script(), script()]
}
fn base() -> Vec<Vec<u8>> {
    vec![small(), script(), script(), script(), cells(), deps(), [1; 37].to_vec(), deps()]
}
/// Full: 128 cells, each held for a funding and by the watchtower.
fn held() -> Vec<u8> {
    let (mut held, cells) = (vec![0; HELD_BYTES], fixvec(&Hashes::Random.points(0..128)));
    assert_eq!(library::hold_funding(&mut held, 1, &cells), 0);
    assert_eq!(library::hold_for_watchtower(&mut held, &cells, 5), 0);
    held
}
fn held_and_points() -> Vec<Vec<u8>> {
    vec![held(), points()]
}
fn picks() -> Vec<Vec<u8>> {
    vec![held(), points(), points()]
}
fn map() -> Vec<u8> {
    let mut map = vec![0; EXCLUSIONS_BYTES];
    for i in 0..64 {
        assert_eq!(library::exclusions_add(&mut map, &[i; 32], &Tx { inputs: inputs(8), ..Tx::default() }.bytes()), 0);
    }
    map
}
fn exclusion() -> Vec<Vec<u8>> {
    vec![map(), small()]
}

// ---- rows

fn clock(call: Call, lists: Vec<Vec<u8>>) -> Clock {
    let mut out = vec![0; 40_000];
    Clock::fresh(
        move || lists.clone(),
        move |lists| {
            black_box(call(lists, &mut out));
        },
    )
}
/// In place of each list the claim alone, and the claim before the list's own items.
fn claiming(lists: &[Vec<u8>]) -> Vec<Vec<Vec<u8>>> {
    let mut all = vec![];
    for (i, list) in lists.iter().enumerate() {
        let behind = list.get(4..).unwrap_or_default();
        for claim in [CLAIM.to_vec(), [&CLAIM, behind].concat()] {
            let mut lists = lists.to_vec();
            lists[i] = claim;
            all.push(lists);
        }
    }
    all
}
fn slowest(mut clocks: Vec<Clock>) -> Clock {
    clocks.iter_mut().for_each(Clock::turn);
    clocks.into_iter().max_by(|a, b| a.best.total_cmp(&b.best)).expect("a clock")
}

pub fn rows() -> Vec<Row> {
    let size = |(_, lists, call): &Entry| {
        let (call, honest) = (*call, lists());
        let bytes = honest.iter().map(Vec::len).sum();
        Size::new(1, bytes, clock(call, honest.clone()), slowest(claiming(&honest).into_iter().map(|lists| clock(call, lists)).collect()))
    };
    ENTRIES.iter().map(|entry| Row::new("2^32 - 1 items claimed", entry.0, [1], |_| size(entry))).collect()
}
