//! Times the calls on full tables, and base transactions, here and in the original, in turns: see bench/tables.
mod library;
mod stack;

use library::{Base, EXCLUSIONS_BYTES, HELD_BYTES};
use oracle::original::exclusions::Map;
use oracle::original::request::{Answer, Request};
use oracle::original::{holds, Point};
use oracle::selftest::{data, output, script, tx};
use oracle::standins::molecule::write_table;
use oracle::standins::packed::{CellDep, OutPoint, Transaction};
use stack::stack_use;
use std::collections::HashSet;
use std::hint::black_box;
use std::time::Instant;

/// Out points that differ in their hash, with indexes from 0 to 3.
fn point(i: u32) -> Point {
    let mut bytes = [7u8; 36];
    bytes[..4].copy_from_slice(&i.wrapping_mul(2_654_435_761).to_le_bytes());
    bytes[32..].copy_from_slice(&(i % 4).to_le_bytes());
    bytes
}

fn points(of: std::ops::Range<u32>) -> Vec<Point> {
    of.map(point).collect()
}

fn list(points: &[Point]) -> Vec<u8> {
    [&(points.len() as u32).to_le_bytes()[..], &points.concat()].concat()
}

fn parsed(points: &[Point]) -> Vec<OutPoint> {
    points.iter().map(|p| OutPoint::read(p).unwrap()).collect()
}

/// A transaction of version 0 with these inputs and nothing else.
fn spending(cells: &[Point]) -> Vec<u8> {
    let inputs: Vec<u8> = cells.iter().flat_map(|p| [&[0u8; 8][..], p].concat()).collect();
    let (raw, all) = (52 + inputs.len() as u32, 64 + 4 + inputs.len() as u32);
    let (outputs, data) = (40 + inputs.len() as u32 + 4, 40 + inputs.len() as u32 + 8);
    let words = |w: &[u32]| w.iter().flat_map(|w| w.to_le_bytes()).collect::<Vec<u8>>();
    let head = words(&[all, 12, 12 + raw, raw, 28, 32, 36, 40, outputs, data, 0, 0, 0, cells.len() as u32]);
    [head, inputs, words(&[4, 4, 4])].concat()
}

/// The least time of many rounds, ours and the original's by turns; each call has a table of its own, made before the clock starts.
fn by_turns<A, B>(name: &str, ours: impl Fn() -> A, call: impl Fn(&mut A), theirs: impl Fn() -> B, original: impl Fn(&mut B)) {
    let (mut here, mut there) = (f64::MAX, f64::MAX);
    for _ in 0..2_000 {
        let mut a = ours();
        let start = Instant::now();
        call(black_box(&mut a));
        here = here.min(start.elapsed().as_secs_f64());
        let mut b = theirs();
        let start = Instant::now();
        original(black_box(&mut b));
        there = there.min(start.elapsed().as_secs_f64());
    }
    println!("{name:<46} {:>9.2} {:>13.2} {:>6.2}", here * 1e6, there * 1e6, here / there);
}

fn filled(cells: &[u8]) -> Vec<u8> {
    let mut held = vec![0; HELD_BYTES];
    assert_eq!(library::hold_funding(&mut held, 1, cells), 0);
    held
}

/// Base transactions: a small one, one that picks token cells behind present inputs, and one with many cell deps.
fn bases() {
    let (lock, source, udt) = (script(0, 20), script(1, 20), script(2, 32));
    let amount = |n: u128| data(&n.to_le_bytes());
    let outputs = [output(100_0000_0000, &lock, Some(&udt)), output(61_0000_0000, &source, None)];
    let funded = tx(2, &outputs, &[amount(5), data(b"")], 2, &[]);
    let dep = |n: u32| [&[7; 32][..], &n.to_le_bytes(), &[0]].concat();
    let deps = |n: u32| [&n.to_le_bytes()[..], &(0..n).flat_map(dep).collect::<Vec<u8>>()].concat();
    let parsed_deps = |n: u32| (0..n).map(|i| CellDep::read(&dep(i)).unwrap()).collect::<Vec<_>>();
    for (name, ours, typed, cells, extra) in [
        ("base: from none, untyped, 2 deps", &[][..], false, 0, 2),
        ("base: funded, typed, 64 token cells", &funded[..], true, 64, 2),
        ("base: from none, untyped, 3,000 deps", &[], false, 0, 3000),
    ] {
        let picks: Vec<(OutPoint, Vec<u8>)> = parsed(&points(0..cells)).into_iter().map(|p| (p, 10u128.to_le_bytes().to_vec())).collect();
        let cell = |(point, data): &(OutPoint, Vec<u8>)| write_table(&[point.as_slice(), &[&16u32.to_le_bytes()[..], data].concat()]);
        let cell_list = write_table(&picks.iter().map(cell).collect::<Vec<_>>());
        let (extra_list, token_deps, lock_dep) = (deps(extra), deps(1), dep(9));
        let base = Base {
            ours,
            lock: lock.as_slice(),
            udt: if typed { udt.as_slice() } else { &[] },
            source: source.as_slice(),
            cells: &cell_list,
            udt_deps: &token_deps,
            lock_dep: &lock_dep,
            extra_deps: &extra_list,
            local: 10 * u64::from(cells) + 5 * u64::from(cells == 0) - u64::from(cells > 0),
            reserved: 7,
        };
        let request = Request {
            ours: Transaction::read(ours),
            lock: lock.clone(),
            udt: typed.then(|| udt.clone()),
            source: source.clone(),
            local: base.local.into(),
            local_reserved: base.reserved,
            cells: picks,
            at_once: 64,
            udt_deps: Some(parsed_deps(1)),
            lock_dep: CellDep::read(&lock_dep),
            extra_deps: parsed_deps(extra),
            ..Default::default()
        };
        by_turns(
            name,
            || vec![0u8; 133_116],
            |out| assert_eq!(library::build_base(&base, out), 0),
            || (),
            |_| assert!(matches!(black_box(request.base_in_any_order()), Answer::Done(_))),
        );
    }
}

fn main() {
    println!("{:<46} {:>9} {:>13} {:>6}", "", "here (us)", "original (us)", "ratio");
    let none = list(&[]);
    let room = || vec![0u8; 4 + 36 * 256];
    for (name, records, picks, answer) in [
        ("take: 256 records, 64 picks, all held", 256, 0..64, 0),
        ("take: 192 records, 64 picks, all free", 192, 1000..1064, 0),
        ("take: 256 records, 64 picks, all free (14)", 256, 1000..1064, 14),
    ] {
        let (cells, picks) = (points(0..records), points(picks));
        let (table, pick_list, pick_values, spent) = (filled(&list(&cells)), list(&picks), parsed(&picks), HashSet::new());
        by_turns(
            name,
            || (table.clone(), room(), room()),
            |(held, taken, refused)| assert_eq!(library::take(held, &pick_list, &none, false, 2, 5, taken, refused), answer),
            || {
                holds::reset();
                holds::hold_funding(1, &cells);
                pick_values.clone()
            },
            |picks| {
                black_box(holds::take_parsed(std::mem::take(picks), &spent, Some(2), 5));
            },
        );
    }
    let (cells, fewer) = (points(0..256), points(0..192));
    let (table, fewer_list) = (filled(&list(&cells)), list(&fewer));
    by_turns(
        "hold_funding: 192 cells for 256 held",
        || table.clone(),
        |held| assert_eq!(library::hold_funding(held, 1, &fewer_list), 0),
        || {
            holds::reset();
            holds::hold_funding(1, &cells);
            parsed(&fewer)
        },
        |cells| holds::hold_funding_parsed(1, std::mem::take(cells)),
    );
    by_turns(
        "lock_held: 256 records",
        || (table.clone(), room()),
        |(held, out)| assert_eq!(library::lock_held(held, 5, out), 0),
        || {
            holds::reset();
            holds::hold_funding(1, &cells);
        },
        |_| {
            black_box(holds::lock_held(5));
        },
    );
    for (name, picks, named) in [("unavailable: 256 records, 64 picks, all held", 0..64, 64), ("unavailable: 256 records, 64 picks, all free", 1000..1064, 0u32)] {
        let picks = points(picks);
        let (pick_list, pick_values, spent) = (list(&picks), parsed(&picks), HashSet::new());
        by_turns(
            name,
            room,
            |out| {
                assert_eq!(library::unavailable(&table, &pick_list, &none, 5, out), 0);
                assert_eq!(out[..4], named.to_le_bytes());
            },
            || {
                holds::reset();
                holds::hold_funding(1, &cells);
            },
            |_| assert_eq!(black_box(holds::unavailable_parsed(&pick_values, &spent, 5)).len(), named as usize),
        );
    }
    let all = list(&cells);
    for (name, before) in [("hold_for_watchtower: 256 cells, none held", false), ("hold_for_watchtower: 256 cells, all renewed", true)] {
        let mut table = vec![0; HELD_BYTES];
        if before {
            assert_eq!(library::hold_for_watchtower(&mut table, &all, 1), 0);
        }
        by_turns(
            name,
            || table.clone(),
            |held| assert_eq!(library::hold_for_watchtower(held, &all, 5), 0),
            || {
                holds::reset();
                if before {
                    holds::hold_for_watchtower(&cells, 1);
                }
                parsed(&cells)
            },
            |cells| holds::hold_for_watchtower_parsed(std::mem::take(cells), 5),
        );
    }
    let mut sent = vec![0; HELD_BYTES];
    assert_eq!(library::hold_for_watchtower(&mut sent, &all, 1), 0);
    by_turns(
        "release_for_watchtower: 256 cells of 256",
        || sent.clone(),
        |held| assert_eq!(library::release_for_watchtower(held, &all), 0),
        || {
            holds::reset();
            holds::hold_for_watchtower(&cells, 1);
            parsed(&cells)
        },
        |cells| holds::release_for_watchtower_parsed(std::mem::take(cells)),
    );
    // 64 transactions of 8 inputs each: the map is full
    let txs: Vec<([u8; 32], Vec<u8>)> = (0..64u32).map(|i| ([i as u8; 32], spending(&points(8 * i..8 * i + 8)))).collect();
    let (mut map, mut original) = (vec![0u8; EXCLUSIONS_BYTES], Map::default());
    for (hash, tx) in &txs {
        assert_eq!(library::exclusions_add(&mut map, hash, tx), 0);
        original.add(hash, tx);
    }
    let (hash, tx) = &txs[63];
    by_turns(
        "exclusions: add again, 64 transactions",
        || map.clone(),
        |m| assert_eq!(library::exclusions_add(m, hash, tx), 0),
        || original.clone(),
        |m| m.add(hash, tx),
    );
    by_turns(
        "exclusions: migrate, 64 transactions",
        || map.clone(),
        |m| assert_eq!(library::exclusions_migrate_funding_tx(m, hash, &[99; 32], tx), 0),
        || original.clone(),
        |m| m.migrate(hash, &[99; 32], tx),
    );
    by_turns(
        "exclusions: apply, 512 out points",
        || vec![0u8; 4 + 36 * 512],
        |out| assert_eq!(library::exclusions_apply(&map, out), 0),
        || (),
        |_| {
            black_box(original.apply());
        },
    );
    bases();
    let picks = list(&points(1000..1064));
    let (mut held, mut taken, mut refused) = (filled(&fewer_list), room(), room());
    let of_take = stack_use(|| assert_eq!(library::take(&mut held, &picks, &none, false, 2, 5, &mut taken, &mut refused), 0));
    // as many picks as are indexed; two lists have no room for them: 13
    let most = list(&points(1000..8394));
    let of_most = stack_use(|| assert_eq!(library::take(&mut held, &most, &none, false, 2, 5, &mut taken, &mut refused), 13));
    let of_migrate = stack_use(|| assert_eq!(library::exclusions_migrate_funding_tx(&mut map, hash, &[99; 32], tx), 0));
    println!("stack: take {of_take} bytes, of 7,394 picks {of_most}, exclusions_migrate_funding_tx {of_migrate} bytes");
}
