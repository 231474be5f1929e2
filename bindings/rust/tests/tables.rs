//! The tables of cells: the known outcomes, limits, and that any content is safe.
use basinpantry::{
    CellInput, H256, HELD_BYTES, HeldCells, LiveCellsExclusion, LiveCellsExclusionMap, OutPoint, Owner, Refusal, Taken, Taker, Transaction,
};

fn point(index: u32) -> OutPoint {
    OutPoint { tx_hash: H256([7; 32]), index }
}

fn points(from: u32, to: u32) -> Vec<OutPoint> {
    (from..to).map(point).collect()
}

/// A transaction that spends these.
fn spends(cells: &[OutPoint]) -> Vec<u8> {
    let inputs = cells.iter().map(|cell| CellInput { since: 0, previous_output: *cell }).collect();
    Transaction { inputs, ..Transaction::default() }.to_bytes()
}

#[test]
fn held_by_the_watchtower() {
    let mut held = HeldCells::new();
    held.hold_for_watchtower(&[point(0)], 1_000).unwrap();
    // busy at 1,800,999, free at 1,801,000
    assert_eq!(held.unavailable(&[point(0)], &[], 1_800_999).unwrap(), [point(0)]);
    assert_eq!(held.unavailable(&[point(0)], &[], 1_801_000).unwrap(), []);
    let busy = held.clone().take(&[point(0)], &[], Taker::Funding(1), 1_800_999).unwrap();
    assert_eq!(busy, Taken { taken: vec![], refused: vec![point(0)] });
    let free = held.clone().take(&[point(0)], &[], Taker::Funding(1), 1_801_000).unwrap();
    assert_eq!(free, Taken { taken: vec![point(0)], refused: vec![] });
    assert_eq!(held.clone().lock_held(1_800_999), [point(0)]);
    assert_eq!(held.lock_held(1_801_000), []);
    // the ended record is gone, not only passed over
    assert_eq!(held.lock_held(0), []);
}

#[test]
fn pick_a_a_b() {
    let (a, b) = (point(0), point(1));
    for taker in [Taker::Funding(3), Taker::Watchtower] {
        let mut held = HeldCells::new();
        assert_eq!(held.take(&[a, a, b], &[], taker, 50).unwrap(), Taken { taken: vec![a, b], refused: vec![a] });
        assert_eq!(held.lock_held(50), [a, b]);
        // and again: both are held now, by whomever they are asked for
        assert_eq!(held.take(&[b, a], &[], Taker::Funding(3), 50).unwrap(), Taken { taken: vec![], refused: vec![b, a] });
    }
    let mut held = HeldCells::new();
    assert_eq!(held.take(&[a, b], &[b], Taker::Funding(3), 50).unwrap(), Taken { taken: vec![a], refused: vec![b] });
    assert_eq!(held.take(&[], &[], Taker::Funding(3), 50).unwrap(), Taken::default());
}

#[test]
fn a_holder_holds_its_last_list() {
    let mut held = HeldCells::new();
    held.hold_funding(1, &points(0, 2)).unwrap();
    held.hold_funding(2, &points(2, 3)).unwrap();
    held.hold_funding(1, &points(3, 4)).unwrap();
    assert_eq!(held.lock_held(0), points(2, 4));
    held.hold_funding(2, &[]).unwrap();
    assert_eq!(held.lock_held(0), points(3, 4));
    // a funding is not the watchtower's to release, and has no end
    held.release_for_watchtower(&points(3, 4)).unwrap();
    assert_eq!(held.lock_held(u64::MAX), points(3, 4));
}

#[test]
fn at_most_256_holds() {
    let mut held = HeldCells::new();
    held.hold_funding(1, &points(0, 255)).unwrap();
    held.hold_for_watchtower(&points(255, 256), 0).unwrap();
    let full = held.clone();
    assert_eq!(held.hold_for_watchtower(&points(256, 257), 5), Err(Refusal::TooManyHolds));
    assert_eq!(held.hold_funding(2, &points(256, 257)), Err(Refusal::TooManyHolds));
    assert_eq!(held.take(&points(256, 257), &[], Taker::Funding(2), 5), Err(Refusal::TooManyHolds));
    // two picks where the ended record leaves room for one: refused, and the ended one stays
    assert_eq!(held.take(&points(256, 258), &[], Taker::Funding(2), 1_800_000), Err(Refusal::TooManyHolds));
    assert_eq!(held.as_bytes(), full.as_bytes());
    assert_eq!(held.take(&points(256, 257), &[], Taker::Funding(2), 1_800_000).unwrap().taken, points(256, 257));
    assert_eq!(held.lock_held(1_800_000).len(), 256);
}

#[test]
fn committed_and_dropped() {
    let mut map = LiveCellsExclusionMap::new();
    map.add(&H256([1; 32]), Some(&spends(&points(0, 2)))).unwrap();
    map.add(&H256([2; 32]), Some(&spends(&points(2, 3)))).unwrap();
    map.commit(&H256([1; 32]), 100);
    for tip in [99, 112] {
        map.truncate(tip);
        assert_eq!(map.apply(), points(0, 3), "{tip}");
    }
    map.truncate(113);
    // the pending one stays
    assert_eq!(map.apply(), points(2, 3));
    // entered again it is pending again
    map.commit(&H256([2; 32]), 200);
    map.add(&H256([2; 32]), Some(&spends(&points(5, 6)))).unwrap();
    map.truncate(u64::MAX);
    assert_eq!(map.apply(), points(5, 6));
    map.commit(&H256([2; 32]), u64::MAX);
    map.truncate(u64::MAX);
    assert_eq!(map.apply(), points(5, 6));
}

#[test]
fn migrated() {
    let mut map = LiveCellsExclusionMap::new();
    map.add(&H256([1; 32]), Some(&spends(&points(0, 1)))).unwrap();
    map.add(&H256([2; 32]), Some(&spends(&points(1, 2)))).unwrap();
    map.migrate_funding_tx(&H256([1; 32]), &H256([3; 32]), Some(&spends(&points(2, 3)))).unwrap();
    assert_eq!(map.apply(), points(1, 3));
    // an unknown hash changes nothing, but its transaction is read
    let before = map.clone();
    map.migrate_funding_tx(&H256([1; 32]), &H256([4; 32]), Some(&spends(&points(9, 10)))).unwrap();
    assert_eq!(map.migrate_funding_tx(&H256([1; 32]), &H256([4; 32]), Some(&[1])), Err(Refusal::OurTransactionUnreadable));
    assert_eq!(map.migrate_funding_tx(&H256([1; 32]), &H256([4; 32]), Some(&[])), Err(Refusal::OurTransactionUnreadable));
    assert_eq!(map.as_bytes(), before.as_bytes());
    map.migrate_funding_tx(&H256([2; 32]), &H256([4; 32]), None).unwrap();
    assert_eq!(map.apply(), points(2, 3));
    map.remove(&H256([3; 32]));
    assert_eq!(map.apply(), []);
}

#[test]
fn at_most_64_transactions_and_512_out_points() {
    let mut map = LiveCellsExclusionMap::new();
    for i in 0..64u8 {
        map.add(&H256([i; 32]), Some(&spends(&points(8 * u32::from(i), 8 * u32::from(i) + 8)))).unwrap();
    }
    assert_eq!(map.apply(), points(0, 512));
    let full = map.clone();
    assert_eq!(map.add(&H256([64; 32]), Some(&spends(&[]))), Err(Refusal::TooManyExclusions));
    assert_eq!(map.add(&H256([63; 32]), Some(&spends(&points(504, 513)))), Err(Refusal::TooManyExclusions));
    assert_eq!(map.as_bytes(), full.as_bytes());
    map.add(&H256([63; 32]), Some(&spends(&points(504, 511)))).unwrap();
    assert_eq!(map.apply(), points(0, 511));
}

#[test]
fn damaged_tables() {
    let mut bytes = vec![0xff; HELD_BYTES];
    let mut held = HeldCells::from_bytes(&bytes).unwrap();
    // a count above 256 counts as 256, and a kind that is not 0 is the watchtower
    assert_eq!(held.len(), 256);
    assert!(held.records().all(|hold| hold.owner == Owner::Watchtower { end: u64::MAX }));
    assert_eq!(held.lock_held(5), held.records().map(|hold| hold.out_point).collect::<Vec<_>>());
    assert_eq!(held.len(), 256);
    assert!(held.unavailable(&points(0, 3), &[], 5).is_ok());
    assert!(held.take(&points(0, 3), &[], Taker::Watchtower, u64::MAX).is_ok());
    bytes.push(0);
    assert!(HeldCells::from_bytes(&bytes).is_none());
    // an exclusion map is read strictly: the count, the kind and the block of a pending entry, and the counts of out points
    let mut map = LiveCellsExclusionMap::new();
    map.add(&H256([1; 32]), Some(&spends(&points(0, 3)))).unwrap();
    map.add(&H256([2; 32]), Some(&spends(&points(3, 5)))).unwrap();
    let bytes = map.as_bytes();
    let with = |at: usize, byte: u8| {
        let mut bytes = bytes.to_vec();
        bytes[at] = byte;
        LiveCellsExclusionMap::from_bytes(&bytes)
    };
    assert!(with(0, 2).is_some() && with(0, 65).is_none() && with(3, 1).is_none());
    for at in 36..40 {
        assert!(with(at, 2).is_none());
    }
    assert!(with(36, 1).is_some());
    for at in 40..48 {
        assert!(with(at, 1).is_none());
    }
    assert!(with(50, 1).is_none());
    // where it is a map, its entries are the library's
    let mut maps = 0;
    for at in 0..4 + 2 * 48 + 5 * 36 {
        for map in [0, 1, 2, 3, 64, 0xff].into_iter().filter_map(|byte| with(at, byte)) {
            assert_eq!(map.entries().flat_map(|entry| entry.input_out_points).collect::<Vec<_>>(), map.apply(), "{at}");
            maps += 1;
        }
    }
    assert!(maps > 1000, "{maps}");
    // what stands in a hash, in an out point or behind the entries is any bytes
    for at in [4, 35, 52, 87, 4 + 2 * 48 + 5 * 36, bytes.len() - 1] {
        assert!(with(at, 0xff).is_some());
    }
    assert!(LiveCellsExclusionMap::from_bytes(&bytes[1..]).is_none());
    assert!(LiveCellsExclusionMap::from_bytes(&vec![0xff; bytes.len()]).is_none());
}

#[test]
fn a_hash_that_stands_twice() {
    let mut map = LiveCellsExclusionMap::new();
    for i in 0..4u8 {
        map.add(&H256([i; 32]), Some(&spends(&points(u32::from(i), u32::from(i) + 1)))).unwrap();
    }
    // entry 2 gets the hash of entry 1
    let mut bytes = map.as_bytes().to_vec();
    bytes[4 + 2 * 84..][..32].fill(1);
    let twice = LiveCellsExclusionMap::from_bytes(&bytes).unwrap();
    let cells = |of: &[u32]| of.iter().map(|i| point(*i)).collect::<Vec<OutPoint>>();
    let mut map = twice.clone();
    map.remove(&H256([1; 32]));
    assert_eq!(map.apply(), cells(&[0, 3]));
    let mut map = twice.clone();
    map.add(&H256([1; 32]), Some(&spends(&points(10, 12)))).unwrap();
    assert_eq!(map.apply(), cells(&[0, 10, 11, 2, 3]));
    let mut map = twice.clone();
    map.migrate_funding_tx(&H256([1; 32]), &H256([0; 32]), Some(&spends(&points(10, 12)))).unwrap();
    assert_eq!(map.apply(), cells(&[10, 11, 3]));
    let mut map = twice.clone();
    map.commit(&H256([1; 32]), 5);
    map.truncate(18);
    assert_eq!(map.apply(), cells(&[0, 3]));
}

#[test]
fn kept_and_taken_up_again() {
    let mut held = HeldCells::new();
    held.hold_funding(9, &points(0, 3)).unwrap();
    let mut again = HeldCells::from_bytes(held.as_bytes()).unwrap();
    assert_eq!(again.lock_held(0), points(0, 3));
    let mut map = LiveCellsExclusionMap::new();
    map.add(&H256([1; 32]), Some(&spends(&points(0, 3)))).unwrap();
    let again = LiveCellsExclusionMap::from_bytes(map.as_bytes()).unwrap();
    assert_eq!(again.apply(), points(0, 3));
}

/// Tables are equal by what stands in them, and are shown by it.
#[test]
fn what_stands_in_a_table() {
    let mut held = HeldCells::new();
    assert_eq!(format!("{held:?}"), "HeldCells []");
    held.hold_funding(1, &points(0, 3)).unwrap();
    held.hold_for_watchtower(&points(3, 4), 5).unwrap();
    let full = held.clone();
    let owners: Vec<Owner> = held.records().map(|hold| hold.owner).collect();
    assert_eq!(owners, [Owner::Funding(1), Owner::Funding(1), Owner::Funding(1), Owner::Watchtower { end: 1_800_005 }]);
    held.release_for_watchtower(&points(3, 4)).unwrap();
    assert_ne!(held, full);
    assert!(format!("{held:?}").contains("Funding(1)") && !format!("{held:?}").contains("Watchtower"));
    held.hold_funding(1, &[]).unwrap();
    // the bytes of the records that went are still there, and mean nothing
    assert_ne!(held.as_bytes(), HeldCells::new().as_bytes());
    assert_eq!(held, HeldCells::new());
    assert!(held.is_empty());
    // the order counts, the holder counts, and of the kind only whether it is 0
    let mut other = HeldCells::new();
    other.hold_for_watchtower(&points(3, 4), 5).unwrap();
    other.hold_funding(1, &points(0, 3)).unwrap();
    assert_ne!(other, full);
    let mut bytes = full.as_bytes().to_vec();
    bytes[4 + 3 * 48 + 36 + 2] = 9;
    assert_eq!(HeldCells::from_bytes(&bytes).unwrap(), full);
    bytes[4 + 40] ^= 1;
    assert_ne!(HeldCells::from_bytes(&bytes).unwrap(), full);

    let mut map = LiveCellsExclusionMap::new();
    assert_eq!(format!("{map:?}"), "LiveCellsExclusionMap []");
    map.add(&H256([1; 32]), Some(&spends(&points(0, 2)))).unwrap();
    map.add(&H256([2; 32]), Some(&spends(&points(2, 3)))).unwrap();
    map.commit(&H256([2; 32]), 100);
    let entry = |n: u8, committed_block_number, input_out_points| LiveCellsExclusion {
        tx_hash: H256([n; 32]),
        committed_block_number,
        input_out_points,
    };
    assert!(map.entries().eq([entry(1, None, points(0, 2)), entry(2, Some(100), points(2, 3))]));
    let full = map.clone();
    map.commit(&H256([2; 32]), 101);
    assert_ne!(map, full);
    assert!(format!("{map:?}").contains("committed_block_number: Some(101)"));
    map.remove(&H256([1; 32]));
    map.remove(&H256([2; 32]));
    assert_ne!(map.as_bytes(), LiveCellsExclusionMap::new().as_bytes());
    assert_eq!(map, LiveCellsExclusionMap::new());
    assert!(map.is_empty());
}

/// Numbers that look random and are the same in each run.
struct Numbers(u64);

impl Numbers {
    fn below(&mut self, n: u64) -> u64 {
        self.0 ^= self.0 << 13;
        self.0 ^= self.0 >> 7;
        self.0 ^= self.0 << 17;
        self.0 % n
    }

    /// Out points, repeats among them.
    fn points(&mut self) -> Vec<OutPoint> {
        let most = [3, 12, 90][self.below(3) as usize];
        (0..self.below(most)).map(|_| point(self.below(300) as u32)).collect()
    }
}

/// A hold record in a plain list: a holder's, or the watchtower's until an end.
#[derive(Clone, Copy, PartialEq)]
enum Hold {
    Funding(u64, OutPoint),
    Watchtower(OutPoint, u64),
}

impl Hold {
    fn point(&self) -> OutPoint {
        match self {
            Hold::Funding(_, point) | Hold::Watchtower(point, _) => *point,
        }
    }

    fn record(&self) -> basinpantry::Hold {
        let owner = match *self {
            Hold::Funding(holder, _) => Owner::Funding(holder),
            Hold::Watchtower(_, end) => Owner::Watchtower { end },
        };
        basinpantry::Hold { out_point: self.point(), owner }
    }

    fn unended(&self, time: u64) -> bool {
        match self {
            Hold::Funding(..) => true,
            Hold::Watchtower(_, end) => *end > time,
        }
    }
}

/// The list after a change, unless it would be over 256.
fn limited(list: &mut Vec<Hold>, changed: Vec<Hold>) -> Result<(), Refusal> {
    if changed.len() > 256 {
        return Err(Refusal::TooManyHolds);
    }
    *list = changed;
    Ok(())
}

#[test]
fn holds_beside_a_plain_list() {
    let mut numbers = Numbers(3);
    let (mut held, mut list): (HeldCells, Vec<Hold>) = (HeldCells::new(), Vec::new());
    let mut refused = 0;
    for _ in 0..3000 {
        let cells = numbers.points();
        let spent: Vec<OutPoint> = numbers.points().into_iter().take(5).collect();
        let time = numbers.below(4_000_000);
        let holder = numbers.below(5);
        let answer = match numbers.below(6) {
            0 => {
                let mut changed = list.clone();
                changed.retain(|hold| !matches!(hold, Hold::Funding(other, _) if *other == holder));
                changed.extend(cells.iter().map(|cell| Hold::Funding(holder, *cell)));
                let answer = limited(&mut list, changed);
                assert_eq!(held.hold_funding(holder, &cells), answer);
                answer
            }
            1 => {
                let mut changed = list.clone();
                for cell in &cells {
                    let renewed = Hold::Watchtower(*cell, time + 1_800_000);
                    match changed.iter_mut().find(|hold| matches!(hold, Hold::Watchtower(other, _) if other == cell)) {
                        Some(hold) => *hold = renewed,
                        None => changed.push(renewed),
                    }
                }
                let answer = limited(&mut list, changed);
                assert_eq!(held.hold_for_watchtower(&cells, time), answer);
                answer
            }
            2 => {
                list.retain(|hold| !matches!(hold, Hold::Watchtower(cell, _) if cells.contains(cell)));
                assert_eq!(held.release_for_watchtower(&cells), Ok(()));
                Ok(())
            }
            3 => {
                list.retain(|hold| hold.unended(time));
                let points: Vec<OutPoint> = list.iter().map(Hold::point).collect();
                assert_eq!(held.lock_held(time), points);
                Ok(())
            }
            4 => {
                let mut expected = Vec::new();
                for cell in &cells {
                    let busy = spent.contains(cell) || list.iter().any(|hold| hold.unended(time) && hold.point() == *cell);
                    if busy && !expected.contains(cell) {
                        expected.push(*cell);
                    }
                }
                assert_eq!(held.unavailable(&cells, &spent, time), Ok(expected));
                Ok(())
            }
            _ => {
                let taker = if holder == 0 { Taker::Watchtower } else { Taker::Funding(holder) };
                let mut changed = list.clone();
                changed.retain(|hold| hold.unended(time));
                let mut expected = Taken::default();
                for cell in &cells {
                    if spent.contains(cell) || changed.iter().any(|hold| hold.point() == *cell) {
                        expected.refused.push(*cell);
                    } else {
                        expected.taken.push(*cell);
                        changed.push(match taker {
                            Taker::Watchtower => Hold::Watchtower(*cell, time + 60_000),
                            Taker::Funding(holder) => Hold::Funding(holder, *cell),
                        });
                    }
                }
                let answer = limited(&mut list, changed);
                assert_eq!(held.take(&cells, &spent, taker, time), answer.map(|()| expected));
                answer
            }
        };
        refused += usize::from(answer.is_err());
        // every record is there, the ended ones too
        let all: Vec<OutPoint> = list.iter().map(Hold::point).collect();
        assert_eq!(held.clone().lock_held(0), all);
        assert!(held.records().eq(list.iter().map(Hold::record)));
        assert_eq!((held.len(), held.is_empty()), (list.len(), list.is_empty()));
    }
    assert!(refused > 20, "{refused}");
}

/// An entry of the exclusion map in a plain list: hash, block if committed, out points.
type Entry = (H256, Option<u64>, Vec<OutPoint>);

/// The entries with this one in the place of that of its hash, else last, unless they would be too many.
fn entered(mut entries: Vec<Entry>, hash: H256, cells: &[OutPoint]) -> Result<Vec<Entry>, Refusal> {
    let entry = (hash, None, cells.to_vec());
    match entries.iter_mut().find(|(other, ..)| *other == hash) {
        Some(old) => *old = entry,
        None => entries.push(entry),
    }
    let points: usize = entries.iter().map(|(.., points)| points.len()).sum();
    if entries.len() > 64 || points > 512 { Err(Refusal::TooManyExclusions) } else { Ok(entries) }
}

#[test]
fn exclusions_beside_a_plain_list() {
    let mut numbers = Numbers(4);
    let (mut map, mut list): (LiveCellsExclusionMap, Vec<Entry>) = (LiveCellsExclusionMap::new(), Vec::new());
    let mut refused = 0;
    for _ in 0..4000 {
        let hash = H256([numbers.below(80) as u8; 32]);
        let cells: Vec<OutPoint> = numbers.points().into_iter().take(20).collect();
        let tx = (numbers.below(10) > 0).then(|| spends(&cells));
        let block = numbers.below(300);
        match numbers.below(40) {
            0 => {
                list.retain(|(.., block_of, _)| block_of.is_none_or(|committed| block < committed + 13));
                map.truncate(block);
            }
            1 => {
                list.retain(|(other, ..)| *other != hash);
                map.remove(&hash);
            }
            2 | 3 => {
                for entry in list.iter_mut().filter(|(other, ..)| *other == hash) {
                    entry.1 = Some(block);
                }
                map.commit(&hash, block);
            }
            4 | 5 => {
                let new_hash = H256([numbers.below(80) as u8; 32]);
                let mut answer = Ok(());
                if list.iter().any(|(other, ..)| *other == hash) {
                    let mut changed = list.clone();
                    changed.retain(|(other, ..)| *other != hash);
                    let changed = if tx.is_some() { entered(changed, new_hash, &cells) } else { Ok(changed) };
                    answer = changed.map(|changed| list = changed);
                }
                assert_eq!(map.migrate_funding_tx(&hash, &new_hash, tx.as_deref()), answer);
                refused += usize::from(answer.is_err());
            }
            _ => {
                let answer = match tx {
                    Some(_) => entered(list.clone(), hash, &cells).map(|changed| list = changed),
                    None => Ok(()),
                };
                assert_eq!(map.add(&hash, tx.as_deref()), answer);
                refused += usize::from(answer.is_err());
            }
        }
        let points: Vec<OutPoint> = list.iter().flat_map(|(.., points)| points.clone()).collect();
        assert_eq!(map.apply(), points);
        let entries = map.entries().map(|entry| (entry.tx_hash, entry.committed_block_number, entry.input_out_points));
        assert_eq!(entries.collect::<Vec<Entry>>(), list);
        assert_eq!((map.len(), map.is_empty()), (list.len(), list.is_empty()));
    }
    assert!(refused > 20, "{refused}");
}
