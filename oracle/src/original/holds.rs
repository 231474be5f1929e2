//! The original's table of holds. There is one for each process, behind a lock.
use super::{plain, point, Point};
use crate::ckb::{funding::funding_tx::probe::Lent, held_cells as held};
use crate::standins::packed::OutPoint;
use std::collections::{BTreeMap, BTreeSet, HashSet};

/// Its records: what each holder holds, in order, and the watchtower's cells with their ends.
#[derive(Clone, Debug, Default, PartialEq)]
pub struct Holds {
    pub funding: BTreeMap<u64, Vec<Point>>,
    pub watchtower: BTreeMap<Point, u64>,
}
impl Holds {
    pub fn count(&self) -> usize {
        self.funding.values().map(Vec::len).sum::<usize>() + self.watchtower.len()
    }
}

fn points(cells: &[Point]) -> Vec<OutPoint> {
    cells.iter().map(point).collect()
}

pub fn reset() {
    held::probe::reset()
}
pub fn load(holds: &Holds) {
    let funding = holds.funding.iter().map(|(h, v)| (*h, points(v)));
    held::probe::load(funding, holds.watchtower.iter().map(|(c, end)| (point(c), *end)))
}
pub fn dump() -> Holds {
    let (funding, watchtower) = held::probe::dump();
    let mut holds = Holds::default();
    funding.iter().for_each(|(h, o)| holds.funding.entry(*h).or_default().push(plain(o)));
    holds.watchtower = watchtower.iter().map(|(o, end)| (plain(o), *end)).collect();
    holds
}
pub fn hold_funding(holder: u64, cells: &[Point]) {
    hold_funding_parsed(holder, points(cells))
}
/// The same from a list that is parsed already.
pub fn hold_funding_parsed(holder: u64, cells: Vec<OutPoint>) {
    held::hold_funding(holder, cells)
}
pub fn hold_for_watchtower(cells: &[Point], now: u64) {
    hold_for_watchtower_parsed(points(cells), now)
}
pub fn hold_for_watchtower_parsed(cells: Vec<OutPoint>, now: u64) {
    held::hold_for_watchtower(cells, now)
}
pub fn release_for_watchtower(cells: &[Point]) {
    release_for_watchtower_parsed(points(cells))
}
pub fn release_for_watchtower_parsed(cells: Vec<OutPoint>) {
    held::release_for_watchtower(cells)
}
/// For the funding of a holder, or for the watchtower (none): the cells taken, and those refused.
pub fn take(picked: &[Point], spent: &[Point], holder: Option<u64>, now: u64) -> (Vec<Point>, Vec<Point>) {
    let (taken, refused) = take_parsed(points(picked), &points(spent).into_iter().collect(), holder, now);
    (taken.iter().map(plain).collect(), refused.iter().map(plain).collect())
}
/// The same from lists that are parsed already.
pub fn take_parsed(picked: Vec<OutPoint>, spent: &HashSet<OutPoint>, holder: Option<u64>, now: u64) -> (Vec<OutPoint>, Vec<OutPoint>) {
    held::take(picked, spent, holder.map_or(held::Taker::Watchtower, held::Taker::Funding), now)
}
/// Without order: the original answers with a set.
pub fn unavailable(picked: &[Point], spent: &[Point], now: u64) -> BTreeSet<Point> {
    unavailable_parsed(&points(picked), &points(spent).into_iter().collect(), now).iter().map(plain).collect()
}
pub fn unavailable_parsed(picked: &[OutPoint], spent: &HashSet<OutPoint>, now: u64) -> HashSet<OutPoint> {
    held::probe::look(picked, spent, now)
}
/// In an order that the original leaves open.
pub fn lock_held(now: u64) -> Vec<Point> {
    let mut collector = Lent::default();
    held::lock_held(&mut collector, now).unwrap();
    collector.locked.iter().map(plain).collect()
}
