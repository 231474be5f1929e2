//! The original's `LiveCellsExclusionMap`. A transaction's hash is lent: the stand-in for hashing answers with it.
use super::{plain, Point};
use crate::ckb::funding::funding_tx::{probe, FundingTx, LiveCellsExclusionMap};
use crate::standins::{chain::DESK, packed::*};
use std::collections::BTreeMap;

pub type Hash = [u8; 32];

/// By hash: the block of its commitment, and what it spends.
pub type Entries = BTreeMap<Hash, (Option<u64>, Vec<Point>)>;

#[derive(Clone, Default)]
pub struct Map(LiveCellsExclusionMap);

fn hash(h: &Hash) -> Byte32 {
    Byte32::read(h).unwrap()
}
/// From readable bytes, empty for none.
fn funding(tx: &[u8]) -> FundingTx {
    match tx {
        [] => FundingTx::new(),
        _ => Transaction::read(tx).unwrap().into(),
    }
}
fn with_hash(h: &Hash, call: impl FnOnce()) {
    DESK.with_borrow_mut(|d| d.hash = Some(*h));
    call();
    DESK.with_borrow_mut(|d| d.hash = None);
}

impl Map {
    pub fn add(&mut self, h: &Hash, tx: &[u8]) {
        with_hash(h, || self.0.add_funding_tx(&funding(tx)))
    }
    /// Under the transaction's own hash, which is the answer.
    pub fn add_by_itself(&mut self, tx: &[u8]) -> Option<Hash> {
        let tx = funding(tx);
        self.0.add_funding_tx(&tx);
        tx.as_ref().map(|t| t.hash().as_slice().try_into().unwrap())
    }
    pub fn commit(&mut self, h: &Hash, block: u64) {
        self.0.commit(&hash(h), block)
    }
    pub fn remove(&mut self, h: &Hash) {
        self.0.remove(&hash(h))
    }
    pub fn migrate(&mut self, old: &Hash, new: &Hash, tx: &[u8]) {
        with_hash(new, || self.0.migrate_funding_tx(&hash(old), &funding(tx)))
    }
    pub fn migrate_by_itself(&mut self, old: &Hash, tx: &[u8]) {
        self.0.migrate_funding_tx(&hash(old), &funding(tx))
    }
    pub fn truncate(&mut self, tip: u64) {
        self.0.truncate(tip)
    }
    /// In an order that the original leaves open, but for that of one transaction's.
    pub fn apply(&self) -> Vec<Point> {
        let mut collector = probe::Lent::default();
        self.0.apply(&mut collector).unwrap();
        collector.locked.iter().map(plain).collect()
    }
    pub fn entries(&self) -> Entries {
        let plain_hash = |h: &Byte32| h.as_slice().try_into().unwrap();
        probe::entries(&self.0).iter().map(|(h, c, o)| (plain_hash(h), (*c, o.iter().map(plain).collect()))).collect()
    }
}
