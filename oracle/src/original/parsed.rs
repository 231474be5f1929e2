//! An update that is read already: what the original is handed. For a clock, which times its judgement without the reading.
use super::update::{Lent, Record};
use crate::ckb::funding::funding_tx::{probe, FundingContext, FundingTx};
use crate::standins::{block_on, chain::DESK, packed::*, view::TransactionView};

pub struct Parsed {
    ours: FundingTx,
    peer: TransactionView,
    context: FundingContext,
    rate: u64,
    records: Vec<Record>,
}

impl Parsed {
    /// None where a part can't be read.
    pub fn read(ours: &[u8], lent: Lent) -> Option<Parsed> {
        let udt = match lent.udt {
            [] => None,
            udt => Some(Script::read(udt)?),
        };
        let ours = match ours {
            [] => FundingTx::new(),
            ours => Transaction::read(ours)?.into(),
        };
        let context = probe::context(Script::read(lent.lock)?, udt, Script::read(lent.source)?, vec![]);
        Some(Parsed { ours, peer: Transaction::read(lent.peer)?.into_view(), context, rate: lent.rate, records: lent.records? })
    }
    /// Hands the records over, from which the original's questions are then answered.
    pub fn lend(&mut self) {
        DESK.with_borrow_mut(|d| d.live = std::mem::take(&mut self.records));
    }
    /// Whether the original accepts the update, with the records that were handed over.
    pub fn passes(&self) -> bool {
        DESK.with_borrow_mut(|d| d.asked = 0);
        let mut ours = self.ours.clone();
        block_on(ours.update_for_peer(self.peer.clone(), self.context.clone(), self.rate)).is_ok()
    }
}
