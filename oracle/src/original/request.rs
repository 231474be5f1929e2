//! A request of our own side, put to the original: the funding cell, the token pick, the base transaction.
use super::{
    panics::{caught, Cause},
    Refusal,
};
use crate::ckb::funding::funding_tx::{probe, FundingRequest, FundingTx, FundingTxBuilder};
use crate::standins::{chain::DESK, packed::*, sdk::traits::LiveCell};

/// What the original says: an answer, a refusal, or a panic since a token cell's data is short, where the rules say 12.
pub enum Answer<T> {
    Done(T),
    Refused(Refusal),
    Panics,
}

/// The inputs, and the change output with its data, if any.
pub type Picked = (Vec<CellInput>, Option<(CellOutput, Vec<u8>)>);

/// The lent parts that were read; `ours` may be none.
#[derive(Clone, Debug, Default)]
pub struct Request {
    pub ours: Option<Transaction>,
    pub lock: Script,
    pub udt: Option<Script>,
    pub source: Script,
    pub local: u128,
    pub local_reserved: u64,
    pub remote: u128,
    pub remote_reserved: u64,
    /// Each token cell's out point and data.
    pub cells: Vec<(OutPoint, Vec<u8>)>,
    /// How many cells the collector gives at once.
    pub at_once: usize,
    pub udt_deps: Option<Vec<CellDep>>,
    pub lock_dep: Option<CellDep>,
    pub extra_deps: Vec<CellDep>,
    /// Whether the lock's dep comes from the original's own resolver, which prefers the first extra dep.
    pub external: bool,
}

impl Request {
    fn builder(&self) -> FundingTxBuilder {
        let request = FundingRequest {
            udt_type_script: self.udt.clone(),
            local_amount: self.local,
            local_reserved_ckb_amount: self.local_reserved,
            remote_amount: self.remote,
            remote_reserved_ckb_amount: self.remote_reserved,
            ..Default::default()
        };
        let context = probe::context(self.lock.clone(), self.udt.clone(), self.source.clone(), self.extra_deps.clone());
        let ours = self.ours.clone().map_or(FundingTx::new(), FundingTx::from);
        probe::builder(ours.into_inner(), request, context)
    }
    fn lent(&self) -> probe::Lent {
        let cell = |(point, data): &(OutPoint, Vec<u8>)| LiveCell {
            output: CellOutput::default(),
            out_point: point.clone(),
            output_data: data.clone().into(),
        };
        probe::Lent { cells: self.cells.iter().map(cell).collect(), at_once: self.at_once, locked: vec![] }
    }
    /// The output and its data.
    pub fn funding_cell(&self) -> Result<(CellOutput, Vec<u8>), Refusal> {
        match self.builder().build_funding_cell() {
            Ok((output, data)) => Ok((output, data.raw_data().to_vec())),
            Err(e) => Err(Refusal::from(&e)),
        }
    }
    /// A panic for another cause is no answer.
    fn panicked<T>(&self, cause: Cause) -> Answer<T> {
        let short = self.cells.iter().any(|(_, data)| data.len() < 16);
        assert!(cause == Cause::ShortTokenData && short, "{cause:?}, and the input has another");
        Answer::Panics
    }
    /// With the token's deps as they are lent: the original looks them up where the cells suffice, and fails without them.
    pub fn pick(&self) -> Answer<Picked> {
        DESK.with_borrow_mut(|d| d.udt_deps = self.udt_deps.clone());
        let (b, mut lent) = (self.builder(), self.lent());
        match caught(|| probe::pick(&b, &mut lent)) {
            Ok(Ok((inputs, outputs, data))) => {
                assert!(outputs.len() == data.len() && outputs.len() < 2);
                let data = data.first().map(|d| d.raw_data().to_vec());
                Answer::Done((inputs, outputs.into_iter().next().zip(data)))
            }
            Ok(Err(e)) => Answer::Refused(Refusal::from(&e)),
            Err(cause) => self.panicked(cause),
        }
    }
    /// The base transaction with its cell deps sorted, since the original keeps them in a hash set.
    pub fn base(&self) -> Answer<Transaction> {
        match self.base_in_any_order() {
            Answer::Done(t) => Answer::Done(sorted_deps(&t)),
            other => other,
        }
    }
    /// The base transaction as the original leaves it.
    pub fn base_in_any_order(&self) -> Answer<Transaction> {
        DESK.with_borrow_mut(|d| d.udt_deps = self.udt_deps.clone());
        let (b, mut lent) = (self.builder(), self.lent());
        let resolver = probe::resolver(self.lock_dep.clone(), self.external.then(|| (self.source.clone(), &self.extra_deps[..])));
        match caught(|| probe::base(&b, &mut lent, &*resolver)) {
            Ok(Ok(t)) => Answer::Done(t.data()),
            Ok(Err(e)) => Answer::Refused(Refusal::from(&e)),
            Err(cause) => self.panicked(cause),
        }
    }
}

/// The same transaction with its cell deps in the order of their bytes.
pub fn sorted_deps(t: &Transaction) -> Transaction {
    let mut deps: Vec<_> = t.raw().cell_deps().into_iter().collect();
    deps.sort_by(|a, b| a.as_slice().cmp(b.as_slice()));
    t.as_advanced_builder().set_cell_deps(deps).build().data()
}
