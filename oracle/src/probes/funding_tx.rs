// Child of funding_tx: sees its private items.
use super::*;
use crate::standins::{block_on, sdk::{traits::LiveCell, Later, Nothing}};

pub fn cell(output: packed::CellOutput, data: ckb_types::bytes::Bytes) -> PeerInputCell {
    PeerInputCell { output, data }
}
pub fn context(lock: Script, type_: Option<Script>, source: Script, extra: Vec<packed::CellDep>) -> FundingContext {
    FundingContext {
        rpc_url: String::new(),
        funding_source_lock_script: source,
        funding_source_lock_script_cell_deps: extra,
        funding_cell_lock_script: lock,
        funding_udt_type_script: type_,
    }
}
/// The surplus of an accepted update, by the original's own readers: capacity, then tokens.
pub fn surplus(local: &TransactionView, remote: &TransactionView, cells: &[PeerInputCell]) -> (u128, u128) {
    let (ckb, udt) = funding_output_delta(local, remote).unwrap();
    let added = added_peer_outputs(remote, local.outputs().len());
    let paid: u128 = cells.iter().map(|c| output_capacity(&c.output)).sum();
    let out: u128 = added.iter().map(|(o, _)| output_capacity(o)).sum();
    let tokens = match udt {
        None => 0,
        Some((t, growth)) => {
            let of = |o: &packed::CellOutput, d: &[u8]| if o.type_().to_opt() == Some(t.clone()) { read_udt_amount(d).unwrap() } else { 0 };
            let paid: u128 = cells.iter().map(|c| of(&c.output, &c.data)).sum();
            let out: u128 = added.iter().map(|(o, d)| of(o, &d.raw_data())).sum();
            paid - growth - out
        }
    };
    (paid - ckb - out, tokens)
}

/// A collector that gives the lent cells, `at_once` by each call, and notes what it is told to lock.
#[derive(Default)]
pub struct Lent {
    pub cells: std::collections::VecDeque<LiveCell>,
    pub at_once: usize,
    pub locked: Vec<packed::OutPoint>,
}
impl CellCollector for Lent {
    fn collect_live_cells_async<'a>(&'a mut self, _: &'a CellQueryOptions, _: bool) -> Later<'a, Result<(Vec<LiveCell>, u64), ckb_sdk::traits::CellCollectorError>> {
        let n = self.at_once.min(self.cells.len());
        let v: Vec<_> = self.cells.drain(..n).collect();
        Box::pin(async { Ok((v, 0)) })
    }
    fn lock_cell(&mut self, o: packed::OutPoint, _: u64) -> Result<(), ckb_sdk::traits::CellCollectorError> {
        self.locked.push(o);
        Ok(())
    }
    fn apply_tx(&mut self, _: Transaction, _: u64) -> Result<(), ckb_sdk::traits::CellCollectorError> {
        Ok(())
    }
    fn reset(&mut self) {}
}
/// Answers with the lent dep.
struct LockDep(Option<packed::CellDep>);
impl CellDepResolver for LockDep {
    fn resolve(&self, _: &Script) -> Option<packed::CellDep> {
        self.0.clone()
    }
}
/// A resolver that knows the lent dep; or the original's own over one that does, with our source lock and the extra deps, as `build_and_balance_tx` makes it.
pub fn resolver(lent: Option<packed::CellDep>, external: Option<(Script, &[packed::CellDep])>) -> Box<dyn CellDepResolver> {
    match external {
        None => Box::new(LockDep(lent)),
        Some((source, extra)) => Box::new(ExternalFundingCellDepResolver {
            default: DefaultCellDepResolver(lent),
            funding_source_lock_script: source,
            funding_source_lock_script_cell_dep: extra.first().cloned(),
        }),
    }
}
pub fn builder(ours: Option<TransactionView>, request: FundingRequest, context: FundingContext) -> FundingTxBuilder {
    FundingTxBuilder { funding_tx: FundingTx { tx: ours }, request, context }
}
/// `build_base_async`: funding cell, pick, dependencies, base, extra deps; the error through `map_tx_builder_error`.
pub fn base(b: &FundingTxBuilder, cells: &mut Lent, dep: &dyn CellDepResolver) -> Result<TransactionView, FundingError> {
    block_on(b.build_base_async(cells, dep, &Nothing, &Nothing)).map_err(map_tx_builder_error)
}
/// The pick alone, with what it pushes.
pub fn pick(b: &FundingTxBuilder, cells: &mut Lent) -> Result<(Vec<CellInput>, Vec<CellOutput>, Vec<Bytes>), FundingError> {
    let (mut i, mut o, mut d, mut deps) = (vec![], vec![], vec![], HashSet::new());
    block_on(b.build_udt_inputs_outputs(cells, &mut i, &mut o, &mut d, &mut deps)).map_err(map_tx_builder_error)?;
    Ok((i, o, d))
}
pub fn entries(m: &LiveCellsExclusionMap) -> Vec<(packed::Byte32, Option<u64>, Vec<packed::OutPoint>)> {
    m.map.iter().map(|(h, e)| (h.clone(), e.committed_block_number, e.input_out_points.clone())).collect()
}
