//! Our own side: the funding cell, the token cells that pay for it, and the base transaction.
use crate::cells::{CellDep, CellOutput, OutPoint};
use crate::refusal::Refusal;
use crate::transaction::MAX_TRANSACTION_BYTES;
use crate::update::whole;
use crate::{ffi, molecule};

/// What each side is to bring: an amount, of shannons where the channel is untyped and else of the token, and a reserve in shannons.
///
/// ```
/// let request = basinpantry::FundingRequest { local_amount: 5, local_reserved_ckb_amount: 7, ..Default::default() };
/// assert_eq!(request.remote_amount, 0);
/// ```
#[derive(Clone, Copy, Debug, Default, PartialEq, Eq, Hash)]
pub struct FundingRequest {
    /// Our amount.
    pub local_amount: u128,
    /// Our reserve, in shannons.
    pub local_reserved_ckb_amount: u64,
    /// The peer's amount; it is not looked at while the present transaction has no outputs.
    pub remote_amount: u128,
    /// The peer's reserve, in shannons; likewise.
    pub remote_reserved_ckb_amount: u64,
}

impl FundingRequest {
    fn figures(&self) -> [u64; 6] {
        let [local_low, local_high] = halves(self.local_amount);
        let [remote_low, remote_high] = halves(self.remote_amount);
        [local_low, local_high, self.local_reserved_ckb_amount, remote_low, remote_high, self.remote_reserved_ckb_amount]
    }
}

/// A number as two halves, the low one first.
fn halves(n: u128) -> [u64; 2] {
    [n as u64, (n >> 64) as u64]
}

/// The funding cell's figures.
///
/// ```
/// let cell = basinpantry::FundingCell { capacity: 12, token: 0 };
/// assert_eq!(cell.capacity, 12);
/// ```
#[derive(Clone, Copy, Debug, Default, PartialEq, Eq, Hash)]
pub struct FundingCell {
    /// In shannons.
    pub capacity: u64,
    /// Of the token; 0 when untyped.
    pub token: u128,
}

/// The funding cell of a request beside our present transaction, if there is one, and of this token type, if the channel has one. Refused: 1, 3, 7.
///
/// ```
/// use basinpantry::*;
///
/// let request =
///     FundingRequest { local_amount: 5, local_reserved_ckb_amount: 7, remote_amount: 11, remote_reserved_ckb_amount: 13 };
/// // there is no transaction yet, so the remote figures are not looked at
/// assert_eq!(build_funding_cell(None, None, &request), Ok(FundingCell { capacity: 12, token: 0 }));
/// let udt = Script::default().to_bytes();
/// assert_eq!(build_funding_cell(None, Some(&udt), &request), Ok(FundingCell { capacity: 7, token: 5 }));
/// ```
pub fn build_funding_cell(ours: Option<&[u8]>, udt: Option<&[u8]>, request: &FundingRequest) -> Result<FundingCell, Refusal> {
    let [capacity, token_low, token_high, _] = ffi::build_funding_cell(molecule::option(ours), molecule::option(udt), request.figures())?;
    Ok(FundingCell { capacity, token: whole(token_low, token_high) })
}

/// A token cell of ours that may be spent. The lender answers for it: that it is live, has our lock and the token's type, and is listed once.
///
/// ```
/// use basinpantry::{OutPoint, TokenCell};
///
/// let cell = TokenCell { out_point: OutPoint::default(), data: 30u128.to_le_bytes().to_vec() };
/// assert_eq!(cell.data.len(), 16);
/// ```
#[derive(Clone, Debug, Default, PartialEq, Eq, Hash)]
pub struct TokenCell {
    /// Which cell it is.
    pub out_point: OutPoint,
    /// Its data, which begins with the amount.
    pub data: Vec<u8>,
}

fn write_token_cells(cells: &[TokenCell]) -> Vec<u8> {
    let items: Vec<Vec<u8>> =
        cells.iter().map(|cell| molecule::table(&[&cell.out_point.to_bytes()[..], &molecule::bytes(&cell.data)])).collect();
    molecule::table(&items)
}

/// Which token cells are taken, and what is left of them.
///
/// ```
/// assert_eq!(basinpantry::TokenPick::default().change_output, None);
/// ```
#[derive(Clone, Debug, Default, PartialEq, Eq, Hash)]
pub struct TokenPick {
    /// How many cells are taken, from the first on.
    pub taken: usize,
    /// The tokens that are left of them.
    pub change: u128,
    /// The output that holds the change; none where nothing is left. Its data is the change in 16 bytes.
    pub change_output: Option<CellOutput>,
}

/// Picks token cells of this type in their order until their total reaches the wanted amount; without a type nothing is picked. What is left goes to a change
/// output under our source lock. Refused: 3, 12 and 10 (cell by cell), 9, and 13 where the change output would have more than 133,116 bytes.
///
/// ```
/// use basinpantry::*;
///
/// let udt = Script { code_hash: H256([2; 32]), hash_type: HashType::TYPE, args: vec![0; 32] };
/// let source = Script { code_hash: H256([1; 32]), hash_type: HashType::TYPE, args: vec![0; 20] };
/// let cell = |n: u128| TokenCell { out_point: OutPoint::default(), data: n.to_le_bytes().to_vec() };
/// let cells = [cell(30), cell(50), cell(40)];
/// let pick = |wanted| build_udt_inputs_outputs(&cells, Some(&udt.to_bytes()), &source.to_bytes(), wanted);
///
/// let picked = pick(70).unwrap();
/// assert_eq!((picked.taken, picked.change), (2, 10));
/// assert_eq!(picked.change_output.unwrap(), CellOutput { capacity: 14_200_000_000, lock: source.clone(), type_: Some(udt.clone()) });
/// assert_eq!(pick(80).unwrap().change_output, None);
/// assert_eq!(pick(121), Err(Refusal::InsufficientCells));
/// let long = Script { args: vec![0; 133_116], ..source.clone() };
/// assert_eq!(build_udt_inputs_outputs(&cells, Some(&udt.to_bytes()), &long.to_bytes(), 70), Err(Refusal::BufferTooShort));
/// ```
pub fn build_udt_inputs_outputs(cells: &[TokenCell], udt: Option<&[u8]>, source: &[u8], wanted: u128) -> Result<TokenPick, Refusal> {
    let udt = molecule::option(udt);
    // an output's table has a head of 16 bytes, its capacity and both scripts
    let mut out = vec![0; 24 + source.len() + udt.len()];
    let [taken, change_low, change_high, _] =
        ffi::build_udt_inputs_outputs(&write_token_cells(cells), udt, source, halves(wanted), &mut out)?;
    let change = whole(change_low, change_high);
    // where there is change the library fills the buffer, which is as long as the output
    let change_output = (change > 0).then(|| CellOutput::from_bytes(&out).expect("the library writes an output where there is change"));
    Ok(TokenPick { taken: ffi::size(taken), change, change_output })
}

/// What a base transaction is built from; the default has none of it.
///
/// ```
/// assert_eq!(basinpantry::BaseRequest::default().udt_deps, None);
/// ```
#[derive(Clone, Copy, Debug, Default, PartialEq, Eq, Hash)]
pub struct BaseRequest<'a> {
    /// Our present transaction, if there is one.
    pub ours: Option<&'a [u8]>,
    /// The funding lock.
    pub lock: &'a [u8],
    /// The token type, if the channel has one.
    pub udt: Option<&'a [u8]>,
    /// Our source lock, under which the change goes.
    pub source: &'a [u8],
    /// Token cells of ours that may be spent.
    pub cells: &'a [TokenCell],
    /// The token's cell deps; none: not supplied. They are needed where tokens are picked.
    pub udt_deps: Option<&'a [CellDep]>,
    /// Our source lock's cell dep; likewise.
    pub lock_dep: Option<CellDep>,
    /// Cell deps to be added.
    pub extra_deps: &'a [CellDep],
    /// The figures.
    pub request: FundingRequest,
}

/// Writes the base transaction of our own side. Refused: 1, 3, 7, 12 and 10 (cell by cell), 9, 11, 13.
///
/// ```
/// use basinpantry::*;
///
/// let lock = Script::default();
/// let source = Script { code_hash: H256([1; 32]), ..Script::default() };
/// let request = FundingRequest { local_amount: 5, local_reserved_ckb_amount: 7, ..FundingRequest::default() };
/// let base =
///     build_base(&BaseRequest { lock: &lock.to_bytes(), source: &source.to_bytes(), request, ..BaseRequest::default() }).unwrap();
/// let tx = Transaction::from_bytes(&base).unwrap();
/// assert_eq!(tx.outputs, [CellOutput { capacity: 12, lock, type_: None }]);
/// assert_eq!(tx.witnesses[0].len(), 85);
/// ```
pub fn build_base(base: &BaseRequest) -> Result<Vec<u8>, Refusal> {
    let deps = |deps: &[CellDep]| molecule::fixvec(deps.iter().map(CellDep::to_bytes));
    let cells = write_token_cells(base.cells);
    let udt_deps = base.udt_deps.map(deps).unwrap_or_default();
    let lock_dep = base.lock_dep.map(|dep| dep.to_bytes().to_vec()).unwrap_or_default();
    let extra_deps = deps(base.extra_deps);
    let mut out = vec![0; MAX_TRANSACTION_BYTES];
    let (ours, udt) = (molecule::option(base.ours), molecule::option(base.udt));
    let lent = [ours, base.lock, udt, base.source, &cells, &udt_deps, &lock_dep, &extra_deps];
    let [size, ..] = ffi::build_base(lent, base.request.figures(), &mut out)?;
    out.truncate(ffi::size(size));
    Ok(out)
}
