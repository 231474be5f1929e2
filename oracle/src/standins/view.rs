//! `ckb_types::core`: the view of a transaction, capacities and fee rates; and the prelude's traits.
use super::{blake2b::blake2b_256, bytes::Bytes, chain::DESK, packed::*};

pub mod prelude {
    pub trait Pack<T> {
        fn pack(&self) -> T;
    }
    pub trait Unpack<T> {
        fn unpack(&self) -> T;
    }
}
#[derive(Clone, Debug)]
pub struct TransactionView {
    data: Transaction,
}
impl TransactionView {
    pub fn new(data: Transaction) -> Self {
        TransactionView { data }
    }
    pub fn data(&self) -> Transaction {
        self.data.clone()
    }
    /// The lent hash, if there is one; else the transaction's own.
    pub fn hash(&self) -> Byte32 {
        let lent = DESK.with_borrow(|d| d.hash);
        Byte32::read(&lent.unwrap_or_else(|| blake2b_256(self.data.raw().as_slice()))).unwrap()
    }
    pub fn version(&self) -> u32 {
        self.data.raw().version()
    }
    pub fn cell_deps(&self) -> List<CellDep> {
        self.data.raw().cell_deps()
    }
    pub fn cell_deps_iter(&self) -> ListIter<CellDep> {
        self.cell_deps().into_iter()
    }
    pub fn header_deps(&self) -> List<Byte32> {
        self.data.raw().header_deps()
    }
    pub fn inputs(&self) -> List<CellInput> {
        self.data.raw().inputs()
    }
    pub fn input_pts_iter(&self) -> impl Iterator<Item = OutPoint> {
        self.inputs().into_iter().map(|i| i.previous_output())
    }
    pub fn outputs(&self) -> List<CellOutput> {
        self.data.raw().outputs()
    }
    pub fn output(&self, i: usize) -> Option<CellOutput> {
        self.outputs().get(i)
    }
    /// As in ckb_types: an output without its data is a panic, which is told with the place of the caller.
    #[track_caller]
    pub fn output_with_data(&self, i: usize) -> Option<(CellOutput, Bytes)> {
        let output = self.output(i)?;
        let Some(data) = self.outputs_data().get(i) else { panic!("should be ok") };
        Some((output, data.raw_data()))
    }
    pub fn outputs_data(&self) -> List<super::packed::Bytes> {
        self.data.raw().outputs_data()
    }
    pub fn witnesses(&self) -> List<super::packed::Bytes> {
        self.data.witnesses()
    }
    pub fn as_advanced_builder(&self) -> TransactionBuilder {
        TransactionBuilder {
            version: self.version(),
            cell_deps: self.cell_deps_iter().collect(),
            header_deps: self.header_deps().into_iter().collect(),
            inputs: self.inputs().into_iter().collect(),
            outputs: self.outputs().into_iter().collect(),
            outputs_data: self.outputs_data().into_iter().collect(),
            witnesses: self.witnesses().into_iter().collect(),
        }
    }
}
#[derive(Debug)]
pub struct TransactionBuilder {
    version: u32,
    cell_deps: Vec<CellDep>,
    header_deps: Vec<Byte32>,
    inputs: Vec<CellInput>,
    outputs: Vec<CellOutput>,
    outputs_data: Vec<super::packed::Bytes>,
    witnesses: Vec<super::packed::Bytes>,
}
macro_rules! setters {
    ($($set:ident $field:ident $t:ty;)*) => {
        impl TransactionBuilder {
            $(pub fn $set(mut self, v: Vec<$t>) -> Self { self.$field = v; self })*
            pub fn build(self) -> TransactionView {
                TransactionView::new(Transaction::assemble(self.version, &self.cell_deps, &self.header_deps, &self.inputs, &self.outputs, &self.outputs_data, &self.witnesses))
            }
        }
    };
}
setters! {
    set_cell_deps cell_deps CellDep;
    set_inputs inputs CellInput;
    set_outputs outputs CellOutput;
    set_outputs_data outputs_data super::packed::Bytes;
    set_witnesses witnesses super::packed::Bytes;
}

#[derive(Clone, Copy)]
pub struct Capacity(u64);
#[derive(Debug)]
pub struct CapacityError;
impl std::fmt::Display for CapacityError {
    fn fmt(&self, f: &mut std::fmt::Formatter<'_>) -> std::fmt::Result {
        f.write_str("OccupiedCapacity: overflow")
    }
}
impl std::error::Error for CapacityError {}
impl Capacity {
    pub fn shannons(n: u64) -> Self {
        Capacity(n)
    }
    pub fn bytes(n: usize) -> Result<Self, CapacityError> {
        (n as u64).checked_mul(100_000_000).map(Capacity).ok_or(CapacityError)
    }
    pub fn as_u64(self) -> u64 {
        self.0
    }
    pub fn safe_add(self, o: Capacity) -> Result<Self, CapacityError> {
        self.0.checked_add(o.0).map(Capacity).ok_or(CapacityError)
    }
}
pub struct FeeRate(u64);
impl FeeRate {
    pub fn from_u64(n: u64) -> Self {
        FeeRate(n)
    }
    pub fn fee(self, weight: u64) -> Capacity {
        Capacity::shannons(self.0.saturating_mul(weight) / 1000)
    }
}
