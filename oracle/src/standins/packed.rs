//! `ckb_types::packed`: each value is its Molecule bytes; equality and hash are those of the bytes.
use super::{
    bytes::Bytes as Raw,
    molecule::{self as m, L},
    view::{prelude::*, Capacity, CapacityError, TransactionBuilder, TransactionView},
};
use std::hash::{Hash, Hasher};
use std::marker::PhantomData;

pub trait Packed: Sized {
    /// The size of one item in a list of sized items; none for unsized ones.
    const SIZE: Option<usize>;
    fn wrap(b: Raw) -> Self;
    fn raw(&self) -> &Raw;
}
macro_rules! packed {
    ($($name:ident, $size:expr, $default:expr;)*) => {$(
        #[derive(Clone)]
        pub struct $name(Raw);
        impl Packed for $name {
            const SIZE: Option<usize> = $size;
            fn wrap(b: Raw) -> Self { $name(b) }
            fn raw(&self) -> &Raw { &self.0 }
        }
        impl $name {
            pub fn as_slice(&self) -> &[u8] { &self.0 }
            pub fn as_bytes(&self) -> Raw { self.0.clone() }
        }
        impl PartialEq for $name { fn eq(&self, o: &Self) -> bool { *self.0 == *o.0 } }
        impl Eq for $name {}
        impl Hash for $name { fn hash<H: Hasher>(&self, h: &mut H) { self.0.hash(h) } }
        impl std::fmt::Debug for $name { fn fmt(&self, f: &mut std::fmt::Formatter<'_>) -> std::fmt::Result { self.0.fmt(f) } }
        impl AsRef<[u8]> for $name { fn as_ref(&self) -> &[u8] { &self.0 } }
        impl Default for $name { fn default() -> Self { let v: Vec<u8> = $default; $name(v.into()) } }
    )*};
}
packed! {
    Uint64, Some(8), vec![0; 8];
    Byte32, Some(32), vec![0; 32];
    OutPoint, Some(36), vec![0; 36];
    CellInput, Some(44), vec![0; 44];
    CellDep, Some(37), vec![0; 37];
    Bytes, None, vec![0; 4];
    BytesOpt, None, vec![];
    Script, None, m::write_table(&[&[0u8; 32][..], &[0], &[0; 4]]);
    ScriptOpt, None, vec![];
    CellOutput, None, m::write_table(&[&[0u8; 8][..], Script::default().as_slice(), &[]]);
    WitnessArgs, None, m::write_table(&[&[0u8; 0][..], &[], &[]]);
    RawTransaction, None, m::write_table(&[&[0u8; 4][..], &[0; 4], &[0; 4], &[0; 4], &[4, 0, 0, 0], &[4, 0, 0, 0]]);
    Transaction, None, m::write_table(&[RawTransaction::default().as_slice(), &[4, 0, 0, 0]]);
}
fn field<P: Packed>(b: &Raw, i: usize) -> P {
    let (s, e) = m::part(b, i);
    P::wrap(b.slice(s, e))
}
macro_rules! readers {
    ($($name:ident $layout:expr;)*) => {$(
        impl $name {
            pub fn read(b: &[u8]) -> Option<Self> {
                let l: &L = $layout;
                m::readable(l, b).then(|| $name(b.to_vec().into()))
            }
        }
    )*};
}
readers! { Script &m::SCRIPT; CellOutput &m::OUTPUT; Transaction &m::TRANSACTION; OutPoint &L::Fixed(36); CellDep &L::Fixed(37); Byte32 &L::Fixed(32); }

/// A list: items of a fixed size behind a count, others behind offsets.
pub struct List<P>(Raw, PhantomData<P>);
pub type CellDepVec = List<CellDep>;
impl<P: Packed> Packed for List<P> {
    const SIZE: Option<usize> = None;
    fn wrap(b: Raw) -> Self {
        List(b, PhantomData)
    }
    fn raw(&self) -> &Raw {
        &self.0
    }
}
impl<P: Packed> List<P> {
    pub fn of(items: &[P]) -> Self {
        let raw: Vec<&[u8]> = items.iter().map(|p| &p.raw()[..]).collect();
        let v = match P::SIZE {
            Some(_) => m::write_fixvec(&raw),
            None if raw.is_empty() => vec![4, 0, 0, 0],
            None => m::write_table(&raw),
        };
        Self::wrap(v.into())
    }
    pub fn len(&self) -> usize {
        match P::SIZE {
            Some(_) => m::word(&self.0, 0),
            None => m::count(&self.0),
        }
    }
    pub fn is_empty(&self) -> bool {
        self.len() == 0
    }
    pub fn get(&self, i: usize) -> Option<P> {
        (i < self.len()).then(|| match P::SIZE {
            Some(n) => P::wrap(self.0.slice(4 + n * i, 4 + n * (i + 1))),
            None => field(&self.0, i),
        })
    }
}
pub struct ListIter<P>(List<P>, usize);
impl<P: Packed> Iterator for ListIter<P> {
    type Item = P;
    fn next(&mut self) -> Option<P> {
        self.1 += 1;
        self.0.get(self.1 - 1)
    }
}
impl<P: Packed> IntoIterator for List<P> {
    type Item = P;
    type IntoIter = ListIter<P>;
    fn into_iter(self) -> ListIter<P> {
        ListIter(self, 0)
    }
}

impl Bytes {
    pub fn raw_data(&self) -> Raw {
        self.0.slice(4, self.0.len())
    }
    pub fn len(&self) -> usize {
        self.0.len() - 4
    }
    pub fn is_empty(&self) -> bool {
        self.len() == 0
    }
}
impl Script {
    pub fn args(&self) -> Bytes {
        field(&self.0, 2)
    }
    pub fn occupied_capacity(&self) -> Result<Capacity, CapacityError> {
        Capacity::bytes(self.args().raw_data().len() + 32 + 1)
    }
    pub fn calc_script_hash(&self) -> Byte32 {
        Byte32(super::blake2b::blake2b_256(&self.0).to_vec().into())
    }
}
impl ScriptOpt {
    pub fn to_opt(&self) -> Option<Script> {
        (!self.0.is_empty()).then(|| Script(self.0.clone()))
    }
}
impl CellInput {
    pub fn new(previous_output: OutPoint, since: u64) -> Self {
        CellInput([&since.to_le_bytes(), previous_output.as_slice()].concat().into())
    }
    pub fn previous_output(&self) -> OutPoint {
        OutPoint(self.0.slice(8, 44))
    }
}
impl CellOutput {
    pub fn capacity(&self) -> Uint64 {
        field(&self.0, 0)
    }
    pub fn lock(&self) -> Script {
        field(&self.0, 1)
    }
    pub fn type_(&self) -> ScriptOpt {
        field(&self.0, 2)
    }
    pub fn new_builder() -> CellOutputBuilder {
        Self::default().as_builder()
    }
    pub fn as_builder(self) -> CellOutputBuilder {
        CellOutputBuilder(self.capacity(), self.lock(), self.type_())
    }
    pub fn occupied_capacity(&self, data: Capacity) -> Result<Capacity, CapacityError> {
        let type_ = match self.type_().to_opt() {
            Some(t) => t.occupied_capacity()?,
            None => Capacity::shannons(0),
        };
        Capacity::bytes(8)?.safe_add(data)?.safe_add(self.lock().occupied_capacity()?)?.safe_add(type_)
    }
}
pub struct CellOutputBuilder(Uint64, Script, ScriptOpt);
impl CellOutputBuilder {
    pub fn capacity(self, c: Uint64) -> Self {
        Self(c, self.1, self.2)
    }
    pub fn lock(self, l: Script) -> Self {
        Self(self.0, l, self.2)
    }
    pub fn type_(self, t: ScriptOpt) -> Self {
        Self(self.0, self.1, t)
    }
    pub fn build(self) -> CellOutput {
        CellOutput(m::write_table(&[&self.0 .0[..], &self.1 .0, &self.2 .0]).into())
    }
}
pub struct WitnessArgsBuilder(BytesOpt);
impl WitnessArgs {
    pub fn new_builder() -> WitnessArgsBuilder {
        WitnessArgsBuilder(BytesOpt::default())
    }
}
impl WitnessArgsBuilder {
    pub fn lock(self, b: BytesOpt) -> Self {
        Self(b)
    }
    pub fn build(self) -> WitnessArgs {
        WitnessArgs(m::write_table(&[&self.0 .0[..], &[], &[]]).into())
    }
}
impl RawTransaction {
    pub fn version(&self) -> u32 {
        m::word(&self.0, m::part(&self.0, 0).0) as u32
    }
    pub fn cell_deps(&self) -> List<CellDep> {
        field(&self.0, 1)
    }
    pub fn header_deps(&self) -> List<Byte32> {
        field(&self.0, 2)
    }
    pub fn inputs(&self) -> List<CellInput> {
        field(&self.0, 3)
    }
    pub fn outputs(&self) -> List<CellOutput> {
        field(&self.0, 4)
    }
    pub fn outputs_data(&self) -> List<Bytes> {
        field(&self.0, 5)
    }
}
impl Transaction {
    pub fn raw(&self) -> RawTransaction {
        field(&self.0, 0)
    }
    pub fn witnesses(&self) -> List<Bytes> {
        field(&self.0, 1)
    }
    pub fn serialized_size_in_block(&self) -> usize {
        self.0.len() + 4
    }
    pub fn into_view(self) -> TransactionView {
        TransactionView::new(self)
    }
    pub fn as_advanced_builder(&self) -> TransactionBuilder {
        self.clone().into_view().as_advanced_builder()
    }
    pub fn assemble(
        version: u32,
        deps: &[CellDep],
        headers: &[Byte32],
        inputs: &[CellInput],
        outputs: &[CellOutput],
        data: &[Bytes],
        witnesses: &[Bytes],
    ) -> Self {
        let raw = m::write_table(&[
            &version.to_le_bytes()[..],
            &List::of(deps).0,
            &List::of(headers).0,
            &List::of(inputs).0,
            &List::of(outputs).0,
            &List::of(data).0,
        ]);
        Transaction(m::write_table(&[&raw[..], &List::of(witnesses).0]).into())
    }
}

fn pack_bytes(b: &[u8]) -> Bytes {
    Bytes([&(b.len() as u32).to_le_bytes(), b].concat().into())
}
impl Pack<Bytes> for Raw {
    fn pack(&self) -> Bytes {
        pack_bytes(self)
    }
}
impl Pack<Bytes> for [u8] {
    fn pack(&self) -> Bytes {
        pack_bytes(self)
    }
}
impl Pack<BytesOpt> for Option<Raw> {
    fn pack(&self) -> BytesOpt {
        BytesOpt(self.as_ref().map(|b| pack_bytes(b).0).unwrap_or_default())
    }
}
impl Pack<ScriptOpt> for Option<Script> {
    fn pack(&self) -> ScriptOpt {
        ScriptOpt(self.as_ref().map(|s| s.0.clone()).unwrap_or_default())
    }
}
impl Pack<Uint64> for Capacity {
    fn pack(&self) -> Uint64 {
        Uint64(self.as_u64().to_le_bytes().to_vec().into())
    }
}
impl Unpack<u64> for Uint64 {
    fn unpack(&self) -> u64 {
        u64::from_le_bytes(self.0[..].try_into().unwrap())
    }
}
