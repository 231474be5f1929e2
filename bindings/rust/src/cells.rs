//! Cells and the parts of a transaction (RFC 0019), as Rust values.
use crate::names::{DepType, H256, HashType};
use crate::{ffi, molecule};
use std::fmt;

/// Which output of which transaction: the name of a cell.
///
/// ```
/// use basinpantry::{H256, OutPoint};
///
/// let point = OutPoint { tx_hash: H256([0xab; 32]), index: 3 };
/// assert_eq!(point.to_string(), format!("0x{}:3", "ab".repeat(32)));
/// assert_eq!(point.to_string().parse(), Ok(point));
/// assert_eq!(OutPoint::from_bytes(&point.to_bytes()), Some(point));
/// ```
#[derive(Clone, Copy, Debug, Default, PartialEq, Eq, PartialOrd, Ord, Hash)]
pub struct OutPoint {
    /// The hash of the transaction.
    pub tx_hash: H256,
    /// The place among its outputs.
    pub index: u32,
}

impl OutPoint {
    /// Its 36 bytes.
    ///
    /// ```
    /// assert_eq!(basinpantry::OutPoint { tx_hash: [7; 32].into(), index: 258 }.to_bytes()[31..], [7, 2, 1, 0, 0]);
    /// ```
    pub fn to_bytes(&self) -> [u8; 36] {
        let mut out = [0; 36];
        out[..32].copy_from_slice(self.tx_hash.as_ref());
        out[32..].copy_from_slice(&self.index.to_le_bytes());
        out
    }

    /// The out point of 36 bytes; none of any other count.
    ///
    /// ```
    /// assert_eq!(basinpantry::OutPoint::from_bytes(&[0; 36]), Some(basinpantry::OutPoint::default()));
    /// assert_eq!(basinpantry::OutPoint::from_bytes(&[0; 35]), None);
    /// ```
    pub fn from_bytes(s: &[u8]) -> Option<OutPoint> {
        let s: &[u8; 36] = s.try_into().ok()?;
        let (tx_hash, index) = s.split_at(32);
        Some(OutPoint { tx_hash: H256::from_bytes(tx_hash)?, index: u32::from_le_bytes(index.try_into().ok()?) })
    }
}

impl fmt::Display for OutPoint {
    fn fmt(&self, f: &mut fmt::Formatter<'_>) -> fmt::Result {
        write!(f, "{}:{}", self.tx_hash, self.index)
    }
}

/// A text that is no out point.
///
/// ```
/// let why = "0x12:3".parse::<basinpantry::OutPoint>().unwrap_err();
/// assert_eq!(why.to_string(), "an out point is 0x, 64 hex digits, a colon and an index below 2^32");
/// ```
#[derive(Clone, Copy, Debug, PartialEq, Eq, Hash)]
#[non_exhaustive]
pub struct ParseOutPointError;

impl fmt::Display for ParseOutPointError {
    fn fmt(&self, f: &mut fmt::Formatter<'_>) -> fmt::Result {
        f.write_str("an out point is 0x, 64 hex digits, a colon and an index below 2^32")
    }
}

impl std::error::Error for ParseOutPointError {}

/// What `Display` writes, read back; capital hex digits are read too.
impl std::str::FromStr for OutPoint {
    type Err = ParseOutPointError;

    fn from_str(s: &str) -> Result<OutPoint, ParseOutPointError> {
        let read = || {
            let (hash, index) = s.split_once(':')?;
            if !index.bytes().all(|b| b.is_ascii_digit()) {
                return None;
            }
            Some(OutPoint { tx_hash: hash.parse().ok()?, index: index.parse().ok()? })
        };
        read().ok_or(ParseOutPointError)
    }
}

/// A script: a cell's lock, or its type.
///
/// ```
/// use basinpantry::{H256, HashType, Script, is_script};
///
/// let lock = Script { code_hash: H256([1; 32]), hash_type: HashType::TYPE, args: vec![2; 20] };
/// assert!(is_script(&lock.to_bytes()));
/// assert_eq!(Script::from_bytes(&lock.to_bytes()), Some(lock));
/// ```
#[derive(Clone, Debug, Default, PartialEq, Eq, Hash)]
pub struct Script {
    /// The hash by which the code is found.
    pub code_hash: H256,
    /// How it is found.
    pub hash_type: HashType,
    /// What the script is run on.
    pub args: Vec<u8>,
}

impl Script {
    /// Its bytes (RFC 0008).
    ///
    /// ```
    /// assert_eq!(basinpantry::Script::default().to_bytes().len(), 53);
    /// ```
    pub fn to_bytes(&self) -> Vec<u8> {
        molecule::table(&[self.code_hash.as_ref(), &[self.hash_type.byte()], &molecule::bytes(&self.args)])
    }

    /// The script of these bytes, if they are one.
    ///
    /// ```
    /// assert_eq!(basinpantry::Script::from_bytes(b"no script"), None);
    /// ```
    pub fn from_bytes(s: &[u8]) -> Option<Script> {
        let [code_hash, hash_type, args] = molecule::parts(s)?.try_into().ok()?;
        let [hash_type]: [u8; 1] = hash_type.try_into().ok()?;
        Some(Script { code_hash: H256::from_bytes(code_hash)?, hash_type: hash_type.into(), args: molecule::content(args)?.to_vec() })
    }
}

/// An output: a cell without its data.
///
/// ```
/// use basinpantry::{CellOutput, Script};
///
/// let output = CellOutput { capacity: 10_000_000_000, lock: Script::default(), type_: None };
/// assert_eq!(CellOutput::from_bytes(&output.to_bytes()), Some(output));
/// ```
#[derive(Clone, Debug, Default, PartialEq, Eq, Hash)]
pub struct CellOutput {
    /// In shannons.
    pub capacity: u64,
    /// Who may spend it.
    pub lock: Script,
    /// The type script; none where it is untyped.
    pub type_: Option<Script>,
}

impl CellOutput {
    /// Its bytes (RFC 0008).
    ///
    /// ```
    /// assert_eq!(basinpantry::CellOutput::default().to_bytes().len(), 77);
    /// ```
    pub fn to_bytes(&self) -> Vec<u8> {
        let type_ = self.type_.as_ref().map(Script::to_bytes).unwrap_or_default();
        molecule::table(&[&self.capacity.to_le_bytes()[..], &self.lock.to_bytes(), &type_])
    }

    /// The output of these bytes, if they are one.
    ///
    /// ```
    /// assert_eq!(basinpantry::CellOutput::from_bytes(&[]), None);
    /// ```
    pub fn from_bytes(s: &[u8]) -> Option<CellOutput> {
        let [capacity, lock, type_] = molecule::parts(s)?.try_into().ok()?;
        let type_ = if type_.is_empty() { None } else { Some(Script::from_bytes(type_)?) };
        Some(CellOutput { capacity: u64::from_le_bytes(capacity.try_into().ok()?), lock: Script::from_bytes(lock)?, type_ })
    }
}

/// An input: which cell is spent.
///
/// ```
/// use basinpantry::CellInput;
///
/// let input = CellInput { since: 7, ..CellInput::default() };
/// assert_eq!(CellInput::from_bytes(&input.to_bytes()), Some(input));
/// ```
#[derive(Clone, Copy, Debug, Default, PartialEq, Eq, PartialOrd, Ord, Hash)]
pub struct CellInput {
    /// Since when it may be spent (RFC 0017).
    pub since: u64,
    /// The cell.
    pub previous_output: OutPoint,
}

impl CellInput {
    /// Its 44 bytes.
    ///
    /// ```
    /// assert_eq!(basinpantry::CellInput { since: 258, ..Default::default() }.to_bytes()[..3], [2, 1, 0]);
    /// ```
    pub fn to_bytes(&self) -> [u8; 44] {
        let mut out = [0; 44];
        out[..8].copy_from_slice(&self.since.to_le_bytes());
        out[8..].copy_from_slice(&self.previous_output.to_bytes());
        out
    }

    /// The input of 44 bytes; none of any other count.
    ///
    /// ```
    /// assert_eq!(basinpantry::CellInput::from_bytes(&[0; 43]), None);
    /// ```
    pub fn from_bytes(s: &[u8]) -> Option<CellInput> {
        let s: &[u8; 44] = s.try_into().ok()?;
        let (since, point) = s.split_at(8);
        Some(CellInput { since: u64::from_le_bytes(since.try_into().ok()?), previous_output: OutPoint::from_bytes(point)? })
    }
}

/// A cell dep: a cell whose data a script needs.
///
/// ```
/// use basinpantry::{CellDep, DepType};
///
/// let dep = CellDep { dep_type: DepType::DEP_GROUP, ..CellDep::default() };
/// assert_eq!(CellDep::from_bytes(&dep.to_bytes()), Some(dep));
/// ```
#[derive(Clone, Copy, Debug, Default, PartialEq, Eq, PartialOrd, Ord, Hash)]
pub struct CellDep {
    /// The cell.
    pub out_point: OutPoint,
    /// Whether it is that cell, or the cells that it lists.
    pub dep_type: DepType,
}

impl CellDep {
    /// Its 37 bytes.
    ///
    /// ```
    /// assert_eq!(basinpantry::CellDep { dep_type: basinpantry::DepType::DEP_GROUP, ..Default::default() }.to_bytes()[36], 1);
    /// ```
    pub fn to_bytes(&self) -> [u8; 37] {
        let mut out = [0; 37];
        out[..36].copy_from_slice(&self.out_point.to_bytes());
        out[36] = self.dep_type.byte();
        out
    }

    /// The cell dep of 37 bytes; none of any other count.
    ///
    /// ```
    /// assert_eq!(basinpantry::CellDep::from_bytes(&[0; 36]), None);
    /// ```
    pub fn from_bytes(s: &[u8]) -> Option<CellDep> {
        let (dep_type, point) = s.split_last()?;
        Some(CellDep { out_point: OutPoint::from_bytes(point)?, dep_type: (*dep_type).into() })
    }
}

/// A cell that an input spends, as the chain has it.
///
/// ```
/// use basinpantry::{ResolvedCell, is_records, write_records};
///
/// let cell = ResolvedCell { data: 7u128.to_le_bytes().to_vec(), ..ResolvedCell::default() };
/// assert_eq!(cell.amount(), Some(7));
/// // the second input's cell is not live
/// assert!(is_records(&write_records(&[Some(cell), None])));
/// ```
#[derive(Clone, Debug, Default, PartialEq, Eq, Hash)]
pub struct ResolvedCell {
    /// The output.
    pub output: CellOutput,
    /// Its data.
    pub data: Vec<u8>,
}

impl ResolvedCell {
    /// Its first 16 data bytes as an amount of tokens (RFC 0025); none where it has fewer. Whether the cell is of a token's type is another matter.
    ///
    /// ```
    /// assert_eq!(basinpantry::ResolvedCell::default().amount(), None);
    /// ```
    pub fn amount(&self) -> Option<u128> {
        amount_of(&self.data)
    }
}

/// The amount of tokens that data begins with.
pub(crate) fn amount_of(data: &[u8]) -> Option<u128> {
    Some(u128::from_le_bytes(data.get(..16)?.try_into().ok()?))
}

/// The list of records that an update is judged over: for each input that the peer added its cell, or none where that is not live.
///
/// ```
/// assert_eq!(basinpantry::write_records(&[]), [4, 0, 0, 0]);
/// assert_eq!(basinpantry::write_records(&[None]), [8, 0, 0, 0, 8, 0, 0, 0]);
/// let live = std::collections::BTreeMap::from([(7, None)]);
/// assert_eq!(basinpantry::write_records(live.values()), [8, 0, 0, 0, 8, 0, 0, 0]);
/// ```
pub fn write_records<'a>(cells: impl IntoIterator<Item = &'a Option<ResolvedCell>>) -> Vec<u8> {
    let items: Vec<Vec<u8>> = cells
        .into_iter()
        .map(|cell| match cell {
            Some(cell) => record(&cell.output.to_bytes(), &cell.data),
            None => Vec::new(),
        })
        .collect();
    molecule::table(&items)
}

/// A record of an output's bytes, whatever they are, and data.
pub(crate) fn record(output: &[u8], data: &[u8]) -> Vec<u8> {
    molecule::table(&[output, &molecule::bytes(data)])
}

/// How many bytes [`record`] has.
pub(crate) fn record_size(output: &[u8], data: &[u8]) -> usize {
    16 + output.len() + data.len()
}

/// A list of out points, as the tables' calls read and write it.
pub(crate) fn write_out_points(points: &[OutPoint]) -> Vec<u8> {
    molecule::fixvec(points.iter().map(OutPoint::to_bytes))
}

/// The count that a table or a list of sized items begins with.
///
/// # Panics
/// On fewer than four bytes, which no table and no buffer for a list has.
pub(crate) fn count_of(s: &[u8]) -> usize {
    let count = s.first_chunk().expect("a table and a buffer for a list have four bytes for the count");
    ffi::size(u32::from_le_bytes(*count).into())
}

/// The out points of a list at the start of a buffer.
pub(crate) fn read_out_points(buffer: &[u8]) -> Vec<OutPoint> {
    buffer[4..].chunks_exact(36).take(count_of(buffer)).filter_map(OutPoint::from_bytes).collect()
}

#[cfg(test)]
mod tests {
    use super::{H256, OutPoint, ParseOutPointError};

    #[test]
    fn out_points_as_text() {
        let mut tx_hash = [0; 32];
        for (i, byte) in tx_hash.iter_mut().enumerate() {
            *byte = (i as u8).wrapping_mul(37);
        }
        for index in [0, 9, 10, u32::MAX] {
            let point = OutPoint { tx_hash: H256(tx_hash), index };
            assert_eq!(point.to_string().parse(), Ok(point));
            assert_eq!(point.to_string().replace('a', "A").parse(), Ok(point));
        }
        let hash = "0a".repeat(32);
        for text in [
            String::new(),
            "0x:0".to_string(),
            format!("{hash}:0"),
            format!("0x{hash}"),
            format!("0x{hash}:"),
            format!("0x{hash}:+1"),
            format!("0x{hash}:1 "),
            format!("0x{hash}:4294967296"),
            format!("0x{}:0", &hash[1..]),
            format!("0x0{hash}:0"),
            format!("0x{}g:0", &hash[1..]),
            format!("0x{}é:0", &hash[2..]),
        ] {
            assert_eq!(text.parse::<OutPoint>(), Err(ParseOutPointError), "{text}");
        }
    }
}
